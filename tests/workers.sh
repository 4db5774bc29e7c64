#!/usr/bin/env bash
# Neither the number of workers nor that of fixed places changes a byte of the report.
. "$(dirname "$0")/common.sh"

game_file 51 35 20 15 15 15 >"$temp/five.toml"
two_rules >"$temp/two.toml"
echo '[51; 50, 49, 1]' >"$temp/board.txt"
cp "$top/examples/ec-1986.toml" "$temp"

for game in board.txt five.toml two.toml ec-1986.toml; do
    name="$game with 1 to 16 workers and 0 to 10 bits"
    run "$temp/$game" --list --sizes --workers 1 --bits 0
    succeeded "$name" || continue
    cp "$temp/out" "$temp/wanted"
    why=
    for ((workers = 1; workers <= 16; workers++)); do
        for ((bits = 0; bits <= 10; bits++)); do
            run "$temp/$game" --list --sizes --workers "$workers" --bits "$bits"
            if [ "$status" -ne 0 ] || [ -s "$temp/err" ] || ! cmp -s "$temp/out" "$temp/wanted"; then
                why="$workers workers and $bits bits end with status $status and $(wc -c <"$temp/out") bytes"
                break 2
            fi
        done
    done
    if [ -z "$why" ]; then ok "$name"; else failed "$name" "$why"; fi
done

# ---- chunks of hundreds of thousands of coalitions, one for each thread
name="393212 coalitions with 1 to 16 workers"
echo "[9$(printf ', 2%.0s' {1..10} | sed 's/,/;/')$(printf ', 1%.0s' {1..16})]" >"$temp/chunks.txt"
run "$temp/chunks.txt" --workers 1
cp "$temp/out" "$temp/chunks.tsv"
why=
for ((workers = 2; workers <= 16; workers++)); do
    run "$temp/chunks.txt" --workers "$workers"
    cmp -s "$temp/out" "$temp/chunks.tsv" || why="$why $workers: status $status, $(head -n 1 "$temp/err");"
done
if [ -z "$why" ] && grep -q "^minimal	393212$" "$temp/chunks.tsv"; then ok "$name"; else failed "$name" "$why"; fi

# ---- on a terminal: how far a run has come, and that a game is read from standard input
if needs python3 "a long run on a terminal" "a long slice on a terminal" "a barren run on a terminal" "a late fault on a terminal" "a late report on a terminal" "a game from a terminal"; then
    # the clock goes on by a tenth of a second at each look: the program looks at each slice that it
    # takes and each 1,048,576 prefixes, and shows nothing before more than a second has passed
    compile_preloaded clock
    clock=$temp/clock.so
    # a game of 3,838,380 coalitions
    {
        echo 'quota = 6'
        for ((member = 1; member <= 40; member++)); do
            printf '[[member]]\nname = "%s"\nweight = 1\n' "$member"
        done
    } >"$temp/long.toml"
    export PYTHONPATH=$top/tests PYTHONDONTWRITEBYTECODE=1
    if timeout "$seconds" python3 - "$program" "$temp/long.toml" "$clock" >"$temp/told" 2>&1 <<'END'
import re, sys
from terminal import Run
# (no option for lines keeps the observer away)
run = Run([sys.argv[1], "--workers", "16", "--bits", "10", "--most", "4000000", "--list", "--sizes", "--notation", "--explain", sys.argv[2]], clock=sys.argv[3])
status = run.read_all()
assert status == 0, status
lines = re.findall(rb"council: ([0-9,]+) coalitions found, ([0-9]+) of 1024 slices done", run.told)
assert len(lines) >= 2, run.told
for column in (0, 1):
    numbers = [int(it[column].replace(b",", b"")) for it in lines]
    assert numbers == sorted(numbers), numbers
# of each of the 16 workers all slices but the last are done when it has no further one
assert lines[-1] == (b"3,838,380", b"1008"), lines[-1]
END
    then ok "a long run on a terminal"; else failed "a long run on a terminal" "$(tail -n 1 "$temp/told")"; fi
    # the same in one slice: it looks with each 1,048,576 prefixes or coalitions, and at the end
    if timeout "$seconds" python3 - "$program" "$temp/long.toml" "$clock" >"$temp/told" 2>&1 <<'END'
import re, sys
from terminal import Run
run = Run([sys.argv[1], "--workers", "1", "--bits", "0", "--most", "4000000", sys.argv[2]], clock=sys.argv[3], tenths=10)
status = run.read_all()
assert status == 0, status
lines = re.findall(rb"council: ([0-9,]+) coalitions found, 0 of 1 slices done(?=\x1b)", run.told)
numbers = [int(it.replace(b",", b"")) for it in lines]
assert len(numbers) >= 2 and numbers[-1] == 3838380, numbers
assert all(here <= there <= here + 2**20 for here, there in zip(numbers, numbers[1:])), numbers
END
    then ok "a long slice on a terminal"; else failed "a long slice on a terminal" "$(tail -n 1 "$temp/told")"; fi
    # a game that takes hours: 21 of 39 members must agree, 6 of the first twelve and 15 of the
    # others, so a coalition with a seventh of the twelve is never minimal. The last member has
    # little weight, and only under the second rule, so no price shows it. Weights differ a little,
    # in six digits, so there are more states than are counted before a list. The run is ended when
    # it was told of four times
    python3 - >"$temp/barren.toml" <<'END'
print("quotas = [21000000000, 15000000000, 6000000000]")
for member in range(40):
    one, other = (10**9 + member**3 * it % 999983 for it in (7919, 104729))
    weights = [one, 0, other] if member < 12 else [one, other, 0] if member < 39 else [0, 1, 0]
    print(f'[[member]]\nname = "{member}"\nweights = {weights}')
END
    if timeout "$seconds" python3 - "$program" "$temp/barren.toml" "$clock" >"$temp/told" 2>&1 <<'END'
import re, sys
from terminal import Run, show
line = rb"council: 0 coalitions found, 0 of 1 slices done, ([0-9,]+) prefixes examined(?=\x1b)"
run = Run([sys.argv[1], "--workers", "1", "--bits", "0", sys.argv[2]], clock=sys.argv[3])
run.read_until(lambda told: len(re.findall(line, told)) >= 3)
run.kill()
# it looks as it begins, as it takes the slice, and with each 1,048,576 prefixes: at the tenth of
# these 1.1 seconds have passed
numbers = [int(it.replace(b",", b"")) for it in re.findall(line, run.told)]
assert numbers[:3] == [2**20 * it for it in (10, 11, 12)], numbers
# a whole line is left, which a narrow terminal does not wrap: its last letter is at the edge
assert show(run.told, 40) == [b"council: 0 coalitions found, 0 of 1 slid", b""], show(run.told, 40)
END
    then ok "a barren run on a terminal"; else failed "a barren run on a terminal" "$(tail -n 1 "$temp/told")"; fi
    # a game of 3,838,380 coalitions and many states where one fewer is asked for: the line is wiped
    # before the fault
    {
        echo 'quota = 59400000000'
        x=7
        for ((member = 1; member <= 40; member++)); do
            x=$(((75 * x + 74) % 65537))
            printf '[[member]]\nname = "%s"\nweight = %s\n' "$member" "$((10000000000 - x * 1523))"
        done
    } >"$temp/late.toml"
    if timeout "$seconds" python3 - "$program" "$temp/late.toml" "$clock" >"$temp/told" 2>&1 <<'END'
import sys
from terminal import Run
run = Run([sys.argv[1], "--workers", "1", "--bits", "10", "--most", "3838379", sys.argv[2]], clock=sys.argv[3])
status = run.read_all()
assert status == 4, status
assert b"slices done" in run.told, run.told[:60]
assert run.told.endswith(b"\x1b[A\r\x1b[Kcouncil: too many minimal winning coalitions\r\n  --tally counts any number of them\r\n"), run.told[-120:]
END
    then ok "a late fault on a terminal"; else failed "a late fault on a terminal" "$(tail -n 1 "$temp/told")"; fi
    # a list of 1 MB: once they are shown, each slice is, one after the other; the line is wiped
    # once, before the first byte of the report, which is on the same terminal, and nothing but the
    # columns and a remark on the quota is written after it
    equal_members 20 6 >"$temp/twenty.txt"
    run --workers 1 --list "$temp/twenty.txt"
    {
        cat "$temp/out"
        sed -n '/^=== columns$/,/^=== /s/^\(council: a member.*\)\\x0d$/\1/p' "$top/tests/cases/terminal.txt"
        echo "council: the quota is at most half of the total, so two coalitions without a common member could win"
    } | sed 's/$/\r/' >"$temp/report"
    if timeout "$seconds" python3 - "$program" "$temp/twenty.txt" "$temp/report" "$clock" >"$temp/told" 2>&1 <<'END'
import re, sys
from terminal import Run, show
run = Run([sys.argv[1], "--workers", "1", "--bits", "10", "--list", sys.argv[2]], both=True, clock=sys.argv[4])
status = run.read_all()
assert status == 0, status
with open(sys.argv[3], "rb") as it:
    report = it.read()
assert b"minimal\t38760\r\n" in report, report[:80]
line, wiped, shown = run.told.partition(b"\x1b[A\r\x1b[K")
assert shown == report, run.told[-200:]
told = re.findall(rb"council: ([0-9,]+) coalitions found, ([0-9]+) of 1024 slices done", line)
numbers = [int(it[1]) for it in told]
assert len(numbers) > 1 and numbers[-1] == 1023, numbers
assert all(there - here in (0, 1) for here, there in zip(numbers, numbers[1:])), numbers
assert show(line, 80) == [b"council: %s coalitions found, %s of 1024 slices done" % told[-1], b""], show(line, 80)
END
    then ok "a late report on a terminal"; else failed "a late report on a terminal" "$(tail -n 1 "$temp/told")"; fi
    if timeout "$seconds" python3 - "$program" "$top/examples/board.toml" >"$temp/told" 2>&1 <<'END'
import sys
from terminal import type_in
status, out, err = type_in([sys.argv[1]], b"[51; 50, 49, 1]\n\x04")
assert status == 0 and out.startswith(b"members\t3\n"), out
assert err == b"council: a game is read from standard input, up to its end\n", err
assert type_in([sys.argv[1], "--explain"], b"[51; 50, 49, 1]\n\x04") == (status, out, err)
# that is not said if a file is named
status, out, err = type_in([sys.argv[1], sys.argv[2]], b"")
assert status == 0 and out.startswith(b"members\t3\n") and err == b"", (status, err)
END
    then ok "a game from a terminal"; else failed "a game from a terminal" "$(tail -n 1 "$temp/told")"; fi
fi

# ---- 16 threads list those 393212 coalitions
name="threads of 393212 coalitions with 16 workers"
compile_preloaded few_threads
# started THREADS: the run with no more threads than that
started() {
    THREADS=$1 LD_PRELOAD=$temp/few_threads.so run "$temp/chunks.txt" --workers 16
}
started 15
refused "$name, one too few start" 5 "a worker could not be started"
started 16
printed "$name, all start" "$temp/chunks.tsv"
