#!/usr/bin/env bash
# --tally: the same report as without it, for any number of coalitions, and the line that tells how
# far it has come.
. "$(dirname "$0")/common.sh"

game=$top/examples/eu-1995.toml
for words in "" --sizes --notation "--sizes --notation"; do
    read -ra flags <<<"$words"
    run "$game" "${flags[@]}"
    cp "$temp/out" "$temp/wanted"
    why=
    for workers in 1 2 3 16; do
        for bits in 0 1 6 10; do
            run --tally "$game" "${flags[@]}" --workers "$workers" --bits "$bits"
            if [ "$status" -ne 0 ] || [ -s "$temp/err" ] || ! cmp -s "$temp/out" "$temp/wanted"; then
                why="--workers $workers --bits $bits: status $status"
            fi
        done
    done
    name="--tally ${words:-alone} by any workers and bits"
    if [ -z "$why" ]; then ok "$name"; else failed "$name" "$why"; fi
done

# equal QUOTA COALITIONS OF_EACH: the tally of 40 equal members
equal() {
    equal_members 40 "$1" >"$temp/equal.txt"
    run --tally --workers 1 "$temp/equal.txt"
    {
        printf 'members\t40\nquota\t%s\ntotal\t40\nminimal\t%s\n' "$1" "$2"
        for ((member = 1; member <= 40; member++)); do
            printf 'member\t%s\t1\t%s\t1/40\t0.025000\t1/40\t0.025000\n' "$member" "$3"
        done
    } >"$temp/wanted"
    printed "--tally of 40 equal members, quota $1" "$temp/wanted"
}
# (one by one, some would take hours)
equal 7 18643560 3262623
equal 8 76904685 15380937
equal 20 137846528820 68923264410
equal 39 40 39

# ---- games of several rules: the same bytes as a run
# same_as_run NAME: of the game in $temp/rules.toml
same_as_run() {
    run "$temp/rules.toml" --sizes --most 4000000
    if succeeded "a run of $1"; then
        cp "$temp/out" "$temp/wanted"
        run --tally --sizes "$temp/rules.toml"
        printed "--tally of $1" "$temp/wanted"
    fi
}
each_hard_game same_as_run

# minimal_of NAME QUOTAS WEIGHTS..: how many coalitions the tally of a game of these rules has
minimal_of() {
    write_rules "${@:2}"
    run --tally "$temp/rules.toml"
    succeeded "--tally of $1" && minimal=$(sed -n 's/^minimal\t//p' "$temp/out")
}
# a house of 20 by two rules, beside a senate of 19: threads count only the house, whose coalitions
# go with each of the senate's
x=7
house=() senate=() both=()
for ((member = 0; member < 20; member++)); do
    x=$(((75 * x + 74) % 65537)) && first=$((x % 50 + 1))
    x=$(((75 * x + 74) % 65537)) && house+=("$first, $((x % 50 + 1))") && both+=("${house[member]}, 0")
done
for ((member = 0; member < 19; member++)); do
    x=$(((75 * x + 74) % 65537)) && senate+=("$((x % 50 + 1))") && both+=("0, 0, ${senate[member]}")
done
if minimal_of "a house by two rules" '260, 250' "${house[@]}"; then
    of_house=$minimal
    if minimal_of "a senate" 250 "${senate[@]}"; then
        of_senate=$minimal
        if minimal_of "the house and the senate" '260, 250, 250' "${both[@]}"; then
            name="a house by two rules beside a senate: $of_house times $of_senate coalitions"
            if [ "$minimal" = $((of_house * of_senate)) ]; then ok "$name"; else failed "$name" "there are $minimal"; fi
        fi
    fi
fi

# ---- refusals
for words in "--tally --list" "--list --tally" "--tally --most 5" "--most=1000000 --tally"; do
    read -ra flags <<<"$words"
    run "${flags[@]}" "$game"
    if [ "$status" -eq 2 ] && [ ! -s "$temp/out" ] && [ -s "$temp/err" ]; then
        ok "refused: $words"
    else
        failed "refused: $words" "status $status"
    fi
done
run --tally "$temp/missing.toml"
refused "--tally and a FILE that is not there" 1 "the game file cannot be opened"
run --tally <<<'[5; 1]'
refused "--tally and a fault of the game" 3 "quota out of range"
if [ -e /dev/full ]; then
    timeout "$seconds" "$program" --tally "$game" >/dev/full 2>"$temp/err" </dev/null
    status=$?
    : >"$temp/out"
    refused "--tally and /dev/full" 5 "output failed"
else
    skipped "--tally and /dev/full" "there is no /dev/full"
fi

# ---- how far it has come: told on a terminal after a second, and wiped
if needs python3 "a long tally on a terminal"; then
    compile_preloaded clock
    clock=$temp/clock.so
    # games of three rules where any 8 or 20 members win, and no two members are alike: the first
    # takes 600,000 states, and the other many more
    for needed in 8 20; do
        python3 - "$needed" >"$temp/any-$needed.toml" <<'END'
import random, sys
random.seed(5)
needed = int(sys.argv[1])
print("quotas =", [needed * (10**12 - 10**8)] * 3)
for member in range(1, 41):
    print(f'[[member]]\nname = "{member}"\nweights =', [10**12 - random.randrange(10**8) for rule in range(3)])
END
    done
    export PYTHONPATH=$top/tests PYTHONDONTWRITEBYTECODE=1
    if timeout "$seconds" python3 - "$program" "$temp/any-8.toml" "$temp/out" "$clock" >"$temp/told" 2>&1 <<'END'
import re, sys
from terminal import Run
with open(sys.argv[3], "wb") as out:
    run = Run([sys.argv[1], "--tally", "--workers", "1", sys.argv[2]], out, clock=sys.argv[4])
status = run.read_all()
assert status == 0, status
with open(sys.argv[3], "rb") as out:
    report = out.read()
assert report.startswith(b"members\t40\n") and b"minimal\t76904685\n" in report, report[:80]
numbers = [int(it) for it in re.findall(rb"council: ([0-9]+) of 40 members decided", run.told)]
assert numbers and numbers == list(range(numbers[0], 41)), numbers
assert run.told.endswith(b"\x1b[A\r\x1b[Kcouncil: each quota is at most half of its total, so two coalitions without a common member could win\r\n"), run.told[-200:]
END
    then ok "a long tally on a terminal"; else failed "a long tally on a terminal" "$(tail -n 1 "$temp/told")"; fi
    # a first slice of 225,792,840 coalitions: they are shown before it is done
    if timeout "$seconds" python3 - "$program" "$temp/any-20.toml" "$clock" >"$temp/told" 2>&1 <<'END'
import re, sys
from terminal import Run
line = re.compile(rb"council: ([0-9,]+) coalitions found, 0 of 256 slices done")
run = Run([sys.argv[1], "--tally", "--room", "1000000", "--workers", "1", sys.argv[2]], clock=sys.argv[3])
run.read_until(lambda told: len(set(line.findall(told))) >= 2)
run.kill()
numbers = [int(it.replace(b",", b"")) for it in line.findall(run.told)]
assert 0 < numbers[-1] and numbers == sorted(numbers), numbers
END
    then ok "the first slice on a terminal"; else failed "the first slice on a terminal" "$(tail -n 1 "$temp/told")"; fi
    # of two workers only the first one starts, and takes no further slice
    compile_preloaded few_threads
    THREADS=1 LD_PRELOAD=$temp/few_threads.so run --tally --room 1000000 --workers 2 --bits 10 "$temp/any-20.toml"
    refused "a long tally of which one worker starts" 5 "a worker could not be started"
    # a fault at the end: the line is wiped before it
    name="a long tally on a terminal, and /dev/full"
    if [ ! -e /dev/full ]; then
        skipped "$name" "there is no /dev/full"
    elif timeout "$seconds" python3 - "$program" "$temp/any-8.toml" "$clock" >"$temp/told" 2>&1 <<'END'
import sys
from terminal import Run
with open("/dev/full", "wb") as full:
    run = Run([sys.argv[1], "--tally", "--workers", "1", "--bits", "10", sys.argv[2]], full, clock=sys.argv[3])
status = run.read_all()
assert status == 5, status
assert b"members decided" in run.told, run.told[:60]
assert run.told.endswith(b"\x1b[A\r\x1b[Kcouncil: output failed\r\n"), run.told[-80:]
END
    then ok "$name"; else failed "$name" "$(tail -n 1 "$temp/told")"; fi
    run --tally --workers 1 "$temp/any-8.toml"
    if succeeded "a long tally without a terminal"; then ok "a long tally without a terminal"; fi
fi

# ---- one rule, or a rule and heads, of weights that have nothing in common: the figures of another
# program, which keeps a table of what fits for each member
# random MEMBERS MOST: as many weights up to that, in `weights`, and their total
random() {
    local x=7 member draw weight
    weights=()
    total=0
    for ((member = 0; member < $1; member++)); do
        weight=0
        for draw in 1 2 3; do
            x=$(((75 * x + 74) % 65537))
            weight=$((weight * 65537 + x))
        done
        weights+=($((weight % $2 + 1)))
        total=$((total + weight % $2 + 1))
    done
}
# counted NAME FILE MINIMAL FIRST LAST: how many there are, and how many have the first member and
# the last
counted() {
    run --tally --workers 1 "$2"
    if succeeded "$1"; then
        awk '$1 == "minimal" { print $2 } $1 == "member" { print $4 }' "$temp/out" | sed -n '1p; 2p; $p' >"$temp/found"
        if [ "$(cat "$temp/found")" = "$3"$'\n'"$4"$'\n'"$5" ]; then ok "$1"; else failed "$1" "$(tr '\n' ' ' <"$temp/found")"; fi
    fi
}
# bracket QUOTA: a game of one rule of `weights`
bracket() {
    local rest
    printf -v rest ', %s' "${weights[@]}"
    echo "[$1; ${rest#, }]" >"$temp/half.txt"
}
random 40 1000000000000
bracket $((total / 2 + 1))
counted "40 random weights up to 10^12" "$temp/half.txt" 4373613453 2195520996 1959310211
# ---- swings: the figures of another program, which adds up the subsets of two halves of the game
name="swings of 40 random weights up to 10^12, by some million states"
run --only-swings "$temp/half.txt"
if succeeded "$name"; then
    found=$(awk '$1 == "winning" { print $2 } $1 == "member" { print $4 }' "$temp/out" | sed -n '1p; 2p; $p' | tr '\n' ' ')
    if [ "$found" = "549755813888 71274520538 7365253578 " ]; then ok "$name"; else failed "$name" "$found"; fi
fi
# under two rules they take too many states; if memory is refused before, that is another status
rows=()
for ((member = 0; member < 40; member++)); do rows+=("${weights[member]}, ${weights[(member + 7) % 40]}"); done
write_rules "$((total / 2 + 1)), $((total / 2 + 1))" "${rows[@]}"
run --swings "$temp/rules.toml"
refused "--swings of too many states" 6 "too many states for the swings"
(ulimit -v 200000 && exec timeout "$seconds" "$program" --only-swings "$temp/rules.toml") >"$temp/out" 2>"$temp/err"
status=$?
refused "--only-swings in too little memory" 5 "out of memory"
# of the first 10^9, and of each other as much less as its rank
weights=() total=0
for rank in {1..40}; do weights+=($((1000000000 / rank))) && total=$((total + 1000000000 / rank)); done
bracket $((total / 2 + 1))
counted "40 holders of shares" "$temp/half.txt" 14116527153 7324830562 6871940874
random 36 100000000
{
    echo "quotas = [$((total * 65 / 100)), 20]"
    for ((member = 0; member < 36; member++)); do
        printf '[[member]]\nname = "%s"\nweights = [%s, 1]\n' "$member" "${weights[member]}"
    done
} >"$temp/persons.toml"
counted "36 states by persons, and 20 heads" "$temp/persons.toml" 394303398 182415240 237664887
# a president, a house of 20 and one of 19: 32,502 coalitions of the one house, and 17,967 of the
# other, of which 5,902 have its last member
random 39 1000000
rows=('1, 0, 0')
of_house=0
for ((member = 0; member < 39; member++)); do
    if [ "$member" -lt 20 ]; then
        rows+=("0, ${weights[member]}, 0") && of_house=$((of_house + weights[member]))
    else
        rows+=("0, 0, ${weights[member]}")
    fi
done
write_rules "1, $((of_house / 2 + 1)), $(((total - of_house) / 2 + 1))" "${rows[@]}"
counted "a president and two houses" "$temp/rules.toml" $((32502 * 17967)) $((32502 * 17967)) $((32502 * 5902))
# the first of 40 members can veto by a second rule
random 40 1000000000
rows=("${weights[0]}, 1")
for weight in "${weights[@]:1}"; do rows+=("$weight, 0"); done
write_rules "$((total / 2 + 1)), 1" "${rows[@]}"
counted "39 random weights of nine digits, and a vetoer" "$temp/rules.toml" 4183436737 4183436737 309465122

# ---- what memory a tally of one rule takes: a little for weights up to 1,000, and at most 250 MB
if needs python3 "the memory of tallies of one rule"; then
    if timeout "$seconds" python3 - "$program" "$temp" >"$temp/told" 2>&1 <<'END'
import os, random, subprocess, sys
rng = random.Random(7)
for most, limit in [(1000, 32_000), (10**12, 250_000)]:
    weights = [rng.randrange(most // 2, most) + 1 for _ in range(40)]
    game = f"{sys.argv[2]}/heavy.txt"
    with open(game, "w", encoding="utf-8") as it:
        it.write(f"[{sum(weights) * 3 // 8}; {', '.join(map(str, weights))}]")
    made = subprocess.Popen([sys.argv[1], "--tally", game], stdout=subprocess.PIPE)
    assert made.stdout.read().startswith(b"members\t40\n")
    _, _, used = os.wait4(made.pid, 0)
    assert used.ru_maxrss < limit, (most, used.ru_maxrss)
END
    then ok "the memory of tallies of one rule"; else failed "the memory of tallies of one rule" "$(tail -n 1 "$temp/told")"; fi
fi
