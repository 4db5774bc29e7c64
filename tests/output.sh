#!/usr/bin/env bash
# Standard output that takes nothing, or that goes away.
. "$(dirname "$0")/common.sh"

name="/dev/full as standard output"
if [ -e /dev/full ]; then
    for words in "" --list; do
        # shellcheck disable=SC2086
        timeout "$seconds" "$program" "$top/examples/board.toml" $words >/dev/full 2>"$temp/err"
        status=$?
        : >"$temp/out"
        refused "$name${words:+ with $words}" 5 "output failed"
    done
    for word in --help --version; do
        timeout "$seconds" "$program" "$word" >/dev/full 2>"$temp/err"
        status=$?
        : >"$temp/out"
        refused "$name with $word" 5 "output failed"
    done
    # a fault keeps its status even if it cannot be printed
    for words in "$temp/missing 1" "--workers=0 2"; do
        timeout "$seconds" "$program" "${words% *}" >"$temp/out" 2>/dev/full
        status=$?
        if [ "$status" -eq "${words##* }" ] && [ ! -s "$temp/out" ]; then
            ok "/dev/full as standard error, status ${words##* }"
        else
            failed "/dev/full as standard error, status ${words##* }" "status $status"
        fi
    done
else
    skipped "$name" "there is no /dev/full"
fi

name="a closed standard output"
timeout "$seconds" "$program" "$top/examples/board.toml" >&- 2>"$temp/err"
status=$?
: >"$temp/out"
refused "$name" 5 "output failed"

# ---- reports of more than the block of 64 KiB that they go out by, and a writer that fails in a
# later one
if needs python3 "long reports"; then
    equal_members 40 3 >"$temp/three.txt"
    two_rules >"$temp/two.toml"
    echo '[30; 9, 8, 7, 7, 6, 5, 5, 4, 4, 3, 3, 2, 2, 2, 1, 1]' >"$temp/sixteen.txt"
    for game in three.txt sixteen.txt; do
        python3 "$top/tests/oracle.py" "$temp/$game" --list --sizes --notation >"$temp/oracle"
        length=$(wc -c <"$temp/oracle")
        run "$temp/$game" --list --sizes --notation
        printed "a report of $length bytes, $game" "$temp/oracle"
        # $taken bytes are taken, and then no more: the program learns it by a failed write
        for taken in 61439 65535 65536 65537 70000 $((length - 1)); do
            name="$taken bytes of a report are taken, $game"
            if timeout "$seconds" python3 - "$program" "$temp/$game" "$taken" "$temp/err" >"$temp/out" <<'END'
import os, resource, signal, subprocess, sys
program, game, taken, err = sys.argv[1:]
def few():
    signal.signal(signal.SIGXFSZ, signal.SIG_IGN)
    resource.setrlimit(resource.RLIMIT_FSIZE, (int(taken), int(taken)))
made = subprocess.run([program, game, "--list", "--sizes", "--notation"], stdin=subprocess.DEVNULL, stdout=sys.stdout,
                      stderr=subprocess.PIPE, preexec_fn=few)
with open(err, "wb") as it:
    it.write(made.stderr)
sys.exit(made.returncode)
END
            then status=0; else status=$?; fi
            head -c "$taken" "$temp/oracle" >"$temp/first"
            if ! cmp -s "$temp/out" "$temp/first"; then
                failed "$name" "what was taken is not the beginning of the report: $(wc -c <"$temp/out") bytes"
            else
                : >"$temp/out"
                refused "$name" 5 "output failed"
            fi
        done
        if [ -e /dev/full ]; then
            timeout "$seconds" "$program" "$temp/$game" --list >/dev/full 2>"$temp/err" </dev/null
            status=$?
            : >"$temp/out"
            refused "/dev/full and a long report, $game" 5 "output failed"
        fi
    done
fi

# A reader that goes away after the first bytes of a long report. The program learns of it by a
# failed write, whatever the shell does with the signal for it.
equal_members 40 5 >"$temp/equal.txt"
handlings="SIG_DFL SIG_IGN"
needs python3 "a reader that goes away" || handlings=
for handling in $handlings; do
    name="a reader that goes away ($handling)"
    {
        timeout "$seconds" python3 -c '
import os, signal, sys
signal.signal(signal.SIGPIPE, getattr(signal, sys.argv[1]))
os.execv(sys.argv[2], sys.argv[2:])
' "$handling" "$program" "$temp/equal.txt" --list 2>"$temp/err"
        echo $? >"$temp/status"
    } | head -c 10 >"$temp/head"
    status=$(cat "$temp/status")
    : >"$temp/out"
    refused "$name" 5 "output failed"
done

name="the first bytes before a reader goes away are the report's"
if [ -z "$handlings" ]; then
    :
elif [ "$(cat "$temp/head")" = "$(printf 'members\t40')" ]; then
    ok "$name"
else
    failed "$name" "they are $(cat "$temp/head")"
fi

# One that goes away in the second block has had the first bytes of the report.
name="a reader that goes away after 70000 bytes"
{
    timeout "$seconds" "$program" "$temp/equal.txt" --list 2>"$temp/told" </dev/null
    echo $? >"$temp/status"
} | head -c 70000 >"$temp/head"
run "$temp/equal.txt" --list
head -c 70000 "$temp/out" >"$temp/wanted"
cp "$temp/told" "$temp/err"
if [ "$status" -eq 0 ] && cmp -s "$temp/head" "$temp/wanted"; then
    status=$(cat "$temp/status")
    : >"$temp/out"
    # (without a handling of its own the shell may end the program by a signal)
    if [ "$status" -eq 141 ]; then ok "$name"; else refused "$name" 5 "output failed"; fi
else
    failed "$name" "status $status, $(wc -c <"$temp/head") bytes"
fi

# A reader that takes its time gets the whole report.
name="a slow reader"
timeout "$seconds" "$program" "$top/examples/eu-1995.toml" --list >"$temp/wanted" 2>"$temp/err"
timeout "$seconds" "$program" "$top/examples/eu-1995.toml" --list 2>"$temp/err" | {
    sleep 1
    cat
} >"$temp/out"
if [ -s "$temp/wanted" ] && cmp -s "$temp/out" "$temp/wanted"; then
    ok "$name"
else
    failed "$name" "it got $(wc -c <"$temp/out") bytes of $(wc -c <"$temp/wanted")"
fi
