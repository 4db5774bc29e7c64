#!/usr/bin/env bash
# On a small machine a run writes the same: 16 workers on one processor, and a stack of 224 KB.
. "$(dirname "$0")/common.sh"

equal_members 40 20 >"$temp/twenty.txt"
name="16 workers on one processor"
first=$(taskset -cp $$ 2>/dev/null | sed 's/.*: //; s/[-,].*//')
if [ -n "$first" ] && taskset -c "$first" true 2>/dev/null; then
    for game in eu-1995 eu-27-nice-votes; do
        timeout "$seconds" taskset -c "$first" "$program" "$top/examples/$game.toml" --workers 16 --bits 10 >"$temp/out" 2>"$temp/err" </dev/null
        status=$?
        printed "$name, $game" "$top/examples/$game.tsv"
    done
    timeout "$seconds" taskset -c "$first" "$program" "$temp/twenty.txt" --most 1000 --workers 16 >"$temp/out" 2>"$temp/err" </dev/null
    status=$?
    refused "$name, refused" 4 "too many minimal winning coalitions"
else
    skipped "$name" "this machine has no taskset, or no processor can be chosen"
fi

# ---- the stack that a run takes does not grow with its workers
# on_small_stack NAME GAME WORD..: the program gives what it gives on the usual stack.
on_small_stack() {
    local name="a stack of 224 KB, $1" game=$2.toml
    shift 2
    case $game in /*) ;; *) game=$top/$game ;; esac
    "$program" "$@" "$game" >"$temp/wanted" 2>/dev/null </dev/null
    if (ulimit -s 224) 2>/dev/null; then
        (
            ulimit -s 224
            exec timeout "$seconds" "$program" "$@" "$game"
        ) >"$temp/out" 2>"$temp/err" </dev/null
        status=$?
        printed "$name" "$temp/wanted"
    else
        skipped "$name" "the stack can't be limited"
    fi
}
for words in "--workers 1" "--workers 4" "--workers 16" "--workers 16 --list"; do
    read -ra options <<<"$words"
    on_small_stack "$words" examples/eu-27-nice "${options[@]}"
done
on_small_stack "a tally by states" examples/eu-1995 --tally
on_small_stack "a tally of chambers" examples/us-federal --tally
on_small_stack "a tally beside a vetoer" docs/statutes/veto --tally
on_small_stack "a tally of a chamber with heads beside another" docs/statutes/two-holders --tally
on_small_stack "a tally of three rules" examples/eu-27-nice --tally --workers 16

# ---- random games of every kind, by runs and by tallies
name="a stack of 224 KB, random games"
if ! (ulimit -s 224) 2>/dev/null; then
    skipped "$name" "the stack can't be limited"
elif needs python3 "$name"; then
    if PYTHONPATH=$top/tests PYTHONDONTWRITEBYTECODE=1 timeout "$((2 * seconds))" python3 - "$program" >"$temp/told" 2>&1 <<'END'
import random
import resource
import subprocess
import sys

from random_games import file_of, random_game, random_rows, random_statute


def limit():
    resource.setrlimit(resource.RLIMIT_STACK, (224 * 1024, 224 * 1024))


rng = random.Random(1)
for number in range(120):
    game = rng.choice([lambda: random_game(rng, 14), lambda: random_statute(rng, 16), lambda: random_rows(rng)])()
    for words in (["--tally"], ["--tally", "--workers", "16"], ["--list", "--sizes", "--most", "4000000"]):
        run = subprocess.run([sys.argv[1], *words], input=file_of(game), capture_output=True, preexec_fn=limit)
        assert run.returncode == 0, f"game {number}, {words}: status {run.returncode} {run.stderr[:80]}"
END
    then ok "$name"; else failed "$name" "$(tail -n 1 "$temp/told")"; fi
fi
