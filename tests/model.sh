#!/usr/bin/env bash
# Searches the model of waiting, docs/model/gather.pml, by spin, four searches at once: all its
# states for one and two workers with two slices, and for three with one. No thread may be stuck,
# and no assertion may fail. It must also find each slip that the model can be given.
#
#     tests/model.sh
#
# It needs spin (the Debian package of that name) and a C compiler.
set -u
cd "$(dirname "$0")/.." || exit 1
for command in spin cc; do
    command -v "$command" >/dev/null || {
        echo "skipped model.sh: this machine has no $command"
        exit 0
    }
done
room=$(mktemp -d)
trap 'rm -rf "$room"' EXIT
model=$PWD/docs/model/gather.pml
export room model

# Says whether a search with these definitions counts so many errors.
expect() {
    local wanted=$1 found
    shift
    cd "$(mktemp -d -p "$room")" || return
    spin -a "${@/#/-D}" "$model" >log 2>&1 && cc -O2 -DCOLLAPSE -DSAFETY -o pan pan.c 2>>log &&
        timeout 300 ./pan -n -m100000 -w24 >>log 2>&1
    found=$(grep -o 'errors: .*' log) || found=$(tail -n 3 log)
    if [ "$found" = "errors: $wanted" ] && ! grep -q 'max search depth' log; then
        echo "ok model.sh $*"
    else
        echo "FAILED model.sh $*: $found"
    fi
}
export -f expect

# Prints the searches, the longest first.
list_searches() {
    local size ring slip
    for size in 'WORKERS=3 SLICES=1' 'WORKERS=2 SLICES=2' 'WORKERS=1 SLICES=2'; do
        for ring in 'RING=2 TIMED' 'RING=1 TIMED' 'RING=2' 'RING=1'; do
            echo "0 $size $ring"
        done
    done
    for slip in WAKES_NOBODY FILLS_IN_SILENCE SLEEPS_AT_ONCE SENDS_NO_DONE SENDS_NO_END TASKS=0; do
        echo "1 WORKERS=1 RING=1 $slip"
    done
    echo "1 WORKERS=2 RING=1 WAKES_WORKER_0"
}

list_searches | xargs -P 4 -L 1 bash -c 'expect "$@"' expect
