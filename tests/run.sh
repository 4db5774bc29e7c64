#!/usr/bin/env bash
# Runs the tests of this folder on the built program, several at once, and call_allocations.sh on
# the built tests of the crates:
#
#     tests/run.sh PROGRAM [--library]
#
# With --library it also makes the library for other languages, over what `rt ci` has just proved,
# beside the tests that do not want it.
#
# Each prints `ok NAME` or `FAILED NAME: why`, or `skipped NAME: why` for a test that can't be run
# on this machine. The last line is `N passed, M failed`, with `, K skipped` after it if some
# were, and the status is not 0 if any failed.
#
# It sees whether each of the edits of mutants/ and of refused/ can still be planted, and plants one
# of each, which the sources choose (mutants.sh, refused.py); with COUNCIL_MUTANTS=1 it plants them
# all, more than an hour more.
#
# A machine must have bash, python3, cc (to refuse allocations), taskset (for runs on one
# processor), and the toolchain's rt; what is missing is said, and what wants it is skipped.
set -u
cd "$(dirname "$0")/.." || exit 1
program=${1:-crates/council/out/council}
with_library=${2:-}
passed=0
failed=0
skipped=0

logs=$(mktemp -d)
trap 'rm -rf "$logs"' EXIT

# Runs a command, and keeps what it prints and its status under its name.
keep() {
    local name=$1
    shift
    "$@" >"$logs/$name" 2>&1 </dev/null
    echo "$?" >"$logs/$name.status"
}

# Makes the library for other languages.
make_library() {
    if tools/build.py --library; then
        echo "ok the library for other languages is built"
    else
        echo "FAILED the library for other languages is built: crates/council/out/build.log tells why"
    fi
}

# Shows what a command printed, and counts its lines.
count() {
    local log=$logs/$1 status found
    status=$(cat "$log.status")
    cat "$log"
    passed=$((passed + $(grep -ac '^ok ' "$log")))
    found=$(grep -ac '^FAILED ' "$log")
    failed=$((failed + found))
    skipped=$((skipped + $(grep -ac '^skipped ' "$log")))
    if [ "$found" -eq 0 ] && { [ "$status" -ne 0 ] || ! grep -aqE '^(ok|skipped) ' "$log"; }; then
        echo "FAILED $1: it ended with status $status"
        failed=$((failed + 1))
    fi
}

if [ ! -x "$program" ]; then
    echo "FAILED tests: there is no program $program"
    failed=1
else
    # Each of these works on one processor, and as many run at once as there are: the longest first,
    # those that want the library last. Then come those that want all processors for themselves: the
    # cases use them all, and each run of the fuzzer must end within a second.
    names=" mutants refused model random_games waiting preview call_allocations tally program_allocations sizes workers small_machine every_size output using packages launcher explained examples documents tour mutants_fit refused_fit reading style visibility memory_source gate_source foreign archive wheel web platforms cases fuzz statutes "
    if ! command -v python3 >/dev/null; then
        for name in refused random_games every_size explained refused_fit reading style visibility memory_source gate_source cases fuzz statutes; do
            names=${names/ $name / }
            echo "skipped $name: this machine has no python3"
            skipped=$((skipped + 1))
        done
    fi
    some=(--some 1)
    [ "${COUNCIL_MUTANTS:-0}" != 1 ] || some=()
    # what one run may take is measured once, before anything else runs
    SECONDS_EACH=$(bash -c '. tests/common.sh; echo "$seconds"' common.sh "$program")
    export SECONDS_EACH
    lanes=$(nproc 2>/dev/null || echo 1)
    library=
    if [ "$with_library" = --library ]; then
        keep library make_library &
        library=$!
    fi
    for name in $names; do
        while [ "$(jobs -rp | wc -l)" -ge "$lanes" ]; do
            wait -n
        done
        case $name in
        foreign) [ -z "$library" ] || wait "$library" ;;
        cases | fuzz | statutes) wait ;;
        esac
        case $name in
        mutants) words=(bash tests/mutants.sh "${some[@]}") ;;
        mutants_fit) words=(bash tests/mutants.sh --fit) ;;
        refused) words=(python3 tests/refused.py "${some[@]}") ;;
        refused_fit) words=(python3 tests/refused.py --fit) ;;
        random_games) words=(python3 "tests/$name.py" "$program" 150 1) ;;
        explained | fuzz) words=(python3 "tests/$name.py" "$program" 300 1) ;;
        statutes) words=(python3 tests/fuzz.py "$program" 20 1 statutes) ;;
        every_size | cases) words=(python3 "tests/$name.py" "$program") ;;
        reading | style | visibility | memory_source | gate_source) words=(python3 "tests/$name.py") ;;
        *) words=(bash "tests/$name.sh" "$program") ;;
        esac
        keep "$name" "${words[@]}" &
    done
    wait
    for name in $names ${library:+library}; do
        count "$name"
    done
fi
if [ "$skipped" -eq 0 ]; then
    echo "$passed passed, $failed failed"
else
    echo "$passed passed, $failed failed, $skipped skipped"
fi
[ "$failed" -eq 0 ]
