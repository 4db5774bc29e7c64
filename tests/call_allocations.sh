#!/usr/bin/env bash
# Makes the library's calls while their allocations are refused, one after the other, and then all
# from one on. Each call is a test in src/NAME_tests/refusals.rt of the crate that tests the library
# NAME, that prints `call` before it and its answer after it, `worked`, `out of memory` or `not
# started`, or which part of a run found no memory, looks whether all is as it must be after that
# answer, and fails if not. If no allocation was refused the answer is the worked one. If one was,
# it is out of memory or, for calls that start threads, that one did not start, each for the
# allocations that it is for; no call works then. The built tests of the crates are run, and the
# library that refuses is preloaded/refuse.c.
. "$(dirname "$0")/common.sh"

compile_preloaded refuse few_threads in_turn
crates=$top/crates

# tests_of CRATE: the crate that has its tests, as a module CRATE_tests.
tests_of() {
    local module
    for module in "$crates"/*_tests/src/"$1_tests.rt"; do
        module=${module%/src/*}
        echo "${module##*/}"
    done
}

# are_built CRATE: whether no source of the built tests of the crate, or of the libraries of their
# line in crates.txt, is newer. If they are not there, which `tools/build.py` leaves so, the script
# ends.
are_built() {
    local own tests name newer
    own=$(tests_of "$1")
    tests=$crates/$own/out/${own}_tests
    if [ ! -x "$tests" ]; then
        skipped "$(basename "$0")" "there is no $tests: \`rt test\` in crates/$own makes it"
        exit 0
    fi
    for name in "$own" $(sed -n "s/^$own\( [^:]*\)\{0,1\}: *//p" "$top/crates.txt"); do
        [ -d "$crates/$name/src" ] || continue
        newer=$(find "$crates/$name/src" -name '*.rt' -newer "$tests" | head -n 1)
        if [ -n "$newer" ]; then
            failed "the tests of $1" "they are older than ${newer#"$top/"}: \`rt test\` in crates/$own makes them anew"
            return 1
        fi
    done
}

command -v find >/dev/null || {
    skipped "$(basename "$0")" "this machine has no find"
    exit 0
}
for name in council_game council_file mwc_walk mwc_pipe power_index mwc_tally mwc_states mwc_gather council_report council_run; do
    are_built "$name" || exit 1
done

# What is loaded beside refuse.so, each after a colon.
preload=

# Makes the call of the test $3 of the crate $2 with the allocations refused that $1 names, and
# keeps its answer and its status, and in $temp/said what refuse.c says.
call() {
    local own
    own=$(tests_of "$2")
    : >"$temp/said"
    timeout -k 5 "$seconds" env "$1" REFUSE_CALL=1 REFUSE_TO=9 LD_PRELOAD="$temp/refuse.so$preload" \
        "$crates/$own/out/${own}_tests" "$2_tests::refusals::$3" >"$temp/out" 2>"$temp/err" 9>"$temp/said" </dev/null
    status=$?
    answer=$(sed -n 2p "$temp/out")
}

# Whether the last call ended, and answered `worked` if no allocation was refused, and else one
# of these answers. It says why not.
answers() {
    local wanted
    if [ "$status" -ne 0 ]; then
        why="status $status: $(head -n 1 "$temp/err")"
        return 1
    fi
    [ -s "$temp/said" ] || set -- worked
    for wanted in "$@"; do
        [ "$answer" != "$wanted" ] || return 0
    done
    why="the answer is: $answer"
    return 1
}

# The shape of the answers of a sweep, as an expression over one letter for each: g for out of
# memory for the game, m for out of memory to gather, o for out of memory, s for a thread that did
# not start, w for one that worked. So the answers say where each allocation was made, one after the
# other. Empty if any mix is right.
shape=''

# Whether the answers of the last sweep have their shape. It says why not.
has_shape() {
    local letters
    [ -n "$shape" ] || return 0
    letters=$(sed 's/^no memory for the game$/g/; s/^no memory to gather$/m/; s/^out of memory$/o/; s/^not started$/s/; s/^worked$/w/' \
        "$temp/answers" | tr -d '\n')
    python3 -c 'import re, sys; sys.exit(not re.fullmatch(sys.argv[1], sys.argv[2]))' "$shape" "$letters" && return 0
    why="the answers are $letters, and not as $shape"
    return 1
}

# sweep HOW CRATE TEST ANSWER..: the call answers so while allocations are refused, as long as one
# is.
sweep() {
    local how=$1 name="$2 $3, $1" number why='' counts
    : >"$temp/answers"
    for ((number = 1; number <= 10000; number++)); do
        call "$how=$number" "$2" "$3"
        answers "${@:4}" || break
        [ -s "$temp/said" ] || break
        echo "$answer" >>"$temp/answers"
    done
    if [ -z "$why" ] && [ "$number" -eq 1 ]; then
        why="no allocation was seen, so none was refused"
    fi
    if [ -z "$why" ] && [ "$number" -gt 10000 ]; then
        why="an allocation is still refused at number 10000"
    fi
    if [ -z "$why" ] && ! grep -qx "$4" "$temp/answers"; then
        why="$4 was never told"
    fi
    [ -n "$why" ] || has_shape || number=''
    if [ -z "$why" ]; then
        counts=$(sort "$temp/answers" | uniq -c | sed 's/^ *//' | tr '\n' ',' | sed 's/,$//; s/,/, /g')
        ok "$name 1 to $((number - 1)): $counts"
    else
        failed "$name $number" "$why"
    fi
}

# takes_memory CRATE TEST [ANSWER]: where allocations are refused, the call answers out of memory,
# or so.
takes_memory() {
    sweep REFUSE_AT "$1" "$2" "out of memory" "${@:3}"
    sweep REFUSE_FROM "$1" "$2" "out of memory" "${@:3}"
}

# takes_none CRATE TEST: the call works while all allocations are refused.
takes_none() {
    local why=''
    call REFUSE_FROM=1 "$1" "$2"
    if answers worked; then
        ok "$1 $2, REFUSE_FROM 1"
    else
        failed "$1 $2, REFUSE_FROM 1" "$why"
    fi
}

# asks_for_little CRATE TEST: the call works while each allocation of more than 4,096 bytes is
# refused, whatever the limits and counts are that it is given: it asks for the room that its answer
# needs.
asks_for_little() {
    local why=''
    call REFUSE_OVER=4096 "$1" "$2"
    if answers worked && [ ! -s "$temp/said" ]; then
        ok "$1 $2, REFUSE_OVER 4096"
    else
        failed "$1 $2, REFUSE_OVER 4096" "${why:-$(cat "$temp/said")}"
    fi
}

takes_memory council_game makes_a_game
takes_memory council_game makes_a_game_of_two_rules
takes_memory council_game lists_plainly
takes_memory council_game lists_members
takes_memory council_game orders_by_contribution
asks_for_little council_game lists_members
takes_memory council_file parses_toml
takes_memory council_file parses_brackets
takes_memory council_file reads_pieces
for fault in a_repeated_name an_unknown_key a_bad_weight no_toml a_bad_bracket_text a_quota_out_of_range; do
    takes_memory council_file "finds_$fault"
done
takes_memory council_file reads_a_fault
takes_memory council_file reads_up_to_an_error
takes_memory council_file reads_too_much
takes_memory council_file writes_notation
takes_memory council_file puts_numbers
takes_memory council_report writes_a_report
takes_memory mwc_walk lists_a_slice
takes_memory mwc_walk lists_all
asks_for_little mwc_walk lists_a_slice
takes_none mwc_walk walks_without_memory
takes_none mwc_walk walks_under_four_rules_without_memory
takes_memory mwc_pipe puts_into_a_pipe
takes_memory mwc_pipe puts_into_a_batch
takes_memory mwc_pipe replays
takes_memory mwc_pipe makes_a_ring
takes_none mwc_pipe moves_words_without_memory
takes_none power_index counts_without_memory
takes_memory power_index gives_all_indices
asks_for_little power_index gives_all_indices
takes_memory mwc_tally tallies "not started"
# a worker that runs out of memory leaves no slice to those that start after it
preload=:$temp/in_turn.so
takes_memory mwc_tally tallies_in_turn "not started"
# only the first thread starts, and that is what the call answers even if memory runs out too
name="mwc_tally tallies, one thread starts"
preload=:$temp/few_threads.so
export THREADS=1
call REFUSE_FROM=10000 mwc_tally tallies
if [ "$answer" = "not started" ]; then ok "$name"; else failed "$name" "the answer is: $answer"; fi
: >"$temp/answers"
for ((number = 1; number <= 10000; number++)); do
    call "REFUSE_FROM=$number" mwc_tally tallies
    [ -s "$temp/said" ] || break
    echo "$answer" >>"$temp/answers"
done
shape='o+s{2,}'
if has_shape; then ok "$name, REFUSE_FROM"; else failed "$name, REFUSE_FROM" "$why"; fi
preload=
shape=''
takes_none mwc_tally tallies_a_slice_without_memory
takes_memory mwc_states counts_under_one_rule
takes_memory mwc_states counts_under_three_rules
# the gatherer's row, and room for three handles; for each of three workers its room, and the start
# of its thread; and what comes then
shape='o+(o{4,})(s+)\1\2\1\2o+'
takes_memory mwc_gather gathers "not started"
takes_memory mwc_gather gathers_too_many "not started"
shape=''
takes_memory mwc_gather puts_parts_in_order
takes_memory mwc_gather finds_the_pieces
takes_memory mwc_gather sends_into_a_batch
takes_none mwc_gather marks_without_memory
# a run of three workers: the game, with several rules the game by contribution, the gathering as
# above, and the report
shape='g+o*m+(m{4,})(s+)\1\2\1\2m+o+'
for game in runs_on_brackets runs_on_toml runs_on_turned_rules; do
    for how in REFUSE_AT REFUSE_FROM; do
        sweep "$how" council_run "$game" "no memory for the game" "no memory to gather" "not started" "out of memory"
    done
done
# a tally by states: the game, its states and the report
shape='g+o+'
for how in REFUSE_AT REFUSE_FROM; do
    sweep "$how" council_run tallies_by_states "no memory for the game" "out of memory"
done
