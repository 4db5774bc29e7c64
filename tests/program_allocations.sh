#!/usr/bin/env bash
# Refuses the program's allocations, one after the other, and then each from one on, until no
# refusal is met. Each time the program says that it is out of memory, or that a worker could not be
# started, with status 5, that one line on standard error and nothing on standard output; or, where
# the refused allocation belongs to the reading of its command line, it does exactly what it does
# with ample memory. At a fault of the command line it may also tell less of the fault, on standard
# error and with status 2, and with --explain it may lack lines after the first. And a small game
# works while each allocation of more than 64 KiB is refused. The library that refuses is
# preloaded/refuse.c. Threads are refused too.
. "$(dirname "$0")/common.sh"

compile_preloaded refuse
{
    echo 'title = "Two rules"'
    two_rules
} >"$temp/two.toml"
echo '[51; 35, 20, 15, 15, 15]' >"$temp/five.txt"
game_file 51 35 20 15 15 15 >"$temp/five.toml"
game_file 51 50 49 1 | sed 's/"C"/"A"/' >"$temp/fault-1.toml"
game_file 51 50 49 1 | sed 's/"C"/"C/' >"$temp/fault-2.toml"
game_file 51 50 49 1 | sed 's/^name = "B"/&\nvote = 1/' >"$temp/fault-3.toml"
game_file 101 50 49 1 >"$temp/fault-4.toml"
echo '[51; 50, 49,, 1]' >"$temp/fault-5.txt"
printf '%65537s' '' >"$temp/fault-6.txt"

printf 'council: out of memory\n' >"$temp/memory"
printf 'council: a worker could not be started\n' >"$temp/start"

# Runs the program on the words with the allocation refused that $1 names; what refuse.c says goes
# to a file of its own.
hostile() {
    local refusal=$1
    shift
    : >"$temp/said"
    # (env goes last: timeout itself is to meet no refusal)
    timeout -k 5 "$seconds" env "$refusal" REFUSE_TO=9 LD_PRELOAD="$temp/refuse.so" "$program" "$@" \
        >"$temp/out" 2>"$temp/err" 9>"$temp/said" </dev/null
    status=$?
}

# Whether standard error holds a text that is shorter than with ample memory. For a fault of the
# game it has the first lines of that.
is_shorter() {
    [ -s "$temp/err" ] && [ "$(wc -c <"$temp/err")" -lt "$(wc -c <"$temp/ample.err")" ] &&
        { [ "$ample" -eq 2 ] || head -n "$(wc -l <"$temp/err")" "$temp/ample.err" | cmp -s - "$temp/err"; }
}

# How many allocations the program makes before it opens its game: with the same words, and a file
# that is not there.
allocations_of_words() {
    local number
    for ((number = 1; number <= 10000; number++)); do
        hostile "REFUSE_AT=$number" "${@/$game/$temp/missing}"
        [ -s "$temp/said" ] || break
    done
    echo $((number - 1))
}

# sweep NAME WORDS..: the runs end so while allocations are refused, as long as one is. One that
# ends as with ample memory met its refusal in the reading of the command line.
sweep() {
    local name=$1 ample how number why memory start same late shorter said first
    shift
    run "$@" </dev/null
    ample=$status
    cp "$temp/out" "$temp/ample.out"
    cp "$temp/err" "$temp/ample.err"
    first=100000
    [ -z "$game" ] || first=$(allocations_of_words "$@")
    for how in REFUSE_AT REFUSE_FROM; do
        why=
        memory=0
        start=0
        same=0
        late=0
        shorter=0
        for ((number = 1; number <= 100000; number++)); do
            hostile "$how=$number" "$@"
            if [ "$status" -eq 5 ] && [ ! -s "$temp/out" ] && [ -s "$temp/said" ] && cmp -s "$temp/err" "$temp/memory"; then
                memory=$((memory + 1))
            elif [ "$status" -eq 5 ] && [ ! -s "$temp/out" ] && [ -s "$temp/said" ] && cmp -s "$temp/err" "$temp/start"; then
                start=$((start + 1))
            elif [ "$status" -eq "$ample" ] && cmp -s "$temp/out" "$temp/ample.out" && cmp -s "$temp/err" "$temp/ample.err"; then
                [ -s "$temp/said" ] || break
                same=$((same + 1))
                [ "$number" -le "$first" ] || late=$((late + 1))
            elif [ "$status" -eq "$ample" ] && [[ $ample == [23] ]] && [ ! -s "$temp/out" ] && [ -s "$temp/said" ] && is_shorter; then
                shorter=$((shorter + 1))
            else
                why="$how=$number: status $status, $(wc -c <"$temp/out") bytes of output, $(head -n 1 "$temp/err")"
                break
            fi
        done
        if [ -n "$why" ]; then
            :
        elif [ "$number" -gt 100000 ]; then
            why="an allocation is still refused at number 100000"
        elif [ "$number" -eq 1 ]; then
            why="no allocation was seen, so none was refused"
        elif [ "$memory" -eq 0 ]; then
            why="want of memory was never told"
        elif [ "$late" -gt 0 ]; then
            why="$late runs ended as with ample memory though an allocation behind number $first was refused"
        fi
        if [ -z "$why" ]; then
            said="$memory out of memory, $start not started, $same as with ample memory"
            [ "$shorter" -eq 0 ] || said="$said, $shorter with a shorter text"
            ok "$name, $how 1 to $((number - 1)): $said"
        else
            failed "$name, $how" "$why"
        fi
    done
}

game=$temp/five.txt
sweep "five coalitions in brackets" "$game" --list --sizes --notation --workers 3
game=$temp/five.toml
sweep "five coalitions" "$game" --list --sizes --workers 3
game=$temp/two.toml
sweep "two rules" "$game" --list --sizes --notation --workers 2
game=$temp/five.toml
sweep "a tally" "$game" --tally --sizes --workers 3
sweep "swings" "$game" --swings --tally
sweep "only swings" "$game" --only-swings
sweep "too many coalitions" "$game" --most 4 --workers 2
for game in "$temp"/fault*; do
    run "$game"
    sweep "a fault of the game, $(sed 's/^council: //' "$temp/err")" "$game"
done
game=$temp/fault-3.toml
sweep "a fault that is explained" "$game" --explain

# ---- a small game asks for little room at once, whatever the limits are
game=$top/examples/un-security-council.toml
for words in "--list --sizes --most 4000000" "--tally --sizes"; do
    name="no allocation of more than 64 KiB, $words"
    read -ra flags <<<"$words --workers 16 --bits 10"
    run "${flags[@]}" "$game" </dev/null
    cp "$temp/out" "$temp/wanted"
    hostile REFUSE_OVER=65536 "${flags[@]}" "$game"
    if [ -s "$temp/said" ]; then failed "$name" "$(cat "$temp/said")"; else printed "$name" "$temp/wanted"; fi
done

# ---- on a terminal no option is named, since none helps
name="refused memory on a terminal"
if needs python3 "$name"; then
    game=$temp/five.toml
    printf 'council: out of memory\r\n' >"$temp/wanted"
    first=$(allocations_of_words "$game")
    why=
    for number in $((first + 1)) $((first + 2)); do
        # (what refuse.c says goes past the terminal)
        timeout "$seconds" python3 "$top/tests/terminal.py" bash -c 'exec 9>"$0" && exec "$@"' "$temp/said" \
            env REFUSE_FROM="$number" REFUSE_TO=9 LD_PRELOAD="$temp/refuse.so" "$program" "$game" >"$temp/out" 2>"$temp/err"
        status=$?
        if [ "$status" -ne 5 ] || [ -s "$temp/out" ] || [ ! -s "$temp/said" ] || ! cmp -s "$temp/err" "$temp/wanted"; then
            why="allocation $number: status $status, $(head -n 2 "$temp/err" | tr '\r\n' '  ')"
        fi
    done
    if [ -z "$why" ]; then ok "$name"; else failed "$name" "$why"; fi
fi

# ---- no thread starts: no option is named then, neither with --explain nor on a terminal
name="no thread starts"
if ! echo 'int pthread_create(void) { return 11; }' | cc -x c -shared -fPIC -o "$temp/alone.so" - 2>"$temp/cc"; then
    failed "$name" "$(head -n 1 "$temp/cc")"
else
    for word in --workers=1 --explain; do
        timeout "$seconds" env LD_PRELOAD="$temp/alone.so" "$program" "$word" "$temp/five.toml" >"$temp/out" 2>"$temp/err" </dev/null
        status=$?
        refused "$name, $word" 5 "a worker could not be started"
    done
    if needs python3 "$name, on a terminal"; then
        timeout "$seconds" python3 "$top/tests/terminal.py" env LD_PRELOAD="$temp/alone.so" "$program" "$temp/five.toml" >"$temp/out" 2>"$temp/told"
        status=$?
        tr -d '\r' <"$temp/told" >"$temp/err"
        refused "$name, on a terminal" 5 "a worker could not be started"
    fi
fi

game=
sweep "--help" --help
sweep "a fault of the command line" --workers 0
sweep "an unknown option" --order
