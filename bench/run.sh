#!/usr/bin/env bash
# How long the proved program takes over a plain program of the same work, bench/report_baseline.rs:
# Rust with only the standard library, in one thread. Each is timed as a whole, from its start to
# its end, and its report goes to /dev/null. It is no test: nothing fails if a run is slow.
#
# The first table is that of docs/ARCHITECTURE.md: the median of RUNS runs (11) of the plain program
# in seconds, and that of the proved one over it, with 1 and 4 workers. They take turns, so a slow
# spell of the machine meets all. The second has tallies, which are counted by states: how many
# coalitions, the median in seconds, and the memory. The last has the longest of ten runs in
# seconds, beside as many busy loops as there are processors.
#
# No contract says how well threads wait. A lost wake-up costs a millisecond. If a waker is never
# called, each ring that is full or empty costs one: then a list of 658,008 coalitions, which goes
# in some 1,300 rows, takes a second. If a backoff is never renewed, each wait is a sleep, and 4
# workers gain little over 1. If looks never become fewer, they hold processors that others want,
# and the times of the last table rise.
#
# bench/run.sh [PROGRAM]   PROGRAM is crates/council/out/council if it is not given
set -eu
export LC_ALL=C
cd "$(dirname "$0")/.."
. tests/games.sh
council=${1:-crates/council/out/council}
runs=${RUNS:-11}
if ! command -v rustc >/dev/null; then
    echo "$0: the command rustc, which builds the plain program, was not found" >&2
    exit 1
fi
if [ ! -x "$council" ]; then
    echo "$0: there is no program $council: ./council --help builds it" >&2
    exit 1
fi
temp=$(mktemp -d)
busy=()
# shellcheck disable=SC2317
end() {
    [ "${#busy[@]}" -eq 0 ] || kill "${busy[@]}" 2>/dev/null || true
    rm -rf "$temp"
}
trap end EXIT
rustc -O --edition 2024 bench/report_baseline.rs -o "$temp/plain"

# The microseconds that a command takes.
micros() {
    local start end
    start=$EPOCHREALTIME
    "$@" >/dev/null
    end=$EPOCHREALTIME
    echo $((${end/./} - ${start/./}))
}

# The longest of so many runs of a command, in microseconds.
longest() {
    local count=$1 found=0 run time
    shift
    for ((run = 0; run < count; run++)); do
        time=$(micros "$@")
        [ "$time" -le "$found" ] || found=$time
    done
    echo "$found"
}

# The greatest resident memory of a command in KiB, or - where nothing here can tell.
memory() {
    if [ -x /usr/bin/time ]; then
        /usr/bin/time -o "$temp/memory" -f %M "$@" >/dev/null
        tail -n 1 "$temp/memory"
    else
        echo -
    fi
}

ratio() {
    awk -v over="$1" -v under="$2" 'BEGIN { printf "%.2f", over / under }'
}

seconds() {
    awk -v micros="$1" 'BEGIN { printf "%.3f", micros / 1000000 }'
}

# The notation of a quota and weights.
notation() {
    local quota=$1
    shift
    echo "[$quota; $(echo "$@" | sed 's/ /, /g')]"
}

# The median of these numbers.
median() {
    printf '%s\n' "$@" | sort -n | sed -n "$((($# + 1) / 2))p"
}

# row NAME FILE: a line of the first table.
row() {
    local name=$1 file=$2 run plain=() one=() four=()
    if ! cmp -s <("$temp/plain" "$file" --most 4000000) <("$council" "$file" --most 4000000); then
        echo "$name: the two reports differ" >&2
        exit 1
    fi
    for ((run = 0; run < runs; run++)); do
        plain+=("$(micros "$temp/plain" "$file" --most 4000000)")
        one+=("$(micros "$council" "$file" --most 4000000 --workers 1)")
        four+=("$(micros "$council" "$file" --most 4000000 --workers 4)")
    done
    plain=$(median "${plain[@]}")
    printf '%-34s %7s %5s %5s\n' "$name" "$(seconds "$plain")" \
        "$(ratio "$(median "${one[@]}")" "$plain")" "$(ratio "$(median "${four[@]}")" "$plain")"
}

# tally NAME FILE: a line of the second table.
tally() {
    local name=$1 file=$2 run times=()
    for ((run = 0; run < runs; run++)); do
        times+=("$(micros "$council" --tally "$file")")
    done
    printf '%-26s %20s %8s %8s\n' "$name" "$("$council" --tally "$file" | awk '$1 == "minimal" { print $2 }')" \
        "$(seconds "$(median "${times[@]}")")" "$(memory "$council" --tally "$file")"
}

mapfile -t ones < <(for ((i = 0; i < 40; i++)); do echo 1; done)
mapfile -t falling < <(for ((i = 0; i < 30; i++)); do echo $((1000 - 17 * i)); done)
notation 5 "${ones[@]}" >"$temp/five.txt"
notation 6 "${ones[@]}" >"$temp/six.txt"
# a fifth of the total
notation 4521 "${falling[@]}" >"$temp/falling.txt"
mapfile -t seats < <(repeat 1 '1, 0, 0' && repeat 9 '0, 1, 0' && repeat 17 '0, 0, 1')
rules_file '1, 5, 9' "${seats[@]}" >"$temp/president.toml"
printf '%-34s %7s %5s %5s\n' game plain 1 4
row '27 members' examples/eu-27-nice-votes.toml
row '40 equal, quota 5' "$temp/five.txt"
row '40 equal, quota 6' "$temp/six.txt"
row '30 members, a fifth' "$temp/falling.txt"
row '27 members, three rules' examples/eu-27-nice.toml
row 'president, two houses' "$temp/president.toml"

echo
printf '%-26s %20s %8s %8s\n' tally coalitions seconds KiB
notation 20 "${ones[@]}" >"$temp/twenty.txt"
tally '40 equal, quota 20' "$temp/twenty.txt"
tally '27 members' examples/eu-27-nice-votes.toml
tally '27 members, Lisbon' examples/eu-27-lisbon.toml
tally '36 members, Lisbon' examples/eu-36-lisbon.toml
for most in 100 1000 10000 60000; do
    x=7
    total=0
    weights=()
    for ((member = 0; member < 40; member++)); do
        x=$(((75 * x + 74) % 65537))
        weights+=($((x % most + 1)))
        total=$((total + x % most + 1))
    done
    notation $((total / 2 + 1)) "${weights[@]}" >"$temp/random-$most.txt"
    tally "40 random up to $most" "$temp/random-$most.txt"
done

echo
processors=$(nproc)
for ((i = 0; i < processors; i++)); do
    while :; do :; done &
    busy+=($!)
done
echo "beside $processors busy loops, the longest of ten runs in seconds"
printf '%-26s %8s %8s %8s\n' game plain 1 4
longest=("$(seconds "$(longest 10 "$temp/plain" examples/eu-27-nice-votes.toml)")")
for workers in 1 4; do
    longest+=("$(seconds "$(longest 10 "$council" examples/eu-27-nice-votes.toml --workers "$workers")")")
done
printf '%-26s %8s %8s %8s\n' '27 members' "${longest[@]}"
