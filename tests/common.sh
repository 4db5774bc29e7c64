# What the test scripts share. Each is run as `bash tests/NAME.sh PROGRAM`, and begins by reading
# this file. It prints a line `ok NAME` or `FAILED NAME: why` for each test, or `skipped NAME: why`
# for one that can't be run here.
# shellcheck shell=bash
set -u
export LC_ALL=C
if [ $# -lt 1 ] || [ ! -x "$1" ]; then
    echo "FAILED $(basename "$0"): the first argument must be the built program" >&2
    exit 1
fi
program=$(cd "$(dirname "$1")" && pwd)/$(basename "$1")
top=$(cd "$(dirname "${BASH_SOURCE[0]}")/.." && pwd)
temp=$(mktemp -d)
trap 'rm -rf "$temp"' EXIT
# shellcheck source=tests/games.sh
. "$top/tests/games.sh"

# What all scripts use; where one is missing, nothing of a script can be run.
for command in awk cmp cp cut date diff env grep head mktemp sed sort tail timeout tr uniq wc; do
    if ! command -v "$command" >/dev/null; then
        echo "skipped $(basename "$0"): this machine has no $command"
        exit 0
    fi
done

# The seconds that one run may take before it is taken for a hang: 60, ten times what the longest
# takes, or on a slower or busier machine as many more times as one example takes longer there than
# a tenth of a second. One script after the other may be told by SECONDS_EACH, which says the
# seconds.
if [ -z "${SECONDS_EACH:-}" ]; then
    begun=$(date +%s%N)
    timeout 600 "$program" --workers 1 "$top/examples/eu-1995.toml" >/dev/null 2>&1 </dev/null
    SECONDS_EACH=$((($(date +%s%N) - begun) / 1000000 * 6 / 10))
    [ "$SECONDS_EACH" -ge 60 ] || SECONDS_EACH=60
    export SECONDS_EACH
fi
seconds=$SECONDS_EACH

ok() {
    echo "ok $1"
}

failed() {
    echo "FAILED $1: $2"
}

skipped() {
    echo "skipped $1: $2"
}

# needs COMMAND NAME..: whether there is such a command; if not, the tests of these names are
# skipped.
needs() {
    local command=$1 name
    command -v "$command" >/dev/null && return 0
    for name in "${@:2}"; do
        skipped "$name" "this machine has no $command"
    done
    return 1
}

# Runs the program on the words, with the standard input of this call, and keeps its status, its
# standard output and its standard error.
run() {
    timeout "$seconds" "$program" "$@" >"$temp/out" 2>"$temp/err"
    status=$?
}

# without COMMAND WORD..: runs the words on a system that lacks this command, and keeps what `run`
# keeps.
without() {
    rm -rf "$temp/few"
    mkdir "$temp/few"
    ln -s /usr/bin/* "$temp/few/"
    ln -sf /bin/* "$temp/few/"
    rm -f "$temp/few/$1"
    PATH=$temp/few:${kit:-} timeout "$seconds" "${@:2}" >"$temp/out" 2>"$temp/err" </dev/null
    status=$?
}

# Whether the last run ended with status 0 and nothing on standard error.
succeeded() {
    if [ "$status" -ne 0 ]; then
        failed "$1" "status $status: $(head -n 1 "$temp/err")"
    elif [ -s "$temp/err" ]; then
        failed "$1" "standard error holds: $(head -n 1 "$temp/err")"
    else
        return 0
    fi
    return 1
}

# Whether the last run printed what the file $2 holds, and nothing else.
printed() {
    if succeeded "$1"; then
        if cmp -s "$temp/out" "$2"; then
            ok "$1"
        else
            failed "$1" "the report differs: $(diff "$temp/out" "$2" | head -n 4 | tr '\n' ';')"
        fi
    fi
}

# check_commands PAGE [RUNS]: each line `$ COMMAND` of a page prints the lines up to the next such
# line or the end of the block. `council` is in $temp/bin. A line without the `$` that begins with
# one of our commands is given to the function RUNS, if one is named. It keeps how many commands
# there were in $number.
check_commands() {
    local page=$1 runs=${2:-} line command=
    number=0
    while IFS= read -r line || [ -n "$line" ]; do
        case $line in
        "\$ "* | '```'*)
            if [ -n "$command" ]; then
                number=$((number + 1))
                PATH=$temp/bin:$PATH timeout "$seconds" bash -c "${command//.\/council/council}" >"$temp/out" 2>"$temp/err" </dev/null
                status=$?
                printed "$page, command $number" "$temp/wanted"
            fi
            command=
            [ "$line" = "${line#\$ }" ] || command=${line#\$ }
            : >"$temp/wanted"
            ;;
        *)
            if [ -n "$command" ]; then
                printf '%s\n' "$line" >>"$temp/wanted"
            elif [ -n "$runs" ] && [[ $line =~ ^(\./council|council-tools)\  ]]; then
                number=$((number + 1))
                "$runs" "$page, command $number" "$line"
            fi
            ;;
        esac
    done <"$page"
}

# Whether the last run ended with the status $2, printed nothing, and wrote to standard error the
# one line `council: $3`.
refused() {
    printf 'council: %s\n' "$3" >"$temp/wanted"
    if [ "$status" -ne "$2" ]; then
        failed "$1" "status $status in place of $2: $(head -n 1 "$temp/err")"
    elif [ -s "$temp/out" ]; then
        failed "$1" "standard output holds: $(head -n 1 "$temp/out")"
    elif ! cmp -s "$temp/err" "$temp/wanted"; then
        failed "$1" "standard error holds: $(head -n 2 "$temp/err" | tr '\n' ';')"
    else
        ok "$1"
    fi
}

# The notation of a game of $1 members of weight 1 with the quota $2.
equal_members() {
    local members=$1 text="[$2; 1" member
    for ((member = 1; member < members; member++)); do
        text="$text, 1"
    done
    echo "$text]"
}

# A game file with the quota $1 and members A, B, C, .. of the weights that follow.
game_file() {
    echo "quota = $1"
    shift
    local member=0 names=ABCDEFGHIJKLMNOPQRSTUVWXYZ weight
    for weight in "$@"; do
        printf '[[member]]\nname = "%s"\nweight = %s\n' "${names:member:1}" "$weight"
        member=$((member + 1))
    done
}

# The game file of two rules over the members A, B, C, D: 5 of 3, 2, 2, 1 and 3 of 1, 1, 1, 1.
two_rules() {
    cat <<'END'
quotas = [5, 3]
member = [
    {name = "A", weights = [3, 1]}, {name = "B", weights = [2, 1]},
    {name = "C", weights = [2, 1]}, {name = "D", weights = [1, 1]},
]
END
}

# write_rules QUOTAS WEIGHTS..: a game of these rules, the numbers of each with commas between them
write_rules() {
    rules_file "$@" >"$temp/rules.toml"
}

# each_hard_game WORD..: writes games of several rules to $temp/rules.toml, one after the other, and
# calls these words with the name of each. By a plain walk, or in another order, some take minutes.
each_hard_game() {
    local x rules member total weight votes quotas unit order president senate house directors seats
    for directors in 23 39; do
        mapfile -t votes < <(repeat "$directors" '1, 0')
        write_rules '2, 1' '0, 1' "${votes[@]}"
        "$@" "$directors directors and a chair"
        mapfile -t votes < <(repeat "$directors" '0, 1')
        write_rules '1, 2' '1, 0' "${votes[@]}"
        "$@" "a chair and $directors directors"
    done
    for seats in 12 20; do
        mapfile -t votes < <(repeat "$seats" '1, 0' && repeat "$seats" '0, 1')
        write_rules '2, 2' "${votes[@]}"
        "$@" "two houses of $seats"
    done
    # a president, a senate of nine and a house of seventeen, in each order of the rules
    unit=('1, 0, 0' '0, 1, 0' '0, 0, 1')
    for order in '0 1 2' '0 2 1' '1 0 2' '1 2 0' '2 0 1' '2 1 0'; do
        read -r president senate house <<<"$order"
        quotas=()
        quotas[president]=1 quotas[senate]=5 quotas[house]=9
        mapfile -t votes < <(repeat 1 "${unit[president]}" && repeat 9 "${unit[senate]}" && repeat 17 "${unit[house]}")
        write_rules "${quotas[0]}, ${quotas[1]}, ${quotas[2]}" "${votes[@]}"
        "$@" "a president, a senate and a house as rules $order"
    done
    for rules in 2 3 4; do
        random_file "$rules" "$rules" >"$temp/rules.toml"
        "$@" "26 random members and $rules rules"
    done

    # 34 members of nearly the same weight, and six of nearly none, five of whom the second rule
    # needs: a walk in the order of the first rule takes more than a minute, and in that of
    # contribution tenths of a second
    x=7
    total=0
    votes=()
    for ((member = 0; member < 40; member++)); do
        x=$(((75 * x + 74) % 65537))
        if [ "$member" -lt 34 ]; then
            total=$((total + 1000 + x % 500))
            votes+=("$((1000 + x % 500)), $((x % 3))")
        else
            votes+=("$((x % 4 + 1)), $((1000 + x % 50))")
        fi
    done
    write_rules "$((total * 6 / 100)), 5100" "${votes[@]}"
    "$@" "34 equals and six others"
}

# compile_preloaded NAME..: compiles preloaded/NAME.c to $temp/NAME.so, which is loaded before the C
# library; if there is no compiler, the script ends here.
compile_preloaded() {
    local name
    needs cc "$(basename "$0")" || exit 0
    for name; do
        if ! cc -O2 -Wall -Wextra -shared -fPIC -o "$temp/$name.so" "$top/tests/preloaded/$name.c" -ldl -pthread 2>"$temp/cc"; then
            failed "preloaded/$name.c is compiled" "$(head -n 1 "$temp/cc")"
            exit 1
        fi
    done
}
