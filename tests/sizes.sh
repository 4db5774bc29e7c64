#!/usr/bin/env bash
# Games of many members, rules and coalitions succeed: no mutant may answer out of memory, too many
# coalitions or a fault of the file above one size.
. "$(dirname "$0")/common.sh"

# A game file of groups of members, one rule for each group: of each group one member is needed.
one_of_each() {
    local group other member quotas='' weights names=0
    for group in "$@"; do quotas="$quotas, 1"; done
    echo "quotas = [${quotas#, }]"
    for ((group = 1; group <= $#; group++)); do
        weights=
        for ((other = 1; other <= $#; other++)); do weights="$weights, $((group == other))"; done
        for ((member = 0; member < ${!group}; member++)); do
            names=$((names + 1))
            printf '[[member]]\nname = "member %d"\nweights = [%s]\n' "$names" "${weights#, }"
        done
    done
}

# groups QUOTAS [COUNT WEIGHTS]..: a game file of several rules with this many members of these
# weights.
groups() {
    local left names=0
    echo "quotas = [$1]"
    shift
    while [ "$#" -gt 0 ]; do
        for ((left = $1; left > 0; left--)); do
            names=$((names + 1))
            printf '[[member]]\nname = "%d"\nweights = [%s]\n' "$names" "$2"
        done
        shift 2
    done
}

# listed NAME COUNT: the last run succeeded, and its report has COUNT coalitions, and as many lines
# for them.
listed() {
    if succeeded "$1"; then
        if [ "$(sed -n 's/^minimal\t//p' "$temp/out")" = "$2" ] && [ "$(grep -c '^coalition' "$temp/out")" -eq "$2" ]; then
            ok "$1"
        else
            failed "$1" "$(sed -n 's/^minimal\t//p' "$temp/out") are told and $(grep -c '^coalition' "$temp/out") listed"
        fi
    fi
}

many="too many minimal winning coalitions"

# ---- members and rules, against tests/oracle.py
if needs python3 "games of 39 and 40 members and up to 4 rules"; then
    for groups in "40" "39" "5 35" "2 3 35" "3 3 2 31" "2 3 3 32"; do
        # shellcheck disable=SC2086
        one_of_each $groups >"$temp/game.toml"
        for words in "--notation" "--list --sizes --notation"; do
            # shellcheck disable=SC2086
            python3 "$top/tests/oracle.py" "$temp/game.toml" $words >"$temp/oracle"
            # shellcheck disable=SC2086
            run "$temp/game.toml" $words --bits 10 --workers 16
            printed "groups of $groups members, $words" "$temp/oracle"
        done
    done
    # the longest notation: 40 members of the greatest weight
    {
        printf '[39000000000001; 1000000000000'
        for ((member = 1; member < 40; member++)); do printf ', 1000000000000'; done
        echo ']'
    } >"$temp/heavy.txt"
    python3 "$top/tests/oracle.py" "$temp/heavy.txt" --notation >"$temp/oracle"
    run "$temp/heavy.txt" --notation
    printed "the notation of 40 members of the greatest weight" "$temp/oracle"
fi

# ---- lists: 100 x 10,000 and 101 x 9,901 coalitions (each that the first rule needs with each that
# the second needs), and each six of 40 members
groups "25, 63" 6 "4, 0" 4 "3, 0" 10 "0, 7" 9 "0, 2" >"$temp/million.toml"
run "$temp/million.toml" --list
listed "1000000 coalitions, as many as a run keeps by itself" 1000000
groups "22, 34" 4 "7, 0" 5 "4, 0" 5 "0, 7" 11 "0, 4" >"$temp/more.toml"
run "$temp/more.toml" --list
refused "1000001 coalitions, one more than a run keeps by itself" 4 "$many"
run "$temp/more.toml" --list --most 1000001 --workers 2
listed "1000001 coalitions with --most 1000001" 1000001
equal_members 40 6 >"$temp/six.txt"
run "$temp/six.txt" --list --most 3838380
listed "3838380 coalitions with --most 3838380" 3838380
run --tally "$temp/six.txt"
cp "$temp/out" "$temp/wanted"
run "$temp/six.txt"
printed "3838380 coalitions, counted by states" "$temp/wanted"

# ---- billions of coalitions, which few states show: a walk to the first four million takes minutes
groups "61, 51" 10 "9, 1" 30 "1, 3" >"$temp/billions.toml"
run "$temp/billions.toml" --list --most 4000000
refused "70705346310 coalitions" 4 "$many"
groups "57, 244" 3 "16, 1" 9 "4, 4" 28 "1, 16" >"$temp/three.toml"
run "$temp/three.toml" --list --most 4000000
refused "three groups of 40 members" 4 "$many"

# ---- fewer than there are
equal_members 40 20 >"$temp/twenty.txt"
run "$temp/twenty.txt" --most 1 --workers 4
refused "40 equal members, quota 20, --most 1" 4 "$many"
equal_members 40 2 >"$temp/two.txt"
run "$temp/two.txt" --most 779 --workers 4 --bits 6
refused "780 coalitions with --most 779" 4 "$many"
run "$temp/two.txt" --most 780 --workers 4 --bits 6
succeeded "780 coalitions with --most 780" && ok "780 coalitions with --most 780"
