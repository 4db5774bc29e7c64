# Game files, which the scripts of tests and bench/run.sh write. Each function prints one.
# shellcheck shell=bash

# rules_file QUOTAS WEIGHTS..: a game file of several rules; the numbers of each have commas between
# them.
rules_file() {
    local quotas=$1 member=0 weights
    shift
    echo "quotas = [$quotas]"
    for weights in "$@"; do
        member=$((member + 1))
        printf '[[member]]\nname = "%s"\nweights = [%s]\n' "$member" "$weights"
    done
}

# repeat COUNT WORD: the word so many times.
repeat() {
    local left
    for ((left = $1; left > 0; left--)); do echo "$2"; done
}

# random_file SEED RULES: a game file of 26 members with random weights up to 50 and zeros under
# each rule, and as quotas more than a third of what they add up to.
random_file() {
    local x=$1 rules=$2 rule member sum weight quotas="" weights=()
    for ((rule = 0; rule < rules; rule++)); do
        sum=0
        for ((member = 0; member < 26; member++)); do
            x=$(((75 * x + 74) % 65537))
            weight=$((x % 3 == 0 ? 0 : x % 50 + 1))
            sum=$((sum + weight))
            weights[member]+=${weights[member]:+, }$weight
        done
        quotas+=${quotas:+, }$((sum / 3 + 1))
    done
    rules_file "$quotas" "${weights[@]}"
}
