#!/usr/bin/env bash
# Each game of examples/ gives the report beside it: as a FILE, and counted on standard input. Each
# game of docs/statutes gives the report of tests/oracle.py, and a document names it.
. "$(dirname "$0")/common.sh"

# (counted one by one, some would take minutes)
for game in "$top"/examples/*.toml "$top"/examples/*.txt; do
    report=${game%.toml}.tsv
    name=$(basename "$game")
    run "$game"
    printed "example $name" "$report"
    run --tally <"$game"
    printed "example $name on standard input, --tally" "$report"
done

for game in "$top"/docs/statutes/*; do
    name=docs/statutes/$(basename "$game")
    if ! grep -qF "$(basename "$game")" "$top/docs/GUIDE.md"; then
        failed "$name" "no document names it"
    elif needs python3 "$name"; then
        python3 "$top/tests/oracle.py" "$game" >"$temp/oracle"
        run "$game"
        printed "$name" "$temp/oracle"
    fi
done
