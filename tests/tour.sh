#!/usr/bin/env bash
# docs/TOUR.md: its commands print what it shows after them, and each call in its table has the
# clause beside it.
. "$(dirname "$0")/common.sh"
cd "$top" || exit 1
page=docs/TOUR.md

# Commands that need a proof have no `$`, and are not run.
mkdir "$temp/bin"
ln -s "$program" "$temp/bin/council"
check_commands $page
if [ "$number" -ge 8 ]; then ok "$page has commands"; else failed "$page has commands" "$number"; fi

# A row names a call, its file and a clause: the clause is in the contract of that function.
rows=0
while IFS='|' read -r _ call file clause _; do
    rows=$((rows + 1))
    call=$(tr -d ' `' <<<"$call")
    clause=${clause# \`}
    clause=${clause%\` }
    name="$page: the clause of $call"
    if sed -n "/fn ${call##*::}[<(]/,/^ *{\$/p" "crates/${file// /}" 2>/dev/null | tr '\n' ' ' | tr -s ' ' | grep -qF -e "$clause"; then
        ok "$name"
    else
        failed "$name" "crates/${file// /} has no such function with: $clause"
    fi
done < <(grep '^| `' $page)
if [ "$rows" -ge 10 ]; then ok "$page has calls"; else failed "$page has calls" "$rows"; fi
