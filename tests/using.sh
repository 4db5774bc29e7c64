#!/usr/bin/env bash
# council-tools on the stored reports, and the commands of README.md and docs/GUIDE.md.
. "$(dirname "$0")/common.sh"
cd "$top" || exit 1
export PYTHONDONTWRITEBYTECODE=1

tools=$top/tools/council-tools
if needs python3 "council-tools table on each example"; then
    why=
    for report in examples/*.tsv; do
        "$tools" table "$report" >/dev/null 2>"$temp/err" || why="$report: $(tail -n 1 "$temp/err")"
    done
    if [ -z "$why" ]; then ok "council-tools table on each example"; else failed "council-tools table on each example" "$why"; fi
fi
# What each tool does with tables, names and reports of any kind, and what it refuses.
if needs python3 tests/using; then
    for test in tests/using/*.py; do
        case $test in */cases.py | */package.py | */r.py) continue ;; esac
        python3 "$test" "$program" 2>"$temp/err" || failed "$test" "it stopped: $(tail -n 1 "$temp/err")"
    done
fi

# Each command of the documents with a `$` prints what the document shows after it. Those without it
# succeed, in a folder that has only the program, council-tools, and examples.
runs() {
    (cd "$temp/folder" && PATH=$temp/bin:$PATH timeout "$seconds" bash -c "$2") >"$temp/out" 2>"$temp/err" </dev/null
    status=$?
    if succeeded "$1"; then ok "$1"; fi
}
mkdir -p "$temp/bin" "$temp/folder"
ln -s "$tools" "$temp/bin/council-tools"
ln -s "$program" "$temp/bin/council"
ln -s "$program" "$temp/folder/council"
cp -r examples "$temp/folder/examples"
for document in README.md docs/GUIDE.md; do
    check_commands $document runs
    if [ "$number" -ge 2 ]; then ok "$document has commands"; else failed "$document has commands" "$number"; fi
done
