#!/usr/bin/env bash
# tools/preview: what it asks the toolchain for, and one look at the sources as they are.
. "$(dirname "$0")/common.sh"

mkdir "$temp/kit" "$temp/elsewhere"
cat >"$temp/kit/rt" <<END
#!/bin/sh
printf '%s ' "\$@" | sed "s:=[^ ]*/game:=GAME:" >"$temp/asked"
if [ "\$2" = --data ]; then cp "\${3#game.toml=}" "$temp/game"; else : >"$temp/game"; fi
cat >"$temp/input"
echo report
echo "council: a fault" >&2
echo "checked: ended status=3" >&2
echo "races: not looked for" >&2
echo "run=ended status=3 runners=1 races=unchecked proved=no" >&2
exit 3
END
chmod +x "$temp/kit/rt"
cd "$temp/elsewhere" || exit 1
echo "a game" >"a game.toml"
echo "a game by its name" >--list

# look NAME WORDS GAME INPUT WORD..: whether the toolchain is then asked for these words, and given
# this game, if it is not empty, and this input.
look() {
    local name="tools/preview $1" words="try ${3:+--data game.toml=GAME }-- $2" game=$3 input=$4
    shift 4
    echo "the input" | PATH=$temp/kit:$PATH timeout "$((seconds * 10))" "$top/tools/preview" "$@" >"$temp/out" 2>"$temp/err"
    status=$?
    if [ "$status" -ne 3 ] || [ "$(cat "$temp/out")" != report ]; then
        failed "$name" "status $status: $(head -n 1 "$temp/err")"
    elif [ "$(cat "$temp/asked")" != "$words" ]; then
        failed "$name" "the toolchain was asked for: $(cat "$temp/asked")"
    elif [ "$(cat "$temp/game")" != "$game" ] || [ "$(cat "$temp/input")" != "$input" ]; then
        failed "$name" "the game is $(cat "$temp/game"), and the input $(cat "$temp/input")"
    elif [ "$(wc -l <"$temp/err")" -ne 2 ] || ! head -n 1 "$temp/err" | grep -q 'nothing is proved' || [ "$(tail -n 1 "$temp/err")" != "council: a fault" ]; then
        failed "$name" "standard error holds: $(tr '\n' '/' <"$temp/err")"
    else
        ok "$name"
    fi
}
look "FILE between options" "--workers 2 game.toml --list " "a game" "" --workers 2 "a game.toml" --list
look "FILE behind --" "--bits=2 -- game.toml " "a game by its name" "" --bits=2 -- --list
look "on standard input" "--most 5 " "" "the input" --most 5
look "on a folder" ".. " "" "" ..
look "on a FILE that is not there" "none.toml " "" "" none.toml
look "on a game.toml that is not there" "game.toml " "" "" game.toml

name="tools/preview leaves no file"
mkdir "$temp/tmp"
TMPDIR=$temp/tmp PATH=$temp/kit:$PATH "$top/tools/preview" "a game.toml" >"$temp/out" 2>&1
if [ -z "$(ls -A "$temp/tmp")" ]; then ok "$name"; else failed "$name" "$(ls -A "$temp/tmp")"; fi

name="tools/preview runs the sources"
if needs rt "$name"; then
    ln -s "$top/tools/preview" "$temp/link"
    timeout "$((seconds * 10))" "$temp/link" "$top/examples/board.toml" >"$temp/out" 2>"$temp/err" </dev/null
    status=$?
    if [ "$status" -eq 0 ] && cmp -s "$temp/out" "$top/examples/board.tsv" && [ "$(wc -l <"$temp/err")" -eq 1 ]; then
        ok "$name"
    else
        failed "$name" "status $status: $(tr '\n' '/' <"$temp/err")"
    fi
fi
