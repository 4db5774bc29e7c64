#!/usr/bin/env bash
# The manual page, the completions, the version and the texts of docs/FORMATS.md, against the
# program.
. "$(dirname "$0")/common.sh"

run --help </dev/null
cp "$temp/out" "$temp/help"
sed -n '/^Options:/,/^A game file/p' "$temp/help" | grep -oE '(^|[ ,])-(-[a-z]+|[a-zA-Z])\b' | tr -d ' ,' | sort -u >"$temp/options"
if [ "$(wc -l <"$temp/options")" -ge 10 ]; then
    ok "--help has options"
else
    failed "--help has options" "$(tr '\n' ' ' <"$temp/options")"
fi

# same_options NAME: whether $temp/found has each option of --help, and no other.
same_options() {
    if sort -u "$temp/found" | cmp -s - "$temp/options"; then
        ok "the options of $1"
    else
        failed "the options of $1" "$(sort -u "$temp/found" | diff - "$temp/options" | grep '^[<>]' | tr '\n' ' ')"
    fi
}

sed -n '/^\.SH OPTIONS/,/^\.SH "GAME FILE"/p' "$top/docs/council.1" | sed 's/\\-/-/g' |
    grep -A1 '^\.TP' | grep -oE -e '-(-[a-z]+|[a-zA-Z])\b' >"$temp/found"
same_options docs/council.1
grep -oE 'compgen -W "--workers[^"]*"' "$top/completions/council.bash" | grep -oE -e '-(-[a-z]+|[a-zA-Z])\b' | grep -v '^-W' >"$temp/found"
same_options completions/council.bash
grep -oE "^    '(\([^)]*\))?(--[a-z]+|'?\{[^}]*\})" "$top/completions/_council" | sed 's/([^)]*)//' | grep -oE -e '-(-[a-z]+|[a-zA-Z])\b' >"$temp/found"
same_options completions/_council
{
    grep -oE -e '-l [a-z]+' "$top/completions/council.fish" | sed 's/-l /--/'
    grep -oE -e '-s [a-zA-Z]' "$top/completions/council.fish" | sed 's/-s /-/'
} >"$temp/found"
same_options completions/council.fish
sed -n '/^| Option/,/^$/p' "$top/docs/GUIDE.md" | cut -d '|' -f 2 | grep -oE -e '-(-[a-z]+|[a-zA-Z])\b' >"$temp/found"
same_options docs/GUIDE.md

if needs bash "completions/council.bash completes"; then
    # shellcheck disable=SC2016
    bash -c '. "$1"; COMP_WORDS=(council --wor); COMP_CWORD=1; _council; echo "${COMPREPLY[*]}"
        COMP_WORDS=(council --bits 1); COMP_CWORD=2; _council; echo "${COMPREPLY[*]}"' bash "$top/completions/council.bash" >"$temp/out" 2>"$temp/err"
    if [ "$(tr '\n' ' ' <"$temp/out")" = "--workers 1 10 " ] && [ ! -s "$temp/err" ]; then
        ok "completions/council.bash completes"
    else
        failed "completions/council.bash completes" "$(cat "$temp/out" "$temp/err" | tr '\n' ' ')"
    fi
fi
if needs bash "completions/council-tools.bash completes"; then
    # shellcheck disable=SC2016
    bash -c '. "$1"; cd "$2"; completed() { COMP_WORDS=("$@"); COMP_CWORD=$(($# - 1)); _council_tools; echo "${COMPREPLY[*]}"; }
        completed council-tools sw; completed council-tools bars --g; completed council-tools sweep --index p
        completed council-tools export j; completed council-tools bars --game examples/board.to' \
        bash "$top/completions/council-tools.bash" "$top" >"$temp/out" 2>"$temp/err"
    if [ "$(tr '\n' ' ' <"$temp/out")" = "sweep --game public-good penrose power-to-prevent power-to-initiate json examples/board.toml " ] && [ ! -s "$temp/err" ]; then
        ok "completions/council-tools.bash completes"
    else
        failed "completions/council-tools.bash completes" "$(cat "$temp/out" "$temp/err" | tr '\n' ' ')"
    fi
fi
for command in council council-tools; do
    name="completions/_$command is read by zsh"
    if needs zsh "$name"; then
        if zsh -n "$top/completions/_$command"; then ok "$name"; else failed "$name" "it is not"; fi
    fi
    name="completions/$command.fish is read by fish"
    if needs fish "$name"; then
        if fish -n "$top/completions/$command.fish"; then ok "$name"; else failed "$name" "it is not"; fi
    fi
    name="docs/$command.1 has no warnings"
    if command -v mandoc >/dev/null; then
        said=$(mandoc -T lint -W warning "$top/docs/$command.1" 2>&1)
    elif command -v groff >/dev/null && command -v man >/dev/null; then
        said=$(MANROFFSEQ='' man --warnings -E UTF-8 -l -Tutf8 -Z "$top/docs/$command.1" 2>&1 >/dev/null)
    else
        said=skipped
    fi
    case $said in
    '') ok "$name" ;;
    skipped) skipped "$name" "this machine has neither mandoc nor man with groff" ;;
    *) failed "$name" "$(head -n 2 <<<"$said" | tr '\n' ' ')" ;;
    esac
done

# ---- the pages of council-tools say what its tools say of themselves
name="the manual page and the completions of council-tools"
if needs python3 "$name"; then
    if python3 "$top/tools/tool_pages.py" --check >"$temp/out" 2>&1; then ok "$name"; else failed "$name" "$(tail -n 1 "$temp/out")"; fi
fi

# ---- one version
run --version </dev/null
version=$(sed -n '1s/^council //p' "$temp/out")
kit=$(sed -n '2s/^proved with //p' "$temp/out")
date=$(sed -n "s/^## $version, //p" "$top/CHANGELOG.md")
# each_is FILE PLACE WANTED: whether the file has this text at each place, where sed finds it by its
# marks, and has one.
each_is() {
    local found
    found=$(sed -nE "s/$2/\\1/p" "$top/$1" | sort -u)
    if [ "$found" = "$3" ]; then ok "$3 in $1"; else failed "$3 in $1" "it is $(echo "$found" | tr '\n' ' ')"; fi
}
each_is README.md '.*This is version ([0-9.]+)\..*' "$version"
each_is README.md '.* council-([0-9.]+)-x86_64-linux\.tar\.gz.*' "$version"
each_is README.md '.* council-([0-9.]+)-x86_64-linux$' "$version"
each_is CITATION.cff '^ *version: (.*)' "$version"
each_is CITATION.cff '^ *date-released: (.*)' "$date"
each_is docs/council.1 '^\.TH .*"council (.*)" .*' "$version"
each_is docs/council.1 '^\.TH COUNCIL 1 ([^ ]*) .*' "$date"
if [ "$(sed -n 's/^## //p' "$top/CHANGELOG.md" | head -n 1)" = "$version, $date" ] && [ -n "$date" ]; then
    ok "the version in CHANGELOG.md"
else
    failed "the version in CHANGELOG.md" "its first is not $version with a date"
fi
if [ -n "$kit" ] && grep -qF "\`$kit\`" "$top/README.md"; then ok "the kit in README.md"; else failed "the kit in README.md" "it is not $kit"; fi
if needs rt "the kit of --version is the one at hand"; then
    found=$(rt version 2>/dev/null)
    if [ "$found" = "$kit" ]; then
        ok "the kit of --version is the one at hand"
    else
        skipped "the kit of --version is the one at hand" "that is $found, and --version says $kit"
    fi
fi

# ---- the code in docs/LIBRARY.md is that of the crates, and so are the laws
if needs python3 "docs/LIBRARY.md has code of the crates"; then
    python3 "$top/tests/library.py" || failed "docs/LIBRARY.md has code of the crates" "tests/library.py stopped"
fi

# ---- the pictures of docs/ARCHITECTURE.md are those of crates.txt
if needs python3 "docs/ARCHITECTURE.md has the crates"; then
    python3 "$top/tests/architecture.py" || failed "docs/ARCHITECTURE.md has the crates" "tests/architecture.py stopped"
fi

# ---- the reference of the libraries has every public item, and no dead link
if needs python3 "tools/reference.py has every public item"; then
    python3 "$top/tests/reference.py" || failed "tools/reference.py has every public item" "tests/reference.py stopped"
fi

# ---- docs/FORMATS.md has each text that the program prints
sed -n 's/", member, "/{member}/; s/.*GameFault::.* => .*_text("\(.*\)").*/\1/p' "$top"/crates/council_game/src/fault.rt >"$temp/texts"
[ "$(wc -l <"$temp/texts")" = "$(grep -cE '^            GameFault::.* => [0-9]+,$' "$top"/crates/council_game/src/fault.rt)" ] ||
    failed "each fault of a game has a text" "they were not found in crates/council_game/src/fault.rt"
sed -n 's/.* => short_text("\(.*\)").*/\1/p' "$top"/crates/mwc_gather/src/fault.rt "$top"/crates/council_run/src/fault.rt >>"$temp/texts"
sed -n 's/.*#\[error("\(.*\)")\].*/\1/p' "$top"/crates/mwc_tally/src/*.rt >>"$temp/texts"
sed -n 's/.*eprintln!(rt; "council: \([^{"]*\)".*/\1/p' "$top"/crates/council/src/*.rt >>"$temp/texts"
sort -u "$temp/texts" >"$temp/each"
while IFS= read -r text; do
    # a text with a number in it is there by an example
    pattern=$(sed 's/[][().*]/\\&/g; s/{[^}]*}/[0-9]+/g' <<<"$text")
    if grep -qE -e "\`$pattern\`" "$top/docs/FORMATS.md"; then
        ok "docs/FORMATS.md has: $text"
    else
        failed "docs/FORMATS.md has: $text" "it does not"
    fi
done <"$temp/each"
