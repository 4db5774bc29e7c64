#!/bin/sh
# Whether the program at hand is whole, of these sources, and by this toolchain: by sums of what
# they hold. The sums are taken anew only if a file is gone or new, or has another length or time
# than when they were last right: the time when it was written, which may be set, or that of the
# last change to it, which may not. ./council reads this file; tools/build.py and .ci/run run it:
#
#     tools/built.sh sources     prints a sum of all that the program is proved from
#     tools/built.sh keep SUM    keeps that the program was now built, of sources with this sum
#     tools/built.sh why         prints why the program is to be built, in one word; nothing where it is not
#
# What is kept stands in crates/council/out/built: the sum of the sources, the length and the sum of
# the program, and the toolchain. If it cannot be written it is not kept.
case ${0##*/} in
built.sh) top=$(CDPATH='' cd -P -- "$(dirname -- "$0")/.." >/dev/null && pwd -P && echo .) && top=${top%??} || exit 1 ;;
esac
out=$top/crates/council/out
program=$out/council
built=$out/built
# the file that `rt` was when it last told the version of the toolchain, which takes it a while
asked=$out/toolchain-file
# the lengths and times of all files when the sums were last right
seen=$out/seen

# The sum of standard input.
sum() {
    if command -v sha256sum >/dev/null; then sha256sum; else cksum; fi | cut -d ' ' -f 1
}

# Does with each source what these words of `find` say. Tests are not among them.
each_source() {
    (
        CDPATH='' cd -P -- "$top" >/dev/null || exit
        find crates.txt HANDLES crates/*/src crates/*/specs crates/*/proofs -path '*_tests/*' -prune -o -type f "$@" 2>/dev/null
    )
}

# The sum of all sources.
sources() {
    if command -v sha256sum >/dev/null; then how=sha256sum; else how=cksum; fi
    each_source -exec "$how" {} + | LC_ALL=C sort | sum
}

# The lengths and times of the sources, the program and what was kept; nothing where `find` can't
# print them.
stamps() {
    each_source -printf '%p %s %T@ %C@\n'
    find "$program" "$built" -printf '%s %T@ %C@\n' 2>/dev/null
}

# The length and the sum of the program.
program_sum() {
    echo "$(($(wc -c <"$program"))) $(sum <"$program")"
}

# What was kept under a word.
kept() {
    sed -n "s/^$1 //p" "$built" 2>/dev/null
}

# Puts standard input into a file, in one step; where that can't be, it is not kept.
put() {
    (cat >"$1.$$" && mv -f "$1.$$" "$1" || rm -f "$1.$$") 2>/dev/null || :
}

# Keeps that the program was built of sources with this sum, and by the toolchain at hand.
keep() {
    version=$(rt version 2>/dev/null)
    printf 'sources %s\nprogram %s\ntoolchain %s\n' "$1" "$(program_sum)" "$version" | put "$built"
    ls -lLi "$(command -v rt)" 2>/dev/null | put "$asked"
}

# Whether a program of which nothing was kept, as `rt ci` leaves it, can be taken as built: it
# reaches to the end that its header tells, runs, and no source is newer. What it was built of is
# then kept.
is_taken() {
    # the table of sections ends a program: its place, and how many rows of which length it
    # has
    if [ "$(head -c 4 "$program" | od -An -c | tr -d ' ')" = 177ELF ]; then
        end=$(($(od -An -t u8 -j 40 -N 8 "$program") + $(od -An -t u2 -j 58 -N 2 "$program") * $(od -An -t u2 -j 60 -N 2 "$program")))
        [ "$(wc -c <"$program")" -ge "$end" ] || return 1
    fi
    [ "$("$program" --version 2>/dev/null </dev/null | cut -d ' ' -f 1 | head -n 1)" = council ] || return 1
    [ -z "$(find "$top/crates.txt" "$top/HANDLES" "$top"/crates/*/src "$top"/crates/*/specs "$top"/crates/*/proofs -path '*_tests/*' -prune -o -newer "$program" -print 2>/dev/null | head -n 1)" ] || return 1
    keep "$(sources)"
}

# Whether the toolchain at hand is the one that built the program. Without one that answers, nothing
# can be built.
has_same_toolchain() {
    rt=$(command -v rt) || return 0
    file=$(ls -lLi "$rt" 2>/dev/null)
    [ "$(cat "$asked" 2>/dev/null)" != "$file" ] || return 0
    version=$(rt version 2>/dev/null) || return 0
    [ "$(kept toolchain)" = "$version" ] || return 1
    printf '%s\n' "$file" | put "$asked"
}

# Why the program is to be built: `first` where there is none, `whole` where it is not whole,
# `sources` where it is not of these sources, `toolchain` where another toolchain built it. Nothing
# where it is not to be built.
why() {
    if ! [ -e "$program" ]; then
        echo first
    elif ! [ -f "$program" ] || ! [ -x "$program" ] || ! [ -s "$program" ]; then
        echo whole
    elif ! [ -e "$built" ]; then
        is_taken || echo whole
    elif now=$(stamps || :) && [ -n "$now" ] && [ "$(cat "$seen" 2>/dev/null)" = "$now" ]; then
        has_same_toolchain || echo toolchain
    elif [ "$(kept program)" != "$(program_sum)" ]; then
        echo whole
    elif [ "$(kept sources)" != "$(sources)" ]; then
        echo sources
    else
        [ -z "$now" ] || printf '%s\n' "$now" | put "$seen"
        has_same_toolchain || echo toolchain
    fi
}

case ${0##*/} in
built.sh)
    case ${1-} in
    sources | keep | why) "$@" ;;
    *)
        echo "usage: tools/built.sh sources|keep SUM|why" >&2
        exit 2
        ;;
    esac
    ;;
esac
