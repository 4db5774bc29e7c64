#!/bin/sh
# Installs the files of this archive, or takes them out again:
#
#     ./install.sh [PREFIX]
#     ./install.sh --uninstall [PREFIX]
#
# PREFIX is ~/.local by default. If DESTDIR is set, everything goes below that folder, as packages
# need it. The program and council-tools go to bin, the library for other languages to lib and
# include, the manual pages and the completions to share, the documents, the examples and the
# package for R to share/doc/council.
#
# The list share/doc/council/FILES names every file that was installed and, with a / at the end,
# every folder that was made. While it is written or worked off, it is PREFIX/.council-files. Each
# step is noted before it is made, so --uninstall also takes out an install that stopped half-way.
# An install takes out an earlier one first, and waits for one that is under way. A folder where a
# file should be is reported, and stays.
set -eu
# a standard output that nobody reads is no failure
trap '' PIPE
# what is installed is for all users
umask 022
here=$(CDPATH='' cd -P -- "$(dirname -- "$0")" >/dev/null && pwd -P)
doc=share/doc/council

# Prints a line in which a blank replaces each letter that could move a terminal.
say() {
    c1="$(printf '\302')[$(printf '\200')-$(printf '\237')]"
    printf '%s\n' "$(printf '%s' "$1" | LC_ALL=C tr '\001-\037\177' ' ' | LC_ALL=C sed "s/$c1/ /g")" 2>/dev/null || :
}

stop() {
    say "install.sh: $1" >&2
    exit 1
}

# Sets $path to a path from the root, without a / at the end.
set_path() {
    case $1 in
    /*) path=$1 ;;
    *) path=$PWD/$1 ;;
    esac
    while [ "$path" != "${path%/}" ]; do path=${path%/}; done
}

uninstall=
if [ "${1-}" = --uninstall ]; then
    uninstall=1
    shift
fi
case $#${1-} in
[01]-* | [!01]*)
    echo "usage: ./install.sh [--uninstall] [PREFIX]" >&2
    exit 2
    ;;
esac
[ $# -eq 1 ] || set -- "${HOME:+$HOME/.local}"
[ -n "$1" ] || stop "name a PREFIX: it is empty, or HOME is not set"
set_path "$1"
prefix=$path
root=$prefix
if [ -n "${DESTDIR-}" ]; then
    set_path "$DESTDIR"
    root=$path$prefix
fi
list=$root/.council-files

is_folder() {
    [ -d "$1" ] && ! [ -L "$1" ]
}

# Whether a line of FILES can be of this script.
is_own() {
    case /$1/ in
    */../* | */./*) return 1 ;;
    esac
    case $1 in
    bin/ | bin/council | bin/council-tools | lib/ | lib/libcouncil.a | lib/libcouncil.so) ;;
    lib/pkgconfig/ | lib/pkgconfig/council.pc | include/ | include/council.h | share/ | share/*/ | share/*council*) ;;
    *) return 1 ;;
    esac
}

# Waits until no other run of this script works in $root (without `flock`, it does not wait), and
# returns whether something is installed there, or was begun.
has_install() {
    exec 9<"$root/"
    flock 9 2>/dev/null || :
    [ ! -f "$root/$doc/FILES" ] || mv -f "$root/$doc/FILES" "$list" || exit
    [ -f "$list" ]
}

# Takes out what the list names: the files, the folders that are then empty, and itself.
take_out() {
    while IFS= read -r line; do
        if ! is_own "$line" || [ "$line" != "${line%/}" ]; then
            continue
        elif is_folder "$root/$line"; then
            say "install.sh: $root/$line is a folder, and stays" >&2
        else
            rm -f "$root/$line"
        fi
    done <"$list"
    # (an earlier version listed no folders)
    find "$root/$doc" -depth -type d -exec rmdir {} \; 2>/dev/null || :
    LC_ALL=C sort -r "$list" | while IFS= read -r line; do
        if is_own "$line" && [ "$line" != "${line%/}" ]; then rmdir "$root/$line" 2>/dev/null || :; fi
    done
    rm -f "$list"
}

if [ -n "$uninstall" ]; then
    if ! [ -d "$root" ] || ! has_install; then stop "nothing is installed in $root"; fi
    take_out
    say "council was taken out of $root"
    exit
fi

[ -x "$here/council" ] || stop "there is no program beside it"
cd "$here"
# FILE PLACE MODE, a line for each file of the archive; no name has a blank
files=$(
    echo "council bin/council 755"
    echo "bin/council-tools bin/council-tools 755"
    for command in council council-tools; do
        echo "docs/$command.1 share/man/man1/$command.1 644"
        echo "completions/$command.bash share/bash-completion/completions/$command 644"
        echo "completions/_$command share/zsh/site-functions/_$command 644"
        echo "completions/$command.fish share/fish/vendor_completions.d/$command.fish 644"
    done
    echo "install.sh $doc/install.sh 755"
    if [ -f lib/libcouncil.a ]; then
        echo "lib/libcouncil.a lib/libcouncil.a 644"
        echo "lib/libcouncil.so lib/libcouncil.so 644"
        echo "lib/pkgconfig/council.pc lib/pkgconfig/council.pc 644"
        echo "include/council.h include/council.h 644"
    fi
    for file in README.md LICENSE CITATION.cff CHANGELOG.md PROVED council.html \
        $(find docs examples node r reference -type f ! -name '*.1' | LC_ALL=C sort); do
        echo "$file $doc/$file 644"
    done
)
while read -r _ place _; do
    ! is_folder "$root/$place" || stop "$root/$place is a folder: nothing is installed"
done <<END
$files
$doc/FILES $doc/FILES 644
END
mkdir -p "$root"
if has_install; then take_out; fi

# Notes a file, or a folder, before it is made.
note() {
    printf '%s\n' "$1" >>"$list"
}

# Makes a folder below $root, and those above it.
make_folder() {
    [ ! -d "$root/$1" ] || return 0
    case $1 in
    */*) make_folder "${1%/*}" ;;
    esac
    note "$1/"
    mkdir "$root/$1"
}

make_folder "$doc"
while read -r file place mode; do
    make_folder "${place%/*}"
    note "$place"
    # (a program that runs can't be written to)
    rm -f "$root/$place"
    cp "$file" "$root/$place"
    chmod "$mode" "$root/$place"
done <<END
$files
END
note "$doc/FILES"
mv -f "$list" "$root/$doc/FILES"
say "council is installed: $root/bin/council"
case :$PATH: in
*:"$prefix/bin":*) ;;
*) say "$prefix/bin is not on the PATH: add it to run it as council" ;;
esac
