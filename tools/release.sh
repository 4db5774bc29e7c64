#!/bin/sh
# Makes dist/council-VERSION-x86_64-linux.tar.gz, which needs no toolchain, the wheel for Python,
# the page for browsers, the module for Node, the library and wheels for Windows and for Linux on
# ARM, and dist/SHA256SUMS beside them:
#
#     tools/release.sh [--draft] [--to FOLDER] [--platforms FOLDER] [PROGRAM]
#
# from the program that ./council or .ci/run has proved and built of the sources at hand. All must
# be committed, and .ci/run must have passed on that commit, which also makes the library for other
# languages; --draft makes an archive without, and the file PROVED in it says so. Without the
# library there is no wheel, and a draft has the other platforms only if --platforms names what
# tools/platforms.sh has made. Two releases of one commit and one program are the same bytes: names
# are sorted, owners fixed, times those of the commit.
set -eu
top=$(CDPATH='' cd -P -- "$(dirname -- "$0")/.." >/dev/null && pwd -P)
out=$top/crates/council/out
draft=
platforms=
to=$top/dist
program=$out/council
while [ $# -gt 0 ]; do
    case $1 in
    --draft) draft=1 ;;
    --to)
        to=${2:?"--to wants a folder"}
        shift
        ;;
    --platforms)
        platforms=${2:?"--platforms wants a folder"}
        shift
        ;;
    -*)
        echo "usage: tools/release.sh [--draft] [--to FOLDER] [--platforms FOLDER] [PROGRAM]" >&2
        exit 2
        ;;
    *) program=$1 ;;
    esac
    shift
done
stop() {
    echo "tools/release.sh: $1" >&2
    exit 1
}
case $to in
/*) ;;
*) to=$PWD/$to ;;
esac
for command in cut find git gzip python3 sed sha256sum tar; do
    command -v "$command" >/dev/null || stop "the command $command was not found"
done
[ -x "$program" ] || stop "there is no program $program: ./council builds it"
commit=$(git -C "$top" rev-parse HEAD) || stop "this is no clone"
time=$(git -C "$top" log -1 --format=%ct)
version=$("$program" --version </dev/null | sed -n '1s/^council //p')
kit=$("$program" --version </dev/null | sed -n '2s/^proved with //p')

# what .ci/run said last, where it ran on this commit
gate=
if [ "$(sed -n 1p "$out/gate" 2>/dev/null)" = "$commit" ]; then
    gate=$(sed -n 2p "$out/gate")
fi
if [ -z "$draft" ]; then
    [ -z "$(git -C "$top" status --porcelain)" ] || stop "not all is committed"
    [ -z "$("$top/tools/built.sh" why)" ] || stop "the program is not the one of these sources: ./council builds it"
    [ "$(rt version)" = "$kit" ] || stop "the program says that it was proved with $kit, and the kit at hand is $(rt version)"
    case $gate in
    *' 0 failed'*) ;;
    *) stop "the gate has not passed on this commit: run .ci/run" ;;
    esac
fi

# the library for other languages, if it is of these sources
library=$top/crates/council_c/out/libcouncil.a
[ -f "$library" ] && [ "$(cat "${library%/*}/built" 2>/dev/null)" = "$("$top/tools/built.sh" sources)" ] || library=
[ -n "$draft$library" ] || stop "there is no library for other languages of these sources: tools/build.py --library makes it"

[ -z "$library" ] || command -v cc >/dev/null || stop "the command cc was not found"
page=$top/docs/council.html
[ -n "$draft" ] || grep -q "LLVM module $(sha256sum <"${library%/*}/council.bc" | cut -c 1-16)" "$page" ||
    stop "docs/council.html is of another library: run tools/web.sh --docs"

name=council-$version-x86_64-linux
temp=$(mktemp -d)
trap 'rm -rf "$temp"' EXIT
trap 'exit 130' INT
trap 'exit 143' TERM
trap 'exit 129' HUP
folder=$temp/$name
mkdir -p "$folder/docs" "$folder/bin" "$to"
cp "$program" "$folder/council"
cp "$top/tools/archive/README.md" "$top/tools/archive/install.sh" "$page" "$folder/"
python3 "$top/tools/web.py" "$page" "$folder/node"
rm "$folder/node/council.html"
# (no name of the repository has a blank)
for file in $(git -C "$top" ls-files LICENSE CITATION.cff CHANGELOG.md docs/GUIDE.md docs/FORMATS.md docs/LIBRARY.md docs/LANGUAGES.md docs/council.1 docs/council-tools.1 docs/statutes examples completions r); do
    mkdir -p "$folder/$(dirname "$file")"
    cp "$top/$file" "$folder/$file"
done
SOURCE_DATE_EPOCH=$time
export SOURCE_DATE_EPOCH
python3 "$top/python/backend.py" zipapp "$folder/bin/council-tools"
wheel=
if [ -n "$library" ]; then
    mkdir -p "$folder/lib/pkgconfig" "$folder/include"
    cp "$library" "$folder/lib/libcouncil.a"
    cp "$top/include/council.h" "$folder/include/council.h"
    "$top/tools/shared.sh" "$library" "$folder/lib/libcouncil.so"
    ln -s libcouncil.so "$folder/lib/libcouncil.so.1"
    sed "s/@VERSION@/$version/" "$top/tools/archive/council.pc" >"$folder/lib/pkgconfig/council.pc"
    wheel=$(python3 "$top/python/backend.py" wheel "$temp" manylinux_2_34_x86_64 "$folder/council" "$folder/lib/libcouncil.so")
    case $wheel in
    "council-$version-"*) ;;
    *) stop "python/pyproject.toml has another version than the program: the wheel is $wheel" ;;
    esac
fi
python3 "$top/tools/reference.py" "$folder/reference"
{
    echo "version: $version"
    echo "commit: $commit${draft:+, a draft that may have changes which are not committed}"
    echo "proved with: $kit"
    echo "the gate's last line: ${gate:-the gate was not run on this commit}"
    echo "sum of the program: $(sha256sum <"$program" | cut -d ' ' -f 1)"
    [ -z "$library" ] || echo "sum of the library: $(sha256sum <"$library" | cut -d ' ' -f 1)"
    [ -z "$library" ] || echo "sum of its LLVM module: $(sha256sum <"${library%/*}/council.bc" | cut -d ' ' -f 1)"
} >"$folder/PROVED"

# pack NAME: makes the archive NAME.tar.gz of a folder.
pack() {
    find "$temp/$1" -type d -exec chmod 755 {} +
    find "$temp/$1" -type f -exec chmod 644 {} +
    for file in council install.sh bin/council-tools; do [ ! -f "$temp/$1/$file" ] || chmod 755 "$temp/$1/$file"; done
    tar -C "$temp" --format=ustar --sort=name --owner=0 --group=0 --numeric-owner --mtime="@$time" -cf "$temp/it.tar" "$1"
    gzip -n -9 <"$temp/it.tar" >"$to/$1.tar.gz"
}

# other NAME PLATFORM LIBRARY FILE..: makes the folder and the wheel of another platform.
other() {
    its=$temp/$1
    mkdir -p "$its/lib" "$its/include" "$its/docs"
    cp "$top/include/council.h" "$its/include/"
    cp "$page" "$folder/PROVED" "$folder/LICENSE" "$its/"
    cp "$folder/docs/GUIDE.md" "$folder/docs/LIBRARY.md" "$folder/docs/LANGUAGES.md" "$its/docs/"
    its_wheel=$(python3 "$top/python/backend.py" wheel "$its" "$2" "$3")
    cp "$its/$its_wheel" "$to/"
    shift 2
    cp "$@" "$its/lib/"
}

pack "$name"
[ -z "$wheel" ] || mv "$temp/$wheel" "$to/$wheel"
cp "$page" "$folder/node/council.mjs" "$folder/node/council.d.ts" "$to/"
# (no name of a wheel has a blank)
files="$name.tar.gz $wheel council.html council.mjs council.d.ts"
if [ -z "$draft$platforms" ]; then
    platforms=$temp/platforms
    "$top/tools/platforms.sh" "$platforms"
fi
if [ -n "$platforms" ]; then
    windows=council-$version-x86_64-windows
    other "$windows" win_amd64 "$platforms/windows/council.dll" "$platforms/windows/libcouncil.dll.a"
    python3 "$top/python/backend.py" zip "$to/$windows.zip" "$temp/$windows"
    files="$files $windows.zip $its_wheel"
    arm=council-$version-aarch64-linux
    # the oldest C library that has all of its symbols
    glibc=$(aarch64-linux-gnu-objdump -T "$platforms/arm/libcouncil.so" | sed -n 's/.*GLIBC_\([0-9]*\)\.\([0-9]*\).*/\1_\2/p' | sort -t _ -k 1,1n -k 2,2n | tail -n 1)
    other "$arm" "manylinux_${glibc}_aarch64" "$platforms/arm/libcouncil.so" "$platforms/arm/libcouncil.a"
    ln -s libcouncil.so "$temp/$arm/lib/libcouncil.so.1"
    pack "$arm"
    files="$files $arm.tar.gz $its_wheel"
fi
(CDPATH='' cd -- "$to" && sha256sum $files >SHA256SUMS)
for file in $files; do echo "$to/$file"; done
