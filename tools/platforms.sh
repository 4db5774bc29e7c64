#!/bin/sh
# Makes the library for Windows on x86-64 and for Linux on ARM (aarch64), from the LLVM module that
# `tools/build.py --library` has proved and kept (crates/council_c/out/council.bc):
#
#     tools/platforms.sh TO [windows | arm]
#
# TO/windows then has council.dll and its import library libcouncil.dll.a, TO/arm has libcouncil.so
# and libcouncil.a. They export the calls that include/council.h declares, and nothing else. It
# needs the toolchain, and Debian's packages gcc-mingw-w64-x86-64-win32 and gcc-aarch64-linux-gnu.
set -eu
top=$(CDPATH='' cd -P -- "$(dirname -- "$0")/.." >/dev/null && pwd -P)
stop() {
    echo "tools/platforms.sh: $1" >&2
    exit "${2:-1}"
}
to=${1:?"usage: tools/platforms.sh TO [windows | arm]"}
module=$top/crates/council_c/out/council.bc
[ -f "$module" ] || stop "there is no $module: tools/build.py --library makes it"
tools=$(dirname "$(dirname "$(readlink -f "$(command -v rt)")")")/toolchain/bin
temp=$(mktemp -d)
trap 'rm -rf "$temp"' EXIT
need() {
    command -v "$1" >/dev/null || stop "the command $1 was not found: it is in Debian's package $2" 3
}

# The heap as a module too, because C on Windows would return an answer in another way than LLVM
# does. What is only of Linux on x86-64 goes, and the heap has names that clash with none.
mkdir "$temp/modules"
"$tools/clang" --target=x86_64-unknown-linux-gnu -O2 -fPIC -fvisibility=hidden -S -emit-llvm "$top/tools/heap.c" -o "$temp/heap.ll"
"$tools/clang" -x ir "$module" -S -emit-llvm -o "$temp/council.ll" -Wno-override-module
for it in heap council; do
    sed -e 's/"\(probe-stack\|target-cpu\|target-features\|tune-cpu\)"="[^"]*"//g' -e 's/@rattle_\(re\|de\|\)alloc\b/@council\1alloc/g' "$temp/$it.ll" >"$temp/modules/$it.ll"
done

# compile TARGET WORD..: compiles both modules to $temp/heap.o and $temp/council.o.
compile() {
    for it in heap council; do
        "$tools/clang" --target="$1" -O3 -Wno-override-module -Wno-unused-command-line-argument -fPIC -x ir -c "$temp/modules/$it.ll" -o "$temp/$it.o"
    done
}

if [ "${2:-windows}" = windows ]; then
    need x86_64-w64-mingw32-gcc gcc-mingw-w64-x86-64-win32
    mkdir -p "$to/windows"
    compile x86_64-w64-windows-gnu
    {
        echo EXPORTS
        sed -n 's/^[a-z0-9_]* \(council_[a-z_]*\)(.*/\1/p' "$top/include/council.h"
    } >"$temp/exports.def"
    x86_64-w64-mingw32-gcc -shared -static-libgcc -s -Wl,--no-insert-timestamp "-Wl,--out-implib,$to/windows/libcouncil.dll.a" \
        -o "$to/windows/council.dll" "$temp/council.o" "$temp/heap.o" "$temp/exports.def"
fi
if [ "${2:-arm}" = arm ]; then
    need aarch64-linux-gnu-gcc gcc-aarch64-linux-gnu
    mkdir -p "$to/arm"
    compile aarch64-unknown-linux-gnu
    rm -f "$to/arm/libcouncil.a"
    "$tools/llvm-ar" rcs "$to/arm/libcouncil.a" "$temp/council.o" "$temp/heap.o"
    CC=aarch64-linux-gnu-gcc "$top/tools/shared.sh" "$to/arm/libcouncil.a" "$to/arm/libcouncil.so"
fi
