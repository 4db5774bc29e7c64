#!/bin/sh
# Makes the library for browsers and for Node, from the LLVM module that `tools/build.py --library`
# has proved and kept (crates/council_c/out/council.bc):
#
#     tools/web.sh [--to FOLDER]    council.html, council.mjs, council.d.ts and package.json in dist
#     tools/web.sh --docs           docs/council.html
#
# The same LLVM module and sources make the same bytes with the same wasm-opt. It needs the
# toolchain, python3 and Debian's packages binaryen (wasm-opt) and libclang-rt-19-dev-wasm64 (LLVM's
# functions for numbers of 128 bits).
set -eu
top=$(CDPATH='' cd -P -- "$(dirname -- "$0")/.." >/dev/null && pwd -P)
stop() {
    echo "tools/web.sh: $1" >&2
    exit "${2:-1}"
}
to=$top/dist
only=
case ${1-} in
"") ;;
--to) to=${2:?"--to wants a folder"} ;;
--docs) to=$top/docs only=council.html ;;
*) stop "usage: tools/web.sh [--to FOLDER | --docs]" 2 ;;
esac
module=$top/crates/council_c/out/council.bc
[ -f "$module" ] || stop "there is no $module: tools/build.py --library makes it"
for command in rt python3 wasm-opt; do
    command -v "$command" >/dev/null || stop "the command $command was not found (wasm-opt is in Debian's package binaryen)" 3
done
clang=$(dirname "$(dirname "$(readlink -f "$(command -v rt)")")")/toolchain/bin/clang
wide=$(find /usr/lib/llvm-*/lib/clang -name libclang_rt.builtins-wasm64.a 2>/dev/null | sort | tail -n 1)
[ -n "$wide" ] || stop "there is no libclang_rt.builtins-wasm64.a: it is in Debian's package libclang-rt-19-dev-wasm64" 3

temp=$(mktemp -d)
trap 'rm -rf "$temp"' EXIT
# Compiles a file by the toolchain's clang. (No name of a file is in what it makes.)
compile() {
    "$clang" --target=wasm64-unknown-unknown -O3 -mbulk-memory -Wno-override-module "$@"
}
compile -fno-builtin -c "$top/web/malloc.c" -o "$temp/malloc.o"
compile -c "$top/tools/heap.c" -o "$temp/heap.o"
# (it says that it knows no x86-64, for which the module names a processor)
compile -x ir -c "$module" -o "$temp/council.o" 2>"$temp/said" || stop "$(cat "$temp/said")"
calls='council_version council_report_raw malloc free requests_left'
wide_calls='__multi3 __udivti3 __umodti3 __ashlti3 __lshrti3'
"${clang%/*}/ld.lld" -flavor wasm -mwasm64 --no-entry -z stack-size=1048576 \
    $(printf -- '--export=%s ' $calls) $(printf -- '--export-if-defined=%s ' $wide_calls) \
    -o "$temp/council64.wasm" "$temp/malloc.o" "$temp/heap.o" "$temp/council.o" "$wide"
# addresses of 64 bits become those of 32, which every browser has
wasm-opt --enable-memory64 --enable-bulk-memory --memory64-lowering -O2 --strip-target-features --strip-producers "$temp/council64.wasm" -o "$temp/council.wasm"
mkdir -p "$to"
made="$(wasm-opt --version), LLVM module $(sha256sum <"$module" | cut -c 1-16)"
python3 "$top/tools/web.py" "$temp/council.wasm" "$made" "$temp"
for file in ${only:-council.html council.mjs council.d.ts package.json}; do
    mv "$temp/$file" "$to/$file"
    echo "$to/$file"
done
