#!/bin/sh
# Makes the shared object of the library for other languages. It exports the calls that
# include/council.h declares, and nothing else.
#
#     [CC=COMPILER] tools/shared.sh LIBRARY.a TO.so
set -eu
top=$(CDPATH='' cd -- "$(dirname "$0")/.." && pwd)
calls=$(sed -n 's/^[a-z0-9_]* \(council_[a-z_]*\)(.*/\1/p' "$top/include/council.h")
exports=$(mktemp)
trap 'rm -f "$exports"' EXIT
{
    echo '{ global:'
    # (no name of a call has a blank)
    printf '%s;\n' $calls
    echo 'local: *; };'
} >"$exports"
${CC:-cc} -shared -s -o "$2" -Wl,-soname,libcouncil.so.1 -Wl,-z,defs $(printf -- '-Wl,-u,%s ' $calls) -Wl,--version-script="$exports" "$1"
