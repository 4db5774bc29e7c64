#!/usr/bin/env bash
# The packages for Python and R with the program, against tests/oracle.py and the stored reports.
# The package for Python with the library is tested by wheel.sh. The types of all that
# is in Python are tested by mypy.
. "$(dirname "$0")/common.sh"
cd "$top" || exit 1
export PYTHONDONTWRITEBYTECODE=1

# mypy finds nothing: the package and its tools by its strictest rules
types() {
    local name="the types of $1"
    shift
    needs mypy "$name" || return 0
    MYPYPATH=python/src mypy --cache-dir=/dev/null --no-error-summary "$@" >"$temp/out" 2>&1
    status=$?
    if [ "$status" -eq 0 ]; then ok "$name"; else failed "$name" "$(head -n 2 "$temp/out" | tr '\n' ' ')"; fi
}
types "python/src and tools/tool_pages.py" --strict python/src/council tools/tool_pages.py
types "python/src on Python 3.9" --strict --python-version 3.9 python/src/council
! /usr/bin/python3 -c 'import numpy' 2>/dev/null || types "calls with arrays" --strict python/tests/typed.py
types "python/backend.py and tools" python/backend.py tools/build.py tools/reference.py

name="the package for R has the header of the library"
if cmp -s include/council.h r/council/src/council.h; then ok "$name"; else failed "$name" "copy include/council.h to r/council/src"; fi
if needs python3 "the package for Python" "the package for R"; then
    for test in package r; do
        python3 "tests/using/$test.py" "$program" 2>"$temp/err" || failed "tests/using/$test.py" "it stopped: $(tail -n 1 "$temp/err")"
    done
fi
