#!/usr/bin/env bash
# The wheel of tools/release.sh: twice the same, installed without a network, and its own tests with
# the library in it.
. "$(dirname "$0")/common.sh"

name="the wheel"
for command in git tar gzip sha256sum find cc python3; do
    needs "$command" "$name" || exit 0
done
if ! git -C "$top" rev-parse HEAD >/dev/null 2>&1; then
    skipped "$name" "this is no clone, or git does not read it"
    exit 0
fi
"$top/tools/release.sh" --draft --to "$temp/one" "$program" >"$temp/out" 2>"$temp/err"
wheel=$(grep '\.whl$' "$temp/out")
if [ ! -s "$temp/err" ] && [ -z "$wheel" ]; then
    skipped "$name" "there was no library for other languages of these sources: tools/build.py --library makes it"
    exit 0
fi
version=$("$program" --version | sed -n '1s/^council //p')
if [ "$wheel" = "$temp/one/council-$version-py3-none-manylinux_2_34_x86_64.whl" ]; then
    ok "$name is made, and named by the version of the program"
else
    failed "$name is made, and named by the version of the program" "$(tail -qn 1 "$temp/out" "$temp/err" | tr '\n' '/')"
    exit
fi
(umask 077 && "$top/tools/release.sh" --draft --to "$temp/two" "$program" >/dev/null 2>&1)
if cmp -s "$wheel" "$temp/two/${wheel##*/}"; then ok "two wheels are the same bytes"; else failed "two wheels are the same bytes" "they differ"; fi
# the oldest and the newest Python of this machine that the package is for
mapfile -t pythons < <(for it in python3 python3.{9..19} ~/.pyenv/versions/*/bin/python3; do
    "$it" -c 'import ensurepip, sys; assert sys.version_info >= (3, 9); print("%d.%d" % sys.version_info[:2], sys.executable)' 2>/dev/null
done | sort -uV -k1,1 | sed '1!{$!d}')
[ ${#pythons[@]} -gt 0 ] || skipped "$name, installed" "each Python is older than 3.9, or makes no environment: it lacks ensurepip"

# as a user has it: no variables, and no program on the PATH
as_user() { (cd "$temp" && env -i PATH=/usr/bin:/bin LC_ALL=C.UTF-8 "$temp/venv/bin/$1" "${@:2}"); }
for python in "${pythons[@]}"; do
    name="the wheel on Python ${python%% *}"
    rm -rf "$temp/venv"
    if "${python#* }" -m venv "$temp/venv" >"$temp/err" 2>&1 && "$temp/venv/bin/pip" install --no-index -q "$wheel" >>"$temp/err" 2>&1; then
        ok "$name is installed without a network"
    else
        failed "$name is installed without a network" "$(tail -n 1 "$temp/err")"
        continue
    fi
    as_user python -c 'import council.engine as it; print(it.find_library().path); print(it.find_program())' >"$temp/out" 2>"$temp/err"
    if [ "$(grep -c "^$temp/venv/.*/council/\(libcouncil.so\|council\)$" "$temp/out")" -eq 2 ]; then
        ok "$name has the library and the program"
    else
        failed "$name has the library and the program" "$(cat "$temp/out" "$temp/err" | tr '\n' ' ')"
    fi
    as_user council-tools sweep --from 12 --to 12 "$top/examples/eec-1958.toml" >"$temp/out" 2>"$temp/err"
    if [ "$(wc -l <"$temp/out")" -eq 7 ] && [ ! -s "$temp/err" ]; then ok "$name has council-tools"; else failed "$name has council-tools" "$(head -n 1 "$temp/err")"; fi
    as_user python "$top/python/tests/test_council.py" "$name" >"$temp/out" 2>"$temp/err" || grep -q '^FAILED' "$temp/out" ||
        failed "$name: its tests" "$(tail -n 1 "$temp/err")"
    # (packages.sh has found a Python with pandas, if there is one)
    grep -v "^skipped $name: pandas" "$temp/out"
done
