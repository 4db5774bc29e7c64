#!/usr/bin/env bash
# The library for Windows and for ARM that tools/platforms.sh makes: the callers of foreign/ get by
# it what the program prints, under wine and qemu. And the package for Python by its library, and
# what it does by platform.
. "$(dirname "$0")/common.sh"
export PYTHONDONTWRITEBYTECODE=1
here=$top/tests/foreign
if [ ! -f "$top/crates/council_c/out/council.bc" ]; then
    skipped "the library for other platforms" "there is no LLVM module: tools/build.py --library makes it"
    exit 0
fi
export WINEPREFIX=$temp/wine WINEDEBUG=-all WINEDLLOVERRIDES="mscoree,mshtml="

# has COMMAND PACKAGE NAME: whether there is such a command; if not, the tests of this name are
# skipped.
has() {
    command -v "$1" >/dev/null && return 0
    skipped "$3" "Debian's package $2 is not installed"
    return 1
}

# compare NAME GAME WORD..: whether the caller gets what the program prints on these words.
compare() {
    local game=$2
    run "${@:3}" <"$game"
    timeout "$seconds" "${on[@]}" "$folder/report$end" --room "$room" "${@:3}" <"$game" >"$temp/its" 2>"$temp/its.err"
    its=$?
    cmp -s "$temp/out" "$temp/its" && cmp -s "$temp/err" "$temp/its.err" && [ "$its" -eq "$status" ] || wrong=${wrong:-"$1: status $its for $status, $(head -n 1 "$temp/its.err")"}
}

# What the callers of foreign/ get, in $folder, each run by the words $on.
check_callers() {
    local where=$1 part game wrong
    # (the first start of wine makes its folder)
    timeout "$seconds" "${on[@]}" "$folder/report$end" >/dev/null 2>&1 <"$temp/bracket.txt"
    wrong='' room=4096
    for game in "$top"/examples/*.{toml,txt}; do
        # (which takes qemu twenty seconds)
        case $where$game in ARM*/share-register.toml) continue ;; esac
        compare "${game##*/}" "$game" --swings --tally --sizes --notation
    done
    if [ -z "$wrong" ]; then ok "$where: reports of the examples"; else failed "$where: reports of the examples" "$wrong"; fi
    wrong='' room=10
    for part in --list "--list --swings" --only-swings "--most 9"; do
        # shellcheck disable=SC2086
        for game in "$top/examples/board.toml" "$temp/bracket.txt"; do compare "$part" "$game" $part; done
    done
    if [ -z "$wrong" ]; then ok "$where: options, faults and small buffers"; else failed "$where: options, faults and small buffers" "$wrong"; fi
    for part in "random 200 1" "faults 500 2" "lists 50 3" lengths threads visits stop options words; do
        # shellcheck disable=SC2086
        timeout "$seconds" "${on[@]}" "$folder/arrays$end" $part >"$temp/its" 2>&1
        its=$?
        if [ "$its" -eq 0 ]; then ok "$where: arrays, $part"; else failed "$where: arrays, $part" "status $its: $(head -n 1 "$temp/its")"; fi
    done
    timeout "$seconds" "${on[@]}" "$folder/threads$end" "$top"/examples/{board,eec-1958,ec-1973,ec-1981,ec-1986,holler-1982,un-security-council,ca-amendment}.toml >"$temp/its" 2>&1
    its=$?
    if [ "$its" -eq 0 ]; then ok "$where: eight threads"; else failed "$where: eight threads" "status $its: $(head -n 1 "$temp/its")"; fi
}

printf '[51; 50, 49,, 1]' >"$temp/bracket.txt"
for part in windows arm; do "$top/tools/platforms.sh" "$temp" "$part" 2>"$temp/$part.err" & done
wait
words=(-std=gnu99 -O2 -Wall -Wextra -Werror "-I$top/include")

if has x86_64-w64-mingw32-gcc gcc-mingw-w64-x86-64-win32 Windows; then
    folder=$temp/windows end=.exe on=("$(command -v wine64 || echo /usr/lib/wine/wine64)")
    if [ ! -f "$folder/council.dll" ]; then failed "Windows: the DLL is made" "$(head -n 1 "$temp/windows.err")"; else
        calls=$(x86_64-w64-mingw32-objdump -p "$folder/council.dll" | sed -n '/Ordinal\/Name Pointer/,/^$/s/.* \(.*\)/\1/p' | grep -v Table | sort | tr '\n' ' ')
        declared=$(sed -n 's/^[a-z0-9_]* \(council_[a-z_]*\)(.*/\1/p' "$top/include/council.h" | sort | tr '\n' ' ')
        if [ "$calls" = "$declared" ]; then ok "Windows: the DLL exports its calls"; else failed "Windows: the DLL exports its calls" "$calls"; fi
        needed=$(x86_64-w64-mingw32-objdump -p "$folder/council.dll" | sed -n 's/.*DLL Name: //p' | tr '\n' ' ')
        if [ "$needed" = "KERNEL32.dll msvcrt.dll " ]; then ok "Windows: the DLL needs the system only"; else failed "Windows: the DLL needs the system only" "$needed"; fi
        if [ ! -x "${on[0]}" ]; then skipped "Windows: its calls" "Debian's package wine64 is not installed"; else
            for it in report arrays threads; do
                x86_64-w64-mingw32-gcc "${words[@]}" -D__USE_MINGW_ANSI_STDIO=1 -include "$top/tests/platforms/sys/mman.h" -I"$top/tests/platforms" -static -pthread -o "$folder/$it.exe" "$here/$it.c" "$folder/libcouncil.dll.a" 2>"$temp/err" ||
                    failed "Windows: $it.c" "$(head -n 1 "$temp/err")"
            done
            check_callers Windows
        fi
    fi
fi
if has aarch64-linux-gnu-gcc gcc-aarch64-linux-gnu ARM; then
    folder=$temp/arm end="" on=(qemu-aarch64 -L /usr/aarch64-linux-gnu -E "LD_LIBRARY_PATH=$temp/arm")
    if [ ! -f "$folder/libcouncil.so" ]; then failed "ARM: the library is made" "$(head -n 1 "$temp/arm.err")"; else
        calls=$(aarch64-linux-gnu-nm -D --defined-only "$folder/libcouncil.so" | grep -v ' w ' | sed 's/.* //' | sort | tr '\n' ' ')
        if [ "$calls" = "$(sed -n 's/^[a-z0-9_]* \(council_[a-z_]*\)(.*/\1/p' "$top/include/council.h" | sort | tr '\n' ' ')" ]; then ok "ARM: the library exports its calls"; else failed "ARM: the library exports its calls" "$calls"; fi
        if has qemu-aarch64 qemu-user "ARM: its calls"; then
            ln -s libcouncil.so "$folder/libcouncil.so.1"
            for it in report arrays threads; do
                aarch64-linux-gnu-gcc "${words[@]}" -D_GNU_SOURCE -pthread -o "$folder/$it" "$here/$it.c" "$folder/libcouncil.so" 2>"$temp/err" || failed "ARM: $it.c" "$(head -n 1 "$temp/err")"
            done
            check_callers ARM
        fi
    fi
fi

# ---- the archive for ARM, the zip for Windows, and their wheels
name="the wheels for Windows and for ARM"
if [ -f "$temp/windows/council.dll" ] && [ -f "$temp/arm/libcouncil.so" ] && needs git "$name" && needs python3 "$name"; then
    "$top/tools/release.sh" --draft --platforms "$temp" --to "$temp/dist" "$program" >"$temp/out" 2>"$temp/err"
    version=$("$program" --version | sed -n '1s/^council //p')
    found=$(cd "$temp/dist" 2>/dev/null && sha256sum --quiet -c SHA256SUMS && for it in *windows.zip *aarch64-linux.tar.gz *win_amd64.whl *aarch64.whl; do
        case $it in *.tar.gz) tar tzf "$it" ;; *) python3 -m zipfile -l "$it" ;; esac | grep -o '[^ ]*/\(council.dll\|libcouncil.[^ ]*\|council.h\|council.html\|PROVED\|[^/ ]*.whl\|entry_points.txt\)' | sort | tr '\n' ' '
    done)
    windows=council-$version-x86_64-windows arm=council-$version-aarch64-linux tag=manylinux_2_17_aarch64
    wanted="$windows/PROVED $windows/council-$version-py3-none-win_amd64.whl $windows/council.html $windows/include/council.h $windows/lib/council.dll $windows/lib/libcouncil.dll.a \
$arm/PROVED $arm/council-$version-py3-none-$tag.whl $arm/council.html $arm/include/council.h $arm/lib/libcouncil.a $arm/lib/libcouncil.so $arm/lib/libcouncil.so.1 \
council-$version.dist-info/entry_points.txt council/council.dll council-$version.dist-info/entry_points.txt council/libcouncil.so "
    if [ "$found" = "$wanted" ]; then ok "$name"; else failed "$name" "$(head -n 1 "$temp/err") $found"; fi
fi

if needs python3 "python -m council"; then
    name="python -m council"
    needs cc "$name" && "$top/tools/shared.sh" "$top/crates/council_c/out/libcouncil.a" "$temp/libcouncil.so" &&
        python3 "$top/tests/platforms/package.py" "$program" "$temp/libcouncil.so" 2>"$temp/err" || [ ! -s "$temp/err" ] || failed "$name" "$(tail -n 1 "$temp/err")"
fi
