#!/usr/bin/env bash
# The script `council`: through symbolic links, and when it builds. The links go to the script of
# this repository, whose program is built; the rest is seen in a copy, with a toolchain that only
# says what it was asked for.
. "$(dirname "$0")/common.sh"

# ---- through links
mkdir -p "$temp/bin" "$temp/far/links" "$temp/elsewhere"
if [ "$program" = "$top/crates/council/out/council" ]; then
    ln -s "$top/council" "$temp/bin/council"
    ln -s ../../bin/council "$temp/far/links/council"
    cd "$temp/elsewhere" || exit 1
    for link in "$temp/bin/council" "$temp/far/links/council" ../far/links/council; do
        timeout "$seconds" "$link" "$top/examples/board.toml" >"$temp/out" 2>"$temp/err" </dev/null
        status=$?
        printed "through a link: ${link#"$temp/"}" "$top/examples/board.tsv"
    done
    PATH=$temp/bin:$PATH timeout "$seconds" council "$top/examples/board.toml" >"$temp/out" 2>"$temp/err" </dev/null
    status=$?
    printed "by a link in a folder of PATH" "$top/examples/board.tsv"
else
    skipped "through links" "the program is not the one of this repository"
fi

# ---- in a folder whose path is not UTF-8
odd=$(printf '%s/caf\351' "$temp")
mkdir "$odd"
cp "$program" "$odd/council"
timeout "$seconds" "$odd/council" "$top/examples/board.toml" >"$temp/out" 2>"$temp/err" </dev/null
status=$?
printed "in a folder whose path is not UTF-8" "$top/examples/board.tsv"

# ---- when it builds
chmod 755 "$temp"
copy=$temp/copy
mkdir -p "$copy/crates/council/src" "$copy/crates/low/src" "$copy/crates/high/src" "$copy/tools" "$temp/kit"
cp "$top/council" "$copy/"
cp "$top/tools/build.py" "$top/tools/built.sh" "$copy/tools/"
printf 'low: std\nhigh: low\nlow_tests: low\ncouncil: high\n' >"$copy/crates.txt"
touch "$copy/HANDLES" "$copy/crates/council/src/main.rt" "$copy/crates/low/src/lib.rt" "$copy/crates/high/src/lib.rt"
cat >"$temp/kit/rt" <<END
#!/bin/sh
case \$1 in
lib) echo "\$1:\$(basename "\$PWD")" >>"$temp/asked" ;;
*) echo "\$1" >>"$temp/asked" ;;
esac
case \$1 in
version) cat "$temp/version" ;;
lib)
    while [ -e "$temp/holds" ]; do sleep 0.05; done
    mkdir -p out/rlib && touch out/rlib/stamp
    [ "\$(basename "\$PWD")" != "\$(cat "$temp/fails")" ] ;;
run)
    printf '#!/bin/sh\necho built "\$@"\n' >out/council
    chmod +x out/council ;;
esac
END
chmod +x "$temp/kit/rt"
echo "kit one" >"$temp/version"
echo none >"$temp/fails"

# Runs the copy, or the one in the folder $from, from another folder, with the toolchain of a
# folder; what it asked it for goes to $temp/asked.
kit=$temp/kit
use() {
    : >"$temp/asked"
    PATH=$kit:$PATH timeout "$seconds" "${from:-$copy}/council" >"$temp/out" 2>"$temp/err" </dev/null
    status=$?
}

# Whether the last use ended well and asked the toolchain for these words, in that order.
asked_for() {
    if [ "$status" -ne 0 ] || [ "$(cat "$temp/out")" != built ]; then
        failed "$1" "status $status: $(head -n 1 "$temp/err")"
    elif [ "$(tr '\n' ' ' <"$temp/asked")" != "$2" ]; then
        failed "$1" "the toolchain was asked for: $(tr '\n' ' ' <"$temp/asked")"
    else
        ok "$1"
    fi
}

# Whether the last use said on standard error a line that fits this.
said() {
    if grep -q -e "$2" "$temp/err"; then ok "$1"; else failed "$1" "$(tr '\n' '/' <"$temp/err")"; fi
}

echo high >"$temp/fails"
use
if [ "$status" -eq 1 ] && grep -q 'high was not proved' "$temp/err" && [ -e "$copy/crates/low/out/rlib/stamp" ]; then
    ok "a library that is not proved stops the build, and what was proved stays"
else
    failed "a library that is not proved stops the build, and what was proved stays" "status $status: $(tail -n 1 "$temp/err")"
fi
echo none >"$temp/fails"
use
asked_for "the first use builds" "lib:low lib:high run version "
said "the first use says how far it is" 'low is proved, 1 of 3, [0-9]* s; some [0-9]* min left'
said "and further" 'high is proved, 2 of 3'
said "and how long it takes, on so many processors" '3 proofs, [0-9]* at once: some [0-9]* minutes'
said "and how a table is had sooner" 'tools/preview FILE'
use
asked_for "a second use asks nothing" ""

# ---- a first use that shows a table before it is proved
echo game >"$temp/game.toml"
for report in built other; do
    name="a preview that prints $report"
    rm -rf "$copy"/crates/*/out
    touch "$temp/holds"
    printf '#!/bin/sh\necho %s "$1"\n' "$report" >"$copy/tools/preview"
    chmod +x "$copy/tools/preview"
    PATH=$kit:$PATH timeout "$seconds" "$copy/council" --preview "$temp/game.toml" >"$temp/out" 2>"$temp/err" </dev/null &
    for _ in $(seq 100); do
        ! grep -q '^council: not proved yet; the proof goes on, some [0-9]* minutes:$' "$temp/err" || break
        sleep 0.1
    done
    rm "$temp/holds"
    wait "$!"
    status=$?
    wanted=$([ "$report" = built ] && echo 0 || echo 1)
    if [ "$status" -ne "$wanted" ] || [ "$(cat "$temp/out")" != "built $temp/game.toml" ] || ! grep -q "^$report $temp" "$temp/err"; then
        failed "$name" "status $status: $(tr '\n' '/' <"$temp/err")"
    elif [ "$(grep -c 'prints something else' "$temp/err")" -ne "$wanted" ]; then
        failed "$name" "$(tr '\n' '/' <"$temp/err")"
    else
        ok "$name"
    fi
done

# ---- a first use whose standard error is closed or takes nothing
for error in '&-' /dev/full; do
    [ "$error" = '&-' ] || [ -e "$error" ] || continue
    rm -rf "$copy"/crates/*/out
    : >"$temp/asked"
    : >"$temp/err"
    PATH=$kit:$PATH timeout "$seconds" bash -c "\"\$1\" >\"\$2\" 2>$error" bash "$copy/council" "$temp/out" </dev/null
    status=$?
    asked_for "a first use with standard error to $error" "lib:low lib:high run version "
done

# ---- where a command is missing
for command in cut find python3; do
    name="a first use without $command"
    rm -rf "$copy"/crates/*/out
    without "$command" "$copy/council"
    if [ "$status" -eq 1 ] && [ "$(wc -l <"$temp/err")" -eq 1 ] && grep -q "the command $command.* was not found" "$temp/err"; then
        ok "$name"
    else
        failed "$name" "status $status: $(tr '\n' '/' <"$temp/err")"
    fi
done
use

# ---- by contents, and not by times
touch -d '1 hour' "$copy/crates/council/src/main.rt"
use
asked_for "a source of a time to come, which holds what it held, does not build" ""
echo "// another text" >>"$copy/crates/council/src/main.rt"
touch -d '1 hour ago' "$copy/crates/council/src/main.rt"
use
asked_for "a changed source with an older time builds" "lib:low lib:high run version "
said "changed sources are told" 'the sources are not those of the program'
use
printf '#!/bin/sh\necho sum >>"%s"\n' "$temp/asked" >"$kit/sha256sum"
chmod +x "$kit/sha256sum"
use
asked_for "sources that have their lengths and times are not read" ""
rm "$kit/sha256sum"
touch -r "$copy/crates/council/src/main.rt" "$temp/time"
sed -i 's/another text/another TEXT/' "$copy/crates/council/src/main.rt"
touch -r "$temp/time" "$copy/crates/council/src/main.rt"
use
asked_for "a change that keeps the length and the time of a source builds" "lib:low lib:high run version "
cp -r "$copy" "$temp/again"
from=$temp/again
use
from=$copy
asked_for "a copy of a built folder does not build" ""
: >"$copy/crates/council/out/council"
use
asked_for "an empty program is built again" "lib:low lib:high run version "
said "an empty program is told" 'the program is not whole'
printf '#!/bin/sh\necho bui' >"$copy/crates/council/out/council"
use
asked_for "a truncated program is built again" "lib:low lib:high run version "
rm "$copy/crates/council/out/council"
mkdir "$copy/crates/council/out/council"
use
asked_for "a folder in place of the program gives way to it" "lib:low lib:high run version "
name="which is told first"
if head -n 1 "$temp/err" | grep -q 'council: the program is not whole'; then ok "$name"; else failed "$name" "$(head -n 1 "$temp/err")"; fi
name="what the environment calls top, out and why is not taken"
: >"$temp/asked"
top=/a out=/b program=/c built=/d asked=/e why=first self=/f folder=/g PATH=$kit:$PATH timeout "$seconds" "$copy/council" >"$temp/out" 2>"$temp/err" </dev/null
status=$?
asked_for "$name" ""
name="nor by built.sh"
found=$(top=/a out=/b PATH=$kit:$PATH sh "$copy/tools/built.sh" why)
if [ -z "$found" ]; then ok "$name"; else failed "$name" "built.sh says: $found"; fi
# one of which nothing was kept, as `rt ci` leaves it
left=$temp/left
mkdir -p "$left/crates/council/src" "$left/crates/council/out"
cp -r "$copy/council" "$copy/tools" "$copy/crates.txt" "$copy/HANDLES" "$left/"
find "$left" -exec touch -d '1 hour ago' {} +
for length in 0 100000 $(($(wc -c <"$program") - 1)); do
    head -c "$length" "$program" >"$left/crates/council/out/council"
    chmod +x "$left/crates/council/out/council"
    found=$(sh "$left/tools/built.sh" why)
    name="the first $length bytes of a program are not whole"
    if [ "$found" = whole ]; then ok "$name"; else failed "$name" "built.sh says: $found"; fi
done
cp "$program" "$left/crates/council/out/council"
from=$left
use
from=$copy
if [ "$status" -eq 3 ] && [ "$(cat "$temp/asked")" = version ]; then
    ok "a whole program of which nothing was kept is run"
else
    failed "a whole program of which nothing was kept is run" "status $status: $(tr '\n' '/' <"$temp/err")"
fi

# ---- another toolchain
echo "kit two" >"$temp/version"
echo "# another file" >>"$temp/kit/rt"
use
asked_for "another toolchain builds" "version lib:low lib:high run version "
use
asked_for "and is then the one that built" ""

# ---- where `cd` has a path of folders, and in a folder whose name ends in a line end
cd "$temp" || exit 1
: >"$temp/asked"
CDPATH=".:$temp/elsewhere" PATH=$kit:$PATH timeout "$seconds" copy/council >"$temp/out" 2>"$temp/err" </dev/null
status=$?
asked_for "with CDPATH" ""
odd=$(printf '%s/-a\n.' "$temp")
odd=${odd%.}
mkdir "$odd"
from=$odd/copy
cp -r "$copy" "$odd"
use
asked_for "in a folder whose name has a line end" ""
from=$(printf '%s/-b\n.' "$temp")
from=${from%.}
cp -r "$copy" "$from"
use
asked_for "in a folder whose name ends in a line end" ""
from=$copy

# ---- where nothing can be written
if [ "$(id -u)" -ne 0 ]; then
    as_another() { "$@"; }
    chmod -R a-w "$copy"
elif command -v setpriv >/dev/null; then
    as_another() { setpriv --reuid=65534 --regid=65534 --clear-groups "$@"; }
else
    as_another() { false; }
fi
if as_another test -x "$copy/council" 2>/dev/null; then
    mkdir "$temp/second"
    cp "$temp/kit/rt" "$temp/second/rt"
    use_as_another() {
        : >"$temp/asked"
        chmod 666 "$temp/asked"
        PATH=$1:$PATH as_another timeout "$seconds" "$copy/council" >"$temp/out" 2>"$temp/err" </dev/null
        status=$?
    }
    use_as_another "$kit"
    asked_for "a program in a folder that can't be written to" ""
    use_as_another "$temp/second"
    asked_for "and with a second toolchain of the same version" "version "
    if [ ! -s "$temp/err" ]; then ok "of which nothing is said"; else failed "of which nothing is said" "$(head -n 1 "$temp/err")"; fi
    echo "kit three" >"$temp/version"
    use_as_another "$temp/second"
    asked_for "and with another toolchain" "version "
    said "which is told" 'the program is that of another toolchain'
    echo "kit two" >"$temp/version"
    chmod u+w "$copy/crates/high/src/lib.rt"
    echo "// text" >>"$copy/crates/high/src/lib.rt"
    use_as_another "$kit"
    if [ "$status" -eq 1 ] && [ "$(wc -l <"$temp/err")" -eq 1 ] && grep -q 'cannot be written to' "$temp/err"; then
        ok "changed sources in such a folder are told in a line"
    else
        failed "changed sources in such a folder are told in a line" "status $status: $(tr '\n' '/' <"$temp/err")"
    fi
    chmod -R u+w "$copy"
    use
else
    skipped "a program in a folder that can't be written to" "this machine has no setpriv, and the tests run as root"
fi

# ---- what stops it
# begin TEXT: begins a build of the copy that goes on until $temp/holds is removed; $launcher is its
# process.
begin() {
    echo "// $1" >>"$copy/crates/low/src/lib.rt"
    : >"$temp/asked"
    : >"$temp/holds"
    mkdir -p "$temp/tmp"
    : >"$temp/err"
    # (bash sets the interrupt aside for what runs in the background)
    TMPDIR=$temp/tmp PATH=$kit:$PATH python3 -c 'import os, signal, sys
for it in (signal.SIGINT, signal.SIGHUP):
    signal.signal(it, signal.SIG_DFL)
os.execv(sys.argv[1], sys.argv[1:])' "$copy/council" >"$temp/out" 2>"$temp/err" </dev/null &
    launcher=$!
    for ((i = 0; i < 600; i++)); do
        ! grep -q lib:low "$temp/asked" || break
        sleep 0.05
    done
}
for signal in INT:130 TERM:143 HUP:129; do
    begin "$signal"
    kill "-${signal%:*}" "$launcher"
    wait "$launcher"
    status=$?
    rm "$temp/holds"
    name="a build that is stopped by ${signal%:*}"
    if [ "$status" -eq "${signal#*:}" ] && grep -q "SIG${signal%:*}: stopping" "$temp/err" && grep -q 'what was proved by then stays' "$temp/err"; then
        ok "$name"
    else
        failed "$name" "status $status: $(tr '\n' '/' <"$temp/err")"
    fi
done
begin KILL
kill -KILL "$launcher"
wait "$launcher" 2>/dev/null
rm "$temp/holds"
if [ -z "$(ls -A "$temp/tmp")" ]; then
    ok "a launcher that is killed leaves no file"
else
    failed "a launcher that is killed leaves no file" "$(ls -A "$temp/tmp")"
fi
# (its build goes on to the end, and this one waits for it)
use

# ---- a second start beside the first
: >"$temp/err2"
begin beside
PATH=$kit:$PATH timeout "$seconds" "$copy/council" >"$temp/out2" 2>"$temp/err2" </dev/null &
second=$!
for ((i = 0; i < 600; i++)); do
    ! grep -q 'another start builds' "$temp/err2" || break
    sleep 0.05
done
rm "$temp/holds"
wait "$launcher"
status=$?
wait "$second"
second=$?
asked_for "a second start beside the first builds nothing" "lib:low lib:high run version "
if [ "$second" -eq 0 ] && [ "$(cat "$temp/out2")" = built ] && [ "$(grep -c '^== ' "$copy/crates/council/out/build.log")" -eq 3 ]; then
    ok "it runs what the first has built, and leaves its log"
else
    failed "it runs what the first has built, and leaves its log" "status $second: $(tr '\n' '/' <"$temp/err2")"
fi

# ---- with the whole of a toolchain each library is proved once, and a program is built of their
# statements
whole=$temp/whole
mkdir -p "$whole/bin" "$whole/c" "$whole/logic_built" "$whole/rlibs" "$whole/rattle/logic" "$whole/toolchain"
echo "kit two" >"$whole/KIT-ID"
touch "$whole/rattle/logic/antt-project.json"
cp "$temp/kit/rt" "$whole/bin/rt"
cat >"$whole/bin/rattle" <<END
#!/bin/sh
case " \$* " in
*" --statements "*) what=statements ;;
*) what=program ;;
esac
echo "\$what:\$3" >>"$temp/asked"
while [ "\$1" != -o ]; do shift; done
touch "\$2"
END
cat >"$whole/bin/rattle-link" <<END
#!/bin/sh
echo link >>"$temp/asked"
while [ "\$1" != -o ]; do shift; done
printf '#!/bin/sh\necho built\n' >"\$2"
chmod +x "\$2"
END
chmod +x "$whole/bin/rattle" "$whole/bin/rattle-link"
kit=$whole/bin
rm -rf "$copy"/crates/*/out
use
asked_for "a first use proves each library once" "statements:low statements:high program:council link version "
echo "// another text" >>"$copy/crates/high/src/lib.rt"
use
asked_for "a library that has another text is proved again, and none below it" "statements:high program:council link version "
mkdir -p "$copy/crates/low/out/incremental"
echo "// another text" >>"$copy/crates/council/src/main.rt"
use
asked_for "where work is kept, it is kept on" "lib:low lib:high run version "

# ---- without a toolchain
rm "$kit/rt"
PATH=/usr/bin:/bin use
if [ "$status" -eq 0 ]; then ok "a built program runs without a toolchain"; else failed "a built program runs without a toolchain" "status $status"; fi
rm "$copy/crates/council/out/council"
PATH=/usr/bin:/bin use
if [ "$status" -eq 1 ] && grep -q 'rt, .* was not found' "$temp/err"; then
    ok "without a program and a toolchain it says so"
else
    failed "without a program and a toolchain it says so" "status $status: $(head -n 1 "$temp/err")"
fi
