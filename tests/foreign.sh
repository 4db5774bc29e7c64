#!/usr/bin/env bash
# The library for other languages: what C, Python and Rust get by its calls is what the program
# prints, byte by byte, with the same status. The library is crates/council_c/out/libcouncil.a,
# which `tools/build.py --library` makes (.ci/run has it made), or the file that COUNCIL_LIBRARY
# names. The callers are those of foreign/.
. "$(dirname "$0")/common.sh"

library=${COUNCIL_LIBRARY:-$top/crates/council_c/out/libcouncil.a}
if [ ! -f "$library" ]; then
    skipped "foreign.sh" "there is no $library: tools/build.py --library makes it"
    exit 0
fi
here=$top/tests/foreign

# ---- it keeps nothing: no data that can be written, but the address of no memory, which nobody
# writes, and the flag that a thread has watched
name="no global state"
if needs nm "$name"; then
    kept=$(nm "$library" | sed -n 's/.* [bBcCdDsS] //p' | grep -vx -e nothing -e flag | head -n 2 | tr '\n' ' ')
    if [ -z "$kept" ]; then ok "$name"; else failed "$name" "$kept"; fi
fi

# ---- the callers
callers=()
if needs cc "from C" "from threads of C" "from C++"; then
    if cc -std=c99 -O2 -Wall -Wextra -Werror -pedantic -I"$top/include" -o "$temp/report_c" "$here/report.c" "$library" 2>"$temp/cc"; then
        ok "a C program is linked"
        callers+=(C)
    else
        failed "a C program is linked" "$(head -n 1 "$temp/cc")"
    fi
    name="the header is C++ too"
    if ! command -v c++ >/dev/null; then
        skipped "$name" "this machine has no c++"
    elif echo '#include "council.h"' | c++ -x c++ -Wall -Wextra -Werror -pedantic -I"$top/include" -fsyntax-only - 2>"$temp/cc"; then
        ok "$name"
    else
        failed "$name" "$(head -n 1 "$temp/cc")"
    fi
    name="a shared object is linked"
    if "$top/tools/shared.sh" "$library" "$temp/libcouncil.so" 2>"$temp/cc"; then
        ok "$name"
        # as an installed library, which the loader looks for by its soname
        ln -s libcouncil.so "$temp/libcouncil.so.1"
        name="it exports the calls of council.h"
        calls=$(nm -D --defined-only "$temp/libcouncil.so" | grep -v ' w ' | sed 's/.* //' | sort | tr '\n' ' ')
        declared=$(sed -n 's/^[a-z0-9_]* \(council_[a-z_]*\)(.*/\1/p' "$top/include/council.h" | sort | tr '\n' ' ')
        if [ "$calls" = "$declared" ]; then ok "$name"; else failed "$name" "$calls"; fi
        if needs python3 "from Python"; then callers+=(Python); fi
    else
        failed "$name" "$(head -n 1 "$temp/cc")"
    fi
fi
if needs rustc "from Rust"; then
    cp "$library" "$temp/libcouncil.a"
    if rustc --edition 2021 -O -D warnings -o "$temp/report_rs" "$here/report.rs" -L "$temp" -l static=council 2>"$temp/rustc"; then
        ok "a Rust program is linked"
        callers+=(Rust)
    else
        failed "a Rust program is linked" "$(head -n 1 "$temp/rustc")"
    fi
fi

# call CALLER WORD..: calls on the standard input of this call.
call() {
    local caller=$1
    shift
    case $caller in
    C) set -- "$temp/report_c" "$@" ;;
    Python) set -- python3 "$here/report.py" "$temp/libcouncil.so" "$@" ;;
    Rust) set -- "$temp/report_rs" "$@" ;;
    esac
    timeout "$seconds" "$@" >"$temp/its" 2>"$temp/its.err"
    its=$?
}

# same NAME GAME WORD..: whether each caller gets what the program prints on these words.
same() {
    local name=$1 game=$2 caller
    shift 2
    run "$@" <"$game"
    for caller in ${callers[@]+"${callers[@]}"}; do
        call "$caller" "$@" <"$game"
        if [ "$its" -ne "$status" ]; then
            failed "from $caller: $name" "status $its in place of $status: $(head -n 1 "$temp/its.err")"
        elif ! cmp -s "$temp/out" "$temp/its"; then
            failed "from $caller: $name" "the report differs: $(diff "$temp/out" "$temp/its" | head -n 2 | tr '\n' ';')"
        elif ! cmp -s "$temp/err" "$temp/its.err"; then
            failed "from $caller: $name" "$(head -n 1 "$temp/its.err") in place of: $(head -n 1 "$temp/err")"
        else
            ok "from $caller: $name"
        fi
    done
}

# ---- reports
for game in board.toml board.txt eec-1958.toml eu-1995.toml ca-amendment.toml un-security-council.toml; do
    same "$game" "$top/examples/$game"
    same "$game, all lines" "$top/examples/$game" --list --sizes --notation
    same "$game, counted" "$top/examples/$game" --tally --sizes --notation
done
# each option by its own
for word in --list --sizes --notation --tally; do
    same "board.toml, $word" "$top/examples/board.toml" $word
done
all_callers=(${callers[@]+"${callers[@]}"})
case " ${callers[*]-} " in *" C "*) callers=(C) ;; *) callers=() ;; esac
for game in board.txt eec-1958.toml un-security-council.toml; do
    same "$game, with swings" "$top/examples/$game" --swings --list --sizes
    same "$game, only swings" "$top/examples/$game" --only-swings --notation
done
same "27 members, only swings" "$top/examples/eu-27-lisbon.toml" --only-swings
callers=(${all_callers[@]+"${all_callers[@]}"})
same "more coalitions than are kept, counted by a walk" "$top/examples/eu-27-lisbon.toml" --tally
game_file 3 1 1 1 1 1 >"$temp/ten.toml"
same "exactly the most" "$temp/ten.toml" --most 10
same "one more than the most" "$temp/ten.toml" --most 9
equal_members 24 12 >"$temp/many.txt"
same "more than a million" "$temp/many.txt" --most 1000000
same "more than a million, with the most above" "$temp/many.txt" --most 4000000

# ---- counted by states, as by the program: these members of two kinds have 75,370,861,360
# coalitions, for which a walk would take an hour
{
    echo 'quotas = [41, 41, 31]'
    for member in {1..40}; do
        printf '[[member]]\nname = "%s"\n' "$member"
        if [ "$member" -le 20 ]; then echo 'weights = [3, 1, 2]'; else echo 'weights = [1, 3, 2]'; fi
    done
} >"$temp/kinds.toml"
same "40 members of two kinds" "$temp/kinds.toml" --tally --sizes

# ---- hard games, listed and counted, from C. Each takes the program a second or two at most
callers=()
[ ! -x "$temp/report_c" ] || callers=(C)
from_c() {
    same "$1" "$temp/rules.toml" --sizes --most 4000000
    same "$1, counted" "$temp/rules.toml" --tally --sizes
}
each_hard_game from_c
for quota in 8 20; do
    equal_members 40 "$quota" >"$temp/equal.txt"
    same "40 equal members, quota $quota" "$temp/equal.txt" --most 4000000
    same "40 equal members, quota $quota, counted" "$temp/equal.txt" --tally
    same "40 equal members, quota $quota, only swings" "$temp/equal.txt" --only-swings
done
callers=(${all_callers[@]+"${all_callers[@]}"})

# ---- faults
: >"$temp/empty"
same "no byte" "$temp/empty"
printf '%65537s' '' >"$temp/long"
same "too long" "$temp/long"
printf '[51; 50, 49,, 1]' >"$temp/bracket.txt"
same "a bad bracket text" "$temp/bracket.txt"
game_file 51 50 49 1 | sed 's/"C"/"A"/' >"$temp/name.toml"
same "a repeated name" "$temp/name.toml"
game_file 101 50 49 1 >"$temp/range.toml"
same "a quota out of range" "$temp/range.toml" --tally
game_file 51 50 49.5 1 >"$temp/weight.toml"
same "a bad weight" "$temp/weight.toml" --list

# ---- options that no call takes: the program refuses the words, with the same status
for words in "--most 4000001" "--tally --list" "--tally --most 5"; do
    for caller in ${callers[@]+"${callers[@]}"}; do
        # the options are checked before the game is read
        for game in "$top/examples/board.toml" "$temp/bracket.txt"; do
            # shellcheck disable=SC2086
            call "$caller" $words <"$game"
            # shellcheck disable=SC2086
            run $words <"$game"
            if [ "$its" -eq 2 ] && [ "$status" -eq 2 ] && [ "$(cat "$temp/its.err")" = "council: bad options" ]; then
                ok "from $caller: $words, ${game##*/}"
            else
                failed "from $caller: $words, ${game##*/}" "status $its and $status: $(head -n 1 "$temp/its.err")"
            fi
        done
    done
done

# fits NAME: whether the last call got the report that the program printed.
fits() {
    if [ "$its" -eq 0 ] && cmp -s "$temp/out" "$temp/its"; then
        ok "$1"
    else
        failed "$1" "status $its: $(head -n 1 "$temp/its.err")"
    fi
}

# ---- buffers that are too small: each caller begins with one, and calls again (report.c sees what
# it got, and what follows it)
run --list <"$top/examples/board.toml"
whole=$(wc -c <"$temp/out")
for room in 0 1 10 $((whole - 1)) "$whole" $((whole + 1)); do
    for caller in ${callers[@]+"${callers[@]}"}; do
        call "$caller" --list --room "$room" <"$top/examples/board.toml"
        fits "from $caller: a buffer of $room bytes"
        call "$caller" --room "$room" <"$temp/bracket.txt"
        if [ "$its" -eq 3 ] && [ "$(cat "$temp/its.err")" = "council: bad bracket text" ]; then
            ok "from $caller: a fault in a buffer of $room bytes"
        else
            failed "from $caller: a fault in a buffer of $room bytes" "status $its: $(head -n 1 "$temp/its.err")"
        fi
    done
done

# ---- a report of 1.8 MB, and large buffers: too small for it, just enough, and larger
equal_members 18 9 >"$temp/eighteen.txt"
run --list <"$temp/eighteen.txt"
whole=$(wc -c <"$temp/out")
for room in 65535 65536 70000 200000 250000 500000 1000000 $((whole - 1)) "$whole" 2000000; do
    for caller in ${callers[@]+"${callers[@]}"}; do
        call "$caller" --list --room "$room" <"$temp/eighteen.txt"
        fits "from $caller: a large buffer of $room bytes"
    done
done

# ---- a large buffer costs its caller memory, and the call none: the system refuses another such
name="from C: a buffer of 1 GB where there is no other"
if [ -x "$temp/report_c" ] && (ulimit -v 1500000) 2>/dev/null; then
    run --list <"$top/examples/board.toml"
    (ulimit -v 1500000 && exec timeout "$seconds" "$temp/report_c" --list --room 1000000000) >"$temp/its" 2>"$temp/its.err" <"$top/examples/board.toml"
    its=$?
    fits "$name"
fi

# ---- games of every number of members and rules, from C, whose call has neither workers nor bits
cat >"$temp/as_program" <<'END'
#!/usr/bin/env bash
words=()
while [ $# -gt 1 ]; do
    case $1 in
    --workers | --bits) shift ;;
    --explain) ;;
    *) words+=("$1") ;;
    esac
    shift
done
exec "${0%/*}/report_c" ${words[@]+"${words[@]}"} <"$1"
END
chmod +x "$temp/as_program"
if [ -x "$temp/report_c" ] && needs python3 "from C: every size"; then
    python3 "$top/tests/every_size.py" "$temp/as_program" | sed 's/every size/from C: &/'
fi

# ---- several threads at once, each with little stack
name="from threads of C"
if command -v cc >/dev/null; then
    if cc -std=c99 -D_POSIX_C_SOURCE=200809L -O2 -Wall -Wextra -Werror -pedantic -pthread -I"$top/include" -o "$temp/threads" "$here/threads.c" "$library" 2>"$temp/cc"; then
        timeout "$seconds" "$temp/threads" "$top"/examples/{board,eec-1958,ec-1973,ec-1981,ec-1986,holler-1982,un-security-council,ca-amendment}.toml "$temp/bracket.txt" "$temp/many.txt" >"$temp/its" 2>&1
        its=$?
        if [ "$its" -eq 0 ]; then ok "$name"; else failed "$name" "status $its: $(head -n 1 "$temp/its")"; fi
    else
        failed "$name" "$(head -n 1 "$temp/cc")"
    fi
fi

# ---- arrays: numbers as in the report, from memory between pages that nobody may touch
# (COUNCIL_GAMES says how many games)
if command -v cc >/dev/null; then
    name="arrays: the caller is linked"
    if cc -std=c99 -D_GNU_SOURCE -O2 -Wall -Wextra -Werror -pedantic -pthread -I"$top/include" -o "$temp/arrays" "$here/arrays.c" "$library" 2>"$temp/cc"; then
        ok "$name"
        while read -r -a words; do
            timeout "$seconds" "$temp/arrays" "${words[@]}" >"$temp/its" 2>&1
            its=$?
            if [ "$its" -eq 0 ]; then ok "arrays: ${words[*]}"; else failed "arrays: ${words[*]}" "status $its: $(head -n 1 "$temp/its")"; fi
        done <<END
random ${COUNCIL_GAMES:-300} 1
faults 2000 2
lists 100 3
lengths
threads
visits
kinds
stop
options
words
END
        name="arrays: the nearest doubles"
        if needs python3 "$name"; then
            if python3 "$here/doubles.py" "$temp/arrays" 2000 2>"$temp/its"; then ok "$name"; else failed "$name" "$(head -n 1 "$temp/its")"; fi
        fi
    else
        failed "$name" "$(head -n 1 "$temp/cc")"
    fi
fi

# ---- an object that was compiled with an older header, and has names of another library of Rattle
name="an older caller"
if command -v cc >/dev/null; then
    echo '[51; 50, 49, 1]' >"$temp/older.txt"
    run --list "$temp/older.txt"
    cp "$temp/out" "$temp/wanted"
    cc -std=c99 -Wall -Wextra -Werror -pedantic -c -o "$temp/older.o" "$here/older.c" 2>"$temp/err" &&
        cc -o "$temp/older" "$temp/older.o" "$library" 2>>"$temp/err" && "$temp/older" >"$temp/out" 2>>"$temp/err"
    status=$?
    printed "$name" "$temp/wanted"
fi

# ---- the example of LIBRARY, with the game that it has, and with a fault
name="the example of LIBRARY in C"
if command -v cc >/dev/null; then
    sed -n '/^```c$/,/^```$/p' "$top/docs/LIBRARY.md" | sed '1d; /^```$/,$d' >"$temp/example.c"
    for weight in 50 1000000000001; do
        sed "s/{50, /{$weight, /" "$temp/example.c" >"$temp/changed.c"
        cc -std=c99 -Wall -Wextra -Werror -pedantic -I"$top/include" -o "$temp/example" "$temp/changed.c" "$library" 2>"$temp/cc" && "$temp/example" >"$temp/its" 2>&1
        its="$? $(tr '\n' ' ' <"$temp/its")"
        case $weight in
        50) wanted="0 2 0.500000 1 0.250000 1 0.250000 " ;;
        *) wanted="3 bad weight of member 1 (rule 1) " ;;
        esac
        if [ "$its" = "$wanted" ]; then ok "$name, weight $weight"; else failed "$name, weight $weight" "$its$(head -n 1 "$temp/cc")"; fi
    done
fi

# ---- the examples of LANGUAGES, unchanged
example() {
    case $1 in
    *.python) PYTHONPATH=$top/python/src COUNCIL_LIBRARY=$temp/libcouncil.so LD_LIBRARY_PATH=$temp python3 "$1" ;;
    *.rust)
        rustc --edition 2024 -D warnings -o "$temp/example_rs" "$1" -L "$temp" -l council &&
            LD_LIBRARY_PATH=$temp "$temp/example_rs"
        ;;
    *.js)
        python3 "$top/tools/web.py" "$top/docs/council.html" "$temp"
        cp "$1" "$temp/example.mjs"
        node "$temp/example.mjs"
        ;;
    *.r)
        # (the package is not installed here)
        sed '/^library(council)$/d' "$1" | cat "$top/r/council/R/council.R" - >"$temp/example.R"
        COUNCIL_PROGRAM=$program Rscript --vanilla "$temp/example.R"
        ;;
    esac
}
if [ -f "$temp/libcouncil.so" ] && needs python3 "the examples of LANGUAGES"; then
    python3 -c '
import re, sys
page = open(sys.argv[1], encoding="utf-8").read()
for at, (kind, code) in enumerate(re.findall(r"```(\w+)\n(.*?)```", page, re.S)):
    open(f"{sys.argv[2]}/{at}.{kind}", "w", encoding="utf-8").write(code)
' "$top/docs/LANGUAGES.md" "$temp"
    for file in "$temp"/[0-9].*; do
        name="the example of LANGUAGES ${file##*/}"
        case $file in *.rust) tool=rustc ;; *.r) tool=Rscript ;; *.js) tool=node ;; *) tool=python3 ;; esac
        if needs "$tool" "$name"; then
            example "$file" >"$temp/its" 2>"$temp/its.err"
            if [ "$(tr '\n' ' ' <"$temp/its")" = "2 0.500000 1 0.250000 1 0.250000 " ]; then ok "$name"; else failed "$name" "$(head -n 1 "$temp/its.err")"; fi
        fi
    done
fi

# ---- out of memory: each allocation of a call for numbers refused in turn; of a report, each of
# the first 300, and then every 17th, until none is met. It is reported, or was not needed. The
# members of two kinds are never counted by a walk instead: that takes an hour.
name="arrays: out of memory is a status"
if [ -x "$temp/arrays" ]; then
    compile_preloaded refuse
    why=
    for ((number = 1; number <= 2000; number++)); do
        : >"$temp/said"
        REFUSE_AT=$number REFUSE_TO=9 LD_PRELOAD=$temp/refuse.so timeout "$seconds" "$temp/arrays" one >"$temp/its" 2>&1 9>"$temp/said"
        its=$?
        [ -s "$temp/said" ] || break
        [ "$its" -eq 5 ] || why=${why:-"allocation $number: status $its"}
    done
    [ "$its" -eq 0 ] && [ "$number" -gt 10 ] || why=${why:-"$number allocations, status $its"}
    if [ -z "$why" ]; then ok "$name"; else failed "$name" "$why"; fi
fi
name="from C: want of memory is a status"
if [ -x "$temp/report_c" ]; then
    compile_preloaded refuse
    for words in "--list" "--tally --sizes" "--tally"; do
        game=$top/examples/eec-1958.toml
        [ "$words" != --tally ] || game=$temp/kinds.toml
        # shellcheck disable=SC2086
        run $words <"$game"
        why=
        for ((number = 1; number <= 20000; number += number < 300 ? 1 : 17)); do
            : >"$temp/said"
            # shellcheck disable=SC2086
            REFUSE_AT=$number REFUSE_TO=9 LD_PRELOAD=$temp/refuse.so timeout "$seconds" "$temp/report_c" $words \
                >"$temp/its" 2>"$temp/its.err" 9>"$temp/said" <"$game"
            its=$?
            [ -s "$temp/said" ] || break
            # (99: the caller's own buffer was refused)
            [ "$its" -ne 99 ] || continue
            if ! { [ "$its" -eq 5 ] && [ "$(cat "$temp/its.err")" = "council: out of memory" ]; } && ! { [ "$its" -eq 0 ] && cmp -s "$temp/out" "$temp/its"; }; then
                why="allocation $number: status $its: $(head -n 1 "$temp/its.err")"
                break
            fi
        done
        if [ -n "$why" ] || [ "$number" -lt 3 ] || [ "$number" -gt 20000 ]; then
            failed "$name, $words" "${why:-$number allocations}"
        else
            ok "$name, $words"
        fi
    done
fi
