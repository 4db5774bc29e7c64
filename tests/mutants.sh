#!/usr/bin/env bash
# Mutants that no clause refuses, or not with every reading of it, since out of memory, a
# failed read or write, threads and time are in no contract. Each edit of mutants/ is of the form of
# a must-fail edit, with a first line `test: NAME in CRATE`; it is put into a copy of the crate,
# with its tests, the module CRATE_tests of another crate, as a module of it, that test is run
# without a proof, and must fail. It must pass before, on the clean crate, and a test that the time
# limit ended says nothing: but where the line is `test: NAME in CRATE late` the body makes a call
# so slow that its test does not end. `test: NAME in CRATE slow` says that the test takes minutes
# without a proof.
#
#     tests/mutants.sh [NAME..]            the edits of these names, or all, half a minute to two minutes each
#     tests/mutants.sh --some N            N of those that are neither late nor slow, which the sources choose
#     tests/mutants.sh --fit [NAME..]      says only whether each can still be put into the sources
#
# It needs python3 and the toolchain's rt, and the libraries below each crate as `rt check` leaves
# them.
set -u
export LC_ALL=C
top=$(cd "$(dirname "${BASH_SOURCE[0]}")/.." && pwd)
fit=no
some=0
case ${1:-} in
--fit)
    fit=yes
    shift
    ;;
--some)
    some=$2
    shift 2
    ;;
esac
for command in python3 rt; do
    command -v "$command" >/dev/null || {
        echo "skipped mutants.sh: this machine has no $command"
        exit 0
    }
done
room=$(mktemp -d)
trap 'rm -rf "$room"' EXIT
mkdir "$room/crates"
cp "$top/crates.txt" "$top/HANDLES" "$room/"
# the sources, and what was built of the libraries
for crate in "$top"/crates/*; do
    crate=$(basename "$crate")
    mkdir "$room/crates/$crate"
    for part in src specs proofs; do
        [ ! -d "$top/crates/$crate/$part" ] || cp -rp "$top/crates/$crate/$part" "$room/crates/$crate/"
    done
    if [ $fit = no ] && [ -d "$top/crates/$crate/out/rlib" ]; then
        mkdir "$room/crates/$crate/out"
        cp -rp "$top/crates/$crate/out/rlib" "$room/crates/$crate/out/"
    fi
done
# Puts the tests of each library into it, as a module of its own, with the helpers that tests share,
# and what they use into its line of crates.txt.
python3 - "$room" <<'END'
import glob, os, re, sys
room = sys.argv[1]
lines = {}
for line in open(f"{room}/crates.txt", encoding="utf-8"):
    head, colon, tail = line.partition(":")
    if colon:
        lines[head.split()[0]] = head.split()[1:], tail.split()
for name, (said, used) in lines.items():
    modules = glob.glob(f"{room}/crates/*_tests/src/{name}_tests.rt")
    if not modules:
        continue
    whole = modules[0][: -len(".rt")]
    beside = os.path.basename(os.path.dirname(os.path.dirname(whole)))
    own = f"{room}/crates/{name}"
    said += lines[beside][0]
    shared = [it for it in glob.glob(f"{os.path.dirname(whole)}/*.rt") if not re.search(r"/lib\.rt$|_tests\.rt$", it)]
    for file in [f"{whole}.rt", *sorted(glob.glob(f"{whole}/**/*.rt", recursive=True)), *shared]:
        to = f"{own}/src/{os.path.basename(file)}" if file in shared else f"{own}/src/tests{file[len(whole):]}"
        with open(file, encoding="utf-8") as it:
            text = it.read()
        used += [it for it in lines[beside][1] if it not in (name, *used) and re.search(rf"\b{it}\b", text)]
        text = re.sub(rf"\buse {name}\b", "use crate", text)
        text = re.sub(rf"(?<![\w.:]){name}::", "crate::", text)
        os.makedirs(os.path.dirname(to), exist_ok=True)
        with open(to, "w", encoding="utf-8") as it:
            it.write(text)
    with open(f"{own}/src/lib.rt", "a", encoding="utf-8") as it:
        for module in [*(os.path.basename(it)[: -len(".rt")] for it in shared), "tests"]:
            it.write(f"\n#[cfg(test)]\nmod {module};\n")
with open(f"{room}/crates.txt", "w", encoding="utf-8") as it:
    for name, (said, used) in lines.items():
        it.write(f"{' '.join([name, *said])}: {' '.join(used)}\n")
END
# What the test of this name says in the crate unchanged: `passes`, `fails`, `late` if the
# time limit ended it, or `none` if it was not run.
say_test() {
    (cd "$room/crates/$crate" && rt try --test --seconds 300 -- "$test") >"$room/said" 2>&1 </dev/null
    awk -v name="$test" '
        /^test / {
            ours = $2 ~ ("^tests::(.*::)?" name "$")
            if (ours) said = $NF == "ok" ? "passes" : "fails"
        }
        ours && /^ / && /no-answer/ { said = "late" }
        END { print said == "" ? "none" : said }
    ' "$room/said"
}

# Judges the body by what its test said on the clean crate and says with the body in it. No answer
# is no notice, unless the body is one that makes a call endless.
judge() {
    local said
    said=$(say_test)
    if [ "$said" = fails ] || [ "$said $late" = "late late" ]; then
        echo "ok body $name: $test, which passes on the clean crate, $said"
    else
        echo "FAILED body $name: $test $said$([ "$said" != none ] || grep -m 1 error "$room/said" | head -c 200)"
        found=1
    fi
}

found=0
# Some of them, which the sources choose.
if [ $some -gt 0 ]; then
    mapfile -t all < <(grep -LE '^test: .* (late|slow)$' "$top"/tests/mutants/*.edit)
    first=$(cat "$top"/crates/*/src/*.rt | cksum | cut -d" " -f1)
    set --
    for ((k = 0; k < some; k++)); do set -- "$@" "${all[(first + k) % ${#all[@]}]}"; done
fi
[ $# -gt 0 ] || set -- "$top"/tests/mutants/*.edit
for edit in "$@"; do
    name=$(basename "$edit" .edit)
    edit=$top/tests/mutants/$name.edit
    read -r _ test _ crate late <"$edit"
    if [ $fit = no ]; then
        # the clean crate, once for each test
        if [ ! -e "$room/clean.$crate.$test" ]; then
            say_test >"$room/clean.$crate.$test"
        fi
        if [ "$(cat "$room/clean.$crate.$test")" != passes ]; then
            echo "FAILED body $name: $test on the clean crate: $(cat "$room/clean.$crate.$test")"
            found=1
            continue
        fi
    fi
    rm -rf "$room/whole"
    cp -rp "$room/crates/$crate/src" "$room/whole"
    if ! python3 - "$edit" "$room/crates/$crate" >"$room/why" 2>&1 <<'END'
import sys
file = old = None
for line in open(sys.argv[1], encoding="utf-8"):
    key, _, text = line.rstrip("\n").partition(": ")
    if key == "file":
        file = f"{sys.argv[2]}/{text}"
    elif key == "old":
        old = text
    elif key == "new":
        with open(file, encoding="utf-8") as it:
            whole = it.read()
        if whole.count(old) != 1:
            sys.exit(f"this stands {whole.count(old)} times, and not once: {old}")
        with open(file, "w", encoding="utf-8") as it:
            it.write(whole.replace(old, text))
END
    then
        echo "FAILED body $name: $(tail -n 1 "$room/why")"
        found=1
    elif [ $fit = yes ]; then
        echo "ok body $name: it can be put into the sources"
    else
        judge
    fi
    rm -rf "$room/crates/$crate/src"
    mv "$room/whole" "$room/crates/$crate/src"
done
exit $found
