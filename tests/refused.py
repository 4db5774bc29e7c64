#!/usr/bin/env python3
"""Mutants that the prover must refuse, beside those that each `rt ci` tries.

    tests/refused.py --fit              says whether each can still be put into the sources
    tests/refused.py --some N           tries N of them, which the sources choose
    tests/refused.py [CRATE/NAME..]     tries these, or all

refused/CRATE has edits of the crate CRATE, in the form of its must-fail edits. They are put into a
copy of these crates and those below. Where `rt check` has left the libraries below, it takes these
and what it kept of the crate; else `rt ci` proves first what it has not proved on this machine. Each
line says `ok`, or `FAILED` or `skipped` and why.
"""
import glob
import hashlib
import os
import re
import shutil
import subprocess
import sys
import tempfile

TOP = os.path.dirname(os.path.dirname(os.path.realpath(__file__)))
EDITS = f"{TOP}/tests/refused"


def read(path):
    with open(path, encoding="utf-8") as it:
        return it.read()


def find_misfit(name):
    """Returns why an edit cannot be put into the sources, or None."""
    crate = name.split("/")[0]
    texts, file, old = {}, None, None
    for line in read(f"{EDITS}/{name}.edit").splitlines():
        key, _, text = line.partition(": ")
        if key == "file":
            file = f"{TOP}/crates/{crate}/{text}"
            texts.setdefault(file, read(file) if os.path.exists(file) else "")
        elif key == "old":
            old = text
        elif key == "new":
            if texts[file].count(old) != 1:
                return f"this stands {texts[file].count(old)} times, and not once: {old}"
            texts[file] = texts[file].replace(old, text)
    return None


def choose(names, count):
    """Returns some of the names, which the sources choose."""
    digest = hashlib.sha256()
    for path in sorted(glob.glob(f"{TOP}/crates/*/src/**/*.rt", recursive=True)):
        digest.update(read(path).encode())
    first = int.from_bytes(digest.digest()[:4], "big")
    return [names[(first + k * (len(names) // count)) % len(names)] for k in range(count)]


def try_edits(names):
    """Lets the prover try these edits; returns what it says of each, and its last lines."""
    lines = dict(re.findall(r"^(\w+)[^:\n]*:(.*)$", read(f"{TOP}/crates.txt"), re.M))
    crates = {name.split("/")[0] for name in names}
    while below := {it for crate in crates for it in lines[crate].split() if it in lines} - crates:
        crates |= below
    with tempfile.TemporaryDirectory() as room:
        shutil.copy(f"{TOP}/HANDLES", room)
        with open(f"{room}/crates.txt", "w", encoding="utf-8") as it:
            it.writelines(line for line in read(f"{TOP}/crates.txt").splitlines(True) if line.split(" ")[0].split(":")[0] in crates)
        own = {name.split("/")[0] for name in names}
        is_kept = all(os.path.isdir(f"{TOP}/crates/{crate}/out/{'incremental' if crate in own else 'rlib'}") for crate in crates)
        for crate in crates:
            kept = [] if not is_kept else ["out"] if crate in own else ["out/rlib"]
            for part in ["src", "specs", "proofs", *kept]:
                if os.path.isdir(f"{TOP}/crates/{crate}/{part}"):
                    shutil.copytree(f"{TOP}/crates/{crate}/{part}", f"{room}/crates/{crate}/{part}", symlinks=True)
        for name in names:
            crate, edit = name.split("/")
            os.makedirs(f"{room}/crates/{crate}/must-fail", exist_ok=True)
            shutil.copy(f"{EDITS}/{name}.edit", f"{room}/crates/{crate}/must-fail/{edit}.edit")
        run = subprocess.run(["rt", "must-fail", *own] if is_kept else ["rt", "ci"], cwd=room, stdout=subprocess.PIPE, stderr=subprocess.STDOUT, text=True, check=False)
        return dict(re.findall(r"must-fail (\S+)\.edit: (.*)", run.stdout)), run.stdout.strip().splitlines()[-3:]


def main():
    names = sorted(os.path.relpath(it, EDITS)[: -len(".edit")] for it in glob.glob(f"{EDITS}/*/*.edit"))
    words = sys.argv[1:]
    bad = 0
    if words == ["--help"]:
        print(__doc__.strip())
        return 0
    if words == ["--fit"]:
        for name in names:
            why = find_misfit(name)
            bad += why is not None
            print(f"FAILED {name}: {why}" if why else f"ok {name} can be put into the sources")
        return bad > 0
    if not shutil.which("rt"):
        print("skipped refused.py: this machine has no rt")
        return 0
    if words[:1] == ["--some"]:
        names = choose(names, int(words[1]))
    elif words:
        names = words
    said, end = try_edits(names)
    for name in names:
        why = said.get(name, f"NOT TRIED: {end}")
        if why.startswith("NOT TRIED"):
            # nothing is known of it: the prover was stopped, most likely for memory
            print(f"skipped {name}: {why}")
        elif why.startswith("refused"):
            print(f"ok {name} is refused")
        else:
            bad += 1
            print(f"FAILED {name}: {why[:200]}")
    return bad > 0


sys.exit(main())
