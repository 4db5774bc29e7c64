#!/usr/bin/env python3
"""Each piece of Rattle in docs/LIBRARY.md is in the sources of a crate, and its first program is whole. Each call that
it names with its crate exists.

    tests/library.py

Blank lines do not count. tests/documents.sh runs it.
"""
import glob
import os
import re

TOP = os.path.dirname(os.path.dirname(os.path.realpath(__file__)))


def read(path):
    with open(f"{TOP}/{path}", encoding="utf-8") as it:
        return it.read()


def packed(text):
    """A text without its blank lines."""
    return "".join(line + "\n" for line in text.split("\n") if line.strip())


def report(good, name, why):
    print(f"ok {name}" if good else f"FAILED {name}: {why}")


page = read("docs/LIBRARY.md")
sources = [packed(read(os.path.relpath(path, TOP))) for path in sorted(glob.glob(f"{TOP}/crates/*/src/**/*.rt", recursive=True))]
for block in re.findall(r"```rust\n(.*?)```", page, re.S):
    first = next(line.strip() for line in block.split("\n") if line.strip())
    report(any(packed(block) in source for source in sources), f"docs/LIBRARY.md: {first}", "no crate has this code")
program = read("crates/examples/src/main.rt")
whole = packed("".join(re.findall(r"```rust\n(.*?)```", page, re.S)[:2])) == packed(program[program.index("ghost use"):])
report(whole, "docs/LIBRARY.md has the program of crates/examples whole", "it has not")
missing = []
for crate, path in re.findall(r"`(\w+)::([\w:]+)`", re.sub(r"```.*?```", "", page, flags=re.S)):
    item = path.split("::")[-1]
    if os.path.isdir(f"{TOP}/crates/{crate}"):
        items = "".join(read(os.path.relpath(it, TOP)) for it in glob.glob(f"{TOP}/crates/{crate}/src/*.rt"))
        missing += [] if re.search(rf"pub (?:extern \S+ )?(?:fn|struct) {item}\b", items) else [f"{crate}::{path}"]
report(not missing, "docs/LIBRARY.md: each call exists", f"not there: {missing}")
laws = {it for path in glob.glob(f"{TOP}/crates/*/src/laws.rt") for it in re.findall(r"^pub fn (\w+)", read(os.path.relpath(path, TOP)), re.M)}
report(all(f"`{it}`" in page for it in laws), "docs/LIBRARY.md names each law", f"not {sorted(it for it in laws if f'`{it}`' not in page)}")
used = re.search(r"```\nmy_indices: (.*)\n```", page).group(1).split()
strange = [it for it in used if not os.path.isdir(f"{TOP}/crates/{it}")]
report(not strange, "docs/LIBRARY.md: each crate of the line for crates.txt exists", f"not there: {strange}")
