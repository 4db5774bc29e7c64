#!/usr/bin/env python3
"""Compares what documents say of the house with crates.txt and with the sources.

    tests/architecture.py

In the picture of who calls whom, each crate uses the crates and the kit's libraries below it, by crates.txt and by the
`use` lines of its sources, and everything that the program stands on is there. In the picture of the layers, each crate
is just above the highest of those that it uses. README and PROOF name the number of the mutants that the prover must
refuse. tests/documents.sh runs it.
"""
import glob
import os
import re

TOP = os.path.dirname(os.path.dirname(os.path.realpath(__file__)))


def read(path):
    with open(f"{TOP}/{path}", encoding="utf-8") as it:
        return it.read()


def report(good, name, why):
    print(f"ok {name}" if good else f"FAILED {name}: {why}")


uses = {}
for line in read("crates.txt").split("\n"):
    if line.strip() and not line.startswith("#"):
        name, others = line.split(":")
        uses[name.split()[0]] = others.split()


def layer(name):
    return 1 + max((layer(it) for it in uses[name] if it in uses), default=0)


def below(name):
    return {name}.union(*(below(it) for it in uses[name] if it in uses))


def calls(name, other):
    """Whether a crate uses another one, by crates.txt and by the `use` lines of its code."""
    files = glob.glob(f"{TOP}/crates/{name}/src/**/*.rt", recursive=True)
    return other in uses.get(name, ()) and any(re.search(rf"\b{other}::", read(os.path.relpath(it, TOP))) for it in files)


tree, layers = re.findall(r"```text\n(.*?)```", read("docs/ARCHITECTURE.md"), re.S)[:2]
above, shown, wrong = [], set(), []
for line in filter(None, tree.split("\n")):
    indent, name, kit = re.match(r"( *)(\w+)(?: \(([\w ]+)\))?", line).groups()
    above = [*above[: len(indent) // 2], name]
    shown.add(name)
    wrong += [f"{name} does not call {it}" for it in (kit or "").split() if not calls(name, it)]
    if len(above) > 1 and not calls(above[-2], name):
        wrong.append(f"{above[-2]} does not call {name}")
report(not wrong, "docs/ARCHITECTURE.md: who calls whom", "; ".join(wrong))
# every crate uses this one
missing = below("council") - shown
report(not missing, "docs/ARCHITECTURE.md: the picture has all that the program stands on", sorted(missing))
found = {}
for line in layers.split("\n"):
    number = re.match(r"\s*(\d+)\s", line)
    for name in re.findall(r"[a-z_]{3,}", line) if number else []:
        found.setdefault(name, []).append(int(number[1]))
wanted = {it: [layer(it)] for it in uses}
wrong = sorted(it for it in {*wanted, *found} if wanted.get(it) != found.get(it))
report(not wrong, "docs/ARCHITECTURE.md: the layers are those of crates.txt", f"{wrong}: {[wanted.get(it) for it in wrong]} instead of {[found.get(it) for it in wrong]}")
count = len(glob.glob(f"{TOP}/crates/*/must-fail/*.edit"))
for page in ("README.md", "docs/PROOF.md"):
    told = [int(it) for it in re.findall(r"\b(\d+)\s+mutants", read(page))]
    report(told == [count], f"{page}: the number of mutants", f"{told} instead of {count}")
