#!/usr/bin/env python3
"""The reference that tools/reference.py makes has every public item, and no link of it is dead.

    tests/reference.py

What is public is found here by other means: the names after `pub use` and the lines that begin with `pub`. tests/documents.sh runs it.
"""
import glob
import os
import re
import subprocess
import sys
import tempfile
from html.parser import HTMLParser

TOP = os.path.dirname(os.path.dirname(os.path.realpath(__file__)))


class Page(HTMLParser):
    """The anchors, the links, and the text of a page, and the items that its search finds."""

    def __init__(self, text):
        super().__init__()
        self.anchors, self.links, self.text = set(), set(), []
        self.feed(text)
        self.links |= set(re.findall(r'", "([\w.]+\.html#[^"]+)"\]', text))

    def handle_starttag(self, tag, attrs):
        for name, value in attrs:
            if name == "id":
                self.anchors.add(value)
            elif name == "href":
                self.links.add(value)

    def handle_data(self, data):
        self.text.append(data)


def report(good, name, why):
    print(f"ok {name}" if good else f"FAILED {name}: {why}")


def wanted(crate):
    """The public items of a library."""
    source = f"{TOP}/crates/{crate}/src"
    with open(f"{source}/lib.rt", encoding="utf-8") as it:
        root = it.read()
    names = set()
    for path, listed, one in re.findall(r"^pub use (\w+)::(?:\{([^}]*)\}|(\w+));", root, re.M):
        if os.path.exists(f"{source}/{path}.rt"):
            names |= {it.strip() for it in (listed or one).split(",") if it.strip()}
    for path in sorted(glob.glob(f"{source}/*.rt")):
        with open(path, encoding="utf-8") as it:
            text = it.read()
        module, owner = os.path.basename(path)[:-3], None
        whole = f"pub mod {module};" in root
        for line in text.split("\n"):
            if line.startswith("impl"):
                owner = re.match(r"impl(?:<.*?>)? (?:.* for )?([A-Z]\w*)", line)[1]
            it = re.match(r"(\s*)pub (?:fn|struct|enum|trait|const|type) (\w+)", line)
            if it and it[1] and owner in names:
                names.add(f"{owner}.{it[2]}")
            elif it and not it[1] and whole:
                names.add(it[2])
    return names


with tempfile.TemporaryDirectory() as folder:
    subprocess.run([sys.executable, f"{TOP}/tools/reference.py", folder], check=True)
    pages = {}
    for path in glob.glob(f"{folder}/*.html"):
        with open(path, encoding="utf-8") as it:
            pages[os.path.basename(path)] = Page(it.read())
missing, count = [], 0
for name in sorted(pages):
    crate = name.removesuffix(".html")
    if crate not in ("index", "laws", "python"):
        items = wanted(crate)
        count += len(items)
        missing += [f"{crate}: {it}" for it in sorted(items - pages[name].anchors)]
report(not missing and count > 150, "tools/reference.py: every public item has its place", f"of {count}, not {missing}")
lacking = {it for it in ("report", "Game.sweep", "Report.to_frame", "Refused", "format_game_file") if it not in pages["python.html"].anchors}
report(not lacking, "tools/reference.py: the package for Python has its page", sorted(lacking))
dead = []
for name, page in pages.items():
    for link in page.links:
        to, _, at = link.partition("#")
        if to not in pages or at and at not in pages[to].anchors:
            dead.append(f"{name}: {link}")
report(not dead, "tools/reference.py: no link is dead", sorted(dead)[:20])
linked = "council_game.html#specs.Votes.minimal_coalitions" in pages["mwc_walk.html"].links | pages["mwc_gather.html"].links
report(linked, "tools/reference.py: a definition that a clause names is linked", "minimal_coalitions is not")
