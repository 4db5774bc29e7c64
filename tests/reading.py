#!/usr/bin/env python3
"""What to read to trust the headline: the definitions that its contracts mention, and theirs in turn.

    reading.py            compares docs/TRUST.md with what the sources say
    reading.py --page     prints that page: tests/reading.py --page >docs/TRUST.md
    reading.py --inner    names the definitions of specs/ that no public contract reaches

It follows the `use` lines of crates/NAME/specs and the `ghost use` lines of crates/NAME/src. Lines are
those of definitions: no blank lines, comments or `use` lines.

The last parts have what the calls of FURTHER mention beyond that, each beyond those before it.

Prints `ok reading: what` or `FAILED reading: why` for each of these: docs/TRUST.md is this page; its list
has at most LIMIT lines, and each further part as many as FURTHER says; no module of a folder `Inner` or `Shared` is in it;
those folders have all definitions that no public contract reaches, and no others; and each definition that
docs/DEFINITIONS.md names, as `Module.name`, exists.
"""
import glob
import os
import re
import sys
import textwrap

# lower them with each definition that goes; never raise them without a reason
LIMIT = 465
# crate, source module, type or None, function or None for all
HEADLINE = [
    ("mwc_pipe", "trace", None, "replay"),
    ("mwc_pipe", "laws", None, "nothing_is_lost"),
    ("mwc_pipe", "laws", None, "nothing_enters_after_close"),
    ("mwc_pipe", "laws", None, "each_reply_is_counted"),
    ("mwc_gather", "gathering", None, "gather"),
    ("mwc_gather", "gathered", "Gathered", "in_order"),
    ("council_run", "runs", None, "run"),
]
# for each further part its title, how many lines it has at most, and its calls
FURTHER = [
    # what says that each ring was read to its end and gave what the worker sent
    ("The rings", 57, [
        ("mwc_gather", "worker", None, "work"),
        ("mwc_pipe", "ring_out", "RingOut", "end"),
        ("mwc_pipe", "rest", "Rest", "next"),
    ]),
    ("The program", 95, [("council", "main", None, "end_on")]),
    ("The calls from C", 283, [("council_c", "call", None, None)]),
]
# in reading order: the first pattern that fits a module
PARTS = [
    ("The mathematics", r"council_game\.(Coalitions|Lists|Votes|Ranks|Members)|mwc_walk\.Slices|power_index\."),
    ("The pipe", r"mwc_pipe\."),
    ("The gathering", r"mwc_gather\."),
    ("The game file", r"council_game\.(?!Joined|Notation|Options)|council_file\.(Bracket|File)"),
    ("The report", r"council_report\.|council_game\.(Joined|Notation)"),
    ("The run", r"."),
]
HEAD = """
# Definitions to trust

The [headline](PROOF.md#the-headline) is the contract of four calls: `replay` of `mwc_pipe`,
`gather` and `Gathered::in_order` of `mwc_gather`, and `run` of `council_run`. To trust it, read the
clauses of these calls, the three laws of `mwc_pipe` that sum up `replay`, and the definitions
below: those that the clauses name, and those that these name in turn, in reading order. For these
calls that is all. The last sections list what further contracts add, each beyond those before it:
of the program, `end_on` of `council`, and of the calls from C. The rest of `crates/*/specs` serves
other contracts or the proofs.

One sentence of the headline needs more, because no clause of the four calls says it: each worker's
ring was read to its end and gave what the worker sent. It rests on the contracts of
`mwc_gather::work`, `RingOut::end` and `Rest::next`, which hold whatever `gather` then returns, and
on private clauses of the gatherer. The section on rings lists what the three public contracts add.

A limit has a name here, such as `MEMBERS`; `are_these_numbers` in
`crates/council_game/src/limits.rt` says its number. In the clauses of `gather`, `guarded.now` is
the game that `Guarded::new` was given.

This page is computed by following the names in the sources: `python3 tests/reading.py --page`
prints it. Lines count definitions only, without comments, imports and blank lines.
"""
# what the page says of each part, below its title
INTRODUCTIONS = {
    "The mathematics": """
Weights, wins, minimal winning coalitions and their slices, the counts of a list, fractions in
lowest terms, decimals, and the two indices.
""",
    "The pipe": """
What came out of a pipe and what went in, and the replies, which follow from the steps before them
by counting.
""",
    "The gathering": """
What the parts of all workers hold: each slice once, ascending in each part, with its coalitions.
""",
    "The game file": """
Which game, or which first fault, the bytes of a file give.
""",
    "The report": """
The lines of a report, as a function of the game, and the calls by which a writer gets them.
""",
    "The run": """
What a run reads, by which reads, what it writes and returns, and what it has written if it stops.
""",
    "What they rest on": """
`parse_document`, what a text of TOML means, rests in turn on more than 150 definitions of the kit's
crates `toml`, `toml_parser` and `toml_datetime`. If you do not want to read them, trust the TOML
standard.
""",
    "The rings": """
What a worker sends, a whole or a cut sending, as words; which ring an end is of; and the words of
`rtrb` by which contracts see the ends: all that was sent, what was received, what is known to be
inside. What was received, and then what is left, is all that was sent: that is the clause `fifo` of
`Consumer::slots_after` in `rtrb`.
""",
    "The program": """
Which report the arguments ask for, also one with swings, and with which status the program ends.
`report_game` of `council_run` needs no others.
""",
    "The calls from C": """
The numbers, masks and texts that the calls of `council.h` give, and each status.
""",
}
TOP = os.path.join(os.path.dirname(os.path.abspath(__file__)), "..")
CRATES = os.path.join(TOP, "crates")


def imports(text):
    names, aliases = {}, {}
    for line in text.split("\n"):
        m = re.match(r"\s*(?:unfoldable )?(?:pub )?(?:ghost )?use ([\w.×]+)\.\{(.*)\};?\s*$", line)
        if m:
            for item in m.group(2).split(","):
                new, _, old = reversed(item.strip().partition(" as ")) if " as " in item else (item.strip(), "", "")
                names[new] = (m.group(1), old or new)
        m = re.match(r"\s*(?:pub )?(?:ghost )?use ([\w.]+) as (\w+);?\s*$", line)
        if m:
            aliases[m.group(2)] = m.group(1)
    return names, aliases


START = re.compile(r"^\s*(?:abbrev|unfoldable|pub|record|data)(?: (?:abbrev|unfoldable|pub|record|data))* (\S+) ?[:({]")
FIELD = re.compile(r"^\s+(?:pub )?[a-z_]\w* (?:[a-z_]\w* )*:")
defs, uses, makers = {}, {}, {}      # (module, name) -> lines; module -> imports; constructor -> its data type


def load(path, module):
    text = open(path, encoding="utf-8").read()
    uses[module] = imports(text)
    key, kind, indent = None, "", 0
    for line in text.split("\n"):
        code = line.strip()
        inside = key and kind in ("record", "data") and len(line) - len(line.lstrip()) > indent
        m = None if inside else START.match(line)
        if not code or code.startswith(("use ", "pub use", "unfoldable pub use", "pub mod", "module ", "infix", "--")):
            key = key if inside and code.startswith("--") else None if not code else key
        elif m:
            key = (module, m.group(1))
            kind, indent = (re.search(r"record|data", line.split(m.group(1))[0]) or [""])[0], len(line) - len(line.lstrip())
            defs[key] = [line]
        elif key:
            defs[key].append(line)
            if kind == "data":
                makers[(module, code.split(" ")[0])] = key


def mentioned(text, names, aliases, module=None):
    text = re.sub(r'"[^"]*"|(^|\s)(--|//).*', " ", text, flags=re.M)
    found = set()
    for word in re.findall(r"[^\s(){},;λ]+", text):
        m = re.match(r"([A-Za-z_][\w'×]*)(?:\.([\w']+))?", word)
        if m and m.group(2) and m.group(1) in aliases:
            found.add((aliases[m.group(1)], m.group(2)))
        elif m and m.group(1) in names:
            found.add(names[m.group(1)])
        elif m and ((module, m.group(1)) in defs or (module, m.group(1)) in makers):
            found.add((module, m.group(1)))
        else:
            found |= {n for k, n in names.items() if k.strip("◌") == word}
    if re.search(r"\bdo\b", text):
        found |= {n for k, n in names.items() if k == "◌>>=◌"}
    return found


functions, types = {}, {}


def load_source(path, crate, module):
    text = open(path, encoding="utf-8").read()
    names = imports(text)
    owner, lines = None, text.split("\n")
    for i, line in enumerate(lines):
        m = re.match(r"(?:impl(?:<.*?>)? (?:.* for )?|pub trait )([A-Z]\w*).*\{$", line)
        owner = m.group(1) if m else None if line == "}" else owner
        m = re.match(r"(\s*)(pub(?:\(\w+\))? )?(?:extern \S+ )?fn (\w+)", line)
        if m:
            # up to the body, or to the `;` of a function without one
            j, open_braces, clauses = i, line.count("{") - line.count("}"), False
            while open_braces or not lines[j].endswith((";", "{}")):
                if lines[j + 1].startswith(m.group(1) + "{") or lines[j].endswith("{") and not clauses:
                    break
                j += 1
                open_braces += lines[j].count("{") - lines[j].count("}")
                clauses = clauses or bool(re.match(r"\s*(requires|ensures|ghost)\b", lines[j]))
            functions.setdefault((crate, module, owner, m.group(3)), ("\n".join(lines[i : j + 1]), names, m.group(2) or ""))
        m = re.match(r"pub(?:\(\w+\))? (?:struct|enum|trait) (\w+).*\{$", line)
        if m:
            body = lines[i : lines.index("}", i)]
            types[(crate, m.group(1))] = ("\n".join(x for x in body if re.match(r"\s*(ghost|requires|ensures)", x)), names)


for crate in sorted(os.listdir(CRATES)):
    for path in sorted(glob.glob(f"{CRATES}/{crate}/specs/**/*.antt", recursive=True)):
        load(path, f"Rattle.{crate}.specs." + os.path.relpath(path, f"{CRATES}/{crate}/specs")[:-5].replace("/", "."))
    for path in sorted(glob.glob(f"{CRATES}/{crate}/src/*.rt")):
        if not path.endswith("tests.rt"):
            load_source(path, crate, os.path.basename(path)[:-3])


def closure(roots):
    seen, other, todo = set(), set(), list(roots)
    while todo:
        key = makers.get(todo[-1], todo[-1])
        todo.pop()
        if key in seen or key in other:
            continue
        if key in defs:
            seen.add(key)
            todo += mentioned("\n".join(defs[key]), *uses[key[0]], key[0]) - {key}
            continue
        if key[0] in uses and key[1] in uses[key[0]][0]:
            # a module passes it on
            todo.append(uses[key[0]][0][key[1]])
            continue
        other.add(key)
        m = re.match(r"Rattle\.(\w+)\.specs\.declared\.[\w.]*?([A-Z]\w*)", key[0])
        if m and (m.group(1), m.group(2)) in types:
            text, names = types[(m.group(1), m.group(2))]
            todo += mentioned(text, *names)
    return seen, other


def roots_of(wanted):
    found = set()
    for key, (text, names, _) in functions.items():
        if any(all(w is None and n == 3 or w == key[n] for n, w in enumerate(want)) for want in wanted):
            found |= mentioned(text, *names)
            if key[3] in ("gather", "in_order"):
                for name in ("Gathered", "Part"):
                    found |= mentioned(types[("mwc_gather", name)][0], *types[("mwc_gather", name)][1])
    return found


def reading_list():
    """The lines of the list, and how many lines of definitions it names."""
    seen, other = closure(roots_of(HEADLINE))
    lines, total, rest = [], 0, set(seen)
    for title, pattern in PARTS:
        here = sorted(k for k in rest if re.match(pattern, k[0].replace("Rattle.", "").replace(".specs", "")))
        rest -= set(here)
        count = sum(len(defs[k]) for k in here)
        total += count
        lines.append(f"## {title}: {len(here)} definitions, {count} lines")
        for module in sorted({k[0] for k in here}):
            names = ", ".join(f"`{k[1]}`" for k in here if k[0] == module)
            lines.append(f"- {module[7:].replace('.specs.', '/specs/')}.antt: {names}")
    words = {k for k in other if k[0].startswith("Rattle.std.")}
    lines.append(f"## What they rest on: {len(words)} words of std")
    for module in sorted({k[0] for k in words}):
        lines.append(f"- {module[7:]}: " + ", ".join(f"`{k[1]}`" for k in sorted(words) if k[0] == module))
    for module in sorted({k[0] for k in other if ".declared." not in k[0] and not k[0].startswith("Rattle.std.")}):
        lines.append(f"- {module[7:]}: " + ", ".join(f"`{k[1]}`" for k in sorted(other) if k[0] == module))
    return lines, total


def further_lists():
    """The lines of each further part, how many lines of definitions it names, and the most."""
    parts, (seen, other) = [], closure(roots_of(HEADLINE))
    for title, limit, calls in FURTHER:
        here, words = closure(roots_of(calls))
        here, words = here - seen, {k for k in words - other if ".declared." not in k[0]}
        for path in (path for crate in {call[0] for call in calls} for path in glob.glob(f"{CRATES}/{crate}/src/*.rt")):
            # by which words of rtrb the ends of a ring are seen
            for module, names in re.findall(r"^    ghost use (Rattle\.rtrb\.[\w.]+)\.\{(.*)\};$", open(path, encoding="utf-8").read(), re.M):
                words |= {(module, name) for name in names.split(", ")}
        seen, other = seen | here, other | words
        count = sum(len(defs[k]) for k in here)
        lines = [f"## {title}: {len(here)} more definitions, {count} lines"]
        for module in sorted({k[0] for k in here}):
            names = ", ".join(f"`{k[1]}`" for k in sorted(here) if k[0] == module)
            lines.append(f"- {module[7:].replace('.specs.', '/specs/')}.antt: {names}")
        for module in sorted({k[0] for k in words}):
            lines.append(f"- {module[7:]}: " + ", ".join(f"`{k[1]}`" for k in sorted(words) if k[0] == module))
        parts.append((lines, count, limit))
    return parts


def page():
    """The page that has all lists."""
    text = HEAD.lstrip("\n")
    for line in reading_list()[0] + [line for lines, _, _ in further_lists() for line in lines]:
        title = re.match(r"## (.*?):", line)
        text += f"\n{line}\n{INTRODUCTIONS[title.group(1)]}\n" if title else textwrap.fill(
            line, 98, subsequent_indent="  ", break_long_words=False, break_on_hyphens=False) + "\n"
    return text


def inner():
    """The definitions that no public contract reaches."""
    given = set()
    for path in glob.glob(f"{CRATES}/*/src/lib.rt") + glob.glob(f"{CRATES}/*/src/main.rt"):
        for m in re.finditer(r"^pub use [\w:]+::\{?([\w,\s]+)\}?;", open(path, encoding="utf-8").read(), re.M):
            given |= {(path.split("/")[-3], name.strip()) for name in m.group(1).split(",")}
    shown = roots_of(HEADLINE + [call for _, _, calls in FURTHER for call in calls])
    for (crate, module, owner, name), (text, names, seen_from) in functions.items():
        if module == "laws" or (crate, owner or name) in given and seen_from != "pub(crate) " and (owner or seen_from):
            shown |= mentioned(text, *names)
    return sorted(set(defs) - closure(shown)[0])


def report(good, what, why=""):
    print(f"ok reading: {what}" if good else f"FAILED reading: {what}{why}")
    return good


def check():
    lines, total = reading_list()
    further = further_lists()
    lines += [line for part, _, _ in further for line in part]
    wanted = page().split("\n")
    shown = open(os.path.join(TOP, "docs", "TRUST.md"), encoding="utf-8").read().split("\n")
    odd = [line for line in wanted + shown if (line in wanted) != (line in shown)]
    results = [report(shown == wanted, "docs/TRUST.md is the page of --page", f", but for: {odd[0] if odd else 'the order'}")]
    results.append(report(total <= LIMIT, f"{total} lines of definitions, at most {LIMIT}"))
    for part, more, limit in further:
        results.append(report(more <= limit, f"{part[0].split(':')[0][3:]}: {more} lines more, at most {limit}"))
    inside = [line for line in lines if "/Inner" in line or "/Shared" in line]
    results.append(report(not inside, "no definition of a folder Inner or Shared", f": {inside}"))
    unshown = set(inner())
    astray = [f"{module[7:]} {name}" for module, name in sorted(defs)
              if (".Inner." in module or ".Shared." in module) != ((module, name) in unshown)]
    results.append(report(not astray, "the folders Inner and Shared have what no public contract reaches, and nothing else", f": {astray}"))
    known = {(module.split(".")[-1], name) for module, name in defs}
    text = open(os.path.join(TOP, "docs", "DEFINITIONS.md"), encoding="utf-8").read()
    named = re.findall(r"`([A-Z]\w*)\.([\w']+)`", text)
    missing = [".".join(it) for it in named if it not in known]
    results.append(report(not missing, f"{len(set(named))} definitions that docs/DEFINITIONS.md names", f", not there: {missing}"))
    return all(results)


if "--page" in sys.argv:
    print(page(), end="")
elif "--inner" in sys.argv:
    print("\n".join(f"{module[7:]} {name}" for module, name in inner()))
else:
    sys.exit(0 if check() else 1)
