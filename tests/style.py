#!/usr/bin/env python3
"""The style of the documents (README.md, CONTRIBUTING.md, CHANGELOG.md and docs/*.md), and of all comments.

    tests/style.py

Prints `ok style: what` or `FAILED style: what: why` for each page and each of these: no line of prose is wider than
100 columns (tables, headings, code and lines with a link may be wider); each relative link leads to a file, and each
anchor to a heading of it; no worn-out phrase is in the prose; no page has more words than its limit; and docs/ has no
other pages. Words are those of the whole page, code and tables too, that have a letter or a digit.

Then `ok style: comments of FOLDER` or `FAILED ..` for each folder at the top and each crate: no whole-line comment of
its sources and scripts is wider than 100 columns, but for code and tables in it, and none has a worn-out phrase.

Last `ok style: summaries`: the documentation of each function begins with a sentence such as "Returns the ..", and that
of a public one is a line of its own, of at most 80 characters. A law may begin with any sentence; tests need none.
"""
import glob
import os
import re
import subprocess
import sys

TOP = os.path.dirname(os.path.dirname(os.path.realpath(__file__)))
WIDTH = 100
# the pages, and the most words that each may have; beside them docs/ has only pages that a script computes
LIMITS = {
    "README.md": 980,
    "CONTRIBUTING.md": 1240,
    "CHANGELOG.md": 1240,
    "docs/GUIDE.md": 3560,
    "docs/FORMATS.md": 1500,
    "docs/DEFINITIONS.md": 1800,
    "docs/TOUR.md": 1200,
    "docs/PROOF.md": 2510,
    "docs/ARCHITECTURE.md": 2200,
    "docs/DECISIONS.md": 1000,
    "docs/LIBRARY.md": 1400,
    "docs/LANGUAGES.md": 520,
}
COMPUTED = ["docs/TRUST.md"]
# a pattern, how often a page may have it, and what to write instead
WORN = [
    (r"in place of", 0, "instead of"),
    (r"of today", 0, "present, or a date"),
    (r"as (?:it|they) (?:is|was|were)(?=[.,;:])", 0, "unchanged"),
    (r"the like", 0, "name them"),
    (r"(?:is|are) told", 0, "is informed, or the program says"),
    (r"a telling", 0, "a report"),
    (r"want of memory", 0, "out of memory"),
    (r"which what", 0, "say it in two sentences"),
    (r"what of \w+ is", 0, "say it in two sentences"),
    (r"hands? none over", 0, "sends nothing"),
    (r"says? what there is to say", 0, "reports"),
    (r"\bdesks?\b", 0, "scheduler"),
    (r"\bparcels?\b", 0, "row of words"),
    (r"\bpatience\b", 0, "backoff"),
    (r"\blookouts?\b", 0, "observer"),
    (r"(?<=[.:;] )where (?:an?|the|no|there|it|this|some|few|its|all)\b", 0, "if"),
    (r"stands? (?:as|at|behind|there|once|twice)\b", 0, "is"),
    (r"(?:comes?|came) to (?:that|it|this)\b", 0, "say what happens"),
    (r"alone\b", 1, "only"),
    (r"is to hold", 0, "holds"),
    (r"so that", 1, "so, or two sentences"),
]


def read(page):
    with open(os.path.join(TOP, page), encoding="utf-8") as it:
        return it.read()


def report(what, faults):
    print(f"FAILED style: {what}: {'; '.join(faults[:5])}" if faults else f"ok style: {what}")
    return not faults


def lines_of(text):
    """The lines outside code, each with its number."""
    code = False
    for number, line in enumerate(text.split("\n"), 1):
        if line.lstrip().startswith("```"):
            code = not code
        elif not code:
            yield number, line


def prose(text):
    """The prose in one line: without code, the addresses of links, and what is quoted."""
    joined = " ".join(line.strip() for _, line in lines_of(text))
    joined = re.sub(r"`[^`]*`", " ` ", joined)
    joined = re.sub(r"\]\([^)]*\)", "]", joined)
    return re.sub(r"\s+", " ", re.sub(r'"[^"]{0,100}"', '"', joined))


def wide(text):
    return [f"line {number} has {len(line)} columns" for number, line in lines_of(text)
            if len(line) > WIDTH and not line.lstrip().startswith(("|", "#")) and "](" not in line and "://" not in line
            and " " in line.strip("- ")]


def anchors(text):
    """The anchors of a page's headings, as GitHub makes them."""
    found, seen = set(), {}
    for _, line in lines_of(text):
        heading = re.match(r"#{1,6} +(.*?) *#*$", line)
        if heading:
            words = re.sub(r"\[([^\]]*)\]\([^)]*\)", r"\1", heading.group(1)).lower()
            anchor = re.sub(r"[^\w\- ]", "", words).replace(" ", "-")
            times = seen.get(anchor, 0)
            seen[anchor] = times + 1
            found.add(f"{anchor}-{times}" if times else anchor)
        found |= set(re.findall(r'<a (?:id|name)="([^"]+)"', line))
    return found


def dead(page, text):
    faults = []
    joined = "\n".join(re.sub(r"`[^`\n]*`", "`", line) for _, line in lines_of(text))
    for target in re.findall(r"\]\(\s*([^)\s]+)\s*\)", joined):
        if re.match(r"[a-z]+:", target):
            continue
        path, _, anchor = target.partition("#")
        file = os.path.normpath(os.path.join(os.path.dirname(page), path)) if path else page
        if not os.path.exists(os.path.join(TOP, file)):
            faults.append(f"no file {target}")
        elif anchor and (not file.endswith(".md") or anchor not in anchors(read(file))):
            faults.append(f"no anchor {target}")
    return faults


def worn(text):
    faults, words = [], prose(text)
    for pattern, most, better in WORN:
        found = list(re.finditer(pattern if pattern.startswith(r"\b") else r"\b" + pattern, words, re.I))
        if len(found) > most:
            place = words[max(0, found[-1].start() - 20) : found[-1].end() + 20]
            faults.append(f'"{found[-1].group(0)}" {len(found)} times, as in "..{place}..": write {better}')
    return faults


def words_of(page):
    return sum(bool(re.search(r"\w", word)) for word in read(page).split())


good = True
pages = ["README.md", "CONTRIBUTING.md", "CHANGELOG.md"] + sorted(os.path.relpath(it, TOP) for it in glob.glob(f"{TOP}/docs/*.md"))
for page in pages:
    text = read(page)
    good &= report(f"{page}: no line is wider than {WIDTH} columns", wide(text))
    good &= report(f"{page}: links lead somewhere", dead(page, text))
    good &= report(f"{page}: no worn-out phrase", worn(text))
for page, limit in LIMITS.items():
    count = words_of(page)
    good &= report(f"{page}: at most {limit} words", [f"{count} words"] if count > limit else [])
good &= report("docs/ has these pages and no others", sorted(set(pages).symmetric_difference([*LIMITS, *COMPUTED])))


# ---- comments
MARKS = {".rt": "//[/!]?", ".rs": "//[/!]?", ".c": "//", ".h": "//", ".antt": "--", ".py": "#", ".sh": "#"}


def mark_of(path):
    ending = os.path.splitext(path)[1]
    if ending in MARKS or ending or path.startswith(("LICENSE", "HANDLES")):
        return MARKS.get(ending)
    with open(os.path.join(TOP, path), "rb") as it:
        return "#" if re.match(rb"#!.*\b(sh|bash|python3)\b", it.read(40)) else None


def comments_of(text, mark):
    """The paragraphs of whole-line comments, each with the number of its first line, and the lines that are too wide."""
    found, too_wide, words, first, fenced = [], [], [], 0, False
    for number, line in enumerate([*text.split("\n"), ""], 1):
        comment = re.match(rf"\s*(?:{mark})(?: |$)(.*)", line)
        body = comment.group(1) if comment else ""
        fenced = bool(comment) and fenced ^ body.strip().startswith("```")
        code = fenced or body.startswith(("   ", "|", "```", "[")) or "://" in body
        if comment and not code and len(line) > WIDTH:
            too_wide.append(number)
        if body.strip() and not code:
            first = first if words else number
            words.append(body.strip())
        elif words:
            found.append((first, " ".join(words)))
            words = []
    return found, too_wide


def faults_of_comments(path, mark):
    found, too_wide = comments_of(read(path), mark)
    faults = [f"{path}:{number} is wider than {WIDTH} columns" for number in too_wide]
    for number, words in found:
        words = re.sub(r'"[^"]{0,100}"', '"', re.sub(r"`[^`]*`", "`", words))
        for pattern, _, better in WORN:
            worn_out = re.search(pattern if pattern.startswith(r"\b") else r"\b" + pattern, words, re.I)
            if worn_out:
                faults.append(f'{path}:{number} says "{worn_out.group(0)}": write {better}')
    return faults


def faults_of_summaries(path):
    """The functions of a source without a summary; one that a trait asks for has that of the trait, and a test none."""
    faults, doc, marks, of_trait = [], [], [], False
    for number, line in enumerate(read(path).split("\n"), 1):
        if re.match(r"(impl|(pub(\(crate\))? )?trait)\b|\}", line):
            of_trait = line.startswith("impl") and " for " in line
        line = line.strip()
        if line.startswith("///"):
            doc.append(line[4:])
        elif line.startswith("#["):
            marks.append(line)
        elif re.match(r"(pub(\(crate\))? )?(extern \"C\" )?fn (?!main\b)", line) and not of_trait and "#[test]" not in marks:
            first, after = [*doc, "", ""][:2]
            verb = path.endswith("/laws.rt") or re.match(r"[A-Z][a-z]*s ", first) or first.startswith("For the prover:")
            is_short = len(first) <= 80 and first.endswith(".") and not after
            if not verb or line.startswith("pub fn") and not is_short:
                faults.append(f"{path}:{number} has none")
        if not line.startswith(("///", "#[")):
            doc, marks = [], []
    return faults


listed = subprocess.run(["git", "-C", TOP, "ls-files", "-z"], capture_output=True, text=True)
paths = [it for it in listed.stdout.split("\0") if it and os.path.isfile(os.path.join(TOP, it))]
if listed.returncode != 0:
    # an archive of the sources has no list of its files
    paths = [os.path.relpath(it, TOP) for it in glob.glob(f"{TOP}/**/*", recursive=True) if os.path.isfile(it) and "/out/" not in it]
folders = {}
for path in sorted(paths):
    parts = path.split("/")
    if path != "tests/style.py" and mark_of(path):
        folders.setdefault("/".join(parts[:2]) if parts[0] == "crates" else parts[0] if len(parts) > 1 else "the top", []).append(path)
for folder, its in folders.items():
    good &= report(f"comments of {folder}", [fault for path in its for fault in faults_of_comments(path, mark_of(path))])
sources = [it for it in sorted(paths) if it.endswith(".rt")]
good &= report("summaries", [fault for path in sources for fault in faults_of_summaries(path)])
sys.exit(0 if good else 1)
