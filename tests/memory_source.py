#!/usr/bin/env python3
"""Want of memory has one source, and so has a thread that can not be started.

    memory_source.py [CRATES]

goes through the src/ of all crates, but for their tests, and looks at each line where the code answers want of memory or a
thread that can not be started (a value `Memory`, a variant `Memory` or `Start` of an error, an allocator's error made by hand),
notes a refusal (sets a word that an `if` before such an answer asks), asks whether a call failed (`is_err()`), or makes a vector
grow by a great number of its own (`reserve(1 << 60)`). Such a line is fine

- in a conversion, `impl From<..> for ..`, of an allocator's error or of another want of memory;
- in an arm that has just met one, on the same line, or where it hands back what a refused growth gives back (`failed.value`);
- where it asks a growth and nothing else whether it failed, or is the first line behind one that does, behind a thread that
  could not be spawned, or behind a proof that a fault is Memory;
- where a comment above it, or above the call that it asks, says by `memory:` why it answers so.

Prints `ok memory_source` or `FAILED memory_source: why`.
"""
import glob
import os
import re
import sys

ANSWER = re.compile(r"\b(?:[A-Z]\w*::)?(?:Memory|Start)\b|\bAllocError\b(?!>)")
GROWTH = r"[\w.]*\.(?:push|push_back|reserve|extend_from_slice)\((?:[^|&]|&(?!&))*\)"
# a growth that is asked by itself whether it failed, a thread that was not spawned, and a proof of
# what a fault is
ASKS = re.compile(rf"(?:if |let \w+ = ){GROWTH}\.is_err\(\)(?: \{{|;)$|if let Err\(\w+\) = {GROWTH} \{{$|let Ok\(\w+\) = [\w.]*\bspawn_with\([^|&]*\) else \{{$")
PROVED = re.compile(r"prove!\(matches!\(\w+, (?:[A-Z]\w*::)?Memory\)\);$")
# a call that is asked whether it failed, and a growth by a great number that the code makes up
LOSS = re.compile(r"\.is_(?:err|ok)\(\)|(?:(?:reserve\w*|with_capacity)\(.*|resize\([^,]*)(?:\d{4}|\d_\d|<<|(?<!limits::)\b[A-Z]{2})")
# a flag that is asked, and an answer in the same line or the next
ASKED = re.compile(r"if !?(?:\w+\.)*(\w+) \{(.*)")


def code_lines(whole):
    """The lines of code, without comments, clauses, ghost text and imports: the number of each, and whether a comment above it
    says why it may tell of memory."""
    lines = []
    clause = 0
    told = False
    for number, line in enumerate(whole.splitlines(), 1):
        text, _, comment = line.partition("//")
        text = text.strip()
        if clause or re.match(r"(pub )?(ghost|ensures|requires)\b", text):
            clause += text.count("{") - text.count("}")
            continue
        if not text:
            told = told or comment.strip().startswith("memory: ")
        elif not re.match(r"(pub )?use |#\[|mod |pub mod ", text):
            lines.append((number, text, told))
            told = False
    return lines


def is_converted(text):
    """Whether the line meets a refused allocation, and answers it."""
    met, arrow, answered = text.partition("=>")
    return bool(re.search(r"Memory\(failed\.value\)", text)) or bool(arrow) and (bool(ANSWER.search(met)) or "OutOfMemory" in met or "is_memory()" in met)


def answers(text):
    """Whether the line answers out of memory, or that a thread was not started."""
    met, arrow, answered = text.partition("=>")
    answer = answered if arrow else re.sub(r"Result<.*?(Memory|AllocError)>", "", text)
    return ANSWER.search(answer) and not re.match(r"(pub struct )?(Memory|Start)(\(T\))?[,;]$", text)


def find_faults(sources):
    """Returns the lines of a crate, from a text for each file, that are not fine."""
    lines = {name: code_lines(text) for name, text in sources.items()}
    notes = set()
    for its in lines.values():
        for (_, text, _), (_, after, _) in zip(its, [*its[1:], (0, "", False)]):
            asked = ASKED.match(text)
            if asked and (answers(asked[2]) or answers(after)):
                notes.add(asked[1])
    noted = re.compile(rf"(?<!let )\b(?:{'|'.join(notes) or '$^'})(?:\s*\|?=(?![=>])|:)(?! (?:false|bool)\b)")
    faults = []
    for name, its in lines.items():
        conversion, before, told_before = 0, "", False
        for number, text, told in its:
            if conversion:
                conversion += text.count("{") - text.count("}")
            elif re.match(r"impl(<[^>]*>)? From<.*(AllocError|AllocFailed<.>|Memory)> for ", text):
                conversion = text.count("{") - text.count("}")
            elif not (told or told_before and before.endswith(".is_err() {") or ASKS.match(text) or ASKS.match(before) or PROVED.match(text) or PROVED.match(before)):
                if (LOSS.search(text) or noted.search(text)) and "print" not in text or answers(text) and not is_converted(text):
                    faults.append(f"{name}:{number}: {text}")
            before, told_before = text, told
    return faults


def find_unseen(sources):
    """Returns a line that answers out of memory by hand and is not seen, or None."""
    name = "mwc_tally/src/threads.rt"
    renamed = {it: text.replace("out_of_memory", "missed") for it, text in sources.items()}
    for line in [
        "return Err(Memory);", "if most > 9 { return Err(Memory); }", "return Err(AllocError.into());", "return Err(GameFault::Memory);",
        "list.reserve(1 << 60)?;", "let mut list = Vec::with_capacity(alloc, 4_000_000_000)?;", "if j > 7 || list.push(coalition).is_err() {",
        "return Err(TallyFault::Start);", "if list.len() > 9 { builder.out_of_memory = true; }",
        "out_of_memory |= slices.count() > 512;", "let all = All { out_of_memory: true };",
    ]:
        for texts, its in (sources, line), (renamed, line.replace("out_of_memory", "missed")):
            start = "    for thread in threads {\n"
            assert start in texts[name]
            if len(find_faults({**texts, name: texts[name].replace(start, f"    {its}\n{start}")})) != 1:
                return its
    return None


def main(words):
    top = words[0] if words else os.path.join(os.path.dirname(os.path.abspath(__file__)), "..", "crates")
    crates = {}
    for path in sorted(glob.glob(f"{top}/*/src/**/*.rt", recursive=True)):
        name = os.path.relpath(path, top)
        if "_tests/" not in name:
            with open(path, encoding="utf-8") as it:
                crates.setdefault(name.split("/")[0], {})[name] = it.read()
    faults = [fault for sources in crates.values() for fault in find_faults(sources)]
    unseen = find_unseen(crates["mwc_tally"])
    for fault in faults:
        print(f"FAILED memory_source: {fault}")
    if unseen:
        print(f"FAILED memory_source: a planted line is not seen: {unseen}")
    if not faults and not unseen:
        print("ok memory_source")
    return 1 if faults or unseen else 0


if __name__ == "__main__":
    sys.exit(main(sys.argv[1:]))
