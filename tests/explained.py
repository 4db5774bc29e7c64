#!/usr/bin/env python3
"""Files in which `council --explain` must find the right line.

    explained.py PROGRAM NUMBER SEED

makes games of one rule or two in TOML, in every way to write their headers, keys, texts and arrays, with comments and
titles that look like headers and keys, and a fault of any kind. --explain must name the lines that toml_lines.py finds
by the grammar, and a line that is known here for most faults. For a file of 65,536 bytes of any kind it may take at most
five times the processor time of a plain run. And it must know each quote that is none in TOML, and each letter that
people write between thousands. Prints `ok NAME` or `FAILED NAME: why`.
"""
import os
import random
import re
import resource
import subprocess
import sys

import toml_lines

# what a text may have, that looks like something else
DECOYS = ["it's", "[[member]]", "quota = 7", "weight = 1.5", "{", "}", "# no", '"', "name", "]", ",", "\\\\", "é"]

# what helps if a text is in other quotes, or a number has other letters between its digits
STRAIGHT, THOUSANDS = "write straight quotes: \" or '", "write a number without separators between thousands, as in 1200000"
LETTERS = [(f"title = {it}A{it}", STRAIGHT) for it in "‘’‚‛“”„‟‹›«»´`"]
LETTERS += [(f"quota = 1{it}234{it}567", THOUSANDS) for it in ",.'’ \u00a0\u2009\u202f"]


# how many times as long as a plain run an explanation may take
MOST_TIMES = 5

# pieces of which a long file is made, with what is before and after them
MEMBERS = "quota = 1\n[[member]]\nname = 'A'\nweight = 1\n"
LONG = [
    ("odd = [", "[1],", "]\n"), ("odd = [", "[[\n],\n],", "]\n"), ("odd = [", "{a.b = 1},\n", "]\n"), ("odd = [", "[" * 70 + "]" * 70 + ",", "]\n"), ("", "# '\n", "odd = 1\n"), ("", "\n", "odd = 1\n"),
    ("odd = [", "'a',", "]\n"), ("odd = [", '"""\n""",', "]\n"), ("odd = '''", "[[member]]\n", "'''\n"), ('odd = "', "\\u0041", '"\n'), ("odd" + ".a" * 70 + " = [", "1,", "]\n"),
    ("quota = 1\nmember = [", "{},", "{odd = 1}]\n"), ("quota = 1\n", "[[member]]\n", "odd = 1\n"), ("quota = 1\n", "[[member]]\n[member.odd]\n", ""), ("", "[[odd]]\n", ""), (MEMBERS, "[[member.odd]]\n", ""),
    ("member = [", "'',", "]\nodd = 1\n"), ("member = [", "{a.b = ''},", "]\nodd = 1\n"), ("member = [", "[],", "]\nodd = 1\n"), (MEMBERS, "#\n", "odd = 1\n"), ("quotas = [", "1, ", "1]\n"), ("quotas = [1, 1]\n[[member]]\nname = 'A'\nweights = [", "1.5,\n", "1]\n"), ("title = '", "a", "'\n"), ("quota = ", "1", "\n"), ("quota = 0.", "1", "\n"),
    ("quotas = [1, 1]\nways = [", "[1],\n", "]\n"), ("quotas = [1, 1]\nways = [[2],\n[", "1, ", "1]]\n"), ("quotas = [1, 1]\nways = [[2],\n[1", ",\n3", "]]\n"),
]

# ways of two rules with a fault, and which of them has it, from 1; 0 if none has it by itself
BAD_WAYS = [([], 0), (["[1]"] * 7, 0), (["[2]"], 0), (["[1, 2]", "[1]"], 1), (["[2]", "[2]"], 1), (["[1]", "[2, 2]"], 2)]
BAD_WAYS += [(["[1]", "[2]", it], 3) for it in ("[3]", "[0, 1]", "[]", "[ # ]\n]", "2", "[{a = [1,\n2]}]", "['[1]']", "{}")]


class File:
    """A file that grows piece by piece, and in which some letters are escapes."""

    def __init__(self, chance):
        self.chance, self.text, self.same = chance, "", False

    def line(self):
        return self.text.count("\n") + 1

    def add(self, text):
        self.text += text

    def blanks(self):
        return self.chance.choice(["", "", " ", "\t"])

    def end(self):
        """Ends a line, sometimes with a comment or a blank line."""
        comment = self.chance.choice(["", "", "", f" # {self.decoy()} '"])
        self.add(self.blanks() + comment + self.chance.choice(["\n", "\n", "\n", "\r\n", "\n\n"]))

    def decoy(self):
        return " ".join(self.chance.sample(DECOYS, self.chance.randrange(3)))

    def key(self, key, escaped):
        """Adds a key: bare, in quotes, or with an escape."""
        if escaped and self.chance.random() < 0.03:
            self.add(f'"{key[:1]}\\u{ord(key[1]):04x}{key[2:]}"')
        else:
            self.add(self.chance.choice([key, key, key, f'"{key}"', f"'{key}'"]))

    def value(self, text):
        """Adds a text without control characters, in one of the two quotes of a line."""
        if "'" in text or self.chance.random() < 0.5:
            text = text.replace("\\", "\\\\").replace('"', '\\"')
            self.add(f'"{text}"')
        else:
            self.add(f"'{text}'")

    def array(self, *values):
        """Adds an array, sometimes with line ends in it; returns the lines where its values begin."""
        lines = []
        self.add("[" + self.chance.choice(["", "", "\n", " # ]\n"]))
        for at, value in enumerate(values):
            lines.append(self.line())
            self.add(value + self.chance.choice(["", " ", "\n"]) + ("," if at < len(values) - 1 else "") + self.chance.choice(["", "", "\n"]))
        self.add("]")
        return lines

    def long_text(self, rows):
        """Adds a text in three quotes, on so many lines."""
        quote = self.chance.choice(['"""', "'''"])
        text = "\n".join(f"x {self.decoy()}".replace(quote[0] * 2, "") for _ in range(rows))
        if quote == '"""':
            text = text.replace("\\", "\\\\") + self.chance.choice(["", "it's", "\\\\", '\\"'])
        else:
            text += self.chance.choice(["", "'", "it's"])
        self.add(quote + text + quote)


def member(file, pairs, wrong, escaped, after):
    """Adds the pairs of a member; returns the line of the wrong one."""
    line = None
    for at, (key, value) in enumerate(pairs):
        if key == wrong:
            line = file.line()
        file.add(file.blanks())
        file.key(key, escaped)
        file.add(file.blanks() + "=" + file.blanks())
        if key == "name" and key != wrong:
            file.value(value)
        elif key == "weights":
            file.array(*value)
        else:
            file.add(str(value))
        after(at == len(pairs) - 1)
    return line


def add_quota(file, wrong, several):
    """Adds the quota or the quotas, with a fault or none."""
    chance = file.chance
    if wrong == "both":
        file.add(f"quota = 1{file.blanks()}\n")
    file.key("quotas" if several or wrong == "both" else "quota", False)
    file.add("=")
    number = chance.choice(["0", "-1", str(10**12)]) if wrong == "range" else chance.choice(["1.5", "'1'", "[[\n1]]"]) if wrong == "quota" else "1"
    if several or wrong == "both":
        file.array("1", number)
    else:
        file.add(number)
    file.end()


def add_ways(file, wrong, several):
    """Adds ways, with a fault or none; returns the line of the fault."""
    ways, bad = file.chance.choice(BAD_WAYS if wrong == "ways" and several else [(["[1]", "[2]"], 0), (["[2, 1]"], 0)])
    line = file.line()
    file.key("ways", True)
    file.add(f"{file.blanks()}=")
    lines = file.array(*ways)
    file.end()
    return lines[bad - 1] if bad else line


def add_top(file, wrong, several):
    """Adds a title or none, the quota or the quotas, ways or none, and a key that no game has, if that is the fault;
    returns the line of the title, the ways or the key."""
    chance, line = file.chance, None
    if wrong == "key":
        line = file.line()
        file.add(chance.choice(["votes = [[\n1]]", "votes = {a = [\n{}, 1]}", "votes.quota = 1", '"vot\\u0065s" = 1', "'a.b' = 1", "members = [\n# ]\n]"]))
        file.end()
    if chance.random() < 0.5:
        file.add(f"# {file.decoy()}")
        file.end()
    if wrong == "title" or chance.random() < 0.5:
        line = line or file.line()
        file.key("title", False)
        file.add(" = ")
        file.long_text(chance.randrange(2, 4) if wrong == "title" else 1)
        file.end()
    add_quota(file, wrong, several)
    if wrong == "ways" or several and chance.random() < 0.3:
        its = add_ways(file, wrong, several)
        line = its if wrong == "ways" else line
    return line


def make_pairs(file, at, weight, wrong):
    """Returns the keys and values of a member, with the fault, in any order."""
    chance, several = file.chance, weight == "weights"
    bad = chance.choice(["1.5", '"3"', "{weight = 1}"])
    pairs = {"name": f"{at} {file.decoy()}" if at or not file.same else "0", weight: [str(at + 1), "1"] if several else at + 1}
    if wrong == "name":
        pairs["name"] = "5"
    elif wrong == "same":
        pairs["name"] = "0"
    elif wrong == weight:
        pairs[weight] = ["1", bad] if several else bad
    elif wrong == "odd":
        pairs["odd"] = chance.choice(["1", "{name = 1, odd = {weight = 2}}", '[1,\n {name = "["}]', "'''\n[[member]]\nit's'''"])
    pairs = list(pairs.items())
    if chance.random() < 0.5:
        pairs.reverse()
    return pairs


def add_inline(file, pairs, wrong):
    """Adds a member in braces; returns the line of the wrong key."""

    def after(last):
        file.add(file.blanks() + ("" if last else "," + file.chance.choice(["", "\n", " # , {\n"])))

    file.add("{")
    line = member(file, pairs, wrong, True, after)
    file.add("}," + file.chance.choice(["", "\n"]))
    return line


def add_member(file, pairs, wrong):
    """Adds a member under a header; returns the line of the wrong key, or of its own header if it is a table."""
    weight = wrong if wrong in ("weight", "weights") and file.chance.random() < 0.3 else None
    file.add(file.blanks() + "[[" + file.blanks())
    file.key("member", True)
    file.add(file.blanks() + "]]")
    file.end()
    line = member(file, [it for it in pairs if it[0] != weight], wrong, True, lambda _: file.end())
    if weight:
        line = file.line()
        brackets = file.chance.choice(["[]", "[]", ["[[", "]]"]])
        file.add(f"{brackets[0]}member.{weight}{brackets[1]}\nx = 1\n")
    return line


def make(chance):
    """Returns a file with a fault, and the line of the fault."""
    file, count = File(chance), chance.randrange(1, 6)
    weight = chance.choice(["weight", "weight", "weights"])
    bad, wrong = chance.randrange(count), chance.choice(["name", weight, "odd", "title", "key", "quota", "range", "both", "same", "table", "ways"])
    if wrong == "same":
        bad, count, file.same = bad + 1, count + 1, True
    line = add_top(file, wrong, weight == "weights")
    if wrong == "table":
        line = file.line()
        file.add(chance.choice(["[member]\n", "member = {\n}\n", "[ 'member' ]\nname = 'A'\n", "member.name = 'A'\n", "member = 5\n"]))
        return file, line
    line = line if wrong in ("title", "key", "ways") else None
    inline = chance.random() < 0.4
    if inline:
        file.key("member", True)
        file.add(" = [" + chance.choice(["", "\n", " # [[member]] {\n"]))
    for at in range(count):
        here = wrong if at == bad else None
        found = (add_inline if inline else add_member)(file, make_pairs(file, at, weight, here), here)
        if here and wrong not in ("title", "key", "ways"):
            line = found
    if inline:
        file.add("]\n")
    return file, line


def run(program, text, *options):
    """Runs the program; returns its status, what it said, and the seconds of a processor that it took."""
    before = resource.getrusage(resource.RUSAGE_CHILDREN)
    ran = subprocess.run([program, *options], input=text.encode(), capture_output=True, check=False, timeout=60)
    after = resource.getrusage(resource.RUSAGE_CHILDREN)
    return ran.returncode, ran.stderr, after.ru_utime + after.ru_stime - before.ru_utime - before.ru_stime


def explain(program, text):
    """Returns the fault of a file, the lines that --explain names, and what it said."""
    status, told, _ = run(program, text, "--explain")
    fault = told.decode().split("\n")[0].removeprefix("council: ")
    lines = [int(it) for it in re.findall(rb"^  line ([0-9]+): ", told, re.M)]
    return fault if status == 3 and "not TOML" not in fault else None, lines, told


def find_wrong(program, number, chance):
    """Returns what is wrong with explanations of generated files."""
    failed = []
    for at in range(number):
        file, line = make(chance)
        fault, lines, told = explain(program, file.text)
        wanted = toml_lines.find_lines(toml_lines.read(file.text), fault) if fault else []
        if not wanted or lines != wanted or line and lines[0] != line:
            failed.append(f"game {at}, lines {wanted} or {line}: {told!r} for {file.text!r}")
    return failed


def find_slow(program):
    """Returns which files of 65,536 bytes have a wrong line, or take too long, and the greatest ratio to a plain run."""
    failed, greatest = [], 0
    for before, piece, after in LONG:
        text = before + piece * ((65536 - len((before + after).encode())) // len(piece.encode())) + after
        fault, lines, told = explain(program, text)
        if fault and lines != toml_lines.find_lines(toml_lines.read(text), fault):
            failed.append(f"lines {lines} of {before!r} {piece!r} {after!r}: {told[:200]!r}")
        # the least of five runs each, in turn: what else the machine does makes a run longer only
        plain, explained = (min(it) for it in zip(*((run(program, text)[2], run(program, text, "--explain")[2]) for _ in range(5))))
        greatest = max(greatest, explained / plain)
    return failed + ([f"{greatest:.1f} times a plain run"] if greatest > MOST_TIMES else []), greatest


def find_unknown(program):
    """Returns a line with such a letter, and what is said of it, if that is not what helps."""
    for row, wanted in LETTERS:
        told = run(program, f"{row}\n", "--explain")[1].decode()
        if told.split("\n")[-2:] != [f"  {wanted}", ""]:
            return f"{row}: {told!r}"
    return None


def main(words):
    if len(words) != 3:
        sys.exit("usage: explained.py PROGRAM NUMBER SEED")
    program, number = os.path.abspath(words[0]), int(words[1])
    failed = find_wrong(program, number, random.Random(int(words[2])))
    if failed:
        print(f"FAILED lines that --explain names: {len(failed)} of {number}, the first is {failed[0]}")
    else:
        print(f"ok lines that --explain names: {number} files")
    slow, greatest = find_slow(program)
    print(f"FAILED long files that are explained: {slow[0]}" if slow else f"ok long files that are explained, in at most {greatest:.1f} times a plain run")
    unknown = find_unknown(program)
    print(f"FAILED letters that --explain knows: {unknown}" if unknown else "ok letters that --explain knows")
    return int(bool(failed or slow or unknown))


if __name__ == "__main__":
    sys.exit(main(sys.argv[1:]))
