#!/usr/bin/env python3
"""Runs the cases of tests/cases, several at once:

    tests/cases.py PROGRAM [SUBJECT | SUBJECT/NAME]..

A file of tests/cases has the cases of one subject, in order of their names. A case is this; you can
leave out what has a default:

    === NAME
    $ council game         a command for bash, the default; each further line of it begins with `$ `
    status 0               its exit status
    --- game               a game; the command finds it as the file `game`
    --- out                what the command writes to standard output, by default nothing
    --- err                and to standard error

After `--- game, escaped` and so on `\\xff` is a byte, `\\\\` a backslash, and a backslash at the end of a
line takes the line end away. A first case `default` changes a default for all cases of its file.
The command runs in an empty folder; `council` is the program, and $TOP the repository. If the
command has `council --explain`, it also runs without that option, and must then only lack the
indented lines of standard error.

To add a case, add it at its place. Take what you expect from a definition, a publication or
tests/oracle.py, never from the program. Each case prints `ok SUBJECT/NAME`, or
`FAILED SUBJECT/NAME: why` and a diff from what was expected to what was found.
"""
import difflib
import os
import re
import subprocess
import sys
import tempfile
from concurrent.futures import ThreadPoolExecutor
from pathlib import Path

TOP = Path(__file__).resolve().parent.parent
CASES = TOP / "tests/cases"
SECONDS = os.environ.get("SECONDS_EACH", "60")
OPTION = "council --explain"


def lines_of(data):
    """Returns the lines of a text, in which each letter that shows nothing is an escape."""
    lines = data.decode("utf-8", "backslashreplace").replace("\n", "$\n").split("\n")
    return ["".join(it if it.isprintable() else ascii(it)[1:-1] for it in line) for line in lines if line]


def diff(what, wanted, found):
    """Returns a unified diff in which `$` is the end of a line; nothing if the two are the same."""
    names = f"{what}, expected", f"{what}, found"
    return [] if wanted == found else list(difflib.unified_diff(lines_of(wanted), lines_of(found), *names, lineterm=""))


def is_plain(line):
    return not line.startswith(b"  ")


def unescape(text):
    """Returns the bytes of an escaped text."""
    ends = re.sub(rb"(?<!\\)((?:\\\\)*)\\\n", rb"\1", text)
    return re.sub(rb"\\(?:x(..)|\\)", lambda it: bytes.fromhex(it[1].decode()) if it[1] else b"\\", ends)


def parts(text):
    """Returns what a case says: its name, and its parts by their names."""
    head, *sections = re.split(rb"(?m)^--- ", text)
    name, *lines = head.decode().splitlines()
    said = {}
    if commands := [line[2:] for line in lines if line.startswith("$")]:
        said["command"] = "\n".join(commands)
    if status := [line.split()[1] for line in lines if line.startswith("status ")]:
        said["status"] = int(status[0])
    for section in sections:
        kind, _, content = section.partition(b"\n")
        kind, _, escaped = kind.decode().partition(", ")
        said[kind] = unescape(content) if escaped else content
    return name, said


class Case:
    def __init__(self, subject, name, said):
        self.label = f"{subject}/{name}"
        self.game = said.get("game")
        self.command = said.get("command", "council game")
        self.wanted = said.get("status", 0), said.get("out", b""), said.get("err", b"")

    def run(self, command, wanted, environment):
        """Runs the command; returns how its status and outputs differ from those expected."""
        with tempfile.TemporaryDirectory() as place:
            if self.game is not None:
                Path(place, "game").write_bytes(self.game)
            words = ["timeout", "-k", "5", SECONDS, "bash", "-c", command]
            ran = subprocess.run(words, cwd=place, env=environment, stdin=subprocess.DEVNULL, capture_output=True, check=False)
        status = [] if ran.returncode == wanted[0] else [f"status {ran.returncode} instead of {wanted[0]}"]
        return status + diff("standard output", wanted[1], ran.stdout) + diff("standard error", wanted[2], ran.stderr)

    def check(self, environment):
        """Returns the line of the case, and the differences that it found."""
        found = self.run(self.command, self.wanted, environment)
        if OPTION in self.command:
            status, out, err = self.wanted
            plain = status, out, b"".join(filter(is_plain, err.splitlines(keepends=True)))
            found += self.run(self.command.replace(OPTION, "council"), plain, environment)
        if not found:
            return [f"ok {self.label}"]
        why = found.pop(0) if found[0].startswith("status") else "another output"
        return [f"FAILED {self.label}: {why}, by: {self.command}", *(f"    {it}" for it in found)]


def cases(chosen):
    """Yields the cases of the subjects and names that were chosen, or all."""
    for file in sorted(CASES.glob("*.txt")):
        found = dict(map(parts, re.split(rb"(?m)^=== ", file.read_bytes())[1:]))
        default = found.pop("default", {})
        for name, said in found.items():
            if not chosen or file.stem in chosen or f"{file.stem}/{name}" in chosen:
                yield Case(file.stem, name, {**default, **said})


def main(program, *chosen):
    with tempfile.TemporaryDirectory() as links, ThreadPoolExecutor(os.cpu_count()) as pool:
        os.symlink(os.path.realpath(program), f"{links}/council")
        environment = {**os.environ, "PATH": f"{links}:{os.environ['PATH']}", "TOP": str(TOP), "LC_ALL": "C"}
        found = list(pool.map(lambda it: it.check(environment), cases(chosen)))
    for lines in found:
        print(*lines, sep="\n")
    if not found:
        print("FAILED tests/cases: there is no such case")
    return int(not found or any(it[0].startswith("FAILED") for it in found))


if __name__ == "__main__":
    sys.exit(main(*(sys.argv[1:] or sys.exit("usage: tests/cases.py PROGRAM [SUBJECT | SUBJECT/NAME].."))))
