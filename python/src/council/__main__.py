"""Prints the report of a game, as the program council does, through the library."""
from __future__ import annotations

import argparse
import os
import sys
from typing import NoReturn, Optional

from . import __version__
from .finding import find_library
from .game import GAME_FILE
from .library import TOO_LONG, TOO_MANY, Library
from .platforms import prepare_streams

MOST, STATES = 4_000_000, 1 << 27
FLAGS = {
    "list": "a line for each minimal winning coalition",
    "sizes": "a line for each size of a coalition",
    "notation": "a line [q; w1, .., wn] for each rule",
    "tally": "count the coalitions, any number of them, and keep none",
    "swings": "add swings and the indices that rest on them",
    "only_swings": "show only these, and find no minimal winning coalition",
}
# which do not go together
APART = [("tally", "list"), ("tally", "most"), *(("only_swings", it) for it in ("list", "sizes", "tally", "most", "swings"))]
PROGRAM = ("--workers", "--bits", "--explain")


class Fault(Exception):
    """A line for standard error, and the status."""

    def __init__(self, status: int, text: str):
        super().__init__(text)
        self.status = status


class Words(argparse.ArgumentParser):
    """Reads the command line. What is wrong with it is a Fault."""

    def error(self, message: str) -> NoReturn:
        raise Fault(2, f"{message} (--help says more)")


def read_words(words: list[str]) -> argparse.Namespace:
    """Reads the words of the command line."""
    for it in words:
        if it.split("=")[0] in PROGRAM:
            raise Fault(2, f"{it}: only the program council takes it, and this is the library")
    reader = Words(prog="python -m council", description=__doc__, allow_abbrev=False)
    reader.add_argument("file", metavar="FILE", nargs="?", default="-", help="the game file; none, or -, is standard input")
    reader.add_argument("--most", metavar="N", type=int, help=f"refuse a game with more coalitions, 1 to {MOST}")
    reader.add_argument("--room", metavar="N", type=int, help=f"the most states that a count keeps, 1 to {STATES}")
    for name, text in FLAGS.items():
        reader.add_argument(f"--{name.replace('_', '-')}", action="store_true", help=text)
    reader.add_argument("-V", "--version", action="version", version=f"council {__version__}, the library")
    found = reader.parse_args(words)
    for name, most in (("most", MOST), ("room", STATES)):
        if getattr(found, name) is not None and not 1 <= getattr(found, name) <= most:
            reader.error(f"--{name} is from 1 to {most}")
    for one, other in APART:
        if getattr(found, one) and getattr(found, other):
            reader.error(f"--{one.replace('_', '-')} does not go with --{other.replace('_', '-')}")
    return found


def read_game(path: str) -> bytes:
    """Reads as much of the game file as shows that it is too long."""
    # (Windows does not open a folder)
    unread = Fault(1, "the game file cannot be read")
    if os.path.isdir(path):
        raise unread
    try:
        source = sys.stdin.buffer if path == "-" else open(path, "rb")
    except (OSError, ValueError):
        raise Fault(1, "the game file cannot be opened") from None
    try:
        with source:
            return source.read(GAME_FILE + 1)
    except OSError:
        raise unread from None


def compute(library: Library, game: bytes, found: argparse.Namespace) -> str:
    """Returns the report of a game."""
    options = {"most": found.most or 0, "states": found.room or 0, **{it: int(getattr(found, it)) for it in FLAGS}}
    status, text = library.report(game, **options)
    if status == TOO_MANY and not found.most and not found.list:
        # as the program: more than a million are counted, if few states do
        again = library.report(game, **{**options, "tally": 1, "visits": 1})
        status, text = again if again[0] != TOO_LONG else (status, text)
    if status:
        raise Fault(status, text)
    return text


def main(words: Optional[list[str]] = None) -> int:
    """Prints the report that the words ask for, and returns the exit status."""
    prepare_streams(sys.stdout, sys.stderr)
    try:
        found = read_words(sys.argv[1:] if words is None else words)
        library = find_library()
        if not library:
            raise Fault(1, "this package has no library: install a wheel of a release")
        text = compute(library, read_game(found.file), found)
    except Fault as it:
        print(f"council: {it}", file=sys.stderr)
        return it.status
    except MemoryError:
        print("council: out of memory", file=sys.stderr)
        return 5
    except KeyboardInterrupt:
        return 130
    try:
        sys.stdout.write(text)
        sys.stdout.flush()
    except OSError:
        print("council: output failed", file=sys.stderr)
        os.dup2(os.open(os.devnull, os.O_WRONLY), sys.stdout.fileno())
        return 5
    return 0


if __name__ == "__main__":
    sys.exit(main())
