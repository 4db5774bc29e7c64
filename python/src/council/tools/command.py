"""What the tools share: their options, their faults, and the files they read."""
from __future__ import annotations

import argparse
import io
import os
import re
import sys
import textwrap
import unicodedata
from itertools import groupby
from typing import Any, Callable, Iterable, NoReturn, Optional, Sequence, TextIO, TypeVar, cast

from ..columns import INDICES, SWINGS, Index
from ..engine import Refused
from ..finding import NotFound
from ..game import GAME_FILE, Unit, check_same, describe_low_quotas, find_comments, find_slips, quote, quote_for_shell, read_units
from ..reports import Fault, Report
from ..ways import Ways, describe_ways, read_ways

# the name of the tool that runs
NAME = ["council-tools"]
T = TypeVar("T")


def fold(name: str) -> str:
    """Returns a name without capitals, the composition of letters, and letters without a width."""
    text = unicodedata.normalize("NFKC", unicodedata.normalize("NFKC", name).casefold())
    return " ".join("".join(it for it in text if unicodedata.category(it) != "Cf").split())


def cut(text: str, most: int = 64) -> str:
    """Returns a text for a message, and of a longer one the beginning."""
    return text if len(text) <= most else text[: most - 2] + ".."


def quote_all(texts: Iterable[str]) -> str:
    """Returns texts in quotes for a message, and of many the first ones."""
    return cut(", ".join(map(quote, texts)), 80)


def write_ranges(what: str, numbers: Sequence[int]) -> str:
    """Writes numbers as lines 1, 3-29."""
    runs = [[number for _, number in its] for _, its in groupby(enumerate(sorted(numbers)), lambda it: it[1] - it[0])]
    text = ", ".join(f"{it[0]}-{it[-1]}" if it[1:] else str(it[0]) for it in runs)
    return f"{what}{'s' * (len(numbers) > 1)} {text}"


def make_printable(text: object) -> str:
    """Puts a text of the user on one line: each character that moves a terminal, ends a line or shows
    nothing is a blank."""
    return "".join(it if it.isprintable() else " " for it in str(text))


class Words(argparse.ArgumentParser):
    """Reads the words of a command line. A fault in them is one line, with status 2."""

    def __init__(self, name: str, about: str) -> None:
        super().__init__(prog=f"council-tools {name}", description=about, formatter_class=argparse.RawDescriptionHelpFormatter, allow_abbrev=False)

    def parse_words(self, words: Sequence[str]) -> argparse.Namespace:
        """Reads the words, with options before, between and after the files."""
        return self.parse_intermixed_args(words)

    def write_options(self, words: argparse.Namespace, without: Sequence[str]) -> str:
        """Writes the options that were given, in the order of --help."""
        its = [(it.option_strings[-1], value) for it in self._actions if it.option_strings and it.dest not in without
               for value in [getattr(words, it.dest, None)] if value is not None and value is not False]
        given = [(name, value) for name, values in its for value in (values if isinstance(values, list) else [values])]
        texts = [str(it) if re.fullmatch(r"[\w=%,.:-]+", str(it)) else quote_for_shell(str(it)) for _, it in given]
        return " ".join(name if value is True else f"{name} {text}" for (name, value), text in zip(given, texts))

    def error(self, message: str) -> NoReturn:
        raise Fault(f"{message} (--help says more)", 2)


def add_report(reader: argparse.ArgumentParser) -> None:
    """Adds the report that a tool reads."""
    reader.add_argument("report", metavar="REPORT", nargs="?", default="-", help="a report of council; without one, or as -, standard input")


# the words of --index for tools that show several at once
MANY = {"action": "append", "help": "an index to show, and more if it is given again; else all that the report has"}


def add_index(reader: argparse.ArgumentParser, **more: Any) -> None:
    """Adds the index that a tool shows."""
    reader.add_argument("--index", choices=[it.word() for it in INDICES], type=lambda it: it.replace("_", "-"), **more)


def find_index(word: str) -> Index:
    """Returns the index of a word that `add_index` has read."""
    return next(it for it in INDICES if it.word() == word)


def choose_indices(reports: Sequence[Report], words: Optional[Sequence[str]]) -> list[Index]:
    """Returns the indices that --index names; without it, those that all reports have."""
    for it in words or ():
        if any(find_index(it) not in report.indices for report in reports):
            how = "with --swings" if find_index(it) in SWINGS.indices else "without --only-swings"
            raise Fault(f"--index {it}: a report has none, and council makes it {how}", 2)
    found = list(dict.fromkeys(map(find_index, words))) if words else [it for it in INDICES if all(it in report.indices for report in reports)]
    if not found:
        raise Fault("the reports have no index in common: make all of them with --swings")
    return found


def run(main: Callable[[list[str]], None], words: list[str]) -> int:
    """Runs a tool on its words, and returns the exit status. Each fault is one line and a status,
    never a traceback."""
    try:
        sys.stdin = sys.stdin or open(os.devnull)
        sys.stdout = sys.stdout or open(os.devnull, "r+")
        sys.stderr = sys.stderr or open(os.devnull, "r+", encoding="utf-8")
        cast(io.TextIOWrapper, sys.stdin).reconfigure(encoding="utf-8-sig")
        cast(io.TextIOWrapper, sys.stdout).reconfigure(encoding="utf-8", newline="\n")
        if any("\ud800" <= character <= "\udfff" for it in words for character in it):
            raise Fault("the command line is not UTF-8", 2)
        main(words)
        sys.stdout.flush()
    except Fault as it:
        return tell(it, it.status)
    except Refused as it:
        return tell("; ".join(["council: " + it.fault, *filter(None, it.explanation.split("\n"))]), it.status)
    except NotFound as it:
        return tell(it, 1)
    except UnicodeDecodeError:
        return tell("what was read is not UTF-8", 1)
    except MemoryError:
        return tell("out of memory", 5)
    except BrokenPipeError:
        # the reader of the output has enough of it, as `head`: this ends as a signal would end it
        drop(sys.stdout)
        return 141
    except OSError as it:
        if it.filename is not None:
            return tell(f"{it.filename}: {it.strerror}", 1)
        drop(sys.stdout)
        return tell("output failed", 1)
    except KeyboardInterrupt:
        return 130
    return 0


def tell(text: object, status: int, more: Sequence[str] = ()) -> int:
    """Says a line on standard error, if that takes it, and more lines; returns the status."""
    try:
        print(f"{NAME[-1]}: {make_printable(text)}", *more, sep="\n", file=sys.stderr, flush=True)
    except OSError:
        drop(sys.stderr)
    return status


def drop(file: TextIO) -> None:
    """Discards what is written to a file from now on, and what it still has to write."""
    os.dup2(os.open(os.devnull, os.O_WRONLY), file.fileno())


def note(text: str, more: Sequence[str] = ()) -> None:
    """Says what is no fault, but what a user may want to know."""
    tell(text, 0, more)


def wrap_items(its: Iterable[str]) -> list[str]:
    """Returns lines as wide as the terminal, or 80 columns, with an indent; no item is broken."""
    try:
        width = os.get_terminal_size(sys.stderr.fileno()).columns or 80
    except (OSError, ValueError):
        width = 80
    text = ", ".join(make_printable(it).replace(" ", "\0") for it in its)
    lines = textwrap.wrap(text, max(width - 3, 20), break_long_words=False, break_on_hyphens=False)
    return ["  " + it.replace("\0", " ") for it in lines]


def warn_of_low_quotas(quotas: Sequence[int], totals: Sequence[int], ways: Ways) -> None:
    """Warns of each quota that is at most half of its total, as `describe_low_quotas` does."""
    for it in describe_low_quotas(quotas, totals, ways):
        note(it)


def choose_ways(text: Optional[str], rules: int) -> tuple[Ways, list[str]]:
    """Returns the ways of --ways, and what to say of them; without it one of all rules, and nothing."""
    if text is None:
        return [range(1, rules + 1)], []
    try:
        ways = read_ways(text, rules)
    except ValueError as it:
        raise Fault(f"--ways {quote_for_shell(cut(text))}: {it}", 2) from None
    return ways, [f"A motion passes {describe_ways(ways)}"]


def read_lines(path: str, make: Callable[[TextIO], T]) -> T:
    """Makes something of the lines of a file; - is standard input."""
    if path == "-":
        return make(sys.stdin)
    with open(path, encoding="utf-8-sig") as it:
        try:
            return make(it)
        except Fault as fault:
            raise Fault(f"{path}: {fault}") from None
        except UnicodeDecodeError:
            raise Fault(f"{path}: it is not UTF-8") from None


def read_report(path: str) -> Report:
    """Reads the report in a file; - is standard input."""
    return read_lines(path, Report.read)


def read_comments(path: Optional[str], report: Report) -> tuple[list[str], list[Unit]]:
    """Returns the comments of the game file of a report, and the units of its rules; none if there
    is no file. Warns of what is hardly meant in the file, and then of low quotas."""

    def make(file: TextIO) -> str:
        text = file.read(GAME_FILE + 1)
        if len(text.encode()) > GAME_FILE:
            raise Fault(f"the game file is longer than {GAME_FILE} bytes")
        check_same(text, report)
        for it in find_slips(text):
            note(it)
        return text

    comments = [] if path is None else find_comments(read_lines(path, make))
    warn_of_low_quotas(report.quotas, report.totals, report.ways)
    return comments, read_units(comments, len(report.quotas))
