"""Computes reports by the library council or the program council.

The library answers in this process. If there is none, the program does; it also explains why a
game is refused, which the library does not.
"""
from __future__ import annotations

import re
import subprocess
from contextlib import suppress
from typing import Optional, Sequence

from .columns import GROUPS, MINIMAL
from .finding import NotFound, find_library, find_program
from .library import ACT, COALITIONS, GAME, STATES, TOO_LONG, TOO_MANY, WINNING, Library, NoAnswer, read_fractions
from .members import Coalitions, make_member, name_columns
from .reports import MOST, Report
from .ways import Ways

# the most visits of a walk that only counts what is to be listed: a second or two
VISITS = 10_000_000


class Refused(ValueError):
    """A game that council refuses.

    `fault` is what is wrong, for example "bad weight of member 2"; `member` is that member, and
    `rule` the rule of the fault, both from 1, or None; `line` is the line of the game file, or
    None; `explanation` says what you gave and what is allowed, and of a file is empty if no program
    was found; `status` is the exit status of the program; `game` is the text of the game file.
    """

    def __init__(self, status: int, fault: str, explanation: str = "", game: str = "", rule: Optional[int] = None):
        self.status, self.fault, self.explanation, self.game, self.rule = status, fault, explanation, game, rule
        line, member = re.match(r"line (\d+)(?:, column \d+)?:", explanation), re.search(r"member (\d+)", fault)
        self.line: Optional[int] = int(line[1]) if line else None
        self.member: Optional[int] = int(member[1]) if member else None
        super().__init__(f"{fault}\n{explanation}".strip())

    def __reduce__(self) -> tuple[type[Refused], tuple[int, str, str, str, Optional[int]]]:
        return type(self), (self.status, self.fault, self.explanation, self.game, self.rule)


class TooMany(Refused):
    """A game with more minimal winning coalitions than can be listed, or with more states than
    there is room for when its swings are counted."""


def compute(game: bytes, *, listed: bool = False, most: int = MOST, program: Optional[str] = None, only: Optional[bool] = None, explained: bool = True) -> Report:
    """Returns the report of a game from the bytes of its file.

    It counts the coalitions, any number of them; if `listed`, it lists them, at most `most`. If
    `only` is not None, it has the swings, and nothing else if `only` is true. A program that is
    named is used instead of the library. If `explained`, the program says where the file has a fault.
    """
    library = None if program else find_library()
    if library:
        return ask_library(library, game, listed, most, only, explained)
    words = ["--only-swings"] if only else (["--list", "--most", str(most)] if listed else ["--tally"]) + ["--swings"] * (only is not None)
    status, text, told = run_program(find_program(program), game, words)
    if not status:
        return Report.from_text(text)
    number = next((int(it) for it in told.split() if it.isdigit()), None) if status == TOO_MANY else None
    raise refuse(status, text, told, game, most, number)


def check(game: bytes) -> None:
    """Raises the fault of a game file, if it has one, and computes nothing."""
    library = find_library()
    status, fault = library.report(game, most=1, visits=1) if library else run_program(find_program(), game, ["--list", "--most", "1"])[:2]
    if status not in (0, TOO_MANY, TOO_LONG):
        raise refuse(status, fault, "", game)


def ask_library(library: Library, game: bytes, listed: bool, most: int, only: Optional[bool], explained: bool) -> Report:
    """Returns the report of a game file by the library. Coalitions that are listed are found once:
    a count by states says who the members are, or else the report lists them."""
    swings = {"swings": int(only is False), "only_swings": int(only is True)}
    status, text = library.report(game, tally=int(not only), visits=VISITS if listed else 0, **swings)
    if status == TOO_LONG:
        status, text = library.report(game, most=most, list=1, **swings)
        listed = False
    told, number = "", None
    if not status:
        made = Report.from_text(text)
        if not listed:
            return made
        number = made.minimal or 0
        if number <= most:
            try:
                made.coalitions = Coalitions(made.members, library.list_masks(made.quotas, list(zip(*(it.weights for it in made.members))), made.ways, number))
                return made
            except NoAnswer as it:
                status, text = it.status, it.fault
        else:
            status, text = TOO_MANY, "too many minimal winning coalitions"
    elif status == GAME and explained:
        with suppress(NotFound, OSError):
            told = run_program(find_program(), game, ["--tally"])[2]
    raise refuse(status, text, told, game, most, number)


def refuse(status: int, fault: str, told: str, game: bytes = b"", most: int = MOST, number: Optional[int] = None, rule: Optional[int] = None) -> Exception:
    """Returns the exception of a status. What can be done about too many coalitions or states is
    said in the words of this package."""
    if status not in (1, GAME, TOO_MANY, STATES):
        return MemoryError(fault) if fault == "out of memory" else RuntimeError(fault)
    if status == TOO_MANY:
        there = f"there are {number}, and " if number else ""
        told = f"{there}coalitions=True lists at most {most}: without it they are counted, any number of them"
    elif status == STATES:
        told = "there is no room for the states that the swings take: its minimal winning coalitions can be counted without them"
    return (TooMany if status in (TOO_MANY, STATES) else Refused)(status, fault, told, game.decode("utf-8", "replace"), rule)


def compute_numbers(library: Library, title: str, names: Sequence[str], quotas: Sequence[int], columns: Sequence[Sequence[int]], ways: Optional[Ways], swings: bool, most: int) -> Report:
    """Returns the report of a game without a text. It has the coalitions if `most` is not 0."""
    try:
        masks = library.list_masks(quotas, columns, ways, most) if most else None
        summary, numbers = library.count(quotas, columns, ways, swings=int(swings))
    except NoAnswer as it:
        number = None
        if it.status == TOO_MANY:
            with suppress(NoAnswer):
                number = library.count(quotas, columns, ways, visits=VISITS)[0][COALITIONS]
        raise refuse(it.status, it.fault, "", b"", most, number, it.rule) from None
    groups, few = (GROUPS if swings else [MINIMAL]), len(MINIMAL.indices)
    called, members, end = name_columns(groups, len(quotas)), [], 2 + 4 * sum(len(it.indices) for it in groups)
    for name, weights, its in zip(names, zip(*columns), numbers):
        exact = read_fractions(its[2:end])
        members.append(make_member(called, name, weights, zip(its, (exact[:few], exact[few:])[: len(groups)])))
    counts = dict(zip(groups, (summary[COALITIONS], summary[WINNING])))
    act = read_fractions(summary[ACT : ACT + 4])[0] if swings else None
    made = Report(title, quotas, counts, members, ways=ways if ways and len(ways) > 1 else (), act=act)
    made.coalitions = None if masks is None else Coalitions(members, masks)
    return made


def run_program(program: str, game: bytes, words: Sequence[str]) -> tuple[int, str, str]:
    """Runs the program: its status, its report or its fault, and its explanation of the fault."""
    done = subprocess.run([program, "--explain", *words], input=game, capture_output=True, check=False)
    if done.returncode == 0:
        return 0, done.stdout.decode("utf-8"), ""
    first, *others = done.stderr.decode("utf-8", "replace").rstrip("\n").split("\n")
    fault = first.removeprefix("council: ") or f"{program} ended with status {done.returncode}"
    return done.returncode, fault, "\n".join(it.strip() for it in others)
