"""Shows two games or more side by side, member by member:

    council-tools compare [OPTIONS] REPORT REPORT..

Each game has its weights and its indices, and each but the first also the differences of the exact
indices to the first; all are cut off after six decimals. DP and PG are the Deegan-Packel and the
public good index, Bz Banzhaf's, Pm Penrose's measure, SS that of Shapley and Shubik, and CP and CI
are Coleman's powers to prevent and to initiate an act. A dash means that a game does not have the
member; in CSV the cell is empty. Members are matched by their exact names. You are warned of two names that look
alike if only one game has each of them: --same makes them one. With --game FILE, once for each
report, weights are in the unit of their game file. If rules are joined by "or", each game has its ways
to win, and you are warned if these differ.
"""
from __future__ import annotations

import difflib
import functools
import unicodedata
from fractions import Fraction
from typing import Callable, Dict, Iterable, Iterator, List, Sequence

from ..columns import Index
from ..decimals import cut_off
from ..game import Unit, quote, quote_for_shell
from ..members import Member
from ..reports import Fault, Report
from ..ways import describe_ways
from .command import MANY, Words, add_index, choose_indices, fold, make_printable, note, read_comments, read_report
from .formats import NAME, escape_latex, quote_cell, write_tabular

# the members of each game, by name
Games = List[Dict[str, Member]]


def write_signed(value: Fraction) -> str:
    """Writes a difference with its sign."""
    digits = cut_off(abs(value), 6)
    sign = "" if float(digits) == 0 else "-" if value < 0 else "+"
    return sign + digits


@functools.cache
def split_name(name: str) -> list[str]:
    """Returns the words of a name, without accents, capitals and signs."""
    letters = unicodedata.normalize("NFKD", fold(name))
    return "".join(it if it.isalnum() else " " for it in letters if not unicodedata.combining(it)).split()


@functools.cache
def make_matcher(text: str) -> difflib.SequenceMatcher[str]:
    """Returns a matcher that compares other texts with this one, and counts this one only once."""
    return difflib.SequenceMatcher(None, "", text)


def is_near(one: str, other: str) -> bool:
    """Returns whether two names may be of one member, as Czechia and Czech Republic."""
    its, others = split_name(one), split_name(other)
    short, long = sorted((" ".join(its), " ".join(others)), key=len)
    if not short:
        return not long
    first, grown = sorted((its[0], others[0]))
    begins = len(short) >= 4 and long.startswith(short)
    grows = 5 <= len(first) < len(grown) and grown.startswith(first)
    if begins or grows:
        return True
    matcher = make_matcher(long)
    matcher.set_seq1(short)
    # (the bounds take less time)
    return matcher.real_quick_ratio() >= 0.8 and matcher.quick_ratio() >= 0.8 and matcher.ratio() >= 0.8


def warn(games: Games) -> None:
    """Warns of a name that only one game has if it is near to a name that only another has."""
    told = set()
    for at, one in enumerate(games, 1):
        for number, other in enumerate(games[at:], at + 1):
            for name in one:
                for it in other:
                    if name not in other and it not in one and (name, it) not in told and is_near(name, it):
                        told.add((name, it))
                        note(f"{quote(name)} of report {at} and {quote(it)} of report {number} may be one member: --same {quote_for_shell(name)} {quote_for_shell(it)} makes them one")


def find_members(report: Report, same: Sequence[Sequence[str]]) -> dict[str, Member]:
    """Returns the members by name. Two names that --same makes one are the first of them."""
    members = {}
    for it in report.members:
        name = next((first for first, other in same if it.name == other), it.name)
        if name in members:
            raise Fault(f"--same {quote_for_shell(name)} {quote_for_shell(it.name)}: one report has both", 2)
        members[name] = it
    return members


def write_weights(weights: Iterable[int], units: Sequence[Unit], write: Callable[[Unit, int], str] = Unit.write) -> str:
    """Writes a number for each rule in its unit, with / between them."""
    return "/".join(write(unit, it) for it, unit in zip(weights, units))


def make_cells(games: Games, units: Sequence[Sequence[Unit]], indices: Sequence[Index], name: str, write: Callable[[Unit, int], str] = Unit.write) -> Iterator[list[str]]:
    """Yields the cells of a row: a group for each game, and for each difference to the first."""
    first = games[0].get(name)
    for at, it in enumerate(members.get(name) for members in games):
        yield [write_weights(it.weights, units[at], write), *(cut_off(index.find(it)) for index in indices)] if it else ["-"] * (len(indices) + 1)
        if at:
            yield [write_signed(index.find(it) - index.find(first)) for index in indices] if it and first else ["-"] * len(indices)


def write_headings(number: int, titles: Sequence[str], weight: str) -> list[str]:
    """Returns the heading of each column for this number of games, except that of the names."""
    its = [f"{weight} 1", *(f"{it} 1" for it in titles)]
    for at in range(2, number + 1):
        its += [f"{weight} {at}", *(f"{it} {at}" for it in titles), *(f"{it} {at}-1" for it in titles)]
    return its


def write_csv(games: Games, units: Sequence[Sequence[Unit]], indices: Sequence[Index]) -> Iterator[str]:
    """Yields the lines of CSV: "5/3" is a weight under two rules."""
    yield ",".join(["name", *write_headings(len(games), [it.name for it in indices], "weight")])
    for name in find_names(games):
        cells = [it for group in make_cells(games, units, indices, name, Unit.write_plain) for it in group]
        yield ",".join([quote_cell(name), *("" if it == "-" else f'"{it}"' if "/" in it else it for it in cells)])


def write_latex(games: Games, units: Sequence[Sequence[Unit]], indices: Sequence[Index]) -> Iterator[str]:
    rows = ([name, *(it for group in make_cells(games, units, indices, name) for it in group)] for name in find_names(games))
    titles = [NAME, *write_headings(len(games), [it.brief for it in indices], "Weight")]
    yield from write_tabular(find_names(games), titles, (map(escape_latex, it) for it in rows))


def find_names(games: Games) -> list[str]:
    """Returns the names of all members, each once."""
    return list(dict.fromkeys(name for members in games for name in members))


def measure(text: str) -> int:
    return sum(0 if unicodedata.combining(it) else 2 if unicodedata.east_asian_width(it) in "WF" else 1 for it in text)


def write_table(games: Games, units: Sequence[Sequence[Unit]], indices: Sequence[Index]) -> Iterator[str]:
    """Yields the lines of the table, with a heading over each group."""
    names = find_names(games)
    over = ["1"]
    for at in range(2, len(games) + 1):
        over += [str(at), f"{at} - 1"]
    briefs = [it.brief for it in indices]
    groups = [["weight", *briefs] if "-" not in it else briefs for it in over]
    top = [[""] * (len(group) - 1) + [it] for it, group in zip(over, groups)]
    rows: Sequence[tuple[str, Sequence[Sequence[str]]]] = [("", top), ("", groups)] + [(make_printable(name), list(make_cells(games, units, indices, name))) for name in names]
    # each group is as wide as its cells, whose columns are as wide as their longest text
    widths = [[max(measure(row[1][at][column]) for row in rows) for column in range(len(group))] for at, group in enumerate(groups)]
    first = max(measure(row[0]) for row in rows)

    def write_line(name: str, its: Iterable[Sequence[str]]) -> str:
        parts = [name + " " * (first - measure(name))]
        for group, wide in zip(its, widths):
            parts.append("  ".join(" " * (most - measure(it)) + it for it, most in zip(group, wide)))
        return "   ".join(parts).rstrip()

    for name, its in rows:
        yield write_line(name, its)


def main(args: list[str]) -> None:
    reader = Words("compare", __doc__)
    reader.add_argument("reports", metavar="REPORT", nargs="+", help="a report of council; - is standard input")
    reader.add_argument("--same", metavar=("NAME", "OTHER"), nargs=2, action="append", default=[], help="two names that are one member")
    reader.add_argument("--game", metavar="FILE", action="append", help="the game file of a report, once for each in their order")
    add_index(reader, **{**MANY, "help": "an index to show, and more if it is given again; else all that the reports have"})
    reader.add_argument("--format", choices=["text", "csv", "latex"], default="text", help="the form of the table; else text")
    words = reader.parse_words(args)
    if len(words.reports) < 2 or words.reports.count("-") > 1:
        raise Fault("name two reports or more", 2)
    reports = [read_report(it) for it in words.reports]
    if words.game and len(words.game) != len(reports):
        raise Fault(f"give --game once for each report: there are {len(reports)} reports, and {len(words.game)} game files", 2)
    units = [read_comments(path, it)[1] for path, it in zip(words.game or [None] * len(reports), reports)]
    games = [find_members(it, words.same) for it in reports]
    indices = choose_indices(reports, words.index)
    for first, other in words.same:
        if not any(it.name in (first, other) for report in reports for it in report.members):
            raise Fault(f"--same {quote_for_shell(first)} {quote_for_shell(other)}: no report has one of them", 2)
    if words.format != "csv":
        sign = "% " if words.format == "latex" else ""
        for at, it in enumerate(reports, 1):
            quotas = f"{write_weights(it.quotas, units[at - 1])} of {write_weights(it.totals, units[at - 1])}"
            ways = f" ({describe_ways(it.ways)})" if len(it.ways) > 1 else ""
            numbers = [f"{what}: {number:,}" for what, number in it.count_coalitions()]
            numbers += [f"power to act: {cut_off(it.power_to_act_exact)}"] if it.winning else []
            print(f"{sign}{at}  {make_printable(it.heading())}: {quotas}{ways}, {', '.join(numbers)}")
        print(f"{sign}indices, and differences of exact ones: six decimals, cut off" + "\n" * (not sign))
    for line in {"text": write_table, "csv": write_csv, "latex": write_latex}[words.format](games, units, indices):
        print(line)
    for at, it in enumerate(reports[1:], 2):
        if max(len(it.ways), len(reports[0].ways)) > 1 and it.sort_ways() != reports[0].sort_ways():
            note(f"the ways differ: a motion passes in game 1 {describe_ways(reports[0].ways)}; in game {at} {describe_ways(it.ways)}")
    warn(games)
