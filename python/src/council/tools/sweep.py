"""Computes the indices of a game for each quota of a range, in one long table:

    council-tools sweep [OPTIONS] [GAME] >TABLE

GAME is a game file; without one, or as -, it is standard input. The table has a line for each
quota and member, with the columns quota, name, deegan_packel and public_good (decimals, cut off
after six), deegan_packel_exact and public_good_exact (fractions), separated by TABs. If --index
names one that rests on swings, the table has the columns of these indices instead, and with --all
those of all indices. As LaTeX it has no fractions. Without --from and --to it goes from 1 to the
total of the rule. A QUOTA is in the unit of the game file, as 50.5,
or a share of the total, as 50% or 2/3; so is --step. Lines are written as they are computed.
--picture draws a line for each member; members whose lines are the same share one.
"""
from __future__ import annotations

import argparse
import itertools
import math
import os
import sys
import time
from fractions import Fraction
from typing import Any, Callable, Iterable, Iterator, Optional, Sequence

from ..columns import GROUPS, MINIMAL, SWINGS, Group, Index
from ..decimals import cut_off, round_half_up, write_fraction
from ..engine import Refused, compute
from ..finding import find_program
from ..game import GAME_FILE, Unit, find_comments, find_slips, quote, read_units, write_game
from ..reports import Fault, Report
from ..ways import find_low
from .command import Words, add_index, find_index, make_printable, note
from .drawing import COLORS, DASHES, find_round_step, find_ticks, measure, wrap, write_picture, write_text
from .formats import NAME, escape_latex, quote_cell, write_tabular
from .quotas import Quota, count_decimals

MOST = 20000
LEFT, WIDE, SMALL = 60, 560, 10


def sweep(program: Optional[str], start: Report, rule: int, quotas: range, only: Optional[bool]) -> Iterator[tuple[int, Report]]:
    """Yields each of these quotas of a rule, with the report of the game, or of its swings. It tries the last quota
    before the others, so you hear at once of one that is out of range."""
    names = [it.name for it in start.members]
    weights = [it.weights for it in start.members]

    def find_report(quota: int) -> Report:
        its = [*start.quotas[:rule], quota, *start.quotas[rule + 1 :]]
        try:
            return compute(write_game(names, its, weights, ways=start.ways).encode("utf-8"), program=program, only=only)
        except Refused as it:
            raise Fault(f"quota {quota}: council: {it.fault}", it.status) from None

    last = find_report(quotas[-1])
    for quota in quotas[:-1]:
        yield quota, find_report(quota)
    yield quotas[-1], last


class Progress:
    """A line on the terminal that says how far a sweep is, if its rows go elsewhere."""

    def __init__(self, number: int) -> None:
        self.number, self.begun, self.done, self.shown = number, time.monotonic(), 0, 0.0
        self.is_on = sys.stderr.isatty() and not sys.stdout.isatty()

    def step(self) -> None:
        """Counts a quota. The line comes after a second, and changes five times a second."""
        self.done += 1
        now = time.monotonic()
        if self.is_on and now - self.begun > 1 and now - self.shown > 0.2:
            self.shown = now
            left = (now - self.begun) / self.done * (self.number - self.done)
            print(f"\rcouncil-tools sweep: {self.done:,} of {self.number:,} quotas, some {left:,.0f} s left\x1b[K", end="", file=sys.stderr, flush=True)

    def end(self) -> None:
        """Takes the line away."""
        if self.shown:
            print("\r\x1b[K", end="", file=sys.stderr, flush=True)


def list_rows(reports: Iterable[tuple[int, Report]], groups: Sequence[Group], unit: Unit, progress: Progress, take: Callable[[Any], None]) -> Iterator[tuple[str, str, list[str]]]:
    """Yields the rows of the table, as the reports come: a quota in its unit, a name, and for each
    group decimals and fractions. `take` gets each report."""
    try:
        for quota, report in reports:
            for it in report:
                cells: list[str] = []
                for group in groups:
                    its = [index.find(it) for index in group.indices]
                    cells += [*map(cut_off, its), *map(write_fraction, its)]
                yield unit.write_plain(quota), it.name, cells
            sys.stdout.flush()
            take((quota, report))
            progress.step()
    finally:
        progress.end()


def write_table(rows: Iterable[tuple[str, str, list[str]]], groups: Sequence[Group], form: str, names: Iterable[str]) -> Iterator[str]:
    """Yields the lines of the table in a form."""
    columns = [it for group in groups for it in group.columns()[1:]]
    if form == "latex":
        titles = {it.name: it.title for group in groups for it in group.indices}
        shown = ([quota, escape_latex(name), *(text for it, text in zip(columns, its) if it in titles)] for quota, name, its in rows)
        yield from write_tabular(names, ["Quota", NAME, *titles.values()], shown)
    elif form == "csv":
        yield ",".join(["quota", "name", *columns])
        for quota, name, its in rows:
            yield ",".join([quota, quote_cell(name), *(f'"{it}"' if "/" in it else it for it in its)])
    else:
        # a file gets each name unchanged, and a terminal none that moves it
        is_terminal = sys.stdout.isatty()
        yield "\t".join(["quota", "name", *columns])
        for quota, name, its in rows:
            yield "\t".join([quota, make_printable(name) if is_terminal else name, *its])


def find_quotas(words: argparse.Namespace, total: int, unit: Unit) -> range:
    """Returns the quotas of the sweep, whose words are in a unit or shares of the total."""
    first, last, step = (otherwise if it is None else Quota(it, least).make_whole(total, 10**unit.places, None)[0]
                         for it, otherwise, least in ((words.first, 1, 1), (words.last, total, 1), (words.step, 1, 0)))
    if first > last:
        raise Fault(f"there is no quota from {unit.write(first)} to {unit.write(last)}", 2)
    quotas = range(first, last + 1, step)
    if len(quotas) > MOST:
        raise Fault(f"from {unit.write(first)} to {unit.write(last)} there are {len(quotas):,} quotas, and {MOST:,} are the most: --from, --to and --step choose some", 2)
    return quotas


def warn_of_half(start: Report, rule: int, quotas: range, unit: Unit) -> None:
    """Warns of quotas of the sweep with which two coalitions without a common member could both
    win."""
    low = [it for it in quotas if 2 * it <= start.totals[rule]]
    if low and rule + 1 in find_low([*start.quotas[:rule], low[0], *start.quotas[rule + 1 :]], start.totals, start.ways):
        of = f" of rule {rule + 1}" if len(start.quotas) > 1 else ""
        note(f"quotas up to {unit.write(low[-1])}{of} are at most half of the total, {unit.write(start.totals[rule])}, so two coalitions without a common member could win")


def spread(wanted: Sequence[float], heights: Sequence[float], first: float, last: float) -> list[float]:
    """Returns a place for each label from `first` to `last`, near the wanted ones, and none over
    another."""
    order = sorted(range(len(wanted)), key=lambda it: wanted[it])
    found = {}
    for at in order:
        found[at] = max(wanted[at], first)
        first = found[at] + heights[at]
    for at in reversed(order):
        last -= heights[at]
        found[at] = last = min(found[at], last)
    return [found[at] for at in range(len(wanted))]


class Axes:
    """The axes of a sweep: the quota from left to right, the index upwards, each with round
    numbers."""

    def __init__(self, first: int, last: int, top: Fraction, unit: Unit, high: float) -> None:
        self.first, self.last, self.high, self.up, self.unit = first, last, high, 0.0, unit
        self.step = find_round_step(top, 5)
        self.top = self.step * math.ceil(top / self.step)
        # (at least three of the longest numbers have room, so there is a round one)
        most = min(6, int(WIDE / (measure(unit.write(last), SMALL) + 14)))
        self.quotas = find_ticks(first, last, most)

    def find_x(self, quota: int) -> float:
        return LEFT + (WIDE * (quota - self.first) / (self.last - self.first) if self.last > self.first else WIDE / 2)

    def find_y(self, index: Fraction) -> float:
        return self.up + self.high - self.high * float(index / self.top)

    def find_point(self, quota: int, index: Fraction) -> str:
        return f"{self.find_x(quota):.2f},{self.find_y(index):.2f}"

    def draw(self) -> Iterator[str]:
        places = count_decimals(self.step)
        for at in range(int(self.top / self.step) + 1):
            y = self.find_y(self.step * at)
            yield f'<path d="M{LEFT} {y:.2f}h{WIDE}" stroke="#dddddd"/>'
            yield write_text(LEFT - 6, y + 4, round_half_up(self.step * at, places), SMALL, "end", ' class="index"')
        for it in self.quotas:
            x = self.find_x(it)
            yield f'<path d="M{x:.2f} {self.up + self.high:.2f}v5" stroke="#777777"/>'
            yield write_text(x, self.up + self.high + 17, self.unit.write(it), SMALL, "middle", ' class="quota"')


def draw(start: Report, rule: int, reports: Sequence[tuple[int, Report]], index: Index, unit: Unit) -> Iterator[str]:
    """Draws the picture: a line for each index over the quotas, with the names of its members at
    its end."""
    lines: dict[tuple[Fraction, ...], list[str]] = {}
    for at, it in enumerate(start.members):
        lines.setdefault(tuple(index.find(report.members[at]) for _, report in reports), []).append(it.name)
    labels = [wrap(names, 260, 12, ", ") for names in lines.values()]
    heights = [15 * len(it) + 3 for it in labels]
    axes = Axes(reports[0][0], reports[-1][0], max(max(values) for values in lines), unit, max(360, sum(heights)))
    head = wrap(start.heading().split(), LEFT + WIDE + 200, 14)
    of = f" of rule {rule + 1}" if len(start.quotas) > 1 else ""
    of += f", {quote(unit.name)}" if unit.name else ""
    what = f"{index.legend}, by the quota{of} (total {unit.write(start.totals[rule])})"
    parts = [write_text(8, 22 + 18 * at, it, 14, more=' font-weight="bold"') for at, it in enumerate(head)]
    parts.append(write_text(8, 24 + 18 * len(head), what))
    axes.up = 46 + 18 * len(head)
    parts += axes.draw()

    quotas, right = [quota for quota, _ in reports], LEFT + WIDE + 60.0
    ends = [axes.find_y(values[-1]) for values in lines]
    for at, (values, label, end, y) in enumerate(zip(lines, labels, ends, spread(ends, heights, axes.up, axes.up + axes.high))):
        style = f'stroke="{COLORS[at % len(COLORS)]}" stroke-width="2" stroke-dasharray="{DASHES[at // len(COLORS)]}"'
        points = [axes.find_point(quota, it) for quota, it in zip(quotas, values)]
        x = axes.find_x(quotas[-1])
        if len(points) == 1:
            parts.append(f'<circle cx="{x:.2f}" cy="{end:.2f}" r="4" fill="{COLORS[at % len(COLORS)]}"/>')
        parts.append(f'<polyline points="{" ".join(points)}" fill="none" {style}/>')
        parts.append(f'<path class="leader" d="M{x:.2f} {end:.2f}L{LEFT + WIDE + 40} {y:.2f}h12" fill="none" stroke="#999999"/>')
        for row, text in enumerate(label):
            parts.append(write_text(LEFT + WIDE + 56, y + 4 + 15 * row, text, more=' class="member"'))
            right = max(right, LEFT + WIDE + 56 + measure(text, 12))
    wide = max(right, 8 + measure(what, 12), *(measure(it, 14) for it in head))
    return write_picture(wide + 16, axes.up + axes.high + 30, parts, start.heading())


def main(args: list[str]) -> None:
    reader = Words("sweep", __doc__)
    reader.add_argument("game", metavar="GAME", nargs="?", default="-", help="a game file; without one, or as -, standard input")
    reader.add_argument("--rule", metavar="N", type=int, default=1, help="the rule whose quota is changed, counted from 1; else the first")
    reader.add_argument("--from", metavar="QUOTA", dest="first", help="the first quota; else 1")
    reader.add_argument("--to", metavar="QUOTA", dest="last", help="the last quota; else the total")
    reader.add_argument("--step", metavar="QUOTA", help="from one quota to the next; else the least step")
    reader.add_argument("--picture", metavar="FILE", help="also draw the sweep, as an SVG file")
    add_index(reader, default="public-good", help="the index that is drawn; else the public good index")
    reader.add_argument("--all", action="store_true", help="all indices, also those of swings")
    reader.add_argument("--format", choices=["tsv", "csv", "latex"], default="tsv", help="the form of the table; else tsv, with TABs")
    reader.add_argument("--program", help="the program council; else the one of this clone or archive, or the one on the PATH")
    words = reader.parse_words(args)
    if words.game == "-":
        game = sys.stdin.buffer.read(GAME_FILE + 1)
    else:
        with open(words.game, "rb") as it:
            game = it.read(GAME_FILE + 1)
    program = find_program(words.program) if words.program else None
    index = find_index(words.index)
    groups, only = (GROUPS, False) if words.all else ([SWINGS], True) if index in SWINGS.indices else ([MINIMAL], None)
    start = compute(game, program=program, only=only)
    for remark in find_slips(game.decode()):
        note(remark)
    if not 1 <= words.rule <= len(start.quotas):
        raise Fault(f"there is no rule {words.rule}: the game has {len(start.quotas)}", 2)
    rule = words.rule - 1
    unit = read_units(find_comments(game.decode("utf-8-sig")), len(start.quotas))[rule]
    quotas = find_quotas(words, start.totals[rule], unit)
    reports = sweep(program, start, rule, quotas, only)
    # the first report shows that no quota is out of range
    first = next(reports)
    warn_of_half(start, rule, quotas, unit)
    kept: list[tuple[int, Report]] = []
    rows = list_rows(itertools.chain([first], reports), groups, unit, Progress(len(quotas)), kept.append if words.picture else lambda _: None)
    with open(words.picture or os.devnull, "w", encoding="utf-8", newline="\n") as it:
        for line in write_table(rows, groups, words.format, [member.name for member in start]):
            print(line)
        if words.picture:
            it.writelines(line + "\n" for line in draw(start, rule, kept, index, unit))
