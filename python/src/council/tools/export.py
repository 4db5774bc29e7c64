"""Writes a report of council as CSV, JSON, LaTeX or Markdown:

    council-tools export csv|json|latex|markdown [OPTIONS] [REPORT]

    csv       A line for each member, with a heading. Names and fractions are in quotes; a name that
              a spreadsheet would take for a formula has an apostrophe in front.
    json      The whole report: numbers as numbers, fractions as two integers, which are texts from
              2^53 on, and the coalitions if they are listed.
    latex     A table for the package booktabs. Characters that pdflatex does not have are numbers.
    markdown  A table, in which no character of a name has a meaning of its own.

The columns of a table are name, weight, share (of the votes), coalitions, deegan_packel and
public_good (decimals), deegan_packel_exact and public_good_exact (fractions), and of a report with
swings also swings, banzhaf, penrose, shapley_shubik, power_to_prevent, power_to_initiate, and these
five with _exact. With several rules there is a weight and a share for each. For a spreadsheet with a decimal comma, write CSV with
--decimal , (in which semicolons separate the columns). With the game file, --game FILE, weights of a
table are in their unit, and have its name.
"""
from __future__ import annotations

import argparse
import functools
import json
import re
import shutil
import sys
import tempfile
from fractions import Fraction
from typing import Iterable, Iterator, Optional, Sequence

from ..columns import INDICES, MINIMAL, SWINGS, Index
from ..decimals import cut_off, round_half_up, write_fraction
from ..game import Unit, quote
from ..members import Coalition, Member
from ..reports import Fault, Report
from .command import MANY, Words, add_index, add_report, choose_indices, make_printable, read_comments, read_lines, read_report, warn_of_low_quotas
from .formats import NAME, escape_latex, quote_cell, write_tabular

FORMATS = ["csv", "json", "latex", "markdown"]
COUNTS = {it.column: it.title for it in (MINIMAL, SWINGS)}
DECIMALS = {"share": "Share", **{it.name: it.title for it in INDICES}}
EXACT = {f"{it.name}_exact": f"{it.title}, exact" for it in INDICES}
HEADINGS = {"name": NAME, "weight": "Weight", **COUNTS, **DECIMALS, **EXACT}


class Column:
    """A column: its content, its rule if there are several, and the unit of that."""

    def __init__(self, kind: str, unit: Unit, rule: Optional[int] = None) -> None:
        self.kind, self.unit, self.rule = kind, unit, rule

    def heading(self) -> str:
        return self.kind if self.rule is None else f"{self.kind}_{self.rule + 1}"

    def title(self) -> str:
        if self.kind in ("weight", "share") and self.unit.name:
            return make_printable(self.unit.name) + (", share" if self.kind == "share" else "")
        return HEADINGS[self.kind] + ("" if self.rule is None else f", rule {self.rule + 1}")

    def write_for_people(self, report: Report, member: Member, places: Optional[int]) -> str:
        """Returns the cell of a member as people read it: whole numbers have commas between
        thousands."""
        if self.kind == "weight":
            return self.unit.write(member.weights[self.rule or 0])
        text = self.write(report, member, places)
        return f"{int(text):,}" if self.kind in COUNTS else text

    def write(self, report: Report, member: Member, places: Optional[int]) -> str:
        """Returns the cell of a member. Without a number of places, decimals are as the report has
        them; else rounded."""
        kind, rule = self.kind, self.rule or 0
        if kind == "weight":
            return self.unit.write_plain(member.weights[rule])
        if kind in DECIMALS:
            exact = report.share(member, rule) if kind == "share" else getattr(member, kind + "_exact")
            return cut_off(exact) if places is None else round_half_up(exact, places)
        it = getattr(member, kind)
        return write_fraction(it) if kind in EXACT else str(it)


def choose_kinds(report: Report, indices: Sequence[Index], words: argparse.Namespace) -> list[str]:
    """Returns the columns that --columns names; else the usual ones of these indices."""
    if words.columns is None:
        usual = [kind for it in report.groups for kind in it.columns(indices)] if words.format == "csv" else [it.name for it in indices]
        return ["name", "weight", *usual]
    kinds: list[str] = words.columns.split(",")
    has = ["name", "weight", "share", *(kind for it in report.groups for kind in it.columns())]
    for it in kinds:
        if it not in HEADINGS:
            raise Fault(f"{quote(it)} is no column: {', '.join(HEADINGS)}", 2)
        if it not in has:
            raise Fault(f"the report has no column {it}, but {', '.join(has)}", 2)
    return kinds


def choose_columns(report: Report, kinds: Iterable[str], units: Sequence[Unit]) -> Iterator[Column]:
    for kind in kinds:
        if len(units) > 1 and kind in ("weight", "share"):
            yield from (Column(kind, unit, rule) for rule, unit in enumerate(units))
        else:
            yield Column(kind, units[0])


def write_csv(report: Report, columns: Sequence[Column], places: Optional[int], decimal: str) -> Iterator[str]:
    """Yields the lines of CSV. Semicolons separate the columns if the decimal sign is a comma."""
    between = "," if decimal == "." else ";"
    yield between.join(it.heading() for it in columns)
    for member in report.members:
        cells = []
        for it in columns:
            text = it.write(report, member, places)
            cells.append(quote_cell(text) if it.kind == "name" or it.kind in EXACT else text if it.kind in COUNTS else text.replace(".", decimal))
        yield between.join(cells)


def write_caption(columns: Sequence[Column], places: int) -> list[str]:
    """Says how decimals are rounded, if a table has any."""
    return [f"Decimals are rounded to {places} places."] if any(it.kind in DECIMALS for it in columns) else []


def write_latex(report: Report, columns: Sequence[Column], places: int) -> Iterator[str]:
    yield from (f"% {it}" for it in [report.title, *write_caption(columns, places)] if it)

    def write_cell(it: Column, member: Member) -> str:
        text = it.write_for_people(report, member, places)
        return escape_latex(text) if it.kind in ("name", "weight") else f"${text}$" if it.kind in EXACT else text

    yield from write_tabular([it.name for it in report], [it.title() for it in columns], ([write_cell(it, member) for it in columns] for member in report))


def write_markdown(report: Report, columns: Sequence[Column], places: int) -> Iterator[str]:
    def write_row(cells: Iterable[str]) -> str:
        return "| " + " | ".join(cells) + " |"

    def escape(text: str) -> str:
        return re.sub(r"([!-/:-@\[-`{-~])", r"\\\1", make_printable(text))

    yield write_row([escape(it.title()) if it.unit.name else it.title() for it in columns])
    yield write_row([":--" if it.kind == "name" else "--:" for it in columns])
    for member in report.members:
        cells = [(it.kind, it.write_for_people(report, member, places)) for it in columns]
        yield write_row([escape(text) if kind == "name" else text for kind, text in cells])
    yield from (f"\n{it}" for it in write_caption(columns, places))


def make_pair(value: Fraction) -> list[object]:
    """Returns both numbers of a fraction; those that JavaScript rounds are texts."""
    return [it if it < 2**53 else str(it) for it in (value.numerator, value.denominator)]


def describe(report: Report, indices: Sequence[Index], places: Optional[int]) -> dict[str, object]:
    """Returns the whole report, except its coalitions, as one value."""

    def find_value(member: Member, kind: str) -> object:
        exact = getattr(member, kind + "_exact" if kind in DECIMALS else kind)
        if kind in DECIMALS:
            return float(cut_off(exact) if places is None else round_half_up(exact, places))
        return make_pair(exact) if kind in EXACT else exact

    kinds = ["name", "weights", *(kind for it in report.groups for kind in it.columns(indices))]
    members = [{kind: find_value(it, kind) for kind in kinds} for it in report.members]
    numbers = {it.line: getattr(report, it.line) for it in report.groups}
    if report.winning is not None:
        exact = report.power_to_act_exact
        numbers.update(power_to_act=float(cut_off(exact) if places is None else round_half_up(exact, places)), power_to_act_exact=make_pair(exact))
    return {"title": report.title or None, "quotas": report.quotas, "totals": report.totals, "ways": report.ways, **numbers, "members": members}


def write_json(lines: Iterable[str], words: argparse.Namespace) -> None:
    """Writes a report as JSON, with a line for each coalition. These may be millions and come before
    the members, so they wait in a temporary file."""
    write = functools.lru_cache(functools.partial(json.dumps, ensure_ascii=False))

    def write_coalition(it: Coalition) -> str:
        members = '", "'.join(it.members)
        # most names need no escape
        plain = members.isprintable() and "\\" not in members and members.count('"') == 2 * len(it.members) - 2
        return f',\n  {{"members": [{chr(34) + members + chr(34) if plain else ", ".join(map(write, it.members))}], "weights": {write(it.weights)}}}'

    with tempfile.TemporaryFile("w+", encoding="utf-8", newline="", buffering=1 << 20) as coalitions:
        report = Report.read(lines, lambda it: coalitions.write(write_coalition(it)))
        warn_of_low_quotas(report.quotas, report.totals, report.ways)
        head = json.dumps(describe(report, choose_indices([report], words.index), words.decimals), indent=1, ensure_ascii=False)
        if report.listed:
            sys.stdout.write(head[: -len("\n}")] + ',\n "coalitions": [')
            coalitions.seek(0)
            coalitions.read(1)
            shutil.copyfileobj(coalitions, sys.stdout, 1 << 20)
            head = "\n ]\n}"
        print(head)


def main(args: list[str]) -> None:
    reader = Words("export", __doc__)
    reader.add_argument("format", metavar="FORMAT", nargs="?", help="csv, json, latex or markdown")
    add_report(reader)
    add_index(reader, **MANY)
    reader.add_argument("--columns", metavar="NAME,..", help="the columns of a table, in this order")
    reader.add_argument("--decimals", metavar="N", type=int, choices=range(1, 31),
                        help="decimals, 1 to 30, rounded from the fractions, a half upwards; else in csv and json six, cut off, and in tables four, rounded")
    reader.add_argument("--decimal", choices=[".", ","], default=".", help="the decimal sign of csv; with a comma, semicolons separate the columns")
    reader.add_argument("--game", metavar="FILE", help="the game file of the report, for the names and units of its rules")
    reader.add_argument("--mark", action="store_true", help="a byte order mark in front of csv, by which Excel knows UTF-8")
    words = reader.parse_words(args)
    if words.format not in FORMATS:
        said = f"{quote(words.format)} is no format" if words.format else "say a format"
        raise Fault(f"{said}: csv, json, latex or markdown", 2)
    if words.format == "json":
        read_lines(words.report, lambda lines: write_json(lines, words))
        return
    report = read_report(words.report)
    kinds = choose_kinds(report, choose_indices([report], words.index), words)
    columns = list(choose_columns(report, kinds, read_comments(words.game, report)[1]))
    if words.format == "csv":
        lines = write_csv(report, columns, words.decimals, words.decimal)
        sys.stdout.write("\ufeff" if words.mark else "")
    else:
        lines = {"latex": write_latex, "markdown": write_markdown}[words.format](report, columns, words.decimals or 4)
    for it in lines:
        print(it)
