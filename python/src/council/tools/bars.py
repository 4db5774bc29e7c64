"""Draws the indices of a report beside the shares of the votes, as an SVG file:

    council-tools bars [OPTIONS] [REPORT] >PICTURE.svg

Each member has a bar for its share under each rule, and one for each index that the report has. No
name is cut. With the game file, --game FILE, the picture has the names of the rules, and quotas in
the unit of the table.
"""
from __future__ import annotations

from typing import Iterator, Sequence

from ..columns import Index
from ..decimals import round_half_up
from ..game import Unit
from ..reports import Report
from .command import MANY, Words, add_index, add_report, choose_indices, read_comments, read_report
from .drawing import SHARES, measure, name_share, wrap, write_picture, write_quota, write_text

# the bars of a member are 13 apart: a number of 9 has room above and below
BAR, PITCH, GAP, LONGEST, SMALL = 8, 13, 9, 460, 9


def list_kinds(report: Report, units: Sequence[Unit], indices: Sequence[Index]) -> Iterator[tuple[str, str]]:
    """Yields what the bars are: what the legend says of each, and its color."""
    for rule in range(len(report.quotas)):
        yield f"{name_share(report, units, rule)}; quota {write_quota(report, units, rule)}", SHARES[rule][0]
    for it in indices:
        yield it.legend, it.light


def draw(report: Report, places: int, units: Sequence[Unit], indices: Sequence[Index]) -> Iterator[str]:
    kinds = list(list_kinds(report, units, indices))
    rows = []
    for it in report.members:
        shares = [report.share(it, rule) for rule in range(len(report.quotas))]
        rows.append((it.name, [*shares, *(index.find(it) for index in indices)]))
    longest = max(max(values) for _, values in rows)
    left = max(60.0, *(measure(name, 12) for name, _ in rows)) + 16
    wide = left + LONGEST + 20 + measure("0." + "0" * places, SMALL)
    title = report.heading()
    parts, y = [], 22
    for row in wrap(title.split(" "), wide - 16, 14):
        parts.append(write_text(8, y, row, 14, more=' font-weight="bold"'))
        wide = max(wide, 16 + measure(row, 14))
        y += 18
    for kind, color in kinds:
        parts.append(f'<rect class="key" x="8" y="{y - 9}" width="10" height="10" fill="{color}"/>' + write_text(22, y, kind))
        wide = max(wide, 30 + measure(kind, 12))
        y += 16
    y += 4
    for name, values in rows:
        parts.append(write_text(left - 8, y + len(kinds) * PITCH / 2 + 4, name, anchor="end"))
        for value, (_, color) in zip(values, kinds):
            length = float(value / longest) * LONGEST
            parts.append(f'<rect class="bar" x="{left:.2f}" y="{y + (PITCH - BAR) / 2:.2f}" width="{length:.2f}" height="{BAR}" fill="{color}"/>')
            parts.append(write_text(left + length + 4, y + PITCH - 3.5, round_half_up(value, places), SMALL))
            y += PITCH
        y += GAP
    return write_picture(wide, y + 8, parts, title)


def main(args: list[str]) -> None:
    reader = Words("bars", __doc__)
    add_report(reader)
    add_index(reader, **MANY)
    reader.add_argument("--decimals", metavar="N", type=int, choices=range(1, 13), default=4, help="decimals beside the bars, rounded; else four")
    reader.add_argument("--game", metavar="FILE", help="the game file of the report, for the names and units of its rules")
    words = reader.parse_words(args)
    report = read_report(words.report)
    _, units = read_comments(words.game, report)
    for line in draw(report, words.decimals, units, choose_indices([report], words.index)):
        print(line)
