"""Prints a table of the indices, as fractions, from a report of council:

    council-tools table [OPTIONS] [REPORT]
"""
from __future__ import annotations

from ..decimals import write_fraction
from ..ways import describe_ways
from .command import MANY, Words, add_index, add_report, choose_indices, make_printable, read_report, warn_of_low_quotas


def main(args: list[str]) -> None:
    reader = Words("table", __doc__)
    add_report(reader)
    add_index(reader, **MANY)
    words = reader.parse_words(args)
    report = read_report(words.report)
    warn_of_low_quotas(report.quotas, report.totals, report.ways)
    indices = choose_indices([report], words.index)
    heading = ["", "Weight", *(it.title for it in indices)]
    rows = []
    for it in report.members:
        weights = "/".join(map(str, it.weights))
        rows.append([make_printable(it.name), weights, *(write_fraction(index.find(it)) for index in indices)])
    # Each column is as wide as its longest text: fractions may be long.
    widths = [max(map(len, column)) for column in zip(heading, *rows)]
    for row in [heading, *rows]:
        first, *others = zip(row, widths)
        print("  ".join([first[0].ljust(first[1]), *(text.rjust(width) for text, width in others)]))
    if len(report.ways) > 1:
        print(f"\nA motion passes {describe_ways(report.ways)}.")
