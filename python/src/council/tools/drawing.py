"""What pages and pictures share: text in XML, how wide it can be, round numbers for axes, and
colors."""
from __future__ import annotations

import math
import re
import unicodedata
from fractions import Fraction
from typing import Iterable, Iterator, Sequence
from xml.sax.saxutils import escape

from ..decimals import round_half_up
from ..game import Unit, quote
from ..reports import Report

# what XML has no place for, what would turn the direction of a line, and what has no width
REFUSED = re.compile("[^\t\n\r -\ud7ff\ue000-\ufffd\U00010000-\U0010ffff]|[\x7f-\x9f\xad\u061c\u180e\u200b-\u200f\u2028-\u202e\u2060-\u206f\ufeff\ufff9-\ufffb\U000e0000-\U000e007f]|[\ufdd0-\ufdef]")
COLORS = ["#33557f", "#c06a2b", "#3c8a4e", "#a03a5b", "#6b5ca5", "#8a7a1f", "#2a8a9a", "#7a4a2a", "#d0589a", "#5a5a5a"]
DASHES = ["", "7 3", "2 3", "9 3 2 3"]
# the share under each rule: on white, and on the dark ground of a page
SHARES = [("#858585", "#92979e"), ("#3f8f5b", "#62b37e"), ("#8a66b5", "#b094dc"), ("#9a8219", "#d0b84a")]


def escape_xml(text: str) -> str:
    """Writes a text as a page or a picture may hold it."""
    return escape(REFUSED.sub("\ufffd", text), {'"': "&quot;"})


def measure(text: str, size: float) -> float:
    """Returns how wide a text is at most, in a usual font without serifs of this size."""
    wide = 0.0
    for it in text:
        if unicodedata.east_asian_width(it) in "WF" or it in "mwMW@%—…" or ord(it) > 0xFFFF:
            wide += 1.05
        elif unicodedata.combining(it):
            wide += 0.1
        elif it in "iljI.,:;'|![]() ":
            wide += 0.42
        else:
            wide += 0.8 if it.isupper() else 0.68
    return wide * size


def wrap(words: Iterable[str], most: float, size: float, between: str = " ") -> list[str]:
    """Puts words into lines of at most this width. A wider word has a line of its own, and is not
    cut."""
    lines: list[str] = []
    for it in words:
        if lines and measure(lines[-1] + between + it, size) <= most:
            lines[-1] += between + it
        else:
            if lines:
                lines[-1] += between.rstrip()
            lines.append(it)
    return lines


def write_text(x: float, y: float, it: str, size: float = 12, anchor: str = "start", more: str = "") -> str:
    return f'<text x="{x:.2f}" y="{y:.2f}" font-size="{size}" text-anchor="{anchor}" xml:space="preserve"{more}>{escape_xml(it)}</text>'


def write_picture(wide: float, high: float, lines: Iterable[str], title: str) -> Iterator[str]:
    """Yields the lines of an SVG file of this size."""
    yield (f'<svg xmlns="http://www.w3.org/2000/svg" width="{wide:.0f}" height="{high:.0f}" viewBox="0 0 {wide:.0f} {high:.0f}" '
           'font-family="Helvetica, Arial, sans-serif" role="img">')
    yield f"<title>{escape_xml(title)}</title>"
    yield f'<rect width="{wide:.0f}" height="{high:.0f}" fill="white"/>'
    yield from lines
    yield "</svg>"


def find_round_step(span: Fraction | int, most: int) -> Fraction:
    """Returns the least of 1, 2, 5, 10, .. and 0.5, 0.2, 0.1, .. of which `most` make the span or
    more."""
    power = Fraction(10) ** math.floor(math.log10(span / most))
    return next(it for it in (power * factor for factor in (1, 2, 5, 10)) if it * most >= span)


def find_ticks(first: int, last: int, most: int) -> list[int]:
    """Returns the round whole numbers from `first` to `last`, at most one more than `most`."""
    if last == first:
        return [first]
    step = math.ceil(find_round_step(last - first, most))
    return list(range(-(-first // step) * step, last + 1, step))


def write_percent(part: int, whole: int) -> str:
    """Writes a share as a percentage with up to two decimals, rounded."""
    digits = round_half_up(Fraction(part, whole) * 100, 2)
    return digits.rstrip("0").rstrip(".") + "%"


def name_share(report: Report, units: Sequence[Unit], rule: int) -> str:
    """Names the share under a rule, with the name of the rule if its game file has one."""
    which = f", rule {rule + 1}" if len(units) > 1 else ""
    return f"share of {quote(units[rule].name) if units[rule].name else 'the votes'}{which}"


def write_quota(report: Report, units: Sequence[Unit], rule: int) -> str:
    """Writes the quota of a rule in its unit and in percent: 12 of 17 (70.59%)."""
    unit, quota, total = units[rule], report.quotas[rule], report.totals[rule]
    more = "" if unit.is_share_of(total) else f" ({write_percent(quota, total)})"
    return f"{unit.write(quota)} of {unit.write(total)}{more}"
