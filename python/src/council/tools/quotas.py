"""Reads numbers as a table has them, and a quota as a person writes it: 255, 65%, '>50%', 2/3."""
from __future__ import annotations

import math
import re
from fractions import Fraction
from typing import Optional, Sequence

from ..game import quote, quote_for_shell
from ..reports import Fault

BLANKS = " \u00a0\u2007\u2009\u202f"
OTHER = {".": ",", ",": "."}
UNIT = re.compile(rf"[{BLANKS}]*(?:%|/[{BLANKS}]*0*[1-9]\d{{0,8}})$", re.A)
CURRENCY = re.compile(rf"^(?:[€$£¥]|EUR|USD|GBP|CHF)[{BLANKS}]*|[{BLANKS}]*(?:[€$£¥]|EUR|USD|GBP|CHF)$")
YES, NO = {"x", "yes", "true", "y", "ja", "oui", "si", "sí", "wahr"}, {"no", "false", "n", "nein", "non", "falsch"}
NONE = {"", "-", "–", "—", "−"}


class Number:
    """A number as a cell has it: with a point or a comma, thousands separators, a percent sign."""

    def __init__(self, text: str) -> None:
        self.text = text.strip(BLANKS + "\t")
        # a percent sign, or the /1000 of shares; the sign of a currency tells nothing
        digits, self.unit = UNIT.sub("", self.text), re.sub(rf"[{BLANKS}]", "", "".join(UNIT.findall(self.text)))
        digits = CURRENCY.sub("", digits)
        self.percent = self.unit == "%"
        if re.match(rf"\d{{1,3}}([{BLANKS}'’]\d{{3}})+([.,]|$)", digits):
            digits = re.sub(rf"[{BLANKS}'’]", "", digits)
        # its value by each decimal sign that makes it a number; the other sign separates thousands
        self.values: dict[str, Fraction] = {}
        for sign in OTHER:
            match = re.fullmatch(rf"(\d*|[1-9]\d{{0,2}}(?:[{OTHER[sign]}]\d{{3}})+)(?:[{sign}](\d+))?(?:[eE]([+-]?\d{{1,3}}))?", digits, re.A)
            if match and (match[1] or match[2]) and len(digits) <= 40:
                decimals = match[2] or ""
                self.values[sign] = int(match[1].replace(OTHER[sign], "") + decimals) * Fraction(10) ** (int(match[3] or 0) - len(decimals))

    def find_decimal(self) -> Optional[str]:
        """Returns its decimal sign; None if it has none, or if both readings make a number."""
        return next(iter(self.values)) if len(self.values) == 1 else None

    def is_open(self) -> bool:
        """Returns whether it is two different numbers: 1,000 is a thousand, or one."""
        return len({*self.values.values()}) > 1


def is_number(cell: str) -> bool:
    """Returns whether a cell is what a person takes for a number."""
    return bool(Number(cell.lstrip("+-−–~<>≈≤≥ ")).values)


def is_count(cells: Sequence[str], *first: int) -> bool:
    """Returns whether cells count on from one of these numbers."""
    return any([*cells] == [str(at + it) for at in range(len(cells))] for it in first)


def is_rising(cells: Sequence[str]) -> bool:
    """Returns whether cells are two whole numbers or more, each greater than the one before."""
    numbers = [int(it) for it in cells if re.fullmatch(r"\d{1,18}", it, re.A)]
    return len(numbers) == len(cells) > 1 and numbers == sorted({*numbers})


def read_cells(cells: Sequence[str], marks: bool, none: Optional[str]) -> list[Number]:
    """Reads the cells of a column: with `marks` yes and no, or x and blanks, are 1 and 0, and with
    `none` an empty cell or a dash is that. What is no number has no values."""
    found = {it.casefold() for it in cells}
    if marks and found & YES and found <= YES | NO | NONE:
        return [Number("01"[it.casefold() in YES]) for it in cells]
    numbers = [Number(none if none and it in NONE else it) for it in cells]
    wholes = [int(it.unit[1:]) for it in numbers if it.unit.startswith("/")]
    for it in numbers if len(wholes) == len(numbers) else ():
        # 1/2 and 1/4 are 2 and 1 of 4
        it.values = {sign: value * (math.lcm(*wholes) // int(it.unit[1:])) for sign, value in it.values.items()}
        it.unit = f"/{math.lcm(*wholes)}"
    return numbers


def find_sign(cells: Sequence[tuple[str, Number]], told: Optional[str]) -> Optional[str]:
    """Returns the decimal sign of numbers, each with its place, as they or the user tell it; None if
    none has any."""
    signs = [("--decimal", told), *((place, it.find_decimal()) for place, it in cells)]
    where, sign = next((it for it in signs if it[1]), ("", None))
    for place, it in cells:
        if (sign and sign not in it.values) or (not sign and it.is_open()):
            why = f"is no number with {quote(sign)} before its decimals, as {where}" if sign else "may have decimals or thousands"
            raise Fault(f"{place} {why}: say --decimal . or --decimal , and write all alike")
    return sign


def count_decimals(value: Fraction) -> int:
    """Returns how many decimals a value has, which is a whole number over a power of ten."""
    places = 0
    while (value * 10**places).denominator != 1:
        places += 1
    return places


def write_plain(value: Fraction, most: int = 6) -> str:
    """Writes a value with its decimals, cut off after `most`, and with commas between thousands."""
    places = next((it for it in range(most) if (value * 10**it).denominator == 1), most)
    whole, decimals = divmod(math.floor(value * 10**places), 10**places)
    return f"{whole:,}" + (f".{decimals:0{places}}" if places else "") + ("" if (value * 10**places).denominator == 1 else "..")


class Quota:
    """A quota as the user writes it: of heads or of weights, at least or more than, a number or a
    share of the total. A number below `least` is refused, because it may be a share."""

    def __init__(self, text: str, least: int = 1) -> None:
        self.text, self.least = text, least
        heads, sign, rest = re.findall(r"^\s*(heads:)?\s*(>=|≥|>)?\s*(.*?)\s*$", text, re.S)[0]
        self.heads, self.more = bool(heads), sign == ">"
        share = re.fullmatch(r"(\d{1,18})\s*/\s*0*([1-9]\d{0,17})", rest, re.A)
        self.share = Fraction(int(share[1]), int(share[2])) if share else None
        self.number = Number(rest)
        if re.search(r"[%\d]\s*\+\s*1$", rest):
            raise Fault(f"the quota {quote(text)}: write '>{rest.partition('+')[0].strip()}' for more than that, or the number of votes", 2)
        if not self.share and (not self.number.values or "/" in self.number.unit):
            raise Fault(f"the quota {quote(text)} is no number, no percentage as 65% or '>50%', and no fraction as 2/3", 2)

    def read_value(self, decimal: Optional[str]) -> tuple[Fraction, bool]:
        """Returns what it says, and whether that is a share of all."""
        if self.share is not None:
            return self.share, True
        if self.number.is_open() and decimal is None:
            raise Fault(f"the quota {quote(self.text)} may have decimals or thousands: say --decimal . or --decimal ,", 2)
        decimal = decimal or self.number.find_decimal() or "."
        if decimal not in self.number.values:
            raise Fault(f"the quota {quote(self.text)} is no number with {quote(decimal)} before its decimals", 2)
        value = self.number.values[decimal]
        if 0 < value < self.least and not self.number.percent:
            # 0.85 votes would let each member win
            share = f"{'heads:' * self.heads}{'>' * self.more}{write_plain(value * 100, count_decimals(value * 100))}%"
            raise Fault(f"the quota {quote(self.text)} is less than 1: write {share if not self.more else quote_for_shell(share)} for a share of all", 2)
        return (value / 100, True) if self.number.percent else (value, False)

    def round_up(self, exact: Fraction) -> int:
        """Returns the least whole number that is at least, or more than, an exact quota."""
        return math.floor(exact) + 1 if self.more else math.ceil(exact)

    def make_whole(self, total: int, scale: int, decimal: Optional[str], whole: Optional[int] = None) -> tuple[int, str]:
        """Returns the quota as a whole number, and how it was found. The weights were multiplied by
        `scale`, and add up to `total`; a share is one of `whole`, if that is another number."""
        value, is_share = self.read_value(decimal)
        whole = total if whole is None else whole
        exact = value * (whole if is_share else scale)
        quota = self.round_up(exact)
        if not 1 <= quota <= total:
            raise Fault(f"the quota {quote(self.text)} comes to {quota:,}, and must be from 1 to {total:,}, the total", 2)
        of = f"{value.numerator}/{value.denominator} of {whole:,}, which is " if is_share else ""
        return quota, f"{'more than' if self.more else 'at least'} {of}{write_plain(exact)}" + ("" if exact == quota else f", so {quota:,}")
