"""Reads and writes numbers as a report has them."""
from __future__ import annotations

import functools
import math
from fractions import Fraction


@functools.lru_cache
def read_numbers(text: str) -> tuple[int, ...]:
    """Reads a field that has one number for each rule, with / between them."""
    return tuple(map(int, text.split("/")))


def read_index(fraction: str, decimals: str) -> Fraction:
    """Reads an index from its two fields, which must agree."""
    top, bottom = map(int, fraction.split("/"))
    value = Fraction(top, bottom)
    if cut_off(value) != decimals:
        raise ValueError(decimals)
    return value


def write_fraction(value: Fraction) -> str:
    """Writes a fraction as a report has it: 0 is 0/1."""
    return f"{value.numerator}/{value.denominator}"


def cut_off(value: Fraction, places: int = 6) -> str:
    """Writes a value of at least 0 with this number of decimals, and cuts off the others."""
    digits = str(math.floor(value * 10**places)).rjust(places + 1, "0")
    return digits[:-places] + "." + digits[-places:] if places else digits


def round_half_up(value: Fraction, places: int) -> str:
    """Writes a value of at least 0 with this number of decimals, a half rounded upwards."""
    return cut_off(value + Fraction(1, 2 * 10**places), places)
