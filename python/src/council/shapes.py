"""Reads a game from the values that people have: numbers, lists, dicts, arrays and DataFrames."""
from __future__ import annotations

import collections.abc
import numbers
import operator
import os
from decimal import Decimal
from fractions import Fraction
from typing import Any, Iterable, Mapping, NamedTuple, Optional, SupportsFloat, SupportsIndex, Union

from .game import MEMBERS, NAME, RULES, TITLE, WEIGHT, format_game, is_text
from .ways import Ways, find_fault

# (arrays and DataFrames are iterables of anything)
Quota = Union[SupportsIndex, SupportsFloat, Iterable[Any]]
Weights = Union[Mapping[Any, Any], Iterable[Any]]
Path = Union[str, "os.PathLike[str]"]


class Parts(NamedTuple):
    """A game: its numbers are texts, and `columns` are the weights under each rule."""

    title: str
    names: list[str]
    quotas: list[str]
    columns: list[list[str]]
    ways: Optional[Ways]

    def is_plain(self) -> bool:
        """Returns whether all numbers are whole, and a game may have these names, title and ways."""
        texts = [self.quotas, *self.columns]
        is_whole = all(texts) and all(it.isdigit() and len(it) < 20 for its in texts for it in its)
        has_texts = is_text(self.title, TITLE) and all(it and is_text(it, NAME) for it in self.names) and len({*self.names}) == len(self.names)
        return is_whole and has_texts and (self.ways is None or not find_fault(self.ways, len(self.quotas)))

    def to_toml(self) -> str:
        """Returns the text of the game file."""
        return format_game(self.names, self.quotas, zip(*self.columns), self.title, ways=self.ways)

    def find_fault(self) -> tuple[str, Optional[int]]:
        """Says why council refuses the game, in the order of its faults, and of which rule the fault is,
        from 1."""
        rules, members = len(self.quotas), len(self.names)
        of = [f" under rule {it}" if rules > 1 else "" for it in range(1, rules + 1)]
        if not is_text(self.title, TITLE):
            return f"the title {shorten(self.title)} has more than {TITLE} bytes in UTF-8, or a control character", None
        if not 1 <= rules <= RULES:
            return f"there are {rules} quotas, and a game has 1 to {RULES}", None
        for rule, quota in enumerate(self.quotas):
            if not is_whole(quota):
                return f"the quota{of[rule]} is {shorten(quota, '')}: {HOW}", rule + 1
        if self.ways is not None and (told := find_fault(self.ways, rules)):
            return told, None
        if not 1 <= members <= MEMBERS:
            return f"there are {members} members, and a game has 1 to {MEMBERS}: of a parliament, take the parties", None
        for number, it in enumerate(self.names, 1):
            if not it or not is_text(it, NAME):
                return f"the name of member {number}, {shorten(it)}, is empty, has more than {NAME} bytes in UTF-8, or a control character", None
        for number, it in enumerate(self.names, 1):
            if self.names.index(it) + 1 < number:
                return f"members {self.names.index(it) + 1} and {number} are both named {shorten(it)}", None
        for at, name in enumerate(self.names):
            for rule, its in enumerate(self.columns):
                if not is_whole(its[at]):
                    return f"the weight of {shorten(name)}{of[rule]} is {shorten(its[at], '')}: {HOW}", rule + 1
                if not 0 <= Decimal(its[at]) <= WEIGHT:
                    return f"the weight of {shorten(name)}{of[rule]} is {shorten(its[at], '')}, and it may be from 0 to {WEIGHT}", rule + 1
        for rule, its in enumerate(self.columns):
            total = sum(map(int, its))
            if not 1 <= Decimal(self.quotas[rule]) <= total:
                return f"the quota{of[rule]} is {shorten(self.quotas[rule], '')}, and it may be from 1 to the total of the weights, {total}", rule + 1
        return "", None


HOW = "weights and quotas are whole numbers. Of decimals, multiply all of them by the same power of ten, which changes no index"


def is_whole(text: str) -> bool:
    """Returns whether a text is a whole number, also a negative one."""
    return text.lstrip("-").isdigit()


def shorten(value: object, sign: str = "'") -> str:
    """Writes a value for a message, and of a long one the beginning."""
    text = repr(value) if sign else str(value)
    return text if len(text) <= 70 else text[:68] + ".."


def read_parts(quota: Any, weights: Any, names: Optional[Iterable[object]] = None, by: Optional[str] = None, title: str = "", ways: Optional[Ways] = None) -> Parts:
    """Reads a game. What has another shape is a TypeError or a ValueError that says what to give."""
    if quota is None or weights is None:
        raise TypeError("give a quota and weights")
    if by not in (None, "rule", "member"):
        raise ValueError('by is "rule" or "member"')
    if isinstance(weights, collections.abc.Mapping) and by != "rule":
        if names is not None:
            raise TypeError("the keys of the weights are the names: give no others")
        names, weights, by = list(weights), list(weights.values()), "member"
    elif isinstance(weights, collections.abc.Mapping):
        weights = list(weights.values())
    elif hasattr(weights, "columns") and hasattr(weights, "to_numpy"):
        names, by = find_names(weights.columns if by == "rule" else weights.index, names), by or "member"
        weights = weights.to_numpy(dtype=object)
        quota = [quota] if is_number(quota) else quota
    else:
        # (of a Series; the index of a list is a function)
        names = find_names(getattr(weights, "index", None), names)
    quotas, columns = read_table(quota, weights, by)
    members = len(columns[0]) if columns else 0
    called = [write_name(it) for it in names] if names is not None else [str(it) for it in range(1, members + 1)]
    if len(called) != members:
        raise ValueError(f"there are {members} weights, and {len(called)} names")
    return Parts(title, called, quotas, columns, read_ways(ways))


def find_names(index: Any, names: Optional[Iterable[object]]) -> Optional[Iterable[object]]:
    """Returns the names, or else those of an index, if they are texts."""
    own = [] if index is None or callable(index) else list(index)
    return own if names is None and own and all(isinstance(it, str) for it in own) else names


def read_table(quota: Any, weights: Any, by: Optional[str]) -> tuple[list[str], list[list[str]]]:
    """Returns the quotas, and the weights under each rule."""
    if isinstance(quota, (str, bytes)):
        raise TypeError(f"the quota {shorten(quota)} is a text: give a number, or a list of numbers")
    is_one, its = is_number(quota), read_list(weights, "the weights are a list of numbers, or a list of lists, and not")
    given = [quota] if is_one else read_list(quota, "the quotas are a list of numbers, and not")
    quotas = [write_number(it, "the quota" if is_one else f"quota {at}") for at, it in enumerate(given, 1)]
    if (its or is_one) and not any(hasattr(it, "__iter__") and not isinstance(it, (str, bytes)) for it in its):
        if len(quotas) != 1:
            raise ValueError(f"there are {len(quotas)} quotas, and one list of weights: give a list of weights for each quota")
        return quotas, [[write_number(it, f"the weight of member {at}") for at, it in enumerate(its, 1)]]
    table = [[write_number(it, "a weight") for it in read_list(row, "the weights are a list of lists of numbers, and one of these is")] for row in its]
    columns = turn(table, len(quotas), by)
    if len(columns) != len(quotas):
        raise ValueError(f"there are {len(quotas)} quotas, and {len(columns)} lists of weights")
    if any(len(it) != len(columns[0]) for it in columns):
        raise ValueError("the lists of weights are not equally long")
    return quotas, columns


def read_list(value: Any, otherwise: str) -> list[Any]:
    """Returns the values of a list or an array; else says what it is."""
    if isinstance(value, (str, bytes)) or not hasattr(value, "__iter__") and not hasattr(value, "__getitem__"):
        raise TypeError(f"{otherwise} {shorten(value)}")
    return list(value)


def read_ways(ways: Optional[Ways]) -> Optional[Ways]:
    """Returns ways with whole numbers; council says what is wrong with these."""
    try:
        return None if ways is None else [[int(operator.index(rule)) for rule in it] for it in ways]
    except TypeError:
        raise TypeError(f"ways are lists of rules, as [[1, 2], [3]], and not {shorten(ways)}") from None


def turn(table: list[list[str]], rules: int, by: Optional[str]) -> list[list[str]]:
    """Returns the weights by rule. A table that may be by rule or by member is refused."""
    by_member = [list(it) for it in zip(*table)]
    is_by_rule, is_by_member = len(table) == rules, all(len(it) == rules for it in table)
    if by == "member" and not is_by_member:
        wrong = next(it for it in table if len(it) != rules)
        raise ValueError(f'there are {rules} quotas, and a member with {len(wrong)} weights: each member has one for each quota; say by="rule" if each list is a rule')
    if by is None and is_by_rule and is_by_member and table != by_member:
        raise ValueError('the weights are a square table: say by="rule" if each list is a rule, by="member" if each is a member')
    return by_member if by == "member" or (by is None and is_by_member and not is_by_rule) else table


def is_number(value: Any) -> bool:
    """Returns whether a value is one number, and not a list or an array of them."""
    if isinstance(value, (int, float, numbers.Real, Decimal)):
        return True
    try:
        operator.index(value)
    except TypeError:
        return False
    return True


def write_number(value: Any, what: str) -> str:
    """Writes a quota or a weight. A whole number stays exact, of whatever type it is, and what is
    one but for 10^-9, as 0.29 * 100, is that. Any other is written with its decimals, and council
    refuses it."""
    if type(value) is int and -WEIGHT <= value <= WEIGHT:
        return str(value)
    # (`str` refuses more than 4,300 digits of an int, but not of a Decimal)
    try:
        return str(Decimal(operator.index(value)))
    except TypeError:
        if not is_number(value):
            raise TypeError(f"{what} is {shorten(value)}, which is no number") from None
    try:
        whole = round(value)
    except OverflowError:
        return repr(float(value))
    except ValueError:
        return "nan"
    exact = Fraction(value if isinstance(value, (numbers.Rational, Decimal)) else float(value))
    return str(Decimal(whole)) if abs(exact - whole) <= Fraction(1, 10**9) else repr(float(value))


def write_name(value: Any) -> str:
    """Writes a name, which is a text or a whole number."""
    if isinstance(value, str):
        return str(value)
    try:
        return str(int(operator.index(value)))
    except TypeError:
        raise TypeError(f"{shorten(value)} is no name: names are texts or whole numbers") from None
