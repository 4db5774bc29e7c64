"""Power indices of weighted voting games, computed by the verified program council.

    >>> import council
    >>> report = council.report(51, {"A": 50, "B": 49, "C": 1})
    >>> report.minimal
    2
    >>> report["A"].public_good_exact
    Fraction(1, 2)
    >>> report.to_frame()  # doctest: +SKIP

A game that council refuses raises `Refused`, which says what is wrong and where.
"""
from __future__ import annotations

import os
import warnings
from typing import Iterable, Iterator, Optional, Union

from .engine import Refused, TooMany, check, compute, compute_numbers
from .finding import NotFound, find_library
from .game import GAME_FILE, describe_low_quotas, find_slips
from .library import GAME
from .members import Coalition, Coalitions, Member
from .reports import MOST, Report
from .shapes import Parts, Path, Quota, Weights, read_parts
from .ways import Ways

__all__ = ["Coalition", "Coalitions", "Game", "Member", "NotFound", "Refused", "Report", "TooMany", "format_game_file", "report"]
__version__ = "1.2.0"


def report(
    quota: Union[Quota, Path, None] = None,
    weights: Optional[Weights] = None,
    *,
    names: Optional[Iterable[object]] = None,
    title: str = "",
    by: Optional[str] = None,
    ways: Optional[Ways] = None,
    file: Optional[Path] = None,
    game: Union[str, bytes, None] = None,
    coalitions: bool = False,
    most: int = MOST,
    swings: bool = False,
    only_swings: bool = False,
) -> Report:
    """Returns the indices of each member of a game.

    Give the game in one of three ways:

    - a quota and the weights: `report(51, {"A": 50, "B": 49, "C": 1})`, or a list of weights and
      names: `report(51, [50, 49, 1], names="ABC")`. For several rules, up to four, give a list of
      quotas, and for each a list of weights: `report([5, 3], [[3, 2, 2, 1], [1, 1, 1, 1]])`. A
      list for each member, or an array, is taken too if it can be told apart; of a square table
      `by="rule"` or `by="member"` says which it is. A DataFrame has a row for each member, a dict
      a list for each, or by `by="rule"` one for each rule. Without names, members have those of
      its index or of a Series, if these are texts; else 1, 2, .. A coalition wins if it meets all
      rules; `ways` joins rules by "or", up to six lists of rules counted from 1: by `ways=[[1,
      2], [3]]` it wins if it meets rules 1 and 2, or rule 3.
    - the path of a game file: `report("eu.toml")` or `report(file="eu.toml")`.
    - `game`: the text of a game file, or a text such as "[51; 50, 49, 1]".

    With `coalitions=True` the report has all minimal winning coalitions, and makes each when you
    ask for it; a game with more than `most` of them raises `TooMany`; `most` is at most 4,000,000.
    Without it, they are counted, however many there are.

    The indices are those of Deegan and Packel and of Holler. With `swings=True` each member also has
    its number of swings and the indices that rest on them: Banzhaf's, Penrose's measure, that of
    Shapley and Shubik, and Coleman's powers. With `only_swings=True` it has only these.

    A game in which two coalitions without a common member could both win, and a bracket text whose
    commas seem to separate thousands, are warned of.

    Raises:
        Refused: council refuses the game, for example because a weight has decimals.
        NotFound: neither the library nor the program was found.
        OSError: the file cannot be read.
        TypeError, ValueError: the values have another shape.
    """
    if isinstance(quota, (str, os.PathLike)) and weights is None and file is None and game is None:
        quota, file = None, quota
    given = [quota is not None or weights is not None, file is not None, game is not None]
    if sum(given) != 1:
        raise TypeError("give a quota and weights, or a file, or a game")
    only = choose_columns(coalitions, most, swings, only_swings)
    if given[0]:
        made, text = compute_parts(read_parts(quota, weights, names, by, title, ways), coalitions, most, only), ""
    else:
        if names is not None or title or by is not None or ways is not None:
            raise TypeError("names, a title, by= and ways= belong to a quota and weights")
        if file is not None:
            with open(file, "rb") as source:
                # (no more of it than shows that it is too long)
                game = source.read(GAME_FILE + 1)
        data = game if isinstance(game, bytes) else str(game).encode("utf-8", "surrogatepass")
        made, text = compute(data, listed=coalitions, most=most, only=only), data.decode()
    warn(made, text)
    return made


class Game:
    """A game of a quota and weights, which you give as to `report`. It is checked once.

    >>> game = Game(51, {"A": 50, "B": 49, "C": 1})
    >>> game.report(swings=True)["A"].penrose
    0.75
    >>> [(quota, report.minimal) for quota, report in game.sweep(first=99)]
    [(99, 1), (100, 1)]
    """

    def __init__(self, quotas: Quota, weights: Weights, names: Optional[Iterable[object]] = None, ways: Optional[Ways] = None, *, title: str = "", by: Optional[str] = None):
        self._parts = read_parts(quotas, weights, names, by, title, ways)
        try:
            check(self.to_toml().encode())
        except Refused as fault:
            raise explain(fault, self._parts) from None
        self.title, self.names, self.quotas = title, tuple(self._parts.names), tuple(map(int, self._parts.quotas))
        # the weights of each member, under each rule, and the rules of each way
        self.weights = tuple(zip(*(map(int, its) for its in self._parts.columns)))
        self.ways = [list(it) for it in self._parts.ways or [range(1, len(self.quotas) + 1)]]

    def report(self, *, coalitions: bool = False, most: int = MOST, swings: bool = False, only_swings: bool = False) -> Report:
        """Returns the report of the game, as the function `report` does."""
        made = compute_parts(self._parts, coalitions, most, choose_columns(coalitions, most, swings, only_swings))
        warn(made, "")
        return made

    def sweep(self, first: int = 1, last: Optional[int] = None, step: int = 1, *, rule: int = 1, swings: bool = False, only_swings: bool = False) -> Iterator[tuple[int, Report]]:
        """Yields quotas of a rule, by default all up to the total of its weights, each with the report
        of the game that has it. It warns of none."""
        only = choose_columns(False, MOST, swings, only_swings)
        if not 1 <= rule <= len(self.quotas):
            raise ValueError(f"there is no rule {rule}: the game has {len(self.quotas)}")
        total = sum(it[rule - 1] for it in self.weights)
        for quota in range(first, (total if last is None else last) + 1, step):
            quotas = [*self._parts.quotas[: rule - 1], str(quota), *self._parts.quotas[rule:]]
            yield quota, compute_parts(self._parts._replace(quotas=quotas), False, MOST, only)

    def to_toml(self) -> str:
        """Returns the text of the game file."""
        return self._parts.to_toml()

    def __eq__(self, other: object) -> bool:
        return isinstance(other, Game) and self._parts == other._parts

    def __hash__(self) -> int:
        return hash((self.title, self.names, self.quotas, self.weights))

    def __repr__(self) -> str:
        return f"<council.Game: {len(self.names)} members, quota {'/'.join(map(str, self.quotas))}>"


def choose_columns(coalitions: bool, most: int, swings: bool, only_swings: bool) -> Optional[bool]:
    """Returns whether only swings are asked for, and None if none are."""
    if not 1 <= most <= MOST:
        raise ValueError(f"most is from 1 to {MOST:,}")
    if only_swings and (swings or coalitions):
        raise ValueError("only_swings=True goes without swings=True and coalitions=True")
    return bool(only_swings) if swings or only_swings else None


def warn(made: Report, text: str) -> None:
    """Warns the caller of a call of what is hardly meant."""
    low = describe_low_quotas(made.quotas, made.totals, made.ways)
    for it in (find_slips(text) if text else []) + [it for it in low if it.endswith("could win")]:
        warnings.warn(it, stacklevel=3)


def compute_parts(parts: Parts, listed: bool, most: int, only: Optional[bool]) -> Report:
    """Returns the report of a game from its parts: by the library, if it takes them as numbers."""
    library = find_library()
    try:
        if library and not only and parts.is_plain():
            quotas, columns = list(map(int, parts.quotas)), [list(map(int, its)) for its in parts.columns]
            return compute_numbers(library, parts.title, parts.names, quotas, columns, parts.ways, only is not None, most if listed else 0)
        return compute(parts.to_toml().encode(), listed=listed, most=most, only=only, explained=False)
    except Refused as fault:
        raise explain(fault, parts) from None


def explain(fault: Refused, parts: Parts) -> Refused:
    """Returns a refusal in words of its own: values that were never a file have no lines."""
    told, rule = parts.find_fault() if fault.status == GAME else (fault.explanation, None)
    return type(fault)(fault.status, fault.fault, told, parts.to_toml(), fault.rule or rule)


def format_game_file(quota: Quota, weights: Weights, *, names: Optional[Iterable[object]] = None, title: str = "", by: Optional[str] = None, ways: Optional[Ways] = None) -> str:
    """Returns the text of the game file of a quota and weights, as `report` takes them."""
    return read_parts(quota, weights, names, by, title, ways).to_toml()
