"""The members of a game with their indices, and its coalitions."""
from __future__ import annotations

import operator
from fractions import Fraction
from typing import TYPE_CHECKING, Any, Iterable, NamedTuple, Sequence

from .columns import SWINGS, Group
from .decimals import read_index, read_numbers

# the most coalitions of a `repr`
SHOWN = 10


class Member(tuple[Any, ...]):
    """A member of a game, as a named tuple of the columns that its report has.

    With several rules it has weight_1, weight_2, .. instead of `weight`; `weights` has all of them.
    `coalitions` is the number of minimal winning coalitions with this member, and `swings` the
    number of winning coalitions that lose without it. An index is the double nearest to the exact
    one, whose name ends with `_exact`. Coleman's power to prevent action is the share of the winning
    coalitions that lose without the member, and that to initiate it the share of the losing ones
    that win with it.
    """

    _fields: tuple[str, ...]
    name: str
    weight: int
    weights: tuple[int, ...]
    coalitions: int
    deegan_packel: float
    public_good: float
    deegan_packel_exact: Fraction
    public_good_exact: Fraction
    swings: int
    banzhaf: float
    penrose: float
    shapley_shubik: float
    power_to_prevent: float
    power_to_initiate: float
    banzhaf_exact: Fraction
    penrose_exact: Fraction
    shapley_shubik_exact: Fraction
    power_to_prevent_exact: Fraction
    power_to_initiate_exact: Fraction

    def _asdict(self) -> dict[str, Any]:
        """Returns the columns by their names."""
        return dict(zip(self._fields, self))

    def __repr__(self) -> str:
        return f"Member({', '.join(f'{key}={value!r}' for key, value in self._asdict().items())})"

    if not TYPE_CHECKING:

        def __getattr__(self, name: str) -> Any:
            raise AttributeError(f"the report has no {name}" + (": ask for swings=True" if name in SWINGS.columns() else ""))


def name_columns(groups: Iterable[Group], rules: int) -> tuple[str, ...]:
    """Returns the names of the columns of a report with these groups and this number of rules."""
    weights = [f"weight_{at}" for at in range(1, rules + 1)] if rules > 1 else ["weight"]
    return ("name", *weights, *(name for it in groups for name in it.columns()))


def make_member(columns: tuple[str, ...], name: str, weights: tuple[int, ...], values: Iterable[tuple[int, list[Fraction]]]) -> Member:
    """Returns the member with these weights, and for each group this number and these indices."""
    cells: list[Any] = [name, *weights]
    for number, exact in values:
        cells += [number, *[it.numerator / it.denominator for it in exact], *exact]
    made = Member(cells)
    made.__dict__.update(zip(columns, cells), weights=weights, _fields=columns)
    return made


def read_member(groups: Sequence[Group], name: str, weights: str, *fields: str) -> Member:
    """Reads the fields of a line `member` with these groups of columns, and passes over others."""
    rest, numbers = iter(fields), read_numbers(weights)
    values = [(int(next(rest)), [read_index(next(rest), next(rest)) for _ in it.indices]) for it in groups]
    return make_member(name_columns(groups, len(numbers)), name, numbers, values)


class Coalition(NamedTuple):
    """A minimal winning coalition: the names of its members, and its weight under each rule."""

    members: tuple[str, ...]
    weights: tuple[int, ...]


class Coalitions(Sequence[Coalition]):
    """The minimal winning coalitions of a report, each made when somebody asks for it. `masks` has a
    number for each: its binary digit i is 1 if member i is in, counted from 0."""

    def __init__(self, members: Sequence[Member], its: Sequence[Any]):
        # (each is a mask, or a line of a report)
        self._members, self._its = members, its
        ranked = sorted(((1 << at, it.name, it.weights) for at, it in enumerate(members)), key=lambda it: -it[2][0])
        self._ranked = ranked

    @property
    def masks(self) -> Sequence[int]:
        places = {name: digit for digit, name, _ in self._ranked}
        return [it if isinstance(it, int) else sum(places[name] for name in read_coalition(it).members) for it in self._its]

    def _make(self, it: Any) -> Coalition:
        if isinstance(it, str):
            return read_coalition(it)
        _, names, weights = zip(*[of for of in self._ranked if of[0] & it])
        return Coalition(names, tuple(map(sum, zip(*weights))))

    def __len__(self) -> int:
        return len(self._its)

    def __getitem__(self, at: Any) -> Any:
        return Coalitions(self._members, self._its[at]) if isinstance(at, slice) else self._make(self._its[at])

    def __eq__(self, other: object) -> bool:
        return isinstance(other, Sequence) and len(self) == len(other) and all(map(operator.eq, self, other))

    def __repr__(self) -> str:
        shown = ", ".join(map(repr, self[:SHOWN]))
        return f"[{shown}, ..]  # {len(self):,} coalitions" if len(self) > SHOWN else f"[{shown}]"


def read_coalition(line: str) -> Coalition:
    """Reads a line `coalition`."""
    _, size, weights, *names = line.rstrip("\r\n").split("\t")
    if size != str(len(names)):
        raise ValueError(size)
    return Coalition(tuple(names), read_numbers(weights))
