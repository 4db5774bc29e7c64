"""A report of council: the members of a game with their indices, and its coalitions. It is made of
numbers, or read from the text that the program prints."""
from __future__ import annotations

import functools
import importlib
import io
from contextlib import suppress
from fractions import Fraction
from typing import Any, Callable, Iterable, Iterator, Optional, Sequence, TypeVar, Union

from .columns import GROUPS, MINIMAL, SWINGS, Group
from .decimals import read_index, read_numbers, write_fraction
from .members import Coalition, Coalitions, Member, read_coalition, read_member
from .ways import Ways, read_ways

# the most coalitions that a report lists, the characters that one of its lines may have, and those
# of a title in a `repr`
MOST, LINE, TITLE = 4_000_000, 1 << 16, 60

R = TypeVar("R", bound="Report")


class Fault(Exception):
    """A message of one line for the user, and the status with which a tool ends."""

    def __init__(self, text: object, status: int = 1):
        super().__init__(text)
        self.status = status


class Report:
    """A report of the indices of a game.

    `title` is a text, `quotas` and `totals` have a number for each rule, `ways` has the rules of each
    way to win, counted from 1, `minimal` is the number of minimal winning coalitions, `winning` that
    of all winning coalitions, and `members` are in the order of the game. `coalitions` has the
    minimal ones. What was not asked for is None. With swings there are `power_to_act` and
    `power_to_act_exact`, Coleman's power of the body: the share of all coalitions that win.

    The report has the members in it: `report["A"]` or `report[0]` is one, `len(report)` their number,
    and `for` goes over them. Two reports are equal if they are of the same game and have the same
    numbers, whether or not they list coalitions.
    """

    power_to_act: float
    power_to_act_exact: Fraction

    def __init__(self, title: str, quotas: Sequence[int], counts: dict[Group, int], members: Sequence[Member], listed: int = 0, ways: Ways = (), act: Optional[Fraction] = None):
        self.title, self.quotas, self.members = title, tuple(quotas), list(members)
        self.totals: tuple[int, ...] = tuple(map(sum, zip(*(it.weights for it in members))))
        self.ways = [list(it) for it in ways or [range(1, len(self.quotas) + 1)]]
        # the groups of columns and the indices that it has
        self.groups = list(counts)
        self.indices = [index for it in counts for index in it.indices]
        self.minimal, self.winning = counts.get(MINIMAL), counts.get(SWINGS)
        if act is not None:
            self.power_to_act, self.power_to_act_exact = float(act), act
        self.coalitions: Optional[Coalitions] = None
        # how many coalitions a text lists
        self.listed = listed

    @classmethod
    def read(cls: type[R], lines: Iterable[str], take: Optional[Callable[[Coalition], object]] = None) -> R:
        """Returns the report that lines have. A name may hold quotes, so fields are split at TABs and
        nothing else. What is no report is a Fault. A report can list millions of coalitions: `take`
        is called with one after the other, and the report keeps none."""
        one: dict[str, str] = {}
        act: Optional[Fraction] = None
        members: list[Member] = []
        listed = 0
        # (of a line without end, as much as shows that it is none)
        if isinstance(lines, io.TextIOBase):
            lines = iter(functools.partial(lines.readline, LINE), "")
        for at, line in enumerate(lines, 1):
            kind, *fields = line.rstrip("\r\n").split("\t")
            try:
                if kind == "coalition" and listed < MOST:
                    it, listed = read_coalition(line), listed + 1
                    if take:
                        take(it)
                elif kind == "member" and len(members) < 40:
                    members.append(read_member([it for it in GROUPS if it.line in one], *fields))
                elif kind == "act":
                    act = read_index(*fields)
                elif kind in ("title", "members", "quota", "total", "ways", *(it.line for it in GROUPS)):
                    (one[kind],) = fields
                elif kind not in ("notation", "size"):
                    raise ValueError(kind)
            except (ArithmeticError, StopIteration, TypeError, ValueError):
                raise Fault(f"line {at} is no line of a report of council") from None
        with suppress(ArithmeticError, AttributeError, KeyError, ValueError):
            counts = {it: int(one[it.line]) for it in GROUPS if it.line in one}
            quotas = read_numbers(one["quota"])
            ways: Ways = read_ways(one["ways"], len(quotas)) if "ways" in one else ()
            made = cls(one.get("title", ""), quotas, counts, members, listed, ways, act)
            is_whole = int(one["members"]) == len(members) and read_numbers(one["total"]) == made.totals and listed <= counts.get(MINIMAL, 0)
            is_whole = is_whole and (act is None) == (SWINGS not in counts)
            if counts and is_whole and all(len(it.weights) == len(made.quotas) and hasattr(it, group.column) for it in members for group in counts):
                return made
        raise Fault("the report is not whole, or its numbers are not those of council" if one or members else "there is no report: nothing was read (was the game refused?)")

    @classmethod
    def from_text(cls, text: str) -> Report:
        """Returns the report in a text of council, with the coalitions that it lists."""
        first, last = text.find("\ncoalition\t") + 1, text.find("\n", text.rfind("\ncoalition\t") + 1)
        made = cls.read(io.StringIO(text[:first] + text[last + 1 :] if first else text))
        if first:
            made.coalitions = Coalitions(made.members, text[first:last].split("\n"))
        return made

    def rows(self) -> list[dict[str, Any]]:
        """Returns a row for each member, with the columns of `council-tools export` as JSON can have
        them: a fraction is a text, as "5/24"."""
        return [{name: write_fraction(cell) if isinstance(cell, Fraction) else cell for name, cell in it._asdict().items()} for it in self.members]

    def to_frame(self) -> Any:
        """Returns the members as a DataFrame of pandas, which must be installed."""
        return importlib.import_module("pandas").DataFrame(self.members)

    def __len__(self) -> int:
        return len(self.members)

    def __iter__(self) -> Iterator[Member]:
        return iter(self.members)

    def __getitem__(self, which: Union[str, int]) -> Member:
        if not isinstance(which, str):
            return self.members[which]
        found = next((it for it in self.members if it.name == which), None)
        if found is None:
            raise KeyError(which)
        return found

    def __contains__(self, which: object) -> bool:
        return any(which in (it, it.name) for it in self.members)

    def _key(self) -> tuple[Any, ...]:
        return self.title, self.quotas, self.sort_ways(), self.minimal, self.winning, self.members

    def __eq__(self, other: object) -> bool:
        return isinstance(other, Report) and self._key() == other._key()

    def __hash__(self) -> int:
        return hash((self.title, self.quotas, *self.members))

    def _repr_html_(self) -> str:
        """Returns the table of `council-tools page`, for a notebook."""
        from .tools.page import write_plain_table

        return "".join(write_plain_table(self))

    def count_coalitions(self) -> list[tuple[str, int]]:
        """Returns of which coalitions the report has the number, and these numbers."""
        return [(it.what, getattr(self, it.line)) for it in self.groups]

    def sort_ways(self) -> list[list[int]]:
        """Returns the ways in an order that is the same for all reports by the same ways."""
        return sorted(sorted(it) for it in self.ways)

    def heading(self) -> str:
        """Returns the heading of a table or a picture: the title, unless it is blank."""
        return self.title if self.title.strip() else "A game"

    def share(self, member: Member, rule: int = 0) -> Fraction:
        """Returns a member's share of the weights of a rule."""
        return Fraction(member.weights[rule], self.totals[rule])

    def __repr__(self) -> str:
        numbers = ", ".join(f"{number:,} {what}" for what, number in self.count_coalitions())
        title = self.heading() if len(self.heading()) <= TITLE else self.heading()[: TITLE - 2] + ".."
        return f"<council.Report {title!r}: {len(self.members)} members, {numbers}>"
