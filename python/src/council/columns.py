"""The columns that a report has for each member. The reader of reports and all tools share them."""
from __future__ import annotations

from fractions import Fraction
from typing import TYPE_CHECKING, NamedTuple, Optional, Sequence

if TYPE_CHECKING:
    from .members import Member


class Index(NamedTuple):
    """An index: its name in files, in headings, in a legend and in brief, and its colors on white
    and on dark ground."""

    name: str
    title: str
    legend: str
    brief: str
    light: str
    dark: str
    def find(self, member: Member) -> Fraction:
        """Returns the exact index of a member."""
        value: Fraction = getattr(member, self.name + "_exact")
        return value

    def word(self) -> str:
        """Returns its name on a command line."""
        return self.name.replace("_", "-")


class Group(NamedTuple):
    """Indices that rest on the same coalitions: the line that has the number of these, what they
    are, the column that has the number of a member's, the heading of that, and the indices."""

    line: str
    what: str
    column: str
    title: str
    indices: tuple[Index, ...]

    def columns(self, indices: Optional[Sequence[Index]] = None) -> list[str]:
        """Returns the names of the columns, or of those for these indices, with exact values last."""
        names = [it.name for it in self.indices if indices is None or it in indices]
        return [self.column, *names, *(f"{it}_exact" for it in names)] if names else []


MINIMAL = Group("minimal", "minimal winning coalitions", "coalitions", "Coalitions", (
    Index("deegan_packel", "Deegan-Packel", "Deegan-Packel index", "DP", "#33557f", "#6f9fe0"),
    Index("public_good", "Public good", "public good index", "PG", "#c06a2b", "#ee9a57"),
))
SWINGS = Group("winning", "winning coalitions", "swings", "Swings", (
    Index("banzhaf", "Banzhaf", "Banzhaf index", "Bz", "#a8264d", "#f0577f"),
    Index("penrose", "Penrose", "Penrose's measure (not a share)", "Pm", "#3b3bc0", "#7a7aff"),
    Index("shapley_shubik", "Shapley-Shubik", "Shapley-Shubik index", "SS", "#1a7f94", "#45c4d8"),
    Index("power_to_prevent", "Coleman, to prevent", "Coleman's power to prevent (not a share)", "CP", "#6b7a1f", "#a9b83e"),
    Index("power_to_initiate", "Coleman, to initiate", "Coleman's power to initiate (not a share)", "CI", "#7a4a2a", "#c08a60"),
))
GROUPS = [MINIMAL, SWINGS]
INDICES = [index for it in GROUPS for index in it.indices]
