"""Calls as users write them, which mypy --strict accepts (tests/packages.sh)."""
from __future__ import annotations

from fractions import Fraction
from pathlib import Path

import numpy

import council

votes, heads = numpy.array([50, 49, 1]), [1, 1, 1]
made: list[council.Report] = [
    council.report(51, votes), council.report(numpy.int64(51), votes.tolist(), names="ABC"), council.report([5, 3], numpy.array([[3, 1], [2, 1]]), by="member"),
    council.report(51, {"A": 50, "B": 49, "C": 1}), council.report([51, 2], {"A": [50, 1], "B": (49, 1)}), council.report(Fraction(51), [Fraction(50), Fraction(49)]),
    council.report("game.toml", swings=True), council.report(Path("game.toml")), council.report(file=Path("game.toml"), coalitions=True),
    *(it for quota, it in council.Game([51, 2], [votes, heads], "ABC", [[1], [2]]).sweep(quota := 50, step=2)), council.Game(51, votes).report(only_swings=True),
]
powers: list[float] = [it.power_to_prevent for report in made for it in report] + [made[0]["A"].banzhaf, made[0][0].penrose, made[0].power_to_act]
exact: list[Fraction] = [made[0]["A"].power_to_prevent_exact, made[0].power_to_act_exact]
masks = [mask for report in made for mask in (report.coalitions.masks if report.coalitions else ())]
