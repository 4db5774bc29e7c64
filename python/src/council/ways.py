"""The ways to win by the rules of a game: a coalition wins if it meets all rules of some way."""
from __future__ import annotations

import re
from typing import Sequence

# the rules of each way, counted from 1
Ways = Sequence[Sequence[int]]
# the most ways
WAYS = 6


def find_fault(ways: Ways, rules: int) -> str:
    """Says why ways are none by this number of rules, or nothing."""
    if not 1 <= len(ways) <= WAYS:
        return f"there are {len(ways)} ways, and 1 to {WAYS} are allowed"
    for number, way in enumerate(ways, 1):
        for at, rule in enumerate(way):
            if not 1 <= rule <= rules:
                return f"there is no rule {rule}: there are {rules}, in the order of their quotas"
            if rule in way[:at]:
                return f"rule {rule} is twice in way {number}"
        for other, its in enumerate(ways, 1):
            if number != other and {*its} <= {*way}:
                return f"way {number} has all rules of way {other}: it lets nobody else win"
    left = {*range(1, rules + 1)}.difference(*ways)
    return f"rule {min(left)} is in no way: each rule is in one" if left else ""


def read_ways(text: str, rules: int) -> list[list[int]]:
    """Reads ways as a report has them: 1,2 3. What is no such text is a ValueError that says why."""
    if not re.fullmatch(r"\d(,\d)*( \d(,\d)*)*", text, re.A):
        raise ValueError("write the rules of a way with commas, and a blank between ways, as 1,2 3")
    ways = [[int(it) for it in way.split(",")] for way in text.split(" ")]
    if fault := find_fault(ways, rules):
        raise ValueError(fault)
    return ways


def describe_ways(ways: Ways) -> str:
    """Says how a motion passes: by rules 1 and 2, or by rule 3."""
    texts = [[str(it) for it in way] for way in ways]
    return ", or ".join(f"by rules {', '.join(it[:-1])} and {it[-1]}" if it[1:] else f"by rule {it[0]}" for it in texts)


def find_low(quotas: Sequence[int], totals: Sequence[int], ways: Ways) -> set[int]:
    """Returns the rules of those ways that have only quotas of at most half: two coalitions without
    a common member could win by such a way."""
    low = {rule for rule, (quota, total) in enumerate(zip(quotas, totals), 1) if 2 * quota <= total}
    return {rule for way in ways if low.issuperset(way) for rule in way}
