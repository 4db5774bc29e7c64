#!/usr/bin/env python3
"""Random games, worked out three times.

    random_games.py PROGRAM COUNT SEED

makes COUNT games of up to 12 members and COUNT of up to 20, with 1 to 4 rules, from SEED, and as many statutes: of
chambers, heads and members that can veto, as sums count them, wholly or in part; half of those of several rules have
ways. COUNT games of up to 10 members have 1 to 6 ways. Of these and of the first it tries every subset, and compares
the walk and the swings of tests/oracle.py with that, and what PROGRAM prints with --swings and --only-swings with its
report; of all it compares what PROGRAM prints, with any options, workers and bits, with the report of tests/oracle.py,
and likewise what it prints with --tally. Of COUNT more games of up to 24 members, and of 300 games with few kinds of
members, it compares what is printed with --tally and without. Of COUNT / 2 games it compares the lists in every order
of their rules, with their ways in any order. Some lists are longer than the block of 64 KiB that a report goes out by.
Prints a line `ok NAME` or `FAILED NAME: why` for each kind.
"""
import functools
import itertools
import json
import os
import random
import subprocess
import sys
import tempfile
from collections import Counter

sys.path.insert(0, os.path.dirname(os.path.abspath(__file__)))
import oracle  # noqa: E402

# the coalitions and the swings of a game are worked out once
oracle.minimal_coalitions = functools.lru_cache(maxsize=1)(oracle.minimal_coalitions)
oracle.swings_of = functools.lru_cache(maxsize=1)(oracle.swings_of)

NAMES = ["A", "B'", 'the "C"', "Åland", "日本", "d/e", "a name of several words", "x=1", "#", "[q]"]


def weights_of(rng, members):
    """A number of weights, not all of them 0."""
    most = rng.choice([0, 4, 100, 10 ** 12])
    weights = [rng.randrange(most) if most else 1 for _ in range(members)]
    if most == 10 ** 12:
        weights = [rng.choice([0, 1, most, it, it]) for it in weights]
    if not sum(weights):
        weights[0] = 1
    return weights


def quota_of(rng, weights):
    """A quota that can be met: the least, the greatest, half of all, or any."""
    return rng.choice([1, sum(weights), sum(weights) // 2 + 1, rng.randint(1, sum(weights))])


def ways_of(rng, rules):
    """Ways of so many rules, in any order: at times all of one size, or all but one."""
    sets = [it for size in range(1, rules + 1) for it in map(set, itertools.combinations(range(rules), size))]
    while True:
        ways = rng.sample(sets, rng.randint(1, min(6, len(sets))))
        if rng.randrange(3) == 0:
            ways = [it for it in sets if len(it) == len(ways[0])][rng.randrange(2):]
        ways = [way for way in ways if not any(other < way for other in ways)]
        if set().union(*ways) == set(range(rules)):
            return [rng.sample(sorted(way), len(way)) for way in rng.sample(ways, len(ways))]


def named(rng, rules):
    """The game of these rules, with any names, a title or none, and ways or none."""
    names = [f"{rng.choice(NAMES)} {i}" for i in range(len(rules[0][1]))]
    ways = ways_of(rng, len(rules)) if rng.randrange(2) else None
    return oracle.Game(rng.choice([None, "", "A title", "日本"]), names, rules, ways)


def random_game(rng, most_members, numbers=(1, 1, 1, 2, 2, 3, 4)):
    members = rng.randint(1, most_members)
    rules = []
    for _ in range(rng.choice(numbers)):
        weights = weights_of(rng, members)
        rules.append((quota_of(rng, weights), weights))
    return named(rng, rules)


def game_of_ways(rng, most_members):
    """A game of 1 to 4 rules, as often of each number, with ways."""
    game = random_game(rng, most_members, (1, 2, 3, 4))
    game.ways = ways_of(rng, len(game.rules))
    return game


def chamber(rng, members, seats):
    """The rules of a chamber of some members: one by weights, and at times one for heads, or a second by weights."""
    weights = dict(zip(seats, weights_of(rng, len(seats))))
    rules = [[weights.get(i, 0) for i in range(members)]]
    kind = rng.randrange(4)
    if kind == 1:
        # at times some members with a head have no weight, and none has a weight and no head
        each = rng.choice([1, 1, 3, 10 ** 12])
        rules.append([each if i in seats else 0 for i in range(members)])
    elif kind == 2 and len(seats) > 1:
        weights = dict(zip(seats, weights_of(rng, len(seats))))
        rules.append([weights.get(i, 0) for i in range(members)])
    # mostly some third to two thirds: then there are many coalitions
    return [(rng.choice([quota_of(rng, of)] + 3 * [sum(of) * rng.randint(3, 7) // 10 + 1]), of) for of in rules]


def random_statute(rng, most_members):
    """A game of chambers that share no member, in which some can veto, by a rule or by their weight; up to 4 rules, in any order."""
    members = rng.randint(most_members // 2, most_members)
    order = rng.sample(range(members), members)
    cuts = sorted(rng.sample(range(1, members), min(rng.choice([0, 1, 1, 2]), members - 1)))
    rules = []
    for low, high in zip([0, *cuts], [*cuts, members]):
        rules += chamber(rng, members, order[low:high])
    rules = rules[:4]
    if len(rules) < 4 and rng.randrange(4) == 0:
        own = [rng.choice([0, 0, 0, 0, 0, 1, 5]) for _ in range(members)]
        if sum(own):
            rules.append((sum(own), own))
    if rng.randrange(4) == 0:
        # under one rule some member is needed
        at = rng.randrange(len(rules))
        weights = rules[at][1]
        heaviest = max(weights)
        rules[at] = (rng.randint(sum(weights) - heaviest + 1, sum(weights)), weights)
    rng.shuffle(rules)
    return named(rng, rules)


def random_rows(rng):
    """A game of one rule, at times with heads, of up to 24 members, whose weights have little in common: most are
    counted from the sets of two halves."""
    members = rng.choice([1, 2, 3, rng.randint(4, 20), rng.randint(17, 24)])
    weights = [10 ** 12 - rng.choice([0, rng.randrange(10 ** 12), rng.randrange(10 ** 10)]) for _ in range(members)]
    kind = rng.randrange(4)
    if kind == 0:
        # ties
        weights = [weights[i - i % 2] for i in range(members)]
    elif kind == 1:
        weights = [rng.choice([0, it]) for it in weights[1:]] + weights[:1]
    quota = quota_of(rng, weights)
    if kind == 2 and members > 1:
        # no set of the heavy half can be completed by the light one
        weights = [10 ** 12] * (members // 2) + [rng.randrange(10 ** 10) for _ in range(members - members // 2)]
        quota = 10 ** 12
    rules = [(quota, weights)]
    if rng.randrange(4) == 0:
        rules.insert(rng.randrange(2), (rng.randint(1, 3 * members), [3] * members))
    return named(rng, rules)


def few_kinds(rng):
    """A game of two to four rules and up to 24 members, many of whom have the same weights under every rule."""
    kinds = [[rng.randrange(6) for _ in range(rng.randint(2, 4))] for _ in range(1)]
    kinds += [[rng.randrange(6) for _ in kinds[0]] for _ in range(rng.randint(0, 3))]
    kinds[0] = [weight + 1 for weight in kinds[0]]
    members = [kinds[0]] + [rng.choice(kinds) for _ in range(rng.randint(3, 23))]
    rng.shuffle(members)
    columns = list(zip(*members))
    return named(rng, [(quota_of(rng, of), list(of)) for of in columns])


def file_of(game):
    lines = [] if game.title is None else [f"title = {json.dumps(game.title, ensure_ascii=False)}"]
    one = len(game.rules) == 1
    quotas = [quota for quota, _ in game.rules]
    lines.append(f"quota = {quotas[0]}" if one else f"quotas = {quotas}")
    if game.ways != [[*range(len(quotas))]]:
        lines.append(f"ways = {[[r + 1 for r in way] for way in game.ways]}")
    for i, name in enumerate(game.names):
        weights = [of[i] for _, of in game.rules]
        lines += ["[[member]]", f"name = {json.dumps(name, ensure_ascii=False)}"]
        lines.append(f"weight = {weights[0]}" if one else f"weights = {weights}")
    return "".join(f"{line}\n" for line in lines).encode()


def by_every_subset(game):
    """The minimal winning coalitions as sorted lists of ranks, how many coalitions win, and each
    member's swings by size, from all subsets."""
    members = len(game.names)
    weights = [[of[i] for i in game.ranked] for _, of in game.rules]

    def wins(mask):
        met = {r for r, of in enumerate(weights)
               if sum(of[p] for p in range(members) if mask >> (members - 1 - p) & 1) >= game.rules[r][0]}
        return any(met.issuperset(way) for way in game.ways)

    winning = [wins(mask) for mask in range(2 ** members)]
    found, swings = [], [[0] * (members + 1) for _ in range(members)]
    for mask in reversed(range(2 ** members)):
        inside = [p for p in range(members) if mask >> (members - 1 - p) & 1]
        critical = [p for p in inside if winning[mask] and not winning[mask - (1 << (members - 1 - p))]]
        for p in critical:
            swings[game.ranked[p]][len(inside)] += 1
        if winning[mask] and critical == inside:
            found.append(tuple(inside))
    return found, (sum(winning), swings)


def printed(program, file, words):
    made = subprocess.run([program, *words, file], stdin=subprocess.DEVNULL, capture_output=True, timeout=int(os.environ.get("SECONDS_EACH", 60)))
    if made.returncode or made.stderr:
        return f"status {made.returncode}: {made.stderr[:80]!r}".encode()
    return made.stdout


def report(game, flags):
    """What oracle.py prints of a game under these options."""
    return "".join(f"{line}\n" for line in oracle.report(game, *(flag in flags for flag in oracle.FLAGS))).encode()


def threads(rng):
    return ["--workers", str(rng.randrange(1, 17)), "--bits", str(rng.randrange(11))]


class Comparison:
    """What PROGRAM prints of games, compared with what it must print, by the kind of the game."""

    def __init__(self, program, rng, room):
        self.program, self.rng, self.file = program, rng, f"{room}/game"
        self.done, self.faults = Counter(), {}

    def compare(self, kind, name, got, wanted):
        self.done[kind] += 1
        if got != wanted:
            self.faults.setdefault(kind, []).append(name)

    def write(self, game):
        with open(self.file, "wb") as it:
            it.write(file_of(game))

    def print(self, *words):
        """What PROGRAM prints of the game that was written, with any workers and bits."""
        return printed(self.program, self.file, [*words, *threads(self.rng)])

    def compare_swings(self, kind, name, game):
        """One small game by every subset, and the report of its swings alone."""
        found = oracle.minimal_coalitions(game), oracle.swings_of(game)
        self.compare(f"oracle.py{kind}, by every subset", name, found, by_every_subset(game))
        only = ["--only-swings", "--notation"][: self.rng.randint(1, 2)]
        self.compare(f"--only-swings{kind}", name, self.print(*only), report(game, only))

    def compare_ways(self, name):
        """One game of ways, by every subset, and its reports."""
        game = game_of_ways(self.rng, 10)
        self.write(game)
        self.compare_swings(" of ways", name, game)
        flags = ["--list", *(it for it in ("--sizes", "--notation", "--swings") if self.rng.randrange(2))]
        for word in "--list", "--tally":
            chosen = [word, *flags[1:]]
            self.compare(f"{word} of ways", name, self.print(*chosen), report(game, chosen))

    def compare_reports(self, name, is_small, is_statute):
        """One game, by every subset if it is small, and its reports."""
        rng, make = self.rng, random_statute if is_statute else random_game
        game = make(rng, 12 if is_small else 18 if is_statute else 20)
        self.write(game)
        flags = ["--list", "--sizes", "--notation"]
        if is_small:
            self.compare_swings("", name, game)
            flags.append("--swings")
        flags = [it for it in flags if rng.randrange(2)]
        if not is_statute:
            self.compare("reports", name, self.print(*flags), report(game, flags))
        flags = [it for it in flags if it != "--list"]
        kind = "--tally of statutes" if is_statute else "--tally"
        self.compare(kind, name, self.print("--tally", *flags), report(game, flags))

    def compare_tally_and_run(self, kind, name, game):
        self.write(game)
        self.compare(f"--tally of {kind}, and a run", name, self.print("--tally", "--sizes"), self.print("--most", "4000000", "--sizes"))

    def compare_orders(self, name, make):
        """Each order of the rules of one game."""
        game = make(self.rng, 16)
        for order in itertools.permutations(range(len(game.rules))):
            ways = [[order.index(r) for r in way] for way in self.rng.sample(game.ways, len(game.ways))]
            other = oracle.Game(game.title, game.names, [game.rules[r] for r in order], ways)
            self.write(other)
            self.compare("every order of the rules", name, self.print("--list"), report(other, ["--list"]))

    def compare_long_list(self, rules):
        weights = [[self.rng.randrange(1, 30) for _ in range(16)] for _ in range(rules)]
        game = oracle.Game(None, [f"a long name, number {i}" for i in range(16)], [(sum(of) // 2 + 1, of) for of in weights])
        self.write(game)
        wanted = report(game, ["--list"])
        assert len(wanted) > 3 * 65536
        self.compare("reports of more than 64 KiB", f"{rules} rules", self.print("--list"), wanted)


def main(words):
    if len(words) != 3:
        sys.exit("usage: random_games.py PROGRAM COUNT SEED")
    count, rng = int(words[1]), random.Random(int(words[2]))
    with tempfile.TemporaryDirectory() as room:
        comparison = Comparison(os.path.abspath(words[0]), rng, room)
        for number in range(4 * count):
            comparison.compare_reports(f"game {number} of seed {words[2]}", number < 2 * count, number % 2 == 1)
        for number in range(count):
            comparison.compare_ways(f"game {number}")
        for number in range(count):
            comparison.compare_tally_and_run("weights with little in common", f"game {number}", random_rows(rng))
        for number in range(max(count, 300)):
            comparison.compare_tally_and_run("members of few kinds", f"game {number}", few_kinds(rng))
        for number in range(count // 2):
            comparison.compare_orders(f"game {number}", random_statute if number % 2 else random_game)
        for rules in 1, 2, 4:
            comparison.compare_long_list(rules)
    for kind, done in comparison.done.items():
        names = comparison.faults.get(kind)
        if names:
            print(f"FAILED random games, {kind}: {len(names)} of {done} differ, the first is {names[0]}")
        else:
            print(f"ok random games, {kind}: {done}")
    return 1 if comparison.faults else 0


if __name__ == "__main__":
    sys.exit(main(sys.argv[1:]))
