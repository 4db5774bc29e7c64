#!/usr/bin/env python3
"""The report of a game, worked out a second time and apart from the program.

    oracle.py FILE [--list] [--sizes] [--notation] [--polynomials] [--swings | --only-swings]

prints the report that `council` must print for FILE, which is the notation [q; w1, .., wn] or a game
file of the plain form that examples/ has: a key and its value on a line, each value as JSON writes
it, and one [[member]] header for each member. It checks nothing else: it is for files that are
right. Plain Python 3, whole numbers and exact fractions alone.

It enumerates the coalitions. With --polynomials it lists none: it counts those of a game of one rule, or of two
of which one gives each member the same weight, by the terms of generating functions; a third rule may say that more
heads do by themselves. Swings are counted over all sets of members, those of the same sums at once.

The reports of examples/ were made by it, and are made again, in some minutes, by

    for game in examples/*.toml; do
        case $game in */eu-36-* | */share-*) words=--polynomials ;; *) words= ;; esac
        python3 tests/oracle.py "$game" $words >"${game%.toml}.tsv"
    done
    python3 tests/oracle.py examples/board.txt >examples/board.txt.tsv
"""
import json
import re
import sys
from array import array
from fractions import Fraction
from math import factorial

# the options that `report` takes, in the order of its words
FLAGS = ("--list", "--sizes", "--notation", "--polynomials", "--swings", "--only-swings")

class Game:
    def __init__(self, title, names, rules, ways=None):
        self.title = title
        self.names = names
        # the quota and the weights, in file order, of each rule
        self.rules = rules
        # the rules, from 0, of each way to win
        self.ways = ways or [list(range(len(rules)))]
        first = rules[0][1]
        # the members, the heaviest by the first rule before the others, ties by place in the file
        self.ranked = sorted(range(len(names)), key=lambda i: (-first[i], i))

    def wins(self, sums):
        """Whether those win whose weights add up to these sums: they meet each rule of some way."""
        return any(all(sums[r] >= self.rules[r][0] for r in way) for way in self.ways)


def read_bracket(text):
    quota, weights = text.strip()[1:-1].split(";")
    weights = [int(word) for word in weights.split(",")]
    names = [str(i + 1) for i in range(len(weights))]
    return Game(None, names, [(int(quota), weights)])


def read_toml(text):
    top, members = {}, []
    table = top
    for line in text.splitlines():
        line = line.strip()
        if not line or line.startswith("#"):
            continue
        if line == "[[member]]":
            table = {}
            members.append(table)
        else:
            key, value = line.split("=", 1)
            table[key.strip()] = json.loads(value)
    names = [it["name"] for it in members]
    if "quota" in top:
        rules = [(top["quota"], [it["weight"] for it in members])]
    else:
        rules = [(quota, [it["weights"][r] for it in members]) for r, quota in enumerate(top["quotas"])]
    return Game(top.get("title"), names, rules, [[rule - 1 for rule in way] for way in top.get("ways", [])])


def read(path):
    with open(path, encoding="utf-8", newline="") as it:
        text = it.read()
    return read_bracket(text) if re.match(r"\s*\[\s*[0-9]", text) else read_toml(text)


def minimal_coalitions(game):
    """Each minimal winning coalition as a sorted list of ranks, those with the lowest ranks first.

    The ranks are decided one after the other, in before out. A branch ends where the members that
    are still to come cannot make it win, and where it wins already: more members would be too many.
    """
    weights = [[of[i] for i in game.ranked] for _, of in game.rules]
    rules = range(len(weights))
    members = len(game.names)
    rest = [[sum(of[p:]) for p in range(members + 1)] for of in weights]
    found = []
    inside = []

    def is_minimal(sums):
        return not any(game.wins([sums[r] - weights[r][p] for r in rules]) for p in inside)

    def decide(place, sums):
        if game.wins(sums):
            if is_minimal(sums):
                found.append(tuple(inside))
            return
        if not game.wins([sums[r] + rest[r][place] for r in rules]):
            return
        inside.append(place)
        decide(place + 1, [sums[r] + weights[r][place] for r in rules])
        inside.pop()
        decide(place + 1, sums)

    decide(0, [0] * len(weights))
    # the listing order: as numbers whose highest binary digit is the heaviest member, falling
    found.sort(key=lambda c: sum(1 << (members - 1 - p) for p in c), reverse=True)
    return found


def enumerated(game, found):
    """How many of the coalitions have each size, and how many of those contain each member."""
    sizes = [0] * (len(game.names) + 1)
    counts = [[0] * len(sizes) for _ in game.names]
    for c in found:
        sizes[len(c)] += 1
        for p in c:
            counts[game.ranked[p]][len(c)] += 1
    return sizes, counts


def terms(polynomial, low, high):
    """The sum of the coefficients of degrees low to high - 1; each has 64 binary digits of the number."""
    part = polynomial >> 64 * low & (1 << 64 * (high - low)) - 1
    return sum(array("Q", part.to_bytes(8 * (high - low), sys.byteorder)))


def counted(game):
    """The same of all minimal winning coalitions, of a game of weights and heads.

    For each size there is a polynomial whose term of degree w has how many sets of the members so far weigh w. A
    coalition is minimal where it just has the heads and meets the quota, or has more and misses the quota
    without its lightest member, which is the last that it takes. Where `enough` heads do by themselves, it has no
    more, and with that many it need not meet the quota.
    """
    (quota, weights), *others = sorted(game.rules[:2], key=lambda rule: len(set(rule[1])) == 1) + game.rules[2:]
    needed = [-(-least // same[0]) for least, same in others if len(set(same)) == 1 and same[0] > 0]
    heads = needed[0] if needed else 0
    enough = needed[1] if len(needed) > 1 else len(weights) + 1
    is_known = [sorted(way) for way in game.ways] in ([[0]], [[0, 1]], [[0, 1], [2]])
    assert is_known and len(needed) == len(others) and heads < enough, "not a game of weights and heads"
    total = sum(weights)
    order = sorted(range(len(weights)), key=lambda i: (-weights[i], i))

    def by_size(wanted):
        """How many have each size, of those that contain the wanted member, or of all where it is none."""
        sizes = [0] * (len(order) + 1)
        sets = [1] + [0] * len(order)
        begun = wanted is None
        for i in order:
            own = weights[i]
            if begun or i == wanted:
                for size in range(heads, min(len(order), enough)):
                    least = 0 if size + 1 == enough else max(quota - own, 0)
                    sizes[size + 1] += terms(sets[size], least, quota)
            taken = [0] + [of << 64 * own for of in sets[:-1]]
            if i == wanted:
                begun, sets = True, taken
            else:
                sets = [out + into for out, into in zip(sets, taken)]
        sizes[heads] += terms(sets[heads], quota, total + 1) if heads <= len(order) else 0
        return sizes

    return by_size(None), [by_size(i) for i in range(len(order))]


def sets_of(weighed, quotas):
    """How many sets of members have which sums of weights, each cut at its quota: a number with 64
    binary digits for each size."""
    sets = {(0,) * len(quotas): 1}
    for own in weighed:
        for sums, number in list(sets.items()):
            more = tuple(min(one + other, quota) for one, other, quota in zip(sums, own, quotas))
            sets[more] = sets.get(more, 0) + (number << 64)
    return sets


def swings_of(game):
    """How many coalitions win, and how many of each size are a swing of each member."""
    quotas = tuple(quota for quota, _ in game.rules)
    members = range(len(game.names))
    # members of the same weights, as far as they matter, have the same swings
    weighed = [tuple(min(of[i], quota) for quota, of in game.rules) for i in members]
    found = {}
    for own in set(weighed):
        others = weighed[:]
        others.remove(own)
        joined = sum(number for sums, number in sets_of(others, quotas).items()
                     if not game.wins(sums) and game.wins([one + other for one, other in zip(sums, own)]))
        found[own] = [0] + [terms(joined, size, size + 1) for size in members]
    winning = sum(number for sums, number in sets_of(weighed, quotas).items() if game.wins(sums))
    return terms(winning, 0, len(game.names) + 1), [found[own] for own in weighed]


def swing_indices(swings, winning):
    """Of each member Banzhaf's index, Penrose's measure, Shapley and Shubik's index, and Coleman's two powers."""
    members = len(swings)
    everyone = sum(map(sum, swings))
    for its in swings:
        orders = sum(number * factorial(size - 1) * factorial(members - size) for size, number in enumerate(its) if size)
        own = sum(its)
        yield (Fraction(own, everyone), Fraction(own, 2 ** (members - 1)), Fraction(orders, factorial(members)),
               Fraction(own, winning), Fraction(own, 2 ** members - winning))


def decimals(it):
    """Six decimals, cut off."""
    millionths = it.numerator * 1000000 // it.denominator
    return f"{millionths // 1000000}.{millionths % 1000000:06}"


def with_slashes(values):
    return "/".join(str(value) for value in values)


def report(game, with_list=False, with_sizes=False, with_notation=False, by_polynomials=False, with_swings=False, only_swings=False):
    """The report's lines."""
    found = [] if by_polynomials or only_swings else minimal_coalitions(game)
    sizes, counts = counted(game) if by_polynomials else enumerated(game, found)
    winning, swings = swings_of(game) if with_swings or only_swings else (0, [])
    if game.title is not None:
        yield f"title\t{game.title}"
    yield f"members\t{len(game.names)}"
    yield f"quota\t{with_slashes(quota for quota, _ in game.rules)}"
    yield f"total\t{with_slashes(sum(of) for _, of in game.rules)}"
    if len(game.ways) > 1:
        yield "ways\t" + " ".join(",".join(str(r + 1) for r in way) for way in game.ways)
    if with_notation:
        for quota, of in game.rules:
            yield f"notation\t[{quota}; {', '.join(str(weight) for weight in of)}]"
    if not only_swings:
        yield f"minimal\t{sum(sizes)}"
    if swings:
        act = Fraction(winning, 2 ** len(game.names))
        yield f"winning\t{winning}"
        yield f"act\t{act.numerator}/{act.denominator}\t{decimals(act)}"
    if with_list:
        for c in found:
            weight = with_slashes(sum(of[game.ranked[p]] for p in c) for _, of in game.rules)
            names = "\t".join(game.names[game.ranked[p]] for p in c)
            yield f"coalition\t{len(c)}\t{weight}\t{names}"
    if with_sizes:
        for size, number in enumerate(sizes):
            if number:
                fields = "\t".join(str(of[size]) for of in counts)
                yield f"size\t{size}\t{number}\t{fields}"
    yield from member_lines(game, [] if only_swings else sizes, counts, swings, winning)


def member_lines(game, sizes, counts, swings, winning):
    """The line of each member, with its indices by minimal winning coalitions or swings that were counted."""
    seats = sum(size * number for size, number in enumerate(sizes))
    by_swings = list(swing_indices(swings, winning))
    indices = []
    for i, name in enumerate(game.names):
        fields = [name, with_slashes(of[i] for _, of in game.rules)]
        groups = []
        if sizes:
            shares = sum((Fraction(counts[i][s], s) for s in range(1, len(sizes))), Fraction(0))
            groups.append((sum(counts[i]), (shares / sum(sizes), Fraction(sum(counts[i]), seats))))
        if swings:
            groups.append((sum(swings[i]), by_swings[i]))
        for number, its in groups:
            fields += [number, *(text for it in its for text in (f"{it.numerator}/{it.denominator}", decimals(it)))]
        indices.append([it for _, its in groups for it in its])
        yield "\t".join(str(field) for field in ["member", *fields])
    # all but Penrose's measure and Coleman's powers add up to 1
    sums = [sum(column) for column in zip(*indices)]
    assert all(it == 1 for it in (sums[:-4] + sums[-3:-2] if swings else sums))


def main(words):
    files = [word for word in words if word not in FLAGS]
    if len(files) != 1 or {"--list", "--polynomials"} <= set(words):
        sys.exit("usage: oracle.py FILE [--list] [--sizes] [--notation] [--polynomials] [--swings | --only-swings]")
    lines = report(read(files[0]), *(flag in words for flag in FLAGS))
    sys.stdout.buffer.write("".join(f"{line}\n" for line in lines).encode())


if __name__ == "__main__":
    main(sys.argv[1:])
