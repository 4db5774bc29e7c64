#!/usr/bin/env python3
"""Games of every number of members and rules, with every number of workers and bits.

    every_size.py PROGRAM

runs PROGRAM on games of 1 to 40 members and 1 to 4 rules that have few minimal winning coalitions, with
ways where the number of members is even, and goes through 1 to 16 workers, 0 to 10 bits and all choices of the options that show lines meanwhile. It
compares each report, with and without --tally, and that of the swings, with that of tests/oracle.py. So a body that goes wrong
at one number or one choice only is noticed. Prints `ok NAME` or `FAILED NAME: why`.
"""
import itertools
import os
import sys
import tempfile

sys.path.insert(0, os.path.dirname(os.path.abspath(__file__)))
import oracle  # noqa: E402
import random_games  # noqa: E402


def game_of(members, rules):
    """A game in which two members win together if one of them is among the first three, or has half of the rules."""
    columns = [(min(2, members), [1] * members), (1, [3, 2, 1] + [0] * (members - 3) if members > 3 else [1] * members)]
    columns += [(1, list(range(members, 0, -1))), (members + 1, [members] + [members + member for member in range(1, members)])]
    if members == 1:
        columns = [(1, [1])] * 4
    ways = None if members % 2 else [*map(list, itertools.combinations(range(rules), max(1, rules // 2)))]
    return oracle.Game(None, [f"M{member}" for member in range(members)], columns[:rules], ways)


def flags_of(*words):
    """Every choice of these words, in either order."""
    chosen = [list(some) for count in range(len(words) + 1) for some in itertools.combinations(words, count)]
    return chosen + [flags[::-1] for flags in chosen]


def main(words):
    if len(words) != 1:
        sys.exit("usage: every_size.py PROGRAM")
    program = os.path.abspath(words[0])
    runs = itertools.cycle(flags_of("--list", "--sizes", "--notation", "--explain", "--swings"))
    tallies = itertools.cycle(["--tally", *flags] for flags in flags_of("--sizes", "--notation", "--explain", "--swings"))
    swings = itertools.cycle(["--only-swings", *flags] for flags in flags_of("--notation", "--explain"))
    numbers = itertools.cycle((workers, bits) for workers in range(1, 17) for bits in range(11))
    done, failed = 0, []
    with tempfile.TemporaryDirectory() as room:
        for members in range(1, 41):
            for rules in range(1, 5):
                game = game_of(members, rules)
                with open(f"{room}/game", "wb") as file:
                    file.write(random_games.file_of(game))
                for flags in next(runs), next(tallies), next(swings):
                    workers, bits = next(numbers)
                    options = [*flags, "--workers", str(workers), "--bits", str(bits)]
                    found = random_games.printed(program, f"{room}/game", options)
                    done += 1
                    if found != random_games.report(game, flags):
                        failed.append(f"{members} members, {rules} rules, {' '.join(options)}: {found[:60]!r}")
    if failed:
        print(f"FAILED every size: {len(failed)} of {done} reports differ, the first is {failed[0]}")
    else:
        print(f"ok every size: {done} reports")
    return 1 if failed else 0


if __name__ == "__main__":
    sys.exit(main(sys.argv[1:]))
