#!/usr/bin/env python3
"""The package council, against the second program of tests/oracle.py and the stored reports.

    python3 python/tests/test_council.py

It tests the package that Python finds, else the one beside it. Each test is a line `ok NAME`,
`FAILED NAME: why` or `skipped NAME: why`. `python3 -m unittest` runs it too.
"""
import doctest
import json
import math
import os
import pickle
import random
import re
import signal
import subprocess
import sys
import tempfile
import threading
import time
import unittest
from decimal import Decimal
from fractions import Fraction
from pathlib import Path
from unittest import mock

from shared import BY_WAYS, HOSTILE, LISTED, TOP  # noqa: I001 (first, since it finds the package)
import council
import lines
import oracle
from council import game, members
from council.finding import find_library
from council.reports import Fault, Report
from council.ways import find_fault
from parts import Engines, Parts  # noqa: F401 (tests too)

# 40 members whose weights add up to a million in each of two rules: hours
LONG = [[random.Random(at).randrange(10**6) for at in range(40)]]
LONG.append([10**6 - it for it in LONG[0]])
BIG = [sum(sorted(it)[-10:]) for it in LONG]


def ask_oracle(title, names, rules, **more):
    """Returns the report of a game, worked out apart from the program."""
    return Report.read(oracle.report(oracle.Game(title or None, names, rules), **more))


def find_refusal(*words, **more):
    """Returns the exception of a refused game."""
    try:
        council.report(*words, **more)
    except council.Refused as it:
        return it
    raise AssertionError("the game was not refused")


class Reports(unittest.TestCase):
    def check_same(self, found, wanted):
        for it in ("title", "quotas", "totals", "minimal", "winning", "members"):
            self.assertEqual(getattr(found, it), getattr(wanted, it))
        self.assertEqual(getattr(found, "power_to_act_exact", None), getattr(wanted, "power_to_act_exact", None))
        self.assertEqual(found, wanted)

    def test_a_board(self):
        report = council.report(51, [50, 49, 1], names=["A", "B", "C"])
        self.assertEqual((report.quotas, report.totals, report.minimal, report.title), ((51,), (100,), 2, ""))
        a, b, _ = report.members
        self.assertEqual(a, ("A", 50, 2, 0.5, 0.5, Fraction(1, 2), Fraction(1, 2)))
        self.assertEqual([type(it) for it in a[3:]], [float, float, Fraction, Fraction])
        self.assertEqual(b, ("B", 49, 1, 0.25, 0.25, Fraction(1, 4), Fraction(1, 4)))
        self.assertIsNone(report.coalitions)

    def test_swings(self):
        both, only, neither = [council.report(12, [4, 4, 4, 2, 2, 1], **more) for more in ({"swings": True}, {"only_swings": True}, {})]
        a, b = both.members[0], only.members[0]
        self.assertEqual((a[:7], b[:2], a[7:]), (neither.members[0], a[:2], b[2:]))
        self.assertEqual(b, ("1", 4, 10, 5 / 21, 5 / 16, 7 / 30, 5 / 7, 1 / 5, Fraction(5, 21), Fraction(5, 16), Fraction(7, 30), Fraction(5, 7), Fraction(1, 5)))
        self.assertEqual((b.penrose, b.shapley_shubik_exact, b.power_to_prevent_exact, b.power_to_initiate), (5 / 16, Fraction(7, 30), Fraction(10, 14), 0.2))
        self.assertEqual([(it.minimal, it.winning) for it in (both, only, neither)], [(4, 14), (None, 14), (4, None)])
        self.assertEqual((only.power_to_act, only.power_to_act_exact, list(only.rows()[0])), (14 / 64, Fraction(14, 64), list(b._fields)))
        self.assertEqual(repr(only), "<council.Report 'A game': 6 members, 14 winning coalitions>")
        again = pickle.loads(pickle.dumps(a))
        self.assertEqual((again, again.power_to_prevent, repr(again)), (a, a.power_to_prevent, repr(a)))
        self.assertTrue(repr(b).startswith("Member(name='1', weight=4, swings=10, banzhaf=0.238"))
        for it, name, text in [(b, "public_good", "the report has no public_good"), (neither.members[0], "banzhaf", "no banzhaf: ask for swings=True"), (neither.members[0], "power_to_prevent", "no power_to_prevent: ask for"), (neither, "power_to_act", "power_to_act"), (a, "x", "has no x")]:
            with self.assertRaisesRegex(AttributeError, text):
                getattr(it, name)
        for more in {"swings": True}, {"coalitions": True}:
            with self.assertRaisesRegex(ValueError, "only_swings=True goes without"):
                council.report(1, [1], only_swings=True, **more)

    def test_every_example(self):
        for path in sorted((TOP / "examples").iterdir()):
            if path.suffix in (".toml", ".txt"):
                stored = path.with_suffix(".tsv") if path.suffix == ".toml" else Path(f"{path}.tsv")
                with self.subTest(path.name):
                    self.check_same(council.report(file=path), Report.read(stored.read_text(encoding="utf-8").split("\n")[:-1]))

    def test_random_games_as_the_oracle(self):
        rng = random.Random(1)
        for at in range(60):
            names = rng.sample(HOSTILE, rng.randint(1, 9))
            rules = []
            for _ in range(rng.randint(1, 4)):
                weights = [rng.choice([0, 1, 1, 2, 3, rng.randint(0, 10**12)]) for _ in names]
                weights[rng.randrange(len(names))] += 1
                rules.append((rng.randint(1, sum(weights)), weights))
            wanted = ask_oracle("T", names, rules)
            with self.subTest(at):
                quotas, columns = [it for it, _ in rules], [it for _, it in rules]
                one = len(rules) == 1
                self.check_same(council.report(quotas[0] if one else quotas, columns[0] if one else columns, names=names, title="T", by=None if one else "rule"), wanted)
                listed = council.report(quotas, columns, names=names, title="T", coalitions=True, by="rule")
                self.check_same(listed, wanted)
                game = oracle.Game("T", names, rules)
                found = [tuple(names[game.ranked[place]] for place in it) for it in oracle.minimal_coalitions(game)]
                self.assertEqual([it.members for it in listed.coalitions], found)
                sums = [tuple(sum(of[names.index(it)] for it in members) for _, of in rules) for members in found]
                self.assertEqual([it.weights for it in listed.coalitions], sums)
                both = council.report(quotas, columns, names=names, title="T", coalitions=True, by="rule", swings=True)
                self.check_same(both, ask_oracle("T", names, rules, with_swings=True))
                self.assertEqual(both.coalitions, listed.coalitions)
                self.check_same(council.report(quotas, columns, names=names, title="T", by="rule", only_swings=True), ask_oracle("T", names, rules, only_swings=True))

    def test_random_games_with_ways(self):
        """Each number and coalition is that of all subsets of the members."""
        rng = random.Random(3)
        for at in range(40):
            members, rules = range(rng.randint(1, 6)), range(1, rng.randint(2, 4) + 1)
            columns = [[rng.randint(1, 9) for _ in members] for _ in rules]
            quotas = [rng.randint(1, sum(it)) for it in columns]
            ways = []
            while find_fault(ways, len(rules)):
                ways = [rng.sample(rules, rng.randint(1, len(rules))) for _ in range(rng.randint(2, 4))]

            def wins(its):
                return any(all(sum(columns[rule - 1][it] for it in its) >= quotas[rule - 1] for rule in way) for way in ways)

            every = [{it for it in members if mask >> it & 1} for mask in range(2 ** len(members))]
            minimal = [its for its in every if wins(its) and not any(wins(its - {it}) for it in its)]
            with self.subTest(at):
                found = council.report(quotas, columns, by="rule", ways=ways, coalitions=True, swings=True)
                self.assertEqual((found.ways, found.minimal, found.winning), (ways, len(minimal), sum(map(wins, every))))
                self.assertEqual([it.coalitions for it in found.members], [sum(it in its for its in minimal) for it in members])
                self.assertEqual([it.swings for it in found.members], [sum(it in its and wins(its) and not wins(its - {it}) for its in every) for it in members])
                self.assertEqual(sorted(sorted(it.members) for it in found.coalitions), sorted(sorted(str(it + 1) for it in its) for its in minimal))
                file = council.format_game_file(quotas, columns, by="rule", ways=ways)
                self.assertEqual(council.report(game=file, coalitions=True).coalitions, found.coalitions)
                game.check_same(file, found)

    def test_ways_that_are_refused(self):
        board = [50, 49, 1], [1, 1, 1]
        self.check_same(council.report([51, 2], board, ways=[[2, 1]]), council.report([51, 2], board))
        self.assertEqual(council.report([51, 2], board, ways=((1,), (2,))).members, Report.from_text(BY_WAYS).members)
        for ways in [], [[]], [[1]], [[1, 3]], [[1], [2, 2]], [[1], [1, 2]], [[1, 2]] * 7, [[0], [1, 2]], [[-1], [1, 2]], [[10**30]]:
            self.assertIn(find_refusal([51, 2], board, ways=ways).fault, ("bad ways", "the game file is not TOML"))
        self.assertEqual(find_refusal([51, 2], board, ways=[[1]]).explanation, "rule 2 is in no way: each rule is in one")

    def test_hostile_names(self):
        report = council.report(len(HOSTILE) - 1, [1] * len(HOSTILE), names=HOSTILE, title='A "title" \\ = $x$')
        self.assertEqual([it.name for it in report.members], HOSTILE)
        self.assertEqual(report.title, 'A "title" \\ = $x$')

    def test_doubles_are_the_nearest(self):
        for name in ("eu-27-nice", "eu-27-lisbon", "share-register"):
            for it in council.report(file=str(TOP / f"examples/{name}.toml")).members:
                for near, exact in [(it.deegan_packel, it.deegan_packel_exact), (it.public_good, it.public_good_exact)]:
                    self.assertIs(type(near), float)
                    others = [math.nextafter(near, end) for end in (-1, 2)]
                    self.assertTrue(all(abs(Fraction(near) - exact) <= abs(Fraction(other) - exact) for other in others))

    def test_examples_of_the_documentation(self):
        done = doctest.testmod(council)
        self.assertEqual((done.failed, done.attempted > 3), (0, True))

    def test_ways_to_give_a_game(self):
        wanted = council.report(51, [50, 49, 1])
        text = council.format_game_file(51, [50, 49, 1])
        for game in ("[51; 50, 49, 1]", b"[51; 50, 49, 1]", text, text.encode()):
            self.check_same(council.report(game=game), wanted)
        with tempfile.TemporaryDirectory() as folder:
            path = os.path.join(folder, "-a b'c.toml")
            with open(path, "w", encoding="utf-8") as it:
                it.write(text)
            for file in (path, Path(path)):
                self.check_same(council.report(file=file), wanted)
                self.check_same(council.report(file), wanted)
            for more, fault in [(0, None), (1, "the game file is longer than 65536 bytes")]:
                with open(path, "w", encoding="utf-8") as it:
                    it.write("[51; 50, 49, 1]".ljust(65536 + more))
                if fault:
                    self.assertEqual(find_refusal(file=path).fault, fault)
                else:
                    self.check_same(council.report(file=path), wanted)

    def test_kinds_of_numbers(self):
        wanted = council.report(51, [50, 49, 1]).members
        for kind in (float, Fraction, Decimal):
            self.assertEqual(council.report(kind(51), [kind(50), kind(49), kind(1)]).members, wanted)
        self.assertEqual(council.report(1, (True, False)).members[0].weights, (1,))
        self.assertEqual(council.report(51, iter([50, 49, 1]), names=range(1, 4)).members, wanted)
        votes = [mock.Mock(spec=["__index__"], __index__=lambda _, it=it: it) for it in (51, 50, 49, 1)]
        self.assertEqual(council.report(votes[0], votes[1:]).members, wanted)
        for it in 0.29 * 100, Decimal("28.9999999999"), 29 + Fraction(1, 10**12):
            self.assertEqual(council.report(it, [it, 1]).members[0].weights, (29,))
        exact = council.report(Fraction(10**12), [Decimal(10**12), 1]).members[0]
        self.assertEqual(exact.weights, (10**12,))

    def test_any_number_of_coalitions_is_counted(self):
        report = council.report(20, [1] * 40)
        self.assertEqual((report.minimal, report.members[0].public_good_exact), (math.comb(40, 20), Fraction(1, 40)))
        with self.assertRaises(council.TooMany) as caught:
            council.report(20, [1] * 40, coalitions=True)
        self.assertEqual((caught.exception.status, caught.exception.fault), (4, "too many minimal winning coalitions"))
        self.assertIn("137846528820", caught.exception.explanation)
        self.assertIs(type(pickle.loads(pickle.dumps(caught.exception))), council.TooMany)
        self.assertEqual(len(council.report(2, [1] * 4, coalitions=True, most=6).coalitions), 6)
        self.assertEqual(council.report(1, [1], coalitions=True, most=1).coalitions, [(("1",), (1,))])
        with self.assertRaises(council.TooMany):
            council.report(2, [1] * 4, coalitions=True, most=5)

    def test_refused_games(self):
        bad = find_refusal(51, [50, 16.5])
        self.assertEqual((bad.fault, bad.status, bad.line, bad.member, bad.rule), ("bad weight of member 2", 3, None, 2, 1))
        self.assertTrue(str(bad).startswith("bad weight of member 2\nthe weight of '2' is 16.5: weights and quotas are whole numbers."))
        words = bad.explanation
        bad = find_refusal(game=bad.game)
        self.assertTrue(str(bad).startswith("bad weight of member 2\nline 9: weight = 16.5\n16.5 is a number with a point"))
        self.assertEqual(bad.game.split("\n")[bad.line - 1], "weight = 16.5")
        again = pickle.loads(pickle.dumps(bad))
        self.assertEqual((str(again), again.line, again.game, again.status), (str(bad), bad.line, bad.game, bad.status))
        for kind in (float, Fraction, Decimal):
            self.assertEqual(find_refusal(51, [50, kind("16.5")]).explanation, words)
        for words, fault in [
            ((200, [50, 49]), "quota out of range"), ((0.85, [1]), "bad quota"), ((1, [1] * (game.MEMBERS + 1)), "bad member list"), ((1, []), "bad member list"),
            ((1, [50 + Fraction(1, 10**8)]), "bad weight of member 1"), ((1, [0.3 * 100 + 1e-8]), "bad weight of member 1"), ((1, [-1, 2]), "bad weight of member 1"), ((1, [1, float("nan")]), "bad weight of member 2"), ((1, [Decimal("sNaN")]), "bad weight of member 1"), ((1, [Decimal("-Infinity")]), "bad weight of member 1"), ((1, [float("inf")]), "bad weight of member 1"),
            ((1, [game.WEIGHT + 1]), "bad weight of member 1"), ((10**30, [1]), "the game file is not TOML"), ((1, [10**5000]), "the game file is not TOML"), ((1, [Decimal(10**5000)]), "the game file is not TOML"), (([1] * (game.RULES + 1), [[1, 1]] * (game.RULES + 1)), "bad rules"),
        ]:
            it = find_refusal(*words)
            self.assertEqual(it.fault, fault)
            self.assertRegex(it.explanation, r"\A(the|there|quota)[^\n]{15,200}\Z")
        for names, fault in [(["A", "A"], "member 2 repeats a name"), (["A", ""], "bad name of member 2"), (["a\tb", "c"], "bad name of member 1"), (["x" * (game.NAME + 1), "c"], "bad name of member 1")]:
            self.assertEqual(find_refusal(1, [1, 1], names=names).fault, fault)
        self.assertEqual(find_refusal(1, [1], title="x" * (game.TITLE + 1)).fault, "bad title")
        most = [game.WEIGHT] + [0] * (game.MEMBERS - 1)
        self.assertEqual(council.report([1] * game.RULES, [most] * game.RULES, names=["x" * game.NAME, *range(1, game.MEMBERS)], title="x" * game.TITLE).minimal, 1)
        self.assertEqual(find_refusal(1, [1], names=["\ud800"]).fault, "the game file is not TOML")
        self.assertEqual(find_refusal(game="[51; 50, 49,, 1]").line, 1)
        self.assertEqual(find_refusal(game=" " * 70000).fault, "the game file is longer than 65536 bytes")
        self.assertEqual(find_refusal(game="").fault, "bad quota")
        self.assertEqual(find_refusal(game="\ud800").explanation.split("\n")[1], "a byte there is not UTF-8: save the file as UTF-8")
        self.assertEqual(find_refusal(game=b"\xff").game, "\ufffd")
        self.assertEqual(find_refusal([], []).fault, "bad rules")

    def test_numbers_without_a_text(self):
        if not find_library():
            self.skipTest("there is no library")
        with mock.patch.object(council, "compute", mock.Mock(side_effect=AssertionError)):
            for more in {}, {"swings": True}, {"names": HOSTILE[:3], "title": "T"}, {"coalitions": True}:
                self.assertEqual(council.report(51, [50, 49, 1], **more).minimal, 2)
        for words, fault, member, rule in [
            (([1, 1], [[1, 2, 3], [1, game.WEIGHT + 1, 3]]), "bad weight of member 2", 2, 2), (([1, 9], [[1, 2, 3], [1, 2, 3]]), "quota out of range", None, 2),
            ((0, [1, 1]), "quota out of range", None, 1), ((1, [1, -1]), "bad weight of member 2", 2, 1),
        ]:
            bad = find_refusal(*words, by="rule" if isinstance(words[0], list) else None)
            self.assertEqual((bad.fault, bad.member, bad.rule), (fault, member, rule))
            self.assertEqual(pickle.loads(pickle.dumps(bad)).rule, rule)

    def test_words_that_are_no_game(self):
        ways, parts, belong = "give a quota and weights, or a file, or a game", "give a quota and weights", "names, a title, by= and ways= belong to a quota and weights"
        for words, more, text in [
            ((), {}, ways), ((51, [1]), {"file": "x"}, ways), ((51,), {"file": "x"}, ways), ((None, [1]), {"file": "x"}, ways), ((), {"file": "x", "game": "y"}, ways),
            ((51,), {}, parts), ((None, [1]), {}, parts), ((), {"game": "[1; 1]", "names": ["A"]}, belong), ((), {"game": "[1; 1]", "title": "T"}, belong), ((), {"file": "x", "names": []}, belong), ((), {"file": "x", "ways": []}, belong),
            ((51, {"A": 50}), {"names": "B"}, "the keys of the weights are the names: give no others"), (("51", [50]), {}, "the quota '51' is a text: give a number, or a list of numbers"), ((51, "50"), {}, "the weights are a list of numbers, or a list of lists, and not '50'"),
            ((51, [50]), {"ways": [1]}, "ways are lists of rules, as [[1, 2], [3]], and not [1]"), ((51, [50]), {"ways": 1}, "ways are lists of rules, as [[1, 2], [3]], and not 1"), ((51, [50]), {"ways": ["1,2"]}, "ways are lists of rules, as [[1, 2], [3]], and not ['1,2']"),
            ((51, ["50"]), {}, "the weight of member 1 is '50', which is no number"), ((51, [50, None]), {}, "the weight of member 2 is None, which is no number"), ((51, [1j]), {}, "the weight of member 1 is 1j, which is no number"), (([5, "3"], [[1], [1]]), {}, "quota 2 is '3', which is no number"),
            ((51, [50]), {"names": [1.5]}, "1.5 is no name: names are texts or whole numbers"), ((51, 50), {}, "the weights are a list of numbers, or a list of lists, and not 50"), (([5, 3], ["ab", [1, 2]]), {}, "the weights are a list of lists of numbers, and one of these is 'ab'"),
        ]:
            with self.assertRaises(TypeError, msg=(words, more)) as caught:
                council.report(*words, **more)
            self.assertEqual(str(caught.exception), text)
        for words, more, text in [
            ((51, [50]), {"names": ["A", "B"]}, "there are 1 weights, and 2 names"), ((51, [50]), {"names": []}, "there are 1 weights, and 0 names"),
            (([], []), {"names": ["A"]}, "there are 0 weights, and 1 names"), (([1, 3], [[2]]), {}, "there are 2 quotas, and 1 lists of weights"),
            (([51, 2], [50, 49]), {}, "there are 2 quotas, and one list of weights: give a list of weights for each quota"), ((51, [[50, 49, 1], [1, 1, 1]]), {}, "there are 1 quotas, and 2 lists of weights"),
            (([5, 3], {"A": [1, 2, 3]}), {}, 'there are 2 quotas, and a member with 3 weights: each member has one for each quota; say by="rule" if each list is a rule'),
            (([1, 2], [[1], [1, 2]]), {}, "the lists of weights are not equally long"), (([1, 2], [[1, 2], [1]]), {}, "the lists of weights are not equally long"),
            ((1, [1]), {"most": 0}, "most is from 1 to 4,000,000"), ((1, [1]), {"most": 4_000_001}, "most is from 1 to 4,000,000"),
        ]:
            with self.assertRaises(ValueError, msg=(words, more)) as caught:
                council.report(*words, **more)
            self.assertEqual(str(caught.exception), text)
        with self.assertRaises(FileNotFoundError):
            council.report(file="no-such-file.toml")

    def test_tables_by_rule_and_by_member(self):
        by_rule = [[3, 2, 2, 1], [1, 1, 1, 1]]
        wanted = council.report([5, 3], by_rule)
        for more in {}, {"by": "member"}:
            self.check_same(council.report([5, 3], list(zip(*by_rule)), **more), wanted)
        square = [[3, 2], [1, 1]]
        self.assertEqual([it.weights for it in council.report([4, 1], square, by="rule").members], [(3, 1), (2, 1)])
        self.assertEqual([it.weights for it in council.report([3, 2], square, by="member").members], [(3, 2), (1, 1)])
        self.assertEqual(council.report(iter([2, 2]), iter([[2, 1], [1, 1]])).minimal, 1)
        for words, more in [(([3, 2], square), {}), (([3, 2], square), {"by": "x"}), (([5, 3], by_rule), {"by": "member"})]:
            with self.assertRaises(ValueError):
                council.report(*words, **more)

    def test_rows(self):
        columns = ["coalitions", "deegan_packel", "public_good", "deegan_packel_exact", "public_good_exact"]
        self.assertEqual(list(council.report(51, [50, 49, 1]).rows()[0]), ["name", "weight", *columns])
        # as pandas has them: a row for each member, with the columns that the first one names
        table = [[3, 1], [2, 1], [2, 1], [1, 1]]
        frame = mock.Mock(spec=["columns", "index", "to_numpy"], index=list("ABCD"), to_numpy=lambda dtype: table)
        two = council.report([5, 3], frame)
        self.assertEqual(two.members[0]._fields, ("name", "weight_1", "weight_2", *columns))
        self.assertEqual([it[:3] for it in two.members], [(name, *its) for name, its in zip("ABCD", table)])
        self.assertEqual(json.loads(json.dumps(two.rows())), [{name: str(Fraction(cell)) if name.endswith("_exact") else cell for name, cell in it._asdict().items()} for it in two])
        # a dict has a list for each member, or for each rule
        self.assertEqual([council.report([5, 3], dict(zip("ABCD", table))), council.report([5, 3], {"votes": [3, 2, 2, 1], "heads": [1] * 4}, by="rule", names="ABCD")], [two, two])
        self.assertEqual(council.report(5, {"A": 3, "B": 2, "C": 2, "D": 1}), council.report(5, [3, 2, 2, 1], names="ABCD"))
        self.assertEqual([council.report([5], its) for its in ([3, 2, 2, 1], [[3, 2, 2, 1]], [[3], [2], [2], [1]])], [council.report(5, [3, 2, 2, 1])] * 3)
        series = type("Series", (list,), {"index": frame.index})
        self.assertEqual([(it.name, it.weight, it.weights) for it in council.report(5, series([3, 2, 2, 1])).members], [(*it, it[1:]) for it in zip("ABCD", (3, 2, 2, 1))])

    def test_a_report_as_a_sequence(self):
        report = council.report(51, [50, 49, 1], names=["A", "<b>", "C"], title="T" * 99, swings=True)
        self.assertEqual((len(report), list(report), report["C"], report[-1]), (3, report.members, report.members[2], report.members[2]))
        self.assertEqual((repr(report), repr(council.report(1, [1]))), (f"<council.Report '{'T' * 58}..': 3 members, 2 minimal winning coalitions, 3 winning coalitions>", "<council.Report 'A game': 1 members, 1 minimal winning coalitions>"))
        with self.assertRaises(KeyError):
            report["B"]
        same = council.report(51, [50, 49, 1], names=["A", "<b>", "C"], title="T" * 99, swings=True, coalitions=True)
        self.assertEqual((report, hash(report)), (same, hash(same)))
        for other in council.report(51, [50, 49, 1]), council.report(52, [50, 49, 1], names=["A", "<b>", "C"], title="T" * 99, swings=True), None:
            self.assertNotEqual(report, other)
        cells = re.findall("<td>(.*?)</td>", report._repr_html_())
        self.assertEqual((cells[0], len(cells), cells[19:23], cells[18]), ("<bdi>A</bdi>", 57, ["<bdi>&lt;b&gt;</bdi>", "0.250000", "0.250000", "0.200000"], "3/5"))
        many = council.report(6, [1] * 12, coalitions=True).coalitions
        self.assertEqual((len(many), repr(many).count("Coalition("), repr(many).split(", ")[-1]), (924, 10, "..]  # 924 coalitions"))
        self.assertEqual((list(many.masks[:2]), [bin(it).count("1") for it in many.masks] == [6] * 924), ([0b111111, 0b1011111], True))
        self.assertEqual([list(Report.from_text(BY_WAYS).coalitions.masks), list(many[5:7].masks)], [[3, 5, 6], list(many.masks[5:7])])

    def test_a_game_that_is_asked(self):
        board = council.Game([51, 2], [[50, 49, 1], [1, 1, 1]], "ABC", [[1], [2]], title="T")
        self.assertEqual((board.names, board.quotas, board.weights, board.ways, board.title), (("A", "B", "C"), (51, 2), ((50, 1), (49, 1), (1, 1)), [[1], [2]], "T"))
        more = {"names": "ABC", "ways": [[1], [2]], "title": "T"}
        self.assertEqual(board.report(swings=True, coalitions=True), council.report([51, 2], [[50, 49, 1], [1, 1, 1]], swings=True, **more))
        self.assertEqual((board.to_toml(), repr(board)), (council.format_game_file([51, 2], [[50, 49, 1], [1, 1, 1]], **more), "<council.Game: 3 members, quota 51/2>"))
        swept = dict(board.sweep(50, 90, 20, swings=True))
        self.assertEqual((list(swept), swept[70]), ([50, 70, 90], council.report([70, 2], [[50, 49, 1], [1, 1, 1]], swings=True, **more)))
        self.assertEqual([[quota for quota, _ in board.sweep(rule=2)], [it.minimal for _, it in board.sweep(100, only_swings=True)]], [[1, 2, 3], [None]])
        again = council.Game([51, 2], [[50, 49, 1], [1, 1, 1]], "ABC", [[1], [2]], title="T")
        self.assertTrue(board == again and hash(board) == hash(again) and board != council.Game(51, [50, 49, 1]))
        with self.assertRaisesRegex(ValueError, "there is no rule 3: the game has 2"):
            next(board.sweep(rule=3))
        # it is refused when it is made, and one of hours is not computed
        for words, fault in ((200, [50, 49]), "quota out of range"), ((51, [50, 16.5]), "bad weight of member 2"), ((1, [1, 1], ["A", "A"]), "member 2 repeats a name"):
            with self.assertRaisesRegex(council.Refused, fault) as caught:
                council.Game(*words)
            self.assertTrue(caught.exception.explanation)
        self.assertEqual(council.Game(BIG, LONG).quotas, tuple(BIG))

    def test_headings_and_shares(self):
        report = council.report([5, 3], [[3, 2, 2, 1], [1, 1, 1, 1]], title=" ")
        self.assertEqual((report.title, report.heading()), (" ", "A game"))
        self.assertEqual((report.share(report.members[0]), report.share(report.members[0], 1)), (Fraction(3, 8), Fraction(1, 4)))
        self.assertEqual(repr(council.report(1, [1], title="T")), "<council.Report 'T': 1 members, 1 minimal winning coalitions>")

    def test_a_report_that_was_changed(self):
        unsound, nothing = "the report is not whole, or its numbers are not those of council", "there is no report: nothing was read (was the game refused?)"
        others = LISTED.replace("quota\t51\n", "quota\t51\r\nnotation\t[51; 50, 49, 1]\n").replace("member\t1", "size\t2\t2\t2\t1\t1\nmember\t1")
        for it in (Report.from_text(others), Report.read(others.split("\n")[:-1])):
            self.assertEqual((it.quotas, it.minimal, [of.name for of in it.members]), ((51,), 2, ["1", "2", "3"]))
        for old, new, text in [
            (LISTED, "", nothing), (LISTED[LISTED.index("member\t1") :], "", unsound), (LISTED[: LISTED.index("member\t1")], "", unsound), (LISTED[-20:], "", unsound),
            (LISTED, "quota = 1\n", "line 1"), ("member\t3\t1\t1\t", "member\t3\tx\t1\t", "line 9"),
            ("quota\t51", "quota\t51\t1", "line 2"), ("quota\t51", "quota", "line 2"), ("quota\t51\n", "", unsound), ("quota\t51", "quota\t51/1", unsound),
            ("quota\t51", "quota\tx", unsound),
            ("members\t3", "members\t4", unsound), ("total\t100", "total\t101", unsound), ("total\t100", "total\t100/3", unsound), ("minimal\t2", "minimal\t1", unsound), ("minimal\t2", "minimal\tx", unsound),
            ("member\t3\t1\t1\t", "member\t3\t1/1\t1\t", unsound), ("1/2\t0.500000\n", "1/2\t0.500001\n", "line 7"), ("1/2\t0.500000\n", "1/0\t0.500000\n", "line 7"), ("1/2\t0.500000\n", "1_2\t0.500000\n", "line 7"),
            (LISTED, "\n".join(sorted(LISTED.split("\n"))[1:]), unsound),
            ("coalition\t2\t99", "coalition\t3\t99", "line 5"), ("coalition\t2\t99", "coalition\t1\t99", "line 5"),
        ]:
            changed = LISTED.replace(old, new)
            wanted = f"{text} is no line of a report of council" if text.startswith("line") else text
            with self.subTest(old=old, new=new), self.assertRaises(Fault) as caught:
                Report.read(changed.split("\n")[:-1])
            self.assertEqual((str(caught.exception), caught.exception.status), (wanted, 1))
        made = Report.from_text(BY_WAYS)
        self.assertEqual((made.ways, made.coalitions[2], Report.from_text(LISTED).ways), ([[1], [2]], (("2", "3"), (50, 2)), [[1]]))
        for new, text in [("1", unsound), ("1 3", unsound), ("1 1", unsound), ("1,2 2", unsound), ("", unsound), ("1  2", unsound), ("x", unsound), ("1 2\t", "line 4"), ("1 2\nother\t1", "line 5")]:
            with self.subTest(new), self.assertRaisesRegex(Fault, text):
                Report.from_text(BY_WAYS.replace("ways\t1 2", f"ways\t{new}"))
        later = LISTED.replace("0\nmember", "0\tother\nmember")
        self.check_same(Report.from_text(later), Report.from_text(LISTED))
        self.assertEqual((str(Fault("a text", 2)), Fault("a text", 2).status), ("a text", 2))

    def test_coalitions_one_after_the_other(self):
        wanted, taken = [(("1", "2"), (99,)), (("1", "3"), (51,))], []
        it = Report.read(LISTED.split("\n")[:-1], taken.append)
        self.assertEqual((taken, it.coalitions, it.listed), (wanted, None, 2))
        report = Report.from_text(LISTED)
        for its in report.coalitions, members.Coalitions(report.members, [3, 5]), pickle.loads(pickle.dumps(report)).coalitions:
            self.assertEqual((its, len(its), its[-1], its[1:], list(its), repr(its), list(its.masks)), (wanted, 2, wanted[1], wanted[1:], wanted, repr(list(its)), [3, 5]))
            self.assertNotEqual(its, wanted[:1])
        # one that nobody asks for is never made
        self.assertEqual(len(members.Coalitions([], range(10**9))), 10**9)

    def test_threads_at_once(self):
        wanted = [council.report(12, [4, 4, 4, 2, 2, 1], title=str(at)) for at in range(8)]
        found = [None] * 8

        def work(at):
            for _ in range(20):
                found[at] = council.report(12, [4, 4, 4, 2, 2, 1], title=str(at))

        workers = [threading.Thread(target=work, args=(at,)) for at in range(8)]
        for it in workers:
            it.start()
        for it in workers:
            it.join()
        for one, other in zip(found, wanted):
            self.check_same(one, other)

    def test_an_interrupt_ends_a_long_call(self):
        # (what a shell starts in the background ignores SIGINT, and so would the child)
        heeds = "import signal\nsignal.signal(signal.SIGINT, signal.default_int_handler)\n"
        code = f"{heeds}import council\nprint('begun', flush=True)\ncouncil.report({BIG}, {LONG})\n"
        folder = str(Path(council.__file__).resolve().parent.parent)
        child = subprocess.Popen([sys.executable, "-c", code], stdout=subprocess.PIPE, stderr=subprocess.PIPE, env={**os.environ, "PYTHONPATH": folder})
        child.stdout.readline()
        time.sleep(0.5)
        child.send_signal(signal.SIGINT)
        try:
            _, err = child.communicate(timeout=60)
        finally:
            child.kill()
        self.assertIn(b"KeyboardInterrupt", err)

    @unittest.skipUnless(find_library(), "there is no library")
    def test_an_interrupt_ends_the_computation(self):
        """It takes no more time of a processor."""
        kept, begun = signal.signal(signal.SIGINT, signal.default_int_handler), time.process_time()
        self.addCleanup(signal.signal, signal.SIGINT, kept)
        threading.Timer(0.3, os.kill, [os.getpid(), signal.SIGINT]).start()
        with self.assertRaises(KeyboardInterrupt):
            council.report(BIG, LONG)
        time.sleep(1)
        self.assertLess(time.process_time() - begun, 1)

    def test_neither_library_nor_program(self):
        code = "import council\ntry:\n    council.report(1, [1])\nexcept council.NotFound as it:\n    print(it)\n"
        folder = str(Path(council.__file__).resolve().parent.parent)
        more = {"PYTHONPATH": folder, "COUNCIL_LIBRARY": "", "COUNCIL_PROGRAM": "no-such-program"}
        done = subprocess.run([sys.executable, "-c", code], capture_output=True, text=True, env={**os.environ, **more})
        self.assertEqual(done.stdout, "no-such-program: no program of that name was found\n", done.stderr)

    def test_pandas(self):
        try:
            import pandas
        except ImportError:
            self.skipTest("this Python has no pandas")
        report = council.report(len(HOSTILE) - 1, [1] * len(HOSTILE), names=HOSTILE)
        table = pandas.DataFrame(report.members)
        self.assertTrue(table.equals(report.to_frame()))
        self.assertEqual((list(table.columns), list(table["name"]), list(table["weight"])), (list(report.members[0]._fields), HOSTILE, [1] * len(HOSTILE)))
        self.assertEqual(str(table["public_good"].dtype), "float64")
        again = council.report(51, pandas.Series([50, 49, 1]), names=pandas.Series(["A", "B", "C"]))
        self.assertEqual(again.members[0].public_good_exact, Fraction(1, 2))
        frame = pandas.DataFrame({"votes": [3, 2, 2, 1], "heads": [1, 1, 1, 1]}, index=list("ABCD"))
        two = council.report(frame.sum() // 2 + 1, [frame[it] for it in frame], names=frame.index)
        self.assertEqual(list(pandas.DataFrame(two.members)["weight_1"]), [3, 2, 2, 1])
        for weights in frame, frame[["votes", "heads"]].astype(float):
            self.assertEqual(council.report(frame.sum() // 2 + 1, weights).members, two.members)
        self.assertEqual(council.report([5, 3], frame.to_numpy(), names=frame.index).members, two.members)
        self.assertEqual(council.report([5, 3], frame.to_numpy().T, names=frame.index).members, two.members)
        self.assertEqual(council.report([3, 2], frame[:2]).members[0].weights, (3, 1))
        self.assertEqual(council.report([5, 3], frame.T, by="rule").members, two.members)
        self.assertEqual([it.name for it in council.report(5, frame["votes"]).members], list("ABCD"))
        self.assertEqual(council.report(5, frame[["votes"]]).members, council.report(5, frame["votes"]).members)
        self.assertEqual([it.name for it in council.report(5, frame["votes"].reset_index(drop=True)).members], list("1234"))


def main():
    """Runs all tests. A word of the command line begins each name, to say which package it is."""
    passed = lines.run("".join(f"{it}: " for it in sys.argv[1:]))
    if find_library() is None and os.environ.get("COUNCIL_LIBRARY") != "":
        print("(the library was not found: the program answered)", file=sys.stderr)
    sys.exit(not passed)


if __name__ == "__main__":
    main()
