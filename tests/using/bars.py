#!/usr/bin/env python3
"""council-tools bars: a picture of a report, and what pages and pictures share."""
import random
import re
from fractions import Fraction
from xml.etree import ElementTree

from cases import FORMS, HOSTILE, LOW, Run, Tests, hostile_game, main, put, report, stored
from council.decimals import round_half_up
from council.game import write_game
from council.reports import Report
from council.tools.drawing import escape_xml, find_round_step, find_ticks, measure, wrap, write_percent

PLAIN = re.compile("[\x00-\x08\x0b\x0c\x0e-\x1f\x7f-\x9f\xad\u061c\u180e\u200b-\u200f\u2028-\u202e\u2060-\u206f\ufff9-\ufffb\U000e0000-\U000e007f\ufdd0-\ufdef\ufeff\ufffe\uffff]")


def draw(data, *words):
    """Returns the picture of a report: its root, and its bars and texts."""
    run = Run("bars", *words, input=data)
    root = ElementTree.fromstring(run.out)
    return root, [it for it in root.findall("{*}rect") if it.get("class") == "bar"], root.findall("{*}text")


class Pictures(Tests):
    def check_picture(self, data, places):
        """Each member has a bar for each share and index, as long as its value, with its number."""
        made = Report.read(data.split("\n")[:-1])
        root, bars, texts = draw(data, "--decimals", str(places))
        values = [value for it in made.members for value in [*(made.share(it, rule) for rule in range(len(made.quotas))), *(index.find(it) for index in made.indices)]]
        kinds = len(made.quotas) + len(made.indices)
        self.assertEqual([it.get("width") for it in bars], [f"{float(value / max(values)) * 460:.2f}" for value in values])
        shown = [it.text for it in texts]
        first = len(shown) - len(values) - len(made.members)
        names, numbers = shown[first :: kinds + 1], [it for at, it in enumerate(shown[first:]) if at % (kinds + 1)]
        self.assertEqual(names, [PLAIN.sub("\ufffd", it.name) for it in made.members])
        self.assertEqual(numbers, [round_half_up(it, places) for it in values])
        colors = [it.get("fill") for it in bars[:kinds]]
        self.assertEqual([it.get("fill") for it in bars], colors * len(made.members))
        self.assertEqual([it.get("fill") for it in root.findall("{*}rect") if it.get("class") == "key"], colors)
        self.assertEqual(len(set(colors)), kinds)
        # bars have room below each other, and texts in the picture
        tops = [float(it.get("y")) for it in bars]
        self.assertTrue(all(one + 8 < other for one, other in zip(tops, tops[1:])) and tops[-1] + 8 <= float(root.get("height")))
        for it in texts:
            x, wide, size = float(it.get("x")), float(root.get("width")), measure(it.text, float(it.get("font-size")))
            self.assertTrue(0 <= x - size if it.get("text-anchor") == "end" else x + size <= wide + 1, it.text)
        return shown

    def test_random_games(self):
        rng = random.Random(1)
        for _ in range(40):
            names = rng.sample(HOSTILE, rng.randint(1, 9))
            rules = [[rng.randint(0, 10 ** rng.randint(1, 9)) + 1 for _ in names] for _ in range(rng.randint(1, 4))]
            game = write_game(names, [rng.randint(1, sum(it)) for it in rules], list(zip(*rules)), rng.choice(["", "T" * 60 + " u", "\u00e9 <&>"]))
            self.check_picture(report(game, *rng.choice(FORMS)), rng.randint(1, 12))

    def test_examples_and_hostile_names(self):
        for data in stored("eec-1958"), stored("eu-27-nice"), stored("de-bundesrat"), report(hostile_game(4)):
            self.check_picture(data, 4)
        text = Run("bars", input=report(hostile_game(4))).out
        self.assertFalse(PLAIN.search(text) or "<script" in text)

    def test_legend(self):
        shown = [it for it in self.check_picture(stored("eu-27-nice"), 4) if it.startswith("share")]
        self.assertEqual(shown, [f"share of the votes, rule {it}" for it in ("1; quota 255 of 345 (73.91%)", "2; quota 620 of 1,000 (62%)", "3; quota 14 of 27 (51.85%)")])
        game = Run("from-table", "85%", "heads:2", input="Holder,Share held\nA,16.50%\nB,40.25%\nC,43.25%\n").out
        _, bars, texts = draw(report(game, "--swings"), "--game", put("game.toml", game), "--index", "penrose")
        self.assertEqual([it.text for it in texts][1:4], ['share of "Share held", rule 1; quota 85.00% of 100.00%', 'share of "heads", rule 2; quota 2 of 3 (66.67%)', "Penrose's measure (not a share)"])
        self.assertEqual(len(bars), 9)

    def test_titles(self):
        for title, rows in [("a  b", ["a  b"]), (" ", ["A game"]), ("T" * 60 + " " + "U" * 60 + " v", ["T" * 60, "U" * 60, "v"]), ("", ["A game"])]:
            root, _, texts = draw(report(write_game("A", [1], [[1]], title)))
            self.assertEqual([it.text for it in texts][: len(rows)], rows)
            self.assertEqual(root.find("{*}title").text, title if title.strip() else "A game")

    def test_what_is_refused_or_warned_of(self):
        game = put("other.toml", "quota = 1\nmember = [{name = 'A', weight = 1}]\n")
        self.check_refused(Run("bars", "--game", game, input=stored("eec-1958")), f"{game}: this is not the game of the report", status=1)
        self.check_refused(Run("bars", "--game", put("no.toml", "x"), input=stored("eec-1958")), "this is no game file")
        self.check_refused(Run("bars", "--game", put("long.toml", "#" * 65537), input=stored("eec-1958")), "longer than 65536 bytes")
        for places in "0", "13":
            self.check_refused(Run("bars", "--decimals", places, input=stored("eec-1958")), "--decimals", status=2)
        for data in "", "quota = 1\n", b"title\t\xff\n":
            self.check_refused(Run("bars", input=data), status=1)
        self.assertIn(f"the quota 5 is {LOW}, 10, so two coalitions", Run("bars", input=report("[5; 4, 4, 2]")).err)


class Drawing(Tests):
    def test_texts(self):
        self.assertEqual(escape_xml('<a b="&">\0\x85\u200e\u202e\ufdd0\ufffe\ud800\t\u00a0'), "&lt;a b=&quot;&amp;&quot;&gt;" + "\ufffd" * 7 + "\t\u00a0")
        for number in {*range(0x300), *range(0x610, 0x620), 0x180E, 0xE0041, 0xFEFF, *range(0x2000, 0x2070), *range(0xD7F0, 0xE010), *range(0xFDC0, 0xFE00), 0xFFFD, 0xFFFE, 0xFFFF, 0x10FFFF}:
            it = chr(number)
            self.assertEqual(escape_xml(it) == "\ufffd", bool(PLAIN.match(it)) or 0xD800 <= number <= 0xDFFF or number == 0xFFFD, hex(number))
        rng = random.Random(2)
        for _ in range(300):
            words = ["".join(rng.choices("aWi,é", k=rng.randint(1, 9))) for _ in range(rng.randint(1, 9))]
            most = rng.randint(10, 300)
            lines = wrap(words, most, 12)
            self.assertEqual(" ".join(lines).split(), words)
            self.assertTrue(all(measure(it, 12) <= most or " " not in it for it in lines))
            self.assertTrue(all(measure(f"{one} {other.split()[0]}", 12) > most for one, other in zip(lines, lines[1:])))
            self.assertAlmostEqual(measure("".join(words), 12), sum(measure(it, 12) for it in "".join(words)))

    def test_round_numbers(self):
        rng = random.Random(3)
        steps = [Fraction(it) * Fraction(10) ** power for power in range(-6, 20) for it in (1, 2, 5)]
        for _ in range(500):
            span, most = Fraction(rng.randint(1, 10 ** rng.randint(1, 14)), rng.choice([1, 1, 7, 400])), rng.randint(1, 6)
            self.assertEqual(find_round_step(span, most), next(it for it in steps if it * most >= span))
            first = rng.randint(0, 10**6)
            last = first + rng.randint(0, 10**6)
            ticks = find_ticks(first, last, most)
            self.assertTrue(len(ticks) <= most + 1 and all(first <= it <= last for it in ticks))
            self.assertTrue(len({other - one for one, other in zip(ticks, ticks[1:])}) <= 1)
        self.assertEqual([write_percent(*it) for it in [(1, 1), (1, 800), (12, 17), (501, 1000), (999999, 10**6), (0, 5)]], ["100%", "0.13%", "70.59%", "50.1%", "100%", "0%"])


main("bars")
