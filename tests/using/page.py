#!/usr/bin/env python3
"""council-tools page: its elements and its texts. What a browser shows of it is in browser.py."""
import base64
import hashlib
import html
import os
import random
import re
from html.parser import HTMLParser
from unittest import mock

from cases import FORMS, HOSTILE, LOW, PROGRAM, TEMP, TOP, Run, Tests, either_game, hostile_game, main, put, report, stored
from council.columns import INDICES
from council.decimals import cut_off, round_half_up, write_fraction
from council.game import write_game
from council.reports import Report

# a page shows U+FFFD instead of letters that it must not have
REFUSED = re.compile("[\ufffe\uffff\u2028\u202e\x80-\x9f]")


class Page(HTMLParser):
    """The elements of a page: whether each is closed, the texts of each kind, and the cells."""

    def __init__(self, text):
        super().__init__()
        self.open, self.all, self.links, self.texts, self.is_good = [], [], [], {}, True
        self.feed(text)
        self.is_good = self.is_good and not self.open
        self.rows = [[html.unescape(re.sub("<[^>]*>", "", it)) for it in re.findall(r"<td[^>]*>(.*?)</td>", row)] for row in re.findall(r"<tr>(.*?)</tr>", text)]

    def handle_starttag(self, tag, attributes):
        self.all.append(tag)
        self.links += [value for key, value in attributes if key in ("src", "href")]
        self.texts.setdefault(tag, []).append("")
        if tag not in ("meta", "br"):
            self.open.append(tag)

    def handle_endtag(self, tag):
        self.is_good = self.is_good and bool(self.open) and self.open.pop() == tag

    def handle_data(self, data):
        for tag in set(self.open):
            self.texts[tag][-1] += data


def make(*words, **more):
    return Run("page", "--program", PROGRAM, *words, **more)


class Pages(Tests):
    def check_page(self, game, *options):
        """Each cell and bar is that of the report, and the game file of the page makes it again."""
        data = report(game, *options)
        made, run = Report.read(data.split("\n")[:-1]), make(input=data)
        page = Page(run.out)
        self.assertTrue(page.is_good and page.links == [] and page.all.count("script") == 1 and not REFUSED.search(run.out))
        names = [REFUSED.sub("\ufffd", it.name) for it in made.members]
        rows, rules = [it for it in page.rows if it], range(len(made.quotas))
        found = [[index.find(it) for index in made.indices] for it in made.members]
        self.assertEqual(rows, [[
            name, *map(cut_off, its), *(text for rule in rules for text in (f"{it.weights[rule]:,}", round_half_up(made.share(it, rule), 4))),
            *(f"{getattr(it, group.column):,}" for group in made.groups), *map(write_fraction, its),
        ] for name, it, its in zip(names, made.members, found)])
        values = [value for it, its in zip(made.members, found) for value in [*(made.share(it, rule) for rule in rules), *its]]
        self.assertEqual(re.findall(r'"value">(.*?)<', run.out), [round_half_up(it, 4) for it in values])
        self.assertEqual(re.findall(r"\* (\d\.\d{4})\)", run.out), [f"{float(it / max(values)):.4f}" for it in values])
        # by its keys a column is sorted
        for column in range(1, 2 + len(made.indices)):
            keys = [int(it) for it in re.findall(r'data-key="(\d+)"', run.out)][column :: len(rows[0])]
            sorted_by = [[*its, it.weights[0]][column - 1] for it, its in zip(made.members, found)]
            self.assertEqual([one < other for one in keys for other in keys], [one < other for one in sorted_by for other in sorted_by])
        self.assertEqual(run.out.count("<small>("), made.listed)
        again = [it for it in re.search("council (--[a-z -]*) FILE", run.out)[1].split() if it != "--tally"]
        self.assertEqual(report(page.texts["pre"][0], *again), re.sub("coalition\t.*\n", "", data))
        # what each index is comes with its name
        footer = page.texts["footer"][0].lower()
        self.assertEqual([it for it in INDICES if it.title.lower() in footer], made.indices)
        return page

    def test_random_games(self):
        rng = random.Random(1)
        for _ in range(20):
            names = rng.sample([it for it in HOSTILE if not REFUSED.search(it)], rng.randint(1, 8))
            rules = [[rng.randint(1, 10**4) for _ in names] for _ in range(rng.randint(1, 4))]
            self.check_page(write_game(names, [rng.randint(1, sum(it)) for it in rules], list(zip(*rules)), "A <title> & more"), *rng.choice([["--list"], ["--list", "--swings"], *FORMS]))

    def test_ways(self):
        page = self.check_page(either_game(), "--list", "--swings")
        self.assertIn("at least 51 of 100 (51%) under rule 1, or 2 of 3 (66.67%) under rule 2. Members: 3.", page.texts["main"][0])
        game = Run("from-table", "--ways", "2 1", "heads:2", "85", input="Holder,Share\nA,16\nB,40\nC,43\n").out
        run = make("--game", put("ways.toml", game), put("ways.tsv", report(game)))
        self.assertIn("A motion passes by rule 2, or by rule 1", Page(run.out).texts["li"])
        low = either_game().replace("[51, 2]", "[51, 1]")
        self.assertIn("At most half of the total wins", make(input=report(low)).out)
        self.assertNotIn("At most half of the total wins", make(input=report(low.replace("ways", "# ways"))).out)
        self.check_refused(make("--game", put("both.toml", either_game().replace("ways", "# ways")), input=report(either_game())), "this is not the game of the report")

    def test_texts(self):
        page = self.check_page(open(f"{TOP}/examples/eec-1958.toml", encoding="utf-8").read(), "--list")
        self.assertIn("Germany, France, Italy (12)", page.texts["li"])
        self.assertIn("at least 12 of 17 (70.59%). Members: 6. Minimal winning coalitions: 4.", page.texts["main"][0])
        run = make(input=stored("eu-27-lisbon"))
        self.assertFalse(re.search("coalitions<|About the data|Source of the data|At most half|<p></p>|<ul></ul>", run.out))
        run_of_low = make(input=report("[5; 4, 4, 2]"))
        self.assertTrue("At most half of the total wins" in run_of_low.out and f"the quota 5 is {LOW}, 10, so two" in run_of_low.err)
        readme = " ".join(it for path in ("README.md", "docs/DEFINITIONS.md") for it in open(f"{TOP}/{path}", encoding="utf-8").read().split())
        sources = re.findall("<li>(.*?)</li>", run.out[run.out.index("<footer>"):])
        sources += re.findall("<li>(.*?)</li>", make(input=report("[5; 4, 4, 2]", "--only-swings")).out.split("<footer>")[1])
        self.assertEqual((len(sources), [it for it in sources if re.sub("</?i>", "*", it) not in readme]), (7, []))
        script = re.search(r"<script>(.*)</script>", run.out, re.S)[1]
        hashed = base64.b64encode(hashlib.sha256(script.encode()).digest()).decode()
        self.assertIn(f"content=\"default-src 'none'; style-src 'unsafe-inline'; script-src 'sha256-{hashed}'\">", run.out)

    def test_two_games(self):
        run = make(f"{TOP}/examples/eec-1958.tsv", "-", input=report(hostile_game(2)))
        page = Page(run.out)
        self.assertEqual((page.is_good, page.links, page.all.count("section"), page.texts["title"], page.all.count("script")), (True, ["#game1", "#game2"], 2, ["2 games: power indices"], 1))
        self.assertLessEqual({REFUSED.sub("\ufffd", it) for it in HOSTILE}, set(page.texts["bdi"]))
        self.assertFalse(REFUSED.search(run.out))

    def test_long_lists(self):
        for number, title in [(100, "<details open><summary>100 c"), (101, "<details><summary>101 c"), (1001, "the first 1,000 of 1,001</h2>\n<details><summary>1,000 c")]:
            run = make(input=f"members\t1\nquota\t1\ntotal\t1\nminimal\t{number}\n" + "coalition\t1\t1\tA\n" * number + f"member\tA\t1\t{number}\t1/1\t1.000000\t1/1\t1.000000\n")
            self.assertTrue(title in run.out and run.out.count("<small>(1)</small>") == min(number, 1000))

    def test_the_game_file(self):
        game = Run("from-table", "heads:2", "85%", "--source", "a & b", "--heading", "2", input="Votes of 2019,\nHolder,Share held\nA,16.50%\nB,40.25%\nC,43.25%\n").out
        path, data = put("game.toml", game), put("game.tsv", report(game))
        run = make("--game", path, data)
        page, text = Page(run.out), html.unescape(re.sub("<[^>]*>", "", run.out))
        self.assertEqual((run.err, page.texts["pre"]), ("", [game]))
        self.assertTrue(all(it[2:] in page.texts["li"] for it in game.split("\n") if it.startswith("#")))
        self.assertTrue(all(it in text for it in ("Source of the data: a & b", "at least 2 of 3 (66.67%) under rule 1 (heads) and 85.00% of 100.00% under rule 2 (Share held)", "16.50%")))
        self.assertEqual(page.texts["th"][3:7], ["heads", "heads, of all", "Share held", "Coalitions"])
        self.assertIn("Source of the data: c</p>", make("--source", "c", "--game", path, data).out)
        self.assertEqual(make("--game", "-", put("other.tsv", report("[5; 4, 4, 2]")), input="[5; 4, 4, 2]").status, 0)
        for words in ["--game", path, data, data], ["--game", path, "--game", path, data], [f"{TEMP}/none.tsv"], [f"{TOP}/examples/board.toml"], []:
            self.check_refused(make(*words))

    def test_the_version_of_the_program(self):
        data, cannot = f"{TOP}/examples/eec-1958.tsv", "this page cannot tell."
        for text, wanted in [("printf 'council 9 <\\377\\n\\nx'", "was made: council 9 &lt;\ufffd, x."), ("echo council 9\nexit 1", cannot), ("echo counsel 9", cannot), ("echo noise >&2\ncat\necho council 9", "was made: council 9.")]:
            path = put("version", f"#!/bin/sh\n{text}\n")
            os.chmod(path, 0o755)
            self.assertIn(wanted, Run("page", "--program", path, data).out)
        path = put("foreign", "\x7fELF")
        os.chmod(path, 0o755)
        for it in f"{TEMP}/none", path:
            with mock.patch.dict(os.environ, COUNCIL_PROGRAM=it):
                self.assertIn(cannot, Run("page", data).out)
        self.check_refused(Run("page", "--program", "no-such", data), "no-such: no program of that name", status=1)


main("page")
