#!/usr/bin/env python3
"""council-tools sweep: a rule's quota from one number to another, its table and its picture."""
import csv
import io
import itertools
import os
import pty
import random
import re
import select
import subprocess
import sys
from unittest import mock
from xml.etree import ElementTree

from cases import HOSTILE, LOW, PROGRAM, TEMP, TOOLS, TOP, Run, Tests, hostile_game, main, put, report
from council.columns import INDICES, MINIMAL, SWINGS
from council.decimals import cut_off, write_fraction
from council.game import write_game
from council.reports import Report
from council.tools.command import find_index
from council.tools.drawing import measure
from council.tools.formats import escape_latex
from council.tools.sweep import Progress, spread

COUNCIL = f"{TOP}/examples/eec-1958.toml"
FUND = '# Rule 1: "Share held", percent, 2 decimals\n' + write_game("ABC", [8500], [[1650], [4025], [4325]])


def sweep(*words, **more):
    return Run("sweep", "--program", PROGRAM, *words, **more)


def rows(run):
    return [it.split("\t") for it in run.out.split("\n")[1:-1]]


def texts(root, kind):
    return [it.text for it in root.findall("{*}text") if it.get("class") == kind]


class Sweeps(Tests):
    def check_sweep(self, names, rules, rule, quotas, kind, ways=()):
        """Each row is that of the report of its game, and the picture has a point for each."""
        words = ["--rule", str(rule + 1), "--from", str(quotas[0]), "--to", str(quotas[-1]), "--step", str(quotas.step), "--index", kind, "--picture", f"{TEMP}/a.svg"]
        run = sweep("-", *words, input=write_game(names, [quota for quota, _ in rules], list(zip(*(it for _, it in rules))), "T", ways=ways))
        group = SWINGS if kind in [it.word() for it in SWINGS.indices] else MINIMAL
        self.assertEqual((run.status, run.out.split("\n")[0]), (0, "\t".join(["quota", "name", *group.columns()[1:]])), run.err)
        made = [report(write_game(names, [quota if at == rule else it for at, (it, _) in enumerate(rules)], list(zip(*(it for _, it in rules))), ways=ways), "--swings") for quota in quotas]
        wanted, lines = [], {}
        for quota, it in zip(quotas, made):
            for at, member in enumerate(Report.read(it.split("\n")[:-1]).members):
                its = [index.find(member) for index in group.indices]
                wanted.append([str(quota), member.name, *map(cut_off, its), *map(write_fraction, its)])
                lines.setdefault(at, []).append(find_index(kind).find(member))
        self.assertEqual(rows(run), wanted)
        # the same as CSV, and as LaTeX without fractions
        data = write_game(names, [quota for quota, _ in rules], list(zip(*(it for _, it in rules))), "T", ways=ways)
        found = list(csv.reader(io.StringIO(sweep("-", *words, "--format", "csv", input=data).out)))
        self.assertEqual([[it.lstrip("'") for it in row] for row in found], [["quota", "name", *group.columns()[1:]], *([it.lstrip("'") for it in row] for row in wanted)])
        text = sweep("-", *words, "--format", "latex", input=data).out
        text = text[text.index("\\midrule") : text.index("\\bottomrule")].split("\n")[1:-1]
        self.assertEqual([line[:-3].split(" & ") for line in text], [[quota, escape_latex(name), *its[: len(group.indices)]] for quota, name, *its in wanted])
        # all indices at once
        found = [it.split("\t") for it in sweep("-", *words, "--all", input=data).out.split("\n")]
        at = found[0].index(group.columns()[1])
        self.assertEqual((found[0], [[*row[:2], *row[at : at + len(wanted[0]) - 2]] for row in found[1:-1]]), (["quota", "name", *(it for of in (MINIMAL, SWINGS) for it in of.columns()[1:])], wanted))
        root = ElementTree.parse(f"{TEMP}/a.svg").getroot()
        drawn = [[tuple(map(float, point.split(","))) for point in it.get("points").split()] for it in root.findall("{*}polyline")]
        different = list(dict.fromkeys(map(tuple, lines.values())))
        self.assertEqual([len(it) for it in drawn], [len(quotas)] * len(different))
        grid = [float(it.get("d").split()[1].split("h")[0]) for it in root.findall("{*}path") if it.get("d").endswith("h560")]
        top = float(texts(root, "index")[-1])
        for its, values in zip(drawn, different):
            for (x, y), value, quota in zip(its, values, quotas):
                self.assertAlmostEqual((grid[0] - y) / (grid[0] - grid[-1]) * top, float(value), delta=1e-4)
                self.assertAlmostEqual(x, 60 + (560 * (quota - quotas[0]) / (quotas[-1] - quotas[0]) if len(quotas) > 1 else 280), delta=0.02)
        return root

    def test_random_games(self):
        rng = random.Random(1)
        for _ in range(12):
            names = rng.sample([it for it in HOSTILE if it.isprintable() and it.strip()], rng.randint(1, 7))
            rules = [[rng.randint(1, 9) for _ in names] for _ in range(rng.randint(1, 3))]
            rules = [(rng.randint(1, sum(it)), it) for it in rules]
            rule = rng.randrange(len(rules))
            first, step = rng.randint(1, sum(rules[rule][1])), min(rng.randint(1, 4), sum(rules[rule][1]))
            last = first + step * ((sum(rules[rule][1]) - first) // step)
            ways = rng.choice([[], [[at] for at in range(len(rules), 0, -1)]])
            self.check_sweep(names, rules, rule, range(first, last + 1, step), rng.choice([it.word() for it in INDICES]), ways)

    def test_labels(self):
        root = self.check_sweep(["Germany", "France", "Italy", "Belgium", "Netherlands", "Luxembourg"], [(12, [4, 4, 4, 2, 2, 1])], 0, range(1, 18), "public-good")
        self.assertEqual((texts(root, "member"), texts(root, "quota"), texts(root, "index")), (["Germany, France, Italy", "Belgium, Netherlands", "Luxembourg"], ["5", "10", "15"], ["0.00", "0.05", "0.10", "0.15", "0.20", "0.25"]))
        self.assertIn("public good index, by the quota (total 17)", [it.text for it in root.findall("{*}text")])
        ends = [re.fullmatch(r"M(\S+ \S+)L\S+ (\S+)h12", it.get("d")) for it in root.findall("{*}path") if it.get("class") == "leader"]
        self.assertEqual([it[1] for it in ends], [it.get("points").split()[-1].replace(",", " ") for it in root.findall("{*}polyline")])
        self.assertEqual([f"{float(it.get('y')) - 4:.2f}" for it in root.findall("{*}text") if it.get("class") == "member"], [it[2] for it in ends])
        # thirty lines can be told apart, and their labels do not touch
        root = self.check_sweep([str(it) for it in range(1, 31)], [(40, list(range(1, 31)))], 0, range(440, 447), "public-good")
        styles = [(it.get("stroke"), it.get("stroke-dasharray")) for it in root.findall("{*}polyline")]
        self.assertTrue(len(set(styles)) == len(styles) > 20)
        places = sorted(float(it.get("y")) for it in root.findall("{*}text") if it.get("class") == "member")
        self.assertTrue(all(other - one > 14.9 for one, other in zip(places, places[1:])) and places[-1] < float(root.get("height")))
        for at in range(200):
            rng = random.Random(at)
            wanted, heights = [rng.randint(0, 99) for _ in range(5)], [rng.randint(1, 20) for _ in range(5)]
            found = sorted(zip(spread(wanted, heights, 0, 100), heights))
            self.assertTrue(found[0][0] >= 0 and all(one + high <= other for (one, high), (other, _) in zip(found, found[1:])) and sum(found[-1]) <= 100)

    def test_hostile_names_and_titles(self):
        run = sweep(put("hard.toml", hostile_game(2)), "--rule", "2", "--from", str(len(HOSTILE) - 1), "--picture", f"{TEMP}/hard.svg")
        self.assertEqual([it[1] for it in rows(run)[: len(HOSTILE)]], HOSTILE)
        text = open(f"{TEMP}/hard.svg", encoding="utf-8").read()
        self.assertFalse(re.search("[\ufffe\uffff\u200b\u202e]", text) or "<script" in text)
        root = ElementTree.fromstring(text)
        self.assertTrue(all(float(it.get("x")) + measure(it.text, float(it.get("font-size"))) <= float(root.get("width")) + 1 for it in root.findall("{*}text") if it.get("text-anchor") == "start"))

    def test_units(self):
        """Quotas are in the unit of the game file, in the words, in the table and at the axis."""
        for words, wanted in [(["50%"], "50.00"), (["50.01"], "50.01"), (["50,01"], "50.01"), (["2/3"], "66.67"), ([">50%"], "50.01"), (["85"], "85.00")]:
            self.assertEqual(rows(sweep("-", "--from", *words, "--to", "90", "--step", "50", input=FUND))[0][0], wanted)
        self.assertEqual([it[0] for it in rows(sweep("-", "--from", "50", "--to", "50.6", "--step", "0.25", input=FUND))[::3]], ["50.00", "50.25", "50.50"])
        run = sweep("-", "--from", ">50%", "--step", "5", "--picture", f"{TEMP}/fund.svg", input=FUND)
        self.assertEqual([it[0] for it in rows(run)[::3]], [f"{it}.01" for it in range(50, 100, 5)])
        root = ElementTree.parse(f"{TEMP}/fund.svg").getroot()
        self.assertEqual(texts(root, "quota"), ["60.00%", "70.00%", "80.00%", "90.00%"])
        self.assertIn('public good index, by the quota, "Share held" (total 100.00%)', [it.text for it in root.findall("{*}text")])
        self.assertIn(f"quotas up to 49.00% are {LOW}, 100.00%", sweep("-", "--from", "49", "--to", "51", "--step", "2", input=FUND).err)

    def test_what_is_hardly_meant_is_warned_of(self):
        self.assertEqual(sweep(COUNCIL, "--from", "9").err, "")
        self.assertIn(f"quotas up to 8 are {LOW}, 17, so two coalitions", sweep(COUNCIL).err)
        self.assertIn(f"quotas up to 2,000 of rule 2 are {LOW}, 4,000", sweep("--rule", "2", "--from", "1000", "--step", "1000", "-", input=write_game("AB", [1, 1, 1], [[1, 2000, 1]] * 2)).err)
        for ways, told in ([[1], [2, 3]], False), ([[1, 2], [3]], True), ([[1, 2], [2, 3]], True), ([[1, 2, 3]], False):
            run = sweep("--rule", "2", "-", input=write_game("AB", [1, 1, 2], [[1, 1, 1]] * 2, ways=ways))
            self.assertEqual((run.status, run.err.count("quotas up to 1 of rule 2")), (0, told))
        for run in (sweep("-", "--from", "51", input=(slip := "[51; 1,000, 49, 1]")), Run("bars", "--game", put("slip.txt", slip), input=report(slip))):
            self.assertIn("a comma ends a weight", run.err)
        low = Run("bars", "--game", put("slip.txt", "[25; 1,000, 49]"), input=report("[25; 1,000, 49]")).err
        self.assertLess(low.index("a comma ends a weight"), low.index("the quota 25 is at most half"))

    def test_what_is_refused(self):
        kept = put("kept.svg", "kept")
        for words, text in [(["--to", "18"], "comes to 18, and must be from 1 to 17"), (["--rule", "2"], "there is no rule 2: the game has 1"), (["--rule", "0"], "no rule 0"), (["--from", "5", "--to", "4"], "no quota from 5 to 4"), (["--step", "0"], "from 1 to 17"), (["--index", "power"], "--index")]:
            self.check_refused(sweep(COUNCIL, *words, "--picture", kept), text, status=2)
            self.assertEqual(open(kept, encoding="utf-8").read(), "kept")
        self.check_refused(sweep("-", input="[50000; 50000]"), "50,000 quotas, and 20,000 are the most", status=2)
        self.check_refused(sweep("-", input="quota = 9\nmember = [{name = 'A', weight = 1}]\n"), "council: quota out of range; line 1", status=3)
        self.check_refused(sweep(COUNCIL, "--from", "9", "--picture", f"{TEMP}/none/a.svg"), "No such file", status=1)


class Terminals(Tests):
    def test_a_name_moves_no_terminal(self):
        moves = put("moves.toml", 'quota = 1\nmember = [{name = "A\\u009b2JB", weight = 1}]\n')
        self.assertEqual(rows(sweep(moves))[0][1], "A\x9b2JB")
        leader, follower = pty.openpty()
        subprocess.run([sys.executable, TOOLS, "sweep", "--program", PROGRAM, moves], stdout=follower, check=True)
        self.assertEqual(os.read(leader, 4096).decode().split("\t")[-5], "A 2JB")

    def test_rows_come_as_they_are_computed(self):
        # each report waits for a line from here: that of the game, of the last quota, of the first
        os.mkfifo(f"{TEMP}/turns")
        turns = os.open(f"{TEMP}/turns", os.O_RDWR)
        slow = put("slow", f'#!/bin/sh\nread -r _ <"{TEMP}/turns"\nexec "{PROGRAM}" "$@"\n')
        os.chmod(slow, 0o755)
        child = subprocess.Popen([sys.executable, TOOLS, "sweep", "--program", slow, COUNCIL, "--from", "10"], stdout=subprocess.PIPE, env={**os.environ, "PYTHONUNBUFFERED": ""})
        os.write(turns, b"\n" * 3)
        came = select.select([child.stdout], [], [], 60)[0]
        early = os.read(child.stdout.fileno(), 1 << 16) if came else b""
        os.write(turns, b"\n" * 6)
        self.assertEqual((early.count(b"\n"), child.communicate()[0].count(b"\n")), (1 + 6, 7 * 6))
        os.close(turns)

    def test_progress(self):
        shown = mock.Mock(wraps=io.StringIO(), **{"isatty.return_value": True})
        with mock.patch("time.monotonic", side_effect=itertools.count()), mock.patch("sys.stderr", shown), mock.patch("sys.stdout", io.StringIO()):
            it = Progress(8)
            for _ in range(3):
                it.step()
            it.end()
        self.assertEqual(shown.getvalue(), "".join(f"\rcouncil-tools sweep: {text}\x1b[K" for text in ("2 of 8 quotas, some 6 s left", "3 of 8 quotas, some 5 s left")) + "\r\x1b[K")


main("sweep")
