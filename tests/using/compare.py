#!/usr/bin/env python3
"""council-tools compare: reports side by side, differences, and names that look like one."""
import csv
import io
import os
import subprocess
import unicodedata
from fractions import Fraction

from cases import FORMS, HOSTILE, TEMP, TOP, Run, Tests, either_game, hostile_game, main, put, report, stored
from council.decimals import cut_off
from council.game import write_game
from council.reports import Report
from council.tools.compare import is_near
from council.tools.formats import escape_latex


def game(name, *names):
    return put(f"{name}.tsv", report(write_game(names, [len(names)], [[1]] * len(names))))


def example(name):
    return f"{TOP}/examples/{name}.tsv"


def measure_width(text):
    return sum(0 if unicodedata.combining(it) else 2 if unicodedata.east_asian_width(it) in "WF" else 1 for it in text)


class Compare(Tests):
    def test_each_cell(self):
        """Weights and indices are those of the reports, and each difference is that of the fractions."""
        for words in FORMS:
            paths = [put(f"{it}.tsv", report(open(f"{TOP}/examples/{it}.toml", encoding="utf-8").read(), *words)) for it in ("eec-1958", "ec-1973", "de-bundesrat")]
            lines = self.check_cells(paths, [], 7 if words == ["--swings"] else 2 if not words else 5)
            counts = ["minimal winning coalitions: 4"] * ("--only-swings" not in words) + ["winning coalitions: 14", "power to act: 0.218750"] * bool(words)
            self.assertEqual(lines[0], f"1  Council of the European Economic Community, 1958: 12 of 17, {', '.join(counts)}")
        # of reports of two forms, what both have
        self.check_cells([paths[0], *(put(f"{at}.tsv", report("[5; 4, 3, 2]", "--swings")) for at in range(2))], ["--index", "penrose"], 1)
        self.check_refused(Run("compare", paths[0], example("board")), "no index in common", status=1)
        self.check_refused(Run("compare", paths[0], paths[1], "--index", "public-good"), "council makes it without --only-swings", status=2)

    def check_cells(self, paths, words, number):
        lines = Run("compare", *paths, *words).out.split("\n")[:-1]
        made = [Report.read(open(it, encoding="utf-8")) for it in paths]
        indices = [it for it in made[0].indices if not words or it.word() in words]
        self.assertEqual(len(indices), number)
        names, rows = list(dict.fromkeys(it.name for one in made for it in one.members)), []
        for name, line in zip(names, lines[7:]):
            cells, members = [], [next((it for it in one.members if it.name == name), None) for one in made]
            for at, it in enumerate(members):
                cells += ["/".join(f"{weight:,}" for weight in it.weights), *(cut_off(index.find(it)) for index in indices)] if it else ["-"] * (number + 1)
                if at:
                    differences = [index.find(it) - index.find(members[0]) for index in indices] if it and members[0] else []
                    cells += [("+" if it > 0 else "-") * (abs(it) >= Fraction(1, 10**6)) + cut_off(abs(it)) for it in differences] or ["-"] * number
            self.assertEqual(line.split(), [*name.split(), *cells])
            rows.append([name, *cells])
        self.assertEqual((len(lines), len({measure_width(it) for it in lines[5:]})), (7 + len(names), 1))
        # the same as CSV and LaTeX
        found = list(csv.reader(io.StringIO(Run("compare", *paths, *words, "--format", "csv").out)))
        self.assertEqual(found[1:], [["" if it == "-" else it.replace(",", "") for it in row] for row in rows])
        briefs = [f"{it.name} {at}" for at in ("1", "2", "2-1") for it in indices]
        self.assertEqual(found[0][: 3 + 3 * number], ["name", "weight 1", *briefs[:number], "weight 2", *briefs[number:]])
        text = Run("compare", *paths, *words, "--format", "latex").out
        self.assertEqual([line[:-3].split(" & ") for line in text[text.index("\\midrule") : text.index("\\bottomrule")].split("\n")[1:-1]], [[escape_latex(it) for it in row] for row in rows])
        return lines

    def test_units(self):
        game = '# Rule 1: "Share", percent, 1 decimal\n' + write_game("AB", [501], [[823], [177]])
        path, data = put("unit.toml", game), put("unit.tsv", report(game))
        run = Run("compare", "--game", path, "--game", path, data, data)
        self.assertTrue(run.out.startswith("1  A game: 50.1% of 100.0%, minimal") and run.out.count("82.3%") == 2, run.out)
        self.check_refused(Run("compare", "--game", path, data, data), "there are 2 reports, and 1 game files")

    def test_ways(self):
        """Ways are shown, and named if they differ; nothing is refused."""
        data = report(either_game())
        one, again = put("either.tsv", data), put("again.tsv", data.replace("ways\t1 2", "ways\t2 1"))
        run = Run("compare", one, put("both.tsv", report(either_game().replace("ways", "# ways"))))
        self.assertTrue(run.out.startswith("1  Either: 51/2 of 100/3 (by rule 1, or by rule 2), minimal winning coalitions: 3\n2  Either: 51/2 of 100/3, minimal"), run.out)
        self.assertEqual((run.status, run.err), (0, "council-tools compare: the ways differ: a motion passes in game 1 by rule 1, or by rule 2; in game 2 by rules 1 and 2\n"))
        self.assertEqual(Run("compare", one, again).err, "")

    def test_widths(self):
        run = Run("compare", put("wide.tsv", report(write_game(["A", "e\u0301", "中Ｘ", "D"], [3], [[1]] * 4))), game("one", "A"))
        self.assertEqual(len({measure_width(it) for it in run.out.split("\n")[5:-1]}), 1)
        run = Run("compare", put("hard.tsv", report(hostile_game())), put("several.tsv", report(hostile_game(3))))
        self.assertTrue(all(it in run.out for it in HOSTILE if it.isprintable()) and all(it.isprintable() or it == "\n" for it in run.out))

    def test_names_that_look_like_one(self):
        for one, other in [("Czech Republic", "Czechia"), ("Germany (West)", "Germany"), ("Türkiye", "turkiye"), ("Côte d’Ivoire", "COTE D'IVOIRE"), ("Weißig", "WEISSIG"), ("ＡＢＣＤ", "abcd"), ("Party 1", "Party 2"), ("--", "++")]:
            self.assertTrue(is_near(one, other) and is_near(other, one), one)
        for one, other in [("United Kingdom", "United States"), ("Slovakia", "Slovenia"), ("North Macedonia", "North Korea"), ("Alberta", "Belgium"), ("A", "B"), ("--", "Abcd"), ("Abc defghijk", "Abc"), ("abcdefgh", "efghabcd")]:
            self.assertFalse(is_near(one, other) or is_near(other, one), one)
        old, new = game("old", "Czech Republic", "Iceland"), game("new", "Czechia", "Norway", "x")
        self.assertEqual(Run("compare", old, new).err, "council-tools compare: \"Czech Republic\" of report 1 and \"Czechia\" of report 2 may be one member: --same 'Czech Republic' 'Czechia' makes them one\n")
        run = Run("compare", old, "--same", "Czechia", "Czech Republic", new)
        self.assertEqual((run.err, run.out.count("Czech")), ("", 1))
        self.assertEqual(Run("compare", game("both", "Iceland", "Iceland (1)"), old).err, "")

    def test_options_can_be_pasted_into_a_shell(self):
        one = "members\t1\nquota\t1\ntotal\t1\nminimal\t1\nmember\tNAME\t1\t1\t1/1\t1.000000\t1/1\t1.000000\n"
        for name in [*HOSTILE[:-6], "'; touch x'", "$(touch x)", "Land\u009bA", "Land!1", "a\\'b\u0085 c"]:
            if len(name.encode()) <= 60 and sum(map(str.isalnum, name)) >= 4:
                run = Run("compare", put("a.tsv", one.replace("NAME", name)), put("b.tsv", one.replace("NAME", f"{name} 2")))
                option = run.err.split("may be one member: ")[-1].split(" makes them one")[0]
                found = subprocess.run(["bash", "-c", f"printf '%s\\0' {option}"], cwd=TEMP, capture_output=True)
                self.assertEqual(found.stdout.decode().split("\0")[:-1], ["--same", name, f"{name} 2"])
        self.assertFalse(os.path.exists(f"{TEMP}/x"))

    def test_what_is_refused(self):
        old, new = game("old", "Iceland", "Türkiye"), game("new", "Norway")
        for words, text in [([old], "name two reports or more"), (["-", "-"], "name two reports or more"), ([old, new, "--same", "Iceland", "Türkiye"], "one report has both"), ([old, new, "--same", "a", "b"], "no report has one of them"), ([old, put("half.tsv", stored("board")[:-20])], "half.tsv")]:
            self.check_refused(Run("compare", *words), text)


main("compare")
