#!/usr/bin/env python3
"""council-tools export: a report as CSV, JSON, LaTeX and Markdown."""
import csv
import io
import json
import os
import random
import re
import shutil
import subprocess
import unicodedata
from fractions import Fraction

from cases import FORMS, HOSTILE, TEMP, Run, Tests, either_game, hostile_game, main, put, report, stored
from council.decimals import cut_off, round_half_up, write_fraction
from council.game import write_game
from council.reports import Report
from council.tools.export import FORMATS, make_pair

HARD, SEVERAL = report(hostile_game()), report(hostile_game(3))
TWO = report(write_game("ABCD", [5000, 2], [[3000, 1], [2000, 1], [1000, 1], [1000, 1]], "A & É"), "--list", "--swings")
# letters that print letter by letter, as LaTeX reads them
LATEX = {"\\textbackslash{}": "\\", "\\textasciitilde{}": "~", "\\textasciicircum{}": "^", "\\textless{}": "<", "\\textgreater{}": ">", "\\textbar{}": "|", "{\\char34}": '"'}


def of(*names, weight=1):
    """Returns the report of a game in which members of these names decide together."""
    return report(write_game(names, [len(names) * weight], [[weight]] * len(names)))


def read_latex(text):
    """Returns what LaTeX prints of a text."""
    for it, letter in LATEX.items():
        text = text.replace(it, "\x01" + str(list(LATEX).index(it)) + "\x02")
    assert not re.search(r"(?<!\\)[&%$#_~^<>|\"]", text), text
    text = re.sub(r"\\([&%$#_{} ])", lambda it: {"{": "\x03", "}": "\x04"}.get(it[1], it[1]), text)
    assert not re.search("--|''|``|,,|[?!]`|  |\\\\", text.replace("{}", "\x05")) or "\\" not in text, text
    text = text.replace("{", "").replace("}", "").replace("\x03", "{").replace("\x04", "}")
    return re.sub("\x01(\\d)\x02", lambda it: list(LATEX.values())[int(it[1])], text)


class Export(Tests):
    def find_cells(self, made, places, form):
        """Returns what each cell of a table of all columns has to be, as texts."""
        write = cut_off if places is None else lambda it: round_half_up(it, places)
        rows = []
        for it in made.members:
            shares = [cut_off(made.share(it, rule)) if places is None else round_half_up(made.share(it, rule), places) for rule in range(len(made.quotas))]
            numbers = [f"{weight:,}" if form != "csv" else str(weight) for weight in it.weights]
            groups = []
            for group in made.groups:
                exact, number = [index.find(it) for index in group.indices], getattr(it, group.column)
                groups += [str(number) if form == "csv" else f"{number:,}", *map(write, exact), *map(write_fraction, exact)]
            rows.append([it.name, *numbers, *shares, *groups])
        return rows

    def test_each_cell(self):
        rng = random.Random(1)
        for _ in range(25):
            names = [f"m{at}" for at in range(rng.randint(1, 9))]
            rules = [[rng.randint(1, 10 ** rng.randint(1, 9)) for _ in names] for _ in range(rng.randint(1, 3))]
            data = report(write_game(names, [rng.randint(1, sum(it)) for it in rules], list(zip(*rules))), *rng.choice(FORMS))
            made, places = Report.read(data.split("\n")[:-1]), rng.choice([None, 1, 2, 7, 30])
            words = ["--columns", ",".join(["name", "weight", "share", *(it for group in made.groups for it in group.columns())]), *([] if places is None else ["--decimals", str(places)])]
            found = list(csv.reader(io.StringIO(Run("export", "csv", *words, input=data).out)))
            self.assertEqual(found[1:], self.find_cells(made, places, "csv"))
            found = list(csv.reader(io.StringIO(Run("export", "csv", *words, "--decimal", ",", input=data).out), delimiter=";"))
            self.assertEqual([[it.replace(",", ".") for it in row] for row in found[1:]], self.find_cells(made, places, "csv"))
            # for people, four decimals if nobody says how many
            wanted = self.find_cells(made, places or 4, "markdown")
            found = [line.strip("| ").split(" | ") for line in Run("export", "markdown", *words, input=data).out.split("\n")[2:-3]]
            self.assertEqual(found, wanted)
            lines = Run("export", "latex", *words, input=data).out.split("\n")
            found = [line[: -len(" \\\\")].replace("$", "").split(" & ") for line in lines[lines.index("\\midrule") + 1 : lines.index("\\bottomrule")]]
            self.assertEqual(found, wanted)

    def test_json(self):
        for data in TWO, HARD, SEVERAL, stored("eu-27-nice"), report("[5; 4, 3, 2]", "--only-swings"), report(either_game(), "--list"):
            made, found = Report.from_text(data), json.loads(Run("export", "json", input=data).out)
            self.assertEqual((found["title"], found["quotas"], found["totals"], found["ways"], found.get("minimal"), found.get("winning")), (made.title or None, list(made.quotas), list(made.totals), made.ways, made.minimal, made.winning))
            for it, member in zip(found["members"], made.members):
                self.assertEqual(list(it), ["name", "weights", *member._fields[1 + len(member.weights) :]])
                self.assertEqual((it["name"], it["weights"], [it[group.column] for group in made.groups]), (member.name, list(member.weights), [getattr(member, group.column) for group in made.groups]))
                self.assertEqual([Fraction(*map(int, it[f"{index.name}_exact"])) for index in made.indices], [index.find(member) for index in made.indices])
                self.assertEqual([f"{it[index.name]:.6f}" for index in made.indices], [cut_off(index.find(member)) for index in made.indices])
            self.assertEqual([(tuple(it["members"]), tuple(it["weights"])) for it in found.get("coalitions", [])], made.coalitions or [])
        self.assertEqual(make_pair(Fraction(2**53 - 1, 2**53)), [2**53 - 1, str(2**53)])
        self.assertEqual({it["deegan_packel"] for it in json.loads(Run("export", "json", "--decimals", "2", input=of(*"ABCDEFGH")).out)["members"]}, {0.13})

    def test_hostile_names(self):
        cells = [it["name"] for it in csv.DictReader(io.StringIO(Run("export", "csv", input=HARD).out))]
        self.assertEqual(cells, ["'" + it for it in HOSTILE[:9]] + HOSTILE[9:])
        self.assertEqual(Run("export", "csv", "--columns", "name", input=of(" =1", "a=1", "\u2003=1", "\u00a0 @", "\u200b=1", "\ufeff+1")).out.count("\n\"'"), 5)
        *lines, empty, caption, _ = Run("export", "markdown", input=SEVERAL).out.split("\n")
        self.assertEqual((empty, caption), ("", "Decimals are rounded to 4 places."))
        self.assertTrue(all(len(re.findall(r"(?<!\\)\|", it.replace("\\\\", ""))) == 7 for it in lines))
        signs = "".join(it for it in map(chr, range(33, 127)) if not it.isalnum())
        self.assertIn("| a " + "".join("\\" + it for it in signs) + " |", Run("export", "markdown", input=of(f"a {signs}")).out)
        for name in [*HOSTILE, "\\~^<>|", "&%$#_{}", '"a" [b]*', " a  b", "-- '' `` ,, ?` !`", "a" + signs[:50], "b" + signs[50:]]:
            lines = Run("export", "latex", "--columns", "name", input=of(name)).out.split("\n")
            self.assertEqual(read_latex(lines[-4][: -len(" \\\\")]), unicodedata.normalize("NFC", name))
        self.assertIn("{[U+0301]}", Run("export", "latex", input=of("e", "\u0301x")).out)

    def test_units(self):
        game = '# Rule 1: "Share & more", percent, 1 decimal\n' + write_game("AB", [501], [[823], [177]])
        words = ["--game", put("unit.toml", game), "--columns", "name,weight,share"]
        for form, heading, row in [("csv", "name,weight,share", '"A",82.3,0.823000'), ("markdown", "| Member | Share \\& more | Share \\& more\\, share |", "| A | 82.3% | 0.8230 |"), ("latex", "Member & Share \\& more & Share \\& more, share \\\\", "A & 82.3\\% & 0.8230 \\\\")]:
            lines = Run("export", form, *words, input=report(game)).out.split("\n")
            self.assertTrue(heading in lines and row in lines, lines)

    def test_in_each_format(self):
        path = put("report.tsv", "\ufeff" + HARD)
        for form in FORMATS:
            wanted = Run("export", form, "--decimals", "3", input=HARD).out
            self.assertTrue(wanted.endswith("\n") and not wanted.endswith("\n\n"))
            for words in [form, path, "--decimals", "3"], ["--decimals=3", form, "--", path]:
                self.assertEqual(Run("export", *words).out, wanted)
            for data in HARD.replace("\n", "\r\n"), HARD[:-1], HARD.replace("minimal", "notation\t[5; 1]\nsize\t2\t1\nminimal"):
                self.assertEqual(Run("export", form, "--decimals", "3", input=data).out, wanted)
        self.assertEqual(Run("export", "csv", "--mark", input=HARD).out, "\ufeff" + Run("export", "csv", input=HARD).out)
        env = {**os.environ, "LC_ALL": "C", "PYTHONUTF8": "0", "PYTHONCOERCECLOCALE": "0"}
        ran = subprocess.run([shutil.which("python3"), f"{os.path.dirname(__file__)}/../../tools/council-tools", "export", "json"], input=HARD.encode(), capture_output=True, env=env)
        self.assertEqual(ran.stdout.decode(), Run("export", "json", input=HARD).out)

    def test_latex_prints_it(self):
        if not shutil.which("pdflatex"):
            self.skipTest("this machine has no pdflatex")
        three = stored("eu-27-nice")
        for at, (data, columns) in enumerate([(HARD, "name,weight,public_good"), (SEVERAL, "name,weight,share,coalitions,deegan_packel_exact,public_good_exact"), (three, "name,weight,deegan_packel,public_good")]):
            table = Run("export", "latex", "--columns", columns, input=data).out
            put(f"{at}.tex", "\\documentclass{article}\n\\usepackage{booktabs}\n\\usepackage[T1]{fontenc}\n\\begin{document}\n" + table + "\\end{document}\n")
            ran = subprocess.run(["pdflatex", "-interaction=nonstopmode", "-halt-on-error", f"{at}.tex"], cwd=TEMP, capture_output=True, timeout=120)
            told = [it for it in ran.stdout.decode("utf-8", "replace").split("\n") if it.startswith("!") or "Missing character" in it or (data == three and "Overfull" in it)]
            if "not found" in "".join(told):
                self.skipTest("the TeX of this machine lacks a package")
            self.assertEqual((ran.returncode, told), (0, []))

    def test_what_is_refused(self):
        for words, text in [(["xml"], '"xml" is no format'), ([], "say a format"), (["csv", "--columns", "name,power"], '"power" is no column: name, weight'), (["csv", "--columns", ""], '"" is no column'), (["csv", "--columns", "banzhaf"], "the report has no column banzhaf, but name,"), (["csv", "--index", "banzhaf"], "council makes it with --swings"), (['a"\u202e'], '"a\\"\\u202E"'), (["csv", "--decimals", "0"], "--decimals"), (["csv", "--decimals", "31"], "--decimals"), (["csv", "--decimal", ";"], "--decimal"), (["csv", "--col=name"], "unrecognized")]:
            self.check_refused(Run("export", *words, input=HARD), text, status=2)
        for data in "", "quota = 1\n", b"title\t\xff\n", "title\tA\n", "notation\t[1; 1]\n", TWO[TWO.index("member\t"):], TWO[: TWO.index("member\t")]:
            self.check_refused(Run("export", "csv", input=data), status=1)

    def test_a_changed_report_is_refused(self):
        """Each report in which one field is another is refused, except for names, counts, what repeats,
        and fields after the last one of a member, which a later version may have."""
        for number, line in enumerate(TWO.split("\n")[:-1]):
            fields = line.split("\t")
            for at in range(len(fields)):
                if (fields[0], at) in [("title", 1), ("quota", 1), ("minimal", 1), ("winning", 1), ("member", 1), ("member", 3), ("member", 8)] or (fields[0] == "coalition" and at > 1):
                    continue
                for new in fields[at] + "1", "x" + fields[at], "", fields[at] + "\t", "-" + fields[at], "\uff11" + fields[at]:
                    if fields[0] == "member" and at == len(fields) - 1 and new.endswith("\t"):
                        continue
                    lines = TWO.split("\n")
                    lines[number] = "\t".join([*fields[:at], new, *fields[at + 1 :]])
                    with self.subTest(line=lines[number]):
                        self.check_refused(Run("export", "json", input="\n".join(lines)), status=1)
        for kind in "members", "quota", "total", "minimal":
            wanted = "the report is not whole" if kind != "minimal" else "is no line of a report"
            self.check_refused(Run("export", "csv", input=re.sub(rf"{kind}\t.*\n", "", TWO)), wanted)
        self.check_refused(Run("export", "csv", input=TWO.replace("minimal\t2", "minimal\t1")), "the report is not whole")
        for value in "5000", "5000/", "x/2", "5000/2/1":
            self.check_refused(Run("export", "csv", input=TWO.replace("quota\t5000/2", f"quota\t{value}")), "the report is not whole")


main("export")
