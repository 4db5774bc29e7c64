#!/usr/bin/env python3
"""council-tools on reports of many coalitions or without end, its table, and what all tools share."""
import io
import json
import os
import random
import subprocess
import sys
from fractions import Fraction
from unittest import mock

from cases import FORMS, LOW, PROGRAM, TEMP, TOOLS, TOP, Run, Tests, either_game, hostile_game, main, put, report, stored
from council.decimals import cut_off, round_half_up, write_fraction
from council.engine import Refused
from council.finding import NotFound
from council.game import write_game
from council.reports import Fault, Report
from council.tools import table

WHOLE, LINE = "the report is not whole, or its numbers are not those of council", "is no line of a report"
TWO = report(write_game("ABCD", [5000, 2], [[3000, 1], [2000, 1], [1000, 1], [1000, 1]], "T"), "--list")
LISTED = [(("A", "B"), (5000, 2)), (("A", "C", "D"), (5000, 3))]


class Large(Tests):
    def test_many_coalitions_in_little_memory(self):
        path, most = put("list.tsv", report(f"[4; {', '.join(['1'] * 40)}]", "--list")), 91390
        for words in [["bars"], ["table"], ["page", "--program", PROGRAM], ["export", "csv"], ["export", "json"]]:
            with open(f"{TEMP}/out", "w+", encoding="utf-8") as out, open(f"{TEMP}/err", "w+", encoding="utf-8") as err:
                _, status, used = os.wait4(subprocess.Popen([sys.executable, TOOLS, *words, path], stdout=out, stderr=err).pid, 0)
                for it in out, err:
                    it.seek(0)
                text, told = out.read(), err.read()
            self.assertTrue(status == 0 and used.ru_maxrss < 40000, (words, used.ru_maxrss))
            self.assertEqual(told, f"council-tools {words[0]}: the quota 4 is {LOW}, 40, so two coalitions without a common member could win\n")
            if words[-1] == "json":
                self.assertEqual((len(json.loads(text)["coalitions"]), json.loads(text)["coalitions"][-1]), (most, {"members": ["37", "38", "39", "40"], "weights": [4]}))
            if words[0] == "page":
                self.assertEqual((f"the first 1,000 of {most:,}" in text, text.count("<small>(4)</small>")), (True, 1000))

    def test_a_file_without_end_in_little_memory(self):
        for words in [["table"], ["bars"], ["page"], ["export", "json"], ["compare", "-"], ["sweep"], ["from-table", "51"], ["bars", "--game", "/dev/zero"]]:
            path = f"{TOP}/examples/board.tsv" if "--game" in words else "/dev/zero"
            process = subprocess.Popen([sys.executable, TOOLS, *words, path], stdin=subprocess.DEVNULL, stdout=subprocess.DEVNULL, stderr=subprocess.DEVNULL)
            _, status, used = os.wait4(process.pid, 0)
            self.assertTrue(os.WEXITSTATUS(status) in (1, 3) and used.ru_maxrss < 60000, (words, status, used.ru_maxrss))
        line = "member\t{}\t1\t1\t1/1\t1.000000\t1/1\t1.000000\n"
        self.check_refused(Run("table", input="".join(line.format(at) for at in range(41))), "line 41")
        self.check_refused(Run("table", input=line.format("x" * (1 << 16))), "line 1 is no line")


class Reports(Tests):
    def test_a_report_from_lines_and_from_a_text(self):
        whole = Report.read(TWO.split("\n")[:-1])
        for it in whole, Report.read(TWO.replace("\n", "\r\n").split("\n")[:-1]), Report.from_text(TWO), Report.read(io.StringIO(TWO)):
            self.assertEqual((it.title, it.quotas, it.totals, it.minimal, it.members), ("T", (5000, 2), (7000, 4), 2, whole.members))
            self.assertEqual(list(it.rows()[0]), ["name", "weight_1", "weight_2", "coalitions", "deegan_packel", "public_good", "deegan_packel_exact", "public_good_exact"])
            self.assertEqual([it.share(row, 1) for row in it.members], [Fraction(1, 4)] * 4)
        taken = []
        self.assertIsNone(Report.read(io.StringIO(TWO), taken.append).coalitions)
        self.assertEqual((taken, whole.listed, Report.from_text(TWO).coalitions), (LISTED, 2, LISTED))
        self.assertEqual([Report.from_text(report(write_game("A", [1], [[1]], it))).heading() for it in (" ", " T ", "\u3000", "")], ["A game", " T ", "A game", "A game"])

    def test_lists_that_are_not_whole(self):
        for old, new, text in [("coalition\t2", "coalition\t2\t5000/2\tA\tB\ncoalition\t2", WHOLE), ("coalition\t2", "coalition\t3", LINE), ("coalition\t2", "coalition\t", LINE), ("\t5000/2\tA", "\tx\tA", LINE)]:
            with self.assertRaisesRegex(Fault, text, msg=new):
                Report.read(TWO.replace(old, new).split("\n")[:-1])

    def test_decimals(self):
        rng = random.Random(1)
        for _ in range(300):
            value, places = Fraction(rng.randint(0, 10**6), rng.choice([1, 3, 8, 128, 10**6])), rng.randint(0, 12)
            down, half = cut_off(value, places), round_half_up(value, places)
            self.assertTrue(0 <= value - Fraction(down) < Fraction(1, 10**places) and abs(Fraction(half) - value) * 2 <= Fraction(1, 10**places) and Fraction(half) * 2 - value * 2 != Fraction(-1, 10**places))
            self.assertRegex(down, rf"\A\d+{'' if places == 0 else f'[.][0-9]{{{places}}}'}\Z")

    def test_table(self):
        for data in stored("eec-1958"), TWO, report(hostile_game(2)), *(report("[5; 4, 3, 2]", *words) for words in FORMS):
            made, lines = Report.read(data.split("\n")[:-1]), Run("table", input=data).out.split("\n")[:-1]
            self.assertEqual(len({len(it) for it in lines}), 1)
            self.assertTrue(all(it.isprintable() for it in lines))
            for it, line in zip(made.members, lines[1:]):
                its = ["/".join(map(str, it.weights)), *(write_fraction(index.find(it)) for index in made.indices)]
                self.assertEqual(line.split()[-len(its):], its)
                self.assertTrue(line.startswith("".join(letter if letter.isprintable() else " " for letter in it.name)))
        self.assertTrue(Run("table", input=report(either_game())).out.endswith("1/3\n\nA motion passes by rule 1, or by rule 2.\n"))
        self.check_refused(Run("table", input=report(either_game()).replace("ways", "other")), "line 5 is no line")


class Shared(Tests):
    def test_help_and_version(self):
        self.assertTrue(all(Run(it).out.startswith("Tools for games") for it in ("-h", "--help")) and all(Run(it).out.startswith("council-tools 1.") for it in ("-V", "--version")))

    def test_words(self):
        self.check_refused(Run("excel"), "there is no tool excel", status=2)
        for words in ["table", "\ud800"], ["\udfff"]:
            self.check_refused(Run(*words), "the command line is not UTF-8", status=2)
        self.check_refused(Run("table", f"{TEMP}/\x1b[2J\u202e"), "No such file", status=1)

    def test_each_fault_is_one_line(self):
        for it, status, text in [(MemoryError(), 5, "out of memory"), (NotFound("no program"), 1, "no program"), (Refused(3, "quota out of range", "line 1: quota = 9\nmore"), 3, "council: quota out of range; line 1: quota = 9; more"), (Fault("f", 2), 2, "f")]:
            with mock.patch.object(table, "read_report", side_effect=it):
                self.check_refused(Run("table"), f"council-tools table: {text}\n", status=status)
        with mock.patch.object(table, "read_report", side_effect=KeyboardInterrupt):
            self.assertEqual(Run("table").status, 130)

    def test_closed_and_full_streams(self):
        given = f"<'{TOP}/examples/eec-1958.tsv'"
        for end, status, told in [("<&-", 1, "there is no report"), (f"{given} >&-", 0, ""), (f"{given} 2>&-", 0, "")] + [(f"{given} >/dev/full", 1, "output failed")] * os.path.exists("/dev/full"):
            for tool in "table", "bars":
                ran = subprocess.run(["bash", "-c", f'exec "$@" {end}', "bash", sys.executable, TOOLS, tool], capture_output=True, env={**os.environ, "PYTHONUNBUFFERED": ""})
                self.assertEqual((ran.returncode, told in ran.stderr.decode(), ran.stderr.count(b"\n")), (status, True, int(bool(told))), end)

    def test_a_reader_that_has_enough(self):
        ran = subprocess.run(["bash", "-c", f"\"$@\" <'{TOP}/examples/eec-1958.tsv' | true; echo ${{PIPESTATUS[0]}}", "bash", sys.executable, TOOLS, "export", "csv"], capture_output=True)
        self.assertEqual((ran.stdout, ran.stderr), (b"141\n", b""))


main("lists")
