#!/usr/bin/env python3
"""python -m council by the library beside the program, and what the package does by platform:

    package.py PROGRAM LIBRARY

Prints a line for each test.
"""
import io
import os
import shutil
import subprocess
import sys
import tempfile
import unittest
from unittest import mock

TOP = os.path.dirname(os.path.dirname(os.path.dirname(os.path.abspath(__file__))))
sys.path[:0] = [f"{TOP}/tests", f"{TOP}/python/src"]
import lines  # noqa: E402
from council import library, platforms  # noqa: E402

PROGRAM, LIBRARY = sys.argv[1:]
del sys.argv[1:]
EXAMPLES = f"{TOP}/examples"


def run(command, words, game=None, **more):
    done = subprocess.run([*command, *words], input=game, capture_output=True, check=False, **more)
    return done.returncode, done.stdout, done.stderr.decode()


def run_both(words, game=None, **more):
    """What the program does on these words, and what the library does."""
    places = {**os.environ, "PYTHONPATH": f"{TOP}/python/src", "COUNCIL_LIBRARY": LIBRARY, "PYTHONIOENCODING": "cp1252", **more}
    return run([PROGRAM], words, game), run([sys.executable, "-m", "council"], words, game, env=places)


class Package(unittest.TestCase):
    def test_reports_of_examples(self):
        for name in ("board.txt", "eec-1958.toml", "eu-27-nice.toml", "two-of-three.toml", "us-federal.toml"):
            program, library = run_both(["--swings", "--sizes", "--tally", f"{EXAMPLES}/{name}"])
            self.assertEqual(program, library, name)

    def test_each_option(self):
        for words in ("", "--list", "--sizes", "--notation", "--tally", "--swings", "--only-swings", "--list --swings --sizes --notation", "--most 9", "--room 5 --only-swings", "--list --most 4000000"):
            program, library = run_both([*words.split(), f"{EXAMPLES}/eu-1995.toml"])
            self.assertEqual(program, library, words)

    def test_more_than_a_million_are_counted(self):
        game = b"[12; " + b"1, " * 23 + b"1]"
        for words in ([], ["--most", "1000000"], ["--list"]):
            program, library = run_both(words, game)
            self.assertEqual(program, library, words)

    def test_faults(self):
        for game in (b"", b"[51; 50, 49,, 1]", b"[9; 1, 1]", b"x = 1", b" " * 65537, b"\xff", 'title = "\u00e9\u202e"\nquota = 1\n'.encode()):
            program, library = run_both(["-"], game)
            self.assertEqual((3, b"", program[2]), library, game)
        for file in ("none.toml", TOP):
            program, library = run_both([file])
            self.assertEqual(program, library, file)

    def test_words(self):
        for words, why in [(["--workers", "2"], "only the program council takes it"), (["--bits=2"], "only the program"), (["--explain"], "only the program"), (["--most", "0"], "from 1 to"), (["--room", "134217729"], "from 1 to"),
                           (["--tally", "--list"], "does not go with"), (["--only-swings", "--swings"], "does not go with"), (["--other"], "--help"), (["a", "b"], "--help")]:
            program, library = run_both([*words], b"[1; 1]")
            self.assertEqual((program[0] if words[0] not in ("--workers", "--bits=2", "--explain") else 2, b""), library[:2], words)
            self.assertIn(why, library[2])
        self.assertEqual(run_both(["--version"])[1][:2], (0, b"council 1.2.0, the library\n"))

    def test_without_a_library(self):
        status, text, why = run_both(["-"], b"[1; 1]", COUNCIL_LIBRARY="")[1]
        self.assertEqual((status, text), (1, b""))
        self.assertIn("no library", why)

    def test_a_full_device(self):
        if not os.path.exists("/dev/full"):
            self.skipTest("this machine has no /dev/full")
        with open("/dev/full", "wb") as full:
            places = {**os.environ, "PYTHONPATH": f"{TOP}/python/src", "COUNCIL_LIBRARY": LIBRARY}
            done = subprocess.run([sys.executable, "-m", "council", f"{EXAMPLES}/board.toml"], stdout=full, stderr=subprocess.PIPE, env=places, check=False)
        self.assertEqual((done.returncode, done.stderr), (5, b"council: output failed\n"))

    def test_names_of_the_library(self):
        self.assertEqual([platforms.library_name(it) for it in ("win32", "linux")], ["council.dll", "libcouncil.so"])
        with tempfile.TemporaryDirectory() as folder:
            # as a Windows user has it: blanks, letters with accents, brackets
            home = os.path.join(folder, "Program Files (x86)", "Zo\u00eb \u00c5", "site-packages", "council")
            os.makedirs(home)
            self.assertIsNone(platforms.find_file(home, "win32"))
            shutil.copy(LIBRARY, f"{home}/libcouncil.so")
            self.assertIsNone(platforms.find_file(home, "win32"))
            shutil.copy(LIBRARY, f"{home}/council.dll")
            self.assertEqual(platforms.find_file(home, "win32"), os.path.realpath(f"{home}/council.dll"))
            self.assertEqual(platforms.find_file(home, "linux"), os.path.realpath(f"{home}/libcouncil.so"))
            self.assertEqual(library.Library(platforms.find_file(home, "win32")).report(b"[1; 1]")[0], 0)

    def test_streams_of_a_console_that_is_not_utf_8(self):
        out, err = (io.TextIOWrapper(io.BytesIO(), encoding="cp437", newline="\r\n") for _ in range(2))
        platforms.prepare_streams(out, err)
        print("\u0141\u00f3d\u017a", file=out, flush=True)
        print("\ud800", file=err, flush=True)
        self.assertEqual((out.buffer.getvalue(), err.buffer.getvalue()), ("\u0141\u00f3d\u017a\n".encode(), b"\\ud800\n"))
        platforms.prepare_streams(None, None)

    def test_waits_that_hear_an_interrupt(self):
        waits = []
        worker = mock.Mock(is_alive=lambda: len(waits) < 2, join=waits.append)
        with mock.patch("sys.platform", "win32"):
            platforms.wait(worker)
        self.assertEqual(waits, [0.1, 0.1])


sys.exit(not lines.run("python -m council: "))
