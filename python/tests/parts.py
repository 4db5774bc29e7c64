"""How the package finds and asks the library and the program, and the functions that its modules share."""
import contextlib
import ctypes
import os
import sys
import tempfile
import threading
import time
import unittest
import warnings
from fractions import Fraction
from pathlib import Path
from unittest import mock

from shared import BY_WAYS, HOSTILE, LISTED, TOP
import council
from council import decimals, engine, finding, game, library, members, ways
from council.finding import find_library, find_program
from council.game import Unit
from council.reports import Fault, Report


def make_library(status, data):
    """Returns a library whose calls for reports answer so, and a list of what they were asked."""
    asked = []

    def call(text, size, options, words, place, room, length):
        asked.append((text[: size.value], {it: getattr(options._obj, it) for it, _ in library.Options._fields_[1:-1] if getattr(options._obj, it)}, room.value))
        assert (options._obj.size, words.value) == (128, 16)
        now = status if isinstance(status, int) else status.pop(0)
        answer = b"too long" if now == library.TOO_LONG else data
        ctypes.memmove(place, answer, min(len(answer), room.value))
        length._obj.value = len(answer)
        return now

    made = library.Library.__new__(library.Library)
    made._calls = mock.Mock(council_report_raw=call)
    return made, asked


class Engines(unittest.TestCase):
    """How the library and the program are found and asked."""

    def compute(self, library, *words, **more):
        with mock.patch.object(engine, "find_library", lambda: library):
            return engine.compute(*words, **more)

    def test_what_the_library_is_asked(self):
        with mock.patch.object(Report, "from_text", lambda it: it):
            for more, options in ({}, {"tally": 1}), ({"only": False}, {"tally": 1, "swings": 1}), ({"only": True}, {"only_swings": 1}):
                made, asked = make_library(0, b"x" * 65536)
                self.assertEqual(self.compute(made, b"[1; 1]", **more), "x" * 65536)
                self.assertEqual(asked, [(b"[1; 1]", options, 65536)])
                with self.assertRaises(council.NotFound):
                    self.compute(made, b"[1; 1]", program="no-such-program")
        # a list is found once: its masks, or if it takes long to count it the lines of a report
        made, asked = make_library(0, LISTED.encode())
        for answer, wanted in ([3, 5], [(("1", "2"), (99,)), (("1", "3"), (51,))]), (library.NoAnswer(5, "out of memory"), None):
            made.list_masks = mock.Mock(side_effect=[answer])
            with contextlib.nullcontext() if wanted else self.assertRaises(MemoryError):
                self.assertEqual(self.compute(made, b"[1; 1]", listed=True, most=7).coalitions, wanted)
            made.list_masks.assert_called_once_with((51,), [(50, 49, 1)], [[1]], 2)
        self.assertEqual(asked[0][1], {"tally": 1, "visits": engine.VISITS})
        with self.assertRaisesRegex(council.TooMany, "there are 2, and coalitions=True lists at most 1"):
            self.compute(made, b"[1; 1]", listed=True, most=1)
        long = "notation\t[1; 1]\n" * 5000 + BY_WAYS
        made, asked = make_library([library.TOO_LONG, 0], long.encode())
        self.assertEqual(self.compute(made, b"[1; 1]", listed=True, most=7, only=False).coalitions, Report.from_text(BY_WAYS).coalitions)
        self.assertEqual([it[1:] for it in asked], [({"tally": 1, "visits": engine.VISITS, "swings": 1}, 65536), ({"most": 7, "list": 1, "swings": 1}, 1 << 26)])

    def test_numbers_and_masks_of_the_library(self):
        made, rooms = make_library(0, b"")[0], []

        def call(*words):
            summary, options = words[-1], words[4]._obj
            rooms.append(([it.value for it in words[:-1] if isinstance(it, library.Size)], options.swings, list(options.ways)))
            self.assertEqual(summary[:2], [544, 288])
            summary[library.RULE], summary[library.COALITIONS] = rule, 1
            return status

        def explain(status, summary, text, room, length):
            text.value, length._obj.value = b"bad", 3

        made._calls.council_list_raw = made._calls.council_indices_raw = call
        made._calls.council_explain = explain
        status, rule = 0, 0
        # no more room than there can be coalitions
        for most, room in (9, 6), (6, 6), (5, 5):
            self.assertEqual(list(made.list_masks([2], [[1] * 4], [[1, 2], [4]], most)), [0])
            self.assertEqual(rooms.pop(), ([1, 4, 16, 4, room], 0, [3, 8, 0, 0, 0, 0]))
        summary, numbers = made.count([2, 3], [[1] * 4, [2] * 4], None, swings=1)
        self.assertEqual((summary[library.COALITIONS], numbers, rooms.pop()), (1, [[0] * 36] * 4, ([2, 8, 16, 4], 1, [0] * 6)))
        for status, rule, wanted in (3, 2, 2), (4, 0, None), (5, 0, None):
            for ask in lambda: made.count([2], [[1]], None), lambda: made.list_masks([2], [[1]], None, 1):
                with self.assertRaises(library.NoAnswer) as caught:
                    ask()
                self.assertEqual((caught.exception.status, caught.exception.fault, caught.exception.rule), (status, "bad", wanted))

    def test_a_call_that_takes_long(self):
        """The flag that it watches ends it, and it begins again in a thread; in another thread than the main one it
        never does."""
        made, seen = make_library(0, b"")[0], []

        def call(stop):
            watched = made._calls.council_watch.call_args[0][0]._obj
            seen.append(threading.current_thread() is threading.main_thread())
            while len(seen) == 1 and not watched.value:
                time.sleep(0.001)
            return 5 if watched.value else 7

        self.assertEqual((made._run(call, 0), seen), (7, [True, False]))
        with mock.patch.object(made, "_run_aside", mock.Mock(side_effect=AssertionError)):
            self.assertEqual((made._run(call, 0), made._run(lambda: 5)), (7, 5))
            aside = threading.Thread(target=lambda: seen.append(made._run(lambda: 9)))
            aside.start()
            aside.join()
        self.assertEqual(seen, [True, False, True, 9])

    def test_what_the_library_answers(self):
        real, folder = find_program(), tempfile.TemporaryDirectory()
        self.addCleanup(folder.cleanup)
        broken = os.path.join(folder.name, "broken")
        Path(broken).write_bytes(b"\x7fELF")
        os.chmod(broken, 0o755)
        for status, data, kind, line in [
            (3, b"bad bracket text", council.Refused, 1), (4, b"too many minimal winning coalitions", council.TooMany, None), (1, b"no file", council.Refused, None),
            (6, b"too many states for the swings", council.TooMany, None), (5, b"out of memory", MemoryError, 0), (5, b"no thread", RuntimeError, 0), (2, b"a word", RuntimeError, 0),
        ]:
            # the program says where and why a file has a fault, if there is one, and it runs
            for program in (real, "", broken):
                with mock.patch.dict(os.environ, COUNCIL_PROGRAM=program), self.assertRaises(kind) as caught:
                    self.compute(make_library(status, data)[0], b"[1; 1, 1,, 1]", listed=True, most=5)
                it, text = caught.exception, data.decode()
                self.assertEqual((type(it), str(it).split("\n")[0]), (kind, text))
                if line != 0:
                    explained = program == real and status == 3
                    self.assertEqual((it.fault, it.status, it.explanation == "", it.line), (text, status, not explained and status in (1, 3), line if explained else None))
                    self.assertNotIn("--", it.explanation)
        self.assertEqual([council.Refused(3, "bad", it).line for it in ("line 3, column 15: x", "line 12: x", "the line 1: x", "line 1 of a game", "")], [3, 12, None, None, None])
        self.assertEqual((str(council.Refused(3, "bad")), str(council.Refused(3, "bad", "a\nb"))), ("bad", "bad\na\nb"))

    def test_what_the_program_answers(self):
        with tempfile.TemporaryDirectory() as folder:
            path = os.path.join(folder, "program")

            def compute(script, **more):
                with open(path, "w", encoding="utf-8") as it:
                    it.write(f"#!/bin/sh\ncat\n{script}\n")
                os.chmod(path, 0o755)
                with mock.patch.object(Report, "from_text", lambda it: it):
                    return engine.compute(b"game\n", program=path, **more)

            self.assertEqual(compute('echo "$@"; echo note >&2'), "game\n--explain --tally\n")
            for more, words in [({}, "--tally --swings"), ({"listed": True, "most": 7}, "--list --most 7 --swings")]:
                self.assertEqual(compute('echo "$@"', only=False, **more), f"game\n--explain {words}\n")
            self.assertEqual(compute('echo "$@"', listed=True, most=7), "game\n--explain --list --most 7\n")
            self.assertEqual(compute('echo "$@"', only=True), "game\n--explain --only-swings\n")
            for script, kind, text in [
                ("exit 7", RuntimeError, f"{path} ended with status 7"), ("kill -9 $$", RuntimeError, f"{path} ended with status -9"), ("echo council: no thread >&2; exit 5", RuntimeError, "no thread"),
                ("echo council: out of memory >&2; exit 5", MemoryError, "out of memory"), ("echo a fault >&2; exit 1", council.Refused, "a fault"), ("exit 4", council.TooMany, f"{path} ended with status 4\ncoalitions=True lists at most 4000000: without it they are counted, any number of them"),
                ("printf 'council: bad\\n  line 3: \\377\\n  why\\n' >&2; exit 3", council.Refused, "bad\nline 3: \ufffd\nwhy"),
            ]:
                with self.assertRaises(kind, msg=script) as caught:
                    compute(script)
                self.assertEqual((type(caught.exception), str(caught.exception)), (kind, text))
                self.assertEqual(getattr(caught.exception, "explanation", ""), text.partition("\n")[2])

    @contextlib.contextmanager
    def laid_out(self, files, clone=False, **variables):
        """Makes a folder with these files, home/bin for the package and bin as the PATH."""
        with tempfile.TemporaryDirectory() as folder:
            top = os.path.realpath(folder)
            for it in ["home/bin/x", "bin/x", *files]:
                path = Path(top, it.rstrip("-"))
                path.parent.mkdir(parents=True, exist_ok=True)
                launches = it.endswith("/council") and f"{it[:-7]}tools/built.sh" in files
                path.write_bytes(b"#!/bin/sh\n" if launches or it == "script/it" else b"\x7fELF")
                path.chmod(0o644 if it.endswith("-") else 0o755)
            Path(top, "bin/link").symlink_to(f"{top}/clone/council")
            if "launcher" in variables:
                Path(top, "bin/council").symlink_to(f"{top}/{variables.pop('launcher')}/council")
            found = {it: value.replace("TOP", top) for it, value in variables.items()}
            kept = {it: value for it, value in os.environ.items() if it not in ("COUNCIL_PROGRAM", "COUNCIL_LIBRARY")}
            with mock.patch.dict(os.environ, {**kept, "PATH": f"{top}/bin", **found}, clear=True):
                with mock.patch.multiple(finding, HOME=f"{top}/home/bin", CLONE=f"{top}/clone" if clone else None):
                    yield top

    def test_where_the_program_is(self):
        script, built, never = ["clone/council", "clone/tools/built.sh"], "clone/crates/council/out/council", "the program of TOP/clone was never built: run TOP/clone/council once, which takes 6 to 15 minutes"
        none = "the program council was not found on the PATH"
        for files, named, more, wanted in [
            (["bin/council"], None, {}, "TOP/bin/council"), (["bin/council"], "council", {}, "TOP/bin/council"), ([], None, {}, none), ([], "it", {}, "it: no program of that name was found"),
            # a launcher of a clone is never run
            ([*script, built], "TOP/clone/council", {}, f"TOP/{built}"), ([*script, built], "link", {}, f"TOP/{built}"), (script, "link", {}, never), ([*script, built + "-"], "link", {}, never),
            ([*script, built], None, {"launcher": "clone"}, f"TOP/{built}"), (script, None, {"launcher": "clone"}, never), (["clone/tools/built.sh", "clone/it"], "TOP/clone/it", {}, "TOP/clone/it"),
            (["script/it"], "TOP/script/it", {}, "TOP/script/it"),
            # the variable, the package, the archive, the clone
            (["bin/council"], None, {"COUNCIL_PROGRAM": ""}, "COUNCIL_PROGRAM is empty"), (["bin/council", "it"], None, {"COUNCIL_PROGRAM": "TOP/it"}, "TOP/it"),
            (["bin/council", "it"], "TOP/it", {"COUNCIL_PROGRAM": ""}, "TOP/it"), (["bin/council", "home/bin/council"], None, {}, "TOP/home/bin/council"),
            (["bin/council", "home/bin/council-"], None, {}, "TOP/bin/council"), (["bin/council", "home/bin/council/x"], None, {}, "TOP/bin/council"),
            (["bin/council", "home/council", "home/PROVED"], None, {}, "TOP/home/council"), (["bin/council", "home/council"], None, {}, "TOP/bin/council"),
            (["bin/council", "home/council", "home/PROVED", "home/tools/built.sh"], None, {}, "TOP/bin/council"),
            ([*script, built], None, {"clone": True}, f"TOP/{built}"), (["bin/council", *script, built], None, {"clone": True}, f"TOP/{built}"), (["bin/council", *script], None, {"clone": True}, "TOP/bin/council"), (["bin/council", *script, built + "-"], None, {"clone": True}, "TOP/bin/council"),
            (script, None, {"clone": True}, never), (["other/council", "other/tools/built.sh", f"other{built[5:]}", *script], None, {"clone": True, "launcher": "other"}, f"TOP/other{built[5:]}"),
        ]:
            with self.subTest(files=files, named=named, more=more), self.laid_out(files, **more) as top:
                try:
                    found = find_program(named and named.replace("TOP", top))
                except council.NotFound as it:
                    found = str(it)
                self.assertEqual(found, wanted.replace("TOP", top))

    def test_where_the_library_is(self):
        own, its = "home/bin/libcouncil.so", "home/lib/libcouncil.so"
        for files, more, wanted in [
            ([], {}, None), ([own, its], {}, own), ([its], {}, its), ([own], {"COUNCIL_LIBRARY": ""}, None), ([own, "it"], {"COUNCIL_LIBRARY": "TOP/it"}, "it"), ([own], {"COUNCIL_LIBRARY": "TOP/bin/link"}, "clone/council"),
        ]:
            with self.subTest(files=files, more=more), self.laid_out(files, **more) as top:
                # (it is no library, which is as if it were for another system)
                if "COUNCIL_LIBRARY" not in more:
                    self.assertIsNone(find_library())
                with mock.patch.object(finding, "Library", lambda path: path), mock.patch.object(finding, "load_library", finding.load_library.__wrapped__):
                    self.assertEqual(find_library(), wanted and f"{top}/{wanted}")
        # as council.h has it
        self.assertEqual(ctypes.sizeof(library.Options), 128)
        if Path(finding.__file__).resolve().parent == TOP / "python/src/council" and (TOP / "tools/built.sh").is_file():
            self.assertEqual((finding.HOME, finding.CLONE), (str(TOP / "python/src/council"), str(TOP)))
        with tempfile.TemporaryDirectory() as folder, mock.patch.object(finding, "__file__", f"{folder}/a.pyz/council/finding.py"):
            self.assertEqual(finding.find_home(), os.path.realpath(folder))


class Parts(unittest.TestCase):
    """The functions that the package and its tools share, on values worked out by hand."""

    def check_rows(self, function, *rows):
        for *words, wanted in rows:
            self.assertEqual(function(*words), wanted, (function, words))

    def test_numbers(self):
        half = Fraction(1, 2)
        self.check_rows(decimals.cut_off, (Fraction(2, 3), "0.666666"), (Fraction(0), "0.000000"), (half, 0, "0"), (25 * half, 1, "12.5"), (Fraction(1, 8), 2, "0.12"))
        self.check_rows(decimals.round_half_up, (Fraction(1, 8), 2, "0.13"), (Fraction(31, 250), 2, "0.12"), (half, 0, "1"), (Fraction(2, 5), 0, "0"), (199 * half, 0, "100"))
        self.check_rows(decimals.write_fraction, (Fraction(0), "0/1"), (half, "1/2"))
        self.check_rows(decimals.read_numbers, ("0", (0,)), ("12/7", (12, 7)))
        for it in ("", "\xb2", "1/"):
            with self.assertRaises(ValueError, msg=it):
                decimals.read_numbers(it)
        self.check_rows(Unit("", True, 2).write, (1650, "16.50%"), (5, "0.05%"))
        self.check_rows(Unit(places=1).write, (12345678, "1,234,567.8"))
        self.check_rows(Unit().write, (1234567, "1,234,567"), (0, "0"))
        self.check_rows(Unit("x", True, 3).write, (0, "0.000%"), (999, "0.999%"), (1000, "1.000%"), (1234567, "1,234.567%"))
        self.check_rows(Unit("", True, 2).is_share_of, (10000, True), (9999, False))
        self.check_rows(Unit("", True).is_share_of, (100, True))
        self.check_rows(Unit(places=2).is_share_of, (10000, False))

    def test_texts(self):
        self.check_rows(game.quote, ('a"b\\c', '"a\\"b\\\\c"'), ("\x7f", '"\\u007F"'), ("\uffff", '"\\uFFFF"'), ("\U000e0001", '"\\U000E0001"'), ("\u4e2d \xe9", '"\u4e2d \xe9"'), ("a\nb\u009b", '"a\\u000Ab\\u009B"'))
        self.check_rows(
            game.unquote, ('a\\"\\\\', 'a"\\'), ("\\u4e2D", "\u4e2d"), ("\\U0001F600", "\U0001f600"), ("\\ud7ff\\ue000", "\ud7ff\ue000"), ("\\ud800\\uDFFF", "\ufffd\ufffd"),
            ("\\U0010ffff", "\U0010ffff"), ("\\U00110000", "\ufffd"),
        )
        self.check_rows(game.quote_for_shell, ("it's\\", "'it'\\''s\\'"), ("a\nb!'\\", "$'a\\012b\\041\\047\\134'"), ("\xe9\x7f\udcff", "$'\xe9\\177\\377'"))
        self.check_rows(
            game.is_text, ("x" * 64, 64, True), ("\xe9" * 32 + "x", 64, False), ("", 0, True), (" ", 1, True), ("a\x1f", 9, False), ("a\x7f", 9, False), ("a\n", 9, False), ("\x80", 9, True),
            ("\ud800", 9, False), ("a\udfff", 9, False), ("\ud7ff\ue000", 6, True), ("\U0001f600", 3, False), ("\x7e\x1f", 9, False),
        )

    def test_game_files(self):
        member = '\n[[member]]\nname = "A"\nweight'
        self.check_rows(
            game.write_game,
            (["A"], [1], [(1,)], f"quota = 1\n{member} = 1\n"),
            (["A"], [1, 1], [(1, 2)], "", [], [[1, 2]], f"quotas = [1, 1]\n{member}s = [1, 2]\n"), (["A"], [1, 1], [(1, 2)], "", [], [[2], (1,)], f"quotas = [1, 1]\nways = [[2], [1]]\n{member}s = [1, 2]\n"),
            (["A", "B"], [3, 2], [(2, 1), (1, 1)], "T", ["c", "d"], f'# c\n# d\ntitle = "T"\nquotas = [3, 2]\n{member}s = [2, 1]\n{member}s = [1, 1]\n'.replace('"A"\nweights = [1', '"B"\nweights = [1')),
        )
        self.assertEqual(council.format_game_file(51, [50], names=[7], title="T"), f'title = "T"\nquota = 51\n{member} = 50\n'.replace('"A"', '"7"'))
        self.assertEqual(council.format_game_file(51, [50], names=["A"], ways=[[True]]), f"quotas = [51]\nways = [[1]]\n{member}s = [50]\n")
        self.assertEqual(game.write_game(["A"] * 40, [1], [(1,)] * 40, "x" * 200).count("[[member]]"), 40)
        for words, text in [
            (([], [1], []), "there are 0 members, and a game has 1 to 40"), ((["A"] * 41, [1], [(1,)] * 41), "there are 41 members, and a game has 1 to 40"),
            ((["A"], [1], [(1,)], "x" * 201), "the title has more than 200 bytes, or a character that cannot be read"),
        ]:
            with self.assertRaises(Fault) as caught:
                game.write_game(*words)
            self.assertEqual(str(caught.exception), text)
        self.check_rows(game.find_comments, ("\n # a \n\n#b\nquota = 1\n# c\n", ["a", "b"]), ("", []),
            ("## a\r\n#\n#b #\r\n", ["# a", "", "b #"]), ("# a\u2028b\n#c", ["a\u2028b", "c"]), ("[1; 1]\n# c\n", []))

    def test_units(self):
        self.check_rows(
            game.write_rule_comment, (1, 'a"b', True, 2, "column 3", 'Rule 1: "a\\"b", percent, 2 decimals; column 3'), (2, "", False, 1, "x", "Rule 2: 1 decimal; x"), (3, "", False, 0, "x", "Rule 3: x"),
        )
        for comments, units in [
            (['Rule 1: "a\\"b", percent, 2 decimals; column 3', "Rule 2: 1 decimal; x"], [('a"b', True, 2), ("", False, 1)]), (["Rule 2: percent", "Rule 3: percent"], [("", False, 0), ("", True, 0)]),
            (['Rule 1: "a, b; c", 2 decimals; x', 'Rule 2: "\\\\", percent'], [("a, b; c", False, 2), ("\\", True, 0)]), (["Rule 1: percent", "Rule 1: 2 decimals"], [("", False, 2), ("", False, 0)]),
            (['Rule 1: "", percent; "b"', "Rule 2: 2 decimals, percent"], [("", True, 0), ("", False, 0)]), ([" Rule 1: percent", "rule 2: percent"], [("", False, 0)] * 2),
            (["Rule 1: 18 decimals", "Rule 2: 100 decimals"], [("", False, 18), ("", False, 0)]),
            (["Rule 1: 99 decimals", 'Rule 2: "b"'], [("", False, 18), ("b", False, 0)]), (["a comment", "Rule 1: 7 votes", "Rule 0: percent"], [("", False, 0)] * 2),
            (['Rule 1: "a" percent', "Rule 2: percent2 decimals"], [("", False, 0)] * 2), (["Rule 1: 10 decimals; x", 'Rule 2: "b"; percent'], [("", False, 10), ("b", False, 0)]),
        ]:
            self.assertEqual([(it.name, it.percent, it.places) for it in game.read_units(comments, 2)], units)
        self.assertEqual([it.percent for it in game.read_units(["Rule 4: percent"], 4)], [False, False, False, True])
        # a comment that only begins as one of a rule
        self.assertEqual([it.percent for it in game.read_units(["Rule 1: percent", "Rule 1: see below"], 1)], [True])

    def test_the_game_of_a_report(self):
        one, two = (51, [50, 49, 1]), ([5, 3], [[3, 2, 2, 1], [1, 1, 1, 1]])
        for it in (one, two, ([1, 1], [[1], [1]])):
            game.check_same(council.format_game_file(*it), council.report(*it))
        report = council.report(*one)
        game.check_same(" [ 51; 50, 49, 1]", report)
        lists = "quotas = [51]\nmember = [" + ", ".join(f'{{name = "{at}", weights = [{it}]}}' for at, it in enumerate(one[1], 1)) + "]\n"
        game.check_same(lists, report)
        for text, fault in [
            ("quota = ", "this is no game file"), ("quota = 51\n", "this is no game file"), ("[x]\n", "this is no game file"), (lists.replace("[1]", "[2]"), "this is not the game of the report"), ("quota = 51\nmember = [1]\n", "this is no game file"), (council.format_game_file(52, one[1]), "this is not the game of the report"),
            (council.format_game_file(51, [50, 48, 2]), "this is not the game of the report"), (council.format_game_file(*one, names="ABC"), "this is not the game of the report"),
        ]:
            with self.assertRaises(Fault, msg=text) as caught:
                game.check_same(text, report)
            self.assertEqual(str(caught.exception), fault)
        with self.assertRaises(Fault):
            game.check_same("[51; 50, 48, 2]", report)
        report, its = Report.from_text(BY_WAYS), ([51, 2], [[50, 49, 1], [1] * 3])
        for by in [[1], [2]], [[2], [1]]:
            game.check_same(council.format_game_file(*its, ways=by), report)
        game.check_same(council.format_game_file(*its, ways=[[2, 1]]), Report.from_text(BY_WAYS.replace("ways\t1 2\n", "")))
        for by in None, [[1, 2]], [[1], [2], [1]]:
            with self.assertRaisesRegex(Fault, "not the game of the report"):
                game.check_same(council.format_game_file(*its, ways=by), report)

    def test_ways(self):
        self.check_rows(
            ways.find_fault, ([[1, 2], [3]], 3, ""), ([[1]], 1, ""), ([[3, 1], [2, 3], [2, 1]], 3, ""), ([], 1, "there are 0 ways, and 1 to 6 are allowed"), ([[1]] * 7, 1, "there are 7 ways, and 1 to 6 are allowed"),
            ([[1], [2, 4]], 3, "there is no rule 4: there are 3, in the order of their quotas"), ([[0]], 1, "there is no rule 0: there are 1, in the order of their quotas"), ([[2], [1, 3, 1]], 3, "rule 1 is twice in way 2"),
            ([[1], [2, 1]], 2, "way 2 has all rules of way 1: it lets nobody else win"), ([[1, 2], [2, 1]], 2, "way 1 has all rules of way 2: it lets nobody else win"), ([[2], []], 2, "way 1 has all rules of way 2: it lets nobody else win"),
            ([[1], [3]], 4, "rule 2 is in no way: each rule is in one"),
        )
        self.check_rows(ways.read_ways, ("1,2 3", 3, [[1, 2], [3]]), ("1", 1, [[1]]), ("4,1 3,2", 4, [[4, 1], [3, 2]]))
        for it in "", "1 ", " 1", "1  2", "1,", "1, 2", "1;2", "12", "\u0661", "1,2\n", "3", "1 1":
            with self.assertRaises(ValueError, msg=it):
                ways.read_ways(it, 2)
        self.check_rows(ways.describe_ways, ([[1, 2], [3]], "by rules 1 and 2, or by rule 3"), ([[1], [4, 2, 3], [2]], "by rule 1, or by rules 4, 2 and 3, or by rule 2"), ([range(1, 2)], "by rule 1"))
        self.check_rows(
            ways.find_low, ([50], [100], [[1]], {1}), ([51], [100], [[1]], set()), ([5, 5], [10, 9], [[1, 2]], set()), ([5, 5], [10, 9], [[1], [2]], {1}), ([5, 5, 5], [10, 10, 9], [[2, 1], [3]], {1, 2}), ([5, 5, 5], [10, 9, 10], [[1, 2], [3]], {3}),
        )
        self.assertEqual(game.describe_low_quotas([5, 5, 1], [10, 9, 3], [[1, 2], [3]]), ["the quota 5 of rule 1 is at most half of the total, 10", "the quota 1 of rule 3 is at most half of the total, 3, so two coalitions without a common member could win"])

    @unittest.skipIf(sys.version_info < (3, 11), "this Python reads no TOML itself")
    def test_a_game_file_without_tomllib(self):
        import tomllib

        def read(text):
            return game.Toml(text + "\n").read_game()

        for path in [*TOP.glob("examples/*.toml"), *TOP.glob("docs/statutes/*.toml")]:
            text = path.read_text(encoding="utf-8")
            self.assertEqual(read(text), tomllib.loads(text), path)
        for text in [
            "quota=1_000\nmember=[{name='a\\b',weight=0x1F}] # end", "", "# c", "quotas = [\n  1, # one\n  2,\n]\n[[ member ]]\nname = ''\nweights = []", 'title = "[[member]] \\u00e9 # \\"q\\""',
            council.format_game_file([1, 2], [[3] * len(HOSTILE), [4] * len(HOSTILE)], names=HOSTILE, title="#"),
        ]:
            self.assertEqual(read(text), tomllib.loads(text), text)
        for text in ["quota", "quota =", "quota = 1.5", "quota = 1\nquota = 2", "[x]", "[[x]]", "a = [1", "a = [1 2]", "a = {b = 1", "= 1", 'a = "', "a = true", "a = '''x'''", "]", "a = }"]:
            with self.assertRaises((ValueError, LookupError), msg=text):
                read(text)

    def test_what_is_hardly_meant_is_warned_of(self):
        for words, more, told in [
            ((50, [50, 49, 1]), {}, ["the quota 50 is at most half of the total, 100, so two coalitions"]), ((51, [50, 49, 1]), {}, []), (([51, 50], [[50, 50], [50, 50]]), {}, []),
            (([1, 1], [[1, 1], [2, 2]]), {"by": "rule"}, ["the quota 1 of rule 1 is", "the quota 1 of rule 2 is"]), ((), {"game": "[51; 1,000, 49, 51]"}, ["a comma ends a weight, also between thousands"]),
            ((), {"game": "[300; 1,500, 49]"}, ["a comma ends"]), ((), {"game": "[300; 200,049,100, 50]"}, ["a comma ends"]), ((), {"game": "[061; 050, 49]"}, []), ((), {"game": "[600; 100,500,49]"}, []), ((), {"game": "[51; 50, 49, 1]"}, []),
        ]:
            with warnings.catch_warnings(record=True) as caught:
                warnings.simplefilter("always")
                council.report(*words, **more)
            self.assertEqual([str(it.message)[: len(wanted)] for it, wanted in zip(caught, told)], told)
            self.assertEqual((len(caught), {os.path.samefile(it.filename, __file__) for it in caught} <= {True}), (len(told), True))
