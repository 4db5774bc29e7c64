"""What the tests of council-tools share. Run one as `python3 tests/using/NAME.py PROGRAM`: each test
is a line `ok NAME`, `FAILED NAME: why` or `skipped NAME: why`."""
import io
import os
import shutil
import subprocess
import sys
import tempfile
import unittest

TOP = os.path.dirname(os.path.dirname(os.path.dirname(os.path.realpath(__file__))))
TOOLS = os.path.join(TOP, "tools/council-tools")
PROGRAM = os.path.realpath(sys.argv[1]) if len(sys.argv) > 1 else None
TEMP = tempfile.mkdtemp()
sys.dont_write_bytecode = True
sys.path[:0] = [os.path.join(TOP, "python/src"), os.path.join(TOP, "tests")]
# the program at hand answers, wherever a tool or the package needs it
os.environ["COUNCIL_LIBRARY"] = ""
if PROGRAM:
    os.environ["COUNCIL_PROGRAM"] = PROGRAM
# names that a table, a page or a picture might take for something else
HOSTILE = [
    "=1+1", "+1", "-1", "@x", "＝1+1", "＋1", "－1", "＠SUM(A1)", "=",
    '"quoted"', "it's", "<script>alert(1)</script>", "</title>&amp;", "]]>", "a|b `c` *d* [e](f)",
    "\\LaTeX & 100% #_{x}^2~$\\end{tabular}", "${x} {{y}} %s {0}", "\ufffe", "\u202egnp.exe", "a\u2028b\u0085c", "中文 ñ é Ł",
    "e\u0301", "\U0001f600", "x" * 64, "W" * 64, "m, n; o", "CON", " ", "\\u0041",
]
LOW = "at most half of the total"
# the options of a report without swings, with them, and of them only
FORMS = [[], ["--swings"], ["--only-swings"]]


class Run:
    """Runs a tool, and keeps its status, its standard output and its standard error.

    It runs in this process, which is faster, or with `apart` in its own, as for a user."""

    def __init__(self, tool, *words, input=b"", apart=False):
        self.tool = tool
        data = input.encode() if isinstance(input, str) else input
        if apart:
            done = subprocess.run([sys.executable, TOOLS, tool, *words], input=data, capture_output=True)
            self.status, self.raw, err = done.returncode, done.stdout, done.stderr
        else:
            self.status, self.raw, err = inside(tool, words, data)
        self.out, self.err = self.raw.decode(), err.decode()


def inside(tool, words, data):
    """Runs a tool in this process, and returns what `Run` keeps."""
    from council.tools import main

    kept = sys.stdin, sys.stdout, sys.stderr
    sys.stdin, sys.stdout, sys.stderr = (io.TextIOWrapper(io.BytesIO(it), encoding="utf-8") for it in (data, b"", b""))
    try:
        status = main([tool, *map(os.fsdecode, words)])
    except SystemExit as it:
        status = it.code or 0
    finally:
        out, err = sys.stdout, sys.stderr
        sys.stdin, sys.stdout, sys.stderr = kept
    for it in out, err:
        it.flush()
    return status, out.buffer.getvalue(), err.buffer.getvalue()


class Tests(unittest.TestCase):
    """Tests of a tool."""

    def check_refused(self, run, *parts, status=None):
        """Checks that a run said one line, which is not long and has these parts, and nothing else."""
        self.assertIn(run.status, (1, 2, 3, 4) if status is None else (status,), (run.err, run.out[:300]))
        self.assertEqual(run.out, "")
        self.assertRegex(run.err, rf"\A(council-tools {run.tool}|council-tools): [^\n]*\n\Z")
        self.assertLess(len(run.err), 420)
        for it in parts:
            self.assertIn(it, run.err)


def report(game, *words):
    """Returns the report of a game, as text."""
    data = game.encode() if isinstance(game, str) else game
    done = subprocess.run([PROGRAM, *([] if {"--list", "--only-swings"} & {*words} else ["--tally"]), *words], input=data, capture_output=True)
    if done.returncode:
        raise SystemExit(f"the program refused a game: {done.stderr.decode()}")
    return done.stdout.decode()


def stored(name):
    """Returns the stored report of an example."""
    with open(f"{TOP}/examples/{name}.tsv", encoding="utf-8") as it:
        return it.read()


def put(name, text):
    """Writes a file, and returns its path."""
    path = f"{TEMP}/{name}"
    with open(path, "w", encoding="utf-8", newline="\n") as it:
        it.write(text)
    return path


def hostile_game(rules=1):
    """Returns a game file of some rules, whose members have the hostile names."""
    from council.game import write_game

    weights = [[at % 5 + 1] + [1] * (rules - 1) for at in range(len(HOSTILE))]
    quotas = [sum(it[0] for it in weights) - 4] + [len(HOSTILE) - 2] * (rules - 1)
    return write_game(HOSTILE, quotas, weights, 'A <title> & "more" \\ % = $x$')


def either_game():
    """Returns a game file that is won by 51 votes, or by two heads."""
    from council.game import write_game

    return write_game("ABC", [51, 2], [[50, 1], [49, 1], [1, 1]], "Either", ways=[[1], [2]])


def main(prefix):
    """Runs the tests of the program that was started."""
    import lines

    passed = lines.run(f"{prefix}: ")
    shutil.rmtree(TEMP)
    sys.exit(not passed)
