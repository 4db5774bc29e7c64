"""What the tests of the package share: the package that Python finds, else the one beside them, and texts to try."""
import sys
from pathlib import Path

HERE = Path(__file__).resolve().parent
TOP = HERE.parent.parent
sys.dont_write_bytecode = True
try:
    import council
except ImportError:
    sys.path.insert(0, str(HERE.parent / "src"))
    import council  # noqa: F401
# (the clone's other tests have oracle and lines)
sys.path.insert(0, str(TOP / "tests"))

HOSTILE = [
    "=1+1", "-1", '"quoted"', "it's", "<b>&amp;", "a|b `c` *d*", "\\LaTeX #_{x}", "${x} %s {0}", "\ufffe", "\u202egnp.exe", "a\u2028b\u0085c",
    "中文 ñ é Ł", "e\u0301", "\U0001f600", "x" * 64, "m, n; o", " ", "\\u0041", "#", "[[member]]", "NA", "nan", "None",
]
# the report of a game that is won by 51 votes or by two heads, with its coalitions
BY_WAYS = (
    "members\t3\nquota\t51/2\ntotal\t100/3\nways\t1 2\nminimal\t3\ncoalition\t2\t99/2\t1\t2\ncoalition\t2\t51/2\t1\t3\ncoalition\t2\t50/2\t2\t3\n"
    + "".join(f"member\t{at}\t{it}/1\t2\t1/3\t0.333333\t1/3\t0.333333\n" for at, it in enumerate([50, 49, 1], 1))
)
# the report of [51; 50, 49, 1], with its coalitions
LISTED = (
    "members\t3\nquota\t51\ntotal\t100\nminimal\t2\ncoalition\t2\t99\t1\t2\ncoalition\t2\t51\t1\t3\n"
    "member\t1\t50\t2\t1/2\t0.500000\t1/2\t0.500000\nmember\t2\t49\t1\t1/4\t0.250000\t1/4\t0.250000\nmember\t3\t1\t1\t1/4\t0.250000\t1/4\t0.250000\n"
)
