"""Writes a game file of council, and reads the comments of one."""
from __future__ import annotations

import itertools
import re
import sys
from typing import Any, Callable, Iterable, Optional, Sequence

from .reports import Fault, Report
from .ways import Ways, find_low

MEMBERS, RULES, WEIGHT, NAME, TITLE, GAME_FILE = 40, 4, 10**12, 64, 200, 65536


def is_text(text: str, most: int) -> bool:
    """Returns whether a name or a title of at most `most` bytes may be this text."""
    return len(text.encode("utf-8", "surrogatepass")) <= most and (text.isprintable() or all(it >= " " and it != "\x7f" and not "\ud800" <= it <= "\udfff" for it in text))


def quote(text: str) -> str:
    """Puts a text in quotes, as TOML reads it. Characters that end a line or move a terminal are
    written by number."""
    codes = {ord(it): f"\\u{ord(it):04X}" if ord(it) <= 0xFFFF else f"\\U{ord(it):08X}" for it in text if not it.isprintable()}
    return '"' + text.translate({ord('"'): '\\"', ord("\\"): "\\\\", **codes}) + '"'


def quote_for_shell(text: str) -> str:
    """Writes a text as one word for bash or zsh."""
    if text.isprintable():
        return "'" + text.replace("'", "'\\''") + "'"
    codes = {ord(it): "".join(f"\\{byte:03o}" for byte in it.encode("utf-8", "surrogateescape")) for it in text if not it.isprintable() or it in "'!\\"}
    return "$'" + text.translate(codes) + "'"


def write_game(names: Sequence[str], quotas: Sequence[int], weights: Iterable[Sequence[int]], title: str = "", comments: Iterable[str] = (), ways: Ways = ()) -> str:
    """Returns a game file, as `format_game` does, with ways if there are several. No member or too many, and a title that a game
    cannot have, are a Fault."""
    if not 1 <= len(names) <= MEMBERS:
        raise Fault(f"there are {len(names)} members, and a game has 1 to {MEMBERS}")
    if not is_text(title, TITLE):
        raise Fault(f"the title has more than {TITLE} bytes, or a character that cannot be read")
    return format_game(names, quotas, weights, title, comments, ways if len(ways) > 1 else None)


def format_game(names: Sequence[str], quotas: Sequence[object], weights: Iterable[Sequence[object]], title: str = "", comments: Iterable[str] = (), ways: Optional[Ways] = None) -> str:
    """Returns a game file, and checks nothing: the comments, one a line, the quota of each rule, the
    ways, and for each member its name and its weight under each rule."""
    parts = ["".join(f"# {it}\n" for it in comments)]
    if title:
        parts.append(f"title = {quote(title)}\n")
    one = len(quotas) == 1 and ways is None
    parts.append(f"quota = {quotas[0]}\n" if one else f"quotas = [{', '.join(map(str, quotas))}]\n")
    if ways is not None:
        parts.append(f"ways = [{', '.join(str([*it]) for it in ways)}]\n")
    for name, its in zip(names, weights):
        parts.append(f"\n[[member]]\nname = {quote(name)}\n")
        parts.append(f"weight = {its[0]}\n" if one else f"weights = [{', '.join(map(str, its))}]\n")
    return "".join(parts)


# a comment that names a rule and its unit: # Rule 1: "Share", percent, 2 decimals; column 2, ..
RULE = re.compile(r'# Rule ([1-4]): (?:"((?:[^"\\]|\\.)*)"(?:, |(?=;|$)))?(?:(percent)(?:, |(?=;|$)))?(?:(\d{1,2}) decimals?)?(?:;.*)?')


class Unit:
    """What the weights of a rule are: their name, whether they are percentages, and how many of
    their last digits are decimals."""

    def __init__(self, name: str = "", percent: bool = False, places: int = 0):
        self.name, self.percent, self.places = name, percent, places

    def write(self, weight: int) -> str:
        """Writes a weight as a person reads it: 1650 is 16.50%, and 1234567 is 1,234,567."""
        digits = str(weight).rjust(self.places + 1, "0")
        whole, decimals = (digits[: -self.places], "." + digits[-self.places :]) if self.places else (digits, "")
        return f"{int(whole):,}{decimals}" + ("%" if self.percent else "")

    def write_plain(self, weight: int) -> str:
        """Writes a weight as a program reads it: 1650 is 16.50, and 1234567 is 1234567."""
        return Unit("", False, self.places).write(weight).replace(",", "")

    def is_share_of(self, total: int) -> bool:
        """Returns whether the weights are percentages that add up to 100."""
        return self.percent and total == 100 * 10**self.places


def write_rule_comment(number: int, name: str, percent: bool, places: int, more: str) -> str:
    """Returns the comment that says what the weights of a rule are, and how they were found."""
    decimals = f"{places} decimal{'' if places == 1 else 's'}" if places else ""
    unit = ", ".join(filter(None, [name and quote(name), "percent" if percent else "", decimals]))
    return f"Rule {number}: {unit}{'; ' if unit else ''}{more}"


def unquote(text: str) -> str:
    """Reads a text that `quote` has written, without the quotes round it."""
    return re.sub(r"\\(?:u([0-9A-Fa-f]{4})|U([0-9A-Fa-f]{8})|(.))", decode_character, text)


def decode_character(match: re.Match[str]) -> str:
    if match[3]:
        return match[3]
    number = int(match[1] or match[2], 16)
    return chr(number) if number <= 0x10FFFF and not 0xD800 <= number <= 0xDFFF else "\ufffd"


def read_units(comments: Iterable[str], rules: int) -> list[Unit]:
    """Returns the unit of each rule, as the comments of its game file tell it."""
    units = [Unit() for _ in range(rules)]
    for it in comments:
        match = RULE.fullmatch("# " + it)
        if match and int(match[1]) <= rules:
            units[int(match[1]) - 1] = Unit(unquote(match[2] or ""), bool(match[3]), min(int(match[4] or 0), 18))
    return units


def describe_low_quotas(quotas: Sequence[int], totals: Sequence[int], ways: Ways) -> list[str]:
    """Says which quotas are at most half of their totals: 0.85 that was read as one vote, or a
    game in which two coalitions without a common member both win."""
    both = dict.fromkeys(find_low(quotas, totals, ways), ", so two coalitions without a common member could win")
    return [f"the quota {quota:,}{f' of rule {rule}' if len(quotas) > 1 else ''} is at most half of the total, {total:,}{both.get(rule, '')}"
            for rule, (quota, total) in enumerate(zip(quotas, totals), 1) if 2 * quota <= total]


def find_slips(text: str) -> list[str]:
    """Returns what is hardly meant in a bracket text: commas between thousands. A weight after a comma
    has three digits, and begins with 0, or else a blank is after another comma."""
    is_bracket = re.match(r"\s*\[\s*\d", text)
    has_thousands = re.search(r",\s*0\d\d\b", text) or (re.search(r",\d{3}\b", text) and re.search(r",\s", text))
    return ["a comma ends a weight, also between thousands: 1,000 is read as 1 and 0"] if is_bracket and has_thousands else []


def find_comments(text: str) -> list[str]:
    """Returns the comments at the beginning of a game file, each without its sign."""
    lines = filter(None, map(str.strip, text.split("\n")))
    return [it[1:].strip() for it in itertools.takewhile(lambda it: it.startswith("#"), lines)]


# what a game file is made of: texts, numbers, names and signs, between blanks and comments
TOKEN = re.compile(r"""(?:\s|\#[^\n]*\n)*("(?:[^"\\\n]|\\.)*"|'[^'\n]*'|[+-]?\d\w*|[\w-]+|[][{},=]|\Z)""", re.A)


class Toml:
    """Reads the TOML of a game file, for Python before 3.11. Any other text is a ValueError, or
    another game."""

    def __init__(self, text: str) -> None:
        self.tokens, at = [""], 0
        while at < len(text):
            match = TOKEN.match(text, at)
            if not match or match.end() == at:
                raise ValueError(text[at : at + 20])
            self.tokens.append(match[1])
            at = match.end()
        self.tokens.reverse()

    def take(self, *wanted: str) -> str:
        it = self.tokens.pop()
        if wanted and it not in wanted:
            raise ValueError(it)
        return it

    def read_all(self, end: str, read: Callable[[], None]) -> None:
        """Reads what has commas between it, up to a bracket."""
        while self.tokens[-1] != end:
            read()
            if self.tokens[-1] != end:
                self.take(",")
        self.take(end)

    def read_pair(self, table: dict[str, Any]) -> None:
        key = self.take()
        self.take("=")
        if key in table:
            raise ValueError(key)
        table[key] = self.read_value()

    def read_value(self) -> Any:
        it = self.take()
        table: dict[str, Any] = {}
        its: list[Any] = []
        if it == "[":
            self.read_all("]", lambda: its.append(self.read_value()))
            return its
        if it == "{":
            self.read_all("}", lambda: self.read_pair(table))
            return table
        return it[1:-1] if it[:1] == "'" else unquote(it[1:-1]) if it[:1] == '"' else int(it, 0)

    def read_game(self) -> dict[str, Any]:
        """Returns the tables of a game file."""
        game: dict[str, Any] = {}
        table = game
        self.take("")
        while self.tokens[1:]:
            if self.tokens[-1] == "[":
                for it in "[", "[", "member", "]", "]":
                    self.take(it)
                table = {}
                game.setdefault("member", []).append(table)
            else:
                self.read_pair(table)
        return game


def read_game(text: str) -> dict[str, Any]:
    """Reads the TOML of a game file."""
    if sys.version_info >= (3, 11):
        import tomllib

        return tomllib.loads(text)
    return Toml(text + "\n").read_game()


def check_same(text: str, report: Report) -> None:
    """Refuses a file that is not the game of a report."""
    try:
        if re.match(r"\s*\[\s*\d", text):
            first, *others = map(int, re.findall(r"\d+", text))
            game: dict[str, Any] = {"quota": first, "member": [{"name": str(at), "weight": it} for at, it in enumerate(others, 1)]}
        else:
            game = read_game(text)
        names = [it["name"] for it in game["member"]]
        quotas = game["quotas"] if "quotas" in game else [game["quota"]]
        ways = sorted(sorted(it) for it in game.get("ways", [range(1, len(quotas) + 1)]))
        weights = [it["weights"] if "weights" in it else [it["weight"]] for it in game["member"]]
    except (ValueError, LookupError, TypeError, RecursionError):
        raise Fault("this is no game file") from None
    its = [it.name for it in report.members], list(report.quotas), report.sort_ways(), [list(it.weights) for it in report.members]
    if (names, quotas, ways, weights) != its:
        raise Fault("this is not the game of the report")
