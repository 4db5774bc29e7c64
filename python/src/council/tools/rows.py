"""Reads the rows of a table, and finds its heading, its members and their columns."""
from __future__ import annotations

import csv
import io
import re
from typing import Any, NamedTuple, Optional, Sequence

from ..game import MEMBERS, NAME, is_text, quote, quote_for_shell
from ..reports import Fault
from .command import cut, fold, quote_all, write_ranges
from .quotas import NONE, Number, is_count, is_number, is_rising, read_cells

# the most bytes and lines of a table
MOST, LINES = 1 << 22, 10000
# a heading for certain: no number, and no sign that there is none
TITLE = re.compile(r"%|(?!(n/?a|nan|none|null|[nk]\.? ?[da]\.?)$)\W*((19|20)\d\d\b\W*)?[^\W\d_].*", re.I | re.S)


class Row(NamedTuple):
    """The line in which a row begins, its number in a spreadsheet, and its cells."""
    line: int
    number: int
    cells: list[str]

    def label(self) -> str:
        """Returns its first text, or its first number if it has none."""
        return next((it for it in self.cells if it and not is_number(it)), next(filter(None, self.cells)))

    def size(self) -> int:
        """Returns how many cells it has, without empty ones at its end."""
        return max(at for at, it in enumerate(self.cells, 1) if it)


def name_lines(rows: Sequence[Row]) -> str:
    """Writes the lines of rows, and their numbers in a spreadsheet if these are others."""
    lines, numbers = write_ranges("line", [it.line for it in rows]), write_ranges("row", [it.number for it in rows])
    return lines if lines[4:] == numbers[3:] else f"{lines} ({numbers})"


def write_lines(rows: Sequence[Row]) -> str:
    """Writes rows as --drop and --member take them."""
    return cut(",".join("line" * (it.line != it.number) + str(it.line) for it in rows), 60)


def show(row: Row, text: str, column: Optional[int] = None) -> str:
    """Names a row, or a cell of it, in a message."""
    return f"{name_lines([row])}, {'' if column is None else f'column {column + 1}: '}{quote(cut(text))}"


def read_rows(data: bytes, encoding: Optional[str]) -> list[Row]:
    """Returns the rows that are not empty. A first line sep=; is for spreadsheets; zeros tell UTF-16."""
    if len(data) > MOST:
        raise Fault("the table is longer than 4 MiB: keep the rows of the members, and the columns that you need")
    if data.startswith((b"PK\x03\x04", b"\xd0\xcf\x11\xe0\xa1\xb1\x1a\xe1")):
        raise Fault("this is the file of a spreadsheet itself: export it as CSV, and give that")
    wide = "utf-16" if data[:2] in (b"\xff\xfe", b"\xfe\xff") else "utf-16-be" if data[:1] == b"\0" else "utf-16-le"
    encoding, rows, begun = encoding or (wide if b"\0" in data[:200] else "utf-8-sig"), list[Row](), 1
    try:
        text = data.decode(encoding)
        lines = text.splitlines()
        if not 0 < len(lines) <= LINES:
            raise Fault(f"the table has no line, or more than {LINES:,}: keep those of the members")
        separator = max("\t;|,", key=lambda it: sum(it in line for line in lines))
        reader = csv.reader(io.StringIO(text, newline=""), delimiter=separator, strict=True)
        for number, cells in enumerate(reader, 1):
            if any(map(str.strip, cells)) and not (begun == 1 and cells[0].startswith("sep=")):
                rows.append(Row(begun, number, [it.strip() for it in cells]))
            begun = reader.line_num + 1
    except (LookupError, ValueError) as it:
        line = data.count(10, 0, it.start) + 1 if isinstance(it, UnicodeDecodeError) else begun
        how = "export it as CSV in UTF-8, or say --encoding cp1252 or what it is"
        raise Fault(f"line {line} is no row of a table in {encoding}: {it}; {how}") from None
    except csv.Error as it:
        why = "has a quote that is not closed" if "end" in str(it) else f"goes on after a closing quote ({it})"
        how = 'write quotes in a cell as """A"" B", or write none'
        if separator not in text:
            why, how = "has blanks between its cells", 'in R\'s write.table say sep = ";" and col.names = NA'
        raise Fault(f"line {begun}, {quote(cut(lines[begun - 1].strip()))}, {why}: {how}") from None
    return rows


class Table:
    """The heading of a table, the rows of its members, and the columns that are read."""

    def __init__(self, rows: list[Row], words: Any, rules: int) -> None:
        self.words, self.all, self.is_said = words, rows, bool(words.heading)
        dropped, chosen, said, self.members = map(self.find_lines, ("drop", "rows", "heading", "member"))
        rest = [it for it in rows if it.line not in dropped]
        above = [it for it in rest if (it.line in said if said else it.line < min(chosen) if chosen else it is rest[0])]
        self.line, _, self.titles = Row(0, 0, []) if words.no_heading or not above else above[-1]
        read = chosen - {self.line} or {it.line for it in rest if it.line > self.line}
        self.rows = [it for it in rest if it.line in read]
        if not self.rows or not (above or words.no_heading):
            raise Fault("there is no row of a member, or no heading above: say --heading N, or --no-heading", 2)
        self.width = above[-1].size() if self.line else max(map(Row.size, self.rows))
        self.check_widths()
        # what --only leaves out, by its value, and what to say of one that is spelled alike
        self.filtered, self.alike = dict[str, list[Row]](), list[str]()
        self.choose(rules, [self.filter(*it.partition("=")) for it in words.only or ()])

    def find_lines(self, option: str) -> set[int]:
        """Returns the lines that an option means, by number, or for some options by name."""
        found, named = set[int](), {fold(it.label()) for it in self.all if option in ("drop", "member")}
        for word in getattr(self.words, option) or ():
            for part in [word] if fold(word) in named else word.split(","):
                match = re.fullmatch(r"\s*(line ?)?0*(\d{1,7})(?:-0*(\d{1,7}))?\s*", part, re.A)
                ends = [[row for row in self.all if it in (str(row.line), "" if match[1] else str(row.number))]
                        for it in match.group(2, 3) if it] if match else []
                for its in (it for it in ends if it[1:]):
                    how = " or ".join(f"line{it.line} for {show(it, it.label())}" for it in its)
                    raise Fault(f"--{option} {part} may be a line or a row of a spreadsheet: say {how}", 2)
                if fold(part) in named and not match:
                    found |= {it.line for it in self.all if fold(it.label()) == fold(part)}
                elif ends and all(ends) and ends[0] <= ends[-1]:
                    found |= {it.line for it in self.all if ends[0][0] <= it <= ends[-1][0]}
                else:
                    raise Fault(f"--{option} {part}: say {cut(name_lines(self.all))}{', or a name' * bool(named)}", 2)
        return found

    def find_heading(self) -> Optional[Row]:
        """Returns a row of texts right above numbers, which is likely the heading."""
        for it, below in zip(self.rows, self.rows[1:]):
            titles = [TITLE.fullmatch(cell) or re.fullmatch(r"(19|20)\d\d", cell) for cell in it.cells if cell]
            if any(map(is_number, below.cells)) or not all(titles):
                return it if titles[1:] and all(titles) and it.size() >= below.size() else None
        return None

    def check_widths(self) -> None:
        """Refuses a row with more or fewer cells than the heading."""
        better = self.find_heading()
        for row in self.rows:
            if (has := row.size()) > self.width or len(row.cells) < self.width:
                how = f"write as many, 1200 instead of 1,200; or say --drop {write_lines([row])}, or --heading N"
                if better:
                    how = f"say --heading {better.line} if {quote_all(better.cells)} are the headings"
                elif self.line and all(it.size() == self.width + 1 for it in self.rows):
                    how = "give each column a heading (in R's write.table say col.names = NA), or say --no-heading"
                raise Fault(f"{show(row, row.label())}, has {has} cell{'s' * (has > 1)} instead of {self.width}: {how}")

    def find_column(self, word: str) -> int:
        """Returns the column that a heading or a number names."""
        titled = {at for at, it in enumerate(self.titles) if it == word.strip()}
        numbered = {int(word) - 1} if re.fullmatch(r"0*[1-9]\d{0,3}", word) and int(word) <= self.width else set()
        if len(titled | numbered) != 1:
            what = f"{'more than one' if titled else 'no'} column is {quote(word)}"
            raise Fault(f"{what} among {quote_all(self.titles) or self.width}: say the number of one", 2)
        # a number of a column tells nothing of the heading
        self.is_said = self.is_said or not numbered
        return min(titled | numbered)

    def filter(self, word: str, _: str, value: str) -> int:
        """Keeps the rows that --only chooses, and returns the column that it names."""
        column, value = self.find_column(word), value.strip()
        values = dict.fromkeys(it.cells[column] for it in self.rows)
        its = {text: [it for it in self.rows if it.cells[column] == text] for text in values}
        self.rows = its.pop(value, [])
        if not self.rows:
            raise Fault(f"--only {word}={value}: no row has that, but {quote_all(its)}", 2)
        alike = [it for it in its if re.fullmatch(rf"\W*{re.escape(fold(value))}\D*", fold(it))]
        self.alike += [f"look at {name_lines(its[it])}, {quote(it)}, which --only leaves out" for it in alike]
        self.filtered.update({f"{word} {text}": rows for text, rows in its.items()})
        return column

    def choose(self, rules: int, used: Sequence[int]) -> None:
        """Chooses the columns that options name, else the only ones. Refuses a heading that may be a member."""
        self.cells = [[row.cells[at] for row in self.rows] for at in range(self.width)]
        self.numbers = [at for at, its in enumerate(self.cells) if at not in used and any(map(is_number, its))]
        self.weights = [self.find_column(it) for it in self.words.weight or ()]
        taken = {*used, *self.numbers, *self.weights}
        texts = [at for at, its in enumerate(self.cells) if at not in taken and any(its)]
        # flats may have numbers for names
        texts = texts or [at for at in self.numbers[:1] if at not in self.weights and is_rising(self.cells[at])]
        self.name = self.find_only("name", texts, 1)[0] if (name := self.words.name) is None else self.find_column(name)
        if rules and not self.weights:
            self.weights = self.find_only("weight", [it for it in self.numbers if it != self.name], rules)
        if len(self.weights) != rules or len({self.name, *self.weights}) <= rules:
            raise Fault(f"{rules} quotas are of weights: name as many columns by --weight, none twice or as --name", 2)
        doubted = [at for at, it in enumerate(self.titles[: self.width]) if (it or at) and not TITLE.fullmatch(it)]
        if self.line and not self.is_said and (doubted or not {*self.weights, *self.numbers} - {self.name}):
            better, at = self.find_heading(), doubted[0] if doubted else self.name
            how = f"say --heading {better.line if better else 'N for its line'}, or --no-heading if there is none"
            raise Fault(f"line {self.line}, column {at + 1}: {quote(cut(self.titles[at]))} may be no heading: {how}")

    def find_only(self, what: str, columns: list[int], wanted: int) -> list[int]:
        """Returns the columns if they are as many as wanted, and can hardly be something else."""
        its = [f"column {at + 1}" + (f", {quote(self.titles[at])}," if self.line else "") for at in columns]
        counts = what == "weight" and len(self.rows) > 2 and any(is_count(self.cells[at], 0, 1) for at in columns)
        # without headings, 1,000 may be two weights
        if len(columns) != wanted or counts or (wanted > 1 and not self.line):
            why = f"{' (1, 2, 3, .. may count rows)' * counts}, and {wanted} {'is' if wanted == 1 else 'are'} wanted"
            how = f"say --{what} COLUMN, a heading or a number{', for each quota' * (wanted > 1)}"
            how += "; commas, semicolons, TABs or | separate columns" * (self.width == 1)
            raise Fault(f"{' and '.join(its) or 'no column'} may have {what}s{why}: {how}")
        return columns

    def find_names(self) -> dict[str, list[int]]:
        """Returns the names, each with its rows: one, unless --sum adds them."""
        found: dict[str, list[int]] = {}
        names = [" ".join(it.split()) for it in self.cells[self.name]]
        for at, (row, name) in enumerate(zip(self.rows, names)):
            where, how = show(row, name, self.name), f"say --drop {write_lines([row])}"
            if not fold(name) or not is_text(name, NAME):
                raise Fault(f"{where} is no name that can be read, in at most {NAME} bytes: {how}")
            first = found.setdefault(fold(name), [at])[0]
            if names[first] != name or not (first == at or self.words.sum):
                # of panel data one year is read, a value that other rows have too
                others = {*range(self.width)} - {self.name, *self.weights}
                its = [f"{self.titles[it] if self.line else it + 1}={self.cells[it][at]}" for it in sorted(others)
                       if self.cells[it][first] != self.cells[it][at] in self.cells[it][:at] + self.cells[it][at + 1 :]]
                how = f"say --only {quote_for_shell(its[0])}" if its else f"{how}, or --sum to add their weights"
                how = how if names[first] == name else "in other letters; write both alike"
                raise Fault(f"{where} is also in {show(self.rows[first], names[first])}: {how}")
            found[fold(name)] += [at] * (first != at)
        if len(found) > MEMBERS or len(self.rows) > 1000:
            raise Fault(f"{len(found)} members: the program takes at most {MEMBERS}, in 1000 rows: see --only, --rows")
        return {names[its[0]]: its for its in found.values()}

    def read_numbers(self, at: int) -> list[Number]:
        """Returns the numbers of a column of weights."""
        numbers = read_cells(self.cells[at], bool(self.words.weight), self.words.blank)
        # a spreadsheet shows 123456789 as 1.23E+08; R and pandas write e+
        wrong = [row for row, it in zip(self.rows, numbers) if not it.values or "E+" in it.text]
        if wrong:
            text, how, is_heading = wrong[0].cells[at], "write one, or 0 for no weight", wrong[0] is self.find_heading()
            its = [it for it in wrong if it.cells[at] == text]
            how = "say --blank 0" if text in NONE else f"say --heading {its[0].line}" if is_heading else how
            what = f"{name_lines(its)}, column {at + 1}: {quote(cut(text))} is no number of at least 0, written in full"
            raise Fault(f"{what}: {how}; or --drop {write_lines(its)} if no member is there")
        units = sorted({it.unit for it in numbers if any(it.values.values())})
        if units[1:]:
            raise Fault(f"column {at + 1}: some weights have {quote_all(units[1:])}, some have not: write all alike")
        return numbers
