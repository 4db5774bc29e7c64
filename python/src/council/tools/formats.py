"""Writes tables as CSV and LaTeX."""
from __future__ import annotations

import textwrap
import unicodedata
from typing import Iterable, Iterator, Sequence

# the title of the column of names, which is on the left
NAME = "Member"


def quote_cell(text: str) -> str:
    """Writes a text as a cell of CSV, in quotes. One that a spreadsheet would take for a formula has
    an apostrophe in front: it may skip blanks and characters without a width."""
    if next((it for it in text if it.isprintable() and it != " "), "") in tuple("=+-@＝＋－＠"):
        text = "'" + text
    return '"' + text.replace('"', '""') + '"'


def escape_latex(text: str) -> str:
    """Writes a text so that LaTeX prints it character by character."""
    names = {"\\": "textbackslash", "~": "textasciitilde", "^": "textasciicircum", "<": "textless", ">": "textgreater", "|": "textbar"}
    text = unicodedata.normalize("NFC", text)
    characters = []
    for at, it in enumerate(text):
        if it in names:
            characters.append(f"\\{names[it]}{{}}")
        elif it in "&%$#_{}":
            characters.append("\\" + it)
        elif it == '"':
            characters.append("{\\char34}")
        elif it in "[]*":
            characters.append("{" + it + "}")
        elif it == " " and (at == 0 or at + 1 == len(text) or text[at - 1] == " "):
            characters.append("\\ ")
        elif it in "-'`,?!" and text[at + 1 : at + 2] in tuple("-'`,?!"):
            characters.append(it + "{}")
        else:
            characters.append(it)
    return "".join(characters)


def write_tabular(names: Iterable[str], titles: Sequence[str], rows: Iterable[Iterable[str]]) -> Iterator[str]:
    """Yields the lines of a table of LaTeX, whose cells are escaped, and which has these names."""
    yield "% \\usepackage{booktabs}, and \\usepackage[T1]{fontenc} for letters with accents"
    for character in sorted(set("".join(unicodedata.normalize("NFC", it) for it in names))):
        if character > "\u017f" or "\x7f" < character < "\xa0":
            # where this TeX has no such character, its number
            name = f"u8:\\detokenize{{{character}}}\\endcsname"
            yield f"\\ifcsname {name}\\else\\expandafter\\def\\csname {name}{{[U+{ord(character):04X}]}}\\fi"
    # many columns fit a page in a smaller font, with headings of several lines
    is_wide = len(titles) > 4
    size = "\\scriptsize\\tabcolsep=2pt" if len(titles) < 8 else "\\tiny\\tabcolsep=1pt"
    yield (f"{{{size}" if is_wide else "") + "\\begin{tabular}{" + "".join("l" if it == NAME else "r" for it in titles) + "}"
    yield "\\toprule"
    wrapped = [textwrap.wrap(it, 9 if is_wide else 1000, break_long_words=False) for it in titles]
    yield " & ".join("\\shortstack[r]{" * (len(its) > 1) + "\\\\".join(map(escape_latex, its)) + "}" * (len(its) > 1) for its in wrapped) + " \\\\"
    yield "\\midrule"
    for cells in rows:
        yield " & ".join(cells) + " \\\\"
    yield "\\bottomrule"
    yield "\\end{tabular}" + ("}" if is_wide else "")
