"""Makes one page of HTML from reports of council, to send, open or print:

    council-tools page [OPTIONS] [REPORT..] >page.html

REPORT is a file; without one, or as -, it is standard input. The page has the title, the quotas, a table that a
click sorts, bars, the coalitions if the report lists them (--list), what its indices are, and how
to compute them again. With the game file, --game FILE, it also has the names of the rules,
weights in the unit of the table, and the comments of the file, such as the source of the data. It
loads nothing from elsewhere.
"""
from __future__ import annotations

import argparse
import base64
import hashlib
import re
import subprocess
from fractions import Fraction
from typing import Any, Callable, Iterable, Iterator, Optional, Sequence

from .. import decimals
from ..columns import INDICES, Group, Index
from ..decimals import cut_off, round_half_up
from ..finding import NotFound, find_program
from ..game import Unit, write_game
from ..members import Coalition
from ..reports import Fault, Report
from ..ways import find_low
from .command import MANY, Words, add_index, choose_indices, read_comments, read_lines
from .drawing import SHARES, escape_xml, name_share, write_quota

MOST = 1000
# comments that from_table.py writes, a line each; others are a text that may be wrapped
ITEM = re.compile(r"(From a table(?: of|,)|Rule [1-4]:|Left out:|Not read:|Look at|Options:|Taken as members:|Added:|Source:|A motion passes) ?.*", re.I)
LIGHT = "".join([f" --s{rule}: {light};" for rule, (light, _) in enumerate(SHARES)] + [f" --{it.word()}: {it.light};" for it in INDICES])
DARK = "".join([f" --s{rule}: {dark};" for rule, (_, dark) in enumerate(SHARES)] + [f" --{it.word()}: {it.dark};" for it in INDICES])
# (the fade of .wide has a cover that scrolls with the table, so it shows only if that is cut)
STYLE = """
:root { color-scheme: light dark; --ground: #fff; --ink: #1c1c1c; --soft: #5f6368; --line: #d8d8d8;LIGHT }
@media (prefers-color-scheme: dark) { :root { --ground: #16181b; --ink: #e6e6e6; --soft: #a2a7ad; --line: #3a3e44;DARK } }
* { box-sizing: border-box; }
body { margin: 0; background: var(--ground); color: var(--ink); font: 16px/1.5 Georgia, "Times New Roman", serif; }
main { padding: 1.5rem 1rem 3rem; width: fit-content; min-width: min(100%, 64rem); max-width: 100%; margin: 0 auto; }
main > *, section > * { max-width: 62rem; }
main > section { max-width: none; }
h1, h2 { overflow-wrap: anywhere; }
h1 { font-size: 1.6rem; line-height: 1.25; margin-top: 0; margin-bottom: .5rem; }
h2 { font-size: 1.15rem; margin-top: 2rem; margin-bottom: .5rem; }
section + section { border-top: 2px solid var(--line); margin-top: 3rem; padding-top: 1.5rem; }
.wide { overflow: auto; position: relative; max-width: none; max-height: 90vh; background: linear-gradient(to left, var(--ground) 50%, transparent) right / 4rem 100% no-repeat local, linear-gradient(to left, var(--line), transparent) right / 2rem 100% no-repeat; }
table { border-collapse: separate; border-spacing: 0; width: 100%; font-variant-numeric: tabular-nums; }
th, td { padding: .3rem .5rem; border-bottom: 1px solid var(--line); text-align: right; vertical-align: middle; }
th { vertical-align: bottom; line-height: 1.25; position: sticky; top: 0; z-index: 1; background: var(--ground); }
th:first-child, td:first-child { position: sticky; left: 0; z-index: 1; background: var(--ground); text-align: left; padding-left: 0; }
th:first-child { z-index: 2; }
th bdi, td bdi { display: inline-block; max-width: 18rem; overflow-wrap: break-word; }
th bdi { max-width: 10rem; }
th button { all: unset; cursor: pointer; font-weight: bold; }
th button:focus-visible, .wide:focus-visible { outline: 2px solid var(--deegan-packel); }
th button::after { content: "\\a0\\2195"; color: var(--soft); font-weight: normal; }
th[aria-sort=ascending] button::after { content: "\\a0\\2191"; }
th[aria-sort=descending] button::after { content: "\\a0\\2193"; }
.fraction { display: inline-flex; flex-direction: column; align-items: center; line-height: 1.15; font-size: .8rem; vertical-align: middle; }
.fraction i { font-style: normal; width: 100%; text-align: center; border-top: 1px solid currentColor; }
.fraction u { position: absolute; opacity: 0; text-decoration: none; }
.bars { display: grid; grid-template-columns: minmax(4rem, auto) minmax(55%, 1fr); gap: .6rem .7rem; align-items: center; }
.bars > div:nth-child(odd) { text-align: right; overflow-wrap: anywhere; max-width: 18rem; justify-self: end; }
.track { display: flex; align-items: center; gap: .35rem; font: .75rem/1.25 Helvetica, Arial, sans-serif; font-variant-numeric: tabular-nums; }
.bar { flex: none; height: .6rem; print-color-adjust: exact; -webkit-print-color-adjust: exact; }
.key { display: inline-block; width: .8rem; height: .8rem; margin-right: .35rem; print-color-adjust: exact; -webkit-print-color-adjust: exact; }
.keys { list-style: none; padding: 0; display: flex; flex-wrap: wrap; gap: .2rem 1.2rem; font-size: .9rem; }
pre { overflow-x: auto; border: 1px solid var(--line); padding: .6rem; font-size: .8rem; line-height: 1.35; }
.soft, small { color: var(--soft); }
p, li { overflow-wrap: anywhere; }
footer { margin-top: 3rem; border-top: 2px solid var(--line); font-size: .9rem; }
@media (max-width: 480px) {
  th, td { padding: .3rem .35rem; }
  th bdi, td bdi { max-width: 8rem; }
  .bars { grid-template-columns: 1fr; gap: .1rem; }
  .bars > div:nth-child(odd) { text-align: left; justify-self: start; margin-top: .4rem; max-width: none; }
}
@media print { body { font-size: 10pt; } th button::after { content: "" !important; } .wide { overflow: visible; max-height: none; background: none; } tr, .bars > div { break-inside: avoid; } }
""".replace("LIGHT", LIGHT).replace("DARK", DARK)
SCRIPT = """
for (const table of document.querySelectorAll("table.members")) {
  table.tHead.addEventListener("click", event => {
    const head = event.target.closest("th");
    if (!head) return;
    const at = head.cellIndex;
    const first = at === 0 ? "ascending" : "descending";
    const order = head.getAttribute("aria-sort") === first ? (at === 0 ? "descending" : "ascending") : first;
    for (const it of head.parentNode.cells) it.removeAttribute("aria-sort");
    head.setAttribute("aria-sort", order);
    const sign = order === "ascending" ? 1 : -1;
    const key = row => Number(row.cells[at].dataset.key);
    const rows = [...table.tBodies[0].rows].sort((one, other) => sign * (key(one) - key(other)));
    table.tBodies[0].append(...rows);
  });
}
"""
COLEMAN = "J. S. Coleman (1971): Control of Collectivities and the Power of a Collectivity to Act. In B. Lieberman (ed.), <i>Social Choice</i>. New York: Gordon and Breach."
# what each index is, and its sources
ABOUT = {
    "deegan_packel": ("The <b>Deegan-Packel index</b> of a member is the share that it gets if each minimal winning coalition is as likely as another and "
                      "divides one unit equally among its members (Deegan and Packel 1978).", [
        "J. Deegan and E. W. Packel (1978): A New Index of Power for Simple n-Person Games. <i>International Journal of Game Theory</i> 7(2), 113-123."]),
    "public_good": ("The <b>public good index</b> is the member's share of all memberships in minimal winning coalitions (Holler 1982; Holler and Packel 1983).", [
        "M. J. Holler (1982): Forming Coalitions and Measuring Voting Power. <i>Political Studies</i> 30(2), 262-271.",
        "M. J. Holler and E. W. Packel (1983): Power, Luck and the Right Index. <i>Zeitschrift für Nationalökonomie</i> 43(1), 21-29."]),
    "banzhaf": ("The <b>Banzhaf index</b> is the member's share of the swings of all members (Banzhaf 1965).", [
        "J. F. Banzhaf (1965): Weighted Voting Doesn't Work: A Mathematical Analysis. <i>Rutgers Law Review</i> 19(2), 317-343."]),
    "penrose": ("<b>Penrose's measure</b> is the probability of a swing of the member if each other member votes yes or no with equal chances (Penrose 1946). "
                "It is not a share: those of all members need not add up to 1.", [
        "L. S. Penrose (1946): The Elementary Statistics of Majority Voting. <i>Journal of the Royal Statistical Society</i> 109(1)."]),
    "shapley_shubik": ("The <b>Shapley-Shubik index</b> is the probability that the member is the one who makes a coalition win, if members join it one after "
                       "the other and each order is as likely as another (Shapley and Shubik 1954).", [
        "L. S. Shapley and M. Shubik (1954): A Method for Evaluating the Distribution of Power in a Committee System. <i>American Political Science Review</i> 48(3)."]),
    "power_to_prevent": ("<b>Coleman, to prevent</b> is the member's power to prevent an act: the share of the winning coalitions that lose without it (Coleman 1971). "
                         "It is no share of a whole: those of all members need not add up to 1.", [COLEMAN]),
    "power_to_initiate": ("<b>Coleman, to initiate</b> is its power to initiate one: the share of the losing coalitions that win with it.", [COLEMAN]),
}
KINDS = {"coalitions": "A minimal winning coalition wins, and loses without any one of its members.",
         "swings": "A swing of a member is a winning coalition that loses without it."}


class Section(Report):
    """A report, with what the page shows beside it: its first coalitions, the source, the comments
    and units of the game file, and the indices that are chosen."""

    first: list[Coalition]
    source: Optional[str]
    comments: list[str]
    units: list[Unit]
    chosen: list[Index]


def choose_groups(report: Report, chosen: Sequence[Index]) -> list[Group]:
    """Returns the groups of these indices that a report has."""
    return [it for it in report.groups if it.columns(chosen)]


def write_name(text: str) -> str:
    """Writes a name, whose direction of writing stays its own."""
    return f"<bdi>{escape_xml(text)}</bdi>"


def write_fraction(value: Fraction) -> str:
    return f'<span class="fraction">{value.numerator}<u>/</u><i>{value.denominator}</i></span>'


def rank(values: Iterable[Any]) -> list[int]:
    """Returns the place of each value among all: by it a column is sorted, exactly."""
    places = {it: at for at, it in enumerate(sorted(set(values)))}
    return [places[it] for it in values]


def make_columns(report: Report, units: Sequence[Unit], chosen: Sequence[Index], write_exact: Callable[[Fraction], str]) -> Iterator[tuple[str, list[Any], list[str]]]:
    """Yields the columns of the table: the heading, the values to sort by, and the cells.
    Fractions, which may be long, come last."""
    members, several = report.members, len(report.quotas) > 1
    its = [(it.title, list(map(it.find, members))) for it in chosen]
    yield "Member", [it.name.casefold() for it in members], [write_name(it.name) for it in members]
    for title, values in its:
        yield title, values, list(map(cut_off, values))
    for rule, unit in enumerate(units):
        weights = [it.weights[rule] for it in members]
        of = f", rule&nbsp;{rule + 1}" if several else ""
        yield (write_name(unit.name) if unit.name else f"Weight{of}"), weights, [unit.write(it) for it in weights]
        if not unit.is_share_of(report.totals[rule]):
            yield (f"{write_name(unit.name)}, of all" if unit.name else f"Share{of}"), weights, [round_half_up(report.share(it, rule), 4) for it in members]
    for group in choose_groups(report, chosen):
        counts = [getattr(it, group.column) for it in members]
        yield group.title, counts, [f"{it:,}" for it in counts]
    for title, values in its:
        yield f"{title}, exactly", values, list(map(write_exact, values))


def write_plain_table(report: Report) -> Iterator[str]:
    """Yields the table without what needs the style and the script of the page."""
    its = list(make_columns(report, [Unit()] * len(report.quotas), report.indices, decimals.write_fraction))
    yield f"<table><caption>{escape_xml(report.heading())}</caption><thead><tr>"
    yield "".join(f"<th>{title}</th>" for title, _, _ in its) + "</tr></thead><tbody>"
    for cells in zip(*(texts for _, _, texts in its)):
        yield "<tr>" + "".join(f"<td>{it}</td>" for it in cells) + "</tr>"
    yield "</tbody></table>"


def write_table(report: Section, units: Sequence[Unit]) -> Iterator[str]:
    its = list(make_columns(report, units, report.chosen, write_fraction))
    yield '<div class="wide" tabindex="0" role="region" aria-label="Members"><table class="members"><thead><tr>'
    yield "".join(f'<th scope="col"><button type="button">{title}</button></th>' for title, _, _ in its)
    yield "</tr></thead><tbody>"
    for cells in zip(*(zip(rank(values), texts) for _, values, texts in its)):
        yield "<tr>" + "".join(f'<td data-key="{key}">{it}</td>' for key, it in cells) + "</tr>"
    yield "</tbody></table></div>"


def write_bars(report: Section, units: Sequence[Unit]) -> Iterator[str]:
    kinds = [(f"s{rule}", name_share(report, units, rule)) for rule in range(len(units))]
    kinds += [(it.word(), it.legend) for it in report.chosen]
    rows = [(it.name, [*(report.share(it, rule) for rule in range(len(units))), *(index.find(it) for index in report.chosen)]) for it in report.members]
    longest = max(max(values) for _, values in rows)
    yield '<ul class="keys">' + "".join(f'<li><span class="key" style="background: var(--{it})"></span>{escape_xml(what)}</li>' for it, what in kinds) + "</ul>"
    yield '<div class="bars">'
    for who, values in rows:
        yield f"<div>{write_name(who)}</div><div>"
        for (it, what), value in zip(kinds, values):
            # the longest bar leaves room for its number
            long = f"calc((100% - 3.4rem) * {float(value / longest):.4f})"
            yield f'<div class="track" title="{escape_xml(what)}"><span class="bar" style="width: {long}; background: var(--{it})"></span><span class="value">{round_half_up(value, 4)}</span></div>'
        yield "</div>"
    yield "</div>"


def write_quotas(report: Report, units: Sequence[Unit]) -> Iterator[str]:
    """Says when a coalition wins, in the units of the rules and in percent of the total."""
    numbers = " ".join(f"{what.capitalize()}: {number:,}." for what, number in report.count_coalitions())
    if report.winning:
        numbers += f" The body's power to act (Coleman): {cut_off(report.power_to_act_exact)}."
    its = []
    for rule, unit in enumerate(units):
        of = f" under rule {rule + 1}" if len(units) > 1 else ""
        of += f" ({write_name(unit.name)})" if unit.name else ""
        its.append(write_quota(report, units, rule) + of)
    ways = ", or ".join(" and ".join(its[rule - 1] for rule in way) for way in report.ways)
    yield f"<p>A coalition wins with a weight of at least {ways}. Members: {len(report.members)}. {numbers}</p>"
    if find_low(report.quotas, report.totals, report.ways):
        yield "<p><b>At most half of the total wins, so two coalitions without a common member could win.</b></p>"


def write_source(report: Section) -> Iterator[str]:
    """Shows where the data come from, as --source or the game file tells."""
    told = [it[len("Source:") :].strip() for it in report.comments if it.startswith("Source:")]
    source = report.source or "; ".join(told)
    if source:
        yield f'<p class="source">Source of the data: {escape_xml(source)}</p>'


def write_comments(comments: Sequence[str]) -> Iterator[str]:
    """Shows the comments of the game file."""
    if not comments:
        return
    yield "<h2>About the data</h2>"
    text: list[str] = []
    items: list[str] = []
    for it in comments:
        (items if ITEM.fullmatch(it) else text).append(it)
    if text:
        yield f"<p>{escape_xml(' '.join(text))}</p>"
    if items:
        yield "<ul>" + "".join(f"<li>{escape_xml(it)}</li>" for it in items) + "</ul>"


def write_coalitions(report: Section) -> Iterator[str]:
    has = report.listed
    if not has:
        return
    some = f", the first {MOST:,} of {has:,}" if has > MOST else ""
    yield f"<h2>Minimal winning coalitions{some}</h2>"
    yield f"<details{' open' if has <= 100 else ''}><summary>{min(has, MOST):,} coalitions, with their weights</summary><ol class=\"coalitions\">"
    for it in report.first:
        yield f"<li>{', '.join(map(write_name, it.members))} <small>({' / '.join(unit.write(weight) for unit, weight in zip(report.units, it.weights))})</small></li>"
    yield "</ol></details>"


def write_section(report: Section, at: int, level: int) -> Iterator[str]:
    title, units = escape_xml(report.heading()), report.units
    yield f'<section id="game{at}"><h{level}>{title}</h{level}>'
    yield from write_quotas(report, units)
    yield from write_source(report)
    yield from write_table(report, units)
    yield '<p class="soft">Indices are cut off after six decimals, as in the report; shares, and the numbers at bars, are rounded to four.</p>'
    yield "<h2>The indices beside the shares of the votes</h2>"
    yield from write_bars(report, units)
    yield from write_coalitions(report)
    yield from write_comments(report.comments)
    option = "--only-swings" if report.minimal is None else "--tally" if report.winning is None else "--tally --swings"
    yield f"<h2>The game</h2><p>This file, put in as <code>council {option} FILE</code>, gives the numbers above again:</p>"
    text = write_game([it.name for it in report.members], report.quotas, [it.weights for it in report.members], report.title, report.comments, report.ways)
    yield f"<details><summary>the game file</summary><pre>{escape_xml(text)}</pre></details></section>"


def find_version(named: Optional[str]) -> Optional[str]:
    """Returns the program at hand and what it was proved with, or None."""
    try:
        path = find_program(named)
    except NotFound as it:
        if named:
            raise Fault(it) from None
        return None
    try:
        done = subprocess.run([path, "--version"], stdin=subprocess.DEVNULL, stdout=subprocess.PIPE, stderr=subprocess.DEVNULL, timeout=20)
    except subprocess.TimeoutExpired:
        return None
    except OSError:
        # it is for another system
        if named:
            raise
        return None
    lines = done.stdout.decode("utf-8", "replace").split("\n")
    return ", ".join(it for it in lines if it) if done.returncode == 0 and lines[0].startswith("council ") else None


def write_page(reports: Sequence[Section], version: Optional[str]) -> Iterator[str]:
    titles = [it.heading() for it in reports]
    title = titles[0] if len(reports) == 1 else f"{len(reports)} games"
    hashed = base64.b64encode(hashlib.sha256(SCRIPT.encode()).digest()).decode()
    yield '<!DOCTYPE html>\n<html lang="en"><head><meta charset="utf-8"><meta name="viewport" content="width=device-width, initial-scale=1">'
    yield f"<meta http-equiv=\"Content-Security-Policy\" content=\"default-src 'none'; style-src 'unsafe-inline'; script-src 'sha256-{hashed}'\">"
    yield f"<title>{escape_xml(title)}: power indices</title><style>{STYLE}</style></head><body><main>"
    if len(reports) > 1:
        yield f"<h1>Power indices of {len(reports)} games</h1><ul>"
        yield "".join(f'<li><a href="#game{at}">{escape_xml(it)}</a></li>' for at, it in enumerate(titles, 1)) + "</ul>"
    for at, it in enumerate(reports, 1):
        yield from write_section(it, at, 1 if len(reports) == 1 else 2)
    shown = [it for it in INDICES if any(it in report.chosen for report in reports)]
    kinds = dict.fromkeys(group.column for report in reports for group in choose_groups(report, report.chosen))
    yield f"<footer><h2>What the indices are</h2><p>{' '.join([*(KINDS[it] for it in kinds), *(ABOUT[it.name][0] for it in shown)])}</p>"
    at_hand = f"The program at hand when this page was made: {escape_xml(version)}." if version else "Which version of it made the report this page cannot tell."
    yield f"<h2>How they were computed</h2><p>By the program <code>council</code>, which counts the coalitions and gives the indices as exact fractions. {at_hand}</p>"
    yield "<h2>Sources</h2><ul>"
    yield "".join(f"<li>{it}</li>" for it in dict.fromkeys(source for it in shown for source in ABOUT[it.name][1]))
    yield f"</ul></footer></main><script>{SCRIPT}</script></body></html>"


def read(path: str, game: Optional[str], words: argparse.Namespace) -> Section:
    """Reads the report in a file, with as many of its coalitions as the page shows, and the
    comments of its game file."""
    first: list[Coalition] = []
    report = read_lines(path, lambda lines: Section.read(lines, lambda it: first.append(it) if len(first) < MOST else None))
    report.first, report.source = first, words.source
    report.chosen = choose_indices([report], words.index)
    report.comments, report.units = read_comments(game, report)
    return report


def main(args: list[str]) -> None:
    reader = Words("page", __doc__)
    reader.add_argument("reports", metavar="REPORT", nargs="*", help="a report of council; without one, or as -, standard input")
    reader.add_argument("--game", metavar="FILE", action="append", help="the game file of a report, once for each in their order")
    add_index(reader, **MANY)
    reader.add_argument("--source", metavar="TEXT", help="where the data come from")
    reader.add_argument("--program", help="the program whose version the page names; else the one of this clone or archive, or the one on the PATH")
    words = reader.parse_words(args)
    words.reports = words.reports or ["-"]
    if words.game and len(words.game) != len(words.reports):
        raise Fault(f"give --game once for each report: there are {len(words.reports)} reports, and {len(words.game)} game files", 2)
    games = words.game or [None] * len(words.reports)
    reports = [read(path, game, words) for path, game in zip(words.reports, games)]
    for line in write_page(reports, find_version(words.program)):
        print(line)
