"""Makes a game file from a table: a CSV or TSV file, as a spreadsheet exports it.

    council-tools from-table [OPTIONS] QUOTA.. [TABLE] >GAME

TABLE, or standard input, has a line of headings, and then a row for each member: its name, and its
weight for each rule. You see each member that was read. What can be read in two ways is refused,
and the message names the option; "look at line 7" says of a row that it may be no member. COLUMN
is a heading, or a number counted from 1; LINES are lines of the file, as 3-29 or 1,30-32.

Give a QUOTA for each rule, in quotes if it has a >:

    255        that many, in the unit of the table      '>49.5'    more than that
    65%, 2/3   at least that share of all weights       '>50%'     more than that share
    heads:15   a rule under which each member weighs 1; it takes no column (also heads:55%, 'heads:>1/2')
"""
from __future__ import annotations

import re
import sys
from fractions import Fraction
from itertools import accumulate, groupby
from statistics import median
from typing import Any, Iterable, Iterator, Optional, Sequence

from ..game import RULES, WEIGHT, quote, quote_for_shell, write_game, write_rule_comment
from ..reports import Fault
from .command import Words, choose_ways, cut, note, quote_all, warn_of_low_quotas, wrap_items, write_ranges
from .drawing import write_percent
from .quotas import Number, Quota, count_decimals, find_sign, is_count, write_plain
from .rows import MOST, Table, name_lines, read_rows, show, write_lines

# a heading of percentages, and one of what may be shares of 1 or 100
PERCENT = re.compile(r"%|p.{0,5}cent|pct|prozent", re.I)
SHARE = re.compile(r"\b(share|anteil|andel|aandeel|udział|part|quota)\b", re.I)
# how a word of a name begins, or with ^ the name, if a row may be no member; first those of totals
NAMES = {why: re.compile(rf"(?<![^\W_])(?:{words})", re.I) for why, words in {
    "may be a total": r"\w*tot(aa?l\w{0,2}|alen)?\b|\w*summ[aen]+\b|su[mb]\b|somm?[ae]\b|suma\b|insgesamt|gesamt"
    r"|zusammen|ensemble|^(all|alle|tous)( \w+)?$|razem|ogół|celkem|összes|yhteens|i alt\b|toplam|всего|итого|[Σ∑合总總]",
    "may be a part of another row": r"^[-–]|^dav(on|\.)|^darunter|^of wh|^thereof|^in[ck]l(\b|u)|^dont\b|^di cui"
    r"|^de l[oa]s|^d[oa]s quais|^w tym|^z tego|^waarvan|^varav|^hv?eraf|^hvorav|^joista",
    "may have no vote": r"treasury|own (sha|sto)|held by the c|eigene |\w+ propres|auto-?(contr|déten|cartera)"
    r"|\w+ pr[oó]pr?i[ea]|akcje wł|eg[ne]n?[ae] a|va[ck]an|unbesetzt|wakat|empty|leer\b|abse[nt]|abwesen|ausent|assent"
    r"|afwezig|nieobecn|blank|non-?vot|pr[eé]sen[tc]|anwesen|aanwezig|obecn|abst[ei]|enthalt|astenu|invalid|ungültig",
    "may be several members": r"^(and |all )?(other|rest\b|remain)|^sonst|^andere|^übrige|^autre|^otr[oa]s|^resto"
    r"|^altr[ie]\b|^outr[oa]|^overige|^pozost|^divers|^[öø]vrig|^andre\b|^independ|float\b|streubes|flottant",
    "may be an average": r"average|mean\b|median|durchschn|moyenne|^media\b|promedio|średnia|gemiddeld|\w*snitt\b",
    "may be a quota": r"majori|\w*mehrheit|maggioranza|ma[yi]or[ií]a|meerderheid|większość|flertal|^quot|[qk][uw]orum"
    r"|thresh|schwelle|seuil|soglia|umbral|drempel|próg\b|block(ing|ier)|\w*minorit|needed|required|to win",
    "may be another number": r"^(seat|vote|member)s?\b|^turnout|^\w*beteiligung|^wahl(en|jahr|ber\w*)?\b"
    r"|^stimmen|^population|^einwohn|^dat(e|um)\b|^stand$|^as (of|at)\b|^m(in|ax)(imum)?$|^year|^jahr|^ann[ée]|^number",
    "may be a note": r"^[*†‡§#¹²³([]|^[^/]*:|^\W*(source|quelle|fuente|fonte|bron\b|źródło|note|anm|treaty|vertrag)",
    "may be several countries": r"^(EU|EA|EEA|EFTA|OECD|G(?=\d)|BRICS|ASEAN|NATO|UN)[-_ ]?\d*(_\d{4})?( ?\(|$)"
    r"|^European Union|^Euro ?(zone|area)|^(World|Europe|Africa|Asia|Americas|Oceania|Welt|Monde|Mundo)\b",
}.items()}


class Weights:
    """The weights of a column as whole numbers, times a power of ten."""

    def __init__(self, values: Sequence[Fraction], unit: str, title: str, what: str) -> None:
        self.unit, self.title, self.what, self.places = unit, title, what, max(map(count_decimals, values))
        self.scale, self.number = 10**self.places, len(values)
        its = self.values = [int(it * self.scale) for it in values]
        if max(its) > WEIGHT:
            raise Fault(f"{what}: with {self.places} decimals a weight is more than {WEIGHT:,}: say --round 6 or less")
        self.total, self.is_ordered = sum(its), sorted(its) in (its, its[::-1])
        # of shares that add up to 100 or 1000 none is a total
        off = abs(self.total - 100 * self.scale) if unit or self.places else self.scale
        self.is_whole = off * 10 <= self.scale or bool(re.fullmatch(rf"10{{{2 + self.places},}}", str(self.total)))
        # a row breaks the order if others are in order without it, and it is the only one or an end
        rows = range(self.number if 4 < self.number < 99 and len({*its}) > 2 and not self.is_ordered else 0)
        breaks = [at for at in rows if sorted(it := its[:at] + its[at + 1 :]) in (it, it[::-1])]
        self.breaks = {*breaks} if len(breaks) == 1 else {*breaks} & {0, self.number - 1}

    def is_sum(self, row: int, wanted: int, terms: int) -> bool:
        """Returns whether a row has this sum of others, or nearly, as rounding explains."""
        # shares are often rounded; other numbers come near a sum by chance, unless they are large
        off, slack, many = 2 * abs(self.values[row] - wanted), terms + 1, 20 if self.places or self.unit else 1000
        return wanted > 0 and (off == 0 or (off <= slack and slack * many <= 2 * wanted))

    def find_totals(self, names: Sequence[str]) -> Iterator[int]:
        """Yields the rows that are totals for certain."""
        values, every, is_likely = self.values, range(self.number), self.number > 4 and not self.is_whole
        yield from (at for at in {0, self.number - 1} if (is_likely or NAMES["may be a total"].search(names[at]))
                    and self.is_sum(at, self.total - values[at], self.number - 1))
        # subtotals, each beside its rows, that cover all rows but a total of all
        for order in () if self.is_whole or self.is_ordered else (every, every[1:], every[:-1]):
            for rows in order, order[::-1]:
                ends: dict[int, list[int]] = {0: []}
                for at, row in enumerate(rows):
                    sums = accumulate(values[it] for it in rows[at + 1 :] if at in ends)
                    for end, wanted in enumerate(sums, at + 2):
                        if end > at + 2 and self.is_sum(row, wanted, end - at - 1):
                            ends.setdefault(end, [*ends[at], row])
                parts, left = ends.get(len(rows), []), {*every} - {*rows}
                if parts[1:] and all(self.is_sum(it, sum(values[row] for row in parts), len(parts)) for it in left):
                    yield from [*parts, *left]

    def is_year(self, row: int, others: Sequence[int]) -> bool:
        """Returns whether a row has a year that is not round, and others have numbers far below or above."""
        value, is_far = self.values[row], 2 * max(others) < self.values[row] or min(others) > 4 * self.values[row]
        return is_far and value % self.scale == 0 < value % (50 * self.scale) and 1900 < value / self.scale < 2099

    def find_reasons(self, row: int) -> Iterator[str]:
        """Yields why a row may be no member."""
        values, value, number, scale = self.values, self.values[row], self.number, self.scale
        rest = sorted(values[:row] + values[row + 1 :], reverse=True)
        # small numbers are sums of numbers beside them by chance, most of all in order
        is_likely = value >= 1000 or (not self.is_ordered and (number <= 8 or value >= 2 * median(values)))
        least = 2 if is_likely else 3 if row in (0, number - 1) else number
        runs = [(many, wanted) for side in (values[:row][::-1], values[row + 1 :])
                for many, wanted in enumerate(accumulate(filter(None, side)), 1) if many >= least]
        is_odd, off = value % scale > 0, abs(value * len(rest) - sum(rest))
        doubts = {} if number < 3 or value == 0 else {
            "is the sum of all others": self.is_sum(row, sum(rest), number - 1),
            "is the sum of rows beside it": any(self.is_sum(row, wanted, many) for many, wanted in runs),
            "may be a year": self.is_year(row, rest[number // 2 :][:1]),
            "breaks the order of the weights": row in self.breaks,
            "is far heavier than others": value >= max(10 * median(rest), 3 * rest[2 * (number > 15)])
            or (20 * value >= 19 * sum(rest) and not self.is_whole),
            "may be the average of others": is_odd and not any(it % scale for it in rest)
            or 2 * off < number and rest[-1] < value < rest[0] and (is_odd or value >= 1000),
        }
        yield from (why for why, doubt in doubts.items() if doubt)


class Rule:
    """A rule of the game: its weights, its quota, and how they were found."""

    def __init__(self, number: int, quota: Quota, its: Weights, sign: Optional[str], of: Optional[str]) -> None:
        self.quota, self.weights, self.doubt, (self.value, self.is_share) = quota, its, "", quota.read_value(sign)
        total, is_named = Fraction(its.total, its.scale), bool(PERCENT.search(its.title) or its.unit)
        # decimals that add up to nearly 1 or 100, or to less if the quota is a share, may be shares
        least = 5 if self.is_share and SHARE.search(its.title) else 9
        sums = [it for it in (1, 100) if its.places and least * it <= 10 * total <= 11 * it]
        whole = int(its.unit[1:] or 100) if is_named else sums[0] if sums else 0
        if whole and not of and abs(total - whole) * 1000 > whole:
            one, other = (quote_for_shell(f"{its.title}={it}") if its.title else it for it in ("100", "sum"))
            why = f"adds up to {write_plain(total)} instead of {whole}: a row may be missing, or be a total"
            why += f"; say --of {one} if a share is of {whole}{' %' * (whole == 100)}, or --of {other}"
            # rounding may explain a few of the last digits
            is_near = abs(total - whole) * its.scale <= max(1, 0.9 * its.number**0.5) and "/" not in its.unit
            if not is_near and (is_named or SHARE.search(its.title)):
                raise Fault(f"{its.what} {why}")
            self.doubt = f"look at {its.what}, which {why}"
        self.whole = (whole or 100) * its.scale if of == "100" else None
        self.least, how = quota.make_whole(its.total, its.scale, sign, self.whole)
        what = its.what + (f", {quote(sign)} before decimals" if sign and not quota.heads else "")
        what += f", times {its.scale}" * (its.places > 0) + f"; total {its.total:,}; the quota {quote(quota.text)} is "
        what += f"{how}, {write_percent(self.least, its.total)} of the total"
        self.comment = write_rule_comment(number, its.title, its.unit == "%", its.places, what)

    def is_limit(self, weight: int, its: Weights) -> bool:
        """Returns whether a weight is the quota of all others, what blocks it, or a majority."""
        others = its.total - weight
        least = self.quota.round_up(self.value * ((self.whole or others) if self.is_share else its.scale))
        return 1 < weight <= others and weight in (least, others - least + 1, others // 2 + 1)[: max(its.number - 3, 1)]


def check_rows(table: Table, columns: Sequence[Weights], rules: Sequence[Rule]) -> list[str]:
    """Refuses rows that can hardly be members, and returns what to say of those that may be none."""
    words, rows, names, told = table.words, table.rows, table.cells[table.name], dict[int, str]()
    # a column of vetoes or of heads has no other numbers
    counted, first = [it for it in columns if not {*it.values} <= {0, 1}], [table.cells[at] for at in table.numbers]
    refused = {at: "may be the sum of others" for its in counted for at in its.find_totals(names)}
    if counted and len(rows) > 2 and all(it.is_year(0, it.values[1:]) for it in counted):
        refused[0] = "may be a year"
    if first[1:] and is_count([it[0] for it in first], 1, 2) and (first[2:] or len(names[0]) < 4):
        refused[0] = "may be the numbers of the columns"
    kept = [at for at, row in enumerate(rows) if row.line not in table.members]
    for at in kept:
        doubts = [why for why, it in NAMES.items() if it.search(names[at])]
        doubts += [why for it in counted for why in it.find_reasons(at)]
        doubts += ["has the weight of a quota" for rule, it in zip(rules, columns) if rule.is_limit(it.values[at], it)]
        told.update({at: doubts[0]} if doubts else {})
    refused, told = ({}, told | refused) if words.all_rows else (told | refused if words.strict else refused, told)
    if its := [at for at in kept if at in refused]:
        lines, why = write_lines([rows[at] for at in its]), " or ".join(dict.fromkeys(refused[at] for at in its))
        what = f"{name_lines([rows[at] for at in its])}, {quote_all(names[at] for at in its)}, {cut(why, 80)}"
        raise Fault(f"{what}: say --drop {lines}, or --member {lines} to keep {'them' if its[1:] else 'it'}")
    return [f"look at {show(rows[at], names[at])}, which {told[at]}: --drop {it} leaves it out, --member {it} keeps it"
            for at in kept if at in told for it in [write_lines([rows[at]])]]


def name_left(table: Table) -> str:
    """Returns what was not read: lines with their first texts, values that --only left out, columns."""
    read, parts = {it.line for its in (table.rows, *table.filtered.values()) for it in its}, list[str]()
    for run in ([*its] for is_left, its in groupby(table.all, key=lambda it: it.line not in read) if is_left):
        labels = ["the heading" if it.line == table.line else quote(cut(it.label(), 30)) for it in run]
        parts.append(f"{name_lines(run)} {', '.join(labels if len(run) < 6 else [*labels[:4], '..', labels[-1]])}")
    parts += [f"rows with {cut(', '.join(table.filtered), 200)}"] * bool(table.filtered)
    unread = [at + 1 for at, its in enumerate(table.cells) if any(its) and at not in (table.name, *table.weights)]
    return "; ".join([*parts, write_ranges("column", unread)] if unread else parts)


def list_members(names: Sequence[str], rules: Sequence[Rule]) -> list[str]:
    """Returns the members with their weights, for some ten lines; two have their shares, long names are cut."""
    weights = [*zip(*(it.weights.values for it in rules))]
    shares = [max(Fraction(it, rule.weights.total) for it, rule in zip(its, rules)) for its in weights]
    ends = {shares.index(it): f" ({what}, {write_percent(it.numerator, it.denominator)})" for it, what in
            ((max(shares), "heaviest"), (min(shares), "lightest"))} if len({*shares}) > 1 else {}
    texts = ["/".join(f"{it:,}" for it in its) for its in weights]
    most = 64 if sum(map(len, [*names, *texts])) + 3 * len(names) < 780 else 16
    return [f"{cut(name, most)} {it}{ends.get(at, '')}" for at, (name, it) in enumerate(zip(names, texts))]


def make_game(data: bytes, path: str, quotas: Sequence[Quota], words: Any, options: str) -> str:
    """Returns the game file of a table, and says what was read."""
    ways, said = choose_ways(words.ways, len(quotas))
    table = Table(read_rows(data, words.encoding), words, sum(not it.heads for it in quotas))
    names, rows, given = table.find_names(), table.rows, [it.rpartition("=") for it in words.of or ()]
    # without weights, other numbers show which rows are no members
    others = {at for at in table.numbers if all(Number(it).values for it in table.cells[at])} - {table.name}
    numbers = {at: table.read_numbers(at) for at in table.weights or others}
    cells = [(show(row, it.text, at), it) for at, its in numbers.items() for row, it in zip(rows, its)]
    sign, wholes = find_sign(cells, words.decimal), {table.find_column(it) if _ else None: of for it, _, of in given}
    if not {*wholes.values()} <= {"100", "sum"}:
        raise Fault("--of takes 100 or sum, and for one column COLUMN=100", 2)

    def weigh(at: int, groups: Iterable[list[int]]) -> Weights:
        values = [sum((numbers[at][row].values[sign or "."] for row in its), Fraction(0)) for its in groups]
        if words.round is not None:
            values = [Fraction(int(it * 10**words.round + Fraction(1, 2)), 10**words.round) for it in values]
        title = " ".join(table.titles[at].split()) if table.line else ""
        return Weights(values, max(it.unit for it in numbers[at]), title, f"column {at + 1}")

    columns, order = [weigh(at, [[row] for row in range(len(rows))]) for at in numbers], iter(table.weights)
    heads, rules = Weights([Fraction(1)] * len(names), "", "heads", "each member weighs 1"), list[Rule]()
    for number, quota in enumerate(quotas, 1):
        at = -1 if quota.heads else next(order)
        its, of = (heads, None) if quota.heads else (weigh(at, names.values()), wholes.get(at, wholes.get(None)))
        rules.append(Rule(number, quota, its, words.decimal if quota.heads else sign, of))
    told = [*(it.doubt for it in rules if it.doubt), *table.alike]
    if told and words.strict:
        raise Fault(told[0])
    told += check_rows(table, columns, [it for it in rules if not it.quota.heads])
    source = [f"Source: {' '.join(words.source.split())}"] if words.source else []
    name = "" if path == "-" else f", {quote(path.split('/')[-1])}"
    first = f"From a table{name}, {name_lines(rows)}; {len(names)} member{'s' * (len(names) > 1)}"
    comments = [first, *(it.comment for it in rules), *said]
    comments += [f"Added: {name_lines([rows[at] for at in its])}, {quote(it)}" for it, its in names.items() if its[1:]]
    comments += [f"Not read: {it}" for it in [name_left(table)] if it] + [f"Options: {options}"] * bool(options)
    least, weights = [it.least for it in rules], zip(*(it.weights.values for it in rules))
    text = write_game([*names], least, weights, words.title or "", [*source, *comments, *told], ways)
    for it in [*([] if words.quiet else comments), *told]:
        note(it, wrap_items(list_members([*names], rules)) if it is first else [])
    warn_of_low_quotas(least, [it.weights.total for it in rules], ways)
    return text


def main(args: list[str]) -> None:
    reader = Words("from-table", __doc__)
    add = reader.add_argument
    add("quotas", metavar="QUOTA", nargs="*", help="a quota for each rule, and the file of the table")
    add("--title", metavar="TEXT", help="the title of the game")
    add("--source", metavar="TEXT", help="where the table comes from, for a comment")
    add("--name", metavar="COLUMN", help="the column of the names, if several may have them")
    add("--weight", metavar="COLUMN", action="append", help="a column of weights, once a quota; yes and no are 1 and 0")
    add("--ways", metavar="WAYS", help="rules joined by or: '1,2 3' is rules 1 and 2, or rule 3; else all rules")
    first, second = reader.add_mutually_exclusive_group(), reader.add_mutually_exclusive_group()
    first.add_argument("--heading", metavar="LINE", nargs=1, help="the line of the headings; else the first")
    first.add_argument("--no-heading", action="store_true", help="no line has headings")
    add("--rows", metavar="LINES", action="append", help="the lines of the members; else all below the heading")
    add("--drop", metavar="LINES", action="append", help="lines that are not read, or the name of some, as Total")
    add("--member", metavar="LINES", action="append", help="lines or names that are members in spite of doubts")
    add("--only", metavar="COLUMN=VALUE", action="append", help="only rows that have this in a column, as year=2014")
    second.add_argument("--strict", action="store_true", help="refuse each row that may be no member")
    second.add_argument("--all-rows", action="store_true", help="name rows that may be no members, and refuse none")
    add("--sum", action="store_true", help="add the weights of rows that have the same name")
    add("--of", metavar="WHOLE", action="append", help="what shares are of, 100 or sum, or for one column COLUMN=100")
    add("--round", metavar="N", type=int, choices=range(13), help="round weights to this many decimals")
    add("--blank", choices=["0"], help="read empty cells and dashes as 0")
    add("--decimal", choices=[".", ","], help="the decimal sign, if the table does not tell")
    add("--encoding", metavar="NAME", help="the encoding of the table, as cp1252; else UTF-8 or UTF-16")
    add("--quiet", action="store_true", help="do not say on standard error what was read")
    words = reader.parse_words(args)
    # a quota begins with a digit after its signs, but so does the file 2014.csv
    paths = [it for it in words.quotas if re.match(r"(?!\W*(heads:)?\W*\d)|~|\.{0,2}/|.*\.[a-z]\w*$", it, re.I | re.S)]
    quotas = [Quota(it) for it in words.quotas if it not in paths]
    if not 1 <= len(quotas) <= RULES or len(paths) > 1:
        raise Fault(f"say a quota for each rule, 1 to {RULES} of them, as 65% or '>50%' in quotes, and one table", 2)
    path, *_ = [*paths, "-"]
    if path == "-" and sys.stdin.isatty():
        raise Fault("no table: name a file, as in council-tools from-table 65% table.csv >game.toml", 2)
    options = reader.write_options(words, ["title", "source", "quiet"])
    with sys.stdin.buffer if path == "-" else open(path, "rb") as it:
        sys.stdout.write(make_game(it.read(MOST + 1), path, quotas, words, options))
