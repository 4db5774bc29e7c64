#!/usr/bin/env python3
"""council-tools from-table: an ordinary table is read, each member is shown, and a row that is no member is refused or
named. In the tables of these tests | ends a line."""
import glob
import itertools
import random
import re
import shlex
import unicodedata
from fractions import Fraction

from cases import HOSTILE, LOW, TEMP, TOP, Run, Tests, main, put, report
from council.game import find_comments, read_game, read_units
from council.tools.from_table import Weights
from council.tools.quotas import Number

EEC = "Member,Votes|Germany,4|France,4|Italy,4|Netherlands,2|Belgium,2|Luxembourg,1|"
PANEL = "country,year,votes|A,2004,6|B,2004,4|A,2014,7|B,2014,4"
BREAK = 'who,"votes\n2021"|A,5|B,4|C,3|Total,12'
# real bodies beside those of examples, each with its quota
BODIES = {
    "bundestag": "369 SPD 206 CDU/CSU 197 Grüne 118 FDP 92 AfD 83 Linke 39 SSW 1",
    "dutch": "76 PVV 37 GLP 25 VVD 24 NSC 20 D66 9 BBB 7 CDA 5 SP 5 DNK 3 PvdD 3 FVD 3 SGP 3 CU 3 Volt 2 JA 1",
    "six": "50001 Alpha 35000 Beta 25000 Gamma 15000 Delta 10000 Epsilon 10000 Zeta 5000",
    "holder": ">50% Holding 60 Müller 20 Schmidt 15 Weber 5",
    "half": "51 A 50 B 25 C 25",
}
NAMES = [one + two for one in "Ab Bo Cy Da El Fi Gu".split() for two in "an er il os ut yx".split()]


def read(words, table):
    return Run("from-table", *(shlex.split(words) if isinstance(words, str) else words), input=table)


def write(rows, heading="who,votes"):
    return "".join(f"{','.join(map(str, it))}\n" for it in [(heading,), *rows])


def find_bodies():
    """Returns quotas and rows of tables that are correct."""
    found = {}
    for name, text in BODIES.items():
        quota, *its = text.split()
        found[name] = [quota], [(name, int(it)) for name, it in zip(its[::2], its[1::2])]
    for path in glob.glob(f"{TOP}/examples/*.toml"):
        with open(path, encoding="utf-8") as it:
            game = read_game(it.read())
        rows = [(f'"{it["name"]}"', *it.get("weights", [it.get("weight")])) for it in game["member"]]
        found[re.findall(r"([\w-]+)\.toml", path)[0]] = [*map(str, game.get("quotas", [game.get("quota")]))], rows
    return found


def find_game(run):
    """Returns the quotas, names and weights of a game file, as lists."""
    quotas = re.findall(r"\d+", (re.search(r"^quotas? = (.*)$", run.out, re.M) or ["", ""])[1])
    weights = [[*map(int, re.findall(r"\d+", it))] for it in re.findall(r"^weights? = (.*)$", run.out, re.M)]
    return [*map(int, quotas)], re.findall(r'^name = "(.*)"$', run.out, re.M), weights


def find_told(run):
    """Returns the names of the rows at which a user is asked to look."""
    return re.findall(r'look at lines? [^"]*"(.*?)"', run.err)


class Cases(Tests):
    def check_game(self, words, table, quotas, weights, *parts):
        run = read(words, table.replace("|", "\n") if isinstance(table, str) else table)
        self.assertEqual(run.status, 0, run.err)
        found = find_game(run)
        weights = [it if isinstance(it, list) else [it] for it in weights]
        self.assertEqual((found[0], found[2]), (quotas, weights), run.out)
        # standard error has each member with its weights, and else what the game file has too
        lines = [it for it in run.err.split("\n")[:-1] if LOW not in it]
        shown = " ".join(it[2:] for it in lines if it.startswith("  "))
        for name, its in zip(found[1], found[2]):
            self.assertIn(f"{name} {'/'.join(f'{it:,}' for it in its)}", shown)
        told = [it[len("council-tools from-table: "):] for it in lines if not it.startswith("  ")]
        self.assertEqual([it for it in find_comments(run.out) if not it.startswith("Source:")], told)
        for it in parts:
            self.assertIn(it, run.err)
        return run

    def check_all_refused(self, its):
        for words, table, *parts in its:
            with self.subTest(table=table, words=words):
                self.check_refused(read(words, table.replace("|", "\n") if isinstance(table, str) else table), *parts)


class Summary(Cases):
    def test_what_was_read(self):
        run, quiet = self.check_game("12", EEC, [12], [4, 4, 4, 2, 2, 1]), read("12 --quiet", EEC.replace("|", "\n"))
        self.assertEqual(run.err.split("\n")[:3], [
            "council-tools from-table: From a table, lines 2-7; 6 members",
            "  Germany 4 (heaviest, 23.53%), France 4, Italy 4, Netherlands 2, Belgium 2,",
            "  Luxembourg 1 (lightest, 5.88%)"])
        self.assertEqual((quiet.out, quiet.err), (run.out, ""))
        for long in "", " and another name of some length":
            run = read(">50%", write([(f"{it}{long}", 10**5 + at**3) for at, it in enumerate(NAMES[:40])]))
            lines = [it for it in run.err.split("\n") if it.startswith("  ")]
            self.assertTrue(8 <= len(lines) <= 14 and max(map(len, lines)) < 80, run.err)
            self.assertTrue(all(re.search(rf"\b{it}\b", " ".join(lines)) for it in NAMES[:40]))

    def test_what_was_not_read(self):
        table = "A title||holder,land,votes,seats|x,y,-,-|A,z,5,1|B,z,4,2|C,,2,5|Total,,11,8|Source: x,,,"
        words = "7 --name holder --weight votes --rows 5-7 --heading 3 --source 'a\n book' --title T"
        left = 'lines 1, 3-4 "A title", the heading, "x"; lines 8-9 "Total", "Source: x"; columns 2, 4\n'
        run = self.check_game(words, table, [7], [5, 4, 2], f"Not read: {left}")
        self.assertEqual((find_comments(run.out)[0], '\ntitle = "T"\n' in run.out), ("Source: a book", True))
        table = "who,year,votes|A,2014,7|B,2014,4|A,2004,6|B,2014p,4"
        run = self.check_game("8 --only year=2014", table, [8], [7, 4], "year 2004, year 2014p;", 'line 5, "2014p"')
        self.assertIn("\n# Options: --only year=2014\n", run.out)
        path = put("seats.csv", EEC.replace("|", "\n"))
        self.assertIn('# From a table, "seats.csv", lines 2-7; 6 members\n', Run("from-table", "12", path).out)

    def test_ways(self):
        table, said = "who,votes|A,50|B,49|C,1|", "A motion passes by rules 1 and 2, or by rule 3"
        words, columns = "51 heads:2 heads:3", [[50, 1, 1], [49, 1, 1], [1, 1, 1]]
        run = self.check_game(f"{words} --ways '1,2 3'", table, [51, 2, 3], columns, f"from-table: {said}\n", "Options: --ways '1,2 3'\n")
        self.assertTrue(f"# {said}\n" in run.out and "\nways = [[1, 2], [3]]\n" in run.out and "\nways\t1,2 3\n" in report(run.out), run.out)
        for more in "", " --ways 1,2,3":
            self.assertNotIn("\nways", self.check_game(words + more, table, [51, 2, 3], columns).out)
        for ways, is_low in ("1 2", True), ("1,2", False):
            self.assertEqual("could win" in read(["51", "heads:1", "--ways", ways], table.replace("|", "\n")).err, is_low)

    def test_names_and_units_of_rules_are_read_back(self):
        table = "Holder,Share|A,16.50%|B,40.25%|C,43.25%"
        run = self.check_game("85% heads:2", table, [8500, 2], [[1650, 1], [4025, 1], [4325, 1]])
        units = [(it.name, it.write(weight)) for it, weight in zip(read_units(find_comments(run.out), 2), (1650, 1))]
        self.assertEqual(units, [("Share", "16.50%"), ("heads", "1")])
        for it in HOSTILE:
            table = '"who","votes {}"\nA,2\nB,1\n'.format(it.replace('"', '""'))
            unit = read_units(find_comments(read("2 --of sum", table).out), 1)[0]
            self.assertEqual(unit.name, " ".join(f"votes {it}".split()))


class Ordinary(Cases):
    def test_bodies_and_examples_in_any_order(self):
        rng = random.Random(1)
        for quotas, rows in find_bodies().values():
            orders = [rows, sorted(rows), sorted(rows, key=lambda it: it[1:])]
            for its in orders + [orders[2][::-1], *(rng.sample(rows, len(rows)) for _ in range(3))]:
                run = read(quotas, write(its, "who,x,y,z,w"[: 2 * len(rows[0]) + 1]))
                self.assertEqual((run.status, len(find_game(run)[1])), (0, len(rows)), run.err)

    def test_random_tables_that_are_correct(self):
        """At most two in a hundred are refused, of each kind."""
        rng = random.Random(2)
        kinds = {
            "parliament": lambda n: [rng.randint(1, 99) for _ in range(n)],
            "council": lambda n: [rng.randint(1, 10) for _ in range(n)],
            "firm": lambda n: [5 * rng.randint(1, 12) for _ in range(2 + n % 4)],
            "shares": lambda n: [f"{rng.lognormvariate(0, 1):.2f}" for _ in range(n)],
            "people": lambda n: [round(rng.lognormvariate(15, 1.3)) for _ in range(n)],
            "flats": lambda n: [rng.choice((55, 70, 85, 100)) for _ in range(n)],
        }
        for kind, make in kinds.items():
            runs = []
            for _ in range(100):
                its = make(rng.randint(3, 25))
                names = sorted(rng.sample(NAMES, len(its)))
                names[-1] = "Others" if kind == "parliament" else names[-1]
                runs.append(read(">50%", write(zip(names, its))))
            self.assertLessEqual(len([it.err for it in runs if it.status]), 2, kind)

    def test_random_tables_are_read_exactly(self):
        rng = random.Random(3)
        for at in range(200):
            number, rules, places = rng.randint(1, 30), rng.randint(1, 3), rng.choice([0, 0, 1, 3])
            most = rng.randint(1, 6) + places
            values = [[rng.randint(10**places, 10**most) for _ in range(rules)] for _ in range(number)]
            decimal, between = rng.choice([".\t", ",\t", ",;", ".;", ".,", ".|"])
            thousands = rng.choice(["", "", " ", "'", "." if decimal == "," else "," if between != "," else ""])

            def write_number(value):
                whole, rest = divmod(value, 10**places)
                return f"{whole:,}".replace(",", thousands) + (f"{decimal}{rest:0{places}}" if places else "")

            rows = [["Name", *"ABC"[:rules]], *([f"m{at}", *map(write_number, its)] for at, its in enumerate(values))]
            table = "".join(between.join(it) + rng.choice(["\n", "\r\n", "\n\n"]) for it in rows)
            words = "100% " * rules + " ".join(f"--weight {it}" for it in "ABC"[:rules])
            run = read(f"{words} --all-rows --of sum --decimal {decimal} --quiet", rng.choice(["", "\ufeff"]) + table)
            quotas, names, weights = find_game(run)
            self.assertEqual(names, [it[0] for it in rows[1:]], (run.err, table))
            for its in zip(zip(*weights), zip(*values)):
                scales = {Fraction(found, wanted) for found, wanted in zip(*its)}
                self.assertTrue(len(scales) == 1 and scales <= {Fraction(1, 10**it) for it in range(4)}, table)
            self.assertEqual(quotas, [sum(it) for it in zip(*weights)])


class Doubts(Cases):
    def test_rows_that_are_no_members(self):
        """Each is refused or named, above, below or among the members."""
        for body, added in {
            "dutch": "Total 150,Razem 150,x 150,x 152,Year 2021,Majority 76,x 76,Mehrheit 70,Vacant 2,Others 3,x 9.9",
            "eu-27-nice-votes": "x 345,x 255,x 91,Minority 90,x 12.8,Median 12,EU28 345,EA20 230,DE_TOT 29,x 1957",
            "six": "Treasury shares 4000,Eigene Aktien 400,Actions propres 900,Free float 9000,x 100000,x 50001,(n) 4",
        }.items():
            quotas, rows = find_bodies()[body]
            for name, it in (it.rsplit(" ", 1) for it in added.split(",")):
                for at in 0, 3, len(rows):
                    run = read(quotas, write([*rows[:at], (name, it), *rows[at:]]))
                    self.assertIn(name, run.err if run.status else find_told(run), run.err)
        parts = [("SPD", 206), ("CDU/CSU", 197), ("davon CDU", 152), ("davon CSU", 45), ("FDP", 92), ("AfD", 83)]
        self.assertEqual(find_told(read("400", write(parts))), ["CDU/CSU", "davon CDU", "davon CSU"])

    def test_what_is_refused_for_certain(self):
        regions, numbers = "w,v|North,15|A,10|B,5|South,17|C,8|D,9|All,32", "Col,x,y|n,1,2|A,4,50|B,3,45|C,2,49"
        self.check_all_refused([
            ("20", regions, 'lines 2, 5, 8, "North", "South", "All",', "--drop 2,5,8", "--member 2,5,8"),
            ("12", EEC + "Summa,17", 'line 8, "Summa", may be the sum of others: say --drop 8'),
            ("12", "Member,Votes|Year,1958" + EEC[12:], "line 2", "a year"),
            ("6", numbers, "column 2"), (">50% --strict", "who,share|A,33%|B,33%|C,33%", "99 instead of 100"),
            ("6 heads:2 --weight x", numbers, "numbers of the columns"),
            ("heads:2", "w,v|A,4|B,3|C,2|Total,9", "the sum of others"),
            (">50%", "who,share|A,50%|B,30%|C,20%|x,100%", "200"),
            (">50%", "w,v|A,3/9|B,4/9", "adds up to 7 instead of 9"),
            (">50%", "who,share|A,.30|B,.20|C,.12", "0.62 instead of 1"),
            (">50%", "who,share|A,30%|B,20%|C,12%", "adds up to 62 instead of 100", "--of 'share=100'",
             "--of 'share=sum'"),
            ("51 --strict", "who,votes|A,50|B,49|C,1", 'line 2, "A", is the sum of all others: say --drop 2',
             "--member 2"),
        ])

    def test_options_that_a_message_names_help(self):
        for words, table, *wanted in [
            ("12 --drop 8", EEC + "x,17", [12], [4, 4, 4, 2, 2, 1]), ("heads:2", "Fraktion,Sitze|A,5|B,4", [2], [1, 1]),
            ("12 --drop Total,9 --drop 'a, b'", EEC + 'total,17|x,9|"a, b",3', [12], [4, 4, 4, 2, 2, 1]),
            ("12 --member 8", EEC + "x,17", [12], [4, 4, 4, 2, 2, 1, 17]),
            ("12 --all-rows", EEC + "x,17", [12], [4, 4, 4, 2, 2, 1, 17], 'look at line 8, "x", which'),
            ("7 --member X --strict", "who,votes|X,5|B,3|C,2", [7], [5, 3, 2]),
            ("5 --drop Total", BREAK, [5], [5, 4, 3]), (">50% --of 100", "w,s|A,30%|B,20%|C,12%", [51], [30, 20, 12]),
            ("5 --drop line6", BREAK, [5], [5, 4, 3], "lines 3-5 (rows 2-4)"),
            ("7 --no-heading", "A;5|B;4|C;3", [7], [5, 4, 3]),
            ("7 --weight 2014", "who;2004;2014|A;5;4|B;4;3|C;3;2", [7], [4, 3, 2]),
            ("7 --name 2", "l,w,v|x,A,5|y,B,4|z,C,3", [7], [5, 4, 3]), (">50%", "flat,area|1,50|2,60", [56], [50, 60]),
            ("9 --weight votes --sum", PANEL, [9], [13, 8], "Added: lines 2, 4"),
            ("50% 50% --of a=100", "who,a,b|A,40%,5|B,20%,4", [50, 5], [[40, 5], [20, 4]]),
            ("6 2 --weight v --weight veto", "who,v,veto|A,5,x|B,4,|C,2,X", [6, 2], [[5, 1], [4, 0], [2, 1]]),
            ("6 2 --weight v --weight veto", "who,v,veto|A,5,TRUE|B,4,no|C,2,yes", [6, 2], [[5, 1], [4, 0], [2, 1]]),
            ("6 4 --blank 0", "who,house,senate|A,5,|B,4,-|C,–,4|D,,2", [6, 4], [[5, 0], [4, 0], [0, 4], [0, 2]]),
            (">50% --round 2", "who,share|A,0.3333333333333333|B,0.6666666666666666", [51], [33, 67]),
            (">50%", "who,share|A,250/1000|B,3/4", [501], [250, 750]),
            ("50", "who;v|A;1.200,00 €|B;30,50 €", [500], [12000, 305]),
            ("2200 --decimal .", "w\tv|A\t2,200|B\t900", [2200], [2200, 900]),
            ("60%", "who,share|A,33%|B,33%|C,33%", [60], [33, 33, 33],
             "look at column 2, which adds up to 99 instead of 100"),
        ]:
            with self.subTest(words=words, table=table):
                self.check_game(words, table, *wanted)

    def test_as_other_programs_write_tables(self):
        for table, words in [
            ('"","party","seats"\n"1","A",120\n"2","B",90\n"3","C",45\n', " --weight 3"),
            ('"","seats"\n"A",120\n"B",90\n"C",45\n', ""),
            ("sep=;\r\nparty;seats;;\r\nA;120;;\r\nB;90;;\r\n;;;\r\nC;45;;\r\n", ""),
            (b"| party | seats |\n|---|---|\n| A | 120 |\n| B | 90 |\n| C | 45 |\n", " --drop 2"),
            *(("w\tv\nÅ\t120\nB\t90\nC\t45\n".encode(f"utf-{it}"), "") for it in ("8-sig", "16", "16-le", "16-be")),
            (b"party;seats\n\xc5;120\nB;90\nC;45\n", " --encoding cp1252"),
        ]:
            self.check_game("138" + words, table, [138], [120, 90, 45])


class Refused(Cases):
    def test_what_is_no_clean_table(self):
        self.check_all_refused([
            ("500", "Holder,Votes|A,1,200|B,2,600|C,900", 'line 2, "A", has 3 cells instead of 2', "1,200"),
            ("5", '"party" "seats"|"1" "A" 120', "write.table", "sep"),
            ("5", '"party";"seats"|"1";"A";5|"2";"B";3', "write.table", "col.names"), ("5", "w,v|A,5%|B,4", 'have "%"'),
            ("5", 'who;votes|"Alpha" GmbH;500|B;4', 'line 2, "\\"Alpha\\" GmbH;500", goes on after a closing quote'),
            ("5", 'who,votes|"A,5', "line 2", "a quote that is not closed"), ("5", b"PK\x03\x04", "export it as CSV"),
            ("5 --drop 5", BREAK, 'line 5 (row 4), "C"', 'line 6 (row 5), "Total"'), ("5", "", "the table has no line"),
            ("5", "Votes||who,votes|A,5|B,4", 'line 3, "who", has 2 cells instead of 1: say --heading 3'),
            ("5", "Votes in Europe, 2004|who,votes|A,5|B,4", '"2004" may be no heading: say --heading 2'),
            ("5", "Votes, in Europe|who,votes|A,5|B,4", 'line 2, column 2: "votes" is no number', "say --heading 2"),
            ("5", "A,5|B,4", 'line 1, column 2: "5" may be no heading: say --heading N', "--no-heading"),
            ("5", "who,votes|,2004|A,5", 'line 2, column 1: "" is no name'), ("1", b"a" * (1 << 22) + b"b", "4 MiB"),
            ("heads:2", "who|A|B", "may be no heading"), ("5", "w,v|A,5|B,4 *", 'line 3, column 2: "4 *" is no number'),
            ("5", "who,land,votes|A,x,5|B,y,4", 'column 1, "who", and column 2, "land", may have names', "--name"),
            ("2", "rank,who|1,A|2,B|3,C", 'column 1, "rank", may have weights (1, 2, 3, .. may count rows)'),
            ("5 5", "who,a,b|A,5,–|B,4,–|C,–,3", 'line 4, column 2: "–" is no number', "--blank 0"),
            (">50%", "w,v|A,1.23E+08|B,1.2E+08", "written in full"), ("5", "w,v|A,0.3333333333333333|B,0.5", "--round"),
            ("5", "who;votes|A;1,5|B;1.5", 'line 3, column 2: "1.5" is no', "line 2"),
            ("5", "w\tv|A\t1,000|B\t5", '"1,000" may have decimals or thousands: say --decimal'),
            ("5", "w,v", "no row of a member"), ("1", b"a,b\n\xc5,2\n", "line 2 is no row of a table in utf-8-sig"),
            ("1", "a,b|" + "x,1|" * 10001, "more than 10,000"),
            ("1", write((it, 5) for it in NAMES[:41]), "41 members: the program takes at most 40"),
            ("8 --weight votes", PANEL, 'line 4, column 1: "A" is also in line 2, "A": say --only \'year=2014\''),
            ("8", "w,v|A,5|B,3|A,5", 'line 4, column 1: "A" is also in line 2, "A": say --drop 4, or --sum'),
        ])

    def test_names(self):
        for it in "a A", "\xe9 e\u0301", "A_B A\u00a0B", "AB A\u200bB", "STRASSE straße", "A Ａ", "A A":
            one, other = it.replace("_", " ").rsplit(" ", 1) if "_" in it else it.split(" ")
            self.check_refused(read("6", write([(one, 5), (other, 4), ("C", 2)])), "line 3, column 1", "line 2")
        for it in "é" * 33, "A\x07", "\u200b":
            self.check_refused(read("6", write([(it, 5), ("B", 4), ("C", 2)])), "line 2")
        normal = {it: unicodedata.normalize("NFKC", it) for it in HOSTILE}
        names = [it for it in HOSTILE if it.strip() and not any(normal[it] == normal[other] != it for other in HOSTILE)]
        table = write(('"' + it.replace('"', '""') + '"', 1) for it in names)
        run = read(["50%", "--name", "1", "--quiet", "--title", 'A "title" \\'], table)
        found = [line.split("\t")[1] for line in report(run.out).split("\n") if line.startswith("member\t")]
        self.assertEqual(found, [" ".join(it.split()) for it in names])

    def test_words(self):
        self.check_all_refused([
            ("", EEC, "say a quota"), ("1 --drop x", EEC, "--drop x: say lines"), (f"12 {TEMP}", EEC, "Is a directory"),
            ("half", EEC, "say a quota"), ("'50% + 1'", EEC, "write '>50%'"), ("2.5/3", EEC, "is no number"),
            ("1 nope2014", EEC, "nope2014: No such"), ("1 --weight x", EEC, 'no column is "x" among "Member", "Votes"'),
            ("120%", EEC, "comes to 21, and must be from 1 to 17"), ("1 --weight 2 --weight 2", EEC, "as many columns"),
            ("0.85", EEC, "write 85% for a share"), ("1 --weight Votes", "a,Votes,Votes|A,1,2", "more than one column"),
            ("'heads:>0.5'", EEC, "write 'heads:>50%'"), ("1 --heading 1 --no-heading", EEC, "not allowed with"),
            ("1,000", EEC, "--decimal"),
            ("1.5 --decimal ,", EEC, 'no number with ","'), ("1 --rows 2-9", EEC, "--rows 2-9: say lines 1-7"),
            ("1 --of 7", EEC, "--of takes"), ("1 --rows 1-3", EEC, "no heading"), ("1 --encoding hex", "a,b", "in hex"),
            ("1 --only Member=X", EEC, 'no row has that, but "Germany"'), ("9 --title " + "t" * 201, EEC, "the title"),
        ])
        how = "write the rules of a way with commas, and a blank between ways, as 1,2 3"
        self.check_all_refused([(f"12 heads:4 --ways {shlex.quote(ways)}", EEC, f"--ways {shlex.quote(ways) if ' ' in ways else repr(ways)}: {why}")
            for ways, why in [("1", "rule 2 is in no way"), ("1 3", "there is no rule 3: there are 2"), ("1;2", how), ("1, 2", how), ("", how),
                              ("1,1 2", "rule 1 is twice in way 1"), ("1 1,2", "way 2 has all rules of way 1"), ("1 2 1 2 1 2 1", "there are 7 ways")]])
        path, wanted = put("table.csv", EEC.replace("|", "\n")), find_game(read("12", EEC.replace("|", "\n")))
        for words in ["12", path], [path, "12"]:
            self.assertEqual(find_game(Run("from-table", *words, apart=words[0] == path)), wanted)


class Numbers(Cases):
    def test_quotas(self):
        """A quota is the least weight that meets what its text says."""
        table, total = "who,votes\nA,40\nB,35\nC,26\n", 101
        shares = [Fraction(it) for it in ("1/2", "2/3", "1/3", "99/101", "13/20", "1/200")]
        for value, more in itertools.product(shares, (False, True)):
            wanted = next(it for it in range(1, total + 1) if (it > value * total if more else it >= value * total))
            percent = f"{float(value * 100):.10g}%"
            texts = [f"{value.numerator}/{value.denominator}", f" {value.numerator} / {value.denominator} "]
            for text in texts + [percent, percent.replace(".", ",")] * (Fraction(percent[:-1]) == value * 100):
                self.assertEqual(find_game(read([(">" if more else "") + text], table))[0], [wanted], text)
        for it in "51 51", ">50 51", "49.5 50", "≥49,5 50", ">=51 51", "heads:2 2", "heads:>1/3 2", "heads:1.5 2":
            self.assertEqual(find_game(read(it.split()[:1], table))[0], [int(it.split()[1])], it)

    def test_numbers(self):
        for text, point, comma in [
            ("12", 12, 12), ("007", 7, 7), ("1.5", "1.5", None), ("12 %", 12, 12), ("1.000", 1, 1000),
            ("1,000", 1000, 1), ("1.234,5", None, "1234.5"), ("1'000’000", 10**6, 10**6), ("$1,200.50", "1200.5", None),
            ("1,2345", None, "1.2345"), ("1.5e3", 1500, None), ("1.200,00 €", None, 1200), ("250/1000", 250, 250),
            ("1\u2009000,5", None, "1000.5"), ("9007199254740993", 9007199254740993, 9007199254740993), ("CHF 5", 5, 5),
            *((it, None, None) for it in ["", "0" * 40 + "5", *"% 5. -5 \u0663 1,00,000 1.0.0 3/0 5€€".split()]),
        ]:
            it = Number(f" {text}\t")
            wanted = {sign: Fraction(each) for sign, each in ((".", point), (",", comma)) if each is not None}
            self.assertEqual((it.values, it.percent), (wanted, text.endswith("%")), text)

    def test_totals_by_their_definition(self):
        """A total is first or last and the sum of all others, four at least, or one of more subtotals."""
        rng = random.Random(4)
        for _ in range(2000):
            its = [rng.randint(0, 9) for _ in range(rng.randint(3, 8))]
            found = {*Weights([Fraction(it) for it in its], "", "", "").find_totals(["x"] * len(its))}
            wanted = {at for at in (0, len(its) - 1) if len(its) > 4 and 2 * its[at] == sum(its) > 0}
            parts = sum(its[at] for at in found - wanted)
            is_parts = len(found - wanted) > 1 and 2 * parts in (sum(its), sum(its) - max(its))
            self.assertTrue(wanted <= found and (found == wanted or is_parts), its)


main("from-table")
