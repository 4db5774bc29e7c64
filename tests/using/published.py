#!/usr/bin/env python3
"""What docs/GUIDE.md says of published tables and treaties."""
import re
from fractions import Fraction
from itertools import combinations, product
from math import comb

from cases import TOP, Tests, main, report, stored
from council.reports import Report


def read(text):
    return Report.read(text.split("\n")[:-1])


def find_indices(text):
    """Returns both indices of each member of a report."""
    members = read(text).members
    return [it.deegan_packel_exact for it in members], [it.public_good_exact for it in members]


class Published(Tests):
    def test_holler_1982_in_sixtieths(self):
        with open(f"{TOP}/examples/holler-1982.toml", encoding="utf-8") as it:
            found = find_indices(report(it.read()))
        self.assertEqual([[60 * it for it in its] for its in found], [[18, 9, 11, 11, 11], [16, 8, 12, 12, 12]])

    def test_the_security_council(self):
        """Five vetoes, and four of the ten others."""
        council = read(stored("un-security-council"))
        self.assertEqual(council.minimal, comb(10, 4))
        for members, number, index in (council.members[:5], comb(10, 4), Fraction(1, 9)), (council.members[5:], comb(9, 3), Fraction(2, 45)):
            self.assertEqual({(it.coalitions, it.deegan_packel_exact, it.public_good_exact) for it in members}, {(number, index, index)})

    def test_swings(self):
        """The Security Council, the Six of 1958, and a vote that is given away."""
        council = read(report(open(f"{TOP}/examples/un-security-council.toml", encoding="utf-8").read(), "--only-swings"))
        self.assertEqual({it.shapley_shubik_exact for it in council.members[:5]} | {it.shapley_shubik_exact for it in council.members[5:]}, {Fraction(421, 2145), Fraction(4, 2145)})
        six = read(report("[12; 4, 4, 4, 2, 2, 1]", "--swings"))
        for at, banzhaf, shapley_shubik in (0, Fraction(5, 21), Fraction(14, 60)), (3, Fraction(3, 21), Fraction(9, 60)), (5, 0, 0):
            self.assertEqual((six.members[at].banzhaf_exact, six.members[at].shapley_shubik_exact), (banzhaf, shapley_shubik))
        self.assertEqual((six.power_to_act_exact, six.members[0].power_to_prevent_exact, six.members[0].power_to_initiate_exact), (Fraction(14, 64), Fraction(10, 14), Fraction(10, 50)))
        self.assertEqual([read(report(it, "--swings")).members[0].banzhaf_exact for it in ("[8; 5, 3, 1, 1, 1]", "[8; 4, 4, 1, 1, 1]")], [Fraction(9, 19), Fraction(1, 2)])

    def test_luxembourg_in_1958_and_1973(self):
        """It was a dummy, and with a smaller share it was not (Brams and Affuso 1976)."""
        old, new = [next(it for it in read(stored(name)).members if it.name == "Luxembourg") for name in ("eec-1958", "ec-1973")]
        self.assertTrue(old.coalitions == 0 < new.coalitions and Fraction(new.weights[0], 58) < Fraction(old.weights[0], 17))

    def test_nassau_county_in_1964(self):
        """Three of the six members of its board are dummies (Banzhaf 1965)."""
        self.assertEqual(list(find_indices(report("[58; 31, 31, 28, 21, 2, 2]"))), [[Fraction(1, 3)] * 3 + [0] * 3] * 2)

    def test_or_24_of_27_states(self):
        """What it adds to the Treaty of Lisbon, as docs/GUIDE.md says."""
        union = read(stored("eu-27-lisbon"))
        text = open(f"{TOP}/examples/eu-27-lisbon.toml", encoding="utf-8").read()
        without = re.sub(r", 24\]\nways = .*", "]", text).replace(", 1, 1]", ", 1]")
        weights, quota, total = [it.weights[0] for it in union.members], union.quotas[0], union.totals[0]
        added = [out for out in combinations(range(27), 3) if total - sum(weights[at] for at in out) < quota]
        # no other coalition of 25 members or more stops being minimal
        heavy = [out for size in range(3) for out in combinations(range(27), size)
                 if quota <= total - sum(weights[at] for at in out) < quota + min(it for at, it in enumerate(weights) if at not in out)]
        old = read(report(without))
        self.assertEqual((len(added), heavy, union.minimal, old.minimal), (22, [], 4377866, 4377844))
        seats = sum(it.coalitions for it in old.members)
        moved = []
        for at, (it, new) in enumerate(zip(old.members, union.members)):
            more = sum(at not in out for out in added)
            self.assertEqual(new.deegan_packel_exact, (it.deegan_packel_exact * old.minimal + Fraction(more, 24)) / union.minimal)
            self.assertEqual(new.public_good_exact, Fraction(it.coalitions + more, seats + 24 * len(added)))
            moved += [abs(new.deegan_packel_exact - it.deegan_packel_exact), abs(new.public_good_exact - it.public_good_exact)]
        self.assertLess(max(moved), Fraction(5, 10**7))
        for game, germany, malta in (text, "0.176377", "0.008751"), (without, "0.178627", "0.008437"):
            lines = report(game, "--only-swings").split("\n")
            self.assertEqual([it.split("\t")[9] for it in lines if "Germany" in it or "Malta" in it], [germany, malta])

    def test_the_american_override(self):
        """The rules of docs/GUIDE.md, for each number of members of both houses."""
        for president, vice, senators, deputies in product((0, 1), (0, 1), range(101), range(436)):
            found = deputies + 72 * president >= 290 and 2 * senators + vice + 33 * president >= 134
            if found != bool(president and deputies >= 218 and 2 * senators + vice >= 101 or deputies >= 290 and senators >= 67):
                self.fail((president, vice, senators, deputies))


main("published")
