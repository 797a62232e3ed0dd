"""Costs of any kind as whole numbers of 128 bits, and levels where these don't hold them, compared with all plans and
with Kuhn's method in fractions."""
import itertools
import unittest
from decimal import Decimal
from fractions import Fraction
from unittest import mock

import nushbaret
from nushbaret.costs.kinds import Doubles, ExactNumbers, whole_numbers
from nushbaret.costs.limits import WIDE_BITS
from nushbaret.lap import levels, units, wide
from drawn import KINDS, best, doubles, drawing, exactly, hungarian, proves
from optional import np


def _of_decades(draw):
    """Floats, ints and Decimals of 60 decades."""
    power = draw.randint(-30, 30)
    return draw.choice([draw.random() * 10.0**power, draw.randint(-9, 9) * 10**draw.randint(0, 60),
                        Decimal(draw.randint(0, 10**18)).scaleb(power)])


# Costs that hardly differ, or only far below the first 100 bits.
OWN_KINDS = {
    "fractions": lambda draw: Fraction(draw.randint(-50, 50), draw.randint(1, 60)),
    "few fractions": lambda draw: Fraction(draw.randint(0, 3), 7),
    "decimals": lambda draw: Decimal(draw.randint(0, 10**20)).scaleb(-draw.randint(0, 20)),
    "60 decades": _of_decades,
    "ints of 20 digits": lambda draw: draw.randint(10**19, 10**20),
    "near 10**35": lambda draw: 10**35 + draw.randint(0, 2),
    "near 10**40 / 3**50": lambda draw: Fraction(10**40 + draw.randint(0, 2), 3**50),
    "three parts": lambda draw: draw.randint(0, 3) * 10**120 + draw.randint(0, 3) * 10**60 + draw.randint(0, 3),
    "M": lambda draw: draw.choice([10**90, draw.randint(0, 9), Fraction(draw.randint(0, 9), 7**60)]),
    "the greatest": lambda draw: draw.choice([-1, 1]) * (2**WIDE_BITS - draw.randint(0, 1)),
    "multiples": lambda draw: draw.randint(-3, 3) * 10**45,
    "cents as floats": lambda draw: 0.01 * draw.randint(0, 1000),
}


def _drawn(draw, kind, n_rows, n_columns, share=1.0):
    return [[OWN_KINDS[kind](draw) if draw.random() < share else None for _ in range(n_columns)]
            for _ in range(n_rows)]


def _sum_of(exact, rows, columns):
    return sum((exact[row][column] for row, column in zip(rows, columns)), Fraction(0))


class Plans(unittest.TestCase):
    def judge(self, costs, maximize, wanted):
        result, exact = nushbaret.solve(costs, maximize, partial=True), exactly(costs, True)
        self.assertEqual((_sum_of(exact, result.rows, result.columns), Fraction(result.cost)), (wanted, wanted))
        self.assertTrue(not len(result.rows) or proves(exact, result, maximize))
        return result

    def test_beside_all_plans(self):
        """Also with pairs that are missing, and as listed pairs in any order."""
        draw, partial = drawing(191), 0
        for turn in range(720):
            kind, maximize = list(OWN_KINDS)[turn % len(OWN_KINDS)], draw.random() < 0.5
            n_rows, n_columns = draw.randint(1, 4), draw.randint(1, 4)
            costs = _drawn(draw, kind, n_rows, n_columns, draw.choice([1, 0.7, 0.4]))
            assigned = len(nushbaret.solve([[None if cost is None else 0 for cost in row] for row in costs],
                                         partial=True).rows)
            partial += assigned < min(n_rows, n_columns)
            with self.subTest(kind=kind, costs=costs, maximize=maximize):
                wanted = best(exactly(costs, True), maximize, assigned)
                result = self.judge(costs, maximize, wanted)
                self.assertTrue(result.verify())
                pairs = [(row, column, cost) for row, held in enumerate(costs) for column, cost in enumerate(held)
                         if cost is not None]
                draw.shuffle(pairs)
                listed = nushbaret.solve_sparse(n_rows, n_columns, *(map(list, zip(*pairs)) if pairs else ([], [], [])),
                                                maximize=maximize, partial=True)
                self.assertEqual((listed.cost, type(listed.cost)), (result.cost, type(result.cost)))
        self.assertGreater(partial, 100)

    def test_beside_kuhns_method(self):
        draw = drawing(192)
        for turn in range(180):
            kind, maximize = list(OWN_KINDS)[turn % len(OWN_KINDS)], draw.random() < 0.5
            n_rows = draw.randint(2, 14)
            costs = _drawn(draw, kind, n_rows, draw.choice([n_rows, n_rows + 3, max(1, n_rows - 3)]))
            with self.subTest(kind=kind, turn=turn, maximize=maximize):
                self.judge(costs, maximize, hungarian(exactly(costs, True), maximize))
                if kind == "cents as floats":
                    for form in [costs] + ([np.array(costs)] if np else []):
                        exact, pairs = exactly(costs, False), nushbaret.linear_sum_assignment(form, maximize)
                        self.assertEqual(_sum_of(exact, *pairs), hungarian(exact, maximize))

    def test_left_out_at_a_cost(self):
        draw = drawing(193)
        for turn in range(120):
            kind, out = list(OWN_KINDS)[turn % len(OWN_KINDS)], draw.choice([0, 1, 10**70, Fraction(1, 3**40)])
            n_rows, n_columns = draw.randint(1, 3), draw.randint(1, 3)
            costs = _drawn(draw, kind, n_rows, n_columns)
            exact, wanted = exactly(costs, True), []
            for count in range(min(n_rows, n_columns) + 1):
                left = (n_rows + n_columns - 2 * count) * Fraction(out) / 2
                wanted.append(best(exact, False, count) + left if count else left)
            self.assertEqual(Fraction(nushbaret.solve(costs, unmatched_cost=out).cost), min(wanted))

    def test_one_call_or_several(self):
        """Up to 2**100 of a common unit one call of the library solves all; otherwise few pairs are left for the
        next."""
        for costs, most in (([[2**100, -2**100], [5, 2**100]], 1), ([[2**101, 3], [5, 7]], 2),
                            ([[Fraction(1, 3), Fraction(1, 7)], [2, 10**20]], 1), ([[10**60, 2 * 10**60]], 1),
                            ([[Decimal("1E-25"), 3], [2, 3]], 1), ([[Decimal("1E-31"), 3], [2, 3]], 2)):
            with mock.patch.object(wide, "solved", side_effect=wide.solved) as calls:
                result = nushbaret.solve(costs)
            self.assertEqual(calls.call_count, most)
            self.assertTrue(proves(exactly(costs, True), result, False))

    def test_prices_are_multiples_of_the_unit_of_costs(self):
        for costs in [[10**40, 10**40 + 1], [3, 10**41]], [[Decimal("1E+40"), Decimal("0.25")], [3, Decimal("0.5")]]:
            result = nushbaret.solve(costs)
            for price in result.prices:
                self.assertEqual(Fraction(price) % Fraction(1, 4), 0)

    def test_calls_that_levels_make(self):
        """Costs of all calls are at most 2**100, and later calls have few pairs."""
        draw, asked = drawing(194), []

        def noted(maximize, instance):
            asked.append(instance)
            return solved(maximize, instance)

        solved = wide.solved
        with mock.patch.object(wide, "solved", noted):
            costs = [[Fraction(draw.randint(0, 10**6), draw.randint(1, 1000)) for _ in range(40)] for _ in range(40)]
            result = nushbaret.solve(costs)
        self.assertEqual(Fraction(result.cost), hungarian(costs, False))
        self.assertTrue(all(-2**100 <= cost <= 2**100 for instance in asked for cost in instance.costs.listed()))
        self.assertEqual((asked[0].costs.count, len(asked) > 1), (1600, True))
        self.assertLess(max(instance.costs.count for instance in asked[1:]), 400)


class Words(unittest.TestCase):
    """Costs as whole numbers."""

    def numbers(self, costs):
        """Each cost as a multiple of the part, and how far one is off at most, in parts."""
        found = units.whole_costs(costs)
        held = wide.words_of(found.numbers).listed()
        self.assertEqual(held[-1], 0)
        self.assertLessEqual(max(map(abs, held)), 2**WIDE_BITS)
        off = [abs(Fraction(*costs.ratio(cost)) * costs.unit.denominator / found.part - number)
               for cost, number in zip(costs.listed(), held)]
        return found, max(off)

    def test_there_and_back(self):
        numbers = [0, 1, -1, 2**63, -2**63, 2**64, -2**64 - 1, 2**100, -2**100, 2**127 - 1, -2**127]
        self.assertEqual(wide.words_of(numbers).listed(), numbers)

    def test_lists(self):
        draw, exact = drawing(195), 0
        for turn in range(600):
            kind = list(OWN_KINDS)[turn % len(OWN_KINDS)]
            held = [OWN_KINDS[kind](draw) for _ in range(draw.randint(1, 9))]
            costs = whole_numbers(held) if {int}.issuperset(map(type, held)) else ExactNumbers(held)
            before = list(held)
            found, off = self.numbers(costs)
            self.assertTrue(off < 1 if not found.is_exact else off == 0)
            self.assertEqual(costs.listed(), before)
            exact += found.is_exact
        self.assertTrue(200 < exact < 550, exact)

    @unittest.skipUnless(np, "NumPy isn't there")
    def test_arrays(self):
        draw, exact = drawing(196), [0, 0]
        for turn in range(720):
            kind, printed = list(KINDS)[turn % len(KINDS)], turn // len(KINDS) % 2 == 0
            held = [cost for row in doubles(draw, draw.choice([1, 9, 30]), 30, kind) for cost in row]
            for scale in 1.0, -2.0**-40:
                flat = np.array(held) * scale
                with np.errstate(all="ignore"):
                    found, off = self.numbers(Doubles(flat, np, not printed))
                self.assertTrue(off < 1 if not found.is_exact else off == 0)
                exact[printed] += found.is_exact
            whole = np.array([draw.randint(-2**62, 2**62) for _ in range(20)] + [-2**63, 2**63 - 1])
            self.assertEqual(self.numbers(whole_numbers(whole.tolist()).in_array(np))[1], 0)
        self.assertGreater(min(exact), 100)

    def test_least_and_greatest(self):
        for flat in [0.0, -0.0], [5e-324, 1e-323, 0.0], [1.7976931348623157e308, -1.7e308], [5e-324, 1e308]:
            for printed in (False, True) if np else ():
                found, off = self.numbers(Doubles(np.array(flat), np, not printed))
                self.assertTrue(off < 1 if not found.is_exact else off == 0)
            found, off = self.numbers(ExactNumbers(flat))
            self.assertTrue(off < 1 if not found.is_exact else off == 0)


class Kept(unittest.TestCase):
    def test_no_pair_of_a_best_plan_goes_out(self):
        """At any level, whatever plan the library chooses."""
        draw, out = drawing(197), 0

        def noted(level, bound, taken):
            found = plain(level, bound, taken)
            seen.append((level, set(zip(found.persons, found.objects))))
            return found

        plain = levels._next
        for turn in range(240):
            kind = list(OWN_KINDS)[turn % len(OWN_KINDS)]
            n, m, seen = draw.randint(2, 4), draw.randint(4, 5), []
            costs = _drawn(draw, kind, n, m)
            with mock.patch.object(levels, "_next", noted):
                nushbaret.solve(costs)
            exact = exactly(costs, True)
            sums = {own: _sum_of(exact, range(n), own) for own in itertools.permutations(range(m), n)}
            for own, total in sums.items():
                if total == min(sums.values()):
                    pairs = {(row + 1, column + 1) for row, column in enumerate(own)}
                    for _, left in seen:
                        self.assertLessEqual(pairs, left)
            out += any(len({pair for pair in left if pair[0] <= n and pair[1] <= m}) < n * m for _, left in seen)
        self.assertGreater(out, 30)


if __name__ == "__main__":
    unittest.main()
