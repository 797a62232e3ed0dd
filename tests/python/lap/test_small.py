"""Small matrices take a shorter way where the extension is: plans are compared with a slow search in fractions, and
results with the longer way."""
import pickle
import unittest
from decimal import Decimal
from fractions import Fraction
from unittest import mock

import nushbaret
from nushbaret.lap import levels
from drawn import KINDS, best, doubles, drawing, exactly, hungarian, proves
from optional import np
from ways import by_the_longer_way, extension, is_short


def _tied(draw):
    """Decimals that add up to the same sum while their doubles don't, and doubles that do while their decimals
    don't."""
    tenths = draw.randint(1, 9)
    return draw.choice([tenths / 10, tenths * 0.1, 0.1 + 0.2, 0.3, 1 / 3, 2 / 3, 1 - 1 / 3,
                        0.1 + 0.2 + draw.randint(0, 2) * 2.0**-54])


def _beside(draw):
    """Neighbours among doubles."""
    value = 0.1234567890123456
    return draw.choice([1, 1, 2, 3]) * value + draw.randint(-2, 2) * 2.0**-55


def _short(draw):
    """Decimals of 12 to 14 digits."""
    whole, part = draw.randint(0, 9), draw.randint(1, 999)
    return float(f"{whole}.{part:03}{draw.choice(['', '000000001', '00000001', '0000000001'])}")


OWN_KINDS = {"tied": _tied, "neighbours": _beside, "12 digits": _short}


@unittest.skipUnless(np, "NumPy isn't there")
class Small(unittest.TestCase):
    def costs(self, draw, kind, n_rows, n_columns):
        if kind in KINDS:
            return doubles(draw, n_rows, n_columns, kind)
        return [[OWN_KINDS[kind](draw) for _ in range(n_columns)] for _ in range(n_rows)]

    def test_near_ties(self):
        """By the thousand, compared with all plans: lists and arrays, for decimals and for doubles."""
        draw, kinds = drawing(81), [*OWN_KINDS, "tied", "near ties", "small differences", "thirds and M", "even"]
        small, refined = 0, 0
        with mock.patch.object(levels, "answer", side_effect=levels.answer) as finer:
            for turn in range(2400):
                kind, most = kinds[turn % len(kinds)], 5 if turn % 40 == 0 else 4
                n_rows, n_columns, maximize = draw.randint(1, most), draw.randint(1, most), draw.random() < 0.5
                costs = self.costs(draw, kind, n_rows, n_columns)
                assigned = min(n_rows, n_columns)
                form = costs if turn % 3 else np.array(costs)
                with self.subTest(kind=kind, costs=form, maximize=maximize):
                    before = finer.call_count
                    small += is_short(form, maximize)
                    result, exact = nushbaret.solve(form, maximize), exactly(costs, True)
                    wanted = best(exact, maximize, assigned)
                    paid = sum((exact[row][column] for row, column in zip(result.rows, result.columns)), Fraction(0))
                    self.assertEqual((paid, Fraction(result.cost), len(set(map(int, result.columns)))),
                                     (wanted, wanted, assigned))
                    if turn % 20 == 0:
                        self.assertTrue(proves(exact, result, maximize))
                        self.assertTrue(result.verify())
                    refined += finer.call_count > before
                    rows, columns = nushbaret.linear_sum_assignment(form, maximize)
                    exact = exactly(costs, False)
                    paid = sum((exact[row][column] for row, column in zip(rows, columns)), Fraction(0))
                    self.assertEqual(paid, best(exact, maximize, assigned))
        if extension():
            self.assertGreater(small, 600)
        self.assertGreater(refined, 200)

    def test_sums_of_tenths(self):
        """As decimals 0.1 + 0.2 is 0.3, and as doubles it is more."""
        for low in 0.3 - 5e-17, 0.3, 0.1 + 0.2:
            costs = [[0.1, low, 0.7123456789012345], [0.0, 0.2, 0.9], [0.7123456789012345, 0.9, 1 / 3]]
            for form in costs, np.array(costs), np.asfortranarray(costs):
                for maximize in False, True:
                    exact = exactly(costs, True)
                    self.assertEqual(Fraction(nushbaret.solve(form, maximize).cost), best(exact, maximize, 3))

    def test_larger(self):
        """Compared with Kuhn's method in whole numbers, up to 40 rows, with every other cost tied to another."""
        draw = drawing(82)
        for turn in range(40):
            n_rows, maximize = draw.randint(8, 40), turn % 2 == 0
            n_columns = draw.choice([n_rows, n_rows, n_rows + 5, max(n_rows - 5, 1)])
            costs = [[draw.choice([draw.random(), _tied(draw), _beside(draw)]) for _ in range(n_columns)]
                     for _ in range(n_rows)]
            for form in costs, np.array(costs):
                exact = exactly(costs, True)
                self.assertEqual(Fraction(nushbaret.solve(form, maximize).cost), hungarian(exact, maximize))
                exact = exactly(costs, False)
                rows, columns = nushbaret.linear_sum_assignment(form, maximize)
                self.assertEqual(sum(exact[row][column] for row, column in zip(rows, columns)),
                                 hungarian(exact, maximize))

    def test_beside_the_longer_way(self):
        """The same sum in the same form, and lists and arrays of the same kind."""
        draw, kinds = drawing(83), [*KINDS, *OWN_KINDS, "whole", "great whole"]
        for turn in range(600):
            kind, maximize = kinds[turn % len(kinds)], draw.random() < 0.5
            n_rows, n_columns = draw.randint(1, 6), draw.randint(1, 6)
            if "whole" in kind:
                span = 99 if kind == "whole" else 2**draw.choice([40, 62, 63, 70])
                costs = [[draw.randint(-span, span) for _ in range(n_columns)] for _ in range(n_rows)]
            else:
                costs = self.costs(draw, kind, n_rows, n_columns)
            for form in (costs,) if kind == "great whole" else (costs, np.array(costs)):
                result = nushbaret.solve(form, maximize)
                with by_the_longer_way():
                    longer = nushbaret.solve(form, maximize)
                for own in result, pickle.loads(pickle.dumps(result)):
                    self.assertEqual(self.form_of(own), self.form_of(longer))
                if turn % 7 == 0 and form is costs:
                    self.assertEqual((result.is_unique(), result.unmatched_rows == longer.unmatched_rows),
                                     (longer.is_unique(), True))

    def form_of(self, result):
        kinds = [type(values) for values in (result.cost, result.rows,
                                             result.columns)] + [{type(column) for column in result.columns}]
        return str(result.cost), kinds, len(result.rows), result.maximize

    def test_other_numbers_go_the_longer_way(self):
        """Floats of other sizes print as other decimals, and an int may be no double."""
        exact = 0.1234567890123456
        for other, cost in ((np.float32(0.1), "0.1"), (np.float16(0.1), "0.1"), (np.float64(0.1), "0.1"),
                            (Decimal("0.1"), "0.1"), (True, "1"), (2**53 + 1, "9007199254740993"),
                            (np.int64(2**53 + 1), "9007199254740993"), (Fraction(1, 3), "1/3")):
            result = nushbaret.solve([[other, 1e17], [1e17, exact]])
            self.assertEqual(Fraction(result.cost), Fraction(cost) + Fraction(str(exact)))
        for wrong in float("nan"), float("-inf"), "1", 1j:
            with self.assertRaises((ValueError, TypeError)):
                nushbaret.solve([[exact, wrong], [exact, exact]])
        with self.assertRaisesRegex(ValueError, "row 1 has 1 costs, row 0 has 2"):
            nushbaret.solve([[exact, exact], [exact]])

    def test_words_are_judged(self):
        """Whatever the way, words that are wrong are refused."""
        for call in nushbaret.solve, nushbaret.linear_sum_assignment:
            for costs in [[0.1234567890123456]], np.array([[0.1234567890123456]]), [[1]]:
                with self.assertRaisesRegex(ValueError, "missing is 'forbit'"):
                    call(costs, missing="forbit")
                with self.assertRaisesRegex(ValueError, "timeout is -1"):
                    call(costs, timeout=-1)

    def test_costs_changed_afterwards(self):
        """A result reads its caller's costs again, and says so where they are others."""
        for form in ([[0.1234567890123456, 2.5], [3.5, 1 / 3]], np.array([[0.1234567890123456, 2.5], [3.5, 1 / 3]]),
                     [[1, 5], [7, 2]]):
            result = nushbaret.solve(form)
            before = result.cost
            self.assertTrue(result.verify())
            form[0][0] = 40
            self.assertFalse(nushbaret.solve(form).cost == before)
            self.assertFalse(result.verify())
            self.assertEqual(result.cost, before)


if __name__ == "__main__":
    unittest.main()
