"""Floats: SciPy's call takes all that SciPy takes, and its plan is best for these very doubles; `solve` rounds where it
is asked to."""
import math
import unittest
from decimal import Decimal
from fractions import Fraction

import nushbaret
from nushbaret.costs import printing
from drawn import best, drawing
from optional import np, optimize


def cost_of(costs, rows, columns):
    return sum(Fraction(float(costs[row][column])) for row, column in zip(rows, columns))


class Lists(unittest.TestCase):
    def test_drawn(self):
        draw = drawing(21)
        for _ in range(500):
            n_rows, n_columns, maximize = draw.randint(1, 4), draw.randint(1, 4), draw.random() < 0.5
            scale = 2.0**draw.choice([-1060, -300, -40, 0, 10, 40, 300, 1000])
            costs = [[draw.choice([draw.random(), draw.randint(-9, 9), draw.gauss(0, 1)]) * scale
                      for _ in range(n_columns)] for _ in range(n_rows)]
            rows, columns = nushbaret.linear_sum_assignment(costs, maximize)
            assigned = min(n_rows, n_columns)
            self.assertEqual(len(set(columns)), assigned)
            wanted = best([[Fraction(cost) for cost in row] for row in costs], maximize, assigned)
            self.assertEqual(cost_of(costs, rows, columns), wanted)

    def test_best_for_these_very_doubles(self):
        """Here a power of two makes all whole within the library's range."""
        draw = drawing(22)
        for _ in range(500):
            n, maximize = draw.randint(1, 4), draw.random() < 0.5
            scale = 2.0**draw.choice([-1030, -300, -40, 0, 10, 40, 300, 900])
            costs = [[draw.randint(-10**12, 10**12) * scale for _ in range(n)] for _ in range(n)]
            wanted = best([[Fraction(cost) for cost in row] for row in costs], maximize, n)
            self.assertEqual(cost_of(costs, *nushbaret.linear_sum_assignment(costs, maximize)), wanted)

    def test_numbers_of_every_kind(self):
        for other, wanted in ((10**300, [0, 1]), (Decimal("1e-300"), [1, 0]), (Fraction(1, 3), [1, 0]), (True, [0, 1]),
                              (False, [1, 0]), (2.5, [0, 1]), (2**63, [0, 1]), (-2**63, [1, 0]), (None, [0, 1]),
                              (math.inf, [0, 1])):
            self.assertEqual(nushbaret.linear_sum_assignment([[0.5, other], [0.25, 0.5]])[1], wanted, other)
        for wrong, kind, words in (("x", ValueError, "could not convert string to float"), (1j, TypeError, "is 1j"),
                                   (10**400, OverflowError, "int too large to convert to float"),
                                   (Decimal("sNaN"), ValueError, "nan at row 0, column 1"),
                                   (object(), TypeError, "which is no number"),
                                   (-math.inf, ValueError, "-inf at row 0, column 1"),
                                   (math.nan, ValueError, "nan at row 0, column 1")):
            with self.assertRaisesRegex(kind, words):
                nushbaret.linear_sum_assignment([[0.5, wrong], [1, 1]])


class Rounding(unittest.TestCase):
    def test_drawn(self):
        """With `decimals` each cost is rounded, of whatever kind and form it is, and the plan is best for the rounded
        ones."""
        draw = drawing(23)
        for _ in range(500):
            n_rows, n_columns, maximize = draw.randint(1, 4), draw.randint(1, 4), draw.random() < 0.5
            scale, places = 10.0**draw.randint(-8, 11), draw.choice([0, 1, 2, 6, 7, 20])
            costs = [[draw.choice([draw.random(), draw.randint(-9, 9) / 8]) * scale for _ in range(n_columns)]
                     for _ in range(n_rows)]
            exact = [[round(Fraction(repr(cost)), places) for cost in row] for row in costs]
            forms = [costs, [[Fraction(repr(cost)) for cost in row] for row in costs],
                     [[Decimal(repr(cost)) for cost in row] for row in costs]]
            wanted = best(exact, maximize, min(n_rows, n_columns))
            for form in forms + ([np.array(costs)] if np else []):
                result = nushbaret.solve(form, maximize, decimals=places)
                own = sum(exact[row][column] for row, column in zip(result.rows, result.columns))
                self.assertEqual((own, result.cost), (wanted, wanted))
                self.assertEqual(type(result.cost), Decimal if places else int)
                self.assertTrue(result.verify())

    def test_refusals(self):
        for decimals in "fit", "doubles", "6":
            with self.assertRaisesRegex(ValueError, f"decimals is '{decimals}': it must be a whole number from 0, or "
                                        "None"):
                nushbaret.solve([[1]], decimals=decimals)
        with self.assertRaises(TypeError):
            nushbaret.solve([[1]], decimals=0.5)


@unittest.skipUnless(optimize, "SciPy isn't there")
class BesideScipy(unittest.TestCase):
    KINDS = ("float64", "float32", "float16", "longdouble", "object", "bool", "int8", "uint8", "int16", "uint16",
             "int32", "uint32", "int64", "uint64", ">f8", "list")

    def drawn(self, rng, kind):
        shape = tuple(int(side) for side in rng.integers(1, 9, 2))
        if kind == "bool":
            return rng.random(shape) < 0.5
        if kind.lstrip("u").startswith("int"):
            limits = np.iinfo(kind)
            span = (9, limits.max)[int(rng.integers(2))]
            return rng.integers(max(-span, limits.min), span, shape, dtype=kind, endpoint=True)
        scale = 1.0 if kind == "float16" else 2.0**int(rng.choice([-20, 0, 30] if kind == "float32"
                                                                  else [-1000, -300, -20, 0, 30, 300, 1000]))
        costs = np.where(rng.random(shape) < 0.5, rng.normal(0, 1, shape), rng.integers(-9, 10, shape)) * scale
        if rng.random() < 0.3:
            costs[rng.random(shape) < 0.2] = np.inf
        if rng.random() < 0.05:
            costs[int(rng.integers(shape[0]))] = np.inf
        return costs.tolist() if kind == "list" else costs.astype(kind)

    def test_drawn(self):
        rng, infeasible = np.random.default_rng(24), 0
        for turn in range(2000):
            kind = self.KINDS[turn % len(self.KINDS)]
            costs, maximize = self.drawn(rng, kind), bool(rng.integers(2))
            if maximize and np.asarray(costs, float).size and np.isinf(np.asarray(costs, float)).any():
                costs = [[-cost for cost in row] for row in costs] if isinstance(costs, list) else -costs
            doubles = np.asarray(costs, float)
            try:
                theirs = optimize.linear_sum_assignment(doubles if kind in ("longdouble", "object") else costs,
                                                        maximize)
            except ValueError as fault:
                with self.assertRaisesRegex(ValueError, str(fault)):
                    nushbaret.linear_sum_assignment(costs, maximize)
                infeasible += 1
                continue
            rows, columns = nushbaret.linear_sum_assignment(costs, maximize)
            self.assertEqual(len(rows), min(doubles.shape))
            self.assertEqual((list(rows), len(set(columns))), (sorted(rows), len(rows)))
            exact = costs if kind in ("int64", "uint64") else doubles
            own, theirs = (sum(map(Fraction, exact[pairs].tolist())) for pairs in ((rows, columns), theirs))
            better = own - theirs if maximize else theirs - own
            most = max(abs(Fraction(float(cost))) for cost in doubles[np.isfinite(doubles)])
            self.assertGreaterEqual(better, 0)
            self.assertLessEqual(better, len(rows) * most / 2**45)
        self.assertGreater(infeasible, 20)


@unittest.skipUnless(np, "NumPy isn't there")
class Shortest(unittest.TestCase):
    """The decimals that short floats print as, compared with what NumPy prints."""

    def compare(self, floats):
        with np.errstate(all="ignore"):
            np.testing.assert_array_equal(printing.of_array(np, floats), floats.astype("U32").astype(float))

    def test_all_of_16_bits(self):
        every = np.arange(2**16, dtype=np.uint16).view(np.float16)
        self.compare(every)
        self.compare(every[every == every][7:1000:3])

    def test_of_32_bits(self):
        draw = drawing(176)
        powers = np.array([2.0**power for power in range(-149, 128)], np.float32)
        self.compare(np.concatenate([powers, -powers, np.nextafter(powers, np.float32(0)),
                                     np.nextafter(powers, np.float32(np.inf))]))
        with np.errstate(all="ignore"):
            self.compare(np.array([draw.getrandbits(32) for _ in range(20000)], np.uint32).view(np.float32))
        for count in 1, 64, 20000:
            self.compare(np.array([10**draw.uniform(-4.2, 7.4) for _ in range(count)], np.float32))
            self.compare(np.array([draw.randint(-10**6, 10**6) / 10**draw.randint(0, 5) for _ in range(count)],
                                  np.float32))
            self.compare(np.array([draw.random() for _ in range(count)], np.float32))


if __name__ == "__main__":
    unittest.main()
