"""Looks at blocks compared with their definition, and the proof alone: plans, prices and costs that are changed."""
import unittest
from unittest import mock

from optional import np

if np:
    from nushbaret import beyond
    from nushbaret.beyond import blocks
    from . import slow_blocks
    from .costs import kinds


@unittest.skipUnless(np, "needs NumPy")
class Looks(unittest.TestCase):
    """Better pairs, least sums and own pairs of small blocks, of a matrix and of listed pairs, next to the
    definition."""

    def asked(self, random, costs, columns):
        prices = random.integers(0, 9, columns).astype(costs.dtype)
        numbers = random.integers(-2, 12, len(costs)).astype(costs.dtype)
        has_rests = costs.dtype.kind == "f" and random.random() < 0.7
        rests = random.choice([-1e-17, 0.0, 1e-17], len(costs)) if has_rests else None
        own = random.integers(-1, columns, len(costs))
        return blocks.Asked(numbers, rests, own, prices, int(random.integers(1, columns + 1)))

    def compare(self, found, wanted, most):
        better, least, first, shown = wanted
        rows = found.rows.tolist()
        self.assertEqual(rows, sorted(rows))
        for row, below in enumerate(better):
            got = [(int(column), cost) for at, column, cost in zip(rows, found.columns, found.costs) if at == row]
            known = {(column, cost): value for value, column, cost in below}
            self.assertEqual(len(got), min(most, len(below)))
            self.assertEqual(sorted(known[pair] for pair in got), [value for value, _, _ in below[:most]])
        self.assertEqual(found.first, first)
        self.assertEqual(found.shown.tolist(), shown)
        for value, wanted_value in zip(found.least.tolist(), least):
            self.assertIn(value, (blocks.GREATEST, float("inf")) if wanted_value is None else (wanted_value,))

    def test_matrices(self):
        random = np.random.default_rng(3)
        for turn in range(120):
            rows, columns = random.integers(1, 9, 2)
            costs = random.integers(-5, 9, (rows, columns))
            if turn % 2:
                costs = np.where(random.random((rows, columns)) < 0.2, np.inf, costs.astype(float))
            asked = self.asked(random, costs, columns)
            wanted = slow_blocks.look(rows, slow_blocks.of_matrix(costs), asked)
            self.compare(blocks.look(costs, asked), wanted, asked.most)

    def test_listed_pairs(self):
        random = np.random.default_rng(4)
        for turn in range(120):
            rows, columns, count = random.integers(1, 9, 3)
            count = int(count) * 3
            costs = random.integers(-5, 9, count)
            if turn % 2:
                costs = costs.astype(float)
            at = random.choice(rows * columns, min(count, rows * columns), replace=False)
            costs = costs[:len(at)]
            asked = self.asked(random, np.zeros((rows, 1), costs.dtype), columns)
            found = blocks.look_listed(int(rows), at // columns, at % columns, costs, asked)
            pairs = list(zip((at // columns).tolist(), (at % columns).tolist(), costs.tolist()))
            self.compare(found, slow_blocks.look(rows, pairs, asked), asked.most)

    def test_packs(self):
        """Listed pairs in matrices of a few rows; some are listed twice, at another cost."""
        random = np.random.default_rng(8)
        for packed in (1, 9, 40, 4096) * 30:
            rows, columns, count = (int(number) for number in random.integers(1, 12, 3))
            at = random.integers(0, rows * columns, 4 * count)
            costs = random.integers(-5, 9, len(at)).astype(float)
            asked = self.asked(random, np.zeros((rows, 1)), columns)
            pairs = list(zip((at // columns).tolist(), (at % columns).tolist(), costs.tolist()))
            wanted = slow_blocks.look(rows, pairs, asked)
            with mock.patch.object(blocks, "PACKED", packed):
                found = blocks._looked_at_packs(rows, at // columns, at % columns, costs, asked)
            self.compare(found, wanted, asked.most)


@unittest.skipUnless(np, "needs NumPy")
class Checks(unittest.TestCase):
    """Each plan found is proved by one look; what a change breaks is refused, exactly where the definition says so."""

    def by_definition(self, costs, columns, prices, maximize):
        """Whether prices prove the plan, in whole numbers."""
        sums, own = (-costs if maximize else costs) + prices, columns >= 0
        paid = sums[np.flatnonzero(own), columns[own]]
        free = np.delete(prices, columns[own])
        is_best = (prices >= 0).all() and not free.any() and (paid <= sums[own].min(1)).all()
        return bool(is_best and (own.all() or paid.max() <= sums[~own].min()))

    def test_changes(self):
        random, refused = np.random.default_rng(5), 0
        for turn in range(170):
            rows, columns = random.integers(2, 40, 2)
            costs, maximize = random.integers(0, 60, (rows, columns)), bool(turn % 2)
            found = beyond.solve(costs, maximize=maximize)
            self.assertTrue(beyond.check(costs, found.columns, found.prices, maximize=maximize, block_rows=9))
            for changed in self.changed(random, costs, found):
                verdict = beyond.check(*changed, maximize=maximize, block_rows=9)
                self.assertEqual(bool(verdict), self.by_definition(*changed, maximize), (turn, verdict))
                refused += not verdict
        self.assertGreater(refused, 300)

    def changed(self, random, costs, found):
        prices, columns, other = found.prices.copy(), found.columns.copy(), costs.copy()
        prices[random.integers(len(prices))] += random.choice([-1, 1])
        one, two = random.choice(len(columns), 2, replace=False)
        columns[[one, two]] = columns[[two, one]]
        assigned = np.flatnonzero(found.columns >= 0)
        other[assigned[0], found.columns[assigned[0]]] += random.choice([-70, 70])
        yield costs, found.columns, prices
        yield costs, columns, found.prices
        yield other, found.columns, found.prices

    def test_doubles(self):
        random = np.random.default_rng(6)
        for shape in ((30, 30), (20, 33), (33, 20)):
            for name, costs in kinds(random, *shape):
                if costs.dtype.kind != "f" or name == "forbidden":
                    continue
                found = beyond.solve(costs)
                verdict = beyond.check(costs, found.columns, found.prices)
                # Plans that nearly tie are decided by exact numbers, and no doubles may prove them.
                self.assertTrue(verdict or name in ("ties of doubles", "clustered"), (name, shape, verdict))
                lower = costs.copy()
                row = int(np.flatnonzero(found.columns >= 0)[0])
                lower[row, found.columns[row]] += 1.0
                if min(shape) > 1:
                    self.assertFalse(beyond.check(lower, found.columns, found.prices), (name, shape))

    def test_what_is_wrong(self):
        costs = np.array([[4, 1], [2, 3]])
        for columns, prices, text in (([1, 0], [0, 1], "proved"), ([0, 0], [0, 0], "column 0 is given twice"),
                                      ([1, 2], [0, 0], "row 1 has column 2, and there are 2"),
                                      ([1, 0], [-1, 0], "the price of column 0 is below 0"),
                                      ([1, -1], [0, 0], "1 rows have a column, and 2 could"),
                                      ([0, 1], [0, 0], "row 0 is better off with column 1")):
            self.assertIn(text, repr(beyond.check(costs, columns, prices)))
        self.assertIn("row 0 may not have its column", repr(beyond.check(np.array([[np.inf, 1]]), [0], [0, 0])))
        self.assertIn("nobody has column 1", repr(beyond.check(np.array([[1, 1]]), [0], [0, 5])))
        for columns, prices in (([0.5, 1], [0, 0]), ([0], [0, 0]), ([1, 0], [0]), ([1, 0], [0.5, 0])):
            with self.assertRaises(ValueError):
                beyond.check(costs, columns, prices)


if __name__ == "__main__":
    unittest.main()
