"""The dual simplex method on drawn programs, held against HiGHS."""
import unittest

import row_models as models

if models.scipy:
    import numpy as np
    from nushbaret.rows.simplex import solved, tableau_of
    from scipy import optimize

CASES = 300


@unittest.skipUnless(models.scipy, "SciPy isn't there")
class Simplex(unittest.TestCase):
    def setUp(self):
        self.draw = np.random.default_rng(1)

    def program(self):
        """A matrix, costs, and bounds of rows and variables that a point may meet or not."""
        rows, variables = self.draw.integers(1, 30, 2)
        matrix = self.draw.integers(-2, 3, (rows, variables)) * (self.draw.random((rows, variables)) < 0.4)
        sums = matrix @ self.draw.integers(0, 2, variables) + self.draw.integers(0, 2) * self.draw.integers(0, 2, rows)
        low = np.where(self.draw.random(rows) < 0.5, sums - self.draw.integers(0, 3, rows), -np.inf)
        high = np.where(self.draw.random(rows) < 0.5, sums + self.draw.integers(0, 3, rows), np.inf)
        return (matrix.astype(float), self.draw.integers(-9, 10, variables).astype(float),
                np.append(low, np.zeros(variables)), np.append(high, np.ones(variables)))

    def check(self, ended, matrix, costs, low, high):
        """The least cost, or none, is that of HiGHS, and the multipliers show it; whether there is a point."""
        rows = len(matrix)
        found = optimize.linprog(costs, A_ub=np.concatenate([matrix, -matrix])[self.finite(low, high, rows)],
                                 b_ub=np.append(high[:rows], -low[:rows])[self.finite(low, high, rows)],
                                 bounds=np.column_stack([low, high])[rows:], method="highs")
        self.assertEqual(ended.values is None, found.status == 2)
        multipliers, own = ended.multipliers, np.zeros(len(costs)) if ended.values is None else costs
        sides = np.where(multipliers > 1e-9, low[:rows], np.where(multipliers < -1e-9, high[:rows], 0.0))
        left = own - matrix.T @ multipliers
        shown = float(multipliers @ sides + np.minimum(left * low[rows:], left * high[rows:]).sum())
        if ended.values is None:
            self.assertGreater(shown, 1e-9)
            return False
        self.assertAlmostEqual(shown, found.fun, 5)
        self.assertAlmostEqual(float(costs @ ended.values[rows:]), found.fun, 5)
        return True

    def finite(self, low, high, rows):
        return np.isfinite(np.append(high[:rows], low[:rows]))

    def test_programs(self):
        """Of drawn programs, and again from the last tableau with a variable that has to be 0 or 1."""
        counts = [0, 0]
        for _ in range(CASES):
            matrix, costs, low, high = self.program()
            ended = solved(tableau_of(matrix, costs), low, high)
            counts[self.check(ended, matrix, costs, low, high)] += 1
            variable, value = len(matrix) + self.draw.integers(len(costs)), self.draw.integers(2)
            low[variable] = high[variable] = value
            again = solved(ended.tableau, low, high)
            counts[self.check(again, matrix, costs, low, high)] += 1
        self.assertGreater(min(counts), CASES // 10)


if __name__ == "__main__":
    unittest.main()
