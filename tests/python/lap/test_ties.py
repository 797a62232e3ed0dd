"""Matrices with many ties, compared with Kuhn's method in whole numbers."""
import unittest
from fractions import Fraction

import nushbaret
from drawn import drawing, exactly, hungarian, proves
from optional import np

# Costs of a matrix, from the row, the column and a draw.
KINDS = {"rows": lambda draw, row, column: 1 / (row + 3), "columns": lambda draw, row, column: 1 / (column + 3),
         "near": lambda draw, row, column: 0.1234567890123456 + draw.randint(0, 2) * 2.0**-54,
         "near and far": lambda draw, row, column: draw.choice([0.1234567890123456 + draw.randint(0, 2) * 2.0**-54,
                                                                1e3 / 7]),
         "thirds": lambda draw, row, column: draw.randint(0, 3) / 3,
         "thirds and more": lambda draw, row, column: draw.randint(0, 60) / 3 if draw.random() < 0.5
         else float(draw.randint(0, 1)), "many near": lambda draw, row, column: draw.randint(0, 12) / 3
         + draw.randint(0, 1) * 1e-12, "whole and small": lambda draw, row, column: draw.randint(1, 3)
         + draw.randint(0, 2) * 1e-13, "row and small": lambda draw, row, column: 1000 / (row + 3)
         + draw.randint(0, 2) * 1e-13, "zeros": lambda draw, row, column: draw.choice([0.0, -0.0, 0.1 + 0.2, 0.3]),
         "signs": lambda draw, row, column: draw.choice([-1 / 3, 1 / 3, -2 / 3, 0.0]),
         "great": lambda draw, row, column: draw.choice([1e22 / 3, 2e22 / 3, 1e22]),
         "small": lambda draw, row, column: draw.choice([1e-200 / 3, 2e-200 / 3, 1e-200]),
         "wide": lambda draw, row, column: draw.choice([1e-9 / 3, 1e9 / 3, 2e9 / 3]),
         "late": lambda draw, row, column: 1 / 3 if column < 14 or row < 5 else 1 / 3 + draw.randint(0, 3) * 1e-12 / 7}


@unittest.skipUnless(np, "NumPy isn't there")
class Ties(unittest.TestCase):
    def judge(self, costs, maximize):
        """Both calls, in the form of the one and of the other order in memory."""
        for form in np.array(costs), np.asfortranarray(costs):
            result = nushbaret.solve(form, maximize)
            exact = exactly(costs, True)
            self.assertEqual(Fraction(result.cost), hungarian(exact, maximize))
            self.assertEqual(sum(exact[row][column] for row, column in zip(result.rows, result.columns)),
                             Fraction(result.cost))
            rows, columns = nushbaret.linear_sum_assignment(form, maximize)
            self.assertEqual(len(set(columns.tolist())), min(form.shape))
            exact = exactly(costs, False)
            self.assertEqual(sum(exact[row][column] for row, column in zip(rows, columns)), hungarian(exact, maximize))
        return result

    def test_small(self):
        draw = drawing(181)
        for turn in range(600):
            kind = list(KINDS)[turn % len(KINDS)]
            n_rows, n_columns = draw.randint(1, 18), draw.randint(1, 18)
            costs = [[KINDS[kind](draw, row, column) for column in range(n_columns)] for row in range(n_rows)]
            with self.subTest(kind=kind, shape=(n_rows, n_columns), turn=turn):
                result = self.judge(costs, turn // len(KINDS) % 2 == 0)
                if turn % 9 == 0:
                    self.assertTrue(proves(exactly(costs, True), result, result.maximize))

    def test_larger(self):
        """Beyond the first sample, and in several parts; a plan is compared with that of the costs' own fractions."""
        draw = drawing(182)
        for turn, (n_rows, n_columns) in enumerate([(40, 200), (200, 40), (70, 70), (60, 80)]):
            for kind in KINDS:
                costs = np.array([[KINDS[kind](draw, row, column) for column in range(n_columns)]
                                  for row in range(n_rows)])
                for call in nushbaret.solve, nushbaret.linear_sum_assignment:
                    with self.subTest(kind=kind, shape=costs.shape, turn=turn, call=call.__name__):
                        printed = call is nushbaret.solve
                        found, exact = self.sum_of(costs, call(costs, turn < 2), printed), exactly(costs, printed)
                        wanted = nushbaret.solve(exact, turn < 2)
                        self.assertEqual(found, (len(wanted.columns), Fraction(wanted.cost)))

    def sum_of(self, costs, found, printed):
        rows, columns = (found.rows, found.columns) if printed else found
        exact = exactly([costs[rows, columns].tolist()], printed)[0]
        return len(set(columns.tolist())), sum(exact)

    def test_what_a_sample_lacks(self):
        """A cost that is in none of the sampled places, and in a finer unit than the others."""
        costs = np.full((60, 60), 0.1 + 0.2)
        costs[37, 41] = 0.30000000000000001 + 2.0**-40
        costs[38, 42] = 0.1234567890123456 * 1e-4
        for maximize in False, True:
            self.assertEqual(self.judge(costs.tolist(), maximize).columns.tolist().index(42) == 38, not maximize)

    def test_many_values(self):
        """Of which most pairs are near each other."""
        draw = drawing(183)
        for great in 1e-7, 1e-14:
            self.judge([[draw.choice([0.25, 0.25, 0.25, draw.random() * great + 0.25]) for _ in range(60)]
                        for _ in range(60)], False)


if __name__ == "__main__":
    unittest.main()
