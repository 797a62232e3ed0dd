"""Rows and columns that may be left out at a cost, compared with all plans one by one in fractions."""
import copy
import pickle
import random
import unittest
from decimal import Decimal
from fractions import Fraction

import nushbaret
from optional import np, pd

KINDS = {"whole": lambda draw: draw.randrange(-3, 9), "decimals": lambda draw: round(draw.uniform(-3, 9), 1),
         "doubles": lambda draw: draw.uniform(-3, 9), "Decimals": lambda draw: Decimal(draw.randrange(-30, 90)) / 10,
         "fractions": lambda draw: Fraction(draw.randrange(-9, 30), draw.choice((1, 3, 7))),
         "great": lambda draw: draw.randrange(-10**20, 10**21)}


def exactly(value, doubles):
    """A cost as a fraction: a float is the decimal that it prints as, or its double."""
    return Fraction(value if doubles or not isinstance(value, float) else repr(value))


def least(costs, rows, columns, maximize):
    """The best sum of all plans."""
    best = None

    def look(row, used, so_far):
        nonlocal best
        if row == len(costs):
            so_far += sum(cost for column, cost in enumerate(columns) if column not in used)
            best = so_far if best is None else max(best, so_far) if maximize else min(best, so_far)
            return
        look(row + 1, used, so_far + rows[row])
        for column, cost in enumerate(costs[row]):
            if column not in used and cost is not None:
                look(row + 1, used | {column}, so_far + cost)
    look(0, frozenset(), Fraction())
    return best


class Drawn:
    """A small problem as a caller gives it, and in fractions."""

    def __init__(self, draw, doubles=False):
        kind, (n, m) = draw.choice(sorted(KINDS)), (draw.randrange(1, 5), draw.randrange(1, 5))
        if doubles and kind == "great":
            kind = "whole"
        value = KINDS[kind]
        self.maximize, self.costs = draw.random() < 0.4, [[value(draw) for _ in range(m)] for _ in range(n)]
        if draw.random() < 0.3:
            self.costs[draw.randrange(n)][draw.randrange(m)] = None
        if draw.random() < 0.5:
            self.word = value(draw)
            self.rows, self.columns = ([exactly(self.word, doubles) / 2] * count for count in (n, m))
        else:
            rows, columns = ([value(draw) for _ in range(count)] for count in (n, m))
            self.word = (rows, columns)
            self.rows, self.columns = ([exactly(cost, doubles) for cost in side] for side in self.word)
        self.exact = [[None if cost is None else exactly(cost, doubles) for cost in row] for row in self.costs]
        self.form = self.costs
        if np is not None and kind in ("whole", "decimals", "doubles") and draw.random() < 0.6:
            forbids = -np.inf if self.maximize else np.inf
            self.form = np.array([[forbids if cost is None else cost for cost in row] for row in self.costs], float)

    def sum(self, rows, columns):
        """What a plan costs; and that it takes what costs as much as to leave it out."""
        rows, columns = list(map(int, rows)), list(map(int, columns))
        out = [row for row in range(len(self.rows)) if row not in rows], [
            column for column in range(len(self.columns)) if column not in columns]
        for row in out[0]:
            for column in out[1]:
                assert self.exact[row][column] != self.rows[row] + self.columns[column], (self.costs, self.word)
        return sum((self.exact[row][column] for row, column in zip(rows, columns)), Fraction()) + sum(
            self.rows[row] for row in out[0]) + sum(self.columns[column] for column in out[1])

    def least(self):
        return least(self.exact, self.rows, self.columns, self.maximize)


class Unmatched(unittest.TestCase):
    def test_results(self):
        draw = random.Random(1)
        for number in range(150):
            case = Drawn(draw)
            result = nushbaret.solve(case.form, case.maximize, unmatched_cost=case.word)
            with self.subTest(number=number, costs=case.costs, word=case.word):
                self.assertEqual(case.least(), Fraction(result.cost))
                self.assertEqual(case.sum(result.rows, result.columns), Fraction(result.cost))
                self.judge_duals(case, result)
                self.assertTrue(result.verify() and result.verify(case.form) and result.verdict)
                other = result.next_best()
                if other is not None:
                    self.assertEqual(Fraction(other.cost) == case.least(), not result.is_unique())
                if number % 5 == 0:
                    self.judge_again(case, result)

    def judge_duals(self, case, result):
        """The duals are within all costs, and sum up to the cost."""
        sign = -1 if case.maximize else 1
        rows, columns = ([sign * Fraction(dual) for dual in side] for side in (result.row_duals, result.column_duals))
        self.assertEqual(sum(rows) + sum(columns), sign * Fraction(result.cost))
        for own, costs in ((rows, case.rows), (columns, case.columns)):
            self.assertTrue(all(dual <= sign * cost for dual, cost in zip(own, costs)))
        self.assertTrue(all(cost is None or rows[row] + columns[column] <= sign * cost
                            for row, held in enumerate(case.exact) for column, cost in enumerate(held)))

    def judge_again(self, case, result):
        """A copy and a pickle are the same; without a pair the rest is the best."""
        self.assertEqual(copy.deepcopy(result).pairs, result.pairs)
        again = pickle.loads(pickle.dumps(result))
        self.assertEqual((again.cost, again.row_duals, again.pairs, list(again.unmatched_rows)),
                         (result.cost, result.row_duals, result.pairs, list(result.unmatched_rows)))
        other, its = result.next_best(), again.with_costs(case.form).next_best()
        self.assertEqual(other and other.cost, its and its.cost)
        if len(result.rows):
            row, column = int(result.rows[0]), int(result.columns[0])
            case.exact[row][column] = None
            self.assertEqual(Fraction(result.without(row, column).cost), case.least())

    def test_scipys_call(self):
        draw = random.Random(2)
        for number in range(150):
            case = Drawn(draw, True)
            rows, columns = nushbaret.linear_sum_assignment(case.form, case.maximize, unmatched_cost=case.word)
            with self.subTest(number=number, costs=case.costs, word=case.word):
                self.assertEqual(case.sum(rows, columns), case.least())
                self.assertEqual(list(rows), sorted(rows))

    def test_a_pair_at_just_the_cost_is_taken(self):
        self.assertEqual(nushbaret.solve([[5]], unmatched_cost=5).pairs, [(0, 0)])
        self.assertEqual(nushbaret.solve([[5]], unmatched_cost=([2], [3])).pairs, [(0, 0)])
        self.assertEqual(nushbaret.solve([[0.1]], unmatched_cost=Decimal("0.1")).pairs, [(0, 0)])
        self.assertEqual(nushbaret.solve([[5]], unmatched_cost=Fraction(49, 10)).pairs, [])

    def test_what_it_costs(self):
        result = nushbaret.solve([[1, 9], [9, 9], [9, 9]], unmatched_cost=5)
        self.assertEqual((result.pairs, result.cost), ([(0, 0)], Decimal("8.5")))
        self.assertEqual((result.unmatched_rows, result.unmatched_columns, len(result.prices)), ([1, 2], [1], 2))
        self.assertEqual(nushbaret.solve([[0.04]], decimals=1, unmatched_cost=0.04).cost, 0)
        self.assertEqual(nushbaret.solve([], unmatched_cost=5).cost, 0)
        self.assertEqual(nushbaret.solve([[], []], unmatched_cost=5).cost, 5)

    def test_listed_pairs(self):
        words = {"rows": [0, 0, 1], "columns": [0, 1, 0], "costs": [4, 1, 2]}
        result = nushbaret.solve_sparse(3, 2, **words, unmatched_cost=(3, [0, 4]))
        self.assertEqual((result.pairs, result.cost), ([(0, 1), (1, 0)], 6))

    @unittest.skipUnless(pd, "pandas isn't there")
    def test_names(self):
        frame = pd.DataFrame([[1, 9], [9, 9]], ["Ada", "Ben"], ["early", "late"])
        result = nushbaret.solve(frame, unmatched_cost=({"Ben": 3, "Ada": 4}, pd.Series({"late": 0, "early": 1})))
        self.assertEqual((result.pairs, result.cost), ([("Ada", "early")], 4))
        self.assertIn("row Ada would be better off", result.verify(frame + 8).why)
        with self.assertRaisesRegex(ValueError, "unmatched_cost of rows lacks the row 'Ada'"):
            nushbaret.solve(frame, unmatched_cost=({"Ben": 3}, 1))

    def test_refusals(self):
        for word, fault, text in ((float("nan"), ValueError, "unmatched_cost is nan: it must be finite"),
                                  (float("inf"), ValueError, "partial=True"), ("x", TypeError, "must be a number"),
                                  ((1, 2, 3), ValueError, "has 3 parts"),
                                  (([1], 2), ValueError, "unmatched_cost of rows has 1 costs, and there are 2 rows"),
                                  ((1, [2, None]), TypeError, "unmatched_cost of column 1 is None")):
            for call in (nushbaret.solve, nushbaret.linear_sum_assignment):
                with self.assertRaisesRegex(fault, text):
                    call([[1, 2], [3, 4]], unmatched_cost=word)
        for words in ({"partial": True}, {"start": [0, 0]}):
            with self.assertRaisesRegex(ValueError, "without partial and start"):
                nushbaret.solve([[1, 2], [3, 4]], unmatched_cost=3, **words)
        with self.assertRaises(TimeoutError):
            nushbaret.solve([[1, 2], [3, 4]], unmatched_cost=3, timeout=0)


class Batch(unittest.TestCase):
    COSTS = [[[4, 1], [2, 3]], [[1, 9, 9]], [[0.5], [0.25]]]

    def test_matrices_of_several_shapes(self):
        expected = [[0, 1], [0], [1]], [[1, 0], [0], [0]]
        for workers in (None, 1, 3):
            self.assertEqual(nushbaret.linear_sum_assignment_batch(self.COSTS, workers=workers), expected)
        results = nushbaret.solve_batch(self.COSTS, workers=2)
        self.assertEqual([result.cost for result in results], [3, 1, Decimal("0.25")])
        self.assertEqual([sum(result.row_duals) + sum(result.column_duals) for result in results],
                         [result.cost for result in results])
        self.assertEqual([result.cost for result in nushbaret.solve_batch(self.COSTS[:1], True)], [7])

    def test_unmatched(self):
        self.assertEqual(nushbaret.linear_sum_assignment_batch(self.COSTS, unmatched_cost=1),
                         ([[0], [0], [1]], [[1], [0], [0]]))
        self.assertEqual([result.cost for result in nushbaret.solve_batch(self.COSTS, unmatched_cost=1, workers=2)],
                         [2, 2, Decimal("0.75")])

    def test_progress_and_time(self):
        for workers in (None, 2):
            seen = []
            nushbaret.solve_batch(self.COSTS, workers=workers, progress=lambda *numbers: seen.append(numbers))
            self.assertEqual(seen[-1], (3, 3))
            with self.assertRaises(TimeoutError):
                nushbaret.linear_sum_assignment_batch(self.COSTS, workers=workers, timeout=0)
            self.assertEqual(len(nushbaret.solve_batch(self.COSTS, workers=workers, timeout=60)), 3)

            def stop(*_):
                raise KeyError("stop")
            with self.assertRaises(KeyError):
                nushbaret.linear_sum_assignment_batch(self.COSTS, workers=workers, progress=stop)

    def test_refusals(self):
        wrong = [[[1, 2], [3, 4]], [[1, None], [1, None]], [["x"]]]
        for call in (nushbaret.linear_sum_assignment_batch, nushbaret.solve_batch):
            for workers in (None, 4):
                with self.assertRaisesRegex(nushbaret.Infeasible, "^matrix 1: cost matrix is infeasible"):
                    call(wrong, workers=workers)
            for workers, fault in ((0, ValueError), ("a", TypeError)):
                with self.assertRaises(fault):
                    call(self.COSTS, workers=workers)

    @unittest.skipUnless(np, "NumPy isn't there")
    def test_arrays(self):
        costs = np.random.default_rng(1).random((300, 5, 7))
        rows, columns = nushbaret.linear_sum_assignment_batch(costs)
        for words in ({"workers": 3}, {"timeout": 60}, {"progress": lambda *_: None}):
            found = nushbaret.linear_sum_assignment_batch(costs, **words)
            self.assertTrue((found[0] == rows).all() and (found[1] == columns).all())
        costs[7, 2, 3] = np.nan
        with self.assertRaisesRegex(ValueError, "^matrix 7: .* at row 2, column 3"):
            nushbaret.linear_sum_assignment_batch(costs)
        self.assertEqual(len(nushbaret.linear_sum_assignment_batch(costs, missing="forbid")[0]), 300)
        masked = np.ma.array(costs, mask=costs != costs)
        masked[3, 4] = np.ma.masked
        with self.assertRaisesRegex(nushbaret.Infeasible, "^matrix 3: "):
            nushbaret.linear_sum_assignment_batch(masked, missing="forbid")


if __name__ == "__main__":
    unittest.main()
