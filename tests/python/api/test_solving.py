"""Drawn problems compared with a slow search, and what results and proofs are made of."""
import pickle
import unittest
from array import array
from decimal import Decimal
from fractions import Fraction
from unittest import mock

import nushbaret
from nushbaret.lap import library
from at_once import in_eight_threads
from drawn import best, drawing, matrix, proves


class Drawn(unittest.TestCase):
    def hold(self, costs, result, maximize, assigned):
        self.assertEqual(result.cost, best(costs, maximize, assigned))
        self.assertEqual(result.cost, sum(costs[row][column] for row, column in zip(result.rows, result.columns)))
        self.assertEqual(len(set(result.columns)), assigned)
        self.assertEqual(result.rows, sorted(set(result.rows)))
        self.assertTrue(proves(costs, result, maximize))
        self.assertTrue(result.verify())
        self.assertTrue(result.verify(costs))

    def test_dense(self):
        draw = drawing(1)
        for _ in range(500):
            n = draw.randint(1, 5)
            costs, maximize = matrix(draw, n, n, draw.choice([1, 9, 10**12])), draw.random() < 0.5
            self.hold(costs, nushbaret.solve(costs, maximize), maximize, n)

    def test_whole_numbers_of_every_kind(self):
        """Rows are read one by one: whole numbers, floats that hold whole numbers, and rows of both or of others."""
        rows = [[4, 1, 3], [2.0, -0.0, 5.0], [True, 2.0, 2], [Decimal(3), 2, Fraction(4, 2)]]
        for size in 1, 2, 3, 40:
            for costs in [row * size for row in rows], [row * size for row in rows[:2]], [row * size
                                                                                          for row in rows[1:2]]:
                exact = [[int(cost) for cost in row] for row in costs]
                for form in costs, [tuple(row) for row in costs]:
                    result = nushbaret.solve(form)
                    self.assertEqual((result.cost, result.columns),
                                     (nushbaret.solve(exact).cost, nushbaret.solve(exact).columns))
                    self.assertIs(type(result.cost), int)
        for wrong in 1.5, "1", 2**63, 1e300, float("nan"):
            for row in [1, 2, wrong], [1.0, 2.0, wrong]:
                with self.subTest(row=row):
                    if wrong in (1.5, 2**63, 1e300):
                        self.assertEqual(nushbaret.solve([[9, 9, 9], row]).cost, 10)
                    else:
                        with self.assertRaisesRegex((ValueError, TypeError), "row 1, column 2"):
                            nushbaret.solve([[9, 9, 9], row])

    def test_rectangles(self):
        draw = drawing(2)
        for _ in range(500):
            n_rows, n_columns = draw.randint(1, 5), draw.randint(1, 5)
            costs, maximize = matrix(draw, n_rows, n_columns, draw.choice([1, 9, 10**12])), draw.random() < 0.5
            self.hold(costs, nushbaret.solve(costs, maximize), maximize, min(n_rows, n_columns))

    def test_sparse_and_infeasible(self):
        draw, found, short = drawing(3), 0, 0
        for _ in range(1000):
            n_rows, n_columns = draw.randint(1, 5), draw.randint(1, 5)
            costs = matrix(draw, n_rows, n_columns, draw.choice([1, 9, 10**12]), draw.choice([0.3, 0.6, 0.9]))
            maximize, assigned = draw.random() < 0.5, min(n_rows, n_columns)
            listed = [(row, column, cost) for row, held in enumerate(costs) for column, cost in enumerate(held)
                      if cost is not None]
            draw.shuffle(listed)
            lists = [list(part) for part in zip(*listed)] or [[], [], []]
            try:
                result = nushbaret.solve_sparse(n_rows, n_columns, *lists, maximize=maximize)
            except nushbaret.Infeasible as fault:
                self.assertIsNone(best(costs, maximize, assigned))
                self.hold_proof(costs, fault)
                self.hold_fullest(costs, maximize, lists)
                short += 1
                continue
            self.hold(costs, result, maximize, assigned)
            self.assertTrue(result.verify(lists[2], lists[0], lists[1]))
            self.assertEqual(nushbaret.solve(costs, maximize, partial=True).cost, result.cost)
            found += 1
        self.assertGreater(min(found, short), 200)

    def hold_proof(self, costs, fault):
        pairs = {(row, column) for row, held in enumerate(costs) for column, cost in enumerate(held)
                 if cost is not None}
        self.assertEqual(fault.groups[0], (fault.rows, fault.columns))
        self.assertEqual(len({len(rows) > len(columns) for rows, columns in fault.groups}), 1)
        for rows, columns in fault.groups:
            if len(rows) > len(columns):
                self.assertEqual({column for row, column in pairs if row in rows}, set(columns))
            else:
                self.assertLess(len(rows), len(columns))
                self.assertEqual({row for row, column in pairs if column in columns}, set(rows))
        lack = sum(abs(len(rows) - len(columns)) for rows, columns in fault.groups)
        self.assertEqual(min(len(costs), len(costs[0])) - lack, len(nushbaret.solve(costs, partial=True).rows))
        self.assertIn("cost matrix is infeasible", str(fault))

    def hold_fullest(self, costs, maximize, lists):
        result = nushbaret.solve(costs, maximize, partial=True)
        assigned = len(result.rows)
        self.assertIsNone(best(costs, maximize, assigned + 1))
        if assigned:
            self.hold(costs, result, maximize, assigned)
        else:
            self.assertEqual((result.cost, result.unmatched_rows), (0, list(range(len(costs)))))
        n_columns = len(costs[0])
        self.assertEqual(nushbaret.solve_sparse(len(costs), n_columns, *lists, maximize=maximize, partial=True).cost,
                         result.cost)

    def test_decimals(self):
        draw = drawing(4)
        for _ in range(500):
            n_rows, n_columns, places = draw.randint(1, 4), draw.randint(1, 4), draw.randint(1, 6)
            whole, maximize = matrix(draw, n_rows, n_columns, 10**draw.randint(1, 12)), draw.random() < 0.5
            exact = [[Decimal(f"{cost}E-{places}") for cost in row] for row in whole]
            assigned = min(n_rows, n_columns)
            wanted = best(exact, maximize, assigned)
            for costs in exact, [[float(cost) for cost in row] for row in exact]:
                result = nushbaret.solve(costs, maximize)
                self.assertEqual(result.cost, wanted)
                self.assertTrue(result.verify(costs))
            self.assertTrue(proves(exact, nushbaret.solve(exact, maximize), maximize))
            fixed = nushbaret.solve(exact, maximize, decimals=places)
            self.assertEqual((fixed.cost, -fixed.cost.as_tuple().exponent), (wanted, places))

    def test_first_prices(self):
        draw = drawing(5)
        for _ in range(300):
            n_rows, n_columns = draw.randint(1, 5), draw.randint(1, 5)
            costs, maximize = matrix(draw, n_rows, n_columns, 9, 0.8), draw.random() < 0.5
            start = [draw.choice([0, draw.randint(-9, 9), draw.random(), Decimal("0.5")]) for _ in range(n_columns)]
            result = nushbaret.solve(costs, maximize, start=start, partial=True)
            self.assertEqual(result.cost, nushbaret.solve(costs, maximize, partial=True).cost)
            self.assertEqual(nushbaret.solve(costs, maximize, start=result, partial=True).cost, result.cost)

    def test_without(self):
        draw = drawing(6)
        for _ in range(300):
            n_rows, n_columns = draw.randint(1, 4), draw.randint(1, 4)
            costs, maximize = matrix(draw, n_rows, n_columns, 9, draw.choice([0.7, 1.0])), draw.random() < 0.5
            result = nushbaret.solve(costs, maximize, partial=True)
            if not result.rows:
                continue
            row, column = result.rows[0], result.columns[0]
            less = [list(held) for held in costs]
            less[row][column] = None
            wanted = best(less, maximize, len(result.rows))
            if wanted is None:
                with self.assertRaises(nushbaret.Infeasible) as caught:
                    result.without(row, column)
                self.hold_proof(less, caught.exception)
            else:
                self.hold(less, result.without(row, column), maximize, len(result.rows))


class Duals(unittest.TestCase):
    def results(self, seed):
        """Drawn problems that have pairs, with their results."""
        draw = drawing(seed)
        for _ in range(300):
            n_rows, n_columns = draw.randint(1, 5), draw.randint(1, 5)
            costs, maximize = matrix(draw, n_rows, n_columns, 9, draw.choice([0.6, 1.0])), draw.random() < 0.5
            result = nushbaret.solve(costs, maximize, partial=True)
            if result.rows:
                yield draw, costs, maximize, result

    def test_prices_that_are_all_raised_give_the_same_duals(self):
        """In a square all of the library's prices may be above 0."""
        different = 0
        for _, costs, maximize, result in self.results(8):
            other = nushbaret.solve(costs, maximize, partial=True)
            answer = other._found.answer
            if answer.prices is None:
                continue
            raised = answer._replace(prices=array("q", [price + 7 for price in answer.prices]))
            other.__dict__["_found"] = other._found._replace(answer=raised)
            self.assertEqual((other.row_duals, other.column_duals, other.prices),
                             (result.row_duals, result.column_duals, result.prices))
            self.assertTrue(proves(costs, other, maximize))
            different += len(set(answer.prices)) > 1
        self.assertGreater(different, 100)

    def test_prices_that_are_not_whole(self):
        """All prices may be raised by any number, and be a little off: they prove what they prove."""
        for draw, costs, maximize, result in self.results(9):
            columns = [None] * len(costs)
            for row, column in result.pairs:
                columns[row] = column
            shift = draw.choice([0.5, draw.random(), -draw.random(), 1e3 / 7])
            prices = [price + shift + draw.randint(-1, 1) * 1e-9 for price in result.prices]
            self.assertTrue(nushbaret.check(costs, columns, prices, maximize=maximize),
                            (costs, columns, prices, maximize))


class Results(unittest.TestCase):
    def test_empty_ones(self):
        for costs, columns in ([], 0), ([[], []], 0):
            result = nushbaret.solve(costs)
            self.assertEqual((result.rows, result.columns, result.cost, result.column_duals), ([], [], 0, []))
            self.assertEqual(result.unmatched_rows, list(range(len(costs))))
            self.assertTrue(result.verify(costs))
        result = nushbaret.solve_sparse(0, 3, [], [], [])
        self.assertEqual((result.unmatched_columns, result.column_duals, result.cost), ([0, 1, 2], [0, 0, 0], 0))
        self.assertEqual(nushbaret.linear_sum_assignment([[]]), ([], []))

    def test_twelve_vehicles_by_twenty_jobs(self):
        costs = [[(7 * vehicle + 3 * job) % 19 + 1 for job in range(20)] for vehicle in range(12)]
        result = nushbaret.solve(costs)
        self.assertEqual((len(result.rows), len(result.unmatched_columns)), (12, 8))
        self.assertTrue(proves(costs, result, False))
        self.assertTrue(result.verify(costs))
        turned = nushbaret.solve([list(column) for column in zip(*costs)])
        self.assertEqual((turned.cost, len(turned.unmatched_rows)), (result.cost, 8))

    def test_a_plan_spoilt_is_not_verified(self):
        result = nushbaret.solve([[1, 2], [3, 5]])
        self.assertTrue(result.verify([[1, 2], [3, 9]]))
        verdict = result.verify([[1, 2], [3, 3]])
        self.assertFalse(verdict)
        self.assertEqual((verdict.row, verdict.column), (1, 1))
        with self.assertRaisesRegex(ValueError, "3 rows and 2 columns"):
            result.verify([[1, 2], [3, 3], [1, 1]])

    def test_a_proof_can_be_pickled(self):
        with self.assertRaises(nushbaret.Infeasible) as caught:
            nushbaret.solve([[1, None, None], [2, None, None], [None, None, None]])
        again = pickle.loads(pickle.dumps(caught.exception))
        self.assertEqual((again.rows, again.columns, str(again)), ([0, 1], [0], str(caught.exception)))
        self.assertEqual(again.groups, [([0, 1], [0]), ([2], [])])
        self.assertEqual(str(again), "cost matrix is infeasible: rows 0, 1 may have column 0 only (the first of 2 "
                         "groups)")

    def test_eight_threads(self):
        draw, wrong = drawing(7), []
        problems = [matrix(draw, 30, 30, 50) for _ in range(40)]
        wanted = [nushbaret.solve(costs).cost for costs in problems]

        def work():
            if [nushbaret.solve(costs).cost for costs in problems] != wanted:
                wrong.append(True)

        in_eight_threads(work)
        self.assertFalse(wrong)

    def test_first_calls_of_threads(self):
        """Threads that call the library first find it loaded once, and of the right version."""
        opened, wrong = [], []

        def opens(open_it=library._open):
            opened.append(open_it())
            return opened[-1]

        def work():
            if nushbaret.solve([[2**30, 1], [2, 3]], decimals=0).cost != 3:
                wrong.append(True)

        with mock.patch.dict(library._calls, clear=True), mock.patch.object(library, "_open", opens):
            in_eight_threads(work)
        self.assertEqual((len(opened), wrong), (1, []))


if __name__ == "__main__":
    unittest.main()
