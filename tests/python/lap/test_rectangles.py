"""Problems of unequal numbers: what the library is asked, duals and prices either way round, and plans held against
prices."""
import random
import unittest
from unittest import mock

import nushbaret
from nushbaret.lap import library
from drawn import best, drawing, matrix
from optional import np
from ways import by_the_longer_way


def asked(run):
    """The names, sizes and numbers of pairs of the library's calls that something makes."""
    calls, call = [], library.call

    def noted(name, sense, n, m, *lists, **words):
        calls.append((name, n, m, len(lists[0])))
        return call(name, sense, n, m, *lists, **words)

    with mock.patch.object(library, "call", noted), by_the_longer_way():
        run()
    return calls


def proved(costs, pairs, prices, maximize):
    """Whether whole prices of columns prove a plan, by the definition: each row has one of its best columns, who is out
    prefers no column more than those who are in want theirs, and no unused column costs more than another one."""
    sign = -1 if maximize else 1
    worth = [[None if cost is None else sign * cost + prices[column] for column, cost in enumerate(row)]
             for row in costs]
    least = [min((cost for cost in row if cost is not None), default=None) for row in worth]
    own = [worth[row][column] for row, column in pairs]
    if any(cost is None or cost > least[row] for (row, _), cost in zip(pairs, own)):
        return False
    out = set(range(len(costs))).difference(row for row, _ in pairs)
    unused = set(range(len(prices))).difference(column for _, column in pairs)
    return (all(least[row] is None or least[row] >= max(own) for row in out)
            and all(prices[column] == min(prices) for column in unused))


class Asked(unittest.TestCase):
    def test_no_dummies_where_all_can_be_served(self):
        for n_rows, n_columns in (3, 3), (3, 7), (7, 3), (1, 200), (200, 1):
            costs = [[(5 * row + 3 * column) % 11 for column in range(n_columns)] for row in range(n_rows)]
            n, m, cells = min(n_rows, n_columns), max(n_rows, n_columns), n_rows * n_columns
            self.assertEqual(asked(lambda: nushbaret.solve(costs)), [("dense", n, m, cells)])
            rows, columns = zip(*[(row, column) for row in range(n_rows) for column in range(n_columns)])
            flat = [cost for row in costs for cost in row]
            self.assertEqual(asked(lambda: nushbaret.solve_sparse(n_rows, n_columns, rows, columns, flat)),
                             [("sparse", n, m, cells)])
            result = nushbaret.solve(costs)
            self.assertEqual(len(result.row_duals), n_rows)
            self.assertEqual([call[:3] for call in asked(result.verify)], [("check", n, m)])
            self.assertEqual(asked(lambda: nushbaret.solve(costs, start=result)), [("dense_from", n, m, cells)])

    def test_only_as_many_dummies_as_stay_out(self):
        costs = [[None if column % 2 and row < 3 else row * column for column in range(9)]
                 for row in range(3)] + [[None] * 9]
        for form, assigned in (costs, 3), ([list(column) for column in zip(*costs)], 3):
            calls = asked(lambda: nushbaret.solve(form, partial=True))
            self.assertEqual(calls[0][1:3], (4, 9))
            self.assertEqual([call[:3] for call in calls[1:]], [("sparse", 4, 10)])
            self.assertEqual(len(nushbaret.solve(form, partial=True).rows), assigned)

    def test_a_column_in_reserve_for_each_row(self):
        draw, n_rows, shared = random.Random(7), 300, 270
        costs = [[None] * (shared + n_rows) for _ in range(n_rows)]

        def redraw(row):
            costs[row][:shared] = [None] * shared
            for column in draw.sample(range(shared), 8):
                costs[row][column] = draw.randint(0, 1000)
            costs[row][shared + row] = 2000

        def listed(**words):
            rows, columns, values = zip(*((row, column, cost) for row, line in enumerate(costs)
                                          for column, cost in enumerate(line) if cost is not None))
            return nushbaret.solve_sparse(n_rows, shared + n_rows, rows, columns, values, **words)

        for row in range(n_rows):
            redraw(row)
        result = listed()
        self.assertEqual(result.cost, nushbaret.solve(costs).cost)
        for changed in 1, 5, 100:
            for row in draw.sample(range(n_rows), changed):
                redraw(row)
            wanted = nushbaret.solve(costs).cost
            result = listed(start=result)
            self.assertEqual((result.cost, bool(result.verify())), (wanted, True))
            self.assertEqual(listed(timeout=60).cost, wanted)

    def test_longest_sides(self):
        most = 70000
        wide = [[(7919 * column + 11 * row) % most for column in range(most)] for row in range(2)]
        result = nushbaret.solve(wide)
        self.assertEqual((result.cost, len(result.unmatched_columns), bool(result.verify())), (0, most - 2, True))
        tall = [list(column) for column in zip(*wide)]
        turned = nushbaret.solve(tall)
        self.assertEqual((turned.cost, len(turned.unmatched_rows), bool(turned.verify())), (0, most - 2, True))
        for side in most, nushbaret.MOST_PERSONS:
            self.assertEqual(nushbaret.solve_sparse(1, side, [0], [side - 1], [5]).columns, [side - 1])
            self.assertEqual(nushbaret.solve_sparse(side, 1, [side - 1], [0], [5]).rows, [side - 1])
        if np:
            rows, columns = nushbaret.linear_sum_assignment(np.array(tall))
            self.assertEqual((rows.tolist(), columns.tolist()), (turned.rows, turned.columns))

    def test_a_cost_beyond_the_librarys_range(self):
        for n_rows, n_columns in (2, 3), (3, 2):
            for sign, maximize in (1, False), (-1, True):
                costs = [[sign] * n_columns for _ in range(n_rows)]
                costs[1][0] = sign * 10**30
                for form in [costs] + ([np.array(costs, object)] if np else []):
                    result = nushbaret.solve(form, maximize)
                    self.assertEqual((result.cost, bool(result.verify())),
                                     (sum(form[row][column] for row, column in result.pairs), True))
                    self.assertNotIn((1, 0), result.pairs)


class Prices(unittest.TestCase):
    def test_prices_prove_the_plan(self):
        """One for each column, also where rows are the longer side."""
        draw, more_rows = drawing(41), 0
        for _ in range(500):
            n_rows, n_columns, maximize = draw.randint(1, 5), draw.randint(1, 5), draw.random() < 0.5
            costs = matrix(draw, n_rows, n_columns, draw.choice([1, 9, 10**6]), draw.choice([0.5, 1.0]))
            result = nushbaret.solve(costs, maximize, partial=True)
            self.assertEqual((len(result.prices), min(result.prices) >= 0), (n_columns, True))
            self.assertEqual(len(result.row_duals), n_rows)
            if not result.rows:
                continue
            more_rows += n_rows > n_columns
            columns = [None] * n_rows
            for row, column in result.pairs:
                columns[row] = column
            duals = [dual if maximize else -dual for dual in result.column_duals]
            for prices in duals, result.prices, iter(result.prices):
                self.assertTrue(nushbaret.check(costs, columns, prices, maximize=maximize))
            self.assertTrue(proved(costs, result.pairs, duals, maximize))
        self.assertGreater(more_rows, 100)

    def test_a_start_of_another_shape_is_refused(self):
        for costs in ([1, 2, 3], [4, 5, 6]), ([1, 2], [3, 4], [5, 6]):
            result = nushbaret.solve(costs)
            for start in result, [3] * len(costs[0]), [10**9] + [0] * (len(costs[0]) - 1):
                self.assertEqual(nushbaret.solve(costs, start=start).cost, result.cost)
            with self.assertRaisesRegex(ValueError, "there are 1 prices"):
                nushbaret.solve(costs, start=[1])


class Checked(unittest.TestCase):
    def test_beside_the_definition(self):
        """Plans with all pairs that can be made or with fewer, and prices of any kind: the verdict is that of the
        definition, and a proved plan is best."""
        draw, yes, out = drawing(42), 0, 0
        for _ in range(3000):
            n_rows, n_columns, maximize = draw.randint(1, 4), draw.randint(1, 4), draw.random() < 0.5
            costs = matrix(draw, n_rows, n_columns, draw.choice([1, 3, 20]), draw.choice([0.6, 0.8, 1.0]))
            result = nushbaret.solve(costs, maximize, partial=True)
            pairs = list(result.pairs)
            draw.shuffle(pairs)
            pairs = sorted(pairs[draw.randint(0, 1):]) if draw.random() < 0.5 else sorted(pairs)
            if not pairs:
                continue
            prices = [dual if maximize else -dual for dual in result.column_duals]
            shift = draw.choice([0, 5, -7])
            prices = [price + shift + (draw.random() < 0.1) * draw.randint(-3, 3) for price in prices]
            columns = [None] * n_rows
            for row, column in pairs:
                columns[row] = column
            verdict = nushbaret.check(costs, columns, prices, maximize=maximize)
            fewer = len(pairs) < min(n_rows, n_columns)
            wanted = proved(costs, pairs, prices, maximize) and best(costs, maximize, len(pairs) + 1) is None
            self.assertEqual(bool(verdict), wanted, (costs, columns, prices, maximize, verdict))
            if verdict:
                self.assertEqual(sum(costs[row][column] for row, column in pairs), best(costs, maximize, len(pairs)))
                yes += 1
                out += fewer
        self.assertGreater(yes, 500)
        self.assertGreater(out, 50)

    def test_words(self):
        check = nushbaret.check
        verdict = check([[1, 2, 3]], [0], [0, 0, 5])
        self.assertEqual((verdict.why, verdict.row, verdict.column),
                         ("column 2 stays unused, and column 0 is cheaper", None, 0))
        self.assertTrue(check([[1, 2, 3]], [0], [0, 0, 0]))
        verdict = check([[1], [2], [0]], [0, None, None], [4])
        self.assertEqual((verdict.why, verdict.row, verdict.column),
                         ("row 2 would be better off with column 0, at these prices", 2, 0))
        verdict = check([[1, 5], [2, 2], [9, 9]], [0, 1, None], [0, 9])
        self.assertEqual((verdict.row, verdict.column), (1, 0))
        verdict = check([[1, None], [2, None], [3, None]], [0, None, None], [0, 3])
        self.assertEqual((verdict.why, verdict.column), ("column 1 stays unused, and column 0 is cheaper", 0))
        # Row 0 pays 2 for column 1, and would pay 4 for column 0.
        verdict = check([[0, 2], [None, 9], [9, 9]], [1, None, None], [4, 0])
        self.assertEqual((verdict.why, verdict.row, verdict.column),
                         ("column 0 stays unused, and column 1 is cheaper", None, 1))
        # The library's unit is a fifth here, and an unused column may cost one more than the cheapest.
        for price, wanted in (0, True), (0.2, True), (0.4, False):
            self.assertEqual(bool(check([[1, None], [2, None], [3, None]], [0, None, None], [0, price])), wanted)
            self.assertEqual(bool(check([[1, 2, 3, 4]], [0], [0, 0, 0, price])), wanted)


if __name__ == "__main__":
    unittest.main()
