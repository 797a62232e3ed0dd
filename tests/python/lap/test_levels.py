"""Costs of any size: plans, duals and verdicts are exact, compared with a slow search and a Hungarian method in
fractions."""
import itertools
import sys
import unittest
from decimal import Decimal, localcontext
from fractions import Fraction

import nushbaret
from nushbaret.costs.kinds import ExactNumbers
from nushbaret.costs.problem import AssignmentProblem
from nushbaret.lap import levels
from drawn import KINDS, best, doubles, drawing, exactly, hungarian, proves
from optional import np


def as_array(costs, maximize):
    out = float("-inf" if maximize else "inf")
    return np.array([[out if cost is None else cost for cost in row] for row in costs])


def sum_of(exact, rows, columns):
    return sum((exact[row][column] for row, column in zip(rows, columns)), Fraction(0))


class Small(unittest.TestCase):
    """Up to 6 x 6, compared with all plans: squares, rectangles, forbidden pairs, partial plans; lists and arrays."""

    def forms(self, costs, maximize):
        return [costs] + ([as_array(costs, maximize)] if np else [])

    def test_drawn(self):
        draw, partial = drawing(61), 0
        for turn in range(1200):
            kind = list(KINDS)[turn % len(KINDS)]
            most, maximize = 6 if turn % 20 == 0 else 5, draw.random() < 0.5
            n_rows, n_columns = draw.randint(1, most), draw.randint(1, most)
            costs = doubles(draw, n_rows, n_columns, kind, draw.choice([1, 1, 0.8, 0.5]))
            assigned = len(nushbaret.solve([[0 if cost is not None else None for cost in row] for row in costs],
                                         partial=True).rows)
            partial += assigned < min(n_rows, n_columns)
            for form in self.forms(costs, maximize):
                with self.subTest(kind=kind, costs=form, maximize=maximize):
                    self.hold_solve(form, exactly(costs, True), maximize, assigned)
                    self.hold_scipys(form, exactly(costs, False), maximize, assigned)
        self.assertGreater(partial, 60)

    def hold_solve(self, form, exact, maximize, assigned):
        result = nushbaret.solve(form, maximize, partial=True)
        wanted = best(exact, maximize, assigned)
        self.assertEqual((sum_of(exact, result.rows, result.columns), Fraction(result.cost)), (wanted, wanted))
        self.assertEqual(len(set(map(int, result.columns))), assigned)
        if not assigned:
            return
        self.assertTrue(proves(exact, result, maximize))
        self.assertTrue(result.verify())
        columns = [None] * len(exact)
        for row, column in result.pairs:
            columns[row] = column
        self.assertTrue(nushbaret.check(form, columns, result.prices, maximize=maximize))
        for start in result.prices, result:
            self.assertEqual(nushbaret.solve(form, maximize, partial=True, start=start).cost, result.cost)

    def hold_scipys(self, form, exact, maximize, assigned):
        if assigned < min(len(exact), len(exact[0])):
            with self.assertRaises(nushbaret.Infeasible):
                nushbaret.linear_sum_assignment(form, maximize)
            return
        own = nushbaret.linear_sum_assignment(form, maximize)
        self.assertEqual(sum_of(exact, *own), best(exact, maximize, assigned))

    def test_numbers_of_every_kind_together(self):
        """Ints, Decimals and Fractions of any size among floats, also by listed pairs that are given twice."""
        draw, kinds = drawing(62), set()
        for turn in range(400):
            n_rows, n_columns, maximize = draw.randint(1, 4), draw.randint(1, 4), draw.random() < 0.5
            costs = [[self.mixed(draw, cost) for cost in row]
                     for row in doubles(draw, n_rows, n_columns, list(KINDS)[turn % len(KINDS)])]
            exact = exactly(costs, True)
            assigned = min(n_rows, n_columns)
            self.hold_solve(costs, exact, maximize, assigned)
            listed = [(row, column, cost + more) for row, held in enumerate(costs) for column, cost in enumerate(held)
                      for more in ((0, 1) if isinstance(cost, (int, Fraction)) else (0,))]
            draw.shuffle(listed)
            result = nushbaret.solve_sparse(n_rows, n_columns, *map(list, zip(*listed)), maximize=maximize)
            self.assertEqual(Fraction(result.cost), best(exact, maximize, assigned))
            self.assertTrue(proves(exact, result, maximize))
            fractions = any(isinstance(cost, Fraction) and cost.denominator > 1 for row in costs for cost in row)
            self.assertTrue(isinstance(result.cost, Fraction) if fractions else isinstance(result.cost, (int, Decimal)))
            kinds.add(type(result.cost))
        self.assertEqual(kinds, {int, Decimal, Fraction})

    def mixed(self, draw, cost):
        exact = Fraction(Decimal(repr(cost)))
        return draw.choice([cost, Decimal(repr(cost)), exact, exact * draw.randint(1, 5) / 7,
                            draw.randint(-9, 9) * 10**draw.randint(0, 40)])

    def test_two_rows_beyond_all_units(self):
        for costs, wanted in (([[10**400, 10**400 + 1], [10**400, 10**400 + 2]], 2 * 10**400 + 1),
                              ([[Decimal("1E-500"), 2], [1, Decimal("1E+500")]], 3),
                              ([[Fraction(1, 3), Fraction(1, 3) + Fraction(1, 10**30)], [0, 0]], Fraction(1, 3))):
            result = nushbaret.solve(costs)
            self.assertEqual((result.cost, bool(result.verify()), result.is_unique()), (wanted, True, True))

    def test_all_digits(self):
        """A context of few digits changes nothing."""
        with localcontext() as context:
            context.prec = 3
            costs = [[Decimal("0.12345678901234567890123456789012345"), 1e15], [123456789012345.6, 7]]
            result = nushbaret.solve(costs)
            self.assertEqual(str(result.cost), "7.12345678901234567890123456789012345")
            self.assertEqual(str(nushbaret.compare(costs, [1, 0]).worse),
                             "1123456789012338.47654321098765432109876543210987655")
            self.assertTrue(nushbaret.check(costs, result.columns, result.prices))


class OtherCalls(unittest.TestCase):
    def all_plans(self, exact, sign, assigned):
        n_rows, n_columns = len(exact), len(exact[0])
        found = []
        for rows in itertools.combinations(range(n_rows), assigned):
            for columns in itertools.permutations(range(n_columns), assigned):
                own, pairs = dict(zip(rows, columns)), [exact[row][column] for row, column in zip(rows, columns)]
                if None not in pairs:
                    found.append((sign * sum(pairs, Fraction(0)), [own.get(row, n_columns) for row in range(n_rows)]))
        return sorted(found)

    def pairs_of(self, plan, sign, n_rows, n_columns):
        own = dict(zip(map(int, plan.rows), map(int, plan.columns)))
        return sign * Fraction(plan.cost), [own.get(row, n_columns) for row in range(n_rows)]

    def test_drawn(self):
        """k_best, next_best, is_unique, bottleneck, without and compare, compared with all plans."""
        draw, ties = drawing(63), 0
        for turn in range(240):
            n_rows, n_columns, maximize = draw.randint(1, 4), draw.randint(1, 3), draw.random() < 0.5
            costs = doubles(draw, n_rows, n_columns, list(KINDS)[turn % len(KINDS)], draw.choice([1, 0.8]))
            form = as_array(costs, maximize) if np and turn % 2 else costs
            exact, sign = exactly(costs, True), -1 if maximize else 1
            result = nushbaret.solve(form, maximize, partial=True)
            if not len(result.rows):
                continue
            wanted = self.all_plans(exact, sign, len(result.rows))
            found = [self.pairs_of(plan, sign, n_rows, n_columns)
                     for plan in nushbaret.k_best(form, 6, maximize, partial=True)]
            self.assertEqual(found, wanted[:6])
            own = self.pairs_of(result, sign, n_rows, n_columns)
            others = [plan for plan in wanted if plan != own]
            other = result.next_best()
            self.assertIn(None if other is None else self.pairs_of(other, sign, n_rows, n_columns),
                          [plan for plan in others if plan[0] == others[0][0]] or [None])
            self.assertEqual(result.is_unique(), not others or others[0][0] != own[0])
            ties += not result.is_unique()
            self.hold_bottleneck(form, exact, maximize, sign, wanted, n_columns)
            self.hold_without(result, exact, sign, wanted)
            columns = [None if column == n_columns else column for column in wanted[-1][1]]
            self.assertEqual(Fraction(nushbaret.compare(form, columns, maximize=maximize).worse),
                             wanted[-1][0] - wanted[0][0])
        self.assertGreater(ties, 20)

    def test_counts(self):
        """assign_counts finds the same plan cost for costs of any size: here those of a problem, times a number, and
        with more added."""
        draw = drawing(70)
        for turn in range(60):
            n_rows, n_columns, maximize = draw.randint(1, 4), draw.randint(1, 4), draw.random() < 0.5
            whole = [[draw.randint(0, 9) for _ in range(n_columns)] for _ in range(n_rows)]
            counts = ((0, 2), 1, None, maximize)
            plain = nushbaret.assign_counts(whole, *counts, partial=True)
            for times in 10**30, Fraction(1, 3), Decimal("1E-40"), "e200", "e-300":
                scaled = [[float(f"{cost}{times}") if isinstance(times, str) else cost * times for cost in row]
                          for row in whole]
                result = nushbaret.assign_counts(scaled, *counts, partial=True)
                self.assertEqual(Fraction(result.cost),
                                 plain.cost * Fraction(f"1{times}" if isinstance(times, str) else str(times)))

    def hold_bottleneck(self, form, exact, maximize, sign, wanted, n_columns):
        def worst(plan):
            return max(sign * exact[row][column] for row, column in enumerate(plan[1]) if column < n_columns)
        result = nushbaret.bottleneck(form, maximize, partial=True)
        own = self.pairs_of(result, sign, len(exact), n_columns)
        self.assertEqual((worst(own), own[0]), min((worst(plan), plan[0]) for plan in wanted))
        self.assertTrue(result.verify())

    def hold_without(self, result, exact, sign, wanted):
        row, column = result.pairs[0]
        left = [plan for plan in wanted if plan[1][row] != column]
        if left:
            self.assertEqual(sign * Fraction(result.without(row, column).cost), left[0][0])
        else:
            with self.assertRaises(nushbaret.Infeasible):
                result.without(row, column)

    def test_verdicts(self):
        """Of plans that needn't be best, with prices near those that prove one."""
        draw, seen = drawing(64), {True: 0, False: 0}
        for turn in range(400):
            n_rows, n_columns, maximize = draw.randint(1, 4), draw.randint(1, 4), draw.random() < 0.5
            costs = doubles(draw, n_rows, n_columns, list(KINDS)[turn % len(KINDS)])
            exact, result = exactly(costs, True), nushbaret.solve(costs, maximize)
            prices = [Fraction(price) * draw.choice([1, 1, 1, 1 + Fraction(1, 10**draw.randint(3, 30))])
                      for price in result.prices]
            columns = [None] * n_rows
            for row, column in result.pairs:
                columns[row] = column
            if draw.random() < 0.3:
                draw.shuffle(columns)
            for form in [costs] + ([np.array(costs)] if np else []):
                verdict = nushbaret.check(form, columns, prices, maximize=maximize)
                seen[bool(verdict)] += 1
                if verdict:
                    own = sum(exact[row][column] for row, column in enumerate(columns) if column is not None)
                    self.assertEqual(own, best(exact, maximize, min(n_rows, n_columns)))
        self.assertGreater(min(seen.values()), 50)

    def test_slack_below_the_unit(self):
        """Costs are multiples of 10**20, so slack of less than that proves the plan, and no other."""
        costs = [[10**20, 3 * 10**20], [3 * 10**20, 10**20 * 10**20]]
        best_columns = nushbaret.solve(costs).columns
        self.assertEqual(best_columns, [1, 0])
        exact = nushbaret.solve(costs).prices
        self.assertTrue(nushbaret.check(costs, best_columns, exact))
        less = Fraction(9, 10)
        self.assertTrue(nushbaret.check(costs, best_columns, [exact[0] + less, exact[1]]))
        huge = [exact[0] + 10**40, exact[1]]
        verdict = nushbaret.check(costs, best_columns, huge)
        self.assertEqual((bool(verdict), verdict.row, verdict.column), (False, 1, 1))


class Larger(unittest.TestCase):
    def test_beside_hungarian(self):
        """Up to 30 rows, with costs of every kind, in exact fractions."""
        draw = drawing(65)
        for turn in range(360):
            kind = list(KINDS)[turn % len(KINDS)]
            n_rows = draw.randint(6, 30) if turn % 3 == 0 else draw.randint(6, 14)
            n_columns, maximize = draw.choice([n_rows, n_rows, n_rows + 3, max(n_rows // 2, 1)]), draw.random() < 0.5
            costs = doubles(draw, n_rows, n_columns, kind)
            form = np.array(costs) if np and turn % 2 else costs
            with self.subTest(kind=kind, turn=turn):
                exact = exactly(costs, False)
                self.assertEqual(sum_of(exact, *nushbaret.linear_sum_assignment(form, maximize)),
                                 hungarian(exact, maximize))
                if turn % 4 == 0:
                    exact, result = exactly(costs, True), nushbaret.solve(form, maximize)
                    self.assertEqual(Fraction(result.cost), hungarian(exact, maximize))
                    self.assertTrue(proves(exact, result, maximize))
                    self.assertTrue(result.verify())

    @unittest.skipUnless(np, "NumPy isn't there")
    def test_many_pairs_left(self):
        """Where a great M hides all other costs from the first level, and where whole numbers and sums of doubles are
        used for the rest."""
        rng = np.random.default_rng(66)
        for shape in (140, 140), (130, 150), (150, 130):
            for great in 1e9, 1e15, 1e40, 1e300:
                costs = rng.random(shape)
                costs[rng.random(shape) < 0.5] = great
                for maximize, form in ((False, costs), (True, -costs), (False, np.asfortranarray(costs)),
                                       (False, costs.tolist())):
                    rows, columns = nushbaret.linear_sum_assignment(form, maximize)
                    free = np.where(costs == great, np.inf, costs)
                    wanted = nushbaret.linear_sum_assignment(free)
                    self.assertEqual(*(sum(map(Fraction, costs[pairs].tolist()))
                                       for pairs in ((rows, columns), wanted)))
            whole = rng.integers(0, 10**6, shape)
            few = np.where(rng.random(shape) < 0.5, sys.maxsize, whole)
            result, wanted = nushbaret.solve(few), nushbaret.solve_sparse(*shape, *np.nonzero(few < sys.maxsize),
                                                                          whole[few < sys.maxsize])
            self.assertEqual((result.cost, type(result.cost)), (wanted.cost, int))
            self.assertTrue(result.verify())
            self.assertTrue(proves(few.tolist(), result, False))

    @unittest.skipUnless(np, "NumPy isn't there")
    def test_arrays_and_lists(self):
        """Plans by arrays are as good as those by lists, which take other steps."""
        rng = np.random.default_rng(67)
        for turn in range(60):
            shape = tuple(int(side) for side in rng.integers(66, 90, 2))
            costs = [rng.random(shape), rng.normal(size=shape) * 10.0**rng.integers(-12, 12, (shape[0], 1)),
                     rng.integers(0, 9, shape) * 0.1, np.outer(np.arange(shape[0]), np.arange(shape[1])) / 7][turn % 4]
            maximize = bool(turn % 3 == 0)
            exact = [list(map(Fraction, row)) for row in costs.tolist()]
            rows, columns = nushbaret.linear_sum_assignment(costs, maximize)
            shown = [list(map(float, row)) for row in costs.tolist()]
            asked = levels.answer(self.listed(shown, maximize), None)
            person_columns = list(asked.objects)
            pairs = (list(enumerate(person_columns)) if shape[0] <= shape[1]
                     else [(row, column) for column, row in enumerate(person_columns)])
            other = [(row, column - 1) if shape[0] <= shape[1] else (row - 1, column) for row, column in pairs]
            self.assertEqual(sum_of(exact, rows, columns), sum_of(exact, *zip(*other)))

    def listed(self, costs, maximize):
        numbers = [cost for row in costs for cost in row]
        return AssignmentProblem(len(costs), len(costs[0]), maximize, ExactNumbers(numbers, doubles=True))


if __name__ == "__main__":
    unittest.main()
