"""Plans by counts with their numbers, for costs of any size: the numbers prove each, by their definition; searches
through all plans, and HiGHS, find none better."""
import random
import unittest
from fractions import Fraction
from unittest import mock

import nushbaret
from nushbaret.counts import count_levels as levels, planned as plans
from nushbaret.counts.planned import planned
import drawn
from counts.test_counts import rosters
from optional import np as numpy, optimize

TINY, DRAWN = 2000, 300


def group_in(groups, column):
    """The group of a column, or one of its own."""
    return next((number for number, own in enumerate(groups) if column in own), ("alone", column))


def proves(roster, result, maximize=False):
    """Whether a result's numbers prove its plan best, by what `row_numbers` says."""
    sign = -1 if maximize else 1
    rows, columns = ([sign * Fraction(number) for number in numbers]
                     for numbers in (result.row_numbers, result.column_numbers))
    own = set(zip(map(int, result.rows), map(int, result.columns)))
    rest = {(row, column): sign * Fraction(cost) - rows[row] - columns[column]
            for row, held in enumerate(roster.costs) for column, cost in enumerate(held) if cost is not None}
    held = {}
    for row, column in own:
        group = row, group_in(roster.groups, column)
        if rest[row, column] > 0 or held.setdefault(group, (row, column)) != (row, column):
            return False
    for (row, column), left in rest.items():
        other = held.get((row, group_in(roster.groups, column)))
        if left < (0 if other is None else rest[other]):
            return False
    return all(low <= count <= high and not (number > 0 and count > low or number < 0 and count < high)
               for side, bounds, numbers in ((0, roster.rows, rows), (1, roster.columns, columns))
               for place, ((low, high), number) in enumerate(zip(bounds, numbers))
               for count in [sum(pair[side] == place for pair in own)])


def widened(draw, roster, kind):
    """Costs of a kind that takes levels, some of which hardly differ."""
    def of(cost):
        if kind == "great":
            return cost * 10**25 + draw.randint(-2, 2)
        if kind == "two sums":
            return cost * (10**13 + 1) + draw.randint(0, 5)
        if kind == "far apart":
            return draw.choice((1, -1)) * draw.randint(1, 9) * 10**draw.choice((0, 5, 14, 20, 40))
        return Fraction(cost, draw.choice((3, 7, 11))) * 10**draw.choice((0, 12))
    roster.costs = [[None if cost is None else of(cost) for cost in row] for row in roster.costs]


KINDS = ("great", "two sums", "far apart", "fractions")


class Numbers(unittest.TestCase):
    def test_whole_costs(self):
        """Among all plans: the cost is the least, the numbers prove it, and where none is found there is none."""
        feasible = 0
        for case, (roster, maximize) in enumerate(rosters(81, TINY)):
            least = min(((cost, pairs) for missed, cost, pairs in roster.plans(maximize) if not missed), default=None)
            with self.subTest(case=case):
                if least is None:
                    self.assertRaises(nushbaret.Infeasible, roster.assign, maximize=maximize)
                    continue
                result = roster.assign(maximize=maximize)
                self.assertEqual((-result.cost if maximize else result.cost), least[0])
                self.assertTrue(proves(roster, result, maximize))
            feasible += 1
        self.assertGreater(feasible, 300)

    def test_costs_of_any_size(self):
        draw, found = random.Random(82), 0
        for case, (roster, maximize) in enumerate(rosters(82, 4 * DRAWN)):
            widened(draw, roster, KINDS[case % 4])
            least = min((cost for missed, cost, _ in roster.plans(maximize) if not missed), default=None)
            if least is None:
                continue
            with self.subTest(case=case):
                result = roster.assign(maximize=maximize)
                self.assertEqual((-result.cost if maximize else result.cost), least)
                self.assertTrue(proves(roster, result, maximize))
            found += 1
        self.assertGreater(found, 200)

    def test_doubles(self):
        draw, found = drawn.drawing(83), 0
        for case, (roster, maximize) in enumerate(rosters(83, 2 * DRAWN)):
            roster.costs = drawn.doubles(draw, len(roster.rows), len(roster.columns),
                                         list(drawn.KINDS)[case % len(drawn.KINDS)], 0.8)
            exact = drawn.exactly(roster.costs, True)
            given, roster.costs = roster.costs, exact
            least = min((cost for missed, cost, _ in roster.plans(maximize) if not missed), default=None)
            if least is None:
                continue
            roster.costs = given
            result = roster.assign(maximize=maximize)
            roster.costs = exact
            with self.subTest(case=case):
                self.assertEqual(Fraction(result.cost) * (-1 if maximize else 1), least)
                self.assertTrue(proves(roster, result, maximize))
            found += 1
        self.assertGreater(found, 100)

    def test_numbers_that_prove_nothing_are_a_fault(self):
        """Other numbers pass only where they prove the plan."""
        draw, kept = random.Random(84), levels.exact_numbers
        results = [0, 0]
        for case, (roster, maximize) in enumerate(rosters(84, DRAWN)):
            widened(draw, roster, KINDS[case % 4])

            def spoiled(*words):
                rows, columns = kept(*words)
                both = [*rows, *columns] or [0]
                both[draw.randrange(len(both))] += draw.choice((-1, 1)) * 10**draw.randint(0, 50)
                return both[:len(rows)], both[len(rows):len(rows) + len(columns)]
            if not any(not missed for missed, _, _ in roster.plans(maximize)):
                continue
            with mock.patch.object(levels, "exact_numbers", spoiled), self.subTest(case=case):
                try:
                    self.assertTrue(proves(roster, roster.assign(maximize=maximize), maximize))
                    results[1] += 1
                except RuntimeError as fault:
                    self.assertIn("its numbers don't prove it: please report this problem", str(fault))
                    results[0] += 1
        self.assertGreater(min(results), 10)

    def test_worse_plans_are_a_fault(self):
        """Where levels choose another plan no numbers prove it."""
        draw, kept, found = random.Random(87), levels._rest, 0
        for case, (roster, maximize) in enumerate(rosters(87, DRAWN)):
            widened(draw, roster, KINDS[case % 4])
            least = min((cost for missed, cost, _ in roster.plans(maximize) if not missed), default=None)
            if least is None:
                continue

            def worse(counted):
                costs = [-cost for cost in counted.costs]
                return kept(counted._replace(costs=costs))
            with mock.patch.object(levels, "_rest", worse), self.subTest(case=case):
                try:
                    result = roster.assign(maximize=maximize)
                    self.assertEqual((-result.cost if maximize else result.cost), least)
                except RuntimeError as fault:
                    self.assertIn("please report this problem", str(fault))
                    found += 1
        self.assertGreater(found, 10)


class Others(unittest.TestCase):
    def test_plans_in_order_and_free_pairs(self):
        """All plans that miss as little as can be, in the order of their costs; and the pairs in which best ones
        differ."""
        draw = random.Random(85)
        ranked = 0
        for case, (roster, _) in enumerate(rosters(85, 400)):
            if draw.random() < 0.7:
                roster.costs = [[None if cost is None else cost // 6 for cost in row] for row in roster.costs]
            plans = sorted((missed, cost, pairs) for missed, cost, pairs in roster.plans())
            least = plans[0][0]
            plans = [(cost, pairs) for missed, cost, pairs in plans if missed == least]
            found = planned(roster.counted(), True).plans
            with self.subTest(case=case):
                first = plans[0][0]
                others = [(0, found.pairs())]
                for other in found.after():
                    others.append((other.more, sorted(other.pairs)))
                    if len(others) > 60:
                        break
                self.assertEqual([first + more for more, _ in others], [cost for cost, _ in plans[:len(others)]])
                self.assertEqual(len({tuple(pairs) for _, pairs in others}), len(others))
                self.assertTrue(all((first + more, pairs) in plans for more, pairs in others))
                self.assertEqual(len(others), min(61, len(plans)))
                ranked += len(others) > 2
                alike = [set(pairs) for cost, pairs in plans if cost == first]
                free = [pair for those in found.free_pairs() for pair in those]
                self.assertEqual(len(free), len(set(free)))
                self.assertEqual(set(free), set.union(*alike) - set.intersection(*alike))
        self.assertGreater(ranked, 100)

    def test_claims_on_best_plans_are_checked(self):
        """That all best plans have a pair, or all lack it, is refused where they differ there; and that a best plan has
        the fewest changes where another one has fewer."""
        draw, refused = random.Random(88), 0
        for case, (roster, _) in enumerate(rosters(88, DRAWN)):
            if draw.random() < 0.7:
                roster.costs = [[None if cost is None else cost // 6 for cost in row] for row in roster.costs]
            found = planned(roster.counted(), True).plans
            free, counted = [pair for those in found.free_pairs() for pair in those], found.part.counted
            least = min(those[:2] for those in roster.plans())
            alike = [set(pairs) for *sums, pairs in roster.plans() if tuple(sums) == least]
            kept = max(alike, key=lambda pairs: len(pairs ^ set(found.pairs())))
            with self.subTest(case=case):
                for pair in free:
                    others = [[own for those in plans.free_pairs(found.exchanges()) for own in those
                               if found.part.named([own]) != [pair]]]
                    with mock.patch.object(plans, "free_pairs", return_value=others):
                        self.assertRaisesRegex(RuntimeError, "please report", found.free_pairs)
                    refused += 1
                marks = [-1 if pair in kept else 1 for pair in found.part.named(zip(counted.rows, counted.columns))]
                if kept != set(found.pairs()):
                    self.assertRaisesRegex(RuntimeError, "please report", plans._check_marks, counted, found.best,
                                           marks)
                fewest = plans.with_fewest_changes(found, kept)
                self.assertEqual(set(fewest.pairs()), kept)
        self.assertGreater(refused, 100)


@unittest.skipUnless(optimize, "needs SciPy")
class BesideHighs(unittest.TestCase):
    def test_drawn_problems(self):
        draw, found = numpy.random.default_rng(86), 0
        for case in range(DRAWN):
            n, m = (int(size) for size in draw.integers(2, 25, 2))
            costs = draw.integers(-50, 50, (n, m)).astype(float)
            costs[draw.random((n, m)) < 0.3] = numpy.inf
            low = [draw.integers(0, 3, size) for size in (n, m)]
            high = [own + draw.integers(0, 4, own.size) for own in low]
            labels = draw.integers(0, max(2, m // 3), m) if case % 2 else numpy.arange(m)
            rows, columns = numpy.isfinite(costs).nonzero()
            cells = numpy.arange(len(rows))
            once = rows * m + labels[columns]
            keys = {key: place for place, key in enumerate(sorted(set(once.tolist())))}
            matrix = numpy.zeros((n + m + len(keys), len(rows)))
            matrix[rows, cells] = matrix[n + columns, cells] = 1
            matrix[n + m + numpy.array([keys[key] for key in once.tolist()], int), cells] = 1
            limits = optimize.LinearConstraint(matrix, numpy.concatenate([*low, numpy.zeros(len(keys))]),
                                               numpy.concatenate([*high, numpy.ones(len(keys))]))
            other = optimize.milp(costs[rows, columns], constraints=limits, bounds=optimize.Bounds(0, 1),
                         integrality=numpy.ones(len(rows)))
            words = [list(map(tuple, zip(least.tolist(), most.tolist()))) for least, most in zip(low, high)]
            with self.subTest(case=case):
                if other.x is None:
                    self.assertRaises(nushbaret.Infeasible, nushbaret.assign_counts, costs, *words, labels.tolist())
                    continue
                result = nushbaret.assign_counts(costs, *words, labels.tolist())
                self.assertEqual(result.cost, round(other.fun))
            found += 1
        self.assertGreater(found, 30)


if __name__ == "__main__":
    unittest.main()
