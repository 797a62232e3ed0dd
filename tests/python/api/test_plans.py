"""The k best plans, the next best one, whether a plan is the only one, and bottlenecks, compared with all plans."""
import contextlib
import heapq
import itertools
import pickle
import unittest
from array import array
from decimal import Decimal
from fractions import Fraction
from unittest import mock

import nushbaret
from nushbaret.lap import library, proved, ranking
from drawn import drawing, matrix
from optional import np, pd
from ways import by_the_longer_way, extension, knows_plans


def ordered(costs, maximize, assigned):
    """All plans with so many pairs, in order: their cost, the columns of the rows, those that are out after all."""
    n_rows, n_columns = len(costs), len(costs[0]) if costs else 0
    found = []
    for rows in itertools.combinations(range(n_rows), assigned):
        for columns in itertools.permutations(range(n_columns), assigned):
            own = dict(zip(rows, columns))
            pairs = [costs[row][column] for row, column in own.items()]
            if None not in pairs:
                found.append((sum(pairs), [own.get(row, n_columns) for row in range(n_rows)]))
    return sorted(found, key=lambda plan: (-plan[0] if maximize else plan[0], plan[1]))


def pairs_of(plan, n_rows, n_columns):
    own = dict(zip(map(int, plan.rows), map(int, plan.columns)))
    return plan.cost, [own.get(row, n_columns) for row in range(n_rows)]


@contextlib.contextmanager
def without_ranked():
    """Takes whole numbers by their reduced costs too."""
    answer = "UNDECIDED", array("I"), array("q")
    with by_the_longer_way(), mock.patch.object(proved, "first_objects", return_value=answer):
        yield


def kept(costs, keeps):
    """The costs of the pairs that are kept, and None elsewhere."""
    return [[cost if keeps(row, column) else None for column, cost in enumerate(line)]
            for row, line in enumerate(costs)]


def split_by_pairs(costs, maximize, k):
    """The costs of the k best plans: Murty's split by the pairs of a plan, each subproblem solved by the library."""
    assigned, numbers = len(nushbaret.solve(costs, maximize, partial=True).rows), itertools.count()
    found, waiting = [], []

    def put(left, fixed):
        result = nushbaret.solve(left, maximize, partial=True)
        if len(result.rows) == assigned:
            heapq.heappush(waiting, (-result.cost if maximize else result.cost, next(numbers), left, fixed, result))

    put(costs, frozenset())
    while waiting and len(found) < k:
        _, _, left, fixed, result = heapq.heappop(waiting)
        found.append(result.cost)
        for pair in set(result.pairs) - fixed:
            put(kept(left, lambda row, column: (row, column) != pair), fixed)
            left, fixed = kept(left, lambda row, column: (row == pair[0]) == (column == pair[1])), fixed | {pair}
    return found


def drawn(draw, turn):
    n_rows, n_columns = draw.choice([(8, 3), (3, 8)]) if turn % 5 == 4 else (draw.randint(1, 5), draw.randint(1, 5))
    costs = matrix(draw, n_rows, n_columns, draw.choice([0, 1, 9, 10**12]), draw.choice([0.3, 0.5, 0.8, 1.0]))
    forms = [costs, [[float("nan") if cost is None else cost for cost in row] for row in costs]]
    if np:
        forms.append(np.array([[np.nan if cost is None else cost for cost in row] for row in costs], float))
    return costs, draw.random() < 0.5, forms[turn % len(forms)]


class Plans(unittest.TestCase):
    def test_k_best_beside_all_plans(self):
        draw, ties, partial = drawing(31), 0, 0
        for turn in range(500):
            costs, maximize, form = drawn(draw, turn)
            n_rows, n_columns, k = len(costs), len(costs[0]), draw.choice([1, 3, 10, 1000])
            whole = nushbaret.solve(form, maximize, partial=True, missing="forbid")
            wanted = ordered(costs, maximize, len(whole.rows))
            found = list(nushbaret.k_best(form, k, maximize, partial=True, missing="forbid"))
            self.assertEqual([pairs_of(plan, n_rows, n_columns) for plan in found], wanted[:k])
            ties += len({cost for cost, _ in wanted[:k]}) < len(wanted[:k])
            partial += 0 < len(whole.rows) < min(n_rows, n_columns)
        self.assertGreater(min(ties, partial), 40)

    def test_k_best_beside_the_library(self):
        """Larger problems, whose subproblems the library solves."""
        draw, partial = drawing(37), 0
        for turn in range(40):
            n_rows, n_columns = draw.choice([(14, 14), (20, 6), (6, 20), (10, 9), (9, 10)])
            costs = matrix(draw, n_rows, n_columns, draw.choice([3, 1000]), draw.choice([0.2, 0.5, 1.0]))
            maximize = turn % 2 == 1
            plans = list(nushbaret.k_best(costs, 12, maximize, partial=True))
            self.assertEqual([plan.cost for plan in plans], split_by_pairs(costs, maximize, 12))
            self.assertEqual(len({tuple(pairs_of(plan, n_rows, n_columns)[1]) for plan in plans}), len(plans))
            partial += len(plans[0].rows) < min(n_rows, n_columns)
        self.assertGreater(partial, 5)

    def test_next_best_and_whether_there_is_one(self):
        draw, unique = drawing(32), 0
        for turn in range(500):
            costs, maximize, form = drawn(draw, turn)
            n_rows, n_columns = len(costs), len(costs[0])
            result = nushbaret.solve(form, maximize, partial=True, missing="forbid")
            own = pairs_of(result, n_rows, n_columns)
            others = [plan for plan in ordered(costs, maximize, len(result.rows)) if plan[1] != own[1]]
            plan = result.next_best()
            best = [other for other in others if other[0] == others[0][0]]
            self.assertIn(None if plan is None else pairs_of(plan, n_rows, n_columns), best or [None])
            self.assertEqual(result.is_unique(), not others or others[0][0] != result.cost)
            unique += result.is_unique()
        self.assertGreater(min(unique, 500 - unique), 100)

    def test_after_costs_became_finer(self):
        costs = [[1, 2], [3, 1]]
        result = nushbaret.solve(costs)
        costs[0][1] = 1.5
        self.assertEqual((result.next_best().cost, result.without(0, 0).cost), (Decimal("4.5"), Decimal("4.5")))

    def test_decimals_and_forms(self):
        plans = list(nushbaret.k_best([[0.5, 0.25], [0.125, 1]], 5))
        self.assertEqual(plans, [([0, 1], [1, 0], Decimal("0.375")), ([0, 1], [0, 1], Decimal("1.5"))])
        self.assertEqual(list(nushbaret.k_best([[1, 2], [3, 4]], 0)), [])
        self.assertEqual([plan.cost for plan in nushbaret.k_best([], 3)], [0])
        with self.assertRaisesRegex(ValueError, "k is -1: it must be 0 or more"):
            nushbaret.k_best([[1]], -1)
        with self.assertRaises(nushbaret.Infeasible):
            nushbaret.k_best([[1, None], [2, None]], 3)
        self.assertEqual([plan.cost for plan in nushbaret.k_best([[1, None], [2, None]], 3, partial=True)], [1, 2])

    def test_a_hundred_rows(self):
        """Each plan is one, costs what it says, and is no better than the one before."""
        draw = drawing(33)
        costs = matrix(draw, 100, 100, 10**6)
        plans = list(nushbaret.k_best(costs, 10))
        self.assertEqual(len({tuple(plan.columns) for plan in plans}), 10)
        for plan in plans:
            self.assertEqual(sorted(plan.columns), list(range(100)))
            self.assertEqual(plan.cost, sum(costs[row][column] for row, column in zip(plan.rows, plan.columns)))
        self.assertEqual([plan.cost for plan in plans], sorted(plan.cost for plan in plans))
        result = nushbaret.solve(costs)
        self.assertEqual((plans[0].cost, plans[1].cost), (result.cost, result.next_best().cost))
        self.assertEqual(plans[1].cost, min(result.without(*pair).cost for pair in result.pairs))

    def test_by_reduced_costs(self):
        """Whole numbers as they are, by their reduced costs, and by these rounded down: the plans are the same."""
        draw = drawing(40)
        for n_rows, n_columns, most in [(12, 12, 3), (12, 12, 1000), (9, 14, 3), (14, 9, 1000), (14, 9, 2)]:
            for maximize in (False, True):
                costs = matrix(draw, n_rows, n_columns, most, draw.choice([0.7, 1.0]))
                found = list(nushbaret.k_best(costs, 40, maximize, partial=True))
                with without_ranked():
                    self.assertEqual(list(nushbaret.k_best(costs, 40, maximize, partial=True)), found)
                    for words in {"_MOST_STEPS": 64}, {"FIRST_PLANS": 1}, {"_FIRST_PAIRS": 1, "_FEW": 0}:
                        with mock.patch.multiple(ranking, **words):
                            self.assertEqual(list(nushbaret.k_best(costs, 40, maximize, partial=True)), found, words)

    def test_many_near_to_each_other(self):
        """Where hundreds of plans are nearly as good, and steps of a window can't put them in order."""
        draw, turns, closer = drawing(42), 0, ranking.Window.closer
        for kind in (lambda: draw.randint(0, 9) / 3, lambda: draw.randint(0, 2) * 10**18 + draw.randint(0, 3)):
            for n_rows, n_columns in [(9, 9), (8, 11), (11, 8)] * 4:
                costs = [[kind() for _ in range(n_columns)] for _ in range(n_rows)]
                k = draw.choice([40, 300])
                with mock.patch.object(ranking.Window, "closer", autospec=True, side_effect=closer) as call:
                    found = [(plan.cost, list(plan.columns)) for plan in nushbaret.k_best(costs, k)]
                turns += call.call_count
                with mock.patch.object(ranking.Window, "closer", return_value=None):
                    self.assertEqual([(plan.cost, list(plan.columns)) for plan in nushbaret.k_best(costs, k)], found)
        self.assertGreater(turns, 3)

    def test_numbers_of_any_kind(self):
        """Doubles, near to each other and not, tiny and huge, Decimals, Fractions and whole numbers of any size."""
        draw, ties = drawing(41), 0
        kinds = [draw.random, lambda: draw.randint(0, 99) / 10,
                 lambda: draw.randint(0, 2) + draw.randint(0, 3) * 2.0**-50, lambda: draw.randint(0, 9) * 5e-324,
                 lambda: draw.choice([draw.random(), draw.randint(0, 3) * 1e300]),
                 lambda: Decimal(draw.randint(-9, 9)).scaleb(draw.choice([0, -3, -20])), lambda: draw.randint(0, 2**90),
                 lambda: Fraction(draw.randint(-9, 9), draw.choice([1, 3, 7])), lambda: draw.randint(-2**62, 2**62),
                 lambda: draw.randint(0, 2) * 10**15 + draw.randint(0, 2)]
        for turn in range(400):
            kind, n_rows, n_columns = kinds[turn % len(kinds)], draw.randint(1, 5), draw.randint(1, 5)
            costs = [[kind() if draw.random() < draw.choice([0.5, 1]) else None for _ in range(n_columns)]
                     for _ in range(n_rows)]
            form = costs
            if np and all(cost is None or type(cost) is float for row in costs for cost in row) and turn % 3:
                form = np.array([[np.nan if cost is None else cost for cost in row] for row in costs], float)
            exact = [[None if cost is None else Fraction(str(cost)) for cost in row] for row in costs]
            maximize, k = draw.random() < 0.5, draw.choice([1, 3, 10, 1000])
            with mock.patch.object(ranking, "_FEW", draw.choice([0, 64])):
                result = nushbaret.solve(form, maximize, partial=True, missing="forbid")
                plans = list(nushbaret.k_best(form, k, maximize, partial=True, missing="forbid"))
                other, is_unique = result.next_best(), result.is_unique()
            wanted = ordered(exact, maximize, len(result.rows))
            self.assertEqual([pairs_of(plan, n_rows, n_columns) for plan in plans], wanted[:k])
            self.assertEqual(None if other is None else other.cost, wanted[1][0] if len(wanted) > 1 else None)
            self.assertEqual(is_unique, len(wanted) < 2 or wanted[1][0] != wanted[0][0])
            ties += not is_unique
        self.assertGreater(ties, 20)

    def test_great_numbers_of_a_decimal_unit(self):
        draw = drawing(43)
        for turn in range(120):
            n_rows, n_columns, k = draw.randint(2, 4), draw.randint(2, 4), draw.choice([1, 2, 4, 6])
            costs = [[draw.randint(0, 2) * 10**22 + draw.randint(0, 3) + Decimal(draw.randint(0, 99)) / 100
                      for _ in range(n_columns)] for _ in range(n_rows)]
            wanted = ordered(costs, turn % 2 == 1, min(n_rows, n_columns))
            plans = list(nushbaret.k_best(costs, k, turn % 2 == 1, decimals=2))
            self.assertEqual([pairs_of(plan, n_rows, n_columns) for plan in plans], wanted[:k])

    @unittest.skipUnless(extension(), "the extension isn't there")
    def test_the_extension_and_the_longer_way(self):
        """The same plans in the same form, as many as are asked for, of each form of costs."""
        draw, short = drawing(41), 0
        for turn in range(300):
            n_rows, n_columns, k = draw.randint(1, 7), draw.randint(1, 7), draw.choice([1, 2, 10, 128, 129])
            costs, maximize = matrix(draw, n_rows, n_columns, draw.choice([2, 9, 10**6, 10**13])), draw.random() < 0.5
            form = self.forms(costs)[turn % 8] if np else costs
            found = [self.form_of(plan) for plan in nushbaret.k_best(form, k, maximize)]
            with by_the_longer_way():
                self.assertEqual([self.form_of(plan) for plan in nushbaret.k_best(form, k, maximize)], found)
            short += knows_plans(form, maximize, k)
        self.assertGreater(short, 100)

    def forms(self, costs):
        array = np.array(costs)
        return [costs, [[cost / 4 for cost in line] for line in costs], [tuple(line) for line in costs], array,
                array.astype(np.int32 if array.max() < 2**31 else np.float64), np.asfortranarray(array) * 0.25,
                array * 0.1, pd.DataFrame(array, columns=[*map(str, range(array.shape[1]))]) if pd else array]

    def form_of(self, plan):
        return str(plan), type(plan.rows), type(plan.columns), plan.pairs, type(plan.cost), plan.labels

    def test_plans_cant_be_changed(self):
        forms = [[[1, 2], [3, 4]]] + ([np.array([[1, 2], [3, 4]])] if np else [])
        for form in forms:
            plans = nushbaret.k_best(form, 2)
            for held in plans, pickle.loads(pickle.dumps(nushbaret.k_best(form, 2))):
                for plan in held:
                    for values in plan.rows, plan.columns:
                        with self.assertRaises((TypeError, ValueError)):
                            values[0] = 1
                        if hasattr(values, "setflags"):
                            with self.assertRaises(ValueError):
                                values.setflags(write=True)

    def test_few_pairs_at_first(self):
        """Where small reduced costs don't suffice, greater ones are looked at: each list is the one of all pairs."""
        draw = drawing(38)
        for most in (1, 4, 10**6):
            costs = matrix(draw, 12, 12, most)
            forms = [costs, np.array(costs), np.array(costs) * 0.01] if np else [costs]
            wanted = [list(nushbaret.k_best(form, 60)) for form in forms]
            with without_ranked(), mock.patch.object(ranking, "_FEW", 0):
                found = [list(nushbaret.k_best(form, 60)) for form in forms]
                others = [nushbaret.solve(form).next_best().cost for form in forms]
            self.assertEqual([[(list(plan.columns), plan.cost) for plan in plans] for plans in found],
                             [[(list(plan.columns), plan.cost) for plan in plans] for plans in wanted])
            self.assertEqual(others, [plans[1].cost for plans in wanted])

    def test_pickled_half_way(self):
        costs = matrix(drawing(39), 9, 9, 20)
        for form in [costs, np.array(costs), np.array(costs) * 0.5] if np else [costs]:
            plans = nushbaret.k_best(form, 30)
            first = [next(plans) for _ in range(7)]
            again = pickle.loads(pickle.dumps(plans))
            rest = [(list(plan.columns), plan.cost) for plan in plans]
            self.assertEqual([(list(plan.columns), plan.cost) for plan in again], rest)
            self.assertEqual(len(first) + len(rest), 30)


class Checked(unittest.TestCase):
    """The library sees what is asked by reduced costs, and wrong ones are found."""

    COSTS = [[4, 1, 3], [2, 0, 5], [3, 2, 2]]

    def test_wrong_reduced_costs(self):
        behind = ranking.Ranking._reduced

        def wrong(own, problem):
            found = behind(own, problem)
            return found._replace(pairs={**found.pairs, (0, own.own[0]): 2**90})
        costs = [[2**70 * cost if cost < 4 else None for cost in row] for row in self.COSTS]
        result = nushbaret.solve(costs)
        with mock.patch.object(ranking.Ranking, "_reduced", wrong):
            for call in lambda: list(nushbaret.k_best(costs, 3)), result.next_best:
                with self.assertRaisesRegex(RuntimeError, "looked for in order, and the library says SLACK"):
                    call()

    def test_more_arc_scans(self):
        """Where they don't suffice, the library begins again with more, while there is time."""
        wanted, behind, asked = list(nushbaret.k_best(self.COSTS, 4)), library.call, []

        def few(name, *words, piece=()):
            asked.append(piece[0] if name == "ranked" else 0)
            if 0 < asked[-1] < 10**9:
                return "UNDECIDED", library.Info()
            return behind(name, *words, piece=piece)
        with by_the_longer_way(), mock.patch.object(library, "call", few):
            self.assertEqual(list(nushbaret.k_best(self.COSTS, 4)), wanted)
            self.assertEqual([count for count in asked if count], [10**8, 4 * 10**8, 16 * 10**8])
            with mock.patch.object(library, "_MOST_ARC_SCANS", 10**8 + 1), self.assertRaisesRegex(
                    RuntimeError, "the library says UNDECIDED: please report this problem"):
                list(nushbaret.k_best(self.COSTS, 4))


class Bottlenecks(unittest.TestCase):
    def test_beside_all_plans(self):
        draw, partial = drawing(34), 0
        for turn in range(500):
            costs, maximize, form = drawn(draw, turn)
            n_rows, n_columns = len(costs), len(costs[0])
            assigned = len(nushbaret.solve(form, maximize, partial=True, missing="forbid").rows)
            sign = -1 if maximize else 1
            wanted = min((max((sign * costs[row][column] for row, column in enumerate(own) if column < n_columns),
                              default=0), sign * cost) for cost, own in ordered(costs, maximize, assigned))
            result = nushbaret.bottleneck(form, maximize, partial=True, missing="forbid")
            worst = max((sign * costs[row][column] for row, column in result.pairs), default=0)
            self.assertEqual((worst, sign * result.cost, len(result.rows)), (*wanted, assigned))
            self.assertTrue(result.verify())
            if assigned < min(n_rows, n_columns):
                partial += 1
                with self.assertRaises(nushbaret.Infeasible):
                    nushbaret.bottleneck(form, maximize, missing="forbid")
        self.assertGreater(partial, 40)

    def test_refusals(self):
        with self.assertRaisesRegex(ValueError, 'nan at row 0, column 1: None or an infinite cost forbids a pair, and '
                                    'missing="forbid"'):
            nushbaret.bottleneck([[1, float("nan")]])
        with self.assertRaisesRegex(ValueError, "missing is 'drop': it must be 'refuse' or 'forbid'"):
            nushbaret.bottleneck([[1]], missing="drop")
        self.assertEqual(nushbaret.bottleneck([]).cost, 0)


if __name__ == "__main__":
    unittest.main()
