"""Plans with the fewest changes, compared with all plans."""
import itertools
import operator
import random
import unittest
from array import array

from nushbaret.costs.kinds import WholeNumbers
from nushbaret.costs.problem import AssignmentProblem
from nushbaret.lap import proved, wide
from nushbaret.lap.fewest import fewest_changes
from nushbaret.lap.solving import rents_of

CASES = 250


def drawn(draw):
    """A problem, its costs by pairs, and kept pairs, no two of one row or column."""
    n_rows, n_columns = draw.choice(((4, 4), (3, 3), (2, 4), (4, 2), (1, 3), (3, 5)))
    span, far = draw.choice((1, 3, 10**6, 10**12)), draw.choice((0, 0, 10**12))
    share = draw.choice((1, 1, 0.7))
    costs = {(row, column): draw.choice((-far, far)) if draw.random() < 0.2 else draw.randint(-span, span)
             for row in range(n_rows) for column in range(n_columns) if draw.random() < share}
    rows, columns = list(range(n_rows)), list(range(n_columns))
    draw.shuffle(rows)
    draw.shuffle(columns)
    kept = list(zip(rows, columns))[:draw.randint(0, 4)]
    lists = (None, None) if len(costs) == n_rows * n_columns else (
        array("I", [pair[side] + 1 for pair in costs]) for side in range(2))
    whole = WholeNumbers(array("q", costs.values()))
    return AssignmentProblem(n_rows, n_columns, draw.random() < 0.5, whole, *lists), costs, kept


def every(problem, costs):
    """All plans in which the fewer of rows and columns are paired."""
    count = min(problem.n_rows, problem.n_columns)
    for rows in itertools.combinations(range(problem.n_rows), count):
        for columns in itertools.permutations(range(problem.n_columns), count):
            if all(pair in costs for pair in zip(rows, columns)):
                yield list(zip(rows, columns))


class Fewest(unittest.TestCase):
    def test_beside_all_plans(self):
        draw = random.Random(8)
        for case in range(CASES):
            problem, costs, kept = drawn(draw)
            sign = -1 if problem.maximize else 1

            def judged(pairs):
                return sign * sum(costs[pair] for pair in pairs), len(set(pairs) - set(kept))

            with self.subTest(case=case):
                found = fewest_changes(problem, kept)
                plans = list(every(problem, costs))
                if not plans:
                    self.assertIsNone(found)
                    continue
                self.assertEqual(judged(list(zip(found.rows, found.columns))), min(map(judged, plans)))
                self.judge_rents(problem, costs, found, sign)

    def test_dense_as_listed(self):
        """A dense problem is searched by its tight pairs, listed pairs at combined costs: both change as few."""
        draw = random.Random(3)
        for case in range(60):
            n, more, span = draw.randint(8, 40), draw.choice((0, 0, 1, 20)), draw.choice((2, 5, 100))
            m, maximize = n + more, draw.random() < 0.5
            costs = array("q", [draw.randrange(span) for _ in range(n * m)])
            pairs = array("I", [i + 1 for i in range(n) for _ in range(m)]), array("I", [*range(1, m + 1)] * n)
            kept = array("I", draw.sample(range(1, m + 1), n))
            both = [wide.solved(maximize, proved.Instance(n, m, *lists, costs), kept)
                    for lists in ((proved.NONE, proved.NONE), pairs)]
            judged = {(sum(costs[i * m + item - 1] for i, item in enumerate(found.objects)),
                       sum(map(operator.ne, kept, found.objects))) for found in both}
            with self.subTest(case=case):
                self.assertEqual(len(judged), 1)

    def judge_rents(self, problem, costs, found, sign):
        """With what the columns cost in addition no row that has a column has a better one."""
        rents, own = rents_of(found), dict(zip(found.rows, found.columns))
        self.assertEqual(min(rents), 0)
        for (row, column), cost in costs.items():
            if row in own:
                self.assertGreaterEqual(sign * cost + rents[column], sign * costs[row, own[row]] + rents[own[row]])

    def test_two_kept_pairs(self):
        """Of one person they aren't for the library; of one object they are."""
        for sides, n_rows, n_columns in (((0, 1), 2, 3), ((1, 0), 3, 2)):
            problem = AssignmentProblem(n_rows, n_columns, False, WholeNumbers(array("q", [1] * 6)))
            two = [(0, 0), (0, 1)], [(0, 0), (1, 0)]
            self.assertIsNone(fewest_changes(problem, two[sides[0]]))
            found = fewest_changes(problem, two[sides[1]])
            self.assertEqual(len(set(zip(found.rows, found.columns)) & set(two[sides[1]])), 1)


if __name__ == "__main__":
    unittest.main()
