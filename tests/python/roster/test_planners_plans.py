"""The next plans, and fair ones, compared with a search through all plans: with counts, groups and bounds, and
without."""
import math
import unittest

from nushbaret.roster.answer import Request, answer_of, fair_answer
from nushbaret.roster.by_counts import answer_by_counts
from roster.test_planners_counts import drawings, pairs_of


def single(case):
    """A drawn roster in which each name counts once."""
    case.persons, case.objects = [(1, 1)] * len(case.persons), [(1, 1)] * len(case.objects)
    case.groups, case.ranges = [], False
    return case


# Drawn rosters, how these are answered, and what a roster has of the drawn one.
KINDS = (("by counts", drawings(31, 200), answer_by_counts, lambda case: case.roster()),
         ("equal costs", drawings(32, 150, 2), answer_by_counts, lambda case: case.roster()),
         ("single", [single(case) for case in drawings(33, 200)], answer_of,
          lambda case: case.roster()._replace(takes=None)),
         ("single, equal costs", [single(case) for case in drawings(34, 150, 2)], answer_of,
          lambda case: case.roster()._replace(takes=None)))


class Ranked(unittest.TestCase):
    def test_beside_all_plans(self):
        for what, cases, solve, roster_of in KINDS:
            counts = []
            for number, case in enumerate(cases):
                plans = case.plans()
                missed = min(plans)[0]
                every = sorted((cost, pairs) for lack, cost, pairs in plans if lack == missed)
                plan = solve(roster_of(case), Request((), case.maximize, True, plans=5)).plan
                found = [plan, *plan.following]
                counts.append(len(found))
                with self.subTest(kind=what, case=number):
                    sign = -1 if case.maximize else 1
                    self.assertEqual([sign * other.cost for other in found], [cost for cost, _ in every[:5]])
                    self.assertEqual(len({pairs_of(other) for other in found}), len(found))
                    self.assertLessEqual({(sign * other.cost, pairs_of(other)) for other in found}, set(every))
            self.assertEqual(set(counts), {1, 2, 3, 4, 5}, what)

    def test_others(self):
        for what, cases, solve, roster_of in KINDS:
            for number, case in enumerate(cases):
                plans = case.plans()
                every = sorted(plan[1:] for plan in plans if plan[0] == min(plans)[0])
                plan = solve(roster_of(case), Request((), case.maximize, True, others=True)).plan
                with self.subTest(kind=what, case=number):
                    self.assertEqual(plan.is_only_one, len(every) == 1 or every[0][0] < every[1][0])
                    self.assertEqual(len(plan.following), int(plan.is_only_one and len(every) > 1))
                    if plan.following:
                        self.assertIn((every[1][0], pairs_of(plan.following[0])), every)


class Fair(unittest.TestCase):
    def test_beside_all_plans(self):
        dearer = 0
        for what, cases, solve, roster_of in KINDS:
            for number, case in enumerate(cases):
                costs, sign = case.pairs(), -1 if case.maximize else 1
                plans = case.plans()
                every = [(max((sign * costs[pair] for pair in pairs), default=-math.inf), cost, pairs)
                         for lack, cost, pairs in plans if lack == min(plans)[0]]
                with self.subTest(kind=what, case=number):
                    answer, fair = fair_answer(roster_of(case), Request((), case.maximize, True), solve)
                    if fair is None:
                        self.assertEqual((answer.plan.pairs, min(plan[1] for plan in every)), ([], 0))
                        continue
                    dearest, cost, _ = min(every)
                    self.assertEqual((sign * fair.pair.cost if fair.pair else -math.inf, sign * answer.plan.cost),
                                     (dearest, cost))
                    self.assertIn((dearest, cost, pairs_of(answer.plan)), every)
                    self.assertEqual(sign * fair.best.cost, min(plan[1] for plan in every))
                    self.assertIn(fair.best_pair, fair.best.pairs)
                    dearer += fair.pair is not None and fair.best_pair.cost != fair.pair.cost
        self.assertGreater(dearer, 30)


if __name__ == "__main__":
    unittest.main()
