"""Decision diagrams, prices and trees of drawn rows, held against searches of all plans."""
import inspect
import itertools
import random
import sys
import time
import unittest
from unittest import mock

from nushbaret.rows.certificate_check import shows_here
from nushbaret.rows.model import Certificate, Limits, Model, Row, flat
import row_models as models

if models.scipy:
    import numpy as np
    from nushbaret.rows import diagrams, prices
    from nushbaret.rows.chains import Closing, chain, chain_tree
    from nushbaret.rows.model import Part
    from nushbaret.rows.priced_trees import PricedSplit, priced_tree
    from nushbaret.rows.prices import SCALE, Pricing
    from nushbaret.rows.stacked import TOO_MUCH, Stacked
    from nushbaret.rows.templates import Templates
    from nushbaret.rows.trees import Open, Trees

CASES = 300


def end():
    return time.monotonic() + 3600


def limits(model):
    return [Limits(row.least, row.terms, row.most) for row in model.rows]


@unittest.skipUnless(models.scipy, "SciPy isn't there")
class Diagrams(unittest.TestCase):
    def drawn(self):
        """Drawn models without empty rows, with what draws on, costs, and a diagram of all rows."""
        for seed in range(CASES):
            with self.subTest(seed=seed):
                draw = random.Random(seed)
                model = models.drawn_model(draw)
                model = model._replace(rows=tuple(row for row in model.rows if row.terms))
                costs = np.array([draw.randint(-9, 9) for _ in range(model.variables)], dtype=np.int64)
                yield draw, model, costs, diagrams.diagram_of(model.variables, limits(model))

    def test_cheapest(self):
        for _, model, costs, diagram in self.drawn():
            plans, stacked = models.plans(model), Stacked([diagram], [range(model.variables)])
            costs_of = {plan: int(costs @ np.array(plan)) for plan in plans}
            found = stacked.cheapest(costs)
            self.assertEqual(found is None, not plans)
            if found is not None:
                self.assertEqual((found[0][0], costs_of[tuple(found[1].tolist())]), (min(costs_of.values()),) * 2)
                self.check_each(model, costs_of, stacked.with_and_without(costs))

    def test_narrowed(self):
        """Within bounds of the variables a diagram has the plans that keep them."""
        for draw, model, costs, diagram in self.drawn():
            bounds = [draw.choice(((0, 1), (0, 1), (0, 0), (1, 1))) for _ in range(model.variables)]
            least, most = np.array(bounds).T
            found = Stacked([diagrams.narrowed(diagram, least, most)], [range(model.variables)]).cheapest(costs)
            wanted = min((int(costs @ np.array(plan)) for plan in models.plans(model)
                          if all(low <= value <= high for value, (low, high) in zip(plan, bounds))), default=None)
            self.assertEqual(None if found is None else found[0][0], wanted)

    def check_each(self, model, costs_of, found):
        for value, variable in itertools.product((0, 1), range(model.variables)):
            least = min((price for plan, price in costs_of.items() if plan[variable] == value), default=None)
            self.assertEqual(None if found[value, variable] >= TOO_MUCH // 2 else found[value, variable],
                             least)

    def test_great_sums(self):
        """Each month's cost fits 64 bits, and that of all months doesn't."""
        diagram = diagrams.diagram_of(2, [Limits(1, ((0, 1), (1, 1)), 1)])
        stacked = Stacked([diagram] * 20, [(2 * place, 2 * place + 1) for place in range(20)])
        costs, _ = stacked.cheapest(np.array([2**58 + variable for variable in range(40)], dtype=np.int64))
        self.assertEqual(costs, [2**58 + 2 * place for place in range(20)])

    def test_too_wide(self):
        rows = [Limits(1000, tuple((variable, 3**variable) for variable in range(12)), 100_000)]
        self.assertIsNone(diagrams.diagram_of(12, rows, 50))
        self.assertIsNotNone(diagrams.diagram_of(12, rows))


@unittest.skipUnless(models.scipy, "SciPy isn't there")
class Trees_(unittest.TestCase):
    def test_too_deep(self):
        """A tree that is deeper than Python's calls is given up, and no process ends by it."""
        row = Limits(121, tuple((variable, 2) for variable in range(121)), 121)
        trees = Trees(Part([row], [0], list(range(121))), end())
        trees.relaxed((0,) * 121)
        self.addCleanup(sys.setrecursionlimit, sys.getrecursionlimit())
        sys.setrecursionlimit(len(inspect.stack()) + 80)
        with self.assertRaises(Open):
            trees.tree((0,) * 121, None, 5000)

    def test_trees(self):
        """A tree is found where there is one to find, and shows it; else a plan."""
        counts = [0, 0]
        for seed in range(CASES):
            model = models.drawn_model(random.Random(seed))
            prices = [models.cost(model, plan) for plan in models.plans(model)]
            most = min(prices, default=0) - random.Random(seed).choice((0, 1, 1, 3))
            rows = limits(model)
            trees = Trees(Part(rows, list(range(len(rows))), list(range(model.variables))), end())
            terms = tuple((variable, cost) for variable, cost in enumerate(model.costs) if cost)
            with self.subTest(seed=seed):
                try:
                    tree = trees.tree(model.costs, most)
                    self.assertTrue(shows_here(Certificate(model.variables, (*rows, Limits(None, terms, most)), None,
                                                           flat(tree))))
                    self.assertGreater(min(prices, default=most + 1), most)
                    counts[0] += 1
                except Open:
                    self.assertLessEqual(min(prices), most)
                    counts[1] += 1
        self.assertGreater(min(counts), CASES // 20)


@unittest.skipUnless(models.scipy, "SciPy isn't there")
class Shared(unittest.TestCase):
    """Diagrams that persons share."""

    def ward(self, draw, persons):
        """Persons who take shifts of two kinds on five days, at most one a day, not both on two days, two on three days
        and some in all. Some lack some shifts, and rows in which a person has nothing are left out."""
        shifts = [(day, kind) for day in range(5) for kind in range(2)]
        ways = [([shift for shift in shifts if shift[0] == day], None, 1) for day in range(5)]
        ways += [([(day, 1), (day + 1, 0)], None, 1) for day in range(4)]
        ways += [([shift for shift in shifts if 0 <= shift[0] - day < 3], None, 2) for day in range(3)]
        names, rows, days = [], [], []
        for person in range(persons):
            own = [shift for shift in shifts if draw.random() < 0.8] or shifts
            place = {shift: len(names) + at for at, shift in enumerate(own)}
            names += [(person, shift) for shift in own]
            days += [day for day, _ in own]
            for some, least, most in [*ways, (shifts, person % 2, 3 + person % 3 // 2)]:
                terms = tuple((place[shift], 1) for shift in some if shift in place)
                rows += [Row(least, terms, most, "a rule", person)] if terms else []
        rows += [Row(1, tuple((at, 1) for at, (_, own) in enumerate(names) if own == shift), persons)
                 for shift in shifts]
        return Model(len(names), tuple(draw.randint(-9, 9) for _ in names), tuple(rows),
                     tuple(name for name, _ in names), tuple(days))

    def test_each_person_has_the_own_months(self):
        made = []
        for seed in range(40):
            draw = random.Random(seed)
            model = self.ward(draw, 8)
            with mock.patch.object(Templates, "diagram_of", autospec=True, side_effect=Templates.diagram_of) as shared:
                pricing = Pricing(model, end())
            self.assertEqual(shared.call_count, 8)
            for number, (block, diagram) in enumerate(zip(pricing.blocks, pricing.diagrams)):
                made.append(Templates.diagram_of(shared.call_args[0][0], number) is not None)
                count, rows = len(block.variables), tuple(Row(*row) for row in block.rows)
                own = Model(count, (0,) * count, rows, (0,) * count)
                plans, stacked = models.plans(own), Stacked([diagram], [range(own.variables)])
                for _ in range(5):
                    costs = np.array([draw.randint(-9, 9) for _ in range(own.variables)], dtype=np.int64)
                    (least,), found = stacked.cheapest(costs)
                    self.assertEqual(least, min(int(costs @ np.array(plan)) for plan in plans))
                    self.assertIn(tuple(found.tolist()), set(plans))
        self.assertGreater(sum(made), len(made) // 2)


@unittest.skipUnless(models.scipy, "SciPy isn't there")
class Prices(unittest.TestCase):
    def proof(self, model, make, target):
        """The certificate of a proof that no plan costs `target` or less."""
        rows = (*limits(model), Limits(None, tuple((variable, cost) for variable, cost in enumerate(model.costs)
                                                   if cost), target))
        return Certificate(model.variables, rows, None, flat(make()))

    def months(self):
        for seed in range(2, 10):
            model = models.drawn_month(random.Random(seed))
            least = models.least_cost(model)
            if least is not None:
                yield model, least

    def test_bounds_and_chains(self):
        """No price gives more than the least cost, and each bound has its proof."""
        for model, least in self.months():
            pricing, draw = Pricing(model, end()), random.Random(1)
            for _ in range(3):
                prices = pricing.rounded(np.array([draw.uniform(-5, 5) for _ in pricing.shared]))
                bound = pricing.bound(prices)
                self.assertLessEqual(bound.value, SCALE * least)
                target = -(-bound.value // SCALE) - 1
                self.assertTrue(shows_here(self.proof(model, lambda: chain(pricing, bound, target, end()), target)))
                with self.assertRaises(Open):
                    chain(pricing, bound, target + 1, end())

    def test_closing(self):
        """From poor prices, too, a tree after the persons' links shows the least cost; for more it comes upon a
        plan."""
        for model, least in self.months():
            pricing = Pricing(model, end())
            bound = pricing.bound(np.zeros(len(pricing.shared), dtype=np.int64))
            closing = Closing(pricing, bound, least - 1, end())
            self.assertTrue(shows_here(self.proof(model, lambda: closing.proof(5000), least - 1)))
            more = Closing(pricing, bound, least, end())
            with self.assertRaises(Open):
                more.proof(5000)
            self.assertEqual(models.cost(model, more.trees.plan), least)
            self.assertTrue(models.meets(more.trees.plan, model.rows))

    def rings(self):
        """Persons in a ring who work one of two days: neighbours not together, which prices alone don't bound well."""
        for seed in range(8):
            draw, persons = random.Random(seed), 5 + seed % 3
            rows = [Row(None, ((2 * person, 1), (2 * person + 1, 1)), 1, "a day", person) for person in range(persons)]
            rows += [Row(None, ((2 * person + day, 1), (2 * ((person + 1) % persons) + day, 1)), 1)
                     for person in range(persons) for day in range(2)]
            yield Model(2 * persons, tuple(draw.randint(-9, -5) for _ in range(2 * persons)), tuple(rows),
                        tuple(person for person in range(persons) for _ in range(2)))

    def test_trees_with_prices_at_their_ends(self):
        """From poor prices, too, a tree with prices at its ends shows the least cost, and never more. Changed proofs
        show no more than a slow check lets them."""
        draw, splits, refused = random.Random(1), 0, 0
        for model, least in [*self.months(), *((model, models.least_cost(model)) for model in self.rings())]:
            pricing = Pricing(model, end())
            bound = pricing.bound(np.zeros(len(pricing.shared), dtype=np.int64))
            splits += isinstance(priced_tree(pricing, bound, least - 1, 0, end(), 1000), PricedSplit)
            shown = self.proof(model, lambda: chain_tree(pricing, bound, least - 1, end(), 1000), least - 1)
            self.assertTrue(shows_here(shown))
            with self.assertRaises(Open):
                chain_tree(pricing, bound, least, end(), 1000)
            for other in filter(None, (models.changed(draw, shown) for _ in range(5))):
                refused += not shows_here(other)
                self.assertEqual(shows_here(other), models.shows(other))
        self.assertGreater(splits, 2)
        self.assertGreater(refused, 20)

    def test_leaves_of_a_tree_with_prices(self):
        """A tree that may have no split is only found where the prices alone show the target."""
        for model, least in self.months():
            pricing = Pricing(model, end())
            bound = pricing.bound(np.zeros(len(pricing.shared), dtype=np.int64))
            try:
                tree = priced_tree(pricing, bound, least - 1, 0, end(), 1)
            except Open:
                continue
            self.assertGreater(tree.value, SCALE * (least - 1))

    def test_hours_may_be_left_out(self):
        """Where a diagram with all rows is too wide, bounds hold without those that weigh."""
        model, least = next(self.months())
        with mock.patch.object(prices, "_EXACT_PART", -1):
            pricing = Pricing(model, end())
        exact = Pricing(model, end())
        none = np.zeros(len(pricing.shared), dtype=np.int64)
        self.assertLess(pricing.bound(none).value, exact.bound(none).value)
        self.assertLessEqual(exact.bound(none).value, SCALE * least)

    def test_nobodys_variables(self):
        model = Model(3, (1, 2, 3), models.drawn_month(random.Random(1), 1, 1).rows[:0], (None, 0, None))
        self.assertEqual(len(Pricing(model, end()).blocks), 3)


if __name__ == "__main__":
    unittest.main()
