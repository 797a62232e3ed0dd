"""The rows that say rules, next to the second reader, which looks at days and kinds: both accept and refuse the same
plans."""
import random
import unittest
from collections import Counter

from nushbaret.roster.roster import PlanLine
from nushbaret.roster.rules.rule_rows import Making, add_rules
from nushbaret.roster.rules.rules_kept import broken_by, missed_by, plan_of
from nushbaret.roster.rules.sums import Rows, Work
from drawn_rules import SHAPES, drawn_case


def drawn_plan(r, roster, past):
    """A plan that takes at most one of each group: for each person as many days as a number that is drawn says."""
    allowed = {}
    for person, object_, cost in zip(roster.of_persons, roster.of_objects, roster.costs):
        if object_ not in roster.past:
            allowed.setdefault((person, roster.groups.of_objects[object_]),
                               []).append(PlanLine(person, object_, 2, cost))
    shares = [r.choice((0.0, 0.15, 0.3, 0.5, 0.7, 1.0)) for _ in roster.persons]
    favourite = [r.choice((None, 0, 1, 2)) for _ in roster.persons]
    plan = list(past)
    for (person, _), own in allowed.items():
        own = [pair for pair in own if favourite[person] is None or pair.object % 3 == favourite[person]] or own
        plan += [r.choice(own)] if r.random() < shares[person] else []
    return plan


def rows_of(roster, month, rules, past):
    """The rows of the rules alone, and the variable of each pair."""
    pairs = [(person, object_) for person, object_ in zip(roster.of_persons, roster.of_objects)
             if object_ not in roster.past]
    variables = {pair: number for number, pair in enumerate(pairs)}
    work = Work(month, variables, [(pair.person, pair.object) for pair in past])
    rows = Rows([0] * len(pairs), [person for person, _ in pairs])
    add_rules(Making(roster, rules, work, rows))
    return rows, variables


def meets(rows, variables, plan):
    """Whether a plan meets the rows, where a helper is 1 if it can be: so for weekends that are free."""
    taken = {variables[pair.person, pair.object] for pair in plan if (pair.person, pair.object) in variables}
    values = [int(number in taken) for number in range(len(rows.costs))]
    for helper in range(len(variables), len(values)):
        own = [row for row in rows.rows if (helper, 1) in row.terms
               and all(other <= helper and (other == helper or other < len(variables)) for other, _ in row.terms)]
        values[helper] = 1
        values[helper] = int(all(row.most is None or sum(values[one] * factor for one, factor in row.terms) <= row.most
                                 for row in own))
    sums = [sum(values[one] * factor for one, factor in row.terms) for row in rows.rows]
    return all((row.least is None or row.least <= total) and (row.most is None or total <= row.most)
               for row, total in zip(rows.rows, sums))


class BothReaders(unittest.TestCase):
    def compare(self, r, shapes, plans, most_rules=3):
        roster, month, rules, past = drawn_case(r, r.randint(2, 4), r.randint(3, 16), r.randint(1, most_rules), shapes)
        rows, variables = rows_of(roster, month, rules, past)
        found = Counter()
        for _ in range(plans):
            plan = drawn_plan(r, roster, past)
            broken = broken_by(plan_of(roster, rules, month, plan))
            self.assertEqual(meets(rows, variables, plan), not broken, (rules.rules, month, plan, broken))
            found[bool(broken)] += 1
        return found

    def test_each_rule(self):
        """Each rule alone: some plans keep it, and some break it."""
        for number, shape in enumerate(SHAPES):
            r, found = random.Random(number), Counter()
            for _ in range(30):
                found += self.compare(r, (shape,), 5, 1)
            with self.subTest(shape[0]):
                self.assertGreater(min(found[False], found[True]), 5)

    def test_drawn_plans(self):
        found = Counter()
        for seed in range(500):
            found += self.compare(random.Random(1000 + seed), SHAPES, 4)
        self.assertEqual(sum(found.values()), 2000)
        self.assertGreater(min(found.values()), 300)


def cost_of_missed(rows, variables, plan):
    """What the helpers with a price cost at least for a plan: each row by itself, and a helper of several rows once."""
    taken = {variables[pair.person, pair.object] for pair in plan if (pair.person, pair.object) in variables}
    values = [int(number in taken) for number in range(len(rows.costs))]
    for helper in range(len(variables), len(values)):
        if not rows.costs[helper]:
            own = [row for row in rows.rows if (helper, 1) in row.terms and row.most is not None
                   and all(other == helper or other < len(variables) for other, _ in row.terms)]
            values[helper] = 1
            values[helper] = int(all(sum(values[one] * factor for one, factor in row.terms) <= row.most for row in own))
    cost, shared = 0, set()
    for row in rows.rows:
        priced = [(rows.costs[one], abs(factor), one) for one, factor in row.terms if rows.costs[one]]
        total = sum(values[one] * factor for one, factor in row.terms)
        lack = max(0 if row.least is None else row.least - total, 0 if row.most is None else total - row.most)
        if not priced:
            assert lack <= 0, row
        elif lack > 0:
            price, unit, one = min(priced)
            assert lack <= sum(factor for _, factor, _ in priced), row
            if rows.costs.count(price) and sum((one, -1) in other.terms for other in rows.rows) > 1:
                shared.add(one)
            else:
                cost += -(-lack // unit) * price
    return cost + sum(rows.costs[one] for one in shared)


class Prices(unittest.TestCase):
    """Rules with a price: what the rows cost at least, and what the second reader says, are the same for each plan."""

    def compare(self, r, shapes, plans, most_rules=3):
        roster, month, rules, past = drawn_case(r, r.randint(2, 4), r.randint(3, 16), r.randint(1, most_rules), shapes)
        rules = rules._replace(rules=[rule._replace(price=r.randint(1, 9)) for rule in rules.rules])
        rows, variables = rows_of(roster, month, rules, past)
        found = Counter()
        for _ in range(plans):
            plan = drawn_plan(r, roster, past)
            missed = missed_by(plan_of(roster, rules, month, plan))
            self.assertEqual(cost_of_missed(rows, variables, plan), sum(one.cost for one in missed),
                             (rules.rules, month, plan, missed))
            self.assertEqual(broken_by(plan_of(roster, rules, month, plan)), [])
            found[bool(missed)] += 1
        return found

    def test_each_rule(self):
        for number, shape in enumerate(SHAPES):
            r, found = random.Random(number), Counter()
            with self.subTest(shape[0]):
                for _ in range(30):
                    found += self.compare(r, (shape,), 5, 1)
                self.assertGreater(min(found[False], found[True]), 2)

    def test_drawn_plans(self):
        found = Counter()
        for seed in range(500):
            found += self.compare(random.Random(2000 + seed), SHAPES, 4)
        self.assertGreater(min(found.values()), 300)


if __name__ == "__main__":
    unittest.main()
