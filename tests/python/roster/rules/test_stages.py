"""Small rosters with rules next to a search of all plans, in which the second reader judges; and the reasons where no
plan keeps them."""
import itertools
import random
import unittest

from nushbaret.roster.answer import Request
from nushbaret.roster.month import month_of
from nushbaret.roster.roster import Bounds, PlanLine, Takes, Wanted
from nushbaret.roster.rules.roster_model import built
from nushbaret.roster.rules.rule_file import RuleLine, rules_of
from nushbaret.roster.rules.rules_kept import broken_by, missed_by, plan_of
from nushbaret.roster.rules.short_sums import shorts_of, sums_of
from nushbaret.roster.rules.stages import Task, answer_by_rules
from nushbaret.rows.certificate_check import shows
from nushbaret.rows.finding import find
from nushbaret.rows.model import Model, Row
from drawn_rules import SHAPES, drawn_lines, roster_of, with_earlier, with_past
from optional import np, optimize

MOST_PLANS = 4000
# More than any of these takes on a busy machine.
SECONDS = 900


def drawn(seed):
    """A roster with counts and rules of which not too many plans are to be searched, its calendar, rules and past."""
    r = random.Random(seed)
    roster, first = roster_of(r, r.randint(1, 3), r.randint(2, 6), r.random() < 0.5, r.uniform(0.3, 0.6))
    past, before = [], None
    if r.random() < 0.3:
        roster, before = with_earlier(r, roster, first, roster.groups.names[0][0] == "2")
    if r.random() < 0.3:
        roster, past = with_past(r, roster)
    persons, objects = range(len(roster.persons)), range(len(roster.objects))
    least = {object_: int(r.random() < 0.25) for object_ in objects if object_ not in roster.past}
    most = [r.randint(2, 5) for _ in persons], [r.randint(1, 2) for _ in objects]
    roster = roster._replace(takes=Takes(
        {person: Bounds(r.choice((0, 0, 1, 2)), most[0][person]) for person in persons},
        {object_: Bounds(least.get(object_, 0), most[1][object_]) for object_ in objects}, False))
    shapes = SHAPES if len(persons) > 1 else [shape for shape in SHAPES if not shape[2]]
    month = month_of(roster, roster.groups, "g.csv", before)
    rules = rules_of("r.csv", drawn_lines(r, roster.persons, r.randint(1, 3), shapes), roster, month)
    options = options_of(roster)
    count = 1
    for own in options:
        count *= len(own)
    return (roster, month, rules, past, options) if count <= MOST_PLANS else drawn(seed + 100000)


def options_of(roster):
    """What each person may have on each day: nothing, or one of its pairs."""
    allowed = {}
    for person, object_, cost in zip(roster.of_persons, roster.of_objects, roster.costs):
        if object_ not in roster.past:
            allowed.setdefault((person, roster.groups.of_objects[object_]),
                               []).append(PlanLine(person, object_, 2, cost))
    return [[None, *own] for own in allowed.values()]


def keeps_counts(roster, plan):
    """Whether the counts are kept; what the past alone exceeds can't be kept."""
    for side, bounds_of in enumerate(roster.takes[:2]):
        for number, bounds in bounds_of.items():
            own = [pair for pair in plan if pair[side] == number]
            past = sum(pair.object in roster.past for pair in own)
            if len(own) < bounds.least or len(own) > max(bounds.most, past) and (side == 0
                                                                                 or number not in roster.past):
                return False
    return True


def without_least(roster, side):
    """The roster in which no person (side 0), or no object, has a least count."""
    sides = list(roster.takes[:2])
    sides[side] = {number: Bounds(0, bounds.most) for number, bounds in sides[side].items()}
    return roster._replace(takes=Takes(*sides, False))


def searched(roster, month, rules, past, options):
    """The least cost of all plans that keep counts and rules; None where none does."""
    best = None
    for choice in itertools.product(*options):
        plan = [*past, *filter(None, choice)]
        cost = sum(pair.cost for pair in plan)
        if (best is None or cost < best) and keeps_counts(roster,
                                                          plan) and not broken_by(plan_of(roster, rules, month, plan)):
            best = cost
    return best


def costs_of_all(roster, month, rules, past, options):
    """What each plan that keeps counts and rules costs with what it misses of those with a price, in order."""
    return sorted(sum(pair.cost for pair in plan) + sum(one.cost for one in missed_by(plan_of(roster, rules, month,
                                                                                              plan)))
                  for plan in ([*past, *filter(None, choice)] for choice in itertools.product(*options))
                  if keeps_counts(roster, plan) and not broken_by(plan_of(roster, rules, month, plan)))


def side_by_side(models):
    """One model of several that have nothing to do with each other: its least cost is the sum of theirs."""
    costs, rows, persons, starts = [], [], [], []
    for number, model in enumerate(models):
        start = len(costs)
        starts.append(start)
        rows += [Row(row.least, tuple((variable + start, factor) for variable, factor in row.terms), row.most,
                     f"{number}: {row.text}", None) for row in model.rows]
        costs += model.costs
        persons += [None] * model.variables
    return Model(len(costs), tuple(costs), tuple(rows), tuple(persons)), starts


@unittest.skipIf(optimize is None or np is None, "needs SciPy")
class AllPlans(unittest.TestCase):
    def test_500_rosters(self):
        impossible = 0
        for begin in range(0, 500, 50):
            cases = [drawn(seed) for seed in range(begin, begin + 50)]
            costs = [searched(*case) for case in cases]
            found = [built(roster, rules, month, Request(past)) for roster, month, rules, past, _ in cases]
            possible = [place for place, cost in enumerate(costs) if cost is not None]
            model, starts = side_by_side([found[place].rows.model() for place in possible])
            finding = find(model, SECONDS)
            self.assertEqual(finding.kind, "best")
            self.assertEqual(finding.cost + sum(pair.cost for place in possible for pair in cases[place][3]),
                             sum(costs[place] for place in possible))
            for place, start in zip(possible, starts):
                self.judge(cases[place], found[place], costs[place], finding.plan[start:])
            impossible += self.count_impossible([found[place].rows.model() for place, cost in enumerate(costs)
                                                 if cost is None])
        self.assertGreater(impossible, 60)

    def judge(self, case, found, cost, values):
        """Each part of the plan keeps its rules at its least cost."""
        roster, month, rules, past, _ = case
        costs = roster.costs_of(set(found.pairs))
        plan = past + [PlanLine(*pair, 2, costs[pair]) for pair, value in zip(found.pairs, values) if value]
        self.assertEqual(sum(pair.cost for pair in plan), cost)
        self.assertTrue(keeps_counts(roster, plan))
        self.assertEqual(broken_by(plan_of(roster, rules, month, plan)), [])

    def count_impossible(self, models):
        """HiGHS finds no plan of these either."""
        for model in models:
            self.assertFalse(has_plan(model, model.rows))
        return len(models)


def has_plan(model, rows):
    """Whether HiGHS finds a plan that meets some rows of a model."""
    if any((row.least or 0) > 0 or row.most is not None and row.most < 0 for row in rows if not row.terms):
        return False
    matrix = np.zeros((len(rows), model.variables))
    for number, row in enumerate(rows):
        for variable, factor in row.terms:
            matrix[number, variable] = factor
    sides = [[-np.inf if row.least is None else row.least for row in rows],
             [np.inf if row.most is None else row.most for row in rows]]
    constraints = optimize.LinearConstraint(matrix, *sides) if rows else ()
    found = optimize.milp(np.zeros(model.variables), constraints=constraints, integrality=np.ones(model.variables),
                          bounds=optimize.Bounds(0, 1))
    return found.status == 0


@unittest.skipIf(optimize is None or np is None, "needs SciPy")
class Reasons(unittest.TestCase):
    def test_none_can_be_left_out(self):
        tried = 0
        for seed in range(2000, 2200):
            case = drawn(seed)
            if tried == 12 or searched(*case) is not None:
                continue
            tried += 1
            roster, month, rules, past, _ = case
            found = built(roster, rules, month, Request(past))
            finding = find(found.rows.model(), SECONDS)
            self.assertEqual((finding.kind, finding.is_minimal), ("impossible", True))
            model = found.rows.model()
            self.assertFalse(has_plan(model, [row for row in model.rows if row.text in finding.reasons]))
            for left in finding.reasons:
                self.assertTrue(has_plan(model, [row for row in model.rows if row.text in finding.reasons
                                                 and row.text != left]), left)
        self.assertEqual(tried, 12)

    def test_sums(self):
        """No plan that keeps rules and the counts of persons has more of a sum that is short than is said, and each
        certificate of it is refused with one more."""
        tried = exact = 0
        for seed in itertools.count(4000):
            case = drawn(seed)
            if searched(*case) is not None:
                continue
            roster, month, rules, past, options = case
            found = built(roster, rules, month, Request(past))
            sums = sums_of(found, month)
            finding = find(found.rows.model(), SECONDS, sums=[own.rows for own in sums])
            self.assertTrue(finding.conflicts or finding.shortages)
            loose = without_least(roster, 1)
            plans = [plan for plan in ([*past, *filter(None, choice)] for choice in itertools.product(*options))
                     if keeps_counts(loose, plan) and not broken_by(plan_of(loose, rules, month, plan))]
            for short in shorts_of(found, sums, finding.shortages):
                had = [sum(pair.object in short.objects for pair in plan) for plan in plans]
                self.assertLessEqual(max(had, default=0), short.had)
                self.assertEqual(short.wanted, sum(roster.of_object(object_).least for object_ in short.objects))
                self.assertLess(short.had, short.wanted)
                tried, exact = tried + 1, exact + (max(had, default=0) == short.had)
            for one in finding.shortages:
                last = one.certificate.rows[-1]
                less = (*one.certificate.rows[:-1], last._replace(least=one.had))
                self.assertFalse(shows(one.certificate._replace(rows=less)))
            if tried >= 30:
                break
        self.assertGreater(exact, 20)

    def test_least_counts_are_missed_and_no_rule(self):
        """With as many as can the plan misses the fewest, and then costs the least."""
        tried = 0
        for seed in range(3000, 3200):
            case = drawn(seed)
            if tried == 8 or searched(*case) is not None:
                continue
            roster, month, rules, past, options = case
            best = self.fewest(*case)
            tried += best is not None
            answer, proved = answer_by_rules(Task(roster, month, rules, Request(past, fullest=True), SECONDS))
            if best is None:
                self.assertIsNone(answer.plan)
                continue
            self.assertEqual((proved.kind, proved.missing, proved.least_missing, answer.plan.cost),
                             ("best", best[0], best[0], best[1]))
        self.assertEqual(tried, 8)

    def fewest(self, roster, month, rules, past, options):
        best = None
        for choice in itertools.product(*options):
            plan = [*past, *filter(None, choice)]
            own = [sum(pair[side] == number for pair in plan) for side in range(2)
                   for number in range(len((roster.persons, roster.objects)[side]))]
            least = [bounds.least for bounds_of in roster.takes[:2] for _, bounds in sorted(bounds_of.items())]
            judged = sum(max(0, wanted - had) for wanted, had in zip(least, own)), sum(pair.cost for pair in plan)
            loose = without_least(without_least(roster, 0), 1)
            if (best is None or judged < best) and keeps_counts(loose,
                                                                plan) and not broken_by(plan_of(roster, rules, month,
                                                                                                plan)):
                best = judged
        return best


@unittest.skipIf(optimize is None or np is None, "needs SciPy")
class Prices(unittest.TestCase):
    """Rules and places with a price, next to a search of all plans: the least sum of costs and prices."""

    COUNT = 60

    @staticmethod
    def drawn(seed):
        roster, month, rules, past, options = drawn(seed)
        r = random.Random(seed)
        rules = rules._replace(rules=[rule._replace(price=r.choice((None, 1, 3, 7))) for rule in rules.rules])
        wanted = {object_: Wanted(r.randint(bounds.least, bounds.most), r.randint(1, 5))
                  for object_, bounds in roster.takes.objects.items() if object_ not in roster.past
                  and r.random() < 0.5}
        return roster._replace(wanted=wanted), month, rules, past, options

    def test_best(self):
        missed = 0
        for seed in itertools.count(7000):
            roster, month, rules, past, _ = case = self.drawn(seed)
            costs = costs_of_all(*case)
            if not costs:
                continue
            answer, proved = answer_by_rules(Task(roster, month, rules, Request(past), SECONDS))
            self.assertEqual((proved.kind, answer.plan.cost + proved.missed_cost), ("best", costs[0]), seed)
            self.check(proved.certificate)
            missed += bool(proved.missed)
            if seed >= 7000 + self.COUNT:
                break
        self.assertGreater(missed, self.COUNT // 4)

    def check(self, certificate):
        """It holds, and not of a plan that costs one less."""
        self.assertTrue(shows(certificate))
        last = certificate.rows[-1]
        less = (*certificate.rows[:-1], last._replace(most=last.most + 1))
        self.assertFalse(shows(certificate._replace(rows=less)))


@unittest.skipIf(optimize is None or np is None, "needs SciPy")
class Following(unittest.TestCase):
    """The plans after the best one, next to all plans by their cost with what they miss."""

    FIRST, COUNT, PLANS = 7106, 6, 3

    def test_next_plans(self):
        kinds = {"only one": 0, "several": 0, "none": 0}
        for seed in itertools.count(self.FIRST):
            roster, month, rules, past, options = case = Prices.drawn(seed)
            costs = costs_of_all(*case)
            if not costs:
                continue
            answer, proved = answer_by_rules(Task(roster, month, rules, Request(past, plans=self.PLANS), SECONDS))
            found = [answer.plan.cost + proved.missed_cost]
            seen = [sorted(answer.plan.pairs)]
            for one in proved.following:
                self.assertTrue(shows(one.certificate), seed)
                if one.plan is None:
                    self.assertTrue(one.is_none, seed)
                    continue
                self.assertEqual(one.better, 0, seed)
                found.append(one.plan.cost + one.missed_cost)
                seen.append(sorted(one.plan.pairs))
            self.assertEqual(found, costs[:self.PLANS], seed)
            self.assertEqual(len(proved.following), min(len(costs), self.PLANS - 1), seed)
            self.assertEqual(len({tuple(plan) for plan in seen}), len(seen), seed)
            kinds["none" if len(costs) < self.PLANS else "several" if costs[0] == costs[1] else "only one"] += 1
            if sum(kinds.values()) >= self.COUNT and all(kinds.values()):
                break

    def test_whether_another_is_as_good(self):
        for seed in range(self.FIRST, self.FIRST + 2):
            roster, month, rules, past, _ = case = Prices.drawn(seed)
            costs = costs_of_all(*case)
            if costs:
                answer, proved = answer_by_rules(Task(roster, month, rules, Request(past, others=True), SECONDS))
                following, = proved.following
                self.assertEqual(None if following.plan is None else following.plan.cost + following.missed_cost,
                                 costs[1] if len(costs) > 1 else None, seed)


def most_even(roster, month, rules, past, options):
    """The least excess of each rule of evenness, in order, and then the least cost, of all plans that keep counts and
    rules."""
    best = None
    even = [rule for rule in rules.rules if rule.what == "even"]
    allowed = {(person, object_) for person, object_ in zip(roster.of_persons, roster.of_objects)
               if object_ not in roster.past}
    for choice in itertools.product(*options):
        plan = [*past, *filter(None, choice)]
        judged = (*(excess_of(rule, month, plan, allowed) for rule in even), sum(pair.cost for pair in plan))
        if (best is None or judged < best) and keeps_counts(roster,
                                                            plan) and not broken_by(plan_of(roster, rules, month,
                                                                                            plan)):
            best = judged
    return best


def excess_of(rule, month, plan, allowed):
    """By how much more than one the counts of those who may have any shift of a rule of evenness differ."""
    def counts(object_):
        shift = month.shifts[object_]
        return (rule.kinds is None or shift.kind in rule.kinds) and (not rule.of_weekends
                                                                     or month.is_weekend(shift.day))
    had = [(pair.person, pair.object) for pair in plan if counts(pair.object)]
    persons = {person for person, object_ in [*had, *allowed] if person in rule.persons and counts(object_)}
    numbers = [sum(person == own for own, _ in had) for person in persons]
    return max(0, max(numbers, default=0) - min(numbers, default=0) - 1)


@unittest.skipIf(optimize is None or np is None, "needs SciPy")
class Evenness(unittest.TestCase):
    FIRST, COUNT = 5000, 4

    def test_evenness_before_cost(self):
        tried = 0
        for seed in itertools.count(self.FIRST):
            roster, month, rules, past, options = drawn(seed)
            r = random.Random(seed)
            lines = [RuleLine("even", r.choice(("Night", "Early, Late", "shifts", "weekend shifts")),
                              r.choice(("", ", ".join(roster.persons[:2]))), number)
                     for number in range(2, 2 + r.randint(1, 2))]
            own = rules_of("r.csv", lines, roster, month)
            # Of other rules few are kept, so that there are plans.
            rules = rules._replace(rules=[*rules.rules[:1], *own.rules])
            best = most_even(roster, month, rules, past, options)
            if best is None:
                continue
            answer, proved = answer_by_rules(Task(roster, month, rules, Request(past), SECONDS))
            even = [max(0, one.most - one.least - 1) for one in proved.even]
            self.assertEqual((proved.kind, proved.is_most_even, answer.plan.cost, sum(even)),
                             ("best", True, best[-1], sum(best[:-1])), seed)
            tried += 1
            if tried == self.COUNT:
                break


if __name__ == "__main__":
    unittest.main()
