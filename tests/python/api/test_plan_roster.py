"""Rosters with rules from Python: plans next to a search of all, own rows, and what is refused."""
import datetime
import subprocess
import unittest
import warnings
from decimal import Decimal
from fractions import Fraction

import nushbaret
from commands import InFolder, program
from optional import np, optimize, pd

DAYS = [datetime.date(2027, 3, day) for day in (5, 6, 7, 8)]
SHIFTS = {f"{kind} {day}": day for day in DAYS for kind in ("Early", "Night")}
WISHES = {"Ada": (3, 0, 4, 2, 6, 0, 5, 1), "Ben": (2, 1, 4, 1, 3, 5, 0, 7), "Cleo": (1, 6, 1, 8, 1, 4, 3, 9)}
COSTS = {(person, shift): cost for person, wishes in WISHES.items() for shift, cost in zip(SHIFTS, wishes)}
RULES = [("rest", "Night > Early"), ("Night per month", "2")]
TASKS = dict.fromkeys(WISHES, (2, 4))
# What is given, the kind of the fault, and a part of what is said.
REFUSED = (({"rules": [("resst", "Night > Early")]}, ValueError, "rules, line 1, column 1: 'resst' is no rule: did you "
            "mean 'rest'?"), ({"rules": [*RULES, ("apart", "", ["Ada", "Bne"])]}, ValueError,
                              "rules, line 3, column 3: the roster has no person 'Bne': did you mean 'Ben'?"),
           ({"rules": ["rest"]}, ValueError, "rules: 'rest' is no rule, value, names and price"),
           ({"seconds": "60"}, TypeError, "seconds is '60': it must be a number of seconds"),
           ({"seconds": -1}, ValueError, "seconds is -1: it must be a number of seconds, 0 or more"),
           ({"seconds": float("nan")}, ValueError, "seconds is nan: it must be a number of seconds, 0 or more"),
           ({"tasks": {"Zoe": 3}}, ValueError, "tasks: 'Zoe': 3: no cost has this name"),
           ({"places": {"Early 2027-03-05": (2, 1)}}, ValueError, "places: 'Early 2027-03-05': (2, 1)"),
           ({"places": {"Early 2027-03-05": "2"}}, ValueError, "places: 'Early 2027-03-05': '2'"),
           ({"fixed": [("Ada", "Late")]}, ValueError, "there is no object 'Late'"),
           ({"rows": [(0, {("Zoe", "Early 2027-03-05"): 1}, 1, "x")]}, ValueError, "there is no person 'Zoe'"),
           ({"rows": [(0, {("Ada", "Early 2027-03-05"): 0.5}, 1, "x")]}, ValueError,
            "rows: 'x': whole numbers are needed"), ({"rows": [(2, {("Ada", "Early 2027-03-05"): 1}, 1, "x")]},
                                                     ValueError, "rows: 'x': at least 2 and at most 1"),
           ({"rules": [*RULES, ("Night per month", "0", [])]}, ValueError,
            "rules, line 3, column 3: an empty list of names"),
           ({"rules": [("Night per month", "0", ["Ada", ""])]}, ValueError, "rules, line 1, column 3: an empty name"),
           ({"days": {**SHIFTS, "Cover": None}}, ValueError, "None is no day: an object without one isn't in days"),
           ({"days": {**SHIFTS, "Cover": float("nan")}}, ValueError, "nan is no day"),
           ({"before": [("Ada", None, "Night")]}, ValueError, "None is no day"),
           ({"before": [("Ada", "2027-03-04", "Night")] * 2}, ValueError,
            "before, line 2: the pair Ada, Night 2027-03-04, earlier a second time, after line 1"),
           ({"kinds": {"Late": "Late"}}, ValueError, "kinds: there is no object 'Late'"),
           ({"costs": {("Ada", "Early 2027-03-05"): float("nan")}}, ValueError,
            "the cost of ('Ada', 'Early 2027-03-05') is nan, which isn't finite"),
           ({"costs": {("Ada", "Early 2027-03-05"): "3"}}, TypeError, "the cost of ('Ada', 'Early 2027-03-05') is '3', "
            "which is no number"), ({"costs": {("Ada", "Early 2027-03-05"): 10**16}}, ValueError,
                                    "which has too many digits"), ({"days": {}}, ValueError, "no object has a day"),)


def planned(**given):
    """A plan of the roster above, with something else in its place."""
    words = {"costs": COSTS, "days": SHIFTS, "rules": RULES, "tasks": TASKS, "seconds": 900, **given}
    return nushbaret.plan_roster(words.pop("costs"), words.pop("days"), words.pop("rules"), **words)


class Refusals(unittest.TestCase):
    def test_refusals(self):
        for given, kind, text in REFUSED:
            with self.subTest(given), self.assertRaises(kind) as caught:
                planned(**given)
            self.assertIn(text, str(caught.exception))


@unittest.skipIf(optimize is None or np is None, "needs SciPy")
class Plans(InFolder):
    def test_numbers_of_numpys(self):
        found = planned(tasks={name: (np.int64(2), np.uint8(4)) for name in TASKS},
                        rows=[(np.int64(0), {("Ada", "Early 2027-03-05"): np.int8(1)}, np.int64(1), "x")])
        self.assertEqual((found.proved, found.cost), ("best", 6))

    def test_best(self):
        found = planned()
        self.assertEqual((found.proved, found.cost, found.better, found.reasons), ("best", 6, 0, []))
        self.assertEqual(sum(COSTS[pair] for pair in found.pairs), 6)
        self.assertEqual(planned(maximize=True).cost, 44)
        self.assertEqual(planned(fixed=[("Cleo", "Night 2027-03-05")]).cost, 15)
        self.assertEqual(planned(before=[("Cleo", DAYS[0] - datetime.timedelta(1), "Night")]).cost, 8)

    def test_what_no_rule_looks_at(self):
        """Objects without a day, and persons of earlier days without a cost, are named to the caller, at its line."""
        costs = {**COSTS, ("Ada", "Cover"): 5, ("Ben", "Cover"): 4, ("Ben", "Visit"): 1}
        for given, lines in (({"costs": {**COSTS, ("Ben", "Cover"): 4}},
                              ["days: none for 1 object (Cover): no rule looks at it"]),
                             ({"costs": costs, "before": [("Zoe", DAYS[0] - datetime.timedelta(1), "Night")]},
                              ["days: none for 2 objects (Cover, Visit): no rule looks at them",
                               "before: the roster has no Zoe"]),
                             ({"costs": COSTS, "kinds": {shift: shift[:5] for shift in list(SHIFTS)[1:]}},
                              ["kinds: none for 1 object (Early 2027-03-05): no rule of kinds looks at it"]),
                             ({"costs": COSTS, "rules": [("holiday", "2027-03-09")]},
                              ["rules: 1 holiday isn't a day of the roster (2027-03-09)"]),
                             ({"costs": COSTS, "kinds": {shift: shift[0] if number else "n" for number, shift in
                                                         enumerate(reversed(SHIFTS))}, "rules": []},
                              ["kinds: the kinds 'N', 'n' differ in case or spaces alone"])):
            with warnings.catch_warnings(record=True) as caught:
                warnings.simplefilter("always")
                costs, rules = given.pop("costs"), given.pop("rules", RULES)
                self.assertEqual(nushbaret.plan_roster(costs, SHIFTS, rules, tasks=TASKS, seconds=900, **given).proved,
                                 "best")
            self.assertEqual([str(own.message) for own in caught], lines)
            self.assertEqual({(own.category, own.filename) for own in caught}, {(UserWarning, __file__)})

    def test_no_warning(self):
        with warnings.catch_warnings():
            warnings.simplefilter("error")
            self.assertEqual(planned(seconds=Decimal(900), before=[("Cleo", DAYS[0] - datetime.timedelta(1),
                                                                    "Night")]).cost, 8)

    def test_exact_costs(self):
        for unit, cost in ((Decimal("0.1"), Decimal("0.6")), (Fraction(1, 3), Fraction(2)), (0.25, Decimal("1.5"))):
            with self.subTest(unit):
                self.assertEqual(planned(costs={pair: unit * cost for pair, cost in COSTS.items()}).cost, cost)

    @unittest.skipUnless(np, "NumPy isn't there")
    def test_costs_of_numpy(self):
        """Floats of any size are the decimals that they print as."""
        for kind, unit in (np.int64, 1), (np.float32, Decimal("0.1")), (np.float16, Decimal("0.1")):
            costs = {pair: kind(unit * cost) for pair, cost in COSTS.items()}
            self.assertEqual(planned(costs=costs).cost, 6 * unit)

    def test_dates_with_times(self):
        """They are the same days as dates without, so that weeks are the same."""
        for kind in datetime.datetime, *([pd.Timestamp] if pd else []):
            found = planned(days={shift: kind(day.year, day.month, day.day) for shift, day in SHIFTS.items()},
                            rules=[("shifts per week", "2")], before=[("Cleo", kind(2027, 2, 28), "Night")])
            self.assertEqual((found.proved, len(found.pairs or ())), ("best", 8))

    def test_fixed_pairs_beyond_a_count(self):
        costs = {(person, shift): 1 for person in ("Ada", "Ben") for shift in ("E1", "E2")}
        found = nushbaret.plan_roster(costs, {"E1": "Mon", "E2": "Tue"}, [("days in a row", "2")],
                                      tasks={"Ada": (0, 1), "Ben": (0, 2)}, fixed=[("Ada", "E1"), ("Ada", "E2")])
        self.assertEqual((found.proved, found.reasons), ("impossible", ["fixed (Ada: E1, Ada: E2)",
                                                                        "at most 1 object (Ada)"]))

    def test_own_rows(self):
        """Without her two nights Ada takes others; a row that can't be kept is named."""
        nights = {("Ada", shift): 1 for shift in SHIFTS if shift.startswith("Night")}
        found = planned(rows=[(None, nights, 1, "Ada has at most one night")])
        self.assertEqual(found.proved, "best")
        self.assertGreater(found.cost, 6)
        self.assertLessEqual(sum(pair in nights for pair in found.pairs), 1)
        found = planned(rows=[(3, nights, None, "Ada has three nights")])
        self.assertEqual((found.proved, found.pairs, found.cost, found.is_minimal), ("impossible", None, None, True))
        self.assertEqual(found.reasons, ["Ada has three nights",
                                         "Night per month: 2 (Ada)"][::1 if found.reasons[0][0] == "A" else -1])

    def test_evenness_and_certificates(self):
        found = planned(rules=[RULES[0], ("even", "Night")])
        self.assertEqual((found.proved, found.cost, found.even), ("best", 13, [("even: Night", 1, 2)]))
        found.write_certificate("c.txt")
        self.assertEqual(program("--check", "c.txt", stdout=subprocess.DEVNULL).returncode, 0)
        with self.assertRaisesRegex(ValueError, "nothing was proved"):
            found._replace(certificate=None).write_certificate("c.txt")


@unittest.skipIf(optimize is None or np is None, "needs SciPy")
class Prices(unittest.TestCase):
    COSTS = {("Ada", "N1"): 1, ("Ada", "N2"): 2, ("Ada", "N3"): 1, ("Ben", "N1"): 4}
    DAYS = {"N1": "Mon", "N2": "Tue", "N3": "Wed"}

    def plan(self, rules, **words):
        return nushbaret.plan_roster(self.COSTS, self.DAYS, rules, kinds=dict.fromkeys(self.DAYS, "Night"),
                                     places={"N2": (0, 1)}, **words)

    def test_what_is_missed(self):
        """Half a unit more for each night above one, and what is wanted at N2 is worth it or isn't."""
        plan = self.plan([("Night per month", "1", "", 0.5)], wanted={"N2": (1, 6)})
        self.assertEqual((plan.proved, float(plan.cost), float(plan.missed_cost)), ("best", 4, 1))
        self.assertEqual([(text, amount, float(cost)) for text, amount, cost in plan.missed],
                         [("Ada: 3 Night (Night per month: 1)", 2, 1.0)])
        plan = self.plan([("Night per month", "1", "", 5)], wanted={"N2": (1, 6)})
        self.assertEqual((plan.pairs, plan.cost, plan.missed_cost), ([("Ada", "N3"), ("Ben", "N1")], 5, 6))

    def test_refused(self):
        for words, fault in ((([("Night per month", "1", "", 0)], {}), "rules, line 1: the price 0 isn't above 0"),
                             (([], {"wanted": {"N4": (1, 2)}}), "wanted: there is no object 'N4'"),
                             (([], {"wanted": {"N1": (2, 2)}}), "wanted: 'N1': 2, where 1 to 1 may be"),
                             (([("even", "Night", "", 2)], {}), "'even' has no price")):
            with self.subTest(fault), self.assertRaisesRegex(ValueError, fault):
                self.plan(words[0], **words[1])


if __name__ == "__main__":
    unittest.main()
