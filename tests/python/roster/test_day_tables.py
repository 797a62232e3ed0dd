"""The tables of days that pages and workbooks draw: weeks, totals, days off, what is fixed and what changed."""
import random
import unittest
from collections import Counter
from datetime import date, timedelta

from nushbaret.roster.answer import Pair, NamedPlan
from nushbaret.roster.day_tables import blocks_of
from nushbaret.roster.roster import Bounds, Groups, OldPlan, Takes
from roster.test_planners import roster_of


def roster_by_days(names, persons=2, allowed=None):
    """A roster with an early and a late shift in each group, and one object in none."""
    count = 2 * len(names) + 1
    costs = {(person, object_): 1 for person in range(persons) for object_ in range(count) if allowed is None
             or (person, object_) in allowed}
    objects = [f"{shift} {name}" for name in names for shift in ("early", "late")] + ["office"]
    return roster_of(persons, count, costs)._replace(
        objects=objects, object_numbers={name: number for number, name in enumerate(objects)},
        groups=Groups("day", list(names), {number: number // 2 for number in range(count - 1)}))


def plan_of(pairs, fixed=()):
    return NamedPlan([Pair(person, object_, 1, (person, object_) in fixed) for person, object_ in sorted(pairs)],
                     len(pairs), [], [], {})


class Weeks(unittest.TestCase):
    def test_from_monday(self):
        names = [(date(2027, 3, 3) + timedelta(days=number)).strftime("%d.%m.%Y") for number in range(12)]
        weeks = blocks_of(roster_by_days(names), plan_of([]))
        self.assertEqual([[day.name[:5] for day in week.days] for week in weeks],
                         [["", "", "03.03", "04.03", "05.03", "06.03", "07.03"],
                          ["08.03", "09.03", "10.03", "11.03", "12.03", "13.03", "14.03"], [""]])
        self.assertEqual([day.weekday for day in weeks[0].days], ["Mon", "Tue", "Wed", "Thu", "Fri", "Sat", "Sun"])
        self.assertEqual([day.is_weekend for day in weeks[1].days], [False] * 5 + [True] * 2)
        self.assertEqual([day.has_objects for day in weeks[0].days], [False] * 2 + [True] * 5)
        self.assertEqual([week.caption for week in weeks],
                         ["day 03.03.2027 to 07.03.2027", "day 08.03.2027 to 14.03.2027", ""])

    def test_by_date(self):
        """Dates in any order, weekdays without any left out, and a week without any left out."""
        week, = blocks_of(roster_by_days(["Fr 05.03.", "Mo 01.03.2027"]), plan_of([]))[:1]
        self.assertEqual([(day.name, day.weekday, day.group) for day in week.days],
                         [("Mo 01.03.2027", "", 1), ("Fr 05.03.", "", 0)])
        weeks = blocks_of(roster_by_days(["2027-03-20", "2027-03-01"]), plan_of([]))
        self.assertEqual([[day.name for day in week.days] for week in weeks],
                         [["2027-03-01", ""], ["", "2027-03-20"], [""]])

    def test_seven_columns(self):
        weeks = blocks_of(roster_by_days([f"{number}" for number in range(1, 17)]), plan_of([]))
        self.assertEqual([len(week.days) for week in weeks], [7, 7, 3])
        self.assertEqual([week.caption for week in weeks], ["day 1 to 7", "day 8 to 14", "day 15 to 16"])
        week = blocks_of(roster_by_days(["Fri", "Sat", "Sun"]), plan_of([]))[0]
        self.assertEqual(([day.is_weekend for day in week.days], week.caption), ([False, True, True, False], ""))

    def test_each_day_once(self):
        draw = random.Random(1)
        for case in range(500):
            days = sorted(draw.sample(range(60), draw.randint(1, 20)))
            names = [(date(2026, 12, 10) + timedelta(days=day)).isoformat() for day in days]
            shuffled = draw.sample(names, len(names))
            roster = roster_by_days(shuffled)
            plan = plan_of([(person, object_) for person in range(2) for object_ in range(len(roster.objects))
                            if draw.random() < 0.3])
            weeks = blocks_of(roster, plan)
            with self.subTest(case=case):
                self.assertEqual([day.name for week in weeks for day in week.days if day.name], names)
                entries = Counter((row.person, entry.object) for week in weeks for row in week.persons
                                  for cell in row.cells for entry in cell.entries)
                self.assertEqual(entries, Counter((pair.person, pair.object) for pair in plan.pairs))
                who = [name for week in weeks for row in week.objects for place in row.staff if place
                       for name in place.persons]
                self.assertEqual(Counter(who), Counter(roster.persons[pair.person] for pair in plan.pairs))
                for week in weeks:
                    self.assertEqual(sum(row.total for row in week.persons), sum(week.totals))
                    self.assertLessEqual(len({date.fromisoformat(day.name).isocalendar()[:2] for day in week.days
                                              if day.name}), 1)
                self.assertEqual(sum(map(sum, (week.totals for week in weeks))), len(plan.pairs))


class Cells(unittest.TestCase):
    def test_totals_and_days_off(self):
        # The first person may work on Mon alone, the other everywhere.
        roster = roster_by_days(["Mon", "Tue"], 2, {(0, 0), (0, 1), *((1, object_) for object_ in range(5))})
        week, = blocks_of(roster, plan_of([(0, 0), (1, 1), (1, 3)], {(1, 3)}))
        self.assertEqual([[[entry.label for entry in cell.entries] for cell in row.cells] for row in week.persons],
                         [[["early"], [], []], [["late"], ["late"], []]])
        self.assertEqual([[cell.is_off for cell in row.cells] for row in week.persons],
                         [[False, True, True], [False] * 3])
        self.assertEqual([(row.total, row.whole) for row in week.persons], [(1, 1), (2, 2)])
        self.assertEqual(week.totals, [2, 1, 0])
        self.assertTrue(week.persons[1].cells[1].entries[0].is_fixed)
        self.assertEqual([(row.label, [place and place.persons for place in row.staff]) for row in week.objects],
                         [("early", [["p0"], [], None]), ("late", [["p1"], ["p1"], None]),
                          ("office", [None, None, []])])

    def test_changes(self):
        """A cell changed where a pair came and where one went; names that are gone have no cell."""
        roster = roster_by_days(["Mon", "Tue"])
        kept = OldPlan("k.csv", [("p0", "early Mon"), ("p0", "early Tue"), ("p1", "late Mon"), ("p9", "late Tue")], [],
                       ["p9"], [])
        week, = blocks_of(roster, plan_of([(0, 0), (1, 0), (1, 3)]), kept)
        self.assertEqual([[cell.is_changed for cell in row.cells] for row in week.persons],
                         [[False, True, False], [True, True, False]])
        self.assertEqual([[entry.is_new for entry in cell.entries] for cell in week.persons[1].cells],
                         [[True], [True], []])
        self.assertEqual([[cell.gone for cell in row.cells] for row in week.persons],
                         [[[], ["early"], []], [["late"], [], []]])

    def test_past(self):
        """What is past is given, but not as fixed pairs are."""
        roster = roster_by_days(["Mon", "Tue"])._replace(past=frozenset((0, 1)))
        week, = blocks_of(roster, plan_of([(0, 0), (0, 2)], {(0, 0), (0, 2)}))
        self.assertEqual([day.is_past for day in week.days], [True, False, False])
        self.assertEqual([[entry.is_fixed for entry in cell.entries] for cell in week.persons[0].cells],
                         [[False], [True], []])
        roster = roster_by_days(["2027-03-02", "2027-03-01"])._replace(past=frozenset((2, 3)))
        self.assertEqual([(day.is_past, day.when) for day in blocks_of(roster, plan_of([]))[0].days],
                         [(True, date(2027, 3, 1)), (False, date(2027, 3, 2))])

    def test_missing(self):
        roster = roster_by_days(["Mon"])
        others = dict.fromkeys(range(len(roster.objects)), Bounds(0, 1))
        roster = roster._replace(takes=Takes({}, {**others, 0: Bounds(2, 3)}, False))
        week, = blocks_of(roster, plan_of([(0, 0)]))
        self.assertEqual([row.staff[0] for row in week.objects if row.label == "early"], [(["p0"], (1, 2), 0)])


if __name__ == "__main__":
    unittest.main()
