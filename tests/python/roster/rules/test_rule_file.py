"""Files of rules: what is read, and what is refused with its line, its column and the nearest word; and the
calendar."""
import datetime
import random
import unittest
from fractions import Fraction

from nushbaret.roster.month import Before, month_of
from nushbaret.roster.roster import Earlier, Groups
from nushbaret.roster.rules.rule_file import RuleLine, Rule, rules_of
from nushbaret.roster.sheets import RosterFault
from drawn_rules import roster_of

ALL = (0, 1, 2)
KINDS = frozenset(("Early", "Late", "Night"))
# A line, and the rule that it is.
READ = ((("rest", "Late > Early", ""), Rule("rest", "rest: Late > Early", ALL, frozenset(["Late"]),
                                            frozenset(["Early"]))),
        (("REST", "nights>early, late", "Ada"), Rule("rest", "rest: nights>early, late", (0,), frozenset(["Night"]),
                                                     frozenset(["Early", "Late"]))),
        (("rest", "Night > shift", ""), Rule("rest", "rest: Night > shift", ALL, frozenset(["Night"]),
                                            KINDS | {""})),
        (("days in a row", "5", ""), Rule("run", "days in a row: 5", ALL, most=Fraction(5))),
        (("Night in  a row", "2\u20134", "Ben, Ada"), Rule("run", "Night in a row: 2\u20134", (1, 0),
                                                           frozenset(["Night"]), None, Fraction(2), Fraction(4))),
        (("no single", "Night", ""), Rule("run", "no single: Night", ALL, frozenset(["Night"]), None, Fraction(2))),
        (("shifts per week", "2-5", ""), Rule("count", "shifts per week: 2-5", ALL, None, None, Fraction(2),
                                              Fraction(5), "week")),
        (("Nights per month", "3-", ""), Rule("count", "Nights per month: 3-", ALL, frozenset(["Night"]), None,
                                              Fraction(3))),
        (("weekend shifts per month", "4", ""), Rule("count", "weekend shifts per month: 4", ALL, most=Fraction(4),
                                                     of_weekends=True)),
        (("hours per month", "120,5-160.25", "Cleo"), Rule("hours", "hours per month: 120,5-160.25", (2,),
                                                           least=Fraction("120.5"), most=Fraction("160.25"))),
        (("free weekends", "2", ""), Rule("free weekends", "free weekends: 2", ALL, least=Fraction(2))),
        (("free weekend", "1-3", ""), Rule("free weekends", "free weekend: 1-3", ALL, least=Fraction(1),
                                           most=Fraction(3))),
        (("whole weekends", "yes", "Ada"), Rule("whole weekends", "whole weekends", (0,))),
        (("at least 1 on", "each Night", "Ada; Ben"), Rule("staff", "at least 1 of Ada, Ben on each Night", (0, 1),
                                                           frozenset(["Night"]), None, Fraction(1))),
        (("at most 2 on", "", "Ada,Ben,Cleo"), Rule("staff", "at most 2 of Ada, Ben, Cleo on each", ALL, None, None,
                                                    None, Fraction(2))),
        (("apart", "", "Ada, Cleo"), Rule("apart", "apart: Ada, Cleo", (0, 2))),
        (("together", "", "Ada, Cleo"), Rule("together", "together: Ada, Cleo", (0, 2))),
        (("even", "Night", ""), Rule("even", "even: Night", ALL, frozenset(["Night"]))),
        (("even", "weekend shifts", ""), Rule("even", "even: weekend shifts", ALL, of_weekends=True)),
        (("rest", "11 hours", ""), Rule("pause", "rest: 11 hours", ALL, length=660)),
        (("rest", "10,5 h", "Ada"), Rule("pause", "rest: 10,5 h", (0,), length=630)),
        (("days off in a row", "2-", ""), Rule("days off", "days off in a row: 2-", ALL, least=Fraction(2))),
        (("weekends in a row", "2", ""), Rule("weekends in a row", "weekends in a row: 2", ALL, most=Fraction(2))),
        (("shifts in 7 days", "5", ""), Rule("window", "shifts in 7 days: 5", ALL, most=Fraction(5), length=7)),
        (("Night in 14 days", "1-3", ""), Rule("window", "Night in 14 days: 1-3", ALL, frozenset(["Night"]), None,
                                               Fraction(1), Fraction(3), length=14)),
        (("free after Night Night", "2", "Ben"), Rule("free after", "free after Night Night: 2", (1,),
                                                      frozenset(["Night"]), None, Fraction(2), length=2)),
        (("free after", "Night: 1", ""), Rule("free after", "free after Night: 1", ALL, frozenset(["Night"]), None,
                                              Fraction(1), length=1)),
        (("free after", "Night Night", "2"), Rule("free after", "free after Night Night: 2", ALL,
                                                  frozenset(["Night"]), None, Fraction(2), length=2)),)
# A line, the column of the fault, and what is said.
REFUSED = (
    (("resst", "Late > Early", ""), 1, "'resst' is no rule: did you mean 'rest'?"),
    (("Nihgt per month", "4", ""), 1, "no kind of shift is 'Nihgt': did you mean 'Night'?"),
    (("Office per week", "4", ""), 1, "no kind of shift is 'Office': the kinds are Early, Late, Night"),
    (("shift per weak", "4", ""), 1, "'shift per weak' is no rule: did you mean 'shifts per week'?"),
    (("", "4", ""), 1, "no rule"),
    (("beauty sleep of nine hours", "", ""), 1, "'beauty sleep of nine hours' is no rule"),
    (("rest", "Late", ""), 2, "'Late', where two kinds are needed, such as Late > Early"),
    (("rest", "Late > Erly", ""), 2, "no kind of shift is 'Erly': did you mean 'Early'?"),
    (("days in a row", "", ""), 2, "no number"),
    (("days in a row", "five", ""), 2, "'five' is no number, and no range such as 2-5"),
    (("days in a row", "2 5", ""), 2, "'2 5' is no number, and no range such as 2-5"),
    (("days in a row", "5-2", ""), 2, "'5-2': the second number can't be less"),
    (("days in a row", "2.5", ""), 2, "'2.5': whole numbers are needed"),
    (("days in a row", "-", ""), 2, "'-' is no number, and no range such as 2-5"),
    (("whole weekends", "2", ""), 2, "'2', where 'whole weekends' has no value"),
    (("apart", "", "Ada"), 3, "2 names are needed"),
    (("apart", "", ""), 3, "2 names are needed"),
    (("at least 1 on", "Night", ""), 3, "a name is needed"),
    (("days in a row", "5", "Aad"), 3, "the roster has no person 'Aad': did you mean 'Ada'?"),
    (("days in a row", "5", "Ada,,Ben"), 3, "an empty name"),
    (("hours of", "Early", ""), 2, "'Early', where a kind and its hours are needed, such as Early 7.7"),
    (("hours of", "Early 7.7", "Ada"), 3, "hours of a kind are for everybody"),
    (("holiday", "2027-13-01", ""), 2, "'2027-13-01' is no day of the roster, and no date"),
    (("holiday", "2027-03-01", "Ada"), 3, "a holiday is for everybody"),
    (("weekends in a row", "2-", ""), 2, "'2-', where the most weekends are needed"),
    (("shifts in 0 days", "2", ""), 1, "a day at least is needed"),
    (("free after", "Night Late: 2", ""), 2, "'Night Late': one kind as often as it is in a row, as Night Night"),
    (("free after", "Night", ""), 2, "'Night', where a run and the free days after it are needed, such as Night "
     "Night: 2"),
    (("credit", "7.7", "Ada"), 2, "'7.7', where days and hours are needed, such as 2027-03-12 .. 2027-03-19: 7.7"),
    (("credit", "2027-03-06 .. 2027-03-05: 7.7", "Ada"), 2, "'2027-03-06 .. 2027-03-05: 7.7': the second day can't be "
     "before the first"),
    (("credit", "2027-03-05: 7.7", ""), 3, "a name is needed"),
)


def small(are_dates=True, n_days=9):
    roster, first = roster_of(random.Random(7), 3, n_days, False, 1.0)
    days = [datetime.date(2027, 3, 4) + datetime.timedelta(day) for day in range(n_days)]
    if are_dates:
        roster = roster._replace(groups=roster.groups._replace(names=[day.isoformat() for day in days]))
    return roster


def read(*lines, roster=None):
    roster = roster or small()
    return rules_of("rules.csv", [RuleLine(*cells, number) for number, cells in enumerate(lines, 2)], roster,
                    month_of(roster, roster.groups, "g.csv"))


class Files(unittest.TestCase):
    def test_rules(self):
        for cells, rule in READ:
            with self.subTest(cells):
                self.assertEqual(list(read(cells).rules), [rule])

    def test_refusals(self):
        for cells, column, text in REFUSED:
            with self.subTest(cells):
                with self.assertRaises(RosterFault) as caught:
                    read(("days in a row", "5", ""), cells)
                self.assertEqual((caught.exception.line, caught.exception.column, caught.exception.text),
                                 (3, column, text))

    def test_same_kind(self):
        """A rule for each kind by itself."""
        self.assertEqual([rule.kinds for rule in read(("same kind in a row", "2-", "")).rules],
                         [frozenset([kind]) for kind in ("Early", "Late", "Night")])

    def test_credits(self):
        rules = read(("credit", "2027-03-05 .. 07.03.2027: 7,7", "Ada; Ben"), ("credit", "2027-03-09: 4 h", "Ada"))
        first = datetime.date(2027, 3, 5).toordinal()
        self.assertEqual(rules.credits, {**{(person, first + day): Fraction("7.7") for person in (0, 1)
                                            for day in range(3)}, (0, first + 4): Fraction(4)})

    def test_groups_of_persons(self):
        teams = {("skill", "senior"): [0, 2], ("team", "red"): [1], ("team", "senior"): [1]}
        roster = small()._replace(teams=teams)
        for names, persons in (("skill: senior", (0, 2)), ("red", (1,)), ("team:senior; Cleo", (1, 2)),
                               ("skill: senior, Ada", (0, 2))):
            self.assertEqual(read(("days in a row", "5", names), roster=roster).rules[0].persons, persons)
        with self.assertRaisesRegex(RosterFault, "the roster has no person 'senior'"):
            read(("days in a row", "5", "senior"), roster=roster)

    def test_rest_in_hours_needs_times(self):
        roster = small()
        roster = roster._replace(groups=roster.groups._replace(times={}))
        with self.assertRaisesRegex(RosterFault, "line 2, column 2: hours of rest need columns from and to"):
            read(("rest", "11 hours", ""), roster=roster)

    def test_prices(self):
        rule, = rules_of("r.csv", [RuleLine("rest", "Late > Early", "", 2, "2.50")], small()._replace(decimals=2),
                         month_of(small(), small().groups, "g.csv")).rules
        self.assertEqual(rule.price, 250)

    def test_hours_and_holidays(self):
        rules = read(("hours of", "Early 7.7", ""), ("hours of", "nights 9,5 h", ""), ("holiday", "05.03.2027", ""),
                     ("holiday", "2027-12-24", ""))
        self.assertEqual(rules.hours, {"Early": Fraction("7.7"), "Night": Fraction("9.5")})
        self.assertEqual(rules.holidays, {datetime.date(2027, 3, 5).toordinal(),
                                          datetime.date(2027, 12, 24).toordinal()})
        with self.assertRaisesRegex(RosterFault, "line 3, column 2: the hours of 'Early' a second time"):
            read(("hours of", "Early 7.7", ""), ("hours of", "Early 8", ""))

    def test_kinds_of_like_names(self):
        """A kind as it is written goes first, then one in another case or its plural; days and shifts are of any."""
        roster = small()
        kinds = {object_: ("Day", "N", "n")[object_ % 3] for object_ in roster.groups.kinds}
        roster = roster._replace(groups=roster.groups._replace(kinds=kinds))
        for text, wanted in (("days in a row", None), ("shifts in a row", None), ("Day in a row", {"Day"}),
                             ("day in a row", {"Day"}), ("N in a row", {"N"}), ("n in a row", {"n"}),
                             ("N, Day in a row", {"Day", "N"})):
            rule, = read((text, "1", ""), roster=roster).rules
            self.assertEqual(rule.kinds, wanted, text)
        for word in ("Days", "Shift"):
            kinds = {object_: (word, "N")[object_ % 2] for object_ in roster.groups.kinds}
            other = roster._replace(groups=roster.groups._replace(kinds=kinds))
            self.assertEqual([read((f"{text} in a row", "1", ""), roster=other).rules[0].kinds
                              for text in (word.lower(), "N")], [None, {"N"}])
            with self.assertRaisesRegex(RosterFault, f"column 1: '{word}' is a shift of any kind: give that kind"):
                read((f"{word} in a row", "1", ""), roster=other)
        with self.assertRaisesRegex(RosterFault, "no kind of shift is 'ns': did you mean"):
            read(("ns in a row", "1", ""), roster=roster)

    def test_shifts_without_a_kind(self):
        roster = small()
        roster = roster._replace(groups=roster.groups._replace(kinds={**roster.groups.kinds, 0: ""}))
        rules = read(("rest", "Night > shift", ""), ("hours of", "shift 8", ""), roster=roster)
        self.assertEqual((rules.rules[0].after, rules.hours[""]), (KINDS | {""}, 8))

    def test_unknown_hours(self):
        roster = small()
        roster = roster._replace(groups=roster.groups._replace(times={}))
        with self.assertRaisesRegex(RosterFault, "line 2, column 1: the hours of the kind 'Late' aren't known"):
            read(("hours per week", "40", ""), ("hours of", "Early, Night 8", ""), roster=roster)


class Calendar(unittest.TestCase):
    def test_weeks_and_weekends_of_dates(self):
        """2027-03-04 is a Thursday."""
        month = month_of(small(), small().groups, "g.csv")
        thursday = datetime.date(2027, 3, 4).toordinal()
        self.assertEqual((month.begin, month.start, month.last, month.known),
                         (thursday, thursday, thursday + 8, thursday))
        self.assertEqual([(week.days[0] - thursday, len(week.days), week.is_whole) for week in month.weeks],
                         [(0, 4, False), (4, 5, False)])
        self.assertEqual([[day - thursday for day in days] for days in month.weekends], [[2, 3]])
        holiday = month._replace(holidays=frozenset([thursday + 4, thursday + 6]))
        self.assertEqual([[day - thursday for day in days] for days in holiday.weekends], [[2, 3, 4], [6]])

    def test_days_that_are_no_dates(self):
        roster = small(False, 16)
        month = month_of(roster, roster.groups, "g.csv")
        self.assertEqual([(week.days[0], week.is_whole) for week in month.weeks], [(0, True), (7, True), (14, False)])
        self.assertEqual(month.weekends, [[5, 6], [12, 13]])
        names = [f"{'Wed Thu Fri Sat Sun Mon Tue'.split()[day % 7]} {day}" for day in range(16)]
        named = roster._replace(groups=roster.groups._replace(names=names))
        self.assertEqual(month_of(named, named.groups, "g.csv").weekends, [[3, 4], [10, 11]])

    def test_names_of_days(self):
        roster = small(False, 16)
        days = "Mon Tue Wed Thu Fri Sat Sun".split()
        for names, wanted in (([f"{day + 1} {days[day % 7]}" for day in range(16)], [[5, 6], [12, 13]]),
                              ([f"Week {day // 7 + 1} ({days[day % 7]})" for day in range(16)], [[5, 6], [12, 13]]),
                              ([f"{day + 2} Mar ({days[(day + 1) % 7]})" for day in range(16)], [[4, 5], [11, 12]]),
                              ([f"{day + 1} Mar" for day in range(16)], [[5, 6], [12, 13]])):
            named = roster._replace(groups=roster.groups._replace(names=names))
            self.assertEqual(month_of(named, named.groups, "g.csv").weekends, wanted, names)

    def test_days_of_which_some_are_dates(self):
        roster = small()
        for name, text in (("2027-04-31", "2027-04-31 is no day of the calendar"), ("reserve", "reserve is no date"),
                           ("Mon 2027-03-12", "Mon 2027-03-12 is a Fri")):
            groups = roster.groups._replace(names=[*roster.groups.names[:-1], name])
            with self.assertRaisesRegex(RosterFault, f"g.csv: {text}: with rules each day is a date, or none is"):
                month_of(roster, groups, "g.csv")

    def test_earlier_days(self):
        roster = small()
        earlier = [Earlier(f"Night 2027-03-0{day}", f"2027-03-0{day}", "Night", None, day) for day in (1, 3)]
        groups = roster.groups._replace(earlier=earlier)
        pairs = [("Ada", "Night 2027-03-03", 2), ("Zoe", "Night 2027-03-03", 3), ("Ben", "Night 2027-02-01", 4)]
        month = month_of(roster, groups, "g.csv", Before("b.csv", pairs))
        monday = datetime.date(2027, 3, 1).toordinal()
        self.assertEqual((month.known, month.begin), (monday, monday + 3))
        self.assertEqual({spot: [shift.kind for shift in own] for spot, own in month.worked.items()},
                         {(0, monday + 2): ["Night"]})
        self.assertEqual(month.weeks[0], (list(range(monday, monday + 7)), True))
        with self.assertRaisesRegex(RosterFault, "b.csv, line 2, column 2: 'Early day 1' is planned now: a plan of "
                                    "earlier days is needed"):
            month_of(roster, groups, "g.csv", Before("b.csv", [("Ada", "Early day 1", 2)]))
        late = groups._replace(earlier=[Earlier("Night late", "2027-03-05", "Night", None, 9)])
        with self.assertRaisesRegex(RosterFault, "g.csv, line 9, column 1: the roster has no object 'Night late', and "
                                    "2027-03-05 isn't before"):
            month_of(roster, late, "g.csv")

    def test_two_names_of_a_day(self):
        roster = small()
        names = ["2027-03-04", "Thu 04.03.2027", *roster.groups.names[2:]]
        with self.assertRaisesRegex(RosterFault, "'2027-03-04' and 'Thu 04.03.2027' are one day"):
            month_of(roster, Groups("day", names, roster.groups.of_objects), "g.csv")


if __name__ == "__main__":
    unittest.main()
