"""The command with rules: what is printed, written and drawn, and what is refused."""
import json
import time
import unittest
from unittest import mock

from nushbaret.roster.answer import NamedPlan
from nushbaret.roster.output import rule_texts
from nushbaret.roster.forms import read_roster
from nushbaret.roster.rules import ruling
from nushbaret.roster.rules.stages import Proved
from nushbaret.rows import finding
from nushbaret.rows.model import Conflict, Finding
from commands import Runs
from optional import np, optimize

WISHES = (",Early 2027-03-05,Night 2027-03-05,Early 2027-03-06,Night 2027-03-06,Early 2027-03-07,Night "
          "2027-03-07,Early 2027-03-08,Night "
          "2027-03-08\nAda,3,0,4,2,6,0,5,1\nBen,2,1,4,1,3,5,0,7\nCleo,1,6,1,8,1,4,3,9\n")
DAYS = "shift,day,kind\n" + "".join(f"{kind} 2027-03-0{day},2027-03-0{day},{kind}\n" for day in (5, 6, 7, 8)
                                    for kind in ("Early", "Night"))
EARLIER = "".join(f"{kind} 2027-03-0{day},2027-03-0{day},{kind}\n" for day in (3, 4) for kind in ("Early", "Night"))
TASKS = "person,at least,at most\nAda,2,4\nBen,2,4\nCleo,2,4\n"
RULES = "rule,value,for\nrest,Night > Early,\nNight per month,2,\n"
WORDS = ("s.csv", "--groups", "d.csv", "--tasks", "t.csv", "--rules", "r.csv")
# The one plan of least cost. These numbers come from a search of all 1296 plans.
PLAN = ("Ada (2): Night 2027-03-07, 0; Night 2027-03-08, 1\nBen (3): Night 2027-03-05, 1; Night 2027-03-06, 1; Early "
        "2027-03-08, 0\nCleo (3): Early 2027-03-05, 1; Early 2027-03-06, 1; Early 2027-03-07, 1\n")
WHY = ("no plan keeps these rules, proved:\n  4 shifts (Night) from 2027-03-05 to 2027-03-08 are needed, the 3 people "
       "may take at most 3: 1 too few (Night per month: 1)\n")
# Words that are refused, and what is said.
REFUSED = (
    (("s.csv", "--rules", "r.csv"), "--rules needs --groups, which says the day of each object"),
    (("s.csv", "--time", "5"), "--time needs --rules"),
    (("s.csv", "--before", "b.csv"), "--before needs --rules"),
    (("s.csv", "--certificate", "c"), "--certificate needs --rules"),
    ((*WORDS, "--fair"), "--fair is of plans without rules: not with --rules"),
    (("s.csv", "--groups", "d.csv", "--rules", "r.csv", "--rents"), "--rents"),
    ((*WORDS, "--time", "0"), "'0' is no number from 1 to 1000000"),
    ((*WORDS, "--certificate", "r.csv"), "r.csv is named twice, or is read too"),
)


class Files(Runs):
    def setUp(self):
        super().setUp()
        self.files({"s.csv": WISHES, "d.csv": DAYS, "t.csv": TASKS, "r.csv": RULES})

    def rules(self, *lines):
        self.file("r.csv", "rule,value,for\n" + "".join(line + "\n" for line in lines))


@unittest.skipUnless(optimize, "SciPy isn't there")
class Earlier(Files):
    """A person may have had several shifts on an earlier day, and an earlier day may be one of a weekend."""

    def best(self, roster, groups, tasks, before, rule, *words):
        for name, lines in (("s.csv", roster), ("d.csv", groups), ("t.csv", tasks), ("b.csv", before)):
            self.file(name, "".join(line + "\n" for line in lines))
        self.rules(rule)
        out = self.run_words(*WORDS, "--before", "b.csv", *words)[1]
        return out.splitlines()[0].split(",")[0]

    def test_two_shifts_of_a_day(self):
        groups = ["s,d,kind", *(f"{kind} {day},2027-03-0{day},{kind}" for kind in "EL" for day in range(1, 5)
                                if kind == "E" or day < 3)]
        self.assertEqual(self.best(["n,s,c", "A,E 3,1", "A,E 4,1", "B,E 3,9"], groups, ["n,l,m", "A,1,2", "B,0,2"],
                                   ["n,s", "A,E 2", "A,L 2"], "days in a row,2,"), "least c: 10")
        self.assertEqual(self.best(["n,s,c", "A,E 3,9", "B,E 3,1", "B,E 4,1"], groups, ["n,l,m", "A,0,2", "B,0,2"],
                                   ["n,s", "A,E 1", "A,E 2", "A,L 2"], "no single,shift,A"), "least c: 2")

    def test_whole_weekends(self):
        for saturday, sunday, monday in (("Sa 6", "So 7", "Mo 8"), ("2027-03-06", "2027-03-07", "2027-03-08")):
            groups = ["s,d,kind", f"E6,{saturday},E", f"L6,{saturday},L", f"E7,{sunday},E", f"E8,{monday},E"]
            roster = ["n,s,c", "A,E7,1", "A,E8,1", "B,E7,2", "B,E8,2"]
            tasks = ["n,l,m", "A,0,2", "B,0,2"]
            self.assertEqual(self.best(roster, groups, tasks, ["n,s", "B,E6", "B,L6"], "whole weekends,,", "--force",
                                       "--output", "o.csv"), "least c: 3")
            self.assertNotIn("breaks", self.run_words(*WORDS, "--before", "b.csv", "--compare", "o.csv")[1])


@unittest.skipUnless(optimize, "SciPy isn't there")
class KindsInNames(Files):
    """Without a column of kinds, a shift's kind is its name without its day, however that is written there."""

    def test_earlier_days(self):
        """Ada had a night before the first day, so Ben takes the early shift, at 9 instead of 1."""
        for earlier, first in (("2027-02-28", "2027-03-01"), ("28.02.2027", "01.03.2027"), ("28.2.2027", "1.3.2027"),
                               ("So 28.02.2027", "Mo 01.03.2027")):
            for name in "Night {}", "{} Night":
                self.file("s.csv", f"n,s,c\nAda,Early {first},1\nBen,Early {first},9\n")
                self.file("d.csv", f"s,d\n{name.format(earlier)},{earlier}\nEarly {first},{first}\n")
                self.file("t.csv", "n,l,m\nAda,0,1\nBen,0,1\n")
                self.file("b.csv", f"n,s\nAda,{name.format(earlier)}\n")
                self.rules("rest,Night > Early,")
                status, out, err = self.run_words(*WORDS, "--before", "b.csv")
                self.assertEqual((status, err, out.splitlines()[1:]), (0, "", [f"Ben: Early {first}, 9",
                                                                             "without: Ada"]), name)

    def test_days_in_two_spellings(self):
        """A name may have its day as another line has it, and two names of a day the same kind: Ada takes one of the
        three nights, at 1 instead of 9."""
        shifts = ("Night 01.03.2027", "01.03.2027"), ("Night 2027-03-02", "2027-03-02"), ("02.03.2027 Night",
                                                                                          "02.03.2027")
        self.file("s.csv", "n,s,c\n" + "".join(f"{person},{shift},{cost}\n" for person, cost in (("Ada", 1), ("Ben", 9))
                                               for shift, _ in shifts))
        self.file("d.csv", "s,d\n" + "".join(",".join(shift) + "\n" for shift in shifts))
        self.file("t.csv", "n,l,m\nAda,0,3\nBen,0,3\n")
        self.rules("Night per month,1,Ada")
        self.assertEqual(self.run_words(*WORDS)[1].splitlines()[0].split(",")[0], "least c: 19")


class NoDay(Files):
    @unittest.skipUnless(optimize, "SciPy isn't there")
    def test_a_shift_without_a_line(self):
        """No rule is about it, and that is said."""
        self.file("d.csv", DAYS.replace("Night 2027-03-08,2027-03-08,Night\n", ""))
        self.assertIn("d.csv: no line for 1 shift (Night 2027-03-08): no rule looks at it\n",
                      self.run_words(*WORDS)[2])


class Said(Files):
    """What a rule doesn't see, though it seems to, is said on standard error."""

    @unittest.skipUnless(optimize, "SciPy isn't there")
    def test_kinds_alike(self):
        self.file("d.csv", DAYS.replace("2027-03-06,Night", "2027-03-06,night"))
        self.assertEqual(self.run_words(*WORDS)[2],
                         "d.csv: the kinds 'Night', 'night' differ in case or spaces alone\n")

    @unittest.skipUnless(optimize, "SciPy isn't there")
    def test_shifts_without_a_kind(self):
        for old, new, said in (("2027-03-06,Night", "2027-03-06,",
                                "1 shift (Night 2027-03-06): no rule of kinds looks at it"),
                               ("Early\n", " \n", "4 shifts (Early 2027-03-05, Early 2027-03-06, Early 2027-03-07, "
                                "Early 2027-03-08): no rule of kinds looks at them")):
            self.file("d.csv", DAYS.replace(old, new))
            self.rules("Night per month,4,")
            self.assertEqual(self.run_words(*WORDS)[::2], (0, f"d.csv: no kind of {said}\n"))

    @unittest.skipUnless(optimize, "SciPy isn't there")
    def test_holidays_on_other_days(self):
        for days, said in ((("2027-03-05", "08.03.2027"), ""),
                           (("2027-03-05", "2026-03-05"), "r.csv: 1 holiday isn't a day of the roster (2026-03-05)\n"),
                           (("09.03.2027", "2027-03-04"), "r.csv: 2 holidays aren't days of the roster (2027-03-04, "
                            "2027-03-09)\n")):
            self.rules(*(f"holiday,{day}," for day in days))
            self.assertEqual(self.run_words(*WORDS)[::2], (0, said))


@unittest.skipUnless(optimize, "SciPy isn't there")
class DaysOfTheWeek(Files):
    """Days that aren't dates count one after the other, seven to a week, whatever their words for days of the week."""

    def said(self, days, rule):
        self.file("s.csv", "," + ",".join(f"Early {day}" for day in days) + "\n" + "".join(
            f"{nurse}{',1' * len(days)}\n" for nurse in ("Ada", "Ben")))
        self.file("d.csv", "shift,day\n" + "".join(f"Early {day},{day}\n" for day in days))
        self.file("t.csv", "person,least,most\nAda,0,99\nBen,0,99\n")
        self.rules(rule)
        status, _, err = self.run_words(*WORDS)
        self.assertEqual(status, 0)
        return err

    def test_what_is_said(self):
        week = ["Mo", "Di", "Mi", "Do", "Fr", "Sa", "So"]
        for days, rule, lines in (
                ([f"{day} {number}" for number in (1, 2) for day in week], "shifts per week,7,", []),
                (week[2:] + [f"{day} 2" for day in week], "days in a row,9,", []),
                (week[2:] + [f"{day} 2" for day in week], "shifts per week,7,",
                 ["weeks begin with Mi: only those of dates begin on Monday"]),
                ([f"{day} {number}" for number in (1, 2) for day in week[:5]], "shifts per week,7,",
                 ["Mo 2 counts as the day after Fr 1: only dates leave days out"]),
                (["Lundi", "Mercredi", "Jeudi"], "rest,Early > Early,Ada",
                 ["Mercredi counts as the day after Lundi: only dates leave days out"]),
                ([f"T{number}" for number in range(9)], "shifts per week,7,", []),
                (["A", "Tue", "B", "Thu"], "shifts per week,7,", [])):
            self.assertEqual(self.said(days, rule), "".join(f"d.csv: {line}\n" for line in lines), days)


class NoSum(Files):
    """Hours that no number of shifts has: two of 7.7 are 15.4, and three 23.1."""

    @unittest.skipUnless(optimize, "SciPy isn't there")
    def test_hours_between_two_sums(self):
        self.rules("hours of,shift 7.7,", "hours per month,16-23,Ada")
        self.expect(1, "no plan keeps these rules, proved: together they can't hold:\n  hours per month: 16-23 (Ada)\n",
                    "", *WORDS)


class Gone(Files):
    """Zoe isn't in the roster any more, and keeps her past; a rule for everybody isn't for her."""

    @unittest.skipUnless(optimize, "SciPy isn't there")
    def test_everybody(self):
        shifts = [f"D {day}" for day in ("Mon", "Tue", "Wed", "Thu", "Fri")]
        self.files({"s.csv": "," + ",".join(shifts) + "\nAda,1,1,1,1,1\nBen,2,2,2,2,2\n",
                    "d.csv": "shift,day\n" + "".join(f"{shift},{shift[2:]}\n" for shift in shifts),
                    "t.csv": "nurse,least,most\nAda,0,5\nBen,0,5\n", "k.csv": "a,b\nZoe,D Mon\nAda,D Tue\n"})
        words = (*WORDS, "--keep", "k.csv", "--past", "Tue")
        for rule, even in ("shifts per month,2-,", []), ("even,D,", ["even: D: 2 each"]):
            self.rules(rule)
            status, out, _ = self.run_words(*words)
            lines = out.splitlines()
            self.assertEqual((status, lines[0]), (0, "least cost: 6, proved: no plan that keeps the rules costs less"))
            self.assertEqual(lines[3:4 + len(even)], ["Zoe: D Mon, 0 (past)", *even])
        self.rules('shifts per month,2-,"Ada,Zoe"')
        self.assertEqual(self.run_words(*words)[:2], (1, "around the past, no plan keeps these rules, proved: together "
                                                      "they can't hold:\n  shifts per month: 2- (Zoe)\n"))


@unittest.skipUnless(optimize, "SciPy isn't there")
class NextPlans(Files):
    """The plans after the best one: a search of all 174 that keep counts and rules has costs of 6, 8, 9 and 9."""

    SECOND = "  there Ada: Early 2027-03-05, 3\n  there Cleo: not Early 2027-03-05\n"

    def test_others(self):
        self.expect(0, "least cost: 6, proved: no plan that keeps the rules costs less\n" + PLAN +
                    "no other plan is as good, proved: the next best is 8, 2 more\n" + self.SECOND, "", *WORDS,
                    "--others")

    def test_plans(self):
        out = self.run_words(*WORDS, "--plans", "3", "--certificate", "c.txt", "--output", "p.json")[1]
        self.assertIn("plan 2: 8, 2 more\n" + self.SECOND + "plan 3: 9, 3 more\n  there Ada: Early 2027-03-06, 4\n",
                      out)
        following = json.loads(self.read("p.json"))["rules"]["following"]
        self.assertEqual([(one["cost"], one["missed_cost"], one["better"], len(one["pairs"])) for one in following],
                         [("8", "0", "0", 8), ("9", "0", "0", 8)])
        for name, least in (("c.txt", 6), ("c-2.txt", 8), ("c-3.txt", 9)):
            self.assertEqual(self.run_words("--check", name)[::2], (0, ""))
            self.assertIn(str(least), self.run_words("--check", name)[1])

    def test_only_one(self):
        self.files({"s.csv": "person,shift,cost\nAda,Early 2027-03-05,1\n", "t.csv": "person,at least,at most\n"
                    "Ada,1,1\n", "d.csv": "".join(line + "\n" for line in DAYS.splitlines()[:2])})
        self.rules("days in a row,5,")
        for words, mark in ((("--others",), ""), (("--plans", "4"), "plan 2: ")):
            out = self.run_words(*WORDS, *words)[1]
            self.assertTrue(out.endswith(f"\n{mark}no other plan keeps the rules, proved\n"), out)


class TakesNone(Files):
    """Who takes none may not have any, so evenness is among the others."""

    @unittest.skipUnless(optimize, "SciPy isn't there")
    def test_evenness(self):
        """Seven nights of Ada, Ben and Cleo, at 1, 2 and 3 each, are 3, 2 and 2, where Eve takes none or may have a
        night alone that takes nobody; else 2, 2, 1 and two of Eve's, at 0."""
        nights = [f"N {day}" for day in range(1, 8)]
        self.file("d.csv", "shift,day\n" + "".join(f"{night},{night[2:]}\n" for night in [*nights, "N 8"]))
        self.rules("even,N,")
        self.file("p.csv", "shift,least,most\n" + "".join(f"{night},1,1\n" for night in nights) + "N 8,0,0\n")
        for eve, most, cost, even in (",0" * 7 + ",0", 0, 13, "2 to 3"), ("," * 7 + ",0", 8, 13, "2 to 3"), (
                ",0" * 7 + ",0", 8, 9, "1 to 2"):
            self.file("s.csv", f",{','.join(nights)},N 8\n" + "".join(
                f"{nurse}{f',{own}' * 7},\n" for nurse, own in (("Ada", 1), ("Ben", 2), ("Cleo", 3))) + f"Eve{eve}\n")
            self.file("t.csv", f"nurse,least,most\nAda,0,8\nBen,0,8\nCleo,0,8\nEve,0,{most}\n")
            out = self.run_words(*WORDS, "--places", "p.csv")[1].splitlines()
            self.assertEqual((out[0], [line for line in out if line.startswith(("even", "proved"))]),
                             (f"least cost: {cost}, proved: no plan that keeps the rules costs less",
                              [f"even: N: {even}"]))


class Missed(Files):
    """Where least counts may be missed and rules still can't be kept, the reasons have greatest counts alone. A plan
    that misses more may be better than what is proved best."""

    def test_not_proved_best(self):
        roster, plan = read_roster("s.csv", None, None, False), NamedPlan([], 6, [], [], {})
        proved = Proved("within", 60, 2, missing=1, least_missing=1)
        self.assertEqual(rule_texts.first_lines(roster, plan, proved, False), [
            "1 missing in all, proved: no plan that keeps the rules misses less",
            "cost of 0 pairs 6, proved: no plan that keeps the rules and misses no more is more than 2 better"])
        self.assertEqual(rule_texts.even_lines(roster, Proved("best", 60, otherwise=proved, otherwise_cost=5), False), [
            "without the rules of evenness: cost 5, proved: no plan that keeps the other rules and misses no more is "
            "more than 2 better"])

    @unittest.skipUnless(optimize, "SciPy isn't there")
    def test_reasons(self):
        """Ada must have a shift, and each takes one nurse, where she and Ben go together."""
        self.files({"s.csv": "nurse,shift,c\n" + "".join(f"{nurse},{shift},1\n" for nurse in ("Ada", "Ben")
                                                         for shift in ("X", "Y")),
                    "d.csv": "shift,day\nX,Mon\nY,Tue\n", "t.csv": "nurse,least,most\nAda,0,2\nBen,0,2\n"})
        self.rules("shifts per month,1-,Ada", 'together,,"Ada, Ben"')
        self.expect(1, "no plan keeps these rules, proved: together they can't hold:\n  at most 1 nurse (X, Y)\n"
                    "  shifts per month: 1- (Ada)\n  together: Ada, Ben (X, Y)\n", "", *WORDS, "--as-many-as-can")


    @unittest.skipUnless(optimize, "SciPy isn't there")
    def test_evenness(self):
        """Ada has two shifts and Ben none, where two are missing; no shifts at all are more even and cost less."""
        self.files({"s.csv": "nurse,shift,c\nAda,X,1\nAda,Y,1\nBen,Z,5\nBen,Z2,5\n",
                    "d.csv": "shift,day,kind\nX,Mon,A\nY,Tue,A\nZ,Tue,B\nZ2,Tue,B\n",
                    "t.csv": "nurse,least,most\nAda,0,2\nBen,0,2\n"})
        self.rules("even,A,", "even,shift,", "shifts per month,0,Ben")
        status, out, _ = self.run_words(*WORDS, "--as-many-as-can")
        self.assertEqual((status, out.splitlines()[-4:]), (1, [
            "even: A: 2 each", "even: shift: 0 to 2",
            "proved: no plan that keeps the rules and misses no more is more even",
            "without the rules of evenness: least c 2, proved: no plan that keeps the other rules and misses no more "
            "costs less"]))


class NoWeekend(Files):
    """A plan without a Saturday or Sunday can't keep a least number of weekends, and keeps each greatest one."""

    DAYS = ("Mon", "Tue", "Wed", "Thu")

    @unittest.skipUnless(optimize, "SciPy isn't there")
    def test_least_numbers(self):
        shifts = [f"Early {day}" for day in self.DAYS]
        self.file("s.csv", "," + ",".join(shifts) + "\nAda,1,1,1,1\nBen,9,9,9,9\n")
        self.file("d.csv", "shift,day\n" + "".join(f"{shift},{shift[6:]}\n" for shift in shifts))
        self.file("t.csv", "person,at least,at most\nAda,0,4\nBen,0,4\n")
        self.file("h.csv", "a,b\n" + "".join(f"Ada,{shift}\n" for shift in shifts))
        for rule, is_kept in (("free weekends,1,Ada", False), ("weekend shifts per month,1-,Ada", False),
                              ("free weekends,0-1,Ada", True), ("weekend shifts per month,2,Ada", True)):
            self.rules(rule)
            status, out, _ = self.run_words(*WORDS, "--compare", "h.csv")
            self.assertEqual((status, out.splitlines()[0]), (
                0, "least cost: 4, proved: no plan that keeps the rules costs less") if is_kept else (
                1, "no plan keeps these rules, proved: together they can't hold:"), rule)
            self.assertEqual("h.csv: breaks 1 rule" in out, not is_kept, rule)


class Words(Files):
    def test_refused_words(self):
        for words, text in REFUSED:
            with self.subTest(words):
                self.refused(2, text, *words)

    def test_certificate_among_the_files_of_persons(self):
        self.refused(4, "out/Ada.html is another output too", *WORDS, "--each", "out", "--certificate", "out/Ada.html")

    def test_refused_rules(self):
        self.rules("rest,Night > Early,", "Nihgt per month,2,")
        self.refused(3, "r.csv, line 3, column 1: no kind of shift is 'Nihgt': did you mean 'Night'?", *WORDS)
        self.file("r.csv", "rest,Night > Early,\n")
        self.refused(3, "r.csv, line 1, column 1: a title line must come first, and 'rest' is a rule", *WORDS)
        self.rules("apart,,Ada,Ben")
        self.refused(3, "r.csv, line 2: 4 cells, where a rule, a value and names are needed (several names in one cell "
                     "need quotes)", *WORDS)
        days = DAYS.replace("shift,day,kind", "shift,day,kind,kind", 1)
        self.file("d.csv", days.replace("Early\n", "Early,\n").replace("Night\n", "Night,\n"))
        self.refused(3, "d.csv, line 1, column 4: 2 columns are titled 'kind', where there may be one", *WORDS)

    def test_semicolons_and_kinds_without_a_column(self):
        """Where no column has kinds, the rest of an object's name is its kind."""
        self.file("d.csv", "\n".join(line.rpartition(",")[0] for line in DAYS.splitlines()) + "\n")
        self.file("r.csv", "rule;value;for\nrest;Night > Early;\nNight per month;0;Ada, Ben\n")
        found = Finding("undecided")
        with mock.patch.object(finding, "find", return_value=found) as find:
            self.assertEqual(self.run_words(*WORDS)[0], 6)
        texts = {row.text for row in find.call_args[0][0].rows}
        self.assertIn("Night per month: 0 (Ben)", texts)
        self.assertNotIn("Night per month: 0 (Cleo)", texts)

    def test_not_decided(self):
        with mock.patch.object(finding, "find", return_value=Finding("undecided")):
            self.expect(6, "not decided in 60 s\no.csv isn't written: no plan was found\n", "", *WORDS, "--output",
                        "o.csv")
            self.expect(6, "not decided in 5 s\nc isn't written: nothing was proved\n", "", *WORDS, "--time", "5",
                        "--certificate", "c")

    def test_not_proved_best(self):
        """What was found is said to be no better than was shown."""
        def found(model, seconds, progress=None, start=None, without=None, sums=()):
            plan = [0] * model.variables
            pairs = [(person, object_) for person in range(3) for object_ in range(8)]
            for pair in ((0, 5), (0, 7), (1, 1), (1, 3), (1, 6), (2, 0), (2, 2), (2, 4)):
                plan[pairs.index(pair)] = 1
            return Finding(kind, tuple(plan), 6, bound)
        for kind, bound, first in (("within", 4, "cost 6, proved: no plan is more than 2 better"),
                                   ("undecided", None, "cost 6, nothing proved in 60 s")):
            with self.subTest(kind), mock.patch.object(finding, "find", side_effect=found):
                self.expect(0, first + "\n" + PLAN, "", *WORDS)

    def test_a_process_that_dies(self):
        with mock.patch.object(finding, "find", side_effect=RuntimeError("a process that finds plans ended: signal 9")):
            self.expect(4, "", "a fault of nushbaret itself: RuntimeError: a process that finds plans ended: signal 9 "
                        "(NUSHBARET_DEBUG=1 shows where)\n", *WORDS)

    def test_the_fullest_plan_has_its_own_time(self):
        """Time is left for reasons, and after them; that no plan was found is no proof."""
        def found(model, seconds, progress=None, start=None, sums=(), known=()):
            times.append(seconds)
            return answers.pop(0)
        reasons = Finding("impossible", conflicts=(Conflict(("one",), False, None),))
        none = ("no plan that misses some was found in 2 s: it wasn't looked for long enough, and --time gives more\n"
                "o.csv isn't written: no plan was found\n")
        why = "no plan keeps these rules, proved: together they can't hold, and maybe fewer of them can't:\n  one\n"
        for second, status, said in ((reasons, 1, why + none), (Finding("undecided"), 6, none)):
            times, answers = [], [Finding("undecided"), second]
            with mock.patch.object(finding, "find", side_effect=found):
                self.expect(status, said, "", *WORDS, "--time", "2", "--as-many-as-can", "--output", "o.csv")
            self.assertLess(times[0], 1.3)
            self.assertGreater(times[1], 0.3)

    def test_long_reasons_are_never_the_answer(self):
        """Where they are over six, the plan that misses the least follows, with at least half of the time."""
        def found(model, seconds, progress=None, start=None, sums=(), known=()):
            times.append(seconds)
            time.sleep(seconds if len(times) == 1 else 0)
            return answers.pop(0)
        many = tuple(map(str, range(7)))
        times, answers = [], [Finding("impossible", conflicts=(Conflict(many, False, None),)), Finding("undecided")]
        with mock.patch.object(finding, "find", side_effect=found):
            status, out, _ = self.run_words(*WORDS, "--time", "2")
        self.assertEqual((status, len(times)), (1, 2))
        self.assertIn("no plan that misses some was found", out)
        self.assertGreater(times[1], 0.3)

    def test_a_plan_that_misses_some(self):
        """Where no more is proved than that it misses some, it isn't decided whether a plan misses none."""
        for bound, status in ((1, 1), (0, 6), (None, 6)):
            def found(model, seconds, progress=None, start=None, sums=(), known=()):
                if "missing" in {row.text for row in model.rows} or not any(model.costs[:24]):
                    return Finding("within", (1,) * 24 + (0,) * (model.variables - 24), 3, bound)
                return Finding("undecided")
            with self.subTest(bound), mock.patch.object(finding, "find", side_effect=found):
                self.assertEqual(self.run_words(*WORDS, "--time", "2", "--as-many-as-can")[0], status)

    def test_without_scipy(self):
        with mock.patch.object(finding, "find", side_effect=ImportError(finding.NEEDS_SCIPY)):
            self.expect(2, "", finding.NEEDS_SCIPY + "\n", *WORDS)

    def test_progress_on_a_terminal(self):
        def found(model, seconds, progress=None, start=None, without=None, sums=()):
            progress("looks for plans", None, 4)
            progress("proofs", 7, 5)
            return Finding("undecided")
        with mock.patch.object(finding, "find", side_effect=found):
            said = self.on_terminal(*WORDS, "-q")[1]
        self.assertIn("\rcosts: looks for plans, proved at least 4\rcosts: proofs, found 7, proved at least 5", said)
        self.assertTrue(said.endswith(" \r"))


@unittest.skipIf(optimize is None or np is None, "needs SciPy")
class Plans(Files):
    def setUp(self):
        super().setUp()
        # More than any of these takes on a busy machine.
        longer = mock.patch.object(ruling, "DEFAULT_SECONDS", 900)
        longer.start()
        self.addCleanup(longer.stop)

    def test_best(self):
        self.expect(0, "least cost: 6, proved: no plan that keeps the rules costs less\n" + PLAN, "", *WORDS)
        status, out, _ = self.run_words(*WORDS, "--max", "-q")
        self.assertEqual((status, out), (0, "greatest cost: 44, proved: no plan that keeps the rules has more\n"))

    def test_certificates(self):
        """What proves an answer is checked alone; a changed bound isn't shown, and what is no certificate is
        refused."""
        words = (*WORDS, "-q", "--certificate", "c.txt")
        self.assertEqual(self.run_words(*words)[0], 0)
        rows = int(self.read("c.txt").count(" ", self.read("c.txt").index("least"),
                                            self.read("c.txt").index("most"))) - 1
        self.expect(0, f"c.txt: shown: a plan of cost 6 meets the {rows} rows, and no plan that meets them costs "
                    "less\n", "", "--check", "c.txt")
        self.refused(4, "c.txt exists: --force overwrites it", *words)
        most = self.read("c.txt").split("\nmost ")[1].split("\n")[0]
        self.file("d.txt", self.read("c.txt").replace(f"\nmost {most}", f"\nmost {most.rpartition(' ')[0]} 6"))
        self.expect(1, "d.txt: not shown\n", "", "--check", "d.txt")
        self.file("e.txt", "nushbaret rows 1\nn 2\nstarts 0 2 4\nvariables 0 1 0 1\ncoefficients 1 1 5 3\nleast 1 9\n"
                           "most - 4\nplan 1 0\ntree 0 2 1 1 1 -1\n")
        self.expect(3, "e.txt: no certificate: with a plan the last row bounds its cost: it needs an upper bound, and "
                    "no lower one\n", "", "--check", "e.txt")
        self.expect(3, "r.csv: no certificate: line 1: it isn't 'nushbaret rows 1'\n", "", "--check", "r.csv")
        self.rules("rest,Night > Early,", "Night per month,1,")
        self.assertEqual(self.run_words(*words, "--force")[0], 1)
        status, out, _ = self.run_words("--check", "c.txt")
        self.assertEqual((status, out), (0, "c.txt: shown: no plan meets the 7 rows\n"))
        self.assertEqual(self.run_words("--check", "missing.txt")[0], 4)

    def test_impossible(self):
        self.rules("rest,Night > Early,", "Night per month,1,")
        self.expect(1, WHY + "o.csv isn't written: there is no plan\n", "", *WORDS, "--output", "o.csv")
        status, out, _ = self.run_words(*WORDS, "--as-many-as-can", "--output", "o.json", "--html", "o.html")
        self.assertEqual((status, out.splitlines()[:4]), (1, [
            *WHY.splitlines(), "1 missing in all, proved: no plan that keeps the rules misses less",
            "least cost of 7 pairs: 13, proved: no plan that keeps the rules and misses no more costs less"]))
        content = json.loads(self.read("o.json"))
        self.assertEqual((content["format"], content["cost"], content["rules"]), (4, "13", {
            "proved": "best", "better": "0", "is_minimal": True, "missing": 1, "least_missing": 1, "reasons": [
                {"sentence": WHY.splitlines()[1].strip(), "about": []}],
            "conflicts": [{"reasons": [WHY.splitlines()[1].strip()], "is_minimal": True, "short_by": "rules"}]}))
        self.assertEqual(self.read("o.html").count('<p class="short">'), 2)

    def test_counts_first(self):
        """What counts alone can't meet is said before rules are looked at."""
        self.file("p.csv", "shift,least,most\n" + "".join(f"{kind} 2027-03-0{day},2,2\n" for day in (5, 6, 7, 8)
                                                          for kind in ("Early", "Night")))
        with mock.patch.object(finding, "find") as find:
            self.expect(1, "no plan meets these counts, whatever the rules, proved:\n" + "".join(
                f"  4 shifts on 2027-03-0{day} are needed, the 3 people may take at most 3: 1 too few\n"
                for day in (5, 6, 7, 8)), "", *WORDS, "--places", "p.csv")
            find.assert_not_called()

    def test_conflicts(self):
        """Each small conflict is said, those alike together."""
        self.rules("Night per month,0,", "shifts per month,1,Ada", "shifts per month,1,Ben", "hours of,Early 8,",
                   "hours of,Night 8,", "hours per month,40-,Cleo")
        self.expect(1, "no plan keeps these rules, proved:\n  4 shifts (Night) from 2027-03-05 to 2027-03-08 are "
                    "needed, nobody may take any: 4 too few (Night per month: 0)\nand together they can't hold:\n  "
                    "2-4 shifts (Ada, Ben)\n  shifts per month: 1 (Ada, Ben)\nand together they can't hold:\n  Night "
                    "per month: 0 (Cleo)\n  hours per month: 40- (Cleo)\n", "", *WORDS)

    def test_days_that_are_refused(self):
        """The first line of the day is named, among the planned days and the earlier ones."""
        for old, new, where, why in (
                ("8,2027-03-08,Early", "8,8 March,Early", "line 8, column 2", "8 March is no date"),
                ("2027-03-06,Night", "2027-02-30,Night", "line 5, column 2", "2027-02-30 is no day of the calendar"),
                ("2027-03-06,Night", "Sun 2027-03-06,Night", "line 5, column 2", "Sun 2027-03-06 is a Sat"),
                ("Night 2027-03-04,2027-03-04", "Night 2027-03-04,4/3", "line 13, column 2", "4/3 is no date")):
            self.file("d.csv", (DAYS + EARLIER).replace(old, new, 1))
            self.file("b.csv", "person,object\nCleo,Night 2027-03-03\n")
            self.refused(3, f"d.csv, {where}: {why}: with rules each day is a date, or none is", *WORDS, "--before",
                         "b.csv")
        self.file("d.csv", DAYS.replace("2027-03-06,Night", "Sat 2027-03-06,Night"))
        self.refused(3, "d.csv, line 5, column 2: '2027-03-06' and 'Sat 2027-03-06' are one day", *WORDS)

    def test_fixed_and_together(self):
        self.file("f.csv", "person,object\nCleo,Night 2027-03-05\nCleo,Early 2027-03-06\n")
        self.expect(1, "no plan keeps these rules, proved: together they can't hold:\n  fixed (Cleo: Night 2027-03-05, "
                    "Cleo: Early 2027-03-06)\n  rest: no Early the day after Night (Cleo)\n", "", *WORDS, "--fixed",
                    "f.csv")
        self.file("f.csv", "person,object\nCleo,Night 2027-03-05\n")
        status, out, _ = self.run_words(*WORDS, "--fixed", "f.csv")
        self.assertEqual((status, out.splitlines()[0]), (0, "least cost: 15, proved: no plan that keeps the rules "
                                                         "costs less"))
        self.assertIn("Night 2027-03-05, 6 (fixed)", out)

    def test_keep(self):
        """Of plans that cost the least one with the fewest changes; where changes cost, they are weighed."""
        self.assertEqual(self.run_words(*WORDS, "--output", "k.csv")[0], 0)
        self.file("s.csv", WISHES.replace("Ada,3,0,4,2,6,0,5,1", "Ada,3,0,4,2,6,9,5,1"))
        status, out, _ = self.run_words(*WORDS, "--keep", "k.csv")
        lines = out.splitlines()
        self.assertEqual((status, lines[0]), (0, "least cost: 13, proved: no plan that keeps the rules costs less"))
        self.assertEqual(lines[4], "k.csv: 3 pairs come, 3 go")
        with_cost = self.run_words(*WORDS, "--keep", "k.csv", "--change-cost", "1")[1].splitlines()
        self.assertEqual((with_cost[0], with_cost[4:]), ("least cost with changes: 15 (cost 15), proved: no plan that "
                                                         "keeps the rules costs less", ["k.csv: no pair changes"]))

    def test_what_is_not_possible_now_is_no_change(self):
        """Ben takes none now, and a shift takes nobody: of the kept plan two pairs can still be, and stay."""
        self.file("t.csv", "person,at least,at most\nAda,0,4\nBen,0,0\nCleo,0,4\n")
        self.file("p.csv", "shift,at least,at most\n" + "".join(f"{shift},0,{int(shift != 'Night 2027-03-08')}\n"
                                                                for shift in WISHES.split("\n")[0].split(",")[1:]))
        self.file("k.csv", "a,b\nAda,Night 2027-03-05\nBen,Early 2027-03-06\nBen,Night 2027-03-06\nCleo,Early "
                  "2027-03-07\nAda,Night 2027-03-08\n")
        out = self.run_words(*WORDS, "--places", "p.csv", "--keep", "k.csv", "--change-cost", "20")[1].splitlines()
        self.assertEqual((out[0], out[-3:]), ("least cost with changes: 1 (cost 1), proved: no plan that keeps the "
                                              "rules costs less", ["k.csv: no pair changes", "  Ben: Early 2027-03-06, "
                                                                   "Night 2027-03-06 not possible now (takes none)",
                                                                   "  Ada: Night 2027-03-08 not possible now (takes "
                                                                   "none)"]))

    def test_before(self):
        """Who worked the night before the first day has no early shift on it, and nights in a row look back."""
        self.file("d.csv", DAYS + EARLIER)
        self.file("b.csv", "person,object\nCleo,Night 2027-03-04\nZoe,Night 2027-03-04\nCleo,Night "
                  "2027-03-03\nAda,Office 2027-03-04\n")
        status, out, err = self.run_words(*WORDS, "--before", "b.csv")
        self.assertEqual((status, out.splitlines()[0]), (0, "least cost: 8, proved: no plan that keeps the rules costs "
                                                         "less"))
        self.assertNotIn("Cleo (3): Early 2027-03-05", out)
        self.assertEqual(err, "b.csv: the roster has no Zoe\nb.csv: the groups' file doesn't list 1 shift (Office "
                         "2027-03-04): no rule looks at them\n")
        self.rules("Night in a row,1,")
        self.file("f.csv", "person,object\nCleo,Night 2027-03-05\n")
        status, out, _ = self.run_words(*WORDS, "--before", "b.csv", "--fixed", "f.csv")
        self.assertEqual(out, "around the past, no plan keeps these rules, proved: together they can't hold:\n"
                         "  fixed (Cleo: Night 2027-03-05)\n  Night in a row: 1 (Cleo)\n")
        self.refused(3, "d.csv, line 10, column 1: the roster has no object 'Early 2027-03-03'", *WORDS)

    def test_before_twice(self):
        """A line that stands twice would count twice."""
        self.file("d.csv", DAYS + EARLIER)
        self.file("b.csv", "person,object\nCleo,Night 2027-03-04\nBen,Night 2027-03-04\nCleo,Night 2027-03-04\n")
        self.refused(3, "b.csv, line 4: the pair Cleo, Night 2027-03-04 a second time, after line 2", *WORDS,
                     "--before", "b.csv")

    def test_past(self):
        """What is past stays, whatever rules it breaks, and rules look at it."""
        self.file("k.csv", "person,object\nCleo,Night 2027-03-05\nCleo,Early 2027-03-06\nBen,Early "
                  "2027-03-05\nAda,Night 2027-03-06\n")
        status, out, err = self.run_words(*WORDS, "--keep", "k.csv", "--past", "2027-03-07")
        self.assertEqual(status, 0)
        self.assertEqual(out.splitlines()[:4], ["least cost: 19, proved: no plan that keeps the rules costs less",
                                                "Ada (2): Night 2027-03-06, 2 (past); Night 2027-03-08, 1",
                                                "Ben (3): Early 2027-03-05, 2 (past); Early 2027-03-07, 3; Early "
                                                "2027-03-08, 0", "Cleo (3): Night 2027-03-05, 6 (past); Early "
                                                "2027-03-06, 1 (past); Night 2027-03-07, 4"])

    def test_compare(self):
        self.file("h.csv", "person,object\nAda,Night 2027-03-05\nAda,Early 2027-03-06\nAda,Night 2027-03-07\nAda,Night "
                  "2027-03-08\nBen,Early 2027-03-05\nBen,Night 2027-03-06\nCleo,Early 2027-03-07\nCleo,Early "
                  "2027-03-08\n")
        status, out, _ = self.run_words(*WORDS, "--compare", "h.csv", "--html", "h.html", "--output", "h.json")
        self.assertEqual((status, out.splitlines()[4:8]), (0, [
            "h.csv: breaks 2 rules", "  Ada: Early 2027-03-06 after Night 2027-03-05 (rest: Night > Early)",
            "  Ada: 3 Night (Night per month: 2)", "h.csv: 12, 6 more than the best, which breaks none"]))
        self.assertEqual(json.loads(self.read("h.json"))["compare"]["broken"][0], {
            "rule": "rest", "persons": ["Ada"], "objects": ["Night 2027-03-05", "Early 2027-03-06"],
            "sentence": "Ada: Early 2027-03-06 after Night 2027-03-05 (rest: Night > Early)"})
        page = self.read("h.html")
        self.assertEqual(page.count("breaks a rule</"), 4)
        self.assertIn("what breaks a rule is framed", page)

    def test_even(self):
        self.rules("rest,Night > Early,", "even,Night,")
        status, out, _ = self.run_words(*WORDS, "--output", "e.json")
        self.assertEqual((status, out.splitlines()[4:]), (0, ["even: Night: 1 to 2", "without the rules of evenness: "
                                                              "least cost 5, proved: no plan that keeps the other "
                                                              "rules costs less"]))
        rules = json.loads(self.read("e.json"))["rules"]
        self.assertEqual(rules["even"], [{"sentence": "even: Night", "least": 1, "most": 2}])
        self.assertEqual(rules["without_evenness"], {"cost": "5", "proved": "best", "better": "0"})
        self.rules("Night per month,0,Ada", "Night per month,4-,Ben", "even,Night,\"Ada, Ben\"")
        out = self.run_words(*WORDS)[1]
        self.assertIn("even: Night: 0 to 4\nproved: no plan that keeps the rules is more even\n", out)


if __name__ == "__main__":
    unittest.main()
