"""Rosters with bounds and groups, compared with searches through all plans: plans, kept plans, other plans, and each
sentence by itself."""
import itertools
import json
import random
import re
import unittest
from array import array
from unittest import mock

from nushbaret.roster import sentences
from nushbaret.roster.answer import Request, sentence
from nushbaret.roster.by_counts import answer_by_counts
from nushbaret.roster.names import without_marks
from nushbaret.roster.roster import Bounds, Groups, Roster, Takes
import drawn
from commands import Runs, without_names

CASES = 300


class Drawn:
    """A drawn roster of persons p0, p1 .. and objects o0, o1 .. in groups g0, g1; `ranges` says whether its counts are
    bounds."""

    def __init__(self, draw, span=20):
        persons, objects = draw.randint(1, 4), draw.randint(1, 5)
        self.costs = drawn.matrix(draw, persons, objects, span, 0.8)
        self.persons, self.objects = drawn.bounds(draw, persons), drawn.bounds(draw, objects)
        self.groups = drawn.groups(draw, objects)
        self.ranges = draw.random() < 0.7
        self.maximize = draw.random() < 0.5
        if not self.ranges:
            self.persons, self.objects = ([(most, most) for _, most in those] for those in (self.persons, self.objects))

    def pairs(self):
        return {(person, object_): cost for person, row in enumerate(self.costs) for object_, cost in enumerate(row)
                if cost is not None}

    def roster(self):
        pairs = self.pairs()
        persons, objects = ([f"{letter}{number}" for number in range(len(those))]
                            for letter, those in (("p", self.persons), ("o", self.objects)))
        takes = [{number: Bounds(low if self.ranges else 0, most) for number, (low, most) in enumerate(those)}
                 for those in (self.persons, self.objects)]
        of_objects = {object_: number for number, group in enumerate(self.groups) for object_ in group}
        return Roster(persons, objects, {name: number for number, name in enumerate(persons)},
                      {name: number for number, name in enumerate(objects)},
                      array("q", [person for person, _ in pairs]), array("q", [object_ for _, object_ in pairs]),
                      array("q", pairs.values()), 0, ("person", "object", "cost"), ",", False,
                      takes=Takes(*takes, not self.ranges),
                      groups=Groups("day", [f"g{number}" for number in range(len(self.groups))], of_objects)
                      if self.groups else None)

    def bounds(self):
        """What persons and objects must have and may have: with single numbers the smaller side must have all."""
        if self.ranges:
            return self.persons, self.objects
        persons_first = sum(most for _, most in self.persons) <= sum(most for _, most in self.objects)
        return ([(most if persons_first else 0, most) for _, most in self.persons],
                [(0 if persons_first else most, most) for _, most in self.objects])

    def plans(self):
        """By how much each plan misses, what it costs (under maximize negated), and its pairs."""
        costs = [[None if cost is None else -cost if self.maximize else cost for cost in row] for row in self.costs]
        return [(missed, cost, tuple(pairs)) for missed, cost, pairs in drawn.plans_by_counts(costs, *self.bounds(),
                                                                                              self.groups)]


def drawings(seed, count=CASES, span=20):
    draw = random.Random(seed)
    return [Drawn(draw, span) for _ in range(count)]


def pairs_of(plan):
    return tuple(sorted((pair.person, pair.object) for pair in plan.pairs))


class Commands(Runs):
    def table(self, name, title, lines):
        self.file(name, "\n".join([title, *lines]) + "\n")

    def words(self, case):
        """The files of a drawn roster, and the words that name them."""
        title = "," + ",".join(f"o{number}" for number in range(len(case.objects)))
        self.table("r.csv", title, [",".join([f"p{number}", *("" if cost is None else str(cost) for cost in row)])
                                    for number, row in enumerate(case.costs)])
        for name, letter, those in (("t.csv", "p", case.persons), ("s.csv", "o", case.objects)):
            self.table(name, "name,least,most" if case.ranges else "name,count",
                       [f"{letter}{number}," + (f"{bound[0]},{bound[1]}" if case.ranges else str(bound[1]))
                        for number, bound in enumerate(those)])
        words = ["r.csv", "--matrix", "--tasks", "t.csv", "--places", "s.csv", "--output", "p.json", "--force"]
        if case.groups:
            self.table("g.csv", "object,day", [f"o{object_},g{number}" for number, group in enumerate(case.groups)
                                               for object_ in group])
            words += ["--groups", "g.csv"]
        return words + ["--max"] * case.maximize

    def test_beside_all_plans(self):
        found = 0
        for number, case in enumerate(drawings(1)):
            words, plans = self.words(case), case.plans()
            missed, cost = min(plan[:2] for plan in plans)
            with self.subTest(case=number):
                status, out, err = self.run_words(*words, "--as-many-as-can")
                self.assertEqual((status, err), (missed > 0, ""))
                plan = json.loads(self.read("p.json"))
                pairs = tuple((int(pair["person"][1:]), int(pair["object"][1:])) for pair in plan["pairs"])
                self.assertIn((missed, cost, tuple(sorted(pairs))), plans)
                self.assertEqual(plan["cost"], str(-cost if case.maximize else cost))
                lacks = f" of {len(pairs)} pairs" + (" that miss least" if case.ranges else "")
                self.assertIn(f"{'greatest' if case.maximize else 'least'} "
                              f"cost{lacks if missed else ''}: {plan['cost']}", out.splitlines())
                self.assertEqual(len(plan.get("short", [])) > 0, missed > 0)
                if case.ranges:
                    self.assertEqual(sum(lack["least"] - lack["had"] for lack in plan["missing"]), missed)
                    self.assertEqual([f"{lack.get('object') or lack.get('person')}: {lack['had']} of {lack['least']}"
                                      for lack in plan["missing"]],
                                     [name for line in out.splitlines() if line.startswith("missing: ")
                                      for name in line[9:].split(", ")])
                if missed:
                    status, out, _ = self.run_words(*words)
                    self.assertEqual((status, len(out.splitlines())), (1, len(plan["short"])))
            found += missed > 0
        self.assertGreater(found, 100)
        self.assertLess(found, 260)


class Plans(unittest.TestCase):
    def test_kept_beside_all_best_plans(self):
        draw, changed = random.Random(2), 0
        for number, case in enumerate(drawings(2, 500, 2)):
            kept = {pair for pair in case.pairs() if draw.random() < 0.4}
            change = draw.choice((None, None, 0, 1, 3))
            plan = answer_by_counts(case.roster(), Request((), case.maximize, True, kept, change)).plan

            def judged(missed, cost, pairs):
                changes = len(set(pairs) ^ kept)
                return (missed, cost, changes) if change is None else (missed, 2 * cost + change * changes, 0)

            plans = case.plans()
            own = next(those for those in plans if those[2] == pairs_of(plan))
            with self.subTest(case=number):
                self.assertEqual(judged(*own), min(judged(*those) for those in plans))
            changed += len(set(own[2]) ^ kept) > len(set(own[2]) - kept) > 0
        self.assertGreater(changed, 50)

    def test_others_beside_all_plans(self):
        swapped = shown = 0
        for number, case in enumerate(drawings(3, CASES, 2) + drawings(4, CASES, 60)):
            plan = answer_by_counts(case.roster(), Request((), case.maximize, True, None, None, True)).plan
            plans = case.plans()
            missed, cost = min(those[:2] for those in plans)
            plans = [those for those in plans if those[0] == missed]
            best = [set(pairs) for _, worth, pairs in plans if worth == cost]
            free = set().union(*best) - set.intersection(*best)
            worse = [worth for _, worth, _ in plans if worth > cost]
            with self.subTest(case=number):
                for side in range(2):
                    self.assertEqual({name for swap in plan.swaps for name in swap[side]},
                                     {pair[side] for pair in free})
                wanted = None if free or not worse else min(worse) * (-1 if case.maximize else 1)
                self.assertEqual(plan.next_cost, wanted)
            swapped, shown = swapped + bool(free), shown + (plan.next_cost is not None)
        self.assertGreater(min(swapped, shown), 50)


class ManyNames(Runs):
    """Sentences on many persons and objects name eight, each once, and the page and JSON have all."""

    def test_a_month(self):
        persons, days = [f"Nurse {number:02}" for number in range(28)], [f"2027-03-{day:02}" for day in range(1, 29)]
        shifts = [f"{shift} {day}" for day in days for shift in ("early", "late", "night")]
        self.file("r.csv", "nurse,shift,cost\n" + "".join(f"{person},{shift},1\n" for person in persons
                                                          for shift in shifts))
        self.file("p.csv", "shift,least,most\n" + "".join(f"{shift},7,9\n" for shift in shifts))
        self.file("t.csv", "nurse,least,most\n" + "".join(f"{person},10,{20 + number % 2}\n"
                                                          for number, person in enumerate(persons)))
        self.file("g.csv", "shift,day\n" + "".join(f"{shift},{shift.split()[1]}\n" for shift in shifts))
        words = ("r.csv", "--places", "p.csv", "--tasks", "t.csv", "--groups", "g.csv")
        self.expect(1, "28 nurses can take at most 574 of the 588 places that must be filled at all 84 shifts of 28 "
                    "days (2027-03-01, 2027-03-02, 2027-03-03, 2027-03-04, 2027-03-05, 2027-03-06, 2027-03-07, "
                    "2027-03-08 and 20 more): 14 at most 21 each (Nurse 01, Nurse 03, Nurse 05, Nurse 07, Nurse 09, "
                    "Nurse 11, Nurse 13, Nurse 15 and 6 others); 14 at most 20 each: allow others there, or fill 14 "
                    "fewer\n", "", *words, "--html", "p.html", "--output", "p.json")
        short, = json.loads(self.read("p.json"))["short"]
        self.assertEqual((short["persons"], short["objects"]), (persons, shifts))
        page = without_names(self.read("p.html"))
        self.assertIn(f"<details><summary>28 nurses</summary><p>{', '.join(persons)}</p></details>", page)
        self.assertIn(f"<details><summary>84 shifts</summary><p>{', '.join(shifts)}</p></details>", page)

    def test_one_each(self):
        self.file("r.csv", ",x\n" + "".join(f"p{number},1\n" for number in range(20)))
        self.file("c.csv", "person,b,c\n" + "".join(f"p{number},1,1\n" for number in range(20)))
        self.expect(1, "20 people (p0, p1, p2, p3, p4, p5, p6 and 13 others) must take 20 objects between them, and "
                    "can take at most 1: x at most 1: allow others, or let them take 19 fewer\n", "", "r.csv",
                    "--tasks", "c.csv")
        self.file("s.csv", "," + ",".join(f"o{number}" for number in range(9)) + ",z\n"
                  + "".join(f"p{number}" + ",1" * 9 + ",\n" for number in range(10)))
        self.expect(1, "10 people (p0, p1, p2, p3 and 6 others) can take only 9 objects between them (o0, o1, o2, o3 "
                    "and 5 others): allow one of them another, or leave one out\n", "", "s.csv")

    def test_names_with_commas(self):
        self.file("r.csv", 'nurse,shift,cost\n"Kurz, Ida",x,1\n"Lang, Eva",x,1\n"Lang, '
                  'Eva",y,1\nUwe,y,1\nMax,v,1\nMax,w,2\n')
        self.expect(1, "3 nurses (Kurz, Ida; Lang, Eva; Uwe) can take only 2 shifts between them (x, y): allow one of "
                    "them another, or leave one out\n", "", "r.csv")
        self.file("r.csv", self.read("r.csv") + '"Kurz, Ida",y,1\n')
        self.file("p.csv", "shift,least,most\nx,3,3\ny,1,2\nv,0,1\nw,0,1\n")
        self.file("t.csv", "nurse,least,most\n\"Kurz, Ida\",0,1\n\"Lang, Eva\",0,1\nUwe,0,0\n")
        self.assertEqual(self.run_words("r.csv", "--places", "p.csv", "--tasks", "t.csv")[1],
                         ("3 nurses can take at most 2 of the 4 places that must be filled at 2 shifts (x (3), y): 2 "
                          "at most 1 each (Kurz, Ida; Lang, Eva); Uwe none: allow others there, or fill 2 fewer\n"))


class Sentences(unittest.TestCase):
    """What a sentence names is read from it, and a search of just that finds no plan."""

    def test_each_is_true_by_itself(self):
        found = 0
        for number, case in enumerate(drawings(5, 1300)):
            roster = case.roster()
            with mock.patch.object(sentences, "MOST_LISTED", number % 2 * 9):
                answer = answer_by_counts(roster, Request((), case.maximize))
            found += bool(answer.groups)
            for short in answer.groups:
                text = without_marks(sentence(roster, short, False))
                with self.subTest(case=number, text=text):
                    self.judge(case, text)
        self.assertGreater(found, 500)

    def judge(self, case, text):
        """Compares the numbers of a sentence with a search; they add up to what can be had."""
        names = re.findall(r"\b[po]\d+\b", text)
        self.assertEqual(len(names), len(set(names)))
        about_objects = re.match(r"(?:nobody can take the|(\d+) (?:person|people) can take at most (\d+) of the) (\d+) "
                                 r"places? that must be filled at (?:\d+ objects? \(((?:o\d+(?: \(\d+\))?(?:, "
                                 r")?)+)\)|all \d+ objects?)(?: of day (g\d)| of \d+ days \((.*?)\))?: (.*)", text)
        if about_objects:
            self.judge_objects(case, *about_objects.groups())
        else:
            about_persons = re.match(r"(?:(p\d+)|\d+ people \(((?:p\d+(?: \(\d+\))?(?:, )?)+)\)) must take (\d+) "
                                     r"objects?(?: between them)?, and (?:may take none|can take at most (\d+)): (.*)",
                                     text)
            self.assertIsNotNone(about_persons)
            self.judge_persons(case, *about_persons.groups())

    def judge_objects(self, case, count, most, wanted, names, day, days, rest):
        least = self.counts(names) if names else self.of_days(case, f"{day or ''}{days or ''}")
        self.assertEqual(sum(least.values()), int(wanted))
        pairs = [(person, object_) for person, object_ in case.pairs() if object_ in least]
        caps = {}
        for names_, number, rule in self.reasons(rest):
            for person in map(int, re.findall(r"p(\d+)", names_)):
                self.assertNotIn(person, caps)
                caps[person] = number
                if rule:
                    self.assertEqual(number, len({self.unit(case, *pair) for pair in pairs if pair[0] == person}))
        self.assertLessEqual({person for person, _ in pairs}, set(caps))
        self.assertEqual((len(caps), sum(caps.values())), (int(count or 0), int(most or 0)))
        self.assertEqual(self.most(case, pairs, caps, least), int(most or 0))
        self.assertLess(int(most or 0), int(wanted))

    def judge_persons(self, case, alone, names, wanted, most, rest):
        least = {int(alone[1:]): int(wanted)} if alone else self.counts(names)
        self.assertEqual(sum(least.values()), int(wanted))
        pairs = [(person, object_) for person, object_ in case.pairs() if person in least]
        caps, elsewhere = {}, 0
        for names_, number, rule in self.reasons(rest):
            if rule:
                elsewhere = int(number if number is not None else most)
                units = {self.unit(case, *pair)[1] for pair in case.pairs() if pair[0] in least}
                self.assertLessEqual(set(re.findall(r"g\d", rule)), units)
            caps.update((int(object_), number) for object_ in re.findall(r"o(\d+)", names_))
        self.assertEqual(elsewhere, len({self.unit(case, *pair) for pair in pairs if pair[1] not in caps}))
        self.assertEqual(sum(caps.values()) + elsewhere, int(most or 0))
        self.assertEqual(self.most(case, pairs, least, caps), int(most or 0))
        self.assertLess(int(most or 0), int(wanted))

    def unit(self, case, person, object_):
        """The group of an object, or the object itself: a person takes one of it."""
        return person, next((f"g{number}" for number, group in enumerate(case.groups) if object_ in group), object_)

    def of_days(self, case, days):
        """The least counts of all objects of some days."""
        bounds = case.bounds()[1]
        return {object_: bounds[object_][0] for day in re.findall(r"g(\d)", days) for object_ in case.groups[int(day)]}

    def counts(self, names):
        return {int(number): int(count or 1) for number, count in re.findall(r"[po](\d+)(?: \((\d+)\))?", names)}

    def reasons(self, rest):
        """The names, the number and the rule of each reason; the advice comes after these."""
        day, single = r"one of each day(?: \([^)]*\))?", r"once at each object(?: \([^)]*\))?"
        rule = f"{day}, {single}|{day}|{single}"
        for part in rest.rpartition(": ")[0].split("; ") if ": " in rest else ():
            plain = re.fullmatch(r"(?:\d+ |([po]\d+) )(?:(one of each day, once at each object|one of each day|once at "
                                 r"each object), so )?(?:at most (\d+)(?: each)?|none)(?: \((.*)\))?", part)
            other = re.fullmatch(rf"(?:(\d+) elsewhere, )?({rule})", part)
            self.assertIsNotNone(plain or other, part)
            if other:
                yield "", int(other[1]) if other[1] else None, other[2]
            else:
                yield plain[1] or plain[4] or "", int(plain[3] or 0), plain[2]

    def most(self, case, pairs, of_persons, of_objects):
        """How many pairs there can be, by a search: a person takes one of a group, and no pair twice."""
        choices = []
        for person in sorted({person for person, _ in pairs}):
            held = [object_ for those, object_ in pairs if those == person]
            options = []
            for those in itertools.chain.from_iterable(itertools.combinations(held, count)
                                                       for count in range(len(held) + 1)):
                if len(those) <= of_persons.get(person,
                                                len(held)) and len({self.unit(case, person, one)
                                                                    for one in those}) == len(those):
                    options.append(those)
            choices.append(options)
        best = 0
        for picked in itertools.product(*choices):
            used = [object_ for those in picked for object_ in those]
            if all(used.count(object_) <= of_objects.get(object_, len(used)) for object_ in set(used)):
                best = max(best, len(used))
        return best


if __name__ == "__main__":
    unittest.main()
