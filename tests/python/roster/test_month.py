"""A month's changes: what comes and goes, the past, plans from elsewhere and names without a line, compared with
searches through all plans."""
import json
import random
import unittest
from typing import Any, Dict, List, NamedTuple, Optional, Set, Tuple

from nushbaret.roster.past import groups_before
from nushbaret.roster.roster import Groups
from nushbaret.roster.sheets import RosterFault
import drawn
from commands import TOP, Runs, without_names
from roster.test_planners_counts import Drawn

CASES = 500


class Month(Runs):
    """Drawn rosters as files: persons p0 .., objects o0 .., groups g0 .. ."""

    def table(self, name, title, lines):
        self.file(name, "\n".join([title, *(",".join(map(str, line)) for line in lines)]) + "\n")

    def words(self, case):
        title = "," + ",".join(f"o{number}" for number in range(len(case.objects)))
        self.table("r.csv", title, [[f"p{number}", *("" if cost is None else cost for cost in row)]
                                    for number, row in enumerate(case.costs)])
        for name, letter, those in (("t.csv", "p", case.persons), ("s.csv", "o", case.objects)):
            self.table(name, "name,least,most" if case.ranges else "name,count",
                       [[f"{letter}{number}", *(bound if case.ranges else bound[1:])]
                        for number, bound in enumerate(those)])
        words = ["r.csv", "--matrix", "--tasks", "t.csv", "--places", "s.csv", "--output", "p.json", "--force"]
        if case.groups:
            self.table("g.csv", "object,day", [[f"o{object_}", f"g{number}"] for number, group in enumerate(case.groups)
                                               for object_ in group])
            words += ["--groups", "g.csv"]
        return words + ["--max"] * case.maximize

    def plan(self):
        return json.loads(self.read("p.json"))


def numbers(pairs):
    """Persons and objects by number, of pairs of a plan in JSON."""
    return {(int(pair["person"][1:]), int(pair["object"][1:])) for pair in pairs}


def drawn_pairs(draw, case, share):
    return {(person, object_) for person in range(len(case.persons)) for object_ in range(len(case.objects))
            if draw.random() < share}


class Changed(Runs):
    """The example of counts from-to, where somebody loses a shift and gets no other."""

    def setUp(self):
        super().setUp()
        self.file("r.csv", "nurse,shift,cost\nAda,Mon 1,1\nAda,Tue 1,1\nBen,Mon 2,2\nBen,Tue 1,1\n")
        self.file("p.csv", "shift,at least,at most\nMon 1,1,2\nTue 1,1,2\nMon 2,1,2\n")
        self.file("t.csv", "nurse,at least,at most\nAda,1,2\nBen,2,2\n")
        self.file("old.csv", "nurse,shift\nAda,Mon 1\nAda,Tue 1\nBen,Mon 2\nBen,Tue 1\n")
        self.rules = ("r.csv", "--places", "p.csv", "--tasks", "t.csv", "--keep", "old.csv")

    def test_who_loses_a_shift(self):
        status, out, err = self.run_words(*self.rules, "--output", "p.json", "--output", "new.csv", "--output",
                                          "p.html")
        self.assertEqual((status, err, out.splitlines()[0]), (0, "", "least cost: 4"))
        self.assertTrue(out.endswith("old.csv: 1 pair goes\n  Ada: Tue 1 goes\n"))
        self.assertEqual(json.loads(self.read("p.json"))["keep"]["changes"],
                         [{"person": "Ada", "goes": ["Tue 1"], "comes": []}])
        self.assertEqual(self.read("new.csv"), "nurse,shift,cost\nAda,Mon 1,1\nBen,Tue 1,1\nBen,Mon 2,2\n")
        self.assertEqual(self.read("new-changes.csv"), "nurse,shift,change\nAda,Tue 1,goes\n")
        self.assertEqual(self.run_words(*self.rules, "--output", "other.csv", "-q")[0], 0)
        self.file("third-changes.csv", "mine")
        self.assertEqual(self.run_words(*self.rules, "--output", "third.csv"),
                         (4, "", "third-changes.csv exists: --force overwrites it\n"))
        self.assertIn("<p>old.csv: 1 pair goes</p>\n<ul>\n<li>Ada: Tue 1 goes</li>", without_names(self.read("p.html")))
        for plan in ("new.csv", "p.json"):
            self.assertIn(f"{plan}: no pair changes", self.run_words(*self.rules[:-1], plan)[1])

    def test_a_lost_shift_costs_half_a_change(self):
        for cost, own, change in (("1", "4", "1 pair goes"), ("2.1", "5.0", "no pair changes"),
                                  ("5", "5", "no pair changes")):
            status, out, _ = self.run_words(*self.rules, "--change-cost", cost,
                                            *(("--decimals", "1") if "." in cost else ()))
            self.assertEqual((status, out.splitlines()[0]), (0, f"cost: {own}, the least with changes at {cost} each"))
            self.assertIn(f"old.csv: {change}\n", out)

    def test_a_swap_costs_it_once(self):
        """Of 1 to 2 places one costs 1 less with another nurse: that is less than a change, or as much."""
        self.file("r.csv", "nurse,shift,cost\nAda,Mon 1,3\nBen,Mon 1,1\n")
        self.file("p.csv", "shift,at least,at most\nMon 1,1,1\n")
        self.file("t.csv", "nurse,at least,at most\nAda,0,1\nBen,0,1\n")
        self.file("old.csv", "nurse,shift\nAda,Mon 1\n")
        self.assertIn("old.csv: 1 pair comes, 1 goes\n  Ada: Mon 1 goes\n  Ben: Mon 1 comes\n",
                      self.run_words(*self.rules, "--change-cost", "1")[1])
        self.assertIn("old.csv: no pair changes\n", self.run_words(*self.rules, "--change-cost", "3")[1])

    def test_what_is_not_possible_now(self):
        self.file("r.csv", "nurse,shift,cost\nAda,Mon 1,1\nBen,Mon 2,2\nBen,Tue 1,1\nCleo,Mon 1,9\n")
        self.file("t.csv", "nurse,at least,at most\nAda,1,2\nBen,2,2\nCleo,0,0\n")
        self.file("old.csv", "nurse,shift\nAda,Mon 1\nAda,Tue 1\nBen,Mon 2\nBen,Tue 1\nCleo,Mon 1\nDan,Mon "
                  "1\nAda,Wed\n")
        status, out, err = self.run_words(*self.rules, "--output", "p.json", "--output", "new.csv")
        self.assertEqual((status, err), (0, "old.csv: the roster has no Dan (did you mean Ada?), "
                                         "Wed\n".replace(" (did you mean Ada?)", "")))
        self.assertTrue(out.endswith("old.csv: no pair changes\n  Ada: Tue 1 not possible now (forbidden)\n  Cleo: Mon "
                                     "1 not possible now (takes none)\n  Dan: Mon 1 not possible now (gone)\n  Ada: "
                                     "Wed not possible now (gone)\n"))
        self.assertEqual([lost["why"] for lost in json.loads(self.read("p.json"))["keep"]["not_possible"]],
                         ["forbidden", "takes none", "gone", "gone"])
        self.assertIn("\nAda,Tue 1,not possible\n", self.read("new-changes.csv"))
        self.file("t.csv", "nurse,at least,at most\nAda,1,2\nBen,2,2\nCleo,0,1\n")
        self.assertIn("new.csv: no pair changes\n", self.run_words(*self.rules[:-1], "new.csv")[1])

    def test_plans_of_old(self):
        """A column `change` says of lines that they are none of the plan; costs may be called so, too."""
        self.file("new.csv", "nurse,shift,change,change\nAda,Mon 1,1,\nAda,Tue 1,,goes\nBen,Tue 1,1,\n"
                  "Ben,Mon 2,2,comes\nBen,Mon 1,,not possible\n")
        self.assertIn("new.csv: no pair changes\n", self.run_words(*self.rules[:-1], "new.csv")[1])


class ChangesBesideAllPlans(Month):
    def test_reported_changes(self):
        """What is reported is what differs from the earlier plan."""
        draw, gone = random.Random(51), 0
        for number in range(CASES):
            case = Drawn(draw, 2)
            kept, change = drawn_pairs(draw, case, 0.4), draw.choice((None, None, 1, 3))
            self.table("k.csv", "a,b", sorted((f"p{person}", f"o{object_}") for person, object_ in kept))
            if not kept:
                continue
            words = self.words(case) + ["--keep", "k.csv",
                                        "--as-many-as-can"] + (["--change-cost", str(change)] if change else [])
            with self.subTest(case=number):
                status, out, err = self.run_words(*words)
                self.assertIn(status, (0, 1), err)
                pairs, keep = numbers(self.plan()["pairs"]), self.plan()["keep"]
                lost = numbers(keep["not_possible"])
                self.assertEqual({pair for pair in kept if pair not in case.pairs() or not case.persons[pair[0]][1]
                                  or not case.objects[pair[1]][1]}, lost)
                for word, those in (("comes", pairs - kept), ("goes", kept - pairs - lost)):
                    self.assertEqual({(int(own["person"][1:]), int(object_[1:])) for own in keep["changes"]
                                      for object_ in own[word]}, those)
                possible = kept - lost

                def judged(missed, cost, plan):
                    changes = len(set(plan) ^ possible)
                    return (missed, 2 * cost + change * changes) if change else (missed, cost, changes)

                plans = case.plans()
                own = next(plan for plan in plans if set(plan[2]) == pairs)
                self.assertEqual(judged(*own), min(judged(*plan) for plan in plans))
                gone += len(kept - pairs - lost) > len(pairs - kept)
        self.assertGreater(gone, 50)


class Kept(NamedTuple):
    """A drawn case, the costs of the kept plan's pairs in its file, what a change costs, which objects are past, and
    the words of the command."""

    case: Drawn
    costs: Dict[Tuple[int, int], Any]
    change: Optional[int]
    objects: Set[int]
    words: List[str]

    @property
    def past(self):
        return {pair for pair in self.costs if pair[1] in self.objects}


class Past(Month):
    def rest(self, case, past, objects):
        """What is to be planned after the past: costs, and bounds of persons and objects."""
        had = [sum(person == number for person, _ in past) for number in range(len(case.persons))]
        most = [max(bound[1], count) - count for bound, count in zip(case.persons, had)]
        places = [0 if number in objects else bound[1] for number, bound in enumerate(case.objects)]
        if case.ranges:
            rows = [(max(bound[0] - count, 0), own) for bound, count, own in zip(case.persons, had, most)]
            columns = [(0 if number in objects else bound[0], own)
                       for (number, bound), own in zip(enumerate(case.objects), places)]
        else:
            persons_first = sum(most) <= sum(places)
            rows = [(own if persons_first else 0, own) for own in most]
            columns = [(0 if persons_first else own, own) for own in places]
        sign = -1 if case.maximize else 1
        costs = [[None if cost is None or number in objects else sign * cost for number, cost in enumerate(row)]
                 for row in case.costs]
        return costs, rows, columns

    def drawn(self, draw):
        """A case with groups, a kept plan and its costs in its file, and what is past; the words of the command. None
        where nothing is kept."""
        case = Drawn(draw, 3)
        while len(case.groups) < 2:
            case = Drawn(draw, 3)
        kept, change, before = drawn_pairs(draw, case, 0.4), draw.choice((None, 1, 3)), draw.choice((0, 1, 1, 1))
        objects = {object_ for group in case.groups[:before] for object_ in group}
        costs = {pair: draw.choice((0, 1, 5, "")) for pair in sorted(kept)}
        if not kept:
            return None
        self.table("k.csv", "a,b,c", [(f"p{person}", f"o{object_}", cost) for (person, object_), cost in costs.items()])
        words = self.words(case) + ["--keep", "k.csv", "--past", f"g{before}", "--as-many-as-can"]
        return Kept(case, costs, change, objects, words + (["--change-cost", str(change)] if change else []))

    def best_of_all(self, those, own):
        """What is missed and the cost of the plan's pairs, of which no plan of the rest is better."""
        case, possible = those.case, {pair for pair in set(those.costs) - those.past if pair in those.case.pairs()}

        def judged(missed, cost, pairs):
            changes = len(set(pairs) ^ possible)
            return (missed, 2 * cost + those.change * changes) if those.change else (missed, cost, changes)

        plans = list(drawn.plans_by_counts(*self.rest(case, those.past, those.objects), case.groups))
        found = next(plan for plan in plans if set(plan[2]) == own)
        self.assertEqual(judged(*found), min(judged(*plan) for plan in plans))
        return found

    def check_said(self, those, err):
        """Who has more in the past than it takes, and who has what isn't allowed: both are said, of nobody else."""
        case = those.case
        passing = [person for person in range(len(case.persons))
                   if sum(own[0] == person for own in those.past) > case.persons[person][1]]
        self.assertEqual([person for person in range(len(case.persons)) if f"k.csv: p{person} has " in err], passing)
        refused = {person for person, object_ in those.past if (person, object_) not in case.pairs()}
        self.assertEqual({person for person in range(len(case.persons))
                          if f"p{person} keeps what the roster doesn't allow" in err}, refused)
        return bool(passing), bool(refused)

    def check(self, those):
        """The past stands, and what is planned around it is the best of all plans."""
        status, _, err = self.run_words(*those.words)
        self.assertIn(status, (0, 1), err)
        plan, case = self.plan(), those.case
        self.assertEqual(numbers(pair for pair in plan["pairs"] if pair.get("past")), those.past)
        missed, cost, _ = self.best_of_all(those, numbers(pair for pair in plan["pairs"] if not pair.get("past")))
        worth = sum(case.pairs()[pair] if pair in case.pairs() else those.costs[pair] or 0 for pair in those.past)
        self.assertEqual(plan["cost"], str(worth + (-cost if case.maximize else cost)))
        self.assertEqual((status, bool(plan.get("short"))), (int(missed > 0), missed > 0))
        return (*self.check_said(those, err), missed > 0)

    def test_beside_all_plans(self):
        draw, seen = random.Random(52), [0, 0, 0]
        for number in range(CASES):
            those = self.drawn(draw)
            if those is not None:
                with self.subTest(case=number):
                    seen = list(map(sum, zip(seen, self.check(those))))
        self.assertGreater(min(seen), 50)

    def week(self):
        for name in ("week.csv", "week_places.csv", "week_tasks.csv", "week_days.csv"):
            self.file(name, (TOP / "examples" / name).read_text(encoding="utf-8"))
        self.words_of_week = ("week.csv", "--places", "week_places.csv", "--groups", "week_days.csv")
        self.run_words(*self.words_of_week, "--tasks", "week_tasks.csv", "--output", "plan.csv")

    def test_sick_from_wednesday(self):
        self.week()
        self.file("sick.csv", self.read("week_tasks.csv").replace("Ben,2,3", "Ben,0,0"))
        status, out, err = self.run_words(*self.words_of_week, "--tasks", "sick.csv", "--keep", "plan.csv", "--past",
                                          "Wed")
        self.assertEqual((status, err), (0, "plan.csv: 4 pairs of 2 days before Wed (Mon, Tue) stay\nplan.csv: Ben has "
                                         "1 shift in the past, more than the most of 0: 1 is the most\n"))
        self.assertIn("\nBen: night Tue, 1 (past)\n", out)
        self.assertTrue(out.endswith("plan.csv: 1 pair comes\n  Eve: night Wed comes\n  Ben: night Wed not possible "
                                     "now (takes none)\n"))

    def test_gone_from_the_roster(self):
        self.week()
        self.file("week.csv", "".join(line for line in self.read("week.csv").splitlines(True)
                                      if not line.startswith("Ben,")))
        self.file("t.csv", self.read("week_tasks.csv").replace("Ben,2,3\n", ""))
        self.file("plan.csv", self.read("plan.csv").replace("Ben,night Tue,1", "Ben,night Tue,7"))
        words = (*self.words_of_week, "--tasks", "t.csv", "--keep", "plan.csv", "--past", "Wed")
        status, out, err = self.run_words(*words, "--output", "p.json", "--output", "new.csv", "--html", "p.html")
        self.assertEqual((status, err), (0, "plan.csv: 4 pairs of 2 days before Wed (Mon, Tue) stay\nplan.csv: Ben "
                                         "keeps what the roster doesn't allow now: night Tue, 7\nplan.csv: the roster "
                                         "has no Ben\n"))
        self.assertIn("\nBen: night Tue, 7 (past)\n", out)
        self.assertTrue(out.endswith("plan.csv: 1 pair comes\n  Eve: night Wed comes\n  Ben: night Wed not possible "
                                     "now (gone)\n"))
        self.assertIn("Ben,night Tue,7\n", self.read("new.csv"))
        self.assertEqual([pair["cost"] for pair in json.loads(self.read("p.json"))["pairs"] if pair["person"] == "Ben"],
                         ["7"])
        for again in ("p.json", "new.csv"):
            self.assertIn("no pair changes", self.run_words(*words[:-3], again, "--past", "Wed")[1])

    def test_fixed_pairs_and_the_past(self):
        self.week()
        words = (*self.words_of_week, "--tasks", "week_tasks.csv", "--keep", "plan.csv", "--past", "Wed", "--fixed",
                 "f.csv")
        self.file("f.csv", "a,b\nDan,day Tue\nAda,day Sat\n")
        self.assertIn("day Sat, 9 (fixed)", self.run_words(*words)[1])
        for content, text in (("Ada,day Tue\n", "f.csv, line 2: Ada, day Tue is in the past, where the kept plan "
                               "doesn't have it"), ("Dan,day Wed\nDan,day Thu\nDan,day Fri\n",
                                                    "f.csv, line 4: with Dan, day Fri Dan has 4, also counting the "
                                                    "past, where 3 is the most")):
            self.file("f.csv", "a,b\n" + content)
            self.refused(3, text, *words)

    def test_short_around_the_past(self):
        self.week()
        tasks = self.read("week_tasks.csv").replace("Ben,2,3", "Ben,0,0").replace("Eve,2,3", "Eve,0,0")
        self.file("t.csv", tasks.replace("Dan,2,3", "Dan,0,0"))
        words = (*self.words_of_week, "--tasks", "t.csv", "--keep", "plan.csv", "--past", "Wed")
        self.assertTrue(self.run_words(*words)[1].startswith("around the past, "))
        self.file("f.csv", "a,b\nAda,day Sat\n")
        self.assertTrue(self.run_words(*words, "--fixed",
                                       "f.csv")[1].startswith("around the past and the fixed pairs, "))

    def test_which_groups_are_before(self):
        for names, group, wanted in ((["Tue", "Mon", "Wed"], "Wed", ["Tue", "Mon"]), (["Tue", "Mon", "Wed"], "Tue", []),
                                     (["2027-03-02", "2027-03-10", "2027-03-01"], "2027-03-10",
                                      ["2027-03-02", "2027-03-01"]),
                                     (["01.03.2027", "28.02.2027", "02.03.2027"], "2027-03-01", ["28.02.2027"]),
                                     (["01.03.2027", "03.03.2027"], "02.03.2027", ["01.03.2027"]),
                                     (["Mo 01.03.2027", "So 28.02."], "Mo 01.03.", ["So 28.02."])):
            with self.subTest(names=names, group=group):
                self.assertEqual([names[number] for number in groups_before(Groups("day", names, {}), group)], wanted)
        with self.assertRaisesRegex(RosterFault, "--past: there is no day 'mon': did you mean 'Mon'?"):
            groups_before(Groups("day", ["Mon", "Tue"], {}), "mon")

    def test_costs_of_the_plans_file(self):
        self.file("r.csv", "nurse,shift,hours\nAda,Mon,1.5\nBen,Tue,2\nAda,Tue,3\n")
        self.file("g.csv", "shift,day\nMon,1\nTue,2\n")
        words = ("r.csv", "--groups", "g.csv", "--keep", "k.csv", "--past", "2")
        for title, cost, shown in (("nurse,shift,hours", "2.5", "2.5"), ("nurse,shift,hours", "", "0.0"),
                                   ("nurse,shift,hours", "off", "0.0"), ("nurse,shift,day", "1", "0.0"),
                                   ("nurse,shift,hours", "1e1", "10.0")):
            self.file("k.csv", f"{title}\nBen,Mon,{cost}\n")
            with self.subTest(title=title, cost=cost):
                status, out, err = self.run_words(*words)
                self.assertIn(f"k.csv: Ben keeps what the roster doesn't allow now: Mon, {shown}\n", err)
                self.assertIn(f"Ben: Mon, {shown} (past)\n", out)
        self.file("k.csv", "nurse,shift,hours\nBen,Mon,2.25\n")
        self.refused(3, "k.csv, line 2, column 3: '2.25' has more than 1 decimal places: --decimals 2 allows it",
                     *words)
        self.assertIn("Ben: Mon, 2.25 (past)", self.run_words(*words, "--decimals", "2")[1])
        self.assertIn("Ben: Mon, 2.2 (past)", self.run_words(*words, "--round", "1")[1])
        self.file("k.csv", 'nurse,shift,hours\nBen,Mon,"2,5"\n')
        self.refused(3, "k.csv, line 2, column 3: '2,5' is no number; with --decimal-comma it may be", *words)
        self.file("k.json", json.dumps({"pairs": [{"person": "Ben", "object": "Mon", "cost": "4.5"}]}))
        self.assertIn("Ben: Mon, 4.5 (past)", self.run_words(*words[:4], "k.json", *words[5:])[1])

    def test_needs_a_plan_and_groups(self):
        self.file("r.csv", ",x\nAda,1\n")
        for words in (("--keep", "k.csv"), ("--groups", "g.csv"), ()):
            self.refused(2, "--past needs --keep and --groups", "r.csv", "--past", "Wed", *words)


class Compared(Month):
    def broken(self, case, named, repeated):
        """The rules that a plan breaks, by kind and names. Where single numbers of both sides have one sum, both must
        have all."""
        sums = [sum(most for _, most in those) for those in (case.persons, case.objects)]
        bounds = [[(bound[0] if case.ranges else bound[1] if own <= other else 0, bound[1]) for bound in those]
                  for those, own, other in ((case.persons, *sums), (case.objects, *sums[::-1]))]
        pairs = [pair for pair in named if pair[0] < len(case.persons) and pair[1] < len(case.objects)]
        own_groups = {object_: number for number, group in enumerate(case.groups) for object_ in group}
        found = [("unlisted", f"p{person}", f"o{object_}") for person, object_ in named
                 if (person, object_) not in case.pairs()]
        found += [("repeated", f"p{person}", f"o{object_}") for person, object_ in repeated]
        for person in range(len(case.persons)):
            days = [own_groups[object_] for those, object_ in pairs if those == person and object_ in own_groups]
            found += [("group", f"p{person}", *(f"o{object_}" for those, object_ in sorted(pairs) if those == person
                                                and own_groups.get(object_) == day)) for day in sorted(set(days))
                      if days.count(day) > 1]
        for side, letter in enumerate("po"):
            for number, (least, _) in enumerate(bounds[side]):
                count, most = sum(pair[side] == number for pair in pairs), (case.persons, case.objects)[side][number][1]
                found += [("most", f"{letter}{number}")] * (count > most) + [("least",
                                                                              f"{letter}{number}")] * (count < least)
        return sorted(found)

    def test_beside_a_search(self):
        draw, whole, worse = random.Random(53), 0, 0
        for number in range(CASES):
            case = Drawn(draw, 3)
            words, plans = self.words(case) + ["--as-many-as-can", "--compare", "h.csv"], case.plans()
            best = min(plan[:2] for plan in plans)
            full = [plan for plan in plans if plan[0] == best[0]]
            named = (sorted(drawn_pairs(draw, case, draw.choice((0.2, 0.5)))) if draw.random() < 0.4
                     else sorted(draw.choice(full)[2]))
            named += [(len(case.persons), 0)] * (draw.random() < 0.1)
            if not named:
                continue
            repeated = draw.sample(named, draw.choice((0, 0, 0, 1)))
            self.table("h.csv", "a,b", [(f"p{person}", f"o{object_}") for person, object_ in named + repeated])
            with self.subTest(case=number):
                status, out, err = self.run_words(*words)
                self.assertEqual(status, int(best[0] > 0))
                found, wanted = self.plan()["compare"], self.broken(case, named, repeated)
                self.assertEqual(sorted((broken["rule"], *broken["persons"], *broken["objects"])
                                        for broken in found["broken"]), wanted)
                lines = out.splitlines()
                if wanted:
                    first = lines.index(f"h.csv: breaks {len(wanted)} rule{'s' * (len(wanted) > 1)}")
                    self.assertEqual(lines[first + 1:first + 1 + len(wanted)],
                                     ["  " + broken["sentence"] for broken in found["broken"]])
                    self.assertTrue(lines[first + 1 + len(wanted)].startswith("h.csv: "))
                known = [pair for pair in named if pair in case.pairs()]
                cost = sum(case.pairs()[pair] for pair in known)
                self.assertEqual(found["cost"], str(cost))
                own = next((those for those in plans if those[2] == tuple(sorted(named))), None)
                is_as_full = own is not None and not repeated and own[0] == best[0]
                self.assertEqual(found.get("worse"), str(own[1] - best[1]) if is_as_full else None)
                whole, worse = whole + is_as_full, worse + bool(wanted)
        self.assertGreater(min(whole, worse), 80)

    def test_each_rule_by_its_names(self):
        for name in ("week.csv", "week_places.csv", "week_tasks.csv", "week_days.csv"):
            self.file(name, (TOP / "examples" / name).read_text(encoding="utf-8"))
        words = ("week.csv", "--places", "week_places.csv", "--groups", "week_days.csv", "--tasks", "week_tasks.csv")
        self.run_words(*words, "--output", "plan.csv")
        lines = [line for line in self.read("plan.csv").splitlines(True) if line != "Finn,night Sun,6\n"]
        self.file("hand.csv", "".join(lines) + "Ada,day Mon,1\nAda,day Tue,5\nAda,night Thu,8\nEve,day Mon,6\nEve,day "
                  "Mon,6\nZoe,day Mon,1\n")
        status, out, err = self.run_words(*words, "--compare", "hand.csv")
        self.assertEqual((status, err), (0, "hand.csv: the roster has no Zoe\n"))
        self.assertEqual(out[out.index("hand.csv"):], "hand.csv: breaks 9 rules\n  Ada, day Mon: the roster forbids "
                         "this pair\n  Zoe, day Mon: the roster has no Zoe\n  Eve, day Mon: 2 times, in lines 18 and "
                         "19\n  Ada: day Thu, night Thu, 2 of day Thu\n  Eve: day Mon, night Mon, 2 of day Mon\n  Ada: "
                         "5 shifts, at most 3\n  day Mon: 3 nurses, at most 2\n  night Thu: 2 nurses, at most 1\n  "
                         "night Sun: no nurse, at least 1\nhand.csv: 46 for 16 pairs that the roster allows, 13 more "
                         "than the best, which breaks none\n  there Ada: day Tue, 5\n  there Ada: night Thu, 8\n  "
                         "there Eve: day Mon, 6\n")

    def test_without_a_plan(self):
        self.file("r.csv", ",x,y\nAda,1,\nBen,2,\n")
        self.file("h.csv", "a,b\nAda,x\nBen,x\n")
        status, out, _ = self.run_words("r.csv", "--compare", "h.csv", "--output", "p.json")
        self.assertEqual((status, out.splitlines()[1:]),
                         (1, ["h.csv: breaks 2 rules", "  x: 2 people, at most 1", "  y: no person, at least 1"]), out)
        self.assertEqual([broken["rule"] for broken in self.plan()["compare"]["broken"]], ["most", "least"])

    def test_the_past_of_a_hand_plan(self):
        self.file("r.csv", ",x,y\nAda,1,2\nBen,3,1\n")
        self.file("g.csv", "o,day\nx,1\ny,2\n")
        self.file("k.csv", "a,b\nBen,x\n")
        self.file("h.csv", "a,b\nAda,x\nBen,y\n")
        _, out, _ = self.run_words("r.csv", "--groups", "g.csv", "--keep", "k.csv", "--past", "2", "--compare", "h.csv")
        self.assertIn("h.csv: breaks 2 rules\n  Ada, x: the past doesn't have this pair\n  Ben, x: the past pair is "
                      "missing\n", out)


class Forgotten(Month):
    def test_beside_all_plans(self):
        draw, short = random.Random(54), 0
        for number in range(CASES):
            case = Drawn(draw, 9)
            case.ranges = True
            words = self.words(case)
            left = [[n for n in range(len(those)) if draw.random() < 0.3] for those in (case.persons, case.objects)]
            lines = [[], []]
            for side, (those, letter) in enumerate(((case.persons, "p"), (case.objects, "o"))):
                other = len((case.objects, case.persons)[side])
                for name, (least, most) in enumerate(list(those)):
                    empty = draw.choice(("", "least", "most")) if name not in left[side] else ""
                    those[name] = (0, 1) if side == 0 and name in left[side] else (1, 1) if name in left[side] else (
                        0 if empty == "least" else least, max(other, least) if empty == "most" else most)
                    if name not in left[side]:
                        lines[side].append([f"{letter}{name}", "" if empty == "least" else least,
                                            "" if empty == "most" else most])
            if not all(lines):
                continue
            for name, those in zip(("t.csv", "s.csv"), lines):
                self.table(name, "name,least,most", those)
            with self.subTest(case=number):
                status, out, err = self.run_words(*words, "--as-many-as-can")
                said = [(f"{name}: no line for ", [f"{letter}{n}" for n in those], bound)
                        for name, letter, those, bound in (("s.csv", "o", left[1], "exactly one"),
                                                           ("t.csv", "p", left[0], "at most one")) if those]
                self.assertEqual(len(err.splitlines()), len(said))
                for line, (begin, names, bound) in zip(err.splitlines(), said):
                    self.assertTrue(line.startswith(begin) and f"({', '.join(names)})" in line
                                    and line.endswith("takes " + bound), line)
                missed, cost = min(plan[:2] for plan in case.plans())
                plan = self.plan()
                self.assertEqual((status, plan["cost"]), (int(missed > 0), str(-cost if case.maximize else cost)))
                self.assertEqual(sum(lack["least"] - lack["had"] for lack in plan["missing"]), missed)
                short += missed > 0
        self.assertGreater(short, 50)

    def setUp(self):
        super().setUp()
        self.file("r.csv", "nurse,shift,hours\nAda,Mon,1\nBen,Mon,2\nAda,Tue,3\nBen,Tue,4\nBen,Wed,9\n")

    def test_a_night_with_nobody(self):
        self.file("p.csv", "shift,at least,at most\nMon,1,1\n")
        self.file("t.csv", "nurse,at least,at most\nAda,0,3\nBen,0,3\n")
        self.expect(0, "least hours: 13\nAda (2): Mon, 1; Tue, 3\nBen: Wed, 9\n", "p.csv: no line for 2 shifts (Tue, "
                    "Wed): each takes exactly one\n", "r.csv", "--places", "p.csv", "--tasks", "t.csv")
        self.expect(0, "least hours: 13\nAda (2): Mon, 1; Tue, 3\nBen: Wed, 9\n", "", "r.csv", "--tasks", "t.csv")
        self.file("t.csv", "nurse,at least,at most\nAda,0,3\n")
        status, out, err = self.run_words("r.csv", "--tasks", "t.csv")
        self.assertEqual((status, err), (0, "t.csv: no line for 1 nurse (Ben): takes at most one\n"))

    def test_one_number_and_empty_ones(self):
        """One number is exact; of two either may be empty, below its title."""
        self.file("t.csv", "nurse,at least,at most\nAda,,2\nBen,,2\n")
        for line, mon in (("Mon,2", 2), ("Mon,2,", 2), ("Mon,,2", 1), ("Mon,1,", 1), ("Mon,0,0", 0)):
            self.file("p.csv", f"shift,at least,at most\n{line}\nTue,,\nWed,,1\n".replace("Tue,,\n", "Tue,0,1\n"))
            _, out, _ = self.run_words("r.csv", "--places", "p.csv", "--tasks", "t.csv", "--output", "p.json",
                                       "--force")
            with self.subTest(line=line):
                self.assertEqual(sum(pair["object"] == "Mon" for pair in self.plan()["pairs"]),
                                 0 if line == "Mon,,2" else mon)
        self.file("p.csv", "shift,at least,at most\nMon,1,\nTue,0,1\nWed,0,1\n")
        self.run_words("r.csv", "--places", "p.csv", "--tasks", "t.csv", "--max", "--output", "p.json", "--force")
        self.assertEqual(sum(pair["object"] == "Mon" for pair in self.plan()["pairs"]), 2)
        self.file("p.csv", "shift,at least,at most\nMon,,\n")
        self.refused(3, "p.csv, line 2, column 2: no number: how many are needed", "r.csv", "--places", "p.csv")

    def test_an_empty_cell_without_a_title(self):
        """Spreadsheets write separators for a column that has nothing: one number stays one."""
        self.file("p.csv", "shift,places,\nMon,2,\nTue,1,\nWed,1,\n")
        self.file("q.csv", "shift,places\nMon,2\nTue,1\nWed,1\n")
        self.assertEqual(self.run_words("r.csv", "--places", "p.csv"), self.run_words("r.csv", "--places", "q.csv"))

    def test_first_line_on_a_terminal(self):
        self.file("sums.csv", "shift,places\nMon,2\nTue,1\nWed,1\n")
        self.file("bounds.csv", "shift,at least,at most\nMon,1,2\nTue,1,1\nWed,1,1\n")
        for words, rule in ((("--places", "sums.csv"), "; single counts: the side with the smaller sum takes all"),
                            (("--places", "bounds.csv"), "; bounds: each name's counts are kept"), ((), "")):
            said = self.on_terminal("r.csv", *words)[1]
            self.assertEqual(said.splitlines()[0], "2 nurses, 3 shifts, 5 pairs" + rule)

    def test_what_was_read_is_said_before_a_refusal(self):
        self.file("r.csv", "nurse,shift,hours\nAda,Mon,1\nada,Mon,2\n")
        self.file("p.csv", "shift,places\nTue,1\n")
        status, out, err = self.run_words("r.csv", "--places", "p.csv")
        self.assertEqual((status, err.splitlines()), (3, ["r.csv: 'Ada', 'ada' differ in case or spaces alone",
                                                          "p.csv, line 2, column 1: the roster has no object 'Tue'"]))


if __name__ == "__main__":
    unittest.main()
