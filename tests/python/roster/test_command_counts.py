"""The command with bounds and groups: what is printed, written and drawn, and what is refused."""
import json
import unittest

from commands import OTHERS, Runs, without_names

WEEK = ("nurse,shift,hours\nAda,early Mon,1\nAda,late Mon,2\nAda,early Tue,3\nBen,early Mon,2\nBen,late "
        "Mon,1\nBen,early Tue,2\nCleo,late Mon,5\nCleo,early Tue,1\nCleo,office,4\n")
PLACES = "shift,at least,at most\nearly Mon,1,2\nlate Mon,1,2\nearly Tue,1,2\noffice,,1\n"
TASKS = "nurse,at least,at most\nAda,1,2\nBen,1,3\nCleo,0,2\n"
DAYS = "shift,day\nearly Tue,Tue\nearly Mon,Mon\nlate Mon,Mon\n"
RULES = ("r.csv", "--places", "p.csv", "--tasks", "t.csv", "--groups", "g.csv")


class Files(Runs):
    def setUp(self):
        super().setUp()
        self.files({"r.csv": WEEK, "p.csv": PLACES, "t.csv": TASKS, "g.csv": DAYS})


class Week(Files):
    def test_bounds_and_days(self):
        self.expect(0, "least hours: 3\nAda: early Mon, 1\nBen: late Mon, 1\nCleo: early Tue, 1\nat early Tue: "
                    "Cleo\nat early Mon: Ada\nat late Mon: Ben\nunused: office\n", "", *RULES)
        status, out, _ = self.run_words(*RULES, "--max", "--output", "m.csv", "--output", "m.json")
        self.assertEqual((status, out.splitlines()[0]), (0, "greatest hours: 18"))
        self.assertEqual(self.read("m.csv"), "nurse,shift,hours\nAda,early Tue,3\nAda,late Mon,2\nBen,early "
                         "Tue,2\nBen,early Mon,2\nCleo,late Mon,5\nCleo,office,4\n")
        pairs = json.loads(self.read("m.json"))["pairs"]
        self.assertEqual([pair.get("group") for pair in pairs], ["Tue", "Mon", "Tue", "Mon", "Mon", None])

    def test_nobody_has_to_be_placed(self):
        self.file("p.csv", "shift,least,most\nearly Mon,0,2\nlate Mon,,2\nearly Tue,0,2\noffice,,1\n")
        said = "p.csv: each place may stay empty, and without --tasks nobody has to be placed\n"
        self.assertEqual(self.run_words("r.csv", "--places", "p.csv")[2], said)
        self.assertEqual(self.run_words("r.csv", "--places", "p.csv", "--tasks", "t.csv")[2], "")
        self.file("p.csv", "shift,least,most\nearly Mon,0,2\n")
        self.assertNotIn(said, self.run_words("r.csv", "--places", "p.csv")[2])

    def test_one_number_is_exact_beside_two(self):
        self.file("p.csv", "shift,at least,at most\nearly Mon,2\nlate Mon,0,1\nearly Tue,,1\noffice,0,1\n")
        self.expect(0, "least hours: 3\nAda: early Mon, 1\nBen: early Mon, 2\nat early Mon (2): Ada, Ben\nwithout: "
                    "Cleo\nunused: late Mon, early Tue, office\n", "", "r.csv", "--places", "p.csv")

    def test_groups_with_single_numbers(self):
        """The smaller side gets all."""
        self.file("t.csv", "nurse,tasks\nAda,2\nBen,2\nCleo,0\n")
        self.file("p.csv", "shift,places\nearly Tue,2\noffice,0\nearly Mon,1\nlate Mon,1\n")
        self.expect(0, "least hours: 7\nAda (2): early Tue, 3; early Mon, 1\nBen (2): early Tue, 2; late Mon, 1\n"
                    "at early Tue (2): Ada, Ben\nat early Mon: Ada\nat late Mon: Ben\n", "", *RULES)
        self.file("g.csv", "shift,day\nearly Tue,all\nearly Mon,all\nlate Mon,all\n")
        self.expect(1, "Ada must take 2 shifts, and can take at most 1: one of each day (all): allow others, or let "
                    "this nurse take one fewer\nBen must take 2 shifts, and can take at most 1: one of each day (all): "
                    "allow others, or let this nurse take one fewer\nleast hours of 2 pairs: 2\nAda: early Mon, "
                    "1\nBen: late Mon, 1\nat early Mon: Ada\nat late Mon: Ben\nwithout: Ada (1 of 2), Ben (1 of "
                    "2)\nunused: early Tue (0 of 2)\n", "", *RULES, "--as-many-as-can")

    def test_as_many_as_can(self):
        self.file("p.csv", "shift,at least,at most\nearly Mon,2,2\nlate Mon,2,2\nearly Tue,1,2\noffice,0,1\n")
        short = ("3 nurses can take at most 3 of the 4 places that must be filled at 2 shifts (early Mon (2), late Mon "
                 "(2)) of day Mon: 3 one of each day, so at most 1 each (Ada, Ben, Cleo): allow others there, or fill "
                 "one fewer")
        self.expect(1, short + "\n", "", *RULES)
        status, out, _ = self.run_words(*RULES, "--as-many-as-can", "--output", "p.json", "--html", "p.html")
        self.assertEqual(status, 1)
        plan = json.loads(self.read("p.json"))
        self.assertEqual(plan["short"], [{"persons": ["Ada", "Ben", "Cleo"], "objects": ["early Mon", "late Mon"],
                                          "needed": 4, "possible": 3, "sentence": short}])
        self.assertEqual(len(plan["missing"]), 1)
        lack = plan["missing"][0]
        self.assertEqual((lack["had"], lack["least"]), (1, 2))
        self.assertIn(f"missing: {lack['object']}: 1 of 2\n", out)
        self.assertIn('<em lang="en">1 of 2</em>', self.read("p.html"))

    def test_rounded(self):
        """With bounds another plan may have more pairs, each rounded by half a unit."""
        self.file("m.csv", ",a,b,c,d\nx,-0.4,-0.4,-0.4,-0.4\ny,-0.4,-0.4,-0.4,-0.4\n")
        self.file("t.csv", "n,at least,at most\nx,0,4\ny,0,4\n")
        self.file("p.csv", "o,at least,at most\na,0,2\nb,0,2\nc,0,2\nd,0,2\n")
        self.file("k.csv", "n,o\nx,a\n")
        words = ("m.csv", "--tasks", "t.csv", "--places", "p.csv", "--round", "0", "--keep", "k.csv")
        self.assertIn("for the exact ones, by 4.5 at most\n", self.run_words(*words)[1])
        self.assertIn("for the exact ones with changes, by 4.5 at most\n",
                      self.run_words(*words, "--change-cost", "1")[1])

    def test_rounded_around_the_past(self):
        """The plan costs 2 before it is rounded, and another one 0.4. Pairs of the past take no places."""
        self.files({"r.csv": "n,s,c\nA,m1,0.4\nA,t1,0.4\nB,m1,0.4\nB,t2,0.4\nC,m1,0.4\nC,t1,-0.4\nC,t2,-0.4\n"
                             "D,t1,-0.4\nD,t2,-0.4\n", "g.csv": "s,d\nm1,Mon\nt1,Tue\nt2,Tue\n",
                    "p.csv": "s,l,m\nm1,0,0\nt1,1,1\nt2,1,1\n", "t.csv": "n,l,m\nA,0,3\nB,0,3\nC,0,3\nD,0,1\n",
                    "k.csv": "n,s\nA,m1\nB,m1\nC,m1\nA,t1\nB,t2\n"})
        self.assertIn("for the exact ones, by 2 at most\n", self.run_words(
            "r.csv", "--places", "p.csv", "--tasks", "t.csv", "--groups", "g.csv", "--keep", "k.csv", "--past", "Tue",
            "--round", "0")[1])

    def test_keep_fixed_and_compare(self):
        self.file("k.csv", "a,b\nAda,late Mon\nBen,early Mon\nCleo,early Tue\n")
        self.assertIn("k.csv: 2 pairs come, 2 go\n  Ada: late Mon goes; early Mon comes\n  Ben: early Mon goes; late "
                      "Mon comes\n", self.run_words(*RULES, "--keep", "k.csv")[1])
        self.file("sick.csv", TASKS.replace("Ben,1,3", "Ben,0,0"))
        self.assertTrue(self.run_words("r.csv", *RULES[1:3], "--tasks", "sick.csv", "--keep", "k.csv")[1].endswith(
            "k.csv: 1 pair comes\n  Ada: early Mon comes\n  Ben: early Mon not possible now (takes none)\n"))
        self.assertIn("k.csv: no pair changes\n", self.run_words(*RULES, "--keep", "k.csv", "--change-cost", "2")[1])
        self.expect(0, "least hours: 5\nAda: late Mon, 2 (fixed)\nBen: early Mon, 2 (fixed)\nCleo: early Tue, 1 "
                    "(fixed)\nat early Tue: Cleo\nat early Mon: Ben\nat late Mon: Ada\nunused: office\n", "", *RULES,
                    "--fixed", "k.csv")
        self.assertIn("k.csv: 5, 2 more than the best\n", self.run_words(*RULES, "--compare", "k.csv")[1])
        self.file("f.csv", "a,b\nBen,early Mon\nCleo,late Mon\n")
        self.file("t.csv", TASKS.replace("Ada,1,2", "Ada,2,2"))
        self.file("g.csv", DAYS.replace("early Tue,Tue", "early Tue,Mon"))
        self.expect(1, "around the fixed pairs, Ada must take 2 shifts, and can take at most 1: one of each day (Mon): "
                    "allow others, or let this nurse take one fewer\n", "", *RULES, "--fixed", "f.csv")

    def test_others(self):
        self.assertIn("no other plan is as good: the next best is 4, 1 more\n", self.run_words(*RULES, "--others")[1])
        self.file("r.csv", WEEK.replace("Ben,early Mon,2", "Ben,early Mon,1").replace("Ada,late Mon,2",
                                                                                      "Ada,late Mon,1"))
        self.assertIn(OTHERS, self.run_words(*RULES)[1])
        self.assertIn("could change places at no cost: 2 nurses (Ada, Ben) on 2 shifts (early Mon, late Mon)\n",
                      self.run_words(*RULES, "--others")[1])

    def test_page_by_days(self):
        self.run_words(*RULES, "--html", "p.html")
        page = self.read("p.html")
        self.assertIn('<thead><tr><th scope="col">nurse</th><th scope="col">Tue</th><th scope="col">Mon</th><th '
                      'scope="col"></th><th scope="col" class="total" lang="en">total</th></tr></thead>', page)
        self.assertIn('<tr><th scope="row">Ada</th><td class="free">\u2013</td><td>early</td><td class="free"><small '
                      'lang="en">off</small></td><td class="total">1</td></tr>', page)
        self.assertIn('<tr class="totals"><th scope="row" lang="en">total</th><td>1</td><td>2</td><td>0</td><td '
                      'class="total">3</td></tr>', page)
        self.assertIn('<tr><th scope="row">early</th><td><div>Cleo</div></td><td><div>Ada</div></td><td '
                      'class="none"></td></tr>', page)
        self.assertIn('<tr><th scope="row">office</th><td class="none"></td><td class="none"></td><td></td></tr>', page)

    def test_many_days_stand_in_several_tables(self):
        self.file("r.csv", "a,b,c\n" + "".join(f"Ada,early {day},1\n" for day in range(1, 32)))
        self.file("t.csv", "a,least,most\nAda,20,31\n")
        self.file("g.csv", "b,day\n" + "".join(f"early {day},{day}\n" for day in range(1, 32)))
        self.run_words("r.csv", "--tasks", "t.csv", "--groups", "g.csv", "--html", "p.html")
        page = without_names(self.read("p.html"))
        for caption in ("day 1 to 7", "day 8 to 14", "day 15 to 21", "day 22 to 28", "day 29 to 31"):
            self.assertEqual(page.count(f'<caption lang="en">{caption}</caption>'), 2)

    def test_labels_stay_apart(self):
        """A group's name isn't left out where two objects would look the same."""
        self.file("r.csv", "a,b,c\nAda,Mon early,1\nBen,early-Mon,1\nCleo,Mon,1\n")
        self.file("g.csv", "b,day\nMon early,Mon\nearly-Mon,Mon\nMon,Mon\n")
        self.run_words("r.csv", "--groups", "g.csv", "--html", "p.html")
        for cell in ("Mon early", "early-Mon", "Mon"):
            self.assertIn(f"<td>{cell}</td>", self.read("p.html"))


class Refusals(Files):
    def test_groups(self):
        for content, text in (("a,b\nnoon,Mon\n", "g.csv, line 2, column 1: the roster has no object 'noon'"),
                              ("a,b\nearly Mon,Mon\nearly Mon,Tue\n", "g.csv, line 3, column 1: 'early Mon' a second "
                               "time: it is in Mon, since line 2"),
                              ("a,b\nearly Mon,\n", "g.csv, line 2, column 2: an empty name"),
                              ("a\nearly Mon\n", "g.csv, line 1: each line must have an object and its group"),
                              ("early Mon,Mon\n", "g.csv, line 1, column 1: a title line must come first, and 'early "
                               "Mon' is an object"), ("a,b\n", "g.csv, line 1: no line after the title")):
            self.file("g.csv", content)
            with self.subTest(content=content):
                self.refused(3, text, "r.csv", "--groups", "g.csv")
        self.refused(4, "none.csv", "r.csv", "--groups", "none.csv")
        self.refused(2, "--rents are of single places and tasks: not with --places, --tasks or --groups", "r.csv",
                     "--groups", "g.csv", "--rents")

    def test_two_of_a_group(self):
        self.file("f.csv", "a,b\nAda,early Mon\nBen,late Mon\nAda,late Mon\n")
        self.refused(3, "f.csv, line 4: Ada has late Mon and, in line 2, early Mon: two of day Mon", *RULES, "--fixed",
                     "f.csv")


if __name__ == "__main__":
    unittest.main()
