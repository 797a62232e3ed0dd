"""The command with rules and places that have a price: what is read, refused, printed, written and compared."""
import json
import unittest

from commands import Runs
from optional import np, optimize

FILES = {
    "n.csv": ",N1,N2,N3\nAda,1,2,1\nBen,4,,\n",
    "d.csv": "shift,day,kind\nN1,Mon,Night\nN2,Tue,Night\nN3,Wed,Night\n",
    "t.csv": "nurse,at least,at most\nAda,0,3\nBen,0,3\n",
    "p.csv": "shift,at least,wanted,at most,price\nN1,1,,1,\nN2,0,1,1,6\nN3,1,,1,\n",
    "r.csv": "rule,value,for,price\nNight per month,1,,2\n",
}
WORDS = ("n.csv", "--groups", "d.csv", "--tasks", "t.csv", "--places", "p.csv", "--rules", "r.csv")
# Changed lines of files, and why they are refused.
REFUSED = (
    ("r.csv", "Night per month,1,,0", "r.csv, line 2, column 4: '0' is no price above 0"),
    ("r.csv", "Night per month,1,,0.5", "r.csv, line 2, column 4: '0.5' has more decimal places than the roster's 0"),
    ("r.csv", "even,Night,,2", "r.csv, line 2, column 4: 'even' has no price"),
    ("r.csv", "holiday,Mon,,2", "r.csv, line 2, column 4: 'holiday' has no price"),
    ("r.csv", "rest,Night > Night,,2,3", "r.csv, line 2: 5 cells, where a rule, a value, names and a price are needed"),
    ("p.csv", "N1,1,,1,6", "p.csv, line 2, column 5: a price, and no number that is wanted"),
    ("p.csv", "N1,1,1,1,", "p.csv, line 2, column 5: '' is no price above 0"),
    ("p.csv", "N1,1,2,1,6", "p.csv, line 2, column 3: 2 wanted, where 1 to 1 may be"),
    ("p.csv", "N1,2,2,1,6", "p.csv, line 2, column 4: at least 2 and at most 1"),
    ("p.csv", "N4,1,1,1,6", "p.csv, line 2, column 1: the roster has no"),
)


class Files(Runs):
    def setUp(self):
        super().setUp()
        self.files(FILES)


class Refused(Files):
    def test_lines(self):
        for name, line, why in REFUSED:
            with self.subTest(line):
                self.setUp()
                self.file(name, FILES[name].splitlines()[0] + "\n" + line + "\n")
                self.refused(3, why, *WORDS)

    def test_titles(self):
        for title, why in (("shift,at least,wanted,at most,prize", "column 5: no column is titled 'prize': at least, "
                            "at most, price, wanted are"),
                           ("shift,least,wanted,wanted,price", "column 4: a second column titled 'wanted'"),
                           ("shift,least,wanted,most", "a column 'price' is needed too"),
                           ("shift,least,most,price", "a column 'wanted' is needed too")):
            self.file("p.csv", title + "\nN1,1,1,1,1\n")
            self.refused(3, "p.csv, line 1" + (", " if why.startswith("column") else ": ") + why, *WORDS)

    def test_without_rules(self):
        self.refused(3, "p.csv: what is wanted has a price, which a plan by --rules weighs", *WORDS[:-2])


@unittest.skipIf(optimize is None or np is None, "needs SciPy")
class Plans(Files):
    FIRST = "least cost with prices: 8 (cost 4, missed 4), proved: no plan that keeps the rules costs less\n"
    PLAN = "Ada (3): N1, 1; N2, 2; N3, 1\nwithout: Ben\n"
    MISSED = "missed: 4 in all\n  Ada: 3 Night (Night per month: 1): 2 times 2, 4\n"

    def test_best(self):
        self.expect(0, self.FIRST + self.PLAN + self.MISSED, "", *WORDS, "--output", "o.json", "--html", "o.html",
                    "--certificate", "c.txt")
        rules = json.loads(self.read("o.json"))["rules"]
        self.assertEqual((rules["missed_cost"], rules["missed"]), ("4", [
            {"rule": "count", "persons": ["Ada"], "objects": ["N1", "N2", "N3"], "sentence": "Ada: 3 Night (Night per "
             "month: 1)", "amount": 2, "cost": "4"}]))
        self.assertIn("missed: 4 in all", self.read("o.html"))
        self.expect(0, "c.txt: shown: a plan of cost 8 meets the 4 rows, and no plan that meets them costs less\n", "",
                    "--check", "c.txt")

    def test_greatest(self):
        """Prices count against a profit: 7 for three shifts less 4, against 6 for two and one that is wanted."""
        self.assertEqual(self.run_words(*WORDS, "--max")[1].splitlines()[0],
                         "greatest cost with prices: 5 (cost 7, missed 2), proved: no plan that keeps the rules has "
                         "more")

    def test_what_is_wanted(self):
        self.file("r.csv", "rule,value,for,price\nNight per month,1,,7\n")
        out = self.run_words(*WORDS)[1]
        self.assertIn("least cost with prices: 11 (cost 5, missed 6)", out)
        self.assertIn("missed: 6 in all\n  N2: 0 of 1 wanted: 6\n", out)

    def test_nothing_missed(self):
        self.file("r.csv", "rule,value,for,price\nNight per month,3,,2\n")
        self.expect(0, "least cost with prices: 4 (cost 4), proved: no plan that keeps the rules costs less\n"
                    + self.PLAN + "missed: nothing that has a price\n", "", *WORDS)

    def test_compare(self):
        """A plan is worse by what it misses too, and breaks no rule."""
        self.file("h.csv", "nurse,shift\nBen,N1\nAda,N3\n")
        self.assertIn("  Ada: 3 Night (Night per month: 1): 2 times 2, 4\nh.csv: 5 and 6 missed, 3 more than the "
                      "best\n", self.run_words(*WORDS, "--compare", "h.csv")[1])

    def test_changes(self):
        """Prices count once where changes have costs too."""
        self.file("k.csv", "nurse,shift\nBen,N1\nAda,N3\n")
        for cost, first in (("2", "least cost with changes: 10 (cost 7, missed 2)"),
                            ("6", "least cost with changes: 11 (cost 5, missed 6)")):
            self.assertIn(first, self.run_words(*WORDS, "--keep", "k.csv", "--change-cost", cost)[1])


if __name__ == "__main__":
    unittest.main()
