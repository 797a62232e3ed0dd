"""Rosters by days: lines of person, day, shift and cost, matrices with two title rows, and workbooks of sheets."""
import unittest

from commands import Runs
from optional import openpyxl
from nushbaret.roster.forms import read_roster
from nushbaret.roster.sheets import RosterFault

LINES = ("Name,Day,Shift,Cost\nAda,2027-03-01,F,1\nAda,2.3.2027,F,2\nBen,2027-03-01,S,1\nBen,2027-03-02,S,1\n"
         "Ada,2027-03-01,S,4\n")
MATRIX = "Name;1.3.2027;;;2.3.2027;;\n;Early;Late;Night;Early;Late;Night\nAda;1;2;3;1;2;3\nBen;2;1;3;;1;2\n"


class Read(Runs):
    def read_roster(self, content):
        self.file("r.csv", content)
        return read_roster("r.csv", None, None, False)

    def shown(self, roster):
        groups = roster.groups
        return [(roster.persons[person], roster.objects[object_], groups.names[groups.of_objects[object_]],
                 groups.kinds[object_], cost)
                for person, object_, cost in zip(roster.of_persons, roster.of_objects, roster.costs)]

    def test_lines(self):
        """A date is one day in each spelling; the object is called by shift and day."""
        roster = self.read_roster(LINES)
        self.assertEqual(roster.titles, ("Name", "Shift", "Cost"))
        self.assertEqual(self.shown(roster), [
            ("Ada", "F 2027-03-01", "2027-03-01", "F", 1), ("Ada", "F 2.3.2027", "2.3.2027", "F", 2),
            ("Ben", "S 2027-03-01", "2027-03-01", "S", 1), ("Ben", "S 2.3.2027", "2.3.2027", "S", 1),
            ("Ada", "S 2027-03-01", "2027-03-01", "S", 4)])

    def test_day_after_shift(self):
        swapped = "\n".join(",".join([one, three, two, four]) for one, two, three, four in
                            (line.split(",") for line in LINES.splitlines()))
        self.assertEqual(self.shown(self.read_roster(swapped)), self.shown(self.read_roster(LINES)))

    def test_words_as_days(self):
        roster = self.read_roster("n,d,s,c\nAda,Mon,F,1\nBen,Tue,F,2\n")
        self.assertEqual(self.shown(roster), [("Ada", "F Mon", "Mon", "F", 1), ("Ben", "F Tue", "Tue", "F", 2)])

    def test_two_title_rows(self):
        roster = self.read_roster(MATRIX)
        self.assertEqual(roster.titles, ("Name", "shift", "cost"))
        self.assertEqual(roster.groups.names, ["1.3.2027", "2.3.2027"])
        self.assertEqual(len(self.shown(roster)), 11)
        self.assertEqual(self.shown(roster)[6:9], [
            ("Ben", "Early 1.3.2027", "1.3.2027", "Early", 2), ("Ben", "Late 1.3.2027", "1.3.2027", "Late", 1),
            ("Ben", "Night 1.3.2027", "1.3.2027", "Night", 3)])

    def test_other_matrices(self):
        """Four columns of numbers, and words under titles that each stand once, are no rosters by days."""
        self.assertIsNone(self.read_roster("n,A,B,C\nAda,1,2,3\n").groups)
        with self.assertRaisesRegex(RosterFault, "line 2, column 2: 'x' is no number"):
            self.read_roster("n,A,B,C,D\nAda,x,y,z,1\n")

    def test_refused(self):
        for content, why in ((LINES + "Ada,2.3.2027,F,5\n", "line 7: the pair Ada, F 2.3.2027 a second time"),
                             (LINES + "Ada,2.3.2027,F,x\n", "line 7"),
                             (MATRIX.replace("Late;Night\n", "Early;Night\n"), "line 2, column 6: 'Early' a second"),
                             (MATRIX + "Ada;1\n", "line 5, column 1: the name 'Ada' a second time"),
                             (MATRIX + "Cay;1;;;;;;;5\n", "line 5: 9 cells, where the title rows have 7"),
                             (MATRIX.partition("Ada")[0], "line 2: no line after the titles")):
            with self.subTest(why), self.assertRaisesRegex(RosterFault, why):
                self.read_roster(content)


class Planned(Runs):
    def test_one_shift_a_day(self):
        """The groups are kept without a file of them, and a line of a kind is for all its days."""
        self.files({"r.csv": MATRIX, "t.csv": "n,least,most\nAda,1,2\nBen,1,2\n",
                    "p.csv": "shift;at least;at most\nEarly;1;1\nLate;0;1\nNight;0;0\nLate 2.3.2027;1;1\n"})
        self.expect(0, "least cost: 3\nAda (2): Early 1.3.2027, 1; Early 2.3.2027, 1\nBen: Late 2.3.2027, 1\n"
                    "unused: Late 1.3.2027\n", "", "r.csv", "--tasks", "t.csv", "--places", "p.csv")

    def test_rules_need_days(self):
        self.files({"r.csv": "n,A,B\nAda,1,2\n", "u.csv": "rule,value,for\n"})
        self.refused(2, "nushbaret: --rules needs --groups", "r.csv", "--matrix", "--rules", "u.csv")


@unittest.skipIf(openpyxl is None, "needs openpyxl")
class Workbook(Runs):
    def write(self, name="ward.xlsx", **sheets):
        book = openpyxl.Workbook()
        book.remove(book.active)
        for title, rows in sheets.items():
            sheet = book.create_sheet(title)
            for row in rows:
                sheet.append(row)
        book.save(name)

    SHEETS = {"Places": [["shift", "least", "most"], ["Early", 1, 1], ["Late", 1, 1]],
              "Wishes": [["Name", "Mon", None, "Tue", None], [None, "Early", "Late", "Early", "Late"],
                         ["Ada", 1, 2, 1, 2], ["Ben", 2, 1, 2, 1]],
              "Tasks": [["n", "least", "most"], ["Ada", 2, 2], ["Ben", 2, 2]]}

    def test_sheets(self):
        """Sheets titled so are read with the roster, which is the first other one."""
        self.write(**self.SHEETS)
        plan = "Ada (2): Early Mon, 1; Early Tue, 1\nBen (2): Late Mon, 1; Late Tue, 1\n"
        self.expect(0, "least cost: 4\n" + plan, "", "ward.xlsx")

    def test_an_option_goes_first(self):
        self.write(**self.SHEETS)
        self.file("t.csv", "n,least,most\nAda,4,4\nBen,0,4\n")
        self.assertEqual(self.run_words("ward.xlsx", "--tasks", "t.csv")[0], 1)

    def test_merged(self):
        """Days merged over their shifts."""
        self.write(**self.SHEETS)
        book = openpyxl.load_workbook("ward.xlsx")
        book["Wishes"].merge_cells("B1:C1")
        book["Wishes"].merge_cells("D1:E1")
        book["Wishes"].merge_cells("A1:A2")
        book.save("merged.xlsx")
        self.assertEqual(self.run_words("merged.xlsx"), self.run_words("ward.xlsx"))


if __name__ == "__main__":
    unittest.main()
