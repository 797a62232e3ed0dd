"""The month on one sheet of a page and a workbook: letters, what each person has in all, staff and what is
wanted, and what changed."""
import html.parser
import io
import unittest

from commands import Runs
from optional import openpyxl, optimize
from nushbaret.roster.output.month_sheet import letters_of


class Cells(html.parser.HTMLParser):
    """The texts and classes of the rows of the table of a month."""

    def __init__(self):
        super().__init__()
        self.rows, self.is_in = [], False

    def handle_starttag(self, tag, attributes):
        words = dict(attributes)
        if tag == "table":
            self.is_in = words.get("class") == "month"
        if self.is_in and tag == "tr":
            self.rows.append([])
        if self.is_in and tag in ("td", "th"):
            self.rows[-1].append([words.get("class") or "", ""])

    def handle_data(self, data):
        if self.is_in and self.rows and self.rows[-1]:
            self.rows[-1][-1][1] += data.strip()

    def handle_endtag(self, tag):
        if tag == "table":
            self.is_in = False


class Letters(unittest.TestCase):
    def test_the_fewest_that_tell_kinds_apart(self):
        for kinds, letters in ((("Early", "Late", "Night"), "E L N"), (("Late", "Long"), "La Lo"),
                               (("Day 1", "Day 2"), "A B")):
            self.assertEqual(" ".join(letters_of(kinds).values()), letters)


class Sheets(Runs):
    DAYS = [f"2027-03-{day:02}" for day in range(1, 11)]

    def setUp(self):
        """Ada likes early shifts, Ben late ones; nobody can take the late one of the last day but Ada, who is out."""
        super().setUp()
        shifts = [f"{kind} {day}" for day in self.DAYS for kind in ("Early", "Late")]
        costs = {"Ada": ["1", "5"] * 9 + ["1", ""], "Ben": ["5", "1"] * 9 + ["5", ""]}
        self.files({
            "r.csv": "\n".join(",".join(["nurse", *shifts] if name is None else [name, *costs[name]])
                               for name in (None, "Ada", "Ben")) + "\n",
            "d.csv": "shift,day,kind\n" + "".join(f"{one},{one.split()[1]},{one.split()[0]}\n" for one in shifts),
            "t.csv": "nurse,at least,at most\nAda,0,20\nBen,0,20\n",
            "p.csv": "shift,at least,at most\n" + "".join(f"{one},1,1\n" for one in shifts),
            "u.csv": "rule,value,for\nhours of,Early 8,\nhours of,Late 7.5,\nhours per month,0-90,\n"
                     "holiday,2027-03-03,\n"})

    WORDS = ("r.csv", "--groups", "d.csv", "--tasks", "t.csv", "--places", "p.csv", "--as-many-as-can", "--html",
             "o.html")

    def rows(self):
        cells = Cells()
        cells.feed(self.read("o.html"))
        return cells.rows

    def test_counts_and_staff(self):
        self.run_words(*self.WORDS)
        head, ada, ben, early, late = self.rows()
        self.assertEqual([text for _, text in head], ["nurse", *(f"{day}{number}" for day, number in zip(
            ("Mo", "Tu", "We", "Th", "Fr", "Sa", "Su", "Mo", "Tu", "We"), range(1, 11))), "\u03a3", "E", "L", "we",
            "cost"])
        self.assertEqual([text for _, text in ada], ["Ada", *["E"] * 10, "10", "10", "0", "1", "10"])
        self.assertEqual([text for _, text in ben], ["Ben", *["L"] * 9, "", "9", "0", "9", "1", "9"])
        self.assertEqual([text for _, text in early][:11], ["Early", *["1/1"] * 10])
        self.assertEqual([text for _, text in late][:11], ["Late", *["1/1"] * 9, "0/1"])
        self.assertEqual([text for marks, text in late if "short" in marks], ["0/1"])
        self.assertEqual([number for number, (marks, _) in enumerate(head) if "weekend" in marks], [6, 7])

    @unittest.skipIf(optimize is None, "needs SciPy")
    def test_hours_and_holidays(self):
        self.run_words(*self.WORDS, "--rules", "u.csv")
        head, ada, ben = self.rows()[:3]
        self.assertEqual((head[-2][1], ada[-2][1], ben[-2][1]), ("hours", "80 (0-90)", "67.5 (0-90)"))
        self.assertEqual([number for number, (marks, _) in enumerate(head) if "weekend" in marks], [3, 6, 7])
        self.assertEqual(ada[-3][1], "2")

    def test_what_changed(self):
        self.file("k.csv", "nurse,shift\n" + "".join(f"Ada,Early {day}\n" for day in self.DAYS[1:]) +
                  "".join(f"Ben,Late {day}\n" for day in self.DAYS[:9]) + f"Ben,Early {self.DAYS[9]}\n")
        self.run_words(*self.WORDS, "--compare", "k.csv")
        _, ada, ben = self.rows()[:3]
        self.assertEqual([number for number, (marks, _) in enumerate(ada) if "changed" in marks], [1])
        self.assertEqual([(number, text) for number, (marks, text) in enumerate(ben) if "changed" in marks],
                         [(10, "E")])

    def test_weeks_have_none(self):
        self.file("r.csv", "nurse,Early 2027-03-01\nAda,1\n")
        self.file("d.csv", "shift,day\nEarly 2027-03-01,2027-03-01\n")
        self.assertEqual(self.run_words("r.csv", "--matrix", "--groups", "d.csv", "--html", "o.html")[0], 0)
        self.assertEqual(self.rows(), [])

    @unittest.skipIf(openpyxl is None, "needs openpyxl")
    def test_workbook(self):
        """The first sheet has the same texts, and is one page of A4 across."""
        self.run_words(*self.WORDS, "--output", "o.xlsx")
        with open("o.xlsx", "rb") as file:
            sheet = openpyxl.load_workbook(io.BytesIO(file.read())).worksheets[0]
        rows = [[cell or "" for cell in row] for row in sheet.iter_rows(min_row=2, max_row=5, values_only=True)]
        shown = [[text for _, text in row] for row in self.rows()[1:]]
        self.assertEqual([row[:11] for row in rows[2:]], [row[:11] for row in shown[2:]])
        self.assertEqual(rows[0], shown[0])
        self.assertEqual(rows[1], shown[1])
        self.assertEqual((sheet.title, sheet.page_setup.orientation, sheet.page_setup.fitToHeight),
                         ("Month", "landscape", 1))


if __name__ == "__main__":
    unittest.main()
