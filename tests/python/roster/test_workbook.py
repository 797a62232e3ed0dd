"""What a workbook shows: the plan by days first, as the page has it, ready to print, and plans read from it again."""
import datetime
import unittest
from unittest import mock

from nushbaret.roster.output import day_sheets
from commands import Runs
from optional import openpyxl

FIRST = datetime.date(2027, 3, 1)
WORDS = ("r.csv", "--groups", "g.csv", "--places", "p.csv", "--tasks", "t.csv")


def day(number):
    return (FIRST + datetime.timedelta(days=number)).strftime("%d.%m.%Y")


@unittest.skipUnless(openpyxl, "openpyxl isn't installed")
class Days(Runs):
    """Four nurses, an early shift each day, and Ben's day off; Cleo's name begins as a formula does."""

    def roster(self, days):
        dates = [day(number) for number in range(days)]
        costs = {"Ada": 1, "Ben": 2, "=Cleo": 3, "Dan Long-Name": 4}
        self.file("r.csv", "nurse,shift,dislike\n" + "".join(f"{name},early {date},{cost}\n"
                                                             for name, cost in costs.items() for date in dates
                                                             if (name, date) != ("Ben", dates[1])))
        self.file("g.csv", "shift,day\n" + "".join(f"early {date},{date}\n" for date in dates))
        self.file("p.csv", "shift,least,most\n" + "".join(f"early {date},1,2\n" for date in dates))
        self.file("t.csv", "nurse,least,most\n" + "".join(f"{name},{least},{most}\n" for name, least, most in (
            ("Ada", 0, days - 2), ("Ben", 2, days), ("=Cleo", 0, days), ("Dan Long-Name", 0, 0))))

    def book(self, *words):
        status, out, err = self.run_words(*WORDS, *words, "--output", "p.xlsx", "--force")
        self.assertEqual((status, err), (0, ""), out)
        return self.without_month()

    def without_month(self):
        """The workbook without the sheet of a month, which test_month_sheet.py looks at."""
        book = openpyxl.load_workbook("p.xlsx")
        if "Month" in book.sheetnames:
            book.remove(book["Month"])
        return book

    def rows(self, sheet):
        return [[cell.value for cell in row] for row in sheet.iter_rows()]

    def test_persons_by_days(self):
        self.roster(9)
        book = self.book()
        self.assertEqual(book.sheetnames, ["Persons", "Days", "Plan", "Left out", "Matrix"])
        rows = self.rows(book["Persons"])
        self.assertEqual(rows[0], [None, "day 01.03.2027 to 07.03.2027", *[None] * 7, "day 08.03.2027 to 09.03.2027",
                                   *[None] * 8])
        weekdays = ("Mon", "Tue", "Wed", "Thu", "Fri", "Sat", "Sun")
        heads = [f"{weekday}\n{number + 1:02}.03." for number, weekday in enumerate(weekdays)]
        self.assertEqual(rows[1], ["nurse", *heads, "total", "Mon\n08.03.", "Tue\n09.03.", *weekdays[2:], "total",
                                   "in all"])
        self.assertEqual([row[0] for row in rows[2:8]], ["Ada", "Ben", "=Cleo", "Dan Long-Name", "total"])
        plan = {(person, date) for person, _, _, date in self.rows(book["Plan"])[1:]}
        dates = [day(number) for number in range(9)]
        for row, name in enumerate(("Ada", "Ben", "=Cleo", "Dan Long-Name"), 2):
            cells = rows[row][1:8] + rows[row][9:11]
            off = "off" if name == "Ben" else "\u2013"
            self.assertEqual(cells, ["early" if (name, date) in plan else off if date == dates[1] else "\u2013"
                                     for date in dates])
            self.assertEqual(rows[row][11:16], [None] * 5)
            first, second = (sum((name, date) in plan for date in part) for part in (dates[:7], dates[7:]))
            self.assertEqual((rows[row][8], rows[row][16], rows[row][17]), (first, second, first + second))
        counts = [sum(date == held for _, held in plan) for date in dates]
        self.assertEqual(rows[6], ["total", *counts[:7], sum(counts[:7]), *counts[7:], *[None] * 5, sum(counts[7:]),
                                   sum(counts)])
        self.assertEqual(rows[7:], [])
        self.assertEqual(book["Persons"]["A5"].data_type, "s")

    def test_who_is_where(self):
        self.roster(3)
        book = self.book()
        plan = self.rows(book["Plan"])[1:]
        who = [", ".join(person for person, _, _, date in plan if date == day(number)) for number in range(3)]
        self.assertEqual(self.rows(book["Days"]), [["day", "early"],
                                                   *([f"{weekday} {day(number)}", who[number]]
                                                     for number, weekday in enumerate(("Mon", "Tue", "Wed")))])
        self.file("p.csv", "shift,least,most\n" + "".join(f"early {day(number)},{least},4\n"
                                                          for number, least in enumerate((1, 3, 1))))
        self.run_words(*WORDS, "--as-many-as-can", "--output", "q.xlsx")
        cell = openpyxl.load_workbook("q.xlsx")["Days"]["B3"]
        self.assertTrue(cell.value.endswith(", 2 of 3"), cell.value)
        self.assertEqual(cell.font.color.rgb, "FFB00020")

    def test_set_to_print(self):
        self.roster(9)
        for sheet, top in zip(self.book().worksheets[:3], (2, 1, 1)):
            with self.subTest(sheet=sheet.title):
                setup = sheet.page_setup
                self.assertEqual((setup.orientation, setup.fitToWidth, setup.fitToHeight), ("landscape", 1, 0))
                self.assertTrue(sheet.sheet_properties.pageSetUpPr.fitToPage)
                self.assertEqual(sheet.print_title_rows, f"$1:${top}")
                self.assertEqual(sheet.freeze_panes, f"{'A' if sheet.title == 'Plan' else 'B'}{top + 1}")
                self.assertEqual(sheet.print_title_cols, None if sheet.title == "Plan" else "$A:$A")
        matrix = self.book()["Matrix"]
        self.assertEqual((matrix.print_title_rows, matrix.print_title_cols, matrix["B1"].alignment.textRotation),
                         ("$1:$1", "$A:$A", 90))

    def test_columns_are_wide_enough(self):
        self.roster(9)
        for sheet in self.book().worksheets[:4]:
            for cells in sheet.iter_cols(min_row=2 if sheet.title == "Persons" else 1):
                texts = [line for cell in cells if cell.value is not None for line in str(cell.value).split("\n")
                         if cell.row < 9]
                width = sheet.column_dimensions[cells[0].column_letter].width
                self.assertLess(min(40, max(map(len, texts), default=0)), width, (sheet.title, cells[0].column_letter))
        sheet = self.book().worksheets[0]
        self.assertEqual(len({sheet.column_dimensions[letter].width for letter in "BCDEFGHJKLMNOP"}), 1)
        self.assertEqual(sheet.row_dimensions[2].height, 30)

    def test_marks(self):
        self.roster(7)
        self.run_words(*WORDS, "--output", "o.csv")
        self.file("f.csv", f"a,b\nDan Long-Name,early {day(0)}\n")
        self.file("t.csv", self.read("t.csv").replace("Dan Long-Name,0,0", "Dan Long-Name,1,1"))
        sheet = self.book("--fixed", "f.csv", "--keep", "o.csv").worksheets[0]
        self.assertEqual((sheet["B5"].value, sheet["B5"].font.bold, sheet["B5"].fill.fgColor.rgb),
                         ("early", True, "FFFFE699"))
        self.assertEqual([sheet.cell(1, column).value for column in (2, 9)],
                         ["Mon 01.03.2027".replace(" ", "\n"), "total"])
        self.assertEqual((sheet["G4"].fill.fgColor.rgb, sheet["F4"].fill.fill_type), ("FFE8E8E8", None))
        self.assertEqual([sheet.cell(row, 1).value for row in (8, 9, 10)], ["bold: fixed", "yellow: changed", None])
        gone = [cell for cell in sheet["B"][1:5] if cell.font.strike]
        self.assertEqual([(cell.value, cell.fill.fgColor.rgb) for cell in gone], [("early", "FFFFE699")])
        wall = self.book("--fixed", "f.csv", "--plan-only", "--html", "w.html").worksheets[0]
        self.assertEqual((wall["B5"].value, wall["B5"].font.bold, wall["C3"].value, sheet["C3"].value),
                         ("early", False, "\u2013", "off"))

    def test_the_past(self):
        self.roster(9)
        self.run_words(*WORDS, "--output", "o.csv")
        self.assertEqual(self.run_words(*WORDS, "--keep", "o.csv", "--past", day(2), "--output", "p.xlsx")[0], 0)
        sheet = self.without_month().worksheets[0]
        self.assertEqual([sheet.cell(3, column).font.italic for column in (2, 3, 4, 5)], [True, True, False, False])
        self.assertEqual(sheet.cell(9, 1).value, "italic: past")

    def test_many_weeks(self):
        self.roster(50)
        book = self.book()
        self.assertEqual(book.sheetnames[:4], ["Persons", "Persons 2", "Days", "Plan"])
        first, second = (self.rows(book[name])[1] for name in book.sheetnames[:2])
        self.assertEqual((first.count("total"), second.count("total"), "in all" in first, second[-1]),
                         (6, 2, False, "in all"))
        self.assertEqual(len(self.rows(book["Days"])), 51)

    def test_too_many_days(self):
        self.roster(9)
        with mock.patch.object(day_sheets, "MOST_CELLS", 63):
            book = self.book()
        self.assertEqual((book.sheetnames, self.rows(book["Persons"])), (
            ["Persons", "Plan", "Left out", "Matrix"], [["Persons by days are more than 63 cells and aren't drawn."]]))
        with mock.patch.object(day_sheets, "MOST_CELLS", 64):
            self.assertEqual(self.book().sheetnames[:2], ["Persons", "Days"])

    def test_plans_are_read_again(self):
        self.roster(9)
        self.book()
        self.assertIn("p.xlsx: no pair changes", self.run_words(*WORDS, "--keep", "p.xlsx")[1])
        self.assertIn("p.xlsx: ", self.run_words(*WORDS, "--compare", "p.xlsx")[1])
        self.assertIn("(fixed)", self.run_words(*WORDS, "--fixed", "p.xlsx")[1])
        book = openpyxl.load_workbook("p.xlsx")
        book.move_sheet("Plan", 2)
        book.save("p.xlsx")
        self.assertEqual(self.run_words(*WORDS, "--keep", "p.xlsx")[2], "")
        self.assertIn("p.xlsx: no pair changes", self.run_words(*WORDS, "--keep", "p.xlsx")[1])
        self.refused(3, "(in the sheet 'Month' of 'Month', 'Persons', 'Days', 'Left out', 'Matrix', 'Plan': "
                     "p.xlsx#SHEET reads another)", "p.xlsx", "--lines")
        self.assertEqual(self.run_words("p.xlsx#Left out")[0], 3)

    def test_without_groups(self):
        self.file("r.csv", ",x,y\nAda,1,2\nBen,2,1\n")
        self.run_words("r.csv", "--output", "p.xlsx")
        book = openpyxl.load_workbook("p.xlsx")
        self.assertEqual((book.sheetnames, book["Plan"].freeze_panes), (["Plan", "Left out", "Matrix"], "A2"))

    def test_years_are_left_out(self):
        for name, short in (("01.03.2027", "01.03."), ("2027-03-01", "03-01"), ("Mo 01.03.2027", "Mo 01.03."),
                            ("1. 3. 2027", "1. 3."), ("Mon", "Mon"), ("2027", "2027"), ("week 10", "week 10")):
            self.assertEqual(day_sheets.YEAR.sub("", name), short)


if __name__ == "__main__":
    unittest.main()
