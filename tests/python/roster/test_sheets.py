"""Sheets of workbooks by name, merged cells, formulas, dates, and the encodings of text, in each file that is read."""
import datetime
import errno
import os
import pathlib
import re
import unittest
import warnings
import zipfile

from nushbaret.roster.dates import spellings
from nushbaret.roster.names import SHARED
from commands import SQUARE, Runs, shell
from optional import openpyxl

WARD = {"Roster": [["nurse", "shift", "hours"], ["Ada", "early", 2], ["Ada", "late", 1], ["Ben", "early", 1],
                   ["Ben", "late", 3]], "Places": [["shift", "places"], ["early", 1], ["late", 1]],
        "Tasks": [["nurse", "tasks"], ["Ada", 1], ["Ben", 1]],
        "Days": [["shift", "day"], ["early", "Mon"], ["late", "Mon"]],
        "Old": [["a", "b"], ["Ada", "early"], ["Ben", "late"]]}
ANSWER = "least hours: 2\nAda (1): late, 1\n"


class Books(Runs):
    def book(self, name, sheets, merged=()):
        """Writes a workbook of these sheets, and merges cells of the first."""
        book = openpyxl.Workbook()
        for title, rows in sheets.items():
            sheet = book.create_sheet(title)
            for row in rows:
                sheet.append(row)
        del book["Sheet"]
        for place in merged:
            book.worksheets[0].merge_cells(place)
        book.save(name)

    def altered(self, name, pattern, text):
        """Changes the XML of a workbook's parts."""
        with zipfile.ZipFile(name) as archive:
            parts = {part: archive.read(part) for part in archive.namelist()}
        with zipfile.ZipFile(name, "w") as archive:
            for part, content in parts.items():
                archive.writestr(part, re.sub(pattern, text, content))


@unittest.skipUnless(openpyxl, "openpyxl isn't installed")
class Named(Books):
    def setUp(self):
        super().setUp()
        self.book("w.xlsx", WARD)

    def test_a_sheet_for_each_file(self):
        self.file("r.csv", "nurse,shift,hours\n" + "".join(f"{person},{shift},{cost}\n"
                                                           for person, shift, cost in WARD["Roster"][1:]))
        self.assertEqual(self.run_words("w.xlsx#Roster", "--lines"), self.run_words("r.csv", "--lines"))
        status, out, err = self.run_words("w.xlsx#Roster", "--lines", "--places", "w.xlsx#Places", "--tasks",
                                          "w.xlsx#Tasks", "--groups", "w.xlsx#Days", "--keep", "w.xlsx#Old",
                                          "--compare", "w.xlsx#Old")
        self.assertEqual((status, err), (0, ""))
        self.assertIn("least hours: 2\n", out)
        self.assertIn("w.xlsx#Old: 5, 3 more than the best\n", out)
        self.assertIn("Ada: early, 2 (fixed)", self.run_words("r.csv", "--lines", "--fixed", "w.xlsx#Old")[1])
        self.assertEqual(self.run_words("w.xlsx#Roster", "--lines", "--html", "p.html")[0], 0)
        self.assertIn('<title lang="">p</title>', self.read("p.html"))

    def test_titles_of_pages_that_are_printed(self):
        """The roster's name without its end, and that of its sheet."""
        os.mkdir("a")
        self.file("a/p.2.html", SQUARE)
        self.book("a/w.xlsx", {"May 2.0": WARD["Roster"]})
        for roster, title in (("a/p.2.html", "p.2"), ("a/w.xlsx#May 2.0", "w, May 2.0"), ("w.xlsx", "w")):
            self.assertIn(f'<title lang="">{title}</title>', shell(f"N '{roster}' --html /dev/stdout")[1])

    def test_refusals(self):
        self.refused(3, "w.xlsx#June: no sheet 'June': it has 'Roster', 'Places', 'Tasks', 'Days', 'Old'",
                     "w.xlsx#June")
        self.refused(2, "--sheet and w.xlsx#Roster both name a sheet", "w.xlsx#Roster", "--sheet", "Roster")
        self.refused(3, "w.xlsx#Tasks, line 2, column 1: the roster has no object 'Ada'\n", "w.xlsx#Roster", "--lines",
                     "--places", "w.xlsx#Tasks")
        self.refused(2, "w.xlsx is named twice, or is read too", "w.xlsx#Roster", "--lines", "--output", "w.xlsx",
                     "--force")
        self.refused(4, f"none.xlsx: {os.strerror(errno.ENOENT)}", "none.xlsx#May")
        self.book("many.xlsx", {f"s{number}": [["a", "b", "c"]] for number in range(11)})
        self.refused(3, "'s6', 's7' and 3 others\n", "many.xlsx#May")

    def test_a_file_of_the_whole_name(self):
        self.file("w.xlsx#Roster", SQUARE)
        self.assertIn("least cost: 5\n", self.run_words("w.xlsx#Roster")[1])
        self.refused(3, "only a workbook, .xlsx, has sheets", "w.xlsx#Roster", "--sheet", "Roster")

    def test_first_sheet_that_is_none(self):
        self.book("n.xlsx", {"Notes": [["ask Ada"], ["why"]], "May": [[None, "x"], ["Ada", 1]]})
        text = "(in the sheet 'Notes' of 'Notes', 'May': n.xlsx#SHEET reads another)"
        read = "n.xlsx: the sheet 'Notes' was read, of 2: n.xlsx#SHEET reads another\n"
        self.assertEqual(self.run_words("n.xlsx"), (3, "", f"{read}n.xlsx, line 1: no object after the first column "
                                                    f"{text}\n"))
        self.assertEqual(self.run_words("n.xlsx#May")[1], "least cost: 1\nAda: x, 1\n")
        self.book("c.xlsx", {"Plan": [["a", "b"], ["x", 1]], "Counts": [["a", "b"], ["early", 1]]})
        self.refused(3, "c.xlsx, line 2, column 1: the roster has no object 'x' (in the sheet 'Plan' of 'Plan', "
                     "'Counts'", "w.xlsx#Roster", "--lines", "--places", "c.xlsx")

    def test_the_plan_stands_anywhere(self):
        self.book("p.xlsx", {"Page": [["June"]], "Plan": WARD["Old"]})
        status, out, err = self.run_words("w.xlsx#Roster", "--lines", "--keep", "p.xlsx")
        self.assertEqual((status, err), (0, ""))
        self.assertIn("p.xlsx: ", out)


@unittest.skipUnless(openpyxl, "openpyxl isn't installed")
class Cells(Books):
    def test_merged(self):
        matrix = [["May", None, None], [None, "early", "late"], ["Ada", 2, None], ["Ben", 3, 1]]
        self.book("m.xlsx", {"May": matrix}, ("A1:C1", "B3:C3"))
        self.refused(3, "m.xlsx, line 1: 'May' in one merged cell, where titles are needed; --skip-rows K skips rows "
                     "above them", "m.xlsx")
        self.assertEqual(self.run_words("m.xlsx", "--skip-rows", "1")[1], "least cost: 3\nAda: early, 2\nBen: late, "
                         "1\n")
        self.assertIn("Ada: late, 2\n", self.run_words("m.xlsx", "--skip-rows", "1", "--max")[1])
        self.book("w.xlsx", {"May": [["a", "a"], ["early", 1]]})
        self.file("r.csv", ",early\nAda,1\n")
        self.assertEqual(self.run_words("r.csv", "--places", "w.xlsx")[0], 0)
        self.book("t.xlsx", {"May": [[None, "early", None], ["Ada", 1, 2]]}, ("B1:C1",))
        self.refused(3, "t.xlsx, line 1, column 3: the name 'early' a second time", "t.xlsx")

    def test_merged_down(self):
        lines = [["nurse", "May", "hours", None], [None, "shift", None, None], ["Ada", "early", 2], [None, "late", 1],
                 ["Ben", "early", 1]]
        self.book("m.xlsx", {"May": lines}, ("A1:A2", "C1:D2", "A3:A4"))
        self.assertEqual(self.run_words("m.xlsx", "--skip-rows", "1")[1], "least hours: 2\nAda: late, 1\nBen: early, "
                         "1\n")

    def test_formulas(self):
        rows = [[None, "x", "y"], ["Ada", 1, "=1+1"]]
        self.book("f.xlsx", {"May": rows})
        text = ": a formula without a value: open the workbook in your spreadsheet, and save it there\n"
        self.refused(3, "f.xlsx, line 2, column 3" + text, "f.xlsx")
        self.altered("f.xlsx", rb"<f>1\+1</f><v\s*/?>(</v>)?", b"<f>1+1</f><v>2</v>")
        self.refused(3, "f.xlsx, line 2, column 3" + text, "f.xlsx")
        self.altered("f.xlsx", rb' fullCalcOnLoad="1"', b"")
        self.assertEqual(self.run_words("f.xlsx", "--max")[1], "greatest cost: 2\nAda: y, 2\nunused: x\n")
        self.altered("f.xlsx", rb'<c r="C2"><f>1\+1</f><v>2</v>', b'<c r="C2" t="str"><f>IF(TRUE,"",1)</f><v></v>')
        self.assertEqual(self.run_words("f.xlsx", "--max")[1], "greatest cost: 1\nAda: x, 1\nunused: y\n")
        self.book("g.xlsx", {"May": [["=TODAY()"], *rows[:1], ["Ada", 1, 2]]})
        self.assertEqual(self.run_words("g.xlsx", "--skip-rows", "1")[0], 0)

    def test_dates_are_one(self):
        day = datetime.date
        self.book("d.xlsx", {"May": [["nurse", day(2027, 3, 1), datetime.datetime(2027, 3, 2)], ["Ada", 1, 2],
                                     ["Ben", 1, 1]], "Days": [["shift", "week"], ["01.03.2027", day(2027, 3, 1)],
                                                              [day(2027, 3, 2), "1.3.2027"]]})
        status, out, err = self.run_words("d.xlsx#May", "--matrix", "--groups", "d.xlsx#Days")
        self.assertEqual((status, out.splitlines()[1], err), (0, "Ada: 2027-03-01, 1", ""))
        self.file("f.csv", "a,b\nBen,1.3.2027\n")
        self.assertIn("Ben: 2027-03-01, 1 (fixed)", self.run_words("d.xlsx#May", "--matrix", "--fixed", "f.csv")[1])
        self.file("t.csv", "a,b\nAda,2\nBen,2\n")
        status, out, _ = self.run_words("d.xlsx#May", "--matrix", "--tasks", "t.csv", "--groups", "d.xlsx#Days")
        self.assertEqual(out.count("2027-03-0"), 2, "one group: nobody takes two")
        self.file("r.csv", "nurse;01.03.2027;02.03.2027\nAda;1;2\nBen;1;1\n")
        self.book("p.xlsx", {"Plan": [["a", "b"], ["Ben", day(2027, 3, 1)], ["Ada", day(2027, 3, 2)]]})
        self.assertIn("Ben: 01.03.2027, 1 (fixed)", self.run_words("r.csv", "--matrix", "--fixed", "p.xlsx")[1])
        self.assertIn("p.xlsx: no pair changes\n", self.run_words("r.csv", "--matrix", "--keep", "p.xlsx",
                                                                  "--change-cost", "9")[1])

    def test_the_same_date_twice(self):
        self.file("r.csv", "nurse;01.03.2027;2027-03-01\nAda;1;2\n")
        self.refused(3, "r.csv, line 1, column 3: the name '2027-03-01' a second time", "r.csv", "--matrix")

    def test_line_breaks(self):
        self.book("l.xlsx", {"May": [["nurse", "early\nward 3", "late"], ["Ada\r\nAbel", 1, 2],
                                     ["Ben_x000D_\nBo", 2, 1]]})
        self.assertEqual(self.run_words("l.xlsx", "--matrix")[1], "least cost: 2\nAda Abel: early ward 3, 1\nBen Bo: "
                         "late, 1\n")
        self.file("l.csv", 'nurse,"early \n ward 3",late\n"Ada\r\nAbel",1,2\n')
        self.assertEqual(self.run_words("l.csv", "--matrix")[1], "least cost: 1\nAda Abel: early ward 3, 1\nunused: "
                         "late\n")

    def test_times_and_warnings(self):
        self.book("t.xlsx", {"May": [["nurse", datetime.time(6, 30), datetime.time(6, 30, 15)], ["Ada", 1, 2]]})
        with warnings.catch_warnings():
            warnings.simplefilter("error")
            self.assertEqual(self.run_words("t.xlsx", "--matrix"), (0, "least cost: 1\nAda: 06:30, 1\nunused: "
                                                                    "06:30:15\n", ""))

    def test_a_wrong_size(self):
        """Some writers say that a sheet has one cell."""
        self.book("w.xlsx", {"May": [[None, "x", "y"], ["Ada", 1, 2]]})
        self.altered("w.xlsx", rb'<dimension ref="[^"]*"', b'<dimension ref="A1"')
        self.assertEqual(self.run_words("w.xlsx")[1], "least cost: 1\nAda: x, 1\nunused: y\n")


class Dates(Runs):
    def test_each_spelling_is_the_date(self):
        written = {f"{day}.{space}{month}.{space}2027" for day in ("01", "1") for month in ("03", "3")
                   for space in ("", " ")} | {f"2027-{month}-{day}" for day in ("01", "1") for month in ("03", "3")}
        for text in written:
            self.assertEqual((spellings(text)[0], set(spellings(text))), ("2027-03-01", written))
        self.assertEqual(set(spellings("1.3. 2027")), written | {"1.3. 2027"})

    def test_one_date_is_one_name(self):
        for first, second in (("2027-03-01", "2027-3-1"), ("2027-3-1", "01.03.2027"), ("1.3. 2027", "1. 3. 2027"),
                              ("01. 03.2027", "1.3.2027")):
            for cost in ("1", "1e0"):
                self.file("r.csv", f"person,object,cost\nA,{first},{cost}\nB,{second},5\nB,x,9\n")
                self.assertEqual(self.run_words("r.csv", "--lines")[1].splitlines()[0], "least cost: 10",
                                 (first, second, cost))
                self.file("k.csv", f"a,b\nA,{second}\n")
                self.assertIn(f"A: {first}, 1 (fixed)", self.run_words("r.csv", "--lines", "--fixed", "k.csv")[1])
        for text in ("31.02.2027", "01.03.27", "Mo 01.03.2027", "01.03.", "2027-13-01", "\u0661.3.2027", "Ada", "1.5"):
            self.assertEqual(spellings(text), (text,))


class Encodings(Runs):
    def bytes(self, name, text, encoding):
        pathlib.Path(name).write_bytes(text.encode(encoding))

    def test_windows(self):
        text = "Pfleger,fr\u00fch,sp\u00e4t\nJ\u00f6rg \u2013 S\u0153ur,1,2\nZo\u00eb \u201eX\u201c,2,1\n"
        self.bytes("r.csv", text, "cp1252")
        said = "r.csv: read as Windows-1252, since it is no UTF-8; --encoding names another\n"
        status, out, err = self.run_words("r.csv", "--output", "p.csv", "--output", "p.json", "--matrix")
        self.assertEqual((status, out, err), (0, "least cost: 2\nJ\u00f6rg \u2013 S\u0153ur: fr\u00fch, 1\nZo\u00eb "
                                              "\u201eX\u201c: sp\u00e4t, 1\n", said))
        self.assertEqual(pathlib.Path("p.csv").read_bytes().decode("cp1252").splitlines()[1],
                         "J\u00f6rg \u2013 S\u0153ur,fr\u00fch,1")
        self.assertIn("J\u00f6rg", self.read("p.json"))
        self.assertEqual(self.run_words("r.csv", "--encoding", "windows-1252", "--matrix")[1:], (out, ""))
        kept = self.run_words("r.csv", "--keep", "p.csv", "--matrix")
        self.assertEqual(kept[2], said + said.replace("r.csv", "p.csv"))
        self.assertTrue(kept[1].endswith("p.csv: no pair changes\n"))
        self.bytes("u.csv", text, "utf-8")
        self.assertTrue(self.run_words("u.csv", "--keep", "p.csv", "--matrix")[1].endswith("p.csv: no pair changes\n"))

    def test_all_plausible_letters(self):
        letters = SHARED.western["letters"] + SHARED.western["marks"].replace("\u00a0", "")
        self.bytes("r.csv", "a,b,c\n" + "".join(f"p {letter} q,x,1\n" for letter in letters), "cp1252")
        status, out, _ = self.run_words("r.csv")
        self.assertEqual(status, 0)
        self.assertIn("\u00e4", SHARED.western["letters"])
        for letter in letters[1:]:
            self.assertIn(f"p {letter} q", out)

    def test_others_are_refused(self):
        text = ("r.csv, line 3: bytes that are no UTF-8 and no western text in Windows-1252: save the sheet as 'CSV "
                "UTF-8', or name its encoding by --encoding")
        for word, encoding in (("J\u00e4ger", "mac_roman"), ("J\u00e4ger", "cp850"), ("M\u00fcller", "cp850"),
                               ("\u0141ukasz \u0105", "cp1250"), ("\u20ac", "iso8859_15"),
                               ("\u0418\u0432\u0447", "cp1251"), ("\u30ab\u30ca", "shift_jis")):
            self.bytes("r.csv", f"a,b,c\nAda,x,1\n{word},y,2\n", encoding)
            with self.subTest(encoding=encoding):
                self.refused(3, text, "r.csv")
                self.assertIn(f"{word}: y, 2", self.run_words("r.csv", "--encoding", encoding)[1])

    def test_named(self):
        self.bytes("r.csv", "a,b,c\nJ\u00f6rg,x,1\n", "utf-16-le")
        self.assertIn("J\u00f6rg: x, 1", self.run_words("r.csv", "--lines", "--encoding", "utf-16-le")[1])
        self.bytes("r.csv", "a,b,c\nJ\u00f6rg,x,1\n", "utf-8-sig")
        self.assertIn("J\u00f6rg: x, 1", self.run_words("r.csv", "--lines", "--encoding", "cp1252")[1])
        self.bytes("r.csv", "a,b,c\nJ\u00f6rg,x,1\n", "cp1252")
        self.refused(3, "r.csv, line 2: bytes that are no UTF-8: ", "r.csv", "--lines", "--encoding", "utf-8")
        self.refused(2, "'latin-99' is no encoding that Python has, such as Windows-1252 or UTF-8", "r.csv",
                     "--encoding", "latin-99")
        self.refused(2, "'hex' is no encoding", "r.csv", "--encoding", "hex")

    def test_counts_and_groups(self):
        self.bytes("r.csv", "a,fr\u00fch,sp\u00e4t\nAda,1,2\nBen,3,1\n", "cp1252")
        self.bytes("c.csv", "a,b\nfr\u00fch,1\nsp\u00e4t,1\n", "cp1252")
        self.bytes("g.csv", "a,b\nfr\u00fch,Mo\nsp\u00e4t,Mo\n", "cp1252")
        status, _, err = self.run_words("r.csv", "--matrix", "--places", "c.csv", "--groups", "g.csv")
        self.assertEqual((status, err.count("read as Windows-1252")), (0, 3))
        self.assertEqual(self.run_words("r.csv", "--matrix", "--places", "c.csv", "--groups", "g.csv", "--encoding",
                                        "cp1252")[2], "")

    def test_spreadsheets_of_other_kinds(self):
        for begin in (b"PK\x03\x04", b"\xd0\xcf\x11\xe0"):
            pathlib.Path("r.ods").write_bytes(begin + b"\x00\xff" * 20)
            self.refused(3, "r.ods: a spreadsheet that is no .xlsx, and no text: save it as .xlsx, or save the sheet "
                         "as 'CSV UTF-8'", "r.ods")


if __name__ == "__main__":
    unittest.main()
