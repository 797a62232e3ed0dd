"""Files that are meant to break a reader: cells that run, far cells, texts of other encodings, and damaged parts."""
import errno
import io
import json
import os
import random
import re
import subprocess
import sys
import tracemalloc
import unittest
import zipfile
from unittest import mock

from nushbaret.roster import sheet_scan, sheets
from nushbaret.roster.names import FORBIDDEN, guarded, unguarded
from nushbaret.roster.output.each import file_names
from commands import SQUARE, Runs, environment
from optional import openpyxl

RUN = ("=1+1", "@SUM(A1)", "+a", "-", "-2+3", "+1 2", "\tx", "\rx", "'=a", "''@b", "'-c")
BARE = ("-4", "+5", "-1.5", "+2,50", "-1e-3", "a=b", "'", "''", "'a", "'-4", "", " =a", "O'Hara", "-1.5E+01")
TURNING = "\u202a\u202b\u202c\u202d\u202e\u2066\u2067\u2068\u2069\u200e\u200f\u2028\u2029"
SHEET = ('<worksheet xmlns="http://schemas.openxmlformats.org/spreadsheetml/2006/main"><sheetData>{}</sheetData>'
         "</worksheet>")


class Guards(Runs):
    def test_cells(self):
        """An apostrophe stands before each cell that a spreadsheet would run, and before no other."""
        for cell in RUN:
            self.assertEqual(guarded(cell), "'" + cell)
            self.assertEqual(unguarded("'" + cell), cell.strip())
        for cell in BARE:
            self.assertEqual((guarded(cell), unguarded(cell)), (cell, cell))
        letters = random.Random(86)
        for _ in range(5000):
            cell = "".join(letters.choice("''=+-@1.,eEa ") for _ in range(letters.randrange(6))).strip()
            self.assertEqual(unguarded(guarded(cell)), cell)
            self.assertNotRegex(guarded(cell), r"\A(?:[=@\t\r]|[+-](?![0-9]+([.,][0-9]*)?([eE][+-]?[0-9]{1,2})?\Z))")

    def test_plans_are_read_again(self):
        """What is written is read as it was: as a roster, a kept plan and a compared one."""
        for separator in (",", ";", "\t"):
            names = ["=HYPERLINK(1)", "@b", "+c", "-d", "'=e", "''-f", "-7"]
            self.file("r.csv", separator.join(("'=nurse", "'@shift", "'+hours")) + "\n" + "".join(
                f"{guarded(name)}{separator}'=s{number}{separator}-{number}\n" for number, name in enumerate(names)))
            self.assertEqual(self.run_words("r.csv", "--lines", "--output", "p.csv", "--force")[0], 0)
            text = self.read("p.csv")
            for cell in re.split("[\n" + separator + "]", text):
                self.assertNotRegex(cell, r"\A(?:[=@]|[+-](?![0-9]))")
            self.assertIn(f"''=e{separator}'=s4{separator}-4\n", text)
            self.assertEqual(self.run_words("p.csv", "--lines"), self.run_words("r.csv", "--lines"))
            out = self.run_words("r.csv", "--lines", "--keep", "p.csv", "--compare", "p.csv")[1]
            self.assertIn("p.csv: no pair changes\n", out)
            self.assertIn("=HYPERLINK(1): =s0, 0\n", out)

    def test_changes(self):
        """Names of a kept plan that the roster no longer has are written too."""
        self.file("k.json", json.dumps({"pairs": [{"person": "=Zoe", "object": "@x"}]}))
        self.file("r.csv", SQUARE)
        self.run_words("r.csv", "--keep", "k.json", "--output", "p.csv")
        self.assertIn("'=Zoe,'@x,not possible\n", self.read("p-changes.csv"))

    @unittest.skipUnless(openpyxl, "openpyxl isn't installed")
    def test_workbooks(self):
        """A workbook keeps texts from formulas: names stand as they are, with one more apostrophe where readers take
        one off."""
        self.file("r.csv", "a,b,c\n'=x,y,1\n''=z,w,1\n")
        self.assertEqual(self.run_words("r.csv", "--lines", "--output", "p.xlsx")[0], 0)
        cells = openpyxl.load_workbook("p.xlsx")["Plan"]
        self.assertEqual([cells["A2"].value, cells["A2"].data_type, cells["A3"].value], ["=x", "s", "''=z"])
        self.assertIn("p.xlsx: no pair changes\n", self.run_words("r.csv", "--lines", "--keep", "p.xlsx")[1])


class Letters(Runs):
    def test_names(self):
        """What turns a text's direction or ends its line is refused in names, titles and groups, as control characters
        are."""
        self.file("r.csv", SQUARE)
        for letter in TURNING + "\x07":
            shown = f"a control character in the name 'A{repr(letter)[1:-1]}b'\n"
            for text in (f"x,y,z\nA{letter}b,early,2\n", f"x,y,z\nAda,A{letter}b,2\n", f"x,A{letter}b,z\nAda,e,2\n"):
                self.file("f.csv", text)
                self.refused(3, shown, "f.csv", "--lines")
            for text in (f"shift,A{letter}b\nearly,Mon\n", f"shift,day\nearly,A{letter}b\n"):
                self.file("g.csv", text)
                self.refused(3, shown, "r.csv", "--groups", "g.csv")
            self.file("k.json", json.dumps({"pairs": [{"person": f"A{letter}b", "object": "early"}]}))
            self.refused(3, "k.json, pair 1: " + shown.replace("'\n", "', its person\n"), "r.csv", "--keep", "k.json")
        self.assertIsNone(FORBIDDEN.search("a\u00a0\u200d\u202fÿ"))

    def test_files(self):
        """A file's own name is printed in quotes where it has what can't be printed, and else as it is."""
        for name, shown in (("a\u202eb.csv", "'a\\u202eb.csv'"), ("a\x1b[1m.csv", "'a\\x1b[1m.csv'"),
                            ("a\nb.csv", "'a\\nb.csv'")):
            self.file(name, "x,y,z\nAda,early,1x\n")
            status, out, err = self.run_words(name)
            self.assertEqual((status, out, err), (3, "", f"{shown}, line 2, column 3: '1x' is no number\n"))
            self.file("r.csv", SQUARE)
            self.assertEqual(self.run_words("r.csv", "--output", name)[2], f"{shown} exists: --force overwrites it\n")
            self.assertEqual(self.run_words("r.csv", "--keep", f"no{name}")[2],
                             f"{shown[0]}no{shown[1:]}: {os.strerror(errno.ENOENT)}\n")

    def test_names_of_windows(self):
        self.assertEqual(file_names(["lpt\u00b9", "COM\u00b2.x", "conin$", "CONOUT$", "lpt\u2074x"]),
                         ["_lpt\u00b9", "_COM\u00b2.x", "_conin$", "_CONOUT$", "lpt\u2074x"])

    def test_greatest_length(self):
        """A name in quotes and one without have the same greatest length."""
        for length, found in ((131072, 0), (131073, 3)):
            for quote in ("", '"'):
                self.file("r.csv", f"a,b,c\n{quote}{'x' * length}{quote},early,1\n")
                status, _, err = self.run_words("r.csv", "--lines", "-q")
                self.assertEqual((status, len(err) > 0), (found, found > 0))
                self.assertNotIn("limit", err)


class Encodings(Runs):
    def test_nuls(self):
        text = "nurse,shift,hours\nAda,early,2\n"
        for encoding in ("utf-16-le", "utf-16-be"):
            with open("r.csv", "wb") as file:
                file.write(text.encode(encoding))
            self.refused(3, "r.csv: a text in UTF-16 without a mark (BOM) at its beginning: ", "r.csv")
            self.assertEqual(self.run_words("r.csv", "--encoding", encoding)[1], "least hours: 2\nAda: early, 2\n")
            self.refused(3, "r.csv: NUL characters, which no text in utf-8 has: ", "r.csv", "--encoding", "utf-8")
        for data, shown in ((b"\0" * 100, ", line 1: NUL bytes alone, and no text: "),
                            (b"a,b,c\nA\0da,x,1\n", ", line 2: NUL bytes, which no text has: "),
                            (text.encode("utf-32-le"), ", line 1: NUL bytes, which no text has: ")):
            with open("r.csv", "wb") as file:
                file.write(data)
            self.refused(3, "r.csv" + shown, "r.csv")


class Json(Runs):
    def test_schema(self):
        """A plan in JSON that isn't one is refused in words that say what is wrong, and where."""
        self.file("r.csv", SQUARE)
        deep = "[" * 100_000
        for text, shown in (
                ("", "no JSON: it is empty, in line 1, column 1"),
                ("{\n", "no JSON: it ends too early, in line 2, column 1"),
                ('{"pairs": [1 2]}', "no JSON: it isn't written as JSON is, in line 1, column 14"),
                (deep, "no plan: lists and objects in one another, too deep"),
                ("[]", "no plan: it is a list, where an object with a list of 'pairs' is needed"),
                ("null", "no plan: it is null, where"), ("{}", "no plan: it has no 'pairs', where"),
                ('{"pairs": {}}', "no plan: its 'pairs' are an object, where"),
                ('{"pairs": "Ada"}', "no plan: its 'pairs' are a text, where"),
                ('{"pairs": [], "format": 9}', "9 is the format of this plan in JSON, where 1 to 4 can be read"),
                ('{"pairs": [], "format": "4"}', "'4' is the format"),
                ('{"pairs": [], "format": true}', "True is the format"),
                ('{"pairs": [], "format": {}}', "an object is the format"),
                ('{"pairs": [], "pairs": [1]}', "no JSON: 'pairs' stands twice in an object"),
                ('{"pairs": [NaN]}', "no JSON: NaN is no number"), ('{"pairs": [1e999]}', "no JSON: '1e999' is beyond"),
                ('{"pairs": [' + "1" * 5000 + "]}", "no JSON: a number of more than 1000 digits"),
                ('{"pairs": [1]}', "pair 1: a number, where an object with a person and an object is needed"),
                ('{"pairs": [{"person": "Ada"}]}',
                 "pair 1: a person and an object are needed, each a text: it has no object"),
                ('{"pairs": [{"person": 1, "object": "x"}]}', "each a text: its person is a number"),
                ('{"pairs": [{"person": " ", "object": "x"}]}', "pair 1: an empty name, its person"),
                ('{"pairs": [{"person": "\\ud800", "object": "x"}]}', "pair 1: a control character in the name"),
                ('{"pairs": [{"person": "A", "object": "x", "cost": [1]}]}',
                 "pair 1: its cost is a list, where a number")):
            self.file("k.json", text)
            with self.subTest(text=text[:60]):
                self.refused(3, "k.json", "r.csv", "--keep", "k.json")
                self.assertIn(shown, self.run_words("r.csv", "--keep", "k.json")[2])
        with open("k.json", "wb") as file:
            file.write(b'{"pairs":\n"\xff"}')
        self.refused(3, "k.json: no JSON: bytes that are no UTF-8, in line 2\n", "r.csv", "--keep", "k.json")


class Words(Runs):
    def test_csv(self):
        for text, shown in (('a,b,c\nAda,"x,1\n', "line 2: no CSV: the quotes around a cell aren't closed\n"),
                            ('a,b,c\nAda,"x"y,1\n', "line 2: no CSV: text after the quotes around a cell\n"),
                            ('a,b,c\nAda,"' + "x" * 131073 + '",1\n',
                             "line 2: a cell of more than 131072 characters\n")):
            self.file("r.csv", text)
            self.refused(3, "r.csv, " + shown, "r.csv", "--lines")

    @unittest.skipUnless(os.path.exists("/dev/full"), "there is no full device")
    def test_full_device(self):
        for word in ("--help", "--guide", "--version"):
            with open("/dev/full", "w") as full:
                ended = subprocess.run([sys.executable, "-m", "nushbaret", word], stdout=full, stderr=subprocess.PIPE,
                                       text=True, env=environment())
            self.assertEqual((ended.returncode, ended.stderr),
                             (4, "nushbaret: standard output: No space left on device\n"))


class Great(Runs):
    def test_many_cells(self):
        """A line with more cells than a roster may have is refused before they are parted."""
        for text, line in (("," * 6_000_000, 1), ("a,b,c\nAda,x,1\n" + "," * 6_000_000 + "\n", 3),
                           ('a,b,c\n"A\n' + ',' * 3_000_000 + 'b"' + "," * 3_000_000, 2)):
            with open("r.csv", "w") as file:
                file.write(text)
            tracemalloc.start()
            try:
                status, _, err = self.run_words("r.csv", "--lines")
                peak = tracemalloc.get_traced_memory()[1]
            finally:
                tracemalloc.stop()
            self.assertEqual(status, 3)
            self.assertIn(f"r.csv, line {line}: ", err)
            self.assertLess(peak, 3 * len(text) + 2**22, (line, err))
        self.assertEqual(sheets.MOST_CELLS, 4194305)

    def test_limit_of_cells(self):
        """As many as may be are read, also with others in quotes."""
        with mock.patch.object(sheets, "MOST_CELLS", 4):
            self.file("r.csv", 'a,b,c,d\n"A,,,,,,",1,2,3\n')
            self.assertEqual(self.run_words("r.csv", "--max", "-q")[1], "greatest cost: 3\n")
            self.file("r.csv", "a,b,c,d\nAda,1,2,3,4\n")
            self.refused(3, "r.csv, line 2: more than 4194305 cells in one record\n", "r.csv")


@unittest.skipUnless(openpyxl, "openpyxl isn't installed")
class Workbooks(Runs):
    def book(self, rows, **parts):
        """Writes a workbook whose sheet has these rows in XML, and other parts."""
        held = io.BytesIO()
        openpyxl.Workbook().save(held)
        with zipfile.ZipFile(held) as old, zipfile.ZipFile("w.xlsx", "w", zipfile.ZIP_DEFLATED) as new:
            for part in old.namelist():
                content = SHEET.format(rows).encode() if part.endswith("sheet1.xml") else old.read(part)
                new.writestr(part, parts.get(os.path.splitext(os.path.basename(part))[0], content))

    @staticmethod
    def cell(reference, text):
        return f'<c r="{reference}" t="inlineStr"><is><t>{text}</t></is></c>'

    def row(self, number, *texts):
        cells = "".join(self.cell(f"{letter}{number}", text) for letter, text in zip("ABCDEF", texts))
        return f'<row r="{number}">{cells}</row>'

    def refused_with(self, shown, rows, **parts):
        self.book(rows, **parts)
        tracemalloc.start()
        try:
            self.refused(3, "w.xlsx" + shown, "w.xlsx", "--lines")
            self.assertLess(tracemalloc.get_traced_memory()[1], 2**26)
        finally:
            tracemalloc.stop()

    def test_far_cells(self):
        head = self.row(1, "a", "b", "c") + self.row(2, "Ada", "x", "1")
        far = self.cell("XFD1048576", "x")
        self.refused_with(", line 1048576, column 16384: the cell XFD1048576 is too far from the others",
                          f'{head}<row r="1048576">{far}</row>')
        self.refused_with(": a row of the number 1000000000, where rows have those from 1 to 1048576",
                          f'{head}<row r="1000000000">{self.cell("A1000000000", "x")}</row>')
        self.refused_with(": a row of the number 0, where", f'<row r="0">{self.cell("A1", "x")}</row>')
        self.refused_with(": a row of the number -3, where", '<row r="-3"/>')
        self.refused_with(", line 2: the cell XFE2 is after the last column, XFD",
                          f'<row r="2">{self.cell("XFE2", "x")}</row>')
        with mock.patch.object(sheet_scan, "MOST_CELLS", 1000):
            empty = "".join(f'<row r="{row}"><c r="CV{row}" s="0"/></row>' for row in range(3, 20))
            self.refused_with(", line 12, column 100: the cell CV12 is too far from the others", head + empty)
        # Empty cells far out are none, and a far row without any neither.
        self.book(f'{head}<row r="1048576"><c r="XFD1048576" s="0"/></row>')
        self.assertEqual(self.run_words("w.xlsx", "--lines")[1], "least c: 1\nAda: x, 1\n")

    def test_rows_out_of_order(self):
        rows = [self.row(1, "a", "b", "c"), self.row(2, "Ada", "x", "1"), self.row(3, "Ben", "y", "1")]
        again = self.row(2, "Cleo", "z", "1")
        self.refused_with(", line 2: row 2 stands after row 3", "".join(rows) + again)
        self.refused_with(", line 3: row 3 stands after row 3", "".join(rows) + self.row(3, "Cleo", "z", "1"))
        self.refused_with(", line 2: the cell A3 isn't in its place in row 2",
                          rows[0] + f'<row r="2">{self.cell("A3", "Ada")}</row>')
        self.refused_with(", line 2: the cell A2 isn't in its place in row 2",
                          rows[0] + f'<row r="2">{self.cell("B2", "x")}{self.cell("A2", "Ada")}</row>')

    def test_ragged_rows(self):
        """Rows are as long as the titles, and no longer than what they have."""
        self.book(self.row(1, "", "x", "y", "z") + self.row(2, "Ada", "1") + self.row(3, "Ben", "", "2", "", "", ""))
        self.assertEqual(self.run_words("w.xlsx")[1], "least cost: 3\nAda: x, 1\nBen: y, 2\nunused: z\n")
        self.file("r.csv", "a,b,c\nAda,x,1\nAda,y,1\n")
        self.book(self.row(1, "a", "least", "most") + self.row(2, "Ada", "1"))
        self.assertEqual(self.run_words("r.csv", "--lines", "--tasks", "w.xlsx", "-q")[1], "least c: 2\n")
        self.book(self.row(1, "a", "b", "c") + self.row(2, "Ada", "x", "1", "", "far"))
        self.refused(3, "w.xlsx, line 2: 5 cells, where the title line has 3", "w.xlsx", "--lines")

    def test_damaged(self):
        """What is wrong in a workbook is said in our words."""
        good = self.row(1, "a", "b", "c") + self.row(2, "Ada", "x", "1")
        begin = ": no workbook that openpyxl reads: "
        self.refused_with(begin + "its part 'xl/worksheets/sheet1.xml' is no XML, in line 1", good + "<row")
        self.refused_with(begin + "its part 'xl/styles.xml' is no XML, in line 1", good, styles=b"<x")
        styles = (b'<styleSheet xmlns="http://schemas.openxmlformats.org/spreadsheetml/2006/main">'
                  b'<cellXfs><xf numFmtId="x"/></cellXfs></styleSheet>')
        self.refused_with(begin + "there is a fault in its styles", good, styles=styles)
        self.refused_with(", line 3, column 1: it names the text '7', and the workbook has 0 texts",
                          good + '<row r="3"><c r="A3" t="s"><v>7</v></c></row>')
        self.refused_with(": a cell below line 2 isn't of the type that it says",
                          good + '<row r="3"><c r="A3" t="n"><v>seven</v></c></row>')
        self.refused_with(": its part 'xl/styles.xml' would be 60000000 bytes long", good, styles=b" " * 60_000_000)
        with open("w.xlsx", "wb") as file:
            file.write(b"PK\3\4 and no more")
        self.refused(3, "w.xlsx" + begin + "it is no zip archive; save", "w.xlsx")

    def test_drawn_bytes(self):
        """A workbook with a few other bytes is read as before or refused: nothing is said of parsers."""
        self.book(self.row(1, "a", "b", "c") + self.row(2, "Ada", "x", "1"))
        with open("w.xlsx", "rb") as file:
            data = file.read()
        drawn = random.Random(9)
        for _ in range(150):
            changed = bytearray(data)
            for _ in range(drawn.choice((1, 3, 30))):
                changed[drawn.randrange(len(changed))] = drawn.randrange(256)
            with open("x.xlsx", "wb") as file:
                file.write(changed)
            status, out, err = self.run_words("x.xlsx", "--lines")
            self.assertIn(status, (0, 3), err)
            if status == 0:
                self.assertEqual(out, "least c: 1\nAda: x, 1\n")
            self.assertNotRegex(err, "Traceback|fault of nushbaret|expected <|index out of|codec|Error")
