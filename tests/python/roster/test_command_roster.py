"""What is read of rosters and plans in CSV files, and what is refused, with its place."""
import contextlib
import datetime
import os
import random
import sys
import unittest
from array import array
from unittest import mock

from nushbaret.roster import roster as _roster
from nushbaret.roster.forms import form_of, read_roster
from nushbaret.roster.roster import alike, read_plan
from nushbaret.roster.sheets import RosterFault, Sheet
from commands import InFolder
from optional import openpyxl

LINES = "nurse,shift,hours\nAda,early,2.50\nAda,late,4.00\nBen,early,3.25\n"
MATRIX = "nurse,early,late,night\nAda,1,2,\nBen,,5,-6\n"


class Folder(InFolder):
    def file(self, content, name="roster.csv"):
        path = os.path.join(self.folder, name)
        with open(path, "wb") as out:
            out.write(content if isinstance(content, bytes) else content.encode())
        return path

    def roster(self, content, form=None, decimals=None, comma=False):
        return read_roster(self.file(content), form, decimals, comma)

    def workbook(self, rows):
        book = openpyxl.Workbook()
        for row in rows:
            book.active.append(row)
        path = os.path.join(self.folder, "roster.xlsx")
        book.save(path)
        return path

    def pairs(self, roster):
        return {(roster.persons[person], roster.objects[object_]): roster.shown(cost)
                for person, object_, cost in zip(roster.of_persons, roster.of_objects, roster.costs)}

    def refusal(self, content, line, column, text, **options):
        with self.assertRaises(RosterFault) as caught:
            self.roster(content, **options)
        self.assertIn(text, caught.exception.text)
        self.assertEqual((caught.exception.line, caught.exception.column), (line, column))


class Forms(Folder):
    def test_lines(self):
        roster = self.roster(LINES)
        self.assertEqual(self.pairs(roster), {("Ada", "early"): "2.50", ("Ada", "late"): "4.00",
                                              ("Ben", "early"): "3.25"})
        self.assertEqual((roster.titles, roster.decimals), (("nurse", "shift", "hours"), 2))

    def test_matrix(self):
        roster = self.roster(MATRIX)
        wanted = {("Ada", "early"): "1", ("Ada", "late"): "2", ("Ben", "late"): "5", ("Ben", "night"): "-6"}
        self.assertEqual(self.pairs(roster), wanted)

    def test_makes(self):
        wanted = self.pairs(self.roster(LINES))
        with_quotes = '"nurse","shift","hours"\n"Ada","early","2.50"\n"Ada","late","4.00"\n"Ben","early","3.25"\n'
        with_comma = LINES.replace(",", ";").replace(".", ",")
        makes = [(LINES.replace("\n", "\r\n"), False), (LINES.replace("\n", "\r"), False), (with_quotes, False),
                 (LINES.encode("utf-8-sig"), False), (LINES.encode("utf-16"), False), (LINES.replace(",", "\t"), False),
                 (LINES.replace(",", " , "), False), (LINES.rstrip("\n"), False), (LINES + "\n,,\n \n", False),
                 (LINES.replace("\n", ",,\n"), False), ("\r\n\n" + LINES.replace(",", ";"), False),
                 ("sep=,\r" + LINES.replace("\n", "\r"), False), ("sep=,\n" + LINES, False),
                 (LINES.replace(",", ";"), False)]
        for content, comma in makes:
            with self.subTest(content=content):
                self.assertEqual(self.pairs(self.roster(content, comma=comma)), wanted)
        for content in (with_comma, "sep=;\r\n" + with_comma, with_comma.replace(";", "\t")):
            with self.subTest(content=content):
                read = self.pairs(self.roster(content, comma=True))
                self.assertEqual(read, {pair: cost.replace(".", ",") for pair, cost in wanted.items()})

    def test_form_is_found_or_asked_for(self):
        two = "nurse,early,late\nAda,1,2\nBen,3,4\n"
        self.refusal(two, 1, None, "Say --lines or --matrix")
        self.assertEqual(len(self.roster(two, form="matrix").of_persons), 4)
        self.assertEqual(self.pairs(self.roster(two, form="lines")), {("Ada", "1"): "2", ("Ben", "3"): "4"})
        self.refusal("nurse,early,late\nAda,x,2\nBen,3,4\n", 1, None, "Say --lines or --matrix")
        self.refusal("nurse,early,late\nAda,,2\nBen,,4\n", 1, None, "Say --lines or --matrix")
        self.refusal("nurse,early,late\nAda,1.2E+03,5\nBen,3E+02,7\n", 1, None, "Say --lines or --matrix")
        self.assertEqual(form_of(Sheet(self.file("," + two[6:]))), "matrix")
        self.assertEqual(form_of(Sheet(self.file("nurse,shift,hours\nAda,1,2\nAda,2,4\n"))), "lines")

    def test_accents_are_one_name(self):
        roster = self.roster("nurse,shift,hours\nZoe\u0308,early,1\nZo\u00eb,late,2\n")
        self.assertEqual(roster.persons, ["Zo\u00eb"])

    def test_decimals(self):
        self.assertEqual(list(self.roster("a,b,c\nAda,x,2.5\nAda,y,2.500000\n").costs), [25, 25])
        self.assertEqual(list(self.roster("a,b,c\nAda,x,2.5\nAda,y,-.25\n", decimals=3).costs), [2500, -250])
        self.assertEqual(list(self.roster("a,b,c\nAda,x,+002.\nAda,y,-0\n").costs), [2, 0])
        self.assertEqual(list(self.roster("a,b,c\nAda,x,1000000000000\n").costs), [10**12])


    def test_rounding(self):
        def costs(text, places, comma=False):
            path = self.file("a;b;c\n" + "".join(f"Ada;x{number};{cost}\n" for number, cost in enumerate(text.split())))
            roster = read_roster(path, "lines", None, comma, places)
            return list(roster.costs), roster.rounded, roster.decimals

        self.assertEqual(costs("0.5 1.5 2.5 -2.5 2.51 2.49 1e-9 .0000001", 0), ([0, 2, 2, -2, 3, 2, 0, 0], True, 0))
        self.assertEqual(costs("1.005 1.015 -1.0050001 9.999 7 12.3", 2), ([100, 102, -101, 1000, 700, 1230], True, 2))
        self.assertEqual(costs("1.5 2.000000000", 1), ([15, 20], False, 1))
        self.assertEqual(costs("1,55 2", 1, True), ([16, 20], True, 1))
        self.assertEqual(costs("0.123456789", 6), ([123457], True, 6))
        with self.assertRaisesRegex(RosterFault, "line 2, column 3: a cost beyond 1000000000000"):
            costs("1000000000000.5000001", 0)

    def test_names_alike(self):
        self.assertEqual(alike(["Ada", "Ben", "ada", "A da", "BEN", "Cleo"]), [["Ada", "ada", "A da"], ["Ben", "BEN"]])

    @unittest.skipUnless(openpyxl, "openpyxl isn't installed")
    def test_workbook(self):
        rows = [["nurse", "shift", "hours"], ["Ada", "early", 2.5], ["Ada", datetime.datetime(2026, 1, 2), 0.1 + 0.2],
                [], ["Ben", 7, "1e1"]]
        path = self.workbook(rows)
        wanted = {("Ada", "early"): "2.5", ("Ada", "2026-01-02"): "0.3", ("Ben", "7"): "10.0"}
        self.assertEqual(self.pairs(read_roster(path, "lines", None, False)), wanted)
        self.assertEqual(read_roster(path, "lines", None, True).shown(25), "2,5")
        matrix = self.workbook([[None, "x", "y"], ["Ada", 1, None], ["Ben", 2.0, 3]])
        self.assertEqual(self.pairs(read_roster(matrix, None, None, False)),
                         {("Ada", "x"): "1", ("Ben", "x"): "2", ("Ben", "y"): "3"})
        with self.assertRaisesRegex(RosterFault, "roster.xlsx, line 2, column 3: 'z' is no number"):
            read_roster(self.workbook([["", "x", "y"], ["Ada", 1, "z"]]), None, None, False)
        with self.assertRaisesRegex(RosterFault, "no workbook that openpyxl reads"):
            read_roster(self.file("a,b\n", "bad.xlsx"), None, None, False)
        with self.assertRaises(OSError):
            read_roster(os.path.join(self.folder, "none.xlsx"), None, None, False)

    def test_workbook_without_openpyxl(self):
        with mock.patch.dict(sys.modules, {"openpyxl": None}), self.assertRaisesRegex(RosterFault,
                                                                                      "save the sheet as 'CSV UTF-8'"):
            read_roster(self.file("PK", "r.xlsx"), None, None, False)


class InOneGo(Folder):
    """Rows and lines of plain numbers are read in one go, with the result and the refusals of reading cell by cell."""

    ODD = ("", " ", "x", "2,5", "+3", "-4", "1e3", "1.2E+2", "2.50", "-.5", "5.", ".", "+.", ".-5", "1 2", "1_0", "007",
           "99999999999999", "-1000000000000", "0.0000001", "1.250000000", "\u0662", " 8 ", "1\t", "--1", "-",
           "0.000001")
    NAMES = ("Ada", " Ada", "Zo\u00eb", "Zoe\u0308", "a\u2028b", '"A\nb"', "5", "x\x0by", "")

    def read(self, path, words, bulk):
        with contextlib.ExitStack() as patches:
            if not bulk:
                patches.enter_context(mock.patch("nushbaret.roster.costs.CostColumn.take_plain", return_value=False))
                patches.enter_context(mock.patch("nushbaret.roster.forms.Lines.take_all", return_value=False))
            try:
                roster = read_roster(path, *words)
            except RosterFault as fault:
                return str(fault)
            return {name: list(value) if isinstance(value, array) else value
                    for name, value in roster._asdict().items()}

    def content(self, draw, odd):
        base = draw.choice((("1", "2", "44"), ("1.5", "2.25", "3.00"), ("1", "2.5", "-3.25"), ("7.10", "8.20")))
        end = draw.choice(("\n", "\r\n", "\r"))

        def name(kind, number):
            return draw.choice(self.NAMES) if draw.random() < odd / 3 else f"{kind}{number}"

        def cell():
            return draw.choice(self.ODD) if draw.random() < odd else draw.choice(base)

        persons, objects = draw.randint(1, 6), draw.randint(1, 6)
        if draw.random() < 0.5:
            rows = [["", *(name("o", column) for column in range(objects))]]
            rows += [[name("p", row), *(cell() if draw.random() < 0.9 else "" for _ in range(objects))]
                     for row in range(persons)]
        else:
            rows = [["a", "b", "c"], *([name("p", row), name("o", column), cell()] for row in range(persons)
                                       for column in range(objects))]
            rows[1:] = draw.sample(rows[1:], len(rows) - 1) if draw.random() < 0.3 else rows[1:]
        return "".join(",".join(row) + end + (end if draw.random() < 0.05 else "") for row in rows)

    def test_beside_one_by_one(self):
        draw = random.Random(5)
        seen = {str: 0, dict: 0}
        with mock.patch("nushbaret.roster.sheets.BLOCK", 3), mock.patch("nushbaret.roster.sheets.PIECE", 9):
            for case in range(1500):
                path = self.file(self.content(draw, draw.choice((0, 0.02, 0.1))))
                words = draw.choice(((None, None, False), (None, 2, False), (None, None, False, 1),
                                     ("lines", None, False)))
                with self.subTest(case=case):
                    found = self.read(path, words, True)
                    self.assertEqual(found, self.read(path, words, False))
                    seen[type(found)] += 1
        self.assertGreater(min(seen.values()), 300)

    def test_a_pair_long_before(self):
        lines = "".join(f"p{number},x,1\n" for number in range(5000))
        self.refusal("a,b,c\n" + lines + "p7,x,1\n", 5002, None, "the pair p7, x a second time, after line 9")


class Refusals(Folder):
    def test_numbers(self):
        for cell in ("2,5O", "", "2.5h", "1e333", "nan", "inf", "0x10", "1 000", "1,000", "--1", ".", "-", "+",
                     "\u0662", "1_0"):
            with self.subTest(cell=cell):
                self.refusal(f'a,b,c\nAda,x,1\nAda,y,"{cell}"\n', 3, 3, "is no number")
        self.refusal('a,b,c\nAda,x,"2,50"\n', 2, 3, "--decimal-comma")
        self.refusal("a;b;c\nAda;x;2.50\n", 2, 3, "with a decimal comma", comma=True)
        self.refusal(",x,y\nAda,1,z\n", 2, 3, "'z' is no number")

    def test_places_and_range(self):
        self.refusal("a,b,c\nAda,x,1\nAda,y,2.505\n", 3, 3, "more than 2 decimal places", decimals=2)
        self.refusal("a,b,c\nAda,x,1\nAda,y,0.0000001\n", 3, 3, "more than 6 decimal places")
        self.refusal("a,b,c\nAda,x,1000000000001\n", 2, 3, "beyond 1000000000000")
        self.refusal("a,b,c\nAda,x,10000000000.01\nAda,y,1\n", 2, 3, "beyond 10000000000 with 2")
        self.refusal("a,b,c\nAda,x,-10000000000.01\nAda,y,1\n", 2, 3, "beyond 10000000000 with 2")
        self.refusal("a,b,c\nAda,x,1000001\nAda,y,1\n", 2, 3, "beyond 1000000 with 6", decimals=6)
        self.refusal(f"a,b,c\nAda,x,{'9' * 5000}\n", 2, 3, "beyond")

    def test_pairs_and_names(self):
        self.refusal("a,b,c\nAda,x,1\nBen,x,1\nAda,x,2\n", 4, None, "the pair Ada, x a second time, after line 2")
        self.refusal("a,b,c\n,x,1\n", 2, 1, "an empty name", form="lines")
        self.refusal("a,b,c\nAda, ,1\n", 2, 2, "an empty name", form="lines")
        self.refusal(",x,y,x\nAda,1,2,3\n", 1, 4, "'x' a second time")
        self.refusal(",x,y\nAda,1,2\nAda,1,2\n", 3, 1, "'Ada' a second time")
        self.refusal(",x,,y\nAda,1,2,3\n", 1, 3, "an empty name")
        self.refusal(",x,y\n,1,2\n", 2, 1, "an empty name")
        self.refusal('a,b,c\n"Ben\nx",x,1\n"A\x1b",x,1\n', 4, 1, "a control character in the name 'A\\x1b'")
        self.refusal('a,b,c\nAda,x,1\n\n"A\x1b[1m",x,1\n', 4, 1, "control character")
        self.refusal('a,b,"c\td"\nAda,x,1\n', 1, 3, "a control character")

    def test_shapes(self):
        self.refusal("", None, None, "an empty file")
        self.refusal("\n,,\n", None, None, "an empty file")
        self.refusal("a,b,c\n", 1, None, "Say --lines or --matrix")
        self.refusal("a,b,c\n", 1, None, "no line after the title", form="lines")
        self.refusal(",b,c\n", 1, None, "no line after the title")
        self.refusal("a\nAda\n", 1, None, "no object")
        self.refusal("a,b,c\nAda,x\n", 2, None, "2 cells, where the title line has 3", form="lines")
        self.refusal("a,b,c\nAda,x,2,50\n", 2, None, "4 cells, where the title line has 3 (a comma")
        self.refusal(",x,y\nAda,1\n", 2, None, "2 cells")
        self.refusal("Ada,early,2.5\nBen,late,1\n", 1, 3, "a title line must come first")
        self.refusal("1,2,3,4\n5,6,7,8\n", 1, 1, "must have names")
        self.refusal("a,b\nAda,x\n", 1, None, "2 titles", form="lines")

    def test_bytes(self):
        self.refusal(b"a,b,c\nAda,x,1\nJos\x8e,x,2\n", 3, None, "bytes that are no UTF-8 and no western text")
        self.refusal('a,b,c\nAda,x,1\nAda,"y,2\n', 3, None, "no CSV")
        self.refusal('a,b,c\nAda,"x"y,1\n', 2, None, "no CSV")
        with self.assertRaises(OSError):
            read_roster(self.folder, None, None, False)
        with self.assertRaises(OSError):
            read_roster(os.path.join(self.folder, "none.csv"), None, None, False)

    def test_too_many(self):
        lines = "".join(f"p{number},x,1\n" for number in range(8193))
        with mock.patch.object(_roster, "MOST_PERSONS", 8192):
            self.refusal("a,b,c\n" + lines, 8194, 1, "more than 8192 persons")
            self.assertEqual(len(self.roster("a,b,c\n" + lines[:lines.index("p8192")]).persons), 8192)
            self.refusal("," + ",".join(f"x{number}" for number in range(8193)) + "\n", 1, 8194,
                         "more than 8192 objects")
        self.assertEqual(len(self.roster("a,b,c\n" + lines).persons), 8193)


class Plans(Folder):
    def plan(self, content):
        return read_plan(self.file(content, "plan.csv"), self.roster(LINES))

    def test_pairs(self):
        plan = self.plan("nurse;shift;hours;note\nBen;early;9;x\nAda;late;;\n")
        self.assertEqual([tuple(pair) for pair in plan], [(1, 0, 2, 325), (0, 1, 3, 400)])

    def test_refusals(self):
        cases = [("a,b\nEve,early\n", 2, 1, "no person 'Eve'"), ("a,b\nAda,noon\n", 2, 2, "no object 'noon'"),
                 ("a,b\nAda,early\nAda,late\n", 3, 1, "'Ada' a second time, after line 2"),
                 ("a,b\nAda,early\nBen,early\n", 3, 2, "'early' a second time, after line 2"),
                 ("a,b\nBen,late\n", 2, None, "Ben, late is a forbidden pair"),
                 ("Ada,early\nBen,late\n", 1, None, "a title line must come first"),
                 ("a\nAda\n", 1, None, "a person and an object"), ("a,b\nAda,\n", 2, 2, "an empty name"),
                 ("", None, None, "an empty file")]
        for content, line, column, text in cases:
            with self.subTest(content=content), self.assertRaises(RosterFault) as caught:
                self.plan(content)
            self.assertIn(text, caught.exception.text)
            self.assertEqual((caught.exception.line, caught.exception.column), (line, column))


if __name__ == "__main__":
    unittest.main()
