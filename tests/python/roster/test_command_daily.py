"""The command in daily use: other plans, fairness, what is written where, and what is said of faults."""
import json
import os
import signal
import stat
import subprocess
import sys
import time
import unittest
from unittest import mock

from nushbaret.roster.output.page import _filled
from commands import SQUARE, Runs, environment, parsed, shell, square, without_names
from optional import openpyxl

# The command as it runs where processes don't end by signals; what it needs is loaded before.
INTERRUPTED_ON_WINDOWS = """import sys
from nushbaret import __main__
from nushbaret.roster import command
sys.platform = "win32"
sys.exit(__main__.main())"""
_unlink = os.unlink


def unlink_of_windows(path):
    """Removes a file that may be written to."""
    if not os.stat(path).st_mode & stat.S_IWUSR:
        raise PermissionError(13, "Permission denied")
    _unlink(path)


class Daily(Runs):
    def setUp(self):
        super().setUp()
        self.file("r.csv", SQUARE)


class Shown(Daily):
    def test_plans(self):
        self.expect(0, "least cost: 5\nAda: late, 1\nBen: early, 2\nCleo: night, 2\nplan 2: 6, 1 more\n  there Ada: "
                    "early, 4\n  there Ben: late, 0\nplan 3: 6, 1 more\n  there Ada: night, 3\n  there Ben: late, 0\n  "
                    "there Cleo: early, 3\n", "", "r.csv", "--plans", "3")
        self.assertEqual(self.run_words("r.csv", "--plans", "1000")[1].count("plan "), 5)
        self.file("c.csv", "a,b\nnight,2\nearly,0\n")
        self.assertTrue(self.run_words("r.csv", "--places", "c.csv", "--plans", "2")[1].endswith(
            "at late: Ben\nat night: Ada, Cleo\nplan 2: 8, 3 more\n  there Ada: late, 1\n  there Ada: not night\n"
            "  there Ben: night, 5\n  there Ben: not late\n"))
        self.file("w.csv", ",x,y\nAda,1,2\nBen,2,2\nCleo,9,9\n")
        self.assertIn("plan 3: 10, 7 more\n  there Ben: nothing\n  there Cleo: y, 9\n",
                      self.run_words("w.csv", "--plans", "3")[1])
        self.refused(2, "'1' is no number from 2 to 1000", "r.csv", "--plans", "1")
        self.refused(2, "--plans compares costs alone", "r.csv", "--plans", "2", "--keep", "x", "--change-cost", "1")

    def test_kept_and_plans(self):
        self.file("r.csv", ",x,y\nAda,1,1\nBen,1,1\n")
        self.file("o.csv", "a,b\nAda,y\nBen,x\n")
        self.expect(0, "least cost: 2\nAda: y, 1\nBen: x, 1\nplan 2: 2, as good\n  there Ada: x, 1\n  there Ben: y, 1\n"
                    "o.csv: no pair changes\n", "", "r.csv", "--keep", "o.csv", "--plans", "5")

    def test_fair(self):
        self.file("r.csv", ",x,y,z\nAda,1,8,7\nBen,1,2,9\nCleo,5,4,6\n")
        self.expect(0, "least cost with no pair above 6: 9\nAda: x, 1\nBen: y, 2\nCleo: z, 6\n"
                    "dearest pair: Cleo, z, 6; this is also the least cost of all\n", "", "r.csv", "--fair")
        self.file("r.csv", ",x,y\nAda,1,5\nBen,5,10\n")
        self.expect(0, "least cost with no pair above 5: 10\nAda: y, 5\nBen: x, 5\n"
                    "dearest pair: Ada, y, 5; this is also the least cost of all\n", "", "r.csv", "--fair")
        self.file("r.csv", ",x,y\nAda,1,6\nBen,6,9\n")
        self.expect(0, "least cost with no pair above 6: 12\nAda: y, 6\nBen: x, 6\ndearest pair: Ada, y, 6; the least "
                    "cost is 10, with Ben, y, 9\n", "", "r.csv", "--fair", "--output", "p.json")
        fair = json.loads(self.read("p.json"))["fair"]
        self.assertEqual((fair["pair"]["cost"], fair["best_cost"], fair["best_pair"]["cost"]), ("6", "10", "9"))
        self.expect(0, "greatest cost with no pair below 6: 12\nAda: y, 6\nBen: x, 6\n"
                    "cheapest pair: Ada, y, 6; this is also the greatest cost of all\n", "", "r.csv", "--fair", "--max")
        for words in (("--others",), ("--plans", "2"), ("--compare", "p.json"), ("--rents",),
                      ("--keep", "p.json", "--change-cost", "1")):
            self.refused(2, "not with --fair", "r.csv", "--fair", *words)

    def test_print(self):
        status, out, err = shell("N r.csv --print json")
        self.assertEqual((status, json.loads(out)["cost"], err), (0, "5", "least cost: 5\nAda: late, 1\nBen: early, "
                                                                  "2\nCleo: night, 2\n"))
        status, out, err = shell("N r.csv --print csv | N - --lines")
        self.assertEqual((status, out.splitlines()[0], err.splitlines()[0]), (0, "least cost: 5", "least cost: 5"))
        self.refused(2, "invalid choice", "r.csv", "--print", "html")
        self.refused(2, "standard output takes one thing", "r.csv", "--print", "csv", "--html", "/dev/stdout")

    def test_page_on_standard_output(self):
        for script in ("N r.csv --html /dev/stdout | cat", "N r.csv --html /dev/stdout > p.html; status=$?; cat "
                       "p.html; exit $status"):
            status, out, err = shell(script)
            self.assertEqual((status, err.splitlines()[0]), (0, "least cost: 5"))
            parsed(out)
        self.assertEqual(shell("N r.csv --html /dev/null")[0], 0)

    def test_all_in_json_and_on_the_page(self):
        self.file("o.csv", "a,b\nAda,early\nBen,late\nEve,night\n")
        self.file("h.csv", "a,b\nAda,early\nBen,late\nCleo,night\n")
        _, out, _ = self.run_words("r.csv", "--keep", "o.csv", "--compare", "h.csv", "--others", "--output", "p.json",
                                   "--html", "p.html")
        plan, page = json.loads(self.read("p.json")), without_names(self.read("p.html"))
        self.assertEqual(plan["keep"], {"plan": "o.csv", "gone": ["Eve"],
                                        "changes": [{"person": "Ada", "goes": ["early"], "comes": ["late"]},
                                                    {"person": "Ben", "goes": ["late"], "comes": ["early"]},
                                                    {"person": "Cleo", "goes": [], "comes": ["night"]}],
                                        "not_possible": [{"person": "Eve", "object": "night", "why": "gone"}]})
        self.assertEqual((plan["compare"]["cost"], plan["compare"]["worse"], len(plan["compare"]["only_there"])),
                         ("6", "1", 2))
        self.assertEqual((plan["only_one"], plan["swaps"], plan["following"][0]["cost"]), (True, [], "6"))
        for line in out.splitlines()[4:]:
            self.assertIn(f"<li>{line[2:]}</li>" if line.startswith("  ") else f"<p>{line}</p>", page)
        self.file("t.csv", "a,b\nAda,3\n")
        self.run_words("r.csv", "--tasks", "t.csv", "--as-many-as-can", "--output", "q.json")
        self.assertEqual(json.loads(self.read("q.json"))["unused"], [])
        self.file("c.csv", "a,b\nnight,3\nearly,0\n")
        self.run_words("r.csv", "--places", "c.csv", "--output", "s.json")
        self.assertEqual(json.loads(self.read("s.json"))["unused"], [{"object": "night", "had": 2, "most": 3}])


class Paper(Daily):
    def test_a_wide_matrix_in_parts(self):
        self.file("w.csv", square(50))
        self.run_words("w.csv", "--html", "p.html")
        text = self.read("p.html")
        page = parsed(text)
        self.assertEqual(len(page.cells), 50 * 50 + 3 * 50)
        self.assertEqual(text.count('<th scope="row">p49</th>'), 2)
        self.assertEqual([text.count(f"(part {number} of 2)</th>") for number in (1, 2, 3)], [1, 1, 0])
        self.run_words("r.csv", "--html", "q.html")
        self.assertNotIn("(part ", self.read("q.html"))

    def test_parts_fit(self):
        for widths, room in (([10] * 95, 300), ([10, 400, 10, 10], 300), ([290] * 3, 300), ([7, 30] * 40, 100)):
            parts = _filled(widths, room)
            self.assertEqual([column for part in parts for column in part], list(range(len(widths))))
            for part in parts:
                self.assertTrue(len(part) == 1 or sum(widths[column] for column in part) <= room)

    def test_lists_are_unfolded(self):
        self.file("w.csv", ",x,y,z\nAda,5,1,4\n")
        self.run_words("w.csv", "--html", "p.html")
        text = without_names(self.read("p.html"))
        self.assertIn("<details><summary>unused: 2 objects</summary><p>x, z</p></details>\n<p class=\"paper\">unused: "
                      "2 objects: x, z</p>", text)
        self.assertIn("\n.matrix tr.part, p.paper { display: none }\n", text)
        self.assertRegex(text, r"@media print \{\n[^@]*\ndetails \{ display: none \}\np\.paper \{ display: block \}\n")


class Faults(Daily):
    def interrupted(self, *words):
        """The status of the command whose roster is a pipe when Ctrl-C comes, what it prints, and the files."""
        os.mkfifo("pipe.csv")
        ended = subprocess.Popen([sys.executable, *words, "pipe.csv", "--output", "p.csv"], stdout=subprocess.PIPE,
                                 stderr=subprocess.PIPE, env=environment())
        pipe = self.opened("pipe.csv", ended)
        ended.send_signal(signal.SIGINT)
        out, err = ended.communicate()
        os.close(pipe)
        return ended.returncode, out, err, sorted(os.listdir())

    def test_interrupted(self):
        self.assertEqual(self.interrupted("-m", "nushbaret"), (-signal.SIGINT, b"", b"", ["pipe.csv", "r.csv"]))

    def test_interrupted_on_windows(self):
        """Where processes don't end by signals Ctrl-C raises, and the status is the same."""
        self.assertEqual(self.interrupted("-c", INTERRUPTED_ON_WINDOWS), (130, b"", b"", ["pipe.csv", "r.csv"]))

    def opened(self, pipe, ended):
        """A pipe to a command that has begun to read it."""
        while ended.poll() is None:
            try:
                return os.open(pipe, os.O_WRONLY | os.O_NONBLOCK)
            except OSError:
                time.sleep(0.01)
        self.fail(ended.communicate())

    def test_interrupted_while_writing(self):
        for force in ((), ("--force",)):
            with mock.patch("nushbaret.roster.files.os.chmod" if force else "nushbaret.roster.files.open",
                            side_effect=KeyboardInterrupt, create=True):
                self.assertEqual(self.run_words("r.csv", "--output", "p.csv", *force), (130, "", ""))
            self.assertEqual(os.listdir(), ["r.csv"])

    def test_own_fault(self):
        with mock.patch("nushbaret.roster.command.answer_of", side_effect=ZeroDivisionError("by nought")):
            self.expect(4, "", "a fault of nushbaret itself: ZeroDivisionError: by nought (NUSHBARET_DEBUG=1 shows "
                        "where)\n", "r.csv")
            with mock.patch.dict(os.environ, NUSHBARET_DEBUG="1"), self.assertRaises(ZeroDivisionError):
                self.run_words("r.csv")

    def test_standard_input_closed(self):
        self.assertEqual(shell("N - <&-"), (4, "", "standard input is closed\n"))

    def test_files_that_cannot_be_written(self):
        with mock.patch("nushbaret.roster.files.open", side_effect=OSError(28, "No space left on device"), create=True):
            self.refused(4, "p.csv: No space left on device", "r.csv", "--output", "p.csv")
        with mock.patch("nushbaret.roster.files.tempfile.mkstemp",
                        side_effect=PermissionError(13, "Permission denied", ".nushbaret.x")):
            self.refused(4, "p.csv: Permission denied", "r.csv", "--output", "p.csv", "--force")
        self.assertEqual(shell("N r.csv --html /dev/full")[::2], (4, "/dev/full: No space left on device\n"))

    def test_replacing_that_fails(self):
        """Windows replaces no file that only may be read or is open elsewhere, and removes none that may only be
        read."""
        self.file("p.csv", "old")
        os.chmod("p.csv", 0o444)
        with mock.patch("nushbaret.roster.files.os.unlink", side_effect=unlink_of_windows), \
                mock.patch("nushbaret.roster.files.os.replace", side_effect=PermissionError(13, "Permission denied")):
            self.refused(4, "p.csv: Permission denied", "r.csv", "--output", "p.csv", "--force")
        self.assertEqual((self.read("p.csv"), sorted(os.listdir())), ("old", ["p.csv", "r.csv"]))

    def test_did_you_mean(self):
        self.file("r.csv", ",Nacht Mo,Nacht Di,S1\nAda,1,2,3\nBen,1,2,3\n")
        for name, hint in (("NachtMo", ": did you mean 'Nacht Mo'?"), ("nacht mo", ": did you mean 'Nacht Mo'?"),
                           ("Nacht Mi", ": did you mean 'Nacht Mo' or 'Nacht Di'?"),
                           ("Nachtt Di", ": did you mean 'Nacht Di'?"), ("Nahct Di", ": did you mean 'Nacht Di'?"),
                           ("S2", ""), ("Tag", "")):
            self.file("f.csv", f"a,b\nAda,{name}\n")
            with self.subTest(name=name):
                found = self.run_words("r.csv", "--fixed", "f.csv")
                self.assertEqual(found, (3, "", f"f.csv, line 2, column 2: the roster has no object '{name}'{hint}\n"))
        self.file("f.csv", "a,b\nBenn,Nacht Mo\nBen,Nacht Di\nAda,S1\n")
        self.assertEqual(self.run_words("r.csv", "--compare", "f.csv")[2], "f.csv: the roster has no Benn (did you "
                         "mean Ben?)\n")
        self.file("c.csv", "a,b\nnachtmo,2\n")
        self.refused(3, "c.csv, line 2, column 1: the roster has no object 'nachtmo': did you mean 'Nacht Mo'?",
                     "r.csv", "--places", "c.csv")

    def test_plans_in_json(self):
        self.run_words("r.csv", "--output", "p.json")
        self.assertIn("Ada: late, 1 (fixed)", self.run_words("r.csv", "--fixed", "p.json")[1])
        self.file("one.json", json.dumps({"format": 1, "pairs": [{"person": "Ada", "object": "early"}]}))
        self.assertIn("Ada: early, 4 (fixed)", self.run_words("r.csv", "--fixed", "one.json")[1])
        for pairs, text in (([("Ada", "late"), ("Ada", "early")], "s.json, pair 2: 'Ada' a second time, after pair 1"),
                            ([("Ada", "late"), ("Eve", "early")], "s.json, pair 2: the roster has no person 'Eve'"),
                            ([("Ada", 1)], "s.json, pair 1: a person and an object are needed, each a text")):
            self.file("s.json", json.dumps({"format": 2,
                                            "pairs": [{"person": person, "object": object_}
                                                      for person, object_ in pairs]}))
            self.refused(3, text, "r.csv", "--fixed", "s.json")
        self.file("s.json", '{"format": 5, "pairs": []}')
        self.refused(3, "s.json: 5 is the format of this plan in JSON, where 1 to 4 can be read", "r.csv", "--keep",
                     "s.json")

    def test_change_cost_with_places(self):
        self.file("o.csv", "a,b\nAda,early\n")
        self.refused(3, "more decimal places than the roster's 0: --decimals 1 allows it", "r.csv", "--keep", "o.csv",
                     "--change-cost", "0.5")
        self.refused(3, "--round 2 allows it", "r.csv", "--keep", "o.csv", "--change-cost", "0.25", "--round", "1")
        self.assertEqual(self.run_words("r.csv", "--keep", "o.csv", "--change-cost", "1.00")[0], 0)
        self.assertEqual(self.run_words("r.csv", "--keep", "o.csv", "--change-cost", "0.5", "--decimals", "1")[0], 0)
        self.refused(3, "with the cost of a change a cost is beyond 1000000000000", "r.csv", "--keep", "o.csv",
                     "--change-cost", "1000000000000")

    def test_titles_stay(self):
        self.file("r.csv",
                  "Pflegekraft,Schicht,Stunden\nUwe,frueh,1\nEva,frueh,2\nUte,frueh,1\nUte,spaet,1\nUte,nacht,1\n")
        self.assertEqual(self.run_words("r.csv")[1], "2 \u00d7 Pflegekraft (Uwe, Eva) can take only 1 Schicht between "
                         "them (frueh): allow one of them another, or leave one out\n")


class Sheets(Daily):
    def test_rows_above_the_titles(self):
        self.file("s.csv", "May\n\n" + SQUARE)
        self.assertEqual(self.run_words("s.csv", "--skip-rows", "2"), self.run_words("r.csv"))
        self.file("s.csv", "May, all of it\r\nsep=;\r\na;b;c\r\nAda;x;1\r\nAda;y;z\r\n")
        self.refused(3, "s.csv, line 5, column 3: 'z' is no number", "s.csv", "--skip-rows", "1", "--lines")
        self.refused(3, "s.csv: an empty file", "s.csv", "--skip-rows", "9")
        self.refused(3, "only a workbook, .xlsx, has sheets", "s.csv", "--sheet", "May")

    def test_corner(self):
        self.file("r.csv", "nurse" + SQUARE)
        self.run_words("r.csv", "--output", "p.csv")
        self.assertEqual(self.read("p.csv").splitlines()[0], "nurse,object,cost")
        self.file("r.csv", "nurse,x\nAda,\nBen,\n")
        self.assertIn("1 object (x) can go to no nurse", self.run_words("r.csv")[1])

    def test_objects_in_the_rosters_order(self):
        self.file("r.csv", ",z,a\nAda,1,2\nBen,1,2\nCleo,1,2\nDan,1,2\n")
        self.file("c.csv", "a,b\na,2\nz,2\n")
        lines = self.run_words("r.csv", "--places", "c.csv")[1].splitlines()
        self.assertEqual([line[:5] for line in lines if line.startswith("at ")], ["at z:", "at a:"])

    def test_without_openpyxl(self):
        with mock.patch.dict(sys.modules, {"openpyxl": None}):
            self.refused(4, "p.xlsx: a workbook is written where openpyxl is installed; elsewhere write .csv", "r.csv",
                         "--output", "p.xlsx")

    @unittest.skipUnless(openpyxl, "openpyxl isn't installed")
    def test_workbook(self):
        self.file("r.csv", "nurse,shift,hours\n=Ada,x,2.5\n=Ada,y,1\nBen,x,1.25\nBen,z,4\nCleo,x,1\n")
        self.assertEqual(self.run_words("r.csv", "--as-many-as-can", "--output", "p.xlsx")[0], 0)
        book = openpyxl.load_workbook("p.xlsx")
        rows = [[[cell.value for cell in row] for row in sheet.iter_rows()] for sheet in book]
        self.assertEqual(book.sheetnames, ["Plan", "Left out", "Matrix"])
        self.assertEqual(rows[0], [["nurse", "shift", "hours"], ["=Ada", "y", 1], ["Ben", "z", 4], ["Cleo", "x", 1]])
        self.assertEqual(rows[2], [["nurse", "x", "y", "z"], ["=Ada", 2.5, 1, None], ["Ben", 1.25, None, 4],
                                   ["Cleo", 1, None, None]])
        marked = [(cell.row, cell.column) for row in book["Matrix"].iter_rows() for cell in row if cell.font.bold]
        self.assertEqual(marked, [(2, 3), (3, 4), (4, 2)])
        self.assertEqual(book["Plan"]["A2"].data_type, "s")
        self.assertIn("p.xlsx: no pair changes", self.run_words("r.csv", "--keep", "p.xlsx")[1])
        self.file("w.csv", ",x\nAda,9\nBen,1\n")
        self.run_words("w.csv", "--output", "w.xlsx")
        self.assertEqual([[cell.value for cell in row]
                          for row in openpyxl.load_workbook("w.xlsx")["Left out"].iter_rows()],
                         [["without", "person", "Ada"]])

    @unittest.skipUnless(openpyxl, "openpyxl isn't installed")
    def test_another_sheet(self):
        book = openpyxl.Workbook()
        for title, cost in (("May", 1), ("June", 2)):
            sheet = book.create_sheet(title)
            for row in [[title], [None, "x"], ["Ada", cost]]:
                sheet.append(row)
        del book["Sheet"]
        book.save("b.xlsx")
        self.expect(0, "least cost: 1\nAda: x, 1\n", "b.xlsx: the sheet 'May' was read, of 2: b.xlsx#SHEET reads "
                    "another\n", "b.xlsx", "--skip-rows", "1")
        self.assertEqual(self.run_words("b.xlsx", "--skip-rows", "1", "--sheet", "June")[1],
                         "least cost: 2\nAda: x, 2\n")
        self.refused(3, "b.xlsx: no sheet 'July': it has 'May', 'June'", "b.xlsx", "--sheet", "July")


if __name__ == "__main__":
    unittest.main()
