"""The words of the command: wrong options, short ones, what is printed quietly, and in which encoding output goes to a
pipe."""
import os
import pty
import subprocess
import sys
import unittest

import nushbaret
from commands import SQUARE, TOP, Runs

HINT = " (nushbaret --help lists all options)\n"


class Wrong(Runs):
    def test_the_nearest_option(self):
        for word, near in (("--maxx", "--max"), ("--outptu", "--output"), ("--as-many", "--as-many-as-can"),
                           ("-max", "--max"), ("-html", "--html"), ("--Keep", "--keep"), ("\u2013max", "--max"),
                           ("\u2014force", "--force"), ("--place=c.csv", "--places")):
            name = word.partition("=")[0]
            for words in ((word,), ("r.csv", word), (word, "r.csv", "--fixed", "f.csv")):
                with self.subTest(words=words):
                    self.expect(2, "", f"nushbaret: no option {name}: did you mean {near}?{HINT}", *words)

    def test_no_option_is_near(self):
        self.expect(2, "", "nushbaret: no option --frobnicate" + HINT, "r.csv", "--frobnicate")
        self.expect(2, "", "nushbaret: no option -z" + HINT, "-z")

    def test_words_that_are_no_options(self):
        self.file("r.csv", SQUARE)
        self.file("\u2013 May.csv", SQUARE)
        self.file("-r.csv", SQUARE)
        self.assertEqual(self.run_words("\u2013 May.csv")[0], 0)
        self.assertEqual(self.run_words("--", "-r.csv")[0], 0)
        self.refused(3, "only a workbook, .xlsx, has sheets", "r.csv", "--sheet", "\u2013max")
        self.refused(2, "--change-cost", "r.csv", "--keep", "o.csv", "--change-cost")

    def test_a_file_twice(self):
        for option in ("--places", "--tasks", "--groups", "--fixed", "--keep", "--compare"):
            self.expect(2, "", f"nushbaret: {option}: given twice, with a.csv and b.csv{HINT}", "r.csv", option,
                        "a.csv", option, "b.csv")


class Short(Runs):
    def test_output(self):
        self.file("r.csv", SQUARE)
        self.assertEqual(self.run_words("r.csv", "-o", "p.csv", "-op.json", "--output", "p.html")[0], 0)
        self.assertEqual(sorted(os.listdir()), ["p.csv", "p.html", "p.json", "r.csv"])

    def test_quiet(self):
        self.file("r.csv", SQUARE)
        self.expect(0, "least cost: 5\n", "", "r.csv", "-q", "--rents", "-o", "p.csv")
        self.assertEqual(self.read("p.csv").count("\n"), 4)
        self.file("s.csv", ",x,y,z\nAda,1,,\nBen,1,,\nCleo,1,2,3\n")
        status, out, err = self.run_words("s.csv", "--quiet", "--as-many-as-can")
        self.assertEqual((status, len(out.splitlines()), err), (1, 2, ""))
        self.assertTrue(out.endswith("\nleast cost of 2 pairs: 3\n"))
        self.expect(1, out.splitlines()[0] + "\np.csv isn't written: there is no plan\n", "", "s.csv", "-q", "-o",
                    "p.csv", "--force")

    def test_version(self):
        for word in ("-V", "--version"):
            self.expect(0, f"nushbaret {nushbaret.__version__}\n", "", word)

    def test_help_has_workbooks(self):
        text = " ".join(self.run_words("--help")[1].split())
        self.assertEqual(text.count(".csv, .json or .xlsx)"), 4)
        self.assertIn("-o, --output FILE ", text)


class Piped(Runs):
    def environment(self):
        return {**os.environ, "PYTHONPATH": str(TOP / "python"), "PYTHONIOENCODING": "latin-1", "PYTHONUTF8": "0"}

    def test_utf_8(self):
        self.file("r.csv", "Wer,Dienst,Stunden\nJ\u00f6rg "
                  "\u0141,fr\u00fch,1\nzo\u00eb,fr\u00fch,2\nZo\u00eb,sp\u00e4t,1\n")
        for words in (("r.csv",), ("r.csv", "--print", "csv"), ("r.csv", "--print", "json")):
            ran = subprocess.run([sys.executable, "-m", "nushbaret", *words], capture_output=True,
                                 env=self.environment())
            self.assertEqual(ran.returncode, 0)
            self.assertIn("J\u00f6rg \u0141", ran.stdout.decode("utf-8"))
            self.assertIn("'zo\u00eb', 'Zo\u00eb' differ", ran.stderr.decode("utf-8"))

    def test_csv_of_windows_is_utf_8_in_a_pipe(self):
        with open("r.csv", "wb") as file:
            file.write("Wer,Dienst,Stunden\nJ\u00f6rg,fr\u00fch,1\n".encode("cp1252"))
        ran = subprocess.run([sys.executable, "-m", "nushbaret", "r.csv", "--print", "csv"], capture_output=True,
                             env=self.environment())
        self.assertEqual(ran.stdout.decode("utf-8"), "Wer,Dienst,Stunden\nJ\u00f6rg,fr\u00fch,1\n")

    def test_a_terminal_keeps_its_encoding(self):
        self.file("r.csv", "Wer,Dienst,Stunden\nJ\u00f6rg \u0141,x,1\n")
        main, other = pty.openpty()
        ran = subprocess.run([sys.executable, "-m", "nushbaret", "r.csv", "--lines"], stdout=other,
                             stderr=subprocess.PIPE, env=self.environment())
        os.close(other)
        shown = os.read(main, 1000)
        os.close(main)
        self.assertEqual((ran.returncode, ran.stderr), (0, b""))
        self.assertIn(b"J\xf6rg \\u0141: x, 1", shown)


if __name__ == "__main__":
    unittest.main()
