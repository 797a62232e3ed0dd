"""The sessions of docs/BEYOND.md, the examples of the calls, and examples/beyond.py."""
import doctest
import os
import pathlib
import subprocess
import sys
import unittest

from optional import np

TOP = pathlib.Path(__file__).resolve().parents[3]
PAGE = TOP / "docs" / "BEYOND.md"


@unittest.skipUnless(np, "needs NumPy")
class Examples(unittest.TestCase):
    def test_calls(self):
        from nushbaret import beyond
        for call in (beyond.solve, beyond.solve_pairs, beyond.check):
            for test in doctest.DocTestFinder(recurse=False).find(call, globs={}):
                self.assertTrue(test.examples, call.__name__)
                self.assertEqual(doctest.DocTestRunner(verbose=False).run(test).failed, 0)

    def test_page(self):
        self.assertEqual(doctest.testfile(str(PAGE), module_relative=False).failed, 0)

    def test_program(self):
        path = {**os.environ, "PYTHONPATH": os.pathsep.join(sys.path)}
        ran = subprocess.run([sys.executable, str(TOP / "examples/beyond.py"), "300"], capture_output=True, text=True,
                             env=path)
        self.assertEqual(ran.returncode, 0, ran.stderr)
        self.assertIn("proved, gap 0, ", ran.stdout)
        self.assertIn("pass", ran.stderr)


if __name__ == "__main__":
    unittest.main()
