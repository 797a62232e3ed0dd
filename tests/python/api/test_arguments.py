"""Counts by names, prices by names, plans with too few pairs, greatest counts, and messages that name the argument;
types for mypy."""
import contextlib
import importlib.util
import io
import os
import pathlib
import pickle
import re
import subprocess
import sys
import tempfile
import tracemalloc
import unittest
from decimal import Decimal

import nushbaret
import user_program
from optional import np, pd, sparse

COSTS = [[4, 1], [2, 3]]


class Refused(unittest.TestCase):
    def refused(self, kind, words, call, *given, **named):
        with self.assertRaisesRegex(kind, "^" + re.escape(words)):
            call(*given, **named)

    def test_names_of_arguments(self):
        solve, check = nushbaret.solve, nushbaret.check
        for call in solve, nushbaret.bottleneck, lambda costs, **named: nushbaret.assign_counts(costs, 1, 1, **named):
            self.refused(TypeError, "decimals is 1.0: it must be a whole number", call, COSTS, decimals=1.0)
            self.refused(TypeError, "timeout is '3': it must be a number of seconds", call, COSTS, timeout="3")
        self.refused(TypeError, "timeout is '3'", nushbaret.linear_sum_assignment, COSTS, timeout="3")
        self.refused(TypeError, "timeout is [3]", solve, COSTS, timeout=[3])
        self.refused(TypeError, "k is 1.5: it must be a whole number", nushbaret.k_best, COSTS, 1.5)
        self.refused(TypeError, "row is 'a': it must be a whole number", solve(COSTS).without, "a", 0)
        self.refused(TypeError, "column is 0.0: it must be a whole number", solve(COSTS).without, 0, 0.0)
        self.refused(TypeError, "start is 5: it must be a result, or a list of prices", solve, COSTS, start=5)
        self.refused(TypeError, "start is {1}: it must be a list", solve, COSTS, start={1})
        result = solve(COSTS)
        self.refused(TypeError, "columns is <nushbaret.Result: cost 3, 2 pairs>: it must be a list", check, COSTS,
                     result, result.prices)
        self.refused(TypeError, "columns is 1: it must be a list", nushbaret.compare, COSTS, 1)
        self.refused(TypeError, "columns[1] is 0.0: it must be a whole number", check, COSTS, [1, 0.0], [0, 0])
        self.refused(TypeError, "rows[0] is 'a': it must be a whole number", check, COSTS, [1, 0], [0, 0],
                     rows=["a", 1])
        self.refused(TypeError, "rows is 1: it must be a list", check, COSTS, [1, 0], [0, 0], rows=1)
        self.refused(TypeError, "prices is 5: it must be a list, with one value for each column", check, COSTS, [1, 0],
                     5)
        self.refused(TypeError, "the price of column 0 is '1'", check, COSTS, [1, 0], "12")

    def test_names_of_listed_pairs(self):
        solve = nushbaret.solve_sparse
        self.refused(TypeError, "n_rows is '2': it must be a whole number", solve, "2", 2, [0], [0], [1])
        self.refused(TypeError, "n_columns is 2.0: it must be a whole number", solve, 2, 2.0, [0], [0], [1])
        self.refused(TypeError, "rows is 0: it must be a list", solve, 1, 1, 0, [0], [1])
        self.refused(TypeError, "columns[0] is 0.5: it must be a whole number", solve, 1, 1, [0], [0.5], [1])
        self.refused(TypeError, "costs is 1: it must be a list", solve, 1, 1, [0], [0], 1)

    def test_no_matrix(self):
        for costs, kind in ({}, "dict"), ({0: [1]}, "dict"), (set(), "set"), (frozenset(), "frozenset"), ("", "str"):
            for call in (nushbaret.solve, nushbaret.bottleneck, lambda costs: nushbaret.assign_counts(costs, 1),
                         lambda costs: nushbaret.k_best(costs, 1)):
                self.refused(ValueError, f"expected a matrix (2-D array), got a {kind}", call, costs)
        self.assertEqual(nushbaret.solve([]).cost, 0)


class Counts(unittest.TestCase):
    def refused(self, words, *given, **named):
        with self.assertRaisesRegex(ValueError, "^" + re.escape(words)):
            nushbaret.assign_counts(*given, **named)

    def test_by_numbers(self):
        """By hand: row 1 takes both, and row 0 its cheaper one."""
        for counts in {1: 2, 0: 1}, {0: (1, 1), 1: (2, 2)}, [1, 2]:
            self.assertEqual(nushbaret.assign_counts(COSTS, counts, (0, 2)).pairs, [(0, 1), (1, 0), (1, 1)])
            self.assertEqual(nushbaret.assign_counts(COSTS, (0, 2), counts).pairs, [(0, 1), (1, 0), (1, 1)])
        self.refused("row_counts lacks the row 0", COSTS, {1: 2}, 1)
        self.refused("row_counts has 2, which is no row", COSTS, {0: 1, 1: 1, 2: 1}, 1)
        self.refused("column_counts has 'a', which is no column", COSTS, 1, {"a": 1})
        self.refused("column_groups has 'Mon', which is no column", COSTS, 1, 1, {"Mon": [0, 1]})
        self.assertEqual(nushbaret.assign_counts(COSTS, (0, 2), 1, {0: "Mon", 1: "Mon"}).pairs, [(0, 1), (1, 0)])
        for groups in "MM", {(0, 1)}, [{0, 1}]:
            self.assertEqual(nushbaret.assign_counts(COSTS, (0, 2), 1, groups).pairs, [(0, 1), (1, 0)])
        with self.assertRaisesRegex(TypeError, "row_counts is {1, 2}: it must be a list"):
            nushbaret.assign_counts(COSTS, {1, 2}, 1)
        with self.assertRaisesRegex(TypeError, "column_groups is {'(Mon|Tue)', '(Mon|Tue)'}: it must be a list"):
            nushbaret.assign_counts(COSTS, 1, 1, {"Mon", "Tue"})

    @unittest.skipUnless(pd, "pandas isn't there")
    def test_by_labels(self):
        frame = pd.DataFrame(COSTS, index=["Ada", "Ben"], columns=["early", "late"])
        wanted = [("Ada", "late"), ("Ben", "early"), ("Ben", "late")]
        for counts in ({"Ben": 2, "Ada": 1}, pd.Series({"Ben": 2, "Ada": 1}), pd.Series({"Ben": (2, 2), "Ada": 1}),
                       [1, 2], np.array([1, 2])):
            self.assertEqual(nushbaret.assign_counts(frame, counts, (0, 2)).pairs, wanted)
        shifts = pd.Series({"late": 2, "early": 1})
        self.assertEqual(nushbaret.assign_counts(frame, (0, 2), shifts).pairs, wanted)
        self.assertEqual(nushbaret.assign_counts(COSTS, pd.Series([1, 2]), (0, 2)).pairs, [(0, 1), (1, 0), (1, 1)])
        days = pd.Series({"late": "Mon", "early": "Tue"})
        self.assertEqual(nushbaret.assign_counts(frame, (1, 2), (0, 2), days).pairs,
                         [("Ada", "late"), ("Ben", "early")])
        self.refused("row_counts lacks the row 'Ada'", frame, pd.Series({"Ben": 2}), 1)
        self.refused("row_counts has 'Cleo', which is no row", frame, {"Ben": 2, "Ada": 1, "Cleo": 1}, 1)
        self.refused("column_counts has 0, which is no column", frame, 1, {0: 1, 1: 1})
        self.refused("row_counts has 'Ada' twice", frame, pd.Series([1, 2, 1], index=["Ada", "Ben", "Ada"]), 1)

    def test_prices_and_plans_by_names(self):
        """By hand: at prices 0 and 1 both rows pay least in the plan."""
        self.assertTrue(nushbaret.check(COSTS, [1, 0], {1: 1, 0: 0}))
        self.assertFalse(nushbaret.check([[4, 1], [2, 1]], [1, 0], {1: 0, 0: 1}))
        self.assertEqual(nushbaret.compare(COSTS, {1: 1, 0: 0}).cost, 7)
        if pd:
            frame = pd.DataFrame([[4, 1], [2, 1]], index=["Ada", "Ben"], columns=["early", "late"])
            self.assertTrue(nushbaret.check(frame, {"Ben": "early", "Ada": "late"}, pd.Series({"late": 1, "early": 0})))
            self.assertFalse(nushbaret.check(frame, ["late", "early"], [1, 0]))
            with self.assertRaisesRegex(ValueError, "columns lacks the row 'Ada'"):
                nushbaret.check(frame, {"Ben": "early"}, [0, 0])

    def test_great_counts(self):
        """By hand: two rows can't take 10^8 columns, of which there are two. No list is as long as a count."""
        for count in 10**8, 10**30:
            tracemalloc.start()
            for rows, columns, side in ((0, 2), count, "column"), (count, (0, 2), "row"):
                with self.assertRaisesRegex(nushbaret.Infeasible, f"{side} 0 must have {count} .*, and can have "
                                            "2") as caught:
                    nushbaret.assign_counts(COSTS, rows, columns)
                self.assertEqual([(short.wanted, short.had) for short in caught.exception.shortages],
                                 [(count, 2), (count, 2)])
            partial = nushbaret.assign_counts(COSTS, (0, 2), count, partial=True)
            self.assertEqual((partial.cost, partial.missing_columns), (10, {0: count - 2, 1: count - 2}))
            self.assertEqual(nushbaret.assign_counts(COSTS, (1, count), (0, count)).cost, 3)
            self.assertEqual(nushbaret.assign_counts(COSTS, (1, count), (0, count), maximize=True).cost, 10)
            self.assertEqual(sum(1 for _ in nushbaret.k_best(COSTS, count)), 2)
            _, most = tracemalloc.get_traced_memory()
            tracemalloc.stop()
            self.assertLess(most, 10**7)


class TooFewPairs(unittest.TestCase):
    def test_neither_is_best(self):
        """By hand: [[1, 2], [3, None]] has the plan of 2 and 3."""
        for costs in [[1, 2], [3, 5]], [[1, 2], [3, None]]:
            verdict = nushbaret.check(costs, [0, None], [0, 0])
            self.assertEqual((verdict.proved, verdict.why), (False, "1 row of 2 has a column, and 2 can"))
        self.assertFalse(nushbaret.check([[1, None], [3, None]], [None, None], [0, 0]))

    def test_fullest_ones(self):
        """Where no more can be made, a plan of fewer pairs than rows is best."""
        costs = [[1, None], [3, None]]
        self.assertTrue(nushbaret.check(costs, [0, None], [0, 0]))
        result = nushbaret.solve(costs, partial=True)
        self.assertTrue(result.verify())
        self.assertTrue(nushbaret.check([[Decimal("1E-30"), None], [3, None]], [0, None], [0, 0]))
        later = result.verify([[1, 9], [3, None]])
        self.assertEqual((later.proved, later.why), (False, "1 row of 2 has a column, and 2 can"))
        costs[0][1] = 9
        with self.assertRaisesRegex(ValueError, "the costs were changed"):
            result.next_best()

    @unittest.skipUnless(sparse, "SciPy isn't there")
    def test_sparse_matrices(self):
        costs = sparse.csr_matrix(([1, 2, 3], ([0, 0, 1], [0, 1, 0])), (2, 2))
        self.assertFalse(nushbaret.check(costs, [0, None], [0, 0]))
        self.assertTrue(nushbaret.check(costs, [1, 0], [1, 0]))


class OwnFaults(unittest.TestCase):
    """A fault of ours isn't one of the user's file, and a named refusal is."""

    def setUp(self):
        held = tempfile.TemporaryDirectory()
        self.addCleanup(held.cleanup)
        self.file = pathlib.Path(held.name) / "r.csv"
        self.file.write_text("nurse,shift,cost\nAda,early,1\n")

    def ran(self, fault, **more):
        """The command with a fault of its own in the solving step: its status, and what it prints."""
        code = ("import sys\nfrom unittest import mock\nfrom nushbaret import __main__\n"
                f"with mock.patch('nushbaret.roster.answer.best_plan', side_effect={fault}):\n"
                f"    sys.argv = ['nushbaret', {str(self.file)!r}]\n    sys.exit(__main__.main())\n")
        env = {name: value for name, value in os.environ.items() if name != "NUSHBARET_DEBUG"}
        return subprocess.run([sys.executable, "-c", code], capture_output=True, text=True, env={**env, **more})

    def test_value_errors(self):
        line = "a fault of nushbaret itself: ValueError: by nought and more (NUSHBARET_DEBUG=1 shows where)\n"
        ran = self.ran("ValueError('by nought\\nand more')")
        self.assertEqual((ran.returncode, ran.stdout, ran.stderr), (4, "", line))
        ran = self.ran("ValueError('by nought\\nand more')", NUSHBARET_DEBUG="1")
        self.assertEqual((ran.returncode, ran.stdout), (4, ""))
        self.assertTrue(ran.stderr.startswith(line + "Traceback (most recent call last):\n"))
        self.assertIn(", in answer_of\n", ran.stderr)

    def test_refusals(self):
        """A roster that is too large for the library stays a fault of the file, with and without the variable."""
        for more in {}, {"NUSHBARET_DEBUG": "1"}:
            ran = self.ran("__import__('nushbaret.costs.limits').costs.limits.TooLarge('too many')", **more)
            self.assertEqual((ran.returncode, ran.stdout, ran.stderr), (3, "", f"{self.file}: too many\n"))


class Types(unittest.TestCase):
    def test_infeasible(self):
        with self.assertRaises(nushbaret.CountsInfeasible) as caught:
            nushbaret.assign_counts(COSTS, (0, 1), 2)
        again = pickle.loads(pickle.dumps(caught.exception))
        self.assertEqual((again.shortages, str(again)), (caught.exception.shortages, str(caught.exception)))
        with self.assertRaises(nushbaret.Infeasible) as caught:
            nushbaret.solve([[None]])
        self.assertEqual(caught.exception.shortages, [])
        self.assertIn("__version__", nushbaret.__all__)

    def test_a_program_with_each_name(self):
        """It uses each public name, and runs."""
        program = pathlib.Path(user_program.__file__).read_text(encoding="utf-8")
        self.assertEqual([name for name in nushbaret.__all__ if f"nushbaret.{name}" not in program], [])
        with contextlib.redirect_stdout(io.StringIO()) as shown:
            user_program.main()
        self.assertEqual(len(shown.getvalue().splitlines()), 7)

    @unittest.skipUnless(importlib.util.find_spec("mypy"), "mypy isn't there")
    def test_the_program_strictly(self):
        env = {**os.environ, "MYPYPATH": str(pathlib.Path(nushbaret.__file__).resolve().parent.parent)}
        ran = subprocess.run([sys.executable, "-m", "mypy", "--strict", "--no-error-summary", user_program.__file__],
                             capture_output=True, text=True, env=env, cwd=tempfile.gettempdir())
        self.assertEqual(ran.stdout, "")

    @unittest.skipUnless(importlib.util.find_spec("mypy"), "mypy isn't there")
    def test_strictly(self):
        code = ("from typing import List\nimport nushbaret\ntry:\n    nushbaret.assign_counts([[1]], 2)\nexcept "
                "nushbaret.Infeasible as short:\n    wanted: List[int] = [own.wanted for own in "
                "short.shortages]\nversion: str = nushbaret.__version__\ncolumns: List[int] = "
                "nushbaret.linear_sum_assignment([[1, 2], [3, 5]])[1]\nwrong: str = "
                "nushbaret.linear_sum_assignment([[1, 2], [3, 5]])[1]\n")
        env = {**os.environ, "MYPYPATH": str(pathlib.Path(nushbaret.__file__).resolve().parent.parent)}
        with tempfile.TemporaryDirectory() as folder:
            ran = subprocess.run([sys.executable, "-m", "mypy", "--strict", "-c", code], capture_output=True, text=True,
                                 env=env, cwd=folder)
        self.assertEqual(re.findall(r"<string>:(\d+): error: (.*?) +\[", ran.stdout),
                         [("9", 'Incompatible types in assignment (expression has type "List[int]", variable has type '
                           '"str")')], ran.stdout)


if __name__ == "__main__":
    unittest.main()
