"""What the package refuses, with the words that name the place; costs of every kind; limits; the library's
constants."""
import ast
import ctypes
import math
import os
import pathlib
import re
import subprocess
import sys
import unittest
from array import array
from decimal import Decimal
from fractions import Fraction
from unittest import mock

import nushbaret
from nushbaret.costs.limits import GREATEST_PRICE
from nushbaret.lap import library, proved

TOP = pathlib.Path(__file__).resolve().parents[3]
MOST = nushbaret.GREATEST_COST


class Refused(unittest.TestCase):
    def refused(self, kind, words, call, *given, **named):
        with self.assertRaisesRegex(kind, re.escape(words)):
            call(*given, **named)

    def test_matrices(self):
        solve = nushbaret.solve
        self.refused(ValueError, "expected a matrix", solve, [1, 2, 3])
        self.refused(ValueError, "expected a matrix", solve, array("q", [1, 2]))
        self.refused(ValueError, "row 1 has 1 costs, row 0 has 2", solve, [[1, 2], [3]])
        self.refused(TypeError, "Cannot cast array data: row 0, column 1 is 'x'", solve, [[1, "x"], [3, 4]])
        self.refused(TypeError, "Cannot cast array data", solve, ["ab", "cd"])
        self.refused(TypeError, "row 0, column 0 is 1j", solve, [[1j]])
        self.refused(ValueError, "contains invalid numeric entries: nan at row 1, column 0", solve,
                     [[1, 2], [math.nan, 4]])
        self.refused(ValueError, "contains invalid numeric entries: -inf", solve, [[-math.inf]])
        self.refused(ValueError, "contains invalid numeric entries: inf", solve, [[math.inf]], maximize=True)
        self.refused(ValueError, "invalid numeric entries", solve, [[Decimal("sNaN")]])
        self.refused(ValueError, "4194305 columns: at most 4194304", solve, [[0] * 4194305])
        self.refused(ValueError, "4194305 rows", solve, [[0]] * 4194305)
        self.refused(TypeError, "rows and columns of listed pairs are given together", solve([[1]]).verify, [1],
                     rows=[0])

    def test_batches(self):
        for wrong, shown in ((5, "0 array"), (None, "0 array"), (2.5, "0 array"), (object(), "0 array"), ("ab", "str"),
                             (b"ab", "bytes"), ({1: [[1]]}, "dict"), ({1}, "set"),
                             (memoryview(bytes(8)).cast("B", (2, 2, 2)), "memoryview")):
            self.refused(ValueError, f"expected matrices (3-D array), got a {shown}",
                         nushbaret.linear_sum_assignment_batch, wrong)
        self.refused(ValueError, "matrix 1: expected a matrix", nushbaret.linear_sum_assignment_batch, [[[1]], 5])
        self.assertEqual(nushbaret.linear_sum_assignment_batch(iter([[[1, 2]], [[3]]])), ([[0], [0]], [[0], [0]]))

    def test_ranges(self):
        solve = nushbaret.solve
        self.assertEqual(solve([[MOST, -MOST], [0, MOST]]).cost, -MOST)
        for beyond in (MOST + 1, -MOST - 1, 2**63, -2**70, Decimal(MOST + 1), float(MOST + 1), 1e300, Decimal("1E+999"),
                       Decimal("-1E-999")):
            exact = Fraction(str(beyond))
            self.assertEqual(Fraction(solve([[1, 2], [beyond, 1]]).cost), min(2, 2 + exact))
            self.assertEqual(Fraction(solve([[1, beyond], [None, 1]], maximize=True).cost), 2)
            result = solve([[beyond, None], [None, 1]])
            self.assertEqual((Fraction(result.cost), bool(result.verify())), (exact + 1, True))
        self.assertEqual(solve([[Decimal("1000000.000000")]], decimals=6).cost, 10**6)
        self.assertEqual(solve([[Decimal("999999.999999")]]).cost, Decimal("999999.999999"))
        self.assertEqual(solve([[10**6 + 1]], decimals=6).cost, 10**6 + 1)
        self.assertEqual(str(solve([[10**6 + 1]], decimals=9).cost), "1000001.000000000")

    def test_places(self):
        solve = nushbaret.solve
        for value in 0.1 + 0.2, 1e-7, Decimal("0.1234567"), Fraction(1,
                                                                     3), Decimal("1E-9999"), Decimal("0." + 40 * "7"):
            exact = value if isinstance(value, Fraction) else Fraction(Decimal(str(value)))
            cost = solve([[value, 9], [9, value]]).cost
            self.assertEqual((Fraction(cost), type(cost)),
                             (2 * exact, Fraction if isinstance(value, Fraction) else Decimal))
        self.assertEqual(solve([[0.1 + 0.2]], decimals=6).cost, Decimal("0.3"))
        self.assertEqual(solve([[Fraction(1, 3)]], decimals=2).cost, Decimal("0.33"))
        for value, wanted in ((2.675, "2.68"), (2.665, "2.66"), (-2.675, "-2.68"), (0.005, "0"), (1.005, "1.00"),
                              (0.015, "0.02")):
            self.assertEqual(solve([[value]], decimals=2).cost, Decimal(wanted), value)
        self.assertEqual((solve([[2.5]]).cost, solve([[2.0]]).cost, type(solve([[2.0]]).cost)),
                         (Decimal("2.5"), 2, int))
        self.assertEqual(type(solve([[2]], decimals=2).cost), Decimal)
        self.assertEqual(str(solve([[Fraction(2, 3)]], decimals=30).cost), "0." + 29 * "6" + "7")
        self.refused(ValueError, "decimals is -1: it must be 0 or more", solve, [[1]], decimals=-1)
        for wrong in 1001, 10**5, 10**9, 10**5000:
            self.refused(ValueError, "decimals is above 1000: costs can be rounded to at most so many places", solve,
                         [[1]], decimals=wrong)
        self.assertEqual(solve([[Fraction(1, 3)]], decimals=1000).cost, Decimal("0." + 1000 * "3"))
        self.refused(ValueError, "decimals is 'fit': it must be a whole number from 0, or None", solve, [[1]],
                     decimals="fit")
        self.refused(TypeError, "", solve, [[1]], decimals=0.5)

    def test_kinds(self):
        for costs in ([[True, False], [True, True]], [array("q", [1, 0]), array("q", [1, 1])],
                      ((1.0, 0), (Decimal(1), Fraction(1)))):
            self.assertEqual(nushbaret.solve(costs, maximize=True).cost, 2)
        for code in "bBhHiIlLqQfd":
            view = memoryview(array(code, [1, 0, 1, 1, 1, 0])).cast("B").cast(code, (2, 3))
            self.assertEqual(nushbaret.solve(view, maximize=True).cost, 2, code)
            self.assertEqual(nushbaret.solve(view).cost, 0, code)
            self.assertEqual(nushbaret.solve(view).without(1, 2).cost, 1, code)
        foreign = (ctypes.c_double.__ctype_be__ * 2 * 2)()
        for call in nushbaret.solve, nushbaret.linear_sum_assignment:
            self.refused(TypeError, "Cannot cast array data: Python doesn't read a buffer of the format '>d'", call,
                         memoryview(foreign))
        frozen = memoryview(array("q", [1, 2, 3, 5]).tobytes()).cast("q", (2, 2))
        self.assertEqual(nushbaret.solve(frozen).cost, 5)
        borrowed = memoryview(array("q", [1, 2, 3, 5])).cast("B").cast("q", (2, 2))
        result = nushbaret.solve(borrowed)
        worse = nushbaret.compare(borrowed, [0, 1]).worse
        self.assertEqual((result.cost, bool(result.verify(borrowed)), worse), (5, True, 1))
        borrowed = memoryview(array("q", [1, MOST + 1])).cast("B").cast("q", (1, 2))
        self.assertEqual(nushbaret.solve(borrowed).cost, 1)
        self.assertEqual(nushbaret.solve(borrowed, maximize=True).cost, MOST + 1)

    def test_forbidden(self):
        self.assertEqual(nushbaret.solve([[1, 2], [3, math.inf]]).columns, [1, 0])
        self.assertEqual(nushbaret.solve([[1, 2], [-math.inf, 9]], maximize=True).cost, 10)
        self.assertEqual(nushbaret.solve([[1, None], [Decimal("Infinity"), 9]]).cost, 10)
        with self.assertRaises(nushbaret.Infeasible) as caught:
            nushbaret.solve([[1, 5, None], [2, 6, None], [3, 7, None]])
        self.assertEqual((caught.exception.rows, caught.exception.columns), ([0, 1, 2], [0, 1]))
        with self.assertRaisesRegex(ValueError, "column 1 may go to no row"):
            nushbaret.solve([[1, None], [2, None], [3, None]])

    def test_pairs(self):
        solve = nushbaret.solve_sparse
        self.refused(ValueError, "rows[1] is 2: it must be from 0 to 1", solve, 2, 2, [0, 2], [0, 1], [1, 1])
        self.refused(ValueError, "columns[0] is -1", solve, 2, 2, [0, 1], [-1, 1], [1, 1])
        self.refused(ValueError, "they have 2, 2 and 1", solve, 2, 2, [0, 1], [0, 1], [1])
        self.refused(TypeError, "", solve, 2, 2, [0.0, 1.0], [0, 1], [1, 1])
        self.refused(TypeError, "costs are needed", solve, 2, 2)
        self.refused(ValueError, "nan at costs[1] (row 1, column 0)", solve, 2, 2, [0, 1], [1, 0], [1, math.nan])
        self.assertEqual(solve(2, 2, [0, 1], [1, 0], [1, MOST + 1]).cost, MOST + 2)
        self.assertEqual(solve(1, 1, [0, 0], [0, 0], [MOST + 5, MOST + 3], maximize=True).cost, MOST + 3)
        self.assertEqual(solve(1, 1, [0, 0], [0, 0], [Fraction(5, 7), Decimal("0.5")], maximize=True).cost,
                         Fraction(1, 2))
        self.refused(ValueError, "-1 rows", solve, -1, 2, [], [], [])
        self.refused(ValueError, "4194305 rows", solve, 4194305, 2, [], [], [])
        self.refused(nushbaret.Infeasible, "row 0 may have no column (the first of 2 groups)", solve, 2, 2, [], [], [])
        self.assertEqual(solve(1, 1, [0, 0], [0, 0], [5, 3], maximize=True).cost, 3)

    def test_first_prices(self):
        self.refused(ValueError, "there are 1 prices, and 2 columns", nushbaret.solve, [[1, 2], [3, 5]], start=[0])
        self.refused(ValueError, "the price of column 1 is nan", nushbaret.solve, [[1, 2], [3, 5]], start=[0, math.nan])
        self.refused(TypeError, "the price of column 0 is 'x'", nushbaret.solve, [[1, 2], [3, 5]], start=["x", 0])
        for start in ([0, 10**20], [0, 10**21], [0, -10**400], (0.5, Fraction(1, 3)), iter([1, 2]), array("q", [1, 2]),
                      map(float, "12")):
            self.assertEqual(nushbaret.solve([[1, 2], [3, 5]], start=start).cost, 5)

    def test_plans(self):
        costs = [[1, 2], [3, 5]]
        self.assertTrue(nushbaret.check(costs, [1, 0], [1, 0]))
        self.assertTrue(nushbaret.check(costs, [1, 0], [1.1, 0.0]))
        self.assertEqual(nushbaret.check(costs, [0, 1], [1, 0]).row, 1)
        self.assertIn("column 0 is given twice", nushbaret.check(costs, [0, 0], [1, 0]).why)
        self.assertIn("row 1 may not have column 1", nushbaret.check([[1, 2], [3, None]], [0, 1], [1, 0]).why)
        self.assertIn("1 row of 2 has a column, and 2 can", nushbaret.check(costs, [0, None], [1, 0]).why)
        self.refused(ValueError, "row 0 of the plan has column 2", nushbaret.check, costs, [2, 0], [1, 0])
        self.refused(ValueError, "row 2 of the plan", nushbaret.check, costs, [1, 0], [1, 0], rows=[0, 2])
        self.refused(ValueError, "row 0 stands twice", nushbaret.check, costs, [1, 0], [1, 0], rows=[0, 0])
        self.assertEqual(nushbaret.compare(costs, [0, 1])[:3], (6, 5, 1))
        self.assertEqual(nushbaret.compare(costs, [1, 0], maximize=True)[:3], (5, 6, 1))
        self.refused(ValueError, "column 0 stands twice", nushbaret.compare, costs, [0, 0])
        self.refused(ValueError, "the plan has 1 pair, and 2 can be made", nushbaret.compare, costs, [0, None])
        self.refused(IndexError, "row 2, column 0: there are 2 rows", nushbaret.solve(costs).without, 2, 0)


class Limits(unittest.TestCase):
    def test_dummies_at_the_limit_of_costs(self):
        """Dummies cost nothing, so that the greatest costs are assigned as the small ones are."""
        costs = [[MOST, None, -MOST], [None, None, MOST], [None, None, -MOST]]
        for maximize, wanted in (False, 0), (True, 2 * MOST):
            result = nushbaret.solve(costs, maximize, partial=True)
            self.assertEqual((len(result.rows), result.cost), (2, wanted))
        costs[0][0] += 1
        self.assertEqual(nushbaret.solve(costs, True, partial=True).cost, 2 * MOST + 1)

    def test_size_with_dummies(self):
        rows = list(range(4097))
        result = nushbaret.solve_sparse(4097, 4096, rows[:4096], rows[:4096], [1] * 4096)
        self.assertEqual((result.cost, result.unmatched_rows), (4096, [4096]))
        with mock.patch.object(proved, "MOST_PERSONS", 8192), \
                self.assertRaisesRegex(ValueError, "of which 1 can be paired, make 8193"):
            nushbaret.solve_sparse(4097, 4097, [0] * 4097, rows, [1] * 4097, partial=True)

    @unittest.skipUnless(sys.platform == "linux", "limits of memory are Linux's here")
    @unittest.skipIf("NUSHBARET_EMULATED" in os.environ, "an emulator takes more memory")
    def test_memory_refused(self):
        """The memory that a call keeps is less than the search of so many pairs needs."""
        code = ("import resource, nushbaret\nfrom array import array\nfrom nushbaret.lap import library\nn = "
                "2000\npairs = [array('I', [k // n + 1 for k in range(n * n)]), array('I', range(1, n + 1)) * n, "
                "array('q', bytes(8 * n * n))]\nroom = array('I', bytes(4 * n)), array('I', bytes(4 * n)), array('q', "
                "bytes(8 * n))\nnushbaret.solve([[1]])\nused = int(open('/proc/self/statm').read().split()[0]) * "
                "4096\nresource.setrlimit(resource.RLIMIT_AS, (used + 4 * 2**20, resource.RLIM_INFINITY))\ntry:\n    "
                "library.searched(False, n, n, pairs, None, room)\nexcept MemoryError as fault:\n    "
                "print(fault)\nresource.setrlimit(resource.RLIMIT_AS, (resource.RLIM_INFINITY, "
                "resource.RLIM_INFINITY))\nprint(library.searched(False, n, n, pairs, None, room)[0])\n")
        ran = subprocess.run([sys.executable, "-c", code], capture_output=True, text=True, check=True, env=os.environ)
        self.assertEqual(ran.stdout, "the library was refused memory\nBEST\n")


class Library(unittest.TestCase):
    def test_constants_are_those_of_the_header(self):
        header = (TOP / "c/nushbaret.h").read_text()
        codes = {name: int(code) for name, code in re.findall(r"NUSHBARET_(?!ROWS_|COUNTS_)(\w+) = (\d+)", header)}
        self.assertEqual({name: code for code, name in enumerate(library.CODES) if name}, codes)
        self.assertIn(f"NUSHBARET_MOST_PERSONS {nushbaret.MOST_PERSONS}\n", header)
        self.assertIn(f"NUSHBARET_GREATEST_COST INT64_C({nushbaret.GREATEST_COST})\n", header)
        self.assertIn(f'NUSHBARET_VERSION "{nushbaret.__version__}"', header)
        self.assertIn(f"NUSHBARET_GREATEST_PRICE INT64_C({GREATEST_PRICE})\n", header)
        for struct, held in ("info", library.Info), ("record", library.Record):
            fields = re.search(rf"struct nushbaret_{struct} \{{(.*?)\n\}}", header, re.S)[1]
            kinds = [(name, f"{'u' * (kind(-1).value > 0)}int{8 * ctypes.sizeof(kind)}_t")
                     for name, kind in held._fields_]
            self.assertEqual([(name, kind) for kind, name in re.findall(r"(\w+) (\w+);", fields)], kinds)

    def test_no_library(self):
        code = ("import pathlib, nushbaret, nushbaret.lap.library as library\nlibrary.PATHS = "
                "(pathlib.Path('/nowhere.so'),)\ntry:\n    nushbaret.solve([[1]])\nexcept OSError as fault:\n    "
                "print(type(fault).__name__, fault)\n")
        ran = subprocess.run([sys.executable, "-c", code], capture_output=True, text=True, check=True, env=os.environ)
        self.assertEqual(ran.stdout, "LibraryNotFound libnushbaret.so isn't there: c/build.sh makes it, at the top of "
                         "a checkout of Nushbaret\n")

    def test_grammar_of_python_3_9(self):
        for file in sorted((TOP / "python").rglob("*.py")):
            ast.parse(file.read_text(), str(file), feature_version=(3, 9))


if __name__ == "__main__":
    unittest.main()
