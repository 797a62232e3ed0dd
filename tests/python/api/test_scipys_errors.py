"""SciPy's call raises what SciPy's raises, and takes what SciPy's takes, with and without NumPy; nothing of NumPy's
comes through."""
import subprocess
import sys
import os
import unittest
import warnings
from collections import deque
from decimal import Decimal
from fractions import Fraction

import nushbaret
from optional import np, optimize, pd, sparse


class Index:
    def __index__(self):
        return 3


class Floating:
    def __float__(self):
        return 2.5


class Neither:
    pass


# What is given, and what is raised, or the columns that are found.
PLAIN = (([], ValueError), ([[]], []), ([[], []], []), ([[[1]]], ValueError), ([[[1, 2], [3, 4]]], ValueError),
         ([1, 2], ValueError), ("abc", ValueError), ("", ValueError), (b"ab", ValueError), (3, ValueError),
         (2.5, ValueError), (None, ValueError), ({1: 2}, TypeError), ({1, 2}, TypeError), ([{1, 2}], TypeError),
         ([{1: 2}], TypeError), (Neither(), TypeError), ([["x"]], ValueError), ([["1", "2.5"], ["3", " 4 "]], [0, 1]),
         ([["inf", "1"]], [1]), ([["1", 2], [3.5, "0.25"]], [0, 1]), (["ab"], ValueError), ([[10**400]], OverflowError),
         ([[10**300, 1], [2, 3]], [1, 0]), ([[Index(), 1]], [1]), ([[Floating(), 3]], [0]), ([[1, 2], [3]], ValueError),
         ([[1j]], TypeError), ([[Neither()]], TypeError), ([[Decimal("1.5"), 1]], [1]), ([[Fraction(1, 2), 1]], [0]),
         ([range(3)], [0]), ([[True, False]], [1]), (([1], [2]), [0]), ([[float("nan")]], ValueError),
         ([[float("-inf")]], ValueError), ([[float("inf")]], ValueError), ((row for row in [[1, 2]]), TypeError),)
# What SciPy refuses and this call takes.
TAKEN = [[None, 1]]


def found_by(call, costs):
    """The columns that a call finds, or the kind of error that it raises."""
    try:
        return [int(column) for column in call(costs)[1]]
    except Exception as fault:
        return ValueError if isinstance(fault, ValueError) else type(fault)


class Errors(unittest.TestCase):
    def test_plain(self):
        for costs, wanted in PLAIN:
            self.assertEqual(found_by(nushbaret.linear_sum_assignment, costs), wanted, costs)
        self.assertEqual(found_by(nushbaret.linear_sum_assignment, TAKEN), [1])

    @unittest.skipUnless(optimize, "SciPy isn't there")
    def test_beside_scipy(self):
        arrays = [np.array([["1"]]), np.zeros((2, 2, 2)), np.zeros(3), np.zeros(()), np.zeros((0, 3)), np.array([[1j]]),
                  np.eye(2, dtype=bool), np.array([["2020-01-01"]], "M8[D]"), np.array([[1]], "m8[s]"),
                  np.array([[b"1"]]), np.array([[2, 1]], np.float16),
                  np.ma.array([[1.0, 0], [2, 4]], mask=[[0, 1], [0, 0]]), np.array([[np.nan, 1]]),
                  np.array([[-np.inf, 1]]), sparse.coo_matrix(np.eye(2)), sparse.csr_matrix(np.eye(2)),
                  [np.array([1, 2]), np.array([3, 5])], [[np.float32(0.5), np.int8(1)]],
                  [deque([1, 2]), deque([3, 5])], [deque([[1], [2]]), deque([[3], [5]])],
                  [[1, [2]], [3, 4]], [[1, (2,)], [3, 4]], [[1, np.zeros(1)], [3, 4]], [[1, {2}], [3, 4]],
                  [np.eye(2), np.eye(2)], [np.array(1), np.array(2)], [[np.timedelta64(3, "ns"), 1]]]
        if pd:
            arrays += [pd.DataFrame([[2, 1]]), pd.DataFrame([[2, 1]], dtype="Int64"), [[pd.NA, 1]],
                       pd.DataFrame([[pd.NA, 1]]), pd.Series([1, 2]), [pd.DataFrame([[5, 6], [7, 8]])] * 2]
        for costs in [costs for costs, _ in PLAIN if not hasattr(costs, "__next__")] + arrays:
            self.assertEqual(found_by(nushbaret.linear_sum_assignment, costs),
                             found_by(optimize.linear_sum_assignment, costs), repr(costs))

    def test_nothing_of_numpys_comes_through(self):
        """Also where NumPy raises for each fault of floating point."""
        if not np:
            self.skipTest("NumPy isn't there")
        rng = np.random.default_rng(81)
        for size in 2, 5, 40, 70:
            kinds = [rng.random((size, size)), rng.random((size, size)) * 1e-310, rng.random((size, size)) * 1e308,
                     np.full((size, size), 5e-324), np.full((size, size), -1.7e308), np.zeros((size, size)),
                     rng.random((size, size)) * 10.0**rng.integers(-300, 300, (size, size))]
            with np.errstate(all="raise"), warnings.catch_warnings():
                warnings.simplefilter("error")
                for costs in kinds:
                    for form in costs, costs.T, costs.tolist():
                        for maximize in False, True:
                            rows, columns = nushbaret.linear_sum_assignment(form, maximize)
                            self.assertEqual(sorted(map(int, columns)), list(range(size)))
                    result = nushbaret.solve(costs[:9, :9])
                    self.assertTrue(result.verify())
                    self.assertEqual(nushbaret.solve(costs[:9, :9], start=result.prices).cost, result.cost)
                for wrong in np.nan, np.inf, -np.inf:
                    costs = rng.random((size, size))
                    costs[0] = wrong
                    for maximize in False, True:
                        with self.assertRaises(ValueError):
                            nushbaret.linear_sum_assignment(costs, maximize)
                for small in np.float16, np.float32:
                    costs = (rng.random((size, size)) * 6e4).astype(small)
                    nushbaret.linear_sum_assignment(costs)
                    nushbaret.solve(costs[:9, :9], decimals=2)
                    nushbaret.solve(costs[:9, :9])

    def test_without_numpy(self):
        """The same in a process in which nobody has imported NumPy."""
        code = ("import sys\nfrom api import test_scipys_errors as tests\nfor name in [name for name in sys.modules "
                "if name.split('.')[0] in ('numpy', 'scipy', 'pandas')]:\n    del sys.modules[name]\ntests.np = "
                "tests.optimize = None\ntests.Errors('test_plain').debug()\nprint('numpy' in sys.modules)\n")
        paths = os.pathsep.join(map(os.path.abspath, (os.path.dirname(os.path.dirname(nushbaret.__file__)),
                                                      os.path.dirname(os.path.dirname(__file__)))))
        ran = subprocess.run([sys.executable, "-c", code], capture_output=True, text=True, check=True,
                             env={**os.environ, "PYTHONPATH": paths})
        self.assertEqual(ran.stdout, "False\n", ran.stderr)


if __name__ == "__main__":
    unittest.main()
