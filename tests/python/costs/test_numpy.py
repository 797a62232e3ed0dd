"""Costs in NumPy's arrays: kinds, layouts, what comes back; and, where SciPy is there, drawn problems compared with its
solver."""
import unittest
import warnings
from decimal import Decimal

import nushbaret
from at_once import in_eight_threads
from optional import np, optimize, pd, sparse


@unittest.skipUnless(np, "NumPy isn't there")
class Arrays(unittest.TestCase):
    def test_kinds(self):
        whole = [[4, 1, 3], [2, 0, 5], [3, 2, 2]]
        kinds = ["bool", "int8", "uint8", "int16", "uint16", "int32", "uint32", "int64", "uint64", "float16", "float32",
                 "float64", "longdouble", "object", ">i4", ">f8"]
        for kind in kinds:
            costs = np.array(whole).astype(kind)
            wanted = 2 if kind == "bool" else 5
            for form in costs, np.asfortranarray(costs), costs.T.copy().T, np.repeat(np.repeat(costs, 2, 0), 2, 1)[::2,
                                                                                                                   ::2]:
                form.flags.writeable = False
                result = nushbaret.solve(form)
                self.assertEqual(result.cost, wanted, kind)
                self.assertEqual((result.rows.dtype, result.columns.dtype), (np.intp, np.intp))
                self.assertTrue(result.verify(form))

    def test_squares_of_either_way(self):
        """SciPy's call goes a shorter way where a square array holds whole numbers of 64 bits: it finds what `solve`
        does."""
        rng = np.random.default_rng(11)
        for size in 1, 2, 8, 31, 33, 100:
            costs = rng.integers(-10**12, 10**12 + 1, (size, size))
            for form in (costs, costs.astype(float), np.asfortranarray(costs), costs.astype(">f8"),
                         costs.astype(np.longlong)):
                for maximize in False, True:
                    form.flags.writeable = False
                    rows, columns = nushbaret.linear_sum_assignment(form, maximize)
                    result = nushbaret.solve(form, maximize)
                    self.assertEqual((rows.tolist(), columns.tolist()), (result.rows.tolist(), result.columns.tolist()))
                    self.assertEqual((rows.dtype, columns.dtype), (np.intp, np.intp))
                    rows[:], columns[:] = 7, 7
        self.assertEqual([part.tolist() for part in nushbaret.linear_sum_assignment(np.eye(2))], [[0, 1], [1, 0]])

    def test_rectangles_of_either_way(self):
        rng = np.random.default_rng(12)
        for shape in (1, 7), (7, 1), (5, 40), (40, 5), (30, 80), (80, 30):
            costs = rng.integers(-10**6, 10**6, shape)
            for form in (costs, costs / 8, costs.astype(float), np.asfortranarray(costs), np.asfortranarray(costs / 8),
                         costs[::-1, ::-1] / 8):
                for maximize in False, True:
                    rows, columns = nushbaret.linear_sum_assignment(form, maximize)
                    result = nushbaret.solve(form, maximize)
                    self.assertEqual((rows.tolist(), len(set(columns.tolist()))), (sorted(rows.tolist()), min(shape)))
                    self.assertEqual(form[rows, columns].sum(), float(result.cost))
                    self.assertTrue(result.verify(form))

    def test_eight_threads(self):
        """Calls of one size at a time, each with an answer of its own."""
        rng = np.random.default_rng(13)
        problems = [rng.integers(0, 1000, (6, 9)) / kind for _ in range(50) for kind in (1, 8)]
        wanted = [nushbaret.linear_sum_assignment(costs)[1].tolist() for costs in problems]
        wrong = []

        def work():
            for _ in range(5):
                found = [nushbaret.linear_sum_assignment(costs) for costs in problems]
                if [columns.tolist() for _, columns in found] != wanted or any(rows.tolist() != list(range(6))
                                                                               for rows, _ in found):
                    wrong.append(True)

        in_eight_threads(work)
        self.assertFalse(wrong)

    def test_what_is_not_whole_goes_the_longer_way(self):
        for wrong, words in (-np.inf, "contains invalid numeric entries"), (np.nan, "nan at row 1, column 0: None or "
                                                                            "an infinite"):
            with self.assertRaisesRegex(ValueError, words):
                nushbaret.linear_sum_assignment(np.array([[1.0, 2.0], [wrong, 4.0]]))
        for kept, wanted in ((10**12 + 1, [1, 0]), (1e300, [1, 0]), (5e-324, [0, 1]), (1 / 3, [0, 1]), (np.inf, [1, 0]),
                             (2.5, [1, 0]), (0.5, [0, 1]), (-0.0, [0, 1])):
            columns = nushbaret.linear_sum_assignment(np.array([[kept, -0.0], [2.0, 1.0]]))[1]
            self.assertEqual(columns.tolist(), wanted)

    def test_arrays_at_odd_places(self):
        for size in 3, 40:
            room = np.zeros(8 * size * size + 1, np.uint8)
            for kind in np.int64, np.float64:
                costs = room[1:].view(kind).reshape(size, size)
                costs[:] = np.eye(size)
                self.assertFalse(costs.flags.aligned)
                self.assertEqual(nushbaret.solve(costs).cost, 0)
                self.assertEqual(costs[nushbaret.linear_sum_assignment(costs, True)].sum(), size)

    def test_floats(self):
        self.assertEqual(nushbaret.solve(np.array([[0.1]], np.float32)).cost, Decimal("0.1"))
        self.assertEqual(nushbaret.solve(np.array([[16777.1, 9], [9, 0.123456]], np.float32), True).cost,
                         Decimal("16777.223456"))
        self.assertEqual(nushbaret.solve(np.array([[123456.789012]])).cost, Decimal("123456.789012"))
        self.assertEqual(nushbaret.solve(np.array([[1.0, 0.1 + 0.2]])).cost, Decimal("0.30000000000000004"))
        self.assertEqual(nushbaret.solve(np.array([[1 / 3, 5e-324]], np.float32)).cost, 0)
        self.assertEqual(nushbaret.solve(np.array([[0.1 + 0.2]]), decimals=6).cost, Decimal("0.3"))
        for value, wanted in (2.675, "2.68"), (2.665, "2.66"), (-2.675, "-2.68"), (0.005, "0"), (0.015, "0.02"):
            self.assertEqual(nushbaret.solve(np.array([[value]]), decimals=2).cost, Decimal(wanted), value)

    def test_lists_and_arrays_are_read_alike(self):
        rng = np.random.default_rng(8)
        for _ in range(500):
            values = np.round(rng.normal(0, 10.0**rng.integers(0, 6), (2, 3)), int(rng.integers(0, 8)))
            for decimals in None, 0, 2, 6, 9:
                answers = []
                for costs in values, values.tolist():
                    try:
                        result = nushbaret.solve(costs, decimals=decimals)
                        answers.append((result.cost, str(result.cost), result.columns[0]))
                    except ValueError as fault:
                        answers.append(str(fault))
                self.assertEqual(*answers)

    def test_refusals(self):
        for costs, kind, words in ((np.zeros(3), ValueError, "expected a matrix"),
                                   (np.eye(2).astype(str), TypeError, "Cannot cast array data"),
                                   (np.array([[1, np.nan]]), ValueError, "nan at row 0, column 1"),
                                   (np.array([[1, -np.inf]]), ValueError, "contains invalid numeric entries"),
                                   (np.zeros((4194305, 1)), ValueError, "4194305 rows"),
                                   (np.zeros((1, 1), complex), TypeError, "Cannot cast")):
            with self.assertRaisesRegex(kind, words):
                nushbaret.solve(costs)
        with self.assertRaises(nushbaret.Infeasible) as caught:
            nushbaret.solve(np.array([[1, np.inf], [2, np.inf]]))
        self.assertEqual([tuple(side.tolist() for side in group) for group in caught.exception.groups], [([0, 1], [0])])
        with self.assertRaisesRegex(ValueError, r"rows\[1\] is 2"):
            nushbaret.solve_sparse(2, 2, np.array([0, 2]), np.array([0, 1]), np.array([1, 1]))

    def test_results(self):
        costs = np.array([[1, 2, np.inf], [3, 5, 4], [1, np.inf, np.inf]])
        result = nushbaret.solve(costs)
        self.assertEqual((result.cost, bool(result.verify(costs))), (7, True))
        with self.assertRaises(nushbaret.Infeasible):
            result.without(2, 0)
        costs = np.array([[1, 2], [3, 5]])
        self.assertEqual(nushbaret.solve(costs).without(0, 1).cost, 6)
        self.assertEqual(nushbaret.compare(costs, np.array([0, 1])).worse, 1)
        fullest = nushbaret.solve(np.array([[1, np.inf], [2, np.inf]]), partial=True)
        self.assertEqual((fullest.cost, fullest.unmatched_rows.tolist(), fullest.unmatched_columns.tolist()),
                         (1, [1], [1]))


@unittest.skipUnless(np, "NumPy isn't there")
class InLists(unittest.TestCase):
    """Rows and numbers of NumPy's in lists of Python's."""

    def refused(self, kind, words, call, *given, **named):
        with warnings.catch_warnings(), self.assertRaisesRegex(kind, words):
            warnings.simplefilter("error")
            call(*given, **named)

    def test_rows(self):
        for kind in "?", "i1", "u8", "f2", "f4", ">f4", "f8", ">i2", "g", "O":
            rows = list(np.array([[4, 1, 3], [2, 0, 5], [3, 2, 2]]).astype(kind))
            self.assertEqual(nushbaret.solve(rows).cost, 2 if kind == "?" else 5, kind)
            rows[0] = rows[0] / 10 if kind != "?" else rows[0]
            result = nushbaret.solve(rows)
            self.assertEqual((result.cost, result.rows.tolist()), (2 if kind == "?" else Decimal("2.4"), [0, 1, 2]),
                             kind)
            self.assertEqual(nushbaret.linear_sum_assignment(rows)[0].tolist(), [0, 1, 2])
        self.assertEqual(nushbaret.solve([np.array([2**64 - 1, 2**63], np.uint64)]).cost, 2**63)

    def test_masked_rows(self):
        for kind in "f8", "f4", "f2", "i8", "u1", "?", "O", "g":
            masked = np.ma.array([1, 0, 1], mask=[0, 1, 0]).astype(kind)
            rows = [masked, [2, 0, 5], [3, 2, 2]]
            for call in nushbaret.solve, nushbaret.linear_sum_assignment, nushbaret.bottleneck:
                self.refused(ValueError, r"-- \(masked\) at row 0, column 1$", call, rows)
            self.refused(ValueError, r"-- \(masked\) at costs\[1\] \(row 0, column 1\)$", nushbaret.solve_sparse, 1, 3,
                         [0, 0, 0], [0, 1, 2], list(masked))
            self.assertEqual(nushbaret.solve(rows, missing="forbid").columns.tolist(), [0, 1, 2])
            self.assertEqual(list(nushbaret.linear_sum_assignment(rows, missing="forbid")[1]), [0, 1, 2])

    def test_numbers(self):
        for number, cost in ((np.array(0.25), "0.25"), (np.array(0.1, "f4"), "0.1"), (np.array(0.1, object), "0.1"),
                             (np.array(7), "7"), (np.bool_(True), "1"), (np.uint64(2**64 - 1), str(2**64 - 1))):
            self.assertEqual(nushbaret.solve([[number]]).cost, Decimal(cost))
        no_number = r"row 0, column 1 is .*, which is no number"
        for wrong in (np.timedelta64(3, "ns"), np.timedelta64(3, "D"), np.datetime64(3, "ns"), np.complex64(1 + 2j),
                      np.void(b"a"), np.zeros(1), np.zeros(3), np.zeros((2, 2)), [1]):
            self.refused(TypeError, no_number, nushbaret.solve, [[1, wrong], [2, 3]])
        # SciPy's call drops what is imaginary, with a warning.
        self.refused(TypeError, no_number, nushbaret.linear_sum_assignment, [[1, np.complex64(1 + 2j)], [2, 3]])

    def test_no_rows(self):
        two = np.eye(2)
        for wrong in [two, two], [np.array(5), np.array(6)], [two, [1, 2]]:
            for call in nushbaret.solve, nushbaret.linear_sum_assignment:
                self.refused(ValueError, r"expected a matrix \(2-D array\)", call, wrong)
        if pd:
            # Each has its columns' labels when it is gone through, and these are no costs.
            frame = pd.DataFrame([[5, 6], [7, 8]])
            for call in nushbaret.solve, nushbaret.linear_sum_assignment:
                self.refused(ValueError, r"expected a matrix \(2-D array\)", call, [frame, frame])


@unittest.skipUnless(optimize, "SciPy isn't there")
class BesideScipy(unittest.TestCase):
    def test_drawn(self):
        rng = np.random.default_rng(9)
        for _ in range(500):
            shape = tuple(int(side) for side in rng.integers(1, 30, 2))
            span, maximize = int(rng.choice([1, 9, 1000, 10**12])), bool(rng.integers(2))
            costs = rng.integers(-span, span + 1, shape)
            wanted = costs[optimize.linear_sum_assignment(costs, maximize)].sum()
            result = nushbaret.solve(costs, maximize)
            self.assertEqual((result.cost, costs[result.rows, result.columns].sum()), (wanted, wanted))
            self.assertTrue(result.verify(costs))
            rows, columns = nushbaret.linear_sum_assignment(costs.astype(float), maximize)
            self.assertEqual(costs[rows, columns].sum(), wanted)

    def test_sparse(self):
        rng, found = np.random.default_rng(10), 0
        for _ in range(500):
            shape = tuple(int(side) for side in rng.integers(1, 20, 2))
            full = np.where(rng.random(shape) < rng.choice([0.2, 0.5]), rng.integers(1, 1000, shape) / 4, np.inf)
            try:
                wanted = full[optimize.linear_sum_assignment(full)].sum()
            except ValueError:
                wanted = None
            matrix = sparse.coo_matrix(np.where(np.isinf(full), 0, full))
            for form in matrix, matrix.tocsr(), matrix.tocsc():
                try:
                    result = nushbaret.solve_sparse(form)
                    self.assertEqual(float(result.cost), wanted)
                    self.assertTrue(result.verify(form))
                    found += 1
                except nushbaret.Infeasible as fault:
                    self.assertIsNone(wanted)
                    self.assertNotEqual(len(fault.rows), len(fault.columns))
        self.assertGreater(found, 300)
        twice = sparse.coo_matrix(([3, 4, 5], ([0, 0, 1], [1, 1, 0])), (2, 2))
        for form in twice, twice.tocsr():
            self.assertEqual(nushbaret.solve_sparse(form).cost, 12)
        self.assertEqual((twice.nnz, twice.data.tolist()), (3, [3, 4, 5]))

    def test_blocks_and_diagonals(self):
        """A 0 in a stored block or on a diagonal may be a cost, or fill where there is no pair."""
        blocks = sparse.csr_matrix(np.array([[1, 2, 0, 0], [3, 5, 0, 0], [0, 0, 4, 7], [0, 0, 6, 0]])).tobsr((2, 2))
        with self.assertRaisesRegex(ValueError, "has 0 at row 3, column 3, which may be a cost, or no pair .* bsr"):
            nushbaret.solve(blocks)
        self.assertEqual(nushbaret.solve(blocks + sparse.eye(4).tobsr((2, 2))).cost, 5 + 6)
        without = blocks.tocsr()
        without.eliminate_zeros()
        self.assertEqual(nushbaret.solve(without).cost, 5 + 13)
        full = np.array([[2, 1, 0, 0], [3, 4, 1, 0], [0, 5, 2, 6]])
        for form in full, full[:, :3], full.T:
            matrix = sparse.dia_matrix(form)
            self.assertEqual(nushbaret.solve(matrix).cost, nushbaret.solve(matrix.tocsr()).cost)
        for data, offset, row, column in ([0, 1, 2], 0, 0, 0), ([9, 1, 0], 1, 1, 2), ([1, 0, 9], -1, 2, 1):
            matrix = sparse.dia_matrix(([data], [offset]), (3, 3))
            for call in nushbaret.solve, nushbaret.solve_sparse, nushbaret.bottleneck:
                with self.assertRaisesRegex(ValueError, f"has 0 at row {row}, column {column}, which may be .* dia fi"):
                    call(matrix)
        # What is beyond the matrix counts for nothing.
        self.assertEqual(nushbaret.solve(sparse.dia_matrix(([[3, 1, 0]], [0]), (2, 2))).cost, 4)
        self.assertEqual(nushbaret.solve(sparse.dia_matrix(([[0, 1, 2]], [1]), (2, 3))).cost, 3)


if __name__ == "__main__":
    unittest.main()
