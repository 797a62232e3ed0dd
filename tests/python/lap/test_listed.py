"""Sparse matrices and listed pairs by the extension: the answers of the longer way, in exact numbers."""
import unittest
from fractions import Fraction
from unittest import mock

import nushbaret
from nushbaret.lap import direct
from optional import np, pydata, sparse
from ways import extension

KINDS = {"whole": lambda rng, shape: rng.integers(-20, 50, shape), "doubles": lambda rng, shape: rng.random(shape),
         "hundredths": lambda rng, shape: rng.integers(0, 300, shape) / 100,
         "float32": lambda rng, shape: rng.random(shape).astype(np.float32),
         "ties": lambda rng, shape: rng.integers(0, 3, shape) / 3,
         "int8": lambda rng, shape: rng.integers(-9, 9, shape).astype(np.int8),
         "great": lambda rng, shape: rng.random(shape) * 10.0**rng.integers(-5, 12),
         "near": lambda rng, shape: 1 + rng.random(shape) * 1e-12}


class OfPydata:
    """An array of pydata's, as far as it is read."""

    def __init__(self, matrix, fill_value=0):
        entries = matrix.tocoo()
        self.coords, self.data, self.shape = np.array([entries.row, entries.col]), entries.data, entries.shape
        self.fill_value, self.nnz = self.data.dtype.type(fill_value), entries.nnz


@unittest.skipUnless(np and sparse and extension(), "NumPy, SciPy or the extension isn't there")
class Listed(unittest.TestCase):
    def forms(self, rng, entries):
        """A sparse matrix in each form, as arguments of solve_sparse."""
        order = rng.permutation(entries.nnz)
        lists = entries.row[order], entries.col[order], entries.data[order]
        wide = sparse.csr_matrix(entries)
        wide.indices, wide.indptr = wide.indices.astype(np.int64), wide.indptr.astype(np.int64)
        own = [pydata.COO.from_scipy_sparse(entries), pydata.GCXS.from_scipy_sparse(entries)] if pydata else []
        return [(entries,), (entries.tocsr(),), (entries.tocsc(),), (sparse.csr_array(entries),), (wide,),
                (OfPydata(entries),), (*map(int, entries.shape), *lists), *((one,) for one in own)]

    def said(self, words, maximize, is_short):
        """The result, or why there is none."""
        with mock.patch.object(direct, "found_listed", direct.found_listed if is_short else lambda *_: None):
            try:
                return nushbaret.solve_sparse(*words, maximize=maximize)
            except nushbaret.Infeasible as short:
                return str(short)

    def test_beside_the_longer_way(self):
        rng, taken = np.random.default_rng(5), dict.fromkeys(KINDS, 0)
        for number in range(120):
            kind, shape = sorted(KINDS)[number % len(KINDS)], tuple(rng.integers(1, 12, 2))
            costs, maximize = KINDS[kind](rng, shape), bool(rng.random() < 0.4)
            allowed = rng.random(shape) < rng.choice([0.3, 0.6, 1])
            np.fill_diagonal(allowed, rng.random() < 0.9)
            rows, columns = np.nonzero(allowed)
            forms = self.forms(rng, sparse.coo_matrix((costs[rows, columns], (rows, columns)), shape))
            words = forms[number % len(forms)]
            found, wanted = (self.said(words, maximize, is_short) for is_short in (True, False))
            with self.subTest(number=number, kind=kind, costs=costs):
                if isinstance(wanted, str):
                    self.assertEqual(found, wanted)
                    continue
                self.assertEqual((found.cost, type(found.cost)), (wanted.cost, type(wanted.cost)))
                pairs = list(zip(found.rows.tolist(), found.columns.tolist()))
                self.assertEqual(sum(Fraction(str(costs[pair])) for pair in pairs), Fraction(found.cost))
                self.assertEqual(sorted(pairs), pairs)
                self.assertTrue(found.verify() and len({column for _, column in pairs}) == min(shape))
                listed = words if len(words) > 1 else (*words, *[None] * 4)
                taken[kind] += direct.found_listed(listed, maximize) is not None
        self.assertTrue(all(taken[kind] for kind in KINDS if kind not in ("ties", "near")), taken)

    def test_larger_ones(self):
        """Squares and rectangles of up to 60 rows, whose first plans take bids and paths, cost what dense ones do."""
        rng = np.random.default_rng(6)
        for number in range(60):
            shape = tuple(rng.integers(20, 60, 2)) if number % 2 else (int(rng.integers(20, 60)),) * 2
            greatest = int(rng.choice([2, 5, 100, 10**6, 10**12]))
            costs = rng.integers(-greatest, greatest, shape)
            allowed = rng.random(shape) < rng.choice([0.1, 0.2, 0.5])
            np.fill_diagonal(allowed, True)
            if shape[0] == shape[1]:
                allowed = allowed[:, rng.permutation(shape[1])]
            listed = sparse.coo_matrix((costs[allowed], np.nonzero(allowed)), shape).tocsr()
            maximize = bool(number // 2 % 2)
            found = nushbaret.solve_sparse(listed, maximize=maximize)
            wanted = nushbaret.solve(np.where(allowed, costs.astype(object), None), maximize).cost
            with self.subTest(number=number, shape=shape, greatest=greatest):
                self.assertEqual((found.cost, costs[found.rows, found.columns].sum()), (wanted, wanted))
                self.assertTrue(allowed[found.rows, found.columns].all() and found.verify())
                self.assertIsNotNone(direct.found_listed((listed, *[None] * 4), maximize))

    def test_what_is_left_to_the_longer_way(self):
        twice = sparse.coo_matrix(([1, 2, 3], ([0, 0, 1], [0, 0, 1])), (2, 2))
        for words, cost in (((twice,), 6), ((OfPydata(twice, 7),), None), ((twice.tocsr() * 1j,), None),
                            ((2, 2, np.array([0, 0, 1]), np.array([0, 0, 1]), np.array([1, 2, 3])), 4),
                            ((2, 2, np.array([0, 2]), np.array([0, 1]), np.array([1, 2])), None),
                            ((2, 2, np.array([0, 1]), np.array([0, -1]), np.array([1, 2])), None),
                            ((2, 2, np.array([0, 1]), np.array([0, 1]), np.array([1, np.inf])), None),
                            ((2, 2, np.array([0, 1]), np.array([0, 1]), np.array([1, np.nan])), None),
                            ((2, 2, np.array([0, 1]), np.array([0, 1, 1]), np.array([1, 2])), None)):
            listed = words if len(words) > 1 else (*words, *[None] * 4)
            self.assertIs(direct.found_listed(listed, False), None, words)
            if cost is not None:
                self.assertEqual(nushbaret.solve_sparse(*words).cost, cost)
            else:
                with self.assertRaises((ValueError, TypeError)):
                    nushbaret.solve_sparse(*words)

    def test_masks(self):
        masked = np.ma.array([1, 2, 3], mask=[0, 0, 1])
        words = 2, 2, np.array([0, 1, 1]), np.array([0, 0, 1]), masked
        with self.assertRaisesRegex(ValueError, "masked"):
            nushbaret.solve_sparse(*words)
        with self.assertRaises(nushbaret.Infeasible):
            nushbaret.solve_sparse(*words, missing="forbid")

    def test_wrong_beginnings(self):
        """Rows that don't begin where they may are left."""
        data, indices = np.array([1.0, 2]), np.array([0, 1])
        for begins in ([0, 1], [0, 2, 1], [1, 1, 2], [0, 1, 3], [0, 1, 2, 2], [0, -1, 2]):
            self.assertIs(extension().listed(2, 2, np.array(begins), indices, data, 1, False, 1e300), None)
        self.assertIsNot(extension().listed(2, 2, np.array([0, 1, 2]), indices, data, 1, False, 1e300), None)

    def test_time(self):
        costs = sparse.csr_matrix(np.arange(1, 701)[:, None] * np.arange(1, 701))
        for form in (costs, costs.tocsc() * 0.37):
            with self.assertRaisesRegex(TimeoutError, "the time is over"):
                nushbaret.solve_sparse(form, timeout=1e-4)
        self.assertEqual(len(nushbaret.solve_sparse(costs[:50, :50], timeout=1e4).rows), 50)


if __name__ == "__main__":
    unittest.main()
