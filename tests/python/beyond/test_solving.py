"""Plans for costs that nobody holds, compared with the package's own for the whole matrix: drawn problems of ten kinds,
sources of each kind, time, progress and faults."""
import importlib.util
import math
import pathlib
import tempfile
import unittest

from optional import np

import nushbaret

if np:
    from nushbaret import beyond
    from nushbaret.beyond.engines import Here
    from .costs import Points, Products, best, kinds


@unittest.skipUnless(np, "needs NumPy")
class Drawn(unittest.TestCase):
    """Squares and rectangles to 400 rows, of each kind, least and greatest, in blocks."""

    # Shapes, and how many problems of each kind have them.
    SHAPES = (((1, 1), 1), ((1, 6), 1), ((6, 1), 1), ((30, 30), 5), ((25, 40), 3), ((40, 25), 3), ((130, 140), 1),
              ((400, 400), 1))

    def test_each_kind(self):
        random, without, undecided = np.random.default_rng(7), 0, []
        for shape, times in self.SHAPES:
            for turn in range(times):
                for name, costs in kinds(random, *shape):
                    for maximize in ((False, True) if max(shape) < 200 else (False,)):
                        with self.subTest(name=name, shape=shape, maximize=maximize):
                            found = self.compare(costs, maximize)
                            without += found is None
                            undecided += [name] if found and not found.proved else []
        self.assertGreater(without, 5)
        self.assertEqual([name for name in undecided if name != "ties of doubles"], [])

    def compare(self, costs, maximize):
        costs = np.where(np.isinf(costs), -costs, costs) if maximize and costs.dtype.kind == "f" else costs
        wanted = best(costs, maximize)
        if wanted is None:
            with self.assertRaises(nushbaret.Infeasible) as caught:
                beyond.solve(costs, maximize=maximize, block_rows=7)
            self.is_short(costs, caught.exception)
            return None
        found = beyond.solve(costs, maximize=maximize, block_rows=7)
        self.is_plan(costs, found)
        if costs.dtype.kind == "f":
            self.assertAlmostEqual(found.cost, float(wanted), delta=1e-9 * max(1.0, abs(float(wanted))))
        else:
            self.assertEqual((found.cost, found.verdict, found.gap), (wanted, "proved", 0))
        return found

    def is_plan(self, costs, found):
        rows = np.flatnonzero(found.columns >= 0)
        self.assertEqual(len(rows), min(costs.shape))
        self.assertEqual(len(set(found.columns[rows].tolist())), len(rows))
        self.assertAlmostEqual(float(costs[rows, found.columns[rows]].astype(float).sum()), found.cost, delta=1e-6)

    def is_short(self, costs, short):
        """The named rows have finite costs in the named columns only, or the other way."""
        allowed = np.isfinite(costs)
        if len(short.rows) > len(short.columns):
            self.assertFalse(np.delete(allowed[short.rows], short.columns, 1).any())
        else:
            self.assertGreater(len(short.columns), len(short.rows))
            self.assertFalse(np.delete(allowed[:, short.columns], short.rows, 0).any())


@unittest.skipUnless(np, "needs NumPy")
class Sources(unittest.TestCase):
    """Arrays, files and calls of the same costs have the same plan."""

    def test_one_answer(self):
        costs = Points(60, 80)
        whole = costs(0, 60)
        wanted = beyond.solve(whole)
        with tempfile.TemporaryDirectory() as folder:
            path = pathlib.Path(folder, "costs")
            whole.tofile(path)
            np.save(str(path), whole)
            held = np.memmap(path, np.float64, "r", shape=whole.shape)
            sources = {"call": (costs, costs.shape), "memmap": (held, None), "part of a memmap": (held[:, :], None),
                       "columns first": (np.asfortranarray(whole), None),
                       "file": (np.load(f"{path}.npy", mmap_mode="r"), None), "chunks": (Chunks(whole, 16), None)}
            if importlib.util.find_spec("zarr"):
                import zarr
                sources["zarr"] = zarr.open(f"{path}.zarr", "w", shape=whole.shape, chunks=(16, 30), dtype=float), None
                sources["zarr"][0][:] = whole
            for name, (source, shape) in sources.items():
                with self.subTest(name=name):
                    found = beyond.solve(source, shape, block_rows=13)
                    self.assertEqual(found.columns.tolist(), wanted.columns.tolist())
                    self.assertEqual((found.cost, found.verdict), (wanted.cost, "proved"))

    def test_kinds_of_numbers(self):
        whole = Points(20, 20, squared=True)(0, 20) // 10**5
        for dtype in ("int8", "uint8", "int16", "uint32", "uint64", "float16", "float32", "bool"):
            costs = (whole % 100).astype(dtype)
            self.assertEqual(beyond.solve(costs).cost, best(costs), dtype)


class Ending(Here if np else object):
    """This process, whose time is over after so many passes."""

    def __init__(self, passes):
        self.left = passes

    def run(self, task, words, end):
        if self.left == 0:
            raise TimeoutError
        self.left -= 1
        return super().run(task, words, end)


class Chunks:
    """What slices as an array of zarr does."""

    def __init__(self, held, height):
        self.held, self.shape, self.dtype, self.chunks = held, held.shape, held.dtype, (height, held.shape[1])

    def __getitem__(self, places):
        return self.held[places]


@unittest.skipUnless(np, "needs NumPy")
class Passes(unittest.TestCase):
    """How often all pairs are looked at, and what a caller sees of it."""

    def test_structure_needs_few_looks(self):
        # The most arc scans, divided by all pairs, that each kind may take, those of halves among them.
        for costs, most in ((Points(1000, 1000, squared=True), 3.1), (Points(1000, 1000), 6),
                            (Products(1000, 1000), 18), (Points(1000, 1000, clustered=True), 13)):
            found = beyond.solve(costs, costs.shape)
            self.assertTrue(found.proved)
            self.assertLessEqual(found.arc_scans, most)

    def test_progress_and_start(self):
        costs, seen = Points(300, 300, squared=True), []
        found = beyond.solve(costs, costs.shape, progress=lambda *values: seen.append(values))
        self.assertEqual([number for number, _, _ in seen], list(range(2, found.passes + 1)))
        self.assertEqual(sorted(gap for _, gap, _ in seen), [gap for _, gap, _ in seen][::-1])
        self.assertEqual(seen[-1][1:], (0, found.pairs))
        again = beyond.solve(costs, costs.shape, start=found)
        self.assertEqual((again.cost, again.passes, again.verdict), (found.cost, 2, "proved"))

    def test_time(self):
        costs = Points(400, 400)
        wanted = beyond.solve(costs, costs.shape).cost
        with self.assertRaises(TimeoutError) as caught:
            beyond.solve(costs, costs.shape, timeout=0)
        self.assertIsNone(caught.exception.best)

        with self.assertRaises(TimeoutError) as caught:
            beyond.solve(costs, costs.shape, client=Ending(3))
        found = caught.exception.best
        self.assertEqual((found.verdict, found.passes), ("undecided", 3))
        self.assertTrue(0 <= found.cost - wanted <= found.gap < math.inf)
        again = beyond.solve(costs, costs.shape, start=found)
        self.assertEqual((again.cost, again.verdict), (wanted, "proved"))

    def test_costs_that_change(self):
        calls = []

        def changing(first, last):
            calls.append(first)
            return Points(40, 40, squared=True)(first, last) + len(calls)
        with self.assertRaisesRegex(RuntimeError, "changed between two passes"):
            beyond.solve(changing, (40, 40))


@unittest.skipUnless(np, "needs NumPy")
class Refusals(unittest.TestCase):
    """What is refused, and by which text."""

    def refused(self, kind, text, *words, **more):
        with self.assertRaisesRegex(kind, text):
            beyond.solve(*words, **more)

    def test_costs(self):
        self.refused(ValueError, "beyond 10\\*\\*12", np.array([[10**12 + 1]]))
        self.refused(ValueError, "is nan", np.array([[1.0, np.nan]]))
        self.refused(ValueError, "is -inf", np.array([[1.0, -np.inf]]))
        self.refused(TypeError, "must be whole numbers or doubles", np.array([["a"]]))
        self.refused(ValueError, "dimensions", np.zeros(3))
        self.refused(ValueError, "0 rows", np.zeros((0, 3)))
        self.refused(ValueError, "needs its shape", lambda first, last: np.zeros((1, 1)))
        self.refused(ValueError, "have the shape", lambda first, last: np.zeros((1, 1)), (2, 2))
        self.refused(TypeError, "they must be an array", [[1, 2]])
        self.refused(TypeError, "those of the first row",
                     lambda first, last: np.zeros((last - first, 2), int if first else float), (2, 2), block_rows=1)

    def test_words(self):
        costs = np.zeros((2, 2))
        self.refused(ValueError, "timeout", costs, timeout=-1)
        self.refused(ValueError, "block_rows", costs, block_rows=0)
        self.refused(TypeError, "progress", costs, progress=3)
        self.refused(TypeError, "client", costs, client=3)
        self.refused(ValueError, "prices must be 2", costs, start=[1])


if __name__ == "__main__":
    unittest.main()
