"""Listed pairs in partitions, compared with the package's own answer for all of them: numbers and names, rows that stay
out, files, frames, and a file greater than the memory."""
import os
import pathlib
import subprocess
import sys
import tempfile
import unittest
from unittest import mock

from optional import np, pd

import nushbaret

if np:
    from nushbaret import beyond
    from nushbaret.beyond import frames


def parts_of(random, lists, count):
    """The same pairs, in any order, in partitions."""
    order = random.permutation(len(lists[0]))
    return [(lambda some=some: tuple(values[some] for values in lists)) for some in np.array_split(order, count)]


@unittest.skipUnless(np, "needs NumPy")
class Drawn(unittest.TestCase):
    """Pairs of up to 60 rows, a row's pairs in several partitions, which are read in several pieces."""

    def setUp(self):
        held = mock.patch.object(frames, "PAIRS", 40)
        held.start()
        self.addCleanup(held.stop)

    def test_all_ways(self):
        random, short = np.random.default_rng(11), 0
        for turn in range(40):
            n, m = random.integers(1, 60, 2)
            costs = random.integers(0, 30, (n, m)).astype(float) if turn % 2 else random.random((n, m))
            rows, columns = (random.random((n, m)) < random.choice([0.1, 0.4, 0.9])).nonzero()
            if not len(rows):
                continue
            lists, maximize = (rows, columns, costs[rows, columns]), bool(turn % 3 == 0)
            parts = parts_of(random, lists, 3)
            short += self.whole(parts, lists, (n, m), maximize) is None
            self.partial(parts, lists, (n, m), maximize)
            self.by_cost(parts, lists, (n, m), maximize)
        self.assertGreater(short, 5)

    def whole(self, parts, lists, shape, maximize):
        try:
            wanted = nushbaret.solve_sparse(*shape, *lists, maximize=maximize)
        except nushbaret.Infeasible:
            with self.assertRaises(nushbaret.Infeasible):
                beyond.solve_pairs(parts, shape, maximize=maximize)
            return None
        found = beyond.solve_pairs(parts, shape, maximize=maximize)
        self.assertAlmostEqual(found.cost, float(wanted.cost), places=9)
        self.assertTrue(found.proved)
        return found

    def partial(self, parts, lists, shape, maximize):
        wanted = nushbaret.solve_sparse(*shape, *lists, maximize=maximize, partial=True)
        found = beyond.solve_pairs(parts, shape, maximize=maximize, partial=True)
        self.assertEqual(int((found.columns >= 0).sum()), len(wanted.pairs))
        self.assertAlmostEqual(found.cost, float(wanted.cost), places=7)

    def by_cost(self, parts, lists, shape, maximize):
        n, m = shape
        rows, columns, costs = lists
        every = np.arange(n)
        sign = -1 if maximize else 1
        wanted = nushbaret.solve_sparse(n, m + n, np.concatenate([rows, every]), np.concatenate([columns, m + every]),
                                        np.concatenate([sign * costs, np.full(n, 0.5)]))
        found = beyond.solve_pairs(parts, shape, maximize=maximize, unmatched_cost=0.5)
        self.assertAlmostEqual(found.cost, sign * float(wanted.cost), places=9)
        self.assertTrue(found.proved)

    def test_pairs_given_twice(self):
        found = beyond.solve_pairs([lambda: ([0, 1, 0], [0, 1, 0], [5, 1, 3]), lambda: ([0], [0], [4])], (2, 2))
        self.assertEqual((found.columns.tolist(), found.cost), ([0, 1], 4.0))


@unittest.skipUnless(np, "needs NumPy")
class Files(unittest.TestCase):
    """CSV and .npy files, names, frames, and what is wrong with them."""

    def in_folder(self, texts):
        held = tempfile.TemporaryDirectory()
        self.addCleanup(held.cleanup)
        folder = held.name
        for name, text in texts.items():
            pathlib.Path(folder, name).write_text(text, encoding="utf-8")
        return [str(pathlib.Path(folder, name)) for name in texts]

    def test_names(self):
        files = self.in_folder({"a.csv": "nurse,shift,cost\nBen,late,2\nAda,early,1.5\n",
                                "b.csv": "Ada,late,0.5\nBen,early,4\n"})
        found = beyond.solve_pairs(files)
        self.assertEqual(found.labels, (["Ada", "Ben"], ["early", "late"]))
        self.assertEqual((found.columns.tolist(), found.cost), ([0, 1], 3.5))
        found = beyond.solve_pairs(files, labels=(["Ben", "Ada"], ["late", "early", "night"]))
        self.assertEqual(found.columns.tolist(), [0, 1])

    def test_numbers(self):
        files = self.in_folder({"a.csv": "0,0,4\n0,1,1\n1,0,2\n"})
        np.save(files[0].replace(".csv", ".npy"), np.array([[0, 0, 4.0], [0, 1, 1], [1, 0, 2]]))
        for name in (files[0], files[0].replace(".csv", ".npy")):
            self.assertEqual(beyond.solve_pairs([name], (2, 2)).columns.tolist(), [1, 0])

    @unittest.skipUnless(pd, "needs pandas")
    def test_frames(self):
        frame = pd.DataFrame({"row": ["a", "a", "b"], "column": ["x", "y", "x"], "cost": [4, 1, 2]})
        found = beyond.solve_pairs([lambda: frame[:2], lambda: frame[2:]])
        self.assertEqual((found.columns.tolist(), found.labels), ([1, 0], (["a", "b"], ["x", "y"])))
        for frames_of_it in (frame, [frame[:1], frame[1:]]):
            self.assertEqual(beyond.solve_pairs(frames_of_it).columns.tolist(), [1, 0])

    def test_what_is_wrong(self):
        files = self.in_folder({"a.csv": "0,0,4\n0,1\n", "b.csv": "0,0,nan\n", "c.csv": "0,7,1\n", "d.csv": "x,0,1\n"})
        for name, text in zip(files, ("line 2", "no number", "the column 7, and there are 2", "no whole number")):
            with self.assertRaisesRegex(ValueError, text):
                beyond.solve_pairs([name], (2, 2))
        with self.assertRaisesRegex(ValueError, "isn't named"):
            beyond.solve_pairs([files[2]], labels=(["0"], ["0"]))
        with self.assertRaisesRegex(ValueError, "named twice"):
            beyond.solve_pairs([files[2]], labels=([0, 0], [7]))
        for words, more in ((([],), {}), (([files[0]], (2, 2)), {"partial": True, "unmatched_cost": 1}),
                            (([files[0]], (2, 2)), {"unmatched_cost": float("inf")})):
            with self.assertRaises(ValueError):
                beyond.solve_pairs(*words, **more)
        with self.assertRaises(TypeError):
            beyond.solve_pairs(["pairs.txt"], (2, 2))

    @unittest.skipUnless(sys.platform == "linux", "limits memory as Linux does")
    def test_a_file_greater_than_the_memory(self):
        """A file of 120 MB, in a process that has 100 MB of addresses left."""
        with tempfile.TemporaryDirectory() as folder:
            path = pathlib.Path(folder, "pairs.npy")
            write_pairs(path, 2000, 5 * 10**6)
            paths = {"OPENBLAS_NUM_THREADS": "1", "PYTHONPATH": os.pathsep.join(sys.path)}
            ran = subprocess.run([sys.executable, "-m", "beyond.test_pairs", str(path), "2000"], capture_output=True,
                                 text=True, cwd=pathlib.Path(__file__).resolve().parents[1],
                                 env={**os.environ, **paths})
            self.assertEqual((ran.returncode, ran.stderr[-400:]), (0, ""))
            self.assertIn("proved", ran.stdout)


def write_pairs(path, n, count):
    """Writes drawn pairs, each row's own among them, by parts."""
    kind = np.dtype([("row", "<i8"), ("column", "<i8"), ("cost", "<f8")])
    held = np.lib.format.open_memmap(path, "w+", kind, (count,))
    random = np.random.default_rng(12)
    for first in range(0, count, 2**18):
        part = held[first:first + 2**18]
        part["row"], part["column"] = random.integers(0, n, (2, len(part)))
        part["cost"] = random.integers(1, 10**6, len(part))
    held["row"][:n], held["column"][:n], held["cost"][:n] = np.arange(n), np.arange(n), 10**6


def within_memory(path, n):
    """Solves a file's pairs with few addresses left."""
    import resource
    limit = int(pathlib.Path("/proc/self/statm").read_text().split()[0]) * os.sysconf("SC_PAGE_SIZE") + 2**20 * 100
    resource.setrlimit(resource.RLIMIT_AS, (limit, limit))
    print(beyond.solve_pairs([path], (n, n)))


if __name__ == "__main__":
    if sys.argv[2:]:
        within_memory(sys.argv[1], int(sys.argv[2]))
    else:
        unittest.main()
