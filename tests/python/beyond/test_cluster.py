"""Blocks on the workers of Dask: the same bytes as in this process, also where a worker is killed in a pass; with a
scheduler and workers as processes of their own; and an engine of somebody else's."""
import importlib
import importlib.util
import os
import pathlib
import shutil
import signal
import subprocess
import sys
import tempfile
import threading
import time
import unittest
import warnings

from optional import np, pd

import nushbaret

if np:
    from nushbaret import beyond
    from .costs import Points

DASK = bool(np) and importlib.util.find_spec("distributed") is not None
HERE = pathlib.Path(__file__).resolve()
# Workers import the package and these tests.
PATHS = os.pathsep.join([str(HERE.parents[3] / "python"), str(HERE.parents[1])])


def same(one, other):
    """Whether two answers are the same bytes."""
    are_same = all(np.asarray(a).tobytes() == np.asarray(b).tobytes() for a, b in zip(one[:4], other[:4]))
    return are_same and one.passes == other.passes


def on_worker():
    """What a worker does first: it loads the package, so that a kill comes in a pass."""
    importlib.import_module("nushbaret.beyond.tasks")


@unittest.skipUnless(np, "needs NumPy")
class OwnEngine(unittest.TestCase):
    """An engine that shuffles tasks, runs some twice, and sends copies."""

    class Shuffled:
        def share(self, value):
            import pickle
            return pickle.loads(pickle.dumps(value))

        def run(self, task, words, end):
            for place in np.random.default_rng(1).permutation(len(words)).tolist():
                task(*words[place])
                yield task(*words[place])

    def test_any_order(self):
        costs = Points(90, 70)
        wanted = beyond.solve(costs, costs.shape, block_rows=8)
        self.assertTrue(same(beyond.solve(costs, costs.shape, self.Shuffled(), block_rows=8), wanted))


@unittest.skipUnless(DASK, "needs distributed")
class Local(unittest.TestCase):
    """A cluster of this machine's processes."""

    @classmethod
    def setUpClass(cls):
        os.environ["PYTHONPATH"], cls.before = PATHS, os.environ.get("PYTHONPATH")
        import dask
        from distributed import Client, LocalCluster
        warnings.simplefilter("ignore")
        cls.settings = dask.config.set({"distributed.admin.tick.limit": "1h", "logging.distributed": "critical",
                                        "distributed.comm.retry.count": 3})
        cls.settings.__enter__()
        cls.cluster = LocalCluster(n_workers=2, threads_per_worker=1, dashboard_address=None, silence_logs=60)
        cls.client = Client(cls.cluster)
        cls.client.run(on_worker)

    @classmethod
    def tearDownClass(cls):
        cls.client.close()
        cls.cluster.close()
        cls.settings.__exit__(None, None, None)
        os.environ["PYTHONPATH"] = cls.before or ""

    def test_same_bytes(self):
        for costs in (Points(300, 300, squared=True), Points(200, 260), Points(120, 90)):
            wanted = beyond.solve(costs, costs.shape, block_rows=40)
            self.assertTrue(same(beyond.solve(costs, costs.shape, self.client, block_rows=40), wanted))
        words = costs, wanted.columns, wanted.prices, self.client
        self.assertTrue(beyond.check(*words, shape=costs.shape, block_rows=40))

    def test_collections_of_dask(self):
        import dask.array
        costs = Points(150, 150)
        held, wanted = costs(0, 150), beyond.solve(costs, costs.shape)
        array = dask.array.from_array(held, chunks=(40, 60))
        for client in (None, self.client):
            self.assertEqual(beyond.solve(array, client=client).columns.tolist(), wanted.columns.tolist())
        if pd:
            import dask.dataframe
            rows, columns = np.divmod(np.arange(150 * 150), 150)
            pairs = pd.DataFrame({"row": rows, "column": columns, "cost": held.ravel()})
            frame = dask.dataframe.from_pandas(pairs, npartitions=4)
            for client in (None, self.client):
                found = beyond.solve_pairs(frame, (150, 150), client)
                self.assertEqual((found.columns.tolist(), found.verdict), (wanted.columns.tolist(), "proved"))

    def test_many_problems(self):
        """The batches of examples/beyond.py, next to one problem at a time."""
        spec = importlib.util.spec_from_file_location("example", HERE.parents[3] / "examples" / "beyond.py")
        example = importlib.util.module_from_spec(spec)
        spec.loader.exec_module(example)
        wanted = sum(nushbaret.solve(costs).cost for seed in range(3)
                     for costs in np.random.default_rng(seed).integers(0, 100, (50, 12, 12), np.int16))
        self.assertEqual(example.many_problems(self.client, 150, 50), wanted)

    def test_time_and_faults(self):
        with self.assertRaises(TimeoutError):
            beyond.solve(Slow(50), (50, 50), self.client, timeout=0.5, block_rows=10)
        with self.assertRaisesRegex(ValueError, "is nan"):
            beyond.solve(np.full((50, 50), np.nan), client=self.client)


class Slow:
    """Costs that take a second."""

    def __init__(self, n):
        self.n = n

    def __call__(self, first, last):
        time.sleep(1)
        return np.zeros((last - first, self.n))


@unittest.skipUnless(DASK and sys.platform == "linux" and shutil.which("dask-scheduler"), "needs Dask's commands")
class Processes(unittest.TestCase):
    """A scheduler and two workers as processes of their own; one is killed in a pass, five times, each time another
    pass."""

    def start(self, *words):
        self.processes.append(subprocess.Popen(words, stdout=subprocess.DEVNULL, stderr=subprocess.DEVNULL,
                                               env={**os.environ, "PYTHONPATH": PATHS, "OPENBLAS_NUM_THREADS": "1"}))
        return self.processes[-1]

    def setUp(self):
        self.processes = []
        self.folder = tempfile.mkdtemp()
        self.file = os.path.join(self.folder, "scheduler.json")
        self.start("dask-scheduler", "--port", "0", "--no-dashboard", "--scheduler-file", self.file)

    def tearDown(self):
        for process in self.processes:
            process.kill()
            process.wait()
        shutil.rmtree(self.folder)

    def worker(self):
        return self.start("dask-worker", "--scheduler-file", self.file, "--no-nanny", "--nthreads", "1",
                          "--no-dashboard", "--local-directory", self.folder)

    def test_workers_that_are_killed(self):
        from distributed import Client
        costs = Points(500, 500, squared=True)
        wanted = beyond.solve(costs, costs.shape, block_rows=25)
        self.worker()
        doomed = self.worker()
        while not os.path.exists(self.file):
            time.sleep(0.1)
        with Client(scheduler_file=self.file, timeout=60) as client:
            for turn in range(5):
                client.wait_for_workers(2, timeout=60)
                client.run(on_worker)
                timer = threading.Timer(0.05 + 0.15 * turn, doomed.send_signal, (signal.SIGKILL,))
                timer.start()
                found = beyond.solve(costs, costs.shape, client, block_rows=25, timeout=120)
                timer.join()
                self.assertTrue(same(found, wanted), turn)
                doomed.wait()
                doomed = self.worker()
                self.wait_for_workers(client, 2)

    def wait_for_workers(self, client, count):
        end = time.monotonic() + 60
        while len(client.scheduler_info()["workers"]) != count and time.monotonic() < end:
            time.sleep(0.2)


if __name__ == "__main__":
    unittest.main()
