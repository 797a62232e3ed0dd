"""Ctrl-C and timeouts end a call early, and nothing is lost."""
import functools
import os
import signal
import subprocess
import sys
import threading
import time
import unittest
from array import array
from decimal import Decimal
from fractions import Fraction
from unittest import mock

import nushbaret
from nushbaret.lap import levels, library
from drawn import drawing, matrix
from optional import np

TOP = os.path.dirname(os.path.dirname(nushbaret.__file__))

# Costs i * j, for which a search takes long, in a buffer without NumPy.
SLOW = """
import sys, time, signal
from array import array
import nushbaret
n = {size}
view = memoryview(array("q", [i * j for i in range(n) for j in range(n)])).cast("B").cast("q", (n, n))
nushbaret.solve([[1]])
print("ready", flush=True)
begun = time.monotonic()
try:
    nushbaret.solve(view)
    print("solved", time.monotonic() - begun, flush=True)
except KeyboardInterrupt:
    print("interrupted", flush=True)
print(nushbaret.solve([[1, 2], [3, 5]]).cost, view[n - 1, n - 1] == (n - 1) ** 2, flush=True)
"""


def endless_call():
    """The library's calls, none of whose searches ends: each piece of one stops at its budget."""
    def stops(*words):
        time.sleep(0.001)
        return library.CODES.index("STOPPED")
    return mock.patch.dict(library._calls, {name: stops for name in ("dense_from", "sparse_from")})


def short_pieces(arc_scans):
    """Searches in pieces of so many arc scans, to begin with."""
    return mock.patch.dict(library.PIECES, dict.fromkeys(library.PIECES, library.PieceSize(arc_scans, 0)))


class Interrupts(unittest.TestCase):
    @unittest.skipUnless(os.name == "posix", "signals are sent as POSIX has them")
    def test_ctrl_c_in_another_process(self):
        code = SLOW.format(size=2000)
        process = subprocess.Popen([sys.executable, "-c", code], stdout=subprocess.PIPE, text=True,
                                   env={**os.environ, "PYTHONPATH": TOP})
        self.assertEqual(process.stdout.readline(), "ready\n")
        time.sleep(0.2)
        process.send_signal(signal.SIGINT)
        printed = process.stdout.read().split("\n")
        process.wait()
        # Where the machine is fast the call may have ended before.
        self.assertIn(printed[0].split(" ")[0], ("interrupted", "solved"))
        self.assertEqual(printed[1], "5 True")
        process.stdout.close()

    @unittest.skipUnless(os.name == "posix", "signals are sent as POSIX has them")
    def test_ctrl_c_between_pieces(self):
        # A shell starts programs in the background without it.
        self.addCleanup(signal.signal, signal.SIGINT, signal.signal(signal.SIGINT, signal.default_int_handler))
        size = 520
        view = memoryview(array("q", bytes(8 * size * size))).cast("B").cast("q", (size, size))
        with endless_call():
            threading.Timer(0.1, lambda: os.kill(os.getpid(), signal.SIGINT)).start()
            with self.assertRaises(KeyboardInterrupt):
                nushbaret.solve(view)
        self.assertEqual(nushbaret.solve(view).cost, 0)

    def test_small_searches_are_done_in_one_piece(self):
        with endless_call():
            self.assertEqual(nushbaret.solve([[i * j for j in range(30)] for i in range(30)]).cost,
                             sum(i * (29 - i) for i in range(30)))


class Pieces(unittest.TestCase):
    def test_any_size_of_pieces(self):
        """A search in pieces finds what one in a single piece does."""
        draw, pieces = drawing(71), 0
        for _ in range(60):
            n_rows, n_columns, maximize = draw.randint(1, 60), draw.randint(1, 60), draw.random() < 0.5
            costs = matrix(draw, n_rows, n_columns, draw.choice([9, 10**12]), draw.choice([0.5, 1.0]))
            wanted = nushbaret.solve(costs, maximize, partial=True)
            calls, call = [], library.call

            def noted(*words, calls=calls, call=call, **named):
                calls.append(words[0])
                return call(*words, **named)

            with short_pieces(draw.choice([1, 10, 1000])), mock.patch.multiple(library, LONG=0, call=noted):
                result = nushbaret.solve(costs, maximize, partial=True)
                self.assertEqual((result.cost, bool(result.verify(costs))), (wanted.cost, True))
            pieces += len(calls)
        self.assertGreater(pieces, 80)


class Progress(unittest.TestCase):
    # Only one plan is best.
    COSTS = [[(7919 * row * row + 104729 * column * column + 611953 * row * column) % 1000003 for column in range(40)]
             for row in range(30)]

    def noted(self, solve, **words):
        """What progress is called with in a search in small pieces, and what that returns."""
        noted = []
        with short_pieces(1):
            found = solve(progress=lambda assigned, rows: noted.append((assigned, rows)), **words)
        return noted, found

    def test_what_it_is_called_with(self):
        lists = [(row, column, cost) for row, costs in enumerate(self.COSTS) for column, cost in enumerate(costs)]
        calls = (lambda **words: nushbaret.solve(self.COSTS, **words).cost,
                 lambda **words: nushbaret.linear_sum_assignment(self.COSTS, **words),
                 lambda **words: nushbaret.solve([list(column) for column in zip(*self.COSTS)], **words).cost,
                 lambda **words: nushbaret.solve_sparse(30, 40, *zip(*lists), **words).cost,
                 lambda **words: nushbaret.solve([[cost + 1e15 / 3 for cost in row] for row in self.COSTS],
                                                 **words).columns)
        numbers = []
        for call in calls:
            noted, found = self.noted(call)
            self.assertEqual(found, call())
            self.assertEqual((noted[-1], {rows for _, rows in noted}), ((30, 30), {30}))
            self.assertTrue(all(0 <= assigned <= 30 for assigned, _ in noted))
            numbers.append(len(noted))
            self.assertEqual(self.noted(call, timeout=1000)[1], found)
        self.assertGreater(min(numbers), 1)

    def test_it_may_end_the_call(self):
        def stop(assigned, rows):
            nushbaret.solve([[1, 2], [3, 5]])
            raise KeyError(assigned)

        with self.assertRaises(KeyError):
            nushbaret.solve(self.COSTS, progress=stop)
        self.assertEqual(nushbaret.solve(self.COSTS).cost, nushbaret.solve(self.COSTS, progress=silent).cost)
        for wrong in 5, "bar":
            with self.assertRaisesRegex(TypeError, f"progress is {wrong!r}: it must be a call of two numbers"):
                nushbaret.solve(self.COSTS, progress=wrong)


def silent(assigned, rows):
    """Does nothing."""


class Timeouts(unittest.TestCase):
    COSTS = [[0.1, 2, 1e15], [3, 5, 1 / 3], [0.5, 0.25, 7]]

    def test_calls(self):
        calls = (lambda **word: nushbaret.solve(self.COSTS, **word),
                 lambda **word: nushbaret.linear_sum_assignment(self.COSTS, **word),
                 lambda **word: nushbaret.bottleneck(self.COSTS, **word),
                 lambda **word: list(nushbaret.k_best(self.COSTS, 3, **word)),
                 lambda **word: nushbaret.assign_counts(self.COSTS, 1, **word),
                 lambda **word: nushbaret.solve_sparse(2, 2, [0, 1], [0, 1], [1, 2], **word))
        for call in calls:
            wanted = call()
            self.assertEqual(repr(call(timeout=100)), repr(wanted))
            with self.assertRaisesRegex(TimeoutError, "the time is over"):
                call(timeout=0)
            self.assertEqual(repr(call()), repr(wanted))
        with self.assertRaises(TimeoutError):
            nushbaret.solve(self.COSTS).without(0, 0, timeout=0)

    def test_while_the_library_works(self):
        """Between two pieces, and no thread goes on."""
        result, threads = nushbaret.solve(self.COSTS), threading.active_count()
        with endless_call():
            for call, words in ((nushbaret.solve, {"progress": silent}), (nushbaret.bottleneck, {}),
                                (nushbaret.linear_sum_assignment, {"progress": silent})):
                with self.assertRaises(TimeoutError):
                    call([[4, 1, 3], [2, 0, 5], [3, 2, 2]], timeout=0.05, **words)
        # An alarm's thread ends soon after it rang.
        end = time.monotonic() + 60
        while threading.active_count() > threads and time.monotonic() < end:
            time.sleep(0.01)
        self.assertEqual((nushbaret.solve(self.COSTS).cost, threading.active_count()), (result.cost, threads))

    @unittest.skipUnless(np, "NumPy isn't there")
    def test_by_the_short_way(self):
        """A search of any size ends in time."""
        costs = np.arange(1, 901)[:, None] * np.arange(1, 901)
        for call in nushbaret.linear_sum_assignment, nushbaret.solve:
            for form in (costs, costs + 0.3):
                with self.assertRaisesRegex(TimeoutError, "the time is over"):
                    call(form, timeout=1e-4)
                self.assertEqual(len(call(form[:60, :60], timeout=1e4).columns if call is nushbaret.solve
                                     else call(form[:60, :60], timeout=1e4)[1]), 60)

    def test_in_other_threads(self):
        """A limit is that of its own thread."""
        found = []

        def limits():
            found.append(library._end())
            with self.assertRaises(TimeoutError):
                nushbaret.solve(self.COSTS, timeout=0)

        with library.limited(1000):
            thread = threading.Thread(target=limits)
            thread.start()
            thread.join()
            self.assertGreater(library._end(), time.monotonic())
            self.assertEqual(nushbaret.solve(self.COSTS).cost, nushbaret.solve(self.COSTS, timeout=999).cost)
        self.assertEqual((found, library._end()), ([None], None))

    def test_while_python_works(self):
        """Steps of Python's that would never end, in reading and between two calls of the library, end as by Ctrl-C, in
        any thread."""
        class Endless:
            def __len__(self):
                return 2

            def __getitem__(self, places):
                return [0][places]

            def __iter__(self):
                while True:
                    pass

        def never(*words):
            while True:
                pass

        def ends():
            for call in (nushbaret.solve, nushbaret.linear_sum_assignment, nushbaret.bottleneck,
                         functools.partial(nushbaret.assign_counts, row_counts=1)):
                with self.assertRaisesRegex(TimeoutError, "^the time is over; nothing of the caller's was "
                                            "changed$") as raised:
                    call([Endless(), Endless()], timeout=0.05)
                self.assertIs(type(raised.exception), TimeoutError)
            with mock.patch.object(levels, "answer", never), self.assertRaises(TimeoutError):
                nushbaret.solve([[0.1 + 0.2, 0.1], [1 / 3, 1 / 3 - 0.2]] * 40, partial=True, timeout=0.05)
            ended.append(nushbaret.solve([[4, 1], [2, 3]]).cost)

        ended = []
        ends()
        thread = threading.Thread(target=ends)
        thread.start()
        thread.join()
        self.assertEqual((ended, library._end()), ([3, 3], None))

    def test_nothing_comes_later(self):
        """What an alarm raises, it raises within its block, however near to the end of the block it rings."""
        self.addCleanup(sys.setswitchinterval, sys.getswitchinterval())
        sys.setswitchinterval(1e-6)
        for turn in range(600):
            is_over = False
            try:
                with library.limited(0.0003 + turn % 40 * 0.00001):
                    begun = time.monotonic()
                    while time.monotonic() < begun + 0.0005:
                        pass
                is_over = True
            except TimeoutError:
                self.assertFalse(is_over)
            for _ in range(200):
                self.assertIsNone(library._end())

    def test_within_another_limit(self):
        """The earlier end holds, and the later one stays."""
        with library.limited(1000):
            with self.assertRaises(TimeoutError):
                with library.limited(0.01):
                    while True:
                        pass
            self.assertGreater(library._end(), time.monotonic() + 100)
        with self.assertRaises(TimeoutError):
            with library.limited(0.01):
                with library.limited(1000):
                    while True:
                        pass
        self.assertIsNone(library._end())

    def test_no_thread_left(self):
        """Where the system has no more threads, it has no memory for one."""
        with mock.patch.object(threading.Thread, "start", side_effect=RuntimeError("can't start new thread")):
            with self.assertRaisesRegex(MemoryError, "no thread could be started: can't start new thread"):
                nushbaret.solve(self.COSTS, timeout=100, progress=silent)
        self.assertIsNone(library._limits.progress)
        self.assertEqual(nushbaret.solve(self.COSTS, timeout=100).cost, nushbaret.solve(self.COSTS).cost)

    def test_refusals(self):
        for wrong in -1, float("nan"):
            with self.assertRaisesRegex(ValueError, "it must be a number of seconds, 0 or more"):
                nushbaret.solve([[1]], timeout=wrong)

    def test_numbers_of_any_kind(self):
        for seconds in float("inf"), Decimal(5), Fraction(11, 2), 10**400:
            self.assertEqual(nushbaret.solve([[1]], timeout=seconds, progress=silent).cost, 1)


if __name__ == "__main__":
    unittest.main()
