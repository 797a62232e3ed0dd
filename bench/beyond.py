#!/usr/bin/env python3
"""Measures nushbaret.beyond, and holds it against its promises: bench/beyond.py [PART ..]; all parts take half an hour.

    large      60,000 x 60,000 uniform costs and 30,000 points in the plane (squared), a process each: passes,
               processor time and peak memory, which may be 400 MB
    arc_scans  looks at pairs, those for first prices among them, divided by n * m, at 1,000 and 2,000
    drawn      the cost next to `solve`'s on 300 drawn problems to 400 rows, of ten kinds
    changes    500 changed prices, plans or costs, each of which `check` refuses
    pairs      a file of listed pairs of 240 MB in a process that may have 100 MB more than it begins with
    kills      five workers killed in five passes: the same bytes
    calls      the time of the calls on blocks next to that of the checks of the same costs
    readers    arrays of zarr, and frames of Parquet, where their readers are there

It needs NumPy, for `kills` distributed with its commands, and ends with status 1 where a promise isn't kept."""
import ctypes
import math
import os
import pathlib
import subprocess
import sys
import tempfile
import time
import unittest

TOP = pathlib.Path(__file__).resolve().parents[1]
for folder in ("tests/python", "python"):
    sys.path.insert(0, str(TOP / folder))

import numpy  # noqa: E402

from beyond import test_cluster, test_pairs  # noqa: E402
from beyond.costs import Points, Products, best, kinds  # noqa: E402
import nushbaret  # noqa: E402
from nushbaret import beyond  # noqa: E402
from nushbaret.beyond import blocks  # noqa: E402
from nushbaret.lap import library  # noqa: E402
from nushbaret.lap.doubles import DoublesInfo  # noqa: E402

MOST_MEMORY = 400
# Peaks grow with memory that a fork shares, so each large run is a new process.
LARGE = {"uniform": (60000, 6), "squared": (30000, 12)}


class Uniform:
    """Whole costs below a bound, each row drawn from its own number."""

    def __init__(self, n, m, most=10**6):
        self.shape, self.most = (n, m), most

    def __call__(self, first, last):
        return numpy.stack([numpy.random.Generator(numpy.random.SFC64(row)).integers(0, self.most, self.shape[1],
                                                                                     numpy.int32)
                            for row in range(first, last)])


class Squares:
    """Squared distances of whole points in the plane, made without copies."""

    def __init__(self, n):
        random = numpy.random.default_rng(1)
        self.x, self.y, self.shape = *random.integers(0, 10**5, (2, n, 2)), (n, n)

    def __call__(self, first, last):
        found = numpy.subtract.outer(self.x[first:last, 0], self.y[:, 0])
        other = numpy.subtract.outer(self.x[first:last, 1], self.y[:, 1])
        numpy.multiply(found, found, out=found)
        numpy.multiply(other, other, out=other)
        return numpy.add(found, other, out=found)


class Overlaps:
    """1 less the part that two boxes share; most boxes share none."""

    def __init__(self, n):
        random = numpy.random.default_rng(1)
        middles, sizes = random.random((n, 2)), random.uniform(1, 4, (n, 2)) / n**0.5
        moved = middles + random.normal(0, 0.3 / n**0.5, (n, 2))
        self.shape, self.order = (n, n), random.permutation(n)
        self.ones, self.others = ((at - sizes, at + sizes) for at in (middles, moved))

    def __call__(self, first, last):
        low, high = (part[first:last, None] for part in self.ones)
        lows, highs = (part[self.order] for part in self.others)
        shared = numpy.maximum(numpy.minimum(high, highs) - numpy.maximum(low, lows), 0).prod(2)
        return 1 - shared / ((high - low).prod(2) + (highs - lows).prod(1) - shared)


class LowRank:
    """Products of five factors, and a little noise."""

    def __init__(self, n):
        random = numpy.random.default_rng(1)
        self.left, self.right, self.shape = random.random((n, 5)), random.random((5, n)), (n, n)

    def __call__(self, first, last):
        noise = Uniform(*self.shape, 10**5)(first, last)
        return (self.left[first:last, None] * self.right.T).sum(2) * 1e6 // 1 + noise


def arc_scans_of(n):
    """Costs of each kind, and how many arc scans they may take (0: no promise)."""
    small = n == 1000
    yield "uniform", Uniform(n, n), 2
    yield "ten values", Uniform(n, n, 10), 2
    yield "points, squared", Points(n, n, squared=True), 3 if small else 8
    yield "points", Points(n, n), 6 if small else 8
    yield "overlaps of boxes", Overlaps(n), 4 if small else 8
    yield "n x 4n", Points(n, 4 * n), 3 if small else 0
    yield "low rank", LowRank(n), 5.9 if small else 0
    yield "clustered points", Points(n, n, clustered=True), 13 if small else 15
    yield "products i * j", Products(n, n), 18 if small else 34


class Kept:
    """Which promises were kept."""

    def __init__(self):
        self.broken = 0

    def say(self, text, is_kept):
        self.broken += not is_kept
        print(text if is_kept else f"{text}: NOT KEPT", flush=True)


def large(kept):
    for kind in LARGE:
        child = subprocess.Popen([sys.executable, __file__, "run", kind], stdout=subprocess.PIPE, text=True)
        text = child.stdout.read()
        _, status, used = os.wait4(child.pid, 0)
        child.returncode = status
        memory = used.ru_maxrss / 1024
        kept.say(f"{kind}: {text.strip()}, {used.ru_utime + used.ru_stime:.0f} s of processor time, {memory:.0f} MB",
                 status == 0 and memory <= MOST_MEMORY)


def run(kind):
    """One large problem, in this process."""
    n, most = LARGE[kind]
    costs = Uniform(n, n) if kind == "uniform" else Squares(n)
    found = beyond.solve(costs, costs.shape,
                         progress=lambda *said: print("pass {}: gap {}, {} pairs".format(*said), file=sys.stderr))
    print(f"{found}, {found.arc_scans:.1f} arc scans")
    return found.proved and found.passes <= most


def arc_scans(kept):
    for n in (1000, 2000):
        for kind, costs, most in arc_scans_of(n):
            before = time.process_time()
            found = beyond.solve(costs, costs.shape)
            kept.say(f"{kind}, {n}: {found.passes} passes, {found.arc_scans:.1f} arc scans, "
                     f"{found.pairs / n:.0f} pairs a row, {time.process_time() - before:.1f} s",
                     found.proved and (not most or found.arc_scans <= most + 0.05))


def drawn(kept):
    random, count, without, undecided, wrong = numpy.random.default_rng(83), 0, 0, 0, 0
    for turn in range(30):
        n, m = (400, 400) if turn == 0 else random.integers(1, 400 if turn % 3 else 60, 2)
        for name, costs in kinds(random, int(n), int(m)):
            wanted, count = best(costs), count + 1
            try:
                found = beyond.solve(costs, block_rows=int(random.integers(1, 90)))
            except nushbaret.Infeasible:
                without, wrong = without + 1, wrong + (wanted is not None)
                continue
            undecided += not found.proved
            near = 1e-9 * max(1.0, abs(float(wanted))) if costs.dtype.kind == "f" else 0
            wrong += abs(found.cost - float(wanted)) > near or not (found.proved or name == "ties of doubles")
    kept.say(f"drawn: {count} problems, {without} without a plan, {undecided} undecided, {wrong} wrong", not wrong)


def changes(kept):
    random, refused, count = numpy.random.default_rng(84), 0, 0
    while count < 500:
        costs = Points(60, 60, int(random.integers(2**31)), squared=True)(0, 60)
        found = beyond.solve(costs)
        for changed in changed_ones(random, costs, found):
            count, refused = count + 1, refused + (not beyond.check(*changed, block_rows=13))
    kept.say(f"changes: {refused} of {count} refused", refused == count)


def changed_ones(random, costs, found):
    """A price raised where the column's own row then gains elsewhere, two rows' columns exchanged, an own cost raised:
    each breaks the proof, since costs of squared distances don't tie."""
    columns, prices, other = found.columns.copy(), found.prices.copy(), costs.copy()
    row = int(random.integers(len(columns)))
    prices[columns[row]] += 10**10
    yield costs, found.columns, prices
    columns[[row, row - 1]] = columns[[row - 1, row]]
    yield costs, columns, found.prices
    other[row, found.columns[row]] += 10**10
    yield other, found.columns, found.prices
    free = found.prices.copy()
    free[int(random.integers(len(free)))] = -1
    yield costs, found.columns, free


def pairs(kept):
    with tempfile.TemporaryDirectory() as folder:
        path = pathlib.Path(folder, "pairs.npy")
        test_pairs.write_pairs(path, 4000, 10**7)
        ran = subprocess.run([sys.executable, "-m", "beyond.test_pairs", str(path), "4000"], capture_output=True,
                             text=True, cwd=TOP / "tests/python",
                             env={**os.environ, "OPENBLAS_NUM_THREADS": "1", "PYTHONPATH": os.pathsep.join(sys.path)})
        kept.say(f"pairs: a file of {path.stat().st_size // 10**6} MB, 100 MB of addresses: {ran.stdout.strip()}"
                 f"{ran.stderr[-200:]}", ran.returncode == 0 and "proved" in ran.stdout)


def kills(kept):
    suite = unittest.defaultTestLoader.loadTestsFromTestCase(test_cluster.Processes)
    ended = unittest.TextTestRunner(stream=sys.stderr).run(suite)
    kept.say(f"kills: {'not run' if ended.skipped else 'five workers killed'}", ended.wasSuccessful())


def calls(kept):
    """The least ratio of several in one process: rows without a better pair, with a dozen of them each, and with nearly
    all; of whole costs and of doubles."""
    for dtype, name in ((numpy.int64, "whole costs"), (numpy.float64, "doubles")):
        random, (n, m) = numpy.random.default_rng(85), (32, 8000)
        costs, prices = random.integers(0, 10**6, (n, m)).astype(dtype), numpy.zeros(m, dtype)
        own = random.permutation(m)[:n]
        prices[own] = random.integers(0, 10**5, n)
        costs[numpy.arange(n), own] = (costs + prices).min(1) - 1 - prices[own]
        sums, check = numpy.sort(costs + prices, 1), checked(costs, own, prices)
        rests = None if dtype is numpy.int64 else numpy.zeros(n)
        for case, place, most in (("none is better", 0, 2), ("12 of each row", 12, 2), ("nearly all", m - 1, math.inf)):
            asked = blocks.Asked(sums[:, place].copy(), rests, own, prices, 24)
            ratio = min(seconds(lambda: blocks.look(costs, asked)) / seconds(check) for _ in range(5))
            kept.say(f"calls: {name}, {case}: {ratio:.2f} of the check's time", ratio <= most)


def checked(costs, own, prices):
    """The check of an optimal plan."""
    (n, m), none = costs.shape, numpy.empty(0, numpy.uint32)
    objects, flat = (own + 1).astype(numpy.uint32), costs.ravel()
    kinds = ctypes.c_uint32, ctypes.c_size_t, ctypes.c_size_t, *(ctypes.c_void_p, ctypes.c_size_t) * 3, ctypes.c_void_p
    of_doubles = ctypes.CFUNCTYPE(ctypes.c_int32, *kinds)(library.address("nushbaret_check_doubles"))
    words = [word for values in (flat, objects, prices) for word in (values.ctypes.data, values.size)]

    def check():
        if costs.dtype.kind == "i":
            code = library.call("check", False, n, m, none, none, flat, objects, prices)[0]
        else:
            code = library.CODES[of_doubles(0, n, m, *words, ctypes.addressof(DoublesInfo()))]
        assert code == "BEST", code
    return check


def seconds(call):
    """The least processor time of 20 calls."""
    taken = []
    for _ in range(20):
        before = time.process_time()
        call()
        taken.append(time.process_time() - before)
    return min(taken)


def readers(kept):
    costs = Points(300, 300)
    wanted = beyond.solve(costs, costs.shape)
    with tempfile.TemporaryDirectory() as folder:
        try:
            import zarr
            held = zarr.open(folder, "w", shape=(300, 300), chunks=(64, 100), dtype=float)
            held[:] = costs(0, 300)
            kept.say(f"zarr {zarr.__version__}: the same plan",
                     (beyond.solve(held).columns == wanted.columns).all())
        except ImportError:
            print("zarr: not there")
    with tempfile.TemporaryDirectory() as folder:
        path = pathlib.Path(folder, "pairs.parquet")
        try:
            import pandas
            rows, columns = numpy.divmod(numpy.arange(300 * 300), 300)
            pandas.DataFrame({"row": rows, "column": columns, "cost": costs(0, 300).ravel()}).to_parquet(path)
            found = beyond.solve_pairs([lambda: pandas.read_parquet(path)], (300, 300))
            kept.say("Parquet: the same plan", (found.columns == wanted.columns).all())
        except ImportError:
            print("Parquet: no reader is there")


PARTS = {part.__name__: part for part in (large, arc_scans, drawn, changes, pairs, kills, calls, readers)}


def main():
    if sys.argv[1:2] == ["run"]:
        return not run(sys.argv[2])
    kept = Kept()
    for name in sys.argv[1:] or PARTS:
        PARTS[name](kept)
    print(f"{kept.broken} promises not kept")
    return kept.broken > 0


if __name__ == "__main__":
    sys.exit(main())
