#!/usr/bin/env python3
"""Measures problems with counts and groups next to LEMON and HiGHS, and compares drawn ones with both.

bench/counts.py [times] [drawn] [tiny] at the top of the repository, after c/build.sh built the library; without a word
all three. It needs NumPy and SciPy, and c++ with LEMON (in Debian python3-scipy, liblemon-dev).

`times` prints, for each kind, seconds of processor time of a whole call of the library, of LEMON's network simplex and
of its cost scaling, whose building of the graph is left out, and the library's share of the better one; the least of
several counts, and they take turns. First come a million rows, with the memory that it takes, last one-to-one problems
next to nushbaret_dense, and calls that begin from the last answer after a change.
`drawn` compares 5000 problems with every feature: LEMON finds the same cost, or that there is no plan, and for one in
ten HiGHS does. `tiny` compares 2000 with a search of all plans. Both end with status 1 where something differs.
"""
import ctypes
import itertools
import os
import random
import resource
import subprocess
import sys
import time
from ctypes import c_double, c_int32, c_int64, c_size_t, c_uint32, c_uint64

import numpy
from measure import HERE, OUT
from scipy import optimize, sparse

LIBRARY = ctypes.CDLL(os.path.join(HERE, "..", "c", "out", "libnushbaret.so"))
BEST, ROWS_LACK, COLUMNS_LACK = range(3)
SECONDS = 2
SIDES = ("row_least", "row_most", "column_least", "column_most")


class Info(ctypes.Structure):
    _fields_ = [("total_high", c_int64), ("total_low", c_uint64), ("place", c_uint64), ("row", c_uint64),
                ("column", c_uint64)]


class Lists(ctypes.Structure):
    """What peers/counts.cc reads."""

    _fields_ = [("n", c_size_t), ("m", c_size_t), ("pairs", c_size_t)]
    _fields_ += [(name, ctypes.c_void_p) for name in ("rows", "columns", "costs", *SIDES, "groups")]


class Problem:
    """Pairs by rising rows, numbered from 1, with costs, counts and groups; numbers alone count for all."""

    def __init__(self, shape, rows, columns, costs, row_counts, column_counts, groups=None):
        self.n, self.m = shape
        self.rows, self.columns = numpy.asarray(rows, numpy.uint32), numpy.asarray(columns, numpy.uint32)
        self.costs = numpy.asarray(costs, numpy.int64)
        bounds = [(one, size) for counts, size in ((row_counts, self.n), (column_counts, self.m)) for one in counts]
        for name, (count, size) in zip(SIDES, bounds):
            setattr(self, name, numpy.ascontiguousarray(numpy.broadcast_to(numpy.asarray(count, numpy.uint32), size)))
        self.groups = numpy.asarray(numpy.zeros(self.m) if groups is None else groups, numpy.uint32)

    def given(self):
        names = ("rows", "columns", "costs", *SIDES, "groups")
        return [c_uint32(0)] + [word for name in names for word in lent(getattr(self, name))]


class Answer:
    """What a call wrote, and its seconds."""

    def __init__(self, problem, first=None):
        self.plan = numpy.zeros(len(problem.costs), numpy.uint8)
        self.numbers = [numpy.zeros(size, numpy.int64) for size in (problem.n, problem.m)]
        marks = [numpy.zeros(size, numpy.uint8) for size in (problem.n, problem.m)]
        record = (c_uint64 * 8)(0 if first is None else 1)
        if first is not None:
            self.plan[:] = first.plan
            self.numbers[0][:], self.numbers[1][:] = first.numbers
        info = Info()
        buffers = [word for one in (self.plan, *self.numbers, *marks) for word in lent(one)]
        given = problem.given()
        begin = time.thread_time()
        self.code = LIBRARY.nushbaret_counts_from(*given, *buffers, c_uint64(0), ctypes.byref(record),
                                                  ctypes.byref(info))
        self.seconds = time.thread_time() - begin
        self.cost = info.total_high * 2**64 + info.total_low if self.code == BEST else None


def lent(array):
    return [ctypes.c_void_p(array.ctypes.data), c_size_t(array.size)]


def lemon_library():
    """The peer as a library, or the end where it can't be built."""
    path = os.path.join(OUT, "peer_counts.so")
    os.makedirs(OUT, exist_ok=True)
    subprocess.run(["c++", "-O2", "-march=x86-64-v2", "-fPIC", "-shared", "-w", "-o", path,
                    os.path.join(HERE, "peers", "counts.cc")], check=True)
    return ctypes.CDLL(path)


def lemon(peer, problem, is_scaling):
    """The least cost, or None without a plan, and the seconds."""
    arrays = (problem.rows, problem.columns, problem.costs, *(getattr(problem, name) for name in SIDES), problem.groups)
    lists = Lists(problem.n, problem.m, len(problem.costs), *(array.ctypes.data for array in arrays))
    cost, seconds = c_int64(), c_double()
    is_best = peer.lemon_counts(int(is_scaling), ctypes.byref(lists), ctypes.byref(cost), ctypes.byref(seconds))
    return cost.value if is_best else None, seconds.value


def highs(problem):
    """The least cost by HiGHS, or None without a plan."""
    pairs = len(problem.costs)
    places = numpy.arange(pairs)
    keys = problem.rows.astype(numpy.int64) * (problem.m + 1) + problem.groups[problem.columns - 1]
    grouped = places[problem.groups[problem.columns - 1] > 0]
    _, group_rows = numpy.unique(keys[grouped], return_inverse=True)
    sides = [(problem.rows - 1, places, problem.n, problem.row_least, problem.row_most),
             (problem.columns - 1, places, problem.m, problem.column_least, problem.column_most)]
    if len(grouped):
        count = int(group_rows.max()) + 1
        sides.append((group_rows, grouped, count, numpy.zeros(count), numpy.ones(count)))
    rules = [optimize.LinearConstraint(sparse.csr_matrix((numpy.ones(len(at)), (keys, at)), (size, pairs)), least, most)
             for keys, at, size, least, most in sides]
    found = optimize.milp(problem.costs.astype(float), constraints=rules, bounds=optimize.Bounds(0, 1),
                          integrality=numpy.ones(pairs))
    return round(found.fun) if found.status == 0 else None


# The kinds: what they are drawn from, and their counts.

def listed(dice, shape, count, costs, row_counts, column_counts):
    """Each row lists so many of the columns."""
    n, m = shape
    columns = numpy.sort(numpy.array([dice.choice(m, count, replace=False) for _ in range(n)]), axis=1)
    return Problem(shape, numpy.repeat(numpy.arange(1, n + 1), count), columns.ravel() + 1, costs((n, count)).ravel(),
                   row_counts, column_counts)


def dense(costs, row_counts, column_counts):
    n, m = costs.shape
    return Problem((n, m), numpy.repeat(numpy.arange(1, n + 1), m), numpy.tile(numpy.arange(1, m + 1), n),
                   costs.ravel(), row_counts, column_counts)


def students(dice, n, m, power=1):
    """Ten choices by rank, in projects with a tenth more places than students."""
    def ranks(shape):
        return dice.permuted(numpy.tile(numpy.arange(1, shape[1] + 1), (shape[0], 1)), axis=1)**power
    return listed(dice, (n, m), 10, ranks, (1, 1), (0, int(n / m * 1.1) + 1))


def uniform(dice, n, m, most):
    return dense(dice.integers(0, most, (n, m)), (1, 1), (0, int(n / m * 1.1) + 1))


def tight(dice, n, m):
    costs = (dice.integers(0, 1000, (n, m)) * numpy.linspace(1, 3, m)[None, :]).astype(int)
    return dense(costs, (1, 1), (int(n / m * .95), int(n / m * 1.06) + 1))


def few_costs(dice, n, m):
    return dense(dice.choice([1, 5, 7], (n, m), p=[.03, .07, .9]), (1, 1), (0, int(n / m) + 1))


def equal_columns(dice, n, m):
    return dense(numpy.repeat(dice.integers(0, 1000, (n, 10)), m // 10, axis=1), (1, 1), (0, int(n / m * 1.05) + 1))


def dear_slots(dice, n, m):
    """Cheap places for all but a few, who need dear ones."""
    costs = dice.integers(0, 100, (n, m))
    costs[:, -1] = 10**6 + dice.integers(0, 100, n)
    return dense(costs, (1, 1), (0, [(n - n // 50) // (m - 1)] * (m - 1) + [n]))


def two_wanted(dice, n, m):
    """Two columns that all rows want, and dear ones."""
    costs = 10**6 + dice.integers(0, 3, (n, m))
    costs[:, :2] = dice.integers(0, 3, (n, 2))
    return dense(costs, (1, 1), (0, int(n / m * 1.05) + 1))


def threes(dice, n, m):
    """Rows of three with columns of five."""
    return listed(dice, (n, m), 30, lambda shape: dice.integers(0, 1000, shape), (3, 3), (0, 3 * n // m + 1))


def vehicles(dice, n, m):
    return dense(dice.integers(0, 1000, (n, m)), (0, 2), (1, 1))


def ward(dice, nurses, lacking=False):
    """A month of nurses: 17 to 22 of 84 shifts each, one a day. Lacking: a day that needs too many."""
    days, m = 28, 84
    need = numpy.array([int(nurses * 20 / m * share) for share in (1.2, 1.0, .75)] * days)
    most = need + numpy.maximum(1, need // 10)
    if lacking:
        need[:3], most[:3] = nurses * 34 // 100, nurses * 40 // 100
    at, shifts = numpy.nonzero(dice.random((nurses, m)) >= .08)
    return Problem((nurses, m), at + 1, shifts + 1, dice.integers(0, 6, len(at)), (17, 22), (need, most),
                   numpy.repeat(numpy.arange(1, days + 1), 3))


def hall(dice, n, m):
    """Students, some of which list too few places."""
    problem = students(dice, n, m)
    places = int(problem.column_most[0])
    few = min(places * 11 + 1, n // 2)
    own = 11 if few == places * 11 + 1 else 10
    columns = problem.columns.reshape(n, 10)
    columns[:few] = numpy.sort(numpy.array([dice.choice(own, 10, replace=False) for _ in range(few)]), axis=1) + 1
    return problem


KINDS = [("students, ranks", students, (3000, 100)), ("students, squares", students, (3000, 100, 2)),
         ("students, ranks", students, (30000, 100)), ("students, squares", students, (30000, 1000, 2)),
         ("students, ranks", students, (100000, 1000)), ("uniform, costs to 10^3", uniform, (3000, 100, 10**3)),
         ("uniform, costs to 10^6", uniform, (3000, 100, 10**6)), ("uniform, to 10^12", uniform, (3000, 100, 10**12)),
         ("uniform, costs to 10^3", uniform, (100000, 100, 10**3)), ("tight counts", tight, (3000, 100)),
         ("few costs", few_costs, (3000, 100)), ("equal columns", equal_columns, (3000, 100)),
         ("dear slots", dear_slots, (3000, 100)), ("two that all want", two_wanted, (3000, 100)),
         ("two that all want", two_wanted, (1000, 50)), ("threes in fives", threes, (3000, 1800)),
         ("vehicles, 0 to 2", vehicles, (300, 400)), ("ward month", ward, (28,)), ("ward month", ward, (100,)),
         ("ward month", ward, (1000,)), ("none: Hall", hall, (3000, 100)), ("none: Hall", hall, (30000, 300)),
         ("none: a ward's day", ward, (100, True)), ("none: a ward's day", ward, (1000, True))]


def named(name, problem):
    return f"{name:24} {problem.n} x {problem.m}"


def time_kinds(peer):
    print(f"{'kind':42} library  simplex  scaling  share")
    for seed, (name, draw, sizes) in enumerate(KINDS):
        problem = draw(numpy.random.default_rng(seed), *sizes)
        ours, peers, begin = [], {False: [], True: []}, time.time()
        while not ours or time.time() - begin < SECONDS and len(ours) < 5:
            answer = Answer(problem)
            ours.append(answer.seconds)
            for is_scaling, seconds in peers.items():
                cost, one = lemon(peer, problem, is_scaling)
                seconds.append(one)
                if cost != answer.cost:
                    sys.exit(f"{name}: {answer.cost}, LEMON {cost}")
        simplex, scaling = min(peers[False]), min(peers[True])
        print(f"{named(name, problem):42} {min(ours):7.4f}  {simplex:7.4f}  {scaling:7.4f}  "
              f"{min(ours) / min(simplex, scaling):5.2f}", flush=True)


def time_million():
    """A million rows of ten pairs and a thousand columns: seconds, and memory that it takes."""
    dice = numpy.random.default_rng(7)
    columns = (dice.integers(0, 100, (10**6, 10)) + numpy.arange(0, 1000, 100)).ravel() + 1
    problem = Problem((10**6, 1000), numpy.repeat(numpy.arange(1, 10**6 + 1), 10), columns,
                      dice.integers(1, 101, 10**7), (1, 1), (0, 1101))
    Answer(dense(dice.integers(0, 9, (3, 3)), (1, 1), (0, 1)))
    before = resource.getrusage(resource.RUSAGE_SELF).ru_maxrss
    answer = Answer(problem)
    more = (resource.getrusage(resource.RUSAGE_SELF).ru_maxrss - before) / 1024
    name = named("a million rows of ten", problem)
    print(f"{name:42} {answer.seconds:7.2f}  {more:.0f} MB, the answer's 18 with it")


def time_ones():
    """One-to-one problems next to the call for them."""
    for n, most in ((300, 1000), (1000, 1000), (1000, 10**6)):
        costs = numpy.random.default_rng(n).integers(0, most, (n, n))
        problem = dense(costs, (1, 1), (0, 1))
        objects, persons, prices = (numpy.zeros(n, kind) for kind in (numpy.uint32, numpy.uint32, numpy.int64))
        info, own = (c_uint64 * 8)(), []
        for _ in range(3):
            begin = time.thread_time()
            LIBRARY.nushbaret_dense(c_uint32(0), c_size_t(n), c_size_t(n), *lent(problem.costs), *lent(objects),
                                    *lent(persons), *lent(prices), info)
            own.append(time.thread_time() - begin)
        ours = min(Answer(problem).seconds for _ in range(3))
        name = named("one to one", problem)
        print(f"{name:42} {ours:7.4f}  {min(own):7.4f} by nushbaret_dense  {ours / min(own):5.2f}")


def changed(problem, dice, what):
    """The problem with another row, or another greatest count of a column."""
    costs, most = problem.costs.copy(), problem.column_most.copy()
    if what == "row":
        at = problem.rows == dice.integers(1, problem.n + 1)
        costs[at] = dice.permutation(costs[at])
    else:
        most[dice.integers(problem.m)] += 1
    return Problem((problem.n, problem.m), problem.rows, problem.columns, costs,
                   (problem.row_least, problem.row_most), (problem.column_least, most), problem.groups)


def time_warm():
    """Calls from the last answer, after a change."""
    kinds = [(students, (3000, 100)), (students, (30000, 1000, 2)), (uniform, (3000, 100, 10**3)), (ward, (100,)),
             (ward, (1000,)), (threes, (3000, 1800))]
    for draw, sizes in kinds:
        dice = numpy.random.default_rng(5)
        problem = draw(dice, *sizes)
        first = Answer(problem)
        for what in ("row", "count"):
            shares = []
            for _ in range(5):
                other = changed(problem, dice, what)
                cold, warm = Answer(other), Answer(other, first)
                if cold.cost != warm.cost:
                    sys.exit(f"{draw.__name__}: {cold.cost}, from an answer {warm.cost}")
                shares.append(warm.seconds / cold.seconds)
            name = named(f"{draw.__name__}, a {what}", problem)
            print(f"{name:42} {min(shares):.2f} to {max(shares):.2f} of a fresh call", flush=True)


def drawn(dice):
    """A problem with every feature; some have no plan."""
    n, m = dice.integers(1, 40), dice.integers(1, 40)
    rows, columns = numpy.nonzero(dice.random((n, m)) < dice.choice([.15, .4, .8, 1]))
    most = int(dice.choice([1, 3, 30, 1000, 10**6, 10**12]))
    row_most = dice.integers(0, dice.choice([2, 4, 8]), n)
    row_least = (row_most * dice.random(n) * dice.choice([0, .5, 1, 1.3])).astype(int).clip(0, row_most)
    column_most = dice.integers(0, max(2, 2 * row_most.sum() // m + 2), m)
    column_least = (column_most * dice.random(m) * dice.choice([0, .3, .6])).astype(int)
    groups = dice.integers(0, dice.integers(1, m + 1) + 1, m).clip(0, m) if dice.random() < .6 else None
    return Problem((n, m), rows + 1, columns + 1, dice.integers(-most, most + 1, len(rows)), (row_least, row_most),
                   (column_least, column_most), groups)


def compare_drawn(peer, count=5000):
    plans = 0
    for seed in range(count):
        problem = drawn(numpy.random.default_rng(seed))
        answer = Answer(problem)
        costs = {lemon(peer, problem, False)[0]}
        if seed % 10 == 0 and len(problem.costs) and abs(problem.costs).max() <= 10**6:
            costs.add(highs(problem))
        if answer.code not in (BEST, ROWS_LACK, COLUMNS_LACK) or costs != {answer.cost}:
            sys.exit(f"drawn {seed}: code {answer.code}, cost {answer.cost}, the others {costs}")
        plans += answer.code == BEST
    print(f"{count} drawn: {plans} with a plan, {count - plans} without; LEMON and HiGHS find the same")


def least_of_all(problem):
    """The least cost of all plans, or None."""
    pairs = list(zip((problem.rows - 1).tolist(), (problem.columns - 1).tolist(), problem.costs.tolist()))
    best = None
    for size in range(len(pairs) + 1):
        for chosen in itertools.combinations(pairs, size):
            cost = sum(one[2] for one in chosen)
            if (best is None or cost < best) and keeps(problem, chosen):
                best = cost
    return best


def keeps(problem, chosen):
    at_rows, at_columns, groups = [0] * problem.n, [0] * problem.m, set()
    for i, j, _ in chosen:
        at_rows[i] += 1
        at_columns[j] += 1
        groups.add((i, problem.groups[j] or -1 - j))
    counts = ((at_rows, problem.row_least, problem.row_most), (at_columns, problem.column_least, problem.column_most))
    return len(groups) == len(chosen) and all(low <= count <= high for one, least, most in counts
                                              for low, count, high in zip(least.tolist(), one, most.tolist()))


def compare_tiny(count=2000):
    for seed in range(count):
        dice = random.Random(seed)
        n, m = dice.randint(1, 4), dice.randint(1, 4)
        every = [(i, j) for i in range(1, n + 1) for j in range(1, m + 1)]
        pairs = sorted(dice.sample(every, dice.randint(0, min(10, n * m))))
        least = [dice.choice([0, 0, 1, 2]) for _ in range(n + m)]
        most = [low + dice.choice([0, 1, 2]) for low in least]
        problem = Problem((n, m), [i for i, _ in pairs], [j for _, j in pairs], [dice.randint(-9, 9) for _ in pairs],
                          (least[:n], most[:n]), (least[n:], most[n:]), [dice.randint(0, min(2, m)) for _ in range(m)])
        answer, best = Answer(problem), least_of_all(problem)
        if answer.code not in (BEST, ROWS_LACK, COLUMNS_LACK) or answer.cost != best:
            sys.exit(f"tiny {seed}: code {answer.code}, cost {answer.cost}, of all plans {best}")
    print(f"{count} tiny ones: a search of all plans finds the same")


def main():
    words = sys.argv[1:] or ["times", "drawn", "tiny"]
    LIBRARY.nushbaret_counts_from.restype = c_int32
    peer = lemon_library()
    if "times" in words:
        # First: its memory shows as far as nothing before took more.
        time_million()
        time_kinds(peer)
        time_ones()
        time_warm()
    if "tiny" in words:
        compare_tiny()
    if "drawn" in words:
        compare_drawn(peer)


if __name__ == "__main__":
    main()
