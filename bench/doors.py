#!/usr/bin/env python3
"""Times what callers really hand over, next to SciPy on the plain array of doubles and to the library's own call, all
in one run: the least of several turns, in the thread's processor time. PYTHONPATH=python, with NumPy and SciPy; pandas
where it is there.

    bench/doors.py [kinds|single|whole|doubles|sparse|unmatched|thresholds ..]
"""
import ctypes
import sys
import time
from array import array

import numpy as np
from scipy.optimize import linear_sum_assignment as scipys

import nushbaret
from nushbaret.lap import library

try:
    import pandas
except ImportError:
    pandas = None
SIZES = 2, 3, 5, 10, 20, 50, 100, 300
RNG = np.random.default_rng(82)


def least(calls, turns=9, target=0.004):
    """The least time of one run of each call, in turns."""
    counts = {}
    for name, call in calls.items():
        call()
        begin = time.thread_time()
        call()
        call()
        counts[name] = max(1, min(20000, int(target / max((time.thread_time() - begin) / 2, 1e-7))))
    found = {}
    for _ in range(turns):
        for name, call in calls.items():
            begin = time.thread_time()
            for _ in range(counts[name]):
                call()
            found[name] = min((time.thread_time() - begin) / counts[name], found.get(name, 1e9))
    return found


def forms(costs):
    """A matrix of doubles in each form."""
    whole = np.rint(costs * 1000).astype(np.int64)
    found = {"float64": costs, "fortran": np.asfortranarray(costs), "masked": np.ma.array(costs),
             "float32": costs.astype(np.float32), "int64": whole, "object": costs.astype(object)}
    if pandas:
        found["frame"] = pandas.DataFrame(costs)
        mixed = pandas.DataFrame(costs * 1000)
        mixed[0] = whole[:, 0]
        found["mixed frame"] = mixed
    return found


def all_of(call, matrices):
    """A call for each of some matrices."""
    return lambda: [call(costs) for costs in matrices]


def kinds():
    """linear_sum_assignment of each form: its time by SciPy's on the plain array of doubles. Up to 20 rows, where times
    differ by the matrix, it is the time of 20 drawn ones."""
    print("form", *SIZES, sep="\t")
    table = {}
    for n in SIZES:
        drawn = [forms(RNG.random((n, n))) for _ in range(20 if n <= 20 else 1)]
        for name in drawn[0]:
            own = [one[name] for one in drawn]
            plain = own if name == "object" else [np.asarray(form, float).copy() for form in own]
            scipy = (lambda costs: scipys(costs.astype(float))) if name == "object" else scipys
            found = least({"own": all_of(nushbaret.linear_sum_assignment, own), "scipy": all_of(scipy, plain)})
            table.setdefault(name, []).append(found["own"] / found["scipy"])
    for name, ratios in table.items():
        print(name, *(f"{ratio:.2f}" for ratio in ratios), sep="\t")


def single():
    """solve of float32 by solve of float64."""
    for n in SIZES:
        costs = RNG.random((n, n))
        short = costs.astype(np.float32)
        found = least({"own": lambda: nushbaret.solve(short), "wide": lambda: nushbaret.solve(costs)})
        print(f"solve, float32 by float64, n = {n}: {found['own'] / found['wide']:.2f}")


def bare(costs):
    """The library's call for whole numbers alone."""
    n, m = costs.shape
    room = array("I", bytes(4 * n)), array("I", bytes(4 * n)), array("q", bytes(8 * m))
    return lambda: library.call("dense", False, n, m, costs.ravel(), *room)


def whole_kinds(n):
    """Twenty kinds of whole costs."""
    i, j = np.arange(n)[:, None] + 1, np.arange(n)[None, :] + 1
    points, others = RNG.integers(0, 10**4, (2, n, 2))
    far = np.abs(points[:, None] - others[None]).sum(-1)
    drawn = RNG.integers
    few = drawn(0, 10, (n, n))
    return {"to 10": few, "to 100": drawn(0, 100, (n, n)),
            "to 1000": drawn(0, 1000, (n, n)), "to 10^6": drawn(0, 10**6, (n, n)),
            "to 10^9": drawn(0, 10**9, (n, n)), "to 10^12": drawn(0, 10**12, (n, n)),
            "i * j": i * j, "-i * j": -i * j,
            "i + j": i + j, "(i - j)^2": (i - j)**2, "i^2 j": i * i * j, "ones": np.ones((n, n), int),
            "0 or 1": drawn(0, 2, (n, n)),
            "rows alike": np.broadcast_to(drawn(0, 10**6, n), (n, n)).copy(), "columns alike":
            np.broadcast_to(drawn(0, 10**6, n)[:, None], (n, n)).copy(),
            "distances": far, "squares of distances": far**2,
            "sums": drawn(0, 10**5, (n, 1)) + drawn(0, 10**5, (1, n)) + few,
            "products": drawn(1, 1000, (n, 1)) * drawn(1, 1000, (1, n)),
            "negative": drawn(-10**6, 10**6, (n, n))}


def whole():
    """linear_sum_assignment of int64 by the library's call."""
    for n in (100, 200, 500, 1000):
        ratios = {}
        for name, costs in whole_kinds(n).items():
            found = least({"own": lambda: nushbaret.linear_sum_assignment(costs), "library": bare(costs)}, 5)
            ratios[name] = found["own"] / found["library"]
        worst = max(ratios, key=ratios.get)
        print(f"int64 by the library's call, n = {n}: at most {ratios[worst]:.2f} ({worst})")


def doubles():
    """linear_sum_assignment of uniform doubles by the library's call."""
    call = ctypes.CFUNCTYPE(ctypes.c_int32, ctypes.c_uint32, *[ctypes.c_size_t] * 2,
                            *[ctypes.c_void_p, ctypes.c_size_t] * 4,
                            ctypes.c_void_p)(library.address("nushbaret_doubles"))
    for n in (500, 1000, 2060, 4000):
        costs = RNG.random((n, n))
        room = [np.zeros(n, np.uint32), np.zeros(n, np.uint32), np.zeros(n), np.zeros(8, np.uint64)]
        words = [word for values in [costs, *room[:3]] for word in (values.ctypes.data, values.size)]
        found = least({"own": lambda: nushbaret.linear_sum_assignment(costs),
                       "library": lambda: call(0, n, n, *words, room[3].ctypes.data),
                       "scipy": lambda: scipys(costs)}, 3)
        print(f"doubles, n = {n}: {found['own'] / found['library']:.2f} of the library's call, "
              f"{found['own'] / found['scipy']:.2f} of SciPy's")


def sparse():
    """solve_sparse by SciPy's call for sparse matrices."""
    from scipy.sparse import csr_matrix
    from scipy.sparse.csgraph import min_weight_full_bipartite_matching
    for n in (10, 30, 100, 300, 1000):
        for name, draw in (("whole", lambda shape: RNG.integers(1, 1000, shape)),
                           ("doubles", lambda shape: RNG.random(shape) + 0.1)):
            allowed = RNG.random((n, n)) < max(0.1, 4 / n)
            np.fill_diagonal(allowed, True)
            costs = csr_matrix(draw((n, n)) * allowed)
            found = least({"own": lambda: nushbaret.solve_sparse(costs),
                           "scipy": lambda: min_weight_full_bipartite_matching(costs)}, 5)
            print(f"sparse, {name}, n = {n}: {found['own'] / found['scipy']:.2f} of SciPy's "
                  f"({found['own'] * 1e6:.0f} us)")


def unmatched():
    """unmatched_cost by SciPy's call on a matrix with dummies of the caller's."""
    limit = 0.3
    for n in (10, 20, 50, 100, 300):
        costs = RNG.random((n, n))

        def dummies():
            more = np.full((2 * n, 2 * n), limit / 2)
            more[:n, :n], more[n:, n:] = costs, 0
            rows, columns = scipys(more)
            own = (rows < n) & (columns < n)
            return rows[own], columns[own]
        found = least({"own": lambda: nushbaret.linear_sum_assignment(costs, unmatched_cost=limit), "scipy": dummies})
        print(f"unmatched_cost, n = {n}: {found['own'] / found['scipy']:.2f} of SciPy's with dummies "
              f"({found['own'] * 1e6:.0f} us)")


def thresholds():
    """Whole numbers by the doubles' call and by their own, through ctypes: where the second is sooner."""
    call = ctypes.CFUNCTYPE(ctypes.c_int32, ctypes.c_uint32, *[ctypes.c_size_t] * 2,
                            *[ctypes.c_void_p, ctypes.c_size_t] * 4,
                            ctypes.c_void_p)(library.address("nushbaret_doubles"))
    for n in (5, 10, 20, 30, 50, 80, 120):
        ratios = {}
        for name, costs in whole_kinds(n).items():
            wide = costs.astype(float)
            room = [np.zeros(n, np.uint32), np.zeros(n, np.uint32), np.zeros(n), np.zeros(8, np.uint64)]
            words = [word for values in [wide, *room[:3]] for word in (values.ctypes.data, values.size)]
            found = least({"doubles": lambda: call(0, n, n, *words, room[3].ctypes.data), "whole": bare(costs)}, 5)
            ratios[name] = found["whole"] / found["doubles"]
        ordered = sorted(ratios.values())
        middle = ordered[len(ordered) // 2]
        print(f"whole by doubles, n = {n}: {ordered[0]:.2f} to {ordered[-1]:.2f}, median {middle:.2f}")


if __name__ == "__main__":
    for part in sys.argv[1:] or ("kinds", "single", "whole", "doubles", "sparse", "unmatched"):
        globals()[part]()
