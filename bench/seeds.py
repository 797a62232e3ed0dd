#!/usr/bin/env python3
"""Draws points again and again, and prints how far the longest search is from the median.

bench/seeds.py [KIND ROWS FIRST LAST] at the top of the repository, after c/build.sh built the library; it needs NumPy
and SciPy. KIND is plane, space, line or cluster: rows and columns are points, and costs their distances times 10^6 as
whole numbers, or doubles where `-doubles` follows. Without words it draws each kind twenty times at 2000 and 4000 rows.
"""
import ctypes
import sys
import time

import numpy

from counts import BEST, LIBRARY, lent

DIMENSIONS = {"plane": 2, "space": 3, "line": 1, "cluster": 2}
CLUSTERS, SPREAD = 10, 0.02


def distances(kind, rows, seed):
    """The costs of a draw."""
    dice, dimensions = numpy.random.default_rng(seed), DIMENSIONS[kind.removesuffix("-doubles")]
    sides = [dice.random((rows, dimensions)) for _ in range(2)]
    if kind.startswith("cluster"):
        middles = dice.random((CLUSTERS, dimensions))
        sides = [middles[dice.integers(0, CLUSTERS, rows)] + SPREAD * dice.standard_normal((rows, dimensions))
                 for _ in range(2)]
    costs = numpy.sqrt(sum((sides[0][:, None, axis] - sides[1][None, :, axis])**2 for axis in range(dimensions)))
    return costs if kind.endswith("-doubles") else numpy.rint(costs * 10**6).astype(numpy.int64)


def seconds(costs):
    """Processor time of a call, whose answer must be a best assignment."""
    (n, m), is_whole = costs.shape, costs.dtype == numpy.int64
    objects, persons = numpy.zeros(n, numpy.uint32), numpy.zeros(m, numpy.uint32)
    prices, info = numpy.zeros(m, numpy.int64 if is_whole else float), (ctypes.c_uint64 * 16)()
    call = LIBRARY.nushbaret_dense if is_whole else LIBRARY.nushbaret_doubles
    begin = time.process_time()
    code = call(ctypes.c_uint32(0), ctypes.c_size_t(n), ctypes.c_size_t(m), *lent(costs), *lent(objects),
                *lent(persons), *lent(prices), info)
    if code != BEST:
        sys.exit(f"code {code}")
    return time.process_time() - begin


def draw(kind, rows, first, last):
    times = numpy.array([seconds(distances(kind, rows, seed)) for seed in range(first, last)])
    print(f"{kind:16} {rows:5} rows, seeds {first} to {last - 1}: median {numpy.median(times):.3f} s, the longest "
          f"{times.max() / numpy.median(times):.2f} of it (seed {first + times.argmax()})", flush=True)


def main():
    if len(sys.argv) == 5:
        draw(sys.argv[1], *map(int, sys.argv[2:]))
        return
    for rows in (2000, 4000):
        for kind in DIMENSIONS:
            for suffix in ("", "-doubles"):
                draw(kind + suffix, rows, 0, 20)


main()
