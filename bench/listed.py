#!/usr/bin/env python3
"""Measures searches over listed pairs of kinds that once took long, next to SciPy's.

bench/listed.py [KIND ROWS [SEED]] at the top of the repository, after c/build.sh built the library; it needs NumPy
and SciPy. Without words it draws each kind at the size at which it took long. It prints seconds of processor time,
the least of three, of a call of the library and of min_weight_full_bipartite_matching, which is cut off after
LIMIT seconds, and their ratio. `write FILE KIND ROWS [SEED]` writes the problem: n, m, pairs and 0 as 64-bit
numbers, where each row begins, columns of 32 bits, costs of 64.
"""
import ctypes
import multiprocessing
import sys
import time

import numpy
from counts import BEST, LIBRARY, lent
from scipy import sparse
from scipy.sparse import csgraph

HALL = 1
LIMIT = 20
TIMES = 3
SIZES = {"reserve": 16000, "reserve_sums": 16000, "reserve_half": 16000, "sums_wide": 8000, "neighbours_reserve": 8000,
         "lower_3": 7938, "lower_6": 7938, "lower_20": 7938, "lower_one_more": 7938, "product_triangle": 300,
         "wide_product_triangle": 300, "sum_triangle": 300, "grid_1": 13456, "grid_2": 13456, "grid_4": 13456,
         "neighbours": 8000, "products": 36104, "three_pairs": 10000, "three_pairs_all": 10000}


def drawn(dice, n, m, each):
    """So many pairs for each row; some may be drawn twice."""
    return numpy.repeat(numpy.arange(n), each), dice.integers(0, m, n * each)


def with_own(rows, columns, n, first):
    """A pair more for each row, with a column of its own from the first one on."""
    return numpy.r_[rows, numpy.arange(n)], numpy.r_[columns, first + numpy.arange(n)]


def sums(dice, shape, rows, columns, noise):
    """Costs a + b + noise."""
    a, b = (dice.integers(0, 10**6, size) for size in shape)
    return a[rows] + b[columns] + dice.integers(0, noise, len(rows))


def reserve(dice, n, shared, dear):
    """Ten pairs a row with shared columns, and one of its own in reserve, dearer by so much."""
    rows, columns = with_own(*drawn(dice, n, shared, 10), n, shared)
    costs = sums(dice, (n, shared + n), rows, columns, 1000) + dear * (columns >= shared)
    return shared + n, rows, columns, costs


def sums_wide(dice, n):
    m = n * 3 // 2
    rows, columns = with_own(*drawn(dice, n, m, 9), n, 0)
    return m, rows, columns, sums(dice, (n, m), rows, columns, 50)


def lower(dice, n, width, more=0):
    """Each row lists its own column and those before it."""
    rows = numpy.repeat(numpy.arange(n), width + 1)
    columns = rows - numpy.tile(numpy.arange(width + 1), n)
    inside = columns >= 0
    return n + more, rows[inside], columns[inside], dice.integers(0, 500000, inside.sum())


def triangle(n, is_inside):
    """Costs i * j of the pairs inside."""
    i, j = numpy.indices((n, n)) + 1
    rows, columns = numpy.nonzero(is_inside(i, j))
    return n, rows, columns, (rows + 1) * (columns + 1)


def grid(dice, n, width):
    """Cells with their neighbours, at costs whose logarithms are normal."""
    side = int(n**.5)
    at = numpy.arange(side * side)
    x, y = at % side, at // side
    steps = [(x + right, y + down) for right, down in ((0, 0), (1, 0), (-1, 0), (0, 1), (0, -1))]
    inside = [(right >= 0) & (right < side) & (down >= 0) & (down < side) for right, down in steps]
    rows = numpy.concatenate([at[kept] for kept in inside])
    columns = numpy.concatenate([(right + side * down)[kept] for (right, down), kept in zip(steps, inside)])
    return side * side, rows, columns, numpy.exp(width * dice.standard_normal(len(rows)) + 10).astype(numpy.int64)


def neighbours(dice, n, has_reserve):
    """Points with their eight nearest ones and a dear column, which others have too or nobody else has."""
    sides = dice.random((2, n, 2))
    near = numpy.array([numpy.argpartition(((point - sides[1])**2).sum(axis=1), 8)[:8] for point in sides[0]])
    rows = numpy.repeat(numpy.arange(n), 8)
    costs = numpy.sqrt(((sides[0][rows] - sides[1][near.ravel()])**2).sum(axis=1)) * 10**6
    own = n + numpy.arange(n) if has_reserve else dice.permutation(n)
    return (2 * n if has_reserve else n, numpy.r_[rows, numpy.arange(n)], numpy.r_[near.ravel(), own],
            numpy.r_[costs.astype(numpy.int64), numpy.full(n, 50000 if has_reserve else 10**9)])


def products(dice, n):
    rows, columns = with_own(*drawn(dice, n, n, 10), n, 0)
    return n, rows, columns, (rows + 1) * (columns + 1)


def three_pairs(dice, n, are_all_listed):
    """Three pairs a row, too few for an assignment."""
    rows, columns = drawn(dice, n, n, 3)
    if are_all_listed:
        columns[:n] = dice.permutation(n)
    return n, rows, columns, dice.integers(0, 1000, len(rows))


KINDS = {
    "reserve": lambda dice, n: reserve(dice, n, n, 10**6),
    "reserve_sums": lambda dice, n: reserve(dice, n, n, 0),
    "reserve_half": lambda dice, n: reserve(dice, n, n // 2, 10**6),
    "sums_wide": sums_wide,
    "neighbours_reserve": lambda dice, n: neighbours(dice, n, True),
    "lower_3": lambda dice, n: lower(dice, n, 3),
    "lower_6": lambda dice, n: lower(dice, n, 6),
    "lower_20": lambda dice, n: lower(dice, n, 20),
    "lower_one_more": lambda dice, n: lower(dice, n, 3, 1),
    "product_triangle": lambda dice, n: triangle(n, lambda i, j: i * j <= (n + 1)**2 // 4 + n),
    "wide_product_triangle": lambda dice, n: triangle(n, lambda i, j: i * j <= (n + 1)**2 // 2),
    "sum_triangle": lambda dice, n: triangle(n, lambda i, j: i + j <= n + 1),
    "grid_1": lambda dice, n: grid(dice, n, 1),
    "grid_2": lambda dice, n: grid(dice, n, 2),
    "grid_4": lambda dice, n: grid(dice, n, 4),
    "neighbours": lambda dice, n: neighbours(dice, n, False),
    "products": products,
    "three_pairs": lambda dice, n: three_pairs(dice, n, False),
    "three_pairs_all": lambda dice, n: three_pairs(dice, n, True)}


def problem(kind, n, seed):
    """Rows, columns, and pairs by rows, each once."""
    m, rows, columns, costs = KINDS[kind](numpy.random.default_rng([seed, n]), n)
    _, firsts = numpy.unique(rows * m + columns, return_index=True)
    return int(rows.max()) + 1, m, rows[firsts], columns[firsts], costs[firsts].astype(numpy.int64)


def ours(n, m, rows, columns, costs):
    """Seconds of a call."""
    lists = [numpy.ascontiguousarray(one + 1, numpy.uint32) for one in (rows, columns)] + [costs]
    written = [numpy.zeros(n, numpy.uint32), numpy.zeros(n, numpy.uint32), numpy.zeros(m, numpy.int64)]
    buffers, info = [word for one in lists + written for word in lent(one)], (ctypes.c_uint64 * 16)()
    begin = time.process_time()
    code = LIBRARY.nushbaret_sparse(ctypes.c_uint32(0), ctypes.c_size_t(n), ctypes.c_size_t(m), *buffers, info)
    seconds = time.process_time() - begin
    if code not in (BEST, HALL):
        raise RuntimeError(f"code {code}")
    return seconds


def theirs(n, m, rows, columns, costs):
    """Seconds of SciPy's call, whose costs may not be 0."""
    graph = sparse.csr_matrix(((costs - costs.min() + 1).astype(float), (rows, columns)), (n, m))
    begin = time.process_time()
    try:
        csgraph.min_weight_full_bipartite_matching(graph)
    except ValueError:
        pass
    return time.process_time() - begin


def least(call, given):
    """The least seconds of a few calls in a process of its own, or None where they take too long."""
    with multiprocessing.get_context("fork").Pool(1) as pool:
        try:
            return min(pool.apply_async(call, given).get(LIMIT) for _ in range(TIMES))
        except multiprocessing.TimeoutError:
            return None


def measure(kind, n, seed):
    given = problem(kind, n, seed)
    seconds, peer = least(ours, given), least(theirs, given)
    said = [f"over {LIMIT}" if one is None else f"{one:.4f}" for one in (seconds, peer)]
    ratio = f"{seconds / max(peer, 1e-4):.2f}" if seconds and peer else "-"
    print(f"{kind:22} {n:6} rows: {said[0]} s, SciPy {said[1]} s, ratio {ratio}", flush=True)


def write(path, kind, n, seed):
    n, m, rows, columns, costs = problem(kind, n, seed)
    with open(path, "wb") as file:
        numpy.array([n, m, len(rows), 0], numpy.uint64).tofile(file)
        numpy.searchsorted(rows, numpy.arange(n + 1)).astype(numpy.uint64).tofile(file)
        columns.astype(numpy.uint32).tofile(file)
        costs.tofile(file)


def main():
    words = sys.argv[1:]
    if words[:1] == ["write"]:
        path, kind, n, *seed = words[1:]
        write(path, kind, int(n), *map(int, seed or [1]))
        return
    if words:
        kind, n, *seed = words
        measure(kind, int(n), *map(int, seed or [1]))
        return
    for kind, n in SIZES.items():
        measure(kind, n, 1)


main()
