#!/usr/bin/env python3
"""Times questions about a plan from Python, as multiples of one call of nushbaret_dense on the same matrix.

bench/questions.py [SIZE..] at the top of the repository, after c/build.sh built the library; PYTHONPATH=python. A
size is N or NxM; without one 10, 50, 300, 300x600 and 1000. It needs NumPy. All take turns in one run, and of each the
least processor time counts. Below 100 rows it also prints what ten plans take above nine solves, in microseconds. The
groups that can change places, and a plan of the fewest changes, are asked as the command does it for a roster.

Kinds: uniform to 10^6; points (distances in a square); products i * j; few (0..4); hundred (0..99); overlaps of boxes;
sums (x_i + y_j + 0..99).
"""
import itertools
import sys
import time
from array import array

import numpy
import nushbaret
from nushbaret.lap import fewest, library
from nushbaret.lap.solving import best_plan, rents_of
from nushbaret.roster import single_nodes

SECONDS, MOST = 2.0, 40


def uniform(dice, n, m):
    return dice.integers(0, 10**6, (n, m))


def points(dice, n, m):
    rows, columns = dice.random((n, 2)) * 10**4, dice.random((m, 2)) * 10**4
    return (numpy.hypot(*(rows[:, None, :] - columns[None, :, :]).transpose(2, 0, 1)) * 100).astype(numpy.int64)


def products(_, n, m):
    return numpy.multiply.outer(numpy.arange(1, n + 1), numpy.arange(1, m + 1))


def few(dice, n, m):
    return dice.integers(0, 5, (n, m))


def hundred(dice, n, m):
    return dice.integers(0, 100, (n, m))


def overlaps(dice, n, m):
    """A million times one less the share of two boxes' union that both cover."""
    rows = dice.random((n, 2)) * 100
    columns = numpy.concatenate([rows[:min(n, m)], dice.random((max(0, m - n), 2)) * 100])
    columns = columns + dice.normal(0, 2, columns.shape)
    both = numpy.clip(10 - abs(rows[:, None, :] - columns[None, :, :]), 0, None).prod(axis=2)
    return (10**6 * (1 - both / (200 - both))).astype(numpy.int64)


def sums(dice, n, m):
    return numpy.add.outer(dice.integers(0, 10**5, n), dice.integers(0, 10**5, m)) + dice.integers(0, 100, (n, m))


KINDS = (uniform, points, products, few, hundred, overlaps, sums)


def questions(costs):
    """The questions by their names, each a function without arguments."""
    n, m = costs.shape
    flat, sizes = array("q", costs.ravel().tolist()), (n, m)
    objects, persons, prices = array("I", bytes(4 * n)), array("I", bytes(4 * n)), array("q", bytes(8 * m))
    kept, one, now = nushbaret.Assigner(costs), nushbaret.Assigner(costs), costs.copy()
    kept.result, one.result
    dice = numpy.random.default_rng(5)

    nodes = single_nodes.RosterNodes(
        [*range(n)], [*range(m)], array("I", numpy.repeat(numpy.arange(n), m).tolist()),
        array("I", [*range(m)] * n), flat, True)
    before = set(nushbaret.solve(costs[:, ::-1]).pairs)

    def groups():
        single_nodes.swaps_of(nodes, best_plan(single_nodes.problem_of(nodes, flat)))

    def fewest_changes():
        best = fewest.fewest_changes(single_nodes.problem_of(nodes, flat), nodes.numbered(before))
        rents_of(best)

    def dense():
        library.call("dense", False, *sizes, flat, objects, persons, prices)

    rows, columns = (itertools.cycle([(place, dice.permutation(lines[place])) for place in range(0, len(lines), 3)])
                     for lines in (costs, costs.T))

    def changed_row():
        kept.update(*next(rows))
        kept.result

    def changed_column():
        kept.update_column(*next(columns))
        kept.result

    def changed_cost():
        row, other = next(rows)
        now[row, 0] = other[0]
        one.update(row, now[row])
        one.result

    return {"dense": dense, "solve": lambda: nushbaret.solve(costs),
            "only one": lambda: nushbaret.solve(costs).is_unique(),
            "next": lambda: nushbaret.solve(costs).next_best(), "ten": lambda: list(nushbaret.k_best(costs, 10)),
            "hundred": lambda: list(nushbaret.k_best(costs, 100)), "worst pair": lambda: nushbaret.bottleneck(costs),
            "changed row": changed_row, "changed column": changed_column, "changed cost": changed_cost,
            "groups": groups, "fewest changes": fewest_changes}


def seconds_of(run):
    """The lesser processor time of two calls in a row: the first one may find the matrix out of the cache."""
    begin = time.thread_time()
    run()
    between = time.thread_time()
    run()
    return min(between - begin, time.thread_time() - between)


def least_times(asked):
    """The least processor time of each; they take turns."""
    least, begin = {}, time.monotonic()
    for turn in range(MOST):
        for name, run in asked.items():
            least[name] = min(seconds_of(run), least.get(name, 1e9))
        if turn and time.monotonic() - begin > SECONDS:
            break
    return least


def main(sizes):
    for size in sizes:
        n, m = (int(side) for side in (size.split("x") * 2)[:2])
        for seed, draw in enumerate(KINDS):
            least = least_times(questions(draw(numpy.random.default_rng(seed), n, m)))
            dense = least.pop("dense")
            above = f"; ten {1e6 * (least['ten'] - 9 * dense):.0f} us above nine" if n < 100 else ""
            print(f"{draw.__name__:9} {n} x {m}: dense {1e6 * dense:.0f} us;",
                  ", ".join(f"{name} {seconds / dense:.2f}" for name, seconds in least.items()) + above, flush=True)


if __name__ == "__main__":
    main(sys.argv[1:] or ["10", "50", "300", "300x600", "1000"])
