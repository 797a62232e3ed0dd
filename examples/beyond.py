#!/usr/bin/env python3
"""Pairs points of two cities at the least sum of squared distances, without a matrix: examples/beyond.py [POINTS]
[SCHEDULER].

The costs of 20,000 x 20,000 points would take 3.2 GB; they are made where they are looked at, and this takes some 300
MB. With the address of a scheduler of Dask its workers look, else this process does. It needs NumPy, and shows its
passes by tqdm where that is there."""
import sys

import numpy

from nushbaret import beyond


class Distances:
    """Squared distances in whole metres between points of two cities, ten kilometres wide."""

    def __init__(self, points: int):
        random = numpy.random.default_rng(1)
        self.homes = numpy.rint(random.normal(0, 5000, (points, 2)))
        self.places = numpy.rint(random.normal(500, 5000, (points, 2)))
        self.shape = points, points

    def __call__(self, first: int, last: int) -> numpy.ndarray:
        costs = numpy.subtract.outer(self.homes[first:last, 0], self.places[:, 0]) ** 2
        costs += numpy.subtract.outer(self.homes[first:last, 1], self.places[:, 1]) ** 2
        return costs.astype(numpy.int64)


def progress():
    """What shows each pass: a bar, or a line."""
    try:
        from tqdm import tqdm
    except ImportError:
        return lambda number, gap, pairs: print(f"pass {number}: a gap of {gap}, {pairs} pairs", file=sys.stderr)
    bar = tqdm(unit=" passes")

    def show(number, gap, pairs):
        bar.update(number - bar.n)
        bar.set_postfix(gap=gap, pairs=pairs)
    return show


def many_problems(client, count: int, together: int = 100000) -> int:
    """The sum of the least costs of many problems of 12 x 12. A task costs as much as a thousand of them: so each task
    makes and solves a hundred thousand, in half a second."""
    def batch(seed: int) -> int:
        import nushbaret
        costs = numpy.random.default_rng(seed).integers(0, 100, (together, 12, 12), numpy.int16)
        columns = nushbaret.linear_sum_assignment_batch(costs)[1]
        return int(numpy.take_along_axis(costs, numpy.asarray(columns)[:, :, None], 2).sum(dtype=int))
    return sum(client.gather(client.map(batch, range(count // together))))


def main() -> None:
    costs = Distances(int(sys.argv[1]) if sys.argv[1:] else 20000)
    if not sys.argv[2:]:
        print(beyond.solve(costs, costs.shape, progress=progress()))
        return
    from distributed import Client
    with Client(sys.argv[2]) as client:
        print(beyond.solve(costs, costs.shape, client, progress=progress()))
        print("a million small problems:", many_problems(client, 10**6))


if __name__ == "__main__":
    main()
