"""Costs as they are made, block by block, and the best plan of a whole matrix by SciPy or by the package."""
import numpy

import nushbaret


class Points:
    """Distances in the plane, squared as whole numbers or as they are; clustered ones have a structure."""

    def __init__(self, n, m, seed=1, squared=False, clustered=False):
        random = numpy.random.default_rng(seed)
        self.x, self.y = random.random((n, 2)), random.random((m, 2)) ** (3 if clustered else 1)
        self.shape, self.squared = (n, m), squared
        if squared:
            self.x, self.y = numpy.rint(self.x * 1e5), numpy.rint(self.y * 1e5)

    def __call__(self, first, last):
        found = ((self.x[first:last, None] - self.y) ** 2).sum(2)
        return found.astype(numpy.int64) if self.squared else numpy.sqrt(found)


class Products:
    """i * j."""

    def __init__(self, n, m):
        self.shape = n, m

    def __call__(self, first, last):
        return numpy.outer(numpy.arange(first + 1, last + 1), numpy.arange(1, self.shape[1] + 1))


def kinds(random, n, m):
    """Ten kinds of matrices."""
    points = Points(n, m, int(random.integers(2**31)))(0, n)
    forbidden = points.copy()
    forbidden[random.random((n, m)) < random.choice([0.6, 0.95])] = numpy.inf
    yield "uniform", random.integers(0, 10**6, (n, m))
    yield "ten values", random.integers(0, 10, (n, m), dtype=numpy.int8)
    yield "points", points
    yield "squared", Points(n, m, int(random.integers(2**31)), squared=True)(0, n)
    yield "clustered", Points(n, m, int(random.integers(2**31)), clustered=True)(0, n)
    yield "products", Products(n, m)(0, n)
    yield "ties of doubles", numpy.rint(points * 8) / 8 + 0.1
    yield "forbidden", forbidden
    yield "normal", random.normal(size=(n, m))
    yield "whole doubles", numpy.exp(random.normal(size=(n, m)) * 3).round()


def best(costs, maximize=False):
    """The least cost, or the greatest; None where there is no plan."""
    try:
        return nushbaret.solve(costs, maximize=maximize).cost
    except nushbaret.Infeasible:
        return None
