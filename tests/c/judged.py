"""Problems for calls of the shared library, which is the script's first word, and the definitions that answers are
judged by."""
import ctypes
import sys
from ctypes import c_size_t, c_uint32, c_uint64

import numpy as np

BEST, HALL, COST, PRICE, STOPPED, UNDECIDED, TIED, ALONE = 0, 1, 7, 8, 21, 23, 24, 25
GREATEST_COST, GREATEST_PRICE, GREATEST_WIDE = 10**12, 9 * 10**18, 2**124
NO_PAIRS = np.zeros(0, np.uint32)
library = ctypes.CDLL(sys.argv[1])


def want(holds, *what):
    if not holds:
        raise AssertionError(" ".join(map(str, what)))


def pointers(values):
    return ctypes.c_void_p(values.ctypes.data), c_size_t(len(values))


def call(name, sense, shape, *lists, more=()):
    """The code of a call, and its info as words; numbers of two words stand in rows. `sense` is None where it has
    none."""
    info = (c_uint64 * 8)()
    words = [word for values in lists for word in pointers(values)]
    head = [] if sense is None else [c_uint32(sense)]
    return getattr(library, f"nushbaret_{name}")(*head, *map(c_size_t, shape), *words, *more, info), info


class Problem:
    """Pairs with whole costs, dense or listed, some twice; and where an answer goes."""

    def __init__(self, draw, most, span, share=0.0):
        self.shape = n, m = draw.randint(1, most), draw.randint(1, most + 1)
        self.sense, self.is_dense = draw.randrange(2), draw.random() < 0.5
        places = range(n * m) if self.is_dense else [place for place in range(n * m) if draw.random() >= share
                                                     for _ in range(1 + (draw.random() < 0.1))]
        self.rows, self.columns = ([place // m for place in places], [place % m for place in places])
        self.costs = np.array([draw.randint(-span, span) for _ in places], np.int64)
        self.pairs = (NO_PAIRS, NO_PAIRS) if self.is_dense else (
            np.array(self.rows, np.uint32) + 1, np.array(self.columns, np.uint32) + 1)
        self.objects, self.persons, self.few = (np.zeros(n, np.uint32) for _ in range(3))
        self.prices = np.zeros(m, np.int64)

    def lists(self):
        return (*self.pairs, self.costs)

    def solve(self):
        name, lists = ("dense", [self.costs]) if self.is_dense else ("sparse", self.lists())
        return call(name, self.sense, self.shape, *lists, self.objects, self.persons, self.prices)

    def is_certificate(self, costs, objects, prices, greatest):
        """Whether prices prove objects best at costs, which are exact numbers as prices are."""
        (n, m), objects = self.shape, list(map(int, objects))
        if len(set(objects)) < n or not all(1 <= item <= m for item in objects):
            return False
        if any(not 0 <= price <= greatest or price and item not in objects for item, price in enumerate(prices, 1)):
            return False
        own, least = [None] * n, [None] * n
        for row, column, cost in zip(self.rows, self.columns, costs):
            paid = (-cost if self.sense else cost) + prices[column]
            least[row] = paid if least[row] is None else min(least[row], paid)
            if objects[row] == column + 1:
                own[row] = paid if own[row] is None else min(own[row], paid)
        return None not in own and own == least

    def is_hall_set(self, persons, objects, better=None):
        """Whether persons list just these fewer objects; of the pairs that cost better than a bound, none but these."""
        persons, objects = list(map(int, persons)), list(map(int, objects))
        sign = -1 if self.sense else 1
        listed = {column + 1 for row, column, cost in zip(self.rows, self.columns, self.costs.tolist())
                  if row + 1 in persons and (better is None or sign * cost < sign * better)}
        return (sorted(set(persons)) == persons and all(1 <= one <= self.shape[0] for one in persons)
                and sorted(set(objects)) == objects and len(objects) < len(persons)
                and (listed == set(objects) if better is None else listed <= set(objects)))

    def total(self):
        own = {}
        for row, column, cost in zip(self.rows, self.columns, self.costs.tolist()):
            if self.objects[row] == column + 1:
                own[row] = (max if self.sense else min)(cost, own.get(row, cost))
        return sum(own.values())


def wide(numbers):
    """Whole numbers as two words each."""
    return np.frombuffer(b"".join(int(one).to_bytes(16, "little", signed=True) for one in numbers),
                         np.int64).reshape(-1, 2)


def of_wide(words):
    held = words.tobytes()
    return [int.from_bytes(held[k:k + 16], "little", signed=True) for k in range(0, len(held), 16)]


def two_sum(first, second):
    """The rounded sum, and what it lacks, which is a double too."""
    whole = first + second
    part = whole - first
    return whole, (first - (whole - part)) + (second - part)


def is_certificate_of_doubles(costs, sense, objects, prices, is_strict=False):
    """Whether prices prove objects best for doubles, in exact arithmetic; and where it is strict, the only best ones.
    Rounding keeps order, so sums are compared by what they round to, and then by what is left."""
    objects, everybody, costs = objects.astype(int) - 1, np.arange(len(costs)), -costs if sense else costs
    if len(set(objects.tolist())) < len(costs) or objects.min() < 0 or objects.max() >= costs.shape[1]:
        return False
    if not np.isfinite(prices).all() or not np.isfinite(costs[everybody, objects]).all():
        return False
    free = np.delete(prices, objects)
    with np.errstate(invalid="ignore"):
        sums, rests = two_sum(costs, prices)
    own, own_rests = sums[everybody, objects][:, None], rests[everybody, objects][:, None]
    no_better = (sums > own) | (sums == own) & ((rests > own_rests) if is_strict else (rests >= own_rests))
    no_better[everybody, objects] = True
    return bool((no_better | np.isinf(costs)).all()) and (not len(free) or free.max() <= prices.min())


def unit_of(costs):
    """The exponent of the greatest unit 2^u that all finite doubles are multiples of, and these as whole numbers of it;
    None for these where one is above 2^100 units."""
    finite = costs[np.isfinite(costs) & (costs != 0)]
    if not len(finite):
        return 0, [0 if np.isfinite(cost) else None for cost in costs.ravel()]
    mantissas, exponents = np.frexp(finite)
    mantissas = (mantissas * 2.0**53).astype(np.int64)
    unit = int((exponents - 53 + np.frexp((mantissas & -mantissas).astype(float))[1] - 1).min())
    whole = iter([int(mantissa) << int(exponent) - 53 - unit if exponent - 53 >= unit
                  else int(mantissa) >> unit - int(exponent) + 53 for mantissa, exponent in zip(mantissas, exponents)])
    found = [None if not np.isfinite(cost) else next(whole) if cost else 0 for cost in costs.ravel().tolist()]
    return unit, found if max(abs(one or 0) for one in found) <= 2**100 else None
