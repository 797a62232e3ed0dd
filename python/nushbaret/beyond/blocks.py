"""Which pairs of some rows are better than their own ones at given prices, by the library's calls over blocks. Listed
pairs of doubles are packed for it into small matrices."""
import ctypes
import math
from typing import Any, List, NamedTuple, Optional, Tuple

import numpy

from ..lap import library
from ..lap.doubles import DoublesInfo

# The number of a row whose pairs are all better, and the least sum of a row without pairs.
GREATEST = 2**63 - 1
_NONE = numpy.empty(0, numpy.uint32)


class Look(NamedTuple):
    """The better pairs of a block, as rows and columns of it, by rows; each row's least sum of cost and price; the
    first row with a better pair, with its first column of this kind, if there is one; and which rows have their own
    pair at their number."""

    rows: Any
    columns: Any
    costs: Any
    least: Any
    first: Optional[Tuple[int, int]]
    shown: Any


class Asked(NamedTuple):
    """What is asked of the rows of a block.

    Attributes
    ----------
    numbers : array
        A number for each row: int64, or float64.
    rests : array or None
        To doubles these are added without rounding. None: they are 0.
    own : array or None
        Each row's own column, or -1.
    prices : array
        Prices of the columns, 0 or more.
    most : int
        The most better pairs of a row, its cheapest ones.
    """

    numbers: Any
    rests: Any
    own: Any
    prices: Any
    most: int


def look(costs: Any, asked: Asked) -> Look:
    """The pairs of a matrix, rows by columns, whose sum of cost and price is below the row's number; in doubles an
    infinity forbids its pair."""
    if costs.dtype.kind == "f":
        return _looked_at_doubles(costs, asked)
    return _looked(len(costs), _NONE, _NONE, costs.ravel(), asked)


def look_listed(n: int, rows: Any, columns: Any, costs: Any, asked: Asked) -> Look:
    """The same of listed pairs: row rows[k] of n lists column columns[k] at costs[k]. A pair may stand there several
    times."""
    if costs.dtype.kind == "f":
        return _looked_at_packs(n, rows, columns, costs, asked)
    return _looked(n, (rows + 1).astype(numpy.uint32), (columns + 1).astype(numpy.uint32), costs, asked)


# Whole numbers.


_LISTS = {"block": (6, 5), "block_doubles": (5, 6)}


def _call(name: str) -> Any:
    before, after = _LISTS[name]
    return library.function(name, ctypes.c_uint32, *[ctypes.c_size_t] * 2, *library.LIST * before, ctypes.c_size_t,
                            *library.LIST * after, ctypes.c_void_p)


def _looked(n: int, persons: Any, objects: Any, costs: Any, asked: Asked) -> Look:
    """What the library says of a block."""
    own = _own_objects(n, asked.own)
    better = _room(min(n * asked.most, len(costs)), numpy.int64)
    given = persons, objects, costs, own, asked.numbers, asked.prices
    least, shown = numpy.empty(n, numpy.int64), numpy.empty(n, numpy.uint8)
    info = library.Info()
    code = library.CODES[_call("block")(0, n, len(asked.prices), *_addresses(given), asked.most,
                                                  *_addresses((least, shown, *better)), ctypes.addressof(info))]
    if code == "COST":
        raise ValueError(f"a cost is {costs[info.place]}, beyond 10**12")
    return _look(code, info, better, least, shown)


def _look(code: str, info: Any, better: Any, least: Any, shown: Any) -> Look:
    """What a call wrote."""
    if code == "MEMORY":
        raise MemoryError("the library was refused memory")
    if code not in ("BEST", "SLACK"):
        raise RuntimeError(f"the library says {code} of a block, at place {info.place}")
    rows, columns, paid = (values[:info.persons] for values in better)
    return Look(rows.astype(numpy.int64) - 1, columns.astype(numpy.int64) - 1, paid, least,
                (info.person - 1, info.object - 1) if code == "SLACK" else None, shown.view(bool))


def _room(count: int, dtype: Any) -> Any:
    """Lists for so many better pairs."""
    return numpy.empty(count, numpy.uint32), numpy.empty(count, numpy.uint32), numpy.empty(count, dtype)


def are_joint(columns: Any, paid: Any, prices: Any) -> bool:
    """Whether the library says of the rows' own pairs alone, at whole costs, what no block sees: no two rows have one
    column, no price is below 0, and each is 0 where nobody has the column."""
    n = len(columns)
    own = _own_objects(n, columns)
    code, _ = library.call("check", False, n, len(prices), numpy.arange(1, n + 1, dtype=numpy.uint32), own, paid, own,
                           prices)
    return code == "BEST"


def _own_objects(n: int, own: Any) -> Any:
    """Own columns as objects from 1 on; 0 for a row without one."""
    return numpy.zeros(n, numpy.uint32) if own is None else (own + 1).astype(numpy.uint32)


def _addresses(lists: Any) -> List[int]:
    """The address and the count of each list."""
    return [word for values in lists for word in (values.__array_interface__["data"][0], values.size)]


# Doubles.


def two_sum(first: Any, second: Any) -> Tuple[Any, Any]:
    """Sums of doubles, and what they lost, exactly (Knuth); without a meaning where a sum is infinite."""
    with numpy.errstate(invalid="ignore"):
        sums = first + second
        back = sums - first
        return sums, (first - (sums - back)) + (second - back)


def _looked_at_doubles(costs: Any, asked: Asked) -> Look:
    """What the library says of a matrix of doubles, in exact arithmetic. A number that isn't finite is beyond all
    sums."""
    n, m = costs.shape
    most = numpy.finfo(numpy.float64).max
    is_finite = numpy.isfinite(asked.numbers)
    numbers = numpy.clip(asked.numbers, -most, most)
    rests = numpy.where(is_finite, 0.0 if asked.rests is None else asked.rests, numbers)
    given = costs.ravel(), _own_objects(n, asked.own), numbers, rests, asked.prices
    better = _room(min(n * asked.most, costs.size), numpy.float64)
    objects, paid, shown = numpy.empty(n, numpy.uint32), numpy.empty(n), numpy.empty(n, numpy.uint8)
    info = DoublesInfo()
    code = library.CODES[_call("block_doubles")(
        0, n, m, *_addresses(given), asked.most, *_addresses((objects, paid, shown, *better)), ctypes.addressof(info))]
    if code == "COST":
        raise ValueError(f"a cost is {costs.ravel()[info.place]}")
    has, least = objects > 0, numpy.full(n, numpy.inf)
    least[has] = paid[has] + asked.prices[objects[has].astype(numpy.int64) - 1]
    return _look(code, info, better, least, shown)


# So many places has a matrix into which pairs are packed.
PACKED = 2**12


def _looked_at_packs(n: int, rows: Any, columns: Any, costs: Any, asked: Asked) -> Look:
    """What the library says of listed pairs: of a few rows at a time with all columns that one of them lists, where
    other pairs are forbidden."""
    m = len(asked.prices)
    height = max(1, math.isqrt(PACKED * n // max(1, len(costs))))
    order = numpy.lexsort((costs, columns, rows // height))
    rows, columns, costs = rows[order], columns[order], costs[order]
    keys, places = numpy.unique(rows // height * m + columns, return_inverse=True)
    starts = numpy.searchsorted(keys, numpy.arange(0, n + height, height) // height * m)
    ends = numpy.searchsorted(rows // height, numpy.arange(0, n + height, height) // height)
    least, shown, first = numpy.full(n, numpy.inf), numpy.zeros(n, bool), None
    better = [(rows[:0], columns[:0], costs[:0])]
    for pack, (begin, end) in enumerate(zip(ends[:-1], ends[1:])):
        some = slice(pack * height, min(n, (pack + 1) * height))
        names = keys[starts[pack]:starts[pack + 1]] - pack * m
        if not len(names):
            continue
        matrix = numpy.full((some.stop - some.start, len(names)), numpy.inf)
        # Of pairs that are listed several times the cheapest one stays.
        at = slice(end - 1, begin - 1 if begin else None, -1)
        matrix[rows[at] - some.start, places[at] - starts[pack]] = costs[at]
        found = _looked_at_doubles(matrix, _of_pack(asked, some, names))
        least[some], shown[some] = found.least, found.shown
        better.append((found.rows + some.start, names[found.columns], found.costs))
        if first is None and found.first is not None:
            first = found.first[0] + some.start, int(names[found.first[1]])
    rows, columns, costs = (numpy.concatenate(values) for values in zip(*better))
    return Look(rows, columns, costs, least, first, shown)


def _of_pack(asked: Asked, some: slice, names: Any) -> Asked:
    """What is asked of a pack: of some rows and named columns."""
    own = None
    if asked.own is not None:
        own = numpy.minimum(numpy.searchsorted(names, asked.own[some]), len(names) - 1)
        own = numpy.where(names[own] == asked.own[some], own, -1)
    rests = None if asked.rests is None else asked.rests[some]
    return Asked(asked.numbers[some], rests, own, asked.prices[names], asked.most)


def ranks(rows: Any) -> Any:
    """How many equal numbers stand before each one of sorted numbers."""
    starts = numpy.flatnonzero(numpy.diff(rows, prepend=-1))
    return numpy.arange(len(rows)) - numpy.repeat(starts, numpy.diff(numpy.append(starts, len(rows))))
