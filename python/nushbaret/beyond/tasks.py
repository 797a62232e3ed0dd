"""What a task does: it reads some rows, or a partition of listed pairs, and looks at all pairs there at the same
prices."""
import hashlib
from typing import Any, Iterator, List, NamedTuple, Optional, Tuple

import numpy

from . import blocks
from .blocks import GREATEST
from .frames import Listing

# So many pairs begin their scans at one column.
TOGETHER = 2**13
# Above so many better pairs of a task only the best ones of each row are kept.
MOST_HELD = 2**18


class Asked(NamedTuple):
    """What a pass asks of all pairs.

    Attributes
    ----------
    prices : array
        Prices of the columns.
    numbers, rests : array or None
        The rows' numbers. Without numbers each pair is better.
    own : array or None
        Each row's column, or -1. In a first look it is any plan, whose pairs are answered too.
    most : int
        How many better pairs of a row are wanted.
    sides : int
        How many cheap pairs of a column are wanted.
    unit : float or None
        Whether all doubles are whole multiples of it is answered.
    """

    prices: Any
    numbers: Any = None
    rests: Any = None
    own: Any = None
    most: int = 24
    sides: int = 0
    unit: Optional[float] = None

    def of_rows(self, rows: Any) -> blocks.Asked:
        """The same of some rows."""
        chosen = [None if values is None else values[rows] for values in (self.numbers, self.rests, self.own)]
        return blocks.Asked(chosen[0], chosen[1], chosen[2], self.prices, self.most)

    def digest(self) -> bytes:
        """A digest of prices, own columns and row numbers."""
        words = (self.prices, self.numbers, self.rests, self.own)
        digest = hashlib.blake2b(digest_size=16)
        for values in words:
            digest.update(b"-" if values is None else numpy.ascontiguousarray(values).view(numpy.uint8).data)
        return digest.digest()


class Pairs(NamedTuple):
    """Pairs, and their costs."""

    rows: Any
    columns: Any
    costs: Any


class Answer(NamedTuple):
    """What a task found: better pairs, cheap pairs of columns; the rows that it saw, each one's least sum, and whether
    its own pair was there at its number; how many pairs it looked at, the greatest size of a cost, whether all are
    multiples of the unit, and the digest of what was asked."""

    task: int
    better: Pairs
    cheap: List["Cheap"]
    rows: Any
    least: Any
    shown: Any
    arc_scans: int
    size: float
    is_whole: bool
    digest: bytes


class Cheap(NamedTuple):
    """For each column the pair whose cost is the least above the row's least sum: this, the row, and the cost."""

    above: Any
    rows: Any
    costs: Any

    def merge(self, other: "Cheap") -> "Cheap":
        """The better of both, of equal ones that of the lower row."""
        better = (other.above < self.above) | ((other.above == self.above) & (other.rows < self.rows))
        return Cheap(*(numpy.where(better, new, old) for new, old in zip(other, self)))


def no_pairs(columns: int, most: Any, dtype: Any) -> Cheap:
    """No pair for any column."""
    return Cheap(numpy.full(columns, most, dtype), numpy.full(columns, -1, numpy.int32), numpy.zeros(columns, dtype))


def answer(source: Any, task: int, block: Any, asked: Asked) -> Answer:
    """The answer of a block."""
    gathered = _Gathered(asked)
    for band in source.bands(*block):
        gathered.add(band)
    return gathered.answer(task)


class _Gathered:
    """What the bands of a block add up to."""

    def __init__(self, asked: Asked):
        self.asked = asked
        self.better: List[Pairs] = []
        self.seen: List[Tuple[Any, Any, Any]] = []
        self.cheap: List[Cheap] = []
        self.arc_scans, self.size, self.is_whole = 0, 0.0, True

    def add(self, band: Any) -> None:
        """Adds what a band of rows, or a list of pairs, says."""
        if isinstance(band, Listing):
            self._add_listing(band)
            return
        rows, costs = numpy.arange(band.first, band.first + len(band.costs)), band.costs
        self._look_at_sizes(rows, costs)
        self.arc_scans += costs.size
        least, shown = numpy.empty(len(rows), costs.dtype), numpy.empty(len(rows), bool)
        for part in parts_of(len(rows), costs.shape[1], self.asked.numbers is None):
            found = self._looked(rows[part], costs[part])
            least[part], shown[part] = found.least, found.shown
            self.better.append(Pairs(found.rows + rows[part.start], found.columns, found.costs))
        self.seen.append((rows, least, shown))
        if self.asked.own is not None and self.asked.numbers is None:
            self._add_own(rows, costs)
        if self.asked.sides:
            self._add_cheap(rows, costs, least)

    def _look_at_sizes(self, rows: Any, costs: Any) -> None:
        """The greatest size of a cost, and whether all costs are multiples of the unit; nothing that is no number."""
        asked = self.asked
        if costs.dtype.kind != "f":
            if asked.numbers is None:
                self.size = max(self.size, float(costs.max()), -float(costs.min()))
            return
        if asked.numbers is None:
            least, greatest = costs.min(), costs.max()
            if not least > -numpy.inf:
                place = numpy.argwhere(~(costs > -numpy.inf))[0]
                raise ValueError(f"a cost of row {rows[place[0]]} is {costs[tuple(place)]}")
            if greatest == numpy.inf:
                greatest = costs.max(where=costs < numpy.inf, initial=least if least < numpy.inf else 0.0)
            self.size = max(self.size, float(greatest), -float(least) if least < numpy.inf else 0.0)
        if asked.unit is not None and self.is_whole:
            scaled = costs * (1 / asked.unit)
            self.is_whole = bool((numpy.rint(scaled) == scaled).all())

    def _looked(self, rows: Any, costs: Any) -> blocks.Look:
        """The better pairs of some rows; in a first look each part begins at another column, so that rows with equal
        costs find different ones."""
        asked = self.asked
        if asked.numbers is not None:
            return blocks.look(costs, asked.of_rows(rows))
        turn = int(rows[0]) * 7919 % costs.shape[1]
        numbers = numpy.full(len(rows), GREATEST if costs.dtype.kind == "i" else numpy.inf, costs.dtype)
        turned = numpy.concatenate([costs[:, turn:], costs[:, :turn]], 1)
        found = blocks.look(turned, blocks.Asked(numbers, None, None, numpy.roll(asked.prices, -turn), asked.most))
        return found._replace(columns=(found.columns + turn) % costs.shape[1])

    def _add_own(self, rows: Any, costs: Any) -> None:
        """The pairs of any plan."""
        own = self.asked.own[rows]
        there = numpy.flatnonzero(own >= 0)
        paid = costs[there, own[there]]
        there = there[paid < numpy.inf] if costs.dtype.kind == "f" else there
        self.better.append(Pairs(rows[there], own[there], costs[there, own[there]]))

    def _add_cheap(self, rows: Any, costs: Any, least: Any) -> None:
        """Of each class of rows the pair of a column that is the least above its row's least sum."""
        if not self.cheap:
            most = numpy.inf if costs.dtype.kind == "f" else GREATEST
            self.cheap = [no_pairs(costs.shape[1], most, costs.dtype) for _ in range(self.asked.sides)]
        for place, row in enumerate(rows.tolist()):
            cheap = self.cheap[row % self.asked.sides]
            if not least[place] < (numpy.inf if costs.dtype.kind == "f" else GREATEST):
                continue
            above = costs[place] + self.asked.prices - least[place]
            better = numpy.flatnonzero(above < cheap.above)
            cheap.above[better], cheap.rows[better], cheap.costs[better] = above[better], row, costs[place, better]

    def _add_listing(self, band: Listing) -> None:
        """The same of listed pairs."""
        asked, (rows, columns, costs) = self.asked, band
        if not len(rows):
            return
        self._look_at_sizes(rows, costs)
        self.arc_scans += len(costs)
        names, local = numpy.unique(rows, return_inverse=True)
        numbers = numpy.full(len(names), numpy.inf) if asked.numbers is None else asked.numbers[names]
        found = blocks.look_listed(len(names), local, columns, costs, asked.of_rows(names)._replace(numbers=numbers))
        self.better.append(Pairs(names[found.rows], found.columns, found.costs))
        self.seen.append((names, found.least, found.shown))
        if asked.sides:
            self._add_cheap_listed(rows, columns, costs, found.least[local])
        if sum(len(pairs.rows) for pairs in self.better) > MOST_HELD:
            self.better = [cheapest(joined(self.better), asked.prices, asked.most)]

    def _add_cheap_listed(self, rows: Any, columns: Any, costs: Any, least: Any) -> None:
        """Of each column the pair that is the least above its row's least sum in this list."""
        m = len(self.asked.prices)
        if not self.cheap:
            self.cheap = [no_pairs(m, numpy.inf, costs.dtype)]
        above = costs + self.asked.prices[columns] - least
        order = numpy.lexsort((rows, above, columns))
        first = order[numpy.flatnonzero(numpy.diff(columns[order], prepend=-1))]
        new, at = no_pairs(m, numpy.inf, costs.dtype), columns[first]
        new.above[at], new.rows[at], new.costs[at] = above[first], rows[first], costs[first]
        self.cheap = [self.cheap[0].merge(new)]

    def answer(self, task: int) -> Answer:
        seen = self.seen or [(numpy.empty(0, numpy.int64), numpy.empty(0), numpy.empty(0, bool))]
        rows, least, shown = (numpy.concatenate(values) for values in zip(*seen))
        return Answer(task, joined(self.better), self.cheap, rows, least, shown, self.arc_scans, self.size,
                      self.is_whole, self.asked.digest())


def parts_of(rows: int, columns: int, small: bool) -> Iterator[slice]:
    """The rows of a band in parts that are looked at together: in a first look small ones."""
    height = max(1, TOGETHER // columns) if small else rows
    return (slice(first, min(rows, first + height)) for first in range(0, rows, height))


def cheapest(pairs: Pairs, prices: Any, most: int) -> Pairs:
    """Of each row at most so many pairs, those of the least sums of cost and price; each pair once."""
    order = numpy.lexsort((pairs.columns, pairs.costs + prices[pairs.columns], pairs.rows))
    rows, columns, costs = (values[order] for values in pairs)
    twice = numpy.zeros(len(rows), bool)
    twice[1:] = (rows[1:] == rows[:-1]) & (columns[1:] == columns[:-1])
    rows, columns, costs = rows[~twice], columns[~twice], costs[~twice]
    kept = blocks.ranks(rows) < most
    return Pairs(rows[kept], columns[kept], costs[kept])


def joined(found: List[Pairs]) -> Pairs:
    """Pairs of several parts, in their order."""
    if not found:
        return Pairs(numpy.empty(0, numpy.int64), numpy.empty(0, numpy.int64), numpy.empty(0, numpy.int64))
    return Pairs(*(numpy.concatenate(values) for values in zip(*found)))


# Above all costs, which are at most 2**900 in size; and what lifts each of them to this.
ABOVE, LIFT = 2.0**1000, 2.0**1001


def outside(source: Any, task: int, block: Any, rows: Any, columns: Any, most: int) -> Tuple[int, Pairs, int]:
    """The cheapest pairs that the marked rows of a block have with the marked columns, so many of a row; the pairs that
    were looked at. The library says whether there is one."""
    found, looked, names = [], 0, numpy.flatnonzero(columns)
    for band in source.bands(*block):
        if isinstance(band, Listing):
            found.append(_outside_listed(band, rows, columns, most))
            looked += len(band.costs)
            continue
        chosen = numpy.flatnonzero(rows[band.first:band.first + len(band.costs)])
        if not len(chosen) or not len(names):
            continue
        costs = numpy.ascontiguousarray(band.costs[numpy.ix_(chosen, names)])
        looked += costs.size
        is_whole = costs.dtype.kind == "i"
        numbers = numpy.full(len(costs), GREATEST if is_whole else ABOVE, costs.dtype)
        rests = None if is_whole else numpy.zeros(len(costs))
        got = blocks.look(costs, blocks.Asked(numbers, rests, None, numpy.zeros(len(names), costs.dtype), most))
        found.append(Pairs(chosen[got.rows] + band.first, names[got.columns], got.costs))
    pairs = joined(found)
    return task, cheapest(pairs, numpy.zeros(len(columns)), most), looked


def _outside_listed(band: Listing, rows: Any, columns: Any, most: int) -> Pairs:
    """The same of listed pairs: at numbers above all costs for the marked rows, and at prices that lift the costs of
    the other columns to these."""
    kept = rows[band.rows]
    names, local = numpy.unique(band.rows[kept], return_inverse=True)
    numbers, none = numpy.full(len(names), ABOVE), numpy.zeros(len(names))
    asked = blocks.Asked(numbers, none, None, numpy.where(columns, 0.0, LIFT), most)
    got = blocks.look_listed(len(names), local, band.columns[kept], band.costs[kept], asked)
    return Pairs(names[got.rows], got.columns, got.costs)


def raised(source: Any, task: int, block: Any, rows: Any, numbers: Any) -> Any:
    """For each column the least price at which none of some rows, whose numbers rise, gains by it."""
    chosen = rows[(rows >= block[0]) & (rows < block[1])]
    prices: Any = None
    for first in range(0, len(chosen), source.band):
        part = chosen[first:first + source.band]
        wanted = (numbers[numpy.searchsorted(rows, part)][:, None] - source.chosen(part)).max(0)
        prices = wanted if prices is None else numpy.maximum(prices, wanted)
    return prices
