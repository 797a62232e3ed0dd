"""The core: some cheap pairs of each row and column, which the library solves."""
from array import array
from typing import Any, NamedTuple, Optional, Tuple, Union

import numpy

from ..lap import library


class Form(NamedTuple):
    """What is solved: so many rows and columns. With fewer rows than columns each row takes a column; else each column
    takes a row. Where rows may stay out, each does so at a cost, which counts in the unit of whole costs."""

    n: int
    m: int
    stay_out: bool

    @property
    def is_turned(self) -> bool:
        """Whether columns are the library's persons."""
        return self.n > self.m and not self.stay_out

    @property
    def spare(self) -> int:
        """How many rows stay out in each plan, at no cost."""
        return self.n - self.m if self.is_turned else 0


class Duals(NamedTuple):
    """What proves a plan: prices of columns, a number of each row that no cost plus price of its pairs is below, and
    the sum at which a row may stay out, if it may."""

    prices: Any
    numbers: Any
    out: Any


class Plan(NamedTuple):
    """A plan of the core, with its duals; a row has the column -1 where it stays out."""

    columns: Any
    duals: Duals
    total: int


class Short(NamedTuple):
    """Rows and columns of the core that prove that it has no plan. If there are more rows they list no other columns;
    else the columns list no other rows."""

    rows: Any
    columns: Any


class Core:
    """Pairs of rows and columns with their costs, each pair once."""

    def __init__(self, form: Form, dtype: Any):
        self.form = form
        self.keys = numpy.empty(0, numpy.int64)
        self.costs = numpy.empty(0, dtype)

    def __len__(self) -> int:
        return len(self.keys)

    @property
    def rows(self) -> Any:
        return self.keys // self.form.m

    @property
    def columns(self) -> Any:
        return self.keys % self.form.m

    def add(self, rows: Any, columns: Any, costs: Any) -> int:
        """Adds pairs, of equal ones the cheapest, and returns how many are new or cheaper."""
        before, paid = len(self.keys), self.costs
        keys = numpy.concatenate([self.keys, rows.astype(numpy.int64) * self.form.m + columns])
        all_costs = numpy.concatenate([paid, costs.astype(paid.dtype)])
        order = numpy.lexsort((all_costs, keys))
        keys, all_costs = keys[order], all_costs[order]
        first = numpy.ones(len(keys), bool)
        first[1:] = keys[1:] != keys[:-1]
        old = order[first] < before
        self.keys, self.costs = keys[first], all_costs[first]
        return int(len(self.keys) - numpy.count_nonzero(old))

    def own_places(self, columns: Any) -> Any:
        """Where the pairs of a plan stand."""
        rows = numpy.flatnonzero(columns >= 0)
        return numpy.searchsorted(self.keys, rows * self.form.m + columns[rows])

    def keep_cheapest(self, duals: Duals, columns: Any, most: int) -> None:
        """Drops the pairs of the greatest slack, but none of the plan, until so many are left."""
        if len(self.keys) <= most:
            return
        slack = self.costs + duals.prices[self.columns] - duals.numbers[self.rows]
        slack[self.own_places(columns)] = slack.min() - 1
        kept = numpy.sort(numpy.argpartition(slack, most)[:most])
        self.keys, self.costs = self.keys[kept], self.costs[kept]

    def solve(self, costs: Any, out: Any, start: Optional[Tuple[Any, Optional[Duals]]]) -> Union[Plan, Short]:
        """The best plan for these whole costs of the pairs, and of rows that stay out, from an earlier one."""
        if self.form.is_turned:
            return self._turned(costs, start)
        n, m = self.form.n, self.form.m
        persons, objects = (self.rows + 1).astype(numpy.uint32), (self.columns + 1).astype(numpy.uint32)
        first, own = _start(start, n, m + n * self.form.stay_out)
        if self.form.stay_out:
            every = numpy.arange(1, n + 1, dtype=numpy.uint32)
            persons, objects = numpy.concatenate([persons, every]), numpy.concatenate([objects, every + m])
            costs = numpy.concatenate([costs, out])
            own = numpy.where(own == 0, every + m, own).astype(numpy.uint32) if start else own
        found = searched(n, m + n * self.form.stay_out, persons, objects, costs, first, own)
        if isinstance(found, Short):
            return found
        own, prices, total = found
        columns = numpy.where(own <= m, own.astype(numpy.int64) - 1, -1)
        place = self.own_places(columns)
        numbers = numpy.zeros(n, numpy.int64) if out is None else out.copy()
        numbers[columns >= 0] = costs[place] + prices[columns[columns >= 0]]
        return Plan(columns, Duals(prices[:m], numbers, None if out is None else int(out.max())), total)

    def _turned(self, costs: Any, start: Optional[Tuple[Any, Optional[Duals]]]) -> Union[Plan, Short]:
        """The same where columns are the library's persons."""
        n, m = self.form.n, self.form.m
        first, own = None, numpy.zeros(m, numpy.uint32)
        if start is not None:
            rows = numpy.flatnonzero(start[0] >= 0)
            own[start[0][rows]] = rows + 1
            if start[1] is not None:
                first = numpy.maximum(start[1].out - start[1].numbers, 0).astype(numpy.int64)
        persons, objects = (self.columns + 1).astype(numpy.uint32), (self.rows + 1).astype(numpy.uint32)
        found = searched(m, n, persons, objects, costs, first, own)
        if isinstance(found, Short):
            return Short(found.columns, found.rows)
        own, prices, total = found
        columns = numpy.full(n, -1, numpy.int64)
        columns[own.astype(numpy.int64) - 1] = numpy.arange(m)
        paid = numpy.empty(m, numpy.int64)
        place = self.own_places(columns)
        paid[self.columns[place]] = costs[place] + prices[self.rows[place]]
        out = int(max(paid.max(), prices.max()))
        return Plan(columns, Duals(out - paid, out - prices, out), total)


def _start(start: Optional[Tuple[Any, Optional[Duals]]], n: int, m: int) -> Tuple[Any, Any]:
    """First prices, if there are any, and the first object of each person."""
    if start is None:
        return None, numpy.zeros(n, numpy.uint32)
    first = None
    if start[1] is not None:
        first = numpy.zeros(m, numpy.int64)
        first[:len(start[1].prices)] = numpy.maximum(start[1].prices, 0)
    return first, (start[0] + 1).astype(numpy.uint32)


def searched(n: int, m: int, persons: Any, objects: Any, costs: Any, first: Any, own: Any) -> Any:
    """Objects, prices and total of a best plan of listed pairs; or its Hall set, from 0 on."""
    if first is not None and not first.any():
        first = None
    lists = [numpy.ascontiguousarray(values) for values in (persons, objects, costs)]
    written = array("I", own.tobytes()), array("I", bytes(4 * n)), array("q", bytes(8 * m))
    code, info = library.searched(False, n, m, lists, first, written)
    objects, short, prices = (numpy.array(values) for values in written)
    if code == "HALL":
        return Short(short[:info.persons].astype(numpy.int64) - 1, objects[:info.objects].astype(numpy.int64) - 1)
    if code != "BEST":
        raise RuntimeError(f"the library says {code} of a core, at place {info.place}")
    return objects, prices, info.total
