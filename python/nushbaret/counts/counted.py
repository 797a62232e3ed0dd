"""Problems with counts, and the library's answers to them."""
import sys
from array import array
from functools import partial
from itertools import compress
from operator import itemgetter, le
from typing import Any, Dict, Iterator, List, NamedTuple, Sequence, Tuple, Union

from ..costs.limits import GREATEST_COST, MOST_PERSONS, Numbers, TooLarge
from ..lap.counts_call import BEST, COLUMNS_LACK, are_shown, searched_counts
from ..lap.library import progress_asked

Pair = Tuple[int, int]
# A row and a group of which it takes at most one column.
RowGroup = Tuple[int, int]
MOST_PAIRS = 2**30


class Bounds(NamedTuple):
    """How many a row or a column takes."""

    least: int
    most: int

    def left(self, taken: int) -> "Bounds":
        """What is left of them where so many are taken."""
        return Bounds(max(0, self.least - taken), self.most - taken)


class Counted(NamedTuple):
    """The pairs that may be made, none twice and rows rising, and their costs, whose sum is to be least; how many
    columns each row takes, and how many rows each column; and the group of each column, of which a row takes at most
    one. Groups that were given have the numbers below `n_groups`; a column k in none of them is alone in the group
    `n_groups` + k. Rows, columns and costs are lists, arrays, or all arrays of NumPy's."""

    row_bounds: Sequence[Bounds]
    column_bounds: Sequence[Bounds]
    group_of: Sequence[int]
    n_groups: int
    rows: Any
    columns: Any
    costs: Any

    def listed(self) -> "Counted":
        """The same in lists of Python's numbers."""
        return self._replace(rows=_listed(self.rows), columns=_listed(self.columns), costs=_listed(self.costs))

    def row_groups(self) -> Iterator[RowGroup]:
        """The row group of each pair, in their order."""
        return zip(self.rows, map(self.group_of.__getitem__, self.columns))

    def most_pairs(self) -> int:
        """No plan has more pairs."""
        return min(len(self.rows), *(sum(bound.most for bound in bounds)
                                     for bounds in (self.row_bounds, self.column_bounds)))

    def in_range(self) -> bool:
        """Whether the library takes the costs."""
        costs = self.costs
        if hasattr(costs, "dtype"):
            return not costs.size or -GREATEST_COST <= int(costs.min()) <= int(costs.max()) <= GREATEST_COST
        return -GREATEST_COST <= min(costs, default=0) and max(costs, default=0) <= GREATEST_COST

    def pairs_of(self, plan: Any) -> List[Pair]:
        """The pairs of a plan, which has a byte for each."""
        if hasattr(self.rows, "dtype"):
            places = sys.modules["numpy"].frombuffer(plan, "uint8").nonzero()[0]
            return list(zip(self.rows[places].tolist(), self.columns[places].tolist()))
        return list(zip(compress(self.rows, plan), compress(self.columns, plan)))


def _listed(values: Any) -> List[int]:
    return values if isinstance(values, list) else list(values.tolist())


class Best(NamedTuple):
    """A best plan, which has a byte for each pair, and the numbers of rows and columns that prove it.

    With e = cost - row's number - column's number each chosen pair has e <= 0, and the least e that its row lists in
    its group; each other pair has e >= 0, or its row has chosen another column of its group; a number is above 0 only
    where its count is the least, and below 0 only where it is the greatest."""

    plan: Any
    row_numbers: Sequence[int]
    column_numbers: Sequence[int]


class Marked(NamedTuple):
    """A proof that there is no plan: rows (or columns) whose least counts come to more than they can have, marked by a
    byte each, and the columns (or rows) that limit them."""

    of_columns: bool
    rows: Any
    columns: Any


_MOST_COUNT = 2**32 - 1


def _from_one(values: Any) -> Any:
    """Numbers from 0 as those from 1."""
    if hasattr(values, "dtype"):
        return (values + 1).astype("uint32")
    return array("I", [value + 1 for value in values])


def _counts(bounds: Sequence[Bounds], side: int) -> Numbers:
    if list(bounds).count(bounds[0]) == len(bounds):
        return array("I", [min(bounds[0][side], _MOST_COUNT)]) * len(bounds)
    counts = list(map(itemgetter(side), bounds))
    return array("I", counts if max(counts) <= _MOST_COUNT else [min(count, _MOST_COUNT) for count in counts])


def _given(counted: Counted) -> List[Any]:
    """The lists of a problem as the library takes them."""
    costs = counted.costs
    costs = costs.astype("int64", copy=False) if hasattr(costs, "dtype") else array("q", costs)
    numbers: Dict[int, int] = {}
    groups = array("I", [numbers.setdefault(group, len(numbers) + 1) if group < counted.n_groups else 0
                         for group in counted.group_of] if counted.n_groups else ())
    return [_from_one(counted.rows), _from_one(counted.columns), costs, *(_counts(bounds, side) for bounds in (
        counted.row_bounds, counted.column_bounds) for side in range(2)), groups]


def solved(counted: Counted, is_part: bool = False) -> Union[Best, Marked]:
    """The library's answer to a problem whose costs are in its range. Unless the search is part of another one,
    `progress` is called with how many rows have their least count, and at least one pair if they take any."""
    n, m, pairs = len(counted.row_bounds), len(counted.column_bounds), len(counted.rows)
    if not n or not m:
        return _of_one_side(counted)
    if max(n, m) > MOST_PERSONS or pairs > MOST_PAIRS:
        raise TooLarge(f"{n} rows, {m} columns and {pairs} pairs: at most {MOST_PERSONS} of each and {MOST_PAIRS} "
                       "pairs are possible")
    written = searched_counts(_given(counted), n, m, None if is_part else partial(show_progress, counted))
    if written.code == BEST:
        return Best(written.plan, *written.numbers)
    return Marked(written.code == COLUMNS_LACK, *written.marks)


def is_shown(counted: Counted, best: Best) -> bool:
    """Whether numbers in 64 bits prove a plan best for costs that are in the library's range, as its call says."""
    numbers = [array("q", own) for own in (best.row_numbers, best.column_numbers)]
    return are_shown(_given(counted), array("B", best.plan), numbers)


def _of_one_side(counted: Counted) -> Union[Best, Marked]:
    """The answer where there are no rows, or no columns."""
    needs = [array("B", [bound.least > 0 for bound in bounds]) for bounds in (counted.row_bounds,
                                                                              counted.column_bounds)]
    if any(map(any, needs)):
        return Marked(any(needs[1]), *needs)
    return Best(array("B"), *(array("q", bytes(8 * len(own))) for own in needs))


def show_progress(counted: Counted, plan: Any) -> None:
    """Calls `progress`, where it was asked for."""
    progress = progress_asked()
    if progress is not None:
        had = [0] * len(counted.row_bounds)
        for row, _ in counted.pairs_of(plan):
            had[row] += 1
        progress(sum(map(le, (min(max(least, 1), most) for least, most in counted.row_bounds), had)), len(had))
