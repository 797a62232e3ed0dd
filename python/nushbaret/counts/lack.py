"""Why counts can't be met: who is short, and by how much.

Each side is looked at alone: whether its least counts can be met within the greatest counts of the other side, where a
row takes at most one column of a group. If each side's can alone, both can at once (Mendelsohn and Dulmage 1958). The
library finds as many pairs as can be; what changes of them reach from those that lack some (Ford and Fulkerson 1956) is
short, in connected parts."""
from collections import Counter
from typing import Any, Collection, Dict, List, NamedTuple, Sequence, Set

from ..lap.matching import connected
from .counted import Bounds, Counted, Marked, RowGroup, solved
from .exchanges import exchanges_of, turned
from .narrowed import Part, narrowed


class Lack(NamedTuple):
    """Least counts that can't be met. If `of_columns` is false, these rows must have `wanted` columns and can have no
    more than `had`: as many as the columns take at most, and one for each row group in `once`. If it is true, these
    columns must have `wanted` rows and can have no more than `had`: as many as the rows take at most, and one for each
    row group in `once`."""

    of_columns: bool
    rows: List[int]
    columns: List[int]
    once: List[RowGroup]
    wanted: int
    had: int


def lacks_of(counted: Counted) -> List[Lack]:
    """What is short, in the order of the first rows, and then of the first columns; nothing where there is a plan."""
    return [lack for of_columns in (False, True) for lack in _of_side(counted, of_columns)]


def _of_side(counted: Counted, of_columns: bool) -> List[Lack]:
    """What is short of the least counts of one side."""
    needs = [Bounds(0, bound.least) for bound in (counted.column_bounds if of_columns else counted.row_bounds)]
    if not any(bound.most for bound in needs):
        return []
    sides = [[Bounds(0, bound.most) for bound in bounds] for bounds in (counted.row_bounds, counted.column_bounds)]
    sides[of_columns] = needs
    own = counted._replace(row_bounds=sides[0], column_bounds=sides[1], costs=[-1] * len(counted.rows))
    found = solved(own, True)
    if isinstance(found, Marked):
        raise RuntimeError("no pairs were found to be possible: please report this problem")
    chosen = own.pairs_of(found.plan)
    arrows: Sequence[Collection[int]] = exchanges_of(own, chosen, found.row_numbers, found.column_numbers).arrows
    had, n_rows, n_columns = Counter(pair[of_columns] for pair in chosen), len(sides[0]), len(sides[1])
    starts = [number + n_rows * of_columns for number, bound in enumerate(needs) if had[number] < bound.most]
    reached = _reached(turned(arrows) if of_columns else arrows, starts, n_rows + n_columns)
    return _parted(counted, of_columns, {vertex for vertex in reached if vertex < n_rows},
                   {vertex - n_rows for vertex in reached if n_rows <= vertex < n_rows + n_columns})


def _reached(arrows: Sequence[Collection[int]], starts: List[int], barred: int) -> Set[int]:
    """The vertices to which arrows lead from some, but not through one."""
    reached, waiting = {barred, *starts}, list(starts)
    while waiting:
        fresh = set(arrows[waiting.pop()]) - reached
        reached |= fresh
        waiting += fresh
    return reached


def _parted(counted: Counted, of_columns: bool, rows: Set[int], columns: Set[int]) -> List[Lack]:
    """The shortages of rows and columns that were reached, in connected parts: each name with what limits it, which is
    names of the other side and row groups."""
    outside = {row_group for row_group, column in zip(counted.row_groups(), counted.columns)
               if row_group[0] in rows and column not in columns}
    limits: Dict[int, Set[Any]] = {name: set() for name in sorted(columns if of_columns else rows)}
    for row_group, row, column in zip(counted.row_groups(), counted.rows, counted.columns):
        if of_columns and column in columns:
            limits[column].add(row if row in rows else row_group)
        elif not of_columns and row in rows:
            limits[row].add(row_group if row_group in outside else column)
    return [_lack(counted, of_columns, names, set().union(*map(limits.__getitem__, names)))
            for names in connected(limits)]


def _lack(counted: Counted, of_columns: bool, names: List[int], limits: Set[Any]) -> Lack:
    once: List[RowGroup] = sorted((limit[0], limit[1]) for limit in limits if isinstance(limit, tuple))
    others = sorted(limit for limit in limits if not isinstance(limit, tuple))
    needs, most = counted.row_bounds, counted.column_bounds
    if of_columns:
        needs, most = most, needs
    wanted, had = sum(needs[name].least for name in names), sum(most[other].most for other in others) + len(once)
    return Lack(of_columns, *((others, names) if of_columns else (names, others)), once, wanted, had)


class Cut(NamedTuple):
    """The problem whose plans are those that miss as little as can be, and what the shortages say as numbers of rows
    and columns."""

    part: Part
    rows: List[int]
    columns: List[int]


def cut_of(counted: Counted, lacks: Sequence[Lack]) -> Cut:
    """The plans that miss as little of the least counts as can be, summed up over both sides.

    Let S and T be the rows and columns of shortages of rows. In what plans pair of S, no more is counted than what T
    take at most, and one for each row group of S with a column outside T; and a plan misses least exactly if all of
    that is counted. Then T take all that they can, from S alone; each of these row groups takes one column outside T;
    no row of S takes more than its least count, and no other row less. Shortages of columns say the same with rows and
    columns exchanged. So with r = 1 for S and v = -1 for T, and -r and -v for the others, pairs with e = -r - v are
    open exactly if their e is min(0, the least e of their row group)."""
    short = [[set().union(*(own for lack in lacks if lack.of_columns == side for own in (
        lack.columns if of_columns else lack.rows,))) for side in (False, True)] for of_columns in (False, True)]
    (rows, full_rows), (full_columns, columns) = short
    numbers = [[(number in ones) - (number in minus) for number in range(len(bounds))] for bounds, ones, minus in (
        (counted.row_bounds, rows, full_rows), (counted.column_bounds, columns, full_columns))]
    spare = [-numbers[0][row] - numbers[1][column] for row, column in zip(counted.rows, counted.columns)]
    part = narrowed(counted, spare, 0, _cut(counted.row_bounds, rows, full_rows),
                    _cut(counted.column_bounds, columns, full_columns))
    return Cut(part, *numbers)


def _cut(bounds: Sequence[Bounds], short: Set[int], full: Set[int]) -> List[Bounds]:
    """The bounds of a side of which some names are short and some must take all that they can."""
    return [Bounds(bound.most if number in full else 0 if number in short else bound.least,
                   bound.least if number in short else bound.most) for number, bound in enumerate(bounds)]
