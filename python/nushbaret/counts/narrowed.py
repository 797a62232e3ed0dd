"""Parts of a problem with counts: what is left of it where its plans are known to have some pairs and not others."""
import sys
from collections import Counter
from typing import Any, Collection, Dict, FrozenSet, Iterable, List, NamedTuple, Sequence, Set, Tuple

from .counted import Bounds, Counted, Pair, RowGroup


class Part(NamedTuple):
    """A problem whose plans, with the pairs that are taken, are plans of a greater one. `of_rows` and `of_columns` are
    the greater one's numbers of its rows and columns, and `places` those of its pairs. A row of the greater one that
    must take a column of some groups is two rows here: one, in `forced`, takes exactly one of each of these groups, and
    the other one what the row takes of others. The rows and columns in `over` have more than their least count by what
    is taken."""

    counted: Counted
    of_rows: Sequence[int]
    of_columns: Sequence[int]
    places: Sequence[int]
    taken: Sequence[int]
    forced: FrozenSet[int] = frozenset()
    over: Tuple[FrozenSet[int], FrozenSet[int]] = (frozenset(), frozenset())

    def named(self, pairs: Iterable[Pair]) -> List[Pair]:
        """Pairs by the greater problem's numbers."""
        return [(self.of_rows[row], self.of_columns[column]) for row, column in pairs]

    def pairs(self, whole: Counted, chosen: Iterable[Pair]) -> List[Pair]:
        """The pairs of the greater problem's plan, in order, by those of this one's."""
        return sorted(self.named(chosen) + [(whole.rows[place], whole.columns[place]) for place in self.taken])

    def plan(self, plan: Sequence[int], pairs: int) -> bytearray:
        """The greater problem's plan, of so many pairs, by that of this one."""
        found = bytearray(pairs)
        for place in self.taken:
            found[place] = 1
        for place, is_chosen in zip(self.places, plan):
            found[place] = is_chosen
        return found

    def numbers(self, rows: Sequence[int], columns: Sequence[int], others: Sequence[Sequence[int]]) -> List[List[int]]:
        """The greater problem's numbers of rows and columns, by those of this one and `others` of them. Where a row is
        two rows it has the number of the one that isn't forced: in a group of which it must take one, only
        differences of pairs count. What is over its least count by what is taken must have no number above 0. Where it
        has one here it takes none of this problem's pairs, and at 0 the e of these only grow."""
        of_rows, of_columns = list(others[0]), list(others[1])
        for row, number in enumerate(rows):
            if row not in self.forced:
                of_rows[self.of_rows[row]] = min(number, 0) if row in self.over[0] else number
        for column, number in enumerate(columns):
            of_columns[self.of_columns[column]] = min(number, 0) if column in self.over[1] else number
        return [of_rows, of_columns]


def whole(counted: Counted) -> Part:
    """A problem as its own part."""
    rows, columns = range(len(counted.row_bounds)), range(len(counted.column_bounds))
    return Part(counted, rows, columns, range(len(counted.rows)), ())


# Three numbers of this size have a sum of 64 bits.
_MOST_SUMMAND = 2**61


def reduced_costs(counted: Counted, costs: Any, rows: Sequence[int], columns: Sequence[int]) -> Any:
    """e = cost - row's number - column's number of each pair, in a list, or in an array where the pairs are in one and
    all numbers fit."""
    if hasattr(counted.rows, "dtype"):
        if all(-_MOST_SUMMAND < number < _MOST_SUMMAND for own in (rows, columns) for number in own):
            of_rows, of_columns = (sys.modules["numpy"].array(own, "int64") for own in (rows, columns))
            return costs - of_rows[counted.rows] - of_columns[counted.columns]
        counted, costs = counted.listed(), costs.tolist()
    return [cost - rows[row] - columns[column] for cost, row, column in zip(costs, counted.rows, counted.columns)]


def at(values: Any, places: List[int]) -> List[int]:
    """The numbers at some places."""
    return list(values[places].tolist()) if hasattr(values, "dtype") else [values[place] for place in places]


class _Choice(NamedTuple):
    """The places of pairs that all plans have, and of those that some may have; the row groups that take exactly one of
    these."""

    taken: List[int]
    open: List[int]
    forced: Set[RowGroup]


def _choice(counted: Counted, spare: Any, slack: int) -> _Choice:
    if hasattr(spare, "dtype"):
        if not counted.n_groups:
            return _Choice((spare < -slack).nonzero()[0].tolist(), (abs(spare) <= slack).nonzero()[0].tolist(), set())
        counted, spare = counted.listed(), spare.tolist()
    if not counted.n_groups:
        return _Choice([place for place, own in enumerate(spare) if own < -slack],
                       [place for place, own in enumerate(spare) if -slack <= own <= slack], set())
    row_groups = list(counted.row_groups())
    least: Dict[RowGroup, int] = {}
    for row_group, own in zip(row_groups, spare):
        if own < least.get(row_group, 0):
            least[row_group] = own
    left = [place for place, (row_group, own) in enumerate(zip(row_groups, spare))
            if own <= least.get(row_group, 0) + slack]
    forced = {row_group for row_group, own in least.items() if own < -slack}
    counts = Counter(row_groups[place] for place in left)
    alone = {row_group for row_group in forced if counts[row_group] == 1}
    return _Choice([place for place in left if row_groups[place] in alone],
                   [place for place in left if row_groups[place] not in alone], forced - alone)


def fixed(bounds: Sequence[Bounds], numbers: Sequence[int], slack: int) -> List[Bounds]:
    """Bounds by which the count of whatever has a number beyond the slack is the one that this number stands for."""
    return [bound if -slack <= number <= slack else Bounds(bound.least, bound.least) if number > 0
            else Bounds(bound.most, bound.most) for bound, number in zip(bounds, numbers)]


def narrowed(counted: Counted, spare: Any, slack: int, row_bounds: Sequence[Bounds],
             column_bounds: Sequence[Bounds]) -> Part:
    """The part of the plans that keep the bounds, and of which no pair costs more than its slack.

    Let `spare` be e = c - r - v. Of each row group a plan pays what it takes, by e, and at least min(0, the least e).
    It is in this part if in each row group it pays at most that and the slack: then it takes exactly one where the
    least e is below -slack, and only pairs whose e is at most min(0, least e) + slack. The part's costs aren't set."""
    choice = _choice(counted, spare, slack)
    had, used = (Counter(at(numbers, choice.taken)) for numbers in (counted.rows, counted.columns))
    must = Counter(row for row, _ in choice.forced)
    order = sorted((row, (row, counted.group_of[column]) not in choice.forced, place, column)
                   for row, column, place in zip(at(counted.rows, choice.open), at(counted.columns, choice.open),
                                                 choice.open))
    rows: Dict[Tuple[int, bool], int] = {}
    columns: Dict[int, int] = {}
    of_rows = [rows.setdefault((row, free), len(rows)) for row, free, _, _ in order]
    of_columns = [columns.setdefault(column, len(columns)) for _, _, _, column in order]
    sides = ([(row_bounds[row], had[row] + must[row]) if free else (Bounds(must[row], must[row]), 0)
              for row, free in rows], [(column_bounds[column], used[column]) for column in columns])
    bounds = [[bound.left(taken) for bound, taken in side] for side in sides]
    over = [frozenset(number for number, (bound, taken) in enumerate(side) if bound.least < taken) for side in sides]
    group_of = [group if group < counted.n_groups else counted.n_groups + number
                for number, group in enumerate(map(counted.group_of.__getitem__, columns))]
    part = Counted(bounds[0], bounds[1], group_of, counted.n_groups, of_rows, of_columns, [])
    return Part(part, [row for row, _ in rows], list(columns), [place for _, _, place, _ in order], choice.taken,
                frozenset(number for number, (_, free) in enumerate(rows) if not free), (over[0], over[1]))


def settled(counted: Counted, taken: Collection[Pair], left_out: Collection[Pair]) -> Counted:
    """What is left of a problem where its plans have some pairs and not others."""
    had, used = Counter(row for row, _ in taken), Counter(column for _, column in taken)
    gone = {(row, counted.group_of[column]) for row, column in taken}
    left: List[Any] = [(row, column, cost) for (row, column, cost), row_group in zip(
        zip(counted.rows, counted.columns, counted.costs), counted.row_groups())
        if row_group not in gone and (row, column) not in left_out]
    rows, columns, costs = map(list, zip(*left)) if left else ([], [], [])
    bounds = [[bound.left(count[number]) for number, bound in enumerate(side)]
              for side, count in ((counted.row_bounds, had), (counted.column_bounds, used))]
    return counted._replace(row_bounds=bounds[0], column_bounds=bounds[1], rows=rows, columns=columns, costs=costs)
