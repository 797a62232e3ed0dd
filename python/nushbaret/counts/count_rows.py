"""Counts and groups as rows of 0/1 variables, and leaves over them: that no plan costs less, and that names are short
of pairs.

Pair k is variable k. Where least counts are missed, further variables say by how much each name misses its own. The
multipliers of a best plan's leaf are the numbers that prove it. Those of a shortage are 1 for what the names take
together, and -1 for each count and group that limits it; where some are missed, a plan's leaf has its numbers and a
great multiple of these."""
from collections import Counter
from itertools import chain
from typing import Dict, List, NamedTuple, Optional, Sequence, Tuple

from ..rows.certificate_check import shows
from ..rows.model import Certificate, Leaf, Limits, Terms, flat
from .counted import Bounds, Counted, Pair, RowGroup
from .lack import Cut, Lack


class CountTerms(NamedTuple):
    """The pairs of each row, of each column, and of each row group that has several."""

    of_rows: List[Terms]
    of_columns: List[Terms]
    of_row_groups: Dict[RowGroup, Terms]


def terms_of(counted: Counted) -> CountTerms:
    """The terms of the rows that say counts and groups."""
    several = {row_group for row_group, count in Counter(counted.row_groups()).items() if count > 1}
    row_groups: Dict[RowGroup, List[Tuple[int, int]]] = {}
    for pair, row_group in enumerate(counted.row_groups()):
        if row_group in several:
            row_groups.setdefault(row_group, []).append((pair, 1))
    return CountTerms(_terms(counted.rows, len(counted.row_bounds)),
                      _terms(counted.columns, len(counted.column_bounds)),
                      {row_group: tuple(terms) for row_group, terms in row_groups.items()})


def _terms(numbers: Sequence[int], count: int) -> List[Terms]:
    own: List[List[Tuple[int, int]]] = [[] for _ in range(count)]
    for pair, number in enumerate(numbers):
        own[number].append((pair, 1))
    return [tuple(terms) for terms in own]


def check_lacks(counted: Counted, lacks: Sequence[Lack]) -> None:
    """Checks each shortage; RuntimeError where its certificate doesn't show it."""
    terms = terms_of(counted) if lacks else None
    for lack in lacks:
        bounds, names = (counted.column_bounds, lack.columns) if lack.of_columns else (counted.row_bounds, lack.rows)
        is_short = lack.had < lack.wanted == sum(bounds[name].least for name in names)
        if terms is None or not is_short or not shows(certificate_of_lack(counted, terms, lack)):
            raise RuntimeError("a group was found to be short, and the check of its counts doesn't show it: please "
                               "report this problem")


def certificate_of_lack(counted: Counted, terms: CountTerms, lack: Lack) -> Certificate:
    """The certificate that names of a shortage can't have more than they can, by the greatest counts of others and by
    what counts once."""
    own, names = (terms.of_columns, lack.columns) if lack.of_columns else (terms.of_rows, lack.rows)
    other, others = (terms.of_rows, lack.rows) if lack.of_columns else (terms.of_columns, lack.columns)
    bounds = counted.row_bounds if lack.of_columns else counted.column_bounds
    rows = [Limits(None, other[name], bounds[name].most) for name in others]
    rows += [Limits(None, terms.of_row_groups[row_group], 1) for row_group in lack.once
             if row_group in terms.of_row_groups]
    leaf = Leaf((*((row, -1) for row in range(len(rows))), (len(rows), 1)))
    rows.append(Limits(lack.had + 1, tuple(chain.from_iterable(own[name] for name in names)), None))
    return Certificate(len(counted.rows), tuple(rows), None, flat(leaf))


class Shown(NamedTuple):
    """A best plan to be shown: its pairs, the numbers of rows and columns that prove it, and by the shortages, where
    least counts are missed, their cut."""

    pairs: Sequence[Pair]
    rows: Sequence[int]
    columns: Sequence[int]
    cut: Optional[Cut] = None


class _Missed(NamedTuple):
    """What the names of a side miss of their least counts: for each name the terms that sum up to it, the values of
    their variables in the plan, and how much it is in all."""

    terms: List[Terms]
    values: List[int]
    total: int


def certificate_of_best(counted: Counted, lacks: Sequence[Lack], plan: Shown) -> Certificate:
    """The certificate of a plan, from the numbers that prove it."""
    terms, chosen = terms_of(counted), set(plan.pairs)
    values = [int(pair in chosen) for pair in zip(counted.rows, counted.columns)]
    sides = []
    for side, bounds in enumerate((counted.row_bounds, counted.column_bounds)):
        total = sum(lack.wanted - lack.had for lack in lacks if lack.of_columns == bool(side))
        sides.append(_missed(bounds, Counter(pair[side] for pair in plan.pairs), total, len(values)))
        values += sides[side].values
    rows = [Limits(bound.least, own + more, bound.most) for bounds, their, missed in
            zip((counted.row_bounds, counted.column_bounds), (terms.of_rows, terms.of_columns), sides)
            for bound, own, more in zip(bounds, their, missed.terms)]
    rows += [Limits(None, own, 1) for own in terms.of_row_groups.values()]
    rows += [Limits(missed.total, tuple(chain.from_iterable(missed.terms)), missed.total) for missed in sides
             if missed.total]
    costs = tuple((pair, cost) for pair, cost in enumerate(counted.costs) if cost)
    rows.append(Limits(None, costs, sum(cost for cost, value in zip(counted.costs, values) if value) - 1))
    factors = _multipliers(counted, list(terms.of_row_groups), plan, [missed.total > 0 for missed in sides])
    leaf = Leaf(tuple((row, factor) for row, factor in enumerate(factors) if factor))
    return Certificate(len(values), tuple(rows), tuple(values), flat(leaf))


def _missed(bounds: Sequence[Bounds], had: Dict[int, int], total: int, begin: int) -> _Missed:
    """What a side misses, `total` in all, in variables from `begin` on."""
    terms: List[Terms] = []
    values: List[int] = []
    for name, bound in enumerate(bounds):
        parts = _parts(bound.least) if total else []
        terms.append(tuple((begin + len(values) + place, part) for place, part in enumerate(parts)))
        values += _taken(parts, bound.least - had.get(name, 0))
    return _Missed(terms, values, total)


def _parts(number: int) -> List[int]:
    """Parts of a number, the greatest first, of which some sum up to any number from 0 to this one."""
    parts = []
    while number:
        parts.append((number + 1) // 2)
        number //= 2
    return parts


def _taken(parts: Sequence[int], number: int) -> List[int]:
    """1 for each part that is taken to sum up to a number; none if it is below 0."""
    values = []
    for part in parts:
        values.append(int(part <= number))
        number -= part * values[-1]
    return values


def _multipliers(counted: Counted, row_groups: Sequence[RowGroup], plan: Shown,
                 has_missed: Sequence[bool]) -> List[int]:
    """The multiplier of each row of the certificate."""
    rows, columns, weight = plan.rows, plan.columns, 0
    if plan.cut is not None:
        # More than any difference of two sums of a cost and numbers.
        weight = 1 + 2 * sum(max((abs(value) for value in values), default=0)
                             for values in (counted.costs, rows, columns))
        rows, columns = ([number + weight * more for number, more in zip(own, others)] for own, others in (
            (rows, plan.cut.rows), (columns, plan.cut.columns)))
    least = dict.fromkeys(row_groups, 0)
    for row_group, row, column, cost in zip(counted.row_groups(), counted.rows, counted.columns, counted.costs):
        if row_group in least:
            least[row_group] = min(least[row_group], cost - rows[row] - columns[column])
    return [*rows, *columns, *least.values(), *(-weight for missed in has_missed if missed), -1]
