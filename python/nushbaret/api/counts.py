"""Plans in which rows and columns count from so many to so many: the call."""
import operator
import pickle
from array import array
from collections import Counter
from fractions import Fraction
from functools import cached_property
from itertools import islice
from operator import le, neg
from typing import Any, Dict, List, Optional, Sequence, Tuple

from ..costs import naming
from ..costs.kinds import Costs, plain
from ..costs.numbers import Number
from ..costs.problem import AssignmentProblem, Labels, kept, listed
from ..costs.reading import is_nan, manner
from ..costs.source import lasting, problem_of
from ..counts.lack import Lack
from ..counts.count_levels import Given
from ..counts.planned import Plans, missing, planned
from ..counts.counted import Bounds, Counted
from ..lap import library
from .infeasible import Infeasible, Shortage, numbered
from .results import Lasting
from .shown import ByNames, FixedDict, FixedList, fixed
from .solve import Progress

ONE_AT_MOST = Bounds(0, 1)


class CountsInfeasible(Infeasible):
    """No plan meets all least counts, and each of `shortages` proves it. No two of them share rows and columns that
    they need.

    Attributes
    ----------
    groups, rows, columns
        The rows and columns of each shortage, and those of the first one.

    Examples
    --------
    >>> import nushbaret
    >>> try:
    ...     nushbaret.assign_counts([[4, 1], [2, 3]], (0, 1), (2, 2))
    ... except nushbaret.CountsInfeasible as short:
    ...     print(short)
    counts can't be met: columns 0, 1 must have 4 rows, and can have 2: 2 by the most of rows 0, 1
    """

    def __init__(self, shortages: List[Shortage], labels: Labels = None):
        super().__init__([(sorted({*short.rows, *(row for row, _ in short.once)}), short.columns)
                          for short in shortages], labels)
        self.shortages = shortages
        more = f" (the first of {len(shortages)} groups)" if len(shortages) > 1 else ""
        self.args = (f"counts can't be met: {_why(shortages[0], labels)}{more}",)

    def __reduce__(self) -> Tuple[Any, ...]:
        return type(self), (self.shortages, self._labels)


def _why(short: Shortage, labels: Labels) -> str:
    """A shortage in words."""
    rows = numbered("row", short.rows, labels and labels[0])
    columns = numbered("column", short.columns, labels and labels[1])
    need, word, others, by = (columns, "row", short.rows, rows) if short.of_columns else (rows, "column", short.columns,
                                                                                          columns)
    parts = [f"{short.had - len(short.once)} by the most of {by}"] if others else []
    if short.once:
        parts.append(f"{len(short.once)} where a pair or a group counts once")
    had = f"can have {short.had}: {', '.join(parts)}" if parts else "may have none"
    return f"{need} must have {short.wanted} {word}{'s' if short.wanted > 1 else ''}, and {had}"


def shortages_of(counted: Counted, lacks: List[Lack]) -> List[Shortage]:
    """What is short, where groups are lists of columns."""
    members: Dict[Tuple[int, int], List[int]] = {}
    wanted = {row_group for lack in lacks for row_group in lack.once}
    for row_group, column in zip(counted.row_groups(), counted.columns):
        if row_group in wanted:
            members.setdefault(row_group, []).append(column)
    found = []
    for lack in lacks:
        own = set(lack.columns)
        once = [(row, [column for column in members[row, group] if not lack.of_columns or column in own])
                for row, group in lack.once]
        found.append(Shortage(lack.of_columns, lack.rows, lack.columns, once, lack.wanted, lack.had))
    return found


class CountsResult(ByNames, Lasting):
    """A best plan by counts.

    Row `rows[k]` has column `columns[k]`, each pair once; numbers are from 0, and rows rise, then columns. They are
    NumPy arrays if the costs are one, and lists otherwise. These can't be changed, and attributes can't be set. A
    result can be pickled.

    Examples
    --------
    >>> import nushbaret
    >>> result = nushbaret.assign_counts([[4, 1, 3], [2, 0, 5]], (1, 2), 1)
    >>> result.rows, result.columns, result.cost
    ([0, 1, 1], [2, 0, 1], 5)
    """

    #: The rows of the pairs, rising, from 0.
    rows: Any
    #: The column of each of `rows`.
    columns: Any
    #: By how many each row misses its least count; those that meet it aren't there.
    missing_rows: Dict[int, int]
    #: The same of columns.
    missing_columns: Dict[int, int]
    #: Whether this is the greatest sum, not the least.
    maximize: bool
    _labels: Labels
    _kind: Costs
    _costs: List[Any]
    _numbers: Optional[Tuple[Sequence[int], Sequence[int]]]
    _denominator: int

    def __init__(self, problem: AssignmentProblem, plans: Plans):
        counted, best = plans.problem, plans.best
        rows, columns, costs = _chosen(problem, plans)
        missed = [missing(bounds, Counter(_listed(own))) if plans.cut else {}
                  for bounds, own in ((counted.row_bounds, rows), (counted.column_bounds, columns))]
        self.__dict__.update(
            rows=fixed(problem.numbers(rows)), columns=fixed(problem.numbers(columns)), maximize=problem.maximize,
            missing_rows=FixedDict(missed[0]), missing_columns=FixedDict(missed[1]), _labels=problem.labels,
            _kind=problem.costs.without_numbers(), _costs=costs,
            _numbers=None if plans.cut else (best.row_numbers, best.column_numbers), _denominator=best.denominator)

    def __setstate__(self, state: Any) -> None:
        if "_kind" not in state:
            raise pickle.UnpicklingError("a release before 5.1 pickled this result, which this one can't read: solve "
                                         "its costs again")
        self.__dict__.update({**state, "rows": fixed(state["rows"]), "columns": fixed(state["columns"])})

    def __repr__(self) -> str:
        return f"<nushbaret.CountsResult: cost {self.cost}, {len(self.rows)} pairs>"

    @cached_property
    def cost(self) -> Number:
        """The exact sum of the pairs' costs: an int, a Decimal where costs have decimal places, or a Fraction where one
        was given."""
        return self._kind.total(self._kind.ratios_in_unit(self._costs))

    @cached_property
    def pairs(self) -> List[Tuple[Any, Any]]:
        """The pairs, by the labels of a DataFrame, or else by numbers."""
        found = zip(_listed(self.rows), _listed(self.columns))
        if self._labels is None:
            return FixedList(found)
        rows, columns = self._labels
        return FixedList((rows[row], columns[column]) for row, column in found)

    @cached_property
    def row_numbers(self) -> Optional[List[Number]]:
        """The exact number (dual) of each row; None where least counts are missed.

        Let e = cost - row's number - column's number. Numbers of rows and columns prove the plan best: each of its
        pairs has e <= 0, and the least e of those that its row may have of its group; each other allowed pair has e >=
        0, or its row has another column of its group; a number is above 0 only where a row or a column has its least
        count, and below 0 only where it has its greatest. Under maximize all these signs are reversed. Other numbers
        may prove the same plan.

        Examples
        --------
        >>> import nushbaret
        >>> result = nushbaret.assign_counts([[4, 1, 3], [2, 0, 5]], 1, (0, 1))
        >>> result.pairs, result.row_numbers, result.column_numbers
        ([(0, 1), (1, 0)], [2, 2], [0, -1, 0])
        """
        return self._shown(0)

    @cached_property
    def column_numbers(self) -> Optional[List[Number]]:
        """The exact number of each column, as `row_numbers` says."""
        return self._shown(1)

    def _shown(self, side: int) -> Optional[List[Number]]:
        if self._numbers is None:
            return None
        sign = -1 if self.maximize else 1
        return FixedList(self._kind.all_shown([Fraction(sign * number, self._denominator).as_integer_ratio()
                                               for number in self._numbers[side]]))

    def _costs_of_pairs(self) -> List[Number]:
        return self._kind.all_shown(self._kind.ratios_in_unit(self._costs))

    def as_dict(self) -> Dict[Any, List[Any]]:
        """The columns of each row that has some, by labels if the costs were a DataFrame, else by numbers.

        Returns
        -------
        dict

        Examples
        --------
        >>> import nushbaret
        >>> nushbaret.assign_counts([[4, 1, 3], [2, 0, 5]], (1, 2), 1).as_dict()
        {0: [2], 1: [0, 1]}
        """
        found: Dict[Any, List[Any]] = {}
        for row, column in self.pairs:
            found.setdefault(row, []).append(column)
        return found


def _listed(values: Any) -> List[int]:
    return list(values.tolist()) if hasattr(values, "tolist") else list(values)


def _chosen(problem: AssignmentProblem, plans: Plans) -> Tuple[Any, Any, List[Any]]:
    """The rows and columns of a plan's pairs, in order, and their costs."""
    plan = plans.part.plan(plans.best.plan, len(plans.problem.rows)) if plans.cut else plans.best.plan
    if problem.numpy is None:
        places = [place for place, is_chosen in enumerate(plan) if is_chosen]
        persons, objects, costs = _listed(problem.persons), _listed(problem.objects), problem.costs.listed()
        order = sorted((persons[place] - 1, objects[place] - 1, place) for place in places)
        return [row for row, _, _ in order], [column for _, column, _ in order], [costs[place] for _, _, place in order]
    found = problem.numpy.frombuffer(plan, "uint8").nonzero()[0]
    rows, columns = (numbers[found].astype(problem.numpy.intp) - 1 for numbers in (problem.persons, problem.objects))
    keys = rows * problem.n_columns + columns
    if not (keys[1:] > keys[:-1]).all():
        order = keys.argsort()
        rows, columns, found = rows[order], columns[order], found[order]
    return rows, columns, list(problem.costs.numbers[found].tolist())


# What the caller says of counts and groups.


def _is_whole(value: Any) -> bool:
    try:
        operator.index(value)
    except TypeError:
        return False
    return True


def _is_range(value: Any) -> bool:
    return isinstance(value, (tuple, list)) and len(value) == 2 and all(map(_is_whole, value))


def _bound(value: Any, where: str) -> Bounds:
    """A count: so many exactly, or at least and at most so many."""
    if not _is_whole(value) and not _is_range(value):
        raise TypeError(f"{where} is {value!r}: a count is a whole number, or the least and the most")
    least, most = (value, value) if _is_whole(value) else value
    bound = Bounds(operator.index(least), operator.index(most))
    if not 0 <= bound.least <= bound.most:
        raise ValueError(f"{where} is {value!r}: the least count must be 0 or more, and the most not less than it")
    return bound


def bounds_of(counts: Any, kind: str, number: int, labels: Optional[List[Any]]) -> List[Bounds]:
    """The counts of all rows, or of all columns, as `kind` says."""
    what = f"{kind}_counts"
    if counts is None:
        return [ONE_AT_MOST] * number
    if _is_whole(counts) or isinstance(counts, tuple) and _is_range(counts):
        return [_bound(counts, what)] * number
    if not hasattr(counts, "__iter__"):
        raise TypeError(f"{what} is {counts!r}: a count is a whole number, or the least and the most")
    values = naming.listed(counts, what, kind, number, labels)
    if len(values) != number:
        raise ValueError(f"{what} has {len(values)} counts, where {number} are needed (one for all is a number, or a "
                         "tuple of least and " "most)")
    return [_bound(value, f"{what}[{place}]") for place, value in enumerate(values)]


def _is_list(value: Any) -> bool:
    return hasattr(value, "__iter__") and not isinstance(value, (str, bytes))


def groups_of(column_groups: Any, n_columns: int, labels: Optional[List[Any]]) -> Tuple[List[int], int]:
    """The group of each column, and how many groups were given; columns in none come after these."""
    given: List[Optional[int]] = [None] * n_columns
    # Groups need no order, and labels do.
    if column_groups is None or isinstance(column_groups, (set, frozenset)) and all(map(_is_list, column_groups)):
        values = list(column_groups or ())
    else:
        values = naming.listed(column_groups, "column_groups", "column", n_columns, labels)
    are_lists = list(map(_is_list, values))
    if all(are_lists):
        count = _of_lists(values, given)
    elif any(are_lists):
        raise TypeError("column_groups must be lists of columns, or one label for each column")
    else:
        count = _of_labels(values, given)
    return [count + column if group is None else group for column, group in enumerate(given)], count


def _of_lists(values: List[Any], given: List[Optional[int]]) -> int:
    for group, columns in enumerate(values):
        for value in columns:
            if not _is_whole(value):
                raise TypeError(f"column_groups[{group}] has {value!r}: a column is its number")
            column = operator.index(value)
            if not 0 <= column < len(given):
                raise ValueError(f"column_groups[{group}] has column {column}: it must be from 0 to {len(given) - 1}")
            if given[column] is not None:
                raise ValueError(f"column {column} is in column_groups[{given[column]}] and in column_groups[{group}]: "
                                 "groups share none")
            given[column] = group
    return len(values)


def _of_labels(values: List[Any], given: List[Optional[int]]) -> int:
    """None, NaN and what pandas has instead are no label."""
    if len(values) != len(given):
        raise ValueError(f"column_groups has {len(values)} labels, and there are {len(given)} columns")
    numbers: Dict[Any, int] = {}
    for column, label in enumerate(values):
        if label is not None and not is_nan(label) and label == label:
            given[column] = numbers.setdefault(label, len(numbers))
    return len(numbers)


def _by_rows(problem: AssignmentProblem) -> AssignmentProblem:
    """The problem as a list of pairs, rows rising."""
    problem = listed(problem)
    persons = problem.persons
    if problem.numpy:
        return problem if (persons[1:] >= persons[:-1]).all() else kept(problem, persons.argsort(kind="stable"))
    if all(map(le, persons, islice(persons, 1, None))):
        return problem
    return kept(problem, sorted(range(len(persons)), key=persons.__getitem__))


def _counted(problem: AssignmentProblem, rows: List[Bounds], columns: List[Bounds],
             groups: Tuple[List[int], int]) -> Tuple[Counted, Optional[Given]]:
    """The problem of counts, for pairs whose rows rise, and its costs, where they aren't in the library's range."""
    costs, sign = problem.costs.of_64_bits(), -1 if problem.maximize else 1
    own, others = ((numbers - 1 if problem.numpy else [number - 1 for number in numbers])
                   for numbers in (problem.persons, problem.objects))
    counted = Counted(rows, columns, *groups, own, others, [] if costs is None else plain(costs))
    if costs is None or not counted.in_range():
        return counted._replace(costs=[]), Given(problem.costs, sign)
    if problem.maximize:
        numbers = counted.costs
        counted = counted._replace(costs=-numbers if problem.numpy else array("q", map(neg, numbers)))
    return counted, None


def assign_counts(costs: Any, row_counts: Any = None, column_counts: Any = None, column_groups: Any = None,
                  maximize: bool = False, decimals: Optional[int] = None, partial: bool = False,
                  missing: str = "refuse", timeout: Optional[float] = None, progress: Progress = None) -> CountsResult:
    """A best plan in which each row takes from so many to so many columns, and each column rows.

    Each pair is made at most once, and of a group of columns a row takes at most one.

    Parameters
    ----------
    costs : matrix
        As in `solve`.
    row_counts, column_counts : int, tuple, list, dict or Series, optional
        How many columns a row takes, and how many rows a column: a number, exactly so many, or a tuple (least, most).
        One for all, or a list with one for each, or a dict or a Series by the labels of a DataFrame, else by numbers.
        None is (0, 1); not both may be None.
    column_groups : list, dict or Series, optional
        Groups of columns, no two of which share any: a list of lists of column numbers, or a label for each column,
        None for no group.
    maximize, decimals, missing, timeout
        As in `solve`.
    progress : callable, optional
        Is called with how many rows have their least count, and a pair if they take any, and how many rows there are:
        after each piece of a long search, and at its end.
    partial : bool, optional
        If not all least counts can be met, misses them by as little as can be, summed over all rows and columns, and
        takes a plan of the best sum among these, instead of raising. Greatest counts and groups are kept.

    Returns
    -------
    CountsResult

    Raises
    ------
    Infeasible
        If there is no plan; `shortages` prove it. A ValueError.
    ValueError, TypeError, TimeoutError, MemoryError, LibraryNotFound
        As in `solve`, or if a count or a group is none.

    Notes
    -----
    The library solves the problem itself (an auction with similar objects, after Bertsekas and Castanon 1989), and
    checks the plan by the numbers of rows and columns; the check is proved. At most 4194304 rows and columns and
    1073741824 pairs. Costs beyond 10**12 in their unit, and doubles, are solved by levels. Each shortage, and each plan
    that misses least counts, is checked on rows that say just the counts and groups.

    Examples
    --------
    >>> import nushbaret
    >>> shifts = [[4, 1, 3, 2], [2, 3, 5, 1]]
    >>> nushbaret.assign_counts(shifts, (2, 3), (1, 2), column_groups=["Mon", "Mon", "Tue", "Tue"]).pairs
    [(0, 1), (0, 2), (1, 0), (1, 3)]
    """
    if row_counts is None and column_counts is None:
        raise TypeError("row_counts and column_counts are both missing: give one, or call solve")
    with library.limited(timeout, progress):
        problem = _by_rows(problem_of(lasting(costs), None, None, None, manner(maximize, decimals, missing)))
        of_rows, of_columns = problem.labels or (None, None)
        rows, columns = bounds_of(row_counts, "row", problem.n_rows, of_rows), bounds_of(column_counts, "column",
                                                                                         problem.n_columns, of_columns)
        counted, given = _counted(problem, rows, columns,
                                  groups_of(column_groups, problem.n_columns, of_columns))
        lacks, plans = planned(counted, partial, given)
        if plans is not None:
            return CountsResult(problem, plans)
    raise CountsInfeasible(shortages_of(counted.listed(), lacks), problem.labels)
