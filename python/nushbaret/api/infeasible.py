"""Problems without an assignment: the error, and what it names."""
from typing import Any, List, NamedTuple, Optional, Tuple

from ..costs.problem import AssignmentProblem, Labels
from ..lap.matching import short_groups


def numbered(kind: str, numbers: Any, labels: Optional[List[Any]] = None) -> str:
    """Numbers or their labels, at most ten, after what they are of: row 3, rows 3, 4, no row."""
    if not len(numbers):
        return f"no {kind}"
    shown = ", ".join(str(labels[number] if labels else number) for number in list(numbers)[:10])
    more = f", .. ({len(numbers)} in all)" if len(numbers) > 10 else ""
    return f"{kind}{'s' if len(numbers) > 1 else ''} {shown}{more}"


class Shortage(NamedTuple):
    """Least counts that can't be met. If `of_columns` is false, these rows must have `wanted` columns and can have no
    more than `had`: as many as `columns` take at most, and for each of `once`, a row and some columns, one of these. If
    it is true, these columns must have `wanted` rows and can have no more than `had`: as many as `rows` take at most,
    and for each of `once` one.

    Examples
    --------
    >>> import nushbaret
    >>> try:
    ...     nushbaret.assign_counts([[4, 1], [2, 3]], (0, 1), (2, 2))
    ... except nushbaret.Infeasible as short:
    ...     print(short.shortages[0].columns, short.shortages[0].wanted, short.shortages[0].had)
    [0, 1] 4 2
    """

    of_columns: bool
    rows: List[int]
    columns: List[int]
    once: List[Tuple[int, List[int]]]
    wanted: int
    had: int


class Infeasible(ValueError):
    """There is no assignment, and each group of rows and columns proves it.

    If a group has more rows than columns, these rows may have no other columns. If it has more columns (in a problem of
    more rows than columns, where each column needs a row), these columns may go to no other rows.

    Attributes
    ----------
    groups : list of tuple
        Rows and columns of each group that is short, in the order of their first rows (or columns). No two groups share
        any.
    rows, columns : list of int, or NumPy arrays if the costs are one
        Those of the first group: numbers from 0, rising. The text names them by the labels of a DataFrame.
    shortages : list of Shortage
        What `assign_counts` is short of; empty for any other call.

    Examples
    --------
    >>> import nushbaret
    >>> try:
    ...     nushbaret.solve([[1, None], [2, None]])
    ... except nushbaret.Infeasible as short:
    ...     print(short)
    cost matrix is infeasible: rows 0, 1 may have column 0 only
    """

    def __init__(self, groups: List[Tuple[Any, Any]], labels: Labels = None):
        rows, columns = groups[0]
        first, second = numbered("row", rows, labels and labels[0]), numbered("column", columns, labels and labels[1])
        why = f"{first} may have {second}" if len(rows) > len(columns) else f"{second} may go to {first}"
        only = " only" if len(rows) and len(columns) else ""
        more = f" (the first of {len(groups)} groups)" if len(groups) > 1 else ""
        super().__init__(f"cost matrix is infeasible: {why}{only}{more}")
        self.groups = groups
        self.rows = rows
        self.columns = columns
        self.shortages: List[Shortage] = []
        self._labels = labels

    def __reduce__(self) -> Tuple[Any, ...]:
        return type(self), (self.groups, self._labels)


def infeasible(problem: AssignmentProblem) -> Infeasible:
    """The proof that a problem which lists its pairs can't be solved."""
    groups = [(problem.numbers(rows), problem.numbers(columns)) for rows, columns in short_groups(problem)]
    return Infeasible(groups, problem.labels)
