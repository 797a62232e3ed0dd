"""Plans from elsewhere, checked against a problem."""
from collections.abc import Mapping, Set
from typing import Any, List, NamedTuple, Optional, Tuple

from ..costs import naming, reading as exact, source as sources
from ..costs.numbers import exactly_less
from ..costs.problem import AssignmentProblem, costs_of_pairs
from ..costs.source import Source
from ..lap.plan_check import check_wholly, counted
from ..lap.proved import read_prices
from .results import Result, Verdict
from .shown import Matrix, Missing
from .solve import solve_problem


class Comparison(NamedTuple):
    """A plan made by hand compared with the best one: its cost, the best cost, by how much it is worse (0 or more), and
    the best one's result.

    Examples
    --------
    >>> import nushbaret
    >>> nushbaret.compare([[1, 2], [3, 5]], columns=[0, 1])[:3]
    (6, 5, 1)
    """

    cost: Any
    best: Any
    worse: Any
    result: Result


def _pairs_of(problem: AssignmentProblem, columns: Any, rows: Any) -> List[Tuple[int, int]]:
    """The pairs of a plan. Each number must be one of the problem, and no row may come twice."""
    of_rows, of_columns = problem.labels or (None, None)
    if rows is None and isinstance(columns, Mapping):
        columns = naming.listed(columns, "columns", "row", problem.n_rows, of_rows)
    row_numbers, column_numbers = naming.Numbers(of_rows, ValueError), naming.Numbers(of_columns, ValueError)
    columns = [None if column is None else column_numbers.of(column, f"columns[{place}]")
               for place, column in enumerate(_listed(columns, "columns"))]
    rows = range(len(columns)) if rows is None else [row_numbers.of(row, f"rows[{place}]")
                                                     for place, row in enumerate(_listed(rows, "rows"))]
    if len(rows) != len(columns):
        raise ValueError(f"there are {len(rows)} rows and {len(columns)} columns: a plan pairs them one by one")
    pairs = [(row, column) for row, column in zip(rows, columns) if column is not None]
    seen = set()
    for row, column in pairs:
        if not 0 <= row < problem.n_rows:
            raise ValueError(f"row {row} of the plan isn't from 0 to {problem.n_rows - 1}")
        if not 0 <= column < problem.n_columns:
            raise ValueError(f"row {row} of the plan has column {column}, which isn't from 0 to "
                             f"{problem.n_columns - 1}")
        if row in seen:
            raise ValueError(f"row {problem.row_name(row)} stands twice in the plan")
        seen.add(row)
    return pairs


def _listed(values: Any, what: str) -> List[Any]:
    """Rows or columns of a plan, in their order."""
    if isinstance(values, (Mapping, Set, str, bytes)) or not hasattr(values, "__iter__"):
        raise TypeError(f"{what} is {values!r}: it must be a list of the plan's {what}, one for each pair")
    return list(values)


def check(costs: Matrix, columns: Any, prices: Any, rows: Any = None, maximize: bool = False,
          decimals: Optional[int] = None, missing: Missing = "refuse") -> Verdict:
    """Checks a plan of any origin against a problem: whether these prices prove that it is best.

    Parameters
    ----------
    costs : matrix
        As in `solve`.
    columns : list of int, or dict
        The column of each row, from 0; None for a row that stays out. With a DataFrame labels will do too, except whole
        numbers.
    prices : list of numbers, dict or Series
        One for each column, or by its name, in the unit of the costs, as `Result.prices`. A price is added to its
        column's costs, and subtracted under maximize. So a solver's column duals are prices with reversed signs, and
        under maximize as they are.
    rows : list of int, optional
        The row of each of `columns`, if they aren't 0, 1, 2 ...
    maximize, decimals, missing
        As in `solve`.

    Returns
    -------
    Verdict
        True as a condition exactly if the plan has as many pairs as can be made, and the prices prove that no plan of
        as many is better. A plan may be best though these prices don't prove it: see `compare`.

    Raises
    ------
    ValueError, TypeError
        As in `solve`, or if a number or a label of the plan is none of the problem's, a row is in it twice, or there
        aren't as many prices as columns.

    Notes
    -----
    Within its range the proved library checks, at prices that are whole in the unit of the costs: others are rounded so
    that what they prove they still prove. Beyond it Python compares exactly: the plan is proved if what all rows pay
    above their best adds up to less than the unit of the costs.

    Examples
    --------
    >>> import nushbaret
    >>> nushbaret.check([[1, 2], [3, 5]], columns=[1, 0], prices=[1, 0])
    <nushbaret.Verdict: proved>
    """
    problem = sources.problem_of(sources.lasting(costs), None, None, None, exact.manner(maximize, decimals, missing))
    pairs = _pairs_of(problem, columns, rows)
    return Verdict(*check_wholly(problem, [row for row, _ in pairs], [column for _, column in pairs],
                                 read_prices(problem, prices)))


def compare(costs: Matrix, columns: Any, rows: Any = None, maximize: bool = False,
            decimals: Optional[int] = None, missing: Missing = "refuse") -> Comparison:
    """By how much a plan made by hand is worse than the best one.

    Parameters
    ----------
    costs, columns, rows, maximize, decimals, missing
        As in `check`. The plan must have as many pairs as possible.

    Returns
    -------
    Comparison

    Raises
    ------
    ValueError, TypeError
        As in `check`, or if the plan uses a forbidden pair or a column twice, or has fewer pairs than possible.

    Examples
    --------
    >>> import nushbaret
    >>> nushbaret.compare([[1, 2], [3, 5]], columns=[0, 1]).worse
    1
    """
    source = Source(sources.lasting(costs), None, None, None, exact.manner(maximize, decimals, missing))
    problem = source.read()
    pairs = _pairs_of(problem, columns, rows)
    held = costs_of_pairs(problem, [row for row, _ in pairs], [column for _, column in pairs])
    seen = set()
    for (row, column), cost in zip(pairs, held):
        if cost is None:
            raise ValueError(f"row {problem.row_name(row)} may not have column {problem.column_name(column)}")
        if column in seen:
            raise ValueError(f"column {problem.column_name(column)} stands twice in the plan")
        seen.add(column)
    result = solve_problem(problem, source, None, True)
    if len(pairs) != len(result.rows):
        raise ValueError(f"the plan has {counted(len(pairs), 'pair')}, and {len(result.rows)} can be made")
    own, best = result._shape.costs.total(problem.costs.ratios(held)), result.cost
    return Comparison(own, best, exactly_less(best, own) if problem.maximize else exactly_less(own, best), result)
