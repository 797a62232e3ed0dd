"""The solving calls."""
import time
from typing import Any, Callable, List, Optional, Sequence, Tuple, Union, overload

from ..costs import problem as reading, reading as exact, source as sources
from ..costs.problem import AssignmentProblem
from ..costs.source import Source
from ..lap import direct, library, proved
from ..lap.solving import Began, most, solved
from .infeasible import infeasible
from .results import Result
from .shown import Matrix, Missing
from .solved import result_parts

Start = Union[Result, Sequence[Any], None]
# What is called with the rows assigned so far, and how many there are.
Progress = Optional[Callable[[int, int], Any]]


def _answer(problem: AssignmentProblem, start: Start, partial: bool) -> proved.Assignment:
    began = None if start is None else began_at(problem, start)
    answer = solved(problem, began)
    if not isinstance(answer, proved.HallSet):
        return answer
    if not partial:
        raise infeasible(problem)
    return most(problem, began)


def began_at(problem: AssignmentProblem, start: Start) -> Began:
    """Where a search begins, from a result or from prices of the caller's. None where those of a result need costs that
    were changed since."""
    if not isinstance(start, Result):
        if not hasattr(start, "__iter__"):
            raise TypeError(f"start is {start!r}: it must be a result, or a list of prices")
        return proved.WarmStart(proved.read_prices(problem, start, "start"))
    try:
        prices = start._solved.rents
    except ValueError:
        return None
    return proved.WarmStart(proved.read_prices(problem, prices), *start._solved.pairs)


def solve_problem(problem: AssignmentProblem, source: Source, start: Start = None, partial: bool = False) -> Result:
    """The result of a problem; Infeasible where it has no plan and none is to be partial."""
    return Result(source, result_parts(problem, _answer(problem, start, partial)))


def solve_source(source: Source, start: Start = None, partial: bool = False, timeout: Optional[float] = None,
                 progress: Progress = None, unmatched_cost: Any = None) -> Result:
    """The result of what a call was given."""
    if unmatched_cost is not None and (partial or start is not None):
        raise ValueError("unmatched_cost leaves out what is best left out, from the beginning: give it without partial "
                         "and start")
    with library.limited(timeout, progress):
        if unmatched_cost is not None:
            from .unmatched import solve_unmatched
            return solve_unmatched(source, unmatched_cost)
        return solve_problem(source.read(), source, start, partial)


def solve(costs: Matrix, maximize: bool = False, decimals: Optional[int] = None, start: Start = None,
          partial: bool = False, missing: Missing = "refuse", timeout: Optional[float] = None,
          progress: Progress = None, *, unmatched_cost: Any = None) -> Result:
    """A best assignment of the rows and columns of a matrix, with exact duals that prove it.

    Each row gets a column, no column twice. With unequal numbers as many pairs as possible are made, and some rows or
    columns stay out. The plan is best for the costs as given, whatever their size.

    Parameters
    ----------
    costs : matrix
        A list of rows, a NumPy array or what becomes one (`__array__`, `__array_interface__`, DLPack), a DataFrame of
        pandas, a sparse matrix of SciPy's or of pydata's, or a buffer of two dimensions.
        Whole numbers, floats, Decimals or Fractions; a float of any size is the decimal that it prints as. None or
        infinity (under maximize -infinity) forbids a pair. At most 4194304 rows and columns.
    maximize : bool, optional
        Whether to find the greatest sum, not the least.
    decimals : int, optional
        Rounds each cost to so many decimal places first, 0 to 1000, halves to even. If it isn't given, nothing is
        rounded.
    start : Result or list of numbers, optional
        The result of a similar problem, or prices to start from: one for each column, in the unit of the costs, as
        those of `check`. The cost is the same whatever they are.
    partial : bool, optional
        If not all can be paired, makes as many pairs as possible, at the best sum among these plans, instead of
        raising.
    missing : {"refuse", "forbid"}, optional
        Whether NaN, and what the mask of an array covers, is refused, or forbids its pair.
    timeout : float, optional
        After so many seconds TimeoutError is raised, in reading too. Nothing of the caller's is changed, and nothing
        goes on.
    progress : callable, optional
        Is called as progress(assigned, all) after each piece of a search, some tenth of a second: so many of all rows
        have a column then, or of columns a row where these are fewer. Where levels or dummies take several searches,
        each counts from 0. What it raises ends the call.
    unmatched_cost : number, or pair of numbers or lists, optional
        What it costs to leave a row and a column out. Then any may be left out, and the sum of the pairs' costs and of
        these is the best. Of a number, half counts for each row and half for each column that is left out, so that no
        pair costs more. A pair has what a row costs and what a column costs: a number, or one for each, in a list or by
        name. No row and column are both left out whose pair costs just as much. `cost` has all of it.

    Returns
    -------
    Result

    Raises
    ------
    Infeasible
        If there is no assignment; `rows` and `columns` prove it. A ValueError.
    ValueError
        If the costs are no matrix or too many, or one is NaN. The text says where.
    TypeError
        If a cost is no number.
    TimeoutError
        If the time is over.
    MemoryError
        If memory is refused.
    LibraryNotFound
        If the shared library is missing. An OSError.

    Notes
    -----
    The time grows as the cube of the size at worst. The interpreter's lock is free while the library works, and Ctrl-C
    ends the call.

    Examples
    --------
    >>> import nushbaret
    >>> nushbaret.solve([[0.1 + 0.2, 2.5], [3, 1e15]]).cost
    Decimal('5.5')
    """
    end = direct.end_of(timeout)
    if unmatched_cost is None and decimals is None and start is None and end is not None and progress is None \
            and missing == "refuse":
        found = direct.found(costs, bool(maximize), end)
        if found:
            return Result(Source(costs, None, None, None, exact.Manner(found.shape.maximize)), found)
    source = Source(sources.lasting(costs), None, None, None, exact.manner(maximize, decimals, missing))
    return solve_source(source, start, partial, _left(end, timeout), progress, unmatched_cost)


def _left(end: Optional[float], timeout: Any) -> Any:
    """What is left of a time."""
    return timeout if timeout is None or end is None else max(0.0, end - time.monotonic())


def solve_sparse(n_rows: Any, n_columns: Optional[int] = None, rows: Any = None, columns: Any = None, costs: Any = None,
                 maximize: bool = False, decimals: Optional[int] = None, start: Start = None, partial: bool = False,
                 missing: Missing = "refuse", timeout: Optional[float] = None, progress: Progress = None, *,
                 unmatched_cost: Any = None) -> Result:
    """A best assignment where only the listed pairs may be used.

    Parameters
    ----------
    n_rows, n_columns : int
        How many rows and columns there are, 0 to 4194304 each. Or one sparse matrix of SciPy's or pydata's instead of
        these and of the three lists; its stored entries are the pairs, also those that are 0. Entries of one place add
        up, as in SciPy. A 0 in the formats bsr and dia is refused, since they fill up with 0.
    rows, columns, costs : lists or NumPy arrays of one length
        Row rows[k] may have column columns[k] at costs[k]; numbers from 0. A pair that is given several times counts
        once, at its least cost, also under maximize. Costs are as those of `solve`.
    maximize, decimals, start, partial, missing, timeout, progress, unmatched_cost
        As in `solve`.

    Returns
    -------
    Result

    Raises
    ------
    Infeasible, ValueError, TypeError, TimeoutError, MemoryError, LibraryNotFound
        As in `solve`.

    Examples
    --------
    >>> import nushbaret
    >>> nushbaret.solve_sparse(2, 2, rows=[0, 0, 1], columns=[0, 1, 0], costs=[4, 1, 2]).pairs
    [(0, 1), (1, 0)]
    """
    manner = exact.manner(maximize, decimals, missing)
    lists = n_columns, rows, columns, costs
    if exact.is_sparse(n_rows):
        if any(value is not None for value in lists):
            raise TypeError("a sparse matrix has rows, columns and costs of its own: give the other words by name")
        source = Source(n_rows, None, None, None, manner)
    elif any(value is None for value in lists):
        raise TypeError("n_rows, n_columns, rows, columns and costs are needed, or one sparse matrix")
    else:
        source = Source(sources.listed(costs), sources.listed(rows), sources.listed(columns), (n_rows, n_columns),
                        manner)
    end = direct.end_of(timeout)
    if unmatched_cost is None and decimals is None and start is None and end is not None and progress is None \
            and not manner.forbid_nan:
        found = direct.found_listed((n_rows, *lists), manner.maximize, end)
        if found:
            return Result(source, found)
    return solve_source(source, start, partial, _left(end, timeout), progress, unmatched_cost)


@overload
def linear_sum_assignment(cost_matrix: Sequence[Sequence[Any]], maximize: bool = ..., *, missing: Missing = ...,
                          timeout: Optional[float] = ..., progress: Progress = ...,
                          unmatched_cost: Any = ...) -> Tuple[List[int], List[int]]: ...


@overload
def linear_sum_assignment(cost_matrix: Matrix, maximize: bool = ..., *, missing: Missing = ...,
                          timeout: Optional[float] = ..., progress: Progress = ...,
                          unmatched_cost: Any = ...) -> Tuple[Any, Any]: ...


def linear_sum_assignment(cost_matrix: Any, maximize: bool = False, *, missing: Missing = "refuse",
                          timeout: Optional[float] = None, progress: Progress = None,
                          unmatched_cost: Any = None) -> Tuple[Any, Any]:
    """The call of scipy.optimize, with its results and errors. The plan is best for exactly these costs; a float is its
    double.

    Parameters
    ----------
    cost_matrix : matrix
        Any that SciPy takes, and None to forbid a pair, as infinity does (under maximize -infinity).
    maximize : bool, optional
        Whether to find the greatest sum.
    missing, timeout, progress
        As in `solve`; but without "forbid" a mask isn't seen, as in SciPy.
    unmatched_cost
        As in `solve`. Only the pairs are returned. A float is its double.

    Returns
    -------
    row_ind, col_ind : NumPy arrays for an array or a list of rows one of which is an array, lists otherwise
        Row row_ind[k] has column col_ind[k]; rows rise.

    Raises
    ------
    ValueError, TypeError, OverflowError
        As SciPy does: OverflowError for a whole number that is no double.
    TimeoutError, MemoryError, LibraryNotFound
        As in `solve`.

    Examples
    --------
    >>> import nushbaret
    >>> nushbaret.linear_sum_assignment([[0.3, 0.1, 1e15], [0.1, 0.3, 1e15], [1e15, 1e15, 0.5]])
    ([0, 1, 2], [1, 0, 2])
    """
    with library.limited(timeout, progress):
        how = exact.manner(maximize, None, missing, True)
        problem = reading.of_matrix(cost_matrix, how)
        if unmatched_cost is not None:
            from .unmatched import unmatched_pairs
            return unmatched_pairs(problem, unmatched_cost, how)
        return proved.rows_and_columns(problem, _answer(problem, None, False))
