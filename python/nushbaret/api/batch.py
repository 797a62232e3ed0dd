"""SciPy's call by the short way, and many matrices in one call."""
import time
from collections.abc import Mapping, Set
from concurrent.futures import ThreadPoolExecutor, wait
from typing import Any, Callable, List, Optional, Sequence, Tuple, overload

from ..costs import reading
from ..lap import direct, library
from .results import Result
from .shown import Missing
from .solve import Progress, linear_sum_assignment as longer, solve

linear_sum_assignment = direct.over(longer)

# How long the call waits for its threads until it looks at Ctrl-C and the time again.
_WAIT = 0.05
_Work = Callable[[range], None]


@overload
def linear_sum_assignment_batch(costs: Sequence[Sequence[Sequence[Any]]], maximize: bool = ..., *,
                                unmatched_cost: Any = ..., missing: Missing = ..., workers: Optional[int] = ...,
                                timeout: Optional[float] = ...,
                                progress: Progress = ...) -> Tuple[List[List[int]], List[List[int]]]: ...


@overload
def linear_sum_assignment_batch(costs: Any, maximize: bool = ..., *, unmatched_cost: Any = ...,
                                missing: Missing = ..., workers: Optional[int] = ...,
                                timeout: Optional[float] = ...,
                                progress: Progress = ...) -> Tuple[Any, Any]: ...


def linear_sum_assignment_batch(costs: Any, maximize: bool = False, *, unmatched_cost: Any = None,
                                missing: Missing = "refuse", workers: Optional[int] = None,
                                timeout: Optional[float] = None, progress: Progress = None) -> Tuple[Any, Any]:
    """Solves many matrices, as `linear_sum_assignment` solves each: one call for a thousand small ones takes much less
    time than a thousand calls. `solve_batch` also returns costs and duals.

    Parameters
    ----------
    costs : array of three dimensions, or list of matrices
        costs[k] is matrix k, as `linear_sum_assignment` takes it. Those of a list may have different shapes.
    maximize : bool, optional
        Whether to find the greatest sums.
    unmatched_cost, missing
        As in `linear_sum_assignment`, for each matrix.
    workers : int, optional
        In how many threads; in that of the caller if it isn't given.
    timeout : float, optional
        After so many seconds for all of them TimeoutError is raised.
    progress : callable, optional
        Is called as progress(solved, all) with numbers of matrices. What it raises ends the call.

    Returns
    -------
    rows, columns : NumPy arrays of two dimensions for an array, lists otherwise
        Row rows[k, i] of matrix k has column columns[k, i]; the rows of a matrix rise. With `unmatched_cost` they are
        lists, since matrices may have different numbers of pairs.

    Raises
    ------
    ValueError, TypeError, OverflowError
        As `linear_sum_assignment` does for the first matrix that has no plan or a wrong cost; the text begins with its
        number.
    TimeoutError, MemoryError, LibraryNotFound
        As in `solve`.

    Examples
    --------
    >>> import nushbaret
    >>> nushbaret.linear_sum_assignment_batch([[[4, 1], [2, 3]], [[1, 9], [9, 1]]])
    ([[0, 1], [0, 1]], [[1, 0], [0, 1]])
    """
    words = {"missing": missing, **({} if unmatched_cost is None else {"unmatched_cost": unmatched_cost})}
    matrices = _matrices(costs)
    if hasattr(matrices, "dtype") and unmatched_cost is None:
        return _of_array(matrices, maximize, words, _Turns(workers, timeout, progress))
    found = _of_list(linear_sum_assignment, matrices, maximize, words, _Turns(workers, timeout, progress))
    return [rows for rows, _ in found], [columns for _, columns in found]


def solve_batch(costs: Any, maximize: bool = False, decimals: Optional[int] = None, partial: bool = False,
                missing: Missing = "refuse", *, unmatched_cost: Any = None, workers: Optional[int] = None,
                timeout: Optional[float] = None, progress: Progress = None) -> List[Result]:
    """Solves many matrices, as `solve` solves each.

    Parameters
    ----------
    costs : array of three dimensions, or list of matrices
        costs[k] is matrix k, as `solve` takes it. Those of a list may have different shapes.
    maximize, decimals, partial, missing, unmatched_cost
        As in `solve`, for each matrix.
    workers, timeout, progress
        As in `linear_sum_assignment_batch`.

    Returns
    -------
    list of Result
        That of each matrix, with its cost and duals.

    Raises
    ------
    Infeasible, ValueError, TypeError
        As `solve` does for the first matrix that has no plan or a wrong cost; the text begins with its number.
    TimeoutError, MemoryError, LibraryNotFound
        As in `solve`.

    Examples
    --------
    >>> import nushbaret
    >>> [result.cost for result in nushbaret.solve_batch([[[4, 1], [2, 3]], [[0.5, 2]]])]
    [3, Decimal('0.5')]
    """
    words = {"decimals": decimals, "partial": partial, "missing": missing, "unmatched_cost": unmatched_cost}
    return _of_list(solve, _matrices(costs), maximize, words, _Turns(workers, timeout, progress))


def _matrices(costs: Any) -> Any:
    """The matrices of an array of three dimensions, or of a list."""
    numpy = reading.numpy_of(costs)
    if numpy is not None:
        costs = reading.array_of(numpy, costs)
        if costs.ndim != 3:
            raise ValueError(f"expected matrices (3-D array), got a {costs.ndim} array")
        return costs
    shown = type(costs).__name__
    try:
        if not isinstance(costs, (str, bytes, memoryview, Mapping, Set)):
            return list(costs)
    except TypeError:
        shown = "0 array"
    raise ValueError(f"expected matrices (3-D array), got a {shown}")


def _of_list(call: Any, matrices: Any, maximize: bool, words: Any, turns: "_Turns") -> List[Any]:
    """What a call says of each matrix."""
    found: List[Any] = [None] * len(matrices)

    def work(piece: range) -> None:
        for place in piece:
            found[place] = _one(call, matrices[place], maximize, place, words)
    turns.take(len(matrices), 1, work)
    return found


def _of_array(costs: Any, maximize: bool, words: Any, turns: "_Turns") -> Tuple[Any, Any]:
    """Rows and columns of the matrices of an array."""
    numpy: Any = reading.loaded_numpy()
    count, n, m = costs.shape
    rows, columns = (numpy.empty((count, min(n, m)), numpy.intp) for _ in range(2))
    held = None if isinstance(costs, numpy.ma.MaskedArray) else direct.extension()

    def work(piece: range) -> None:
        part = slice(piece.start, piece.stop)
        is_done = held is not None and type(maximize) is bool and held.batch(costs[part], maximize, rows[part],
                                                                             columns[part])
        left = numpy.flatnonzero(rows[part, 0] < 0).tolist() if is_done else range(len(piece))
        for place in map(piece.__getitem__, left):
            rows[place], columns[place] = _one(linear_sum_assignment, costs[place], maximize, place, words)
    turns.take(count, 1 + library.LONG // (min(n, m)**2 * max(n, m) + 256), work)
    return rows, columns


def _one(call: Any, matrix: Any, maximize: bool, place: int, words: Any) -> Any:
    """What a call says of one matrix; what it raises names the matrix."""
    try:
        return call(matrix, maximize, **words) if words != {"missing": "refuse"} else call(matrix, maximize)
    except (ValueError, TypeError, OverflowError) as fault:
        fault.args = (f"matrix {place}: {fault}",)
        raise


class _Turns:
    """How the matrices of a call are taken: in how many threads, until when, and what is called with their number."""

    def __init__(self, workers: Optional[int], timeout: Optional[float], progress: Progress):
        self.workers = 1 if workers is None else reading.whole_number(workers, "workers")
        if self.workers < 1:
            raise ValueError(f"workers is {workers}: it must be 1 or more")
        self.limited = library.limited(timeout, progress)
        self.progress = progress
        self.end = None if self.limited.timeout is None else time.monotonic() + self.limited.timeout

    def take(self, count: int, step: int, work: _Work) -> None:
        """Lets `work` do all matrices, so many at a time at most."""
        if self.workers == 1:
            pieces = _pieces(count, count if self.end is None and self.progress is None else step)
            with library.limited(self.limited.timeout):
                self._done(pieces, count, work)
            return
        pieces = _pieces(count, max(step, 1 + count // (16 * self.workers)))
        with ThreadPoolExecutor(self.workers) as pool:
            futures = [pool.submit(self._limited, work, piece) for piece in pieces]
            try:
                self._done(pieces, count, lambda piece: self._result(futures[pieces.index(piece)]))
            finally:
                for future in futures:
                    future.cancel()

    def _done(self, pieces: List[range], count: int, work: _Work) -> None:
        for piece in pieces:
            library.look_at_time()
            work(piece)
            if self.progress is not None:
                self.progress(piece.stop, count)

    def _limited(self, work: _Work, piece: range) -> None:
        with library.limited(None if self.end is None else max(0.0, self.end - time.monotonic())):
            work(piece)

    def _result(self, future: Any) -> None:
        """Waits for a thread, so that Ctrl-C is heeded."""
        while not wait([future], _WAIT).done:
            pass
        future.result()


def _pieces(count: int, step: int) -> List[range]:
    return [range(begin, min(count, begin + step)) for begin in range(0, count, max(1, step))]
