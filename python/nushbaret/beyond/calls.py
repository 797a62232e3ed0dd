"""The calls of beyond."""
import math
import pathlib
import time
from typing import Any, List, Optional, Set, Tuple

import numpy

from .core import Form
from .doubles_search import DoublesSearch
from .engines import Engine, engine_of
from .frames import Partitions
from .result import BeyondResult
from .search import Options, Progress
from .sources import check_shape, source_of


def solve(costs: Any, shape: Optional[Tuple[int, int]] = None, client: Any = None, *, maximize: bool = False,
          start: Any = None, timeout: Optional[float] = None, progress: Progress = None,
          block_rows: Optional[int] = None) -> BeyondResult:
    """A best assignment for costs that nobody holds.

    All pairs are looked at in a few passes, block by block, in this process or on a cluster. The library solves a core
    of cheap pairs; the last pass proves that no other pair is better.

    Parameters
    ----------
    costs : array, numpy.memmap, zarr array, dask.array, or a call
        Rows by columns: whole numbers to 10**12, or doubles, of which an infinity forbids its pair (under maximize
        -infinity). A call of two numbers returns the rows from the first one on and before the second one as an array;
        it has to return the same costs each time. With a client it goes to the workers.
    shape : tuple of int, optional
        Rows and columns; needed for a call.
    client : distributed.Client or engine, optional
        Where the blocks are looked at. Without one it is this process.
    maximize : bool, optional
        Whether to find the greatest sum.
    start : BeyondResult or array, optional
        An earlier result, or prices of the columns, to begin from. The answer is as good.
    timeout : float, optional
        Seconds after which TimeoutError is raised. Its `best` is the best plan so far, with its proved gap.
    progress : call, optional
        Called after each pass with its number, the gap and how many pairs the core has.
    block_rows : int, optional
        About how many rows a task has; by default some 32 million pairs.

    Returns
    -------
    BeyondResult
        Each row has a column, or, with more rows than columns, each column a row.

    Raises
    ------
    nushbaret.Infeasible
        There is no assignment: the named rows may have the named columns only.
    TimeoutError
        The time is over.
    ValueError, TypeError
        Costs are out of range, no numbers, or of another shape.
    RuntimeError
        A block's costs changed between two passes, or the cluster has no workers.

    Examples
    --------
    >>> import numpy
    >>> from nushbaret import beyond
    >>> place = numpy.arange(100)
    >>> result = beyond.solve(lambda first, last: abs(place[first:last, None] - place[::-1]), (100, 100))
    >>> result.cost, result.verdict, result.columns[:3].tolist()
    (0, 'proved', [99, 98, 97])
    """
    options = options_of(maximize, progress, timeout, block_rows)
    source = source_of(costs, shape).prepare(maximize)
    return searched(source, engine_of(client), options, start_of(start, source))


def solve_pairs(frame: Any, shape: Optional[Tuple[int, int]] = None, client: Any = None, *, labels: Any = None,
                partial: bool = False, unmatched_cost: Optional[float] = None, maximize: bool = False,
                start: Any = None, timeout: Optional[float] = None, progress: Progress = None) -> BeyondResult:
    """A best assignment along listed pairs, which lie in partitions; a row's pairs may lie in several of them.

    Parameters
    ----------
    frame : frame of pandas or dask, or list of files, frames or calls
        Rows, columns and costs in three columns. Files are `.csv`, with or without titles, or `.npy` arrays of three
        columns or fields. A call returns a frame, an array of three columns or three arrays. What is listed several
        times counts once, at its best cost.
    shape : tuple of int, optional
        How many rows and columns there are, if pairs have their numbers from 0 on.
    labels : tuple of two lists, optional
        The names of all rows and of all columns, if pairs have names. Without a shape and labels the names are first
        collected from all partitions, sorted.
    client, maximize, start, timeout, progress
        As in `solve`.
    partial : bool, optional
        Whether rows or columns may stay out: as many pairs as possible are made, at the least cost.
    unmatched_cost : number, optional
        What each row costs that stays out; under maximize it is taken off the sum. Then a pair is made only where it
        pays.

    Returns
    -------
    BeyondResult
        Columns have the numbers of `result.labels[1]`, and rows those of `result.labels[0]`, if there are labels.
        `cost` counts unmatched costs.

    Raises
    ------
    nushbaret.Infeasible, TimeoutError, ValueError, TypeError, RuntimeError
        As in `solve`. Infeasible doesn't come where rows may stay out.

    Examples
    --------
    >>> from nushbaret import beyond
    >>> parts = [lambda: ([0, 1], [0, 0], [4.0, 2.0]), lambda: ([0], [1], [9.0])]
    >>> beyond.solve_pairs(parts, (2, 2)).columns.tolist()
    [1, 0]
    >>> beyond.solve_pairs(parts, (2, 2), unmatched_cost=5).columns.tolist()
    [-1, 0]
    """
    if partial and unmatched_cost is not None:
        raise ValueError("partial makes as many pairs as possible, and unmatched_cost those that pay: give one of them")
    if unmatched_cost is not None and not math.isfinite(unmatched_cost):
        raise ValueError(f"unmatched_cost is {unmatched_cost!r}: it must be a finite number")
    options = options_of(maximize, progress, timeout)._replace(
        unmatched_cost=None if unmatched_cost is None else float(unmatched_cost), is_partial=bool(partial))
    engine, parts = engine_of(client), parts_of(frame)
    if shape is None and labels is None:
        labels = names_of(parts, engine, options)
    source = Partitions(parts, shape, labels)
    source.is_negated = bool(maximize)
    check_shape(source.shape)
    result = searched(source, engine, options, start_of(start, source))
    return result if labels is None else result._replace(labels=labels)


def parts_of(frame: Any) -> List[Any]:
    """The partitions of what a caller gave."""
    if hasattr(frame, "to_delayed"):
        frame = frame.to_delayed()
    is_one = hasattr(frame, "iloc") or callable(frame) or isinstance(frame, (str, pathlib.Path))
    parts: List[Any] = [frame] if is_one else list(frame)
    for part in parts:
        is_made = hasattr(part, "compute") or hasattr(part, "iloc") or callable(part)
        if not (is_made or isinstance(part, (str, pathlib.Path)) and str(part).endswith((".csv", ".npy"))):
            raise TypeError(f"a partition is {part!r}: it must be a .csv or .npy file, a frame, a call, or delayed by "
                            "dask")
    if not parts:
        raise ValueError("there are no partitions")
    return parts


def names_of(parts: List[Any], engine: Engine, options: Options) -> Tuple[List[Any], List[Any]]:
    """The names of all rows and columns, sorted."""
    source = engine.share(Partitions(parts, (1, 1), None))
    rows: Set[Any] = set()
    columns: Set[Any] = set()
    tasks: List[Tuple[Any, ...]] = [(source, part) for part in range(len(parts))]
    for some_rows, some_columns in engine.run(Partitions.names, tasks, options.end):
        rows |= some_rows
        columns |= some_columns
    return sorted_names(rows), sorted_names(columns)


def sorted_names(names: Set[Any]) -> List[Any]:
    """Names in their order; as texts where some are."""
    return sorted(map(str, names)) if any(isinstance(name, str) for name in names) else sorted(names)


def options_of(maximize: bool, progress: Progress, timeout: Optional[float],
               block_rows: Optional[int] = None) -> Options:
    """What a caller chose; TypeError and ValueError where it is out of range."""
    if timeout is not None and not timeout >= 0:
        raise ValueError(f"timeout is {timeout!r}: it must be a number of seconds, 0 or more")
    if block_rows is not None and (not isinstance(block_rows, int) or block_rows < 1):
        raise ValueError(f"block_rows is {block_rows!r}: it must be a number of rows, 1 or more")
    if progress is not None and not callable(progress):
        raise TypeError(f"progress is {progress!r}: it must be a call of three numbers")
    return Options(bool(maximize), block_rows, progress, None if timeout is None else time.monotonic() + timeout)


def start_of(start: Any, source: Any) -> Any:
    """First prices of the columns, if there are any."""
    if start is None:
        return None
    prices = prices_of(start.prices if isinstance(start, BeyondResult) else start, source, is_rounded=True)
    return numpy.maximum(prices, 0)


def prices_of(prices: Any, source: Any, is_rounded: bool = False) -> Any:
    """Prices of the columns, as numbers of the kind of the costs."""
    held, m = numpy.asarray(prices), source.shape[1]
    if held.shape != (m,) or held.dtype.kind not in "biuf" or not numpy.isfinite(held).all():
        raise ValueError(f"prices must be {m} finite numbers, one of each column")
    if source.dtype.kind == "f":
        return held.astype(numpy.float64)
    if held.dtype.kind == "f" and not is_rounded and (held != numpy.rint(held)).any():
        raise ValueError("prices of whole costs must be whole numbers")
    if held.size and not (-2.0**62 < held.min() and held.max() < 2.0**62):
        raise ValueError("a price is beyond 2**62")
    return numpy.rint(held).astype(numpy.int64) if held.dtype.kind == "f" else held.astype(numpy.int64)


def searched(source: Any, engine: Engine, options: Options, prices: Any) -> BeyondResult:
    """The best plan of a source, from these prices or from those of its halves."""
    n, m = source.shape
    form = Form(n, m, options.is_partial or options.unmatched_cost is not None)
    return DoublesSearch(source, form, engine, options).run(prices)
