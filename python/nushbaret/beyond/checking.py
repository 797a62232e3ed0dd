"""The proof alone: one look at all pairs, at a caller's prices, of a caller's plan."""
from typing import Any, List, NamedTuple, Optional, Tuple

import numpy

from ..api.results import Verdict
from . import blocks, bounds
from .calls import options_of, prices_of
from .core import Duals, Form
from .engines import engine_of
from .search import TASK
from .sources import source_of


class Checked(NamedTuple):
    """What a block says of a plan: its first row whose column is forbidden; the first one with a better column, and
    that column; the sums of cost and price of each row's own column, or the least ones where it has none, and what
    these lost."""

    task: int
    unlisted: Optional[int]
    better: Optional[Tuple[int, int]]
    numbers: Any
    rests: Any


def check(costs: Any, columns: Any, prices: Any, client: Any = None, *, shape: Optional[Tuple[int, int]] = None,
          maximize: bool = False, block_rows: Optional[int] = None) -> Verdict:
    """Whether prices prove a plan best, in one look at all pairs. Nothing is said of how these were found.

    Parameters
    ----------
    costs, client, shape, maximize, block_rows
        As in `solve`.
    columns : array
        The column of each row; -1 for a row without one, of which there are some only if there are more rows than
        columns.
    prices : array
        A price of each column, 0 or more, and 0 where nobody has the column.

    Returns
    -------
    Verdict
        True as a condition exactly if at these prices no row has a better pair than its own, no two rows have one
        column and all are assigned that can be. Sums of doubles are compared without rounding.

    Raises
    ------
    ValueError, TypeError
        Costs are out of range, or of another shape than columns and prices.

    Examples
    --------
    >>> import numpy
    >>> from nushbaret import beyond
    >>> costs = numpy.array([[4, 1], [2, 3]])
    >>> beyond.check(costs, [1, 0], [0, 1]), beyond.check(costs, [0, 1], [0, 0])
    (<nushbaret.Verdict: proved>, <nushbaret.Verdict: not proved: row 0 is better off with column 1>)
    """
    options = options_of(maximize, None, None, block_rows)
    source = source_of(costs, shape).prepare(maximize)
    form = Form(*source.shape, False)
    own, held = numpy.asarray(columns), prices_of(prices, source)
    if own.shape != (form.n,) or own.dtype.kind not in "iu":
        raise ValueError(f"columns must be {form.n} whole numbers, one of each row")
    fault = _plan_fault(form, own, held)
    if fault is not None:
        return fault
    engine = engine_of(client)
    words = engine.share(source), engine.share(held), engine.share(own)
    tasks: List[Tuple[Any, ...]] = [(words[0], task, block, *words[1:]) for task, block in
                                    enumerate(source.blocks(options.block_rows or max(1, TASK // form.m)))]
    return _verdict(form, own, sorted(engine.run(look, tasks, None), key=lambda each: int(each.task)))


def look(source: Any, task: int, block: Any, prices: Any, own: Any) -> Checked:
    """What a block says."""
    numbers, rests = [], []
    unlisted, better = None, None
    for band in source.bands(*block):
        chosen = own[band.first:band.first + len(band.costs)]
        paid = numpy.where(chosen >= 0, band.costs[numpy.arange(len(chosen)), chosen], prices.dtype.type(0))
        sums, lost = bounds.own_numbers(chosen, paid, Duals(prices, None, None))
        if unlisted is None and not (paid < numpy.inf).all():
            unlisted = band.first + int(numpy.argmin(paid < numpy.inf))
        stays = chosen < 0
        asked = numpy.where(stays, numpy.iinfo(numpy.int64).min if sums.dtype.kind == "i" else -numpy.inf, sums)
        found = blocks.look(band.costs, blocks.Asked(asked, lost if lost.dtype.kind == "f" else None, None, prices, 1))
        if better is None and found.first is not None:
            better = band.first + found.first[0], found.first[1]
        sums[stays], lost[stays] = found.least[stays], _lost_of_least(band.costs[stays], prices, found.least[stays])
        numbers.append(sums)
        rests.append(lost)
    return Checked(task, unlisted, better, *(numpy.concatenate(each) for each in (numbers, rests)))


def _lost_of_least(costs: Any, prices: Any, least: Any) -> Any:
    """What the least exact sum of each row is above its least rounded one."""
    if costs.dtype.kind != "f":
        return 0
    sums, lost = blocks.two_sum(costs, prices)
    return numpy.where(sums == least[:, None], lost, numpy.inf).min(1)


def _plan_fault(form: Form, own: Any, prices: Any) -> Optional[Verdict]:
    """What is wrong with a plan and prices that no block sees."""
    assigned = own[own >= 0]
    if len(assigned) and assigned.max() >= form.m:
        return Verdict(f"row {int(own.argmax())} has column {own.max()}, and there are {form.m}", int(own.argmax()))
    counts = numpy.bincount(assigned, minlength=form.m)
    if counts.max() > 1:
        return Verdict(f"column {int(counts.argmax())} is given twice", None, int(counts.argmax()))
    if (prices < 0).any():
        return Verdict(f"the price of column {int(prices.argmin())} is below 0", None, int(prices.argmin()))
    if len(assigned) < min(form.n, form.m):
        return Verdict(f"{len(assigned)} rows have a column, and {min(form.n, form.m)} could")
    free = numpy.flatnonzero((counts == 0) & (prices != 0))
    return Verdict(f"nobody has column {free[0]}, and its price isn't 0", None, int(free[0])) if len(free) else None


def _verdict(form: Form, own: Any, answers: Any) -> Verdict:
    """What all blocks say together."""
    for each in answers:
        if each.unlisted is not None:
            return Verdict(f"row {each.unlisted} may not have its column", each.unlisted)
    better = next((each.better for each in answers if each.better is not None), None)
    if better is not None:
        return Verdict(f"row {better[0]} is better off with column {better[1]}", *better)
    if not form.is_turned:
        return Verdict()
    sums = list(zip(*(numpy.concatenate([getattr(each, name) for each in answers]).tolist()
                      for name in ("numbers", "rests"))))
    most = max(sums[row] for row in numpy.flatnonzero(own >= 0))
    short = next((row for row in numpy.flatnonzero(own < 0).tolist() if sums[row] < most), None)
    if short is None:
        return Verdict()
    return Verdict(f"row {short} has no column, and would pay less than one that has", short)
