"""First prices, from a half of the rows and columns, whose own first prices come from a half of it.

They save passes where costs have a structure of all rows and columns, such as products or few centres, and cost passes
where they have none. So a sample of rows first says how much of the gap between its best plan and its bound without
prices is closed by the prices of another sample: with a structure it was 0.87 or more, and without it 0.75 or
less."""
import math
from typing import Any

import numpy

from . import bounds, tasks
from .core import Core, Duals, Form, Plan
from .sources import Part

# A sample has so many rows; what has fewer than so many rows or columns is not halved.
SAMPLE, SMALLEST = 64, 125
# What part of the gap the prices of another sample have to close.
LEAST_PART = 0.8
# Fewer rows than this part of the columns, or the other way, aren't halved.
WIDEST = 2


def first_prices(search: Any) -> Any:
    """Prices of all columns at which the first look finds the cheapest pairs."""
    n, m = search.form.n, search.form.m
    none = numpy.zeros(m, search.source.dtype)
    if search.source.splits_rows or min(n, m) <= SMALLEST or max(n, m) >= WIDEST * min(n, m) or not prices_help(search):
        return none
    random = numpy.random.default_rng(n)
    rows = numpy.sort(random.choice(n, n // 2, replace=False))
    columns = numpy.sort(random.choice(m, m // 2, replace=False))
    half = type(search)(Part(search.source, rows, columns), Form(len(rows), len(columns), False), search.engine,
                        search.options._replace(progress=None, block_rows=None))
    half.run()
    search.looked += half.looked
    assert half.best is not None
    return raised(search, rows, half.duals(half.best[1]).numbers)


def raised(search: Any, rows: Any, numbers: Any) -> Any:
    """The least prices of all columns at which these rows, at their numbers, gain nowhere."""
    found = [prices for prices in search.run_tasks(tasks.raised, rows, numbers) if prices is not None]
    search.looked += len(rows) * search.form.m
    prices = numpy.max(found, 0)
    return numpy.maximum(prices, 0) if search.form.n < search.form.m else prices - prices.min()


def prices_help(search: Any) -> bool:
    """Whether the prices of a sample bound the plans of other rows far better than no prices do. A sample in which
    pairs are forbidden says no."""
    n, m = search.form.n, search.form.m
    size = min(SAMPLE, min(n, m) // 2)
    form = Form(size, size * m // n, False) if n <= m else Form(size * n // m, size, False)
    random = numpy.random.default_rng(1)
    rows = random.choice(n, 2 * form.n, replace=False)
    columns = numpy.sort(random.choice(m, form.m, replace=False))
    samples = [search.source.chosen(numpy.sort(part))[:, columns] for part in (rows[:form.n], rows[form.n:])]
    search.looked += samples[0].size + samples[1].size
    if not all(numpy.isfinite(sample).all() for sample in samples):
        return False
    other, own = (_duals_of(form, sample) for sample in samples)
    none = Duals(numpy.zeros_like(own.prices), None, own.out if own.out is None else own.out * 0)
    lowest, reached, best = (_bound(form, samples[1], duals) for duals in (none, other, own))
    return best > lowest and reached - lowest >= LEAST_PART * (best - lowest)


def _bound(form: Form, costs: Any, duals: Duals) -> float:
    """What no plan of a matrix costs less than."""
    bound = bounds.least_cost(form, (costs + duals.prices).min(1), duals.prices, duals.out)
    return -math.inf if bound is None else float(bound)


def _duals_of(form: Form, costs: Any) -> Duals:
    """Duals of a best plan of a small matrix, of doubles nearly best ones."""
    core = Core(form, costs.dtype)
    core.add(numpy.repeat(numpy.arange(form.n), form.m), numpy.tile(numpy.arange(form.m), form.n), costs.ravel())
    units = bounds.Units(costs.dtype, float(numpy.abs(costs).max()), False)
    found = core.solve(units.whole(core.costs), None, None)
    assert isinstance(found, Plan)
    return units.duals(found.duals)
