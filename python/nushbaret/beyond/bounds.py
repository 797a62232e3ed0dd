"""Costs, bounds and gaps, as whole numbers or as doubles."""
import math
from fractions import Fraction
from typing import Any, Optional, Tuple, Union

import numpy

from ..costs.limits import GREATEST_COST
from ..lap.doubles import BITS
from .blocks import two_sum
from .core import Duals, Form

Number = Union[int, float]


class Units:
    """What whole costs of the core mean: multiples of a unit, which is a power of two, of the costs as they are read.

    Attributes
    ----------
    unit : float
        The unit; 1 for whole costs.
    is_exact : bool
        Whether each cost is a multiple of it.
    """

    def __init__(self, dtype: Any, size: float, are_whole: bool):
        self.dtype = dtype
        if dtype.kind == "i" and size > GREATEST_COST:
            raise ValueError(f"a cost of the size {size:.0f} is beyond 10**12")
        self.is_exact = dtype.kind == "i" or are_whole and size <= GREATEST_COST
        bits = math.frexp(size)[1]
        if not self.is_exact and not -900 < bits < 900:
            raise ValueError(f"a cost of the size {size} is too small or too great: multiply all of them by one number")
        self.unit = 1.0 if self.is_exact else math.ldexp(1.0, bits - BITS)

    @property
    def are_doubles(self) -> bool:
        return bool(self.dtype.kind == "f")

    def whole(self, costs: Any) -> Any:
        """Costs in whole units."""
        if not self.are_doubles:
            return costs
        return numpy.rint(costs * (1 / self.unit)).astype(numpy.int64)

    def duals(self, duals: Duals) -> Duals:
        """Whole duals as they are added to costs."""
        if not self.are_doubles:
            return duals
        return Duals(duals.prices * self.unit, duals.numbers * self.unit,
                     None if duals.out is None else duals.out * self.unit)


def exact_sum(values: Any) -> Fraction:
    """The sum, without rounding."""
    if values.dtype.kind == "f":
        return sum((Fraction(value) for value in _parts(values)), Fraction(0))
    low = values & (2**20 - 1)
    return Fraction(int(numpy.sum((values - low) >> 20)) * 2**20 + int(numpy.sum(low)))


def as_fraction(value: Any) -> Fraction:
    """The exact value of a number of NumPy or Python."""
    return Fraction(value.item() if hasattr(value, "item") else value)


def _parts(values: Any) -> Any:
    """Doubles with the same exact sum: each time the rounded sum, until nothing is left."""
    held = values.tolist()
    while True:
        total = math.fsum(held)
        yield total
        if total == 0.0:
            return
        held.append(-total)


def below(least: Any) -> Any:
    """Numbers that no exact sum is below, where these are the least rounded ones."""
    return numpy.nextafter(least, -numpy.inf) if least.dtype.kind == "f" else least


def least_cost(form: Form, least: Any, prices: Any, out: Optional[Number]) -> Optional[Fraction]:
    """A bound that no plan costs less than, at these prices and least sums of cost and price; None: there is none.
    Rows that have to stay out do so at `out`, which counts as a price for each of them, and else as a cost."""
    numbers = below(least)
    if out is not None:
        numbers = numpy.minimum(numbers, out)
    if numbers.dtype.kind == "f" and not numpy.isfinite(numbers).all():
        return None
    spare = Fraction(0) if out is None else form.spare * as_fraction(out)
    return exact_sum(numbers) - exact_sum(prices) - spare


def own_numbers(columns: Any, paid: Any, duals: Duals) -> Tuple[Any, Any]:
    """The exact sums of rows' own costs and prices, or of staying out, as doubles and what these lost."""
    prices = duals.prices[columns] * (columns >= 0)
    sums, rests = two_sum(paid, prices)
    if duals.out is None:
        return sums, rests
    stays = columns < 0
    return numpy.where(stays, duals.out, sums), numpy.where(stays, 0, rests)


def is_joint(form: Form, columns: Any, duals: Duals, numbers: Any, rests: Any) -> bool:
    """Whether what no block sees is as the proof needs it: no two rows have one column, prices are 0 or more, and 0
    where nobody has the column; no row is better off where it stays out, and those that do are as well off. Without a
    sum for staying out each row has a column, and with one that is no cost each column has a row."""
    own, prices, out = columns[columns >= 0], duals.prices, duals.out
    owned = numpy.zeros(form.m, bool)
    if len(own) and own.max() >= form.m:
        return False
    owned[own] = True
    if numpy.count_nonzero(owned) != len(own) or not (prices >= 0).all():
        return False
    if form.is_turned:
        return bool(owned.all()) and _may_stay(columns, numbers, rests, out)
    if prices[~owned].any():
        return False
    return bool((columns >= 0).all()) if out is None else _may_stay(columns, numbers, rests, out)


def _may_stay(columns: Any, numbers: Any, rests: Any, out: Optional[Number]) -> bool:
    """Whether no row's number is above the sum at which it may stay out, and is that sum where it does."""
    lost = numpy.zeros(len(numbers)) if rests is None else rests
    is_no_more = (numbers < out) | ((numbers == out) & (lost <= 0))
    return bool(is_no_more.all() and (numbers[columns < 0] == out).all())
