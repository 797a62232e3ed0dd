"""Exact numbers: costs of any kind as ratios of whole numbers, the unit that some have in common, and how results show
them."""
import decimal
import math
from fractions import Fraction
from typing import Any, Collection, Dict, Iterable, List, NamedTuple, Optional, Sequence, Tuple, Union

Number = Union[int, decimal.Decimal, Fraction]
Ratio = Tuple[int, int]

# Up to here a whole double prints as itself.
_WHOLE_AS_PRINTED = 2.0**53
_EXACT = decimal.Context(prec=decimal.MAX_PREC, Emax=decimal.MAX_EMAX, Emin=decimal.MIN_EMIN)


class Unit(NamedTuple):
    """A part of 1: numbers are whole multiples of 1 / denominator. With `decimals` it is 10**-decimals, and what is
    shown is an int or a Decimal; without, it is a Fraction."""

    denominator: int
    decimals: Optional[int]

    def shown(self, number: int) -> Number:
        """A whole number of units, exactly."""
        if self.decimals is None:
            return Fraction(number, self.denominator)
        if not self.decimals:
            return number
        return _EXACT.scaleb(decimal.Decimal(number), -self.decimals)


def of_decimals(decimals: int) -> Unit:
    return Unit(10**decimals, decimals)


ONE = of_decimals(0)


def ratio_of(value: Any, doubles: bool) -> Ratio:
    """A number as a ratio in lowest terms. A float is exactly its double, or else the decimal that it prints as."""
    if type(value) is int:
        return value, 1
    if isinstance(value, float) and not doubles:
        if value.is_integer() and -_WHOLE_AS_PRINTED < value < _WHOLE_AS_PRINTED:
            return int(value), 1
        value = decimal.Decimal(repr(float(value)))
    ratio: Ratio = value.as_integer_ratio()
    return ratio


def bits_above(ratio: Ratio) -> int:
    """A power of two above a number's size."""
    number, denominator = ratio
    return number.bit_length() - denominator.bit_length() + 1


def rounded(ratio: Ratio, shift: int) -> int:
    """A number times 2**shift, rounded to a nearest whole number."""
    number, denominator = ratio
    if shift >= 0:
        number <<= shift
    else:
        denominator <<= -shift
    return (2 * number + denominator) // (2 * denominator)


def _decimals_of(denominator: int) -> Optional[int]:
    """The least power of ten that a denominator divides; None where none does."""
    twos = (denominator & -denominator).bit_length() - 1
    rest, fives = denominator >> twos, 0
    while rest % 5 == 0:
        rest, fives = rest // 5, fives + 1
    return max(twos, fives) if rest == 1 else None


def unit_of(ratios: Iterable[Ratio], as_fraction: bool = False) -> Unit:
    """The greatest unit of which some numbers are multiples; a power of ten, unless a Fraction is wanted or one has no
    last decimal."""
    denominator = 1
    for _, own in ratios:
        if denominator % own:
            denominator = denominator * own // math.gcd(denominator, own)
    decimals = None if as_fraction else _decimals_of(denominator)
    return Unit(denominator, None) if decimals is None else of_decimals(decimals)


def in_unit(ratio: Ratio, unit: Unit) -> int:
    """A number as a multiple of the unit."""
    return ratio[0] * (unit.denominator // ratio[1])


def of_floats(values: Collection[float]) -> Tuple[Dict[float, int], Unit]:
    """The decimals that finite floats print as, as multiples of a unit that they have in common."""
    texts = [repr(value) for value in values]
    if "e" in "".join(texts):
        ratios = [ratio_of(value, False) for value in values]
        unit = unit_of(ratios)
        return {value: in_unit(ratio, unit) for value, ratio in zip(values, ratios)}, unit
    parts = [text.split(".") for text in texts]
    decimals = max(0 if rest == "0" else len(rest) for _, rest in parts)
    return {value: int((whole + rest.ljust(decimals, "0"))[:len(whole) + decimals])
            for value, (whole, rest) in zip(values, parts)}, of_decimals(decimals)


def total(ratios: Sequence[Ratio], as_fraction: bool) -> Number:
    """The exact sum of some numbers."""
    unit = unit_of(ratios, as_fraction)
    return unit.shown(sum(in_unit(ratio, unit) for ratio in ratios))


def all_shown(ratios: Sequence[Ratio], as_fraction: bool) -> List[Number]:
    """Numbers as one unit shows them."""
    unit = unit_of(ratios, as_fraction)
    return [unit.shown(in_unit(ratio, unit)) for ratio in ratios]


def exactly_less(first: Number, second: Number) -> Number:
    """A difference, with all digits of Decimals."""
    if isinstance(first, Fraction) or isinstance(second, Fraction):
        return Fraction(first) - Fraction(second)
    ratios = [first.as_integer_ratio(), second.as_integer_ratio()]
    decimals = max(-int(value.as_tuple().exponent) if isinstance(value, decimal.Decimal) else 0
                 for value in (first, second))
    unit = of_decimals(max(decimals, 0))
    return unit.shown(in_unit(ratios[0], unit) - in_unit(ratios[1], unit))
