"""Costs of any kind as whole numbers of 128 bits: of a unit that all are multiples of, where that is possible, and
otherwise rounded, less than one off. After the costs stands a 0, which is what a dummy costs."""
import math
import sys
from fractions import Fraction
from typing import Any, List, NamedTuple, Optional, Sequence, Tuple

from ..costs import parts
from ..costs.kinds import AnyWholeNumbers, Costs, Doubles
from ..costs.limits import WIDE_BITS
from ..costs.numbers import Ratio, bits_above, ratio_of, rounded
from ..costs.parts import in_fixed_point
from . import wide

# Doubles that are decimals are rounded to so many bits: each is less than a unit off then.
PRINTED_BITS = 50
# The least power of two of which all doubles are multiples, negated, less what the decimal of one may be off.
_MOST_PRINTED_SHIFT = 1072
# Of so many different doubles, or of so great a share of all, the decimals are read.
_FEW, _SHARE = 256, 1 / 8


class WholeCosts(NamedTuple):
    """Costs as whole numbers, in a list or in an array with two words of 64 bits for each. Each counts `part`, in the
    unit of the costs."""

    numbers: Any
    part: Fraction
    is_exact: bool

    def at(self, places: Any) -> Any:
        """The numbers at some places."""
        return [self.numbers[place] for place in places] if isinstance(self.numbers, list) else self.numbers[places]


def whole_costs(costs: Costs) -> WholeCosts:
    """Costs as whole numbers."""
    doubles, whole = costs.as_doubles(), costs.of_64_bits()
    if doubles is not None and len(doubles):
        return _of_decimals(doubles) if not doubles.doubles else _of_doubles(doubles)
    if whole is not None and costs.numpy:
        return WholeCosts(_words_of(costs.numpy, whole), Fraction(1), True)
    values = costs.listed()
    found = _of_whole(values, 1) if isinstance(costs, AnyWholeNumbers) else _of_ratios(list(map(costs.ratio, values)))
    return found._replace(numbers=found.numbers + [0])


def _of_whole(whole: List[int], common: int) -> WholeCosts:
    """Whole multiples of 1 / common."""
    numbers, unit, is_exact = wide.scaled(whole)
    return WholeCosts(numbers, Fraction(unit, common), is_exact)


def _of_ratios(ratios: Sequence[Ratio]) -> WholeCosts:
    """Numbers of any kind."""
    greatest = max((bits_above(ratio) for ratio in ratios if ratio[0]), default=0)
    common = _common(ratios, WIDE_BITS - greatest)
    if common is not None:
        return _of_whole([number * (common // own) for number, own in ratios], common)
    shift = WIDE_BITS - 1 - greatest
    return WholeCosts([rounded(ratio, shift) for ratio in ratios], 1 / Fraction(2)**shift, False)


def _common(ratios: Sequence[Ratio], bits: int) -> Optional[int]:
    """The least common denominator of some numbers; None where it has far more than so many bits."""
    common, most = 1, max(bits, 0) + WIDE_BITS
    for own in set(denominator for _, denominator in ratios):
        if common % own:
            common = common * own // math.gcd(common, own)
            if common.bit_length() > most:
                return None
    return common


# Doubles.


def _words_of(numpy: Any, whole: Any) -> Any:
    """Whole numbers of 64 bits, and a 0."""
    found = numpy.empty((len(whole) + 1, 2), numpy.int64)
    found[-1], found[:-1, 0] = 0, whole
    numpy.right_shift(whole, 63, found[:-1, 1])
    return found


def _of_decimals(costs: Doubles) -> WholeCosts:
    """Doubles that are the decimals that they print as: read, where they are few or have few values."""
    numpy, flat = costs.numpy, costs.numbers
    few = _values_of(numpy, costs) if len(flat) <= _FEW or costs.seem_few() else None
    if few is not None:
        values, places = few
        found = _of_ratios([ratio_of(value, False) for value in values.tolist()])
        if found.is_exact:
            table = numpy.frombuffer(wide.packed(found.numbers + [0]), numpy.int64).reshape(-1, 2)
            return found._replace(numbers=table[numpy.append(places, len(values))])
    shift = min(PRINTED_BITS - math.frexp(costs.size())[1], _MOST_PRINTED_SHIFT)
    return WholeCosts(_words_of(numpy, in_fixed_point(numpy, flat, shift)), 1 / Fraction(2)**shift, False)


def _values_of(numpy: Any, costs: Doubles) -> Optional[Tuple[Any, Any]]:
    """The different ones of some doubles, rising, and where each double stands among them; None where they are
    many."""
    values, flat = numpy.unique(costs.sample()), costs.numbers
    places = _places_of(numpy, values, flat)
    others = flat[values.take(places, mode="clip") != flat]
    if len(others):
        values = numpy.union1d(values, others)
        places = _places_of(numpy, values, flat)
    return (values, places) if len(values) <= max(_FEW, _SHARE * len(flat)) else None


def _places_of(numpy: Any, values: Any, flat: Any) -> Any:
    """Where doubles stand among rising values."""
    return parts.filled(numpy, numpy.intp, len(flat), lambda part: numpy.searchsorted(values, flat[part]))


def _of_doubles(costs: Doubles) -> WholeCosts:
    """Doubles as multiples of a power of two; rounded down where it is below 2**-WIDE_BITS of the greatest."""
    numpy, flat = costs.numpy, costs.numbers
    lowest = min(_last_bit(numpy, flat[part]) for part in parts.parts(len(flat)))
    power = max(lowest, math.frexp(costs.size())[1] - WIDE_BITS)
    found = numpy.empty((len(flat) + 1, 2), numpy.int64)
    found[-1] = 0
    for part in parts.parts(len(flat)):
        whole, powers = _bits(numpy, flat[part])
        up, down = numpy.clip(powers - power, 0, 63), numpy.clip(power - powers, 0, 63)
        # No double is shifted up by more than WIDE_BITS - 53.
        found[part, 0] = whole << up >> down
        found[part, 1] = whole >> numpy.minimum(64 - up, 63)
    return WholeCosts(found, Fraction(2)**power, power == lowest)


def _bits(numpy: Any, doubles: Any) -> Tuple[Any, Any]:
    """Doubles as whole numbers and powers of two."""
    fractions, powers = numpy.frexp(doubles)
    return numpy.ldexp(fractions, 53).astype(numpy.int64), powers.astype(numpy.int64) - 53


def _last_bit(numpy: Any, doubles: Any) -> int:
    """The greatest power of two of which all doubles are multiples; a great one where they are 0."""
    whole, powers = _bits(numpy, doubles)
    last = numpy.frexp((whole & -whole).astype(numpy.float64))[1] - 1
    return int(numpy.where(whole == 0, sys.float_info.max_exp, powers + last).min())
