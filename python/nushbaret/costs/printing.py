"""Floats of 16 and of 32 bits as the decimals that they print as.

Each stands for the shortest decimal that is read as this float, the nearest one of several. Here it is the double
nearest to that decimal, which prints as the same one."""
import math
import struct
import sys
from bisect import bisect_left
from decimal import ROUND_HALF_EVEN, ROUND_UP, Context, Decimal
from functools import lru_cache
from itertools import product
from typing import Any, Tuple

from . import parts
from .limits import FEW

# The extension module, which knows those of 32 bits; None where it isn't to be used.
EXTENSION = "nushbaret._extension"
# The letters in `struct` of floats of so many bytes.
_LETTER = {2: "e", 4: "f"}
_LETTERS = frozenset(_LETTER.values())
# With so many decimals a float times the power of ten is exact as a double, and so is the test of what the quotient
# rounds to.
_MOST_DECIMALS = 12
_POWERS = [float(10**decimals) for decimals in range(_MOST_DECIMALS + 1)]
# Smaller floats of 32 bits may have more decimals.
_LEAST = 1e-4
# Where a float of 24 bits is so great once it is multiplied, the nearest whole number is nearer to it than to any other
# float.
_ENOUGH = 2.0**25
# The decimals of the middle one of so many are tried first.
_SOME = 7
# Of all floats of 16 bits only this one prints as a decimal that isn't the nearest of its digits: a power of two has a
# nearer neighbour below. Floats of 32 bits have none from _LEAST on.
_UNEVEN = 2.0**-6


def shortest(value: float, letter: str) -> float:
    """What a float of the size that a letter of `struct` has prints as."""
    if not math.isfinite(value):
        return value
    exact, own = Decimal(value), struct.pack(letter, value)
    # Above a power of two floats are less near to each other than below it.
    for digits, rounding in product(range(1, 10), (ROUND_HALF_EVEN, ROUND_UP)):
        near = float(Context(digits, rounding).create_decimal(exact))
        if _packed(letter, near) == own:
            return near
    return value


def _packed(letter: str, value: float) -> bytes:
    """A float's bits; none where it is too great."""
    try:
        return struct.pack(letter, value)
    except OverflowError:
        return b""


def of_scalar(value: Any) -> Any:
    """What a finite float of NumPy's of any size prints as."""
    size = value.dtype.itemsize
    if size in _LETTER:
        return shortest(float(value), _LETTER[size])
    return float(value) if size == 8 else Decimal(sys.modules["numpy"].format_float_scientific(value))


def of_buffer(values: Any) -> Any:
    """What the small floats of an `array`, or of a view or an array of one dimension without a mask, print as; any
    other values as they are."""
    letter = getattr(values, "typecode", None) or getattr(values, "format",
                                                          None) or getattr(getattr(values, "dtype", None), "char", None)
    numpy: Any = sys.modules.get("numpy")
    if letter not in _LETTERS or getattr(values, "ndim", 1) != 1 or (
            hasattr(numpy, "ma") and isinstance(values, numpy.ma.MaskedArray)):
        return values
    return [shortest(value, letter) for value in values.tolist()]


@lru_cache(maxsize=1)
def _powers_of(numpy: Any) -> Any:
    """The powers of ten, one below the other."""
    return numpy.array(_POWERS)[:, None]


def of_array(numpy: Any, flat: Any) -> Any:
    """What the floats of an array of 16 or 32 bits print as; infinities and NaN stay."""
    held = sys.modules.get(EXTENSION)
    found = numpy.empty(len(flat), numpy.float64)
    for part in parts.parts(len(flat)):
        if held is None or not held.printed(flat[part], found[part]):
            found[part] = _of_part(numpy, flat[part])
    return found


def of_shape(numpy: Any, values: Any) -> Any:
    """The same for an array of any shape."""
    return of_array(numpy, values.ravel()).reshape(values.shape)


def _of_part(numpy: Any, floats: Any) -> Any:
    wide = floats.astype(numpy.float64)
    sizes = wide if len(wide) and wide.item(wide.argmin()) > 0 else numpy.abs(wide)
    # From here on floats end in zeros where they print.
    great = 2048.0 if floats.itemsize == 2 else 2.0**24
    find = _of_few if len(floats) <= FEW else _of_many
    if floats.itemsize > 2 and len(sizes) and sizes.item(sizes.argmax()) < great:
        least = sizes.item(sizes.argmin())
        if floats.item(0).is_integer() and (numpy.rint(wide) == wide).all():
            return wide
        found = find(numpy, floats, wide, max(least, _LEAST))
        if least < _LEAST:
            _read(numpy, floats, found, (sizes < _LEAST) & (sizes > 0))
        return found
    with numpy.errstate(all="ignore"):
        found = find(numpy, floats, wide, _LEAST)
        odd = (sizes >= great) | (wide != wide)
        _read(numpy, floats, found, odd | (sizes == _UNEVEN if floats.itemsize == 2
                                           else (sizes < _LEAST) & (sizes > 0)))
        return found


def _read(numpy: Any, floats: Any, found: Any, odd: Any) -> None:
    """Reads the odd ones as they print."""
    places = odd.nonzero()[0]
    if len(places):
        found[places] = floats[places].astype("U32").astype(numpy.float64)


def _tried(numpy: Any, floats: Any, wide: Any, power: Any) -> Tuple[Any, Any]:
    """Floats rounded to some decimals, and which of them print as these decimals or shorter ones."""
    decimals = wide * power
    numpy.rint(decimals, decimals)
    decimals /= power
    return decimals, decimals.astype(floats.dtype) == floats


def _of_few(numpy: Any, floats: Any, wide: Any, least: float) -> Any:
    """Tries all numbers of decimals at once that sizes from `least` on may have. Smaller ones may need more. Whole
    numbers are the same with one decimal."""
    most = bisect_left(_POWERS, _ENOUGH / least)
    decimals, fit = _tried(numpy, floats, wide, _powers_of(numpy)[1:most + 1])
    # A float that fits does so with more decimals too, and each one with the most.
    fewer = numpy.add.reduce(fit[:-1], axis=0, dtype=numpy.int8)
    return decimals[~fewer, numpy.arange(len(floats))]


def _of_many(numpy: Any, floats: Any, wide: Any, _: float) -> Any:
    """Tries the decimals that some have, and then fewer for those that fit and more for the others."""
    # Mostly the first is like the next ones, but not where a diagonal has zeros.
    some = _tried(numpy, floats[:_SOME], wide[:_SOME], _powers_of(numpy))[1].argmax(axis=0)
    start = sorted(some.tolist())[_SOME // 2]
    found, fit = _tried(numpy, floats, wide, _POWERS[start])
    left = fit.nonzero()[0]
    for power in _POWERS[:start][::-1]:
        decimals, fit_too = _tried(numpy, floats.take(left), wide.take(left), power)
        few = fit_too.nonzero()[0]
        left = left.take(few)
        found[left] = decimals.take(few)
    _try_more_decimals(numpy, floats, wide, found, (~fit).nonzero()[0], start)
    return found


def _try_more_decimals(numpy: Any, floats: Any, wide: Any, found: Any, left: Any, start: int) -> None:
    """Tries more decimals for those that are left."""
    for decimals in range(start + 1, _MOST_DECIMALS + 1):
        if not len(left):
            return
        found[left], fit = _tried(numpy, floats.take(left), wide.take(left), _POWERS[decimals])
        left = left.take((~fit).nonzero()[0])
