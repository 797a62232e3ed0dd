"""How costs are read. Costs with few decimals become whole numbers, all multiplied by one power of ten. Any
others stay as they are: doubles of an array, or a list of exact numbers."""
import decimal
import importlib
import math
import numbers
import operator
import struct
import sys
from array import array
from collections.abc import Sequence
from fractions import Fraction
from itertools import chain
from typing import Any, Callable, List, NamedTuple, NoReturn, Optional, Tuple, Type

from . import kinds, parts, printing
from .limits import FEW, GREATEST_COST, Numbers
from .numbers import ONE, Ratio, in_unit, of_decimals, ratio_of, unit_of
from .parts import size_of

# With so many decimals at most, costs are made whole before they are solved.
MOST_UNIT_DECIMALS = 6
# Costs may be rounded to so many decimals at most. A double prints with at most 340.
MOST_DECIMALS = 1000
FORBID = "forbid"
_PLAIN = frozenset((int, float, bool, type(None)))
# Doubles that are whole stay so below this; a greater one may print as another whole number.
_MOST_WHOLE = 2.0**53
_SAMPLE = 32
# By which of these a value says that it can become an array; only the last one isn't for NumPy alone.
_ARRAY_WORDS = "__array__", "__array_interface__", "__array_struct__", "__dlpack__"
# How messages show what a mask covers.
_MASKED = "-- (masked)"
# The greatest whole number of 64 bits with a sign.
_MOST_64 = 2**63 - 1

# What a place in a list of costs is called, for messages.
Where = Callable[[int], str]


class Manner(NamedTuple):
    """How costs are read: rounded to so many `decimals`, or exactly where that is None. `forbid_nan` takes NaN as
    forbidden, and `doubles` floats as what they are, not as the decimals that they print as, and texts as SciPy's call
    does."""

    maximize: bool
    decimals: Optional[int] = None
    forbid_nan: bool = False
    doubles: bool = False

    @property
    def forbids(self) -> float:
        """The infinity that forbids a pair."""
        return -math.inf if self.maximize else math.inf


class ReadCosts(NamedTuple):
    """Costs, and the places of those that forbid their pair, where a 0 stands."""

    costs: kinds.Costs
    forbidden: Any = ()


def loaded_numpy() -> Any:
    """NumPy's module if somebody has imported it."""
    numpy = sys.modules.get("numpy")
    return numpy if hasattr(numpy, "ndarray") else None


def numpy_of(value: Any) -> Any:
    """NumPy's module if the value is one of its arrays, or can become one by itself; else None. It is loaded for a
    value of another package that hasn't loaded it."""
    if not any(hasattr(value, word) for word in _ARRAY_WORDS) or isinstance(value, type):
        return None
    try:
        return loaded_numpy() or importlib.import_module("numpy")
    except ImportError:
        return None


def array_of(numpy: Any, value: Any) -> Any:
    """What can become an array by itself, as one."""
    if isinstance(value, numpy.ndarray) or any(hasattr(value, word) for word in _ARRAY_WORDS[:-1]):
        return numpy.asanyarray(value)
    try:
        return numpy.from_dlpack(value)
    except (AttributeError, BufferError, RuntimeError, TypeError, ValueError) as fault:
        raise TypeError(f"Cannot cast array data: NumPy {numpy.__version__} makes no array of this "
                        f"{type(value).__name__}: {fault}") from None


def is_sparse(value: Any) -> bool:
    """Whether this is a sparse matrix or array, of SciPy's or of pydata's."""
    return hasattr(value, "tocsr") or hasattr(value, "fill_value") and hasattr(value, "nnz")


def manner(maximize: Any, decimals: Any = None, missing: Any = "refuse", doubles: bool = False) -> Manner:
    """How a call reads costs, from its arguments."""
    if not isinstance(missing, str) or missing not in ("refuse", FORBID):
        raise ValueError(f"missing is {missing!r}: it must be 'refuse' or 'forbid'")
    if decimals is not None:
        if isinstance(decimals, str):
            raise ValueError(f"decimals is {decimals!r}: it must be a whole number from 0, or None for the costs as "
                             "they are")
        decimals = whole_number(decimals, "decimals")
        if decimals < 0:
            raise ValueError(f"decimals is {decimals}: it must be 0 or more")
        if decimals > MOST_DECIMALS:
            raise ValueError(f"decimals is above {MOST_DECIMALS}: costs can be rounded to at most so many places")
    return Manner(bool(maximize), decimals, missing == FORBID, doubles)


def whole_number(value: Any, name: str) -> int:
    """A whole number that the caller gave by this name."""
    try:
        return operator.index(value)
    except TypeError:
        raise TypeError(f"{name} is {value!r}: it must be a whole number") from None


def exact_ratio(value: Any) -> Ratio:
    """A number of any kind as a ratio; a float of any size is the decimal that it prints as. A text is none."""
    if isinstance(value, (str, bytes)):
        raise TypeError("a text is no number")
    if hasattr(value, "dtype") and value.dtype.kind == "f":
        value = printing.of_scalar(value)
    if hasattr(value, "as_integer_ratio") and not hasattr(value, "dtype"):
        return ratio_of(value, False)
    return (operator.index(value), 1) if hasattr(value, "__index__") else ratio_of(float(value), False)


def refuse_invalid(where: str, value: Any) -> NoReturn:
    shown = str(value).lower()
    hint = ": None or an infinite cost forbids a pair, and missing=\"forbid\" takes nan so" if "nan" in shown else ""
    raise ValueError(f"matrix contains invalid numeric entries: {value} at {where}{hint}")


def is_nan(value: Any) -> bool:
    """Whether a value is NaN, or what pandas has instead."""
    if isinstance(value, decimal.Decimal):
        return value.is_nan()
    return isinstance(value, float) and value != value or type(value).__name__ in ("NAType", "NaTType")


class _NumberReader:
    """Reads numbers of any kind, one after the other."""

    def __init__(self, manner: Manner, where: Where):
        self.manner, self.where = manner, where

    def number(self, place: int, value: Any) -> Any:
        """An int, float, Decimal or Fraction, finite; None where the pair is forbidden."""
        if value is None or self.manner.forbid_nan and is_nan(value):
            return None
        if isinstance(value, float):
            return float(value) if math.isfinite(value) else self._infinite(place, float(value))
        if isinstance(value, decimal.Decimal):
            return _simple(value) if value.is_finite() else self._infinite(place, value)
        if isinstance(value, int):
            return self._whole(int(value))
        kind = getattr(getattr(value, "dtype", None), "kind", "")
        if kind:
            return self._of_numpy(place, value, kind)
        if isinstance(value, numbers.Integral):
            return self._whole(int(value))
        if isinstance(value, numbers.Rational):
            fraction = Fraction(int(value.numerator), int(value.denominator))
            return fraction if fraction.denominator > 1 else int(fraction)
        return self._of_any(place, value)

    def _whole(self, value: int) -> int:
        if self.manner.doubles and abs(value) > _MOST_WHOLE:
            float(value)
        return value

    def _infinite(self, place: int, value: Any) -> None:
        if is_nan(value) or (value < 0) != self.manner.maximize:
            refuse_invalid(self.where(place), str(value).lower().replace("infinity", "inf"))

    def _of_numpy(self, place: int, value: Any, kind: str) -> Any:
        """A number of NumPy's, or an array of no dimension that holds one."""
        if getattr(value, "ndim", 0):
            return self._refuse(place, "an array", ValueError)
        if isinstance(value, getattr(loaded_numpy(), "ndarray", ())):
            return self._held(place, value)
        if kind in "biu":
            return self._whole(int(value))
        if kind != "f":
            return self._refuse(place, repr(value)) if kind == "c" else self._of_any(place, value)
        if not -math.inf < value < math.inf:
            return self.number(place, float(value))
        if not self.manner.doubles:
            return printing.of_scalar(value)
        return float(value) if value.dtype.itemsize <= 8 else Fraction(*value.as_integer_ratio())

    def _held(self, place: int, value: Any) -> Any:
        """What an array of no dimension holds, unless a mask covers it."""
        if getattr(value, "mask", False):
            return None if self.manner.forbid_nan else refuse_invalid(self.where(place), _MASKED)
        return self.number(place, value[()])

    def _of_any(self, place: int, value: Any) -> Any:
        """What a call of SciPy's makes a double of; elsewhere only what stands for a whole number."""
        if not self.manner.doubles:
            return self._counted(place, value)
        try:
            return self.number(place, float(value))
        except TypeError:
            return self._refuse(place, repr(value), ValueError if isinstance(value, Sequence) else TypeError)

    def _counted(self, place: int, value: Any) -> int:
        """The whole number that something stands for."""
        if is_nan(value):
            refuse_invalid(self.where(place), "nan")
        try:
            if not isinstance(value, (str, bytes, complex)):
                return operator.index(value)
        except TypeError:
            pass
        return self._refuse(place, repr(value))

    def _refuse(self, place: int, shown: str, as_scipy: Type[Exception] = TypeError) -> NoReturn:
        """Refuses what is no number, in a call of SciPy's by the error that SciPy raises."""
        kind = as_scipy if self.manner.doubles else TypeError
        raise kind(f"Cannot cast array data: {self.where(place)} is {shown}, which is no number") from None


def _simple(value: decimal.Decimal) -> Any:
    """A Decimal, as an int where it is a whole one of few digits."""
    return int(value) if value.adjusted() < 18 and value == value.to_integral_value() else value


def of_rows(rows: Any, length: int, manner: Manner, where: Where) -> ReadCosts:
    """The costs of rows of one length. `where(place)` names a place for the caller."""
    if length * len(rows) <= FEW:
        rows, length = [list(chain.from_iterable(rows))], length * len(rows)
    packed = None if manner.decimals else _packed(rows, length)
    if packed is not None:
        return ReadCosts(kinds.WholeNumbers(packed))
    numpy = loaded_numpy()
    read = _by_array(numpy, rows, length, manner, where) if numpy and length * len(rows) > FEW else None
    if read is not None:
        return read
    return of_list(list(chain.from_iterable(rows)), manner, where)


def of_list(values: List[Any], manner: Manner, where: Where) -> ReadCosts:
    """The costs of a list."""
    kinds = frozenset(map(type, values))
    if _PLAIN.issuperset(kinds):
        read = _of_plain(values.copy(), manner) if manner.decimals is None and not manner.doubles else None
        if read is not None:
            return read
    reader = _NumberReader(manner, where)
    found = [reader.number(place, value) for place, value in enumerate(values)]
    forbidden = [place for place, number in enumerate(found) if number is None]
    for place in forbidden:
        found[place] = 0
    return _of_numbers(found, forbidden, manner)


def _by_array(numpy: Any, rows: Any, length: int, manner: Manner, where: Where) -> Optional[ReadCosts]:
    """The costs of many ints, floats and None, through an array; None where others are among them, or one is an int
    that is no double. An array of each row is made in turn, so that Ctrl-C is heeded."""
    doubles = numpy.empty((len(rows), length))
    for place, row in enumerate(rows):
        kinds = frozenset(map(type, row))
        if not _PLAIN.issuperset(kinds):
            return None
        if int in kinds and any(type(value) is int and not -_MOST_WHOLE <= value <= _MOST_WHOLE for value in row):
            return None
        doubles[place] = [manner.forbids if value is None else value for value in row] if type(None) in kinds else row
    return of_array(numpy, doubles, manner, where)


def _of_numbers(found: List[Any], forbidden: List[int], manner: Manner) -> ReadCosts:
    """The costs of exact numbers: whole ones of 64 bits where one unit makes them whole."""
    if manner.decimals is not None:
        found = [_to_decimals(value, manner.decimals, manner.doubles) for value in found]
        unit = of_decimals(manner.decimals)
        return ReadCosts(kinds.whole_numbers(found, unit), forbidden)
    fractions = any(type(value) is Fraction for value in found)
    ratios = [ratio_of(value, manner.doubles) for value in found]
    costs = _in_one_unit(ratios, fractions)
    if costs is None:
        costs = kinds.ExactNumbers(found, fractions=fractions, doubles=manner.doubles)
    return ReadCosts(costs, forbidden)


def _in_one_unit(ratios: List[Ratio], fractions: bool) -> Optional[kinds.Costs]:
    """Costs as whole numbers in the unit of all; None where that is too small for the library's range."""
    denominators = {denominator for _, denominator in ratios}
    if max(denominators, default=1) > GREATEST_COST:
        return None
    unit = ONE
    for denominator in denominators:
        unit = unit_of(((1, unit.denominator), (1, denominator)), fractions)
        if unit.denominator > GREATEST_COST:
            return None
    whole = [in_unit(ratio, unit) for ratio in ratios]
    if unit != ONE and max((abs(number) for number in whole), default=0) > GREATEST_COST:
        return None
    try:
        return kinds.WholeNumbers(array("q", whole), unit, fractions)
    except OverflowError:
        return None


def _to_decimals(value: Any, decimals: int, doubles: bool) -> int:
    """A number times 10**decimals, rounded to the nearest whole number, halves to even ones."""
    number, denominator = ratio_of(value, doubles)
    whole, rest = divmod(number * 10**decimals, denominator)
    return int(whole) + int(2 * rest > denominator or 2 * rest == denominator and whole % 2 == 1)


def _packed(rows: Any, length: int) -> Optional[Numbers]:
    """Rows as one array of 64-bit numbers; None where a number isn't whole, or is no number of 64 bits."""
    pack = struct.Struct(f"{length}q").pack_into
    whole = array("q", (0,)) * (length * len(rows))
    try:
        for place, row in enumerate(rows):
            _pack(pack, whole, 8 * length * place, row)
    except (struct.error, TypeError, ValueError, OverflowError, DeprecationWarning):
        return None
    return whole


def _pack(pack: Callable[..., None], whole: Numbers, offset: int, row: Any) -> None:
    """Writes a row of whole numbers, or one of floats that hold whole numbers. An `array` would take floats as well,
    and in Python 3.9 cut off what stands after the point."""
    try:
        pack(whole, offset, *row)
    except struct.error:
        if not all(map(float.is_integer, row)) or max(max(row), -min(row)) >= _MOST_WHOLE:
            raise
        pack(whole, offset, *map(int, row))


def _of_plain(values: List[Any], manner: Manner) -> Optional[ReadCosts]:
    """The costs of a list of ints, floats and None; None where they have too many decimals, or one is out of range or
    NaN."""
    forbids = manner.forbids
    forbidden = [place for place, value in enumerate(values)
                 if value is None or value == forbids or manner.forbid_nan and value != value]
    for place in forbidden:
        values[place] = 0
    try:
        whole, decimals = _scaled_plain(values)
    except (OverflowError, ValueError):
        return None
    if whole and max(max(whole), -min(whole)) > GREATEST_COST:
        return None
    return ReadCosts(kinds.WholeNumbers(whole, of_decimals(decimals)), forbidden)


def _scaled_plain(values: List[Any]) -> Tuple[Numbers, int]:
    """The numbers times the least power of ten that makes all whole, and which one that is."""
    found, decimals = array("q"), 0
    for begin in range(0, len(values), FEW):
        before = decimals
        whole, decimals = _block_scaled(values[begin:begin + FEW], decimals)
        if decimals > before:
            found = array("q", [number * 10**(decimals - before) for number in found])
        found.extend(whole)
    return found, decimals


def _block_scaled(block: List[Any], least: int) -> Tuple[Numbers, int]:
    """As `_scaled_plain`, with `least` decimals or more. What `_least_decimals` says holds here too."""
    for decimals in range(least, MOST_UNIT_DECIMALS + 1):
        power = 10**decimals
        whole = array("q", [round(value * power) for value in block])
        if [number / power for number in whole] == block:
            return whole, decimals
    raise ValueError(f"more than {MOST_UNIT_DECIMALS} decimal places")


def of_array(numpy: Any, values: Any, manner: Manner, where: Where) -> ReadCosts:
    """The costs of a NumPy array, whatever its shape, in the order of C."""
    mask = getattr(values, "mask", None) if isinstance(values, numpy.ma.MaskedArray) else None
    if mask is None and values.dtype.kind in "biu":
        return _of_whole_array(numpy, parts.in_order(numpy, numpy.asarray(values)), manner, where)
    with numpy.errstate(all="ignore"):
        values = numpy.asarray(values)
        # SciPy's call sees no mask.
        if mask is None or manner.doubles and not manner.forbid_nan or not mask.any():
            return _of_values(numpy, parts.in_order(numpy, values), manner, where)
        masked = numpy.flatnonzero(mask)
        if not manner.forbid_nan:
            refuse_invalid(where(int(masked[0])), _MASKED)
        values = values.copy()
        values[mask] = 0
        read = _of_values(numpy, values.ravel(), manner, where)
        return read._replace(forbidden=numpy.union1d(numpy.array(read.forbidden, numpy.intp), masked))


def array_of_frame(numpy: Any, frame: Any, manner: Manner) -> Any:
    """The costs of a frame of pandas. Columns of several kinds are read one by one: an array of one kind may not hold
    all of them."""
    costs = frame.to_numpy()
    # Mostly one array holds all columns, and two calls show the same memory: that is faster to see than the kinds of
    # columns.
    if costs.dtype.kind != "O" and numpy.may_share_memory(costs, frame.to_numpy()):
        return costs
    kinds = set(frame.dtypes)
    if len(kinds) < 2 and (manner.doubles or not any(map(_small_kind, kinds))):
        return costs
    columns = [_column(numpy, frame.iloc[:, place], manner) for place in range(frame.shape[1])]
    kind = numpy.float64 if all(map(fits_doubles, columns)) else object
    joined = numpy.empty(frame.shape, kind)
    for place, column in enumerate(columns):
        joined[:, place] = column if kind is not object or column.dtype.kind == "O" else column.tolist()
    return joined


def _small_kind(kind: Any) -> Any:
    """The kind of NumPy's that one of pandas' own is made of, if its floats have less than 64 bits."""
    own: Any = getattr(kind, "numpy_dtype", None)
    return own if getattr(own, "kind", "") == "f" and own.itemsize < 8 else None


def _column(numpy: Any, column: Any, manner: Manner) -> Any:
    """The costs of a column; floats of fewer bits as doubles."""
    small = None if manner.doubles else _small_kind(column.dtype)
    values = column.to_numpy() if small is None else column.to_numpy(dtype=small, na_value=math.nan)
    # As Python's numbers dates would be whole ones.
    if values.dtype.kind in "mM":
        _refuse_dtype(values.dtype)
    if values.dtype.kind != "f":
        return values
    if values.dtype.itemsize > 8:
        return numpy.array([*values, None], object)[:-1]
    if values.dtype.itemsize == 8 or manner.doubles:
        return values.astype(numpy.float64)
    with numpy.errstate(all="ignore"):
        return printing.of_array(numpy, values)


def fits_doubles(values: Any) -> bool:
    """Whether an array's costs are doubles: floats are, and whole numbers that aren't too great."""
    if values.dtype.kind not in "biu":
        return bool(values.dtype.kind == "f")
    return not values.size or -_MOST_WHOLE <= int(values.min()) and int(values.max()) <= _MOST_WHOLE


def _of_values(numpy: Any, flat: Any, manner: Manner, where: Where) -> ReadCosts:
    kind, size = flat.dtype.kind, flat.dtype.itemsize
    if kind in "biu":
        return _of_whole_array(numpy, flat, manner, where)
    if kind == "f" and size <= 8:
        return _of_float_array(numpy, flat, manner, where)
    if kind in "Of":
        read = of_list([*flat], manner, where)
        return read._replace(costs=read.costs.in_array(numpy))
    return _refuse_dtype(flat.dtype)


def _refuse_dtype(dtype: Any) -> NoReturn:
    raise TypeError(f"Cannot cast array data from {dtype!r} to dtype('float64') according to the rule 'safe': costs "
                    "must be numbers")


def _of_whole_array(numpy: Any, flat: Any, manner: Manner, where: Where) -> ReadCosts:
    decimals = manner.decimals or 0
    if flat.size and (decimals or flat.dtype.kind == "u"):
        # As Python's numbers, since NumPy compares whole numbers of two kinds as doubles.
        most = GREATEST_COST // 10**decimals if decimals else _MOST_64
        if not (int(flat.min()) >= -most and int(flat.max()) <= most):
            return _of_numbers(flat.tolist(), [], manner)
    whole = flat.astype(numpy.int64, copy=not flat.flags.aligned)
    return _whole_array(numpy, whole * 10**decimals if decimals else whole, decimals)


def _of_float_array(numpy: Any, flat: Any, manner: Manner, where: Where) -> ReadCosts:
    if flat.dtype.itemsize < 8 and not manner.doubles:
        flat = printing.of_array(numpy, flat)
    wide = flat.astype(numpy.float64, copy=not flat.flags.aligned)
    found = None if manner.decimals else whole_numbers(numpy, wide)
    if found is not None:
        return _whole_array(numpy, found)
    wide, forbidden, most = _finite(numpy, wide, manner, where)
    if manner.decimals is not None:
        return _rounded_array(numpy, wide, forbidden, manner)
    most_decimals = 0 if manner.doubles else MOST_UNIT_DECIMALS
    decimals = None if manner.doubles and not len(forbidden) else _least_decimals(numpy, wide, most_decimals)
    if decimals is not None and size_of(wide) * 10.0**decimals <= GREATEST_COST:
        return _whole_array(numpy, _scaled_array(numpy, wide, decimals), decimals, forbidden)
    return ReadCosts(kinds.Doubles(wide, numpy, manner.doubles, most), forbidden)


def _whole_array(numpy: Any, whole: Any, decimals: int = 0, forbidden: Any = ()) -> ReadCosts:
    """Whole numbers of a decimal unit, in an array of NumPy's."""
    return ReadCosts(kinds.WholeNumbers(whole, of_decimals(decimals), False, numpy), forbidden)


def _finite(numpy: Any, flat: Any, manner: Manner, where: Where) -> Tuple[Any, Any, Optional[float]]:
    """The costs with 0 for those that forbid their pair, the places of these, and the greatest size where none does."""
    most = size_of(flat)
    if math.isfinite(most):
        return flat, (), most
    infinite = ~numpy.isfinite(flat)
    wrong = infinite & (flat != manner.forbids)
    if manner.forbid_nan:
        wrong &= flat == flat
    if wrong.any():
        place = int(numpy.flatnonzero(wrong)[0])
        refuse_invalid(where(place), flat[place])
    return numpy.where(infinite, 0.0, flat), numpy.flatnonzero(infinite), None


def _rounded_array(numpy: Any, flat: Any, forbidden: Any, manner: Manner) -> ReadCosts:
    decimals = manner.decimals or 0
    if decimals <= MOST_UNIT_DECIMALS and size_of(flat) * 10.0**decimals <= GREATEST_COST:
        whole = _scaled_array(numpy, flat, decimals)
        _round_halves(numpy, flat, whole, decimals, manner.doubles)
        return _whole_array(numpy, whole, decimals, forbidden)
    return _of_numbers(flat.tolist(), forbidden, manner)


def whole_numbers(numpy: Any, flat: Any) -> Any:
    """Floats as whole numbers of 64 bits; None where one isn't whole or is too great."""
    # Mostly the first ones show that not all are whole.
    if flat.size > FEW and whole_numbers(numpy, flat[:_SAMPLE]) is None:
        return None
    # With this sum of squares none is beyond 2**53, and none is infinite or NaN.
    if not (flat.dot(flat) <= 2.0**105 if flat.size <= FEW else size_of(flat) < _MOST_WHOLE):
        return None
    if flat.size <= FEW:
        whole = flat.astype(numpy.int64)
        return whole if whole.astype(numpy.float64).tobytes() == flat.tobytes() or (whole == flat).all() else None
    whole = numpy.empty(flat.size, numpy.int64)
    for part in parts.parts(flat.size):
        whole[part] = flat[part]
        if not (whole[part] == flat[part]).all():
            return None
    return whole


def _scaled_array(numpy: Any, flat: Any, decimals: int) -> Any:
    """Floats times 10**decimals, rounded to the nearest whole numbers."""
    return parts.filled(numpy, numpy.int64, len(flat), lambda part: numpy.rint(flat[part] * 10.0**decimals))


def _least_decimals(numpy: Any, flat: Any, most: int) -> Optional[int]:
    """The least power of ten that makes all whole; None where that is beyond 10**most, or some are too great. Two
    decimals of at most 15 digits are never one float, so that equality after the division shows the decimal that a
    float prints as."""
    if size_of(flat) > GREATEST_COST:
        return None
    # Mostly a few of them show that this is beyond it.
    decimals = _more_decimals(numpy, flat[::max(len(flat) // _SAMPLE, 1)], 0, most)
    for part in parts.parts(len(flat)):
        if decimals is not None:
            decimals = _more_decimals(numpy, flat[part], decimals, most)
    return decimals


def _more_decimals(numpy: Any, left: Any, least: int, most: int) -> Optional[int]:
    """The least power of ten, from 10**least to 10**most, that makes some floats whole."""
    for decimals in range(least, most + 1):
        power = 10.0**decimals
        left = left[numpy.rint(left * power) / power != left]
        if not left.size:
            return decimals
    return None


def _round_halves(numpy: Any, flat: Any, whole: Any, decimals: int, doubles: bool) -> None:
    """Rounds those near a half again, as decimals."""
    product = flat * 10.0**decimals
    half = numpy.abs(numpy.abs(product - numpy.floor(product)) - 0.5) < 0.001
    for place in numpy.flatnonzero(half):
        whole[place] = _to_decimals(float(flat[place]), decimals, doubles)
