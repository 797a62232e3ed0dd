"""The costs of a problem, of one of four kinds: whole numbers of 64 bits, whole numbers of any size, exact numbers of
any kind, and doubles. All of them answer the same questions, so that nobody asks which kind they are."""
import functools
import importlib
import math
from array import array
from fractions import Fraction
from typing import Any, Dict, List, Optional, Sequence, Tuple

from .limits import BorrowedNumbers
from .numbers import (ONE, Number, Ratio, Unit, all_shown, bits_above, in_unit, of_decimals, ratio_of, rounded, total,
                      unit_of)
from .parts import in_fixed_point, size_of


# So many doubles are a sample of all.
_SAMPLE = 1024


def plain(values: Any) -> Any:
    """A list of numbers in a form whose items can be indexed one by one."""
    if hasattr(values, "held"):
        return memoryview(values.held).cast("B").cast("q")
    return values.reshape(-1) if hasattr(values, "reshape") else values


def chosen(values: Any, places: Any) -> Any:
    """The values at some places, in a list of the same kind."""
    if isinstance(values, list):
        return [values[place] for place in places]
    if isinstance(values, BorrowedNumbers):
        held = plain(values)
        return array("q", [held[place] for place in places])
    return array(values.typecode, [values[place] for place in places]) if isinstance(values, array) else values[places]


class Costs:
    """Costs in their order, in a unit. `numpy` is the module if they are an array of it, and `fractions` says that one
    was given as a Fraction."""

    def __init__(self, numbers: Any, unit: Unit = ONE, fractions: bool = False, numpy: Any = None):
        self.numbers, self.unit, self.fractions, self.numpy = numbers, unit, fractions, numpy

    def __len__(self) -> int:
        return len(self.numbers)

    def __getstate__(self) -> Any:
        return {**self.__dict__, "numpy": self.numpy is not None}

    def __setstate__(self, state: Any) -> None:
        self.__dict__.update(state, numpy=importlib.import_module("numpy") if state["numpy"] else None)

    def of_64_bits(self) -> Any:
        """The numbers as the library takes them; None where these aren't whole numbers of 64 bits."""
        return None

    def as_doubles(self) -> Optional["Doubles"]:
        """These costs, if they are doubles in an array; else None."""
        return None

    def with_numbers(self, numbers: Any) -> "Costs":
        """Other numbers of the same kind."""
        found: Costs = object.__new__(type(self))
        found.__dict__.update(self.__dict__)
        found.numbers = numbers
        return found

    def at(self, places: Any) -> "Costs":
        """The costs at some places."""
        return self.with_numbers(chosen(self.numbers, places))

    def listed(self) -> List[Any]:
        """The numbers as a list of Python's."""
        numbers = plain(self.numbers)
        return numbers if isinstance(numbers, list) else list(numbers.tolist())

    def owned(self) -> "Costs":
        """The costs in a list that the caller can't change."""
        return self.with_numbers(self.numbers.copy()) if self.numpy else self

    def in_array(self, numpy: Any) -> "Costs":
        """The costs in an array of NumPy's, if they have 64 bits each."""
        return self

    def without_numbers(self) -> "Costs":
        """What is known of the costs in addition to the numbers."""
        found = self.with_numbers(None)
        found.numpy = None
        return found

    def in_whole_numbers(self) -> "Costs":
        """The same costs as whole numbers, of 64 bits or of any size."""
        return self

    def rounded(self, bits: int) -> Tuple[Any, int]:
        """The costs as whole numbers of 64 bits, of which they take so many at most, and the shift that made them
        so."""
        return self._rounded(bits) if len(self.numbers) else (array("q"), 0)

    def _rounded(self, bits: int) -> Tuple[Any, int]:
        raise NotImplementedError

    def bound(self, worst: Fraction, maximize: bool) -> Any:
        """A number that costs are compared with to see whether they are worse than an exact one."""
        return (math.ceil if maximize else math.floor)(worst * self.unit.denominator)

    def no_worse(self, bound: Any, maximize: bool) -> Any:
        """Which numbers are no worse than a bound: their places, or an array that says it of each."""
        if self.numpy:
            return self.numbers >= bound if maximize else self.numbers <= bound
        return [place for place, cost in enumerate(self.numbers) if (cost >= bound if maximize else cost <= bound)]

    def ratio(self, cost: Any) -> Ratio:
        """One of the numbers, exactly."""
        return int(cost), self.unit.denominator

    def ratios(self, costs: Sequence[Any]) -> List[Ratio]:
        """Some of the numbers, exactly."""
        denominator = self.unit.denominator
        return [(int(cost), denominator) for cost in costs]

    def ratios_in_unit(self, costs: Sequence[Any]) -> List[Ratio]:
        """Some of the numbers, exactly, as multiples of the unit."""
        return [(int(cost), 1) for cost in costs]

    def total(self, ratios: Sequence[Ratio]) -> Number:
        """The sum of some costs, as results show it."""
        return self.unit.shown(sum(number for number, _ in ratios))

    def all_shown(self, ratios: Sequence[Ratio]) -> List[Number]:
        """Some costs as results show them."""
        return [self.unit.shown(number) for number, _ in ratios]

    def unit_shown(self, unit: Unit) -> Unit:
        """The unit in which results show a sum that is whole in another unit."""
        return self.unit


class AnyWholeNumbers(Costs):
    """Whole numbers of any size, in a list."""

    def _rounded(self, bits: int) -> Tuple[Any, int]:
        values = plain(self.numbers)
        shift = min(0, bits - max(max(values).bit_length(), min(values).bit_length()))
        half = 1 << -shift >> 1
        return array("q", [(value + half) >> -shift for value in values]), shift


class WholeNumbers(AnyWholeNumbers):
    """Whole numbers of 64 bits, in an array."""

    def of_64_bits(self) -> Any:
        return self.numbers

    def owned(self) -> Costs:
        if isinstance(self.numbers, BorrowedNumbers):
            return self.with_numbers(array("q", bytes(self.numbers.held)))
        return super().owned()

    def in_array(self, numpy: Any) -> Costs:
        return WholeNumbers(numpy.asarray(self.numbers, numpy.int64), self.unit, self.fractions, numpy)

    def rounded(self, bits: int) -> Tuple[Any, int]:
        if not len(self.numbers):
            return self.numbers, 0
        return self._rounded_array(bits) if self.numpy else self._rounded(bits)

    def _rounded_array(self, bits: int) -> Tuple[Any, int]:
        costs = self.numbers
        shift = min(0, bits - max(int(costs.max()).bit_length(), int(costs.min()).bit_length()))
        return ((costs >> -shift) + (costs >> -shift - 1 & 1) if shift else costs), shift

    def no_worse(self, bound: Any, maximize: bool) -> Any:
        # NumPy would compare a number beyond 64 bits as a double.
        if self.numpy and not -2**63 <= bound < 2**63:
            return self.numpy.full(len(self.numbers), (bound < 0) == maximize)
        return super().no_worse(bound, maximize)


class ExactNumbers(Costs):
    """Numbers of any kind, in a list. Floats are what they are if `doubles` is true, and else the decimals that they
    print as."""

    def __init__(self, numbers: Any, fractions: bool = False, numpy: Any = None, doubles: bool = False):
        super().__init__(numbers, ONE, fractions, numpy)
        self.doubles = doubles

    def in_whole_numbers(self) -> Costs:
        ratios = [self.ratio(cost) for cost in self.listed()]
        unit = unit_of(set((1, denominator) for _, denominator in ratios), self.fractions)
        return AnyWholeNumbers([in_unit(ratio, unit) for ratio in ratios], unit, self.fractions)

    def _rounded(self, bits: int) -> Tuple[Any, int]:
        values = self.numbers
        if set(map(type, values)) == {float}:
            shift = bits - math.frexp(max(max(values), -min(values)))[1]
            # A greater shift would be needed for the smallest doubles alone, which print as decimals that are further
            # from them.
            if shift <= 1000:
                return array("q", [round(math.ldexp(value, shift)) for value in values]), shift
        ratios = [self.ratio(value) for value in values]
        shift = bits - max((bits_above(ratio) for ratio in ratios if ratio[0]), default=bits)
        return array("q", [rounded(ratio, shift) for ratio in ratios]), shift

    def ratio(self, cost: Any) -> Ratio:
        return ratio_of(cost, self.doubles)

    def ratios(self, costs: Sequence[Any]) -> List[Ratio]:
        return [ratio_of(cost, self.doubles) for cost in costs]

    def ratios_in_unit(self, costs: Sequence[Any]) -> List[Ratio]:
        known: Dict[Tuple[type, Any], Ratio] = {}
        keys = [(type(cost), cost) for cost in costs]
        for key in keys:
            if key not in known:
                known[key] = self.ratio(key[1])
        return [known[key] for key in keys]

    def total(self, ratios: Sequence[Ratio]) -> Number:
        return total(ratios, self.fractions)

    def all_shown(self, ratios: Sequence[Ratio]) -> List[Number]:
        return all_shown(ratios, self.fractions)

    def unit_shown(self, unit: Unit) -> Unit:
        return unit


class Doubles(ExactNumbers):
    """Doubles in an array of NumPy's; `most` is the greatest size of all, where it is known."""

    def __init__(self, numbers: Any, numpy: Any, doubles: bool, most: Optional[float] = None):
        super().__init__(numbers, False, numpy, doubles)
        self.most = most

    def as_doubles(self) -> Optional["Doubles"]:
        return self

    def at(self, places: Any) -> Costs:
        return Doubles(self.numbers[places], self.numpy, self.doubles)

    def without_numbers(self) -> Costs:
        return ExactNumbers(None, doubles=self.doubles)

    def bound(self, worst: Fraction, maximize: bool) -> Any:
        # The nearest double is the one that prints as this decimal.
        return float(worst)

    def rounded(self, bits: int) -> Tuple[Any, int]:
        if not len(self.numbers):
            return self.numbers.astype("int64"), 0
        shift = bits - math.frexp(self.size())[1]
        return in_fixed_point(self.numpy, self.numbers, shift), shift

    def size(self) -> float:
        """The greatest size of all."""
        return size_of(self.numbers) if self.most is None else self.most

    def sample(self) -> Any:
        """Some of the numbers."""
        return self.numbers[::max(1, len(self.numbers) // _SAMPLE)]

    def seem_few(self) -> bool:
        """Whether a sample has many numbers several times."""
        sample = self.sample()
        return len(self.numpy.unique(sample)) <= len(sample) // 2


def whole_numbers(costs: Sequence[int], unit: Unit = ONE, fractions: bool = False) -> Costs:
    """Whole numbers of 64 bits, or of any size where one doesn't fit."""
    try:
        return WholeNumbers(array("q", costs), unit, fractions)
    except OverflowError:
        return AnyWholeNumbers(list(costs), unit, fractions)


@functools.lru_cache(None)
def shape(decimals: Optional[int]) -> Costs:
    """What results need of costs without the numbers: whole ones of a decimal unit of so many decimals, or floats."""
    return ExactNumbers(None) if decimals is None else WholeNumbers(None, of_decimals(decimals))
