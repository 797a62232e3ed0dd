"""The library's calls for whole costs of 128 bits, and the numbers as it takes them."""
import math
from array import array
from typing import Any, List, NamedTuple, Sequence, Union

from ..costs.limits import WIDE_BITS, WideNumbers
from . import library, proved


def words_of(numbers: Any) -> WideNumbers:
    """Numbers as the library takes them."""
    return WideNumbers(packed(numbers) if isinstance(numbers, list) else numbers)


def packed(numbers: Sequence[int]) -> Any:
    """Two words of 64 bits for each number."""
    return array("q", b"".join([number.to_bytes(16, "little", signed=True) for number in numbers]))


class Scaled(NamedTuple):
    """Whole numbers of any size as multiples of a unit, in `WIDE_BITS` bits, and whether nothing was rounded down."""

    numbers: List[int]
    unit: int
    is_exact: bool


def scaled(whole: List[int]) -> Scaled:
    """Whole numbers in the greatest unit that all are multiples of, or in a greater one."""
    unit = math.gcd(*whole) or 1
    if unit > 1:
        whole = [number // unit for number in whole]
    greatest = max(max(whole, default=0), -min(whole, default=0))
    shift = max(0, (greatest - 1).bit_length() - WIDE_BITS)
    return Scaled([number >> shift for number in whole], unit << shift, False) if shift else Scaled(whole, unit, True)


class WidePlan(NamedTuple):
    """A plan that the library proves best: an object for each person, from 1 on, and prices in a list of Python's."""

    objects: Any
    prices: Any


def solved(maximize: bool, asked: proved.Instance, kept: Any = None) -> Union[WidePlan, proved.HallSet]:
    """The library's answer to a problem whose costs are `WideNumbers` of at most `WIDE_BITS` bits. Where an object of
    each person is `kept`, or 0, the costs have 64 bits: of all best plans one that changes fewest persons, at prices of
    the combined costs."""
    n, m = asked.n, asked.m
    objects, persons, total = array("I", bytes(4 * n)), array("I", bytes(4 * n)), array("q", bytes(16))
    prices = WideNumbers(array("q", bytes(16 * m)))
    name, lists = ("wide", asked[2:]) if kept is None else ("fewest_changes", (*asked[2:], kept))
    with library.one_piece(n):
        code, info = library.call(name, maximize, n, m, *lists, objects, persons, prices,
                                  piece=(total.buffer_info()[0],))
    if code == "HALL":
        return proved.HallSet(persons[:info.persons], objects[:info.objects])
    if code != "BEST":
        proved.refuse(code, info)
    return WidePlan(objects, prices.listed())
