"""Sums of what persons have on days, and the rows of a model that bound them."""
from fractions import Fraction
from math import ceil, floor, gcd
from typing import Callable, Dict, FrozenSet, Iterable, Iterator, List, NamedTuple, Optional, Sequence, Tuple, Union

from ...rows.model import Model, Row
from ..month import Month, Shift

Number = Union[int, Fraction]
Kinds = Optional[FrozenSet[str]]


class Said(NamedTuple):
    """What a row says: a sentence, and who or what it is about, empty where the sentence says it."""

    sentence: str
    about: str = ""

    @property
    def text(self) -> str:
        return f"{self.sentence} ({self.about})" if self.about else self.sentence


class Sum:
    """A sum of variables, and of what is past. It is open if any of it can still be planned."""

    def __init__(self, is_open: bool = False) -> None:
        self.terms: Dict[int, Number] = {}
        self.past: Number = 0
        self.is_open = is_open

    def add(self, variable: int, factor: Number = 1) -> "Sum":
        """Adds a variable."""
        self.terms[variable] = self.terms.get(variable, 0) + factor
        self.is_open = True
        return self


class Rows:
    """The variables and the rows of a model, as they are made."""

    def __init__(self, costs: Sequence[int], persons: Sequence[Optional[int]],
                 days: Sequence[Optional[int]] = ()):
        self.costs, self.persons = list(costs), list(persons)
        # The days of the first variables; helpers have none.
        self.days = list(days)
        self.rows: List[Row] = []
        self.said: Dict[str, Said] = {}

    def helper(self, person: Optional[int], cost: int = 0) -> int:
        """A new variable."""
        self.costs.append(cost)
        self.persons.append(person)
        return len(self.costs) - 1

    def bits(self, most: int) -> Dict[int, int]:
        """New variables, with factors of which the sum can be each number up to `most`."""
        return {self.helper(None): 2**place for place in range(most.bit_length())}

    def add(self, own: Sum, least: Optional[Number], most: Optional[Number], said: Said,
            person: Optional[int] = None) -> None:
        """Bounds a sum. A bound that the past alone exceeds is as near as can be; where all is past nothing is
        bounded."""
        if not own.is_open:
            return
        terms, low, high = _whole(own, least, most)
        lowest, highest = sum(min(0, factor) for _, factor in terms), sum(max(0, factor) for _, factor in terms)
        if high is not None and high < lowest and own.past:
            high = lowest
        low, high = (None if low is None or low <= lowest else low), (None if high is None or high >= highest else high)
        if low is None and high is None:
            return
        self.said[said.text] = said
        if low is not None and high is not None and low > high:
            # A proof gives each row one multiplier, and this one needs one for each side.
            self.rows += [Row(low, terms, None, said.text, person), Row(None, terms, high, said.text, person)]
        else:
            self.rows.append(Row(low, terms, high, said.text, person))

    def add_priced(self, own: Sum, least: Optional[Number], most: Optional[Number], said: Said, price: int,
                   person: Optional[int] = None) -> None:
        """Bounds a sum that may miss its bounds: each unit by which it does, also a part of one, costs `price`. What
        the past alone exceeds costs nothing."""
        if not own.is_open:
            return
        scale = _scale_of(own)
        terms = tuple((variable, int(factor * scale)) for variable, factor in sorted(own.terms.items()) if factor)
        low, high = (None if bound is None else Fraction(bound - own.past) * scale for bound in (least, most))
        lowest, highest = sum(min(0, factor) for _, factor in terms), sum(max(0, factor) for _, factor in terms)
        if high is not None and high < lowest and own.past:
            high = Fraction(lowest)
        self.said[said.text] = said
        if low is not None and low > lowest:
            missed = self._missed(ceil((low - lowest) / scale), price, person)
            self.rows.append(Row(ceil(low), (*terms, *((variable, factor * scale) for variable, factor in missed)),
                                 None, said.text, person))
        if high is not None and high < highest:
            missed = self._missed(ceil((highest - high) / scale), price, person)
            self.rows.append(Row(None, (*terms, *((variable, -factor * scale) for variable, factor in missed)),
                                 floor(high), said.text, person))

    def _missed(self, most: int, price: int, person: Optional[int]) -> List[Tuple[int, int]]:
        """New variables, with factors of which the sum can be each number up to `most`; each unit costs `price`."""
        return [(self.helper(person, price * 2**place), 2**place) for place in range(most.bit_length())]

    def model(self, costs: Optional[Sequence[int]] = None, more: Sequence[Row] = ()) -> Model:
        """The model, with its own costs or others, and maybe more rows."""
        days = (*self.days, *[None] * (len(self.costs) - len(self.days))) if self.days else ()
        return Model(len(self.costs), tuple(self.costs if costs is None else costs), (*self.rows, *more),
                     tuple(self.persons), days)


def _scale_of(own: Sum) -> int:
    """The least number by which all terms are whole."""
    scale = 1
    for factor in own.terms.values():
        own_scale = Fraction(factor).denominator
        scale = scale * own_scale // gcd(scale, own_scale)
    return scale


def _whole(own: Sum, least: Optional[Number], most: Optional[Number]) -> Tuple[Tuple[Tuple[int, int], ...],
                                                                               Optional[int], Optional[int]]:
    """The terms in whole numbers without a common factor, and what bounds them."""
    scale = _scale_of(own)
    scaled = {variable: int(factor * scale) for variable, factor in own.terms.items() if factor}
    common = gcd(*scaled.values()) or 1
    terms = tuple((variable, factor // common) for variable, factor in sorted(scaled.items()))
    low = None if least is None else ceil(Fraction(least - own.past) * scale / common)
    high = None if most is None else floor(Fraction(most - own.past) * scale / common)
    return terms, low, high


class Work:
    """What persons may have, and had: the variables of persons and objects, and pairs of the past."""

    def __init__(self, month: Month, variables: Dict[Tuple[int, int], int], past: Iterable[Tuple[int, int]]):
        self.month, self.variables = month, variables
        self._open: Dict[Tuple[int, int], List[Tuple[Shift, int]]] = {}
        self._past: Dict[Tuple[int, int], List[Shift]] = {spot: list(shifts) for spot, shifts in month.worked.items()}
        for (person, object_), variable in variables.items():
            shift = month.shifts.get(object_)
            if shift is not None:
                self._open.setdefault((person, shift.day), []).append((shift, variable))
        for person, object_ in past:
            shift = month.shifts[object_]
            self._past.setdefault((person, shift.day), []).append(shift)

    def sum(self, person: int, days: Iterable[int], kinds: Kinds = None, factor: Number = 1, to: Optional[Sum] = None,
            weight: Callable[[Shift], Number] = lambda shift: 1) -> Sum:
        """Adds what a person has on days to a sum, as far as it is of some kinds."""
        found = Sum() if to is None else to
        for day in days:
            found.is_open = found.is_open or not self.month.is_past(day)
            for shift, variable in self._open.get((person, day), ()):
                if is_of(shift, kinds):
                    found.add(variable, factor * weight(shift))
            for shift in self._past.get((person, day), ()):
                found.past += factor * weight(shift) if is_of(shift, kinds) else 0
        return found

    def sum_where(self, person: int, day: int, test: Callable[[Shift], bool], to: Sum) -> Sum:
        """Adds what a person has on a day of the shifts that a test accepts."""
        to.is_open = to.is_open or not self.month.is_past(day)
        for shift, variable in self._open.get((person, day), ()):
            if test(shift):
                to.add(variable)
        to.past += any(test(shift) for shift in self._past.get((person, day), ()))
        return to

    def shifts(self, person: int, day: int) -> List[Shift]:
        """What a person may have, or had, on a day."""
        return [*(shift for shift, _ in self._open.get((person, day), ())), *self._past.get((person, day), ())]

    def on_days(self, person: int, days: Iterable[int], kinds: Kinds = None, factor: Number = 1,
                to: Optional[Sum] = None) -> Sum:
        """Adds on how many days a person has a shift of some kinds. On a past day it may have had several."""
        found = Sum() if to is None else to
        for day in days:
            if self.had(person, day, kinds):
                found.past += factor
                found.is_open = found.is_open or not self.month.is_past(day)
            else:
                self.sum(person, [day], kinds, factor, found)
        return found

    def had(self, person: int, day: int, kinds: Kinds = None) -> bool:
        """Whether a person had a shift of some kinds on a past day."""
        return any(is_of(shift, kinds) for shift in self._past.get((person, day), ()))

    def objects(self, kinds: Kinds) -> Iterator[int]:
        """The objects of some kinds that can still be planned."""
        return (object_ for object_, shift in self.month.shifts.items() if is_of(shift, kinds)
                and not self.month.is_past(shift.day))


def is_of(shift: Shift, kinds: Kinds) -> bool:
    """Whether a shift is of some kinds."""
    return kinds is None or shift.kind in kinds
