"""The model of a roster: the rows of its fixed pairs, counts and groups, and those of its rules."""
from collections import Counter
from typing import Dict, List, NamedTuple, Optional, Sequence, Set, Tuple

from ...counts.counted import Bounds
from ..answer import Request, counted, several
from ..by_counts import bounds_around
from ..month import Month
from ..roster import Roster
from .evenness import EvennessRows, add_evenness
from .rule_file import Rules
from .rule_rows import Making, add_rules
from .sums import Rows, Said, Sum, Work

Pair = Tuple[int, int]


class OwnRow(NamedTuple):
    """A row of somebody's own rule: a sum of pairs, each with a coefficient, at least and at most so much."""

    least: Optional[int]
    terms: Sequence[Tuple[Pair, int]]
    most: Optional[int]
    text: str


class Built(NamedTuple):
    """A model's variables and rows: the pair of each of the first variables; the row of each object's least count;
    those that say how many are missing, with
    their factors; how many variables come before those of evenness; and what says how even counts are."""

    making: Making
    pairs: List[Pair]
    places: Dict[int, int]
    missing: Dict[int, int]
    before_even: int
    evenness: EvennessRows

    @property
    def rows(self) -> Rows:
        return self.making.rows


def built(roster: Roster, rules: Rules, month: Month, request: Request, own: Sequence[OwnRow] = (),
          may_miss: bool = False, spreads: Sequence[int] = (), is_measured: bool = False) -> Built:
    """The variables and rows of a roster with rules; with `may_miss` least counts may be missed. Counts of the first
    rules of evenness differ by `spreads`; with `is_measured` the model measures how little those of the next rule can
    differ."""
    sign = -1 if request.maximize else 1
    listed = [(person, object_, sign * cost) for person, object_, cost in zip(roster.of_persons, roster.of_objects,
                                                                              roster.costs)
              if object_ not in roster.past]
    # Finding is faster where each person's variables go by days.
    listed.sort(key=lambda triple: (triple[0], month.shifts[triple[1]].day if triple[1] in month.shifts
                                    else month.last + 1, triple[1]))
    pairs = [(person, object_) for person, object_, _ in listed]
    past = [(pair.person, pair.object) for pair in request.fixed if pair.object in roster.past]
    work = Work(month, {pair: variable for variable, pair in enumerate(pairs)}, past)
    used = Counter(pair.object for pair in request.fixed)
    capacities = [Bounds(0 if may_miss else _with(bounds, used[object_]).least, _with(bounds, used[object_]).most)
                  for object_, bounds in enumerate(bounds_around(roster, request.fixed)[1])]
    days = [month.shifts[object_].day if object_ in month.shifts else None for _, object_ in pairs]
    rows = Rows([cost for _, _, cost in listed], [person for person, _ in pairs], days)
    making = Making(roster, rules, work, rows, capacities)
    if not pairs:
        # A solver needs one.
        making.rows.helper(None)
    _fixed(making, request)
    places: Dict[int, int] = {}
    missing = _counts(making, request, may_miss, places)
    _one_of_each(making)
    add_rules(making)
    _own(making, own, set(past))
    return Built(making, pairs, places, missing, len(making.rows.costs), add_evenness(making, spreads, is_measured))


def _fixed(making: Making, request: Request) -> None:
    for pair in request.fixed:
        variable = making.work.variables.get((pair.person, pair.object))
        if variable is not None:
            names = making.roster.persons[pair.person], making.roster.objects[pair.object]
            making.rows.add(Sum().add(variable), 1, None, Said("fixed", ": ".join(names)), pair.person)


def _counts(making: Making, request: Request, may_miss: bool, places: Dict[int, int]) -> Dict[int, int]:
    """How many each person and each object takes; `places` gets the rows of the objects' least counts."""
    roster, work = making.roster, making.work
    of_persons, of_objects = bounds_around(roster, request.fixed)
    had, used = Counter(pair.person for pair in request.fixed), Counter(pair.object for pair in request.fixed)
    past = Counter(pair.person for pair in request.fixed if pair.object in roster.past)
    sums: Tuple[List[Sum], List[Sum]] = ([Sum() for _ in of_persons], [Sum() for _ in of_objects])
    for (person, object_), variable in work.variables.items():
        sums[0][person].add(variable)
        sums[1][object_].add(variable)
    missing: Dict[int, int] = {}
    for person, bounds in enumerate(of_persons):
        sums[0][person].past, sums[0][person].is_open = past[person], True
        missing.update(_bounded(making, sums[0][person], _with(bounds, had[person]), 0, person, may_miss))
    for object_, bounds in enumerate(of_objects):
        if object_ not in roster.past:
            sums[1][object_].is_open = True
            _wanted(making, sums[1][object_], object_)
            first = len(making.rows.rows)
            missing.update(_bounded(making, sums[1][object_], _with(bounds, used[object_]), 1, object_, may_miss))
            places.update({object_: number for number in range(first, len(making.rows.rows))
                           if making.rows.rows[number].least is not None})
    return missing


def _wanted(making: Making, own: Sum, object_: int) -> None:
    """Prices what an object has less than is wanted."""
    wanted = making.roster.wanted.get(object_)
    if wanted is not None:
        said = Said(f"{wanted.number} wanted", making.roster.objects[object_])
        making.rows.add_priced(own, wanted.number, None, said, wanted.price)


def _with(bounds: Bounds, count: int) -> Bounds:
    """Bounds of a number with so many more, that are given."""
    return Bounds(bounds.least + count if bounds.least else 0, bounds.most + count)


def _bounded(making: Making, own: Sum, bounds: Bounds, side: int, number: int, may_miss: bool) -> Dict[int, int]:
    """Bounds the count of a person (side 0) or an object; the variables by which it may be missed, with their
    factors."""
    roster = making.roster
    name, person = (roster.persons, roster.objects)[side][number], number if side == 0 else None

    def said(own_bounds: Bounds) -> Said:
        limit = len(roster.objects if side == 0 else roster.persons)
        return Said(bounds_text(own_bounds, roster.titles[1 - side], limit), name)

    if not (may_miss and bounds.least):
        making.rows.add(own, bounds.least or None, bounds.most, said(bounds), person)
        return {}
    making.rows.add(own, None, bounds.most, said(Bounds(0, bounds.most)), person)
    bits = making.rows.bits(bounds.least)
    for variable, factor in bits.items():
        own.add(variable, factor)
    making.rows.add(own, bounds.least, None, said(bounds), person)
    return bits


def bounds_text(bounds: Bounds, word: str, limit: int) -> str:
    """How many are taken, in words."""
    if bounds.least == bounds.most:
        return counted(bounds.most, word)
    if not bounds.least:
        return f"at most {counted(bounds.most, word)}"
    return (f"at least {counted(bounds.least, word)}" if bounds.most >= limit
            else several(f"{bounds.least}-{bounds.most}", word))


def _one_of_each(making: Making) -> None:
    """At most one of a group for each person."""
    groups = making.roster.groups
    if groups is None:
        return
    sums: Dict[Pair, Sum] = {}
    for (person, object_), variable in making.work.variables.items():
        if object_ in groups.of_objects:
            sums.setdefault((person, groups.of_objects[object_]), Sum()).add(variable)
    for (person, group), own in sums.items():
        making.rows.add(own, None, 1, Said(f"one of each {groups.title}", making.roster.persons[person]), person)


def _own(making: Making, rows: Sequence[OwnRow], past: Set[Pair]) -> None:
    """Rows of somebody's own rules. Pairs that aren't allowed are in no plan."""
    for row in rows:
        own = Sum(True)
        for pair, factor in row.terms:
            own.past += factor if pair in past else 0
            if pair in making.work.variables:
                own.add(making.work.variables[pair], factor)
        making.rows.add(own, row.least, row.most, Said(row.text))
