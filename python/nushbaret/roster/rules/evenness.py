"""Rows of a model that say rules of evenness: counts of some persons differ by so much at most."""
from typing import Dict, List, NamedTuple, Optional, Sequence

from ...counts.counted import Bounds
from ..month import Month
from .rule_file import EVEN, Rule
from .rule_rows import Making
from .sums import Sum


class Even(NamedTuple):
    """The counts that a rule compares, and variables with their factors: the least count is at least `base` and their
    sum."""

    sums: List[Sum]
    base: int
    low: Dict[int, int]


class EvennessRows(NamedTuple):
    """What was added for rules of evenness, and the variables, with their factors, that say by how much more than one
    the counts of the rule that is measured differ."""

    rules: List[Even]
    excess: Dict[int, int]


def even_rules(rules: Sequence[Rule]) -> List[Rule]:
    return [rule for rule in rules if rule.what == EVEN]


def even_counted(making: Making, rule: Rule) -> List[int]:
    """The persons that a rule compares: those who have, or may have, any of its shifts. Who takes none may not, and
    nobody may have a shift that takes nobody."""
    work, days = making.work, _days(making.month, rule)
    shifts = {object_ for object_ in work.objects(rule.kinds) if making.month.shifts[object_].day in days
              and making.capacities[object_].most > 0}
    may = {person for person, object_ in work.variables if object_ in shifts and making.roster.tasks_of(person) > 0}
    return [person for person in rule.persons if person in may or any(work.had(person, day, rule.kinds)
                                                                      for day in days)]


def _days(month: Month, rule: Rule) -> List[int]:
    return [day for day in month.days if not rule.of_weekends or month.is_weekend(day)]


def add_evenness(making: Making, spreads: Sequence[int], is_measured: bool) -> EvennessRows:
    """Adds the rows of the first rules, whose counts differ by at most so much each; with `is_measured` also those of
    the next rule, which say how little its counts can differ."""
    rules, excess = even_rules(making.rules.rules), {}
    found = [_within(making, rule, spread) for rule, spread in zip(rules, spreads)]
    if is_measured and len(spreads) < len(rules):
        excess = _measured(making, rules[len(spreads)])
    return EvennessRows(found, excess)


def _sums(making: Making, rule: Rule) -> Dict[int, Sum]:
    """The count of each person that a rule compares."""
    days = _days(making.month, rule)
    return {person: making.work.sum(person, days, rule.kinds) for person in even_counted(making, rule)}


def _measured(making: Making, rule: Rule) -> Dict[int, int]:
    """Counts that differ by one, and as much more as variables say, which are returned with their factors."""
    days = len(_days(making.month, rule))
    low, excess = making.rows.bits(days), making.rows.bits(days)
    for person, own in _sums(making, rule).items():
        said = making.said(rule, person)
        making.rows.add(_less(own, low), 0, None, said)
        making.rows.add(_less(own, {**low, **excess}), None, 1, said)
    return excess


def _less(own: Sum, factors: Dict[int, int]) -> Sum:
    """A sum less some variables with their factors."""
    found = Sum(True)
    found.terms, found.past = {**own.terms, **{variable: -factor for variable, factor in factors.items()}}, own.past
    return found


def _within(making: Making, rule: Rule, spread: int) -> Even:
    """Counts that differ by `spread` at most. Where only one least count fits how many shifts there are, each count is
    bounded by itself."""
    sums = _sums(making, rule)
    if not sums:
        return Even([], 0, {})
    total = _total(making, rule, sums)
    count = len(sums)
    base = max(0, -((spread * (count - 1) - total.least) // count))
    top = max(base, total.most // count)
    low = making.rows.bits(top - base)
    for person, own in sums.items():
        said = making.said(rule, person)
        making.rows.add(own, base, top + spread, said, person)
        if low:
            making.rows.add(_less(own, low), base, None, said)
            making.rows.add(_less(own, low), None, base + spread, said)
    if low:
        making.rows.add(_less(Sum(), {variable: -factor for variable, factor in low.items()}), None, top - base,
                        making.said(rule, next(iter(sums))))
    return Even(list(sums.values()), base, low)


def _total(making: Making, rule: Rule, sums: Dict[int, Sum]) -> Bounds:
    """How many shifts those that a rule compares have in all, at least and at most."""
    days, month = set(_days(making.month, rule)), making.month
    least = most = sum(int(own.past) for own in sums.values())
    own_at: Dict[int, int] = {}
    others_at: Dict[int, int] = {}
    for person, object_ in making.work.variables:
        at = own_at if person in sums else others_at
        at[object_] = at.get(object_, 0) + 1
    for object_ in making.work.objects(rule.kinds):
        if month.shifts[object_].day in days:
            capacity = making.capacities[object_]
            least += max(0, capacity.least - others_at.get(object_, 0))
            most += min(capacity.most, own_at.get(object_, 0))
    return Bounds(min(least, most), most)


def start_of(evenness: EvennessRows, prefix: Sequence[int]) -> Optional[List[int]]:
    """The values of all variables, where those before evenness are known; None where counts would be measured."""
    if evenness.excess:
        return None
    values = list(prefix)
    for even in evenness.rules:
        counts = [int(own.past) + sum(int(factor) * values[variable] for variable, factor in own.terms.items())
                  for own in even.sums]
        above = min(counts, default=even.base) - even.base
        values += [above // factor % 2 for factor in even.low.values()]
    return values
