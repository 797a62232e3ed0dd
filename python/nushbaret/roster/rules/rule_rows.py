"""Rows of a model that say rules: for each rule a function that makes its rows."""
from fractions import Fraction
from typing import Callable, Dict, FrozenSet, Iterator, List, NamedTuple, Optional, Sequence, Set, Tuple

from ...counts.counted import Bounds
from ..month import NO_KIND, Month, Shift
from ..roster import Roster
from .rule_file import (AFTER, APART, COUNT, EVEN, FREE, HOURS, OFF, PAUSE, REST, RUN, STAFF, TOGETHER, WEEKEND_RUN,
    WEEKLY, WHOLE, WINDOW, Rule, Rules)
from .sums import Number, Rows, Said, Sum, Work

# The kinds of a day and of the next one, of which a person has at most one.
Clique = Tuple[FrozenSet[str], FrozenSet[str]]
# The minutes of a day.
MINUTES = 24 * 60


class Making(NamedTuple):
    """What the rows of rules are made from."""

    roster: Roster
    rules: Rules
    work: Work
    rows: Rows
    # How many persons each object takes.
    capacities: Sequence[Bounds] = ()

    @property
    def month(self) -> Month:
        return self.work.month

    def said(self, rule: Rule, person: int) -> Said:
        return Said(rule.sentence, self.roster.persons[person])

    def hours(self, shift: Shift) -> Fraction:
        return hours_of(self.rules, shift)

    def bound(self, rule: Rule, own: Sum, least: Optional[Number], most: Optional[Number], said: Said,
              person: Optional[int] = None) -> None:
        """Bounds a sum as a rule says, or prices by how much it is missed."""
        if rule.price is None:
            self.rows.add(own, least, most, said, person)
        else:
            self.rows.add_priced(own, least, most, said, rule.price, person)


def hours_of(rules: Rules, shift: Shift) -> Fraction:
    """How long a shift is: as the rules say, or by its times."""
    if shift.kind in rules.hours:
        return rules.hours[shift.kind]
    if shift.times is None:
        raise ValueError("a shift without hours")
    return Fraction(shift.times.end - shift.times.begin, 60)


def add_rules(making: Making) -> None:
    """Adds the rows of all rules, except of those of evenness."""
    _rest(making, [rule for rule in making.rules.rules if rule.what == REST and rule.price is None])
    for rule in making.rules.rules:
        if rule.what == REST and rule.price is not None:
            _priced_rest(making, rule)
        elif rule.what not in (REST, EVEN):
            MAKERS[rule.what](making, rule)


def _rest(making: Making, rules: Sequence[Rule]) -> None:
    """After a shift of one kind none of another one the day after. Several rules make common rows, which say more in
    fractions."""
    pairs: Dict[int, Set[Tuple[str, str]]] = {}
    for rule in rules:
        for person in rule.persons:
            pairs.setdefault(person, set()).update((one, other) for one in rule.kinds or () for other in rule.after
                                                   or ())
    cliques = {frozenset(own): _cliques(own) for own in pairs.values()}
    month = making.month
    for person, own in sorted(pairs.items()):
        for one, other in cliques[frozenset(own)]:
            said = Said(f"rest: no {_named(other)} the day after {_named(one)}", making.roster.persons[person])
            for day in range(month.known, month.last):
                both = making.work.sum(person, [day + 1], other, 1, making.work.sum(person, [day], one))
                making.rows.add(both, None, 1, said, person)


def _priced_rest(making: Making, rule: Rule) -> None:
    """The same of a rule that has a price, on each day by itself."""
    month = making.month
    for person in rule.persons:
        for day in range(month.known, month.last):
            both = making.work.on_days(person, [day + 1], rule.after, 1, making.work.on_days(person, [day], rule.kinds))
            making.bound(rule, both, None, 1, making.said(rule, person), person)


def _named(kinds: FrozenSet[str]) -> str:
    """The kinds of a rule of rest; those with shifts of no kind are all."""
    return "shift" if NO_KIND in kinds else " or ".join(sorted(kinds))


def _cliques(pairs: Set[Tuple[str, str]]) -> List[Clique]:
    """Sets of kinds, each forbidden after each of others, as large as can be around the others of one kind; all pairs
    are in one."""
    after = {one: frozenset(b for a, b in pairs if a == one) for one, _ in pairs}
    before = {other: frozenset(a for a, b in pairs if b == other) for _, other in pairs}
    of_one = [(frozenset(a for a in after if after[a] >= own), own) for own in after.values()]
    of_other = [(own, frozenset(b for b in before if before[b] >= own)) for own in before.values()]
    return sorted({*of_one, *of_other}, key=lambda clique: (sorted(clique[0]), sorted(clique[1])))


def _run(making: Making, rule: Rule) -> None:
    """So many days one after the other at least and at most."""
    for person in rule.persons:
        if rule.most is not None:
            _longest(making, rule, person, int(rule.most))
        if rule.least is not None:
            _shortest(making, rule, person, int(rule.least))


def _longest(making: Making, rule: Rule, person: int, most: int) -> None:
    month = making.month
    for day in range(month.known, month.last + 1 - most):
        own = making.work.on_days(person, range(day, day + most + 1), rule.kinds)
        making.bound(rule, own, None, most, making.said(rule, person), person)


def _shortest(making: Making, rule: Rule, person: int, least: int) -> None:
    """Who has a shift on a day, and had none the day before, has one on each of the next days. What is before the first
    day, and after the last one, isn't known."""
    month, work = making.month, making.work
    for day in range(month.known + 1, month.last + 1):
        next_days = range(day + 1, min(day + least, month.last + 1))
        if any(month.is_past(other) and not work.had(person, other, rule.kinds) for other in next_days):
            continue
        for other in next_days:
            own = work.on_days(person, [day - 1, other], rule.kinds, -1, work.on_days(person, [day], rule.kinds))
            making.bound(rule, own, None, 0, making.said(rule, person), person)


class Span(NamedTuple):
    """The days in which a rule counts, maybe none; whether its least number is one there: not in a week of which days
    aren't known; and whether anything can still be planned there."""

    days: List[int]
    is_whole: bool
    is_open: bool


def spans_of(month: Month, rule: Rule) -> Iterator[Span]:
    """The weeks, or the month, in which a rule counts."""
    if rule.per == WEEKLY:
        spans = [(week.days, week.is_whole) for week in month.weeks]
    else:
        spans = [(list(month.days), True)]
    for days, is_whole in spans:
        own = [day for day in days if not rule.of_weekends or month.is_weekend(day)]
        yield Span(own, is_whole, not all(map(month.is_past, own or days)))


def _count(making: Making, rule: Rule) -> None:
    """So many shifts in a week or in the month."""
    for person in rule.persons:
        for span in spans_of(making.month, rule):
            _bound(making, rule, person, span, making.work.sum(person, span.days, rule.kinds))


def _bound(making: Making, rule: Rule, person: int, span: Span, own: Sum) -> None:
    own.is_open = span.is_open
    making.bound(rule, own, rule.least if span.is_whole else None, rule.most, making.said(rule, person), person)


def _hours(making: Making, rule: Rule) -> None:
    """So many hours in a week or in the month."""
    for person in rule.persons:
        for span in spans_of(making.month, rule):
            own = making.work.sum(person, span.days, weight=making.hours)
            own.past += sum(making.rules.credits.get((person, day), 0) for day in span.days)
            _bound(making, rule, person, span, own)


def _window(making: Making, rule: Rule) -> None:
    """So many shifts in any days side by side, so many as the rule says."""
    month = making.month
    for person in rule.persons:
        for day in range(month.known, month.last + 2 - rule.length):
            own = making.work.sum(person, range(day, day + rule.length), rule.kinds)
            making.bound(rule, own, rule.least, rule.most, making.said(rule, person), person)


def _off(making: Making, rule: Rule) -> None:
    """So many days without a shift one after the other at least, between days with one, and at most."""
    month, work = making.month, making.work
    for person in rule.persons:
        said = making.said(rule, person)
        if rule.most is not None:
            for day in range(month.known, month.last + 1 - int(rule.most)):
                making.bound(rule, work.on_days(person, range(day, day + int(rule.most) + 1)), 1, None, said, person)
        for day in range(month.known + 1, month.last + 1) if rule.least is not None else ():
            for other in range(day + 1, min(day + int(rule.least or 0), month.last + 1)):
                own = work.on_days(person, [day], None, -1, work.on_days(person, [day - 1, other]))
                making.bound(rule, own, None, 1, said, person)


def _after(making: Making, rule: Rule) -> None:
    """After a run of so many days of a kind, that doesn't go on, so many days without a shift."""
    month, work = making.month, making.work
    for person in rule.persons:
        for day in range(month.known, month.last + 1 - rule.length):
            after = day + rule.length
            for free in range(after, min(after + int(rule.least or 0), month.last + 1)):
                own = work.on_days(person, range(day, after), rule.kinds)
                own = work.on_days(person, [free], None, 1, work.on_days(person, [after], rule.kinds, -1, own))
                making.bound(rule, own, None, rule.length, making.said(rule, person), person)


def _pause(making: Making, rule: Rule) -> None:
    """So many minutes between shifts of two days. Those that end late exclude those that begin early; a row for each
    time at which a shift ends says so."""
    month, work = making.month, making.work
    for person in rule.persons:
        for day in range(month.known, month.last):
            for other in range(day + 1, min(day + 2 + rule.length // MINUTES, month.last + 1)):
                gap = rule.length - (other - day) * MINUTES
                short: Optional[int] = None
                for end in sorted({ends(shift) for shift in work.shifts(person, day)}):
                    own = work.sum_where(person, day, lambda shift: ends(shift) >= end, Sum())
                    own = work.sum_where(person, other, lambda shift: begins(shift) < end + gap, own)
                    short = _not_both(making, rule, own, short, person)


def _not_both(making: Making, rule: Rule, own: Sum, short: Optional[int], person: int) -> Optional[int]:
    """At most one of a sum, unless a variable that has the rule's price says that it needn't; that variable, which
    several rows may share."""
    said = making.said(rule, person)
    if rule.price is None or len(own.terms) + own.past < 2:
        making.rows.add(own, None, 1, said, person)
        return short
    if own.is_open and own.past < 2:
        short = making.rows.helper(person, rule.price) if short is None else short
        making.rows.add(own.add(short, -1), None, 1, said, person)
    return short


def ends(shift: Shift) -> int:
    """When a shift ends, in minutes of its day."""
    return 0 if shift.times is None else shift.times.end


def begins(shift: Shift) -> int:
    """When a shift begins, in minutes of its day."""
    return 0 if shift.times is None else shift.times.begin


def _weekend_run(making: Making, rule: Rule) -> None:
    """At most so many weekends with shifts one after the other: of one more any is free."""
    weekends, most = making.month.weekends, int(rule.most or 0)
    if making.month.are_past(weekends):
        return
    for person in rule.persons:
        said, free = making.said(rule, person), []
        for days in weekends:
            free.append(making.rows.helper(person))
            for day in days:
                making.rows.add(making.work.sum(person, [day]).add(free[-1]), None, 1, said, person)
        for first in range(len(weekends) - most):
            if not all(any(making.work.had(person, day) for day in days) for days in weekends[first:first + most + 1]):
                own = Sum()
                for variable in free[first:first + most + 1]:
                    own.add(variable)
                making.bound(rule, own, 1, None, said, person)


def _free(making: Making, rule: Rule) -> None:
    """So many weekends without a shift: a variable for each that is free."""
    weekends = making.month.weekends
    if making.month.are_past(weekends):
        return
    for person in rule.persons:
        said, free = making.said(rule, person), Sum(True)
        for days in weekends:
            variable = making.rows.helper(person)
            free.add(variable)
            for day in days:
                making.rows.add(making.work.sum(person, [day]).add(variable), None, 1, said, person)
            if rule.most is not None:
                making.rows.add(making.work.sum(person, days).add(variable), 1, None, said, person)
        making.bound(rule, free, rule.least, rule.most, said, person)


def _whole(making: Making, rule: Rule) -> None:
    """All days of a weekend or none, as far as they have shifts."""
    weekends = weekends_with_shifts(making.month)
    for person in rule.persons:
        for days in weekends:
            for day, other in zip(days, days[1:]):
                own = making.work.on_days(person, [other], None, -1, making.work.on_days(person, [day]))
                making.bound(rule, own, 0, 0, making.said(rule, person), person)


def weekends_with_shifts(month: Month) -> List[List[int]]:
    """The days of each weekend that have shifts."""
    held = {shift.day for shift in month.shifts.values()} | {day for _, day in month.worked}
    return [[day for day in days if day in held] for days in month.weekends]


def _staff(making: Making, rule: Rule) -> None:
    """So many of some persons at each object, if it takes anybody."""
    for object_ in making.work.objects(rule.kinds):
        if making.roster.capacity_of(object_) > 0:
            making.bound(rule, _at(making, rule.persons, object_), rule.least, rule.most,
                         Said(rule.sentence, making.roster.objects[object_]))


def _apart(making: Making, rule: Rule) -> None:
    """At most one of some persons at an object."""
    for object_ in making.work.objects(None):
        making.bound(rule, _at(making, rule.persons, object_), None, 1,
                     Said(rule.sentence, making.roster.objects[object_]))


def _together(making: Making, rule: Rule) -> None:
    """All of some persons at an object, or none."""
    for object_ in making.work.objects(None):
        alone = None if rule.price is None else making.rows.helper(None, rule.price)
        for person, other in zip(rule.persons, rule.persons[1:]):
            own = _at(making, [person], object_)
            variable = making.work.variables.get((other, object_))
            if variable is not None:
                own.add(variable, -1)
            _both_or_none(making, own, alone, Said(rule.sentence, making.roster.objects[object_]))


def _both_or_none(making: Making, own: Sum, alone: Optional[int], said: Said) -> None:
    """A difference is 0, unless the variable `alone` says that it needn't."""
    if alone is None:
        making.rows.add(own, 0, 0, said)
        return
    for sign in (1, -1):
        one = Sum()
        for variable, factor in own.terms.items():
            one.add(variable, sign * factor)
        making.rows.add(one.add(alone, -1), None, 0, said)


def _at(making: Making, persons: Sequence[int], object_: int) -> Sum:
    """How many of some persons an object has."""
    found = Sum(True)
    for person in persons:
        variable = making.work.variables.get((person, object_))
        if variable is not None:
            found.add(variable)
    return found


MAKERS: Dict[str, Callable[[Making, Rule], None]] = {
    RUN: _run, COUNT: _count, HOURS: _hours, FREE: _free, WHOLE: _whole, STAFF: _staff, APART: _apart,
    TOGETHER: _together, WINDOW: _window, OFF: _off, AFTER: _after, PAUSE: _pause, WEEKEND_RUN: _weekend_run}
