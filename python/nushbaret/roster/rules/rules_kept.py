"""Which rules of a file a plan breaks, and by how much: it looks at days and kinds, never at the rows that say the
rules to the solver. And what rules don't look at, or otherwise than it seems: objects without a day or a kind, what of
an earlier plan the roster or its groups don't have, kinds that are hardly two, holidays on other days, and words for
days of the week."""
from fractions import Fraction
from itertools import chain
from math import ceil
from typing import Callable, Dict, Iterable, Iterator, List, NamedTuple, Optional, Sequence, Set, Tuple

from ..answer import counted, listed, named
from ..dates import weekdays_among
from ..groups import Broken, Paired
from ..month import WEEK, Before, Month, Shift, undated
from ..names import joined, quoted, said, shown_path
from ..roster import Roster, alike
from .rule_file import (AFTER, APART, COUNT, EVEN, FREE, HOURS, OFF, PAUSE, REST, RUN, STAFF, TOGETHER, WEEKEND_RUN,
    WEEKLY, WHOLE, WINDOW, Rule, Rules)
from .rule_rows import MINUTES, begins, ends, hours_of, weekends_with_shifts
from .sums import Kinds, is_of

# A shift that a person has, and its object, where the roster has it.
Had = Tuple[Shift, Optional[int]]


class Breach(NamedTuple):
    """That a rule is broken at a place, and by how many of its units."""

    broken: Broken
    amount: int


class Missed(NamedTuple):
    """A rule with a price that a plan misses at a place: the sentence, by how many units, and what that costs, in units
    of the roster."""

    broken: Broken
    amount: int
    cost: int


class DailyPlan(NamedTuple):
    """A plan by persons and days, who is at which object, and where somebody may be planned."""

    roster: Roster
    rules: Rules
    month: Month
    had: Dict[Tuple[int, int], List[Had]]
    who: Dict[int, Set[int]]
    allowed: Dict[Tuple[int, int], Set[str]]

    def on(self, person: int, day: int, kinds: Kinds = None) -> List[Had]:
        """What a person has on a day, of some kinds."""
        return [(shift, object_) for shift, object_ in self.had.get((person, day), ()) if is_of(shift, kinds)]

    def all_on(self, person: int, days: Iterable[int], kinds: Kinds = None) -> List[Had]:
        """What a person has on days, of some kinds."""
        return [own for day in days for own in self.on(person, day, kinds)]

    def may(self, person: int, day: int, kinds: Kinds) -> bool:
        """Whether a person may be planned on a day, at any of some kinds."""
        own = self.allowed.get((person, day), set())
        return bool(own) if kinds is None else not own.isdisjoint(kinds)

    def broken(self, rule: Rule, persons: Sequence[int], objects: Iterable[Optional[int]], text: str,
               amount: int = 1) -> Breach:
        """That a rule is broken by some persons at some objects."""
        names = [self.roster.objects[object_] for object_ in objects if object_ is not None]
        return Breach(Broken(rule.what, [self.roster.persons[person] for person in persons], names,
                             f"{text} ({rule.sentence})"), amount)

    def by_person(self, rule: Rule, person: int, own: Iterable[Had], text: str, amount: int = 1) -> Breach:
        """That a rule is broken by a person at some shifts."""
        return self.broken(rule, [person], [object_ for _, object_ in own], f"{self.roster.persons[person]}: {text}",
                           amount)

    def called(self, own: Had) -> str:
        """What a shift is called: its object's name; of an earlier day its kind and day."""
        shift, object_ = own
        return f"{shift.kind} {self.month.name(shift.day)}".strip() if object_ is None else self.roster.objects[object_]


def plan_of(roster: Roster, rules: Rules, month: Month, pairs: Sequence[Paired]) -> DailyPlan:
    """A plan by days. Objects in no group have no day, and no rule is about them."""
    had: Dict[Tuple[int, int], List[Had]] = {spot: [(shift, None) for shift in shifts]
                                             for spot, shifts in month.worked.items()}
    who: Dict[int, Set[int]] = {}
    for pair in pairs:
        who.setdefault(pair.object, set()).add(pair.person)
        shift = month.shifts.get(pair.object)
        if shift is not None:
            had.setdefault((pair.person, shift.day), []).append((shift, pair.object))
    allowed: Dict[Tuple[int, int], Set[str]] = {}
    for person, object_ in zip(roster.of_persons, roster.of_objects):
        if object_ in month.shifts:
            allowed.setdefault((person, month.shifts[object_].day), set()).add(month.shifts[object_].kind)
    return DailyPlan(roster, rules, month, had, who, allowed)


def broken_by(plan: DailyPlan) -> List[Broken]:
    """The rules without a price that a plan breaks, in the order of the file. What the past alone breaks isn't there,
    since nobody can mend it."""
    found: Dict[Tuple[str, str], Broken] = {}
    for rule in plan.rules.rules:
        if rule.what != EVEN and rule.price is None:
            for broken, _ in READERS[rule.what](plan, rule):
                found.setdefault((broken.rule, broken.sentence), broken)
    return list(found.values())


def missed_by(plan: DailyPlan) -> List[Missed]:
    """What a plan misses of rules and counts that have a price, in the order of the file, then of the objects."""
    found = [Missed(broken, amount, amount * rule.price) for rule in plan.rules.rules if rule.price is not None
             for broken, amount in READERS[rule.what](plan, rule)]
    roster = plan.roster
    for object_, (wanted, price) in roster.wanted.items():
        there = len(plan.who.get(object_, ()))
        if object_ not in roster.past and there < wanted:
            text = f"{roster.objects[object_]}: {there} of {wanted} wanted"
            found.append(Missed(Broken("wanted", [], [roster.objects[object_]], text), wanted - there,
                                (wanted - there) * price))
    return found


def _rest(plan: DailyPlan, rule: Rule) -> Iterator[Breach]:
    month = plan.month
    for person in rule.persons:
        for day in range(month.known, month.last):
            first, second = plan.on(person, day, rule.kinds), plan.on(person, day + 1, rule.after)
            if first and second and not month.is_past(day + 1):
                yield plan.by_person(rule, person, [first[0], second[0]],
                                     f"{plan.called(second[0])} after {plan.called(first[0])}")


def _runs(plan: DailyPlan, person: int, kinds: Kinds) -> Iterator[range]:
    """The days one after the other on which a person has shifts of some kinds, as long as they are."""
    days = [day for day in range(plan.month.known, plan.month.last + 1) if plan.on(person, day, kinds)]
    begin = 0
    for place in range(1, len(days) + 1):
        if place == len(days) or days[place] != days[place - 1] + 1:
            yield range(days[begin], days[place - 1] + 1)
            begin = place


def _run(plan: DailyPlan, rule: Rule) -> Iterator[Breach]:
    for person in rule.persons:
        for run in _runs(plan, person, rule.kinds):
            beyond = run[len(run) if rule.most is None else int(rule.most):]
            too_long = [day for day in beyond if not plan.month.is_past(day)]
            is_short = rule.least is not None and len(run) < rule.least and _is_cut(plan, rule, person, run)
            if too_long or is_short:
                yield plan.by_person(rule, person, plan.all_on(person, run, rule.kinds),
                                     f"{len(run)} in a row, {_from_to(plan.month, run)}",
                                     len(too_long or _lacking(plan, rule, person, run)))


def _lacking(plan: DailyPlan, rule: Rule, person: int, run: range) -> List[int]:
    """The days after the first one of a run that is too short on which it should go on, and doesn't."""
    month = plan.month
    days = range(run[0] + 1, min(run[0] + int(rule.least or 0), month.last + 1))
    return [day for day in days if not plan.on(person, day, rule.kinds)
            and (not month.is_past(run[0]) or plan.may(person, day, rule.kinds))]


def _is_cut(plan: DailyPlan, rule: Rule, person: int, run: range) -> bool:
    """Whether a run that is too short could be longer: days before the first, and after the last one, aren't known, and
    what ended in the past or can't go on is as it is."""
    month = plan.month
    if run[0] == month.known or run[-1] == month.last or month.is_past(run[-1] + 1):
        return False
    if not month.is_past(run[0]):
        return True
    return bool(_lacking(plan, rule, person, run))


def _from_to(month: Month, days: Sequence[int]) -> str:
    return month.name(days[0]) + (f" to {month.name(days[-1])}" if len(days) > 1 else "")


def _spans(plan: DailyPlan, rule: Rule) -> Iterator[Tuple[str, List[int], bool]]:
    """The weeks, or the month, with a name, its days, and whether all days are known."""
    month = plan.month
    if rule.per != WEEKLY:
        yield "", list(month.days), True
        return
    # The ordinal 1 of a date is a Monday.
    first = month.known - (month.known - 1 if month.are_dates else month.known) % WEEK
    for monday in range(first, month.last + 1, WEEK):
        if monday + WEEK > month.begin:
            days = [day for day in range(monday, monday + WEEK) if month.known <= day <= month.last]
            yield f" in the week of {month.name(days[0])}", days, len(days) == WEEK


def _bounded(plan: DailyPlan, rule: Rule, of: Callable[[Sequence[Had]], Fraction], word: str) -> Iterator[Breach]:
    """Counts or hours outside of their bounds, in weeks or in the month."""
    month = plan.month
    for person in rule.persons:
        for where, span, is_whole in _spans(plan, rule):
            days = [day for day in span if not rule.of_weekends or month.is_weekend(day)]
            own = plan.all_on(person, days, rule.kinds)
            still = [day for day in days or span if not month.is_past(day)]
            credits = plan.rules.credits if rule.what == HOURS else {}
            credit = sum((credits.get((person, day), Fraction(0)) for day in span), Fraction(0))
            total, planned = of(own) + credit, of(plan.all_on(person, still, rule.kinds))
            too_many = rule.most is not None and total > rule.most and planned > 0
            too_few = is_whole and rule.least is not None and total < rule.least and bool(still)
            if too_many or too_few:
                amount = min(total - (rule.most or 0), planned) if too_many else (rule.least or 0) - total
                yield plan.by_person(rule, person, own, f"{decimal(total)} {word}{where}", ceil(amount))


def decimal(number: Fraction) -> str:
    """A number as people write it, with two decimals at most."""
    return f"{float(number):.2f}".rstrip("0").rstrip(".")


def _outside(rule: Rule, number: int) -> int:
    """By how much a number is outside of a rule's bounds."""
    below = Fraction(0) if rule.least is None else rule.least - number
    above = Fraction(0) if rule.most is None else number - rule.most
    return ceil(max(below, above))


def _count(plan: DailyPlan, rule: Rule) -> Iterator[Breach]:
    word = "/".join(sorted(rule.kinds)) if rule.kinds else "weekend shifts" if rule.of_weekends else "shifts"
    return _bounded(plan, rule, lambda own: Fraction(len(own)), word)


def _hours(plan: DailyPlan, rule: Rule) -> Iterator[Breach]:
    return _bounded(plan, rule, lambda own: sum((hours_of(plan.rules, shift) for shift, _ in own), Fraction(0)),
                    "hours")


def _window(plan: DailyPlan, rule: Rule) -> Iterator[Breach]:
    month = plan.month
    for person in rule.persons:
        for first in range(month.known, month.last + 2 - rule.length):
            days = range(first, first + rule.length)
            own = plan.all_on(person, days, rule.kinds)
            planned = len(plan.all_on(person, [day for day in days if not month.is_past(day)], rule.kinds))
            too_many = rule.most is not None and len(own) > rule.most and planned > 0
            too_few = rule.least is not None and len(own) < rule.least and not month.is_past(days[-1])
            if too_many or too_few:
                amount = min(len(own) - (rule.most or 0), planned) if too_many else (rule.least or 0) - len(own)
                yield plan.by_person(rule, person, own, f"{len(own)} in {_from_to(month, days)}", int(amount))


def _off(plan: DailyPlan, rule: Rule) -> Iterator[Breach]:
    """Days without a shift: each stretch by itself."""
    month = plan.month
    for person in rule.persons:
        worked = [day for day in range(month.known, month.last + 1) if plan.on(person, day)]
        for before, after in zip([month.known - 1, *worked], [*worked, month.last + 1]):
            off = range(before + 1, after)
            over = [day for day in off[int(rule.most):] if not month.is_past(day)] if rule.most is not None else []
            if over:
                yield plan.by_person(rule, person, [], f"{len(off)} days off, {_from_to(month, off)}", len(over))
            early = [day for day in range(after, min(before + 1 + int(rule.least or 0), month.last + 1))
                     if plan.on(person, day) and not month.is_past(day)]
            if early and off and before >= month.known:
                days = f"{len(off)} day{'s' if len(off) > 1 else ''}"
                yield plan.by_person(rule, person, plan.all_on(person, early), f"{days} off, {_from_to(month, off)}",
                                     len(early))


def _after(plan: DailyPlan, rule: Rule) -> Iterator[Breach]:
    month = plan.month
    for person in rule.persons:
        for run in _runs(plan, person, rule.kinds):
            free = range(run[-1] + 1, min(run[-1] + 1 + int(rule.least or 0), month.last + 1))
            worked = [day for day in free if plan.on(person, day) and not month.is_past(day)]
            if len(run) >= rule.length and worked:
                text = f"{plan.called(plan.on(person, worked[0])[0])} after {_from_to(month, run)}"
                yield plan.by_person(rule, person, plan.all_on(person, worked), text, len(worked))


def _pause(plan: DailyPlan, rule: Rule) -> Iterator[Breach]:
    month = plan.month
    for person in rule.persons:
        for day in range(month.known, month.last):
            for other in range(day + 1, min(day + 2 + rule.length // MINUTES, month.last + 1)):
                short = [(one, two) for one in plan.on(person, day) for two in plan.on(person, other)
                         if (other - day) * MINUTES + begins(two[0]) - ends(one[0]) < rule.length]
                if short and not month.is_past(other):
                    one, two = short[0]
                    yield plan.by_person(rule, person, [one, two], f"{plan.called(two)} after {plan.called(one)}")


def _weekend_run(plan: DailyPlan, rule: Rule) -> Iterator[Breach]:
    month, count = plan.month, int(rule.most or 0) + 1
    weekends = month.weekends
    if month.are_past(weekends):
        return
    for person in rule.persons:
        for first in range(len(weekends) + 1 - count):
            own = weekends[first:first + count]
            past = [[day for day in days if month.is_past(day)] for days in own]
            if all(plan.all_on(person, days) for days in own) and not all(plan.all_on(person, days) for days in past):
                text = f"{count} weekends in a row, {_from_to(month, [own[0][0], own[-1][-1]])}"
                yield plan.by_person(rule, person, plan.all_on(person, chain(*own)), text)


def _free(plan: DailyPlan, rule: Rule) -> Iterator[Breach]:
    weekends = plan.month.weekends
    if plan.month.are_past(weekends):
        return
    for person in rule.persons:
        worked = [days for days in weekends if plan.all_on(person, days)]
        free = len(weekends) - len(worked)
        if rule.least is not None and free < rule.least or rule.most is not None and free > rule.most:
            yield plan.by_person(rule, person, plan.all_on(person, chain(*worked)),
                                 f"{free} free weekend{'' if free == 1 else 's'}", _outside(rule, free))


def _whole(plan: DailyPlan, rule: Rule) -> Iterator[Breach]:
    month, weekends = plan.month, weekends_with_shifts(plan.month)
    for person in rule.persons:
        for days in weekends:
            for day, other in zip(days, days[1:]):
                own, others = plan.on(person, day), plan.on(person, other)
                can_mend = not month.is_past(other) and not (own and month.is_past(day)
                                                             and not plan.may(person, other, None))
                if bool(own) != bool(others) and can_mend:
                    there, gone = (own, other) if own else (others, day)
                    yield plan.by_person(rule, person, there[:1],
                                         f"{plan.called(there[0])}, and none on {month.name(gone)}")


def _planned(plan: DailyPlan, kinds: Kinds) -> Iterator[int]:
    """The objects of some kinds that aren't past."""
    return (object_ for object_, shift in plan.month.shifts.items() if is_of(shift, kinds)
            and not plan.month.is_past(shift.day))


def _staff(plan: DailyPlan, rule: Rule) -> Iterator[Breach]:
    for object_ in _planned(plan, rule.kinds):
        there = [person for person in rule.persons if person in plan.who.get(object_, ())]
        is_broken = (rule.least is not None and len(there) < rule.least or rule.most is not None
                     and len(there) > rule.most)
        if is_broken and plan.roster.capacity_of(object_) > 0:
            names = joined([plan.roster.persons[person] for person in there]) or "none of them"
            yield plan.broken(rule, there, [object_], f"{plan.roster.objects[object_]}: {names}",
                              _outside(rule, len(there)))


def _apart(plan: DailyPlan, rule: Rule) -> Iterator[Breach]:
    for object_ in _planned(plan, None):
        there = [person for person in rule.persons if person in plan.who.get(object_, ())]
        if len(there) > 1:
            yield plan.broken(rule, there, [object_], f"{plan.roster.objects[object_]}: "
                              f"{joined([plan.roster.persons[one] for one in there])}", len(there) - 1)


def _together(plan: DailyPlan, rule: Rule) -> Iterator[Breach]:
    for object_ in _planned(plan, None):
        there = [person for person in rule.persons if person in plan.who.get(object_, ())]
        if there and len(there) < len(rule.persons):
            text = f"{plan.roster.objects[object_]}: {joined([plan.roster.persons[one] for one in there])} alone"
            yield plan.broken(rule, there, [object_], text)


READERS: Dict[str, Callable[[DailyPlan, Rule], Iterator[Breach]]] = {
    REST: _rest, RUN: _run, COUNT: _count, HOURS: _hours, FREE: _free, WHOLE: _whole, STAFF: _staff, APART: _apart,
    TOGETHER: _together, WINDOW: _window, OFF: _off, AFTER: _after, PAUSE: _pause, WEEKEND_RUN: _weekend_run}


def without_day(roster: Roster, lacks: str) -> Iterator[str]:
    """A line on the objects without a day, if there are any; it begins with what lacks them."""
    of_objects = {} if roster.groups is None else roster.groups.of_objects
    numbers = [object_ for object_ in range(len(roster.objects)) if object_ not in of_objects]
    if numbers:
        yield (f"{lacks} {named(numbers, roster.titles[1], roster.objects)}: no rule looks at "
               f"{'it' if len(numbers) == 1 else 'them'}")


def without_kind(roster: Roster, lacks: str) -> Iterator[str]:
    """A line on the objects with a day and without a kind, where kinds are said; it begins with what lacks them."""
    groups = roster.groups
    numbers = [] if groups is None or not groups.has_kinds else sorted(groups.of_objects.keys() - groups.kinds.keys())
    if numbers:
        yield (f"{lacks} {named(numbers, roster.titles[1], roster.objects)}: no rule of kinds looks at "
               f"{'it' if len(numbers) == 1 else 'them'}")


def left_out(roster: Roster, before: Optional[Before]) -> Iterator[str]:
    """Lines on the persons of an earlier plan that the roster doesn't have, and on its objects without a day."""
    if before is None:
        return
    gone = [person for person in dict.fromkeys(person for person, _, _ in before.pairs)
            if person not in roster.person_numbers]
    if gone:
        yield f"{shown_path(before.path)}: the roster has no {listed(gone, list(range(len(gone))))}"
    names = [] if roster.groups is None else undated(roster.groups, before)
    if names:
        shown = listed(names, list(range(len(names))))
        yield (f"{shown_path(before.path)}: the groups' file doesn't list {counted(len(names), roster.titles[1])} "
               f"({shown}): no rule looks at them")


def kinds_alike(path: str, month: Month) -> Iterator[str]:
    """Lines on kinds that differ in case or spaces alone: a rule is for the one that it names."""
    for kinds in alike(month.kinds):
        yield f"{shown_path(path)}: the kinds {said('alike', ', '.join(map(quoted, kinds)))}"


def other_holidays(rules: Rules, month: Month) -> Iterator[str]:
    """A line on the holidays that aren't days of the roster, if there are any."""
    names = [month.name(day) for day in sorted(rules.holidays) if not month.known <= day <= month.last]
    if names:
        are = "1 holiday isn't a day" if len(names) == 1 else f"{len(names)} holidays aren't days"
        yield f"{shown_path(rules.path)}: {are} of the roster ({listed(names, list(range(len(names))))})"


def days_in_order(path: str, rules: Rules, month: Month) -> Iterator[str]:
    """Lines on days that aren't dates, where their words for days of the week say otherwise than their order: the first
    two with days between them, and the first one of weeks."""
    if month.are_dates:
        return
    names = [month.names[day] for day in sorted(month.names)]
    weekdays = weekdays_among(tuple(names))
    apart = [(one, other) for one, other in zip(names, names[1:]) if one in weekdays and other in weekdays
             and weekdays[other].isdisjoint((day + 1) % WEEK for day in weekdays[one])]
    if apart:
        yield f"{shown_path(path)}: {apart[0][1]} counts as the day after {apart[0][0]}: only dates leave days out"
    first = month.name(month.begin)
    if 0 not in weekdays.get(first, {0}) and any(rule.per == WEEKLY for rule in rules.rules):
        yield f"{shown_path(path)}: weeks begin with {first}: only those of dates begin on Monday"
