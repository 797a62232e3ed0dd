"""The calendar of a roster with rules: which day and kind each object has, weeks, weekends, and what was worked before
the first day."""
from datetime import date
from typing import Dict, FrozenSet, List, NamedTuple, Optional, Sequence, Set, Tuple

from .dates import SATURDAY, Times, are_weekdays, dates_of, has_year, spellings, weekends_among
from .day_tables import without_group
from .names import quoted
from .roster import Groups, Roster
from .sheets import RosterFault, item_of

WEEK = 7
# The kind of a shift that has none.
NO_KIND = ""


class Shift(NamedTuple):
    """What a person may have on a day: its kind, or `NO_KIND`, and its times, where they are known."""

    day: int
    kind: str
    times: Optional[Times]


class Week(NamedTuple):
    """The days of a week that are known, and whether these are all seven."""

    days: List[int]
    is_whole: bool


class Month(NamedTuple):
    """The days of a plan, by number: ordinals of dates, or the places of groups in their file.

    `shifts` has the day and the kind of each object that is in a group. The plan goes from the day `begin` to `last`;
    days before it are known from `known` on. Before the day `start` nothing is planned. `worked` has the kinds that a
    person had on days before `begin`.
    """

    shifts: Dict[int, Shift]
    names: Dict[int, str]
    are_dates: bool
    known: int
    begin: int
    start: int
    last: int
    worked: Dict[Tuple[int, int], List[Shift]]
    holidays: FrozenSet[int] = frozenset()

    @property
    def kinds(self) -> List[str]:
        """The kinds, in the order of objects."""
        earlier = [shift for own in self.worked.values() for shift in own]
        return list(dict.fromkeys(shift.kind for shift in [*self.shifts.values(), *earlier] if shift.kind))

    @property
    def days(self) -> range:
        """The days that are planned or past, from the first to the last."""
        return range(self.begin, self.last + 1)

    def is_past(self, day: int) -> bool:
        return day < self.start

    def are_past(self, weekends: Sequence[Sequence[int]]) -> bool:
        """Whether all weekends of the plan are past; where it has none, all of it."""
        return self.is_past(weekends[-1][-1] if weekends else self.last)

    def is_weekend(self, day: int) -> bool:
        """Whether a day is a Saturday, a Sunday or a holiday. Days without dates or words for days of the week are
        seven to a week."""
        if day in self.holidays:
            return True
        if self.are_dates:
            return date.fromordinal(day).weekday() >= SATURDAY
        names = tuple(self.names.values())
        if are_weekdays(names):
            return self.names.get(day) in weekends_among(names)
        return day % WEEK >= SATURDAY

    @property
    def weekends(self) -> List[List[int]]:
        """Days of weekends side by side are one weekend. Each has a day of the plan."""
        found: List[List[int]] = []
        for day in filter(self.is_weekend, range(self.known, self.last + 1)):
            if found and found[-1][-1] == day - 1:
                found[-1].append(day)
            else:
                found.append([day])
        return [days for days in found if days[-1] >= self.begin]

    @property
    def weeks(self) -> List[Week]:
        """The weeks with a day of the plan: from Monday where days are dates, and else seven days from the first
        one."""
        # The ordinal 1 is a Monday.
        shift = -1 if self.are_dates else 0
        days: Dict[int, List[int]] = {}
        for day in range(self.known, self.last + 1):
            days.setdefault((day + shift) // WEEK, []).append(day)
        return [Week(own, len(own) == WEEK) for own in days.values() if own[-1] >= self.begin]

    def name(self, day: int) -> str:
        """What a day is called."""
        if day in self.names or not self.are_dates:
            return self.names.get(day, str(day))
        return date.fromordinal(day).isoformat()


class Before(NamedTuple):
    """What was worked before: the plan's file, and its persons and objects by names."""

    path: str
    pairs: Sequence[Tuple[str, str, int]]


def month_of(roster: Roster, groups: Groups, path: str, before: Optional[Before] = None) -> Month:
    """The calendar of a roster with groups.

    Raises `RosterFault` where some groups are dates and others aren't, where two groups are one day, or where an
    earlier object isn't before the first day.
    """
    days = _days_of(groups, path)
    _refuse_same_day(groups, days.planned, path)
    kinds = groups.kinds if groups.has_kinds else {object_: _kind_in(roster.objects[object_], groups.names[group])
                                                   for object_, group in groups.of_objects.items()}
    shifts = {object_: Shift(days.planned[group], kinds.get(object_, NO_KIND), groups.times.get(object_))
              for object_, group in groups.of_objects.items()}
    past = {shifts[object_].day for object_ in roster.past}
    begin, last = min(days.planned), max(days.planned)
    start = min((day for day in days.planned if day not in past), default=last + 1)
    earlier = _earlier_shifts(groups, days.earlier, begin, path)
    worked = {} if before is None else _worked(roster, before, earlier)
    known = min((shift.day for shift in earlier.values()), default=begin)
    names = {**dict(zip(days.planned, groups.names)), **{day: name for name, day in days.earlier.items()}}
    return Month(shifts, names, days.are_dates, known, begin, start, last, worked)


class _Days(NamedTuple):
    """The days of the groups, those of earlier groups by their names, and whether all are dates."""

    planned: List[int]
    earlier: Dict[str, int]
    are_dates: bool


def _days_of(groups: Groups, path: str) -> _Days:
    names = list(dict.fromkeys(one.group for one in groups.earlier))
    dates, count = dates_of([*groups.names, *names]), len(groups.names)
    if dates.all is not None:
        days = [day.toordinal() for day in dates.all]
        return _Days(days[:count], dict(zip(names, days[count:])), True)
    if any(map(has_year, [*groups.names, *names])):
        lines = {**{one.group: one.line for one in reversed(groups.earlier)}, **dict(zip(groups.names, groups.lines))}
        raise _fault(path, f"{dates.why}: with rules each day is a date, or none is", lines.get(dates.name))
    return _Days(list(range(count)), dict(zip(names, range(-len(names), 0))), False)


def _refuse_same_day(groups: Groups, days: Sequence[int], path: str) -> None:
    first: Dict[int, str] = {}
    lines = dict(zip(groups.names, groups.lines))
    for name, day in zip(groups.names, days):
        before = first.setdefault(day, name)
        if before != name:
            raise _fault(path, f"{quoted(before)} and {quoted(name)} are one day: rules need one name for it",
                         lines.get(name))


def _fault(path: str, text: str, line: Optional[int]) -> RosterFault:
    """What is wrong with a day, in the second column of a line, where days come from a file."""
    return RosterFault(path, text, line, None if line is None else 2)


def _earlier_shifts(groups: Groups, days: Dict[str, int], begin: int, path: str) -> Dict[str, Shift]:
    """The days and kinds of objects of earlier days, which are before the first day of the plan."""
    for one in groups.earlier:
        if days[one.group] >= begin or one.group in groups.names:
            raise RosterFault(path, f"the roster has no object {quoted(one.name)}, and {one.group} isn't before its "
                              "first day", one.line, 1)
    return {one.name: Shift(days[one.group], one.kind if one.kind or groups.has_kinds
                            else _kind_in(one.name, one.group), one.times) for one in groups.earlier}


def _kind_in(name: str, day: str) -> str:
    """The kind of an object, where no column has kinds: its name without that of its day, as that may be written."""
    return next((kind for kind in (without_group(name, one) for one in spellings(day)) if kind != name), name)


def _worked(roster: Roster, before: Before, earlier: Dict[str, Shift]) -> Dict[Tuple[int, int], List[Shift]]:
    """What persons of the roster had before. Objects whose day isn't known are left out; `undated` names them."""
    worked: Dict[Tuple[int, int], List[Shift]] = {}
    first: Dict[Tuple[str, str], int] = {}
    for person, object_, line in before.pairs:
        if object_ in roster.object_numbers:
            raise RosterFault(before.path, f"{quoted(object_)} is planned now: a plan of earlier days is needed", line,
                              2)
        if first.setdefault((person, object_), line) != line:
            raise RosterFault(before.path, f"the pair {person}, {object_} a second time, after {item_of(before.path)} "
                              f"{first[person, object_]}", line)
        number, shift = roster.person_numbers.get(person), earlier.get(object_)
        if number is not None and shift is not None:
            worked.setdefault((number, shift.day), []).append(shift)
    return worked


def undated(groups: Groups, before: Before) -> List[str]:
    """The objects of an earlier plan that the file of groups doesn't list."""
    known: Set[str] = {one.name for one in groups.earlier}
    return [name for name in dict.fromkeys(object_ for _, object_, _ in before.pairs) if name not in known]
