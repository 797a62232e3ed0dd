"""A plan as tables of days: who has what when, week by week, and who is where. Pages and workbooks draw them."""
from collections import Counter
from datetime import date, timedelta
from typing import Dict, List, NamedTuple, Optional, Sequence, Set, Tuple

from .answer import NamedPlan
from .dates import DAY_NAMES, SATURDAY, dates_of, has_weekday, monday_of, weekends_among
from .groups import missing_of, order_of
from .roster import Groups, OldPlan, Roster

# Groups that aren't dates stand so many side by side.
MOST_DAYS = 7
# What may stand between a group and the rest of an object's name.
BETWEEN = " -_/,.:"


class Day(NamedTuple):
    """A column: a group, or the objects in none, or a day of the week that no group has (then `has_objects` is false).
    `weekday` is its day of the week, where the name doesn't say it. `when` is there where groups are dates. Nothing is
    planned in the past."""

    name: str
    group: Optional[int]
    weekday: str
    is_weekend: bool
    has_objects: bool = True
    when: Optional[date] = None
    is_past: bool = False


class Entry(NamedTuple):
    """An object that a person has on a day, by a name that leaves the day out; whether it was given, except by the
    past, and whether a kept plan lacks it."""

    label: str
    object: int
    is_fixed: bool
    is_new: bool


class Cell(NamedTuple):
    """What a person has on a day; what it had there in a kept plan and has no more; and whether none of the day's
    objects is allowed to it."""

    entries: List[Entry]
    gone: List[str]
    is_off: bool

    @property
    def is_changed(self) -> bool:
        """Whether a kept plan has anything else there."""
        return bool(self.gone) or any(entry.is_new for entry in self.entries)


class PersonRow(NamedTuple):
    """A person's days in a block, how many objects these are, and how many the whole plan gives."""

    person: int
    name: str
    cells: List[Cell]
    total: int
    whole: int


class Staff(NamedTuple):
    """Who is at an object on a day, how many are of how many where these are too few, and the object."""

    persons: List[str]
    missing: Optional[Tuple[int, int]]
    object: int = 0


class ObjectRow(NamedTuple):
    """The objects of one label, day by day: None where there is none."""

    label: str
    staff: List[Optional[Staff]]


class Block(NamedTuple):
    """Some days side by side: what they are called, if others stand elsewhere; the persons with their days; how many
    pairs each day has; and the objects."""

    caption: str
    days: List[Day]
    persons: List[PersonRow]
    totals: List[int]
    objects: List[ObjectRow]


# A person and a group.
Spot = Tuple[int, Optional[int]]


class _DayTable(NamedTuple):
    """What all blocks of a plan are made from: entries and what is gone by person and group, the persons and groups
    with an allowed pair, who is at which object, what is missing there, and how many each person has."""

    entries: Dict[Spot, List[Entry]]
    gone: Dict[Spot, List[str]]
    allowed: Optional[Set[Spot]]
    who: Dict[int, List[str]]
    missing: Dict[int, Tuple[int, int]]
    whole: Dict[int, int]


def blocks_of(roster: Roster, plan: NamedPlan, kept: Optional[OldPlan] = None) -> List[Block]:
    """The blocks of a plan of a roster with groups: weeks from Monday where these are dates, else seven groups at a
    time."""
    if roster.groups is None:
        return []
    labels = labels_of(roster)
    table = _table_of(roster, plan, labels, kept)
    weeks = _weeks(roster, roster.groups)
    return [_block(roster, labels, table, week, _caption(roster.groups, week) if len(weeks) > 1 else "")
            for week in weeks]


def group_of(roster: Roster, object_: int) -> Optional[int]:
    """The group of an object; None where it is in none."""
    return None if roster.groups is None else roster.groups.of_objects.get(object_)


def _weeks(roster: Roster, groups: Groups) -> List[List[Day]]:
    """The columns of each block. Objects in no group come last."""
    dates, past = dates_of(groups.names).all, {groups.of_objects[object_] for object_ in roster.past}
    rest = [Day("", None, "", False)] if any(object_ not in groups.of_objects
                                             for object_ in range(len(roster.objects))) else []
    if dates is not None:
        return _dated_weeks(groups, dates, past) + ([rest] if rest else [])
    weekends = weekends_among(tuple(groups.names))
    days = [Day(name, number, "", name in weekends, is_past=number in past)
            for number, name in enumerate(groups.names)] + rest
    return [days[begin:begin + MOST_DAYS] for begin in range(0, len(days), MOST_DAYS)]


def _dated_weeks(groups: Groups, dates: Sequence[date], past: Set[int]) -> List[List[Day]]:
    """Weeks from Monday. A day of the week that no week has gets no column."""
    weekdays = sorted({day.weekday() for day in dates})
    of_dates: Dict[date, List[int]] = {}
    for number, day in enumerate(dates):
        of_dates.setdefault(day, []).append(number)
    weeks = []
    for monday in sorted(set(map(monday_of, dates))):
        week: List[Day] = []
        for day in (monday + timedelta(days=weekday) for weekday in weekdays):
            week += [_day(day, groups.names[number], number, number in past)
                     for number in of_dates.get(day, [])] or [_day(day, "", None, False)]
        weeks.append(week)
    return weeks


def _day(day: date, name: str, number: Optional[int], is_past: bool) -> Day:
    weekday = "" if has_weekday(name) else DAY_NAMES[day.weekday()]
    return Day(name, number, weekday, day.weekday() >= SATURDAY, number is not None, day, is_past)


def _caption(groups: Groups, week: List[Day]) -> str:
    """What a block is called."""
    names = [day.name for day in week if day.name]
    if not names:
        return ""
    return f"{groups.title} {names[0]}" + (f" to {names[-1]}" if len(names) > 1 else "")


def labels_of(roster: Roster) -> List[str]:
    """The names of objects, without the name of their group where the rest still differs within the group."""
    groups = roster.groups
    if groups is None:
        return roster.objects
    short = [without_group(name, groups.names[groups.of_objects[number]]) if number in groups.of_objects else name
             for number, name in enumerate(roster.objects)]
    seen: Dict[Tuple[int, str], List[int]] = {}
    for number, group in groups.of_objects.items():
        seen.setdefault((group, short[number]), []).append(number)
    twice = {number for numbers in seen.values() if len(numbers) > 1 for number in numbers}
    return [name if number in twice else short[number] for number, name in enumerate(roster.objects)]


def without_group(name: str, group: str) -> str:
    """A name without a group's at its begin or end."""
    for rest, is_apart in ((name[len(group):], name.startswith(group)), (name[:-len(group)], name.endswith(group))):
        bare = rest.strip(BETWEEN)
        if is_apart and bare and bare != rest:
            return bare
    return name


def _table_of(roster: Roster, plan: NamedPlan, labels: List[str], kept: Optional[OldPlan]) -> _DayTable:
    before = None if kept is None else set(kept.pairs)
    entries: Dict[Spot, List[Entry]] = {}
    who: Dict[int, List[str]] = {}
    for pair in plan.pairs:
        person, object_ = roster.persons[pair.person], roster.objects[pair.object]
        is_new = before is not None and (person, object_) not in before
        is_fixed = pair.fixed and pair.object not in roster.past
        entries.setdefault((pair.person, group_of(roster, pair.object)),
                           []).append(Entry(labels[pair.object], pair.object, is_fixed, is_new))
        who.setdefault(pair.object, []).append(person)
    missing = {one.number: (one.had, one.least) for one in missing_of(roster, plan.pairs) if one.side == 1}
    gone = {} if kept is None else _gone(roster, plan, labels, kept)
    return _DayTable(entries, gone, _allowed(roster), who, missing, Counter(pair.person for pair in plan.pairs))


def _gone(roster: Roster, plan: NamedPlan, labels: List[str], kept: OldPlan) -> Dict[Spot, List[str]]:
    """What was before and is no more, as far as the roster has both names."""
    now = {(roster.persons[pair.person], roster.objects[pair.object]) for pair in plan.pairs}
    gone: Dict[Spot, List[str]] = {}
    for person, object_ in kept.pairs:
        number, other = roster.person_numbers.get(person), roster.object_numbers.get(object_)
        if (person, object_) not in now and number is not None and other is not None:
            gone.setdefault((number, group_of(roster, other)), []).append(labels[other])
    return gone


def _allowed(roster: Roster) -> Optional[Set[Spot]]:
    """The persons and groups with an allowed pair; None where all have one."""
    if roster.is_full:
        return None
    groups = [group_of(roster, object_) for object_ in range(len(roster.objects))]
    return {(person, groups[object_]) for person, object_ in zip(roster.of_persons, roster.of_objects)}


def _block(roster: Roster, labels: List[str], table: _DayTable, days: List[Day], caption: str) -> Block:
    persons = [_person(table, person, name, days) for person, name in enumerate(roster.persons)]
    totals = [sum(len(row.cells[column].entries) for row in persons) for column in range(len(days))]
    return Block(caption, days, persons, totals, _objects(roster, labels, table, days))


def _person(table: _DayTable, person: int, name: str, days: List[Day]) -> PersonRow:
    cells = [_cell(table, (person, day.group)) if day.has_objects else Cell([], [], False) for day in days]
    return PersonRow(person, name, cells, sum(len(cell.entries) for cell in cells), table.whole.get(person, 0))


def _cell(table: _DayTable, spot: Spot) -> Cell:
    entries = table.entries.get(spot, [])
    is_off = not entries and table.allowed is not None and spot not in table.allowed
    return Cell(entries, table.gone.get(spot, []), is_off)


def _objects(roster: Roster, labels: List[str], table: _DayTable, days: List[Day]) -> List[ObjectRow]:
    """A row for each label of the objects of some days, in the order of the groups' file."""
    columns = {day.group: column for column, day in enumerate(days) if day.has_objects}
    rows: Dict[str, List[Optional[Staff]]] = {}
    ranks = order_of(roster)
    for number in sorted(range(len(labels)), key=ranks.__getitem__):
        column = columns.get(group_of(roster, number))
        if column is not None:
            staff = rows.setdefault(labels[number], [None] * len(days))
            staff[column] = Staff(table.who.get(number, []), table.missing.get(number), number)
    return [ObjectRow(label, staff) for label, staff in rows.items()]
