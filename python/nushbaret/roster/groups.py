"""Counts and groups of a roster: files that say how many each name takes, and of which objects nobody takes two."""
import re
from collections import Counter
from typing import Dict, Iterator, List, NamedTuple, Optional, Protocol, Sequence, Tuple

from ..costs.limits import MOST_PERSONS
from ..counts.counted import Bounds
from .dates import Times, columns_of, spellings, times_of
from .names import is_plain, quoted, said
from .roster import TITLES, Earlier, Groups, PlanLine, Roster, Takes, Wanted, known, looks_like_number
from .sheets import RosterFault, Sheet, item_of


class Counts(NamedTuple):
    """How many names take, by their numbers; whether any line has two numbers; the file; how many objects should take,
    and the persons of groups, by the groups' titles and names."""

    bounds: Dict[int, Bounds]
    are_ranges: bool
    path: str
    wanted: Dict[int, Wanted] = {}
    teams: Dict[Tuple[str, str], List[int]] = {}
    # What the file's first column is titled.
    title: str = ""


def read_counts(path: str, roster: Roster, of_objects: bool) -> Counts:
    """Reads how many each object, or each person, takes: a title line, and lines of a name and one whole number, or
    two: at least and at most. Of two, where both have a title, either may be left empty: then there is no least or no
    greatest number.

    Raises `RosterFault` for the first name that the roster doesn't have or that stands twice, number that is none from
    0 to 4194304, or least number that is greater than the most. Objects whose titles say so also have how many they
    should take, and a price for each that is missing. In a roster by days a line of a shift's kind is for each of its
    days that has no line of its own.
    """
    sheet = Sheet(path, reading=roster.reading)
    line, title = sheet.title()
    if len(title) < 2:
        sheet.refuse(said("name and count"), line)
    if looks_like_number(title[1]):
        sheet.refuse(said("no title", quoted(title[1])), line, 2)
    if of_objects and any(cell.casefold() in (WANTED, PRICE) for cell in title[1:]):
        return _Wanting(sheet, roster, title, line).counts()._replace(title=title[0])
    bounds: Dict[int, Bounds] = {}
    are_ranges = False
    limit = len(roster.persons if of_objects else roster.objects)
    teams: Dict[Tuple[str, str], List[int]] = {}
    first = len(title) if of_objects else _first_team(sheet, title)
    of_kinds: Dict[str, Bounds] = {}
    # In a roster by days kinds that are no objects.
    kinds = set(roster.groups.kinds.values()).difference(roster.object_numbers) if roster.groups else set()
    for line, cells in _lines(sheet, len(title), first):
        others, cells = (cells[first:], cells[:first]) if first < len(title) else ([], cells)
        if of_objects and cells[0] in kinds and cells[0] not in of_kinds:
            of_kinds[cells[0]] = _bounds(sheet, cells[1:], limit, line)
            are_ranges = are_ranges or len(cells) == 3
            continue
        number = known(sheet, roster, cells[0], line, 2 if of_objects else 1, 1)
        if number in bounds:
            sheet.refuse(said("name twice", quoted(cells[0])), line, 1)
        bounds[number] = _bounds(sheet, cells[1:], limit, line)
        are_ranges = are_ranges or len(cells) == 3
        for column, name in zip(title[first:], others):
            if column and name:
                teams.setdefault((column, name), []).append(number)
    if roster.groups is not None:
        for number, kind in roster.groups.kinds.items():
            bounds.update({number: of_kinds[kind]} if kind in of_kinds and number not in bounds else {})
    return Counts(bounds, are_ranges, path, teams=teams, title=title[0])


def _first_team(sheet: Sheet, title: Sequence[str]) -> int:
    """The first column, from 0, that has groups of persons: the fourth, or the third where it has no number but
    words."""
    if len(title) < 3:
        return len(title)
    records = sheet.records()
    next(records)
    thirds = [cells[2] for _, cells in records if len(cells) > 2 and cells[2]]
    return 2 if thirds and not any(map(looks_like_number, thirds)) else 3


# The titles of columns of places that have a price.
LEAST, WANTED, MOST, PRICE = "at least", "wanted", "at most", "price"
_COLUMNS = {"least": LEAST, LEAST: LEAST, WANTED: WANTED, "most": MOST, MOST: MOST, PRICE: PRICE}


class _Wanting:
    """Places by titles: how many objects take at least, should take and take at most, and what each that is missing
    costs."""

    def __init__(self, sheet: Sheet, roster: Roster, title: Sequence[str], line: int):
        self._sheet, self._roster = sheet, roster
        self._columns: Dict[str, int] = {}
        for place, cell in enumerate(title[1:], 1):
            name = _COLUMNS.get(cell.casefold(), "")
            if not name and cell:
                sheet.refuse(f"no column is titled {quoted(cell)}: {', '.join(sorted(set(_COLUMNS.values())))} are",
                             line, place + 1)
            if name in self._columns:
                sheet.refuse(f"a second column titled {quoted(cell)}", line, place + 1)
            self._columns.update({name: place} if name else {})
        for name in (WANTED, PRICE):
            if name not in self._columns:
                sheet.refuse(f"a column {quoted(name)} is needed too", line)

    def counts(self) -> Counts:
        bounds: Dict[int, Bounds] = {}
        wanted: Dict[int, Wanted] = {}
        records = self._sheet.records()
        next(records)
        for line, cells in records:
            number = known(self._sheet, self._roster, cells[0], line, 2, 1)
            if number in bounds:
                self._sheet.refuse(said("name twice", quoted(cells[0])), line, 1)
            bounds[number] = self._bounds(cells, line)
            own = self._wanted(cells, bounds[number], line)
            wanted.update({number: own} if own else {})
        return Counts(bounds, True, self._sheet.path, wanted)

    def _cell(self, cells: Sequence[str], name: str) -> str:
        place = self._columns.get(name, len(cells))
        return cells[place] if place < len(cells) else ""

    def _number(self, cells: Sequence[str], name: str, line: int) -> Optional[int]:
        cell = self._cell(cells, name)
        return _count(self._sheet, cell, line, self._columns[name] + 1) if cell else None

    def _bounds(self, cells: Sequence[str], line: int) -> Bounds:
        least, most = (self._number(cells, name, line) for name in (LEAST, MOST))
        limit = max(len(self._roster.persons), least or 0)
        if least is not None and most is not None and least > most:
            self._sheet.refuse(said("least and most", least, most), line, self._columns[MOST] + 1)
        return Bounds(least or 0, limit if most is None else most)

    def _wanted(self, cells: Sequence[str], bounds: Bounds, line: int) -> Optional[Wanted]:
        count, cell = self._number(cells, WANTED, line), self._cell(cells, PRICE)
        if count is None:
            if cell:
                self._sheet.refuse("a price, and no number that is wanted", line, self._columns[PRICE] + 1)
            return None
        if not bounds.least <= count <= bounds.most:
            self._sheet.refuse(f"{count} wanted, where {bounds.least} to {bounds.most} may be", line,
                               self._columns[WANTED] + 1)
        try:
            return Wanted(count, price_of(cell, self._roster))
        except ValueError as fault:
            self._sheet.refuse(str(fault), line, self._columns[PRICE] + 1)


def price_of(text: str, roster: Roster) -> int:
    """A price above 0, in units of the roster. Raises ValueError where it is none."""
    found = re.fullmatch(r"([0-9]{1,12})(?:[.,]([0-9]*))?", text)
    part = "" if found is None else (found[2] or "").rstrip("0")
    if found is None or not (int(found[1]) or part):
        raise ValueError(f"{quoted(text)} is no price above 0")
    if len(part) > roster.decimals:
        raise ValueError(f"{quoted(text)} has more decimal places than the roster's {roster.decimals}: --decimals "
                         f"{len(part)} allows it")
    return int(found[1] + part.ljust(roster.decimals, "0"))


def _lines(sheet: Sheet, width: int, first: int) -> Iterator[Tuple[int, List[str]]]:
    """The lines after the title, each with a name and one number or two, and from the cell `first` on with groups. An
    empty cell below a third title is an empty number."""
    records = sheet.records()
    next(records)
    for line, cells in records:
        if first < width:
            if any(cells[width:]):
                sheet.refuse(said("cells of a title", len(cells), width), line)
            yield line, (cells + [""] * width)[:width]
            continue
        if any(cells[max(width, 3):]):
            sheet.refuse(said("cells of counts", len(cells)), line)
        has_two = len(cells) > 2 and (width > 2 or cells[2] != "")
        yield line, cells[:3] if has_two else (cells + [""])[:2]


def _bounds(sheet: Sheet, cells: Sequence[str], limit: int, line: int) -> Bounds:
    """At least and at most so many: one number is both, and an empty one of two is 0 or the limit."""
    if not any(cells):
        sheet.refuse(said("no number"), line, 2)
    least = _count(sheet, cells[0], line, 2) if cells[0] else 0
    if len(cells) == 1:
        return Bounds(least, least)
    most = _count(sheet, cells[1], line, 3) if cells[1] else max(limit, least)
    if least > most:
        sheet.refuse(said("least and most", least, most), line, 3)
    return Bounds(least, most)


def _count(sheet: Sheet, cell: str, line: int, column: int) -> int:
    if re.fullmatch("[0-9]{1,9}", cell) is None or int(cell) > MOST_PERSONS:
        sheet.refuse(said("no count", quoted(cell), MOST_PERSONS), line, column)
    return int(cell)


KIND = "kind"


def read_groups(path: str, roster: Roster, has_earlier: bool = False) -> Groups:
    """Reads groups of objects of which nobody takes two: a title line, and lines of an object and its group; maybe with
    columns of times, and one of kinds. With `has_earlier` objects that the roster doesn't have are those of earlier
    days.

    Raises `RosterFault` for the first object that the roster doesn't have or that stands twice, or time that is none.
    """
    sheet = Sheet(path, reading=roster.reading)
    line, title = sheet.title()
    if len(title) < 2:
        sheet.refuse(said("object and group"), line)
    if title[0] in roster.object_numbers:
        sheet.refuse(said("object for a title", quoted(title[0])), line, 1)
    reading = _Groups(sheet, roster, title, line, has_earlier)
    for line, cells in sheet.body(len(title)):
        reading.take(line, cells)
    if not reading.lines:
        sheet.refuse(said("no line"), line)
    return reading.found._replace(earlier=tuple(reading.earlier), lines=tuple(reading.group_lines))


class _Groups:
    """The lines of a file of groups, as they are read."""

    def __init__(self, sheet: Sheet, roster: Roster, title: Sequence[str], line: int, has_earlier: bool):
        self._sheet, self._roster, self._has_earlier = sheet, roster, has_earlier
        self._columns, self._kind = columns_of(sheet, title, line), _column_of_kinds(sheet, title, line)
        own = sheet.name(title[1], line, 2) if title[1] else ""
        self.found = Groups(own, [], {}, {}, {}, self._kind is not None, of=title[0])
        self.earlier: List[Earlier] = []
        self.lines: Dict[int, int] = {}
        self.group_lines: List[int] = []
        self._numbers: Dict[str, int] = {}
        self._earlier_lines: Dict[str, int] = {}

    def take(self, line: int, cells: List[str]) -> None:
        """Takes a line."""
        sheet, found = self._sheet, self.found
        if self._has_earlier and sheet.name(cells[0], line, 1) not in self._roster.object_numbers:
            group, kind, times = self._rest(line, cells)
            self._take_earlier(Earlier(sheet.name(cells[0], line, 1), spellings(group)[0], kind, times, line))
            return
        object_ = known(sheet, self._roster, cells[0], line, 2, 1)
        group, kind, times = self._rest(line, cells)
        if object_ in self.lines:
            sheet.refuse(said("object twice", quoted(cells[0]), found.names[found.of_objects[object_]],
                              self.lines[object_]), line, 1)
        self.lines[object_] = line
        number = self._numbers.setdefault(spellings(group)[0], len(found.names))
        found.of_objects[object_] = number
        if number == len(found.names):
            found.names.append(group)
            self.group_lines.append(line)
        found.times.update({object_: times} if times else {})
        found.kinds.update({object_: kind} if kind else {})

    def _rest(self, line: int, cells: List[str]) -> Tuple[str, str, Optional[Times]]:
        """The group, the kind and the times of a line."""
        kind = "" if self._kind is None or not cells[self._kind] else self._sheet.name(cells[self._kind], line,
                                                                                       self._kind + 1)
        times = times_of(self._sheet, cells, self._columns, line) if self._columns else None
        return self._sheet.name(cells[1], line, 2), kind, times

    def _take_earlier(self, one: Earlier) -> None:
        before = self._earlier_lines.setdefault(one.name, one.line)
        if before != one.line:
            self._sheet.refuse(f"{quoted(one.name)} a second time, after line {before}", one.line, 1)
        self.earlier.append(one)


def _column_of_kinds(sheet: Sheet, title: Sequence[str], line: int) -> Optional[int]:
    """Which cells of a line, from 0, have kinds."""
    places = [place for place, cell in enumerate(title) if place > 1 and cell.casefold() == KIND]
    if len(places) > 1:
        sheet.refuse(said("kinds", len(places), quoted(KIND)), line, places[1] + 1)
    return places[0] if places else None


def with_rules(roster: Roster, tasks: Optional[Counts], capacities: Optional[Counts],
               groups: Optional[Groups]) -> Roster:
    """The roster with counts and groups. Where any line has two numbers bounds alone decide: then an object without a
    line takes exactly one, and a person at most one."""
    given = [counts for counts in (tasks, capacities) if counts is not None]
    are_sums = not any(counts.are_ranges for counts in given)
    of_persons, of_objects = ({number: Bounds(0, bound.most) if are_sums else bound
                               for number, bound in counts.bounds.items()} if counts else {}
                              for counts in (tasks, capacities))
    titles = (_titled(roster.titles[0], TITLES[0], *(own.title for own in [tasks] if own)),
              _titled(roster.titles[1], TITLES[1], *(own.title for own in [capacities] if own),
                      *(own.of for own in [groups] if own)), roster.titles[2])
    return roster._replace(titles=titles, takes=Takes(of_persons, of_objects, are_sums) if given else None,
                           groups=groups or roster.groups,
                           wanted=capacities.wanted if capacities else {}, teams=tasks.teams if tasks else {})


def _titled(title: str, ours: str, *others: str) -> str:
    """A title of the roster; where it has none, the first of other files' that is a name."""
    named = [other for other in others if is_plain(other) and not looks_like_number(other)]
    return named[0] if title == ours and named else title


class Broken(NamedTuple):
    """A rule that a plan breaks, the persons and objects that it is about, and the line that says so."""

    rule: str
    persons: List[str]
    objects: List[str]
    sentence: str


def refuse_two_of_a_group(path: str, roster: Roster, pairs: Sequence[PlanLine]) -> None:
    """Refuses a plan in which a person has two objects of one group."""
    groups = roster.groups
    if groups is None:
        return
    first: Dict[Tuple[int, int], PlanLine] = {}
    for pair in pairs:
        group = groups.of_objects.get(pair.object)
        before = None if group is None else first.setdefault((pair.person, group), pair)
        if group is not None and before is not None and before is not pair:
            raise RosterFault(path, f"{roster.persons[pair.person]} has {roster.objects[pair.object]} and, in "
                              f"{item_of(path)} {before.line}, {roster.objects[before.object]}: two of {groups.title} "
                              f"{groups.names[group]}", pair.line)


class Paired(Protocol):
    """A person and an object, by number."""

    @property
    def person(self) -> int: ...

    @property
    def object(self) -> int: ...


def order_of(roster: Roster) -> List[int]:
    """A rank for each object: by groups and objects in the order of their file, then those in none."""
    held = {} if roster.groups is None else roster.groups.of_objects
    order = sorted(held, key=held.__getitem__) + [object_ for object_ in range(len(roster.objects))
                                                  if object_ not in held]
    ranks = [0] * len(order)
    for rank, object_ in enumerate(order):
        ranks[object_] = rank
    return ranks


class Missing(NamedTuple):
    """A person (side 0) or an object (side 1) that has fewer than it must."""

    side: int
    name: str
    number: int
    had: int
    least: int


def missing_of(roster: Roster, pairs: Sequence[Paired]) -> List[Missing]:
    """Which least counts are missed: of objects in the order of groups, then of persons. Without bounds none."""
    if not roster.has_bounds:
        return []
    ranks = order_of(roster)
    had, used = Counter(pair.person for pair in pairs), Counter(pair.object for pair in pairs)
    found = [Missing(1, name, number, used[number], roster.of_object(number).least)
             for number, name in enumerate(roster.objects)]
    found.sort(key=lambda one: ranks[one.number])
    found += [Missing(0, name, number, had[number], roster.of_person(number).least)
              for number, name in enumerate(roster.persons)]
    return [one for one in found if one.had < one.least]
