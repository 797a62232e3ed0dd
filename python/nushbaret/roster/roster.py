"""Rosters and plans: persons, objects and costs by name, and plans in CSV files and workbooks.

A plan is lines of a person and an object.
"""
import os
import re
from bisect import bisect_left, bisect_right
from itertools import compress, repeat
from operator import add, mul
from typing import Dict, FrozenSet, List, Mapping, NamedTuple, Optional, Sequence, Set, Tuple, cast

from ..costs.limits import MOST_PERSONS, Numbers
from ..counts.counted import Bounds
from .dates import Times, spellings
from .names import is_plain, quoted, said
from .plan_json import NamedPair, plan_of_json
from .sheets import Reading, RosterFault, Sheet, is_json, item_of

LINES, MATRIX = "lines", "matrix"
TITLES = ("person", "object", "cost")
# Where a workbook has its plan.
PLAN_SHEET = "Plan"
# The column of a plan that says what changed from an earlier one, and its words: for a new pair, and for two that are
# no pairs of the plan.
CHANGE, COMES, GOES, NOT_POSSIBLE = "change", "comes", "goes", "not possible"


class Names:
    """The names of one side, numbered from 0 as they come."""

    def __init__(self, sheet: Sheet, kind: str) -> None:
        self._sheet, self._kind = sheet, kind
        self.list: List[str] = []
        self.numbers: Dict[str, int] = {}
        # The numbers of cells with what stands around the names.
        self._cells: Dict[str, int] = {}

    def number(self, cell: str, line: int, column: int) -> int:
        """The number of a name, a new one where it is new."""
        number = self.numbers.get(cell)
        if number is None:
            name = self._sheet.name(cell, line, column)
            number = self.numbers.get(name, self.numbers.get(spellings(name)[0]))
            if number is None:
                number = self._add(name, line, column)
            self.numbers[name] = number
        return number

    def once(self, cell: str, line: int, column: int) -> int:
        """The number of a name that must be new."""
        before = len(self.list)
        number = self.number(cell, line, column)
        if number < before:
            hint = "--tasks" if self._kind == "persons" else "--places"
            self._sheet.refuse(said("name once", quoted(cell), hint), line, column)
        return number

    def known(self, cells: Sequence[str]) -> Optional[List[int]]:
        """The numbers of names, also of new ones; None, and no new number, where any may be refused."""
        found = list(map(self._cells.get, cells))
        if None in found:
            new = [cell for cell in dict.fromkeys(cells) if cell not in self._cells]
            if len(self.list) + len(new) > MOST_PERSONS or not all(map(is_plain, map(str.strip, new))):
                return None
            for cell in new:
                self._cells[cell] = self.number(cell.strip(), 0, 0)
            found = list(map(self._cells.get, cells))
        return cast(List[int], found)

    def _add(self, name: str, line: int, column: int) -> int:
        if len(self.list) == MOST_PERSONS:
            self._sheet.refuse(said("more names", MOST_PERSONS, self._kind), line, column)
        self.list.append(name)
        for spelling in spellings(name):
            self.numbers[spelling] = len(self.list) - 1
        return len(self.list) - 1


# Titles, persons, objects, and the person and the object of each cost.
Read = Tuple[Tuple[str, str, str], Names, Names, Numbers, Numbers]


class Earlier(NamedTuple):
    """An object of a day before the roster's: its name, its group, its kind and times as far as the file has them, and
    the line."""

    name: str
    group: str
    kind: str
    times: Optional[Times]
    line: int


class Groups(NamedTuple):
    """Groups of objects of which nobody takes two: their title, their names in the order of the file, the group of each
    object that is in one, and when objects begin and end, where the file says it; their kinds, if a column has them;
    objects of earlier days; and the first line of each group, where a file has them."""

    title: str
    names: List[str]
    of_objects: Dict[int, int]
    times: Dict[int, Times] = {}
    kinds: Dict[int, str] = {}
    has_kinds: bool = False
    earlier: Sequence[Earlier] = ()
    lines: Sequence[int] = ()
    # What the column of objects is titled in their file.
    of: str = ""


class Wanted(NamedTuple):
    """How many persons an object should take, and what each that is missing costs, in units of the roster."""

    number: int
    price: int


ONE_AT_MOST = Bounds(0, 1)


class Takes(NamedTuple):
    """How many persons and objects take, by number. What isn't named takes at most one; an object exactly one, unless
    `are_sums`: then only greatest counts are said, and the side whose sum is smaller takes all."""

    persons: Mapping[int, Bounds]
    objects: Mapping[int, Bounds]
    are_sums: bool


class Roster(NamedTuple):
    """A problem by names. Pair k is of `persons[of_persons[k]]` and `objects[of_objects[k]]`, no pair twice; `costs[k]`
    is in units of 10^-decimals. `titles` are the words for a person, an object and a cost. `takes` says how many each
    name takes; where it is None, each takes one at most, and the fewer ones take one. `rounded` says whether any cost
    was changed by rounding, `has_bom` whether the file began with a BOM, `is_matrix` whether it is a matrix, and
    `by_persons` whether the pairs stand person by person. `encoding` is that of the file, and `reading` how other files
    are read. Of the objects in `past` nothing is planned, and of the persons in `gone` the past alone is known.
    `wanted` says of some objects how many persons they should take, and `teams` who is in a group, by its title and its
    name."""

    persons: List[str]
    objects: List[str]
    person_numbers: Dict[str, int]
    object_numbers: Dict[str, int]
    of_persons: Numbers
    of_objects: Numbers
    costs: Numbers
    decimals: int
    titles: Tuple[str, str, str]
    separator: str
    comma: bool
    takes: Optional[Takes] = None
    rounded: bool = False
    has_bom: bool = False
    is_matrix: bool = False
    by_persons: bool = False
    groups: Optional[Groups] = None
    encoding: str = "utf-8"
    reading: Reading = Reading()
    past: FrozenSet[int] = frozenset()
    gone: FrozenSet[int] = frozenset()
    wanted: Mapping[int, Wanted] = {}
    teams: Mapping[Tuple[str, str], Sequence[int]] = {}

    def persons_of(self, text: str) -> Sequence[int]:
        """The persons of a group, which is named by its title and its name (`skill: senior`), or by its name where no
        other title has it; none where there is none."""
        title, colon, name = (part.strip() for part in text.partition(":"))
        named = [own for (one, other), own in self.teams.items()
                 if (other == text if not colon else (one, other) == (title, name))]
        return named[0] if len(named) == 1 else ()

    @property
    def ruled(self) -> bool:
        """Whether names may count several times, or there are groups."""
        return self.takes is not None or self.groups is not None

    @property
    def has_bounds(self) -> bool:
        """Whether bounds decide, and not sums of greatest counts."""
        return self.takes is not None and not self.takes.are_sums

    def of_person(self, person: int) -> Bounds:
        """How many objects a person takes."""
        return ONE_AT_MOST if self.takes is None else self.takes.persons.get(person, ONE_AT_MOST)

    def of_object(self, object_: int) -> Bounds:
        """How many persons an object takes."""
        other = Bounds(1, 1) if self.has_bounds else ONE_AT_MOST
        return other if self.takes is None else self.takes.objects.get(object_, other)

    def tasks_of(self, person: int) -> int:
        """How many objects a person takes at most."""
        return self.of_person(person).most

    def capacity_of(self, object_: int) -> int:
        """How many persons an object takes at most."""
        return self.of_object(object_).most

    @property
    def is_full(self) -> bool:
        """Whether the costs are those of all pairs, person by person, objects rising."""
        return self.is_matrix and len(self.costs) == len(self.persons) * len(self.objects)

    def costs_of(self, wanted: Set[Tuple[int, int]]) -> Dict[Tuple[int, int], int]:
        """The costs of those of the wanted pairs that are allowed."""
        if self.is_full:
            return {(person, object_): self.costs[person * len(self.objects) + object_] for person, object_ in wanted}
        if self.by_persons:
            places = {pair: self._place_of(*pair) for pair in wanted}
            return {pair: self.costs[place] for pair, place in places.items() if place is not None}
        keys = {person * MOST_PERSONS + object_ for person, object_ in wanted}
        found = map(keys.__contains__, map(add, map(mul, self.of_persons, repeat(MOST_PERSONS)), self.of_objects))
        triples = compress(zip(self.of_persons, self.of_objects, self.costs), found)
        return {(person, object_): cost for person, object_, cost in triples}

    def _place_of(self, person: int, object_: int) -> Optional[int]:
        """Where a pair is in the lists, where these stand person by person; None if it is forbidden."""
        begin, end = bisect_left(self.of_persons, person), bisect_right(self.of_persons, person)
        own = self.of_objects[begin:end]
        return begin + own.index(object_) if object_ in own else None

    def shown(self, units: int) -> str:
        """A cost or a rent as the roster writes it."""
        return decimal_text(units, self.decimals, "," if self.comma else ".")

    def plain(self, units: int) -> str:
        """A cost or a rent with a point, for other programs."""
        return decimal_text(units, self.decimals, ".")

    def shown_halves(self, count: int) -> str:
        """So many halves of a unit, as the roster writes costs."""
        if count % 2 == 0:
            return self.shown(count // 2)
        return decimal_text(count * 5, self.decimals + 1, "," if self.comma else ".")


def alike(names: List[str]) -> List[List[str]]:
    """The names that differ in case or spaces alone, together."""
    groups: Dict[str, List[str]] = {}
    for name in names:
        groups.setdefault(_bare(name), []).append(name)
    return [group for group in groups.values() if len(group) > 1]


def like(name: str, names: List[str]) -> List[str]:
    """Names that differ from a name in case, spaces or one letter alone, those of the first kinds if there are any;
    three at most."""
    bare = _bare(name)
    found = [other for other in names if _bare(other) == bare] or [other for other in names
                                                                   if _is_near(_bare(other), bare)]
    return found[:3]


def _bare(name: str) -> str:
    return "".join(name.split()).casefold()


def _is_near(one: str, other: str) -> bool:
    """Whether two differ by one letter, or by two neighbours in the other order. A digit makes another name."""
    longer, shorter = (one, other) if len(one) >= len(other) else (other, one)
    begin = len(os.path.commonprefix((longer, shorter)))
    left, right = longer[begin:], shorter[begin:]
    if len(longer) == len(shorter):
        is_turned = left[:2] == right[1::-1] and left[2:] == right[2:] and not left[:2].isdigit()
        return is_turned or left[1:] == right[1:] and not (left[:1] + right[:1]).isdigit()
    return len(shorter) > 1 and left[1:] == right and not left[0].isdigit()


def decimal_text(units: int, decimals: int, point: str) -> str:
    """A number of units of 10^-decimals."""
    whole, part = divmod(abs(units), 10**decimals)
    return ("-" if units < 0 else "") + str(whole) + (f"{point}{part:0{decimals}}" if decimals else "")


def looks_like_number(cell: str) -> bool:
    """Whether a cell might be meant as a number, of any make."""
    return re.fullmatch(r"[+-]?[0-9., ']*[0-9][0-9., ']*([eE][+-]?[0-9]{1,2})?", cell) is not None


class PlanLine(NamedTuple):
    """A pair of a plan, and the line where it stands."""

    person: int
    object: int
    line: int
    cost: int


def read_plan(path: str, roster: Roster) -> List[PlanLine]:
    """Reads pairs that are to stand: a title line, and lines of a person and an object, of which further cells aren't
    read; or a plan in JSON.

    Raises `RosterFault` for the first name that the roster doesn't have, then for the first name that stands more often
    than it may, then for the first pair that the roster forbids; and `OSError` where the file can't be read.
    """
    numbered = [(_known(path, roster, person, line, 1, 1), _known(path, roster, object_, line, 2, 2), line)
                for person, object_, line, _ in named_pairs(path, roster)]
    _refuse_twice(path, roster, numbered)
    costs = roster.costs_of({(person, object_) for person, object_, _ in numbered})
    for person, object_, line in numbered:
        if (person, object_) not in costs:
            raise RosterFault(path, f"{roster.persons[person]}, {roster.objects[object_]} is a forbidden pair", line)
    return [PlanLine(person, object_, line, costs[person, object_]) for person, object_, line in numbered]


class OldPlan(NamedTuple):
    """An earlier plan, by the file's name: its pairs by names, those that the roster allows, the names that the roster
    doesn't have, and the pairs of known names that it forbids, each with its line."""

    path: str
    named: List[NamedPair]
    known: List[PlanLine]
    gone: List[str]
    forbidden: List[Tuple[int, int, int]]

    @property
    def pairs(self) -> List[Tuple[str, str]]:
        """All pairs by names."""
        return [pair[:2] for pair in self.named]


def read_old_plan(path: str, roster: Roster, by_counts: bool = True) -> OldPlan:
    """Reads an earlier plan, as `read_plan` does. Its names may be gone, and its pairs forbidden.

    Raises `RosterFault` for the first name that stands more often than it may, if counts are to be kept, and for a pair
    that stands twice.
    """
    return old_plan_of(path, roster, named_pairs(path, roster), by_counts)


def read_hand_plan(path: str, roster: Roster) -> Tuple[OldPlan, List[NamedPair]]:
    """Reads a plan from elsewhere, whatever rules it breaks: each pair once, and those that stand again."""
    first: Dict[Tuple[str, str], NamedPair] = {}
    named = named_pairs(path, roster)
    repeated = [pair for pair in named if first.setdefault(pair[:2], pair) is not pair]
    return old_plan_of(path, roster, list(first.values()), False), repeated


def old_plan_of(path: str, roster: Roster, named: List[NamedPair], by_counts: bool) -> OldPlan:
    """An earlier plan as a roster has it now."""
    gone: Dict[str, None] = {}
    numbered = []
    for person, object_, line, _ in named:
        gone.update({} if person in roster.person_numbers else {person: None})
        gone.update({} if object_ in roster.object_numbers else {object_: None})
        if person in roster.person_numbers and object_ in roster.object_numbers:
            numbered.append((roster.person_numbers[person], roster.object_numbers[object_], line))
    _refuse_twice(path, roster, numbered, by_counts)
    costs = roster.costs_of({(person, object_) for person, object_, _ in numbered})
    known = [PlanLine(person, object_, line, costs[person, object_]) for person, object_, line in numbered
             if (person, object_) in costs]
    return OldPlan(path, named, known, list(gone), [pair for pair in numbered if pair[:2] not in costs])


def _as_written(names: List[str], numbers: Dict[str, int], name: str) -> str:
    """A name as the roster writes it, if it has it: dates have several spellings."""
    return names[numbers[name]] if name in numbers else name


def named_pairs(path: str, roster: Roster) -> List[NamedPair]:
    """The pairs of a plan by names."""
    pairs = plan_of_json(path) if is_json(path) else _plan_of_sheet(path, roster)
    return [NamedPair(_as_written(roster.persons, roster.person_numbers, pair.person),
                      _as_written(roster.objects, roster.object_numbers, pair.object), pair.line, pair.cost)
            for pair in pairs]


def _plan_of_sheet(path: str, roster: Roster) -> List[NamedPair]:
    """The pairs of a plan in lines. A third column has costs, unless it is that of groups."""
    sheet = Sheet(path, roster.comma, reading=roster.reading, preferred=PLAN_SHEET)
    line, title = sheet.title()
    if len(title) < 2:
        sheet.refuse(said("person and object"), line)
    if title[0] in roster.person_numbers and title[1] in roster.object_numbers:
        sheet.refuse(said("pair for a title", title[0], title[1]), line)
    change = title.index(CHANGE, len(TITLES)) if CHANGE in title[len(TITLES):] else None
    has_costs = len(title) > 2 and (roster.groups is None or title[2] != roster.groups.title)
    return [NamedPair(sheet.name(cells[0], line, 1), sheet.name(cells[1], line, 2), line, cells[2] if has_costs else "")
            for line, cells in sheet.body(len(title)) if change is None or cells[change] not in (GOES, NOT_POSSIBLE)]


def known(sheet: Sheet, roster: Roster, cell: str, line: int, side: int, column: int) -> int:
    """The number of a person (side 1) or an object that the roster must have, by a cell."""
    return _known(sheet.path, roster, sheet.name(cell, line, column), line, side, column, sheet.others)


def _known(path: str, roster: Roster, name: str, line: int, side: int, column: int, others: str = "") -> int:
    """The number of a person (side 1) or an object that the roster must have, by name."""
    numbers = roster.person_numbers if side == 1 else roster.object_numbers
    if name not in numbers:
        near = like(name, list(numbers))
        hint = said("near", " or ".join(map(quoted, near))) if near else ""
        raise RosterFault(path, said("unknown", "person" if side == 1 else "object", quoted(name)) + hint + others,
                          line, column)
    return numbers[name]


def _refuse_twice(path: str, roster: Roster, numbered: List[Tuple[int, int, int]], by_counts: bool = True) -> None:
    """Refuses a name that stands more often than it may, if counts are to be kept, and a pair that stands twice."""
    for column, names, most in ((1, roster.persons, roster.tasks_of),
                                (2, roster.objects, roster.capacity_of)) if by_counts else ():
        lines: Dict[int, List[int]] = {}
        for found in numbered:
            number = found[column - 1]
            before = lines.setdefault(number, [])
            if len(before) == most(number):
                often = said("a second time") if before[:1] and most(number) == 1 else said("more times", most(number))
                after = f", after {item_of(path)} {before[0]}" if before else ""
                raise RosterFault(path, f"{quoted(names[number])} {often}{after}", found[2], column)
            before.append(found[2])
    pairs: Dict[Tuple[int, int], int] = {}
    for person, object_, line in numbered:
        first = pairs.setdefault((person, object_), line)
        if first != line:
            pair = f"{roster.persons[person]}, {roster.objects[object_]}"
            raise RosterFault(path, said("pair twice", pair, item_of(path), first), line)
