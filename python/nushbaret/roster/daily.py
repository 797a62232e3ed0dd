"""Rosters by days: lines of a person, a day, a shift and a cost, and matrices with two title rows, the days over their
shifts. Objects are then called by shift and day, which are their kind and their group."""
from array import array
from typing import Dict, List, NamedTuple, Optional, Sequence, Tuple

from .costs import CostColumn
from .dates import dates_of, spellings
from .names import quoted, said
from .roster import TITLES, Groups, Names, Read, looks_like_number
from .sheets import Sheet

# Titles of lines: a person, a day, a shift and a cost.
_COLUMNS = 4
# What groups are called where no title says it.
_DAY = "day"
# What objects are called where no title says it.
_SHIFT = "shift"


class Daily(NamedTuple):
    """What was read of a roster, and the day and the kind of each object."""

    read: Read
    groups: Groups


class _Objects:
    """Objects by day and shift, as they come."""

    def __init__(self, sheet: Sheet, title: str):
        self._sheet = sheet
        self.names = Names(sheet, "objects")
        self.groups = Groups(title, [], {}, {}, {}, True)
        self._days: Dict[str, int] = {}
        self._numbers: Dict[Tuple[int, str], int] = {}

    def number(self, day: str, shift: str, line: int, columns: Tuple[int, int]) -> int:
        """The number of an object, a new one where it is new."""
        sheet, groups = self._sheet, self.groups
        day, shift = sheet.name(day, line, columns[0]), sheet.name(shift, line, columns[1])
        group = self._days.setdefault(spellings(day)[0], len(groups.names))
        if group == len(groups.names):
            groups.names.append(day)
        number = self._numbers.get((group, shift))
        if number is None:
            number = self.names.number(f"{shift} {groups.names[group]}", line, columns[1])
            self._numbers[group, shift] = number
            groups.of_objects[number], groups.kinds[number] = group, shift
        return number


def are_daily_lines(sheet: Sheet) -> bool:
    """Whether a sheet has lines of a person, a day, a shift and a cost: the second and the third cells are words or
    dates, and not both dates, and some of the fourth are numbers."""
    _, title = sheet.title()
    if len(title) != _COLUMNS or not all(title[:3]):
        return False
    rows = [cells for _, cells in sheet.records()][1:]
    if not rows or any(len(cells) < _COLUMNS or not (cells[1] and cells[2]) for cells in rows):
        return False
    columns = [[cells[column] for cells in rows] for column in (1, 2)]
    numbers = [any(map(looks_like_number, cells)) for cells in columns]
    are_fit = not all(numbers) and all(_are_dates(cells) for cells, is_number in zip(columns, numbers) if is_number)
    return are_fit and any(looks_like_number(cells[3]) for cells in rows)


def read_daily_lines(sheet: Sheet, costs: CostColumn) -> Daily:
    """Reads lines of a person, a day, a shift and a cost; the day stands third where dates stand there alone."""
    _, title = sheet.title()
    rows = list(sheet.body(_COLUMNS))
    day = 2 if _are_dates([cells[2] for _, cells in rows]) and not _are_dates([cells[1] for _, cells in rows]) else 1
    titles = [sheet.name(cell, 1, column) if cell else TITLES[2 if column == _COLUMNS else 0]
              for column, cell in enumerate(title, 1)]
    persons, objects = Names(sheet, "persons"), _Objects(sheet, titles[day])
    of_persons, of_objects = array("I"), array("I")
    before: Dict[Tuple[int, int], int] = {}
    for line, cells in rows:
        person = persons.number(cells[0], line, 1)
        object_ = objects.number(cells[day], cells[3 - day], line, (day + 1, 4 - day))
        first = before.setdefault((person, object_), line)
        if first != line:
            sheet.refuse(said("pair twice", f"{cells[0]}, {objects.names.list[object_]}", "line", first), line)
        costs.take(cells[3], line, 4)
        of_persons.append(person)
        of_objects.append(object_)
    return Daily(((titles[0], titles[3 - day], titles[3]), persons, objects.names, of_persons, of_objects),
                 objects.groups)


def _are_dates(cells: Sequence[str]) -> bool:
    return dates_of(list(dict.fromkeys(cells))).all is not None


class _Heads(NamedTuple):
    """Two title rows: the lines, the title of the persons, and the day and the shift of each column."""

    lines: Tuple[int, int]
    corner: str
    days: List[str]
    shifts: List[str]


def _heads(sheet: Sheet) -> Optional[_Heads]:
    """The two title rows of a matrix: the first has days, one over several columns, which are empty after its first
    cell or have the same text; the second has words alone."""
    first = list(zip(range(2), sheet.records()))
    if len(first) < 2:
        return None
    (upper_line, upper), (line, lower) = first[0][1], first[1][1]
    while lower and not lower[-1]:
        lower = lower[:-1]
    upper = upper[:len(lower)] + [""] * (len(lower) - len(upper))
    shifts = lower[1:]
    has_wide = any(not cell or cell == before for before, cell in zip(upper[1:], upper[2:]))
    if not shifts or not has_wide or not upper[1] or not all(shifts) or any(map(looks_like_number, shifts)):
        return None
    days: List[str] = []
    for cell in upper[1:]:
        days.append(cell or days[-1])
    return _Heads((upper_line, line), lower[0] or upper[0], days, shifts)


def read_daily_matrix(sheet: Sheet, costs: CostColumn) -> Optional[Daily]:
    """Reads a matrix with two title rows; None where it begins otherwise."""
    heads = _heads(sheet)
    if heads is None:
        return None
    persons, objects = Names(sheet, "persons"), _Objects(sheet, _DAY)
    columns: List[int] = []
    for column, (day, shift) in enumerate(zip(heads.days, heads.shifts), 2):
        number = objects.number(day, shift, heads.lines[1], (column, column))
        if number in columns:
            sheet.refuse(said("shift twice", quoted(shift), quoted(day)), heads.lines[1], column)
        columns.append(number)
    of_persons, of_objects = array("I"), array("I")
    for line, cells in list(sheet.records())[2:]:
        if any(cells[len(columns) + 1:]):
            sheet.refuse(said("cells of two titles", len(cells), len(columns) + 1), line)
        person = persons.once(cells[0], line, 1)
        for column, (object_, cell) in enumerate(zip(columns, cells[1:]), 2):
            if cell:
                costs.take(cell, line, column)
                of_persons.append(person)
                of_objects.append(object_)
    if not persons.list:
        sheet.refuse(said("no line after two"), heads.lines[1])
    corner = sheet.name(heads.corner, heads.lines[1], 1) if heads.corner else TITLES[0]
    return Daily(((corner, _SHIFT, TITLES[2]), persons, objects.names, of_persons, of_objects), objects.groups)
