"""Rosters in CSV files and workbooks, in one of two forms: a line for each pair, or a matrix; either by days, too."""
from array import array
from itertools import compress, islice, repeat
from operator import add, le, mul
from typing import Dict, Optional, Sequence, Set

from ..costs.limits import MOST_PERSONS
from . import daily
from .costs import CostColumn
from .names import quoted, said
from .roster import LINES, MATRIX, TITLES, Names, Read, Roster, looks_like_number
from .sheets import Reading, RosterFault, Sheet


def form_of(sheet: Sheet) -> str:
    """Which form a roster has; refused where it might be either."""
    line, title = sheet.title()
    if not _may_be_lines(sheet):
        return MATRIX
    numbers = words = twice = False
    seen: Set[str] = set()
    for _, cells in sheet.body(len(title)):
        twice = twice or cells[0] in seen
        seen.add(cells[0])
        is_number = not cells[1] or looks_like_number(cells[1])
        numbers, words = numbers or is_number, words or not is_number
    if are_lines(numbers, words, twice):
        return LINES
    sheet.refuse("lines of pairs, or a matrix of two objects? Say --lines or --matrix", line)


def are_lines(numbers: bool, words: bool, twice: bool) -> bool:
    """Whether three columns are lines: the second has words alone, or numbers alone and a person stands twice."""
    return words and not numbers or twice and not words


def read_roster(path: str, form: Optional[str], decimals: Optional[int], comma: bool, rounds: Optional[int] = None,
                sheet_name: Optional[str] = None, skipped: int = 0, reading: Reading = Reading()) -> Roster:
    """Reads a roster.

    Parameters
    ----------
    path : str
        A CSV file with a title line, a workbook, `.xlsx`, or one with the name of a sheet, `FILE.xlsx#SHEET`. Lines
        of a person, a day, a shift and a cost, and matrices with two title rows, days over shifts, have groups, too.
    form : 'lines', 'matrix' or None
        None takes the form from the file.
    decimals : int or None
        How many decimal places costs have at most, 0 to 6; None: as many as the file uses, up to 6.
    comma : bool
        Whether costs are written with a decimal comma.
    rounds : int or None
        To how many decimal places costs are rounded, instead of `decimals`; None: they are taken exactly.
    sheet_name : str or None
        Which sheet of a workbook is read; None: the first.
    skipped : int
        How many rows above the titles aren't read.
    reading : Reading
        In which encoding text is read, here and in the files about this roster, and where it is said what was read.

    Raises
    ------
    RosterFault
        For the first fault, with its line.
    OSError
        Where the file can't be read.
    """
    sheet = Sheet(path, comma, sheet_name, skipped, reading)
    costs = CostColumn(sheet, decimals, comma, rounds)
    is_matrix = form == MATRIX or form is None and not _may_be_lines(sheet)
    by_days: Optional[daily.Daily] = None
    if form != MATRIX and daily.are_daily_lines(sheet):
        is_matrix, by_days = False, daily.read_daily_lines(sheet, costs)
    elif is_matrix:
        by_days = daily.read_daily_matrix(sheet, costs)
    read = _read_matrix if is_matrix else _read_lines if form else _read_sure_lines
    titles, persons, objects, of_persons, of_objects = by_days.read if by_days else read(sheet, costs)
    used, scaled = costs.scaled()
    return Roster(persons.list, objects.list, persons.numbers, objects.numbers, of_persons, of_objects, scaled, used,
                  titles, sheet.separator, comma, rounded=costs.rounded, has_bom=sheet.has_bom, is_matrix=is_matrix,
                  by_persons=is_matrix or all(map(le, of_persons, islice(of_persons, 1, None))),
                  groups=by_days and by_days.groups, encoding=sheet.encoding, reading=reading)


def _may_be_lines(sheet: Sheet) -> bool:
    _, title = sheet.title()
    return len(title) == 3 and title[0] != ""


def _read_sure_lines(sheet: Sheet, costs: CostColumn) -> Read:
    """Reads lines, unless they might be a matrix as well: that is refused before any other fault."""
    try:
        read = _read_lines(sheet, costs)
    except RosterFault:
        form_of(sheet)
        raise
    _, persons, objects, of_persons, _ = read
    found = set(map(looks_like_number, objects.list))
    if not are_lines(True in found, False in found, len(of_persons) > len(persons.list)):
        form_of(sheet)
    return read


def _read_lines(sheet: Sheet, costs: CostColumn) -> Read:
    line, title = sheet.title()
    if len(title) != 3:
        fourth = said("fourth", quoted(title[3])) if len(title) > 3 else ""
        sheet.refuse(said("titles", len(title), fourth), line)
    if looks_like_number(title[2]):
        sheet.refuse(said("no title", quoted(title[2])), line, 3)
    first, second, third = (sheet.name(cell, line, column) if cell else TITLES[column - 1]
                            for column, cell in enumerate(title, 1))
    reading = Lines(sheet, costs)
    try:
        for lines, columns in sheet.blocks(3):
            if not reading.take_all(lines, *columns):
                reading.take_each(lines, *columns)
    finally:
        reading.refuse_twice()
    if not reading.of_persons:
        sheet.refuse(said("no line"), line)
    return (first, second, third), reading.persons, reading.objects, reading.of_persons, reading.of_objects


class Lines:
    """The lines of a roster, as they are read."""

    def __init__(self, sheet: Sheet, costs: CostColumn) -> None:
        self._sheet, self._costs = sheet, costs
        self.persons, self.objects = Names(sheet, "persons"), Names(sheet, "objects")
        self.of_persons, self.of_objects = array("I"), array("I")
        self._pairs = array("q")

    def take_all(self, lines: Sequence[int], persons: Sequence[str], objects: Sequence[str],
                 costs: Sequence[str]) -> bool:
        """Takes many lines in one go, if all names are known or plain, and all costs are. Otherwise takes none."""
        of_persons = self.persons.known(persons)
        of_objects = None if of_persons is None else self.objects.known(objects)
        if of_persons is None or of_objects is None or not self._costs.take_plain(costs, lines, repeat(3)):
            return False
        self._pairs.extend(map(add, map(mul, of_persons, repeat(MOST_PERSONS)), of_objects))
        self.of_persons.extend(of_persons)
        self.of_objects.extend(of_objects)
        return True

    def take_each(self, lines: Sequence[int], persons: Sequence[str], objects: Sequence[str],
                  costs: Sequence[str]) -> None:
        """Takes lines one by one, up to the first that is refused."""
        for line, *cells in zip(lines, persons, objects, costs):
            person_name, object_name, cost = map(str.strip, cells)
            if not (person_name or object_name or cost):
                continue
            person, object_ = self.persons.number(person_name, line, 1), self.objects.number(object_name, line, 2)
            self._pairs.append(person * MOST_PERSONS + object_)
            self._costs.take(cost, line, 3)
            self.of_persons.append(person)
            self.of_objects.append(object_)

    def refuse_twice(self) -> None:
        """Refuses the first pair of those taken that stands twice."""
        if len(set(self._pairs)) == len(self._pairs):
            return
        lines: Dict[int, int] = {}
        for pair, (line, cells) in zip(self._pairs, self._sheet.body(3)):
            before = lines.setdefault(pair, line)
            if before != line:
                self._sheet.refuse(said("pair twice", f"{cells[0]}, {cells[1]}", "line", before), line)


def _read_matrix(sheet: Sheet, costs: CostColumn) -> Read:
    first, title = sheet.title()
    if looks_like_number(title[0]):
        sheet.refuse(said("number for a title", quoted(title[0])), first, 1)
    if len(title) < 2:
        sheet.refuse(said("no object"), first)
    persons, objects = Names(sheet, "persons"), Names(sheet, "objects")
    of_persons, of_objects = array("I"), array("I")
    for column, name in enumerate(title[1:], 2):
        objects.once(name, first, column)
    all_objects, all_columns = array("I", range(len(title) - 1)), range(2, len(title) + 1)
    for line, cells in sheet.body(len(title)):
        person = persons.once(cells.pop(0), line, 1)
        own = all_objects
        columns: Sequence[int] = all_columns
        if "" in cells:
            own, columns = array("I", compress(all_objects, cells)), list(compress(all_columns, cells))
            cells = list(filter(None, cells))
        costs.take_all(cells, repeat(line), columns)
        of_persons.extend(array("I", (person,)) * len(own))
        of_objects.extend(own)
    if not persons.list:
        sheet.refuse(said("no line"), first)
    corner = sheet.name(title[0], first, 1) if title[0] else TITLES[0]
    return (corner, *TITLES[1:]), persons, objects, of_persons, of_objects
