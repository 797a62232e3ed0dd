"""What the XML of a workbook's sheet says before openpyxl reads it: where its rows and cells are, which cells are
merged, and which formulas have no value. A sheet too large, or of which openpyxl would drop anything, is refused."""
import re
from typing import IO, Dict, List, Optional, Tuple
from xml.parsers import expat

# A cell, from 0: its row and its column.
Coordinates = Tuple[int, int]
# Of a sheet of any spreadsheet.
MOST_ROWS, MOST_COLUMNS = 1048576, 16384
# A rectangle around all cells that have anything has so many at most, and so have all rows up to their last cells.
MOST_CELLS = 2**27
# What texts a cell may have in itself.
TEXTS = ("t", "v")


class WorkbookFault(Exception):
    """Why a workbook can't be read, and where: line and column from 1, if it is known."""

    def __init__(self, text: str, line: Optional[int] = None, column: Optional[int] = None) -> None:
        super().__init__(text)
        self.line, self.column = line, column


def coordinates(reference: str) -> Coordinates:
    """The row and the column of a cell such as B12, from 0."""
    found = re.fullmatch(r"\$?([A-Z]{1,3})\$?([0-9]{1,7})", reference)
    if found is None:
        raise WorkbookFault(f"no workbook: {reference[:40]!r} is no cell")
    column = 0
    for letter in found[1]:
        column = column * 26 + ord(letter) - ord("A") + 1
    return int(found[2]) - 1, column - 1


def named(row: int, column: int) -> str:
    """The name of a cell, by its row and column from 0."""
    letters, rest = "", column + 1
    while rest:
        rest, letter = divmod(rest - 1, 26)
        letters = chr(ord("A") + letter) + letters
    return f"{letters}{row + 1}"


class Scan:
    """The rows and cells of a sheet, in the order of its file. Rows and columns are counted from 0."""

    def __init__(self, is_stale: bool, texts: Optional[int]) -> None:
        self.merged: List[Tuple[Coordinates, Coordinates]] = []
        self.unvalued: List[Coordinates] = []
        # Whether formulas are still to be worked out, and how many texts the workbook has.
        self._is_stale, self._texts = is_stale, texts
        self._row, self._column = -1, -1
        # Of the open cell: its attributes, whether it has a formula, and what stands in its value.
        self._cell: Optional[Dict[str, str]] = None
        self._has_formula, self._value, self._open = False, "", ""
        # The last row and column that have anything, and the cells of all rows before this one.
        self._last = [-1, -1]
        self._before = 0

    def read(self, sheet: IO[bytes]) -> None:
        """Reads a sheet. Raises `WorkbookFault` for the first fault, and `expat.ExpatError` where it is no XML."""
        parser = expat.ParserCreate()
        parser.buffer_text = True
        parser.StartElementHandler, parser.EndElementHandler = self._start, self._end
        parser.CharacterDataHandler = self._take
        parser.ParseFile(sheet)

    def _start(self, tag: str, attributes: Dict[str, str]) -> None:
        tag = tag.rpartition(":")[2]
        if tag == "c":
            self._begin_cell(attributes)
        elif tag == "row":
            self._begin_row(attributes.get("r"))
        elif tag == "f":
            self._has_formula = True
        elif tag in TEXTS:
            self._open = tag
        elif tag == "mergeCell":
            begin, _, end = attributes.get("ref", "").partition(":")
            self.merged.append((coordinates(begin), coordinates(end or begin)))

    def _take(self, text: str) -> None:
        if self._open:
            self._value += text

    def _end(self, tag: str) -> None:
        tag = tag.rpartition(":")[2]
        if tag == "c" and self._cell is not None:
            self._end_cell(self._cell)
        elif tag in TEXTS:
            self._open = ""

    def _begin_row(self, number: Optional[str]) -> None:
        self._before += self._column + 1
        before, self._column = self._row, -1
        self._row = before + 1 if number is None else self._number(number)
        if not 0 <= self._row < MOST_ROWS:
            raise WorkbookFault(f"a row of the number {number}, where rows have those from 1 to {MOST_ROWS}")
        if self._row <= before:
            raise WorkbookFault(f"row {self._row + 1} stands after row {before + 1}: save the workbook in your "
                                "spreadsheet again", self._row + 1)

    @staticmethod
    def _number(number: str) -> int:
        """The number of a row, from 0; -1 where it is none of a sheet."""
        return int(number.partition(".")[0]) - 1 if re.fullmatch(r"[0-9]{1,9}(\.0+)?", number) else -1

    def _begin_cell(self, attributes: Dict[str, str]) -> None:
        own, before = attributes.get("r"), self._column
        row, column = (self._row, before + 1) if own is None else coordinates(own)
        if column >= MOST_COLUMNS:
            raise WorkbookFault(f"the cell {named(row, column)} is after the last column, XFD", self._row + 1)
        if row != self._row or column <= before:
            raise WorkbookFault(f"the cell {named(row, column)} isn't in its place in row {self._row + 1}: save the "
                                "workbook in your spreadsheet again", self._row + 1)
        self._column, self._cell = column, attributes
        self._has_formula, self._value = False, ""
        self._bound(self._before + column + 1)

    def _bound(self, cells: int) -> None:
        """Refuses this cell where it makes so many cells too many."""
        if cells > MOST_CELLS:
            raise WorkbookFault(f"the cell {named(self._row, self._column)} is too far from the others: more than "
                                f"{MOST_CELLS} cells, with the empty ones", self._row + 1, self._column + 1)

    def _end_cell(self, attributes: Dict[str, str]) -> None:
        value, kind = self._value, attributes.get("t")
        if value or self._has_formula:
            self._last = [self._row, max(self._last[1], self._column)]
            self._bound((self._last[0] + 1) * (self._last[1] + 1))
        # A formula whose value is an empty text says so by its type.
        if self._has_formula and (self._is_stale or not value and kind != "str"):
            self.unvalued.append((self._row, self._column))
        is_text = re.fullmatch("[0-9]{1,9}", value.strip()) is not None and int(value) < (self._texts or 0)
        if kind == "s" and value and self._texts is not None and not is_text:
            raise WorkbookFault(f"it names the text {value[:20]!r}, and the workbook has {self._texts} texts, from 0",
                                self._row + 1, self._column + 1)
        self._cell, self._value = None, ""


def well_formed(part: IO[bytes]) -> None:
    """Raises `expat.ExpatError` where a part of a workbook is no XML."""
    expat.ParserCreate().ParseFile(part)
