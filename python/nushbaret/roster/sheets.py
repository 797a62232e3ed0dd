"""The cells of CSV files and workbooks, and what is wrong in a file. Lines and columns are counted from 1, and a column
is a cell of its line."""
import csv
import os
import re
import stat
import sys
from itertools import accumulate, islice
from typing import (IO, Callable, Generator, Iterable, Iterator, List, Match, NamedTuple, NoReturn, Optional, Sequence,
                    Set, Tuple, cast)

from ..costs.limits import MOST_PERSONS
from .encodings import Undecodable, decoded
from .names import GUARDS, NoName, as_name, quoted, said, shown_path, unguarded

MOST_BYTES = 2**30
SEPARATORS = ";\t,"
# Lines, and cells column by column.
Block = Tuple[Sequence[int], List[Sequence[str]]]
# So many records, and letters of a text, are looked at in one go.
BLOCK = 1024
PIECE = 2**20
# A person, and its costs for as many objects as there may be.
MOST_CELLS = MOST_PERSONS + 1
MANY_CELLS = said("long record", MOST_CELLS)
# What of a line is in quotes, where it begins outside of them, and where inside.
QUOTED = (re.compile('"[^"]*"?'), re.compile('^[^"]*"?|"[^"]*"?'))
FIRST_LINE = re.compile(r"[\r\n]*([^\r\n]*)")
# str.splitlines ends a line here too.
OTHER_ENDS = "\v\f\x1c\x1d\x1e\x85\u2028\u2029"


class RosterFault(ValueError):
    """What is wrong in a file, and where: line and column from 1, as far as they are known. In a plan in JSON the
    line is the number of a pair."""

    def __init__(self, path: str, text: str, line: Optional[int] = None, column: Optional[int] = None) -> None:
        self.path, self.text, self.line, self.column = path, text, line, column
        where = shown_path(path)
        if line is not None:
            where += f", {item_of(path)} {line}"
        if column is not None and item_of(path) == "line":
            where += f", column {column}"
        super().__init__(f"{where}: {text}")


class Reading(NamedTuple):
    """How text is read: in which encoding, if one was named; and where it is said what was read instead of what was
    named."""

    encoding: Optional[str] = None
    say: Callable[[str], object] = str


def file_and_sheet(path: str) -> Tuple[str, Optional[str]]:
    """The file that a path names, and where it is FILE.xlsx#SHEET the sheet. A file of the whole name goes first."""
    found = re.fullmatch(r"(.*?\.xlsx)#(.+)", path, re.IGNORECASE)
    return (path, None) if found is None or os.path.lexists(path) else (found[1], found[2])


def heading_of(path: str) -> str:
    """The title of what is made of a file: its name without its end, and that of its sheet."""
    file, sheet = file_and_sheet(path)
    return ", ".join(filter(None, (os.path.splitext(os.path.basename(file))[0], sheet)))


def is_json(path: str) -> bool:
    """Whether a file is a plan in JSON, by its name."""
    return os.path.splitext(file_and_sheet(path)[0])[1].lower() == ".json"


def item_of(path: str) -> str:
    """What a file lists, one after the other."""
    return "pair" if is_json(path) else "line"


def content_of(path: str) -> bytes:
    """What a file holds, or standard input where the path is `-`; of more than MOST_BYTES not all."""
    if path == "-":
        return _standard_input()
    with open(path, "rb") as file:
        status = os.fstat(file.fileno())
        # What read() makes room for is what it was asked for.
        return file.read() if stat.S_ISREG(status.st_mode) and status.st_size <= MOST_BYTES else _bounded(file)


def _bounded(file: IO[bytes]) -> bytes:
    pieces, size = [], 0
    for piece in iter(lambda: file.read(PIECE), b""):
        pieces.append(piece)
        size += len(piece)
        if size > MOST_BYTES:
            break
    return b"".join(pieces)


def _standard_input() -> bytes:
    if sys.stdin is None:
        raise OSError("standard input is closed")
    try:
        return _bounded(sys.stdin.buffer)
    except OSError as fault:
        raise OSError(fault.errno, fault.strerror, "standard input") from fault


class Sheet:
    """The records of a CSV file: with `;`, TAB or `,` between cells, the one that its first line has most of. Or those
    of a workbook's sheet: the one that FILE.xlsx#SHEET or `name` names; else the preferred one, if there is one of that
    name; else the first. Rows above the titles may be skipped.

    Raises `OSError` where the file can't be read, and `RosterFault` where it is no text or is too long.
    """

    def __init__(self, path: str, comma: bool = False, name: Optional[str] = None, skipped: int = 0,
                 reading: Reading = Reading(), preferred: Optional[str] = None) -> None:
        self.path, self.skipped = "standard input" if path == "-" else path, skipped
        self.rows: Optional[List[List[str]]] = None
        # What a refusal says of other sheets, and the lines that are one merged cell.
        self.others = ""
        # Whether any cell may have an apostrophe that is taken off.
        self.has_guards = True
        self.merged: Set[int] = set()
        file, own_name = file_and_sheet(path)
        if os.path.splitext(file)[1].lower() == ".xlsx":
            self._take_workbook(file, comma, own_name or name, preferred, reading)
        elif name is not None:
            self.refuse("only a workbook, .xlsx, has sheets: not with --sheet")
        else:
            self._take_text(self._judged(content_of(path)), reading)

    def _take_workbook(self, path: str, comma: bool, name: Optional[str], preferred: Optional[str],
                       reading: Reading) -> None:
        from .read_workbook import listed_sheets, read_workbook
        from .sheet_scan import WorkbookFault
        self.has_bom, self.has_hint, self.separator, self.encoding = False, False, ";" if comma else ",", "utf-8"
        content = self._judged(content_of(path))
        try:
            self.rows, read, names, self.merged = read_workbook(content, comma, name, preferred, self.skipped)
        except WorkbookFault as fault:
            self.refuse(str(fault), fault.line, fault.column)
        if len(names) > 1 and name is None and read != preferred:
            path = shown_path(path)
            self.others = f" (in the sheet {quoted(read)} of {listed_sheets(names)}: {path}#SHEET reads another)"
            reading.say(f"{path}: the sheet {quoted(read)} was read, of {len(names)}: {path}#SHEET reads another")

    def _judged(self, data: bytes) -> bytes:
        if len(data) > MOST_BYTES:
            self.refuse(said("long file", MOST_BYTES))
        return data

    def _take_text(self, data: bytes, reading: Reading) -> None:
        try:
            text, self.encoding, self.has_bom, is_guess = decoded(data, reading.encoding)
        except Undecodable as fault:
            self.refuse(str(fault), None if fault.place is None else data.count(b"\n", 0, fault.place) + 1)
        if is_guess:
            reading.say(f"{shown_path(self.path)}: read as {self.encoding}, since it is no UTF-8; --encoding names "
                        "another")
        del data
        self.text = _after_lines(text, self.skipped)
        self.has_guards = "'" in self.text and any(map(self.text.__contains__, GUARDS))
        begin, end = cast(Match[str], FIRST_LINE.match(self.text)).span(1)
        # Spreadsheets write this line ahead of the title to name the separator.
        first = self.text[begin:min(end, begin + len('"sep=;"') + 1)]
        self.has_hint = re.fullmatch('"?sep=.?"?', first, re.IGNORECASE) is not None
        hinted = first.strip('"')[4:]
        self.separator = (hinted if self.has_hint and hinted in SEPARATORS and hinted
                          else separator_of(self.text, begin, end))

    def refuse(self, text: str, line: Optional[int] = None, column: Optional[int] = None) -> NoReturn:
        """Raises the fault of this file."""
        raise RosterFault(self.path, text + self.others, line, column)

    def records(self) -> Iterator[Tuple[int, List[str]]]:
        """The records that aren't empty, each with the number of its first line; cells without the white space around
        them."""
        if self.rows is not None:
            yield from ((line, cells) for line, cells in enumerate(map(self._cleaned, self.rows), self.skipped + 1)
                        if any(cells))
            return
        reader = csv.reader(self._lines(0), delimiter=self.separator, strict=True)
        line = self.skipped + 1
        try:
            for cells in reader:
                cells = self._cleaned(cells)
                if any(cells) and not self._is_hint(line):
                    yield line, cells
                line = self.skipped + reader.line_num + 1
        except csv.Error as error:
            self.refuse(_in_words(error), line)

    def _lines(self, begin: int) -> Iterator[str]:
        """The lines of the text from a place on. Raises `csv.Error` before a record has more cells than it may."""
        cells, is_open = 1, False
        for line in _lines_of(self.text, begin, self.separator):
            cells = (cells if is_open else 1) + line.count(self.separator)
            if cells > MOST_CELLS:
                cells -= sum(line.count(self.separator, *part.span()) for part in QUOTED[is_open].finditer(line))
            if cells > MOST_CELLS:
                raise csv.Error(MANY_CELLS)
            is_open ^= line.count('"') % 2 == 1
            yield line

    def _cleaned(self, cells: List[str]) -> List[str]:
        """A record without white space around its cells, and without the apostrophes that guard them."""
        cells = _stripped(cells)
        return list(map(unguarded, cells)) if self.has_guards else cells

    def _is_hint(self, line: int) -> bool:
        """Whether this line only names the separator."""
        return self.has_hint and line == self.skipped + 1

    def title(self) -> Tuple[int, List[str]]:
        """The first record, without empty cells at its end."""
        for line, cells in self.records():
            while not cells[-1]:
                cells.pop()
            if line in self.merged:
                self.refuse(f"{quoted(cells[0])} in one merged cell, where titles are needed; --skip-rows K skips rows "
                            "above them", line)
            return line, cells
        self.refuse(said("no file"))

    def body(self, width: int) -> Iterator[Tuple[int, List[str]]]:
        """The records after the title, each of `width` cells."""
        records = self.records()
        next(records)
        return self._of_width(records, width)

    def _of_width(self, records: Iterable[Tuple[int, List[str]]], width: int) -> Iterator[Tuple[int, List[str]]]:
        for line, cells in records:
            if len(cells) < width or any(cells[width:]):
                hint = said("comma in a cell") if len(cells) > width and self.separator == "," else ""
                self.refuse(said("cells", len(cells), width, hint), line)
            yield line, cells[:width]

    def blocks(self, width: int) -> Iterator[Block]:
        """The records of `body`, many at a time: their lines, and their cells column by column, maybe with white space
        around them, and among them records without any content. A fault comes after the records before it."""
        begin, line = yield from self._plain_blocks(width)
        begun = begin > 0
        for lines, rows in self._raw_blocks(begin, line):
            if begun and not self.has_guards and set(map(len, rows)) == {width}:
                yield lines, list(zip(*rows))
                continue
            records = [(line, cells) for line, cells in zip(lines, map(self._cleaned, rows)) if any(cells)
                       and not self._is_hint(line)]
            body, fault = self._of_width(records if begun else records[1:], width), None
            begun = begun or bool(records)
            whole: List[Tuple[int, List[str]]] = []
            try:
                whole.extend(body)
            except RosterFault as found:
                fault = found
            if whole:
                yield [line for line, _ in whole], list(zip(*[cells for _, cells in whole]))
            if fault is not None:
                raise fault

    def _plain_blocks(self, width: int) -> Generator[Block, None, Tuple[int, int]]:
        """The first records after the title, as long as no cell is in quotes and each line has so many cells. Returns
        where in the text the next record begins, and its line; 0 and the first line where the title isn't plain."""
        begin, line = 0 if self.rows is not None else self._after_title(), self.skipped + 2
        if begin == 0:
            return 0, self.skipped + 1
        while begin < len(self.text):
            end = self.text.find("\n", begin + PIECE) + 1 or len(self.text)
            if end - begin > 2 * PIECE:
                break
            columns = _plain_columns(self.text[begin:end], self.separator, width)
            if columns is None:
                break
            yield range(line, line + len(columns[0])), columns
            begin, line = end, line + len(columns[0])
        return begin, line

    def _after_title(self) -> int:
        """Where the second line begins, if the first one is the title and has no quotes; else 0."""
        end = self.text.find("\n") + 1
        title = self.text[:end].replace("\r\n", "\n")
        is_plain = not self.has_hint and not self.has_guards and title.replace(self.separator,
                                                       "").strip() and '"' not in title and "\r" not in title
        return end if is_plain else 0

    def _raw_blocks(self, begin: int, line: int) -> Iterator[Tuple[Sequence[int], List[List[str]]]]:
        """All records from a place of the text, and its line, as they are, many at a time, with their lines. A fault
        comes after the records before it."""
        if self.rows is not None:
            yield range(self.skipped + 1, self.skipped + len(self.rows) + 1), self.rows
            return
        reader = csv.reader(self._lines(begin), delimiter=self.separator, strict=True)
        lines: Sequence[int] = (line,)
        fault: Optional[csv.Error] = None
        while fault is None:
            rows: List[List[str]] = []
            try:
                rows.extend(islice(reader, BLOCK))
            except csv.Error as found:
                fault = found
            lines = _numbered(rows, lines[-1], None if fault else line - 1 + reader.line_num)
            if rows:
                yield lines[:-1], rows
            elif fault is None:
                return
        self.refuse(_in_words(fault), lines[-1])

    def name(self, cell: str, line: int, column: int) -> str:
        """A cell as a name, as `as_name` makes it."""
        try:
            return as_name(cell)
        except NoName as fault:
            self.refuse(str(fault), line, column)


def separator_of(text: str, begin: int, end: int) -> str:
    """What stands most between the cells of a first line, which is a part of a text; `,` where nothing does."""
    if text.find('"', begin, end) >= 0:
        text = re.sub('"[^"]*"', "", text[begin:end])
        begin, end = 0, len(text)
    counts = [text.count(mark, begin, end) for mark in SEPARATORS]
    return SEPARATORS[counts.index(max(counts))] if any(counts) else ","


def _in_words(fault: object) -> str:
    """What Python's reader of CSV says, in our words."""
    text = str(fault)
    for part, words in (("field limit", said("long cell", csv.field_size_limit())),
                        ("end of data", said("open quotes")), ("expected after", said("after quotes")),
                        (MANY_CELLS, MANY_CELLS)):
        if part in text:
            return words
    return "no CSV"


def _after_lines(text: str, count: int) -> str:
    """A text without its first lines."""
    if count == 0:
        return text
    end = next(islice(re.finditer("\r\n?|\n", text), count - 1, None), None)
    return text[end.end():] if end else ""


def _lines_of(text: str, begin: int, separator: str) -> Iterator[str]:
    """The lines of a text from a place on, with their ends, of any make. Raises `csv.Error` for a line that alone has
    more cells than a record may."""
    while begin < len(text):
        end = text.find("\n", begin + PIECE) + 1 or len(text)
        if end - begin > PIECE + MOST_CELLS:
            end = text.rfind("\n", begin, begin + PIECE) + 1 or end
            if _has_many(text, begin, end, separator):
                raise csv.Error(MANY_CELLS)
        piece = text[begin:end]
        is_plain = not any(map(piece.__contains__, OTHER_ENDS))
        yield from piece.splitlines(True) if is_plain else re.findall("[^\r\n]*(?:\r\n?|\n)|[^\r\n]+", piece)
        begin = end


def _has_many(text: str, begin: int, end: int, separator: str) -> bool:
    """Whether a part of a text is one line with more cells than a record may have, and without quotes. No copy of it is
    made."""
    is_line = text.find("\n", begin, end - 1) < 0 and text.find("\r", begin, end - 2) < 0
    return is_line and text.find('"', begin, end) < 0 and text.count(separator, begin, end) >= MOST_CELLS


def _numbered(rows: List[List[str]], first: int, last: Optional[int]) -> Sequence[int]:
    """The line of each record, and the one after them. A record takes several lines where its cells have breaks; none
    does if so many lines as records end with the last."""
    if last is not None and last - first + 1 == len(rows):
        return range(first, last + 2)
    return list(accumulate((1 + sum(len(re.findall("\r\n?|\n", cell)) for cell in cells) for cells in rows),
                           initial=first))


def _stripped(cells: List[str]) -> List[str]:
    """A record without white space around its cells. Mostly the first alone has any inside."""
    rest = "".join(cells[1:])
    if rest.split(None, 1) == [rest]:
        return [cells[0].strip(), *cells[1:]]
    return [cell.strip() for cell in cells]


def _plain_columns(piece: str, separator: str, width: int) -> Optional[List[Sequence[str]]]:
    """The cells of whole lines column by column, if none is in quotes and each line has so many."""
    piece = piece.replace("\r\n", "\n")
    if any(mark in piece for mark in ('"', "\r", "\0")):
        return None
    piece += "" if piece.endswith("\n") else "\n"
    marks = piece.encode("utf-8", "surrogatepass").translate(None, bytes({*range(256)} - {*separator.encode(), *b"\n"}))
    if marks != (separator * (width - 1) + "\n").encode() * piece.count("\n"):
        return None
    cells = piece[:-1].replace("\n", separator).split(separator)
    return [cells[column::width] for column in range(width)]
