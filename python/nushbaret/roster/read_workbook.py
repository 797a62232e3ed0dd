"""The rows of a workbook's sheet, as a CSV file would have them, by openpyxl. What openpyxl doesn't say in its fast
mode, which cells are merged and which formulas have no value, is read from the sheet itself."""
import datetime
import io
import posixpath
import warnings
import zipfile
from typing import Any, Dict, List, NamedTuple, Optional, Set, Tuple
from xml.etree import ElementTree
from xml.parsers import expat

from .encodings import SAVE
from .names import quoted, said
from .sheet_scan import MOST_CELLS, Coordinates, Scan, WorkbookFault, well_formed

MOST_SHEETS_SHOWN = 8
# A part of a workbook has so many bytes at most, and unpacked no more than these and so many times the file's.
MOST_BYTES, LEAST_BYTES, MOST_TIMES = 2**30, 2**24, 128
# What a workbook's parts are for, by openpyxl's functions that read them.
PARTS = {"read_manifest": "list of parts", "read_strings": "texts", "read_workbook": "list of sheets",
         "read_properties": "properties", "read_theme": "theme", "apply_stylesheet": "styles",
         "read_worksheets": "sheets", "assign_names": "names"}


class Taken(NamedTuple):
    """The rows of a sheet as a CSV file would have them, each at least as long as the first that isn't empty, or empty;
    the sheet's name, and those of all; and the lines that are one merged cell."""

    rows: List[List[str]]
    name: str
    names: List[str]
    merged: Set[int]


def read_workbook(content: bytes, comma: bool, name: Optional[str], preferred: Optional[str], skipped: int) -> Taken:
    """What is in a sheet of a workbook, in the rows after the first `skipped`; with `comma` numbers have a decimal
    comma. The file is read by now: what goes wrong is its content's fault.

    Where none is named, it is the preferred sheet if there is one of that name, and else the first.
    """
    try:
        import openpyxl
    except ImportError:
        raise WorkbookFault(f"an Excel workbook is read where openpyxl is installed; elsewhere {SAVE}") from None
    held = io.BytesIO(content)
    try:
        # openpyxl warns of what it leaves out, such as colours by rules, and none of it is read.
        with warnings.catch_warnings(), zipfile.ZipFile(held) as archive:
            warnings.simplefilter("ignore")
            _refuse_great(archive)
            return _taken(openpyxl.load_workbook(held, read_only=True, data_only=True), archive, comma,
                          name or preferred, name is not None, skipped)
    except (MemoryError, WorkbookFault):
        raise
    except Exception as fault:
        # openpyxl lets pass whatever the parsers beneath it raise.
        raise WorkbookFault(f"no workbook that openpyxl reads: {_what_is_wrong(held, fault)}; {SAVE}") from fault


def sheets_of(content: bytes) -> List[str]:
    """The names of a workbook's sheets of cells; none where it can't be read."""
    try:
        import openpyxl
        held = io.BytesIO(content)
        with warnings.catch_warnings(), zipfile.ZipFile(held) as archive:
            warnings.simplefilter("ignore")
            _refuse_great(archive)
            book = openpyxl.load_workbook(held, read_only=True)
            names = [sheet.title for sheet in book.worksheets]
            book.close()
            return names
    except Exception:
        # Reading the roster says what is wrong.
        return []


def _refuse_great(archive: zipfile.ZipFile) -> None:
    """Refuses a workbook with a part that is too large when unpacked."""
    packed = sum(part.compress_size for part in archive.infolist())
    for part in archive.infolist():
        if part.file_size > min(MOST_BYTES, LEAST_BYTES + MOST_TIMES * packed):
            raise WorkbookFault(f"its part {quoted(part.filename)} would be {part.file_size} bytes long, more than is "
                                "unpacked of a workbook of this size")


def _what_is_wrong(held: io.BytesIO, fault: Optional[BaseException]) -> str:
    """Which part of a workbook is wrong."""
    part = ""
    try:
        with zipfile.ZipFile(held) as archive:
            for part in archive.namelist():
                with archive.open(part) as content:
                    if part.endswith((".xml", ".rels")):
                        well_formed(content)
    except expat.ExpatError as place:
        return f"its part {quoted(part)} is no XML, in line {place.lineno}"
    except RuntimeError:
        return "it is encrypted"
    except Exception:
        return f"its part {quoted(part)} can't be unpacked" if part else said("no zip")
    trace = fault.__traceback__ if fault else None
    found = "parts"
    while trace is not None:
        found, trace = PARTS.get(trace.tb_frame.f_code.co_name, found), trace.tb_next
    return f"there is a fault in its {found}"


def _taken(book: Any, archive: zipfile.ZipFile, comma: bool, wanted: Optional[str], is_needed: bool,
           skipped: int) -> Taken:
    """The rows of the wanted sheet, or of the first where it isn't needed and isn't there."""
    names = [sheet.title for sheet in book.worksheets]
    if is_needed and wanted not in names:
        raise WorkbookFault(f"no sheet {quoted(wanted or '')}: it has {listed_sheets(names)}")
    if not names:
        raise WorkbookFault(said("no sheet"))
    place = names.index(wanted) if wanted in names else 0
    sheet = book.worksheets[place]
    scan = _scan(archive, names[place], sheet)
    # Some writers say a wrong size; without one openpyxl reads all there is.
    sheet.reset_dimensions()
    rows = _rows(sheet, comma)
    book.close()
    for row, column in scan.unvalued:
        if row >= skipped:
            raise WorkbookFault(said("formula"), row + 1, column + 1)
    _fill_merged(rows, scan.merged)
    width = max(map(len, rows), default=0)
    whole = {row + 1 for (top, left), (bottom, right) in scan.merged if left == 0 and right + 1 >= width > 1
             for row in range(top, min(bottom + 1, len(rows)))}
    rows = rows[skipped:]
    width = len(next(filter(None, rows), []))
    rows = [row + [""] * (width - len(row)) if row else row for row in rows]
    return Taken(rows, names[place], names, whole)


def _rows(sheet: Any, comma: bool) -> List[List[str]]:
    """The cells of a sheet as texts, each row up to its last that has any."""
    rows: List[List[str]] = []
    try:
        for values in sheet.iter_rows(values_only=True):
            row = [_cell_text(value, comma) for value in values]
            while row and not row[-1]:
                row.pop()
            rows.append(row)
    except MemoryError:
        raise
    except Exception as fault:
        raise WorkbookFault(f"a cell below line {len(rows)} isn't of the type that it says, or is damaged; "
                            f"{SAVE}") from fault
    while rows and not rows[-1]:
        rows.pop()
    return rows


def listed_sheets(names: List[str]) -> str:
    """The names of sheets, in quotes; of many the first."""
    shown = ", ".join(map(quoted, names[:MOST_SHEETS_SHOWN]))
    return shown + (f" and {len(names) - MOST_SHEETS_SHOWN} others" if len(names) > MOST_SHEETS_SHOWN else "")


def _cell_text(value: Any, comma: bool) -> str:
    """A cell as a spreadsheet shows it: numbers with up to 15 digits, whole days as dates, and times without seconds
    that are 0."""
    if value is None:
        return ""
    if isinstance(value, float):
        shown = format(value, ".15g")
        return shown.replace(".", ",") if comma else shown
    if isinstance(value, datetime.datetime) and value.time() == datetime.time():
        return value.date().isoformat()
    if isinstance(value, datetime.time):
        return value.isoformat("auto" if value.second or value.microsecond else "minutes")
    # How workbooks write a line break of old.
    return str(value).replace("_x000D_", "\r")


def _scan(archive: zipfile.ZipFile, name: str, sheet: Any) -> Scan:
    """What the XML of a sheet says, by its name. The part is the one that openpyxl reads, where it says which."""
    part, is_stale = _part_of(archive, name)
    part = getattr(sheet, "_worksheet_path", None) or part
    if part is None:
        raise WorkbookFault(f"its list of sheets doesn't say where {quoted(name)} is")
    texts = getattr(sheet, "_shared_strings", None)
    scan = Scan(is_stale, None if texts is None else len(texts))
    with archive.open(part) as content:
        scan.read(content)
    return scan


def _part_of(archive: zipfile.ZipFile, name: str) -> Tuple[Optional[str], bool]:
    """Which file of the archive holds the sheet of this name; and whether the values of formulas are still to be worked
    out."""
    main = next((target for kind, target in _related(archive, "").values() if kind == "officeDocument"), None)
    if main is None:
        return None, False
    targets, part, is_stale = _related(archive, main), None, False
    for element in ElementTree.fromstring(archive.read(main)).iter():
        if _bare(element.tag) == "sheet" and element.get("name") == name:
            number = next((value for key, value in element.attrib.items() if key.endswith("}id")), "")
            part = targets.get(number, ("", None))[1]
        elif _bare(element.tag) == "calcPr":
            is_stale = element.get("fullCalcOnLoad") in ("1", "true")
    return part, is_stale


def _related(archive: zipfile.ZipFile, part: str) -> Dict[str, Tuple[str, str]]:
    """What a part of the archive refers to, by its own names for them: of which kind, and where it is."""
    folder, file = posixpath.split(part)
    found = {}
    for element in ElementTree.fromstring(archive.read(posixpath.join(folder, "_rels", file + ".rels"))):
        target = posixpath.normpath(posixpath.join("/" + folder, element.get("Target", "")))[1:]
        found[element.get("Id", "")] = (element.get("Type", "").rpartition("/")[2], target)
    return found


def _bare(tag: str) -> str:
    """The name of an element without its namespace."""
    return tag.rpartition("}")[2]


def _fill_merged(rows: List[List[str]], merged: List[Tuple[Coordinates, Coordinates]]) -> None:
    """Lets a merged cell count for all of its cells, up to the last column that has anything of its own."""
    width, filled = max(map(len, rows), default=0), 0
    for (top, left), (bottom, right) in merged:
        text = rows[top][left] if top < len(rows) and left < len(rows[top]) else ""
        own = rows[top:bottom + 1] if text else []
        filled += len(own) * (min(right + 1, width) - left)
        if filled > MOST_CELLS:
            raise WorkbookFault(f"merged cells with more than {MOST_CELLS} cells in all")
        for row in own:
            row += [""] * (min(right + 1, width) - len(row))
            row[left:right + 1] = [text] * (min(right + 1, len(row)) - left)
