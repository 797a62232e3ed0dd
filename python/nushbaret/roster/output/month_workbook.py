"""A month as the first sheet of a workbook: on one page of A4."""
from typing import Any, Dict, List

from ..answer import NamedPlan
from ..dates import DAY_NAMES
from ..day_tables import Cell, Day
from ..names import said
from .month_sheet import MonthSheet, month_sheet
from .sheet_looks import FONT, LINE, WEEKEND, letter, put_text, set_to_print
from .texts import Report

_KINDS = ("FFFFF1B8", "FFCFE6FF", "FF3D4B66", "FFD8F0D0", "FFF7D6E6", "FFE3DAFA")
_DARK = 2
_ALARM, _CHANGED = "FFB00020", "FFD35400"
_DAY_WIDTH, _NAME_WIDTH, _LETTER_WIDTH = 4.2, 18, 1.1
_SIZE = 10


class _Looks:
    """Fonts, fills and lines of the sheet."""

    def __init__(self, styles: Any):
        self._styles = styles
        side = styles.Side("thin", color=LINE)
        self.border = styles.Border(side, side, side, side)
        changed = styles.Side("medium", color=_CHANGED)
        self.changed = styles.Border(changed, changed, changed, changed)
        self.centre, self.left = (styles.Alignment(horizontal=side, vertical="center", wrap_text=side == "center")
                                  for side in ("center", "left"))

    def fill(self, colour: str) -> Any:
        return self._styles.PatternFill("solid", fgColor=colour)

    def font(self, **words: Any) -> Any:
        return self._styles.Font(FONT, _SIZE, **words)

    def put(self, sheet: Any, row: int, column: int, text: str, is_weekend: bool = False, **words: Any) -> Any:
        """Writes a cell in the middle, and returns it."""
        cell = sheet.cell(row, column)
        put_text(cell, text)
        cell.border, cell.alignment, cell.font = self.border, self.centre, self.font(**words)
        if is_weekend:
            cell.fill = self.fill(WEEKEND)
        return cell


def add_month(book: Any, styles: Any, report: Report, plan: NamedPlan) -> None:
    """Puts the month in front of the other sheets, if its days are one."""
    found = month_sheet(report, plan)
    if found is None:
        return
    sheet, looks = book.create_sheet("Month", 0), _Looks(styles)
    _write_head(sheet, looks, found, report.roster.titles[0])
    colours = {kind: number for number, kind in enumerate(found.letters)}
    for row, (name, cells) in enumerate(found.persons, 2):
        looks.put(sheet, row, 1, name, bold=True).alignment = looks.left
        for column, (cell, day) in enumerate(zip(cells, found.days), 2):
            _write_cell(sheet, looks, row, column, found, cell, day, colours)
        for column, own in enumerate(found.columns, len(found.days) + 2):
            looks.put(sheet, row, column, own.texts[row - 2])
    for row, (kind, staff) in enumerate(found.staff, len(found.persons) + 2):
        looks.put(sheet, row, 1, kind, bold=True).alignment = looks.left
        for column, (count, day) in enumerate(zip(staff, found.days), 2):
            is_short = count is not None and count.is_short
            looks.put(sheet, row, column, "" if count is None else count.text, day.is_weekend, bold=is_short,
                      color=_ALARM if is_short else None)
    _write_legend(sheet, looks, found, colours)
    _size(sheet, found)


def _write_head(sheet: Any, looks: _Looks, found: MonthSheet, title: str) -> None:
    looks.put(sheet, 1, 1, title, bold=True)
    for column, day in enumerate(found.days, 2):
        text = day.name if day.when is None else f"{DAY_NAMES[day.when.weekday()][:2]}\n{day.when.day}"
        looks.put(sheet, 1, column, text, day.is_weekend, bold=True)
    for column, own in enumerate(found.columns, len(found.days) + 2):
        looks.put(sheet, 1, column, own.title, bold=True)


def _write_cell(sheet: Any, looks: _Looks, row: int, column: int, found: MonthSheet, cell: Cell, day: Day,
                colours: Dict[str, int]) -> None:
    """The letter of a person's day; what went in a plan that was read, struck out."""
    number = colours[cell.entries[0].label] if cell.entries else len(_KINDS)
    is_gone = not cell.entries and bool(cell.gone)
    text = " ".join(found.letters.get(label, label[:1]) for label in cell.gone) if is_gone else found.text(cell)
    own = looks.put(sheet, row, column, text or ("\u00d7" if cell.is_off else ""), day.is_weekend,
                    bold=bool(cell.entries), strike=is_gone, italic=day.is_past,
                    color="FFFFFFFF" if number == _DARK else None,
                    underline="single" if any(entry.is_fixed for entry in cell.entries) else None)
    if number < len(_KINDS):
        own.fill = looks.fill(_KINDS[number])
    if cell.is_changed:
        own.border = looks.changed


def _write_legend(sheet: Any, looks: _Looks, found: MonthSheet, colours: Dict[str, int]) -> None:
    """What letters and marks mean, in lines below."""
    row = len(found.persons) + len(found.staff) + 3
    for kind, own in found.letters.items():
        cell = looks.put(sheet, row, 2, own, bold=True, color="FFFFFFFF" if colours[kind] == _DARK else None)
        if colours[kind] < len(_KINDS):
            cell.fill = looks.fill(_KINDS[colours[kind]])
        put_text(sheet.cell(row, 3), kind)
        row += 1
    texts: List[str] = [f"{column.title}: {column.meaning}" for column in found.columns
                        if column.meaning and column.meaning not in found.letters]
    texts += [said("3/4"), "\u00d7: nothing possible", *[said("framed")] * found.is_changed]
    put_text(sheet.cell(row, 2), "; ".join(texts))


def _size(sheet: Any, found: MonthSheet) -> None:
    """Widths, and one page of A4 across."""
    sheet.column_dimensions["A"].width = _NAME_WIDTH
    texts = [cell.text for _, staff in found.staff for cell in staff if cell is not None]
    day_width = max(_DAY_WIDTH, _LETTER_WIDTH * max(map(len, texts), default=0))
    for column in range(2, len(found.days) + 2):
        sheet.column_dimensions[letter(column)].width = day_width
    for column, own in enumerate(found.columns, len(found.days) + 2):
        width = max(map(len, [own.title, *own.texts]))
        sheet.column_dimensions[letter(column)].width = _DAY_WIDTH + _LETTER_WIDTH * max(0, width - 3)
    sheet.row_dimensions[1].height = 28
    set_to_print(sheet, 1, 1)
    sheet.page_setup.fitToHeight = 1
