"""How the sheets of a workbook look: fonts, fills, widths and heights, and how they are printed."""
import textwrap
from typing import Any, NamedTuple, Sequence, Union

NARROWEST, WIDEST, PADDING = 4, 40, 1.5
# In points: the height of a line, and that of an upright letter.
LINE_HEIGHT, LETTER_HEIGHT = 15, 6
# Spreadsheets begin with this font.
FONT = "Calibri"
TITLE, WEEKEND, CHANGED, SHORT, LINE = "FFDDE6F0", "FFE8E8E8", "FFFFE699", "FFFDECEE", "FFBFBFBF"
WARNING, SOFT = "FFB00020", "FF666666"


# The letters of a cell by the first of these marks that it has.
FONTS = {"title": {"bold": True}, "missing": {"bold": True, "color": WARNING}, "fixed": {"bold": True},
         "gone": {"strike": True, "color": SOFT}, "past": {"italic": True, "color": SOFT}, "soft": {"color": SOFT}}


class Marked(NamedTuple):
    """What stands in a cell, and what it is: any of `title`, `centre`, `weekend`, `changed`, and those of FONTS."""

    value: Union[str, int] = ""
    marks: Sequence[str] = ()


class Looks:
    """Fonts, fills and lines, made once for a workbook."""

    def __init__(self, styles: Any) -> None:
        side = styles.Side("thin", color=LINE)
        self._border = styles.Border(side, side, side, side)
        self._left, self._centre = (styles.Alignment(vertical="top", horizontal=side, wrap_text=True)
                                    for side in ("left", "center"))
        self._fills = {mark: styles.PatternFill("solid", fgColor=colour)
                       for mark, colour in (("title", TITLE), ("weekend", WEEKEND), ("changed", CHANGED))}
        self._fonts = {mark: styles.Font(FONT, 11, **words) for mark, words in FONTS.items()}

    def put(self, sheet: Any, row: int, column: int, marked: Marked) -> None:
        """Writes a cell."""
        cell = sheet.cell(row, column)
        put_text(cell, marked.value) if isinstance(marked.value, str) else setattr(cell, "value", marked.value)
        cell.border, cell.alignment = self._border, self._centre if "centre" in marked.marks else self._left
        fill = next((mark for mark in ("changed", "title", "weekend") if mark in marked.marks), None)
        if fill:
            cell.fill = self._fills[fill]
        font = next((mark for mark in FONTS if mark in marked.marks), None)
        if font:
            cell.font = self._fonts[font]


def put_text(cell: Any, text: str) -> None:
    """Writes a text that stays one, also where it begins as a formula does."""
    if text:
        cell.value = text
        cell.data_type = "s"


def set_widths(sheet: Any, top: int, columns: Sequence[Sequence[Marked]]) -> None:
    """Makes columns as wide as their texts, those after the first alike unless they have numbers, and lines as high as
    theirs. `top` is the line of the first cells."""
    widest = [min(WIDEST, max(NARROWEST, *map(_width, cells))) for cells in columns]
    alike = max((width for width, cells in zip(widest[1:], columns[1:]) if not _has_numbers(cells)), default=NARROWEST)
    widths = [widest[0], *(width if _has_numbers(cells) else alike for width, cells in zip(widest[1:], columns[1:]))]
    for number, width in enumerate(widths, 1):
        sheet.column_dimensions[letter(number)].width = width + PADDING
    for row, cells in enumerate(zip(*columns), top):
        lines = max(_lines(marked, width) for marked, width in zip(cells, widths))
        if lines > 1:
            sheet.row_dimensions[row].height = LINE_HEIGHT * lines


def _has_numbers(cells: Sequence[Marked]) -> bool:
    return len(cells) > 1 and isinstance(cells[1].value, int)


def _width(marked: Marked) -> int:
    """How many letters the longest line of a cell has."""
    return max(map(len, str(marked.value).split("\n")))


def _lines(marked: Marked, width: int) -> int:
    """In how many lines a cell stands."""
    return sum(max(1, len(textwrap.wrap(line, width))) for line in str(marked.value).split("\n"))


def letter(column: int) -> str:
    """What a spreadsheet calls a column, from 1."""
    from openpyxl.utils import get_column_letter
    return str(get_column_letter(column))


def set_to_print(sheet: Any, rows: int, columns: int, one_page_wide: bool = True) -> None:
    """Freezes so many lines and columns of titles, and prints the sheet across, with the titles on each page."""
    sheet.freeze_panes = f"{letter(columns + 1)}{rows + 1}"
    sheet.page_setup.orientation, sheet.page_setup.paperSize = "landscape", sheet.PAPERSIZE_A4
    if one_page_wide:
        sheet.sheet_properties.pageSetUpPr.fitToPage = True
        sheet.page_setup.fitToWidth, sheet.page_setup.fitToHeight = 1, 0
    # LibreOffice repeats them only where they are absolute.
    sheet.print_title_rows = f"$1:${rows}"
    if columns:
        sheet.print_title_cols = f"$A:${letter(columns)}"
    margins = sheet.page_margins
    margins.left = margins.right = margins.top = 0.4
    margins.bottom, margins.footer = 0.7, 0.3
    sheet.oddFooter.center.text = "&A, &P"
