"""A plan as an Excel workbook, by openpyxl: by days where there are groups, the pairs, who stays out, and the
matrix."""
import io
from decimal import Decimal
from typing import Any, List

from ..answer import NamedPlan, left_out
from ..files import OutputFault
from ..names import kept_apart, shown_path
from ..roster import PLAN_SHEET, Roster
from .day_sheets import add_days
from .month_workbook import add_month
from .page import MOST_CELLS, costs_by_person, frame_of
from .sheet_looks import FONT, LETTER_HEIGHT, LINE_HEIGHT, SHORT, Looks, letter, put_text, set_to_print
from .texts import Report

# A spreadsheet's numbers have so many digits.
MOST_DIGITS = 15
OWN, FORBIDDEN = "FFF4B183", "FFEEEEEE"
MOST_LETTERS = 40


def need_openpyxl(path: str) -> Any:
    """The module, or a refusal to write a file without it."""
    try:
        import openpyxl
    except ImportError:
        raise OutputFault(f"{shown_path(path)}: a workbook is written where openpyxl is installed; elsewhere write "
                          ".csv") from None
    return openpyxl


def as_xlsx(report: Report, plan: NamedPlan) -> bytes:
    """The bytes of a workbook: the plan by days, if there are groups, and three more sheets."""
    openpyxl = need_openpyxl("workbook")
    book = openpyxl.Workbook()
    _write_pairs(book.active, report.roster, plan)
    _write_out(book.create_sheet("Left out"), report.roster, plan)
    _write_matrix(book.create_sheet("Matrix"), report, plan, openpyxl.styles)
    for sheet in book.worksheets[:2]:
        _fit(sheet)
    add_days(book, Looks(openpyxl.styles), report, plan)
    add_month(book, openpyxl.styles, report, plan)
    book.active = 0
    held = io.BytesIO()
    book.save(held)
    return held.getvalue()


def _write_pairs(sheet: Any, roster: Roster, plan: NamedPlan) -> None:
    """A pair in each line, with its group where objects have groups; --fixed, --keep and --compare read them."""
    groups = roster.groups
    sheet.title = PLAN_SHEET
    _put_row(sheet, 1, [*roster.titles, *([groups.title] if groups else [])])
    for row, pair in enumerate(plan.pairs, 2):
        _put_row(sheet, row, [roster.persons[pair.person], roster.objects[pair.object]])
        _put_cost(sheet, row, 3, roster, pair.cost)
        if groups and pair.object in groups.of_objects:
            _put(sheet, row, 4, groups.names[groups.of_objects[pair.object]])
    set_to_print(sheet, 1, 0)


def _fit(sheet: Any) -> None:
    """Makes columns as wide as their texts."""
    for number, cells in enumerate(sheet.iter_cols(values_only=True), 1):
        longest = max((len(str(value)) for value in cells if value is not None), default=0)
        sheet.column_dimensions[letter(number)].width = min(longest, MOST_LETTERS) + 2


def _write_out(sheet: Any, roster: Roster, plan: NamedPlan) -> None:
    row = 1
    for out in left_out(roster, plan):
        for name in out.names:
            _put_row(sheet, row, [out.how, roster.titles[out.side], name])
            row += 1


def _write_matrix(sheet: Any, report: Report, plan: NamedPlan, styles: Any) -> None:
    """The matrix as the page has it: the plan's cells are marked, and forbidden ones are grey."""
    roster, frame = report.roster, frame_of(report.roster, report.answer)
    if len(frame.persons) * len(frame.objects) > MOST_CELLS:
        _put(sheet, 1, 1, f"The matrix has more than {MOST_CELLS} cells and isn't drawn.")
        return
    fills = {colour: styles.PatternFill("solid", fgColor=colour) for colour in (OWN, SHORT, FORBIDDEN)}
    bold, chosen, costs = styles.Font(FONT, 11, bold=True), {(pair.person, pair.object)
                                                             for pair in plan.pairs}, costs_by_person(roster)
    _put_row(sheet, 1, [roster.titles[0], *(roster.objects[object_] for object_ in frame.objects)])
    for row, person in enumerate(frame.persons, 2):
        _put(sheet, row, 1, roster.persons[person])
        for column, object_ in enumerate(frame.objects, 2):
            cost = costs[person].get(object_)
            if cost is None:
                sheet.cell(row, column).fill = fills[FORBIDDEN]
                continue
            cell = _put_cost(sheet, row, column, roster, cost)
            if (person, object_) in chosen:
                cell.fill, cell.font = fills[OWN], bold
    for place in range(frame.short_persons):
        sheet.cell(place + 2, 1).fill = fills[SHORT]
    for place in range(frame.short_objects):
        sheet.cell(1, place + 2).fill = fills[SHORT]
    _fit_matrix(sheet, styles, len(frame.objects))


def _fit_matrix(sheet: Any, styles: Any, objects: int) -> None:
    """Stands the names of objects upright, above columns as wide as costs."""
    sizes = [[len(str(value)) for value in cells if value is not None] for cells in sheet.iter_cols(values_only=True)]
    upright, widest = styles.Alignment(textRotation=90), max((size for column in sizes[1:] for size in column[1:]),
                                                             default=1)
    for column in range(2, objects + 2):
        sheet.cell(1, column).alignment = upright
        sheet.column_dimensions[letter(column)].width = widest + 3
    sheet.column_dimensions["A"].width = min(MOST_LETTERS, max(sizes[0])) + 2
    longest = max((column[0] for column in sizes[1:]), default=0)
    sheet.row_dimensions[1].height = LETTER_HEIGHT * min(MOST_LETTERS, longest) + LINE_HEIGHT
    set_to_print(sheet, 1, 1, one_page_wide=False)


def _put_row(sheet: Any, row: int, texts: List[str]) -> None:
    for column, text in enumerate(texts, 1):
        _put(sheet, row, column, text)


def _put(sheet: Any, row: int, column: int, text: str) -> None:
    """Writes a text: also one that begins as a formula does. Readers find it as it is."""
    put_text(sheet.cell(row, column), kept_apart(text))


def _put_cost(sheet: Any, row: int, column: int, roster: Roster, units: int) -> Any:
    """Writes a cost: as a number, where a spreadsheet's numbers have its digits."""
    text = roster.plain(units)
    if len(str(abs(units))) > MOST_DIGITS:
        _put(sheet, row, column, text)
        return sheet.cell(row, column)
    cell = sheet.cell(row, column, Decimal(text) if roster.decimals else units)
    cell.number_format = "0." + "0" * roster.decimals if roster.decimals else "0"
    return cell
