"""A plan by days as the first sheets of a workbook: persons by days, week next to week, with totals; and then who is
where, day by day."""
import re
from typing import Any, Dict, Iterator, List, NamedTuple, Optional, Sequence, Tuple

from ..answer import NamedPlan
from ..day_tables import Block, Cell, Day, Staff, blocks_of
from ..roster import Roster
from .page import MOST_CELLS
from .sheet_looks import Looks, Marked, set_to_print, set_widths
from .texts import Report

# So many weeks stand side by side; more go to further sheets.
MOST_WEEKS = 6
TOTAL, ALL = "total", "in all"
YEAR = re.compile(r"(?<=[0-9]\.)\s?[0-9]{4}|[0-9]{4}-(?=[0-9])")
FREE, OFF = "\u2013", "off"
LEGENDS = (("fixed", "bold: fixed"), ("changed", "yellow: changed"), ("past", "italic: past"))


class Column(NamedTuple):
    """A column of a sheet: its week, if there are several, and its cells from the title down."""

    caption: str
    cells: List[Marked]


def add_days(book: Any, looks: Looks, report: Report, plan: NamedPlan) -> None:
    """Puts the plan by days in front of the other sheets, if the roster has groups."""
    blocks = blocks_of(report.roster, plan, report.kept)
    if not blocks:
        return
    if len(report.roster.persons) * sum(len(block.days) + 1 for block in blocks) > MOST_CELLS:
        book.create_sheet("Persons", 0)["A1"] = f"Persons by days are more than {MOST_CELLS} cells and aren't drawn."
        return
    parts = [blocks[begin:begin + MOST_WEEKS] for begin in range(0, len(blocks), MOST_WEEKS)]
    for number, part in enumerate(parts):
        sheet = book.create_sheet("Persons" if number == 0 else f"Persons {number + 1}", number)
        is_last = number == len(parts) - 1
        _write_persons(sheet, looks, list(_columns(report, part, is_last and len(blocks) > 1)))
    _write_days(book.create_sheet("Days", len(parts)), looks, report.roster, blocks)


def _columns(report: Report, blocks: Sequence[Block], is_whole: bool) -> Iterator[Column]:
    """The columns of some weeks side by side; at the end how much each person has in the whole plan, if that isn't a
    week's."""
    rows = blocks[0].persons
    yield Column("", [Marked(report.roster.titles[0], ("title",)), *(Marked(row.name, ("title",)) for row in rows),
                      Marked(TOTAL, ("title",))])
    for block in blocks:
        for column, day in enumerate(block.days):
            yield Column(block.caption, list(_day(block, column, day, report.options.plan_only)))
        yield _numbers(block.caption, TOTAL, [row.total for row in block.persons])
    if is_whole:
        yield _numbers("", ALL, [row.whole for row in rows])


def _numbers(caption: str, title: str, numbers: Sequence[int]) -> Column:
    """A column of how many each person has, and the sum."""
    marks = ("title", "centre")
    return Column(caption, [Marked(title, marks), *(Marked(number, marks) for number in (*numbers, sum(numbers)))])


def _day(block: Block, column: int, day: Day, plan_only: bool) -> Iterator[Marked]:
    """A day of the persons from its title down, and how many pairs it has."""
    base = ["centre", *(mark for mark, holds in (("weekend", day.is_weekend), ("past", day.is_past)) if holds)]
    name = YEAR.sub("", day.name) if block.caption else day.name
    yield Marked(f"{day.weekday}\n{name}".strip(), ("title", "centre"))
    yield from (_entries(row.cells[column], base, plan_only) if day.has_objects else Marked("", base)
                for row in block.persons)
    yield Marked(block.totals[column] if day.has_objects else "", ("title", "centre"))


def _entries(cell: Cell, base: Sequence[str], plan_only: bool) -> Marked:
    """What a person has on a day; where that is nothing, what it had in a kept plan, or that it is free, or can have
    nothing there."""
    marks = [*base, *(["changed"] if cell.is_changed else [])]
    if cell.entries:
        is_fixed = not plan_only and any(entry.is_fixed for entry in cell.entries)
        return Marked("\n".join(entry.label for entry in cell.entries), [*marks, *(["fixed"] if is_fixed else [])])
    if cell.gone:
        return Marked("\n".join(cell.gone), [*marks, "gone"])
    return Marked(OFF if cell.is_off and not plan_only else FREE, [*marks, "soft"])


def _write_persons(sheet: Any, looks: Looks, columns: Sequence[Column]) -> None:
    """Writes columns below the names of their weeks, and below them what the marks mean."""
    top = 2 if any(column.caption for column in columns) else 1
    for number, column in enumerate(columns, 1):
        for row, marked in enumerate(column.cells, top):
            looks.put(sheet, row, number, marked)
    if top == 2:
        _write_weeks(sheet, looks, columns)
    found = {mark for column in columns for marked in column.cells for mark in marked.marks}
    for row, text in enumerate((text for mark, text in LEGENDS if mark in found), top + len(columns[0].cells) + 1):
        sheet.cell(row, 1, text)
    set_widths(sheet, top, [column.cells for column in columns])
    set_to_print(sheet, top, 1)


def _write_weeks(sheet: Any, looks: Looks, columns: Sequence[Column]) -> None:
    """The first line: each week's name above its columns, which are one cell."""
    seen: Dict[str, List[int]] = {}
    for number, column in enumerate(columns, 1):
        looks.put(sheet, 1, number, Marked("", ("title",)))
        if column.caption:
            seen.setdefault(column.caption, []).append(number)
    for caption, numbers in seen.items():
        looks.put(sheet, 1, numbers[0], Marked(caption, ("title",)))
        sheet.merge_cells(start_row=1, end_row=1, start_column=numbers[0], end_column=numbers[-1])


def _write_days(sheet: Any, looks: Looks, roster: Roster, blocks: Sequence[Block]) -> None:
    """A line for each day, with a column for each kind of object: who is there."""
    labels = list(dict.fromkeys(row.label for block in blocks for row in block.objects))
    title = roster.groups.title if roster.groups else ""
    lines = [[Marked(text, ("title",)) for text in (title, *labels)]]
    for block in blocks:
        lines += [_line(block, column, day, labels) for column, day in enumerate(block.days) if day.has_objects]
    for row, line in enumerate(lines, 1):
        for column, marked in enumerate(line, 1):
            looks.put(sheet, row, column, marked)
    set_widths(sheet, 1, [list(cells) for cells in zip(*lines)])
    set_to_print(sheet, 1, 1)


def _line(block: Block, column: int, day: Day, labels: Sequence[str]) -> List[Marked]:
    """Who is at each kind of object on a day."""
    base = ("weekend",) if day.is_weekend else ()
    staff = {row.label: row.staff[column] for row in block.objects}
    return [Marked(f"{day.weekday} {day.name}".strip(), ("title",)),
            *(_staff(staff.get(label), base) for label in labels)]


def _staff(staff: Optional[Staff], base: Tuple[str, ...]) -> Marked:
    """Who is at an object on a day, and how many of how many where these are too few."""
    if staff is None:
        return Marked("", base)
    missing = [f"{staff.missing[0]} of {staff.missing[1]}"] if staff.missing else []
    return Marked(", ".join([*staff.persons, *missing]), (*base, "missing") if missing else base)
