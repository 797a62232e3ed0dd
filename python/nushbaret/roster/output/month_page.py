"""A month on one sheet of a page: one side of A4 for up to 40 persons."""
from html import escape
from typing import Dict, Iterator, List, Optional

from ..answer import NamedPlan
from ..dates import DAY_NAMES
from ..day_tables import Cell, Day
from ..names import said
from .html import classes, ours, scrolling
from .month_sheet import MonthSheet, StaffCell, month_sheet
from .texts import Report

# So many kinds have a colour of their own.
COLOURS = 6
# What is printed: the height of a sheet for rows, in pixels of CSS, and the height of a row at most.
_HEIGHT, _ROW = 600, 17.0


def by_month(report: Report, plan: NamedPlan) -> Iterator[str]:
    """The sheet of a month and its legend; nothing where the days are no month."""
    sheet = month_sheet(report, plan)
    if sheet is None:
        return
    yield '<div class="sheet">\n'
    yield from scrolling(_table(sheet, report))
    yield from _legend(sheet)
    yield "</div>\n"


def _table(sheet: MonthSheet, report: Report) -> Iterator[str]:
    rows = len(sheet.persons) + len(sheet.staff) + 2
    kinds = {kind: f"k{number}" if number < COLOURS else "" for number, kind in enumerate(sheet.letters)}
    height = min(_ROW, _HEIGHT / rows)
    yield (f'<table class="month" lang="" style="--days: {len(sheet.days)}; --row: {height:.1f}px">\n'
           f'<thead><tr><th scope="col">{escape(report.roster.titles[0])}</th>')
    yield from (f'<th scope="col"{classes("weekend" if day.is_weekend else "")}>{_head(day)}</th>'
                for day in sheet.days)
    yield from (f'<th scope="col" class="sum">{escape(column.title)}</th>' for column in sheet.columns)
    yield "</tr></thead>\n<tbody>\n"
    for number, (name, cells) in enumerate(sheet.persons):
        own = "".join(_cell(sheet, cell, day, kinds) for cell, day in zip(cells, sheet.days))
        sums = "".join(f'<td class="sum">{escape(column.texts[number])}</td>' for column in sheet.columns)
        yield f'<tr><th scope="row">{escape(name)}</th>{own}{sums}</tr>\n'
    for place, (kind, staff) in enumerate(sheet.staff):
        cells_of_kind = "".join(_staff(cell, day) for cell, day in zip(staff, sheet.days))
        first = ' class="first"' if place == 0 else ""
        rest = f'<td class="rest" colspan="{len(sheet.columns)}"></td>'
        yield f'<tr{first}><th scope="row">{escape(kind)}</th>{cells_of_kind}{rest}</tr>\n'
    yield "</tbody>\n</table>\n"


def _head(day: Day) -> str:
    """A day in few letters: the day of the week and of the month, where it is a date."""
    if day.when is None:
        return f'<span class="up">{escape(day.name)}</span>'
    weekday = DAY_NAMES[day.when.weekday()][:2]
    return f'<abbr title="{escape(day.name)}"><span lang="en">{weekday}</span><br>{day.when.day}</abbr>'


def _cell(sheet: MonthSheet, cell: Cell, day: Day, kinds: Dict[str, str]) -> str:
    """The letter of a person's day; what went in a plan that was read, struck out."""
    marks = ["weekend" if day.is_weekend else "", "changed" if cell.is_changed else "",
             "fixed" if any(entry.is_fixed for entry in cell.entries) else "", "past" if day.is_past else ""]
    marks += [kinds[cell.entries[0].label]] if cell.entries else ["off"] if cell.is_off else []
    gone = "" if cell.entries else "".join(f"<s>{escape(sheet.letters.get(label, label[:1]))}</s>"
                                           for label in cell.gone)
    return f"<td{classes(*marks)}>{escape(sheet.text(cell))}{gone}</td>"


def _staff(cell: Optional[StaffCell], day: Day) -> str:
    if cell is None:
        return f'<td{classes("weekend" if day.is_weekend else "")}></td>'
    marks = classes("staff", "weekend" if day.is_weekend else "", "short" if cell.is_short else "")
    return f"<td{marks}>{cell.text}</td>"


def _legend(sheet: MonthSheet) -> Iterator[str]:
    """What letters and marks mean."""
    kinds = [f'<span class="key k{number}" lang="">{escape(letter)}</span> <span lang="">{escape(kind)}</span>'
             if number < COLOURS else f'<b lang="">{escape(letter)}</b> <span lang="">{escape(kind)}</span>'
             for number, (kind, letter) in enumerate(sheet.letters.items())]
    notes: List[str] = [f"{escape(column.title)}: {ours(column.meaning)}" for column in sheet.columns
                        if column.meaning and column.meaning not in sheet.letters]
    cells = [cell for _, own in sheet.persons for cell in own]
    marks = [text for text, is_there in (
        ("shaded: weekend or holiday", any(day.is_weekend for day in sheet.days)),
        (said("hatched"), any(cell.is_off for cell in cells)),
        (said("framed"), sheet.is_changed),
        ("underlined: fixed", any(entry.is_fixed for cell in cells for entry in cell.entries)),
        (said("3/4"), any(cell is not None and cell.wanted is not None
                        for _, staff in sheet.staff for cell in staff))) if is_there]
    yield '<p class="legend">' + " \u00b7 ".join([*kinds, *notes, *map(ours, marks)]) + "</p>\n"
