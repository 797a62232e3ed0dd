"""A plan by days, as rosters hang on the wall: a column for each group, who has what, and who is where."""
from html import escape
from math import ceil
from typing import FrozenSet, Iterator, List, NamedTuple, Optional, Sequence, Tuple

from ..answer import NamedPlan
from ..day_tables import Block, Cell, Day, Staff, blocks_of
from ..roster import OldPlan, Roster
from .html import classes, name, ours, scrolling

# What is printed of a block: the sizes of letters, in pixels of CSS; the height that a sheet has for it, and the widths
# of a column of names and of one of days there. A letter is about so wide, and a line so high, in parts of the size; a
# row has so much more.
SIZES = (13.0, 12.5, 12.0, 11.5, 11.0, 10.5, 10.0, 9.5, 9.0, 8.5, 8.0, 7.5, 7.0)
HEIGHT, NAME_WIDTH, DAY_WIDTH = 640, 150, 105
LETTER, LINE, REST = 0.56, 1.3, 5
MARGIN = 10


class Shown(NamedTuple):
    """What is drawn of a block: whether other blocks are there, whether it shows the plan alone, without what was given
    and who can have nothing, and the persons and objects of pairs that break a rule."""

    is_part: bool
    plan_only: bool
    broken: FrozenSet[Tuple[int, int]] = frozenset()


def by_days(roster: Roster, plan: NamedPlan, kept: Optional[OldPlan] = None, plan_only: bool = False,
            broken: FrozenSet[Tuple[int, int]] = frozenset()) -> Iterator[str]:
    """Tables of a plan: for each person what it has on each day, and for each kind of object who is there. Many days
    stand in several tables. Pairs that break a rule are framed."""
    blocks = blocks_of(roster, plan, kept)
    shown = Shown(len(blocks) > 1, plan_only, broken)
    for block in blocks:
        yield from scrolling(_persons(block, roster.titles[0], roster, shown))
        yield from scrolling(_objects(block, roster.titles[1], roster, shown))


def _persons(block: Block, title: str, roster: Roster, shown: Shown) -> Iterator[str]:
    names = [row.name for row in block.persons]
    lines = [[_texts(cell, shown) for cell in row.cells] for row in block.persons]
    yield _head(block, title, roster, shown, "", _size(names, lines, len(block.days)))
    for row in block.persons:
        cells = "".join(_cell(row.person, cell, day, shown) for cell, day in zip(row.cells, block.days))
        total = f"{row.total} {ours(f'of {row.whole}')}" if shown.is_part else str(row.total)
        yield f'<tr><th scope="row">{escape(row.name)}</th>{cells}<td class="total">{total}</td></tr>\n'
    totals = "".join(f'<td{classes("weekend" if day.is_weekend else "")}>{total}</td>'
                     for total, day in zip(block.totals, block.days))
    yield (f'<tr class="totals"><th scope="row" lang="en">total</th>{totals}<td '
           f'class="total">{sum(block.totals)}</td></tr>\n' "</tbody>\n</table>\n")


def _objects(block: Block, title: str, roster: Roster, shown: Shown) -> Iterator[str]:
    names = [row.label for row in block.objects]
    lines = [[[] if staff is None else staff.persons for staff in row.staff] for row in block.objects]
    yield _head(block, title, roster, shown, "objects", _size(names, lines, len(block.days)))
    for row in block.objects:
        cells = "".join(_staff(staff, day) for staff, day in zip(row.staff, block.days))
        yield f'<tr><th scope="row">{escape(row.label)}</th>{cells}</tr>\n'
    yield "</tbody>\n</table>\n"


def _head(block: Block, title: str, roster: Roster, shown: Shown, kind: str, size: float) -> str:
    """The begin of a table, up to its first row."""
    total = "" if kind else '<th scope="col" class="total" lang="en">total</th>'
    column = "" if kind else '<col class="total">'
    heads = "".join(f'<th scope="col"{classes("weekend" if day.is_weekend else "")}>{_day(day)}</th>'
                    for day in block.days)
    return (f'<table{classes("days", kind)} lang="" style="--days: {len(block.days)}; --size: '
            f'{size:g}">\n{_caption(block, roster, shown)}<colgroup><col class="name"><col class="day" '
            f'span="{len(block.days)}">{column}</colgroup>\n<thead><tr><th '
            f'scope="col">{escape(title)}</th>{heads}{total}</tr></thead>\n<tbody>\n')


def _caption(block: Block, roster: Roster, shown: Shown) -> str:
    """What a block is called, if there are others."""
    names = [name(day.name) for day in block.days if day.name]
    if not names or not shown.is_part or roster.groups is None:
        return ""
    ends = " to ".join(dict.fromkeys((names[0], names[-1])))
    return f'<caption lang="en">{name(roster.groups.title)} {ends}</caption>\n'


def _day(day: Day) -> str:
    weekday = ours(day.weekday) + (" " if day.name else "") if day.weekday else ""
    return weekday + escape(day.name) + (" " + ours("past") if day.is_past else "")


def _cell(person: int, cell: Cell, day: Day, shown: Shown) -> str:
    """What a person has on a day; where that is nothing, that it is free, or that it can have nothing there."""
    is_broken = any((person, entry.object) in shown.broken for entry in cell.entries)
    kinds = ["weekend" if day.is_weekend else "", "past" if day.is_past else "", "changed" if cell.is_changed else "",
             "broken" if is_broken else ""]
    if not day.has_objects:
        return '<td class="none"></td>'
    fixed = not shown.plan_only and any(entry.is_fixed for entry in cell.entries)
    lines = [escape(entry.label) + (" " + ours("fixed") if entry.is_fixed and not shown.plan_only else "")
             + (" " + ours("new") if entry.is_new else "") for entry in cell.entries]
    lines += [f"<s>{escape(label)}</s>" for label in cell.gone] + [ours("breaks a rule")] * is_broken
    if not cell.entries:
        lines.insert(0, ours("off") if cell.is_off and not shown.plan_only else "\u2013")
        kinds.append("free")
    return f'<td{classes(*kinds, "fixed" if fixed else "")}>{"<br>".join(lines)}</td>'


def _texts(cell: Cell, shown: Shown) -> List[str]:
    """What a cell says, for its height."""
    fixed = "" if shown.plan_only else " fixed"
    return [entry.label + (fixed if entry.is_fixed else "") + (" new" if entry.is_new else "")
            for entry in cell.entries] + [*cell.gone]


def _staff(staff: Optional[Staff], day: Day) -> str:
    if staff is None:
        return '<td class="none"></td>'
    lines = [f"<div>{escape(person)}</div>" for person in staff.persons]
    lines += [f'<em lang="en">{staff.missing[0]} of {staff.missing[1]}</em>'] if staff.missing else []
    return f'<td{classes("weekend" if day.is_weekend else "")}>{"".join(lines)}</td>'


def _size(names: Sequence[str], rows: Sequence[Sequence[Sequence[str]]], n_days: int) -> float:
    """The size of letters with which a table fits on a sheet of paper; the least one where none does."""
    day = DAY_WIDTH * 7 / max(n_days, 7)
    for size in SIZES:
        lines = [max(_lines([title], size, NAME_WIDTH), *(_lines(cell, size, day) for cell in row))
                 for title, row in zip(names, rows)]
        if sum(count * size * LINE + REST for count in [*lines, 3, 1, 1]) <= HEIGHT:
            return size
    return SIZES[-1]


def _lines(texts: Sequence[str], size: float, width: float) -> int:
    """About how many lines texts take in a column of a width."""
    return max(1, sum(ceil(len(text) * size * LETTER / (width - MARGIN)) for text in texts))
