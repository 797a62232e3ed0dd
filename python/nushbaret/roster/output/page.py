"""A plan as one page of HTML: no script, nothing from elsewhere."""
import re
from html import escape
from itertools import product
from typing import Dict, Iterator, List, NamedTuple, Optional, Sequence, Set, Tuple

from ..answer import Answer, NamedPlan, Pair, ShortGroup, counted, left_out
from ..groups import order_of
from ..names import MOST_NAMES, joined, shown_path
from ..roster import Roster
from .days import by_days
from .html import LIGHT_SHADES, classes, document, name, scrolling, style_of, words
from .month_page import by_month
from .texts import Hand, Note, Report, broken_rules, first_lines, notes_of, persons_at, with_marks

MOST_CELLS = 250_000
# Up to so many cells persons and objects that are in no pair and in no short group are drawn as well.
MOST_WHOLE_CELLS = 20_000
# A sheet of paper, in pixels of CSS at the size of print: its width, a letter's and a line's; the most for a person's
# name and an object's.
SHEET_WIDTH = 960
LETTER, LINE, MARGIN = 6, 13, 10
MOST_NAME_WIDTH = 180
MOST_HEADING_HEIGHT = 120


class Outline(NamedTuple):
    """Rows and columns of a drawn matrix that are framed, from the first to the one after the last."""

    top: int
    bottom: int
    left: int
    right: int


class Frame(NamedTuple):
    """The persons and objects of a drawn matrix, in order, how many of the first are of short groups, and the groups'
    blocks."""

    persons: List[int]
    objects: List[int]
    short_persons: int
    short_objects: int
    blocks: List[Outline]


def frame_of(roster: Roster, answer: Answer) -> Frame:
    """The short groups first, so that each one's cells stand in one block; then all others, or those in pairs where all
    are too many. Who can have nothing at all has the whole row framed, or the whole column. Groups that share names
    aren't framed."""
    persons = list(dict.fromkeys(number for short in answer.groups for number in short.persons))
    objects = list(dict.fromkeys(number for short in answer.groups for number in short.objects))
    other_persons, other_objects = _others(roster, answer, set(persons), set(objects))
    if roster.groups is not None:
        other_objects.sort(key=order_of(roster).__getitem__)
    elif not roster.is_matrix:
        other_objects.sort(key=lambda number: natural(roster.objects[number]))
    rows, columns = len(persons) + len(other_persons), len(objects) + len(other_objects)
    blocks = []
    row = column = 0
    are_apart = len(persons) == sum(len(short.persons) for short in answer.groups) and len(objects) == sum(
        len(short.objects) for short in answer.groups)
    for short in answer.groups if are_apart else ():
        below, after = row + len(short.persons), column + len(short.objects)
        if not short.objects:
            blocks.append(Outline(row, below, 0, columns))
        elif not short.persons:
            blocks.append(Outline(0, rows, column, after))
        else:
            blocks.append(Outline(row, below, column, after))
        row, column = below, after
    return Frame(persons + other_persons, objects + other_objects, len(persons), len(objects), blocks)


def _others(roster: Roster, answer: Answer, persons: Set[int], objects: Set[int]) -> Tuple[List[int], List[int]]:
    """Who and what is drawn in addition to the short groups."""
    drawn_persons, drawn_objects = set(range(len(roster.persons))), set(range(len(roster.objects)))
    if len(drawn_persons) * len(drawn_objects) > MOST_WHOLE_CELLS:
        pairs = [] if answer.plan is None else answer.plan.pairs
        drawn_persons, drawn_objects = {pair.person for pair in pairs}, {pair.object for pair in pairs}
    return sorted(drawn_persons - persons), sorted(drawn_objects - objects)


def natural(text: str) -> List[Tuple[int, int, str]]:
    """What names are ordered by, so that S2 comes before S10."""
    return [(0, int(part), "") if part.isdecimal() else (1, 0, part.casefold())
            for part in re.findall("[0-9]{1,30}|[^0-9]+", text)]


def page(report: Report, title: str) -> str:
    """The page of an answer: its sentences, the plan, who stays out, and the matrix with the chosen cells and the short
    groups framed; or the plan alone.

    Of a matrix of more than 20000 cells only the persons and objects of the plan and of the short groups are drawn;
    where even these have more than 250000 cells none is, and the page says so.
    """
    content = _plan_alone(report) if report.options.plan_only else _whole(report)
    style = "".join(map(style_of, ("page.css", "days.css", "month.css"))) + SHADES_STYLE
    return "".join(document(title, style, content))


def _whole(report: Report) -> Iterator[str]:
    """All that there is to say."""
    roster, answer, marked = report.roster, report.answer, with_marks(report)
    for place, line in enumerate(first_lines(marked)):
        yield f"<p{classes('short' if place < report.alarms else '')}>{words(line)}</p>\n"
        if place < len(answer.groups):
            yield from _all_names(marked.roster, answer.groups[place])
    if answer.plan is not None:
        yield from by_month(report, answer.plan)
        yield from _plan(report, answer.plan)
        yield from _folded(marked.roster, answer.plan)
        yield from _notes(notes_of(marked, answer.plan))
    elif report.proved is not None:
        yield from _notes(broken_rules(marked.hand))
    if report.proved is not None and report.hand is not None and report.hand.broken:
        yield from _compared(report.roster, report.hand)
    frame = frame_of(roster, answer)
    if len(frame.persons) * len(frame.objects) > MOST_CELLS:
        yield f"<p>The matrix has more than {MOST_CELLS} cells and isn't drawn.</p>\n"
    elif frame.persons and frame.objects:
        yield from _matrix(roster, answer, frame)


def _compared(roster: Roster, hand: Hand) -> Iterator[str]:
    """A plan from elsewhere by days, where pairs that break rules are framed."""
    pairs = {(pair.person, pair.object): pair.cost for pair in hand.plan.known}
    pairs.update({(person, object_): 0 for person, object_, _ in hand.plan.forbidden})
    broken = {(roster.person_numbers[person], roster.object_numbers[object_]) for own in hand.broken
              for person in own.persons for object_ in own.objects if person in roster.person_numbers
              and object_ in roster.object_numbers}
    plan = NamedPlan([Pair(*pair, cost, False) for pair, cost in sorted(pairs.items())], 0, [], [], {})
    yield f"<p>{words(f'{shown_path(hand.plan.path)}: what breaks a rule is framed')}</p>\n"
    yield from by_days(roster, plan, None, False, frozenset(broken.intersection(pairs)))


def _plan_alone(report: Report) -> Iterator[str]:
    """The plan for the wall: without wishes, costs, hints and other plans."""
    plan = report.answer.plan
    if plan is None:
        raise ValueError("there is no plan")
    yield from by_month(report, plan)
    yield from _plan(report, plan)
    yield from _folded(with_marks(report).roster, plan)


def _plan(report: Report, plan: NamedPlan) -> Iterator[str]:
    """The plan by days, or as a list where there are no groups or too many cells."""
    groups = report.roster.groups
    if groups is not None and len(report.roster.persons) * len(groups.names) <= MOST_CELLS:
        yield from by_days(report.roster, plan, report.kept, report.options.plan_only)
    else:
        yield from _list(report.roster, plan, report.options.plan_only)


SHADES_STYLE = "".join(f"td.s{level} {{ background: var(--s{level}); color: var(--i{level}) }}\n"
                       for level in range(len(LIGHT_SHADES)))


def _matrix(roster: Roster, answer: Answer, frame: Frame) -> Iterator[str]:
    chosen = {} if answer.plan is None else {(pair.person, pair.object): pair.fixed for pair in answer.plan.pairs}
    costs = costs_by_person(roster)
    span = (min(roster.costs, default=0), max(roster.costs, default=0))
    edges = _edges(frame)
    yield '<div class="matrix" lang="" tabindex="0">'
    for columns, part in named_parts(roster, frame):
        yield f"<table>\n<thead>{part}<tr><th></th>"
        for column in columns:
            yield _heading("col", f"<span>{escape(roster.objects[frame.objects[column]])}</span>",
                           column < frame.short_objects)
        yield "</tr></thead>\n<tbody>\n"
        for row, person in enumerate(frame.persons):
            yield "<tr>" + _heading("row", escape(roster.persons[person]), row < frame.short_persons)
            yield from (_cell(roster, costs[person].get(frame.objects[column]),
                              chosen.get((person, frame.objects[column])), span, edges.get((row, column), ()))
                        for column in columns)
            yield "</tr>\n"
        yield "</tbody>\n</table>"
    yield "</div>\n"
    yield ("<p>Stronger colours cost more, hatched cells are forbidden; the plan's are outlined, the fixed ones "
           "twice.</p>\n")
    if len(frame.persons) < len(roster.persons) or len(frame.objects) < len(roster.objects):
        yield "<p>Who and what is in no pair isn't drawn.</p>\n"


def named_parts(roster: Roster, frame: Frame) -> List[Tuple[range, str]]:
    """The columns in parts that each fit on a sheet of paper, with a line that names each part there, if there are
    several."""
    parts = _parts(roster, frame)
    if len(parts) < 2:
        return [(part, "") for part in parts]
    names = [(roster.objects[frame.objects[part[0]]], roster.objects[frame.objects[part[-1]]]) for part in parts]
    return [(part, f'<tr class="part"><th colspan="{len(part) + 1}" lang="en">{name(first)} to {name(last)} (part '
             f'{number} of {len(parts)})</th></tr>') for number, (part, (first, last)) in enumerate(zip(parts, names),
                                                                                                    1)]


def _parts(roster: Roster, frame: Frame) -> List[range]:
    """As many columns at a time as fit on a sheet next to the names of persons; in parts of about one width."""
    names = max(len(roster.persons[person]) for person in frame.persons)
    most = SHEET_WIDTH - MARGIN - min(LETTER * names, MOST_NAME_WIDTH)
    cost = MARGIN + LETTER * max(len(roster.shown(cost))
                                 for cost in (min(roster.costs, default=0), max(roster.costs, default=0)))
    lines = [-(-LETTER * len(roster.objects[object_]) // MOST_HEADING_HEIGHT) for object_ in frame.objects]
    widths = [max(cost, LINE * count + 4) for count in lines]
    parts = _filled(widths, most)
    even = _filled(widths, min(most, sum(widths) // len(parts) + max(widths)))
    return even if len(even) == len(parts) else parts


def _filled(widths: List[int], most: int) -> List[range]:
    """Columns one after the other, in parts of at most so much width."""
    parts, begin, width = [], 0, 0
    for column, own in enumerate(widths):
        if column > begin and width + own > most:
            parts.append(range(begin, column))
            begin, width = column, 0
        width += own
    return [*parts, range(begin, len(widths))]


def costs_by_person(roster: Roster) -> List[Dict[int, int]]:
    costs: List[Dict[int, int]] = [{} for _ in roster.persons]
    for person, object_, cost in zip(roster.of_persons, roster.of_objects, roster.costs):
        costs[person][object_] = cost
    return costs


def _heading(scope: str, inner: str, is_short: bool) -> str:
    kind = ' class="short"' if is_short else ""
    return f'<th scope="{scope}"{kind}>{inner}</th>'


def _edges(frame: Frame) -> Dict[Tuple[int, int], List[str]]:
    """At which of its sides a cell, by its row and column, has a piece of a block's frame."""
    edges: Dict[Tuple[int, int], List[str]] = {}
    for block in frame.blocks:
        rows, columns = range(block.top, block.bottom), range(block.left, block.right)
        sides = (("top", rows[:1], columns), ("bottom", rows[-1:], columns), ("left", rows, columns[:1]),
                 ("right", rows, columns[-1:]))
        for side, its_rows, its_columns in sides:
            for cell in product(its_rows, its_columns):
                edges.setdefault(cell, []).append(side)
    return edges


def _cell(roster: Roster, cost: Optional[int], fixed: Optional[bool], span: Tuple[int, int],
          edges: Sequence[str]) -> str:
    if cost is None:
        return f'<td class="{" ".join(["none", *edges])}"></td>'
    level = (cost - span[0]) * len(LIGHT_SHADES) // (span[1] - span[0] + 1)
    kinds = [*edges, f"s{level}"]
    if fixed is not None:
        kinds.append("own")
    if fixed:
        kinds.append("fixed")
    return f'<td class="{" ".join(kinds)}">{roster.shown(cost)}</td>'


def _list(roster: Roster, plan: NamedPlan, plan_only: bool) -> Iterator[str]:
    """The plan: a row for each person with all of its own, and then, if any object may have several, for each
    object."""
    width = 2 if plan_only else 3
    own: Dict[int, List[Tuple[str, str]]] = {}
    for pair in plan.pairs:
        own.setdefault(pair.person, []).append((roster.objects[pair.object], roster.shown(pair.cost)))
    yield from scrolling(_table(roster.titles[:width], [
        [[roster.persons[person]], *zip(*pairs)][:width] for person, pairs in own.items()]))
    at = persons_at(roster, plan)
    if at:
        yield from scrolling(_table([roster.titles[1], roster.titles[0]],
                                    [[[roster.objects[object_]], who] for object_, who in at]))


def _table(titles: Sequence[str], rows: List[List[Sequence[str]]]) -> Iterator[str]:
    """A table of names, several in a cell one below the other."""
    heads = "".join(f'<th scope="col">{escape(title)}</th>' for title in titles)
    yield f'<table class="plan" lang="">\n<thead><tr>{heads}</tr></thead>\n<tbody>\n'
    for row in rows:
        yield "<tr>" + "".join(f"<td>{'<br>'.join([escape(text) for text in cell])}</td>" for cell in row) + "</tr>\n"
    yield "</tbody>\n</table>\n"


def _notes(notes: List[Note]) -> Iterator[str]:
    """What there is to say of the plan, with marks around names."""
    for note in notes:
        yield f"<p>{words(note.line)}</p>\n"
        if note.details:
            yield "<ul>\n" + "".join(f"<li>{words(detail)}</li>\n" for detail in note.details) + "</ul>\n"


def _folded(roster: Roster, plan: NamedPlan) -> Iterator[str]:
    """Who gets less than it should, and what isn't full, under their count; names have marks."""
    for out in left_out(roster, plan):
        yield from _fold(f"{out.how}: {counted(len(out.names), roster.titles[out.side])}", joined(out.names))


def _all_names(roster: Roster, short: ShortGroup) -> Iterator[str]:
    """All names of a group that is short, where its sentence may leave any out; names have marks."""
    if len(short.persons) + len(short.objects) <= MOST_NAMES:
        return
    for side, names, numbers in ((0, roster.persons, short.persons), (1, roster.objects, short.objects)):
        if numbers:
            yield from _fold(counted(len(numbers), roster.titles[side]), joined([names[number] for number in numbers]))


def _fold(title: str, names: str) -> Iterator[str]:
    """Names that unfold; on paper, where nothing can, they stand below."""
    yield f"<details><summary>{words(title)}</summary><p>{words(names)}</p></details>\n"
    yield f'<p class="paper">{words(title)}: {words(names)}</p>\n'
