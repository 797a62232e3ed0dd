"""A page and a calendar for each person: what it has, without costs and without others."""
import os
import unicodedata
from html import escape
from typing import Dict, Iterator, List, NamedTuple, Optional, Sequence, Set, Tuple

from ..answer import NamedPlan, listed
from ..dates import Dates, Times, dates_of
from ..day_tables import Block, blocks_of, group_of, labels_of
from ..names import said, shown_path
from ..roster import OldPlan, Roster
from .calendar import Event, Older, calendar, older_of
from .html import document, name, ours, scrolling, style_of

PAGE, CALENDAR = ".html", ".ics"
# Letters that some system forbids in the name of a file, and names that Windows keeps for itself; a raised 1 counts as
# 1.
FORBIDDEN = frozenset('<>:"/\\|?*')
RESERVED = frozenset(("con", "prn", "aux", "nul", "conin$", "conout$", *(f"{word}{number}" for word in ("com", "lpt")
                                                    for number in range(1, 10))))
MOST_OCTETS = 200


class DayLine(NamedTuple):
    """A day of a person on its page: the day, what it has there or had in a kept plan, and when."""

    day: str
    weekday: str
    label: str
    times: Optional[Times]
    kinds: Tuple[str, ...]


def dates_of_groups(roster: Roster) -> Dates:
    """The dates of a roster's groups, or why there are none."""
    return Dates(None, said("no groups")) if roster.groups is None else dates_of(roster.groups.names)


def paths_of(roster: Roster, folder: str) -> List[str]:
    """All files that are written into a folder."""
    ends = (PAGE, CALENDAR) if dates_of_groups(roster).all else (PAGE,)
    return [os.path.join(folder, stem + end) for stem in file_names(roster.persons) for end in ends]


def files_of(roster: Roster, plan: NamedPlan, kept: Optional[OldPlan], folder: str) -> Iterator[Tuple[str, bytes]]:
    """The files of all persons, in the order of `paths_of`."""
    blocks, dates = blocks_of(roster, plan, kept), dates_of_groups(roster).all
    own: Dict[int, List[int]] = {}
    for pair in plan.pairs:
        own.setdefault(pair.person, []).append(pair.object)
    labels = labels_of(roster)
    for person, stem in enumerate(file_names(roster.persons)):
        path, title = os.path.join(folder, stem), roster.persons[person]
        objects = own.get(person, [])
        content = _blocks(roster, blocks, person) if blocks else _list(roster, objects)
        yield path + PAGE, "".join(document(title, style_of("each.css"), content)).encode()
        if dates:
            days = [(object_, group_of(roster, object_)) for object_ in objects]
            events = [Event(roster.objects[object_], labels[object_], dates[group], times_at(roster, object_))
                      for object_, group in days if group is not None]
            events.sort(key=lambda event: (event.day, event.times or (0, 0)))
            yield path + CALENDAR, calendar(title, events, min(dates), _older(path + CALENDAR))


def _older(path: str) -> Optional[Older]:
    """The calendar that is there already, if there is one."""
    try:
        with open(path, "rb") as file:
            return older_of(file.read())
    except OSError:
        return None


def lines_on_calendars(roster: Roster, plan: NamedPlan, folder: str) -> List[str]:
    """What is said of calendars that aren't written, or that leave something out."""
    dates, groups = dates_of_groups(roster), roster.groups
    if dates.all is None:
        return [f"{shown_path(folder)}: no calendars are written: {dates.why}"]
    rest = sorted({pair.object for pair in plan.pairs if group_of(roster, pair.object) is None})
    title = "" if groups is None else groups.title
    begin = f"{shown_path(folder)}: the calendars leave out what has no {title}"
    return [f"{begin}: {listed(roster.objects, rest)}"] if rest else []


def times_at(roster: Roster, object_: int) -> Optional[Times]:
    """When an object begins and ends, if that is known."""
    return None if roster.groups is None else roster.groups.times.get(object_)


def _blocks(roster: Roster, blocks: Sequence[Block], person: int) -> Iterator[str]:
    """A table for each block in which a person has anything."""
    lines = [list(_lines(roster, block, person)) for block in blocks]
    if not any(lines):
        yield _nothing(roster)
    for block, own in zip(blocks, lines):
        if own:
            yield from scrolling(_table(roster, block, own, block.persons[person].total, len(blocks) > 1))


def _lines(roster: Roster, block: Block, person: int) -> Iterator[DayLine]:
    for day, cell in zip(block.days, block.persons[person].cells):
        kinds = tuple(kind for kind, holds in (("weekend", day.is_weekend), ("past", day.is_past)) if holds)
        for entry in cell.entries:
            yield DayLine(day.name, day.weekday, escape(entry.label) + (" " + ours("new") if entry.is_new else ""),
                          times_at(roster, entry.object), (*kinds, "changed") if entry.is_new else kinds)
        for label in cell.gone:
            yield DayLine(day.name, day.weekday, f"<s>{escape(label)}</s>", None, (*kinds, "changed"))


def _table(roster: Roster, block: Block, lines: Sequence[DayLine], total: int, is_part: bool) -> Iterator[str]:
    names = list(dict.fromkeys(day.name for day in block.days if day.name))
    caption = " to ".join(map(name, dict.fromkeys((names[0], names[-1])))) if is_part and names else ""
    title = roster.groups.title if roster.groups else ""
    has_times = any(line.times for line in lines)
    yield '<table class="own" lang="">\n' + (f'<caption lang="en">{name(title)} {caption}</caption>\n' if caption
                                             else "")
    times = '<th scope="col" lang="en">time</th>' if has_times else ""
    yield '<colgroup><col style="width: 35%"><col><col style="width: 40%"></colgroup>\n' if has_times else ""
    yield (f'<thead><tr><th scope="col">{escape(title)}</th><th '
           f'scope="col">{escape(roster.titles[1])}</th>{times}</tr></thead>\n<tbody>\n')
    for line in lines:
        day = (ours(line.weekday) + " " if line.weekday else "") + escape(line.day)
        time = f"<td>{line.times.shown() if line.times else ''}</td>" if has_times else ""
        kinds = f' class="{" ".join(line.kinds)}"' if line.kinds else ""
        yield f'<tr{kinds}><th scope="row">{day}</th><td>{line.label}</td>{time}</tr>\n'
    yield ('<tr class="totals"><th scope="row" '
           f'lang="en">total</th><td>{total}</td>{"<td></td>" if has_times else ""}</tr>\n</tbody>\n</table>\n')


def _list(roster: Roster, objects: Sequence[int]) -> Iterator[str]:
    """What a person has, where there are no groups."""
    if not objects:
        yield _nothing(roster)
        return
    rows = "".join(f"<tr><td>{escape(roster.objects[object_])}</td></tr>\n" for object_ in objects)
    yield from scrolling(['<table class="own" lang="">\n<thead><tr><th '
                          f'scope="col">{escape(roster.titles[1])}</th></tr></thead>\n<tbody>\n{rows}'
                          "</tbody>\n</table>\n"])


def _nothing(roster: Roster) -> str:
    return f"<p>no {name(roster.titles[1])}</p>\n"


def file_names(names: Sequence[str]) -> List[str]:
    """Names of files for names, without ends: they differ also where a system ignores case, and none leads to another
    folder."""
    taken: Set[str] = set()
    numbers: Dict[str, int] = {}
    found = []
    for stem in map(_stem, names):
        own, key = stem, _key(stem)
        while _key(own) in taken:
            numbers[key] = numbers.get(key, 1) + 1
            own = f"{stem} {numbers[key]}"
        taken.add(_key(own))
        found.append(own)
    return found


def _key(stem: str) -> str:
    return unicodedata.normalize("NFKC", unicodedata.normalize("NFKC", stem).casefold())


def _stem(text: str) -> str:
    """A name as a file may be called, without its end."""
    stem = "".join("_" if letter in FORBIDDEN or not letter.isprintable() else letter for letter in text).strip(" .")
    stem = stem.encode("utf-8", "replace")[:MOST_OCTETS].decode("utf-8", "ignore").rstrip(" .") or "_"
    is_reserved = _key(stem.partition(".")[0].strip()) in RESERVED
    return "_" + stem if is_reserved or stem[0] in "-~" else stem
