"""What is short in sums: how many places are needed in some days, and how many persons may take at most."""
from typing import Dict, List, NamedTuple, Sequence, Set, Tuple

from ...counts.lack import Lack
from ...rows.model import Shortage
from ..answer import counted
from ..month import Month
from ..names import MOST_NAMES, first_of, joined
from ..roster import Roster
from .roster_model import Built

# So many lines are the answer at most, and so many rules are named in one.
MOST_LINES = 6
_MOST_RULES = 4
# So many sums stand where one says as much as they do.
_MOST_ALIKE = 2


class PlacesSum(NamedTuple):
    """Objects of which all least counts are needed at once, and the numbers of the rows that say so."""

    objects: Tuple[int, ...]
    rows: Tuple[int, ...]


def sums_of(found: Built, month: Month) -> List[PlacesSum]:
    """The sums that a planner looks at: all objects, those of each kind, week and day, and each object by itself."""
    kinds = {object_: month.shifts[object_].kind for object_ in found.places if object_ in month.shifts}
    spans = [list(month.days), *(week.days for week in month.weeks), *([day] for day in month.days)]
    parts = [set(found.places), *({object_ for object_ in kinds if kinds[object_] == kind} for kind in month.kinds)]
    for days in spans:
        own = {object_ for object_ in kinds if month.shifts[object_].day in days}
        parts += [own, *({object_ for object_ in own if kinds[object_] == kind} for kind in month.kinds)]
    sums: Dict[Tuple[int, ...], PlacesSum] = {}
    for part in parts:
        objects = tuple(sorted(part))
        if objects:
            sums.setdefault(objects, PlacesSum(objects, tuple(found.places[object_] for object_ in objects)))
    return list(sums.values())


class Short(NamedTuple):
    """Objects that need `wanted` in all, who may be there, how many these may take at most, and by which rules."""

    objects: Tuple[int, ...]
    persons: Tuple[int, ...]
    wanted: int
    had: int
    limits: Tuple[str, ...] = ()

    @property
    def lack(self) -> int:
        return self.wanted - self.had


def shorts_of(found: Built, sums: Sequence[PlacesSum], shortages: Sequence[Shortage]) -> List[Short]:
    """The fewest and smallest sums that say the most, each of objects of its own."""
    rows, said = found.rows.rows, found.rows.said
    shorts = []
    for one in shortages:
        objects = sums[one.place].objects
        own = set(objects)
        persons = tuple(sorted({person for person, object_ in found.pairs if object_ in own}))
        wanted = sum(rows[row].least or 0 for row in sums[one.place].rows)
        limits = dict.fromkeys(said[text].sentence if text in said else text for text in one.limits)
        shorts.append(Short(objects, persons, wanted, one.had, tuple(limits)))
    return chosen(shorts)


def chosen(shorts: Sequence[Short]) -> List[Short]:
    """Of sums the smallest; a larger one instead of those in it where it lacks more than they do, or as much as three
    of them, or where there are too many lines."""
    by_size = sorted(shorts, key=lambda short: len(short.objects))
    kept: List[Short] = []
    # How many smaller ones each stands for.
    counts: Dict[Tuple[int, ...], int] = {}
    for is_last in (False, True):
        for short in by_size:
            inside = [one for one in kept if set(short.objects).issuperset(one.objects)]
            rest = [one for one in kept if one not in inside]
            lack, count = sum(one.lack for one in inside), sum(counts[one.objects] for one in inside)
            is_more = short.lack > lack
            is_fewer = len(inside) > 1 and (short.lack == lack and count > _MOST_ALIKE
                                            or is_last and len(kept) > MOST_LINES)
            if (is_more or is_fewer) and all(set(short.objects).isdisjoint(one.objects) for one in rest):
                kept = [*rest, short]
                counts[short.objects] = 1 if is_more else count
    kept.sort(key=lambda short: short.objects)
    return kept


def short_of_lack(lack: Lack) -> Short:
    """A shortage of places that counts alone show."""
    persons = tuple(sorted({*lack.rows, *(person for person, _ in lack.once)}))
    return Short(tuple(sorted(lack.columns)), persons, lack.wanted, lack.had)


def lines_of_lacks(roster: Roster, month: Month, lacks: Sequence[Lack]) -> List[str]:
    """What counts alone show, the greatest shortages first; the last of many together."""
    ordered = sorted(lacks, key=lambda lack: lack.had - lack.wanted)
    shown = ordered if len(ordered) <= MOST_LINES else ordered[:MOST_LINES - 1]
    lines = [line_of(roster, month, short_of_lack(lack)) if lack.of_columns else _of_persons(roster, lack)
             for lack in shown]
    others = ordered[len(shown):]
    if others:
        few = sum(lack.wanted - lack.had for lack in others)
        lines.append(f"in {len(others)} other groups {few} too few")
    return lines


def line_of(roster: Roster, month: Month, short: Short) -> str:
    """What a planner reads: so many are needed there, and these may take so many at most."""
    few = f"{short.lack} too few{_by(short)}"
    if len(short.objects) == 1:
        can = f"at most {short.had} of {_who(roster, short.persons)} can" if short.had else "nobody can"
        return f"{roster.objects[short.objects[0]]} needs {counted(short.wanted, roster.titles[0])}, and {can}: {few}"
    needed = f"{counted(short.wanted, roster.titles[1])}{_where(roster, month, short)} are needed"
    if not short.had:
        return f"{needed}, nobody may take any: {few}"
    return f"{needed}, {_who(roster, short.persons)} may take at most {short.had}: {few}"


def _by(short: Short) -> str:
    """The rules that limit a sum, the first of many."""
    more = len(short.limits) - _MOST_RULES
    shown = "; ".join(short.limits[:_MOST_RULES])
    return f" ({shown}{f'; and {more} more' if more > 0 else ''})" if shown else ""


def _who(roster: Roster, persons: Sequence[int]) -> str:
    word = roster.titles[0]
    if len(persons) == len(roster.persons):
        return f"the {counted(len(persons), word)}" if len(persons) > 1 else roster.persons[persons[0]]
    if len(persons) <= MOST_NAMES:
        return joined([roster.persons[person] for person in persons])
    return f"{len(persons)} of the {counted(len(roster.persons), word)}"


def _where(roster: Roster, month: Month, short: Short) -> str:
    """Which objects are meant: their kind and days where they are all of these, or their names."""
    objects = short.objects
    needed = _needed(roster, month)
    days = {month.shifts[object_].day for object_ in objects if object_ in month.shifts}
    kinds = {month.shifts[object_].kind for object_ in objects if object_ in month.shifts}
    of_days = {object_ for object_ in needed if object_ in month.shifts and month.shifts[object_].day in days}
    if set(objects) == needed or set(objects) == of_days:
        return f" {_span(month, days)}" if days else ""
    kind = next(iter(kinds)) if len(kinds) == 1 else None
    if kind and set(objects) == {object_ for object_ in of_days if month.shifts[object_].kind == kind}:
        return f" ({kind}) {_span(month, days)}"
    return f" ({first_of([roster.objects[object_] for object_ in objects])})"


def _needed(roster: Roster, month: Month) -> Set[int]:
    """The objects that need anybody."""
    return {object_ for object_ in range(len(roster.objects))
            if object_ not in roster.past and (roster.of_object(object_).least > 0 or not roster.has_bounds)}


def _span(month: Month, days: Set[int]) -> str:
    """Days by name: from the first to the last where these are all between them that have anything."""
    held = sorted({shift.day for shift in month.shifts.values()})
    own = sorted(days)
    if len(own) == 1:
        return f"on {month.name(own[0])}"
    if held[held.index(own[0]):held.index(own[-1]) + 1] == own:
        return f"from {month.name(own[0])} to {month.name(own[-1])}"
    return f"on {first_of([month.name(day) for day in own])}"


def _of_persons(roster: Roster, lack: Lack) -> str:
    """These persons can't have all that they must."""
    word = roster.titles[1]
    return (f"{_who(roster, lack.rows)} must take {counted(lack.wanted, word)}, and may take at most {lack.had}: "
            f"{lack.wanted - lack.had} too few")
