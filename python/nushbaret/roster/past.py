"""The past of a plan: its pairs in the groups before one stay as they were, and only the rest is planned."""
import re
from collections import Counter
from typing import Dict, List, NamedTuple, NoReturn, Optional, Sequence, Tuple

from ..counts.counted import Bounds
from .answer import counted, listed
from .costs import CostColumn
from .dates import dates_of
from .names import quoted, said, shown_path
from .plan_json import NamedPair
from .roster import Groups, OldPlan, PlanLine, Roster, Takes, like, old_plan_of
from .sheets import RosterFault, is_json

Triple = Tuple[int, int, int]


class Past(NamedTuple):
    """What is over: the groups, the pairs of the plan there, and what is said of them."""

    groups: List[int]
    pairs: List[PlanLine]
    lines: List[str]


class _Refuser(NamedTuple):
    """Refuses costs in a plan's file."""

    path: str

    def refuse(self, text: str, line: Optional[int] = None, column: Optional[int] = None) -> NoReturn:
        raise RosterFault(self.path, text, line, column)


def groups_before(groups: Groups, name: str) -> List[int]:
    """The groups before one: by date where all are dates, and else in the order of their file."""
    dates = dates_of([*groups.names, name]).all
    if dates is not None:
        return [number for number, date in enumerate(dates[:-1]) if date < dates[-1]]
    if name not in groups.names:
        near = like(name, groups.names)
        hint = said("near", " or ".join(map(quoted, near))) if near else ""
        raise RosterFault("--past", said("no past", groups.title, quoted(name)) + hint)
    return list(range(groups.names.index(name)))


def with_past(roster: Roster, groups: Groups, kept: OldPlan, name: str, rounds: Optional[int]) -> Tuple[Roster, OldPlan,
                                                                                                        Past]:
    """The roster and the plan with a past, which is before a group.

    The pairs of the plan there are allowed, at their cost in the plan's file or 0 where the roster forbids them, also
    those of persons that it doesn't have. Where a person has more of them than it takes at most, that is its greatest
    count. No least count of the past is left. With `rounds` costs are rounded to so many places.
    """
    earlier = groups_before(groups, name)
    own = set(earlier)
    objects = frozenset(object_ for object_, group in groups.of_objects.items() if group in own)
    named = [pair for pair in kept.named if roster.object_numbers.get(pair.object) in objects]
    roster = _with_persons(roster, [pair.person for pair in named])
    pairs = [(roster.person_numbers[pair.person], roster.object_numbers[pair.object]) for pair in named]
    allowed = roster.costs_of(set(pairs))
    added = [(person, object_, _cost_in_file(kept.path, roster, pair, rounds))
             for (person, object_), pair in zip(pairs, named) if (person, object_) not in allowed]
    roster = _with_pairs(roster, added)._replace(past=objects)
    had = Counter(person for person, _ in pairs)
    passing = [person for person in sorted(had) if had[person] > roster.tasks_of(person)]
    lines = [_first_line(roster, groups, kept, name, earlier, len(pairs)), *_forbidden_lines(roster, kept, added),
             *(f"{shown_path(kept.path)}: " + said("past beyond most", roster.persons[person], counted(
                 had[person], roster.titles[1]), roster.tasks_of(person), had[person])
               for person in passing if roster.persons[person] not in kept.gone)]
    costs = roster.costs_of(set(pairs))
    lines_of_past = [PlanLine(*pair, own.line, costs[pair]) for pair, own in zip(pairs, named)]
    # These are their greatest counts, and the past has no least ones.
    roster = _with_bounds(roster, {person: Bounds(roster.of_person(person).least, had[person]) for person in passing},
                          {object_: Bounds(0, roster.capacity_of(object_)) for object_ in roster.past})
    past = Past(earlier, lines_of_past, lines)
    return roster, old_plan_of(kept.path, roster, kept.named, False)._replace(gone=kept.gone), past


def _with_persons(roster: Roster, names: Sequence[str]) -> Roster:
    """The roster with those of some persons that it doesn't have; they take none."""
    new = [name for name in dict.fromkeys(names) if name not in roster.person_numbers]
    if not new:
        return roster
    numbers = {name: number for number, name in enumerate(new, len(roster.persons))}
    roster = _with_bounds(roster, dict.fromkeys(numbers.values(), Bounds(0, 0)), {})
    return roster._replace(persons=roster.persons + new, person_numbers={**roster.person_numbers, **numbers},
                           gone=frozenset(numbers.values()))


def _with_pairs(roster: Roster, added: Sequence[Triple]) -> Roster:
    """The roster with more pairs, in its order."""
    if not added:
        return roster
    triples = [*zip(roster.of_persons, roster.of_objects, roster.costs), *added]
    if roster.by_persons:
        triples.sort(key=lambda triple: (triple[0], triple[1] if roster.is_matrix else 0))
    lists = zip(*triples)
    of_persons, of_objects, costs = (type(old)(old.typecode, new)
                                     for old, new in zip((roster.of_persons, roster.of_objects, roster.costs), lists))
    return roster._replace(of_persons=of_persons, of_objects=of_objects, costs=costs)


def _with_bounds(roster: Roster, persons: Dict[int, Bounds], objects: Dict[int, Bounds]) -> Roster:
    """The roster with other counts of some names."""
    takes = roster.takes or Takes({}, {}, True)
    return roster._replace(takes=Takes({**takes.persons, **persons}, {**takes.objects, **objects}, takes.are_sums))


def _cost_in_file(path: str, roster: Roster, pair: NamedPair, rounds: Optional[int]) -> int:
    """What a pair costs in the plan's file, in the roster's units; 0 where no number stands there. A number that can't
    be read is refused."""
    costs = CostColumn(_Refuser(path), roster.decimals if rounds is None else None, roster.comma and not is_json(path),
                       rounds)
    try:
        costs.take(pair.cost, pair.line, 3)
    except RosterFault:
        if re.fullmatch(r"[+-]?[0-9.,][0-9., 'eE+-]*", pair.cost):
            raise
        return 0
    return int(costs.scaled()[1][0])


def _first_line(roster: Roster, groups: Groups, kept: OldPlan, name: str, earlier: List[int], count: int) -> str:
    """How much stays."""
    if not earlier:
        return f"{shown_path(kept.path)}: {said('none before', groups.title, name)}"
    which = said("before", counted(len(earlier), groups.title), name, listed(groups.names, earlier))
    return f"{shown_path(kept.path)}: {said('stays' if count == 1 else 'stay', counted(count, 'pair'), which)}"


def _forbidden_lines(roster: Roster, kept: OldPlan, added: Sequence[Triple]) -> List[str]:
    """Which pairs stay that the roster doesn't allow, and at which cost."""
    own: Dict[int, List[str]] = {}
    for person, object_, cost in added:
        own.setdefault(person, []).append(f"{roster.objects[object_]}, {roster.shown(cost)}")
    begin = shown_path(kept.path)
    return [f"{begin}: {said('kept though forbidden', roster.persons[person], '; '.join(pairs))}"
            for person, pairs in own.items()]


def with_fixed(roster: Roster, past: Past, fixed: Sequence[PlanLine], path: str) -> List[PlanLine]:
    """The pairs of the past, and those of a file of fixed pairs.

    Raises `RosterFault` for the first fixed pair in the past that the plan doesn't have, and for the first person who
    has more in both than it takes.
    """
    pairs = {(pair.person, pair.object) for pair in past.pairs}
    new = [pair for pair in fixed if (pair.person, pair.object) not in pairs]
    had = Counter(pair.person for pair in past.pairs)
    for pair in new:
        names = f"{roster.persons[pair.person]}, {roster.objects[pair.object]}"
        if pair.object in roster.past:
            raise RosterFault(path, f"{names} is in the past, where the kept plan doesn't have it", pair.line)
        had[pair.person] += 1
        if had[pair.person] > roster.tasks_of(pair.person):
            raise RosterFault(path, said("most with the past", names, roster.persons[pair.person], had[pair.person],
                                         roster.tasks_of(pair.person)), pair.line)
    return [*past.pairs, *new]
