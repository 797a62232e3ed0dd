"""Which rules a plan from elsewhere breaks."""
from collections import Counter
from typing import Dict, Iterator, List, Sequence, Tuple

from ..answer import counted, pairs_of
from ..by_counts import bounds_around
from ..groups import Broken, Missing, Paired, missing_of, order_of
from ..names import joined
from ..plan_json import NamedPair
from ..roster import OldPlan, PlanLine, Roster
from ..sheets import item_of


def broken_rules(roster: Roster, hand: OldPlan, repeated: Sequence[NamedPair],
                 fixed: Sequence[PlanLine]) -> List[Broken]:
    """All rules that a plan breaks: pairs that the roster doesn't have, repeated pairs, groups, counts, and fixed
    pairs."""
    pairs = sorted([*hand.known, *(PlanLine(*pair, 0) for pair in hand.forbidden)])
    return [*_not_listed(roster, hand), *_repeated(hand, repeated), *_two_of_a_group(roster, pairs),
            *_too_many(roster, pairs), *(_of_count(roster, "least", lack.side, lack.number, lack.had, "at least "
                                                   f"{lack.least}") for lack in lacking(roster, pairs, fixed)),
            *_not_as_fixed(roster, pairs, fixed)]


def _not_listed(roster: Roster, hand: OldPlan) -> Iterator[Broken]:
    forbidden = {(roster.persons[person], roster.objects[object_]) for person, object_, _ in hand.forbidden}
    for person, object_ in hand.pairs:
        gone = [name for name, names in ((person, roster.person_numbers), (object_, roster.object_numbers))
                if name not in names]
        if gone:
            yield Broken("unlisted", [person], [object_], f"{person}, {object_}: the roster has no "
                         f"{' and no '.join(gone)}")
        elif (person, object_) in forbidden:
            yield Broken("unlisted", [person], [object_], f"{person}, {object_}: the roster forbids this pair")


def _repeated(hand: OldPlan, repeated: Sequence[NamedPair]) -> Iterator[Broken]:
    first = {(pair.person, pair.object): pair.line for pair in hand.named}
    lines: Dict[Tuple[str, str], List[int]] = {}
    for pair in repeated:
        lines.setdefault((pair.person, pair.object), [first[pair.person, pair.object]]).append(pair.line)
    for (person, object_), own in lines.items():
        listed = f"{', '.join(map(str, own[:-1]))} and {own[-1]}"
        yield Broken("repeated", [person], [object_], f"{person}, {object_}: {len(own)} times, in "
                     f"{item_of(hand.path)}s {listed}")


def _two_of_a_group(roster: Roster, pairs: Sequence[Paired]) -> Iterator[Broken]:
    groups = roster.groups
    own: Dict[Tuple[int, int], List[str]] = {}
    for pair in pairs:
        if groups is not None and pair.object in groups.of_objects and pair.object not in roster.past:
            own.setdefault((pair.person, groups.of_objects[pair.object]), []).append(roster.objects[pair.object])
    for (person, group), objects in own.items():
        if groups is not None and len(objects) > 1:
            yield Broken("group", [roster.persons[person]], objects, f"{roster.persons[person]}: {joined(objects)}, "
                         f"{len(objects)} of {groups.title} {groups.names[group]}")


def _too_many(roster: Roster, pairs: Sequence[Paired]) -> Iterator[Broken]:
    had, used = Counter(pair.person for pair in pairs), Counter(pair.object for pair in pairs)
    for person in sorted(had):
        if had[person] > roster.tasks_of(person):
            yield _of_count(roster, "most", 0, person, had[person], f"at most {roster.tasks_of(person)}")
    for object_ in sorted(used, key=order_of(roster).__getitem__):
        if used[object_] > roster.capacity_of(object_) and object_ not in roster.past:
            yield _of_count(roster, "most", 1, object_, used[object_], f"at most {roster.capacity_of(object_)}")


def lacking(roster: Roster, pairs: Sequence[Paired], fixed: Sequence[PlanLine]) -> List[Missing]:
    """Which least counts pairs miss. With single numbers the side with the smaller sum must have all, and both where
    the sums are one."""
    if roster.has_bounds:
        return missing_of(roster, pairs)
    most = [[bound.most for bound in bounds] for bounds in bounds_around(roster, fixed)]
    sums = [sum(own) for own in most]
    had = Counter(pair.person for pair in pairs), Counter(pair.object for pair in pairs)
    given = Counter(pair.person for pair in fixed), Counter(pair.object for pair in fixed)
    return [Missing(side, (roster.persons, roster.objects)[side][number], number, had[side][number],
                    left + given[side][number]) for side in range(2) if sums[side] <= sums[1 - side]
            for number, left in enumerate(most[side]) if left and had[side][number] < left + given[side][number]]


def lack_of(roster: Roster, pairs: Sequence[Paired], fixed: Sequence[PlanLine]) -> int:
    """By how much pairs miss least counts, in all."""
    return sum(missing.least - missing.had for missing in lacking(roster, pairs, fixed))


def _of_count(roster: Roster, rule: str, side: int, number: int, had: int, bound: str) -> Broken:
    """A person (side 0) or an object that has too many or too few."""
    name, other = (roster.persons, roster.objects)[side][number], roster.titles[1 - side]
    has = counted(had, other) if had else f"no {other}"
    return Broken(rule, [] if side else [name], [name] if side else [], f"{name}: {has}, {bound}")


def _not_as_fixed(roster: Roster, pairs: Sequence[PlanLine], fixed: Sequence[PlanLine]) -> Iterator[Broken]:
    """Fixed pairs that are missing, and pairs in the past that weren't there."""
    own, given = pairs_of(pairs), pairs_of(fixed)
    for person, object_ in sorted(own ^ given):
        names = roster.persons[person], roster.objects[object_]
        kind = "past" if object_ in roster.past else "fixed"
        if (person, object_) in given:
            yield Broken("fixed", [names[0]], [names[1]], f"{names[0]}, {names[1]}: the {kind} pair is missing")
        elif kind == "past":
            yield Broken("fixed", [names[0]], [names[1]], f"{names[0]}, {names[1]}: the past doesn't have this pair")
