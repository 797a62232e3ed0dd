"""Answers to rosters in which names count several times, or of which nobody takes two of a group."""
from collections import Counter
from itertools import islice
from typing import List, Sequence, Tuple

from ..counts.lack import Lack
from ..counts.planned import planned, with_fewest_changes
from ..counts.counted import Bounds, Counted
from .answer import Answer, Request, ShortGroup, plan_of, with_following
from .names import said
from .roster import PlanLine, Roster
from .sentences import sentence_of
from .single_nodes import Swap


def answer_by_counts(roster: Roster, request: Request) -> Answer:
    """The answer to a roster with counts or groups; TooLarge where it is so for the library."""
    counted = counted_of(roster, request)
    lacks, plans = planned(counted, request.fullest)
    # What stands, and is planned around, in words.
    is_past = {pair.object in roster.past for pair in request.fixed}
    names = [said("the past")] * (True in is_past) + [said("the fixed pairs")] * (False in is_past)
    around = said("around", said("and").join(names)) if names else ""
    groups = [_short(roster, counted, lack, around) for lack in lacks]
    if plans is None:
        return Answer(None, groups)
    if request.kept is not None and request.change is not None:
        return Answer(plan_of(roster, request.fixed, plans.pairs()), groups)
    if request.kept is not None:
        plans = with_fewest_changes(plans, request.kept)
    swaps = [Swap(*(sorted(set(side)) for side in zip(*pairs))) for pairs in plans.free_pairs()]
    plan = plan_of(roster, request.fixed, plans.pairs())._replace(swaps=swaps, is_only_one=not swaps)
    count = max(request.plans - 1, int(request.others and not swaps))
    following = [plan_of(roster, request.fixed, sorted(other.pairs)) for other in islice(plans.after(), count)]
    return Answer(with_following(plan, following, request.others and not swaps), groups)


def counted_of(roster: Roster, request: Request) -> Counted:
    """What is left to plan around the fixed pairs, with costs that are to be least. Where changes cost, these are
    doubled: half of what a change costs is that of a pair that comes, and of one that goes."""
    # Objects in no group come after the groups that were given.
    n_groups, in_group = (len(roster.groups.names), roster.groups.of_objects) if roster.groups else (0, {})
    group_of = [in_group.get(object_, n_groups + object_) for object_ in range(len(roster.objects))]
    taken = {(pair.person, group_of[pair.object]) for pair in request.fixed}
    sign = -1 if request.maximize else 1
    rows: List[int] = []
    columns: List[int] = []
    costs: List[int] = []
    for person, object_, cost in sorted(zip(roster.of_persons, roster.of_objects, roster.costs)):
        if object_ not in roster.past and (not taken or (person, group_of[object_]) not in taken):
            rows.append(person)
            columns.append(object_)
            costs.append(sign * cost)
    if request.kept is not None and request.change:
        costs = [2 * cost + (-request.change if pair in request.kept else request.change)
                 for cost, pair in zip(costs, zip(rows, columns))]
    return Counted(*bounds_around(roster, request.fixed), group_of, n_groups, rows, columns, costs)


def bounds_around(roster: Roster, fixed: Sequence[PlanLine]) -> Tuple[List[Bounds], List[Bounds]]:
    """How many each person and each object takes in addition to fixed pairs, in the past none. With single numbers the
    smaller side takes all."""
    had, used = Counter(pair.person for pair in fixed), Counter(pair.object for pair in fixed)
    persons = [roster.of_person(person).left(had[person]) for person in range(len(roster.persons))]
    objects = [Bounds(0, 0) if object_ in roster.past else roster.of_object(object_).left(used[object_])
               for object_ in range(len(roster.objects))]
    if roster.has_bounds:
        return persons, objects
    assigned = persons if sum(own.most for own in persons) <= sum(own.most for own in objects) else objects
    assigned[:] = [Bounds(own.most, own.most) for own in assigned]
    return persons, objects


def _short(roster: Roster, counted: Counted, lack: Lack, around: str) -> ShortGroup:
    """Who is short, and the sentence that says so."""
    persons = sorted({*lack.rows, *(row for row, _ in lack.once)})
    once = set(lack.once)
    objects = set(lack.columns)
    if not lack.of_columns:
        objects.update(column for row_group, column in zip(counted.row_groups(), counted.columns) if row_group in once)
    return ShortGroup(persons, sorted(objects), lack.of_columns, lack.wanted, lack.had,
                      around + sentence_of(roster, counted, lack))
