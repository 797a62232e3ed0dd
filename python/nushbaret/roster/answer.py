"""Answers by names: the plan of a roster, or who is short of what; plans whose dearest pair is as cheap as possible;
and what changes from an earlier plan: who loses which pairs, and who gets which."""
from array import array
from collections import Counter
from itertools import compress, islice
from typing import Callable, Dict, Iterable, List, Mapping, NamedTuple, Optional, Sequence, Set, Tuple, Union

from ..counts.counted import Bounds
from ..counts.lack import Lack
from ..lap.fewest import fewest_changes
from ..lap.matching import short_groups
from ..lap.ranking import plans_in_order
from ..lap.solving import BestPlan, best_plan, rents_of
from .groups import Paired, missing_of, order_of
from .names import SHARED, NamesShown, first_of, numbered, said
from .roster import OldPlan, PlanLine, Roster
from .single_nodes import RosterNodes, Swap, changed, kept_most, nodes_without, problem_of, swaps_of

MOST_NAMES_SHOWN = 20
# A person and an object, by number.
Numbered = Tuple[int, int]


class Pair(NamedTuple):
    """A person and an object of a plan, by number, with its cost; `fixed` where it was given."""

    person: int
    object: int
    cost: int
    fixed: bool


class ShortGroup(NamedTuple):
    """Why there is no plan. Where `of_objects` is false these persons need `wanted` and can have no more than `had`, of
    these objects alone; where it is true it is the other way round. `text` is the sentence that says so, where it isn't
    `sentence` that does."""

    persons: List[int]
    objects: List[int]
    of_objects: bool
    wanted: int
    had: int
    text: str = ""


class NamedPlan(NamedTuple):
    """Pairs in the order of the persons, their cost, who and what gets less than it should, and the rent of each object
    that isn't fixed, where nobody counts several times. Costs and rents are in the roster's units. `is_only_one` says
    that no other plan is as good; where others were asked for, `swaps` are the groups that could swap at no cost, and
    `next_cost` is that of the best other plan, if it costs more. `following` are the next plans in order, as many as
    were asked for. Where changes are weighed nothing is said of others."""

    pairs: List[Pair]
    cost: int
    without: List[int]
    unused: List[int]
    rents: Mapping[int, int]
    swaps: Sequence[Swap] = ()
    is_only_one: bool = True
    next_cost: Optional[int] = None
    following: Sequence["NamedPlan"] = ()


class Answer(NamedTuple):
    """A best plan; or the groups that are short, then with the fullest plan where it was asked for."""

    plan: Optional[NamedPlan]
    groups: List[ShortGroup]


class Fair(NamedTuple):
    """What --fair says: the dearest pair that isn't fixed, if any pair is needed, and the plan of the least cost, with
    its dearest pair."""

    pair: Optional[Pair]
    best: NamedPlan
    best_pair: Pair


class Request(NamedTuple):
    """What is asked of a roster: pairs that stand, whatever they cost; the greatest cost, not the least; where there is
    no plan for all the fullest one; the pairs of an earlier plan, from which as little is to change as can be at no
    cost, or where each pair that comes and each that goes costs half of `change`; the best other plan, if it isn't as
    good; and so many plans in all, in order."""

    fixed: Sequence[PlanLine] = ()
    maximize: bool = False
    fullest: bool = False
    kept: Optional[Set[Tuple[int, int]]] = None
    change: Optional[int] = None
    others: bool = False
    plans: int = 1


def answer_of(roster: Roster, request: Request) -> Answer:
    """The answer to a roster in which each name counts once; TooLarge where it is so for the library."""
    nodes = RosterNodes(list(range(len(roster.persons))), list(range(len(roster.objects))), roster.of_persons,
                        roster.of_objects, roster.costs, roster.is_full)
    if request.fixed:
        nodes = nodes_without(nodes, pairs_of(request.fixed))
    costs = array("q", map(int.__neg__, nodes.costs)) if request.maximize else nodes.costs
    if request.kept is not None and request.change:
        costs = changed(nodes, costs, request.kept, request.change)
    problem = problem_of(nodes, costs)
    if request.kept is not None and request.change is None:
        best = fewest_changes(problem, nodes.numbered(request.kept))
        if best is not None:
            return Answer(_plan(roster, request._replace(kept=None), nodes, best), [])
    best = best_plan(problem)
    groups: List[ShortGroup] = []
    if best is None:
        groups = shortages(nodes, short_groups(problem))
        best = best_plan(problem, True) if request.fullest else None
    return Answer(None if best is None else _plan(roster, request, nodes, best), groups)


def _plan(roster: Roster, request: Request, nodes: RosterNodes, best: BestPlan) -> NamedPlan:
    prices = rents_of(best)
    of_objects, chosen = dict(zip(nodes.of_columns, prices)), nodes.pairs(best.rows, best.columns)
    plan = plan_of(roster, request.fixed, chosen, of_objects)
    if request.kept is not None and request.change is not None:
        return plan
    swaps = swaps_of(nodes, best)
    if request.kept is not None and chosen:
        first, chosen = plan, kept_most(nodes, best, request.kept)
        plan = plan_of(roster, request.fixed, chosen, of_objects)
        if (len(plan.pairs), plan.cost) != (len(first.pairs), first.cost):
            raise RuntimeError("a plan with fewest changes was found to be as good as the best, and isn't")
    plan = plan._replace(swaps=swaps if request.others else [], is_only_one=not swaps)
    is_next_shown = request.others and plan.is_only_one
    count = max(request.plans - 1, int(is_next_shown))
    # The library's first plan may be another one than that with the fewest changes.
    ranked = plans_in_order(best, count + 1) if count else iter(())
    others = (pairs for pairs in (nodes.pairs(*other) for other in ranked) if pairs != chosen)
    following = [plan_of(roster, request.fixed, pairs) for pairs in islice(others, count)]
    return with_following(plan, following, is_next_shown)


def with_following(plan: NamedPlan, following: Sequence[NamedPlan], is_next_shown: bool) -> NamedPlan:
    """A plan with those after it; where none is as good, the cost of the next one is known."""
    if is_next_shown and following and following[0].cost == plan.cost:
        raise RuntimeError("no other plan was found to be as good, and then one was")
    return plan._replace(following=following, next_cost=following[0].cost if is_next_shown and following else None)


def shortages(nodes: RosterNodes, groups: Sequence[Tuple[List[int], List[int]]]) -> List[ShortGroup]:
    """All groups that are short, by the roster's numbers."""
    of_objects = len(nodes.of_rows) > len(nodes.of_columns)
    shorts = []
    for rows, columns in groups:
        persons, objects = [nodes.of_rows[row] for row in rows], [nodes.of_columns[column] for column in columns]
        wanted, had = (len(objects), len(persons)) if of_objects else (len(persons), len(objects))
        shorts.append(ShortGroup(persons, objects, of_objects, wanted, had))
    return shorts


def plan_of(roster: Roster, fixed: Sequence[PlanLine], chosen: Sequence[Tuple[int, int]],
            rents: Mapping[int, int] = {}) -> NamedPlan:
    """A plan of the fixed pairs and of those chosen for the others, each person's in the order of groups."""
    costs, ranks = roster.costs_of(set(chosen)), order_of(roster)
    pairs = [Pair(pair.person, pair.object, pair.cost, True) for pair in fixed]
    pairs += [Pair(person, object_, costs[person, object_], False) for person, object_ in chosen]
    pairs.sort(key=lambda pair: (pair.person, ranks[pair.object]))
    had, used = Counter(pair.person for pair in pairs), Counter(pair.object for pair in pairs)
    without = [person for person in range(len(roster.persons))
               if had[person] < _wanted(roster, roster.of_person(person))]
    unused = [object_ for object_ in range(len(roster.objects)) if object_ not in roster.past
              and used[object_] < _wanted(roster, roster.of_object(object_))]
    return NamedPlan(pairs, sum(pair.cost for pair in pairs), without, unused, rents)


def _wanted(roster: Roster, bounds: Bounds) -> int:
    """How many a name has that isn't left out. With bounds one is enough, and what misses its least count is
    missing."""
    if not roster.has_bounds:
        return bounds.most
    return 0 if bounds.least else min(bounds.most, 1)


class Out(NamedTuple):
    """Names of persons (side 0) or of objects (side 1) that take less than they may, and how that is called."""

    how: str
    side: int
    names: List[str]


def left_out(roster: Roster, plan: NamedPlan) -> List[Out]:
    """Who gets less than it should, and what isn't full, as far as there are any; with bounds what misses its
    least count, and who and what is in no pair."""
    had, used = Counter(pair.person for pair in plan.pairs), Counter(pair.object for pair in plan.pairs)
    by_bounds = roster.has_bounds
    without = [_part_of(roster.persons[number], had[number], 1 if by_bounds else roster.tasks_of(number))
               for number in plan.without]
    unused = [_part_of(roster.objects[number], used[number], 1 if by_bounds else roster.capacity_of(number))
              for number in plan.unused]
    outs = [Out("missing", side, [f"{missing.name}: {missing.had} of {missing.least}"
                                  for missing in missing_of(roster, plan.pairs) if missing.side == side])
            for side in (1, 0)]
    return [out for out in (*outs, Out("without", 0, without), Out("unused", 1, unused)) if out.names]


def _part_of(name: str, had: int, wanted: int) -> str:
    return name if wanted == 1 else f"{name} ({had} of {wanted})"


# Titles are in any language, so plurals are of these words alone.
PLURALS = {"person": "people", **{word: word + "s" for word in SHARED.with_s.split()}}


def counted(count: int, word: str) -> str:
    """A count of things: 1 shift, 2 shifts, 3 people, 2 \u00d7 Schicht."""
    return f"{count} {word}" if count == 1 else several(str(count), word)


def several(count: str, word: str) -> str:
    """Several things: 2-3 shifts; where the plural of a title isn't known, 2-3 \u00d7 Schicht."""
    return f"{count} {PLURALS[word]}" if word in PLURALS else f"{count} \u00d7 {word}"


def plural(word: str) -> str:
    """The plural of a title, as far as it is known."""
    return PLURALS.get(word, word)


def listed(names: List[str], numbers: List[int]) -> str:
    """Names in a row, the first twenty of many."""
    return first_of([names[number] for number in numbers], MOST_NAMES_SHOWN)


def named(numbers: List[int], word: str, names: List[str]) -> str:
    """How many, and who: 2 shifts (night, weekend)."""
    return f"{counted(len(numbers), word)} ({listed(names, numbers)})"


def sentence(roster: Roster, short: ShortGroup, some_fixed: bool) -> str:
    """What a manager reads of a group that is short, with marks around names."""
    if short.text:
        return short.text
    shown = NamesShown(len(short.persons), len(short.objects))
    sides = numbered(roster.persons, short.persons), numbered(roster.objects, short.objects)
    own, other, side = (1, 0, "objects") if short.of_objects else (0, 1, "persons")
    many, rest = ((counted(len(sides[k]), roster.titles[k]), shown.bracketed(k, sides[k])) for k in (own, other))
    if sides[other]:
        only, advice = said("only", *rest), said(f"some {side}", few(short), few(short))
    else:
        only = said("no one", roster.titles[other])
        advice = said(f"one of {side}" if len(sides[own]) == 1 else f"all {side}", roster.titles[own])
    text = said(f"short {side}", "".join(many), only, advice)
    return said("around", said("the fixed pairs")) + text if some_fixed else text


def few(lack: Union[ShortGroup, Lack]) -> str:
    """How many are short."""
    return said("one") if lack.wanted - lack.had == 1 else str(lack.wanted - lack.had)


Solve = Callable[[Roster, Request], Answer]


def fair_answer(roster: Roster, request: Request, solve: Solve) -> Tuple[Answer, Optional[Fair]]:
    """The plan of the least cost among those whose dearest pair, of those that aren't fixed, is as cheap as possible;
    and what is to be said of it. Without a plan, or with fixed pairs alone, there is nothing to be said.

    A bound on costs that leaves plans as full as before is looked for by halving."""
    best = solve(roster, request._replace(kept=None))
    dearest = _dearest(best.plan, request)
    if best.plan is None or dearest is None:
        return best, None
    values = _values(roster, request, dearest.cost)
    lower, upper = -1, len(values) - 1
    while upper - lower > 1:
        middle = (lower + upper) // 2
        tried = solve(_within(roster, request, values[middle]), request._replace(kept=None))
        if tried.plan is not None and _fullness(roster, tried.plan) == _fullness(roster, best.plan):
            upper = middle
        else:
            lower = middle
    answer = solve(_within(roster, request, values[upper]), request)
    if answer.plan is None:
        raise RuntimeError("a bound on costs was found to leave a plan, and then it left none")
    return Answer(answer.plan, best.groups), Fair(_dearest(answer.plan, request), best.plan, dearest)


def _dearest(plan: Optional[NamedPlan], request: Request) -> Optional[Pair]:
    """The dearest pair of a plan that isn't fixed, the first of several; with the greatest cost in demand, the
    cheapest."""
    pairs = [] if plan is None else [pair for pair in plan.pairs if not pair.fixed]
    if not pairs:
        return None
    return (min if request.maximize else max)(pairs, key=lambda pair: pair.cost)


def _fullness(roster: Roster, plan: NamedPlan) -> Tuple[int, int]:
    """How many are missing, and of how many pairs a plan is where the smaller side takes all."""
    lack = sum(missing.least - missing.had for missing in missing_of(roster, plan.pairs))
    return lack, 0 if roster.has_bounds else len(plan.pairs)


def _values(roster: Roster, request: Request, enough: int) -> List[int]:
    """The different costs, the best first, up to one that is enough."""
    costs = set(roster.costs)
    if request.maximize:
        return sorted((cost for cost in costs if cost >= enough), reverse=True)
    return sorted(cost for cost in costs if cost <= enough)


def _within(roster: Roster, request: Request, worst: int) -> Roster:
    """The roster without the pairs that are worse than a cost."""
    is_kept = [cost >= worst if request.maximize else cost <= worst for cost in roster.costs]
    persons, objects, costs = (array(values.typecode, compress(values, is_kept))
                               for values in (roster.of_persons, roster.of_objects, roster.costs))
    return roster._replace(of_persons=persons, of_objects=objects, costs=costs)


class Lost(NamedTuple):
    """A pair of an earlier plan that can't be any more, by names, and why."""

    person: str
    object: str
    why: str


class Changes(NamedTuple):
    """The pairs that an earlier plan doesn't have, those that it has and could still be, and those that can't be any
    more, which count as no changes."""

    comes: List[Pair]
    goes: List[PlanLine]
    lost: List[Lost]


def pairs_of(pairs: Iterable[Paired]) -> Set[Numbered]:
    """The persons and objects of pairs, by number."""
    return {(pair.person, pair.object) for pair in pairs}


def changes_of(roster: Roster, plan: NamedPlan, kept: OldPlan) -> Changes:
    """What changed from an earlier plan, in the order of persons."""
    before, now = pairs_of(kept.known), pairs_of(plan.pairs)
    left = [pair for pair in sorted(kept.known) if (pair.person, pair.object) not in now]
    full = full_pairs(roster, plan.pairs, [(pair.person, pair.object) for pair in left])
    return Changes([pair for pair in plan.pairs if (pair.person, pair.object) not in before],
                   [pair for pair in left if (pair.person, pair.object) not in full], _lost(roster, kept, full, now))


def full_pairs(roster: Roster, given: Iterable[Paired], pairs: Iterable[Numbered]) -> Set[Numbered]:
    """Those of some pairs whose person takes no more than it has in the past, which `given` has, or whose object takes
    nobody."""
    past = Counter(pair.person for pair in given if pair.object in roster.past)
    return {(person, object_) for person, object_ in pairs
            if roster.tasks_of(person) <= past[person] or roster.capacity_of(object_) == 0}


def _lost(roster: Roster, kept: OldPlan, full: Set[Numbered], now: Set[Numbered]) -> List[Lost]:
    """What of an earlier plan can't be any more: names are gone, or take none, or a pair is forbidden."""
    lost = []
    gone = set(kept.gone)
    forbidden = {(person, object_) for person, object_, _ in kept.forbidden}
    for person, object_ in kept.pairs:
        pair = roster.person_numbers.get(person, -1), roster.object_numbers.get(object_, -1)
        is_gone = person in gone or object_ in gone
        if pair not in now and (is_gone or pair in full or pair in forbidden):
            lost.append(Lost(person, object_, "gone" if is_gone else "takes none" if pair in full else "forbidden"))
    return lost


class OfPerson(NamedTuple):
    """The objects that a person has no more, and those that are new."""

    person: str
    goes: List[str]
    comes: List[str]


def by_person(roster: Roster, changes: Changes) -> List[OfPerson]:
    """The changes of each person that has any, in the roster's order."""
    found: Dict[int, Tuple[List[str], List[str]]] = {}
    for pair in changes.goes:
        found.setdefault(pair.person, ([], []))[0].append(roster.objects[pair.object])
    for new in changes.comes:
        found.setdefault(new.person, ([], []))[1].append(roster.objects[new.object])
    return [OfPerson(roster.persons[person], *found[person]) for person in sorted(found)]
