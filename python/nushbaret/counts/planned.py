"""Best plans by counts, each with numbers that prove it, and what is short."""
from heapq import heappop, heappush
from typing import Any, Collection, Dict, FrozenSet, Iterator, List, NamedTuple, Optional, Sequence, Tuple

from ..rows.certificate_check import shows
from .count_levels import Given, Levelled, best_of
from .count_rows import Shown, certificate_of_best, check_lacks
from .counted import Best, Bounds, Counted, Marked, Pair, is_shown, show_progress
from .exchanges import Exchanges, Other, exact_numbers, exchanges_of, free_pairs, next_plan
from .lack import Cut, Lack, cut_of, lacks_of
from .narrowed import Part, fixed, narrowed, reduced_costs, settled, whole


class Plans(NamedTuple):
    """The plans that are compared, those of a part of a problem: of the whole one, or, by the shortages' `cut`, of
    those that miss as little as can be; and a best one of them with its numbers."""

    problem: Counted
    part: Part
    best: Levelled
    cut: Optional[Cut] = None

    def pairs(self) -> List[Pair]:
        """The pairs of the best plan."""
        return self.part.pairs(self.problem, self.part.counted.pairs_of(self.best.plan))

    def exchanges(self) -> Exchanges:
        """How the plans that are as good as the best one, and others, differ from it."""
        counted = self.part.counted
        return exchanges_of(counted, counted.pairs_of(self.best.plan), self.best.row_numbers, self.best.column_numbers)

    def free_pairs(self) -> List[List[Pair]]:
        """The pairs that are in some best plan and not in all, in groups that depend on each other. The library checks
        that all best plans have the same of the others."""
        found, counted = free_pairs(self.exchanges()), self.part.counted
        free = {pair for those in found for pair in those}
        _check_marks(counted, self.best, [0 if pair in free else 1 if is_chosen else -1 for pair, is_chosen in zip(
            zip(counted.rows, counted.columns), self.best.plan)])
        return [sorted(self.part.named(those)) for those in found]

    def after(self) -> Iterator[Other]:
        """The plans after the best one, each with what it costs more."""
        for other in _plans_after(self.part.counted, self.exchanges()):
            yield Other(other.more, set(self.part.pairs(self.problem, other.pairs)))

    def shown(self, factor: int = 1) -> Shown:
        """The best plan with its numbers, each times a factor, as a certificate shows it."""
        others = [0] * len(self.problem.row_bounds), [0] * len(self.problem.column_bounds)
        rows, columns = self.part.numbers(self.best.row_numbers, self.best.column_numbers, others)
        return Shown(self.pairs(), [factor * row for row in rows], [factor * column for column in columns], self.cut)


class Planned(NamedTuple):
    """What is short, and the plans with a best one: None where something is short and the plan may not be partial."""

    lacks: List[Lack]
    plans: Optional[Plans]


def planned(counted: Counted, partial: bool, given: Optional[Given] = None) -> Planned:
    """The shortages and a best plan, for the problem's own costs or for given ones."""
    found = best_of(counted, given)
    if not isinstance(found, Marked):
        return Planned([], Plans(counted, whole(counted), found))
    counted = counted.listed()
    lacks = lacks_of(counted)
    check_lacks(counted, lacks)
    if not lacks:
        raise RuntimeError("counts were found to be short, and then nothing was: please report this problem")
    if not partial:
        return Planned(lacks, None)
    cut = cut_of(counted, lacks)
    part, own = cut.part, given and given.at(cut.part.places)
    if given is None:
        part = part._replace(counted=part.counted._replace(costs=[counted.costs[place] for place in part.places]))
    found = best_of(part.counted, own, True)
    if isinstance(found, Marked):
        raise RuntimeError("a plan was found to miss as little as can be, and there is none: please report this "
                           "problem")
    plans = Plans(counted, part, found, cut)
    show_progress(counted, part.plan(found.plan, len(counted.rows)))
    costs, factor = (counted.costs, 1) if given is None else given.whole(found.denominator)
    if not shows(certificate_of_best(counted._replace(costs=costs), lacks, plans.shown(factor))):
        raise RuntimeError("a plan was found to be the best by its counts, and the check of these doesn't show it: "
                           "please report this problem")
    return Planned(lacks, plans)


def with_fewest_changes(plans: Plans, kept: Collection[Pair]) -> Plans:
    """The same with a best plan of the fewest changes: pairs that aren't kept, and kept ones that it doesn't have."""
    counted, best = plans.part.counted.listed(), plans.best
    rows, columns = best.row_numbers, best.column_numbers
    face = narrowed(counted, reduced_costs(counted, counted.costs, rows, columns), 0,
                    fixed(counted.row_bounds, rows, 0), fixed(counted.column_bounds, columns, 0))
    named = plans.part.named((counted.rows[place], counted.columns[place]) for place in face.places)
    found = best_of(face.counted._replace(costs=[-1 if pair in kept else 1 for pair in named]), None, True)
    if isinstance(found, Marked):
        raise RuntimeError("a best plan was found, and then there was none: please report this problem")
    plan = face.plan(found.plan, len(counted.rows))
    if _sum(counted, plan) != _sum(counted, best.plan):
        raise RuntimeError("a plan was found to be as good as the best, and isn't: please report this problem")
    best = best._replace(plan=plan)
    marks = [-1 if pair in kept else 1 for pair in plans.part.named(zip(counted.rows, counted.columns))]
    none = [0] * len(rows), [0] * len(columns)
    _check_marks(counted, best, marks, face.numbers(found.row_numbers, found.column_numbers, none))
    return plans._replace(best=best)


def _sum(counted: Counted, plan: Any) -> int:
    return sum(cost for cost, is_chosen in zip(counted.costs, plan) if is_chosen)


def _check_marks(counted: Counted, best: Levelled, marks: Sequence[int],
                 more: Optional[Sequence[Sequence[int]]] = None) -> None:
    """Lets the library check that a best plan is best at marked costs too: many times each cost, and its mark more.
    Then no best plan has a smaller sum of marks. Where these costs are beyond its range, nothing is checked. `more`
    has what is known to be added to as many times the plan's numbers.

    By the laws `marks_mean_fewest_changes` and `marks_mean_the_same` of `count_checker` the plan has the fewest changes
    from pairs whose mark is -1 where all others have 1, and all best plans have the same of the marked pairs where its
    own have 1 and others -1."""
    times = 2 * counted.most_pairs() + 1
    marked = counted._replace(costs=[times * cost + mark for cost, mark in zip(counted.costs, marks)])
    if not marks or not marked.in_range():
        return
    numbers = [[times * number for number in own] for own in (best.row_numbers, best.column_numbers)]
    if more is not None:
        numbers = [[number + own for number, own in zip(*both)] for both in zip(numbers, more)]
        if is_shown(marked, Best(best.plan, *numbers)):
            return
    if not is_shown(marked, Best(best.plan, *exact_numbers(marked, counted.pairs_of(best.plan), *numbers))):
        raise RuntimeError("best plans were found to agree in some pairs, or one to have the fewest changes, and the "
                           "check doesn't show it: please report this problem")


def missing(bounds: Sequence[Bounds], had: Dict[int, int]) -> Dict[int, int]:
    """By how many the least counts are missed."""
    return {number: bound.least - had.get(number, 0) for number, bound in enumerate(bounds)
            if had.get(number, 0) < bound.least}


# The plans in the order of their costs.


class _Split(NamedTuple):
    """Plans that agree in some pairs, which they may have or not: by how much the best of them costs more than the best
    of all, its changes within them, and which of these pairs they have."""

    more: int
    exchanges: Exchanges
    agreed: FrozenSet[Pair]
    had: FrozenSet[Pair]


def _plans_after(counted: Counted, first: Exchanges) -> Iterator[Other]:
    """The plans after a best one, each with what it costs more than that one.

    Hamacher and Queyranne (1985): all plans are split into parts, each with its best plan and its second best one. The
    next plan is the best of the second ones. A pair that only one of its part's two plans has splits the part: those
    that have it, and those that haven't."""
    waiting: List[Tuple[int, int, Other, _Split]] = []
    number = 0

    def wait(split: _Split) -> None:
        nonlocal number
        second = next_plan(split.exchanges)
        if second is not None:
            number += 1
            heappush(waiting, (split.more + second.more, number, second, split))

    wait(_Split(0, first, frozenset(), frozenset()))
    while waiting:
        cost, _, second, split = heappop(waiting)
        pairs = second.pairs | split.had
        yield Other(cost, pairs)
        pair = min(split.exchanges.chosen ^ second.pairs)
        agreed = split.agreed | {pair}
        wait(split._replace(exchanges=split.exchanges.without(pair), agreed=agreed))
        had = frozenset(pairs & agreed)
        rest = settled(counted, had, agreed - pairs)
        best: Any = best_of(rest, None, True)
        own = exchanges_of(rest, sorted(pairs - agreed), best.row_numbers, best.column_numbers)
        wait(_Split(cost, own, agreed, had))
