"""The problem of single nodes of a roster in which each name counts once; who could swap, which the library says; and
where some of the fewer side stay out, a plan with the fewest changes from an earlier one."""
from array import array
from itertools import compress
from typing import Collection, Dict, List, NamedTuple, Sequence, Set, Tuple

from ..costs.kinds import WholeNumbers
from ..costs.limits import GREATEST_COST, Numbers, TooLarge
from ..costs.orientation import oriented
from ..costs.problem import AssignmentProblem, of_whole_numbers
from ..lap.proved import groups
from ..lap.solving import BestPlan, best_plan

Pair = Tuple[int, int]


class RosterNodes(NamedTuple):
    """Rows and columns with the pairs among them. `of_rows[row]` is a person, and `of_columns[column]` an object.
    `is_full` says that the pairs are a whole matrix, in order."""

    of_rows: List[int]
    of_columns: List[int]
    rows: Numbers
    columns: Numbers
    costs: Numbers
    is_full: bool = False

    def pairs(self, rows: Sequence[int], columns: Sequence[int]) -> List[Pair]:
        """The persons and objects that matched nodes stand for."""
        return sorted(zip(map(self.of_rows.__getitem__, rows), map(self.of_columns.__getitem__, columns)))

    def numbered(self, pairs: Collection[Pair]) -> List[Pair]:
        """The rows and columns that stand for pairs of persons and objects, where these are there."""
        n_rows, n_columns = len(self.of_rows), len(self.of_columns)
        if self.of_rows == [*range(n_rows)] and self.of_columns == [*range(n_columns)]:
            return [pair for pair in pairs if pair[0] < n_rows and pair[1] < n_columns]
        rows, columns = (dict(zip(names, range(len(names)))) for names in (self.of_rows, self.of_columns))
        return [(rows[person], columns[object_]) for person, object_ in pairs if person in rows and object_ in columns]


def nodes_without(nodes: RosterNodes, fixed: Collection[Pair]) -> RosterNodes:
    """The nodes without those of fixed pairs, where each stands for the name of its number. A whole matrix stays
    one."""
    sides = []
    for side, numbers, count in ((0, nodes.rows, len(nodes.of_rows)), (1, nodes.columns, len(nodes.of_columns))):
        taken = {pair[side] for pair in fixed}
        left = [number for number in range(count) if number not in taken]
        places = {number: place for place, number in enumerate(left)}
        sides.append((numbers, left, places))
    kept = bytes(row in sides[0][2] and column in sides[1][2] for row, column in zip(nodes.rows, nodes.columns))
    rows, columns = (array("I", map(places.__getitem__, compress(numbers, kept))) for numbers, _, places in sides)
    return RosterNodes(sides[0][1], sides[1][1], rows, columns, array("q", compress(nodes.costs, kept)), nodes.is_full)


def changed(nodes: RosterNodes, costs: Sequence[int], kept: Collection[Pair], change: int) -> Numbers:
    """Costs with `change` more for each pair that isn't kept."""
    pairs = zip(map(nodes.of_rows.__getitem__, nodes.rows), map(nodes.of_columns.__getitem__, nodes.columns))
    more = array("q", (cost if pair in kept else cost + change for cost, pair in zip(costs, pairs)))
    if max(more, default=0) > GREATEST_COST:
        raise TooLarge(f"with the cost of a change a cost is beyond {GREATEST_COST}")
    return more


def problem_of(nodes: RosterNodes, costs: Numbers) -> AssignmentProblem:
    """The problem of nodes, for these costs, which are to be least."""
    rows, columns = len(nodes.of_rows), len(nodes.of_columns)
    persons, objects = (None, None) if nodes.is_full else (_from_one(nodes.rows), _from_one(nodes.columns))
    return AssignmentProblem(rows, columns, False, WholeNumbers(costs), persons, objects)


def _from_one(numbers: Numbers) -> Numbers:
    return array("I", [number + 1 for number in numbers])


# All best plans.


class Swap(NamedTuple):
    """Persons and objects of pairs that are in some of the best plans and not in all, and that depend on each other."""

    persons: List[int]
    objects: List[int]


def swaps_of(nodes: RosterNodes, best: BestPlan) -> List[Swap]:
    """The groups that could swap, in the order of their first persons; none where the plan is the only best one."""
    numbers = (groups(best.problem, best.answer) if best.rows else None) or ()
    different = set(numbers)
    if len(different) == len(numbers):
        return []
    persons: Dict[int, List[int]] = {number: [] for number in different}
    items: Dict[int, List[int]] = {number: [] for number in different}
    for person, number in enumerate(map([0, *numbers].__getitem__, best.answer.objects)):
        persons[number].append(person)
    for place, number in enumerate(numbers):
        items[number].append(place)
    # After the objects come those of who stays out.
    most = max(len(nodes.of_rows), len(nodes.of_columns))
    stay = _who_stays(nodes, best, numbers, most) if best.answer.m > most else set()
    joined = (([person for person in persons[number] if person not in stay] if stay else persons[number],
               own if own[-1] < most else [place for place in own if place < most])
              for number, own in items.items() if len(own) > 1)
    sides = (oriented(best.problem, *both) for both in joined if all(both))
    return sorted(Swap([nodes.of_rows[row] for row in rows], [nodes.of_columns[column] for column in columns])
                  for rows, columns in sides)


def _who_stays(nodes: RosterNodes, best: BestPlan, numbers: Sequence[int], most: int) -> Set[int]:
    """Persons who have an object beyond `most`, which is staying out, in each best plan: none of their pairs is as good
    as that and of their group."""
    objects, prices = best.answer.objects, best.answer.prices
    out = {person for person, item in enumerate(objects) if item > most}
    pairs = zip(*oriented(best.problem, nodes.rows, nodes.columns), best.problem.costs.numbers)
    return out.difference(person for person, item, cost in pairs if person in out
                          and cost + prices[item] == prices[objects[person] - 1]
                          and numbers[item] == numbers[objects[person] - 1])


def kept_most(nodes: RosterNodes, best: BestPlan, kept: Collection[Pair]) -> List[Pair]:
    """The pairs of a plan as good as a best one with the fewest pairs that aren't kept, where some stay out: the best
    one at so many times each cost that all changes are worth less than 1."""
    own, step = set(nodes.numbered(kept)), len(best.rows) + 1
    costs = [step * cost + (pair not in own) for pair, cost in zip(zip(nodes.rows, nodes.columns),
                                                                   best.problem.costs.numbers)]
    problem = of_whole_numbers(len(nodes.of_rows), len(nodes.of_columns), nodes.rows, nodes.columns, costs)
    plan = best_plan(problem, True)
    return [] if plan is None else nodes.pairs(plan.rows, plan.columns)
