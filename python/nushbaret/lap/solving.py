"""The best plan of a problem: the library's, by levels where 128 bits don't hold its costs."""
from array import array
from typing import Any, List, NamedTuple, Optional, Tuple, Union

from ..costs.kinds import WholeNumbers
from ..costs.limits import Numbers
from ..costs.problem import AssignmentProblem, costs_of_pairs
from . import doubles, levels, library, proved
from .matching import most_assigned
from .staying_out import are_many, solved_by_counts

Outcome = Union[proved.Assignment, proved.HallSet]
Began = Optional[proved.WarmStart]


def solved(problem: AssignmentProblem, start: Began = None, assigned: Optional[int] = None) -> Outcome:
    """The answer to the problem of so many pairs. A plan that the library proves best for doubles has no prices."""
    if assigned == 0 or not min(problem.n_rows, problem.n_columns):
        return proved.no_pairs(problem)
    if problem.costs.of_64_bits() is not None:
        if assigned is not None and are_many(problem, assigned):
            plan = solved_by_counts(problem, assigned)
            if plan is not None:
                return plan
        asked = proved.instance_of(problem, assigned)
        answer = proved.answer(problem, asked, None if start is None else proved.first_of(problem, start, assigned))
        if answer is not None:
            return answer
    objects = doubles.best_objects(problem) if assigned is None else None
    if objects is not None:
        return proved.Assignment(len(objects), max(problem.n_rows, problem.n_columns), None, objects, None)
    return levels.answer(problem, assigned)


def most(problem: AssignmentProblem, start: Began) -> proved.Assignment:
    """The best of the fullest plans."""
    assigned = most_assigned(problem)
    answer = solved(problem, start, assigned)
    if isinstance(answer, proved.HallSet):
        raise RuntimeError(f"{assigned} pairs were found to be possible, and the library says otherwise")
    return answer


def worst_needed(problem: AssignmentProblem, assigned: int) -> Tuple[Any, Numbers]:
    """The cost of the worst pair in a plan of so many pairs whose worst pair is as good as possible, and the objects of
    one. The library proves that each plan of so many pairs has a pair as bad."""
    found = None if problem.costs.of_64_bits() is None else _worst(problem, assigned)
    if found is not None:
        return found
    # Only the order of costs matters.
    values, ranks = _ranks(problem)
    found = _worst(problem._replace(costs=WholeNumbers(ranks, numpy=problem.numpy)), assigned)
    assert found is not None, "places of costs are in the library's range"
    place, objects = found
    return values[place], objects


def _worst(problem: AssignmentProblem, assigned: int) -> Optional[Tuple[int, Numbers]]:
    """The same by the library; None where a cost is beyond its range. Staying out costs as much as the best pair."""
    out = 0
    if assigned < min(problem.n_rows, problem.n_columns):
        out = int((max if problem.maximize else min)(problem.costs.numbers))
    asked = proved.instance_of(problem, assigned, out)
    written = [array("I", bytes(4 * asked.n)) for _ in range(3)]
    code, info = library.worst_pair(problem.maximize, asked.n, asked.m, (asked.persons, asked.objects, asked.costs),
                                    written)
    if code not in ("BEST", "COST"):
        proved.refuse(code, info)
    return (info.total, written[0]) if code == "BEST" else None


def _ranks(problem: AssignmentProblem) -> Tuple[Any, Any]:
    """The different costs, rising, and the place of each cost among them."""
    if problem.numpy:
        values, ranks = problem.numpy.unique(problem.costs.numbers, return_inverse=True)
        return values.tolist(), ranks.reshape(-1).astype(problem.numpy.int64)
    numbers = problem.costs.listed()
    values = sorted(set(numbers))
    places = {value: place for place, value in enumerate(values)}
    return values, array("q", [places[number] for number in numbers])


class BestPlan(NamedTuple):
    """A best plan of a problem whose costs are whole: the library's answer, and the pairs, rows rising."""

    problem: AssignmentProblem
    answer: proved.Assignment
    rows: List[int]
    columns: List[int]


def best_plan(problem: AssignmentProblem, fullest: bool = False) -> Optional[BestPlan]:
    """A best plan of a problem whose costs are whole; if the library proves that there is none, the best of the fullest
    ones, or None."""
    answer = solved(problem)
    if isinstance(answer, proved.HallSet):
        if not fullest:
            return None
        answer = most(problem, None)
    return plan_of(problem, answer)


def plan_of(problem: AssignmentProblem, answer: proved.Assignment) -> BestPlan:
    """The plan of an answer."""
    return BestPlan(problem, answer, *proved.pairs_of(problem, answer))


def duals_of_whole(best: BestPlan) -> proved.Duals:
    """Whole duals of a best plan."""
    problem, answer, rows, columns = best
    prices = proved.whole_prices(answer) if rows else []
    return proved.duals_of(problem, answer, prices, list(zip(rows, columns)), costs_of_pairs(problem, rows, columns))


def rents_of(best: BestPlan) -> List[int]:
    """What columns cost in addition to their pairs; the least is 0."""
    n_rows, n_columns = best.problem.n_rows, best.problem.n_columns
    if n_rows > n_columns:
        return proved.rents(duals_of_whole(best))
    prices = list(best.answer.prices[:n_columns])
    lowest = min(prices, default=0)
    return [price - lowest for price in prices] if lowest else prices
