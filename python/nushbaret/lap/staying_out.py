"""Plans of fewer pairs in which many stay out. As dummies each person would list all of them; here one object counts as
often as persons stay out, and the library's call on counts solves that."""
from array import array
from itertools import compress
from typing import Any, Optional, Sequence

from ..costs.limits import GREATEST_COST
from ..costs.orientation import oriented
from ..costs.problem import AssignmentProblem, listed
from .counts_call import BEST, Written, searched_counts
from .library import progress_asked
from .matching import by_nodes
from .proved import Assignment, joined, sizes_of

# So many pairs with dummies, and more, are too many: they would take most of the time and of the memory.
MOST_OF_DUMMIES = 2**18


def are_many(problem: AssignmentProblem, assigned: Optional[int]) -> bool:
    """Whether pairs with dummies would be too many."""
    n, _, dummies = sizes_of(problem, assigned)
    return dummies * n > MOST_OF_DUMMIES


def solved_by_counts(problem: AssignmentProblem, assigned: int) -> Optional[Assignment]:
    """The best plan of so many pairs, with its prices, where no plan has more; None where there is no plan of so many,
    or a cost is beyond the library's range."""
    n, m, dummies = sizes_of(problem, assigned)
    problem = listed(problem)
    out, costs = m - dummies + 1, problem.costs.numbers
    least, greatest = (costs.min(), costs.max()) if problem.numpy else (min(costs), max(costs))
    if not -GREATEST_COST <= least <= greatest <= GREATEST_COST:
        return None
    more = array("I", range(1, n + 1)), array("I", [out]) * n, array("q", [0]) * n
    lists = by_nodes(*(joined(problem.numpy, own, others) for own, others in zip(
        (*oriented(problem, problem.persons, problem.objects), costs), more)))
    none, one, progress = array("I", [0]), array("I", [1]), progress_asked()
    shown = None if progress is None else lambda plan: progress(sum(plan), n)
    # Least and greatest counts of persons, and of objects, whose last one is that of staying out.
    counts = one * n, one * n, none * out, one * (out - 1) + array("I", [dummies])
    written = searched_counts([*lists, *counts, none[:0]], n, out, shown, problem.maximize)
    return _assignment(lists, written, out, m) if written.code == BEST else None


def _assignment(lists: Sequence[Any], written: Written, out: int, m: int) -> Assignment:
    """The plan with a dummy for each who stays out, numbered from `out` on, and prices from the numbers of objects: a
    number is above 0 only where nobody has the object."""
    persons, objects, costs = (list(compress(memoryview(own), written.plan)) for own in lists)
    own, dummy = array("I", bytes(4 * len(persons))), out
    for person, item in zip(persons, objects):
        own[person - 1] = item if item < out else dummy
        dummy += item == out
    prices = array("q", [max(0, -number) for number in written.numbers[1]])
    return Assignment(len(own), m, sum(costs), own, prices[:-1] + prices[-1:] * (m - out + 1))
