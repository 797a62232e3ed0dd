"""Plans in the order of their costs."""
from typing import Any, Iterator, List, Optional

from ..costs import source as sources
from ..costs.numbers import Number
from ..costs.problem import AssignmentProblem, Labels
from ..costs.reading import manner, whole_number
from ..costs.source import Source
from ..lap import direct, library
from ..lap.ranking import FIRST_PLANS
from .results import Plan, Result, plan_of
from .shown import FixedList, Matrix, Missing, fixed
from .solve import solve_problem


class _KBest(Iterator[Plan]):
    """The plans of `k_best`. It can be pickled half-way: then it goes on where it was, and finds the plans before that
    again."""

    def __init__(self, problem: AssignmentProblem, result: Result, count: int, timeout: Optional[float]):
        # The costs as they are now, whatever is written to them until the last plan.
        self._problem = problem._replace(costs=problem.costs.owned())
        self._result, self._count, self._timeout = result, count, timeout
        self._done = 0
        self._begin()

    def _begin(self) -> None:
        self._plans = self._result._solved.plans_in_order(self._problem, self._count, self._done)

    def __next__(self) -> Plan:
        with library.limited(self._timeout):
            plan = next(self._plans)
            self._done += 1
            return self._result._plan(*plan)

    def __getstate__(self) -> Any:
        return self._problem._replace(arrays=None), self._result, self._count, self._timeout, self._done

    def __setstate__(self, state: Any) -> None:
        self._problem, self._result, self._count, self._timeout, self._done = state
        self._begin()


class _Known(Iterator[Plan]):
    """The plans of `k_best` where all are known from the beginning: their rows, the columns and the cost of each, and
    the labels of a frame. It can be pickled too."""

    def __init__(self, rows: Any, columns: Any, costs: List[Number], labels: Labels, done: int = 0):
        self._parts, self._done = (rows, columns, costs, labels), done
        self._rows = fixed(rows)
        self._columns = [*fixed(columns)] if hasattr(columns, "setflags") else [*map(FixedList, columns)]

    def __next__(self) -> Plan:
        place, (_, _, costs, labels) = self._done, self._parts
        if place == len(costs):
            raise StopIteration
        self._done += 1
        return plan_of(self._rows, self._columns[place], costs[place], labels and (list(labels[0]), list(labels[1])))

    def __reduce__(self) -> Any:
        return _Known, (*self._parts, self._done)


def k_best(costs: Matrix, k: int, maximize: bool = False, decimals: Optional[int] = None, partial: bool = False,
           missing: Missing = "refuse", timeout: Optional[float] = None) -> Iterator[Plan]:
    """The k best plans, from the best on.

    Parameters
    ----------
    costs : matrix
        As in `solve`. The plans are of the costs as they are when this is called.
    k : int
        How many to yield; fewer if there are no more.
    maximize, decimals, partial, missing
        As in `solve`.
    timeout : float, optional
        After so many seconds TimeoutError is raised, by the call and by each step of the iterator.

    Yields
    ------
    Plan
        Of one cost, the plan comes first that has the lower column in the first row in which two differ. An unmatched
        row counts as having a column after all others.

    Raises
    ------
    Infeasible, ValueError, TypeError, TimeoutError, MemoryError, LibraryNotFound
        As in `solve`, or if k is below 0.

    Notes
    -----
    The library finds the plans by `nushbaret_ranked` (Murty 1968), and proves that no other is cheaper than the last.
    That is of the costs themselves where these are whole numbers in its range and each row has a pair. Otherwise it is
    of rounded costs, or of those above exact duals: that these plans are the first ones of the costs, and that the
    duals are right, is computed here from exact numbers. That plans of one cost are in order is tested, not proved.
    The iterator may be pickled half-way. Plans differ in their rows or columns; equal rows make plans of one cost, and
    there may be very many.

    Examples
    --------
    >>> import nushbaret
    >>> [(plan.columns, plan.cost) for plan in nushbaret.k_best([[4, 1], [2, 3]], 2)]
    [([1, 0], 3), ([0, 1], 7)]
    """
    k = whole_number(k, "k")
    if k < 0:
        raise ValueError(f"k is {k}: it must be 0 or more")
    if 0 < k <= FIRST_PLANS and decimals is None and missing == "refuse" and timeout is None:
        found = direct.first_plans(costs, bool(maximize), k)
        if found:
            return _Known(*found)
    source = Source(sources.lasting(costs), None, None, None, manner(maximize, decimals, missing))
    with library.limited(timeout):
        problem = source.read()
        result = solve_problem(problem, source, None, partial)
        return _KBest(problem, result, k, timeout)
