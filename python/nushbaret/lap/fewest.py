"""Of all best plans one with the fewest changes, by `nushbaret_fewest_changes`. It is best at combined costs too: n + 1
times each cost, and 1 more for a pair that isn't kept."""
from array import array
from typing import Collection, List, Optional, Sequence, Tuple

from ..costs.limits import GREATEST_PRICE
from ..costs.orientation import oriented
from ..costs.problem import AssignmentProblem
from . import proved, wide
from .solving import BestPlan, plan_of


def fewest_changes(problem: AssignmentProblem, kept: Collection[Tuple[int, int]]) -> Optional[BestPlan]:
    """A best plan of whole costs in the library's range with as many kept pairs of a row and a column as one has. None
    where the fewer of rows and columns can't all be paired, or one of these has two kept pairs.

    Rows and columns of `kept` count from 0. The plan's prices are whole, and prove it for the costs alone; the library
    proves at combined ones that no best plan changes fewer."""
    asked = proved.instance_of(problem)
    own = [0] * asked.n
    for person, item in zip(*oriented(problem, *zip(*kept))) if kept else ():
        own[person] = item + 1
    if not asked.n or asked.n - own.count(0) < len(kept):
        return None
    found = wide.solved(problem.maximize, asked, array("I", own))
    if isinstance(found, proved.HallSet):
        return None
    prices = _own_prices(asked.n + 1, found.objects, found.prices)
    if max(prices) > GREATEST_PRICE:
        return None
    return plan_of(problem, proved.Assignment(asked.n, asked.m, None, found.objects, array("q", prices)))


def _own_prices(step: int, objects: Sequence[int], prices: Sequence[int]) -> List[int]:
    """Prices that prove a plan best for the costs, by those for combined ones. They are rounded down to n + 1, from a
    point that no price of the plan's own objects is at: a combined cost is at most 1 off, so another object that is no
    better at them is no better at the rounded ones."""
    taken = {prices[item - 1] % step for item in objects}
    point = next(rest for rest in range(step) if rest not in taken)
    lowest = min(prices)
    point += (lowest - point) // step * step
    return [(price - point) // step for price in prices]
