"""Plans by HiGHS, as SciPy has it: a mixed-integer program of the rows. Needs NumPy and SciPy."""
import importlib
import time
from typing import Any, List, NamedTuple, Optional, Sequence

from .certificate_check import meets
from .model import Limits, Model
from .neighbourhoods import Neighbourhoods
from .persons import cost_of, cost_row, limits_of, matrix_of, side_of
from .process import Channel

np: Any = importlib.import_module("numpy")
optimize: Any = importlib.import_module("scipy.optimize")

# What HiGHS is given first over the whole model, as a part of the time; for how long searches around plans go on after
# it that find nothing better, and what HiGHS gets then.
_FIRST_PART, _AROUND_PART, _NEXT_PART = 0.6, 0.15, 0.3
# Seconds that HiGHS gets first at least, if there are so many.
_FIRST_LEAST = 5.0
# Seconds in which a plan known before gets the values that it doesn't have.
_COMPLETING = 5.0
# After so many searches without a gain HiGHS looks over the whole model again.
_VAIN = 10


class Tried(NamedTuple):
    """What HiGHS returned: a plan that meets the rows, or None; and whether it says that no other costs less, or that
    there is none."""

    plan: Optional[List[int]]
    is_over: bool


def tried(costs: Sequence[int], rows: Sequence[Limits], seconds: float, least: Any = 0, most: Any = 1) -> Tried:
    """Lets HiGHS look for the cheapest plan that meets the rows, with bounds of the variables, for about so many
    seconds. Where what it returns doesn't meet them, it looks once more without its presolve, which was seen to lose
    bounds."""
    low, high = side_of(rows)
    constraints = optimize.LinearConstraint(matrix_of(rows, len(costs)), low, high) if rows else ()
    for presolve in (True, False):
        options = {"time_limit": max(0.1, seconds), "mip_rel_gap": 0, "presolve": presolve}
        found = optimize.milp(np.array(costs, dtype=float), constraints=constraints, integrality=np.ones(len(costs)),
                              bounds=optimize.Bounds(least, most), options=options)
        if found.x is None:
            return Tried(None, found.status == 2)
        plan = [int(value > 0.5) for value in found.x]
        if meets(plan, rows):
            return Tried(plan, found.status == 0)
    return Tried(None, False)


class Finder:
    """Looks for plans: HiGHS over the whole model, searches around what is known, and HiGHS again below that."""

    def __init__(self, model: Model, channel: Channel, deadline: float):
        self.model, self.channel, self.deadline = model, channel, deadline
        self.rows = [limits_of(row) for row in model.rows]
        self.seconds = self.left()
        self.is_over = False
        self.around: Optional[Neighbourhoods] = None
        self.first: Sequence[int] = ()

    def left(self) -> float:
        return self.deadline - time.monotonic()

    def run(self, known: Sequence[Sequence[int]]) -> None:
        """Looks until no plan can be better, or the time is over. `known` are values of the first variables in plans
        known before, which may break rows."""
        self.first = known[0] if known else ()
        for first in known:
            self.complete(first)
        of_nobody = {person is None for cost, person in zip(self.model.costs, self.model.persons) if cost}
        # Where only what nobody has costs anything, as what is missing does, searches around months find more.
        if of_nobody != {True}:
            self.whole(max(_FIRST_PART, _FIRST_LEAST / self.seconds))
        while not self.is_over and self.left() > 0:
            self.search()
            self.whole(_NEXT_PART)

    def say(self, plan: Optional[Sequence[int]]) -> None:
        """Reports a plan that meets the rows, where none as good is known."""
        cost = cost_of(self.model, plan)
        if plan is not None and cost is not None and meets(plan, self.rows):
            self.channel.say_plan(plan, cost)

    def complete(self, first: Sequence[int]) -> None:
        """The values of the other variables, where those of the first keep the rows with any."""
        rest = self.model.variables - len(first)
        least, most = np.array([*first, *[0] * rest], float), np.array([*first, *[1] * rest], float)
        found = tried(self.model.costs, self.rows, min(_COMPLETING, self.left()), least, most)
        self.say(found.plan)

    def whole(self, part: float) -> None:
        """HiGHS over all variables, below what is known, for a part of the time."""
        left = self.left()
        if left <= 0:
            return
        below = [] if self.channel.cost is None else [cost_row(self.model, self.channel.cost - 1)]
        found = tried(self.model.costs, self.rows + below, min(part * self.seconds, left))
        self.say(found.plan)
        self.is_over = found.is_over
        if self.is_over:
            # No plan is better than the one known, as it seems.
            self.channel.is_over = True
            self.channel.say(over=True)

    def search(self) -> None:
        """Searches around the best plan, or around months that keep their own rows, until nothing better comes
        any more."""
        self.around = self.around or Neighbourhoods(self.model)
        until = min(self.deadline, time.monotonic() + _AROUND_PART * self.seconds)
        point = self.around.near(self.first, until) if self.channel.plan is None else None
        vain = 0
        while vain < _VAIN and time.monotonic() < until:
            cost = self.channel.cost
            if cost is not None and (point is None or point.missed > 0 or cost < point.cost):
                point = self.around.point(self.channel.plan or ())
            if point is None:
                return
            other = self.around.step(point, until - time.monotonic())
            is_better = other is not None and other.is_better(point)
            vain = 0 if is_better else vain + 1
            until = min(self.deadline, time.monotonic() + _AROUND_PART * self.seconds) if is_better else until
            point = other or point
            if is_better and not point.missed:
                self.say([int(value > 0.5) for value in point.plan])


def look_for_plans(model: Model, channel: Channel, deadline: float,
                   known: Sequence[Sequence[int]] = ()) -> None:
    """Reports each better plan that is found. `known` are values of the first variables of plans known before."""
    Finder(model, channel, deadline).run(known)
