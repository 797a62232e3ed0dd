"""The end of a search over doubles: prices with a margin, which the last look proves exactly, or else exact numbers of
the few pairs that a better plan may have."""
import math
from typing import Any

import numpy

from ..api.solve import solve_sparse
from . import bounds, tasks
from .core import Duals, Plan
from .tasks import Asked, Pairs
from .search import BETTER, Search

# All other pairs may be so many units cheaper.
MARGINS = (8, 2)
# So many pairs may be near, in all.
NEAR = 2**22


class DoublesSearch(Search):
    """A search whose costs are rounded for the core."""

    def _finish(self, plan: Plan) -> bool:
        """Whether the plan of rounded costs, which no pair improves by more than the rounding, is proved or given
        up."""
        with self.limited():
            wide = self._with_margin(plan)
        if wide is not None:
            paid, duals = self.paid(wide), self.duals(wide)
            numbers, rests = bounds.own_numbers(wide.columns, paid, duals)
            found = self.combined(self.look(Asked(duals.prices, numbers, rests, wide.columns, BETTER))[0])
            self.judge(wide, paid, duals, found, True)
            if not len(found.better.rows) and bounds.is_joint(self.form, wide.columns, duals, numbers, rests):
                self.best, self.is_proved = (self.total(wide, paid, duals), wide), True
                return True
            if self.core.add(*found.better):
                return False
        self._decide_near()
        return True

    def _with_margin(self, plan: Plan) -> Any:
        """The same plan with prices at which each other pair of the core is worse by some units; None: there are
        none."""
        costs = self.units.whole(self.core.costs)
        own = self.core.own_places(plan.columns)
        for margin in MARGINS:
            cheaper = costs - margin
            cheaper[own] = costs[own]
            out = self._out()
            if out is not None:
                out[plan.columns >= 0] -= margin
            found = self.core.solve(cheaper, out, (plan.columns, plan.duals))
            if isinstance(found, Plan) and found.total == plan.total:
                return plan._replace(duals=self._own_duals(plan, found.duals, costs[own], margin))
        return None

    def _own_duals(self, plan: Plan, duals: Duals, paid: Any, margin: int) -> Duals:
        """The duals of a plan at prices of another one. Where columns need rows, rows stay out at a sum in the middle
        of the margin, so that rounding lifts no other row above it."""
        out = self._out()
        if self.form.is_turned:
            duals = duals._replace(out=duals.out + margin // 2)
        numbers = numpy.full(self.form.n, duals.out or 0, numpy.int64) if out is None else out
        rows = plan.columns >= 0
        numbers[rows] = paid + duals.prices[plan.columns[rows]]
        return Duals(duals.prices, numbers, duals.out)

    def _decide_near(self) -> None:
        """Decides by exact numbers among the pairs that a better plan may have: those whose sum of cost and price is
        above the row's least by no more than the gap. Any plan with another pair costs more than the best one so
        far."""
        duals, least = self.last
        lower = bounds.least_cost(self.form, least, duals.prices, duals.out)
        assert self.best is not None
        if lower is None:
            return
        width = math.nextafter(float(self.best[0] - lower), math.inf)
        lowest = bounds.below(least if duals.out is None else numpy.minimum(least, duals.out))
        numbers = numpy.nextafter(numpy.nextafter(lowest + width, numpy.inf), numpy.inf)
        most = max(64, NEAR // self.form.n)
        near = tasks.joined([each.better for each in self.look(Asked(duals.prices, numbers, most=most))[0]])
        if most < self.form.m and numpy.bincount(near.rows, minlength=1).max() >= most:
            return
        self._solve_near(near, duals)

    def _solve_near(self, near: Pairs, duals: Duals) -> None:
        """The best plan of near pairs, by the package's exact numbers."""
        n, m = self.form.n, self.form.m
        rows, columns, costs = near
        if self.form.stay_out:
            every = numpy.arange(n)
            rows, columns = numpy.concatenate([rows, every]), numpy.concatenate([columns, every + m])
            costs = numpy.concatenate([costs, numpy.full(n, duals.out)])
        with self.limited():
            answer = solve_sparse(n, m + n * self.form.stay_out, rows, columns, costs)
        found = numpy.full(n, -1, numpy.int64)
        found[numpy.asarray(answer.rows)] = numpy.asarray(answer.columns)
        found[found >= m] = -1
        self.core.add(*near)
        plan = Plan(found, self.best[1].duals if self.best else None, 0)  # type: ignore[arg-type]
        self.best = self.total(plan, self.paid(plan), duals), plan
        self.is_proved = bool(answer.verify())
