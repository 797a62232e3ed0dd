"""Large neighbourhood search (Shaw 1998): some persons or days are planned again around all others, by HiGHS. Needs
NumPy and SciPy."""
import importlib
import random
import time
from typing import Any, NamedTuple, Optional, Sequence

from .model import Model
from .persons import blocks_of, limits_of, matrix_of, side_of

np: Any = importlib.import_module("numpy")
sparse: Any = importlib.import_module("scipy.sparse")
optimize: Any = importlib.import_module("scipy.optimize")

# Seconds of processor time for one neighbourhood at most; one that takes less than a fraction of it is too small, and
# one that takes all too large.
LONGEST = 1.0
_SHORT = 0.15
# Seconds of processor time that a search took at least, as far as the clock's pace is reckoned.
_LEAST_USED = 0.01
# HiGHS looks at so many nodes at most.
_NODES = 100
# So many variables are free at first, at least and at most, and how that grows and shrinks.
_FREE = 250
_LEAST_FREE, _MOST_FREE, _GROWTH = 40, 1200, 1.25
# What a unit costs by which a shared row is missed, in greatest costs.
_MISSED = 4


class Point(NamedTuple):
    """A plan that keeps each person's own rows, by how much it misses the rows that persons share, and its cost."""

    plan: Any
    missed: float
    cost: int

    def is_better(self, other: "Point") -> bool:
        """Whether it misses less, or as much and costs less."""
        return (round(self.missed, 6), self.cost) < (round(other.missed, 6), other.cost)


class Neighbourhoods:
    """Searches around plans of a model. Shared rows may be missed at a high price, until a plan misses none."""

    def __init__(self, model: Model):
        self.model = model
        rows = [limits_of(row) for row in model.rows]
        self.matrix = matrix_of(rows, model.variables)
        self.low, self.high = side_of(rows)
        self.costs = np.array(model.costs, dtype=float)
        self.blocks, self.shared = blocks_of(model)
        self.is_shared = np.zeros(len(rows), dtype=bool)
        self.is_shared[self.shared] = True
        self.owners = [block for block in self.blocks if model.persons[block.variables[0]] is not None]
        # What nobody has, and what has no day, is always free.
        self.always = np.array([person is None for person in model.persons], dtype=bool)
        self.days = np.array([-1 if day is None else day for day in model.days] or [-1] * model.variables)
        self.calendar = np.unique(self.days[self.days >= 0])
        self.draw = random.Random(1)
        # How many variables are free, of persons and of days.
        self.sizes = [float(_FREE), float(_FREE)]
        # Seconds by the clock for one of processor time.
        self.pace = 1.0

    def point(self, plan: Sequence[int]) -> Point:
        """A plan as a point; its own rows are taken to be kept."""
        values = np.array(plan, dtype=float)
        sums = (self.matrix @ values)[self.shared]
        missed = np.maximum(self.low[self.shared] - sums, 0) + np.maximum(sums - self.high[self.shared], 0)
        return Point(values, float(missed.sum()), int(round(float(self.costs @ values))))

    def near(self, wanted: Sequence[int], until: float) -> Optional[Point]:
        """Months that keep their own rows, each as near to that of `wanted` as can be; None where a person has none or
        the time is over. What `wanted` doesn't say is free."""
        values = np.zeros(self.model.variables)
        for block in self.blocks:
            left = until - time.monotonic()
            if left <= 0:
                return None
            own = np.array([(0 if place >= len(wanted) else -1 if wanted[place] else 1) for place in block.variables],
                           dtype=float)
            taken = _least(matrix_of(block.rows, len(own)), *side_of(block.rows), own, np.ones(len(own)), left)
            if taken is None:
                return None
            values[block.variables] = taken.point
        return self.point(values)

    def around(self, point: Point, free: Any, seconds: float) -> Optional["_Taken"]:
        """The best point where only some variables differ, as far as HiGHS finds it in the time."""
        fixed = np.where(free, 0.0, point.plan)
        part = self.matrix[:, free]
        used = np.flatnonzero(np.diff(part.indptr))
        part, sums = part[used], (self.matrix @ fixed)[used]
        low, high = self.low[used] - sums, self.high[used] - sums
        costs, whole = self.costs[free], np.ones(part.shape[1])
        if point.missed > 0:
            may_miss = np.flatnonzero(self.is_shared[used])
            slack = sparse.csr_matrix((np.ones(len(may_miss)), (may_miss, np.arange(len(may_miss)))),
                                      shape=(len(used), len(may_miss)))
            part = sparse.hstack([part, slack, -slack]).tocsr()
            price = _MISSED * max(1.0, float(np.abs(self.costs).max()))
            costs = np.append(costs, np.full(2 * len(may_miss), price))
            whole = np.append(whole, np.zeros(2 * len(may_miss)))
        return _least(part, low, high, costs, whole, seconds)

    def step(self, point: Point, seconds: float) -> Optional[Point]:
        """A point in a drawn neighbourhood that is no worse, or None. The next ones are larger where this was soon
        searched, and smaller where it wasn't searched in time."""
        by_days = int(self.calendar.size > 0 and self.draw.random() < 0.5)
        free = self._drawn_days() if by_days else self._drawn_persons()
        allowed = min(LONGEST * self.pace, seconds)
        begin, used = time.monotonic(), time.process_time()
        taken = self.around(point, free, allowed)
        took, used = time.monotonic() - begin, time.process_time() - used
        self.pace = max(1.0, (self.pace + took / max(used, _LEAST_USED)) / 2)
        size = self.sizes[by_days]
        if taken is not None and taken.is_least and took < _SHORT * allowed:
            self.sizes[by_days] = min(size * _GROWTH, _MOST_FREE)
        elif taken is None or not taken.is_least or took > allowed / 2:
            # HiGHS heeds its limit late.
            self.sizes[by_days] = max(size / _GROWTH ** max(1.0, took / allowed), _LEAST_FREE)
        if taken is None:
            return None
        values = point.plan.copy()
        values[free] = np.rint(taken.point[:int(free.sum())])
        found = self.point(values)
        return None if point.is_better(found) else found

    def _drawn_persons(self) -> Any:
        """The variables of some persons."""
        free = self.always.copy()
        most = free.sum() + self.sizes[0]
        for block in self.draw.sample(self.owners, len(self.owners)):
            free[block.variables] = True
            if free.sum() >= most:
                break
        return free

    def _drawn_days(self) -> Any:
        """The variables of some days side by side."""
        free = self.always | (self.days < 0)
        most, last_of_all = self.always.sum() + self.sizes[1], self.calendar.size - 1
        first = last = self.draw.randint(0, last_of_all)
        free |= self.days == self.calendar[first]
        while free.sum() < most and (first > 0 or last < last_of_all):
            first, last = max(0, first - self.draw.randint(0, 1)), min(last_of_all, last + 1)
            free |= (self.days >= self.calendar[first]) & (self.days <= self.calendar[last])
        return free


class _Taken(NamedTuple):
    """A point, and whether HiGHS says that none is better."""

    point: Any
    is_least: bool


def _least(matrix: Any, low: Any, high: Any, costs: Any, whole: Any, seconds: float) -> Optional[_Taken]:
    """The least point of rows, where those that aren't whole have no upper bound."""
    constraints = optimize.LinearConstraint(matrix, low, high) if matrix.shape[0] else ()
    found = optimize.milp(costs, constraints=constraints, integrality=whole,
                          bounds=optimize.Bounds(0, np.where(whole > 0, 1, np.inf)),
                          options={"time_limit": max(0.05, seconds), "mip_rel_gap": 0, "node_limit": _NODES})
    return None if found.x is None else _Taken(found.x, found.status == 0)
