"""Prices of the rows that persons share, by column generation: a bound on what a plan costs, and months that are cheap
at the prices.

Needs NumPy and SciPy.
"""
import copy
import importlib
import math
import time
from typing import Any, Callable, Dict, Iterator, List, NamedTuple, Optional, Set

from .diagrams import Diagram, diagram_of, narrowed
from .masters import Master, MasterProblem, PricedMonth
from .model import Model
from .persons import PersonBlock, blocks_of, limits_of, matrix_of, side_of
from .stacked import TOO_MUCH, Stacked
from .templates import Templates, keys_of

np: Any = importlib.import_module("numpy")

# Prices are whole multiples of 1 / SCALE.
SCALE = 960
# The part of the time in which decision diagrams are made with all rows.
_EXACT_PART = 0.2
# So many steps against what is missed come first, towards a bound that is so much better. Each goes on with a part of
# the step before; after so many without a gain they are shorter by a factor, down to the shortest.
_STEPS, _AIM, _GOES_ON, _VAIN, _SHORTER, _SHORTEST = 200, 0.01, 0.7, 5, 0.7, 0.01
# Of each person a mixture has the months that were the cheapest last, so many.
_KEPT = 40
# The part of a master's prices in the first prices that are tried, and how that grows.
_SMOOTHED, _LESS_SMOOTHED = 0.3, 1.05


class Bound(NamedTuple):
    """What no plan costs less than at whole prices of the shared rows, these prices, and the least cost of each block;
    all times `SCALE`."""

    value: int
    prices: Any
    least: List[int]
    # How much the cheapest months take of each shared row.
    uses: Any


def _reaches(bound: Bound, target: Optional[int]) -> bool:
    return target is not None and bound.value > SCALE * target


class TooWide(Exception):
    """A person's decision diagram has too many nodes."""


class Pricing:
    """Column generation over a model's blocks."""

    def __init__(self, model: Model, deadline: float):
        self.model = model
        self.blocks, self.shared = blocks_of(model)
        rows = [limits_of(model.rows[number]) for number in self.shared]
        self.costs = np.array(model.costs, dtype=np.int64)
        self.matrix = matrix_of(rows, model.variables).astype(np.int64)
        self.least, self.most = side_of(rows)
        self.diagrams = self._diagrams(deadline)
        self.stacked = Stacked(self.diagrams, [block.variables for block in self.blocks])
        self.columns = [self.matrix[:, block.variables].tocsc() for block in self.blocks]
        self.months: List[Dict[bytes, PricedMonth]] = [{} for _ in self.blocks]
        # Of each block the months of the last mixture, and whether others were kept since.
        self.mixed: List[Set[bytes]] = [set() for _ in self.blocks]
        self.has_more = False

    def _diagrams(self, deadline: float) -> List[Diagram]:
        """The blocks' diagrams. Where one is too wide, or all take too long, the others are without rows that weigh
        their variables, such as hours: then their least costs are bounds. Raises `TooWide` where these are too wide,
        too, or the deadline has passed."""
        columns = self.matrix.tocsc()
        rows_of = [columns.indices[begin:end].tolist() for begin, end in zip(columns.indptr, columns.indptr[1:])]
        templates = Templates(self.blocks, keys_of(self.blocks, self.model.days, rows_of))
        now = time.monotonic()
        exact_until, found, is_exact = now + (deadline - now) * _EXACT_PART, [], True
        for number, block in enumerate(self.blocks):
            count = len(block.variables)
            exact = (templates.diagram_of(number) or diagram_of(count, block.rows)) if is_exact else None
            is_exact = exact is not None and time.monotonic() < exact_until
            # Rows that count some variables more than others weigh them.
            diagram = exact or diagram_of(count, [row for row in block.rows
                                                  if len({abs(factor) for _, factor in row.terms}) < 2])
            if diagram is None or time.monotonic() > deadline:
                raise TooWide
            found.append(diagram)
        return found

    def add(self, number: int, taken: Any) -> PricedMonth:
        """Keeps a month of a block."""
        key, months = taken.tobytes(), self.months[number]
        variables = self.blocks[number].variables
        month = months.pop(key, None) or PricedMonth(taken, int(self.costs[variables] @ taken),
                                                     self.columns[number] @ taken)
        # The month that was the cheapest last stands last.
        months[key] = month
        self.has_more = self.has_more or key not in self.mixed[number]
        return month

    def number_of(self, variable: int) -> int:
        """The number of a variable's block."""
        return next(number for number, block in enumerate(self.blocks) if variable in block.place)

    def add_plan(self, plan: Any) -> None:
        """Keeps a plan's months."""
        taken = np.array(plan, dtype=np.int8)
        for number, block in enumerate(self.blocks):
            self.add(number, taken[block.variables])

    def priced(self, prices: Any) -> Any:
        """Each variable's cost less the prices of its rows, times `SCALE`."""
        return SCALE * self.costs - self.matrix.T @ prices

    def side(self, prices: Any) -> int:
        """What the shared rows are worth at whole prices."""
        sides = np.where(prices > 0, self.least, self.most)
        used = prices != 0
        return int((prices[used] * sides[used].astype(np.int64)).sum())

    def bound(self, prices: Any) -> Optional[Bound]:
        """The bound at whole prices, keeping each block's cheapest month; None where a block has no month."""
        found = self.stacked.cheapest(self.priced(prices))
        if found is None:
            return None
        least, plan = found
        self.add_plan(plan)
        return Bound(self.side(prices) + sum(least), prices, least, self.matrix @ plan)

    def rounded(self, prices: Any) -> Any:
        """Float prices as whole multiples of 1 / SCALE, with the signs that the rows allow."""
        whole = np.rint(prices * SCALE).astype(np.int64)
        whole[np.isinf(self.least) & (whole > 0)] = 0
        whole[np.isinf(self.most) & (whole < 0)] = 0
        return whole

    def search(self, prices: Any, target: Callable[[], Optional[int]], deadline: float) -> Iterator[Bound]:
        """Better and better bounds, until one shows that no plan costs `target()` or less, or no better one in whole
        costs can be found, or the time is over."""
        best = self.bound(self.rounded(prices))
        if best is None:
            return
        yield best
        for better in self._by_steps(best, prices, target, deadline):
            best = better
            yield best
        yield from self.by_masters(best, SCALE, target, deadline)

    def by_masters(self, best: Bound, unit: int, target: Callable[[], Optional[int]], deadline: float,
                   step: float = _SMOOTHED, rounds: int = 10**9) -> Iterator[Bound]:
        """Better bounds by prices between the best ones and a master's, of which they take the part `step` at first,
        until the master shows none that is better in whole units."""
        near = best.prices / SCALE
        for _ in range(rounds):
            if _reaches(best, target()) or time.monotonic() > deadline:
                return
            master = self.master()
            if master is None or math.ceil(SCALE * master.value / unit - 1e-6) <= -(-best.value // unit):
                return
            trial = (1 - step) * near + step * master.prices
            found = self.bound(self.rounded(trial))
            if found is not None and found.value > best.value:
                best, near = found, trial
                yield best
            elif not self.has_more and step == 1.0:
                return
            step = min(1.0, step * _LESS_SMOOTHED) if self.has_more else 1.0

    def _by_steps(self, best: Bound, prices: Any, target: Callable[[], Optional[int]],
                  deadline: float) -> Iterator[Bound]:
        """Better bounds by steps against what the cheapest months miss of the shared rows (Polyak 1969), each deflected
        by those before (Camerini, Fratta and Maffioli 1975)."""
        factor, vain, at, local, step = 1.0, 0, best, best.value, np.zeros(len(prices))
        for _ in range(_STEPS):
            wanted = target()
            aim = best.value * (1 + _AIM) + SCALE if wanted is None else SCALE * wanted + SCALE
            step = self.missed(at) + _GOES_ON * step
            length = float((step * step).sum())
            if _reaches(best, wanted) or length == 0 or factor < _SHORTEST or time.monotonic() > deadline:
                return
            prices = prices + factor * max(1, aim - at.value) / SCALE / length * step
            prices = np.where(np.isinf(self.least) & (prices > 0) | np.isinf(self.most) & (prices < 0), 0.0, prices)
            found = self.bound(self.rounded(prices))
            if found is None:
                return
            at, vain = found, 0 if found.value > local else vain + 1
            local = max(local, found.value)
            if found.value > best.value:
                best = found
                yield best
            if vain >= _VAIN:
                factor, vain, local = factor * _SHORTER, 0, found.value

    def missed(self, bound: Bound) -> Any:
        """By how much the months that a bound's prices make cheapest miss the shared rows, towards the sides that the
        prices take."""
        sides = np.where((bound.prices > 0) | ((bound.prices == 0) & (bound.uses < self.least)), self.least,
                         np.where((bound.prices < 0) | (bound.uses > self.most), self.most, bound.uses))
        return sides - bound.uses

    def within(self, least: Any, most: Any) -> "Pricing":
        """The same, where each variable has a least and a greatest value, 0 or 1. Persons without new bounds keep their
        diagrams."""
        own = copy.copy(self)
        own.diagrams, own.mixed = list(self.diagrams), [set() for _ in self.blocks]
        own.months = [dict(months) for months in self.months]
        for number, block in enumerate(self.blocks):
            low, high = least[block.variables], most[block.variables]
            if low.any() or not high.all():
                own.diagrams[number] = narrowed(self.diagrams[number], low, high)
                own.months[number] = {key: month for key, month in own.months[number].items()
                                      if (low <= month.taken).all() and (month.taken <= high).all()}
        own.stacked = Stacked(own.diagrams, [block.variables for block in self.blocks])
        return own

    def keep_cheap(self, bound: Bound, most: int) -> None:
        """Keeps no month that costs more than a block's least cost and so much at a bound's prices."""
        costs = self.priced(bound.prices)
        for block, least, months in zip(self.blocks, bound.least, self.months):
            own = costs[block.variables]
            for key in [key for key, month in months.items() if own @ month.taken > least + most]:
                del months[key]

    def without_costs(self) -> "Pricing":
        """The same, without costs."""
        free = copy.copy(self)
        free.model = self.model._replace(costs=(0,) * self.model.variables)
        free.costs = np.zeros(self.model.variables, dtype=np.int64)
        free.months, free.mixed = [{} for _ in self.blocks], [set() for _ in self.blocks]
        for number, months in enumerate(self.months):
            for month in months.values():
                free.add(number, month.taken)
        return free

    def empty(self) -> Optional[PersonBlock]:
        """A block that has no month, or None."""
        return next((block for block, diagram in zip(self.blocks, self.diagrams) if diagram.widths[0] == 0), None)

    def is_short(self) -> bool:
        """Whether the best mixture of the kept months misses a shared row."""
        master = self.master()
        return master is not None and master.missed > 1e-6

    def last_months(self) -> List[List[PricedMonth]]:
        """Of each block the months that were the cheapest last."""
        return [list(own.values())[-_KEPT:] for own in self.months]

    def master(self) -> Optional[Master]:
        """The best mixture of the months that were the cheapest last, where a shared row may be missed at a high cost;
        None where it isn't found."""
        last = [list(own)[-_KEPT:] for own in self.months]
        self.mixed, self.has_more = [set(own) for own in last], False
        found = MasterProblem(self.last_months(), self.least, self.most).solved()
        # Those that the mixture has are among the next one's.
        keys = [(number, key) for number, own in enumerate(last) for key in own]
        for place in np.flatnonzero(found.parts > 0).tolist() if found is not None else ():
            number, key = keys[place]
            self.months[number][key] = self.months[number].pop(key)
        return found

    def reaches(self, bound: Bound) -> Any:
        """For each variable the bounds at the bound's prices where it is 0 and where it is 1: an array of shape (2,
        variables), times `SCALE`."""
        found = self.stacked.with_and_without(self.priced(bound.prices))
        for block, least in zip(self.blocks, bound.least):
            found[:, block.variables] -= least
        return np.minimum(found, TOO_MUCH) + bound.value
