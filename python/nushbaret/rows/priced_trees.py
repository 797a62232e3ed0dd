"""Trees of splits at whose ends prices of shared rows show that no plan costs so little. Needs NumPy and SciPy.

What is found here is a hint only; certificates show what holds.
"""
import importlib
import time
from typing import Any, Dict, List, NamedTuple, Optional, Tuple, Union

from .masters import Master, MasterProblem
from .prices import SCALE, Bound, Pricing
from .trees import Open, product

np: Any = importlib.import_module("numpy")

# Of so many variables it is estimated what their halves gain, by known months, up to so many times what is wanted. So
# many of them are tried, with so many masters for each half.
_ESTIMATED, _MOST_GAIN, _TRIED, _MASTERS = 16, 2.0, 2, 6
# A split whose halves gain less than one in so many of what is wanted leads too far.
_FAR = 10
# What is less is whole; and what counts as a gain at least, as a part of what is wanted.
_WHOLE, _LITTLE = 1e-6, 0.02


class PricedSplit(NamedTuple):
    """A split on a variable, with what follows where it is 0, and where it is 1. At an end prices have their bound."""

    variable: int
    without: "PricedTree"
    taken: "PricedTree"


PricedTree = Union[Bound, PricedSplit]


class _Half(NamedTuple):
    """One half of a split: the months that are left, and the bound of the best prices so far."""

    pricing: Pricing
    bound: Bound


class PricedTrees:
    """Looks for trees at whose ends prices show that no plan costs `target` or less."""

    def __init__(self, target: int, deadline: float, most_leaves: int):
        self.target, self.deadline, self.left = target, deadline, most_leaves
        self.wanted = SCALE * target + 1

    def fixed(self, pricing: Pricing, bound: Bound, given: int) -> Pricing:
        """Without the values of variables that need a cost beyond the target, even where the bound is less by
        `given`."""
        are_beyond = pricing.reaches(bound) - given >= self.wanted
        return pricing.within(are_beyond[0], ~are_beyond[1])

    def grown(self, half: _Half) -> PricedTree:
        """The tree; raises `Open` where it isn't found."""
        pricing, bound = half
        if bound.value < self.wanted:
            for bound in pricing.by_masters(bound, 1, lambda: self.target, self.deadline):
                pass
        if bound.value >= self.wanted:
            return bound
        self.left -= 1
        if self.left < 1 or time.monotonic() > self.deadline:
            raise Open
        pricing.keep_cheap(bound, self.wanted - bound.value)
        variable, halves = self._branch(pricing, bound)
        # What is harder comes first.
        trees = {place: self.grown(halves[place]) for place in sorted((0, 1), key=lambda at: halves[at].bound.value)}
        return PricedSplit(variable, trees[0], trees[1])

    def _branch(self, pricing: Pricing, bound: Bound) -> Tuple[int, List[_Half]]:
        """The variable whose halves gain the most, one times the other."""
        most, wanted = 0.0, float(self.wanted - bound.value)
        best: Optional[Tuple[int, List[_Half]]] = None
        for variable in self._worth_trying(pricing, bound):
            halves = [self._half(pricing, bound, variable, value) for value in (0, 1)]
            gains = [min(half.bound.value - bound.value, wanted) for half in halves]
            gain = product(gains, _LITTLE * wanted)
            if max(gains) * _FAR > wanted and gain > most:
                most, best = gain, (variable, halves)
            if min(gains) >= wanted:
                break
        if best is None:
            raise Open
        return best

    def _worth_trying(self, pricing: Pricing, bound: Bound) -> List[int]:
        """Variables far from whole in the best mixture of months, whose halves gain the most in mixtures of the same
        months."""
        problem = MasterProblem(pricing.last_months(), pricing.least, pricing.most)
        master = problem.solved()
        if master is None:
            raise Open
        cost, wanted = bound.value / SCALE, _MOST_GAIN * (self.wanted - bound.value) / SCALE
        products: Dict[int, float] = {}
        for number, place in self._broken(pricing, problem, master):
            if time.monotonic() > self.deadline:
                break
            best = sorted(products.values())[-_TRIED:]
            gains = [wanted, wanted]
            for value in (0, 1):
                gains[value] = min(wanted, problem.cost(number, place, value) - cost)
                if len(best) == _TRIED and product(gains, _LITTLE * wanted) <= best[0]:
                    break
            products[pricing.blocks[number].variables[place]] = product(gains, _LITTLE * wanted)
        return sorted(products, key=products.__getitem__, reverse=True)[:_TRIED]

    def _broken(self, pricing: Pricing, problem: MasterProblem, master: Master) -> List[Tuple[int, int]]:
        """The variables that are the farthest from whole in a mixture: their blocks and places there."""
        points = [np.zeros(len(block.variables)) for block in pricing.blocks]
        for (number, month), part in zip(problem.months, master.parts):
            points[number] += part * month.taken
        away = [(-min(value, 1 - value), number, place) for number, point in enumerate(points)
                for place, value in enumerate(point.tolist())]
        return [(number, place) for least, number, place in sorted(away)[:_ESTIMATED] if least < -_WHOLE]

    def _half(self, pricing: Pricing, bound: Bound, variable: int, value: int) -> _Half:
        """A half of a split, with the bound of a few masters."""
        least, most = np.zeros(len(pricing.costs), dtype=bool), np.ones(len(pricing.costs), dtype=bool)
        (least if value else most)[variable] = value
        within = pricing.within(least, most)
        best = within.bound(bound.prices)
        if best is None:
            return _Half(within, self._without_month(within, bound))
        for best in within.by_masters(best, 1, lambda: self.target, self.deadline, 1.0, _MASTERS):
            pass
        return _Half(within, best)

    def _without_month(self, within: Pricing, bound: Bound) -> Bound:
        """The bound where a person has no month: her least cost is as great as is wanted."""
        least = list(bound.least)
        empty = next(number for number, diagram in enumerate(within.diagrams) if diagram.widths[0] == 0)
        least[empty] += self.wanted - bound.value
        return bound._replace(value=self.wanted, least=least)


def priced_tree(pricing: Pricing, bound: Bound, target: int, given: int, deadline: float,
                most_leaves: int) -> PricedTree:
    """A tree at whose ends prices show that no plan costs `target` or less, of months that cost no more at the prices
    of `bound` than the target allows, where the bound is less by `given`. Raises `Open` where it isn't found."""
    trees = PricedTrees(target, deadline, most_leaves)
    narrow = trees.fixed(pricing, bound, given)
    at_root = narrow.bound(bound.prices)
    if at_root is None:
        raise Open
    return trees.grown(_Half(narrow, at_root))
