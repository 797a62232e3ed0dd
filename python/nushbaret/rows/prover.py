"""Bounds on what a plan costs, with their proofs: by the relaxation's dual values, by small trees, and person by
person. Needs NumPy and SciPy."""
import importlib
import time
from typing import Any, Iterator, List, Optional, Sequence

from .certificate_check import meets
from .chains import Closing, chain, chain_tree
from .highs import look_for_plans, tried
from .model import Model, Part, Proof, flat, renamed
from .persons import PersonBlock, blocks_of, cost_of, cost_row, limits_of
from .prices import SCALE, Bound, Pricing, TooWide
from .process import Channel
from .reasons import conflicts
from .shortages import shortages
from .trees import Open, Solved, Trees

np: Any = importlib.import_module("numpy")

# Models of so few variables are shown by one tree over all of them.
_SMALL = 200
_MOST_LEAVES = 5000
_FEW_LEAVES = 40
# A tree with prices at its ends has at most so many of them, and so many masters make the prices before it better.
_PRICED_LEAVES, _MASTERS = 12, 40
# The part of the time in which a proof that the plan is best is looked for, before a lesser one.
_FIRST_PART = 0.6
# The part of the time in which sums are looked at.
_SUMS_PART = 0.3
# By so many in a hundred a plan may be above the bound, where one is looked for near it and none is known.
_NEAR = (1, 4, 16)
# The parts of the time in which plans are looked for that cost no more than the bound, and near it. A search has so
# many seconds at least, of a short time a part.
_AT_BOUND_PART, _NEAR_PART, _LEAST_LOOK, _MOST_PART = 0.1, 0.3, 2.0, 0.4


class Prover:
    """Looks for bounds of a model and reports them with their proofs."""

    def __init__(self, model: Model, channel: Channel, seconds: float, sums: Sequence[Sequence[int]] = ()):
        self.model, self.channel, self.sums = model, channel, sums
        self.begin = time.monotonic()
        self.deadline = self.begin + seconds
        self.rows = [limits_of(row) for row in model.rows]
        self.whole = Trees(Part(self.rows, list(range(len(self.rows))), list(range(model.variables))), self.deadline)
        self.is_small = model.variables <= _SMALL
        self.bound: Optional[int] = None
        # No plan costs so little, as a search says.
        self.none: Optional[int] = None
        # The cost that no small tree with prices at its ends was found for.
        self.vain: Optional[int] = None

    def left(self) -> float:
        return self.deadline - time.monotonic()

    def tell(self, proof: Proof, most: int) -> None:
        """Reports a proof that no plan costs `most` or less."""
        self.bound = most + 1
        self.channel.say(tree=flat(proof), most=most)

    def is_closed(self) -> bool:
        return self.bound is not None and self.channel.cost is not None and self.bound >= self.channel.cost

    def relax(self) -> Optional[Solved]:
        """The relaxation, with its bound; None where it has no point, which is explained."""
        begin = time.monotonic()
        solved = self.whole.relaxed(self.model.costs)
        if solved.value == np.inf:
            self.explain(None)
            return None
        self.channel.say(relaxed=time.monotonic() - begin)
        self.by_relaxation(solved)
        return solved

    def run(self, solved: Solved) -> None:
        """Looks for better bounds than that of the relaxation."""
        if self.is_small:
            self.by_one_tree()
        if not self.is_closed():
            self.by_prices(solved)
        if not self.is_closed():
            self.by_one_tree()

    def explain(self, first: Optional[Proof]) -> None:
        """Reports which persons have no month, and which sums are short; where there are neither, sentences that can't
        hold together."""
        count = 0
        for block in self.without_month():
            count += self.say_conflicts(block.numbers, count, None)
        if not self.say_shortages() and not count:
            self.say_conflicts(range(len(self.rows)), 0, first)
        self.channel.say(explained=True)

    def without_month(self) -> Iterator[PersonBlock]:
        """The persons whose own rows can't hold together, as the relaxation shows."""
        until = min(self.deadline, time.monotonic() + _SUMS_PART * (self.deadline - self.begin))
        for block in blocks_of(self.model)[0]:
            if time.monotonic() > until:
                return
            part = Part(block.rows, block.numbers, block.variables)
            if Trees(part, self.deadline).relaxed(np.zeros(len(block.variables))).value == np.inf:
                yield block

    def say_conflicts(self, rows: Sequence[int], first: int, proof: Optional[Proof]) -> int:
        """Reports sentences of some rows that can't hold together, numbered from `first` on; how many conflicts."""
        leaves, numbers = _MOST_LEAVES if self.is_small else _FEW_LEAVES, set()
        for number, found in conflicts(self.model, rows, self.deadline, leaves, proof):
            self.channel.say(reasons=found.texts, is_minimal=found.is_minimal, rows=found.rows, tree=found.tree,
                             conflict=first + number)
            numbers.add(number)
        return len(numbers)

    def say_shortages(self) -> bool:
        """Reports the sums that are short; whether any is."""
        found = False
        if self.sums:
            until = min(self.deadline, time.monotonic() + _SUMS_PART * (self.deadline - self.begin))
            for reached in shortages(self.model, self.sums, until):
                self.channel.say(short=reached.place, had=reached.had, multipliers=reached.multipliers)
                found = True
        return found

    def by_relaxation(self, solved: Solved) -> None:
        """The bound of the relaxation of all rows."""
        most = int(np.ceil(solved.value - 1e-6)) - 1
        try:
            self.tell(self.whole.tree(self.model.costs, most, 0), most)
        except Open:
            pass

    def by_one_tree(self) -> None:
        """One tree over all variables, for the cost of the plan that the other process finds."""
        while self.channel.cost is None and not self.channel.is_hopeless and self.left() > 0:
            time.sleep(0.005)
        if self.channel.cost is None:
            self.explain(None)
        has_gained = True
        while has_gained and self.channel.cost is not None and not self.is_closed() and self.left() > 0:
            has_gained = self.attempt_whole(self.channel.cost - 1)

    def attempt_whole(self, most: int) -> bool:
        """Looks for a tree over all variables that shows that no plan costs `most` or less; whether it, or a better
        plan, was found."""
        cost, self.whole.plan = self.channel.cost, None
        try:
            self.tell(self.whole.tree(self.model.costs, most, _MOST_LEAVES), most)
            return True
        except Open:
            self.say_found(self.whole.plan)
        return self.channel.cost != cost

    def by_prices(self, solved: Solved) -> None:
        """Person by person: prices, then a tree for each person."""
        try:
            pricing = Pricing(self.model, self.deadline)
        except TooWide:
            return
        empty = pricing.empty()
        if empty is not None:
            self.explain_block(empty)
            return
        if self.channel.plan is not None:
            pricing.add_plan(self.channel.plan)
        best: Optional[Bound] = None
        for best in pricing.search(solved.multipliers[pricing.shared], self.target, self.deadline):
            self.channel.say(stage="prices", value=int(best.value // SCALE))
        if self.channel.cost is None and (self.channel.is_hopeless or pricing.is_short()):
            self.explain_prices(pricing)
        elif best is not None:
            self.by_persons(pricing, best)

    def explain_block(self, block: PersonBlock) -> None:
        """Reports why one person has no month."""
        part = Part(block.rows, block.numbers, block.variables)
        try:
            tree = Trees(part, self.deadline).tree(np.zeros(len(block.variables)), None)
        except Open:
            return
        self.explain(renamed(tree, part, None, len(self.rows)))

    def explain_prices(self, pricing: Pricing) -> None:
        """Reports that no plan meets the rows, where prices show that without any costs."""
        free = pricing.without_costs()
        best: Optional[Bound] = None
        for best in free.search(np.zeros(len(free.shared)), lambda: 0, self.deadline):
            pass
        if best is not None and best.value > 0:
            try:
                self.explain(chain(free, best, 0, self.deadline))
            except Open:
                pass

    def target(self) -> Optional[int]:
        """The cost that no plan may have, so that the plan known is best."""
        return None if self.channel.cost is None else self.channel.cost - 1

    def by_persons(self, pricing: Pricing, best: Bound) -> None:
        """The bound that the prices show, plans near it, and trees after the persons' links for what is left between
        them."""
        least = -(-best.value // SCALE)
        most = least - 1 if self.channel.cost is None else min(least, self.channel.cost) - 1
        if self.bound is None or most >= self.bound:
            try:
                self.tell(chain(pricing, best, most, self.deadline), most)
            except Open:
                pass
        if self.has_to_look():
            best = self.look_for_plan(pricing, best, least)
        self.close(pricing, self.close_by_prices(pricing, best))

    def has_to_look(self) -> bool:
        """Whether a plan may be better than the one known, as far as searches say."""
        known = self.channel.cost is not None and self.none is not None and self.channel.cost <= self.none + 1
        return not (self.channel.is_over or self.is_closed() or known)

    def look_for_plan(self, pricing: Pricing, best: Bound, least: int) -> Bound:
        """Looks for plans at the bound and near it; the best prices. Where a search says that there is none at the
        bound, and none is known, a proof of that comes before those near it."""
        reaches = pricing.reaches(best)
        if self.channel.cost is None or self.channel.cost > least:
            self.look_near(reaches, least, _AT_BOUND_PART)
        if self.channel.cost is None and self.none == least:
            best = self.close_by_prices(pricing, best)
        for percent in _NEAR:
            if self.channel.cost is None and self.has_to_look():
                self.look_near(reaches, least + abs(least) * percent // 100 + 2, _NEAR_PART)
        if self.channel.cost is not None and self.has_to_look():
            self.look_near(reaches, self.channel.cost - 1, _NEAR_PART)
        return best

    def look_near(self, reaches: Any, most: int, part: float) -> None:
        """Looks in a part of the time for a plan that costs `most` at most, among the variables that the prices leave
        it, by the bounds that they reach."""
        least = (reaches[0] > SCALE * most).astype(float)
        greatest = 1.0 - (reaches[1] > SCALE * most)
        if (least <= greatest).all():
            seconds = max(self.left() * part, min(_LEAST_LOOK, self.left() * _MOST_PART))
            found = tried(self.model.costs, [*self.rows, cost_row(self.model, most)], seconds, least, greatest)
            self.say_found(found.plan)
            if found.is_over and found.plan is None:
                self.none = most

    def close_by_prices(self, pricing: Pricing, best: Bound) -> Bound:
        """Looks for a proof that no plan costs less than the one known, or as little as a search says that none costs,
        by a small tree with prices at its ends; the best prices."""
        target = self.none if self.channel.cost is None else self.channel.cost - 1
        if target is None or self.bound is None or target < self.bound or target == self.vain:
            return best
        for best in pricing.by_masters(best, 1, lambda: target, self.deadline, rounds=_MASTERS):
            pass
        try:
            self.tell(chain_tree(pricing, best, target, self.deadline, _PRICED_LEAVES), target)
        except Open:
            self.vain = target
        return best

    def close(self, pricing: Pricing, best: Bound) -> None:
        """Looks for a proof that the plan known is best; where that isn't found in a part of the time, for one that is
        half way as far."""
        is_whole = True
        while self.channel.cost is not None and not self.is_closed() and self.left() > 1:
            most = self.channel.cost - 1
            half = most if self.bound is None else (self.bound + most) // 2
            target, part = (most, _FIRST_PART if half < most else 1.0) if is_whole else (half, 1.0)
            has_gained = self.attempt(pricing, best, target, self.left() * part)
            if not has_gained and target == half:
                return
            is_whole = has_gained

    def attempt(self, pricing: Pricing, best: Bound, target: int, seconds: float) -> bool:
        """Looks for a proof that no plan costs `target` or less; whether that, or a better plan, was found."""
        closing: Optional[Closing] = None
        cost = self.channel.cost
        try:
            closing = Closing(pricing, best, target, time.monotonic() + seconds)
            self.tell(closing.proof(_MOST_LEAVES), target)
            return True
        except Open:
            if closing is not None:
                self.say_found(closing.trees.plan)
        return self.channel.cost != cost

    def say_found(self, plan: Optional[List[int]]) -> None:
        """Reports a plan that a tree came upon, where it meets the rows."""
        cost = cost_of(self.model, plan)
        if plan is not None and cost is not None and meets(plan, self.rows):
            self.channel.say_plan(plan, cost)


def look_for_bounds(model: Model, channel: Channel, seconds: float, sums: Sequence[Sequence[int]] = ()) -> None:
    """Reports better and better bounds with their proofs, or sums that are short, or sentences that can't hold
    together."""
    prover = Prover(model, channel, seconds, sums)
    solved = prover.relax()
    if solved is not None:
        prover.run(solved)


def look_for_all(model: Model, channel: Channel, seconds: float, sums: Sequence[Sequence[int]],
                 known: Sequence[Sequence[int]]) -> None:
    """Reports plans, and bounds when these are over, where no other process looks for bounds."""
    prover = Prover(model, channel, seconds, sums)
    solved = prover.relax()
    if solved is None:
        return
    look_for_plans(model, channel, prover.deadline, known)
    if channel.is_over and channel.goes_on():
        prover.run(solved)
