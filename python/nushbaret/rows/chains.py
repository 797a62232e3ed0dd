"""Proofs person by person: a chain of splits, each with a person's tree, and after it one leaf that adds them up, or a
tree over all variables. Needs NumPy and SciPy."""
import importlib
import time
from typing import Any, Dict, List, NamedTuple, Optional, Sequence, Tuple

from .model import Leaf, Limits, Part, Proof, Split, Terms, renamed
from .persons import limits_of, moved
from .priced_trees import PricedTree, priced_tree
from .prices import SCALE, Bound, Pricing
from .trees import Open, Trees

np: Any = importlib.import_module("numpy")

# What a person's least cost gives up, in parts of SCALE, so that her tree is smaller.
_GIVE = 4
# What all persons' least costs give up together above a tree with prices at its ends, and the part of the time in which
# that is looked for.
_GIVEN, _LOOKING_PART = 30, 0.5
# A tree that fixes a person's variables has at most so many leaves. Those are fixed whose other values need, as the
# relaxation shows, so great a part of what is wanted above its least cost: trees for more are large.
_FIXING_LEAVES, _SHOWN_PART = 20, 0.65


class _Link(NamedTuple):
    """A split of a chain, one half of which is refuted: in the other half `row` holds, which is about a person."""

    terms: Terms
    most: int
    refuted: Proof
    row: Limits
    number: int


class _Above(NamedTuple):
    """The row of a split that stands above: about which person it is, and whether it leaves one choice for each of its
    variables."""

    row: Limits
    number: int
    fixes: bool


class Chain:
    """Links over all persons, in a model of so many rows, with its cost row `cost <= target` after them."""

    def __init__(self, pricing: Pricing, bound: Bound, target: int, deadline: float, above: Sequence["_Above"] = ()):
        self.pricing, self.bound, self.target, self.deadline = pricing, bound, target, deadline
        # Rows of splits above the links.
        self.above = above
        # Without costs there is no cost row, and the splits' rows follow the model's.
        self.has_costs = any(pricing.model.costs)
        self.cost_row = len(pricing.model.rows) - int(not self.has_costs)
        self.costs, self._each = pricing.priced(bound.prices), None
        self.links: List[_Link] = []
        # Of each person that has a link: its row, and the least that it shows.
        self.row_of: Dict[int, int] = {}
        self.least: Dict[int, int] = {}

    def next_row(self) -> int:
        return self.cost_row + 1 + len(self.above) + len(self.links)

    def spare(self) -> int:
        """By how much the bound is more than the target needs."""
        return self.bound.value - SCALE * self.target - 1

    def add_persons(self, spare: Optional[int]) -> None:
        """A link for each person, which says the least that her months cost at the prices; `spare` may be given up in
        all, by each as much as her relaxation is below that, or a little by each."""
        wanted = [number for number, block in enumerate(self.pricing.blocks)
                  if np.minimum(self.costs[block.variables], 0).sum() < self.bound.least[number]]
        trees = [self._trees(number) for number in wanted]
        gaps = [0.0] * len(wanted) if spare is None else [
            max(0.0, self.bound.least[number] - own.relaxed(self.costs[own.part.variables]).value)
            for number, own in zip(wanted, trees)]
        for number, own, gap in zip(wanted, trees, gaps):
            give = _GIVE if spare is None else int(spare * min(1.0, gap / max(1.0, sum(gaps))))
            self._add_person(number, own, self.bound.least[number] - give)

    def _trees(self, number: int) -> Trees:
        """Trees over a person's rows, and those of the splits above that are hers."""
        block, first = self.pricing.blocks[number], self.cost_row + 1
        own = [(first + place, one) for place, one in enumerate(self.above) if one.number == number]
        part = Part([*block.rows, *(Limits(one.row.least, moved(one.row.terms, block.place), one.row.most)
                                    for _, one in own)],
                    [*block.numbers, *(place for place, _ in own)], block.variables)
        fixing = [len(block.rows) + place for place, (_, one) in enumerate(own) if one.fixes]
        return Trees(part, self.deadline, fixing)

    def _add_person(self, number: int, trees: Trees, least: int) -> None:
        tree, terms = trees.tree(self.costs[trees.part.variables], least - 1), self._terms(number)
        self.row_of[number], self.least[number] = self.next_row(), least
        self.links.append(_Link(terms, least - 1, renamed(tree, trees.part, self.next_row(), self.next_row() + 1),
                                Limits(least, terms, None), number))

    def _terms(self, number: int) -> Terms:
        variables = self.pricing.blocks[number].variables
        return tuple((variable, int(cost)) for variable, cost in zip(variables, self.costs[variables].tolist()) if cost)

    def last(self, instead: Optional[Tuple[int, int]] = None) -> Leaf:
        """The leaf that adds up prices, costs, and each person's least; that of one person from another row instead."""
        prices = [(self.pricing.shared[place], int(self.bound.prices[place]))
                  for place in np.flatnonzero(self.bound.prices).tolist()]
        rows = [row for number, row in self.row_of.items() if instead is None or number != instead[0]]
        rows += [] if instead is None else [instead[1]]
        costs = [(self.cost_row, -SCALE)] if self.has_costs else []
        return Leaf((*prices, *costs, *((row, 1) for row in rows)))

    def joined(self, last: Proof) -> Proof:
        """The proof with `last` after all links."""
        proof = last
        for link in reversed(self.links):
            is_above = link.row.most is None
            proof = Split(link.terms, link.most, link.refuted, proof) if is_above else Split(link.terms, link.most,
                                                                                             proof, link.refuted)
        return proof

    def given(self) -> int:
        """By how much the links show less than the bound."""
        return sum(self.bound.least[number] - least for number, least in self.least.items())

    def each(self) -> Any:
        """For each variable the least costs at the prices of its person's months without it, and with it."""
        if self._each is None:
            self._each = self.pricing.stacked.with_and_without(self.costs)
        return self._each

    def add_mosts(self) -> None:
        """Links that say what a person's months cost at the prices at most, where the target leaves room for no more,
        and some need more."""
        room = SCALE * self.target - self.bound.value + self.given()
        for number, block in enumerate(self.pricing.blocks):
            most = self.least.get(number, self.bound.least[number]) + room
            if self.each()[:, block.variables].max() > most:
                terms, last = self._terms(number), self.last((number, self.next_row()))
                self.links.append(_Link(terms, most, last, Limits(None, terms, most), number))

    def add_fixing(self) -> List[int]:
        """Links that fix variables of persons whose other values need a cost beyond the target; the places of these
        links."""
        places, total = [], self.bound.value - self.given()
        for number in list(self.row_of):
            wanted = SCALE * self.target + 1 - total + self.least[number]
            link = self._fixing(number, wanted, self.each()[:, self.pricing.blocks[number].variables].tolist())
            if link is not None:
                places.append(len(self.links))
                self.links.append(link)
        return places

    def _fixing(self, number: int, wanted: int, each: Sequence[Sequence[int]]) -> Optional[_Link]:
        """The link that fixes variables of a person without which, or with which, her months cost `wanted` or more at
        the prices, as small trees show it. `each` has the least costs of her months without each variable, and with
        it."""
        block, own = self.pricing.blocks[number], self.costs[self.pricing.blocks[number].variables]
        without, taken = each
        is_shown = self._trees(number).reached(own, wanted, _SHOWN_PART)
        terms = tuple((place, 1 if taken[place] >= wanted else -1) for place in range(len(own))
                      if max(taken[place], without[place]) >= wanted and is_shown[place])
        most = -sum(factor < 0 for _, factor in terms)
        if not terms:
            return None
        other, row = self.next_row(), Limits(most + 1, terms, None)
        part = Part([*block.rows, row], [*block.numbers, other], block.variables)
        try:
            tree = Trees(part, self.deadline).tree(own, wanted - 1, _FIXING_LEAVES)
        except Open:
            return None
        beyond = Split(self._terms(number), wanted - 1, renamed(tree, part, other + 1, other + 2),
                       self.last((number, other + 1)))
        fixed = tuple((block.variables[place], factor) for place, factor in terms)
        return _Link(fixed, most, beyond, Limits(None, fixed, most), number)


def chain(pricing: Pricing, bound: Bound, target: int, deadline: float) -> Proof:
    """A proof that no plan costs `target` or less, by prices of the shared rows. The row `cost <= target` comes after
    the model's rows. Raises `Open` where a person's tree isn't found in time."""
    links = Chain(pricing, bound, target, deadline)
    if links.spare() < 0:
        raise Open
    links.add_persons(links.spare())
    return links.joined(links.last())


def chain_tree(pricing: Pricing, bound: Bound, target: int, deadline: float, most_leaves: int) -> Proof:
    """The same where the prices alone don't show it: by a tree with prices of its own at each end, after links that say
    what persons' months cost at the first prices, and what is fixed by that."""
    now = time.monotonic()
    tree = priced_tree(pricing, bound, target, _GIVEN, now + _LOOKING_PART * (deadline - now), most_leaves)
    links = Chain(pricing, bound, target, deadline)
    links.add_persons(_GIVEN)
    links.add_mosts()
    fixing = set(links.add_fixing())
    above = [_Above(link.row, link.number, place in fixing) for place, link in enumerate(links.links)]
    return links.joined(_with_ends(pricing, tree, target, deadline, above))


def _with_ends(pricing: Pricing, tree: PricedTree, target: int, deadline: float, above: List[_Above]) -> Proof:
    """The proof below some splits: at each end of the tree links by its prices."""
    if isinstance(tree, Bound):
        links = Chain(pricing, tree, target, deadline, above)
        links.add_persons(links.spare())
        return links.joined(links.last())
    terms, number = ((tree.variable, 1),), pricing.number_of(tree.variable)
    without = _Above(Limits(None, terms, 0), number, True)
    taken = _Above(Limits(1, terms, None), number, False)
    halves = [_with_ends(pricing, half, target, deadline, [*above, row])
              for half, row in ((tree.without, without), (tree.taken, taken))]
    return Split(terms, 0, halves[0], halves[1])


class Closing:
    """A proof by a tree over all variables after the persons' links, where the prices alone don't show the target."""

    def __init__(self, pricing: Pricing, bound: Bound, target: int, deadline: float):
        self.links = Chain(pricing, bound, target, deadline)
        self.links.add_persons(None)
        fixing = self.links.add_fixing()
        model = pricing.model
        rows = [limits_of(row) for row in model.rows] + [link.row for link in self.links.links]
        first = self.links.cost_row + 1
        numbers = [*range(len(model.rows)), *range(first, first + len(self.links.links))]
        self.part = Part(rows, numbers, list(range(model.variables)))
        self.trees = Trees(self.part, deadline, [len(model.rows) + place for place in fixing])

    def proof(self, most_leaves: int) -> Proof:
        """The proof; raises `Open` where it isn't found, or a plan is found instead (`trees.plan`)."""
        tree = self.trees.tree(self.links.pricing.model.costs, self.links.target, most_leaves)
        return self.links.joined(renamed(tree, self.part, self.links.cost_row, self.links.next_row()))
