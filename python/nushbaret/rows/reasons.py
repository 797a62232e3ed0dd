"""Why no plan meets a model's rows: the fewest sentences that can't hold together, by a deletion filter. Needs NumPy
and SciPy."""
import importlib
import time
from typing import Any, Dict, Iterator, List, NamedTuple, Optional, Sequence, Set, Tuple

from .certificate_check import MOST_DEPTH, meets
from .highs import tried
from .model import Leaf, Limits, Model, Part, Proof, Split, flat
from .persons import limits_of
from .trees import Open, Trees

np: Any = importlib.import_module("numpy")


# The part of the time that is left in which it is looked for a plan without one of the sentences.
_PART = 0.1
# Further conflicts are looked for after one of so many sentences at most.
MOST_TOLD = 6


class Reasons(NamedTuple):
    """Sentences that can't hold together, the numbers of their rows, and a proof over these rows only, as one list."""

    texts: Tuple[str, ...]
    is_minimal: bool
    rows: Tuple[int, ...]
    tree: Tuple[int, ...]


class _Shown(NamedTuple):
    """Rows of a model, by their numbers, and a proof that no plan meets them."""

    rows: List[int]
    proof: Proof


class _Filter:
    """A deletion filter over sentences."""

    def __init__(self, model: Model, deadline: float):
        self.model, self.deadline = model, deadline
        self.plans: List[Any] = []

    def rows_of(self, texts: Set[str]) -> List[int]:
        return [number for number, row in enumerate(self.model.rows) if row.text in texts]

    def refuted(self, texts: Set[str], leaves: int) -> Optional[_Shown]:
        """A proof that no plan meets the sentences' rows; None where it isn't found."""
        numbers, rows = self.rows_of(texts), self.limits_of(texts)
        part = Part(rows, list(range(len(rows))), list(range(self.model.variables)))
        try:
            return _Shown(numbers, Trees(part, self.deadline).tree(np.zeros(self.model.variables), None, leaves))
        except Open:
            return None

    def without(self, texts: Set[str], leaves: int) -> Optional[_Shown]:
        """A proof that no plan meets these sentences; None where it isn't found, or a plan is known, or found and
        kept."""
        if self.knows_plan(texts):
            return None
        shown = self.refuted(texts, 0)
        if shown is None:
            left = self.deadline - time.monotonic()
            plan = tried((0,) * self.model.variables, self.limits_of(texts), min(left, max(1.0, left * _PART))).plan
            self.plans += [] if plan is None else [plan]
            shown = None if self.knows_plan(texts) else self.refuted(texts, leaves)
        return shown

    def knows_plan(self, texts: Set[str]) -> bool:
        """Whether a plan is known that meets the sentences."""
        rows = self.limits_of(texts)
        return any(meets(plan, rows) for plan in self.plans)

    def limits_of(self, texts: Set[str]) -> List[Limits]:
        return [limits_of(self.model.rows[number]) for number in self.rows_of(texts)]


def conflicts(model: Model, rows: Sequence[int], deadline: float, leaves: int, first: Optional[Proof] = None
              ) -> Iterator[Tuple[int, Reasons]]:
    """Reasons of conflicts of some rows that share no sentence, with the conflicts' numbers, as `reasons` has them.
    After one of many sentences none is looked for."""
    left, number = list(rows), 0
    while time.monotonic() < deadline:
        found: Optional[Reasons] = None
        rest = model._replace(rows=tuple(model.rows[row] for row in left))
        for found in reasons(rest, deadline, leaves, first):
            yield number, found._replace(rows=tuple(left[row] for row in found.rows))
        if found is None or not found.is_minimal or len(found.texts) > MOST_TOLD:
            return
        left = [row for row in left if model.rows[row].text not in found.texts]
        first, number = None, number + 1


def reasons(model: Model, deadline: float, leaves: int, first: Optional[Proof] = None) -> Iterator[Reasons]:
    """Fewer and fewer sentences that can't hold together, with `first` as a proof that all can't. None where that isn't
    shown: a tree over all variables has at most so many leaves."""
    work = _Filter(model, deadline)
    shown = _Shown(list(range(len(model.rows))), first) if first else work.refuted({row.text for row in model.rows},
                                                                                   leaves)
    if shown is None:
        return
    needed: Set[str] = set()
    tried: Set[str] = set()
    kept = _used(model, shown)
    yield _reasons(model, shown, False)
    while time.monotonic() < deadline and not tried >= set(kept):
        text = next(text for text in kept if text not in tried)
        tried.add(text)
        fewer = set(kept) - {text}
        without = work.without(fewer, leaves)
        if without is not None:
            shown, kept = without, _used(model, without)
            yield _reasons(model, shown, False)
        elif work.knows_plan(fewer):
            needed.add(text)
    yield _reasons(model, shown, needed >= set(kept))


def _used(model: Model, shown: _Shown) -> List[str]:
    """The sentences whose rows a proof uses, in the model's order."""
    return list(dict.fromkeys(model.rows[shown.rows[row]].text for row in sorted(_rows_in(shown))))


def _rows_in(shown: _Shown) -> Set[int]:
    """The rows of the model that a proof uses, by their places in its list of rows."""
    used: Set[int] = set()
    waiting = [shown.proof]
    while waiting:
        node = waiting.pop()
        if isinstance(node, Split):
            waiting += (node.below, node.above)
        else:
            used.update(row for row, factor in node.multipliers if row < len(shown.rows) and factor)
    return used


def _reasons(model: Model, shown: _Shown, is_minimal: bool) -> Reasons:
    """The reasons, with a proof over the rows of these sentences alone."""
    texts = _used(model, shown)
    kept = [place for place, row in enumerate(shown.rows) if model.rows[row].text in texts]
    to = {place: at for at, place in enumerate(kept)}
    to.update({len(shown.rows) + depth: len(kept) + depth for depth in range(MOST_DEPTH)})
    return Reasons(tuple(texts), is_minimal, tuple(shown.rows[place] for place in kept), flat(_moved(shown.proof, to)))


def _moved(proof: Proof, to: Dict[int, int]) -> Proof:
    """The proof with other numbers of rows."""
    if isinstance(proof, Leaf):
        return Leaf(tuple((to[row], factor) for row, factor in proof.multipliers if factor))
    return Split(proof.terms, proof.most, _moved(proof.below, to), _moved(proof.above, to))
