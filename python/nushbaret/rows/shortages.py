"""Sums of least counts that no plan reaches, by the relaxation without these counts. Needs NumPy and SciPy."""
import importlib
import time
from typing import Any, Iterator, NamedTuple, Sequence, Set, Tuple

from .model import Leaf, Limits, Model, Part
from .persons import limits_of, matrix_of, side_of
from .trees import Open, Trees

np: Any = importlib.import_module("numpy")
optimize: Any = importlib.import_module("scipy.optimize")
sparse: Any = importlib.import_module("scipy.sparse")

# To miss 1 of another row costs as much as to miss so many places.
_DEAR = 1000


class Reached(NamedTuple):
    """How much of a sum can be had at most, and a leaf that shows it: multipliers of the model's rows, without the
    least sums of counts and of others that the relaxation misses, and of the row `sum >= had + 1`, which comes
    after them."""

    place: int
    had: int
    multipliers: Tuple[Tuple[int, int], ...]


def shortages(model: Model, sums: Sequence[Sequence[int]], deadline: float) -> Iterator[Reached]:
    """The sums that are short, in their order; each is of rows, of which all least counts are wanted at once. Those are
    looked at of which the relaxation that misses as little as can be misses something."""
    counts = {row for own in sums for row in own}
    missed = _missed(model, counts)
    loose = [Limits(None if number in counts | missed else row.least, row.terms, row.most)
             for number, row in enumerate(model.rows)]
    trees = Trees(Part(loose, list(range(len(loose))), list(range(model.variables))), deadline)
    for place, own in enumerate(sums):
        if time.monotonic() > deadline:
            return
        if any(row in missed for row in own):
            yield from _short(model, trees, place, own)


def _missed(model: Model, counts: Set[int]) -> Set[int]:
    """The rows of which the relaxation misses least sums, where it misses as few of the counts as can be, and of others
    none that it needn't."""
    rows = [limits_of(row) for row in model.rows]
    low, high = side_of(rows)
    least = [number for number, row in enumerate(rows) if row.least is not None]
    slack = sparse.csr_matrix((np.ones(len(least)), (least, np.arange(len(least)))), (len(rows), len(least)))
    # What is missed of a row may make room below its greatest sum, which costs nothing and changes nothing.
    high = np.where(np.isin(np.arange(len(rows)), least), np.inf, high)
    both = sparse.vstack([sparse.hstack([matrix_of(rows, model.variables), slack]),
                          sparse.hstack([matrix_of(rows, model.variables), 0 * slack])]).tocsc()
    constraints = optimize.LinearConstraint(both, np.append(low, np.full(len(rows), -np.inf)),
                                            np.append(high, side_of(rows)[1]))
    costs = np.append(np.zeros(model.variables), [1 if number in counts else _DEAR for number in least])
    most = np.append(np.ones(model.variables), np.full(len(least), np.inf))
    found = optimize.milp(costs, constraints=constraints, bounds=optimize.Bounds(0, most))
    if found.x is None:
        return set()
    return {row for row, value in zip(least, found.x[model.variables:]) if value > 1e-6}


def _short(model: Model, trees: Trees, place: int, own: Sequence[int]) -> Iterator[Reached]:
    """A sum, if it is short."""
    costs = np.zeros(model.variables, dtype=np.int64)
    for row in own:
        for variable, factor in model.rows[row].terms:
            costs[variable] -= factor
    wanted = sum(model.rows[row].least or 0 for row in own)
    try:
        value = trees.relaxed(costs).value
        had = int(np.floor(1e-6 - value)) if np.isfinite(value) else wanted
        proof = trees.tree(costs, -had - 1, 0) if had < wanted else None
    except Open:
        return
    if isinstance(proof, Leaf):
        count = len(model.rows)
        yield Reached(place, had, tuple((row, -factor if row == count else factor) for row, factor in
                                        proof.multipliers))
