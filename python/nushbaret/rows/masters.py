"""The master problem of column generation: the best mixture of months, one of each block. Needs NumPy and SciPy."""
import importlib
import math
from typing import Any, NamedTuple, Optional, Sequence

np: Any = importlib.import_module("numpy")
sparse: Any = importlib.import_module("scipy.sparse")
optimize: Any = importlib.import_module("scipy.optimize")

# What a unit costs by which a shared row is missed: so much at least, and so many tenths of a month's greatest cost.
_MISSED = 50.0


class PricedMonth(NamedTuple):
    """A month of a block that meets the block's rows, and how much it takes of each shared row."""

    taken: Any
    cost: int
    uses: Any


class Master(NamedTuple):
    """The value of the master problem, its dual prices of the shared rows, by how much it misses these, and how much of
    each month it has."""

    value: float
    prices: Any
    missed: float
    parts: Any


class MasterProblem:
    """Mixtures of months of each block, where a shared row may be missed at a high cost."""

    def __init__(self, months: Sequence[Sequence[PricedMonth]], least: Any, most: Any):
        self.months = [(number, month) for number, own in enumerate(months) for month in own]
        costs = np.array([month.cost for _, month in self.months], dtype=float)
        uses = sparse.csc_matrix(np.array([month.uses for _, month in self.months]).reshape(len(costs), -1).T)
        self.rows, self.columns = uses.shape
        self.low, self.up = np.flatnonzero(np.isfinite(least)), np.flatnonzero(np.isfinite(most))
        every = sparse.identity(self.rows, format="csr")
        by_row = sparse.hstack([uses, every]).tocsr()
        high = _MISSED * max(1.0, float(np.abs(costs).max(initial=1.0)) / 10)
        number = np.array([number for number, _ in self.months])
        one_each = sparse.csc_matrix((np.ones(self.columns), (number, np.arange(self.columns))),
                                     (len(months), self.columns + self.rows))
        above = sparse.vstack([-by_row[self.low], sparse.hstack([uses, -every]).tocsr()[self.up]]).tocsc()
        self.program = {"c": np.append(costs, np.full(self.rows, high)), "A_ub": above, "A_eq": one_each,
                        "b_ub": np.append(-least[self.low], most[self.up]), "b_eq": np.ones(len(months))}

    def solved(self, most: Any = np.inf) -> Optional[Master]:
        """The best mixture with so much of each month at most; None where it isn't found."""
        bounds = np.zeros((self.columns + self.rows, 2))
        bounds[:, 1] = np.inf
        bounds[:self.columns, 1] = most
        found = optimize.linprog(**self.program, bounds=bounds, method="highs")
        if found.status != 0:
            return None
        prices = np.zeros(self.rows)
        prices[self.low] -= found.ineqlin.marginals[:len(self.low)]
        prices[self.up] += found.ineqlin.marginals[len(self.low):]
        return Master(float(found.fun), prices, float(found.x[self.columns:].sum()), found.x[:self.columns])

    def cost(self, number: int, variable: int, value: int) -> float:
        """What the best mixture costs where a block's variable has a value; infinite where no month has it, or it isn't
        found."""
        most = np.array([np.inf if own != number or month.taken[variable] == value else 0.0
                         for own, month in self.months])
        found = self.solved(most)
        return math.inf if found is None else found.value
