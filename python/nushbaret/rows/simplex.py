"""The dual simplex method over a dense tableau, for small relaxations that are solved again and again with other bounds
(Lemke 1954). Needs NumPy. What it returns is a hint only: leaves are checked in whole numbers."""
import importlib
from typing import Any, NamedTuple, Optional

np: Any = importlib.import_module("numpy")

# What is less counts as 0: of how far a value is beyond its bound, and of an entry of the tableau.
_NEAR, _ENTRY = 1e-7, 1e-8
# So many steps are made for each row and variable at most.
_STEPS = 10


class Tableau(NamedTuple):
    """Values of rows and variables, the rows' before the variables': x[basic] + entries * x[others] = 0. The costs are
    the weighed sum of the others. Each of these stands at its least value, or at its greatest."""

    basic: Any
    others: Any
    entries: Any
    weights: Any
    is_high: Any


class Ended(NamedTuple):
    """The tableau at the end, the values of rows and variables, and multipliers of rows. Where there is no point, these
    show it, and there are no values."""

    tableau: Tableau
    values: Optional[Any]
    multipliers: Any


def tableau_of(matrix: Any, costs: Any) -> Tableau:
    """The first tableau of the least costs over rows, a dense matrix: all rows are basic."""
    rows, variables = matrix.shape
    return Tableau(np.arange(rows), np.arange(rows, rows + variables), -matrix, np.array(costs, dtype=float),
                   np.asarray(costs) < 0)


def solved(start: Tableau, low: Any, high: Any) -> Optional[Ended]:
    """The least cost within bounds of rows and variables, from a tableau of other bounds. Each of its others needs a
    bound on the side of its weight. None where it isn't found."""
    basic, others, entries, weights, is_high = (part.copy() for part in start)
    is_high = np.isinf(low[others]) | is_high & np.isfinite(high[others])
    at, may_move = np.where(is_high, high[others], low[others]), low[others] < high[others]
    least, most = low[basic], high[basic]
    for _ in range(_STEPS * (len(basic) + len(others))):
        values = -(entries @ at)
        beyond = np.maximum(least - values, values - most)
        row = int(beyond.argmax())
        if beyond[row] <= _NEAR:
            return _ended(Tableau(basic, others, entries, weights, is_high), values, at)
        is_low = bool(values[row] < least[row])
        line = entries[row] if is_low else -entries[row]
        column = _entering(line, weights, is_high, may_move)
        if column is None:
            return Ended(Tableau(basic, others, entries, weights, is_high), None,
                         _ray(basic[row], others, line, is_low, len(basic)))
        bounds = low[others[column]], high[others[column]]
        _pivot(basic, others, entries, weights, row, column)
        at[column] = least[row] if is_low else most[row]
        is_high[column], may_move[column] = not is_low, least[row] < most[row]
        least[row], most[row] = bounds
    return None


def _entering(line: Any, weights: Any, is_high: Any, may_move: Any) -> Optional[int]:
    """The column of least weight for each unit of a row that it moves as it should, of several that with the greatest
    entry; None where there is none."""
    may = (may_move & np.where(is_high, line > _ENTRY, line < -_ENTRY)).nonzero()[0]
    if not may.size:
        return None
    entries = np.abs(line[may])
    ratios = np.abs(weights[may]) / entries
    return int(may[np.where(ratios <= ratios.min() + _ENTRY, entries, 0.0).argmax()])


def _pivot(basic: Any, others: Any, entries: Any, weights: Any, row: int, column: int) -> None:
    """Exchanges a basic value and another one."""
    pivot = entries[row, column]
    line, own = entries[row] / pivot, entries[:, column].copy()
    line[column] = 0.0
    own[row] = 0.0
    touched = own.nonzero()[0]
    entries[touched] -= own[touched, None] * line
    entries[row] = line
    entries[:, column] = -own / pivot
    entries[row, column] = 1 / pivot
    weight = weights[column]
    weights -= weight * line
    weights[column] = -weight / pivot
    basic[row], others[column] = others[column], basic[row]


def _ended(tableau: Tableau, values: Any, at: Any) -> Ended:
    rows, every = len(tableau.basic), np.zeros(len(tableau.basic) + len(tableau.others))
    multipliers = every.copy()
    every[tableau.basic], every[tableau.others] = values, at
    multipliers[tableau.others] = tableau.weights
    return Ended(tableau, every, multipliers[:rows])


def _ray(basic: int, others: Any, line: Any, is_low: bool, rows: int) -> Any:
    """Multipliers which show that a basic value can't come to its bound."""
    multipliers = np.zeros(rows + len(others))
    multipliers[others] = line
    multipliers[basic] = 1.0 if is_low else -1.0
    return multipliers[:rows]
