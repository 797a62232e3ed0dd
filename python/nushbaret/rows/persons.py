"""A model by persons: each person's variables and rows, and the rows that several persons share. Needs NumPy and
SciPy."""
import importlib
from typing import Any, Dict, List, NamedTuple, Optional, Sequence, Tuple

from .model import Limits, Model, Row, Terms

np: Any = importlib.import_module("numpy")
sparse: Any = importlib.import_module("scipy.sparse")


class PersonBlock(NamedTuple):
    """A person's part of a model: the variables, the rows' numbers, and these rows over the block's own variables, from
    0."""

    variables: List[int]
    numbers: List[int]
    rows: List[Limits]
    place: Dict[int, int]


def limits_of(row: Row) -> Limits:
    """The row without its sentence."""
    return Limits(row.least, row.terms, row.most)


def blocks_of(model: Model) -> Tuple[List[PersonBlock], List[int]]:
    """The persons' blocks, a variable of nobody being one of its own, and the numbers of the rows over several blocks
    or none."""
    known: Dict[Tuple[bool, int], int] = {}
    block_of = [known.setdefault((person is None, variable if person is None else person), len(known))
                for variable, person in enumerate(model.persons)]
    variables: List[List[int]] = [[] for _ in known]
    for variable, block in enumerate(block_of):
        variables[block].append(variable)
    numbers: List[List[int]] = [[] for _ in known]
    shared: List[int] = []
    for number, row in enumerate(model.rows):
        blocks = {block_of[variable] for variable, _ in row.terms}
        (numbers[blocks.pop()] if len(blocks) == 1 else shared).append(number)
    return [_block(model, own, rows) for own, rows in zip(variables, numbers)], shared


def _block(model: Model, variables: List[int], numbers: List[int]) -> PersonBlock:
    place = {variable: at for at, variable in enumerate(variables)}
    rows = [model.rows[number] for number in numbers]
    return PersonBlock(variables, numbers, [Limits(row.least, moved(row.terms, place), row.most) for row in rows],
                       place)


def moved(terms: Terms, to: Any) -> Terms:
    """The terms over other numbers of variables."""
    return tuple((to[variable], factor) for variable, factor in terms)


def matrix_of(rows: Sequence[Limits], variables: int) -> Any:
    """The rows' coefficients, as a sparse matrix of floats."""
    columns = [variable for row in rows for variable, _ in row.terms]
    data = [factor for row in rows for _, factor in row.terms]
    starts = np.cumsum([0] + [len(row.terms) for row in rows])
    return sparse.csr_matrix((np.array(data, dtype=float), columns, starts), shape=(len(rows), variables))


def side_of(rows: Sequence[Limits]) -> Tuple[Any, Any]:
    """The rows' least and most as floats, infinite where there is none."""
    return (np.array([-np.inf if row.least is None else row.least for row in rows], dtype=float),
            np.array([np.inf if row.most is None else row.most for row in rows], dtype=float))


def cost_row(model: Model, most: int) -> Limits:
    """The row `cost <= most`."""
    return Limits(None, tuple((variable, cost) for variable, cost in enumerate(model.costs) if cost), most)


def cost_of(model: Model, plan: Optional[Sequence[int]]) -> Optional[int]:
    """What a plan costs; None where there is none."""
    return None if plan is None else sum(cost for cost, taken in zip(model.costs, plan) if taken)
