"""Which of rows and columns are the persons of the library: the fewer ones, and the rows where they are as many. Only
here it matters which these are."""
from array import array
from typing import Any, List, Tuple

from .kinds import plain
from .limits import GREATEST_PRICE
from .problem import AssignmentProblem, lists_of


def _is_turned(problem: AssignmentProblem) -> bool:
    """Whether the columns are the persons."""
    return problem.n_rows > problem.n_columns


def oriented(problem: AssignmentProblem, first: Any, second: Any) -> Tuple[Any, Any]:
    """What rows and columns have, as what persons and objects have; and the other way round."""
    return (second, first) if _is_turned(problem) else (first, second)


def by_rows(problem: AssignmentProblem, persons: Any, objects: Any) -> Tuple[Any, Any]:
    """Persons, rising, and an object of each, as rows, rising, and columns: arrays, or lists."""
    if not _is_turned(problem):
        return persons, objects
    if isinstance(objects, list):
        order = sorted(range(len(objects)), key=objects.__getitem__)
        return [objects[pair] for pair in order], [persons[pair] for pair in order]
    places = objects.argsort()
    return objects[places], persons[places]


def costs_by_persons(problem: AssignmentProblem) -> Any:
    """The costs of a dense problem, person by person."""
    if not _is_turned(problem):
        return problem.costs.numbers
    if problem.numpy:
        return _array_by_columns(problem.numpy, problem.costs.numbers.reshape(problem.n_rows, problem.n_columns))
    costs, found = plain(problem.costs.numbers), array("q")
    for column in range(problem.n_columns):
        found.frombytes(costs[column::problem.n_columns].tobytes())
    return found


def _array_by_columns(numpy: Any, costs: Any) -> Any:
    """The costs of a matrix, column by column. Some columns at a time are taken, so that Ctrl-C is heeded in
    between."""
    found = numpy.empty(costs.size, costs.dtype)
    by_columns = found.reshape(costs.shape[::-1])
    for begin in range(0, len(by_columns), 64):
        by_columns[begin:begin + 64] = costs[:, begin:begin + 64].T
    return found


def object_prices(problem: AssignmentProblem, prices: List[int]) -> List[int]:
    """Prices of the objects to start from, the least 0, by prices of the columns: where rows are the objects, what they
    gain at these."""
    if not _is_turned(problem):
        return prices
    paid = [min((int(cost) + prices[column] for column, cost in zip(*own)), default=None)
            for own in lists_of(problem)]
    most = max((price for price in paid if price is not None), default=0)
    return [0 if price is None else min(most - price, GREATEST_PRICE) for price in paid]


def row_and_column_duals(problem: AssignmentProblem, persons: List[int], objects: List[int],
                         out: int) -> Tuple[List[int], List[int]]:
    """The duals of rows and of columns, by those of persons and of objects; `out` is that of persons who stay out, 0
    where none do."""
    if not _is_turned(problem):
        return persons, objects
    return [dual + out for dual in objects], [dual - out for dual in persons]
