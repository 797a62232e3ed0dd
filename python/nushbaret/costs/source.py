"""The costs of a call as its caller holds them, to be read again when a result needs them: a result keeps no copy."""
import copy
from typing import Any, Dict, NamedTuple, Optional, Tuple

from . import left_out, problem as reading, reading as exact
from .numbers import Ratio
from .problem import AssignmentProblem, Labels

NO_COSTS = "a pickled result has no costs: give them to it by with_costs(costs), or to verify(costs)"


def lasting(costs: Any) -> Any:
    """Costs that can be read twice: what an iterator yields is kept."""
    if type(costs) is list and {list}.issuperset(map(type, costs)) or isinstance(costs,
                                                                                 (str, bytes, dict, set, frozenset)):
        return costs
    if isinstance(costs, (list, tuple)) or not hasattr(costs, "__len__") and hasattr(costs, "__next__"):
        return [list(row) if hasattr(row, "__next__") else row for row in costs]
    return costs


def listed(values: Any) -> Any:
    """A list of pairs that can be read twice."""
    return values if hasattr(values, "__len__") or not hasattr(values, "__iter__") else list(values)


class Source(NamedTuple):
    """What a call was given: costs, for listed pairs also their rows, columns and the sizes, how they are read, the
    pairs that are left out, the worst cost that a pair may have, what rows and columns cost that stay out, and the
    names of those of listed pairs. Without costs it is what a pickle has of them."""

    costs: Any
    rows: Any
    columns: Any
    sizes: Optional[Tuple[Any, Any]]
    manner: exact.Manner
    less: Tuple[Tuple[int, int], ...] = ()
    worst: Optional[Ratio] = None
    out: Optional[left_out.Unmatched] = None
    labels: Labels = None

    def read(self) -> AssignmentProblem:
        """The problem, as its costs are now."""
        if self.costs is None:
            raise ValueError(NO_COSTS)
        problem = self.own_problem()
        if self.out is not None:
            problem = left_out.extended(problem, self.out)
        for row, column in self.less:
            problem = reading.without_pair(problem, row, column)
        return problem if self.worst is None else reading.within(problem, self.worst)

    def own_problem(self) -> AssignmentProblem:
        """The problem of the costs alone."""
        return problem_of(self.costs, self.rows, self.columns, self.sizes, self.manner, self.labels)

    def without_costs(self) -> "Source":
        """What of it is no longer than the plan."""
        return self._replace(costs=None, rows=None, columns=None, sizes=None)

    def __deepcopy__(self, memo: Dict[int, Any]) -> "Source":
        return self._replace(costs=_copied(self.costs, memo), rows=_copied(self.rows, memo),
                             columns=_copied(self.columns, memo))


def _copied(values: Any, memo: Dict[int, Any]) -> Any:
    """A deep copy; that of a view of memory is a list."""
    try:
        return copy.deepcopy(values, memo)
    except (TypeError, ValueError, AttributeError):
        return reading.native(memoryview(values)).tolist()


def problem_of(costs: Any, rows: Any, columns: Any, sizes: Optional[Tuple[Any, Any]], manner: exact.Manner,
               labels: Labels = None) -> AssignmentProblem:
    """The problem of a matrix, of a sparse matrix, or of listed pairs, whose rows and columns may have names. If sizes
    are given, it must have these."""
    if (rows is None) != (columns is None):
        raise TypeError("rows and columns of listed pairs are given together")
    if rows is not None and sizes is not None:
        return reading.of_pairs(*sizes, rows, columns, costs, manner, labels)
    found = reading.of_matrix(costs, manner)
    if sizes is not None and sizes != (found.n_rows, found.n_columns):
        raise ValueError(f"the costs have {found.n_rows} rows and {found.n_columns} columns, the plan was made for "
                         f"{sizes[0]} and {sizes[1]}")
    return found
