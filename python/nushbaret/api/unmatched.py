"""Results of problems in which rows and columns may be left out at a cost."""
from fractions import Fraction
from functools import cached_property
from typing import Any, List, Optional, Tuple

from ..costs.left_out import Unmatched, extended, unmatched_of, with_ties, worth_it
from ..costs.numbers import Number, all_shown, total
from ..costs.problem import AssignmentProblem, Labels
from ..costs.reading import Manner
from ..costs.source import Source, problem_of
from ..lap import proved
from ..lap.solving import solved
from .results import Plan, Result, plan_of
from .shown import FixedList, fixed, numbers
from .solved import WholeDuals, result_parts


def best_unmatched(problem: AssignmentProblem) -> proved.Assignment:
    """A best plan of an extended problem, in which no row and no column are both left out whose pair costs as much."""
    answer = solved(worth_it(problem))
    if isinstance(answer, proved.HallSet):
        raise RuntimeError("each row may be left out, and the library says otherwise")
    return tied(problem, answer)


def tied(problem: AssignmentProblem, answer: proved.Assignment) -> proved.Assignment:
    """A best answer as `with_ties` says. A row's own column has the least price: only this row lists it."""
    prices, most = answer.prices, problem.n_columns - problem.n_rows
    if prices is not None and len(prices):
        prices = prices[:]
        for item in range(most, len(prices)):
            prices[item] = min(answer.prices)
    return answer._replace(objects=with_ties(problem, answer.objects), prices=prices)


def solve_unmatched(source: Source, given: Any) -> Result:
    """The result where rows and columns may be left out at what the caller gave."""
    problem = source.own_problem()
    out = unmatched_of(given, problem, source.manner)
    problem = extended(problem, out)
    return UnmatchedResult(source._replace(out=out), result_parts(problem, best_unmatched(problem)))


class UnmatchedResult(Result):
    """A result with `unmatched_cost`: its cost has what is paid for rows and columns that are left out.

    A row's dual is at most what it costs to leave it out, and so is a column's; where it is left out it is just that.
    Each row also has a column of its own, which only `verify` shows, as (none).
    """

    def __init__(self, source: Source, found: proved.ResultParts, duals: Optional[WholeDuals] = None):
        super().__init__(source, found, duals)
        most = found.shape.n_columns - found.shape.n_rows
        self.__dict__.update(zip(("rows", "columns"), map(fixed, _own(found.rows, found.columns, most))))

    @property
    def _out(self) -> Unmatched:
        out = self._source.out
        assert out is not None
        return out

    @property
    def labels(self) -> Labels:
        rows, columns = self._shape.labels or ([], [])
        return (list(rows), columns[:self._sizes[1]]) if self._out.has_labels else None

    @property
    def _sizes(self) -> Tuple[int, int]:
        return self._shape.n_rows, self._shape.n_columns - self._shape.n_rows

    def _problem_of(self, costs: Any, rows: Any, columns: Any, missing: str) -> AssignmentProblem:
        return extended(problem_of(costs, rows, columns, self._sizes, self._manner(missing)), self._out)

    def _answered(self, source: Source, problem: AssignmentProblem, answer: proved.Assignment) -> Result:
        return UnmatchedResult(source, result_parts(problem, tied(problem, answer)))

    @cached_property
    def cost(self) -> Number:
        return self._sum([Fraction(*ratio) for ratio in self._solved.ratios])

    def _sum(self, costs: List[Fraction]) -> Number:
        parts = [(sum(costs, self._out.constant)).as_integer_ratio(), (0, self._shape.unit.denominator)]
        return total(parts, self._shape.costs.fractions)

    @cached_property
    def pairs(self) -> List[Tuple[Any, Any]]:
        return FixedList(self._named(zip(map(int, self.rows), map(int, self.columns))))

    def _left(self, side: int) -> Any:
        held = set(map(int, (self.rows, self.columns)[side]))
        return numbers([number for number in range(self._sizes[side]) if number not in held], self._solved.as_arrays)

    @cached_property
    def _all_duals(self) -> List[Number]:
        """The duals of the rows, and then those of the columns."""
        (held, unit), out, sign = self._solved.duals, self._out, -1 if self.maximize else 1
        most = self._sizes[1]
        left = set(map(int, self.unmatched_rows))
        rows = [cost if row in left else Fraction(sign * dual, unit.denominator) - out.shift
                for row, (cost, dual) in enumerate(zip(out.rows, held.rows))]
        columns = [Fraction(sign * dual, unit.denominator) + cost
                   for cost, dual in zip(out.columns, held.columns[:most])]
        return all_shown([dual.as_integer_ratio() for dual in rows + columns], self._shape.costs.fractions)

    @cached_property
    def row_duals(self) -> List[Number]:
        return FixedList(self._all_duals[:self._sizes[0]])

    @cached_property
    def column_duals(self) -> List[Number]:
        return FixedList(self._all_duals[self._sizes[0]:])

    @cached_property
    def prices(self) -> List[Number]:
        """What each column costs in addition to its pairs, less what it costs to leave it out; 0 for one left out."""
        return self._solved.shown(proved.rents(self._solved.duals[0])[:self._sizes[1]])

    def _plan(self, rows: Any, columns: Any, cost: Number) -> Plan:
        rows, columns = (numbers(map(int, side), self._solved.as_arrays)
                         for side in _own(rows, columns, self._sizes[1]))
        return plan_of(rows, columns, self._sum([Fraction(cost)]), self.labels)

    def _costs_of_pairs(self) -> List[Number]:
        held = self._solved.pairs
        found = [Fraction(*ratio) + self._out.columns[column] - self._out.shift
                 for column, ratio in zip(held[1], self._solved.ratios) if column < self._sizes[1]]
        return all_shown([cost.as_integer_ratio() for cost in found], self._shape.costs.fractions)


def _own(rows: Any, columns: Any, most: int) -> Tuple[Any, Any]:
    """The pairs whose columns are the caller's, of which there are so many."""
    if hasattr(columns, "dtype"):
        return rows[columns < most], columns[columns < most]
    pairs = [(row, column) for row, column in zip(rows, columns) if column < most]
    return [row for row, _ in pairs], [column for _, column in pairs]


def unmatched_pairs(problem: AssignmentProblem, given: Any, manner: Manner) -> Tuple[Any, Any]:
    """Rows and columns of a best plan alone."""
    longer = extended(problem, unmatched_of(given, problem, manner))
    return _own(*proved.rows_and_columns(longer, best_unmatched(longer)), problem.n_columns)
