"""A best assignment as the caller sees it."""
import copy
import pickle
from functools import cached_property
from typing import Any, Dict, Iterable, Iterator, List, NamedTuple, Optional, Tuple

from ..costs import source as sources
from ..costs.naming import Numbers
from ..costs.numbers import Number
from ..costs.problem import AssignmentProblem, Labels
from ..costs.reading import Manner, manner
from ..costs.source import Source, problem_of
from ..lap import library, proved
from ..lap.plan_check import check_wholly
from .infeasible import infeasible
from .shown import ByNames, FixedList, Missing, fixed, numbers
from .solved import SolvedProblem, WholeDuals, result_parts


class _PlanParts(NamedTuple):
    """What a plan consists of."""

    rows: Any
    columns: Any
    cost: Number


class Plan(_PlanParts, ByNames):
    """A plan: row rows[k] has column columns[k], and all pairs together cost `cost`. `pairs` has the labels of a frame.

    Examples
    --------
    >>> import nushbaret
    >>> nushbaret.solve([[4, 1], [2, 3]]).next_best()
    Plan(rows=[0, 1], columns=[0, 1], cost=7)
    """

    labels: Labels = None

    @property
    def pairs(self) -> List[Tuple[Any, Any]]:
        """The pairs, by the labels of a frame, or else by numbers."""
        rows, columns = self.labels or (None, None)
        return [(rows[row] if rows else int(row), columns[column] if columns else int(column))
                for row, column in zip(self.rows, self.columns)]


def plan_of(rows: Any, columns: Any, cost: Number, labels: Labels) -> Plan:
    """A plan with the labels of a frame."""
    plan = Plan(rows, columns, cost)
    if labels:
        plan.labels = labels
    return plan


class Verdict:
    """What the checker says of a plan with its prices: true as a condition exactly if they prove it best.

    Attributes
    ----------
    proved : bool
        Whether the plan has as many pairs as can be made, and the prices prove that no plan of as many is better.
    why : str
        What is wrong with the first row or column that speaks against it, by the labels of a DataFrame; empty if
        nothing is.
    row, column : int or None
        Which row and column these are, from 0, if any.

    Examples
    --------
    >>> import nushbaret
    >>> verdict = nushbaret.check([[1, 2], [3, 5]], columns=[0, 1], prices=[1, 0])
    >>> bool(verdict), verdict.row, verdict.column
    (False, 1, 0)
    """

    def __init__(self, why: str = "", row: Optional[int] = None, column: Optional[int] = None):
        self.proved = not why
        self.why, self.row, self.column = why, row, column

    def __bool__(self) -> bool:
        return self.proved

    def __repr__(self) -> str:
        return "<nushbaret.Verdict: proved>" if self.proved else f"<nushbaret.Verdict: not proved: {self.why}>"


class Lasting:
    """What can be pickled, and whose attributes can't be set, so that a copy is the same."""

    def __setattr__(self, name: str, value: Any) -> None:
        raise AttributeError(f"a result's {name} can't be set")

    def __delattr__(self, name: str) -> None:
        raise AttributeError(f"a result's {name} can't be deleted")

    def __copy__(self) -> Any:
        return self

    def __deepcopy__(self, memo: Dict[int, Any]) -> Any:
        return self


class Result(ByNames, Lasting):
    """A best assignment, with exact duals that prove it.

    Row `rows[k]` has column `columns[k]`; numbers are from 0, and rows rise. They are NumPy arrays if the costs are
    one, or a list of rows one of which is, and lists otherwise. These can't be changed, and attributes can't be set.

    A result keeps no copy of the costs: where it needs them again, it reads those of the call, and raises ValueError
    where they were changed so that its duals no longer prove the plan best. A pickle has no costs at all, but the plan,
    the costs of its pairs, duals and the verdict: what needs the costs raises ValueError, until `with_costs` gives
    them.

    Examples
    --------
    >>> import nushbaret
    >>> result = nushbaret.solve([[4, 1, 3], [2, 0, 5], [3, 2, 2]])
    >>> result.columns, result.cost
    ([1, 0, 2], 5)
    """

    #: The rows of the pairs, rising, from 0.
    rows: Any
    #: The column of each of `rows`.
    columns: Any
    #: Whether this is the greatest sum, not the least.
    maximize: bool
    _source: Source
    _found: proved.ResultParts
    _shape: AssignmentProblem
    _duals: Optional[WholeDuals]

    def __init__(self, source: Source, found: proved.ResultParts, duals: Optional[WholeDuals] = None):
        self.__dict__.update(_source=source, _found=found, _shape=found.shape, _duals=duals,
                             maximize=found.shape.maximize, rows=fixed(found.rows), columns=fixed(found.columns))

    @cached_property
    def _solved(self) -> SolvedProblem:
        return SolvedProblem(self._source, self._found, self._duals)

    def __getstate__(self) -> Any:
        known: Dict[str, Any] = {"verdict": self.verdict}
        if "_is_unique" in self.__dict__:
            known["is_unique"] = self._is_unique
        # Rows and columns follow from the answer.
        found = self._found._replace(rows=None, columns=None)
        return self._source.without_costs(), found, self._solved.own_duals(), known

    def __setstate__(self, state: Any) -> None:
        if not isinstance(state, tuple):
            raise pickle.UnpicklingError("a release before 5.0 pickled this result, which this one can't read: solve "
                                         "its costs again")
        source, found, duals, known = state
        rows, columns = (numbers(values, found.as_arrays) for values in proved.pairs_of(found.shape, found.answer))
        type(self).__init__(self, source, found._replace(rows=rows, columns=columns), duals)
        self.__dict__.update({"_is_unique" if name == "is_unique" else name: value for name, value in known.items()})

    def __deepcopy__(self, memo: Dict[int, Any]) -> "Result":
        return type(self)(copy.deepcopy(self._source, memo), self._found, self._duals)

    def __repr__(self) -> str:
        return f"<nushbaret.Result: cost {self.cost}, {len(self.rows)} pairs>"

    @cached_property
    def cost(self) -> Number:
        """The exact sum of the costs: an int, a Decimal where costs have decimal places, or a Fraction where one was
        given."""
        return self._shape.costs.total(self._shape.costs.ratios(self._found.costs))

    @property
    def labels(self) -> Labels:
        """The labels of all rows and of all columns, if the costs have them; else None."""
        held = self._shape.labels
        return held and (list(held[0]), list(held[1]))

    @cached_property
    def pairs(self) -> List[Tuple[Any, Any]]:
        """The pairs, by the labels of a DataFrame, or else by numbers."""
        return FixedList(self._named(zip(*self._solved.pairs)))

    def _named(self, pairs: Iterable[Tuple[int, int]]) -> Iterator[Tuple[Any, Any]]:
        return ((self._shape.row_name(row), self._shape.column_name(column)) for row, column in pairs)

    @cached_property
    def unmatched_rows(self) -> Any:
        """The rows without a pair, rising."""
        return self._left(0)

    @cached_property
    def unmatched_columns(self) -> Any:
        """The columns without a pair, rising."""
        return self._left(1)

    def _left(self, side: int) -> Any:
        left = set(range(self._sizes[side])).difference(self._solved.pairs[side])
        return numbers(sorted(left), self._solved.as_arrays)

    @cached_property
    def row_duals(self) -> List[Number]:
        """The exact dual of each row.

        A row's and a column's dual together are at most the cost of their pair, for each allowed pair, and equal it in
        the plan; all together sum up to the cost. A column's dual is at most 0, and 0 where it is unmatched; if there
        are more rows than columns and all columns are matched, this holds of rows instead. Under maximize these signs
        are reversed. In a partial plan that leaves out rows and columns, unmatched rows have one dual, none is greater,
        and the sum over matched rows and columns is the cost. Other duals may prove the same plan.
        """
        return self._solved.shown(-dual if self.maximize else dual for dual in self._solved.duals[0].rows)

    @cached_property
    def column_duals(self) -> List[Number]:
        """The exact dual of each column, as `row_duals` says."""
        return self._solved.shown(-dual if self.maximize else dual for dual in self._solved.duals[0].columns)

    @cached_property
    def prices(self) -> List[Number]:
        """One price for each column, exactly, in the unit of the costs; the least is 0. With them `check` proves the
        plan, and `start` begins at them."""
        return self._solved.shown(proved.rents(self._solved.duals[0]))

    def is_unique(self) -> bool:
        """Whether no other plan of as many pairs is as good.

        Returns
        -------
        bool
            True if this is the only best plan.

        Notes
        -----
        `nushbaret_unique` proves it of whole costs in its range. Of a matrix of doubles `nushbaret_doubles` proves it
        where each other plan is worse by a margin. Else `nushbaret_ranked` lists two plans along pairs without
        reduced cost, or proves that there is one; which pairs these are follows from the duals.

        Examples
        --------
        >>> import nushbaret
        >>> nushbaret.solve([[4, 1], [2, 3]]).is_unique()
        True
        """
        return self._is_unique

    @cached_property
    def _is_unique(self) -> bool:
        found = self._solved.is_only()
        if found is None:
            found = not self._solved.ranking().has_other()
        return found

    def next_best(self) -> Optional[Plan]:
        """The best plan except for this one, with as many pairs. If this is one of several best plans, it is another of
        these.

        Returns
        -------
        Plan or None
            None if there is no other plan. Of several it is any: `k_best` has them in order.

        Notes
        -----
        `nushbaret_next` proves that the plan is a next best one, or that there is none, where costs and prices are
        whole numbers in its range, as many pairs are made as the shorter side has rows or columns, and it decides:
        mostly. Elsewhere it is the second one of `k_best`.

        Examples
        --------
        >>> import nushbaret
        >>> nushbaret.solve([[4, 1], [2, 3]]).next_best().cost
        7
        """
        code, found = self._solved.next_plan()
        if code == "ALONE":
            return None
        if found is not None:
            return self._plan(*found)
        found = self._solved.other_plan()
        return None if found is None else self._plan(*found)

    def _plan(self, rows: Any, columns: Any, cost: Number) -> Plan:
        return plan_of(rows, columns, cost, self.labels)

    def _costs_of_pairs(self) -> List[Number]:
        return self._shape.costs.all_shown(self._solved.ratios)

    def verify(self, costs: Any = None, rows: Any = None, columns: Any = None, missing: Missing = "refuse") -> Verdict:
        """Checks the plan and its duals against a problem.

        Parameters
        ----------
        costs : matrix or sparse matrix, optional
            The problem, of as many rows and columns; if it isn't given, the one that was solved, with its costs as they
            are now.
        rows, columns : lists of int, optional
            If they are given, `costs` is a list too, and these are its pairs, as in `solve_sparse`.
        missing : {"refuse", "forbid"}, optional
            As in `solve`, for `costs`.

        Returns
        -------
        Verdict
            True as a condition exactly if the duals prove the plan best, as `check` says.

        Raises
        ------
        ValueError
            If `costs` isn't given and the result comes from a pickle.

        Examples
        --------
        >>> import nushbaret
        >>> result = nushbaret.solve([[1, 2], [3, 5]])
        >>> result.verify(), bool(result.verify([[1, 2], [3, 3]]))
        (<nushbaret.Verdict: proved>, False)
        """
        if costs is None:
            problem = self._source.read()
        else:
            problem = self._problem_of(sources.lasting(costs), rows, columns, missing)
        try:
            prices = self._solved.rents
        except ValueError as fault:
            return Verdict(str(fault))
        return Verdict(*check_wholly(problem, *self._solved.pairs, prices))

    @property
    def _sizes(self) -> Tuple[int, int]:
        return self._shape.n_rows, self._shape.n_columns

    def _manner(self, missing: str) -> Manner:
        return manner(self.maximize, self._source.manner.decimals, missing)

    def _problem_of(self, costs: Any, rows: Any, columns: Any, missing: str) -> AssignmentProblem:
        return problem_of(costs, rows, columns, self._sizes, self._manner(missing))

    @cached_property
    def verdict(self) -> Verdict:
        """What `verify()` said when this was first asked for, or when the result was pickled: a pickle keeps it."""
        try:
            return self.verify()
        except (ValueError, TypeError) as fault:
            return Verdict(str(fault))

    def with_costs(self, costs: Any, rows: Any = None, columns: Any = None) -> "Result":
        """The same result with its costs, which one from a pickle lacks. They are read as those of the call were.

        Parameters
        ----------
        costs : matrix or sparse matrix
            The costs of the call.
        rows, columns : lists of int, optional
            If they are given, `costs` is a list too, and these are its pairs, as in `solve_sparse`.

        Returns
        -------
        Result

        Raises
        ------
        ValueError
            If the plan's pairs have other costs, or the duals don't prove the plan best for these.

        Examples
        --------
        >>> import nushbaret, pickle
        >>> costs = [[4, 1], [2, 3]]
        >>> again = pickle.loads(pickle.dumps(nushbaret.solve(costs)))
        >>> again.cost, again.verdict, again.with_costs(costs).next_best().cost
        (3, <nushbaret.Verdict: proved>, 7)
        """
        sizes = None if rows is None else self._sizes
        source = self._source._replace(costs=sources.lasting(costs), rows=sources.listed(rows),
                                       columns=sources.listed(columns), sizes=sizes)
        result = type(self)(source, self._found, self._duals)
        result._solved.checked()
        return result

    def without(self, row: Any, column: Any, timeout: Optional[float] = None) -> "Result":
        """The best plan with this pair forbidden. The pair is worth what that plan costs more.

        Parameters
        ----------
        row, column : int, or a label of a DataFrame
            A pair. Whole numbers count from 0, any other label is looked up.
        timeout : float, optional
            As in `solve`.

        Returns
        -------
        Result
            A best assignment of as many rows.

        Raises
        ------
        Infeasible
            If there is none without the pair.
        IndexError
            If the row or the column isn't one of the problem.
        ValueError
            If the costs were changed after the call, so that the duals no longer prove the plan best, or if the frame
            has the label several times.

        Examples
        --------
        >>> import nushbaret
        >>> nushbaret.solve([[4, 1], [2, 3]]).without(0, 1).cost
        7
        """
        shape = self._shape
        rows, columns = shape.labels or (None, None)
        row, column = Numbers(rows, IndexError).of(row, "row"), Numbers(columns, IndexError).of(column, "column")
        n_rows, n_columns = self._sizes
        if not (0 <= row < n_rows and 0 <= column < n_columns):
            raise IndexError(f"row {row}, column {column}: there are {n_rows} rows and {n_columns} columns")
        with library.limited(timeout):
            source, problem, answer = self._solved.without(row, column)
        if isinstance(answer, proved.HallSet):
            raise infeasible(problem)
        return self._answered(source, problem, answer)

    def _answered(self, source: Source, problem: AssignmentProblem, answer: proved.Assignment) -> "Result":
        return Result(source, result_parts(problem, answer))

