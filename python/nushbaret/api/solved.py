"""What a result stands on: a problem that a call solved, whose costs are read again where they are needed."""
from array import array
from fractions import Fraction
from functools import cached_property
from typing import Any, Generator, Iterable, Iterator, List, Optional, Sequence, Tuple

from ..costs import problem as reading
from ..costs.kinds import AnyWholeNumbers
from ..costs.limits import GREATEST_PRICE
from ..costs.numbers import Number, Ratio, Unit
from ..costs.problem import AssignmentProblem, costs_of_pairs
from ..costs.source import Source
from ..lap import direct, doubles, levels, proved
from ..lap.plan_check import check_wholly
from ..lap.ranking import RankedPlan, Ranking, first_by_rounded, in_order, plans_shown
from ..lap.solving import Outcome, solved
from .shown import FixedList, fixed, numbers, places

# Whole duals, in a unit.
WholeDuals = Tuple[proved.Duals, Unit]

CHANGED = "the costs were changed after the call, and the plan's duals no longer prove it best: solve them again"


def result_parts(problem: AssignmentProblem, answer: proved.Assignment) -> proved.ResultParts:
    """What a result is made of, by the library's answer. It has the problem without its lists, which is small."""
    rows, columns = proved.rows_and_columns(problem, answer)
    costs = costs_of_pairs(problem, rows, columns)
    shape = problem._replace(costs=problem.costs.without_numbers(), persons=None, objects=None, arrays=None)
    return proved.ResultParts(shape, answer, rows, columns, costs, problem.arrays is not None)


class SolvedProblem:
    """A problem that a call solved: where its costs are, the problem without its lists, the library's answer, the
    costs of the plan's pairs, as they were at the call, and whether the caller gets arrays."""

    def __init__(self, source: Source, found: proved.ResultParts, duals: Optional[WholeDuals]):
        self.source, self.shape, self.answer, self.costs = source, found.shape, found.answer, found.costs
        self.as_arrays = found.as_arrays
        if duals is not None:
            self.__dict__["duals"] = duals

    @cached_property
    def pairs(self) -> Tuple[List[int], List[int]]:
        """Rows and columns of the pairs, which nobody can change."""
        return proved.pairs_of(self.shape, self.answer)

    @cached_property
    def ratios(self) -> List[Ratio]:
        """The costs of the pairs, exactly."""
        return self.shape.costs.ratios(self.costs)

    def read_again(self) -> AssignmentProblem:
        """The problem of the call; ValueError if the plan's pairs have other costs now."""
        problem = self.source.read()
        if (problem.n_rows, problem.n_columns) != (self.shape.n_rows, self.shape.n_columns):
            raise ValueError(CHANGED)
        now = costs_of_pairs(problem, *self.pairs)
        if now == self.costs and problem.unit == self.shape.unit and (
                isinstance(problem.costs, AnyWholeNumbers) or {*map(type, now), *map(type, self.costs)} == {float}):
            return problem
        if None in now or not all(one * others == other * denominator for (one, denominator), (other, others)
                                  in zip(problem.costs.ratios(now), self.ratios)):
            raise ValueError(CHANGED)
        return problem

    @cached_property
    def duals(self) -> WholeDuals:
        """Whole duals in a unit. Where the plan was found for doubles these take the costs again."""
        answer, prices = self.answer, []
        if self.pairs[0]:
            answer = self._with_prices() if answer.prices is None else answer
            prices = proved.whole_prices(answer)
        unit = answer.unit or self.shape.unit
        # A changed problem may have a greater unit than the costs had at the call.
        costs = [number * unit.denominator // denominator for number, denominator in self.ratios]
        return proved.duals_of(self.shape, self.answer, prices, list(zip(*self.pairs)), costs), unit

    def own_duals(self) -> Optional[WholeDuals]:
        """The duals, if they don't follow from the answer; None where the costs were changed and they aren't known."""
        if self.answer.prices is not None or not self.pairs[0]:
            return None
        try:
            return self.duals
        except ValueError:
            return None

    def _with_prices(self) -> proved.Assignment:
        """An answer for the costs as they are now, whose prices are those of any plan that costs as much."""
        problem, count = self.read_again(), len(self.pairs[0])
        again = levels.answer(problem, None if count == min(problem.n_rows, problem.n_columns) else count)
        if isinstance(again, proved.HallSet) or (_cost_of(problem, *proved.pairs_of(problem, again))
                                                 != self.shape.costs.total(self.ratios)):
            raise ValueError(CHANGED)
        return again

    @cached_property
    def rents(self) -> List[Fraction]:
        """What columns cost in addition to their pairs, exactly."""
        duals, unit = self.duals
        return [Fraction(rent, unit.denominator) for rent in proved.rents(duals)]

    def checked(self) -> AssignmentProblem:
        """The problem of the call; ValueError unless the duals prove that the plan is best for its costs as they are
        now."""
        problem = self.read_again()
        if not check_wholly(problem, self.pairs[0], self.pairs[1], self.rents):
            raise ValueError(CHANGED)
        return problem

    def _priced(self,
                problem: Optional[AssignmentProblem] = None) -> Optional[Tuple[AssignmentProblem, proved.Assignment]]:
        """The problem, that of the call where none is given, and the answer with its prices, or with those of the
        duals; None where it is in another unit than they are."""
        answer, unit = self.answer, self.shape.unit
        if not isinstance(answer.prices, array) and self.pairs[0]:
            (rows, columns, _), unit = self.duals
            own = rows if self.shape.n_rows > self.shape.n_columns else columns
            highest = max(own)
            if highest - min(own) <= GREATEST_PRICE:
                answer = answer._replace(prices=array("q", [highest - dual for dual in own]))
        problem = self.read_again() if problem is None else problem
        return (problem, answer) if problem.unit == unit else None

    def _asked(self, question: int) -> Any:
        """What the extension says of the plan; None where the longer way is to be taken."""
        return direct.about(question, self.source, self.shape, self.answer, self.costs)

    def is_only(self) -> Optional[bool]:
        """What the library says of whether the plan is the only best one; None where it can't say."""
        said: Optional[bool] = self._asked(direct.ONLY)
        if said is not None:
            return said
        if self.answer.prices is None and doubles.is_only(self.read_again(), self.answer.objects):
            return True
        asked = self._priced()
        return None if asked is None else proved.is_only(*asked)

    def next_plan(self) -> Tuple[str, Optional[Tuple[Any, Any, Number]]]:
        """What the library says of the next best plan, and its rows, columns and cost; nothing where it can't say."""
        said = self._asked(direct.NEXT)
        if said is False:
            return "ALONE", None
        found = said and self._next_of(said)
        if found:
            return "BEST", found
        asked = None if self.answer.prices is None else self._priced()
        if asked is None:
            return "", None
        problem, answer = asked
        code, objects = proved.next_objects(problem, answer)
        if code != "BEST":
            return code, None
        rows, columns = proved.pairs_of(problem, answer._replace(objects=objects))
        return code, (numbers(rows, self.as_arrays), numbers(columns, self.as_arrays),
                      _cost_of(problem, rows, columns))

    def _next_of(self, said: Any) -> Optional[Tuple[Any, Any, Number]]:
        """The plan that the extension says is the next, or of doubles among the first two."""
        if len(said[0]) == 2:
            return fixed(said[0][0]), fixed(said[0][1]), self.shape.unit.shown(said[1])
        plans = direct.plans_of_doubles(said, self.shape.maximize, 2) or []
        others = [plan for plan in plans if plan[0] != self.pairs[1]]
        if len(others) != 1 or plans[0][1] != self.shape.costs.total(self.ratios):
            return None
        return fixed(said[0][0]), numbers(others[0][0], self.as_arrays), others[0][1]

    def plans_in_order(self, problem: AssignmentProblem, count: int,
                       done: int) -> Iterator[Tuple[Any, Any, Number]]:
        """Rows, columns and costs of the first plans, so many at most, without those that are done: first those that
        the library shows."""
        asked = None if problem.costs.of_64_bits() is None else self._priced(problem)
        if asked is not None:
            width, costs = asked[1].n, problem.costs
            rows = numbers(range(width), self.as_arrays)
            done = yield from plans_shown(*asked, count, done, lambda objects, totals: (
                (rows, columns, costs.total([(total, 1)]))
                for columns, total in zip(places(objects, width, self.as_arrays), totals)))
        else:
            done = yield from self._plans_of(in_order(lambda wanted: first_by_rounded(problem, wanted), count, done))
        if done < count:
            yield from self._plans_of(in_order(self.ranking(problem).first, count, done))

    def _plans_of(self, plans: Generator[RankedPlan, None, int]) -> Generator[Tuple[Any, Any, Number], None, int]:
        """The same plans as the caller sees them."""
        while True:
            try:
                plan = next(plans)
            except StopIteration as end:
                return int(end.value)
            yield self.plan_of(plan)

    def other_plan(self) -> Optional[Tuple[Any, Any, Number]]:
        """A best plan but this one; None if there is no other."""
        plans, columns = first_by_rounded(self.read_again(), 2), [self.shape.n_columns] * self.shape.n_rows
        for row, column in zip(*self.pairs):
            columns[row] = column
        if plans is None:
            plans = self.ranking().first(2)
        else:
            best, own = plans[0], sum(Fraction(*ratio) for ratio in self.ratios)
            if own != Fraction(-best.cost if self.shape.maximize else best.cost, best.unit.denominator):
                raise ValueError(CHANGED)
        return next((self.plan_of(plan) for plan in plans if plan.columns != columns), None)

    def ranking(self, problem: Optional[AssignmentProblem] = None) -> Ranking:
        """The plans of the problem, from this one on. Without a problem it is that of the call, checked."""
        duals, unit = self.duals
        if problem is not None:
            return Ranking(problem, self.pairs, self.ratios, duals, unit)
        problem = self.checked()
        # The costs at the call may have had a finer unit.
        ratios = [Fraction(*ratio).as_integer_ratio() for ratio in self.ratios]
        ranking = Ranking(problem, self.pairs, ratios, proved.as_checked(duals, self.pairs[0]), unit)
        # Prices in parts of the unit of the costs may be somewhat off, and prove the plan.
        if problem.unit.denominator % unit.denominator and not ranking.has_duals():
            raise ValueError(CHANGED)
        return ranking

    def without(self, row: int, column: int) -> Tuple[Source, AssignmentProblem, Outcome]:
        """The problem with one pair forbidden, and the library's answer. The search begins at the prices and the other
        pairs."""
        less = reading.without_pair(self.checked(), row, column)
        pairs = [pair for pair in zip(*self.pairs) if pair != (row, column)]
        start = proved.WarmStart(self.rents, [own for own, _ in pairs], [own for _, own in pairs])
        answer = solved(less, start, len(self.pairs[0]))
        return self.source._replace(less=self.source.less + ((row, column),)), less, answer

    # What is found, as the caller sees it.

    def shown(self, duals: Iterable[int]) -> List[Number]:
        """Duals, from whole numbers of their unit."""
        unit = self.duals[1]
        return FixedList(unit.shown(dual) for dual in duals)

    def plan_of(self, plan: RankedPlan) -> Tuple[Any, Any, Number]:
        """Rows, columns and cost of a plan in order."""
        (rows, columns), finer = plan.pairs(self.shape.n_columns), plan.unit
        cost, unit = -plan.cost if self.shape.maximize else plan.cost, self.shape.costs.unit_shown(finer)
        shown, rest = divmod(cost * unit.denominator, finer.denominator)
        # Other costs may be in a finer unit now than all were at the call.
        return (numbers(rows, self.as_arrays), numbers(columns, self.as_arrays),
                finer.shown(cost) if rest else unit.shown(shown))


def _cost_of(problem: AssignmentProblem, rows: Sequence[int], columns: Sequence[int]) -> Number:
    """What a plan costs."""
    return problem.costs.total(problem.costs.ratios(costs_of_pairs(problem, rows, columns)))
