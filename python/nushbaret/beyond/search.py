"""Core and pricing: the library solves a core of cheap pairs, all pairs are looked at with its prices, and better ones
join the core. Where there are none, the last look is the proof."""
import math
import time
from fractions import Fraction
from typing import Any, Callable, Iterator, List, NamedTuple, Optional, Tuple

import numpy

from ..api.infeasible import Infeasible
from ..lap import library
from . import blocks, bounds, tasks
from .bounds import Units
from .core import Core, Duals, Form, Plan, Short
from .engines import Engine
from .halves import first_prices
from .tasks import Answer, Asked
from .result import BeyondResult, OutOfTime

Progress = Optional[Callable[[int, Any, int], Any]]
# How many cheap pairs of a row, and of a column, the first core has, and how many better ones of a row a pass adds.
ROW_PAIRS, COLUMN_PAIRS, BETTER = 24, 2, 24
# Above so many pairs of a row and column the core drops those of great slack.
MOST_PAIRS = 200
# A task looks at so many pairs.
TASK = 2**25


class Options(NamedTuple):
    """What a caller may choose. `unmatched_cost` is what each row costs that stays out; if `is_partial`, so much that
    as many pairs as possible are made."""

    maximize: bool
    block_rows: Optional[int]
    progress: Progress
    end: Optional[float]
    unmatched_cost: Optional[Any] = None
    is_partial: bool = False


class Passed(NamedTuple):
    """What a pass found: better pairs, the least sums of cost and price of all rows, and which of them have their own
    pairs."""

    better: tasks.Pairs
    least: Any
    shown: Any
    is_whole: bool


class Search:
    """A search for the best plan of a source."""

    def __init__(self, source: Any, form: Form, engine: Engine, options: Options):
        self.source, self.form, self.engine, self.options = source, form, engine, options
        self.blocks = source.blocks(options.block_rows or max(1, TASK // form.m))
        self.shared = engine.share(source)
        self.passes, self.looked = 0, 0
        self.core: Any = None
        self.units: Any = None
        self.plan: Optional[Plan] = None
        self.lower: Optional[Fraction] = None
        self.best: Optional[Tuple[Fraction, Plan]] = None
        self.last: Any = None
        self.stay_cost = options.unmatched_cost
        self.is_proved = False

    # Passes.

    def run_tasks(self, task: Any, *words: Any) -> Iterator[Any]:
        """The answers of a task to all blocks, in any order."""
        shared = [self.engine.share(word) for word in words]
        sent = [(self.shared, number, block, *shared) for number, block in enumerate(self.blocks)]
        return self.engine.run(task, sent, self.options.end)

    def look(self, asked: Asked) -> Tuple[List[Answer], List[tasks.Cheap]]:
        """The answers of all blocks in their order, and of all columns the cheap pairs."""
        digest, answers = asked.digest(), []
        cheap: List[tasks.Cheap] = []
        for found in self.run_tasks(tasks.answer, asked):
            if found.digest != digest:
                raise RuntimeError("a block was asked with other prices than it was sent")
            cheap = [one.merge(other) for one, other in zip(cheap, found.cheap)] if cheap and found.cheap else (
                cheap or found.cheap)
            self.looked += found.arc_scans
            answers.append(found._replace(cheap=[]))
            if self.source.splits_rows:
                self._hold_fewer(answers, asked)
        self.passes += 1
        return sorted(answers, key=lambda each: each.task), cheap

    def _hold_fewer(self, answers: List[Answer], asked: Asked) -> None:
        """Keeps of all better pairs so far the best ones of each row, where there are many."""
        if sum(len(each.better.rows) for each in answers) <= max(tasks.MOST_HELD, 2 * asked.most * self.form.n):
            return
        best = tasks.cheapest(tasks.joined([each.better for each in answers]), asked.prices, asked.most)
        none = tasks.joined([])
        answers[:] = [each._replace(better=none) for each in answers]
        answers[0] = answers[0]._replace(better=best)

    def combined(self, answers: List[Answer]) -> Passed:
        """What all blocks say together."""
        better = tasks.joined([each.better for each in answers])
        top = math.inf if self.units is None or self.units.are_doubles else blocks.GREATEST
        least = numpy.full(self.form.n, top, numpy.float64 if top == math.inf else numpy.int64)
        shown = numpy.zeros(self.form.n, bool)
        for each in answers:
            # A row may be in several bands of a block.
            numpy.minimum.at(least, each.rows, each.least)
            shown[each.rows[each.shown]] = True
        return Passed(better, least, shown, all(each.is_whole for each in answers))

    # The first core.

    def begin_at(self, prices: Any) -> None:
        """The first look, at these prices, which makes the core: each row's cheapest pairs, each column's, and those of
        any plan."""
        n, m = self.form.n, self.form.m
        asked = Asked(prices, own=None if self.source.splits_rows else any_plan(n, m), most=ROW_PAIRS,
                      sides=COLUMN_PAIRS if n * 2 > m else 0, unit=1.0 if prices.dtype.kind == "f" else None)
        answers, cheap = self.look(asked)
        size = max(each.size for each in answers)
        if self.options.is_partial:
            self.stay_cost = 2 * size * min(n, m) + 1
        stays = 0 if self.stay_cost is None else self.stay_cost
        are_whole = all(each.is_whole for each in answers) and stays == int(stays)
        self.units = Units(prices.dtype, max(size, abs(stays)), are_whole)
        self.core = Core(self.form, prices.dtype)
        pairs = [each.better for each in answers]
        for each in cheap:
            columns = numpy.flatnonzero(each.rows >= 0)
            pairs.append(tasks.Pairs(each.rows[columns], columns, each.costs[columns]))
        self.core.add(*tasks.joined(pairs))

    # Plans of the core.

    def _out(self) -> Any:
        """What staying out costs each row, in whole units."""
        return self.units.whole(numpy.full(self.form.n, self.stay_cost)) if self.form.stay_out else None

    def solve_core(self) -> None:
        """The best plan of the core; where it has none, what it lacks is looked for in the blocks."""
        while True:
            start = None if self.plan is None else (self.plan.columns, self.plan.duals)
            with self.limited():
                found = self.core.solve(self.units.whole(self.core.costs), self._out(), start)
            if isinstance(found, Plan):
                self.plan = found
                return
            self._add_outside(found)

    def _add_outside(self, short: Short) -> None:
        """Adds pairs by which the core's short rows or columns may have others; Infeasible where no block has any."""
        n, m = self.form.n, self.form.m
        rows, columns = numpy.zeros(n, bool), numpy.zeros(m, bool)
        rows[short.rows], columns[short.columns] = True, True
        if len(short.rows) > len(short.columns):
            columns = ~columns
        else:
            rows = ~rows
        answers = sorted(self.run_tasks(tasks.outside, rows, columns, BETTER), key=lambda each: int(each[0]))
        self.looked += sum(each[2] for each in answers)
        self.passes += 1
        if not self.core.add(*tasks.joined([each[1] for each in answers])):
            raise Infeasible([(short.rows, short.columns)])

    # The search.

    def run(self, prices: Any = None) -> BeyondResult:
        """The best plan, from these prices of the columns or from those of a half; OutOfTime with the best one so
        far."""
        try:
            self.begin_at(first_prices(self) if prices is None else prices)
            while not self._step():
                pass
        except TimeoutError:
            raise OutOfTime(self.result()) from None
        result = self.result()
        assert result is not None
        return result

    def limited(self) -> library.limited:
        """Within, the library's calls end when the caller's time is over."""
        end = self.options.end
        return library.limited(None if end is None else max(0.0, end - time.monotonic()))

    def _step(self) -> bool:
        """A plan of the core, and a look at all pairs; whether the search is over."""
        self.solve_core()
        plan = self.plan
        assert plan is not None
        paid, duals = self.paid(plan), self.duals(plan)
        # The rows' own sums.
        numbers, rests = (bounds.own_numbers(plan.columns, paid, duals) if self.units.are_doubles
                          else (duals.numbers, None))
        is_exact = self.units.is_exact
        if is_exact:
            asked = Asked(duals.prices, numbers, rests, plan.columns, BETTER)
        else:
            asked = Asked(duals.prices, numbers - 1.5 * self.units.unit, None, None, BETTER)
        found = self.combined(self.look(asked)[0])
        self.judge(plan, paid, duals, found, is_exact)
        if len(found.better.rows) and self.core.add(*found.better):
            most = MOST_PAIRS * (self.form.n + self.form.m)
            self.core.keep_cheapest(Duals(duals.prices, numbers, None), plan.columns, most)
            return False
        if is_exact:
            has_each = not (self.form.stay_out or self.form.is_turned or self.units.are_doubles)
            self.is_proved = blocks.are_joint(plan.columns, paid, duals.prices) if has_each else (
                bounds.is_joint(self.form, plan.columns, duals, numbers, rests))
            return True
        return self._finish(plan)

    def paid(self, plan: Plan) -> Any:
        """What each row pays for its own column, as it is read; 0 where it stays out."""
        paid = numpy.zeros(self.form.n, self.core.costs.dtype)
        paid[plan.columns >= 0] = self.core.costs[self.core.own_places(plan.columns)]
        return paid

    def duals(self, plan: Plan) -> Duals:
        """A plan's duals in the unit of the costs."""
        duals: Duals = self.units.duals(plan.duals)
        return duals._replace(out=self.stay_cost) if self.form.stay_out else duals

    def judge(self, plan: Plan, paid: Any, duals: Duals, found: Passed, is_exact: bool) -> None:
        """Keeps the best plan and the best bound, and calls the caller's progress. Where the look was exact each row's
        own pair stands at its number."""
        if is_exact and not (found.shown | (plan.columns < 0)).all():
            raise RuntimeError("costs changed between two passes: a pair of the plan has another cost")
        total, self.last = self.total(plan, paid, duals), (duals, found.least)
        if self.best is None or total < self.best[0]:
            self.best = total, plan
        lower = bounds.least_cost(self.form, found.least, duals.prices, duals.out)
        if lower is not None and (self.lower is None or lower > self.lower):
            self.lower = lower
        if self.options.progress is not None:
            self.options.progress(self.passes, self.gap(), len(self.core))

    def total(self, plan: Plan, paid: Any, duals: Duals) -> Fraction:
        """What a plan costs, exactly."""
        stays = int(numpy.count_nonzero(plan.columns < 0)) if self.form.stay_out else 0
        return bounds.exact_sum(paid) + (stays * bounds.as_fraction(duals.out) if stays else 0)

    def gap(self) -> Any:
        """The most that the best plan so far may cost above the best of all."""
        if self.is_proved:
            return 0 if not self.units.are_doubles else 0.0
        if self.best is None or self.lower is None:
            return math.inf
        gap = self.best[0] - self.lower
        return math.nextafter(float(gap), math.inf) if self.units.are_doubles and gap else self._number(gap)

    def _number(self, value: Fraction) -> Any:
        return float(value) if self.units.are_doubles else int(value)

    def _finish(self, plan: Plan) -> bool:
        raise NotImplementedError

    def result(self) -> Optional[BeyondResult]:
        """The best plan so far."""
        if self.best is None:
            return None
        total, plan = self.best
        duals = self.duals(plan)
        sign = -1 if self.options.maximize else 1
        looked = self.looked / (self.form.n * self.form.m)
        if self.options.is_partial:
            total -= int(numpy.count_nonzero(plan.columns < 0)) * bounds.as_fraction(self.stay_cost)
        verdict = "proved" if self.is_proved else "undecided"
        return BeyondResult(plan.columns, sign * self._number(total), duals.prices, sign * duals.numbers,
                            None if duals.out is None else sign * duals.out, verdict, self.gap(), self.passes,
                            len(self.core), looked)


def any_plan(n: int, m: int) -> Any:
    """A column for each row, or, with more rows than columns, for some rows, drawn."""
    plan, order = numpy.full(n, -1, numpy.int64), numpy.random.default_rng(0).permutation(max(n, m))
    if n <= m:
        return order[:n]
    plan[order[:m]] = numpy.arange(m)
    return plan
