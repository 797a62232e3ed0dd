"""Plans in the order of their costs, which the library lists by `nushbaret_ranked` (Murty 1968).

Whole numbers in its range it takes as they are, where each row has a pair. Of other matrices it lists the first plans
by rounded costs, a few more than are wanted: these are put in order by their exact costs, and are the first ones if
the last that is wanted costs less than all that aren't listed can. Plans of one cost can't be put in order so.

All else goes by reduced costs, exactly: what a pair costs above the duals of the best plan, which is never below 0. A
plan costs as much more than the best one as its pairs have reduced costs, and the columns that it leaves out have
duals. So all plans up to a cost, the window, are made of the pairs up to it, and the library lists these plans alone.
Each row that may stay out has a column of its own, at more than the window: so plans of fewer pairs are beyond it.

Where the window is too wide for the library's range, reduced costs are rounded down to multiples of a step, and more
plans are listed, as above. Where that takes many, the cost of the last one that is wanted is a narrower window; and
where all in it are near to multiples of a number, a smaller number leaves sums in the same order."""
import math
from array import array
from fractions import Fraction
from typing import Any, Callable, Dict, Generator, Iterable, Iterator, List, NamedTuple, Optional, Sequence, Tuple

from ..costs.kinds import WholeNumbers
from ..costs.numbers import ONE, Ratio, Unit, in_unit, unit_of
from ..costs.problem import AssignmentProblem, costs_of_pairs, in_whole_numbers, kept, lists_of
from . import library, proved
from .doubles import BITS
from .solving import BestPlan, duals_of_whole, solved

# So many pairs of a row are looked at first, on average, and so many times as many each further time. Few pairs are
# looked at at once.
_FIRST_PAIRS, _TIMES, _FEW = 3, 6, 64
# So many plans the library is asked for at first, but of no more objects; where costs are rounded, of some more.
FIRST_PLANS, _MOST_OBJECTS, _MORE = 128, 2**22, 4
# So many rows show what reduced costs are usual. So many rows of a matrix are looked at together.
_SAMPLED_ROWS, _ROWS_AT_ONCE = 32, 64
# The widest window, in steps.
_MOST_STEPS = 2**38
# Of greatest costs between these, doubles are near enough to exact sums.
_SMALL, _GREAT = 2.0**-900, 2.0**900
# The smallest doubles print as decimals that are further from them.
_MOST_SHIFT = 900


class RankedPlan(NamedTuple):
    """What a plan costs, to be minimised, the columns of the rows, and the unit: the number of columns stands for
    staying out."""

    cost: int
    columns: List[int]
    unit: Unit

    def pairs(self, n_columns: int) -> Tuple[List[int], List[int]]:
        """Rows and columns of the plan."""
        rows = [row for row, column in enumerate(self.columns) if column < n_columns]
        return rows, [self.columns[row] for row in rows]


First = Callable[[int], Optional[List[RankedPlan]]]


def in_order(first: First, count: int, done: int) -> Generator[RankedPlan, None, int]:
    """So many plans at most, in order, without those that are done, by what finds so many first ones, or all. Returns
    how many are done where that finds none, else `count`."""
    wanted = FIRST_PLANS
    while done < count:
        wanted = min(count, max(wanted, done + 1))
        plans = first(wanted)
        if plans is None:
            return done
        yield from plans[done:wanted]
        done, wanted = wanted if len(plans) >= wanted else count, _TIMES * wanted
    return count


class Window(NamedTuple):
    """The reduced costs up to a bound, of pairs of a row and a column, and for each column what leaving it out costs.
    Plans that cost at most so much more than the best one have no other pairs. `is_whole` says that all plans do. What
    the best one costs, in the unit."""

    pairs: Dict[Tuple[int, int], int]
    left: List[int]
    most: int
    is_whole: bool
    unit: Unit
    best: int

    def within(self, most: int) -> "Window":
        """The window up to a lower bound."""
        return self._replace(pairs={pair: more for pair, more in self.pairs.items() if more <= most}, most=most,
                             is_whole=False)

    def usual(self, rows: int, count: int) -> int:
        """A reduced cost up to which a row has about so many pairs: by some of the rows."""
        step = max(1, rows // _SAMPLED_ROWS)
        return sorted(more for (row, _), more in self.pairs.items() if row % step == 0)[:count * -(-rows // step)][-1]

    def closer(self, count: int) -> Optional["Window"]:
        """Where all are near to multiples of a number, they are as near to multiples of a smaller one: sums of so many
        are in the same order. None where they aren't near enough."""
        values = sorted({*self.pairs.values(), *(more for more in self.left if more <= self.most)})
        gaps = ((more // (less + 1), more) for less, more in zip(values, values[1:]))
        whole = max(gaps, default=(1, 1))[1]
        off = count * max(abs(value - whole * _nearest(value, whole)) for value in values)
        if whole <= 4 * off:
            return None
        smaller, times = 4 * off + 1, _nearest(self.most, whole)
        most = times * smaller + max(-off, min(self.most - times * whole, off))

        def near(more: int) -> int:
            return more - _nearest(more, whole) * (whole - smaller) if more <= self.most else most + 1
        return self._replace(pairs={pair: near(more) for pair, more in self.pairs.items()},
                             left=list(map(near, self.left)), most=most)

    def step(self) -> Tuple[int, bool]:
        """Steps in which the library's range holds the window, and whether all reduced costs are multiples of them."""
        whole = math.gcd(*self.pairs.values(), *(more for more in self.left if more <= self.most)) or 1
        shift = (self.most // whole // _MOST_STEPS).bit_length()
        return whole << shift, not shift


def _nearest(number: int, whole: int) -> int:
    """The nearest multiple of a number, divided by it."""
    return (2 * number + whole) // (2 * whole)


class Ranking:
    """The plans of a problem with as many pairs as a best one: its rows and columns, their costs, and whole duals of a
    unit that prove it."""

    def __init__(self, problem: AssignmentProblem, pairs: Tuple[List[int], List[int]], ratios: Sequence[Ratio],
                 duals: proved.Duals, unit: Unit):
        self.problem, self.ratios, self.duals, self.unit_of_duals = problem, ratios, duals, unit
        self.own = [problem.n_columns] * problem.n_rows
        for row, column in zip(*pairs):
            self.own[row] = column
        self.rows_out, self.columns_out = (len(pairs[0]) < count for count in (problem.n_rows, problem.n_columns))
        self.floats, self.count = _floats_of(problem), _FIRST_PAIRS
        self.all: Optional[Window] = None
        self.window = self._window(self.count)

    def has_duals(self) -> bool:
        """Whether the duals are exact: no reduced cost is below 0, also that of staying out."""
        return min(self.window.pairs.values(), default=0) >= 0

    def first(self, wanted: int) -> List[RankedPlan]:
        """The first plans, so many at least, or all."""
        while True:
            plans = self._first_within(self.window, wanted)
            if len(plans) >= wanted or self.window.is_whole:
                return plans
            self.count *= _TIMES
            self.window = self._window(self.count)

    def has_other(self) -> bool:
        """Whether there is another plan of the same cost."""
        return len(self._first_within(self._window(0).within(0), 2)) > 1

    def _window(self, count: int) -> Window:
        """About so many pairs of a row, or all."""
        problem, pairs = self.problem, len(self.problem.costs)
        is_near = _FEW < pairs > count * problem.n_rows
        if is_near and self.floats is not None:
            near, bound = near_pairs(problem, self.floats, self.duals, self.unit_of_duals, count)
            window = self._reduced(near)
            return window.within(int(bound * window.unit.denominator))
        self.all = self.all or self._reduced(problem)
        return self.all.within(self.all.usual(problem.n_rows, count)) if is_near and count else self.all

    def _reduced(self, problem: AssignmentProblem) -> Window:
        """All pairs of a problem."""
        problem, n_columns = in_whole_numbers(problem), problem.n_columns
        # The greatest unit of which both are multiples, which shows numbers as that of the costs does.
        unit = problem.unit
        if unit.denominator % self.unit_of_duals.denominator:
            unit = unit_of(((1, own.denominator) for own in (unit, self.unit_of_duals)), unit.decimals is None)
        times, of_duals = (unit.denominator // own.denominator for own in (problem.unit, self.unit_of_duals))
        rows, columns, out = ([of_duals * dual for dual in own] for own in (*self.duals[:2], [self.duals.unmatched]))
        pairs: Dict[Tuple[int, int], int] = {}
        for row, (own, costs) in enumerate(lists_of(problem)):
            dual = rows[row]
            pairs.update(((row, column), cost * times - dual - columns[column]) for column, cost in zip(own, costs))
            if self.rows_out:
                pairs[row, n_columns] = out[0] - dual
        left = [-dual if self.columns_out else 0 for dual in columns]
        greatest: Dict[int, int] = {}
        for (row, _), more in pairs.items():
            greatest[row] = max(more, greatest.get(row, 0))
        best = sum(in_unit(ratio, unit) for ratio in self.ratios) * (-1 if self.problem.maximize else 1)
        return Window(pairs, left, sum(greatest.values()) + sum(left), True, unit, best)

    # Within a window.

    def _first_within(self, window: Window, wanted: int) -> List[RankedPlan]:
        """The first plans, so many or all."""
        if not any(column < self.problem.n_columns for column in self.own):
            return [RankedPlan(window.best, self.own, window.unit)]
        asked = wanted
        while True:
            step, is_exact = window.step()
            close = window.closer(len(self.own) + len(window.left)) if asked > wanted and not is_exact else None
            if close is not None and close.step()[1]:
                plans, least = self._listed(close, close.step()[0], wanted)[0], None
            else:
                plans, least = self._listed(window, step, asked if is_exact else asked + _MORE)
            if is_exact:
                return plans
            plans = sorted(plan._replace(cost=window.best + self._more(window, plan.columns)) for plan in plans)
            if least is None or plans[wanted - 1].cost < least:
                return [plan for plan in plans[:wanted] if plan.cost <= window.best + window.most]
            window = window.within(min(plans[wanted - 1].cost - window.best, window.most))
            asked = 4 * asked if window.step()[0] == step else asked

    def _more(self, window: Window, columns: List[int]) -> int:
        """How much more a plan costs than the best one."""
        changed = [pair for pair, own in zip(enumerate(columns), self.own) if pair[1] != own]
        left = {self.own[row] for row, _ in changed}.difference(column for _, column in changed)
        return sum(window.pairs[pair] for pair in changed) + sum(window.left[column] for column in left
                                                                 if column < self.problem.n_columns)

    def _listed(self, window: Window, step: int, count: int) -> Tuple[List[RankedPlan], Optional[int]]:
        """The first plans of a window by reduced costs that are rounded down to steps, so many or all, and what all
        others cost at least; None where none is left in the window."""
        n, last = self.problem.n_columns, window.most // step
        lists, objects, prices = self._asked(window, step, last)
        code, found, totals = library.first_objects(count, False, len(self.own), len(prices), lists, objects, prices)
        if code not in ("BEST", "ALONE"):
            raise RuntimeError(f"plans were looked for in order, and the library says {code}: please report this "
                               "problem")
        width = len(self.own)
        plans: List[RankedPlan] = []
        for place, total in enumerate(totals):
            if total - totals[0] > last:
                return plans, None
            columns = [min(item - 1, n) for item in found[place * width:(place + 1) * width]]
            plans.append(RankedPlan(window.best + (total - totals[0]) * step, columns, window.unit))
        return plans, None if code == "ALONE" else plans[-1].cost

    def _asked(self, window: Window, step: int, last: int) -> Tuple[Tuple[Any, ...], Any, Any]:
        """Lists of a window for the library, a best plan and prices that prove it."""
        n, left = self.problem.n_columns, [more // step if more <= window.most else last + 1 for more in window.left]
        less = left + [-1 - last]
        lists = (array("I", [row + 1 for row, _ in window.pairs]),
                 array("I", [column + 1 if column < n else n + row + 1 for row, column in window.pairs]),
                 array("q", [more // step - less[column] for (_, column), more in window.pairs.items()]))
        objects = array("I", [column + 1 if column < n else n + row + 1 for row, column in enumerate(self.own)])
        prices = array("q", left + [0] * len(self.own) * self.rows_out)
        if self.rows_out:
            # Prices that also prove that there is no plan of more pairs.
            library.searched(False, len(self.own), len(prices), lists, prices[:],
                             (objects, array("I", bytes(4 * len(self.own))), prices))
        return lists, objects, prices


def plans_shown(problem: AssignmentProblem, answer: proved.Assignment, count: int, done: int,
                made: Callable[[Any, Any], Iterable[Any]]) -> Generator[Any, None, int]:
    """What is made of the first plans from an answer on, so many at most, without those that are done, as far as the
    library shows them: of the objects of all rows, one plan after the other, and the costs. Returns how many are done
    then, `count` where there are no others."""
    # The library orders plans of one cost by its persons, which are the rows unless there are more of these.
    if problem.n_rows > problem.n_columns:
        return done
    wanted = min(FIRST_PLANS, _MOST_OBJECTS // max(answer.n, 1))
    while done < count:
        wanted = min(count, max(wanted, done + 1))
        code, plans, totals = proved.first_objects(problem, answer, wanted)
        if code not in ("BEST", "ALONE"):
            return done
        yield from made(plans[answer.n * done:], totals[done:])
        done = len(totals)
        if code == "ALONE":
            return count
        wanted *= _TIMES
    return done


def plans_in_order(best: BestPlan, count: int) -> Iterator[Tuple[List[int], List[int]]]:
    """Rows and columns of the first plans from a best one on, so many at most."""
    rows, columns = best.rows, best.columns
    n = best.answer.n
    done = yield from plans_shown(best.problem, best.answer, count, 0, lambda objects, _: (
        ([*range(n)], [item - 1 for item in objects[at:at + n]]) for at in range(0, len(objects), n)))
    if done < count:
        ratios = [(cost, 1) for cost in costs_of_pairs(best.problem, rows, columns)]
        ranking = Ranking(best.problem, (rows, columns), ratios, duals_of_whole(best), ONE)
        for plan in in_order(ranking.first, count, done):
            yield plan.pairs(best.problem.n_columns)


def first_by_rounded(problem: AssignmentProblem, wanted: int) -> Optional[List[RankedPlan]]:
    """The first plans of a matrix, so many or all, by rounded costs; None where these can't put
    plans in order, as they are too near to each other, or don't fit."""
    if problem.persons is not None or not min(problem.n_rows, problem.n_columns):
        return None
    numbers, shift = problem.costs.rounded(BITS)
    if shift > _MOST_SHIFT:
        return None
    whole = problem._replace(costs=WholeNumbers(numbers, numpy=problem.numpy))
    answer = solved(whole)
    if isinstance(answer, proved.HallSet):
        return None
    code, objects, totals = proved.first_objects(whole, answer, wanted + _MORE)
    if code not in ("BEST", "ALONE"):
        return None
    plans = [_columns_of(problem, objects[at:at + answer.n]) for at in range(0, len(objects), answer.n)]
    scale = Fraction(2)**shift * problem.unit.denominator
    return sure(_by_exact_costs(problem, plans, wanted), totals, code == "ALONE", scale, problem.maximize, wanted)


def sure(plans: List[RankedPlan], totals: Sequence[int], is_all: bool, scale: Fraction, maximize: bool,
         wanted: int) -> Optional[List[RankedPlan]]:
    """The first of some plans in order, so many or all, which were listed by costs times a scale that are rounded, at
    these totals; None where those that aren't listed may be before one of these."""
    # Each rounded cost is less than one off.
    least = (-totals[-1] if maximize else totals[-1]) - len(plans[0].columns)
    if not is_all and Fraction(plans[wanted - 1].cost, plans[0].unit.denominator) * scale >= least:
        return None
    return plans[:wanted]


def _columns_of(problem: AssignmentProblem, objects: Any) -> List[int]:
    """The columns of all rows by objects of persons, who are the rows unless there are more of these."""
    if problem.n_rows <= problem.n_columns:
        return [item - 1 for item in objects]
    columns = [problem.n_columns] * problem.n_rows
    for column, item in enumerate(objects):
        columns[item - 1] = column
    return columns


def _by_exact_costs(problem: AssignmentProblem, plans: List[List[int]], wanted: int) -> List[RankedPlan]:
    """The first of some plans of a matrix, by their exact costs."""
    n_columns = problem.n_columns
    places = [row * n_columns + column for columns in plans for row, column in enumerate(columns)
              if column < n_columns]
    used, fractions = sorted(set(places)), problem.costs.fractions
    ratios = problem.costs.ratios(problem.costs.at(used).listed())
    unit = unit_of({(1, denominator) for _, denominator in ratios}, fractions)
    exact = {place: in_unit(ratio, unit) for place, ratio in zip(used, ratios)}
    return in_exact_order(plans, places, exact, unit, problem.maximize, wanted)


def in_exact_order(plans: List[List[int]], pairs: Sequence[Any], exact: Dict[Any, int], unit: Unit, maximize: bool,
                   wanted: int) -> List[RankedPlan]:
    """The first of some plans, so many or all, by the exact costs of their pairs, which stand plan by plan, in the unit
    of these first ones."""
    own, count, sign = [*map(exact.__getitem__, pairs)], len(pairs) // len(plans), -1 if maximize else 1
    starts = range(0, len(own), count)
    order = sorted((sign * sum(own[at:at + count]), columns, at) for at, columns in zip(starts, plans))[:wanted]
    times = math.gcd(unit.denominator, *{cost for _, _, at in order for cost in own[at:at + count]})
    shown = unit_of([(1, unit.denominator // times)], unit.decimals is None)
    return [RankedPlan(cost * shown.denominator // unit.denominator, columns, shown) for cost, columns, _ in order]


# The pairs of small reduced cost, by doubles.


def _floats_of(problem: AssignmentProblem) -> Any:
    """The costs as doubles, to be minimised, each nearly; None where they aren't in an array, or doubles don't do."""
    numpy, costs = problem.numpy, problem.costs
    if not numpy or len(costs) <= _FEW or costs.as_doubles() is None and costs.of_64_bits() is None:
        return None
    floats = costs.numbers.astype(numpy.float64)
    greatest = float(abs(floats).max())
    return None if greatest and not _SMALL < greatest < _GREAT else -floats if problem.maximize else floats


def near_pairs(problem: AssignmentProblem, costs: Any, duals: proved.Duals, unit: Unit,
               count: int) -> Tuple[AssignmentProblem, Fraction]:
    """The pairs of small reduced cost, about so many of a row, and a reduced cost up to which all are among them."""
    numpy, scale = problem.numpy, problem.unit.denominator
    rows, columns = (numpy.array([dual * scale / unit.denominator for dual in own]) for own in duals[:2])
    # No reduced cost is rounded by as much, with the decimals that doubles print as.
    error = 2.0**-49 * float(abs(costs).max() + abs(rows).max() + abs(columns).max())
    if problem.persons is None:
        near, bound = _near_in_matrix(numpy, costs.reshape(problem.n_rows, -1), rows, columns, count, error)
        persons, objects = numpy.divmod(near, problem.n_columns)
        near = problem._replace(costs=problem.costs.at(near), persons=(persons + 1).astype(numpy.uint32),
                                objects=(objects + 1).astype(numpy.uint32))
    else:
        reduced = costs - rows[problem.persons - 1] - columns[problem.objects - 1]
        bound = _bound(numpy, reduced, count * problem.n_rows, error)
        near = kept(problem, numpy.flatnonzero(reduced <= bound))
    return near, Fraction(bound - error) / scale


def _near_in_matrix(numpy: Any, matrix: Any, rows: Any, columns: Any, count: int, error: float) -> Tuple[Any, float]:
    """The places in a matrix of the pairs up to a bound, and this."""
    step, found = max(1, len(matrix) // _SAMPLED_ROWS), []
    some = matrix[::step] - rows[::step, None] - columns
    bound = _bound(numpy, some.ravel(), count * len(some), error)
    for first in range(0, len(matrix), _ROWS_AT_ONCE):
        part = slice(first, first + _ROWS_AT_ONCE)
        places = numpy.flatnonzero(matrix[part] - columns <= rows[part, None] + bound)
        found.append(places + first * matrix.shape[1])
    return numpy.concatenate(found), bound


def _bound(numpy: Any, reduced: Any, count: int, error: float) -> float:
    """A bound up to which so many of some reduced costs are, and what is off by an error."""
    usual = float(numpy.partition(reduced, count - 1)[count - 1]) if count else 0.0
    return max(usual, 0.0) + 2 * error
