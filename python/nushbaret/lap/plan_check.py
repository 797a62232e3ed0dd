"""Plans with their prices, checked against a problem: by the library, and exactly where costs or prices are beyond its
range."""
import math
from array import array
from fractions import Fraction
from typing import Any, List, NamedTuple, Optional, Sequence, Tuple

from ..costs.limits import GREATEST_COST, GREATEST_PRICE
from ..costs.numbers import Unit, in_unit, unit_of
from ..costs.orientation import oriented
from ..costs.problem import AssignmentProblem, costs_of_pairs, in_whole_numbers, lists_of
from . import library, proved
from .matching import most_assigned
from .staying_out import are_many


class CheckOutcome(NamedTuple):
    """What is wrong with the first row or column that speaks against a plan, and which these are; nothing where the
    prices prove it."""

    why: str = ""
    row: Optional[int] = None
    column: Optional[int] = None

    def __bool__(self) -> bool:
        return not self.why


def check_wholly(problem: AssignmentProblem, rows: Sequence[int], columns: Sequence[int],
                 prices: List[Fraction]) -> CheckOutcome:
    """What is found of a plan whose rows and columns are numbers of the problem, no row twice."""
    found, count = check_problem(problem, rows, columns, prices), len(rows)
    if not found or count == min(problem.n_rows, problem.n_columns):
        return found
    most = most_assigned(problem)
    return _too_few(problem, count, most) if most > count else found


def check_problem(problem: AssignmentProblem, rows: Sequence[int], columns: Sequence[int],
                  prices: List[Fraction]) -> CheckOutcome:
    """As `check_wholly`, among plans of as many pairs."""
    pairs = list(zip(rows, columns))
    if not pairs:
        can_none = not min(problem.n_rows, problem.n_columns) or problem.persons is not None and not len(
            problem.persons)
        return CheckOutcome("" if can_none else "no row has a column")
    costs = costs_of_pairs(problem, rows, columns)
    given_columns = set()
    for (row, column), cost in zip(pairs, costs):
        if cost is None:
            return CheckOutcome(f"row {problem.row_name(row)} may not have column {problem.column_name(column)}", row,
                                column)
        if column in given_columns:
            return CheckOutcome(f"column {problem.column_name(column)} is given twice", row, column)
        given_columns.add(column)
    most = min(problem.n_rows, problem.n_columns)
    if problem.persons is None and len(pairs) < most:
        return _too_few(problem, len(pairs), most)
    found = None
    if problem.costs.of_64_bits() is not None:
        found = _judged(problem, pairs, costs, prices)
    return found if found is not None else _judged_exactly(problem, pairs, costs, prices)


def counted(count: int, word: str) -> str:
    return f"{count} {word}" if count == 1 else f"{count} {word}s"


def _too_few(problem: AssignmentProblem, count: int, most: int) -> CheckOutcome:
    has = "has" if count == 1 else "have"
    return CheckOutcome(f"{counted(count, 'row')} of {problem.n_rows} {has} a column, and {most} can")


def _judged(problem: AssignmentProblem, pairs: List[Tuple[int, int]], costs: List[int],
            given: List[Fraction]) -> Optional[CheckOutcome]:
    """The library's verdict, in the caller's numbers; None where costs or prices are beyond its range.

    A dummy's price is what the dearest pair pays, so nobody who is matched gains by staying out. If that is below 0,
    the cost of staying out is lowered instead, so that no price is below 0."""
    n, m, dummies = proved.sizes_of(problem, len(pairs))
    sign = -1 if problem.maximize else 1
    prices = proved.rounded_prices(problem, given, m + 1)
    if prices is None:
        return None
    paid = [sign * cost + prices[column] for (_, column), cost in zip(pairs, costs)]
    dearest = max(paid)
    less = max(0, -dearest)
    of_rows = [0] * problem.n_rows
    for (row, _), held in zip(pairs, paid):
        of_rows[row] = dearest - held
    of_objects = oriented(problem, of_rows, prices)[1]
    of_dummies = [dearest + less] * dummies
    if max(of_objects + of_dummies) > GREATEST_PRICE or less > GREATEST_COST or are_many(problem, len(pairs)):
        return None
    asked = proved.instance_of(problem, len(pairs), -sign * less)
    code, info = library.call("check", problem.maximize, *asked, _objects(problem, pairs, n, m - dummies),
                              array("q", of_objects + of_dummies))
    return _in_words(problem, pairs, prices, code, info)


def _objects(problem: AssignmentProblem, pairs: List[Tuple[int, int]], n: int, most: int) -> Any:
    """An object for each person, from 1 on; those who stay out have dummies."""
    objects = array("I", bytes(4 * n))
    for person, item in zip(*oriented(problem, *zip(*pairs))):
        objects[person] = item + 1
    for person in range(n):
        if not objects[person]:
            most += 1
            objects[person] = most
    return objects


def _in_words(problem: AssignmentProblem, pairs: List[Tuple[int, int]], prices: List[int], code: str,
              info: library.Info) -> Optional[CheckOutcome]:
    if code in ("PRICE_RANGE", "COST"):
        return None
    used = {column for _, column in pairs}
    overpriced = [column for column, price in enumerate(prices) if price and column not in used]
    if code == "OVERPRICED":
        return _overpriced(problem, prices, info.object - 1)
    if code == "SLACK":
        row, column = oriented(problem, info.person - 1, info.object - 1)
        return _overpriced(problem, prices, column) if column in overpriced else _better_off(problem, row, column)
    if code != "BEST":
        return proved.refuse(code, info)
    # Where rows are more the library has seen the prices of the matched columns alone.
    return _overpriced(problem, prices, overpriced[0]) if overpriced else CheckOutcome()


def _better_off(problem: AssignmentProblem, row: int, column: int) -> CheckOutcome:
    return CheckOutcome(f"row {problem.row_name(row)} would be better off with column {problem.column_name(column)}, "
                        "at these prices", row, column)


def _overpriced(problem: AssignmentProblem, prices: List[int], unused: int) -> CheckOutcome:
    cheaper = next(column for column, price in enumerate(prices) if price < prices[unused])
    return CheckOutcome(f"column {problem.column_name(unused)} stays unused, and column {problem.column_name(cheaper)} "
                        "is cheaper", None, cheaper)


# Exactly, for costs and prices of any size.


class _Best(NamedTuple):
    """The least that a row pays, in whole numbers of a unit, and for which column."""

    paid: int
    column: int


def _judged_exactly(problem: AssignmentProblem, pairs: List[Tuple[int, int]], costs: List[Any],
                    given: List[Fraction]) -> CheckOutcome:
    """The verdict by exact numbers. No plan of as many pairs is better by more than all slack together: what each
    matched row pays above its best, and each unmatched one below the dearest, and what unused columns cost above the
    cheapest. Differences of plans are multiples of the unit of all costs, so less slack than that is none."""
    ratios = problem.costs.ratios(costs)
    unit, rows = _bests(problem, ratios, given)
    sign = -1 if problem.maximize else 1
    prices = [int(price * unit.denominator) for price in given]
    lowest = min(prices)
    paid = {row: sign * in_unit(ratio, unit) + prices[column] for (row, column), ratio in zip(pairs, ratios)}
    dearest = max(paid.values())
    slack = {row: max(paid.get(row, dearest) - own.paid, 0) for row, own in enumerate(rows) if own is not None}
    used = {column for _, column in pairs}
    overpriced = {column: price - lowest for column, price in enumerate(prices) if column not in used}
    whole = sum(slack.values()) + sum(overpriced.values())
    # All costs are multiples of this unit.
    if not whole or whole * in_whole_numbers(problem).unit.denominator < unit.denominator:
        return CheckOutcome()
    row = next((row for row, more in slack.items() if more), None)
    if row is not None:
        return _better_off(problem, row, rows[row].column)  # type: ignore[union-attr]
    return _overpriced(problem, prices, next(column for column, more in overpriced.items() if more))


Bests = Tuple[Unit, List[Optional[_Best]]]


def _bests(problem: AssignmentProblem, ratios: List[Any], prices: List[Fraction]) -> Bests:
    """For each row the least that it would pay, in a unit of the costs and prices; None for a row without pairs."""
    of_prices = set((1, price.denominator) for price in prices)
    if problem.matrix_of_doubles() is not None:
        return _bests_of_doubles(problem, ratios, prices, of_prices)
    problem = in_whole_numbers(problem)
    unit = unit_of({(1, problem.unit.denominator)} | of_prices, True)
    step, scaled = unit.denominator // problem.unit.denominator, [int(price * unit.denominator) for price in prices]
    bests: List[Optional[_Best]] = []
    for columns, costs in lists_of(problem):
        paid = [(int(cost) * step + scaled[column], column) for column, cost in zip(columns, costs)]
        bests.append(_Best(*min(paid)) if paid else None)
    return unit, bests


def _bests_of_doubles(problem: AssignmentProblem, ratios: List[Any], prices: List[Fraction], of_prices: Any) -> Bests:
    """As `_bests`, for a whole matrix of doubles: only those near the least are looked at exactly."""
    held, sign = problem.costs, -1 if problem.maximize else 1
    near = _near_least(held.numpy, held.numbers.reshape(problem.n_rows, problem.n_columns), sign,
                       list(map(_as_float, prices)))
    costs = {place: held.ratio(held.numbers[place].item()) for places in near for place in places}
    unit = unit_of(of_prices | set((1, denominator) for _, denominator in [*ratios, *costs.values()]), True)
    scaled = [int(price * unit.denominator) for price in prices]
    bests: List[Optional[_Best]] = []
    for places in near:
        columns = [place % problem.n_columns for place in places]
        bests.append(_Best(*min((sign * in_unit(costs[place], unit) + scaled[column], column)
                                for place, column in zip(places, columns))))
    return unit, bests


def _near_least(numpy: Any, costs: Any, sign: int, prices: List[float]) -> List[List[int]]:
    """The places in each row of a matrix of doubles where cost and price may be the least, whatever doubles lose."""
    with numpy.errstate(all="ignore"):
        added = numpy.array(prices)
        lost = 2.0**-50 * (float(numpy.abs(costs).max()) + float(numpy.abs(added).max())) + 5e-324
        found = []
        for row in range(len(costs)):
            paid = sign * costs[row] + added
            near = paid <= paid.min() + lost
            found.append((numpy.flatnonzero(near | ~numpy.isfinite(paid)) + row * costs.shape[1]).tolist())
        return found


def _as_float(price: Fraction) -> float:
    """The nearest float, or an infinite one."""
    try:
        return float(price)
    except OverflowError:
        return math.inf if price > 0 else -math.inf
