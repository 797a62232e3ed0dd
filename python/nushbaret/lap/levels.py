"""The best plan for any numbers, with its prices. Costs that are whole numbers of one unit in 128 bits take one call of
the library; others take levels.

A level's costs are rounded to whole multiples of a unit. The plan that the library finds for these, and its prices, are
near the best ones: what a pair costs at these prices, above its person's own pair, says by how much a plan with it may
be cheaper. That is more than -2 units, as each cost is less than a unit off. So in a best plan no pair is dearer than 2
n units, and no object that nobody has costs more. The next level has only the pairs below 6 n + 6 units, at
what they cost above the own ones, and has a smaller unit. It ends where nothing was rounded.

Its prices are added to those of the level before. For pairs that went out they must not be far apart: so one person
more lists all objects at 2 n + 2 units, and one object more is listed by all persons at as much. They take each other,
for nothing, and keep all prices within 4 n + 4 units.

The lists here are as the library takes them: persons and objects from 1 on, dummies among them."""
import contextlib
import math
from array import array
from fractions import Fraction
from typing import Any, List, NamedTuple, Optional, Sequence, Tuple, Union

from ..costs import parts
from ..costs.kinds import WholeNumbers
from ..costs.numbers import in_unit, unit_of
from ..costs.problem import AssignmentProblem
from . import proved, units, wide


class Level(NamedTuple):
    """Exact costs of pairs, to be minimised; a plan and prices that are best for rounded ones, and how much each cost
    was less than off. The sizes are those of the persons and the objects."""

    n: int
    m: int
    persons: Sequence[int]
    objects: Sequence[int]
    costs: List[int]
    plan: wide.WidePlan
    unit: int


def answer(problem: AssignmentProblem, assigned: Optional[int]) -> Union[proved.Assignment, proved.HallSet]:
    """The best plan of so many pairs, and its prices."""
    with problem.numpy.errstate(all="ignore") if problem.numpy else contextlib.nullcontext():
        costs, numpy, count = units.whole_costs(problem.costs), problem.numpy, len(problem.costs)
        # The places of the costs, in their stead; that of a dummy's is -1.
        places = WholeNumbers(numpy.arange(count) if numpy else array("q", range(count)), numpy=numpy)
        asked = proved.instance_of(problem._replace(costs=places), assigned, -1)
        numbers = costs.numbers[:-1] if asked.costs is places.numbers else costs.at(asked.costs)
        found = wide.solved(problem.maximize, asked._replace(costs=wide.words_of(numbers)))
        if isinstance(found, proved.HallSet):
            return found
        if costs.is_exact:
            return _in_unit(problem, asked, found, costs.part)
        return _finer(problem, asked, costs.part, found, _near(problem, asked, numbers, found))


def _in_unit(problem: AssignmentProblem, asked: proved.Instance, plan: wide.WidePlan,
             part: Fraction) -> proved.Assignment:
    """The answer with prices in a unit, where they count parts of that of the costs."""
    unit = unit_of({(1, part.denominator * problem.unit.denominator)}, problem.costs.fractions)
    times = int(part * (unit.denominator // problem.unit.denominator))
    prices = plan.prices if times == 1 else [price * times for price in plan.prices]
    return proved.Assignment(asked.n, asked.m, None, plan.objects, prices, unit)


# The first level's pairs.


def _near(problem: AssignmentProblem, asked: proved.Instance, numbers: Any, plan: wide.WidePlan) -> Any:
    """The places of the pairs that the next level may need, by their rounded costs: exact prices and costs are off."""
    most = 8 * asked.n + 12
    if not isinstance(numbers, list):
        return _near_in_arrays(problem, asked, numbers, plan, most)
    sign, prices, objects = -1 if problem.maximize else 1, plan.prices, plan.objects
    persons, items = _pairs(asked, range(len(numbers)))
    paid = [sign * number + prices[item - 1] for number, item in zip(numbers, items)]
    bounds = [own + most for own in _own(objects, persons, items, paid)]
    return [place for place, (pays, person) in enumerate(zip(paid, persons)) if pays <= bounds[person - 1]]


def _near_in_arrays(problem: AssignmentProblem, asked: proved.Instance, numbers: Any, plan: wide.WidePlan,
                    most: float) -> Any:
    """The same by doubles, whatever these lose."""
    numpy, n, m = problem.numpy, asked.n, asked.m
    low, high, own = numbers[:, 0], numbers[:, 1], numpy.array(plan.objects, numpy.intp) - 1
    paid = numpy.where(low >> 63 == high, low, high * 2.0**64 + low.view(numpy.uint64))
    prices = numpy.array(plan.prices, numpy.float64)
    most += 2.0**-50 * (parts.size_of(paid) + parts.size_of(prices))
    paid = -paid if problem.maximize else paid
    if not len(asked.persons):
        paid = paid.reshape(n, m) + prices
        return numpy.flatnonzero(paid <= (paid[numpy.arange(n), own] + most)[:, None])
    persons, objects, bounds = asked.persons.astype(numpy.intp) - 1, asked.objects - 1, numpy.full(n, math.inf)
    paid += prices[objects]
    places = numpy.flatnonzero(own[persons] == objects)
    numpy.minimum.at(bounds, persons[places], paid[places] + most)
    return numpy.flatnonzero(paid <= bounds[persons])


def _at(values: Any, places: Any) -> List[Any]:
    """The values at some places, in a list."""
    return list(values[places].tolist()) if hasattr(places, "dtype") else [values[place] for place in places]


def _pairs(asked: proved.Instance, places: Any) -> Tuple[Sequence[int], Sequence[int]]:
    """Persons and objects of the pairs at some places, from 1 on."""
    if len(asked.persons):
        return _at(asked.persons, places), _at(asked.objects, places)
    places = places.tolist() if hasattr(places, "dtype") else places
    return [place // asked.m + 1 for place in places], [place % asked.m + 1 for place in places]


def _own(own: Sequence[int], persons: Sequence[int], objects: Sequence[int], paid: Sequence[int]) -> List[int]:
    """What each person pays for its own object."""
    found: List[Any] = [None] * len(own)
    for person, item, pays in zip(persons, objects, paid):
        if own[person - 1] == item and (found[person - 1] is None or pays < found[person - 1]):
            found[person - 1] = pays
    return found


def _finer(problem: AssignmentProblem, asked: proved.Instance, part: Fraction, plan: wide.WidePlan,
           places: Any) -> proved.Assignment:
    """The answer by the exact costs of the pairs at some places, from the plan and the prices of rounded ones."""
    wanted = _at(asked.costs, places)
    held = _at(problem.costs.numbers, problem.numpy.array(wanted, problem.numpy.intp) if problem.numpy else wanted)
    # Those of dummies, at -1, are 0.
    ratios = problem.costs.ratios_in_unit([0 if place < 0 else cost for cost, place in zip(held, wanted)])
    unit = unit_of(set((1, denominator) for _, denominator in ratios), True)
    if unit.denominator * part < 1:
        unit = unit._replace(denominator=unit.denominator * 10**len(str(int(1 / (part * unit.denominator)))))
    sign, scaled = -1 if problem.maximize else 1, part * unit.denominator
    costs = [sign * in_unit(ratio, unit) for ratio in ratios]
    # Prices of this unit are off too, by less than one.
    prices = [price * scaled.numerator // scaled.denominator for price in plan.prices]
    level = Level(asked.n, asked.m, *_pairs(asked, places), costs, wide.WidePlan(plan.objects, prices),
                  int(scaled) + 1)
    return _in_unit(problem, asked, _settled(level), Fraction(1, unit.denominator))


# From level to level, in whole numbers.


def _settled(level: Level) -> wide.WidePlan:
    """A best plan of the exact costs, and its prices."""
    prices = [0] * level.m
    while level.unit:
        bound = (2 * level.n + 2) * level.unit
        taken = [min(price, bound) for price in level.plan.prices]
        prices = [before + price - less for before, price, less in zip(prices, level.plan.prices, taken)]
        level = _next(level, bound, taken)
    return wide.WidePlan(level.plan.objects, [before + price for before, price in zip(prices, level.plan.prices)])


def _next(level: Level, bound: int, taken: Sequence[int]) -> Level:
    """The next level: what the pairs that may be in a best plan cost above the own ones, less a part of the price of
    what they use. One person and one object more keep prices near to each other, and are left out afterwards. So a pair
    that costs three bounds more stays dearer at all later prices."""
    n, m, prices = level.n, level.m, level.plan.prices
    paid = [cost + prices[item - 1] for cost, item in zip(level.costs, level.objects)]
    own = _own(level.plan.objects, level.persons, level.objects, paid)
    left = [(person, item, pays - own[person - 1] - taken[item - 1])
            for person, item, pays in zip(level.persons, level.objects, paid) if pays - own[person - 1] < 3 * bound]
    few = len(left)
    left += [(n + 1, item, bound - less) for item, less in enumerate(taken, 1)] + [(n + 1, m + 1, -bound)]
    left += [(person, m + 1, 0) for person in range(1, n + 1)]
    persons, objects, costs = ([each[side] for each in left] for side in range(3))
    numbers, unit, is_exact = wide.scaled(costs)
    found = wide.solved(False, proved.Instance(n + 1, m + 1, array("I", persons), array("I", objects),
                                               wide.words_of(numbers)))
    if isinstance(found, proved.HallSet):
        raise RuntimeError("some pairs were found to hold a plan, and the library says otherwise")
    plan = wide.WidePlan(found.objects[:n], [price * unit for price in found.prices[:m]])
    return Level(n, m, persons[:few], objects[:few], costs[:few], plan, 0 if is_exact else unit)
