"""Best plans for whole costs of any size and for doubles, by levels; their exact numbers, and a check of these.

A level rounds costs to whole multiples of a unit, and lets the library solve them. Let r, v be its numbers, N the most
pairs of a plan, and e = cost - r - v. A plan costs the sum over row groups of its e there, plus the sum of r_i and v_j
times their counts; so it costs as much more than the level's plan as it pays, in each row group, above min(0, the least
e), and for each count that isn't the one that its number stands for, at least the size of this number. Rounding changed
each pair by at most half a unit, so what a plan that is best for the given costs pays so is at most N units in all.
Each single payment is at most N then: pairs whose e is above min(0, least e) + N are in no best plan, of a row group
whose least e is below -N each takes exactly one, and a row or column whose number is beyond N has the count that it
stands for. What is open is solved again, with e for its costs, at the next level; a number that may be 0 stays in them.

From the first level's numbers Bellman (1958) and Ford find exact ones for what was open. By the level's numbers a row
of changes of the best plan costs less than 0 only by what this plan pays, at most N units, and by half a unit for each
of its at most 2 N + 1 pairs. So no number moves by more than 2 N + 1 units, and what was decided has more slack than
that. The numbers are checked at the end."""
from array import array
from collections import Counter
from fractions import Fraction
from itertools import compress, count
from typing import Any, List, NamedTuple, Optional, Sequence, Tuple, Union

from ..costs.kinds import AnyWholeNumbers, Costs, plain
from ..costs.limits import GREATEST_COST
from ..costs.numbers import Ratio, in_unit, unit_of
from .counted import Best, Counted, Marked, Pair, solved
from .exchanges import exact_numbers
from .narrowed import Part, at, fixed, narrowed, reduced_costs

# Rounded costs have so many bits.
_BITS = GREATEST_COST.bit_length() - 1
# The slack of counts and of pairs, as multiples of what a best plan may pay: more than what numbers move.
_COUNT_SLACK, _PAIR_SLACK = 4, 32
_IMPOSSIBLE = "a level's plan was found to be possible, and then it wasn't: please report this problem"


class Given(NamedTuple):
    """Costs of any kind; the sum of `sign` times them is to be least."""

    costs: Costs
    sign: int

    def ratios(self, places: Sequence[int]) -> List[Ratio]:
        """The costs at some places, exactly, in the costs' unit."""
        found = self.costs.ratios_in_unit(self._numbers(places))
        return [(self.sign * number, denominator) for number, denominator in found]

    def _numbers(self, places: Sequence[int]) -> List[Any]:
        numbers = plain(self.costs.numbers)
        found = [numbers[place] for place in places]
        return found if self.costs.numpy is None else [number.item() for number in found]

    def whole(self, denominator: int) -> Tuple[List[int], int]:
        """All costs as multiples of a unit, and how many times it is in 1 / `denominator`."""
        ratios = self.ratios(range(len(self.costs)))
        unit = unit_of({(1, own) for _, own in (*ratios, (1, denominator))}, True)
        return [in_unit(ratio, unit) for ratio in ratios], unit.denominator // denominator

    def at(self, places: Sequence[int]) -> "Given":
        """The costs at some places."""
        return Given(self.costs.without_numbers().with_numbers(self._numbers(places)), self.sign)


class Levelled(NamedTuple):
    """A best plan with its numbers, which are multiples of 1 / `denominator` of the costs' unit."""

    plan: Any
    row_numbers: Sequence[int]
    column_numbers: Sequence[int]
    denominator: int


class _Level(NamedTuple):
    """A level: its rounded costs; what it left open, at its exact costs, of which a best plan is chosen; the size of
    its unit and its numbers, as multiples of 1 / `denominator`."""

    costs: Any
    part: Part
    chosen: Any
    unit: int
    rows: List[int]
    columns: List[int]
    denominator: int


def best_of(counted: Counted, given: Optional[Given] = None, is_part: bool = False) -> Union[Levelled, Marked]:
    """The best plan of a problem, for its own costs, which are whole, or for given ones; or why there is none."""
    if given is None:
        if counted.in_range():
            best = solved(counted, is_part)
            return best if isinstance(best, Marked) else Levelled(best.plan, best.row_numbers, best.column_numbers, 1)
        given = Given(AnyWholeNumbers(counted.listed().costs), 1)
    level = _level(counted, given, is_part)
    if isinstance(level, Marked):
        return level
    part, own = level.part, level.part.counted
    fresh = exact_numbers(own, own.pairs_of(level.chosen), [level.rows[row] for row in part.of_rows],
                          [level.columns[column] for column in part.of_columns])
    rows, columns = part.numbers(*fresh, (level.rows, level.columns))
    found = Levelled(part.plan(level.chosen, len(counted.rows)), rows, columns, level.denominator)
    if not _is_proof(counted, given, found, level):
        raise RuntimeError("a plan was found to be the best, and its numbers don't prove it: please report this "
                           "problem")
    return found


def _level(counted: Counted, given: Given, is_part: bool) -> Union[_Level, Marked]:
    """The first level of a problem, with what is chosen of what it left open."""
    opened = _opened(counted, given, is_part)
    if isinstance(opened, Marked):
        return opened
    level, left = opened
    return level._replace(chosen=_rest(left))


def _opened(counted: Counted, given: Given, is_part: bool) -> Union[Tuple[_Level, Counted], Marked]:
    """The first level of a problem, and what it left open, at its reduced costs."""
    numbers, shift = given.costs.rounded(_BITS)
    costs = numbers * given.sign if given.costs.numpy else array("q", [given.sign * cost for cost in numbers])
    found = solved(counted._replace(costs=costs), is_part)
    if isinstance(found, Marked):
        return found
    most = counted.most_pairs()
    # A float may be that much further from the decimal that it prints as.
    paid = most + 2 + most // 4096
    slack, duals = _COUNT_SLACK * paid, (list(found.row_numbers), list(found.column_numbers))
    part = narrowed(counted, reduced_costs(counted, costs, *duals), _PAIR_SLACK * paid,
                    fixed(counted.row_bounds, duals[0], slack), fixed(counted.column_bounds, duals[1], slack))
    ratios = given.ratios(part.places)
    common = unit_of({(1, denominator) for _, denominator in ratios}, True)
    denominator = common.denominator << max(0, shift)
    unit = denominator >> shift if shift >= 0 else denominator << -shift
    exact = [in_unit(ratio, common) << max(0, shift) for ratio in ratios]
    decided = [[0 if abs(number) <= slack else number * unit for number in own] for own in duals]
    left = [cost - decided[0][row] - decided[1][column] for cost, (row, column) in zip(
        exact, part.named(zip(part.counted.rows, part.counted.columns)))]
    rows, columns = ([number * unit for number in own] for own in duals)
    level = _Level(costs, part._replace(counted=part.counted._replace(costs=exact)), None, unit, rows, columns,
                   denominator)
    return level, part.counted._replace(costs=left)


def _rest(counted: Counted) -> Any:
    """The best plan of what a level left open: level by level, and back. There may be hundreds."""
    levels: List[Tuple[Part, int]] = []
    while not counted.in_range():
        opened = _opened(counted, Given(AnyWholeNumbers(counted.costs), 1), True)
        if isinstance(opened, Marked):
            raise RuntimeError(_IMPOSSIBLE)
        levels.append((opened[0].part, len(counted.rows)))
        counted = opened[1]
    found: Union[Best, Marked] = solved(counted, True)
    if isinstance(found, Marked):
        raise RuntimeError(_IMPOSSIBLE)
    chosen = found.plan
    for part, pairs in reversed(levels):
        chosen = part.plan(chosen, pairs)
    return chosen


# The check.


def _is_proof(counted: Counted, given: Given, found: Levelled, level: _Level) -> bool:
    """Whether a plan and its numbers are as `Best` says, exactly. Of most pairs the rounded costs and numbers show it:
    e is from 3 units below to 1 unit above what these give."""
    coarse = reduced_costs(counted, level.costs, *([number // level.unit for number in numbers] for numbers in (
        found.row_numbers, found.column_numbers)))
    chosen = list(compress(count(), found.plan))
    # All others have e above 0.
    near = [place for place in ((coarse < 5).nonzero()[0].tolist() if hasattr(coarse, "dtype") else
                                [place for place, own in enumerate(coarse) if own < 5]) if not found.plan[place]]
    pairs = {place: pair for places in (chosen, near)
             for place, pair in zip(places, zip(at(counted.rows, places), at(counted.columns, places)))}
    held = {(pairs[place][0], counted.group_of[pairs[place][1]]): place for place in chosen}

    def exact(place: int) -> Fraction:
        (ratio,) = given.ratios([place])
        row, column = pairs[place]
        return Fraction(*ratio) - Fraction(found.row_numbers[row] + found.column_numbers[column], found.denominator)

    def is_below(place: int, other: Optional[int]) -> bool:
        """Whether e at a place is below that at another one, or below 0."""
        apart = coarse[place] - (0 if other is None else coarse[other])
        if abs(apart) > 4:
            return bool(apart < 0)
        return exact(place) < (0 if other is None else exact(other))

    return (len(held) == len(chosen) and _keeps_counts(counted, found, [pairs[place] for place in chosen])
            and not any(coarse[place] > -1 and exact(place) > 0 for place in chosen)
            and not any(is_below(place, held.get((pairs[place][0], counted.group_of[pairs[place][1]])))
                        for place in near))


def _keeps_counts(counted: Counted, found: Levelled, chosen: List[Pair]) -> bool:
    """Whether counts are in their bounds, and each number stands for the count that its row or column has."""
    for side, bounds, duals in ((0, counted.row_bounds, found.row_numbers),
                                (1, counted.column_bounds, found.column_numbers)):
        counts = Counter(pair[side] for pair in chosen)
        if any(not bound.least <= counts[number] <= bound.most or dual > 0 and counts[number] > bound.least
               or dual < 0 and counts[number] < bound.most for number, (bound, dual) in enumerate(zip(bounds, duals))):
            return False
    return True
