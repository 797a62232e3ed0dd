"""Problems in which rows and columns may be left out at a cost.

A row left out costs r, a column c, and the sum of a plan has these costs too. What is solved is a problem in which each
row has a column of its own, for itself alone, at r, and each pair costs c less: its plans of all rows are the plans of
the first problem, at the same sums less that of all c. With r + s for r and c - s for c it is the same again: a
number u, half of which counts on each side, is s = u / 2, so that the costs of pairs stay as they are."""
from array import array
from fractions import Fraction
from typing import Any, List, NamedTuple, Tuple

from . import naming, reading as exact
from .kinds import Costs, Doubles, WholeNumbers, plain, whole_numbers
from .limits import MOST_PERSONS, TooLarge
from .numbers import Unit, in_unit, unit_of
from .problem import AssignmentProblem, kept, listed

WORD = "unmatched_cost"
# What a row's own column is called in messages.
_NONE = "(none)"
# Up to here sums of two whole numbers stay below 64 bits.
_MOST = 2**61


class Unmatched(NamedTuple):
    """What each row and each column costs where it is left out, the shift s between these, and whether the caller has
    names for them."""

    rows: List[Fraction]
    columns: List[Fraction]
    shift: Fraction
    has_labels: bool

    @property
    def constant(self) -> Fraction:
        """By how much the sum of a plan is above that in the problem with a column for each row."""
        return sum(self.columns, Fraction()) - self.shift * len(self.rows)


def unmatched_of(given: Any, problem: AssignmentProblem, manner: exact.Manner) -> Unmatched:
    """What a caller gave: a number, or a pair of what rows and columns cost, each a number or one for each."""
    n_rows, n_columns = problem.n_rows, problem.n_columns
    if isinstance(given, (tuple, list)):
        if len(given) != 2:
            raise ValueError(f"{WORD} has {len(given)} parts: it must be a number, or a pair of those of rows and of "
                             "columns")
        rows, columns = problem.labels or (None, None)
        return Unmatched(_costs_of_side(given[0], "row", n_rows, rows, manner),
                         _costs_of_side(given[1], "column", n_columns, columns, manner), Fraction(),
                         bool(problem.labels))
    half = _cost(given, WORD, manner) / 2
    return Unmatched([half] * n_rows, [half] * n_columns, half, bool(problem.labels))


def _costs_of_side(given: Any, kind: str, count: int, labels: Any, manner: exact.Manner) -> List[Fraction]:
    what = f"{WORD} of {kind}s"
    if not hasattr(given, "__iter__") or getattr(given, "ndim", 1) == 0:
        return [_cost(given, what, manner)] * count
    values = naming.listed(given, what, kind, count, labels)
    if len(values) != count:
        raise ValueError(f"{what} has {len(values)} costs, and there are {count} {kind}s")
    return [_cost(value, f"{WORD} of {kind} {labels[place] if labels else place}", manner)
            for place, value in enumerate(values)]


def _cost(value: Any, what: str, manner: exact.Manner) -> Fraction:
    """One of them, exactly: rounded as the costs are, and a float in the sense that theirs have."""
    try:
        is_float = isinstance(value, float) or getattr(getattr(value, "dtype", None), "kind", "") == "f"
        ratio = Fraction(float(value)) if manner.doubles and is_float else Fraction(*exact.exact_ratio(value))
    except (ValueError, OverflowError):
        raise ValueError(f"{what} is {value}: it must be finite; partial=True leaves out as few as possible") from None
    except TypeError:
        raise TypeError(f"{what} is {value!r}: it must be a number") from None
    return ratio if manner.decimals is None else Fraction(round(ratio * 10**manner.decimals), 10**manner.decimals)


def extended(problem: AssignmentProblem, out: Unmatched) -> AssignmentProblem:
    """The problem with a column more for each row. Their pairs are the last ones, in the order of rows."""
    n_rows, n_columns = problem.n_rows, problem.n_columns
    if n_rows + n_columns > MOST_PERSONS:
        raise TooLarge(f"{n_rows} rows and {n_columns} columns make {n_rows + n_columns} where each row may be left "
                       f"out: at most {MOST_PERSONS} are possible")
    pairs = listed(problem)
    own = [cost + out.shift for cost in out.rows], [cost - out.shift for cost in out.columns]
    costs = _of_doubles(pairs, *own) or _of_whole(pairs, *own) or _of_any(pairs, *own)
    numpy, more = costs.numpy, (range(1, n_rows + 1), range(n_columns + 1, n_columns + n_rows + 1))
    lists = pairs.persons, pairs.objects
    if numpy:
        persons, objects = (numpy.concatenate((numpy.asarray(held, numpy.uint32), numpy.array(new, numpy.uint32)))
                            for held, new in zip(lists, more))
    else:
        persons, objects = (array("I", [*held.tolist(), *new]) for held, new in zip(lists, more))
    rows, columns = problem.labels or (range(n_rows), range(n_columns))
    return pairs._replace(n_columns=n_columns + n_rows, costs=costs, persons=persons, objects=objects,
                          labels=([*rows], [*columns, *[_NONE] * n_rows]))


def _of_doubles(pairs: AssignmentProblem, rows: List[Fraction], columns: List[Fraction]) -> Any:
    """The costs as doubles, where all are; else None."""
    costs = pairs.costs.as_doubles()
    if costs is None or any(columns):
        return None
    try:
        known = {cost: float(cost) for cost in set(rows)}
    except OverflowError:
        return None
    if any(Fraction(*costs.ratio(own)) != cost for cost, own in known.items()):
        return None
    more = costs.numpy.array([known[cost] for cost in rows], costs.numpy.float64)
    return Doubles(costs.numpy.concatenate((costs.numbers, more)), costs.numpy, costs.doubles)


def _in_common(costs: Costs, rows: List[Fraction], columns: List[Fraction]) -> Tuple[Unit, List[int], List[int]]:
    """The greatest unit of some costs' unit and of what rows and columns cost, and these in it."""
    ratios = [cost.as_integer_ratio() for cost in set(rows) | set(columns)]
    unit = unit_of([(1, costs.unit.denominator), *ratios], costs.fractions or costs.unit.decimals is None)
    of_rows, of_columns = ([in_unit(cost.as_integer_ratio(), unit) for cost in side] for side in (rows, columns))
    return unit, of_rows, of_columns


def _of_whole(pairs: AssignmentProblem, rows: List[Fraction], columns: List[Fraction]) -> Any:
    """The costs as whole numbers of 64 bits in an array of NumPy's, where they fit; else None."""
    costs, numpy = pairs.costs, pairs.numpy
    if numpy is None or costs.of_64_bits() is None:
        return None
    unit, of_rows, of_columns = _in_common(costs, rows, columns)
    factor, held = unit.denominator // costs.unit.denominator, costs.numbers
    size = max(abs(int(held.min())), abs(int(held.max()))) if held.size else 0
    if max(size * factor, max((abs(cost) for cost in of_rows + of_columns), default=0)) > _MOST:
        return None
    less = numpy.array(of_columns, numpy.int64)[pairs.objects.astype(numpy.intp) - 1] if any(of_columns) else 0
    numbers = numpy.concatenate((held * factor - less, numpy.array(of_rows, numpy.int64)))
    return WholeNumbers(numbers, unit, costs.fractions, numpy)


def _of_any(pairs: AssignmentProblem, rows: List[Fraction], columns: List[Fraction]) -> Costs:
    """The costs as whole numbers of any size."""
    costs = pairs.costs.in_whole_numbers()
    unit, of_rows, of_columns = _in_common(costs, rows, columns)
    factor = unit.denominator // costs.unit.denominator
    numbers = [factor * int(cost) - of_columns[item - 1] for cost, item in zip(costs.listed(), pairs.objects.tolist())]
    return whole_numbers(numbers + of_rows, unit, costs.fractions)


def worth_it(problem: AssignmentProblem) -> AssignmentProblem:
    """An extended problem with no pair that is worse than to leave its row and its column out: no best plan has one."""
    limits, maximize = _limits(problem), problem.maximize
    if problem.numpy:
        each = limits[problem.persons.astype(problem.numpy.intp) - 1]
        return kept(problem, problem.costs.numbers >= each if maximize else problem.costs.numbers <= each)
    return kept(problem, [place for place, (person, cost) in enumerate(zip(problem.persons, problem.costs.listed()))
                          if (cost >= limits[person - 1] if maximize else cost <= limits[person - 1])])


def _limits(problem: AssignmentProblem) -> Any:
    """What each row costs with its own column, in the numbers of the problem."""
    numbers = plain(problem.costs.numbers)
    return numbers[len(numbers) - problem.n_rows:]


def with_ties(problem: AssignmentProblem, objects: Any) -> Any:
    """The objects of a best plan, from 1 on, where rows and columns that stay out are matched that cost as much."""
    most, found = problem.n_columns - problem.n_rows, array("I", objects)
    free = [False, *[True] * most]
    for item in found:
        if item <= most:
            free[item] = False
    out = [item > most for item in found]
    if not any(out) or not any(free):
        return found
    for person, item in _alike(problem, out, free):
        if out[person - 1] and free[item]:
            found[person - 1], out[person - 1], free[item] = item, False, False
    return found


def _alike(problem: AssignmentProblem, out: List[bool], free: List[bool]) -> Any:
    """The pairs of rows and columns that stay out whose cost is that of staying out."""
    limits, count = _limits(problem), len(problem.persons) - problem.n_rows
    if problem.numpy:
        numpy = problem.numpy
        persons, items = problem.persons[:count].astype(numpy.intp) - 1, problem.objects[:count].astype(numpy.intp)
        places = numpy.flatnonzero(numpy.array(out)[persons] & numpy.array(free)[items]
                                   & (problem.costs.numbers[:count] == limits[persons]))
        return zip((persons[places] + 1).tolist(), items[places].tolist())
    return [(person, item) for person, item, cost in zip(problem.persons[:count], problem.objects[:count],
                                                         problem.costs.listed())
            if out[person - 1] and free[item] and cost == limits[person - 1]]
