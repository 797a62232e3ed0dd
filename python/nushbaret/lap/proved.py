"""Problems as the library takes them, and what its answers say of the caller's problem.

The library gives each of n persons one of m objects, proved for n <= m. The fewer of rows and columns are the persons:
with more rows than columns the problem is turned. If persons may stay out, each also lists dummy objects, as many as
persons are to stay out. Then at least the requested number of pairs is made, and exactly this number if no plan has
more."""
from array import array
from fractions import Fraction
from typing import Any, Dict, List, NamedTuple, NoReturn, Optional, Sequence, Tuple, Union

from ..costs import naming
from ..costs.limits import GREATEST_PRICE, MOST_PERSONS, Numbers, TooLarge
from ..costs.numbers import Unit
from ..costs.orientation import by_rows, costs_by_persons, object_prices, oriented, row_and_column_duals
from ..costs.problem import AssignmentProblem, listed
from ..costs.reading import exact_ratio
from . import library


class Instance(NamedTuple):
    """What is passed to the library: how many persons and objects there are, and three lists; in a dense problem those
    of persons and objects are empty."""

    n: int
    m: int
    persons: Any
    objects: Any
    costs: Any


class Assignment(NamedTuple):
    """A best assignment: an object for each person, from 1 on, and prices: an array, in the unit of the costs, or a
    list of whole numbers of any size, in a unit. There may be no total, and of doubles no prices."""

    n: int
    m: int
    total: Optional[int]
    objects: Any
    prices: Any
    unit: Optional[Unit] = None


class HallSet(NamedTuple):
    """Persons and objects, from 1 on, that prove that there is no assignment."""

    persons: Any
    objects: Any


class WarmStart(NamedTuple):
    """Where a search begins: prices of columns in the unit of the costs, and the pairs of an earlier plan."""

    prices: List[Fraction]
    rows: Sequence[int] = ()
    columns: Sequence[int] = ()


class FirstPrices(NamedTuple):
    """The same for the library: prices of objects, and an object for each person, from 1 on; 0 for nobody's."""

    prices: Numbers
    objects: Numbers


NONE = array("I")


def sizes_of(problem: AssignmentProblem, assigned: Optional[int]) -> Tuple[int, int, int]:
    """How many persons there are, how many objects, and how many of these are dummies."""
    n, most = sorted((problem.n_rows, problem.n_columns))
    dummies = 0 if assigned is None else n - assigned
    if most + dummies > MOST_PERSONS:
        raise TooLarge(f"{problem.n_rows} rows and {problem.n_columns} columns, of which {assigned} can be paired, "
                       f"make {most + dummies} with dummies: at most {MOST_PERSONS} are possible")
    return n, most + dummies, dummies


def instance_of(problem: AssignmentProblem, assigned: Optional[int] = None, out: int = 0) -> Instance:
    """The problem whose assignments have `assigned` pairs, or as many as the shorter side has nodes. `out` is the cost
    of staying out."""
    n, m, dummies = sizes_of(problem, assigned)
    if problem.persons is None and not dummies:
        return Instance(n, m, NONE, NONE, costs_by_persons(problem))
    problem = listed(problem)
    lists = [*oriented(problem, problem.persons, problem.objects), problem.costs.numbers]
    if dummies:
        lists = [joined(problem.numpy, own, more) for own, more in zip(lists, _dummies(n, m, dummies, out))]
    return Instance(n, m, *lists)


def _dummies(n: int, m: int, dummies: int, out: int) -> Tuple[Any, Any, Any]:
    """Persons, objects and costs of the pairs with dummies."""
    everybody, objects = array("I", range(1, n + 1)), array("I")
    for item in range(m - dummies + 1, m + 1):
        objects.extend(array("I", (item,)) * n)
    return everybody * dummies, objects, array("q", (out,)) * len(objects)


def joined(numpy: Any, own: Any, more: Any) -> Any:
    """One list after another."""
    return numpy.concatenate((own, more)) if numpy else own + more


def refuse(code: str, info: library.Info) -> NoReturn:
    """Raises what a code of the library means that no lists of this package should get."""
    raise RuntimeError(f"the library refused its lists: {code} at {info.place}")


def answer(problem: AssignmentProblem, asked: Instance,
           first: Optional[FirstPrices] = None) -> Union[Assignment, HallSet, None]:
    """The library's answer; None where a cost is beyond its range. `first` is where to begin."""
    is_dense = problem.persons is None and not len(asked.persons)
    lists = (asked.costs,) if is_dense else (asked.persons, asked.objects, asked.costs)
    code, info, best = _searched(asked, problem.maximize, lists, first)
    return None if code == "COST" else best or refuse(code, info)


def _searched(asked: Instance, maximize: bool, lists: Sequence[Any],
              first: Optional[FirstPrices]) -> Tuple[str, library.Info, Union[Assignment, HallSet, None]]:
    """What the library says to lists, and its answer if it has one."""
    n, m = asked.n, asked.m
    objects, persons, prices = (first.objects[:] if first else array("I", bytes(4 * n)), array("I", bytes(4 * n)),
                                array("q", bytes(8 * m)))
    code, info = library.searched(maximize, n, m, lists, first and first.prices, (objects, persons, prices))
    if code == "BEST":
        return code, info, Assignment(n, m, info.total, objects, prices)
    return code, info, HallSet(persons[:info.persons], objects[:info.objects]) if code == "HALL" else None


def _asked_about(problem: AssignmentProblem, best: Assignment) -> Optional[Tuple[Any, ...]]:
    """What the library is asked about an answer without dummies: the sense, how many persons and objects there are, the
    lists, the answer's objects and its prices; None where it can't be asked, as of costs beyond its range."""
    if not isinstance(best.prices, array) or not best.n or best.m != max(problem.n_rows, problem.n_columns):
        return None
    if problem.costs.of_64_bits() is None:
        return None
    asked = instance_of(problem)
    return problem.maximize, asked.n, asked.m, asked[2:], best.objects, best.prices


def is_only(problem: AssignmentProblem, best: Assignment) -> Optional[bool]:
    """Whether `nushbaret_unique` proves that no other plan is as good as an answer, or names one that is; None where it
    says neither."""
    about = _asked_about(problem, best)
    if about is None:
        return None
    sense, n, m, lists, objects, prices = about
    code, _ = library.call("unique", sense, n, m, *lists, objects, prices, array("I", bytes(4 * n)),
                           array("i", bytes(4 * m)))
    return {"BEST": True, "TIED": False}.get(code)


def groups(problem: AssignmentProblem, best: Assignment) -> Optional[Numbers]:
    """The number of each object's group, by `nushbaret_groups`: the same for two that can change places without another
    cost; dummies are among them. None where it can't be asked."""
    most = max(problem.n_rows, problem.n_columns)
    has_dummies = best.m > most
    about = _asked_about(problem, best._replace(m=most) if has_dummies else best)
    if about is None:
        return None
    sense, n, _, lists, objects, prices = about
    out = {person: item for person, item in enumerate(objects, 1) if item > most} if has_dummies else {}
    if out:
        lists = [joined(problem.numpy, own, more) for own, more in zip(lists, _exchanged(n, out))]
    found = array("I", bytes(4 * best.m))
    code, info = library.call("groups", sense, n, best.m, *lists, objects, prices, found)
    return found if code == "BEST" else refuse(code, info)


def _exchanged(n: int, out: Dict[int, int]) -> Tuple[Any, Any, Any]:
    """Persons, objects and costs of pairs with the dummies of who stays out, by which all can be exchanged: everybody
    lists the first one, and who has that lists all others."""
    (first, dummy), *others = out.items()
    persons = array("I", [*range(1, n + 1), *(person for person, _ in others), *[first] * len(others)])
    objects = array("I", [dummy] * n + [item for _, item in others] * 2)
    return persons, objects, array("q", bytes(8 * len(persons)))


def next_objects(problem: AssignmentProblem, best: Assignment) -> Tuple[str, Any]:
    """What `nushbaret_next` says of an answer, and the objects of a next best plan; nothing where it can't be asked."""
    about = _asked_about(problem, best)
    return ("", None) if about is None else library.next_objects(*about)


def first_objects(problem: AssignmentProblem, best: Assignment, count: int) -> Tuple[str, Any, Any]:
    """What `nushbaret_ranked` says of an answer, the objects of the first plans, one after the other, and what each
    costs; nothing where it can't be asked."""
    about = _asked_about(problem, best)
    return ("", (), ()) if about is None else library.first_objects(count, *about)


def no_pairs(problem: AssignmentProblem) -> Assignment:
    """The answer without any pair: all stay out, at prices of 0."""
    n, most = sorted((problem.n_rows, problem.n_columns))
    return Assignment(n, most + n, 0, array("I", (most + 1,)) * n, array("q", bytes(8 * (most + n))))


def pairs_of(problem: AssignmentProblem, found: Assignment) -> Tuple[List[int], List[int]]:
    """Rows and columns of the pairs of an answer, rows rising, without dummies."""
    most = max(problem.n_rows, problem.n_columns)
    own = [item - 1 for item in found.objects]
    persons = list(range(found.n))
    if found.m > most:
        persons = [person for person in persons if own[person] < most]
        own = [own[person] for person in persons]
    return by_rows(problem, persons, own)


def rows_and_columns(problem: AssignmentProblem, answer: Assignment) -> Tuple[Any, Any]:
    """The numbers of the pairs of an answer, without dummies, as arrays if the costs were one."""
    return arrays_of(problem.arrays, problem, answer) if problem.arrays else pairs_of(problem, answer)


def arrays_of(numpy: Any, problem: AssignmentProblem, answer: Assignment) -> Tuple[Any, Any]:
    """As `pairs_of`, in arrays of NumPy's."""
    own = numpy.array(answer.objects, numpy.intp)
    own -= 1
    persons, most = numpy.arange(answer.n, dtype=numpy.intp), max(problem.n_rows, problem.n_columns)
    if answer.m > most:
        persons = persons[own < most]
        own = own[persons]
    return by_rows(problem, persons, own)


class ResultParts(NamedTuple):
    """What a result is made of: its problem without lists, the answer, the pairs with their costs, and whether they are
    arrays."""

    shape: AssignmentProblem
    answer: Assignment
    rows: Any
    columns: Any
    costs: List[Any]
    as_arrays: bool


# Duals in the field's words, in whole costs.


class Duals(NamedTuple):
    """Whole duals of a problem whose costs are minimised (under maximize, of the negated costs): of each row, of each
    column, and that of unmatched rows."""

    rows: List[int]
    columns: List[int]
    unmatched: int


def duals_of(problem: AssignmentProblem, found: Assignment, prices: List[int], pairs: Sequence[Tuple[int, int]],
             costs: Sequence[int]) -> Duals:
    """The duals that follow from whole prices of the objects, the least 0, and from the pairs of a plan with their
    costs. A row's and a column's sum is at most their pair's cost, and equals it in the plan. Columns have no dual
    above 0, and 0 if they are unmatched; if all are matched and rows are left over, this holds of rows instead."""
    n_rows, n_columns = problem.n_rows, problem.n_columns
    if not len(pairs):
        return Duals([0] * n_rows, [0] * n_columns, 0)
    most = max(n_rows, n_columns)
    out = prices[-1] if found.m > most else 0
    of_objects = [-price for price in prices[:most]]
    of_persons = [out] * found.n
    sign = -1 if problem.maximize else 1
    for person, item, cost in zip(*oriented(problem, *zip(*pairs)), costs):
        of_persons[person] = sign * cost - of_objects[item]
    return Duals(*row_and_column_duals(problem, of_persons, of_objects, out), out)


def as_checked(duals: Duals, rows: Sequence[int]) -> Duals:
    """The duals with the same columns that a check of the prices proves: an unmatched row has the greatest of the
    matched rows, which are given."""
    matched = set(rows)
    if not matched or len(matched) == len(duals.rows):
        return duals
    out = max(duals.rows[row] for row in matched)
    return Duals([dual if row in matched else out for row, dual in enumerate(duals.rows)], duals.columns, out)


def whole_prices(found: Assignment) -> List[int]:
    """The prices of an answer, the least 0."""
    prices: List[int] = list(found.prices)
    lowest = min(prices)
    return [price - lowest for price in prices] if lowest else prices


def rents(duals: Duals) -> List[int]:
    """What columns cost in addition to their pairs; the least is 0."""
    most = max(duals.columns, default=0)
    return [most - dual for dual in duals.columns]


# Prices of the caller's, in the unit of the costs, one for each column.


def read_price(price: Any, name: Any) -> Fraction:
    """A price of any kind, exactly; a float is the decimal that it prints as. `name` is that of its column."""
    try:
        return Fraction(*exact_ratio(price))
    except (ValueError, OverflowError):
        raise ValueError(f"the price of column {name} is {price}: it must be finite") from None
    except TypeError:
        raise TypeError(f"the price of column {name} is {price!r}: it must be a number") from None


def read_prices(problem: AssignmentProblem, prices: Any, what: str = "prices") -> List[Fraction]:
    """The caller's prices, one for each column; `what` is the argument's name."""
    prices = naming.listed(prices, what, "column", problem.n_columns, problem.labels and problem.labels[1])
    if len(prices) != problem.n_columns:
        raise ValueError(f"there are {len(prices)} prices, and {problem.n_columns} columns")
    return [read_price(price, problem.column_name(column)) for column, price in enumerate(prices)]


def rounded_prices(problem: AssignmentProblem, prices: List[Fraction], parts: int = 1) -> Optional[List[int]]:
    """Prices as whole numbers of the unit of the costs, the least 0; None where they are too far apart for the library.
    They are rounded to so many `parts` of the unit first, and then down, from a point that none of them is at: with
    more parts than prices there is one. So an order of sums of costs and prices that holds to within a part holds of
    the rounded ones exactly."""
    scale = parts * problem.unit.denominator
    fine = [round(price * scale) for price in prices]
    rests = {price % parts for price in fine}
    missing = next((rest for rest in range(parts) if rest not in rests), -1)
    whole = [(price - missing - 1) // parts for price in fine]
    lowest = min(whole, default=0)
    whole = [price - lowest for price in whole]
    return None if max(whole, default=0) > GREATEST_PRICE else whole


def first_of(problem: AssignmentProblem, start: WarmStart, assigned: Optional[int]) -> Optional[FirstPrices]:
    """Where the library's search begins; prices of dummies are 0. None where prices are too far apart to be of use."""
    n, _, dummies = sizes_of(problem, assigned)
    prices, objects = rounded_prices(problem, start.prices), array("I", bytes(4 * n))
    if prices is None:
        return None
    for row, column in zip(start.rows, start.columns):
        if row < problem.n_rows and column < problem.n_columns:
            person, item = oriented(problem, row, column)
            objects[person] = item + 1
    return FirstPrices(array("q", object_prices(problem, prices) + [0] * dummies), objects)
