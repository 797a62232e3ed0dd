"""The library's calls for doubles, by ctypes: for an Assigner, and for what the extension doesn't take."""
import ctypes
import math
from array import array
from typing import Any, NamedTuple, Optional, Tuple

from ..costs.orientation import costs_by_persons
from ..costs.parts import MOST_SHIFT, in_fixed_point, size_of
from ..costs.problem import AssignmentProblem
from ..costs.reading import loaded_numpy
from . import library

# Rounded costs have so many bits.
BITS = 39
_KINDS = (ctypes.c_uint32, *[ctypes.c_size_t] * 2, *library.LIST * 4, ctypes.c_void_p)


class DoublesInfo(ctypes.Structure):
    """What a call for doubles reports in addition to its lists."""

    _fields_ = [*((name, ctypes.c_uint64) for name in ("place", "persons", "objects", "person", "object")),
                ("by_margin", ctypes.c_uint32)]


class DoublesPlan(NamedTuple):
    """Objects of persons, from 1 on, and prices; whether each other plan is worse by so much that the plan is best too
    for the decimals that the doubles print as."""

    objects: Any
    prices: Any
    by_margin: bool


def search(sense: bool, n: int, m: int, costs: Any, objects: Any, prices: Any) -> Optional[DoublesPlan]:
    """A plan that the library proves best for doubles, from these objects (0: nobody's) and prices, which are written;
    None where it finds none, or none that it can prove. MemoryError where memory is refused."""
    info, persons = DoublesInfo(), array("I", bytes(4 * n))
    lists = [word for values in (costs, objects, persons, prices) for word in (
        values.buffer_info() if isinstance(values, array) else (values.ctypes.data, values.size))]
    code = library.function("doubles_from", *_KINDS)(int(sense), n, m, *lists, ctypes.addressof(info))
    if code == library.CODES.index("MEMORY"):
        raise MemoryError("the library was refused memory")
    return None if code else DoublesPlan(objects, prices, bool(info.by_margin))


def start(sense: bool, n: int, m: int, costs: Any, longest: Optional[int] = None) -> Tuple[Any, Any]:
    """Objects and prices to begin from: those of the rounded costs where the search may take long, since it is done in
    pieces, and else nobody's."""
    objects, prices = array("I", bytes(4 * n)), array("d", bytes(8 * m))
    numpy = loaded_numpy()
    if numpy is None or n * n * m < (library.LONGEST if longest is None else longest):
        return objects, prices
    held = numpy.frombuffer(costs)
    shift = BITS - math.frexp(size_of(held))[1]
    if not numpy.isfinite(held).all() or not -MOST_SHIFT < shift < MOST_SHIFT:
        return objects, prices
    whole = array("q", bytes(8 * m))
    code, _ = library.searched(sense, n, m, [in_fixed_point(numpy, held, shift)], None,
                               [objects, array("I", bytes(4 * n)), whole])
    return objects, array("d", [math.ldexp(price, -shift) for price in whole]) if code == "BEST" else prices


def is_only(problem: AssignmentProblem, objects: Any) -> bool:
    """Whether the library proves for a matrix of doubles that a plan is best and no other one as good, also for the
    decimals that they print as. If not, nothing is known."""
    n, m, costs = problem.n_rows, problem.n_columns, problem.matrix_of_doubles()
    if costs is None or n > m or len(objects) != n:
        return False
    plan = search(problem.maximize, n, m, costs.numbers, *start(problem.maximize, n, m, costs.numbers))
    return plan is not None and plan.by_margin and list(plan.objects) == list(objects)


def best_objects(problem: AssignmentProblem) -> Any:
    """The objects of a plan that the library proves best for all doubles of a matrix; None where it doesn't, or where
    the problem is another one."""
    costs = problem.matrix_of_doubles()
    # Of decimals with many ties it isn't sure which plan is best.
    if costs is None or not len(costs) or not costs.doubles and costs.seem_few():
        return None
    n, m = sorted((problem.n_rows, problem.n_columns))
    held = costs_by_persons(problem)
    first = start(problem.maximize, n, m, held, 0 if library.is_limited() else library.LONG)
    with library.one_piece(n):
        plan = search(problem.maximize, n, m, held, *first)
    return plan.objects if plan and (costs.doubles or plan.by_margin) else None
