"""The short way to the library: an extension module in C, of python/extension/, where there is one for this Python.
Other Pythons, and Windows, go by ctypes alone. It solves arrays and lists of floats and whole numbers; for anything
else, and for each fault, it goes the longer way, through Python.

The extension has the limited API of CPython 3.9, with a lock and without traces of references. An interpreter in a
process of several that has a lock of its own refuses it, and goes the longer way."""
import importlib.machinery
import importlib.util
import math
import sys
import time
from array import array
from fractions import Fraction
from typing import Any, List, Optional, Tuple

from ..costs import kinds, printing, reading
from ..costs.naming import is_frame, labels_of
from ..costs.numbers import Number, of_decimals, of_floats
from ..costs.problem import AssignmentProblem
from ..costs.source import Source
from . import library, proved
from .ranking import in_exact_order, sure

NAME = printing.EXTENSION
FILE = "_extension.abi3.so"
# What the extension calls.
EXPORTS = ("nushbaret_doubles", "nushbaret_check_doubles", "nushbaret_dense_from", "nushbaret_sparse_from",
           "nushbaret_check", "nushbaret_ranked", "nushbaret_unique", "nushbaret_next", "nushbaret_bottleneck")
# What it is asked of a matrix: a best plan, the first ones, one of the best worst pair; and of a plan, whether it is
# the only best one, and which is the next.
BEST, FIRST, WORST, ONLY, NEXT = range(5)


# What a source has besides costs and rows where the costs alone were given.
_PLAIN = {maximize: Source(None, None, None, None, reading.Manner(maximize))[2:] for maximize in (False, True)}


def extension() -> Any:
    """The extension module, or None. With None under its name in sys.modules it isn't used."""
    if NAME not in sys.modules:
        sys.modules[NAME] = _opened()
    return sys.modules[NAME]


def _opened() -> Any:
    """The extension next to the library, loaded; None where there is none, or none for this Python."""
    paths = (beside.with_name(FILE) for beside in library.PATHS)
    path = next((path for path in paths if path.exists()), None)
    if path is None or not _is_for_this_python():
        return None
    loader = importlib.machinery.ExtensionFileLoader(NAME, str(path))
    spec = importlib.util.spec_from_file_location(NAME, str(path), loader=loader)
    try:
        module = importlib.util.module_from_spec(spec)  # type: ignore[arg-type]
        loader.exec_module(module)
        module.asks(connect)
    except ImportError:
        return None
    return module


def _is_for_this_python() -> bool:
    """Whether this Python's objects are those of the limited API: they aren't where it has no lock, or traces
    references."""
    has_lock = "t" not in getattr(sys, "abiflags", "")
    return ".abi3.so" in importlib.machinery.EXTENSION_SUFFIXES and has_lock and not hasattr(sys, "getobjects")


def connect() -> None:
    """Gives the extension the addresses of the library's calls, and NumPy's table if NumPy is there."""
    held, numpy = sys.modules[NAME], reading.loaded_numpy()
    if numpy is not None:
        held.attach_numpy(_table_of(numpy), numpy.float64)
    held.attach(*map(library.address, EXPORTS))


def _table_of(numpy: Any) -> Any:
    """The table of NumPy's own calls, which stands elsewhere from NumPy 2 on."""
    core = getattr(numpy, "_core", None) or numpy.core
    return core.multiarray._ARRAY_API


def over(longer: Any) -> Any:
    """A call that goes the short way where it can, and else this longer one."""
    held = extension()
    if held is None:
        return longer
    signature = (f"{longer.__name__}(cost_matrix, maximize=False, *, missing='refuse', timeout=None, "
                 "progress=None, unmatched_cost=None)\n--\n\n")
    return held.function(longer, signature + (longer.__doc__ or ""), "nushbaret")


def end_of(timeout: Optional[float]) -> Optional[float]:
    """When a call has to end, by the clock; None where the longer way is to judge its timeout."""
    if timeout is None:
        return math.inf
    return time.monotonic() + timeout if type(timeout) in (int, float) and 0 < timeout < 10**9 else None


def _said(costs: Any, *question: Any) -> Any:
    """What the extension says of a matrix; None where the longer way is to be taken."""
    held = extension()
    matrix = costs if type(costs) is list else _matrix(costs)
    return None if held is None or matrix is None else held.found(matrix, *question)


def found(costs: Any, maximize: bool, end: float = math.inf, question: int = BEST) -> Optional[proved.ResultParts]:
    """What a result is made of, for a small array, a frame or a list of rows, where floats are the decimals that they
    print as; None where the longer way is to be taken."""
    answer = _said(costs, maximize, end, question)
    if answer is None:
        return None
    own, _, _, _, decimals = answer[1]
    is_list = type(costs) is list
    if is_list and decimals < 0 and not _is_long(own[0]):
        return None
    n_rows, n_columns = (len(costs), len(costs[0])) if is_list else costs.shape
    labels = None if is_list else labels_of(costs)
    return _parts(n_rows, n_columns, maximize, answer, labels)


def first_plans(costs: Any, maximize: bool, count: int) -> Optional[Tuple[Any, ...]]:
    """Rows, the columns of so many first plans at most, what each costs, and the labels of a frame, of a matrix of no
    more rows than columns; None where the longer way is to be taken."""
    answer = _said(costs, maximize, math.inf, FIRST, count, library.ARC_SCANS_FOR_NEXT)
    if answer is None:
        return None
    is_list = type(costs) is list
    labels = None if is_list else labels_of(costs)
    if len(answer) == 4:
        rows, columns, totals, decimals = answer
        return rows, columns, [*map(of_decimals(decimals).shown, totals)] if decimals else totals, labels
    found = None if is_list and not _is_long(answer[1][2][0]) else plans_of_doubles(answer, maximize, count)
    if found is None:
        return None
    rows, plans = answer[0][0], [columns for columns, _ in found]
    return (rows, plans if type(rows) is list else reading.numpy_of(rows).array(plans, "intp"),
            [cost for _, cost in found], labels)


def plans_of_doubles(answer: Any, maximize: bool, count: int) -> Optional[List[Tuple[List[int], Number]]]:
    """The columns and exact costs of the first plans of doubles, so many or all, by an answer of the extension; None
    where it isn't sure that these are the first ones."""
    (_, columns, totals, _), (is_all, shift, own) = answer
    held = columns if type(columns) is list else columns.tolist()
    plans = in_exact_order(held, own, *of_floats(set(own)), maximize, count)
    first = sure(plans, totals, is_all, Fraction(2)**shift, maximize, count)
    sign = -1 if maximize else 1
    return None if first is None else [(plan.columns, plan.unit.shown(sign * plan.cost)) for plan in first]


def from_earlier(costs: Any, maximize: bool, decimals: int, plan: Optional[Tuple[Any, Any]],
                 labels: Any) -> Optional[proved.ResultParts]:
    """What a result is made of, for an array of whole numbers of a decimal unit; the search begins at objects and
    prices of an earlier plan, if there is one. None where the longer way is to be taken."""
    held, (n_rows, n_columns) = extension(), costs.shape
    begun = () if plan is None else (_as_bytes(n_rows, *plan, None, 0),)
    answer = held and held.found(costs, maximize, math.inf, BEST, 0, 0, *begun)
    return _parts(n_rows, n_columns, maximize, answer, labels, decimals) if answer else None


def about(question: int, source: Source, shape: AssignmentProblem, best: proved.Assignment, paid: List[Any]) -> Any:
    """What the library says of a plan of a matrix as its costs are now; None where the longer way is to be taken."""
    if source.rows is not None or source[2:] != _PLAIN[shape.maximize]:
        return None
    if not isinstance(best.objects, array) or not isinstance(best.prices, (array, type(None))):
        return None
    places = shape.unit.decimals if isinstance(shape.costs, kinds.AnyWholeNumbers) else -1
    if places is None:
        return None
    plan = _as_bytes(shape.n_rows, best.objects, best.prices, paid, places)
    return _said(source.costs, shape.maximize, math.inf, question, 0, library.ARC_SCANS_FOR_NEXT, plan)


def _as_bytes(n_rows: int, objects: Any, prices: Any, paid: Any, places: int) -> Tuple[Any, ...]:
    """A plan as the extension takes it."""
    return n_rows, objects.tobytes(), b"" if prices is None else prices.tobytes(), paid, places


def _parts(n_rows: int, n_columns: int, maximize: bool, answer: Any, labels: Any = None,
           places: int = 0) -> proved.ResultParts:
    (rows, columns), (own, objects, prices, total, decimals) = answer
    kind = kinds.shape(None if decimals < 0 else decimals or places)
    shape = AssignmentProblem(n_rows, n_columns, maximize, kind, labels=labels)
    n, m = sorted((n_rows, n_columns))
    best = proved.Assignment(n, m, total, array("I", objects), None if prices is None else array("q", prices))
    return proved.ResultParts(shape, best, rows, columns, own, type(rows) is not list)


def _is_long(cost: float) -> bool:
    """Whether a cost has more than 12 digits, so that no decimal unit makes it whole within the library's range. For
    others of a list the longer way may find one, in which the sum is shown."""
    return float("%.12g" % cost) != cost


def _matrix(costs: Any) -> Any:
    """A frame of pandas, or an array of which nothing is masked, as the extension reads them; None for anything
    else."""
    numpy = reading.loaded_numpy()
    if numpy is None or not isinstance(costs, numpy.ndarray):
        return costs if is_frame(costs) else None
    if isinstance(costs, numpy.ma.MaskedArray):
        if numpy.ma.is_masked(costs):
            return None
        costs = costs.data
    # Floats of 16 bits as what they print as.
    return printing.of_shape(numpy, costs) if costs.dtype.char == "e" else costs


def found_listed(given: Tuple[Any, Any, Any, Any, Any], maximize: bool,
                 end: float = math.inf) -> Optional[proved.ResultParts]:
    """The same of listed pairs: how many rows and columns there are, arrays of their numbers, and of costs; or of a
    sparse matrix in the place of the first."""
    held, numpy = extension(), reading.loaded_numpy()
    listed = (*given, 0) if given[1] is not None else _of_sparse(given[0])
    if held is None or numpy is None or listed is None:
        return None
    # An array with a mask is one of a kind of its own.
    if [*map(type, listed[:5])] != [int, int, *[numpy.ndarray] * 3]:
        return None
    answer = held.listed(*listed, maximize, end)
    return None if answer is None else _parts(listed[0], listed[1], maximize, answer)


def _of_sparse(matrix: Any) -> Optional[Tuple[Any, ...]]:
    """The shape of a sparse matrix, its rows and columns or where these begin, its entries, and which of these it
    is."""
    kind = getattr(matrix, "format", None)
    if len(getattr(matrix, "shape", ())) != 2:
        return None
    n_rows, n_columns = map(int, matrix.shape)
    if hasattr(matrix, "coords") and hasattr(matrix, "fill_value"):
        # Of pydata's, with 0 where nothing is stored.
        rows, columns = matrix.coords
        return (n_rows, n_columns, rows, columns, matrix.data, 0) if matrix.fill_value == 0 else None
    if hasattr(matrix, "compressed_axes") and hasattr(matrix, "indptr"):
        # Of pydata's too: row by row, or column by column.
        if matrix.fill_value != 0:
            return None
        kind = "csr" if tuple(matrix.compressed_axes) == (0,) else "csc"
    if kind == "coo" and hasattr(matrix, "row"):
        return n_rows, n_columns, matrix.row, matrix.col, matrix.data, 0
    if kind == "csr" and hasattr(matrix, "indptr"):
        return n_rows, n_columns, matrix.indptr, matrix.indices, matrix.data, 1
    if kind == "csc" and hasattr(matrix, "indptr"):
        return n_rows, n_columns, matrix.indices, matrix.indptr, matrix.data, 2
    return None
