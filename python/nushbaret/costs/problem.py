"""A problem of rows and columns, read from what the caller gave: a matrix, a frame, a sparse matrix or lists."""
import operator
import sys
from array import array
from fractions import Fraction
from itertools import compress, islice
from typing import Any, Dict, Iterable, List, NamedTuple, Optional, Sequence, Tuple

from . import naming, parts, printing, reading as exact
from .kinds import Costs, Doubles, WholeNumbers, chosen, plain, whole_numbers
from .limits import MOST_PERSONS, BorrowedNumbers, judge_size
from .numbers import Ratio, Unit

Labels = Optional[Tuple[List[Any], List[Any]]]


class AssignmentProblem(NamedTuple):
    """Rows and columns with the costs of their pairs. Dense: those of all pairs in order, and `persons` is None.
    Sparse: row persons[k] - 1 and column objects[k] - 1 are a pair at the cost k. Persons and objects are arrays of
    NumPy's if the costs are one.

    `arrays` is NumPy's module if answers are to be arrays; `labels` are those of the rows and columns of a frame of
    pandas."""

    n_rows: int
    n_columns: int
    maximize: bool
    costs: Costs
    persons: Any = None
    objects: Any = None
    arrays: Any = None
    labels: Labels = None

    @property
    def numpy(self) -> Any:
        """NumPy's module if the costs are an array of it."""
        return self.costs.numpy

    @property
    def unit(self) -> Unit:
        """The unit of the costs."""
        return self.costs.unit

    def matrix_of_doubles(self) -> Optional[Doubles]:
        """The costs of all pairs, if they are doubles in an array; else None."""
        return self.costs.as_doubles() if self.persons is None else None

    def place(self, place: int) -> Tuple[int, int]:
        """Row and column of a place in the list of costs."""
        if self.persons is None:
            return divmod(place, self.n_columns)
        return int(self.persons[place]) - 1, int(self.objects[place]) - 1

    def numbers(self, values: Sequence[int]) -> Any:
        """Row or column numbers, as an array if the costs are one."""
        return values if self.arrays is None else self.arrays.array(values, self.arrays.intp)

    def row_name(self, row: int) -> Any:
        """A row's label, or else its number."""
        return self.labels[0][row] if self.labels else row

    def column_name(self, column: int) -> Any:
        """A column's label, or else its number."""
        return self.labels[1][column] if self.labels else column


def _place_in(n_columns: int, labels: Labels) -> exact.Where:
    """What a place in a matrix is called, by the labels of a frame."""
    def where(place: int) -> str:
        row, column = divmod(place, n_columns)
        return f"row {labels[0][row]}, column {labels[1][column]}" if labels else f"row {row}, column {column}"
    return where


def rows_of_any(costs: Any, manner: exact.Manner) -> List[Any]:
    """The rows of a matrix that is no array, as they are, or what is wrong with it."""
    if manner.doubles and (not hasattr(costs, "__len__") or isinstance(costs, (dict, set, frozenset))
                           or exact.is_sparse(costs)):
        # SciPy takes a sparse matrix with items for a list.
        if costs is not None and not (exact.is_sparse(costs) and hasattr(costs, "__getitem__")):
            float(costs)
        raise ValueError("expected a matrix (2-D array), got a 0 array")
    if isinstance(costs, (dict, set, frozenset)) or isinstance(costs, str) and not costs:
        raise ValueError(f"expected a matrix (2-D array), got a {type(costs).__name__}")
    try:
        rows = [row if hasattr(row, "__len__") and getattr(row, "ndim", 1) != 0 else _row_of_any(row) for row in costs]
    except TypeError:
        raise ValueError("expected a matrix (2-D array)") from None
    for place, row in enumerate(rows):
        judge_row(row, place, manner)
    return rows


def _row_of_any(row: Any) -> Any:
    """A row that has no length, as one that has one."""
    numpy = exact.numpy_of(row)
    return list(row) if numpy is None else exact.array_of(numpy, row)


def judge_row(row: Any, place: int, manner: exact.Manner) -> None:
    """Refuses what is no row of a matrix."""
    if isinstance(row, (str, bytes)):
        raise (ValueError if manner.doubles else TypeError)(f"Cannot cast array data: row {place} is the text {row!r}")
    if isinstance(row, (dict, set, frozenset)):
        raise TypeError(f"Cannot cast array data: row {place} is a {type(row).__name__}, which has no order")
    if getattr(row, "ndim", 1) != 1:
        raise ValueError(f"expected a matrix (2-D array): row {place} has {row.ndim} dimensions")


def row_in_list(row: Any, manner: exact.Manner) -> Any:
    """A row of NumPy's as a list of Python's numbers, where it has no mask and these are the same; any other one as it
    is, but floats of fewer bits as what they print as."""
    numpy = exact.loaded_numpy()
    if numpy is None or type(row) is not numpy.ndarray or row.dtype.kind not in "biuf" or row.dtype.itemsize > 8:
        return row if manner.doubles else printing.of_buffer(row)
    if row.dtype.kind == "f" and row.dtype.itemsize < 8 and not manner.doubles:
        row = printing.of_array(numpy, row)
    return row.tolist()


def _rows_of(costs: Any, manner: exact.Manner) -> Tuple[List[Any], int, Any]:
    """The rows of a matrix that is no array of NumPy's, how long they are, and NumPy's module if any row is an
    array."""
    arrays = None
    if type(costs) is list and {list}.issuperset(map(type, costs)):
        rows = costs
    else:
        rows = rows_of_any(costs, manner)
        arrays = next(filter(None, map(exact.numpy_of, rows)), None)
        rows = [row_in_list(row, manner) for row in rows]
    if not rows and manner.doubles:
        raise ValueError("expected a matrix (2-D array), got a 1 array")
    lengths = set(map(len, rows))
    if len(lengths) > 1:
        row = next(row for row, held in enumerate(rows) if len(held) != len(rows[0]))
        raise ValueError(f"expected a matrix (2-D array): row {row} has {len(rows[row])} costs, row 0 has "
                         f"{len(rows[0])}")
    if manner.doubles and any(isinstance(value, (list, tuple)) for row in rows for value in islice(row, 1)):
        raise ValueError("expected a matrix (2-D array), got a 3 array")
    return rows, lengths.pop() if rows else 0, arrays


def native(view: memoryview) -> memoryview:
    """A view whose format Python reads: that of an array of ctypes has a mark for the order of its bytes."""
    kind = view.format.lstrip("@=" + ("<" if sys.byteorder == "little" else ">"))
    if kind == view.format or not view.nbytes:
        return view
    held = view.cast("B") if view.c_contiguous else memoryview(view.tobytes())
    return held.cast(kind, list(view.shape or ()))


def _of_view(view: memoryview, manner: exact.Manner) -> AssignmentProblem:
    """Of a memoryview: borrowed if it has the library's own kind of numbers."""
    n_rows, n_columns = _shape_of(view)
    judge_size(n_rows, n_columns)
    view = native(view)
    kind = view.format
    own = kind in ("q", "l") and view.itemsize == 8 and view.c_contiguous and not view.readonly
    if own and not manner.decimals and view.nbytes:
        return AssignmentProblem(n_rows, n_columns, manner.maximize, WholeNumbers(BorrowedNumbers(view)))
    rows = rows_of_view(view, manner)
    return _dense(n_rows, n_columns, manner, exact.of_rows(rows, n_columns, manner, _place_in(n_columns, None)))


def _shape_of(view: memoryview) -> Tuple[int, int]:
    if view.ndim != 2:
        raise ValueError(f"expected a matrix (2-D array), got a {view.ndim} array")
    n_rows, n_columns = view.shape or (0, 0)
    return n_rows, n_columns


def rows_of_view(view: memoryview, manner: exact.Manner) -> Any:
    """The rows of a memoryview as lists."""
    _shape_of(view)
    view = native(view)
    kind = view.format
    try:
        rows: Any = view.tolist()
    except NotImplementedError:
        raise TypeError(f"Cannot cast array data: Python doesn't read a buffer of the format {kind!r}") from None
    if kind in ("e", "f") and not manner.doubles:
        rows = [[printing.shortest(cost, kind) for cost in row] for row in rows]
    return rows


def _of_array(numpy: Any, costs: Any, manner: exact.Manner, labels: Labels) -> AssignmentProblem:
    costs = exact.array_of(numpy, costs)
    if costs.ndim != 2:
        raise ValueError(f"expected a matrix (2-D array), got a {costs.ndim} array")
    n_rows, n_columns = costs.shape
    judge_size(n_rows, n_columns)
    read = exact.of_array(numpy, costs, manner, _place_in(n_columns, labels))
    return _dense(n_rows, n_columns, manner, read)._replace(arrays=numpy, labels=labels)


def _dense(n_rows: int, n_columns: int, manner: exact.Manner, read: exact.ReadCosts) -> AssignmentProblem:
    """The problem of all pairs but the forbidden ones."""
    if not len(read.forbidden):
        return AssignmentProblem(n_rows, n_columns, manner.maximize, read.costs)
    costs, persons, objects = _without_forbidden(n_rows, n_columns, read)
    return AssignmentProblem(n_rows, n_columns, manner.maximize, costs, persons, objects)


def _read_matrix(costs: Any, manner: exact.Manner) -> AssignmentProblem:
    numpy = exact.numpy_of(costs)
    if numpy:
        return _of_array(numpy, costs, manner, None)
    if not isinstance(costs, (list, tuple, str)):
        try:
            view = memoryview(costs)
        except TypeError:
            pass
        else:
            return _of_view(view, manner)
    rows, n_columns, arrays = _rows_of(costs, manner)
    judge_size(len(rows), n_columns)
    read = exact.of_rows(rows, n_columns, manner, _place_in(n_columns, None))
    return _dense(len(rows), n_columns, manner, read)._replace(arrays=arrays)


def of_matrix(costs: Any, manner: exact.Manner) -> AssignmentProblem:
    """The problem of a matrix. ValueError and TypeError name what is wrong, with row and column from 0."""
    if exact.is_sparse(costs) and not manner.doubles:
        return of_sparse_matrix(costs, manner)
    if not naming.is_frame(costs):
        return _read_matrix(costs, manner)
    numpy = sys.modules["numpy"]
    return _of_array(numpy, exact.array_of_frame(numpy, costs, manner), manner,
                     (list(costs.index), list(costs.columns)))


def costs_of_pairs(problem: AssignmentProblem, rows: Any, columns: Any) -> List[Any]:
    """The costs of some pairs, no two of one row; None where one is forbidden. Of a pair that is given several times
    the least."""
    if problem.persons is None:
        costs = plain(problem.costs.numbers)
        if problem.numpy:
            places = problem.numpy.asarray(rows, problem.numpy.intp) * problem.n_columns + columns
            return list(costs[places.astype(problem.numpy.intp)].tolist())
        return [costs[row * problem.n_columns + column] for row, column in zip(rows, columns)]
    least: Dict[int, Any] = {}
    for person, cost in _listed_of_pairs(problem, rows, columns):
        least[person] = min(cost, least.get(person, cost))
    return [least.get(row + 1) for row in map(int, rows)]


def _listed_of_pairs(problem: AssignmentProblem, rows: Any, columns: Any) -> Iterable[Tuple[int, Any]]:
    """The persons and costs of listed pairs that are among some pairs, no two of one row."""
    if problem.numpy:
        own = problem.numpy.zeros(problem.n_rows + 1, problem.numpy.uint32)
        own[problem.numpy.asarray(rows, problem.numpy.intp) + 1] = problem.numpy.asarray(columns,
                                                                                         problem.numpy.intp) + 1
        persons, objects = problem.persons, problem.objects
        places = parts.places_where(problem.numpy, len(persons), lambda part: own[persons[part]] == objects[part])
        return zip(persons[places].tolist(), problem.costs.numbers[places].tolist())
    numbers = [0] * (problem.n_rows + 1)
    for row, column in zip(rows, columns):
        numbers[row + 1] = column + 1
    listed_persons = problem.persons.tolist()
    wanted = map(operator.eq, map(numbers.__getitem__, listed_persons), problem.objects.tolist())
    return compress(zip(listed_persons, problem.costs.listed()), wanted)


def in_whole_numbers(problem: AssignmentProblem) -> AssignmentProblem:
    """The same problem with whole numbers for its costs, of 64 bits or of any size."""
    costs = problem.costs.in_whole_numbers()
    return problem if costs is problem.costs else in_lists(problem, costs)


def in_lists(problem: AssignmentProblem, costs: Costs) -> AssignmentProblem:
    """The problem with other costs, in a list of Python's."""
    if problem.numpy and problem.persons is not None:
        problem = problem._replace(persons=array("I", problem.persons.tolist()),
                                   objects=array("I", problem.objects.tolist()))
    return problem._replace(costs=costs)


def lists_of(problem: AssignmentProblem) -> List[Tuple[Sequence[int], Any]]:
    """The columns of each row, rising, and their costs, to be minimised."""
    n_rows, n_columns, sign = problem.n_rows, problem.n_columns, -1 if problem.maximize else 1
    if problem.persons is None:
        costs = plain(problem.costs.numbers)
        if problem.maximize:
            costs = _negated(costs)
        view, columns = costs if isinstance(costs, list) else memoryview(costs), range(n_columns)
        return [(columns, view[row * n_columns:(row + 1) * n_columns]) for row in range(n_rows)]
    held: List[Dict[int, int]] = [{} for _ in range(n_rows)]
    for person, item, cost in zip(problem.persons.tolist(), problem.objects.tolist(), problem.costs.listed()):
        row = held[person - 1]
        row[item - 1] = min(cost, row.get(item - 1, cost))
    return [(sorted(row), [sign * row[column] for column in sorted(row)]) for row in held]


def _negated(costs: Any) -> Any:
    """Whole costs with their signs reversed. The least number of 64 bits has no other sign there."""
    if hasattr(costs, "dtype") and costs.size and int(costs.min()) > -2**63:
        return -costs
    return [-cost for cost in costs.tolist()] if hasattr(costs, "tolist") else list(map(operator.neg, costs))


def listed(problem: AssignmentProblem) -> AssignmentProblem:
    """A dense problem as a sparse one."""
    if problem.persons is not None:
        return problem
    n_rows, n_columns, numpy = problem.n_rows, problem.n_columns, problem.numpy
    if numpy:
        persons = numpy.repeat(numpy.arange(1, n_rows + 1, dtype=numpy.uint32), n_columns)
        return problem._replace(persons=persons, objects=numpy.tile(numpy.arange(1, n_columns + 1, dtype=numpy.uint32),
                                                                    n_rows))
    persons, objects = array("I"), array("I", range(1, n_columns + 1)) * n_rows
    for row in range(1, n_rows + 1):
        persons.extend(array("I", [row]) * n_columns)
    return problem._replace(costs=problem.costs.owned(), persons=persons, objects=objects)


def kept(problem: AssignmentProblem, places: Any) -> AssignmentProblem:
    """A problem of listed pairs with those at some places alone."""
    return problem._replace(costs=problem.costs.at(places), persons=chosen(problem.persons, places),
                            objects=chosen(problem.objects, places))


def within(problem: AssignmentProblem, worst: Ratio) -> AssignmentProblem:
    """The problem without the pairs that are worse than a cost."""
    problem = problem if problem.numpy else in_whole_numbers(problem)
    return no_worse(problem, problem.costs.bound(Fraction(*worst), problem.maximize))


def no_worse(problem: AssignmentProblem, bound: Any) -> AssignmentProblem:
    """The pairs of a problem that are no worse than a bound of its costs, listed."""
    numpy = problem.numpy
    if not numpy or problem.persons is not None:
        problem = listed(problem)
        return kept(problem, problem.costs.no_worse(bound, problem.maximize))
    places = numpy.flatnonzero(problem.costs.no_worse(bound, problem.maximize))
    rows, columns = numpy.divmod(places, max(problem.n_columns, 1))
    return problem._replace(costs=problem.costs.at(places), persons=(rows + 1).astype(numpy.uint32),
                            objects=(columns + 1).astype(numpy.uint32))


def without_pair(problem: AssignmentProblem, row: int, column: int) -> AssignmentProblem:
    """The problem with one pair less."""
    problem = listed(problem)
    if problem.numpy:
        return kept(problem, (problem.persons != row + 1) | (problem.objects != column + 1))
    pair = row + 1, column + 1
    return kept(problem, [place for place, other in enumerate(zip(problem.persons, problem.objects)) if other != pair])


def _without_forbidden(n_rows: int, n_columns: int, read: exact.ReadCosts) -> Tuple[Any, Any, Any]:
    """Costs, persons and objects of the pairs that aren't forbidden."""
    numpy = read.costs.numpy
    if numpy:
        allowed = numpy.ones(n_rows * n_columns, bool)
        allowed[numpy.asarray(read.forbidden, numpy.intp)] = False
        places = numpy.flatnonzero(allowed)
        persons, objects = numpy.divmod(places, n_columns)
        return read.costs.at(places), (persons + 1).astype(numpy.uint32), (objects + 1).astype(numpy.uint32)
    forbidden = set(map(int, read.forbidden))
    places = [place for place in range(n_rows * n_columns) if place not in forbidden]
    persons = array("I", [place // n_columns + 1 for place in places])
    objects = array("I", [place % n_columns + 1 for place in places])
    return read.costs.at(places), persons, objects


def _numbered(values: Any, most: int, what: str) -> Any:
    """Row or column numbers, from 1 on."""
    numpy = exact.numpy_of(values)
    if numpy:
        values = exact.array_of(numpy, values)
        if values.ndim != 1:
            raise ValueError(f"{what} must be a list of numbers, not an array of {values.ndim} dimensions")
        if values.size and values.dtype.kind not in "iuO":
            raise TypeError(f"{what} must be whole numbers, not {values.dtype}")
        if values.dtype.kind != "O" and not getattr(values, "mask", numpy.False_).any():
            if values.size and not (0 <= int(values.min()) and int(values.max()) < most):
                _all_below(values.tolist(), most, what)
            # All have room for one more as numbers of 32 bits.
            return numpy.asarray(values).astype(numpy.uint32) + numpy.uint32(1)
        values = values.tolist()
    values = _listed(values, what)
    try:
        numbers = [operator.index(value) for value in values]
    except TypeError:
        numbers = [exact.whole_number(value, f"{what}[{place}]") for place, value in enumerate(values)]
    _all_below(numbers, most, what)
    return array("I", [number + 1 for number in numbers])


def _listed(values: Any, what: str) -> List[Any]:
    try:
        return list(values)
    except TypeError:
        raise TypeError(f"{what} is {values!r}: it must be a list") from None


def _all_below(numbers: List[int], most: int, what: str) -> None:
    for place, number in enumerate(numbers):
        if not 0 <= number < most:
            raise ValueError(f"{what}[{place}] is {number}: it must be from 0 to {most - 1}")


def _pair_costs(costs: Any, manner: exact.Manner, where: exact.Where) -> exact.ReadCosts:
    numpy = exact.numpy_of(costs)
    if numpy:
        costs = exact.array_of(numpy, costs)
        if costs.ndim != 1:
            raise ValueError(f"costs must be a list of numbers, not an array of {costs.ndim} dimensions")
        return exact.of_array(numpy, costs, manner, where)
    costs = _listed(costs if manner.doubles else printing.of_buffer(costs), "costs")
    return exact.of_rows([costs], len(costs), manner, where)


def of_pairs(n_rows: Any, n_columns: Any, rows: Any, columns: Any, costs: Any, manner: exact.Manner,
             labels: Labels = None) -> AssignmentProblem:
    """The problem of listed pairs, whose costs may be infinite or None to forbid a pair after all."""
    n_rows, n_columns = exact.whole_number(n_rows, "n_rows"), exact.whole_number(n_columns, "n_columns")
    judge_size(n_rows, n_columns)
    arrays = next(filter(None, map(exact.numpy_of, (costs, rows, columns))), None)
    persons, objects = _numbered(rows, n_rows, "rows"), _numbered(columns, n_columns, "columns")

    def where(place: int) -> str:
        if place >= min(len(persons), len(objects)):
            return f"costs[{place}]"
        row, column = int(persons[place]) - 1, int(objects[place]) - 1
        if labels:
            return f"row {labels[0][row]}, column {labels[1][column]}"
        return f"costs[{place}] (row {row}, column {column})"

    read = _pair_costs(costs, manner, where)
    costs = read.costs.in_array(arrays) if arrays else read.costs
    if not len(persons) == len(objects) == len(costs):
        raise ValueError(f"rows, columns and costs must be of one length: they have {len(persons)}, {len(objects)} and "
                         f"{len(costs)}")
    if costs.numpy:
        persons, objects = costs.numpy.asarray(persons, "uint32"), costs.numpy.asarray(objects, "uint32")
    elif arrays:
        persons, objects = array("I", map(int, persons)), array("I", map(int, objects))
    problem = AssignmentProblem(n_rows, n_columns, manner.maximize, costs, persons, objects, arrays, labels)
    if len(read.forbidden):
        forbidden = set(map(int, read.forbidden))
        problem = kept(problem, [place for place in range(len(persons)) if place not in forbidden])
    # The library would take the greatest cost of a pair under maximize.
    return problem if costs.of_64_bits() is not None and not manner.maximize else once(problem)


def once(problem: AssignmentProblem) -> AssignmentProblem:
    """The problem in which a pair that is given several times has its least cost alone."""
    if problem.numpy:
        places = _places_once(problem)
        return problem if places is None else kept(problem, places)
    keys = [MOST_PERSONS * int(person) + int(item) for person, item in zip(problem.persons, problem.objects)]
    if len(set(keys)) == len(keys):
        return problem
    least: Dict[int, int] = {}
    for place, key in enumerate(keys):
        before = least.setdefault(key, place)
        if before != place and _is_less(problem, place, before):
            least[key] = place
    return kept(problem, sorted(least.values()))


def _places_once(problem: AssignmentProblem) -> Any:
    """The places of the first of the least costs of each pair, rising; None where no pair is given twice. Doubles are
    in the order of the decimals that they print as."""
    numpy = problem.numpy
    keys = (problem.persons.astype(numpy.int64) - 1) * problem.n_columns + problem.objects - 1
    if (keys[1:] > keys[:-1]).all() or _are_different(numpy, keys, problem.n_rows * problem.n_columns):
        return None
    order = numpy.lexsort((problem.costs.numbers, keys))
    return numpy.sort(order[numpy.diff(keys[order], prepend=-1) > 0])


def _are_different(numpy: Any, keys: Any, most: int) -> bool:
    """Whether no two of some numbers from 0 below a bound are the same."""
    if most > 64 * len(keys):
        ordered = numpy.sort(keys)
        return bool((ordered[1:] > ordered[:-1]).all())
    seen = numpy.zeros(most, bool)
    seen[keys] = True
    return bool(numpy.count_nonzero(seen) == len(keys))


def _is_less(problem: AssignmentProblem, place: int, other: int) -> bool:
    costs = problem.costs
    (number, denominator), (others, other_denominator) = (costs.ratio(costs.numbers[place]),
                                                          costs.ratio(costs.numbers[other]))
    return number * other_denominator < others * denominator


def of_sparse_matrix(matrix: Any, manner: exact.Manner) -> AssignmentProblem:
    """The problem of a sparse matrix or array, whose stored entries are its pairs, also those that are 0."""
    if not hasattr(matrix, "tocsr") or hasattr(matrix, "fill_value"):
        return _of_pydata(matrix, manner)
    if getattr(matrix, "format", "") in ("bsr", "dia"):
        _judge_zeros(matrix)
    once = getattr(matrix, "has_canonical_format", False)
    entries = matrix.tocoo(copy=not once)
    if not once:
        entries.sum_duplicates()
    n_rows, n_columns = matrix.shape
    return of_pairs(n_rows, n_columns, entries.row, entries.col, entries.data, manner)


def _of_pydata(matrix: Any, manner: exact.Manner) -> AssignmentProblem:
    """The same of an array of pydata's `sparse`."""
    entries = matrix
    if not hasattr(matrix, "coords"):
        entries = matrix.to_coo() if hasattr(matrix, "to_coo") else matrix.tocoo()
    if len(entries.shape) != 2:
        raise ValueError(f"expected a matrix (2-D array), got a {len(entries.shape)} array")
    if entries.fill_value != 0 and entries.fill_value != manner.forbids:
        raise ValueError(f"the sparse array has {entries.fill_value} wherever nothing is stored: only 0 or what "
                         "forbids a pair may stand there, since what isn't stored is no pair")
    (n_rows, n_columns), (rows, columns) = entries.shape, entries.coords
    return of_pairs(n_rows, n_columns, rows, columns, entries.data, manner)


def _judge_zeros(matrix: Any) -> None:
    """Refuses a 0 in a stored block or diagonal: it may be a cost, or stand where there is no pair."""
    for row, column in _zeros_of_blocks(matrix) if matrix.format == "bsr" else _zeros_of_diagonals(matrix):
        raise ValueError(f"the sparse matrix has 0 at row {row}, column {column}, which may be a cost, or no pair as "
                         f"its format {matrix.format} fills up with 0: give listed pairs, or leave each 0 out by "
                         "tocsr() and eliminate_zeros()")


def _zeros_of_blocks(matrix: Any) -> Iterable[Tuple[int, int]]:
    entries = matrix.tocoo(copy=False)
    return zip(entries.row[entries.data == 0].tolist(), entries.col[entries.data == 0].tolist())


def _zeros_of_diagonals(matrix: Any) -> Iterable[Tuple[int, int]]:
    n_rows, n_columns = matrix.shape
    for offset, costs in zip(matrix.offsets.tolist(), matrix.data):
        begin = max(0, offset)
        for place in (costs[begin:min(n_columns, n_rows + offset)] == 0).nonzero()[0].tolist():
            yield begin + place - offset, begin + place


def of_whole_numbers(n_rows: int, n_columns: int, rows: Sequence[int], columns: Sequence[int],
                     costs: Sequence[int]) -> AssignmentProblem:
    """The problem of listed pairs, none twice, numbered from 0, at whole costs of any size; the sum is to be least."""
    persons, objects = (array("I", [number + 1 for number in numbers]) for numbers in (rows, columns))
    return AssignmentProblem(n_rows, n_columns, False, whole_numbers(costs), persons, objects)
