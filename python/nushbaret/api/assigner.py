"""A problem whose rows and columns change one after the other: the plan and the prices of before are where the next
search begins."""
import sys
from array import array
from typing import Any, List, Optional, Tuple

from ..costs import kinds, naming, printing, reading
from ..costs.limits import GREATEST_COST, MOST_PERSONS
from ..costs.problem import AssignmentProblem, Labels, judge_row, row_in_list, rows_of_any, rows_of_view
from ..costs.source import Source
from ..lap import direct, doubles, library, proved
from .results import Result
from .shown import Matrix
from .solve import solve

# Whole numbers up to this are doubles.
_MOST_WHOLE = 2**53
# From so many costs on an array is worth making.
_FEW = 32
_AS_PRINTED = reading.Manner(False)
# Whole numbers of 64 bits as NumPy writes their kind.
_LONGS = "<i8" if sys.byteorder == "little" else ">i8"


class Assigner:
    """A matrix whose rows and columns change one after the other, and its best assignment after each change.

    After a change the search begins at the plan and the prices of before: it gives the changed row or column a place
    again, and the library checks the whole plan. Whatever changed, `result.cost` is that of `solve` for the costs as
    they are now.

    So it is for floats and for whole numbers in the library's range. Any other matrix is solved from the beginning
    after each change, and so is one with two plans that are best, or nearly so, unless its costs are whole numbers, or
    floats with at most six decimal places.

    Parameters
    ----------
    costs : matrix
        A list of rows, a NumPy array or a DataFrame, as `solve` takes it. It is copied.
    maximize : bool, optional
        Whether to find the greatest sum, not the least.

    Examples
    --------
    >>> import nushbaret
    >>> assigner = nushbaret.Assigner([[4, 1, 3], [2, 0, 5], [3, 2, 2]])
    >>> assigner.result.columns, assigner.result.cost
    ([1, 0, 2], 5)
    >>> assigner.update(0, [0, 6, 6])
    >>> assigner.result.columns, assigner.result.cost
    ([0, 1, 2], 2)
    >>> assigner.remove_row(2)
    >>> assigner
    <nushbaret.Assigner: 2 rows, 3 columns>
    """

    def __init__(self, costs: Matrix, maximize: bool = False):
        self._maximize = bool(maximize)
        self._labels: Labels = naming.labels_of(costs)
        self._costs = copied(costs)
        first = self._costs[:1]
        self._width: int = first.shape[1] if hasattr(first, "dtype") else len(first[0]) if first else 0
        self._numbers: Optional[HeldCosts] = None
        self._result: Optional[Result] = None

    def __repr__(self) -> str:
        return f"<nushbaret.Assigner: {len(self._costs)} rows, {self._width} columns>"

    def update(self, row: int, costs: Any) -> None:
        """Gives a row other costs.

        Parameters
        ----------
        row : int
            Its number, from 0.
        costs : list of numbers, NumPy array or Series
            One cost for each column. A Series or dict gives a frame's row by the labels of its columns.

        Raises
        ------
        IndexError
            If there is no row of this number.
        ValueError
            If there aren't as many costs as columns.
        TypeError
            If they are no list. What is wrong with a cost is raised by `result`.

        Notes
        -----
        An earlier result keeps its plan and cost; what reads its costs again raises ValueError.

        Examples
        --------
        >>> import nushbaret
        >>> assigner = nushbaret.Assigner([[4, 1], [2, 3]])
        >>> assigner.update(1, [0, 0])
        >>> assigner.result.cost
        1
        """
        row = self._place(row, "row", len(self._costs))
        if self._are_alike(costs, self._width):
            self._costs[row] = costs
        else:
            self._write_row(row, self._row_of(costs, row, self._width))
        self._change(lambda numbers: numbers.write(row, self._costs[row], False))

    def update_column(self, column: int, costs: Any) -> None:
        """Gives a column other costs.

        Parameters
        ----------
        column : int
            Its number, from 0.
        costs : list of numbers, NumPy array or Series
            One cost for each row. A Series or dict gives a frame's column by the labels of its rows.

        Raises
        ------
        IndexError, ValueError, TypeError
            As `update` does.

        Examples
        --------
        >>> import nushbaret
        >>> assigner = nushbaret.Assigner([[4, 1], [2, 3]])
        >>> assigner.update_column(0, [0, 9])
        >>> assigner.result.cost
        3
        """
        column = self._place(column, "column", self._width)
        costs = self._row_of(costs, column, len(self._costs), "column")
        if type(self._costs) is list:
            for row, cost in enumerate(row_in_list(costs, _AS_PRINTED)):
                self._costs[row][column] = cost
            own = [held[column] for held in self._costs]
        else:
            own = self._fitting(costs)
            self._costs[:, column] = own
            own = self._costs[:, column]
        self._change(lambda numbers: numbers.write(column, own, True))

    def add_row(self, costs: Any, name: Any = None) -> int:
        """Adds a row after all others.

        Parameters
        ----------
        costs : list of numbers, NumPy array or Series
            As those of `update`.
        name : label, optional
            What a frame's row is called; that of a Series if it isn't given.

        Returns
        -------
        int
            The number of the row.

        Raises
        ------
        ValueError, TypeError
            As `update` does, or if a row of a frame has no name.

        Examples
        --------
        >>> import nushbaret
        >>> assigner = nushbaret.Assigner([[4, 1], [2, 3]])
        >>> assigner.add_row([0, 0]), assigner.result.cost
        (2, 1)
        """
        row, name = len(self._costs), getattr(costs, "name", None) if name is None else name
        if self._labels is not None and name is None:
            raise ValueError("a row of a frame needs a name: add_row(costs, name)")
        if not row and self._labels is None and not self._width:
            self._width = len(row_of_any(costs, row))
        costs = self._row_of(costs, row, self._width)
        if hasattr(self._costs, "dtype"):
            numpy = self._numpy
            joined: Any = numpy.ma.concatenate if isinstance(self._costs, numpy.ma.MaskedArray) else numpy.concatenate
            self._costs = joined((self._costs, self._costs[:1] if row else numpy.zeros((1, self._width))))
        else:
            self._costs.append([])
        self._write_row(row, costs)
        if self._labels is not None:
            self._labels[0].append(name)
        self._change(lambda numbers: numbers.add_row(self._costs[row]))
        return row

    def remove_row(self, row: int) -> None:
        """Takes a row away. Those after it are numbered one less.

        Parameters
        ----------
        row : int
            Its number, from 0.

        Raises
        ------
        IndexError
            If there is no row of this number.

        Examples
        --------
        >>> import nushbaret
        >>> assigner = nushbaret.Assigner([[4, 1], [2, 3]])
        >>> assigner.remove_row(0)
        >>> assigner.result.columns, assigner.result.cost
        ([0], 2)
        """
        row = self._place(row, "row", len(self._costs))
        if hasattr(self._costs, "dtype"):
            numpy = self._numpy
            stays = numpy.arange(len(self._costs)) != row
            self._costs = self._costs[stays]
        else:
            del self._costs[row]
        if self._labels is not None:
            del self._labels[0][row]
        self._change(lambda numbers: numbers.remove_row(row))

    def _place(self, given: Any, kind: str, count: int) -> int:
        number = reading.whole_number(given, kind)
        if not 0 <= number < count:
            raise IndexError(f"{kind} {number}: there are {count} {kind}s")
        return number

    def _row_of(self, costs: Any, row: int, count: int, kind: str = "row") -> Any:
        """So many costs of a row or column, by the labels of the other side where they have names."""
        side = kind == "row"
        if self._labels is not None and naming.is_named(costs):
            costs = naming.listed(costs, f"{kind} {row}", "column" if side else "row", count, self._labels[side])
        costs = row_of_any(costs, row)
        if len(costs) != count:
            raise ValueError(f"{kind} {row} has {count} costs, and {len(costs)} were given")
        return costs

    @property
    def _numpy(self) -> Any:
        """NumPy's module if the costs are an array."""
        return None if type(self._costs) is list else sys.modules["numpy"]

    def _are_alike(self, costs: Any, count: int) -> bool:
        """Whether these are so many whole numbers in an array of the kind that all costs have."""
        held = self._costs
        return (type(held) is not list and type(costs) is type(held) is self._numpy.ndarray
                and costs.shape == (count,) and costs.dtype == held.dtype and held.dtype.kind in "iu")

    def _change(self, change: Any) -> None:
        """What a change does to the numbers of before, if it leaves any."""
        self._result = None
        if self._numbers is not None and not change(self._numbers):
            self._numbers = None

    def _write_row(self, row: int, costs: Any) -> None:
        """Gives the copy this row. An array of numbers that can't hold others becomes one of objects."""
        if type(self._costs) is list:
            self._costs[row] = list(row_in_list(costs, _AS_PRINTED))
            return
        own = self._fitting(costs)
        self._costs[row] = own

    def _fitting(self, costs: Any) -> Any:
        """Costs as an array; that of all costs becomes one that can hold these too."""
        numpy = self._numpy
        if type(costs) is numpy.ndarray and costs.dtype.kind in "iu" and costs.dtype == self._costs.dtype:
            return costs
        if not hasattr(costs, "dtype"):
            costs = numpy.array(costs, None if len(set(map(type, costs))) == 1 else object)
        own = as_printed(numpy.asanyarray(costs))
        if isinstance(own, numpy.ma.MaskedArray):
            self._costs = numpy.ma.asarray(self._costs)
        held = self._costs.dtype
        is_exact = numpy.can_cast(own.dtype, held, "safe") and (
            held.kind != "f" or held.itemsize == 8 and reading.fits_doubles(numpy.asarray(own)))
        if own.dtype != held and not is_exact:
            self._costs = self._costs.astype(object)
        return own

    @property
    def result(self) -> Result:
        """The result of `solve` for the costs as they are now; it raises what `solve` raises."""
        if self._result is None:
            self._result = self._solved()
        return self._result

    def _solved(self) -> Result:
        if self._numbers is None:
            self._numbers = numbers_of(self._costs, self._width)
        found = None if self._numbers is None else self._found(self._numbers)
        if found is None:
            return solve(self._given(), self._maximize)
        return Result(Source(self._given(), None, None, None, reading.Manner(self._maximize)), found)

    def _given(self) -> Any:
        """The costs as they are now, in a frame where the first ones were in one, unless a mask covers some."""
        if self._labels is None or hasattr(self._costs, "mask") and self._costs.mask.any():
            return self._costs
        import pandas  # type: ignore
        rows, columns = map(list, self._labels)
        return pandas.DataFrame(self._costs.view(self._numpy.ndarray), rows, columns, copy=False)

    def _found(self, numbers: "HeldCosts") -> Optional[proved.ResultParts]:
        """What a result is made of; None where this way finds nothing that is sure to be best."""
        labels, numpy = None if self._labels is None else (list(self._labels[0]), list(self._labels[1])), self._numpy
        found = None if numpy is None else numbers.found_in_array(numpy, self._maximize, labels)
        answer = None if found else numbers.answer(self._maximize)
        return self._parts(numbers, answer, labels) if answer else found

    def _parts(self, numbers: "HeldCosts", answer: proved.Assignment, labels: Labels) -> proved.ResultParts:
        """The same by an answer."""
        shape = AssignmentProblem(len(self._costs), self._width, self._maximize, kinds.shape(numbers.decimals),
                                  labels=labels)
        numpy = self._numpy
        if numpy is None:
            rows, columns = proved.pairs_of(shape, answer)
            own = [numbers.flat[numbers.place(row, column)] for row, column in zip(rows, columns)]
            return proved.ResultParts(shape, answer, rows, columns, own, False)
        rows, columns = proved.arrays_of(numpy, shape, answer)
        own = numpy.frombuffer(numbers.flat, numbers.flat.typecode)[numbers.place(rows, columns)].tolist()
        return proved.ResultParts(shape, answer, rows, columns, own, True)


def row_of_any(costs: Any, row: int) -> Any:
    """A row's costs, which can be read twice; TypeError or ValueError where they are no row."""
    judge_row(costs, row, _AS_PRINTED)
    try:
        return costs if hasattr(costs, "__len__") else list(costs)
    except TypeError:
        raise TypeError(f"row {row} is {costs!r}: it must be a list of costs") from None


def copied(costs: Any) -> Any:
    """A matrix as an array, or as a list of lists, that the caller can't change."""
    if reading.is_sparse(costs):
        raise ValueError("expected a matrix (2-D array), got a sparse one: an Assigner takes lists and arrays")
    numpy = reading.numpy_of(costs)
    if numpy is None:
        held = rows_of_view if isinstance(costs, memoryview) else rows_of_any
        return [list(row_in_list(row, _AS_PRINTED)) for row in held(costs, _AS_PRINTED)]
    costs = reading.array_of_frame(numpy, costs, _AS_PRINTED) if naming.is_frame(costs) else reading.array_of(numpy,
                                                                                                              costs)
    return as_printed(numpy.array(costs, subok=isinstance(costs, numpy.ma.MaskedArray)))


def as_printed(costs: Any) -> Any:
    """An array whose floats of fewer than 64 bits are the doubles that print as they do, unless it has a mask."""
    numpy = reading.numpy_of(costs)
    is_short = costs.dtype.kind == "f" and costs.dtype.itemsize < 8 and not isinstance(costs, numpy.ma.MaskedArray)
    return printing.of_shape(numpy, costs) if is_short else costs


class HeldCosts:
    """Costs as the library takes them, row by row of the fewer side: doubles, or whole numbers of a decimal unit of so
    many decimals. `state` has the objects and prices of the last plan."""

    def __init__(self, n: int, m: int, is_turned: bool, decimals: Optional[int], flat: Any):
        self.n, self.m, self.is_turned, self.decimals, self.flat = n, m, is_turned, decimals, flat
        self.state: Optional[Tuple[Any, Any]] = None

    def place(self, row: Any, column: Any) -> Any:
        """Where the cost of a pair stands, or of each pair of arrays."""
        return column * self.m + row if self.is_turned else row * self.m + column

    def _numbers(self, costs: Any) -> Any:
        """Other costs as numbers of this kind; None where one is none."""
        kind = getattr(costs, "dtype", None)
        if self.decimals == 0 and kind is not None and kind.str == _LONGS and not hasattr(costs, "mask"):
            return array("q", costs.tobytes())
        found = doubles_of(costs)
        return found if found is None or self.decimals is None else in_decimal_units(found, self.decimals)

    def write(self, number: int, costs: Any, is_column: bool) -> bool:
        """Whether other costs of a row or column are of this kind too; then they stand here."""
        own = self._numbers(costs)
        if own is None:
            return False
        if is_column == self.is_turned:
            self.flat[self.m * number:self.m * (number + 1)] = own
            if self.state:
                self.state[0][number] = 0
        else:
            self.flat[number::self.m] = own
            self._let_go(number)
        return True

    def _let_go(self, item: int) -> None:
        """Lets nobody have an object."""
        objects = self.state[0] if self.state else ()
        if item + 1 in objects:
            objects[objects.index(item + 1)] = 0

    def add_row(self, costs: Any) -> bool:
        """Whether a row more is of this kind too, and leaves the same side the fewer; then it stands here."""
        own = None if self.n == self.m and not self.is_turned else self._numbers(costs)
        if own is None:
            return False
        if self.is_turned:
            self._relay(lambda person, held: held.extend(own[person:person + 1]))
            self.m += 1
            if self.state:
                self.state[1].append(min(self.state[1]))
            return True
        self.flat.extend(own)
        self.n += 1
        if self.state:
            self.state[0].append(0)
        return True

    def remove_row(self, row: int) -> bool:
        """Whether the same side is the fewer without a row; then it is gone here."""
        if self.is_turned:
            return self.m - 1 > self.n and self._remove_item(row)
        del self.flat[self.m * row:self.m * (row + 1)]
        self.n -= 1
        if self.state:
            del self.state[0][row]
        return self.n > 0

    def _remove_item(self, item: int) -> bool:
        self._let_go(item)
        self._relay(lambda _, held: held.pop(item))
        self.m -= 1
        if self.state:
            objects, prices = self.state
            self.state = array("I", [held - (held > item) for held in objects]), prices
            del prices[item]
        return True

    def _relay(self, change: Any) -> None:
        """Changes the costs of each person, which change their number."""
        flat = array(self.flat.typecode)
        for person in range(self.n):
            held = self.flat[self.m * person:self.m * (person + 1)]
            change(person, held)
            flat.extend(held)
        self.flat = flat

    def found_in_array(self, numpy: Any, maximize: bool, labels: Labels) -> Optional[proved.ResultParts]:
        """What a result is made of, whose costs are in an array, by the extension: of whole numbers, from the plan of
        before. None where the longer way is to be taken."""
        if self.decimals is None:
            return None
        costs = numpy.frombuffer(self.flat, numpy.int64).reshape(self.n, self.m)
        first = self.state and (self.state[0], library.begun(self.state[1], self.state[0]))
        found = direct.from_earlier(costs.T if self.is_turned else costs, maximize, self.decimals, first, labels)
        if found:
            self.state = found.answer.objects[:], found.answer.prices[:]
        return found

    def answer(self, maximize: bool) -> Optional[proved.Assignment]:
        """The best plan, from the one of before; None where this way finds nothing that is sure to be best."""
        found = self._of_doubles(maximize) if self.decimals is None else self._of_whole(maximize)
        if found is None:
            self.state = None
        return found

    def _of_whole(self, maximize: bool) -> Optional[proved.Assignment]:
        n, m, first = self.n, self.m, None
        objects, prices = self.state or (array("I", bytes(4 * n)), array("q", bytes(8 * m)))
        if self.state:
            first = array("q", prices)
        code, info = library.searched(maximize, n, m, [self.flat], first, [objects, array("I", bytes(4 * n)), prices])
        if code != "BEST":
            return None
        self.state = objects, prices
        return proved.Assignment(n, m, info.total, array("I", objects), array("q", prices))

    def _of_doubles(self, maximize: bool) -> Optional[proved.Assignment]:
        n, m = self.n, self.m
        objects, prices = self.state or doubles.start(maximize, n, m, self.flat)
        plan = doubles.search(maximize, n, m, self.flat, objects, prices)
        if plan is None or not plan.by_margin:
            return None
        self.state = objects, prices
        return proved.Assignment(n, m, None, array("I", objects), None)


def numbers_of(costs: Any, width: int) -> Optional[HeldCosts]:
    """The numbers of a matrix; None where it has others."""
    height = len(costs)
    if not height or not width or max(height, width) > MOST_PERSONS:
        return None
    flat = array("d")
    for row in costs:
        own = doubles_of(row) if len(row) == width else None
        if own is None:
            return None
        flat.extend(own)
    is_turned = height > width
    if is_turned:
        flat, rows = array("d"), flat
        for column in range(width):
            flat.extend(rows[column::width])
    n, m = sorted((height, width))
    for decimals in range(reading.MOST_UNIT_DECIMALS + 1):
        whole = in_decimal_units(flat, decimals)
        if whole is not None:
            return HeldCosts(n, m, is_turned, decimals, whole)
    return HeldCosts(n, m, is_turned, None, flat)


def doubles_of(row: Any) -> Optional[Any]:
    """Floats and whole numbers as doubles that are exactly these; None where one isn't, or is NaN or masked."""
    if hasattr(row, "dtype"):
        if hasattr(row, "mask") and row.mask.any():
            return None
        if row.ndim != 1 or row.dtype.kind not in "iuO" and row.dtype.str[1:] != "f8":
            return None
        if row.dtype.kind != "O":
            is_held = (row == row).all() if row.dtype.kind == "f" else not row.size or (
                -_MOST_WHOLE <= row.min() and row.max() <= _MOST_WHOLE)
            return array("d", row.astype("d").tobytes()) if is_held else None
        row = row.tolist()
    if not all(type(cost) is float and cost == cost or type(cost) is int and abs(cost) <= _MOST_WHOLE for cost in row):
        return None
    return array("d", row)


def in_decimal_units(costs: Any, decimals: int) -> Optional[Any]:
    """Doubles as whole numbers of a decimal unit, in the library's range; None where one isn't."""
    power = 10.0**decimals
    numpy = reading.loaded_numpy()
    if numpy is None or len(costs) < _FEW:
        return _whole_list(costs, power)
    held = numpy.frombuffer(costs)
    if not max(float(held.max()), -float(held.min())) * power <= GREATEST_COST:
        return None
    whole = numpy.rint(held * power)
    return array("q", whole.astype(numpy.int64).tobytes()) if (whole / power == held).all() else None


def _whole_list(costs: Any, power: float) -> Optional[Any]:
    found: List[int] = []
    for cost in costs:
        scaled = cost * power
        if not abs(scaled) <= GREATEST_COST or round(scaled) / power != cost:
            return None
        found.append(round(scaled))
    return array("q", found)
