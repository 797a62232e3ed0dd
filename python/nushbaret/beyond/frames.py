"""Listed pairs in partitions: files, frames of dask, or calls. Each has rows, columns and costs."""
import csv
import itertools
import pathlib
from typing import Any, Iterator, List, NamedTuple, Optional, Set, Tuple

import numpy

# So many pairs are read at once.
PAIRS = 2**17


class Listing(NamedTuple):
    """Pairs, as numbers of rows and columns from 0, and their costs."""

    rows: Any
    columns: Any
    costs: Any


class Labels:
    """The names of rows, or of columns, and which number each has."""

    def __init__(self, names: Any, kind: str):
        self.names, self.kind = numpy.asarray(names), kind
        self.order = numpy.argsort(self.names, kind="stable")
        self.sorted = self.names[self.order]
        if len(names) > 1 and (self.sorted[1:] == self.sorted[:-1]).any():
            raise ValueError(f"a {kind} is named twice")

    def numbers(self, found: Any) -> Any:
        """The numbers of some names; where names are texts, numbers count as theirs."""
        found = found.astype(str) if self.sorted.dtype.kind == "U" and found.dtype.kind in "iu" else found
        if (self.sorted.dtype.kind == "U") != (found.dtype.kind in "OU"):
            raise ValueError(f"a pair has the {self.kind} {found[0]!r}, which isn't named")
        place = numpy.minimum(numpy.searchsorted(self.sorted, found), len(self.sorted) - 1)
        if not (self.sorted[place] == found).all():
            raise ValueError(f"a pair has the {self.kind} {found[self.sorted[place] != found][0]!r}, which isn't named")
        return self.order[place]


class Partitions:
    """Listed pairs, in partitions of any sizes; a row's pairs may be in several of them.

    Attributes
    ----------
    shape : tuple of int
        Rows and columns.
    """

    splits_rows = True

    def __init__(self, parts: List[Any], shape: Optional[Tuple[int, int]], labels: Optional[Tuple[Any, Any]]):
        self.parts = parts
        self.labels = None if labels is None else (Labels(labels[0], "row"), Labels(labels[1], "column"))
        self.shape = shape or (0, 0) if self.labels is None else (len(self.labels[0].names), len(self.labels[1].names))
        self.dtype, self.is_negated = numpy.dtype(numpy.float64), False

    def blocks(self, rows: int) -> List[Tuple[int]]:
        """One block for each partition."""
        return [(part,) for part in range(len(self.parts))]

    def bands(self, part: int) -> Iterator[Listing]:
        """The pairs of a partition, so many at once."""
        for rows, columns, costs in read(self.parts[part]):
            yield self._listing(rows, columns, costs, part)

    def names(self, part: int) -> Tuple[Any, Any]:
        """The names of the rows and of the columns of a partition."""
        rows: Set[Any] = set()
        columns: Set[Any] = set()
        for found in read(self.parts[part]):
            rows.update(numpy.unique(found[0]).tolist())
            columns.update(numpy.unique(found[1]).tolist())
        return rows, columns

    def _listing(self, rows: Any, columns: Any, costs: Any, part: int) -> Listing:
        if self.labels is not None:
            rows, columns = (own.numbers(found) for own, found in zip(self.labels, (rows, columns)))
        else:
            rows, columns = (whole(found, kind, most) for found, kind, most in zip((rows, columns), ("row", "column"),
                                                                                   self.shape))
        costs = numpy.asarray(costs)
        if costs.dtype.kind not in "biuf" or numpy.isnan(costs.astype(numpy.float64)).any():
            raise ValueError(f"partition {part} has a cost that is no number")
        costs = costs.astype(self.dtype)
        return Listing(rows, columns, -costs if self.is_negated else costs)


def whole(numbers: Any, kind: str, most: int) -> Any:
    """Numbers of rows or columns, from 0 and below `most`."""
    found = numpy.asarray(numbers)
    if found.dtype.kind not in "biuf" or (found.dtype.kind == "f" and (found != numpy.rint(found)).any()):
        raise ValueError(f"a pair has a {kind} that is no whole number: give labels, or leave the shape out")
    found = found.astype(numpy.int64)
    if len(found) and not 0 <= found.min() <= found.max() < most:
        wrong = found.min() if found.min() < 0 else found.max()
        raise ValueError(f"a pair has the {kind} {wrong}, and there are {most}")
    return found


def read(part: Any) -> Iterator[Tuple[Any, Any, Any]]:
    """Rows, columns and costs of a partition, some pairs at a time."""
    if isinstance(part, (str, pathlib.Path)):
        yield from (_lines(pathlib.Path(part)) if str(part).endswith(".csv") else _numpy_file(part))
        return
    if hasattr(part, "compute"):
        part = part.compute(scheduler="synchronous")
    found = part if hasattr(part, "iloc") else part()
    rows, columns, costs = three(found)
    for first in range(0, len(costs), PAIRS):
        yield rows[first:first + PAIRS], columns[first:first + PAIRS], costs[first:first + PAIRS]


def three(found: Any) -> Tuple[Any, Any, Any]:
    """The first three columns of a frame, a structured array, an array of three columns, or three lists."""
    if hasattr(found, "iloc"):
        return tuple(found.iloc[:, place].to_numpy() for place in range(3))  # type: ignore[return-value]
    if getattr(found, "dtype", None) is not None and found.dtype.names:
        return tuple(found[name] for name in found.dtype.names[:3])  # type: ignore[return-value]
    if getattr(found, "ndim", 0) == 2:
        return found[:, 0], found[:, 1], found[:, 2]
    rows, columns, costs = (numpy.asarray(values) for values in found)
    return rows, columns, costs


def _numpy_file(name: Any) -> Iterator[Tuple[Any, Any, Any]]:
    """The pairs of an .npy file, which needs no more addresses than it reads at once."""
    with open(name, "rb") as file:
        version = numpy.lib.format.read_magic(file)  # type: ignore[no-untyped-call]
        header = numpy.lib.format.read_array_header_1_0 if version == (1, 0) else numpy.lib.format.read_array_header_2_0
        shape, columns_first, dtype = header(file)  # type: ignore[no-untyped-call]
        if dtype.hasobject or columns_first and len(shape) > 1 or len(shape) != (1 if dtype.names else 2):
            raise ValueError(f"{name} must have three columns or fields of numbers, row by row")
        width = 1 if dtype.names else shape[1]
        while True:
            held = numpy.fromfile(file, dtype, PAIRS * width)
            if not len(held):
                return
            yield three(held if dtype.names else held.reshape(-1, width))


def _lines(path: pathlib.Path) -> Iterator[Tuple[Any, Any, Any]]:
    """The pairs of a CSV file; a first line whose cost is no number has titles."""
    with open(path, encoding="utf-8-sig", newline="") as file:
        lines = ((number, cells) for number, cells in enumerate(csv.reader(file), 1) if cells)
        while True:
            some = list(itertools.islice(lines, PAIRS // 4))
            if not some:
                return
            if some[0][0] == 1 and not is_number(some[0][1][2:3]):
                some = some[1:]
            short = next((number for number, cells in some if not is_number(cells[2:3])), None)
            if short is not None:
                raise ValueError(f"{path}, line {short}: a row, a column and a number are needed")
            if some:
                rows, columns, costs = zip(*(cells[:3] for _, cells in some))
                yield named(rows), named(columns), numpy.array(costs, numpy.float64)


def named(cells: Any) -> Any:
    """Cells as whole numbers, if all are written as these are, or else as they stand."""
    found = numpy.array(cells)
    try:
        numbers = found.astype(numpy.int64)
    except (ValueError, OverflowError):
        return found
    return numbers if (numbers.astype(str) == found).all() else found


def is_number(cells: List[str]) -> bool:
    """Whether there is a cell, and it holds a number."""
    try:
        return bool(cells) and float(cells[0]) is not None
    except ValueError:
        return False
