"""Where costs come from: rows of a matrix that nobody holds, read in bands."""
import mmap
from typing import Any, Callable, Iterator, List, NamedTuple, Optional, Tuple

import numpy

from ..costs.limits import MOST_PERSONS

# So many pairs are read at once where the source has no bands of its own, and looked at together.
PAIRS = 2**18


class Band(NamedTuple):
    """Rows from `first` on, as they were read."""

    first: int
    costs: Any


class Rows:
    """Rows of a matrix; what workers get of it is small, or shared once.

    Attributes
    ----------
    shape : tuple of int
        Rows and columns.
    band : int
        How many rows are read at once.
    """

    # Each row is in one block.
    splits_rows = False

    def __init__(self, shape: Tuple[int, int], band: Optional[int] = None):
        self.shape = shape
        self.band = max(1, PAIRS // max(1, shape[1])) if band is None else band
        self.dtype, self.is_negated = numpy.dtype(numpy.int64), False

    def read(self, first: int, last: int) -> Any:
        """The rows first, .., last - 1."""
        raise NotImplementedError

    def take(self, rows: Any) -> Any:
        """Some rows, whose numbers rise, as they were read."""
        return numpy.concatenate([self.read(row, row + 1) for row in rows.tolist()])

    def chosen(self, rows: Any) -> Any:
        """Some rows, whose numbers rise."""
        return self._turned(checked(self.take(rows), (len(rows), self.shape[1]), int(rows[0])))

    def prepare(self, maximize: bool) -> "Rows":
        """Looks at the first row, which says whether costs are whole numbers; under maximize they count negated."""
        self.dtype = checked(self.read(0, 1), (1, self.shape[1]), 0).dtype
        self.is_negated = maximize
        return self

    def _turned(self, costs: Any) -> Any:
        if costs.dtype != self.dtype:
            raise TypeError(f"some costs are {costs.dtype}, and those of the first row {self.dtype}")
        return -costs if self.is_negated else costs

    def blocks(self, rows: int) -> List[Tuple[int, int]]:
        """The first row of each block, and the one after its last, in blocks of about so many rows."""
        height = max(1, rows - rows % self.band) if rows > self.band else max(1, rows)
        return [(first, min(self.shape[0], first + height)) for first in range(0, self.shape[0], height)]

    def bands(self, first: int, last: int) -> Iterator[Band]:
        """The rows first, .., last - 1 in bands, which begin at multiples of `band`."""
        while first < last:
            end = min(last, first - first % self.band + self.band)
            yield Band(first, self._turned(checked(self.read(first, end), (end - first, self.shape[1]), first)))
            first = end


class Sliced(Rows):
    """An array, or what slices as one does: of zarr or h5py, in bands of its chunks."""

    def __init__(self, costs: Any):
        chunks = getattr(costs, "chunks", None)
        super().__init__(shape_of(costs), chunks[0] if chunks else None)
        self.costs = costs

    def read(self, first: int, last: int) -> Any:
        return numpy.asarray(self.costs[first:last])

    def take(self, rows: Any) -> Any:
        return numpy.asarray(self.costs[rows]) if isinstance(self.costs, numpy.ndarray) else super().take(rows)


class Mapped(Rows):
    """A memory-mapped file, which each worker opens by its name."""

    def __init__(self, costs: Any):
        super().__init__(shape_of(costs))
        self.words = str(costs.filename), costs.dtype, costs.offset, costs.shape, "F" if costs.flags.fnc else "C"

    def _open(self) -> Any:
        name, dtype, offset, shape, order = self.words
        return numpy.memmap(name, dtype, "r", offset, shape, order)  # type: ignore[call-overload]

    def read(self, first: int, last: int) -> Any:
        return numpy.array(self._open()[first:last])

    def take(self, rows: Any) -> Any:
        return numpy.array(self._open()[rows])


class Delayed(Rows):
    """A dask.array, in bands of its chunks; a worker computes those that it looks at."""

    def __init__(self, costs: Any):
        super().__init__(shape_of(costs), max(costs.chunks[0]))
        self.costs = costs

    def read(self, first: int, last: int) -> Any:
        return self.costs[first:last].compute(scheduler="synchronous")

    def take(self, rows: Any) -> Any:
        return self.costs[rows].compute(scheduler="synchronous")


class Called(Rows):
    """A call of two numbers, the first row and the one after the last."""

    def __init__(self, call: Callable[[int, int], Any], shape: Tuple[int, int]):
        super().__init__(shape)
        self.call = call

    def read(self, first: int, last: int) -> Any:
        return numpy.asarray(self.call(first, last))


class Part(Rows):
    """Some rows and columns of other rows, whose numbers rise."""

    def __init__(self, whole: Rows, rows: Any, columns: Any):
        super().__init__((len(rows), len(columns)))
        self.band = max(1, PAIRS // max(1, whole.shape[1]))
        self.whole, self.rows, self.columns = whole, rows, columns
        self.dtype, self.is_negated = whole.dtype, whole.is_negated

    def read(self, first: int, last: int) -> Any:
        return self.whole.take(self.rows[first:last])[:, self.columns]

    def take(self, rows: Any) -> Any:
        return self.whole.take(self.rows[rows])[:, self.columns]


def shape_of(costs: Any) -> Tuple[int, int]:
    """The shape of a matrix."""
    if len(costs.shape) != 2:
        raise ValueError(f"costs have {len(costs.shape)} dimensions, and a matrix has two")
    return int(costs.shape[0]), int(costs.shape[1])


def source_of(costs: Any, shape: Any) -> Rows:
    """The source of what a caller gave."""
    if isinstance(costs, Rows):
        return costs
    if hasattr(costs, "shape") and hasattr(costs, "dtype"):
        is_mapped = isinstance(costs, numpy.memmap) and isinstance(costs.base, mmap.mmap) and costs.filename is not None
        found: Rows = Mapped(costs) if is_mapped else Delayed(costs) if hasattr(costs, "dask") else Sliced(costs)
        if shape is not None and tuple(shape) != found.shape:
            raise ValueError(f"costs have the shape {found.shape}, not {tuple(shape)}")
    elif callable(costs):
        if shape is None or len(shape) != 2:
            raise ValueError("a call needs its shape: how many rows and how many columns")
        found = Called(costs, (int(shape[0]), int(shape[1])))
    else:
        raise TypeError(f"costs are {type(costs).__name__}: they must be an array of NumPy, zarr or dask, a memmap, or "
                        "a call of two row numbers")
    check_shape(found.shape)
    return found


def check_shape(shape: Tuple[int, int]) -> None:
    """ValueError where there are too many rows or columns, or none."""
    rows, columns = shape
    if not (1 <= rows <= MOST_PERSONS and 1 <= columns <= MOST_PERSONS):
        raise ValueError(f"costs have {rows} rows and {columns} columns: there may be 1 to {MOST_PERSONS} of each")


def checked(costs: Any, shape: Tuple[int, int], first: int) -> Any:
    """Rows as numbers of 64 bits: whole ones, or doubles."""
    if costs.shape != shape:
        raise ValueError(f"rows {first} to {first + shape[0] - 1} have the shape {costs.shape}, not {shape}")
    if costs.dtype.kind in "biu":
        if costs.dtype == numpy.uint64 and costs.size and costs.max() > 2**62:
            raise ValueError(f"rows {first} to {first + shape[0] - 1}: {costs.max()} is beyond 10**12")
        return numpy.ascontiguousarray(costs, numpy.int64)
    if costs.dtype.kind == "f" and costs.dtype.itemsize <= 8:
        return numpy.ascontiguousarray(costs, numpy.float64)
    raise TypeError(f"costs are {costs.dtype}: they must be whole numbers or doubles")
