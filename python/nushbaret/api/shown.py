"""What calls take, as types, and what results show: lists, dicts and arrays that can't be changed, and frames of
pandas."""
import decimal
import importlib
import sys
from typing import (TYPE_CHECKING, Any, Dict, Iterable, List, Literal, NoReturn, Optional, Protocol, Sequence, Tuple,
                    Union)

from ..costs.numbers import Number

if TYPE_CHECKING:
    from numpy.typing import ArrayLike

    class SparseMatrix(Protocol):
        """A sparse matrix or array, of SciPy's or of pydata's."""

        @property
        def shape(self) -> Any: ...

        def tocsr(self, *words: Any, **named: Any) -> Any: ...

    Matrix = Union[ArrayLike, Iterable[Iterable[Any]], SparseMatrix]
else:
    Matrix = Any
# How NaN and what a mask covers are taken.
Missing = Literal["refuse", "forbid"]


class FixedList(List[Any]):
    """A list that can't be changed. `list(..)` makes a copy that can."""

    def _refuse(self, *_: Any, **__: Any) -> NoReturn:
        raise TypeError("a result's list can't be changed: list(..) makes a copy that can be")

    __setitem__ = __delitem__ = __iadd__ = __imul__ = _refuse  # type: ignore[assignment]
    append = clear = extend = insert = pop = remove = reverse = sort = _refuse  # type: ignore[assignment]

    def __reduce__(self) -> Tuple[Any, ...]:
        return FixedList, (list(self),)


class FixedDict(Dict[Any, Any]):
    """A dict that can't be changed. `dict(..)` makes a copy that can."""

    def _refuse(self, *_: Any, **__: Any) -> NoReturn:
        raise TypeError("a result's dict can't be changed: dict(..) makes a copy that can be")

    __setitem__ = __delitem__ = __ior__ = clear = pop = popitem = setdefault = _refuse  # type: ignore[assignment]
    update = _refuse  # type: ignore[assignment]

    def __reduce__(self) -> Tuple[Any, ...]:
        return FixedDict, (dict(self),)


def fixed(values: Any) -> Any:
    """The values of a list in one that can't be changed, or a view of an array through which it can't."""
    if not hasattr(values, "setflags"):
        return FixedList(values)
    # What owns its memory keeps all views of it from being written.
    values = values if values.base is None else values.copy()
    values.setflags(write=False)
    return values[:]


def _numpy() -> Any:
    """NumPy's module. A result from a pickle may be what loads it."""
    return sys.modules.get("numpy") or importlib.import_module("numpy")


def numbers(values: Iterable[int], as_array: bool) -> Any:
    """Row or column numbers as a result shows them."""
    if not as_array:
        return FixedList(values)
    numpy = _numpy()
    return fixed(numpy.array(list(values), numpy.intp))


def places(items: Any, width: int, as_arrays: bool) -> List[Any]:
    """Row or column numbers that a call of the library counts from 1, so many at a time, as results show them."""
    if not as_arrays:
        return [FixedList(item - 1 for item in items[at:at + width]) for at in range(0, len(items), width)]
    numpy = _numpy()
    return list(fixed(numpy.frombuffer(items, numpy.uint32).astype(numpy.intp) - 1).reshape(-1, width))


def frame_of(pairs: Sequence[Tuple[Any, Any]], costs: Optional[List[Number]]) -> Any:
    """A DataFrame with columns row, column and, where they are known, cost."""
    import pandas  # type: ignore
    rows, columns = zip(*pairs) if pairs else ((), ())
    held: Dict[str, Any] = {"row": list(rows), "column": list(columns)}
    return pandas.DataFrame(held if costs is None else {**held, "cost": _in_floats(costs)})


class ByNames:
    """A plan whose pairs are known by the labels of a frame, or else by numbers."""

    pairs: Any

    def _costs_of_pairs(self) -> Optional[List[Number]]:
        """What each pair costs, if that is known."""
        return None

    def to_frame(self) -> Any:
        """The pairs as a DataFrame of pandas, which must be installed.

        Returns
        -------
        pandas.DataFrame
            With columns row, column and, of a result, cost: by labels if the costs had them, else by numbers. Costs are
            whole numbers or floats where these print as the exact costs, and Decimals or Fractions otherwise.

        Examples
        --------
        >>> import nushbaret
        >>> nushbaret.solve([[4, 1], [2, 3]]).to_frame()  # doctest: +SKIP
           row  column  cost
        0    0       1     1
        1    1       0     2
        """
        return frame_of(self.pairs, self._costs_of_pairs())

    def to_series(self) -> Any:
        """The columns of the rows that have some, as a Series of pandas, which must be installed.

        Returns
        -------
        pandas.Series
            An entry for each pair, by labels if the costs had them, else by numbers.

        Examples
        --------
        >>> import nushbaret
        >>> nushbaret.solve([[4, 1], [2, 3]]).to_series()  # doctest: +SKIP
        row
        0    1
        1    0
        Name: column, dtype: int64
        """
        import pandas
        rows, columns = zip(*self.pairs) if self.pairs else ((), ())
        index = pandas.Index(list(rows), name="row", tupleize_cols=False)
        return pandas.Series(list(columns), index, None if columns else object, "column")

    def as_dict(self) -> Dict[Any, Any]:
        """The column of each row that has one, by labels if the costs had them, else by numbers.

        Returns
        -------
        dict

        Examples
        --------
        >>> import nushbaret
        >>> nushbaret.solve([[4, 1], [2, 3]]).as_dict()
        {0: 1, 1: 0}
        """
        return dict(self.pairs)


def _in_floats(costs: List[Any]) -> List[Any]:
    """Floats instead of Decimals where all print as these."""
    are_printed = costs and all(isinstance(cost, decimal.Decimal) and decimal.Decimal(repr(float(cost))) == cost
                                for cost in costs)
    return list(map(float, costs)) if are_printed else costs
