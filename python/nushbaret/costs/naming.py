"""Values that a caller gives for rows or columns: in their order, or by their names."""
import sys
from collections.abc import Mapping, Set
from typing import Any, Dict, List, Optional, Sequence, Tuple, Type

from . import printing
from .reading import array_of, numpy_of, whole_number


def is_frame(costs: Any) -> bool:
    """Whether this is a DataFrame of pandas."""
    return _is_of_pandas(costs, "DataFrame")


def labels_of(costs: Any) -> Optional[Tuple[List[Any], List[Any]]]:
    """The labels of a frame's rows and columns; None of anything else."""
    return (list(costs.index), list(costs.columns)) if is_frame(costs) else None


def is_named(values: Any) -> bool:
    """Whether each value has a name: those of a dict, or of a Series of pandas."""
    return isinstance(values, Mapping) or _is_of_pandas(values, "Series")


def _is_of_pandas(value: Any, kind: str) -> bool:
    pandas = sys.modules.get("pandas")
    return pandas is not None and isinstance(value, getattr(pandas, kind, ()))


class Numbers:
    """The numbers of rows or columns that the caller gives one by one: a whole number is one, anything else a label of
    the frame. `fault` is raised where the frame hasn't this label, and ValueError where it has it several times."""

    def __init__(self, labels: Optional[List[Any]], fault: Type[Exception]):
        self.labels, self.fault = labels, fault
        self.known: Dict[Any, int] = {}
        self.several = {label for place, label in enumerate(labels or ())
                        if self.known.setdefault(label, place) < place}

    def of(self, value: Any, name: str) -> int:
        """The number of a row or column; `name` is what the caller calls it."""
        # As a label a bool, also one of NumPy's, is no number.
        is_bool = isinstance(value, bool) or getattr(getattr(value, "dtype", None), "kind", "") == "b"
        if self.labels is None or hasattr(value, "__index__") and not is_bool:
            return whole_number(value, name)
        number = self._number(value)
        if number is None:
            raise self.fault(f"{name}: the frame has no label {value!r}")
        if self.labels[number] in self.several:
            raise ValueError(f"{name}: the frame has the label {value!r} several times, so give a number")
        return number

    def _number(self, value: Any) -> Optional[int]:
        """The first number of a label. One that is equal may have another hash."""
        try:
            number = self.known.get(value)
        except TypeError:
            number = None
        try:
            return (self.labels or []).index(value) if number is None else number
        except ValueError:
            return None


def listed(values: Any, what: str, kind: str, number: int, labels: Optional[Sequence[Any]]) -> List[Any]:
    """The caller's values in the order of rows or columns, as `kind` says, of which there are so many; `what` is the
    argument's name.

    Those with names are looked up by the labels of a frame, or else by numbers, and each row or column must have
    one."""
    if is_named(values):
        return _by_names(values, what, kind, range(number) if labels is None else labels)
    if isinstance(values, Set):
        raise TypeError(f"{what} is {values!r}: it must be a list, with one value for each {kind}")
    numpy = numpy_of(values)
    try:
        values = printing.of_buffer(values if numpy is None else array_of(numpy, values))
        return list(values.tolist() if getattr(values, "ndim", 0) and hasattr(values, "tolist") else values)
    except TypeError:
        raise TypeError(f"{what} is {values!r}: it must be a list, with one value for each {kind}") from None


def _by_names(values: Any, what: str, kind: str, names: Sequence[Any]) -> List[Any]:
    held: Dict[Any, Any] = {}
    for name, value in values.items() if isinstance(values, Mapping) else zip(values.index,
                                                                              printing.of_buffer(values.to_numpy())):
        if name in held:
            raise ValueError(f"{what} has {name!r} twice")
        held[name] = value
    known = set(names)
    if len(known) < len(names):
        several = next(name for place, name in enumerate(names) if name in names[:place])
        raise ValueError(f"{what} is by names, and the frame has the {kind} {several!r} several times: give a list")
    unknown = [name for name in held if name not in known]
    if unknown:
        raise ValueError(f"{what} has {unknown[0]!r}, which is no {kind}")
    missing = [name for name in names if name not in held]
    if missing:
        raise ValueError(f"{what} lacks the {kind} {missing[0]!r}")
    return [held[name] for name in names]
