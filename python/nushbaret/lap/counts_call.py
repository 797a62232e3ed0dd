"""The library's call on counts, by ctypes: each row takes from so many to so many columns, each column likewise."""
import ctypes
from array import array
from itertools import chain
from typing import Any, Callable, NamedTuple, Optional, Sequence, Tuple

from .library import LIST, PIECES, Pace, address_and_count, function, look_at_time

# The library's codes that aren't faults of its lists.
BEST, ROWS_LACK, COLUMNS_LACK, _MEMORY, STOPPED = 0, 1, 2, 15, 16
# Lists that are given and written; then the sense comes first, and in the end a budget, a record and an info.
_LISTS = 13
_KINDS = (ctypes.c_uint32, *LIST * _LISTS, ctypes.c_uint64, *[ctypes.c_void_p] * 2)
# Lists of the check; the sense comes first, and in the end an info.
_CHECKED = (ctypes.c_uint32, *LIST * 11, ctypes.c_void_p)


class _Record(ctypes.Structure):
    _fields_ = [("state", ctypes.c_uint64 * 8)]


class _Info(ctypes.Structure):
    _fields_ = [("total_high", ctypes.c_int64)] + [(name, ctypes.c_uint64) for name in ("total_low", "place", "row",
                                                                                        "column")]


class Written(NamedTuple):
    """What the library answers: BEST with the plan, which has a byte for each pair, and the numbers of rows and
    columns, or ROWS_LACK or COLUMNS_LACK with marks, a byte for each row and for each column."""

    code: int
    plan: Any
    numbers: Tuple[Any, Any]
    marks: Tuple[Any, Any]


def searched_counts(given: Sequence[Any], n: int, m: int, after: Optional[Callable[[Any], Any]] = None,
                    maximize: bool = False) -> Written:
    """The answer to n rows and m columns, whose sum of costs is to be least, or greatest. The search is done in pieces,
    as others are.

    Parameters
    ----------
    given : sequence of arrays
        The rows of the pairs, rising, and their columns, both from 1; costs; least and greatest counts of rows and of
        columns; the groups of columns.
    after : callable, optional
        It is called with the plan at the end, and after each piece with that so far.
    """
    pairs = len(given[0])
    plan, marks = array("B", bytes(pairs)), (array("B", bytes(n)), array("B", bytes(m)))
    numbers = array("q", bytes(8 * n)), array("q", bytes(8 * m))
    words = list(chain.from_iterable(map(address_and_count, (*given, plan, *numbers, *marks))))
    record, info, pace = _Record(), _Info(), Pace(PIECES["counts"], pairs)
    code = STOPPED
    while code == STOPPED:
        look_at_time()
        code = function("counts_from", *_KINDS)(int(maximize), *words, pace.budget(), ctypes.addressof(record),
                                                ctypes.addressof(info))
        if code in (BEST, STOPPED) and after is not None:
            after(plan)
    if code == _MEMORY:
        raise MemoryError("the library was refused memory")
    if code not in (BEST, ROWS_LACK, COLUMNS_LACK):
        raise RuntimeError(f"the library gives no answer to counts, by its code {code}: please report this problem")
    return Written(code, plan, numbers, marks)


def are_shown(given: Sequence[Any], plan: Any, numbers: Sequence[Any]) -> bool:
    """Whether these numbers of rows and columns prove a plan best, whose sum of costs is to be least."""
    words = chain.from_iterable(map(address_and_count, (*given, plan, *numbers)))
    return bool(function("check_counts", *_CHECKED)(0, *words, ctypes.addressof(_Info())) == BEST)
