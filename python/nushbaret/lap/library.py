"""The shared library, by ctypes: where it is, its calls, codes and limits. The codes are those of c/nushbaret.h."""
import contextlib
import ctypes
import math
import pathlib
import sys
import threading
import time
from array import array
from typing import Any, Callable, Dict, Iterator, List, NamedTuple, Optional, Sequence, Tuple, Union

from ..costs.limits import FEW, BorrowedNumbers, Numbers

VERSION = "5.13.0"

CODES = (
    "BEST", "HALL",
    "SENSE", "SIZE", "LENGTH", "PERSON", "OBJECT", "COST", "PRICE", "MEMORY",
    "ANSWER_LENGTH", "UNLISTED", "TWICE", "PRICE_RANGE", "SLACK",
    "HALL_RANGE", "HALL_ORDER", "HALL_MISSING", "HALL_EXTRA", "HALL_COUNT",
    "OVERPRICED",
    "STOPPED", "",  # no code has the number 22
    "UNDECIDED", "TIED", "ALONE",
)

# What the library is called, where a checkout has it, and what makes it there.
NAME, _FOLDER, _MADE_BY = ("nushbaret.dll", "windows",
                           "c/build_windows.sh") if sys.platform == "win32" else ("libnushbaret.so", "", "c/build.sh")
_PACKAGE = pathlib.Path(__file__).resolve().parent.parent
PATHS = (_PACKAGE / NAME, _PACKAGE.parent.parent / "c" / "out" / _FOLDER / NAME)


class LibraryNotFound(OSError):
    """The shared library is missing, or it is of another version; the text says which command builds it.

    Examples
    --------
    >>> import nushbaret
    >>> issubclass(nushbaret.LibraryNotFound, OSError)
    True
    """


class Info(ctypes.Structure):
    """What a call reports in addition to its lists."""

    _fields_ = [(name, ctypes.c_int64 if name == "total" else ctypes.c_uint64)
                for name in ("total", "place", "persons", "objects", "person", "object")]


class Record(ctypes.Structure):
    """Where a search stands that is done in pieces; all 0: it begins."""

    _fields_ = [("stage", ctypes.c_uint32), ("shift", ctypes.c_uint32), ("slackness", ctypes.c_int64),
                ("bids", ctypes.c_uint64), ("passes", ctypes.c_uint64), ("dummy_bids", ctypes.c_uint32),
                ("flags", ctypes.c_uint32), ("arc_scans", ctypes.c_uint64)]


# A list, as exports take it: where it begins, and how long it is.
LIST = (ctypes.c_void_p, ctypes.c_size_t)
# How many lists each call takes.
_LISTS = {"dense": 4, "dense_from": 5, "sparse": 6, "sparse_from": 7, "check": 5, "check_hall": 5, "bottleneck": 6,
          "groups": 6, "next": 5, "ranked": 5, "unique": 7, "wide": 6, "fewest_changes": 7}
# What some take after these: a budget and a record; how many arc scans, one or two further lists, and where a number is
# written.
_IN_PIECES = [ctypes.c_uint64, ctypes.c_void_p]
_MORE: Dict[str, List[Any]] = {"dense_from": _IN_PIECES, "sparse_from": _IN_PIECES, "bottleneck": _IN_PIECES,
         "next": [ctypes.c_uint64, *LIST, ctypes.c_void_p], "ranked": [ctypes.c_uint64, *LIST * 2, ctypes.c_void_p],
         "wide": [ctypes.c_void_p], "fewest_changes": [ctypes.c_void_p]}
_loading = threading.Lock()
# The library once it is loaded, and its calls by their names once each is made.
_calls: Dict[str, Any] = {}


def _open() -> ctypes.CDLL:
    for path in PATHS:
        if path.exists():
            try:
                return ctypes.CDLL(str(path))
            except OSError as fault:
                raise LibraryNotFound(f"{path} can't be loaded: {fault}") from fault
    raise LibraryNotFound(f"{NAME} isn't there: {_MADE_BY} makes it, at the top of a checkout of Nushbaret")


def _load() -> ctypes.CDLL:
    library = _open()
    text = (ctypes.c_uint8 * 32)()
    library.nushbaret_version.argtypes = [ctypes.c_void_p, ctypes.c_size_t]
    library.nushbaret_version.restype = ctypes.c_size_t
    library.nushbaret_version(text, 32)
    found = bytes(text).split(b"\0")[0].decode()
    if found != VERSION:
        raise LibraryNotFound(f"the library is of version {found}, and {VERSION} is needed: {_MADE_BY} builds it again")
    with contextlib.suppress(MemoryError):
        bytes(_KEPT)
    return library


_SPARE = array("Q", [0])
_EMPTY = _SPARE.buffer_info()[0], 0
# A block of this size, which nobody writes to, makes the C library of GNU keep up to twice as much for later calls once
# it is freed. Otherwise each call on a large problem takes all its pages from the system again, which takes about as
# long as to solve it.
_KEPT = 2**25 - 2**16
_FEW_BYTES = 8 * FEW


def address_and_count(values: Any) -> Tuple[Union[int, bytes], int]:
    """Address, or bytes that stand for it, and count; the address is never null."""
    if isinstance(values, array):
        begin, count = values.buffer_info()
    elif isinstance(values, BorrowedNumbers):
        begin, count = values.address, values.count
    elif values.nbytes <= _FEW_BYTES:
        return values.tobytes(), values.size
    else:
        begin, count = values.__array_interface__["data"][0], values.size
    return (begin, count) if count else _EMPTY


def address(export: str) -> int:
    """The address of an export."""
    if "library" not in _calls:
        with _loading:
            if "library" not in _calls:
                _calls["library"] = _load()
    return ctypes.cast(getattr(_calls["library"], export), ctypes.c_void_p).value or 0


def function(name: str, *kinds: Any) -> Any:
    """The call of a name, which takes values of these kinds and returns a code."""
    if name not in _calls:
        _calls[name] = ctypes.CFUNCTYPE(ctypes.c_int32, *kinds)(address("nushbaret_" + name))
    return _calls[name]


def _on_lists(name: str) -> Any:
    """A call whose lists `_LISTS` counts."""
    sense = [] if name == "check_hall" else [ctypes.c_uint32]
    return function(name, *sense, *[ctypes.c_size_t] * 2, *LIST * _LISTS[name], *_MORE.get(name, ()), ctypes.c_void_p)


def call(name: str, sense: Optional[bool], n: int, m: int, *lists: Any, piece: Sequence[Any] = ()) -> Tuple[str, Info]:
    """The name of the code, and its record. `sense` is None for `check_hall`; `piece` is what stands after the lists,
    as a budget, and the address of the record that says where a search stands. MemoryError where memory is refused."""
    info = Info()
    words: List[Any] = [n, m] if sense is None else [1 if sense else 0, n, m]
    for values in lists:
        words += values.buffer_info() if type(values) is array and values else address_and_count(values)
    code = CODES[(_calls.get(name) or _on_lists(name))(*words, *piece, ctypes.addressof(info))]
    if code == "MEMORY":
        raise MemoryError("the library was refused memory")
    return code, info


def searched(sense: bool, n: int, m: int, lists: Sequence[Any], first: Optional[Numbers],
             written: Sequence[Numbers]) -> Tuple[str, Info]:
    """What a solving call says to `lists`: the costs of a dense problem, or the persons, objects and costs of listed
    pairs. It begins at the `first` prices, if there are any, and at what objects `written` holds, which are objects,
    persons and prices.

    A search that may take long is done in pieces, so that Ctrl-C ends it, and TimeoutError is raised where the time of
    `limited` is over. After each piece its `progress` is called with how many persons are assigned."""
    name, pairs = "dense" if len(lists) == 1 else "sparse", len(lists[-1])
    if first is None and n * pairs < LONG and not is_limited():
        return call(name, sense, n, m, *lists, *written)
    progress = progress_asked()
    record, code, info, pace = Record(), "STOPPED", Info(), Pace(PIECES[name], pairs)
    start = _SPARE[:0] if first is None else begun(first, written[0])
    while code == "STOPPED":
        look_at_time()
        code, info = call(name + "_from", sense, n, m, *lists, start, *written,
                          piece=(pace.budget(), ctypes.addressof(record)))
        if progress is not None and code in ("BEST", "STOPPED"):
            progress(n - _zeros(written[0]), n)
    return code, info


def begun(first: Numbers, objects: Numbers) -> Numbers:
    """First prices with which a search begins at the objects too, where most are given: it takes prices of 0 for none.
    Only how far prices are apart counts."""
    is_begun = any(first) or len(objects) < _MOST_MISSING * _zeros(objects)
    return first if is_begun else array("q", [1]) * len(first)


def _zeros(numbers: Any) -> int:
    """How many numbers of an array, of Python's or NumPy's, are 0."""
    return numbers.count(0) if isinstance(numbers, array) else int((numbers == 0).sum())


def worst_pair(sense: bool, n: int, m: int, lists: Sequence[Any], written: Sequence[Numbers]) -> Tuple[str, Info]:
    """What `nushbaret_bottleneck` says to a problem, in pieces as in `searched`. `written` are objects, persons and few
    objects."""
    record, code, info, pace = Record(), "STOPPED", Info(), Pace(PIECES["sparse"], len(lists[-1]))
    while code == "STOPPED":
        look_at_time()
        code, info = call("bottleneck", sense, n, m, *lists, *written, piece=(pace.budget(), ctypes.addressof(record)))
    return code, info


def next_objects(sense: bool, n: int, m: int, lists: Sequence[Any], objects: Numbers,
                 prices: Numbers) -> Tuple[str, Numbers]:
    """What `nushbaret_next` says of a plan and its prices, and the objects of a next best plan."""
    look_at_time()
    margin, other = ctypes.c_int64(), array("I", bytes(4 * n))
    code, _ = call("next", sense, n, m, *lists, objects, prices,
                   piece=(ARC_SCANS_FOR_NEXT, *other.buffer_info(), ctypes.addressof(margin)))
    return code, other


def first_objects(count: int, sense: bool, n: int, m: int, lists: Sequence[Any], objects: Numbers,
                  prices: Numbers) -> Tuple[str, Numbers, Numbers]:
    """What `nushbaret_ranked` says of a plan and its prices, the objects of so many first plans in a row, and what each
    costs. It begins again with more arc scans where they don't suffice, as far as there is time."""
    found, plans, totals = ctypes.c_size_t(), array("I", bytes(4 * n * count)), array("q", bytes(8 * count))
    code, arc_scans = "UNDECIDED", ARC_SCANS_FOR_NEXT
    while code == "UNDECIDED" and arc_scans < _MOST_ARC_SCANS:
        look_at_time()
        began = time.monotonic()
        code, _ = call("ranked", sense, n, m, *lists, objects, prices, piece=(
            arc_scans, *plans.buffer_info(), *totals.buffer_info(), ctypes.addressof(found)))
        now, end = time.monotonic(), _end()
        arc_scans = int(arc_scans * (4 if end is None else max(min(4, (end - now) / max(now - began, 1e-9)), 0.1)))
    return code, plans[:n * found.value], totals[:found.value]


def progress_asked() -> Optional[Callable[[int, int], Any]]:
    """What this thread's call is to be called with after each piece of a search."""
    found: Optional[Callable[[int, int], Any]] = getattr(_limits, "progress", None)
    return found


class PieceSize(NamedTuple):
    """How many arc scans a piece of a search has at least: so many, and so many for each pair, since each piece
    reads all of them."""

    arc_scans: int
    passes: int


class Pace:
    """How long the pieces of a search are. Each has up to a quarter of the arc scans that all before it had, since a
    search may lose by many short ones; but no more than the time that is left."""

    def __init__(self, piece: PieceSize, pairs: int):
        self.least, self.arc_scans, self.began = piece.arc_scans + piece.passes * pairs, 0, time.monotonic()

    def budget(self) -> int:
        """The arc scans of the next piece."""
        now, end = time.monotonic(), _end()
        budget = max(self.least, self.arc_scans // 4)
        if end is not None and self.arc_scans:
            budget = max(self.least, min(budget, int(self.arc_scans * (end - now) / max(now - self.began, 1e-9))))
        self.arc_scans += budget
        return budget


# The alarm of a thread's call, and what is called with its progress.
_limits = threading.local()
# A search whose persons times pairs are so many may take long. It is done in pieces of some tenths of a second.
LONG = 2**27
# The same of doubles, which mostly take a tenth of a second, for linear_sum_assignment and an Assigner.
LONGEST = 2**33
PIECES = {"dense": PieceSize(2 * 10**7, 10), "sparse": PieceSize(5 * 10**6, 4), "counts": PieceSize(5 * 10**6, 4)}
# A plan without prices is of use if it lacks at most this part of all persons.
_MOST_MISSING = 16
# About a second, in which Ctrl-C and the time have to wait.
ARC_SCANS_FOR_NEXT = 10**8
# Some hours.
_MOST_ARC_SCANS = 10**13
_LONGEST_WAIT = 10.0**5
_TIME_IS_OVER = "the time is over; nothing of the caller's was changed"


class TimeIsOver(TimeoutError):
    """What an alarm lets Python raise in a thread, between any two of its steps."""

    def __init__(self) -> None:
        super().__init__(_TIME_IS_OVER)


def _raise_in(thread: int, fault: Optional[type]) -> None:
    """Lets a thread raise this in its next step, or nothing of what it hasn't yet raised so."""
    python = getattr(ctypes, "pythonapi", None)
    if python is not None:
        python.PyThreadState_SetAsyncExc(ctypes.c_ulong(thread), None if fault is None else ctypes.py_object(fault))


class _Alarm:
    """Ends the steps of the thread that makes it, as Ctrl-C would, once it is armed and its time is over, unless it is
    stopped before. An alarm that has rung limits nothing any more."""

    def __init__(self, end: float):
        self.end, self.thread, self.rang = end, threading.get_ident(), False
        self.lock, self.gate, self.stopped = threading.Lock(), threading.Lock(), threading.Event()
        self.gate.acquire()
        if end < math.inf:
            started(threading.Thread(target=self._wait, daemon=True))

    def arm(self) -> None:
        """From here on it may ring: while a thread is started it must not."""
        self.gate.release()

    def _wait(self) -> None:
        self.gate.acquire()
        while not self.stopped.wait(min(max(self.end - time.monotonic(), 0), _LONGEST_WAIT)):
            if time.monotonic() >= self.end:
                return self._ring()

    def _ring(self) -> None:
        with self.lock:
            if not self.stopped.is_set():
                self.rang = True
                _raise_in(self.thread, TimeIsOver)

    def stop(self) -> None:
        """After this it raises nothing."""
        with self.lock:
            self.stopped.set()
        if self.gate.locked():
            self.gate.release()
        if self.rang:
            _raise_in(self.thread, None)


def started(thread: threading.Thread) -> None:
    """Starts a thread; MemoryError where the system has none left."""
    try:
        thread.start()
    except RuntimeError as fault:
        raise MemoryError(f"no thread could be started: {fault}") from None


class limited:
    """Within, calls and the steps of Python raise TimeoutError after so many seconds; never where that is None. After
    each piece of a search `progress` is called with the persons assigned so far, and their number."""

    def __init__(self, timeout: Optional[float], progress: Optional[Callable[[int, int], Any]] = None):
        if timeout is not None and not hasattr(timeout, "__float__"):
            raise TypeError(f"timeout is {timeout!r}: it must be a number of seconds")
        if timeout is not None and not timeout >= 0:
            raise ValueError(f"timeout is {timeout!r}: it must be a number of seconds, 0 or more")
        if progress is not None and not callable(progress):
            raise TypeError(f"progress is {progress!r}: it must be a call of two numbers, how many are assigned and "
                            "how many there are")
        # A whole number may be beyond all floats.
        self.timeout = None if timeout is None else float(timeout) if timeout <= sys.float_info.max else math.inf
        self.progress = progress

    def __enter__(self) -> None:
        before: Optional[_Alarm] = getattr(_limits, "alarm", None)
        # What rings just as a block ends may leave its alarm here.
        self.before = None if before is None or before.rang else before
        self.alarm: Optional[_Alarm] = None
        if self.timeout == 0:
            raise TimeoutError(_TIME_IS_OVER)
        end = math.inf if self.timeout is None else time.monotonic() + self.timeout
        if self.timeout is not None and (self.before is None or end < self.before.end):
            self.alarm = _Alarm(end)
        self.outer_progress, _limits.progress = getattr(_limits, "progress", None), self.progress
        if self.alarm is not None:
            try:
                _limits.alarm = self.alarm
                self.alarm.arm()
            except TimeIsOver:
                self._leave()
                raise TimeoutError(_TIME_IS_OVER) from None

    def __exit__(self, kind: Any, fault: Any, trace: Any) -> None:
        try:
            self._leave()
        except TimeIsOver:
            # It rang while it was to be stopped.
            self._leave()
            kind = kind or TimeIsOver
        if kind is TimeIsOver and (self.before is None or not self.before.rang):
            raise TimeoutError(_TIME_IS_OVER) from None

    def _leave(self) -> None:
        _limits.alarm, _limits.progress = self.before, self.outer_progress
        if self.alarm is not None:
            self.alarm.stop()


def _end() -> Optional[float]:
    """When this thread's call has to end."""
    alarm = getattr(_limits, "alarm", None)
    return None if alarm is None or alarm.rang else alarm.end


def is_limited() -> bool:
    """Whether this thread's call has an end, or shows its progress."""
    return _end() is not None or progress_asked() is not None


def look_at_time() -> None:
    """Raises TimeoutError where the time of `limited` is over."""
    end = _end()
    if end is not None and time.monotonic() >= end:
        raise TimeoutError(_TIME_IS_OVER)


@contextlib.contextmanager
def one_piece(n: int) -> Iterator[None]:
    """Within, a call works that isn't done in pieces: `progress` is called before it and after it. Ctrl-C and the time
    wait for its end."""
    look_at_time()
    progress = progress_asked()
    if progress is not None:
        progress(0, n)
    yield
    if progress is not None:
        progress(n, n)
