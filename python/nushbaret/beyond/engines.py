"""What runs tasks: this process, or the workers of a cluster. An engine has two words: `share`, the same value to all;
and `run`, these tasks, whose answers come in any order. Tasks have no state, so that any of them may run again."""
import contextlib
import importlib
import time
from typing import Any, Callable, Iterator, List, Optional, Protocol, Tuple

# A cluster without a worker for so many seconds is given up.
LONGEST_WITHOUT_WORKERS = 60.0
# How often a task whose worker is lost is sent again.
TRIES = 8


class Engine(Protocol):
    """What a search needs of a cluster."""

    def share(self, value: Any) -> Any:
        """What stands for a value in the words of a task, where it is the value itself."""

    def run(self, task: Callable[..., Any], words: List[Tuple[Any, ...]], end: Optional[float]) -> Iterator[Any]:
        """The answers of a task to each of these words, in any order. TimeoutError after `end` on the monotonic
        clock."""


class Here:
    """This process, one task after the other."""

    def share(self, value: Any) -> Any:
        return value

    def run(self, task: Callable[..., Any], words: List[Tuple[Any, ...]], end: Optional[float]) -> Iterator[Any]:
        for each in words:
            if end is not None and time.monotonic() >= end:
                raise TimeoutError
            yield task(*each)


class Cluster:
    """The workers of a client of distributed. Values go to each worker. A task whose worker is lost goes to another
    one, with its values."""

    def __init__(self, client: Any):
        self.client = client

    def share(self, value: Any) -> Any:
        return Shared(value, scattered(self.client, value))

    def run(self, task: Callable[..., Any], words: List[Tuple[Any, ...]], end: Optional[float]) -> Iterator[Any]:
        waiting = {self._sent(task, each): (each, 1) for each in words}
        without_workers = None
        try:
            while waiting:
                done = self._done(list(waiting))
                if end is not None and time.monotonic() >= end:
                    raise TimeoutError
                if done or self.client.scheduler_info()["workers"]:
                    without_workers = None
                elif without_workers is None:
                    without_workers = time.monotonic()
                elif time.monotonic() > without_workers + LONGEST_WITHOUT_WORKERS:
                    raise RuntimeError(f"the cluster has had no worker for {LONGEST_WITHOUT_WORKERS:.0f} seconds")
                for future in done:
                    each, tries = waiting.pop(future)
                    is_there, found = answer_of(future, tries == TRIES)
                    if is_there:
                        yield found
                    else:
                        waiting[self._sent(task, each)] = each, tries + 1
        finally:
            self.client.cancel(list(waiting))

    def _sent(self, task: Callable[..., Any], words: Tuple[Any, ...]) -> Any:
        values = [word.future_for(self.client) if isinstance(word, Shared) else word for word in words]
        return self.client.submit(task, *values, pure=False, retries=2)

    def _done(self, futures: List[Any]) -> List[Any]:
        """Those that ended, after at most a second."""
        distributed: Any = importlib.import_module("distributed")
        with contextlib.suppress(TimeoutError, distributed.TimeoutError, distributed.CancelledError):
            distributed.wait(futures, timeout=1, return_when="FIRST_COMPLETED")
        return [future for future in futures if future.status != "pending"]


class Shared:
    """A value that each worker has; it is sent again once it is lost."""

    def __init__(self, value: Any, future: Any):
        self.value, self.future = value, future

    def future_for(self, client: Any) -> Any:
        if self.future.status in ("cancelled", "lost", "error"):
            self.future = scattered(client, self.value)
        return self.future


def scattered(client: Any, value: Any) -> Any:
    """A value that each worker gets; tuples too go as one. While a worker is lost this may fail, so it is tried
    again."""
    for turn in range(TRIES):
        try:
            return client.scatter([value], broadcast=True, hash=False)[0]
        except Exception:
            if turn + 1 == TRIES:
                raise
            time.sleep(0.5)
    return None


def answer_of(future: Any, is_last: bool) -> Tuple[bool, Any]:
    """The answer of a task, or that its worker or its values were lost, which in the last try is raised as its own
    faults are. A worker can be lost before its answer is fetched."""
    distributed: Any = importlib.import_module("distributed")
    try:
        return True, future.result()
    except (distributed.scheduler.KilledWorker, distributed.CancelledError):
        if is_last:
            raise
        return False, None


def engine_of(client: Any) -> Engine:
    """The engine of a client; of None this process, and of an engine itself."""
    if client is None:
        return Here()
    if hasattr(client, "share") and hasattr(client, "run") and not hasattr(client, "scatter"):
        return client  # type: ignore[no-any-return]
    if not hasattr(client, "scatter") or not hasattr(client, "submit"):
        raise TypeError(f"client is {type(client).__name__}: it must be a client of distributed, or an engine")
    return Cluster(client)
