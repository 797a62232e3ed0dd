"""The processes that look for plans and for bounds: how they are started, how they end, and how they talk with who
started them, by lines of JSON in and out."""
import contextlib
import json
import os
import pathlib
import queue
import subprocess
import sys
import threading
import time
from typing import Any, Dict, List, Optional, TextIO

from .model import Model, Row

# On Windows the flag with which no Ctrl-C reaches a new process; elsewhere there is none.
_OWN_GROUP: int = getattr(subprocess, "CREATE_NEW_PROCESS_GROUP", 0)
# Seconds that a process has to end after its last word.
_LONGEST_END = 5.0
# One thread for each process; and freed memory stays with it, as arrays come and go all the time (glibc heeds these).
_ENVIRONMENT = {"OMP_NUM_THREADS": "1", "OPENBLAS_NUM_THREADS": "1", "MALLOC_TRIM_THRESHOLD_": str(2**30),
                "MALLOC_MMAP_THRESHOLD_": str(2**25)}
START = pathlib.Path(__file__).resolve().parent / "worker.py"
# Seconds.
_SHORT_WAIT = 0.01


class Worker:
    """A process that works on a model. Its lines come into a queue; lines for it are written by a thread of its own.

    The last thing in the queue is `{"ended": None}`, or `{"ended": TEXT}` with what is wrong.
    """

    def __init__(self, told: "queue.Queue[Dict[str, Any]]"):
        self.told = told
        self.waiting: "queue.Queue[Optional[str]]" = queue.Queue()
        self.process: Optional["subprocess.Popen[str]"] = None
        self.threads: List[threading.Thread] = []
        self._last_line = ""

    def start(self, first: Dict[str, Any]) -> None:
        """Starts the process, which no Ctrl-C of the terminal reaches: who started it ends it, or it ends when its
        input does. Raises RuntimeError where there is no Python to start."""
        try:
            self.process = subprocess.Popen(command(), stdin=subprocess.PIPE, stdout=subprocess.PIPE,
                                            stderr=subprocess.PIPE, text=True, encoding="utf-8",
                                            errors="backslashreplace", env={**os.environ, **_ENVIRONMENT},
                                            start_new_session=True, creationflags=_OWN_GROUP)
        except OSError as fault:
            raise RuntimeError(f"no process that finds plans can be started with {sys.executable}: {fault.strerror}"
                               ) from fault
        self.tell(first)
        self.threads = [threading.Thread(target=work, args=(self.process,), daemon=True)
                        for work in (self._listen, self._read, self._write)]
        for thread in self.threads:
            thread.start()

    def tell(self, told: Dict[str, Any]) -> None:
        self.waiting.put(json.dumps(told) + "\n")

    def _write(self, process: "subprocess.Popen[str]") -> None:
        assert process.stdin is not None
        with contextlib.suppress(OSError, ValueError):
            for line in iter(self.waiting.get, None):
                process.stdin.write(line)
                process.stdin.flush()
        with contextlib.suppress(OSError, ValueError):
            process.stdin.close()

    def _read(self, process: "subprocess.Popen[str]") -> None:
        assert process.stdout is not None
        heard: Dict[str, Any] = {}
        with contextlib.suppress(OSError, ValueError, TypeError), process.stdout:
            for line in process.stdout:
                heard = {"other": line.strip()}
                heard = dict(json.loads(line))
                self.told.put(heard)
        self.told.put({"ended": None if "done" in heard else self._fault(process, heard)})

    def _listen(self, process: "subprocess.Popen[str]") -> None:
        """Keeps the last line of what the process says is wrong."""
        assert process.stderr is not None
        with contextlib.suppress(OSError, ValueError), process.stderr:
            for line in process.stderr:
                self._last_line = line.strip() or self._last_line

    def _fault(self, process: "subprocess.Popen[str]", heard: Dict[str, Any]) -> str:
        """What is wrong with a process that ended before its work did: its last line, or how it ended."""
        try:
            status = process.wait(_LONGEST_END)
        except subprocess.TimeoutExpired:
            process.kill()
            status = process.wait()
        self.threads[0].join()
        how = f"signal {-status}" if status < 0 else f"status {status}"
        last = self._last_line or heard.get("other") or how
        return f"a process that finds plans ended: {last}" if heard and "other" not in heard else (
            f"{sys.executable}, by sys.executable, doesn't run as Python: {last}")

    def end(self) -> None:
        if self.process is not None:
            self.process.kill()
            self.process.wait()
        self.waiting.put(None)
        for thread in self.threads:
            thread.join()


def command() -> List[str]:
    """Isolated Python with the folders of the caller's modules, which come after its own: a module that only the caller
    finds is found too, but none of the working folder."""
    if not sys.executable:
        raise RuntimeError("plans with rules are found by processes of Python, and sys.executable doesn't say where it "
                           "is")
    here = os.path.realpath(os.getcwd())
    paths = [path for path in sys.path if os.path.isabs(path) and os.path.realpath(path) != here]
    return [sys.executable, "-I", *["-B"] * sys.dont_write_bytecode, str(START), *dict.fromkeys(paths)]


class Channel:
    """Talks with the process that started this one, and ends this one when that one is gone."""

    def __init__(self, lines: TextIO, out: TextIO):
        self.lines, self.out = lines, out
        self.plan: Optional[Any] = None
        self.cost: Optional[int] = None
        # Whether the search for plans says that none is better than the one known.
        self.is_over = False
        self._goes_on: Optional[bool] = None

    @property
    def is_hopeless(self) -> bool:
        """Whether the search for plans says that there is none."""
        return self.is_over and self.cost is None

    def listen(self) -> None:
        """Reads better plans of others from now on, while the work goes on."""
        threading.Thread(target=self._read, daemon=True).start()

    def _read(self) -> None:
        for line in self.lines:
            told = json.loads(line)
            if "plan" in told:
                self.plan, self.cost = told["plan"], told["cost"]
            self.is_over = self.is_over or "over" in told
            self._goes_on = told.get("goes_on", self._goes_on)
        os._exit(0)

    def goes_on(self) -> bool:
        """Whether this process looks for bounds when its search for plans is over, since no other does."""
        while self._goes_on is None:
            time.sleep(_SHORT_WAIT)
        return self._goes_on

    def say(self, **told: Any) -> None:
        self.out.write(json.dumps(told) + "\n")
        self.out.flush()

    def say_plan(self, plan: Any, cost: int) -> None:
        """Reports a plan, where none as good is known."""
        if self.cost is None or cost < self.cost:
            self.plan, self.cost = [int(value) for value in plan], cost
            self.say(plan=self.plan)


def unpacked(told: Dict[str, Any]) -> Model:
    """A model from JSON."""
    rows = tuple(Row(least, tuple((variable, factor) for variable, factor in terms), most, text, person)
                 for least, terms, most, text, person in told["rows"])
    return Model(told["variables"], tuple(told["costs"]), rows, tuple(told["persons"]), tuple(told["days"]))
