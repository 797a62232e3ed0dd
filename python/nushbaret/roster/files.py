"""The files that the command writes: each whole, or not at all; and Ctrl-C during work that is cleaned up after."""
import contextlib
import os
import signal
import stat
import sys
import tempfile
import threading
from typing import BinaryIO, Iterator, NamedTuple, Sequence, Tuple, Union

from .names import shown_path

KINDS = ("csv", "json", "html", "xlsx")
STANDARD_OUTPUT = ("/dev/stdout", "/dev/fd/1", "/proc/self/fd/1")


class Output(NamedTuple):
    """A file to be written, and as what: one of KINDS."""

    path: str
    kind: str

    @property
    def is_standard(self) -> bool:
        """Whether this is standard output, by one of its names."""
        return self.path in STANDARD_OUTPUT


class OutputFault(Exception):
    """Why an output isn't written."""


def refuse_existing(path: str) -> None:
    """Refuses a file that exists."""
    if os.path.lexists(path) and not is_device(path):
        raise OutputFault(f"{shown_path(path)} exists: --force overwrites it")


def is_device(path: str) -> bool:
    """Whether a path is that of a device, or of a pipe that the shell made."""
    return path.startswith("/dev/") and os.path.exists(path) and not (os.path.isfile(path) or os.path.isdir(path))


def make_folder(path: str) -> None:
    """Makes a folder, with those above it, if it isn't there."""
    try:
        os.makedirs(path, exist_ok=True)
    except OSError as fault:
        is_file = isinstance(fault, (FileExistsError, NotADirectoryError))
        raise OutputFault(f"{shown_path(path)}: {'no folder' if is_file else fault.strerror or fault}") from fault


def write_files(contents: Sequence[Tuple[str, bytes]], force: bool) -> None:
    """Writes files, one after the other. While it does Ctrl-C raises, so that what is half written is removed."""
    with interrupts_raise():
        for path, content in contents:
            write_file(path, content, force)


def write_file(path: str, content: bytes, force: bool) -> None:
    """Writes a whole file or none. What exists is replaced under `force`, in one step, and refused otherwise."""
    try:
        if is_device(path):
            with open(path, "wb") as device:
                device.write(content)
        elif force:
            _replace(path, content)
        else:
            _fill(open(path, "xb"), path, content)
    except FileExistsError:
        raise OutputFault(f"{shown_path(path)} exists: --force overwrites it") from None
    except OSError as fault:
        raise OutputFault(f"{shown_path(path)}: {fault.strerror or fault}") from fault


def _fill(file: BinaryIO, path: str, content: bytes) -> None:
    try:
        with file:
            file.write(content)
    except BaseException:
        os.unlink(path)
        raise


def _replace(path: str, content: bytes) -> None:
    target = os.path.realpath(path)
    mode = _mode_of(target)
    handle, name = tempfile.mkstemp(prefix=".nushbaret.", dir=os.path.dirname(target))
    _fill(open(handle, "wb"), name, content)
    try:
        os.chmod(name, mode)
        os.replace(name, target)
    except BaseException:
        _remove(name)
        raise


def _remove(path: str) -> None:
    """Removes a file, also one that nobody may write to, which Windows would keep."""
    try:
        os.unlink(path)
    except PermissionError:
        os.chmod(path, stat.S_IRUSR | stat.S_IWUSR)
        os.unlink(path)


def _mode_of(target: str) -> int:
    """The permissions of the file that is replaced, or those of a new one. A device or a folder is refused."""
    if not os.path.lexists(target):
        mask = os.umask(0)
        os.umask(mask)
        return 0o666 & ~mask
    mode = os.stat(target).st_mode
    if not stat.S_ISREG(mode):
        raise OutputFault(f"{shown_path(target)} is no regular file")
    return stat.S_IMODE(mode)


def print_content(content: Union[str, bytes]) -> None:
    """Writes to standard output, or raises what the stream says. A broken stream is replaced, so that the end of the
    program prints nothing more."""
    if sys.stdout is None:
        raise OutputFault("standard output is closed")
    try:
        if isinstance(content, bytes) and hasattr(sys.stdout, "buffer"):
            sys.stdout.buffer.write(content)
        else:
            sys.stdout.write(content if isinstance(content, str) else content.decode())
        sys.stdout.flush()
    except OSError as fault:
        sys.stdout = open(os.devnull, "w")
        raise OutputFault(f"standard output: {fault.strerror}") from fault


@contextlib.contextmanager
def interrupts_raise() -> Iterator[None]:
    """Lets Ctrl-C raise, where it would end the process at once; so files and processes that were begun are removed."""
    is_main = threading.current_thread() is threading.main_thread()
    if not is_main or signal.getsignal(signal.SIGINT) is not signal.SIG_DFL:
        yield
        return
    signal.signal(signal.SIGINT, signal.default_int_handler)
    try:
        yield
    finally:
        signal.signal(signal.SIGINT, signal.SIG_DFL)
