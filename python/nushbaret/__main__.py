"""`nushbaret` and `python3 -m nushbaret`: the command for rosters with names."""
import signal
import sys


def main() -> int:
    """Runs the command over the words of the process."""
    # Ctrl-C ends the process at once, also where the library solves, and without a traceback. Only while files are
    # written it raises. On Windows, where no process ends by signals, it raises everywhere, and the status is that of a
    # shell of Linux.
    if sys.platform != "win32" and signal.getsignal(signal.SIGINT) is signal.default_int_handler:
        signal.signal(signal.SIGINT, signal.SIG_DFL)
    try:
        return _run()
    except KeyboardInterrupt:
        return 130


def _run() -> int:
    from .roster.command import DEVICE, main as run
    try:
        return run()
    except Exception:
        import traceback
        traceback.print_exc()
        return DEVICE


if __name__ == "__main__":
    sys.exit(main())
