#!/usr/bin/env bash
# What is shown of a run's progress: on a terminal, which python3's pty stands for, and off it, with --progress and
# without, in both modes and by shortest paths; and that a report and a status are the same with and without it. And what
# a terminal shows where the problem is to be typed.
# Needs the built program (rt run in crates/auction_cli, or rt ci) and python3: tests/progress.sh [PROGRAM]
set -euo pipefail
top=$(cd "$(dirname "$0")/.." && pwd)
exec python3 - "${1:-$top/crates/auction_cli/out/auction_cli}" <<'PYTHON'
import os
import pty
import re
import select
import signal
import subprocess
import sys
import tempfile
import time

PROGRAM = sys.argv[1]
SECONDS = r"\d+\.\d s\n"
PHASE = r"phase 1 of 1, "
LINES = {
    "rounds": re.compile(rf"(progress: {PHASE}slackness 1, [0-3] of 3 persons, {SECONDS})+"),
    "workers": re.compile(rf"(progress: {PHASE}[0-3] of 3 persons, \d+ sessions, \d+ bids, {SECONDS})+"),
}
PATHS = re.compile(rf"(progress: \d+\.\d MB read, {SECONDS})*(progress: shortest paths, \d+ of \d+ persons, {SECONDS}){{2,}}")
failed = 0


def expect(name, holds, seen):
    global failed
    if not holds:
        failed += 1
        print(f"{name}: {seen!r}")


# Two free objects are bid up to the third one's price, by 1 or 2 a bid, which takes as long as is needed.
WAR = b"3 1 1 1 1 1 1 1 1 1"
folder = tempfile.TemporaryDirectory()


def start_from(price):
    name = os.path.join(folder.name, str(price))
    with open(name, "w") as report:
        report.write(f"sense min\ncost 3\nassign 1 1 1\nassign 2 2 1\nassign 3 3 1\nprice 1 0\nprice 2 0\nprice 3 {price}\n")
    return ["--start", name]


ENDLESS = start_from(10**18)


def begin(words, err):
    return subprocess.Popen([PROGRAM, "solve", *words], stdin=subprocess.PIPE, stdout=subprocess.PIPE, stderr=err)


def give(run, pieces, wait):
    """Writes a problem in pieces to a run, which may be over."""
    for at, piece in enumerate(pieces):
        time.sleep(wait if at else 0)
        run.stdin.write(piece)
        run.stdin.flush()
    run.stdin.close()
    run.stdin = None


def off(words, pieces=(WAR,), wait=0.0, err=subprocess.PIPE):
    """Status, standard output and standard error of a run off a terminal, whose input comes in pieces."""
    run = begin(words, err)
    give(run, pieces, wait)
    out, errors = run.communicate()
    return run.returncode, out, (errors or b"").decode()


def killed(words, enough, most):
    """What a run that doesn't end wrote to standard error, and to standard output, until so many lines or seconds."""
    run = begin(words, subprocess.PIPE)
    give(run, (WAR,), 0.0)
    errors, end = b"", time.monotonic() + most
    while errors.count(b"\n") < enough and time.monotonic() < end:
        if select.select([run.stderr], [], [], 0.1)[0]:
            errors += os.read(run.stderr.fileno(), 4096)
    run.send_signal(signal.SIGKILL)
    out, rest = run.communicate()
    return out, (errors + rest).decode()


def on(words, pieces=(WAR,), wait=0.0):
    """Status, standard output, what the terminal was shown and the lines that it shows at the end."""
    ours, theirs = pty.openpty()
    run = begin(words, theirs)
    os.close(theirs)
    give(run, pieces, wait)
    errors = b""
    while True:
        try:
            some = os.read(ours, 4096)
        except OSError:
            break
        if not some:
            break
        errors += some
    out = run.stdout.read()
    return run.wait(), out, errors.decode(), shown(errors.decode())


def typed(words, problem):
    """Status, standard output and what the terminal was shown, of a run whose problem is typed at a terminal and ended by Ctrl-D."""
    keys, read = pty.openpty()
    screen, written = pty.openpty()
    run = subprocess.Popen([PROGRAM, *words], stdin=read, stdout=subprocess.PIPE, stderr=written)
    os.close(read)
    os.close(written)
    os.write(keys, problem + b"\x04")
    out = run.stdout.read()
    status, errors = run.wait(), b""
    while select.select([screen], [], [], 0)[0]:
        try:
            errors += os.read(screen, 4096)
        except OSError:
            break
    os.close(keys)
    os.close(screen)
    return status, out, errors.decode()


def shown(errors):
    """The lines of a terminal after these texts, without the blanks at their ends."""
    lines, row, column = [[]], 0, 0
    for sign in errors:
        if sign == "\r":
            column = 0
        elif sign == "\n":
            row, column = row + 1, 0
            lines.append([])
        else:
            lines[row][column:column + 1] = [sign]
            column += 1
    return ["".join(line).rstrip() for line in lines], column


def spaced(errors):
    """Whether half a second lies between any two lines, whose times are cut to tenths."""
    tenths = [int(whole) * 10 + int(tenth) for whole, tenth in re.findall(r"(\d+)\.(\d) s\n", errors)]
    return len(tenths) > 0 and tenths[0] >= 5 and all(later - earlier >= 4 for earlier, later in zip(tenths, tenths[1:]))


def lasting(run, words=()):
    """The first of runs, each twice as long as the one before, in which something is shown, and its start."""
    price = 1_000_000
    while True:
        start, began = start_from(price), time.monotonic()
        seen = run([*start, *words])
        if seen[2] or time.monotonic() - began > 10:
            return start, seen
        price *= 2


def slow(run, words, pieces, wait):
    """The first of runs, each waiting twice as long for the rest of its problem, in which something is shown."""
    seen = run(words, pieces, wait)
    while not seen[2] and wait < 10:
        wait *= 2
        seen = run(words, pieces, wait)
    return seen


def products(persons):
    """A problem whose searches are long: person i pays i times j for object j."""
    rows = (" ".join(str(i * j) for j in range(1, persons + 1)) for i in range(1, persons + 1))
    return f"{persons}\n".encode() + "\n".join(rows).encode()


def in_slices(words, problem, enough):
    """Status, standard output and standard error of a run that goes on for a hundredth of a second at a time, half a
    second and more apart, until standard error has what is enough; then to its end."""
    with tempfile.TemporaryFile() as text, tempfile.TemporaryFile() as out, tempfile.TemporaryFile() as err:
        text.write(problem)
        text.seek(0)
        run = subprocess.Popen([PROGRAM, "solve", *words], stdin=text, stdout=out, stderr=err)
        while run.poll() is None and not enough(os.pread(err.fileno(), 65536, 0).decode()):
            run.send_signal(signal.SIGSTOP)
            time.sleep(0.6)
            run.send_signal(signal.SIGCONT)
            time.sleep(0.01)
        run.wait()
        out.seek(0)
        err.seek(0)
        return run.returncode, out.read(), err.read().decode()


def assigned(errors):
    """The numbers of persons that shortest paths showed: of those with an object, and of all."""
    return [(int(some), int(every)) for some, every in re.findall(r"paths, (\d+) of (\d+) persons", errors)]


def lasting_paths():
    """The first of runs by shortest paths, of larger and larger problems, that shows two numbers; and how many persons
    it had."""
    persons, wanted = 300, lambda errors: len(assigned(errors)) >= 2
    while True:
        seen = in_slices(["--progress", "--method", "paths"], products(persons), wanted)
        if wanted(seen[2]) or persons > 4000:
            return persons, seen
        persons = persons * 3 // 2


# Off a terminal nothing is shown unasked; asked, a line at most twice a second, in each mode.
for mode, pattern in LINES.items():
    words = ["--mode", mode, *ENDLESS]
    out, errors = killed(words, 1, 1.3)
    expect(f"{mode} unasked", out == b"" and errors == "", errors)
    out, errors = killed([*words, "--progress"], 3, 20)
    expect(f"{mode} asked", out == b"" and pattern.fullmatch(errors) and spaced(errors), errors)

# A run that ends.
SHORT, (status, out, errors) = lasting(off, ["--progress"])
expect("a run asked", status == 0 and LINES["rounds"].fullmatch(errors), errors)
status, report, errors = off(SHORT)
expect("a run", status == 0 and report == out and report.startswith(b"sense min\ncost 3\n") and errors == "", errors)

# On a terminal one line is written over, and nothing stays of it.
_, (status, report_on, errors, (lines, column)) = lasting(on)
expect("terminal", status == 0 and report_on.startswith(b"sense min\ncost 3\n") and "\r" + "phase 1 of 1" in errors, errors)
expect("terminal at the end", lines == [""] and column == 0, errors)
first = re.search(r"(\d+\.\d) s", errors)
expect("terminal unasked", first and float(first.group(1)) >= 2.0, errors)
for _ in range(3):
    SOME, (status, out, errors, (lines, column)) = lasting(on, ["--progress"])
    first = re.search(r"(\d+\.\d) s", errors)
    if first and float(first.group(1)) < 2.0:
        break
expect("terminal asked", status == 0 and first and 0.5 <= float(first.group(1)) < 2.0, errors)
expect("terminal asked, at the end", lines == [""] and column == 0, errors)
expect("terminal asked or not", on(SOME)[:2] == (0, out), errors)
status, out, errors, _ = on([])
expect("terminal, a short run", status == 0 and errors == "", errors)

# Reading, and a fault after it: the terminal keeps the fault's line alone.
SLOW = (b"2 1 2", b" 3 5")
status, out, errors = slow(off, ["--progress"], SLOW, 0.8)
expect("reading", status == 0 and re.match(rf"progress: 0\.0 MB read, {SECONDS}", errors), errors)
status, out, errors = off([], SLOW, 0.8)
expect("reading unasked", status == 0 and errors == "", errors)
status, out, errors, (lines, column) = slow(on, [], (b"2 1 2", b" x"), 2.4)
expect("a fault", status == 3 and out == b"" and "MB read" in errors, errors)
expect("a fault at the end", lines == ["input: bad number at byte 6", ""] and column == 0, errors)

# Shortest paths show how many persons have an object. A run that is stopped again and again lasts as long as is needed.
persons, (status, out, errors) = lasting_paths()
expect("paths", status == 0 and PATHS.fullmatch(errors) and spaced(errors), errors)
expect("paths, their report", out.startswith(b"sense min\ncost ") and out.count(b"\nassign ") == persons, out[:99])
expect("paths, persons", all(some <= every == persons for some, every in assigned(errors)), errors)

# Where the problem is to be typed, that is said once.
waiting = "waiting for a problem on standard input; Ctrl-D ends it, --input names a file\r\n"
answer = b"sense min\ncost 7\nassign 1 1 7\nprice 1 0\n"
problem, answered = (os.path.join(folder.name, name) for name in ("problem", "answer"))
for name, text in ((problem, b"1 7"), (answered, answer)):
    with open(name, "wb") as file:
        file.write(text)
seen = typed(["solve", "--prices"], b"1\n7\n")
expect("a typed problem", seen[0] == 0 and seen[1].startswith(b"sense min\ncost 7\n") and seen[2] == waiting, seen)
seen = typed(["verify", answered], b"1 7\n")
expect("a typed problem of a report", seen == (0, b"verified cost 7\n", waiting), seen)
seen = typed(["solve", "--input", problem], b"")
expect("a problem in a file", seen == (0, b"sense min\ncost 7\nassign 1 1 7\n", ""), seen)

# A standard error that fails ends it.
for name in ("/dev/full", None):
    if name:
        with open(name, "wb") as full:
            status, out, _ = off([*SHORT, "--progress"], err=full)
    else:
        ours, theirs = os.pipe()
        os.close(ours)
        status, out, _ = off([*SHORT, "--progress"], err=theirs)
        os.close(theirs)
    expect(f"standard error {name or 'closed'}", status == 0 and out == report, status)

sys.exit(1 if failed else 0)
PYTHON
