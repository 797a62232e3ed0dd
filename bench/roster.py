#!/usr/bin/env python3
"""Times the command for rosters over large files next to an older one: processor time and peak memory as shares of the
old one's, each the least of some runs in turns. `roster.py OLD [RUNS]`, where OLD is a checkout with a built
library."""
import os
import random
import sys
import tempfile

TOP = os.path.dirname(os.path.dirname(os.path.abspath(__file__)))


def matrix(size, places=0):
    """Drawn costs below 10^5, or so many places less."""
    draw = random.Random(size)
    yield "," + ",".join(f"o{number}" for number in range(size))
    for row in range(size):
        costs = (draw.randrange(10**5) for _ in range(size))
        yield f"p{row}," + ",".join(f"{cost / 10**places:.{places}f}" if places else str(cost) for cost in costs)


def pairs(size, count):
    """So many of the pairs of persons and objects, in lines."""
    draw = random.Random(count)
    yield "nurse,shift,hours"
    for pair in sorted(draw.sample(range(size * size), count)):
        yield f"nurse {pair // size},shift {pair % size},{draw.randrange(10**4)}"


FILES = (("3000 x 3000", matrix(3000)), ("1500 x 1500", matrix(1500)),
         ("1500 x 1500, two decimal places", matrix(1500, 2)), ("lines of a million pairs", pairs(2000, 10**6)),
         ("30 x 30", matrix(30)))


def run(checkout, path):
    """Seconds of processor time, and MB."""
    child = os.fork()
    if child == 0:
        os.environ["PYTHONPATH"] = os.path.join(checkout, "python")
        # Modules are compiled once, as where they are installed.
        os.environ.pop("PYTHONDONTWRITEBYTECODE", None)
        os.environ["PYTHONPYCACHEPREFIX"] = os.path.join(os.path.dirname(path), "compiled")
        os.dup2(os.open(os.devnull, os.O_WRONLY), 1)
        os.execv(sys.executable, [sys.executable, "-m", "nushbaret", path])
    _, status, used = os.wait4(child, 0)
    assert status == 0, status
    return used.ru_utime + used.ru_stime, used.ru_maxrss / 1024


def main(old, runs=3):
    with tempfile.TemporaryDirectory() as folder:
        for what, lines in FILES:
            path = os.path.join(folder, "roster.csv")
            with open(path, "w", encoding="utf-8") as file:
                file.writelines(line + "\n" for line in lines)
            found = [(run(old, path), run(TOP, path)) for _ in range(runs)]
            before, now = ([min(values) for values in zip(*side)] for side in zip(*found))
            print(f"{what}: {now[0]:.2f} s, {now[1]:.0f} MB; shares {now[0] / before[0]:.2f} and "
                  f"{now[1] / before[1]:.2f}", flush=True)


if __name__ == "__main__":
    main(sys.argv[1], *map(int, sys.argv[2:]))
