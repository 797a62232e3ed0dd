#!/usr/bin/env python3
"""Times the Python package, next to the bare call of the library and, where it is there, SciPy: seconds of processor
time, the least of three or ten runs in turns. Needs c/out/libnushbaret.so; PYTHONPATH=python."""
import random
import time
from array import array

import nushbaret
from nushbaret.lap import library

try:
    import numpy as np
    from scipy.optimize import linear_sum_assignment
except ImportError:
    np = None


def bare(costs, n, m):
    """The library's call alone."""
    objects, persons, prices = array("I", bytes(4 * n)), array("I", bytes(4 * n)), array("q", bytes(8 * m))
    library.call("dense", False, n, m, costs, objects, persons, prices)


def drawn(n, m, most):
    draw = random.Random(n * m)
    flat = array("q", [draw.randint(1, most) for _ in range(n * m)])
    return flat, [flat[row * m:(row + 1) * m].tolist() for row in range(n)]


def measure(what, runs, times=3):
    least = {}
    for _ in range(times):
        for name, run in runs:
            begin = time.process_time()
            run()
            least[name] = min(time.process_time() - begin, least.get(name, 1e9))
    print(what, *(f"{name} {seconds:.4f}" for name, seconds in least.items()), sep="; ")


def compare(what, n, m, most, count, times=3):
    flat, rows = drawn(n, m, most)
    floats = [list(map(float, row)) for row in rows]
    hundredths = [[cost / 100 for cost in row] for row in rows]
    calls = [("library alone", lambda: bare(flat, n, m)), ("solve, lists", lambda: nushbaret.solve(rows)),
             ("linear_sum_assignment, lists", lambda: nushbaret.linear_sum_assignment(rows)),
             ("lists of floats", lambda: nushbaret.linear_sum_assignment(floats)),
             ("lists of hundredths", lambda: nushbaret.linear_sum_assignment(hundredths))]
    if np:
        whole, reals = np.array(rows), np.array(rows, float)
        calls += [("linear_sum_assignment, int64", lambda: nushbaret.linear_sum_assignment(whole)),
                  ("linear_sum_assignment, float64", lambda: nushbaret.linear_sum_assignment(reals)),
                  ("SciPy, int64", lambda: linear_sum_assignment(whole)),
                  ("SciPy, float64", lambda: linear_sum_assignment(reals))]
    measure(what, [(name, lambda call=call: [call() for _ in range(count)]) for name, call in calls], times)


def plans():
    """The plans after the best one, and the best worst pair, in the form that costs mostly have."""
    rows = drawn(100, 100, 10**6)[1]
    result = nushbaret.solve(rows)
    measure("n = 100", [("k_best, k = 10", lambda: list(nushbaret.k_best(rows, 10))), ("next_best", result.next_best)])
    costs = drawn(1000, 1000, 10**6)[1]
    if np:
        costs = np.array(costs)
    measure("n = 1000", [("solve", lambda: nushbaret.solve(costs)),
                         ("bottleneck", lambda: nushbaret.bottleneck(costs))])


compare("1000 problems of n = 8", 8, 8, 100, 1000, 10)
compare("1000 problems of 20 x 30", 20, 30, 100, 1000, 10)
compare("n = 300", 300, 300, 1000, 1, 10)
compare("80 x 3000", 80, 3000, 10**6, 1, 10)
compare("20 x 8000", 20, 8000, 10**6, 1, 10)
compare("1000 x 2000", 1000, 2000, 10**6, 1)
compare("1000 x 1100", 1000, 1100, 10**6, 1)
compare("n = 2000, costs to 1000", 2000, 2000, 1000, 1)
compare("n = 2000, costs to a million", 2000, 2000, 10**6, 1)
plans()
