#!/usr/bin/env python3
"""Times linear_sum_assignment on doubles, small and large, next to SciPy in one run: microseconds of processor time a
call, the least of some rounds in turns, and their ratio. Problems of a size differ, and come in turns. Then a batch,
and a row that changes. Needs c/out/libnushbaret.so, c/out/_extension.abi3.so, NumPy and SciPy; PYTHONPATH=python.
doubles.py [MOST] leaves sizes above MOST out."""
import sys
import time

import numpy as np
from scipy.optimize import linear_sum_assignment as scipys
from scipy.spatial.distance import cdist

import nushbaret
from nushbaret.lap import direct

ROUNDS = 7
MOST = int(sys.argv[1]) if len(sys.argv) > 1 else 2000
rng = np.random.default_rng(1)


def overlaps(n, m):
    """1 - IoU of boxes and of moved ones."""
    first = rng.random((max(n, m), 4)) * [100, 100, 20, 20] + [0, 0, 5, 5]
    second = rng.permutation(first + rng.normal(0, 2, first.shape))[:m]
    low = np.maximum(first[:n, None, :2], second[None, :, :2])
    high = np.minimum((first[:, :2] + first[:, 2:])[:n, None], (second[:, :2] + second[:, 2:])[None])
    common = np.clip(high - low, 0, None).prod(2)
    return 1 - common / (first[:n, None, 2:].prod(2) + second[None, :, 2:].prod(2) - common)


def gated(n, m):
    """Distances of points and of moved ones; a far pair costs 1e5."""
    first = rng.random((max(n, m), 2)) * 200
    costs = cdist(first[:n], rng.permutation(first + rng.normal(0, 4, first.shape))[:m])
    return np.where(costs > 30, 1e5, costs)


def forbidden(n, m):
    """Of the pairs 30 in a hundred are forbidden, and none of one plan."""
    return np.where((rng.random((n, m)) < 0.3) & ~np.eye(n, m, dtype=bool), np.inf, rng.random((n, m)))


KINDS = {
    "uniform": lambda n, m: rng.random((n, m)),
    "distances": lambda n, m: cdist(rng.random((n, 2)), rng.random((m, 2))),
    "1 - IoU": overlaps,
    "gate 1e5": gated,
    "30 % infinite": forbidden,
    "float32": lambda n, m: rng.random((n, m), dtype=np.float32),
    "int32": lambda n, m: rng.integers(0, 10**6, (n, m), dtype=np.int32),
    "int64": lambda n, m: rng.integers(0, 10**6, (n, m)),
    "lists": lambda n, m: rng.random((n, m)).tolist(),
}
SIZES = [(n, n) for n in (2, 3, 5, 8, 12, 20, 50, 100, 200, 500, 1000, 2000)] + [(10, 20), (10, 1000), (100, 2000)]


def least(runs, count):
    """The least microseconds of a call of each, in turns."""
    found = dict.fromkeys(runs, 1e30)
    for _ in range(ROUNDS if count > 1 else 3):
        for name, run in runs.items():
            begin = time.process_time()
            run()
            found[name] = min(found[name], 1e6 * (time.process_time() - begin) / count)
    return found


def compare(name, shape):
    """One kind and size."""
    count = max(1, min(2000, 2 * 10**6 // (shape[0] * shape[0] * shape[1] + 50 * shape[0] * shape[1])))
    problems = [KINDS[name](*shape) for _ in range(min(count, 200))] * (1 + count // 200 if count > 200 else 1)
    took = least({call.__module__: lambda call=call: [call(costs) for costs in problems]
                  for call in (nushbaret.linear_sum_assignment, scipys)}, len(problems))
    own, other = took.values()
    print(f"{name:14} {shape[0]:4} x {shape[1]:4}  nushbaret {own:10.2f}  SciPy {other:10.2f}  {own / other:5.2f}",
          flush=True)


def batches():
    for count, n in ((10000, 2), (5000, 8), (1000, 20), (200, 50)):
        costs = rng.random((count, n, n))
        took = least({"a batch": lambda: nushbaret.linear_sum_assignment_batch(costs),
                      "a loop": lambda: [nushbaret.linear_sum_assignment(one) for one in costs],
                      "a loop of SciPy's": lambda: [scipys(one) for one in costs]}, count)
        print(f"{n} x {n}, each of {count}: " + ", ".join(f"{name} {each:.2f}" for name, each in took.items()),
              flush=True)


def changes():
    for n in (100, 500, 1000, 2000):
        for kind in ("uniform", "distances", "int64") if n <= MOST else ():
            costs, rows = KINDS[kind](n, n), KINDS[kind](10, n)
            assigner = nushbaret.Assigner(costs)
            assigner.result

            def update(assigner=assigner, rows=rows):
                for row, own in enumerate(rows):
                    assigner.update(row, own)
                    assigner.result
            took = least({"update": update, "fresh": lambda costs=costs: [nushbaret.linear_sum_assignment(costs)
                                                                          for _ in range(10)]}, 10)
            print(f"{kind}, {n} x {n}: a row changed {took['update']:.0f}, a fresh solve {took['fresh']:.0f}",
                  flush=True)


def main():
    print("with the extension" if direct.extension() else "without the extension")
    for name in KINDS:
        for shape in SIZES:
            if max(shape) <= MOST:
                compare(name, shape)
    batches()
    changes()


if __name__ == "__main__":
    main()
