#!/usr/bin/env python3
"""Compares rounds on all processors with rounds on one, idle and with as many busy loops as there are processors.

Run it at the top of the repository after `rt run` built the program: bench/steady.py [PROGRAM [idle|busy]]. It writes
its inputs below bench/out and needs rustc and cc. Runs on all processors and on one take turns, five of each, and the
least times count. A ratio above 1.2 is marked (1.35 where the run on one processor takes less than 0.2 s).
"""
import os
import subprocess
import sys

from measure import OUT, PROGRAM, Run, build, contested_problem, problem, written

REPEATS = 5


def like_rows(n):
    """Persons and objects each have a part of the cost, drawn to 400,000, and a small part is the pair's own."""
    state = 11

    def drawn(most):
        nonlocal state
        state = (state * 6364136223846793005 + 1442695040888963407) % 2**64
        return 1 + (state >> 33) % most

    persons = [drawn(400000) for _ in range(n)]
    objects = [drawn(400000) for _ in range(n)]
    rows = (" ".join(str(u + v + drawn(50)) for v in objects) + "\n" for u in persons)
    return written(f"like_rows_{n}.txt", [f"{n}\n", *rows])


def equal_rows(n):
    row = " ".join(str(1 + j * 7919 % 1000) for j in range(n)) + "\n"
    return written(f"ties_{n}.txt", [f"{n}\n"] + [row] * n)


def kinds():
    """Each problem by name, with the words for it and the status that its run ends with."""
    for n in (1000, 2000, 4000, 8192):
        yield f"dense {n}, costs 1..1000", problem(f"solving_{n}_1000.txt", str(n), "1", "1000", "7"), [], 0
    yield "dense 1000, costs 1..10^6", problem("solving_1000_1000000.txt", "1000", "1", "1000000", "7"), [], 0
    yield "like rows, 1000", like_rows(1000), [], 0
    yield "equal rows, 300", equal_rows(300), [], 0
    sparse = problem("solving_sparse.txt", "8192", "10", "1", "1000", "5", maker="make_sparse_problem.py")
    yield "sparse 8192, 10 pairs", sparse, ["--sparse"], 0
    yield "50 persons for 49 objects", contested_problem(1000, 50), ["--sparse"], 1


def least(path, words, wanted):
    """The least seconds by the clock of runs on all processors and on one, in turns, and of processor time on all."""
    spread, alone, processor = [], [], []
    for _ in range(REPEATS):
        ran = Run(PROGRAM, ["solve", *words], path, wanted, None)
        spread.append(ran.clock)
        processor.append(ran.processor)
        alone.append(Run(PROGRAM, ["solve", *words], path, wanted, "0").clock)
    return min(spread), min(alone), min(processor)


def measure(load):
    loops = [subprocess.Popen([sys.executable, "-c", "while True: pass"]) for _ in range(load)]
    print(f"with {load} busy loops at the same time")
    try:
        for name, path, words, wanted in kinds():
            spread, alone, processor = least(path, words, wanted)
            allowed = 1.35 if alone < 0.2 else 1.2
            note = "  MORE THAN ALLOWED" if spread > allowed * alone else ""
            print(f"  {name:28} {spread:8.3f} s, on one processor {alone:8.3f} s, ratio {spread / alone:5.2f}, "
                  f"{processor:8.3f} s of processors{note}", flush=True)
    finally:
        for loop in loops:
            loop.kill()


def main():
    os.makedirs(OUT, exist_ok=True)
    build()
    chosen = sys.argv[2] if len(sys.argv) > 2 else "both"
    if chosen != "busy":
        measure(0)
    if chosen != "idle":
        measure(os.cpu_count())


if __name__ == "__main__":
    main()
