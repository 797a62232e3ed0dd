#!/usr/bin/env python3
"""Measures a war of prices: three persons and three objects, all costs equal, from the first prices 0, 0 and 5 * 10^6.
One person waits at a time, so that all workers but one have no work, however many there are.

Run it at the top of the repository after `rt run` built the program: bench/war.py [PROGRAM]. Runs take turns; the least
times count.
"""
import os

from measure import OUT, PROGRAM, Run, build, written

REPEATS = 3
WORKERS = (1, 2, 4, 16, 64)


def war():
    """The problem, and a report on it whose last price is far above the others."""
    path = written("war.txt", ["3\n"] + ["1 1 1\n"] * 3)
    report = Run(PROGRAM, ["solve", "--prices"], path, 0, None).printed.decode().splitlines()
    lines = [line for line in report if not line.startswith("price")]
    return path, written("war_report.txt", [line + "\n"
                                            for line in [*lines, "price 1 0", "price 2 0", "price 3 5000000"]])


def main():
    os.makedirs(OUT, exist_ok=True)
    build()
    path, report = war()
    best = {}
    for _ in range(REPEATS):
        for workers in WORKERS:
            words = ["solve", "--mode", "workers", "--workers", str(workers), "--start", report]
            ran = Run(PROGRAM, words, path, 0, None)
            clock, processor = best.get(workers, (ran.clock, ran.processor))
            best[workers] = min(clock, ran.clock), min(processor, ran.processor)
    for workers, (clock, processor) in best.items():
        print(f"{workers:2} workers {clock:8.3f} s, {processor:8.3f} s of processors")


if __name__ == "__main__":
    main()
