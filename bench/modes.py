#!/usr/bin/env python3
"""Measures `auction_cli solve` in both modes, and what first prices save, next to plain Rust, in one run.

Run it at the top of the repository after `rt run` built the program: bench/modes.py [PROGRAM [modes|starts]].
It writes its inputs below bench/out and needs rustc and cc; scipy is measured too where python3 has it. Programs
take turns, and of each the least time counts. Workers' runs differ from time to time; the cost is compared.
"""
import os
import subprocess
import sys

from measure import OUT, PLAIN, PROGRAM, answer, build, contested_problem, fastest, line, problem, scipy_beside, written

PLAIN_WORKERS = os.path.join(OUT, "plain_workers")


def compared(what, path, wanted=0, words=(), repeats=3, refresh="1"):
    print(f"{what}, refresh {refresh}")
    plain = [word.strip("-") for word in words]
    programs = [
        ("  rounds", PROGRAM, ["solve", *words]),
        ("  plain rounds, 64 bits", PLAIN, ["solve", "narrow", *plain]),
    ]
    for workers in ("1", "2", "4"):
        chosen = ["--mode", "workers", "--workers", workers, "--refresh", refresh]
        programs.append((f"  {workers} workers", PROGRAM, ["solve", *chosen, *words]))
        programs.append((f"  {workers} workers, plain, 64 bits", PLAIN_WORKERS,
                         [workers, refresh, "narrow", "counts", *plain]))
    best = fastest(programs, path, wanted, repeats=repeats)
    costs = {answer(ran.printed)[0] for ran in best.values()}
    assert len(costs) == 1, costs
    for name, ran in best.items():
        line(name, ran, ran.errors.decode().strip())


def modes():
    for n in (2000, 4000):
        for greatest in (1000, 1000000):
            path = problem(f"solving_{n}_{greatest}.txt", str(n), "1", str(greatest), "7")
            compared(f"n = {n}, costs 1..{greatest}, dense", path)
            scipy_beside(path)
    for n in (300, 1000):
        path = problem(f"roster_{n}.txt", str(n), "1", "10", "7")
        compared(f"n = {n}, costs 1..10", path)
        scipy_beside(path)
    n = 1000
    rows = (" ".join(str(1000000 if j == 0 else 1 + (i * 7919 + j * 104729) % 1000) for j in range(n)) + "\n"
            for i in range(n))
    compared(f"n = {n}, one dear column", written("dear.txt", [f"{n}\n", *rows]))
    path = problem("solving_sparse.txt", "8192", "10", "1", "1000", "5", maker="make_sparse_problem.py")
    compared("n = 8192, 10 pairs a person, sparse", path, words=["--sparse"])
    compared("50 persons for 49 objects, among 1000, sparse", contested_problem(n, 50), 1, ["--sparse"])


def changed(path, part, seed):
    """The problem with a part of its rows redrawn."""
    with open(path) as file:
        first, *rows = file.read().splitlines()
    n = int(first)
    state = seed
    for i in range(0, n, part):
        fresh = []
        for _ in range(n):
            state = (state * 6364136223846793005 + 1442695040888963407) % 2**64
            fresh.append(str(1 + (state >> 33) % 1000))
        rows[i] = " ".join(fresh)
    return written(f"changed_{n}_{part}.txt", [first + "\n", *(row + "\n" for row in rows)])


def starts():
    n = 2000
    path = problem(f"solving_{n}_1000.txt", str(n), "1", "1000", "7")
    report = os.path.join(OUT, "start.txt")
    with open(path) as read, open(report, "w") as file:
        subprocess.run([PROGRAM, "solve", "--prices"], stdin=read, stdout=file, check=True)
    for part, changed in ((100, "1 %"), (10, "10 %"), (n, "one row")):
        other = changed(path, part, 11)
        print(f"n = {n}, costs 1..1000, {changed} of the rows changed")
        programs = []
        for mode in ("rounds", "workers"):
            programs.append((f"  {mode}, cold", PROGRAM, ["solve", "--mode", mode]))
            programs.append((f"  {mode}, from the report", PROGRAM, ["solve", "--mode", mode, "--start", report]))
        programs.append(("  plain rounds, cold", PLAIN, ["solve", "counts"]))
        programs.append(("  plain rounds, from the report", PLAIN, ["solve", "counts", "start=" + report]))
        best = fastest(programs, other, 0)
        assert len({answer(ran.printed)[0] for ran in best.values()}) == 1
        for name, ran in best.items():
            line(name, ran, ran.errors.decode().strip())


def main():
    words = sys.argv[2:]
    build(rounds=PLAIN, workers=PLAIN_WORKERS)
    if "starts" not in words:
        modes()
    if "modes" not in words:
        starts()


if __name__ == "__main__":
    main()
