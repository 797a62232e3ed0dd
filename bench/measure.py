#!/usr/bin/env python3
"""Measures `auction_cli solve` next to a plain Rust program of the same rounds, on the same inputs, in one run.

Run it at the top of the repository after `rt run` built the program: bench/measure.py [PROGRAM].
It writes its inputs below bench/out and needs rustc and cc; scipy is measured too where python3 has it.
Programs take turns, and of each the least time counts, of the clock and of the processors. One thread means on
one processor (taskset).
"""
import os
import subprocess
import sys
import time

HERE = os.path.dirname(os.path.abspath(__file__))
OUT = os.path.join(HERE, "out")
PROGRAM = sys.argv[1] if len(sys.argv) > 1 else os.path.join(HERE, "..", "crates", "auction_cli", "out", "auction_cli")
PLAIN = os.path.join(OUT, "plain_rounds")
REPEATS = 3
PEAK = os.path.join(OUT, "peak")


def build(**programs):
    """Builds plain programs by their names in plain/, and the launcher."""
    os.makedirs(OUT, exist_ok=True)
    for name, program in programs.items():
        source = os.path.join(HERE, "plain", name + ".rs")
        subprocess.run(["rustc", "--edition", "2024", "-O", "-C", "target-cpu=x86-64-v2", "-o", program, source],
                       check=True)
    subprocess.run(["cc", "-O1", "-o", PEAK, os.path.join(HERE, "peak.c")], check=True)


def problem(name, *words, maker="make_problem.py", tail=""):
    path = os.path.join(OUT, name)
    if not os.path.exists(path):
        with open(path, "w") as file:
            script = os.path.join(HERE, "..", "examples", maker)
            subprocess.run([sys.executable, script, *words], stdout=file, check=True)
            file.flush()
            file.write(tail)
    return path


class Run:
    """One run: seconds by the clock and of processor time, peak memory in MB, and what it wrote."""

    def __init__(self, program, words, stdin, wanted, processors):
        peak = os.path.join(OUT, "peak.txt")
        front = ["taskset", "-c", processors] if processors else []
        with open(stdin) as file:
            start = time.monotonic()
            ran = subprocess.run([*front, PEAK, peak, program, *words], stdin=file, stdout=subprocess.PIPE,
                                 stderr=subprocess.PIPE)
            self.clock = time.monotonic() - start
        assert ran.returncode == wanted, (program, words, ran.returncode)
        with open(peak) as file:
            memory, processor = file.read().split()
        self.memory, self.processor = int(memory) / 1024, int(processor) / 1e6
        self.printed, self.errors = ran.stdout, ran.stderr


def fastest(programs, stdin, wanted, processors=None, repeats=REPEATS):
    """A run of each program with its words, with the least times of all its runs; they take turns."""
    best = {}
    for _ in range(repeats):
        for name, program, words in programs:
            ran = Run(program, words, stdin, wanted, processors)
            before = best.setdefault(name, ran)
            before.clock, before.processor = min(before.clock, ran.clock), min(before.processor, ran.processor)
    return best


def line(what, ran, note=""):
    print(f"{what:32} {ran.clock:8.3f} s, {ran.processor:8.3f} s of processors, {ran.memory:7.1f} MB  {note}",
          flush=True)


def reading():
    """A text with something after its last cost is read whole and then refused."""
    n = 2700
    path = problem("reading.txt", str(n), "1", "999999", "7", tail="x\n")
    size = os.path.getsize(path) / 1e6
    pairs = n * n * 16 / 1024 / 1024
    print(f"reading: n = {n}, {size:.1f} MB of text; the pairs take {pairs:.1f} MB")
    programs = [("auction_cli solve", PROGRAM, ["solve"]), ("plain Rust", PLAIN, ["read"])]
    for name, ran in fastest(programs, path, 3).items():
        line(name, ran, f"{size / ran.clock:.0f} MB/s")


def answer(printed):
    """What was printed, without the line on the sense."""
    lines = printed.split(b"\n")
    return lines[1:] if lines[0].startswith(b"sense") else lines


def solved_beside(path, wanted, words=(), processors=None, repeats=REPEATS):
    """Times of the program and of plain Rust with prices in 128 and in 64 bits; the answers agree."""
    sparse = [word.strip("-") for word in words]
    programs = [
        ("auction_cli solve", PROGRAM, ["solve", *words]),
        ("plain Rust", PLAIN, ["solve", "counts", *sparse]),
        ("plain Rust, 64 bits", PLAIN, ["solve", "narrow", *sparse]),
    ]
    best = fastest(programs, path, wanted, processors, repeats)
    answers = [answer(ran.printed) for ran in best.values()]
    assert answers[0] == answers[1] == answers[2], "the answers differ"
    rounds, bids, accepted = (int(word) for word in best["plain Rust"].errors.split())
    print(f"  {processors or 'all processors'}: {rounds} rounds, {bids} bids, {accepted} accepted")
    proved = best["auction_cli solve"]
    for name, ran in best.items():
        line("  " + name, ran, f"{proved.clock / ran.clock:.2f} {proved.processor / ran.processor:.2f}")
    return answers[0]


def scipy_beside(path):
    """The cost that scipy's solver finds of a dense problem, if scipy is there; prints its time, without reading."""
    try:
        import numpy
        from scipy.optimize import linear_sum_assignment
    except ImportError:
        return None
    with open(path) as file:
        costs = numpy.array(file.read().split()[1:], dtype=numpy.int64)
    n = int(len(costs) ** 0.5)
    costs = costs.reshape(n, n)
    start = time.monotonic()
    rows, columns = linear_sum_assignment(costs)
    print(f"  scipy linear_sum_assignment, without reading {time.monotonic() - start:8.3f} s", flush=True)
    return costs[rows, columns].sum()


def solving(n, greatest):
    path = problem(f"solving_{n}_{greatest}.txt", str(n), "1", str(greatest), "7")
    print(f"solving: n = {n}, costs 1..{greatest}, dense")
    solved_beside(path, 0, processors="0")
    proved = solved_beside(path, 0)
    cost = scipy_beside(path)
    assert cost is None or proved[0] == b"cost %d" % cost


def reading_sparse():
    """The last person lists nothing, so that after one bid of each other person the answer stands."""
    n, pairs = 8192, 820
    path = problem("reading_sparse.txt", str(n), str(pairs), "1", "999999", "7", str(n - 1),
                   maker="make_sparse_problem.py")
    size = os.path.getsize(path) / 1e6
    triples = (n - 1) * pairs
    print(f"reading sparse: n = {n}, {size:.1f} MB of text, {triples / 1e6:.1f} million triples; rows built, and one "
          "bid for each person")
    programs = [
        ("auction_cli solve --sparse", PROGRAM, ["solve", "--sparse"]),
        ("plain Rust", PLAIN, ["solve", "sparse"]),
    ]
    for name, ran in fastest(programs, path, 1).items():
        line(name, ran, f"{size / ran.clock:.0f} MB/s, {ran.memory * 1024 * 1024 / triples:.0f} bytes a triple")


def solving_sparse():
    n, pairs = 8192, 10
    path = problem("solving_sparse.txt", str(n), str(pairs), "1", "1000", "5", maker="make_sparse_problem.py")
    print(f"solving sparse: n = {n}, {pairs} pairs a person, costs 1..1000, an assignment planted")
    solved_beside(path, 0, ["--sparse"])


def written(name, lines):
    path = os.path.join(OUT, name)
    with open(path, "w") as file:
        file.writelines(lines)
    return path


def ties():
    """Persons who are all alike: all of them bid for the same object."""
    for n, repeats in ((100, 3), (300, 3), (1000, 1)):
        row = " ".join(str(1 + j * 7919 % 1000) for j in range(n)) + "\n"
        path = written(f"ties_{n}.txt", [f"{n}\n"] + [row] * n)
        print(f"ties: {n} equal rows, costs 1..1000")
        solved_beside(path, 0, repeats=repeats)


def contested_problem(n, persons):
    """Some persons list one object less than they are; each other one lists its own."""
    lines = [f"{n}\n"]
    for i in range(1, n + 1):
        objects = range(1, persons) if i <= persons else [i]
        lines += [f"{i} {j} {1 + (i * 7919 + j * 104729) % 1000}\n" for j in objects]
    return written(f"contested_{persons}.txt", lines)


def contested():
    """More persons than objects for them: prices rise to the floor, one bid a round."""
    for n, persons, repeats in ((1000, 10, 3), (1000, 50, 3), (1000, 200, 3), (1000, 1000, 1)):
        path = contested_problem(n, persons)
        print(f"contested: {persons} persons for {persons - 1} objects, among {n}")
        solved_beside(path, 1, ["--sparse"], repeats=repeats)


def main():
    build(rounds=PLAIN)
    reading()
    reading_sparse()
    solving_sparse()
    for n in (1000, 2000, 4000):
        for greatest in (1000, 1000000):
            solving(n, greatest)
    ties()
    contested()


if __name__ == "__main__":
    main()
