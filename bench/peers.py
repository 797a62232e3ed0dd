#!/usr/bin/env python3
"""Measures Nushbaret next to other solvers of the assignment problem, on the same inputs, in one run.

bench/peers.py [PROGRAM] at the top of the repository, after `rt run` built the program and c/build.sh the library. Of
the others it takes those that it finds, and says which: SciPy where python3 has it, LEMON and dlib where c++ finds
their headers (in Debian python3-scipy, liblemon-dev, libdlib-dev). It writes its inputs below bench/out. Solvers take
turns, and of each the least of three times counts; all find the same cost, or it stops. It prints two tables of
seconds, of processor time and by the clock: of a whole run, reading and printing included, and in brackets of solving
alone, when the costs lie in memory. It also draws the first table, as bench/out/peers.svg; bench/peers.svg is a copy of
one.

A third table has rectangles, costs 1..10^6, from Python, next to SciPy: processor time of solving alone, and by how
much the first call in a process raises its peak of memory. bench/peers.py rectangles prints this table alone.
"""
import os
import resource
import subprocess
import sys
import time

from measure import HERE, OUT, PROGRAM, problem
from picture import picture

sys.path.insert(0, os.path.join(HERE, "..", "python"))
import nushbaret

try:
    import numpy
    import scipy
    from scipy import sparse
    from scipy.optimize import linear_sum_assignment
    from scipy.sparse.csgraph import min_weight_full_bipartite_matching
except ImportError:
    scipy = None

REPEATS = 3
# name, its text's maker and words, whether it is sparse
PROBLEMS = [
    ("dense, n = 1000, costs 1..1000", ["make_problem.py", "1000", "1", "1000", "7"], False),
    ("dense, n = 1000, costs 1..10^6", ["make_problem.py", "1000", "1", "1000000", "7"], False),
    ("dense, n = 1000, costs 1..10", ["make_problem.py", "1000", "1", "10", "7"], False),
    ("dense, n = 2000, costs 1..1000", ["make_problem.py", "2000", "1", "1000", "7"], False),
    ("dense, n = 2000, costs 1..10^6", ["make_problem.py", "2000", "1", "1000000", "7"], False),
    ("sparse, n = 8192, 10 pairs a person", ["make_sparse_problem.py", "8192", "10", "1", "1000", "5"], True),
]
# rows, columns, and how many pairs a row lists; None for all
RECTANGLES = [(80, 3000, None), (20, 8000, None), (80, 8000, None), (1000, 2000, None), (1000, 1100, None),
              (3000, 80, None), (500, 4000, 10)]


def built(name, *flags):
    """The peer of that name in peers/, or None where it can't be built here."""
    program = os.path.join(OUT, "peer_" + name)
    words = ["c++", "-O2", "-march=x86-64-v2", "-o", program, os.path.join(HERE, "peers", name + ".cc"), *flags]
    try:
        made = subprocess.run(words, stdout=subprocess.DEVNULL, stderr=subprocess.DEVNULL)
    except FileNotFoundError:
        return None
    return program if made.returncode == 0 else None


def cost_printed(printed):
    return next(int(line.split()[1]) for line in printed.decode().splitlines() if line.startswith("cost"))


class Times:
    """The least seconds that a solver took: of whole runs by the clock and of processor time, and of solving alone."""

    def __init__(self):
        self.least = {}

    def take(self, **seconds):
        for kind, taken in seconds.items():
            self.least[kind] = min(taken, self.least.get(kind, taken))

    def shown(self, measure):
        forms = (("whole_" + measure, "{:.3f}"), ("alone_" + measure, "({:.3f})"))
        return " ".join(form.format(self.least[kind]) for kind, form in forms if kind in self.least)


def of_children():
    used = resource.getrusage(resource.RUSAGE_CHILDREN)
    return used.ru_utime + used.ru_stime


def whole_run(words):
    """A solver that is a program. A peer prints the processor time of solving alone."""
    def run(path, _, times):
        with open(path) as text:
            clock, processor = time.perf_counter(), of_children()
            ran = subprocess.run(words, stdin=text, stdout=subprocess.PIPE, stderr=subprocess.PIPE, check=True)
            times.take(whole_clock=time.perf_counter() - clock, whole_processor=of_children() - processor)
        if ran.stderr:
            times.take(alone_processor=float(ran.stderr))
        return cost_printed(ran.stdout)
    return run


def solve_alone(solve):
    """A solver that is a call."""
    def run(_, costs, times):
        clock, processor = time.perf_counter(), time.process_time()
        cost = solve(costs)
        times.take(alone_clock=time.perf_counter() - clock, alone_processor=time.process_time() - processor)
        return cost
    return run


class Costs:
    """A problem's costs in the forms that calls take: a square array, or listed pairs of which each stands once."""

    def __init__(self, path, is_sparse):
        with open(path) as text:
            numbers = numpy.array(text.read().split(), dtype=numpy.int64)
        self.n, numbers = int(numbers[0]), numbers[1:]
        if is_sparse:
            persons, objects, costs = numbers.reshape(-1, 3).T
            order = numpy.lexsort((costs, objects, persons))
            pairs = (persons * (self.n + 1) + objects)[order]
            order = order[numpy.insert(pairs[1:] != pairs[:-1], 0, True)]
            self.persons, self.objects, self.costs = (part[order].copy() for part in (persons - 1, objects - 1, costs))
            self.matrix = sparse.csr_matrix((self.costs, (self.persons, self.objects)), (self.n, self.n))
        else:
            self.square = numbers.reshape(self.n, self.n)
            self.matrix = sparse.csr_matrix(self.square)


def by_library(costs):
    if hasattr(costs, "square"):
        return nushbaret.solve(costs.square).cost
    return nushbaret.solve_sparse(costs.n, costs.n, costs.persons, costs.objects, costs.costs).cost


def by_scipy(costs):
    return int(costs.square[linear_sum_assignment(costs.square)].sum())


def by_sparse_scipy(costs):
    return int(costs.matrix[min_weight_full_bipartite_matching(costs.matrix)].sum())


class Rectangle:
    """Drawn costs of so many rows and columns, all pairs or so many a row."""

    def __init__(self, n_rows, n_columns, pairs):
        draw = numpy.random.default_rng(n_rows * n_columns)
        if pairs is None:
            self.square = draw.integers(1, 10**6, (n_rows, n_columns), endpoint=True)
            return
        columns = numpy.concatenate([draw.choice(n_columns, pairs, replace=False) for _ in range(n_rows)])
        rows = numpy.repeat(numpy.arange(n_rows), pairs)
        self.matrix = sparse.csr_matrix((draw.integers(1, 10**6, len(rows), endpoint=True), (rows, columns)),
                                        (n_rows, n_columns))


def by_call(costs):
    """By the package's call in SciPy's manner, and for pairs by its own."""
    if hasattr(costs, "square"):
        return int(costs.square[nushbaret.linear_sum_assignment(costs.square)].sum())
    return nushbaret.solve_sparse(costs.matrix).cost


def held(word):
    """A line of this process's state, in MB."""
    with open("/proc/self/status") as status:
        return next(int(line.split()[1]) for line in status if line.startswith(word)) / 1024


def tell_memory(place, name):
    """Prints by how many MB the peak of this process is higher in its first call on a rectangle."""
    n_rows, n_columns, pairs = RECTANGLES[int(place)]
    costs, solve = Rectangle(n_rows, n_columns, pairs), calls_on(pairs)[name]
    solve(Rectangle(3, 4, None if pairs is None else 4))
    with open("/proc/self/clear_refs", "w") as refs:
        refs.write("5")
    before = held("VmRSS")
    solve(costs)
    print(f"{max(held('VmHWM') - before, 0):.1f}")


def memory(place, name):
    """What a process of its own reports of its memory; empty where the system can't."""
    ran = subprocess.run([sys.executable, os.path.abspath(__file__), "memory", str(place), name],
                         stdout=subprocess.PIPE, stderr=subprocess.DEVNULL)
    return ran.stdout.decode().strip()


def calls_on(pairs):
    return {"library": by_call, "SciPy": by_scipy if pairs is None else by_sparse_scipy}


def rectangles():
    """A line a rectangle: seconds of either call, the ratio, and memory."""
    yield "| rows, columns, pairs a row | library for C, from Python | SciPy | ratio | MB beyond the costs | of SciPy |"
    yield "|---|---|---|---|---|---|"
    for place, (n_rows, n_columns, pairs) in enumerate(RECTANGLES):
        costs, times, answers, calls = Rectangle(n_rows, n_columns, pairs), {}, set(), calls_on(pairs)
        for _ in range(REPEATS):
            for name, solve in calls.items():
                answers.add(solve_alone(solve)(None, costs, times.setdefault(name, Times())))
        assert len(answers) == 1, (n_rows, n_columns, answers)
        own, theirs = (times[name].least["alone_processor"] for name in calls)
        taken = " | ".join(memory(place, name) for name in calls)
        yield (f"| {n_rows}, {n_columns}, {pairs or n_columns} | {own:.4f} | {theirs:.4f} | {own / theirs:.2f} | "
               f"{taken} |")


def solvers(is_sparse, lemon, dlib):
    """Those that are there and take this kind of problem."""
    kind = "sparse" if is_sparse else "dense"
    flags = ["--sparse"] if is_sparse else []
    program = [PROGRAM, "solve", *flags]
    found = [("program, rounds", whole_run(program)),
             ("program, 1 worker", whole_run([*program, "--mode", "workers", "--workers", "1"])),
             ("program, 4 workers", whole_run([*program, "--mode", "workers", "--workers", "4"]))]
    if scipy:
        found += [("library for C, from Python", solve_alone(by_library)),
                  ("SciPy, sparse", solve_alone(by_sparse_scipy))]
        found += [] if is_sparse else [("SciPy, dense", solve_alone(by_scipy))]
    if lemon:
        found += [("LEMON, cost scaling", whole_run([lemon, "scaling", kind])),
                  ("LEMON, network simplex", whole_run([lemon, "simplex", kind]))]
    if dlib and not is_sparse:
        found += [("dlib", whole_run([dlib]))]
    return found


def measure(what, path, is_sparse, lemon, dlib):
    """The times of each solver that takes this problem."""
    costs = Costs(path, is_sparse) if scipy else None
    times, answers = {}, set()
    for _ in range(REPEATS):
        for name, run in solvers(is_sparse, lemon, dlib):
            answers.add(run(path, costs, times.setdefault(name, Times())))
    assert len(answers) == 1, (what, answers)
    return times


def table(measured, measure):
    """A line a solver, a column a problem."""
    names = list(dict.fromkeys(name for times in measured.values() for name in times))
    yield "| seconds " + ("of processor time" if measure == "processor"
                          else "by the clock") + " | " + " | ".join(measured) + " |"
    yield "|---" * (len(measured) + 1) + "|"
    for name in names:
        shown = [times[name].shown(measure) if name in times else "" for times in measured.values()]
        yield f"| {name} | " + " | ".join(shown) + " |"


def draw(measured, foot):
    """The picture of processor times."""
    problems = [(what, {name: tuple(times.least.get(kind) for kind in ("whole_processor", "alone_processor"))
                        for name, times in rows.items()}) for what, rows in measured.items()]
    heading = ("Seconds of processor time, the least of three, on a scale of powers of ten. In outline: whole runs, "
               "with reading and printing; filled: solving alone")
    with open(os.path.join(OUT, "peers.svg"), "w") as file:
        file.write(picture(heading, problems, foot))


def main():
    if sys.argv[1:] == ["rectangles"]:
        print(*rectangles(), sep="\n")
        return
    if sys.argv[1:2] == ["memory"]:
        tell_memory(*sys.argv[2:])
        return
    os.makedirs(OUT, exist_ok=True)
    lemon, dlib = built("lemon", "-llemon"), built("dlib")
    there = [f"SciPy {scipy.__version__}"] if scipy else []
    there += [name for name, program in (("LEMON", lemon), ("dlib", dlib)) if program]
    found = f"{', '.join(there) or 'no peer'}; load {os.getloadavg()[0]:.1f} on {os.cpu_count()} processors"
    print("found:", found)
    measured = {}
    for what, (maker, *words), is_sparse in PROBLEMS:
        path = problem("_".join(["peers", *words]) + ".txt", *words, maker=maker)
        measured[what] = measure(what, path, is_sparse, lemon, dlib)
    for kind in "processor", "clock":
        print("", *table(measured, kind), sep="\n")
    draw(measured, found)
    if scipy:
        print("", *rectangles(), sep="\n")


if __name__ == "__main__":
    main()
