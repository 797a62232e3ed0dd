#!/usr/bin/env python3
"""Measures shortest paths by the library for C: whole calls next to those of an earlier release, and to plain Rust and
plain C of Jonker and Volgenant's method; `auction_cli solve` in rounds and with one worker; starts from first prices;
squares and rectangles.

Run it at the top of the repository after c/build.sh and `rt run` in crates/auction_cli: bench/paths.py [PROGRAM
[shares | kinds | large | starts | neighbours | poor | calls | rectangles | memory | whole]]. It writes its inputs
below bench/out and needs rustc, cc, binutils and the repository's history, which has the release (bench/earlier.c
makes its calls). NUSHBARET_ARCHIVE in the environment names an archive to measure in place of c/out/libnushbaret.a.
Calls, plain Rust and plain C take turns in one process (bench/calls.c), one process for each library in turns; of each
the least processor time counts. Of the program it is that of the whole run, on one processor, less that of reading
the same text with a word too many at its end. A run of more than LIMIT seconds is cut off, one of more than a second
isn't repeated. Whole runs by shortest paths come last.
"""
import collections
import os
import subprocess
import sys

from measure import HERE, OUT, PEAK, PROGRAM, build

LIMIT = 10
TIMES = 5
# The release that this library is compared with, and its commit.
RELEASE, COMMIT = "nushbaret-3.0.0-linux-x86_64", "4f4f0a2e"
CALLS, EARLIER, KINDS, LIBRARY, PLAIN_C, RENAMED = (os.path.join(OUT, name) for name in (
    "calls", "calls_earlier", "kinds", "libplain_paths.so", "lapjv.o", "libearlier.a"))
DENSE = (
    "to_10",
    "to_1000",
    "to_million",
    "equal_rows",
    "all_equal",
    "like_rows",
    "products",
    "dear_column",
    "two_costs",
    "dear_marks",
    "dummy_rows",
    "dummy_columns",
     "few_rows")
SPARSE = (("pairs=5", 8192), ("pairs=10", 8192), ("pairs=50", 8192), ("contested=50", 1000), ("contested=50", 8192),
          ("contested=1000", 1000), ("contested=1000", 8192))
RECTANGLES = ((80, 3000, 3000), (20, 8000, 8000), (1000, 2000, 2000),
              (1000, 1100, 1100), (1, 8192, 8192), (500, 4000, 10))
# Persons, objects, the greatest cost (0: points of a square, -1: i * j), and the number of calls.
DRAWN = ((8, 8, 1000, 1000), (50, 50, 10**6, 100), (200, 200, 10**6, 10),
         *((n, n, most, 1) for n, most in ((1000, 1000), (1000, 10**6), (2000, 1000), (2000, 10**6), (4000, 1000),
                                           (4000, 10**6), (4000, 10**12), (8192, 1000), (8192, 10**6),
                                           (8192, 10**12), (200, 0), (1000, 0), (4000, 0), (1000, -1))),
         (1000, 2000, 10**6, 1), (3000, 4000, 10**6, 1), (80, 3000, 10**6, 1), (20, 8000, 10**6, 1))
ROUNDS = ["--mode", "rounds"]
WORKER = ["--mode", "workers", "--workers", "1"]
PATHS = ["--method", "paths"]


def unpack_release():
    """The archive of the earlier release, whose calls begin with `earlier_`."""
    folder = os.path.join(OUT, RELEASE)
    os.makedirs(folder, exist_ok=True)
    packed = subprocess.run(["git", "show", f"{COMMIT}:release/{RELEASE}.tar.gz"],
                            cwd=HERE, stdout=subprocess.PIPE, check=True).stdout
    subprocess.run(["tar", "-xz", "-C", folder], input=packed, check=True)
    [found] = [os.path.join(at, "libnushbaret.a") for at, _, files in os.walk(folder) if "libnushbaret.a" in files]
    names = [f"--redefine-sym=nushbaret_{name}=earlier_nushbaret_{name}" for name in
             ("dense", "dense_from", "sparse", "sparse_from", "check", "check_hall", "version")]
    subprocess.run(["objcopy", *names, found, RENAMED], check=True)
    return RENAMED


def build_calls():
    build(kinds=KINDS)
    plain = os.path.join(HERE, "plain", "paths.rs")
    subprocess.run(["rustc", "--edition", "2024", "-O", "-C", "target-cpu=x86-64-v2",
                   "--crate-type", "cdylib", "-o", LIBRARY, plain], check=True)
    subprocess.run(["cc", "-std=c99", "-O3", "-march=x86-64-v2", "-Wall", "-Wextra", "-c",
                   "-o", PLAIN_C, os.path.join(HERE, "plain", "lapjv.c")], check=True)
    ours = [os.environ.get("NUSHBARET_ARCHIVE", os.path.join(HERE, "..", "c", "out", "libnushbaret.a"))]
    for program, archives in ((CALLS, ours), (EARLIER, [os.path.join(HERE, "earlier.c"), unpack_release()])):
        subprocess.run(["cc", "-std=c99", "-O2", "-Wall", "-Wextra", "-o", program, os.path.join(HERE,
                       "calls.c"), PLAIN_C, *archives, LIBRARY, "-lm", f"-Wl,-rpath,{OUT}"], check=True)


def text_of(kind, n):
    path = os.path.join(OUT, f"{kind}_{n}.txt")
    if not os.path.exists(path):
        with open(path, "w") as file:
            subprocess.run([KINDS, kind, str(n)], stdout=file, check=True)
    return path


def timed(*words, stdin=None, program=CALLS):
    """Seconds of the library, of plain Rust, of plain C, and of a check, by name."""
    printed = subprocess.run([program, *map(str, words)], stdin=stdin,
                             stdout=subprocess.PIPE, check=True, text=True).stdout
    for line in printed.splitlines():
        name, *numbers = line.rsplit(" ", 4)
        yield name, [float(number) for number in numbers]


def both(words_of, path=None):
    """The least of each number of a line of this library, and of the earlier one, in turns of one call each."""
    least = {}
    for program in (CALLS, EARLIER) * TIMES:
        with open(path or os.devnull) as file:
            [(_, numbers)] = timed(*words_of, stdin=file, program=program)
        least[program] = [min(pair) for pair in zip(least.get(program, numbers), numbers)]
    return least[CALLS], least[EARLIER]


def spent(words, path, statuses, limit=LIMIT):
    """The processor time of a run of the program, or None where it was cut off."""
    peak = os.path.join(OUT, "peak.txt")
    with open(path) as file:
        ran = subprocess.run(["taskset", "-c", "0", "timeout", str(limit), PEAK, peak, PROGRAM,
                             "solve", *words], stdin=file, stdout=subprocess.DEVNULL, stderr=subprocess.DEVNULL)
    if ran.returncode == 124:
        return None
    assert ran.returncode in statuses, (words, path, ran.returncode)
    with open(peak) as file:
        return int(file.read().split()[1]) / 1e6


def alone(words, path, bad, repeats):
    """The least time of a run less the least of reading."""
    runs, readings = [], []
    for _ in range(repeats):
        took = spent(words, path, (0, 1))
        if took is None:
            return None
        runs.append(took)
        readings.append(spent(words, bad, (3,)))
        if took > 1:
            break
    return max(min(runs) - min(readings), 0.001)


def printed(seconds):
    return f"over {LIMIT}" if seconds is None else f"{seconds:.4f}"


def ratio(seconds, others):
    return f"{seconds / others:.2f}" if others else ""


def kind(name, n, runs=TIMES, words_of_call=()):
    sparse = "=" in name
    path = text_of(name, n)
    bad = os.path.join(OUT, "bad.txt")
    with open(path, "rb") as source, open(bad, "wb") as file:
        file.write(source.read() + b"x\n")
    (call, rust, c, _), (earlier, *_) = both(("text", 1, "sparse" if sparse else "dense", *words_of_call), path)
    words = ["--sparse"] if sparse else []
    rounds, worker = (alone([*words, *mode], path, bad, runs) for mode in (ROUNDS, WORKER))
    print(f"| {name}, n = {n} | {call:.4f} | {ratio(call, earlier)} | {ratio(call, rust)} | {ratio(call, c)} | "
          f"{printed(rounds)} | {printed(worker)} |",
          flush=True)


def kinds():
    print("| kind | call | of the earlier release | of plain Rust | of plain C | rounds | one worker |")
    for name in DENSE:
        kind(name, 1000)
    for name, n in SPARSE:
        kind(name, n)


def large():
    # Plain Rust takes minutes for the products.
    for name in DENSE:
        kind(name, 4000, 1, ["alone"] if name == "products" else ())


def shares():
    """Calls on drawn costs as shares of the earlier release's, and next to plain Rust and plain C."""
    print("| problem | call | of the earlier release | of plain Rust | of plain C | check, of the earlier release |")
    for n, m, most, count in DRAWN:
        (call, rust, c, check), (earlier, _, _, checked) = both(("drawn", n, m, most, count, 1))
        kind = {0: "points", -1: "i * j"}.get(most, f"costs to {most}")
        print(f"| {n} x {m}, {kind}, {count} calls | {call:.4f} | {ratio(call, earlier)} | {ratio(call, rust)} | "
              f"{ratio(call, c)} | {ratio(check, checked)} |",
              flush=True)


def memory():
    """The greatest memory of one call, as a share of the caller's list."""
    for n, most in ((1000, 10**6), (4000, 1000), (4000, 10**6), (4000, 10**12), (8192, 10**6)):
        [(_, (solving, _, _, checking))] = timed("memory", n, n, most)
        print(f"{n} x {n}, costs to {most}: {solving:.2f} of the list for a call, {checking:.2f} for a check",
              flush=True)


def starts():
    for name, (warm, cold, *_) in timed("starts", TIMES):
        print(f"from first prices, {name}: {warm:.4f} s, {warm / cold:.2f} of {cold:.4f} s cold", flush=True)
    for name, (seconds, *_) in timed("wide"):
        print(f"first prices {name} of three equal objects: {seconds:.6f} s", flush=True)


def neighbours():
    """Calls from the prices of a neighbour next to cold ones, six drawn problems each."""
    ratios = collections.defaultdict(list)
    for name, (warm, cold, *_) in timed("neighbours", TIMES):
        ratios[name].append(warm / cold)
    for name, those in ratios.items():
        print(f"from a neighbour's prices, {name}: {' '.join(f'{ratio:.2f}' for ratio in those)}", flush=True)


def poor():
    """Useless first prices: a call from them next to a cold one."""
    print("| kind | drawn | drawn up to 10^21 | one of 10^21 | turned round |")
    for name in DENSE:
        with open(text_of(name, 1000)) as file:
            ratios = [f"{warm / cold:.2f}" for _, (warm, cold, *_) in timed("poor", TIMES, stdin=file)]
        print(f"| {name} | {' | '.join(ratios)} |", flush=True)


def calls():
    for n, times in ((8, TIMES), (2000, TIMES), (8192, 1)):
        program = min(spent(PATHS, text_of("to_1000", n), (0,), 120) for _ in range(times))
        print(f"the program on one problem of n = {n}, reading and printing included: {program:.4f} s", flush=True)


def rectangles():
    """Calls on n persons, each with so many pairs, and m objects: from first prices, as shares of cold ones."""
    for n, m, each in RECTANGLES:
        for name, (warm, cold, *_) in timed("rectangle", n, m, each, 10**6, TIMES):
            print(f"{n} persons of {each} pairs, {m} objects, from first prices, {name}: {warm:.4f} s, "
                  f"{warm / cold:.2f} of {cold:.4f} s cold",
                  flush=True)


def whole():
    for name, n in (*((name, 1000) for name in DENSE), *SPARSE, *((name, 4000) for name in DENSE)):
        words = [*PATHS, "--sparse"] if "=" in name else PATHS
        least = min(spent(words, text_of(name, n), (0, 1)) for _ in range(TIMES))
        print(f"whole run by shortest paths, {name}, n = {n}: {least:.3f} s", flush=True)


def main():
    build_calls()
    parts = {
    "shares": shares,
    "kinds": kinds,
    "large": large,
    "starts": starts,
    "neighbours": neighbours,
    "poor": poor,
    "calls": calls,
    "rectangles": rectangles,
    "memory": memory,
     "whole": whole}
    for part in sys.argv[2:] or parts:
        parts[part]()


if __name__ == "__main__":
    main()
