#!/usr/bin/env python3
"""Measures reading alone, of texts that are refused at their end, by `auction_cli solve` next to plain Rust, in one
run.

Run it at the top of the repository after `rt run` in crates/auction_cli: bench/reading.py [PROGRAM..]. It writes its
inputs below bench/out and needs rustc and cc. Programs take turns, and of each the least processor time counts.
"""
import os
import sys

from measure import PLAIN, PROGRAM, build, fastest, problem

TURNS = 6
TAIL = "x\n"


def in_columns(path, width):
    """The same numbers, each in a column of so many bytes."""
    wide = path.replace(".txt", f"_columns_{width}.txt")
    if not os.path.exists(wide):
        with open(path) as narrow, open(wide, "w") as file:
            file.writelines("".join(word.rjust(width) for word in row.split()) + "\n" for row in narrow)
    return wide


def texts():
    """Each text with what it is and how it is read."""
    yield "dense, n = 4000", problem("reading_4000.txt", "4000", "1", "1000", "7", tail=TAIL), []
    triples = problem("reading_triples.txt", "5000", "300", "1", "1000", "7", maker="make_sparse_problem.py", tail=TAIL)
    yield "sparse, 1.5 million triples", triples, ["--sparse"]
    narrow = problem("reading_2000.txt", "2000", "1", "1000", "7", tail=TAIL)
    yield "dense, n = 2000, in columns of eight", in_columns(narrow, 8), []


def main():
    build(rounds=PLAIN)
    proved = sys.argv[1:] or [PROGRAM]
    for what, path, words in texts():
        programs = [(name, name, ["solve", *words]) for name in proved]
        programs.append(("plain Rust", PLAIN, ["read", *(word.strip("-") for word in words)]))
        best = fastest(programs, path, 3, repeats=TURNS)
        plain = best["plain Rust"].processor
        print(f"{what}, {os.path.getsize(path) / 1e6:.0f} MB")
        for name, ran in best.items():
            print(f"  {ran.processor:6.3f} s  {ran.processor / plain:5.2f}  {name}", flush=True)


if __name__ == "__main__":
    main()
