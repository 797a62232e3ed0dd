#!/usr/bin/env python3
"""Writes a dense problem with costs drawn from a seed: make_problem.py N LEAST GREATEST SEED.

The numbers come from a linear congruential generator of 64 bits, so that every machine writes
the same file. examples/hundred_persons.txt is `make_problem.py 100 1 1000 20261122`.
"""
import sys


def costs(count, least, greatest, seed):
    state = seed
    for _ in range(count):
        state = (state * 6364136223846793005 + 1442695040888963407) % 2**64
        yield least + (state >> 33) % (greatest - least + 1)


def main():
    n, least, greatest, seed = (int(word) for word in sys.argv[1:5])
    drawn = costs(n * n, least, greatest, seed)
    out = sys.stdout
    out.write(f"{n}\n")
    for _ in range(n):
        out.write(" ".join(str(next(drawn)) for _ in range(n)) + "\n")


if __name__ == "__main__":
    main()
