#!/usr/bin/env python3
"""Writes a sparse problem with costs drawn from a seed: make_sparse_problem.py N PAIRS LEAST GREATEST SEED [PERSONS].

Each person lists PAIRS objects drawn at random, one of them its own of a planted assignment (a pair
may be drawn twice); with PERSONS only the first so many list anything. The numbers come from a linear congruential generator of 64 bits, so that every
machine writes the same file.
"""
import sys


def drawn(seed):
    state = seed
    while True:
        state = (state * 6364136223846793005 + 1442695040888963407) % 2**64
        yield state >> 33


def main():
    n, pairs, least, greatest, seed = (int(word) for word in sys.argv[1:6])
    numbers = drawn(seed)
    planted = list(range(1, n + 1))
    for last in range(n - 1, 0, -1):
        other = next(numbers) % (last + 1)
        planted[last], planted[other] = planted[other], planted[last]
    out = sys.stdout
    out.write(f"{n}\n")
    persons = int(sys.argv[6]) if len(sys.argv) > 6 else n
    for person in range(1, persons + 1):
        for k in range(pairs):
            object_ = planted[person - 1] if k == 0 else 1 + next(numbers) % n
            cost = least + next(numbers) % (greatest - least + 1)
            out.write(f"{person} {object_} {cost}\n")


if __name__ == "__main__":
    main()
