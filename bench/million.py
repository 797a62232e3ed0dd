#!/usr/bin/env python3
"""Solves a drawn sparse problem of a million persons and objects by the library for C, and checks what it finds:
bench/million.py [LIBRARY [PERSONS [PAIRS [MOST]]]] Each person lists PAIRS objects (10) at costs from 1 to MOST
(1000), among them one of its own, so that there is an assignment. LIBRARY is a libnushbaret.so, c/out/libnushbaret.so
if none is given. It prints the seconds of processor time of the call and of the check, and by how many MB the call
raised the greatest memory of this process. It ends with status 1 if the checker doesn't accept the answer, or if no
time or memory of the machine is left.
"""
import array
import ctypes
import os
import random
import resource
import sys
import time

HERE = os.path.dirname(os.path.abspath(__file__))
LIST, COUNT = ctypes.c_void_p, ctypes.c_size_t


def drawn(persons, pairs, most):
    """Three lists: persons, objects and costs of the pairs."""
    draw = random.Random(7)
    own = array.array("I", range(1, persons + 1))
    draw.shuffle(own)
    of_persons, of_objects, costs = array.array("I"), array.array("I"), array.array("q")
    for person in range(1, persons + 1):
        of_persons.extend([person] * pairs)
        of_objects.append(own[person - 1])
        of_objects.extend(1 + int(draw.random() * persons) for _ in range(pairs - 1))
        costs.extend(1 + int(draw.random() * most) for _ in range(pairs))
    return of_persons, of_objects, costs


def words(*lists):
    """Each list as a call takes it: its address and its length."""
    for one in lists:
        yield LIST(one.buffer_info()[0])
        yield COUNT(len(one))


def timed(call, *arguments):
    begin = time.process_time()
    code = call(*arguments)
    return code, time.process_time() - begin


def most_memory():
    return resource.getrusage(resource.RUSAGE_SELF).ru_maxrss / 1024


def main():
    path = sys.argv[1] if len(sys.argv) > 1 else os.path.join(HERE, "..", "c", "out", "libnushbaret.so")
    persons, pairs, most = (int(word) for word in (sys.argv[2:] + ["1000000", "10", "1000"][len(sys.argv[2:]) :]))
    library = ctypes.CDLL(path)
    lists = drawn(persons, pairs, most)
    objects, owners = array.array("I", bytes(4 * persons)), array.array("I", bytes(4 * persons))
    prices, info = array.array("q", bytes(8 * persons)), (ctypes.c_int64 * 6)()
    size = (ctypes.c_uint32(0), COUNT(persons), COUNT(persons))
    before = most_memory()
    code, seconds = timed(library.nushbaret_sparse, *size, *words(*lists, objects, owners, prices), ctypes.byref(info))
    memory = most_memory() - before
    total = info[0]
    verdict, checking = timed(library.nushbaret_check, *size, *words(*lists, objects, prices), ctypes.byref(info))
    print(
        f"{persons} persons, {pairs} pairs each, costs to {most}: code {code}, total {total}, {seconds:.2f} s, "
        f"{memory:.0f} MB; check: code {verdict}, {checking:.2f} s"
    )
    return 0 if code == verdict == 0 else 1


if __name__ == "__main__":
    sys.exit(main())
