#!/usr/bin/env python3
"""Drawn matrices in every form and kind of number, compared with fractions, and a million small calls, after which no
more memory is held. PYTHONPATH=python:tests/python, with NumPy; pandas and SciPy where they are there.

    bench/forms.py [CASES [SEED]]      20000 cases if it isn't given
"""
import random
import resource
import sys
import warnings
from functools import partial

import numpy as np

import nushbaret
from drawn_forms import judge_some

CALLS = 1000000


def drawn(count, seed):
    with warnings.catch_warnings():
        warnings.simplefilter("ignore")
        names = judge_some(random.Random(seed), count)
    print(f"{count} cases of {len(names)} forms: each agrees with the fractions")


def held():
    """The greatest memory so far, in kilobytes."""
    return resource.getrusage(resource.RUSAGE_SELF).ru_maxrss


def calls():
    costs = np.random.default_rng(1).random((3, 4))
    forms = [costs, costs.tolist(), costs.astype(np.float32), np.ma.array(costs)]
    listed = 3, 4, *np.nonzero(costs), costs.ravel()
    calls = [*(partial(nushbaret.linear_sum_assignment, form) for form in forms),
             partial(nushbaret.solve_sparse, *listed), partial(nushbaret.solve, forms[2])]
    for call in calls:
        for _ in range(20000):
            call()
    before = held()
    for _ in range(CALLS // len(calls)):
        for call in calls:
            call()
    more = held() - before
    print(f"{CALLS} small calls: {more} kB more")
    return more < 1024


if __name__ == "__main__":
    drawn(int(sys.argv[1]) if len(sys.argv) > 1 else 20000, int(sys.argv[2]) if len(sys.argv) > 2 else 1)
    sys.exit(0 if calls() else 1)
