#!/usr/bin/env python3
"""Runs users of SciPy's call with this package's in its place, and compares what they say: SciPy's own tests of the
call, networkx, scikit-learn and SciPy's own users. What isn't installed is skipped. PYTHONPATH=python, with NumPy and
SciPy.

    bench/clients.py
"""
import importlib
import io
import math
import sys

import numpy as np
import scipy.optimize
from scipy.optimize import linear_sum_assignment as scipys

import nushbaret

# The modules that have the call under its name.
HOLDERS = "scipy.optimize", "sklearn.metrics.cluster._bicluster"
RNG = np.random.default_rng(7)


def loaded(name):
    try:
        return importlib.import_module(name)
    except ImportError:
        return None


def replaced(call):
    """Puts a call in the place of SciPy's wherever it is held."""
    for name in HOLDERS:
        module = loaded(name)
        if module is not None and hasattr(module, "linear_sum_assignment"):
            module.linear_sum_assignment = call


def beside(name, client):
    """Compares what a client says with SciPy's call and with this package's; it is called with a generator."""
    answers = []
    for call in (scipys, counted):
        replaced(call)
        answers.append(client(np.random.default_rng(3)))
    replaced(scipys)
    same = all(math.isclose(first, second, rel_tol=1e-9, abs_tol=1e-9) for first, second in zip(*answers))
    print(f"{name}: {'as with SciPy' if same else 'NOT as with SciPy'}, {len(counted.seen)} calls so far")
    return same


def counted(*words, **named):
    counted.seen.append(1)
    return nushbaret.linear_sum_assignment(*words, **named)


counted.seen = []


def edit_distance(rng):
    """networkx: the distance of graphs, which assigns nodes and edges."""
    networkx = importlib.import_module("networkx")
    for seed in range(4):
        first, second = (networkx.gnp_random_graph(5, 0.5, seed=seed + more) for more in (0, 50))
        yield networkx.graph_edit_distance(first, second)


def matchings(rng):
    """networkx: greatest matchings of bipartite graphs by this package's solve_pairs."""
    networkx = importlib.import_module("networkx")
    for seed in range(5):
        graph = networkx.complete_bipartite_graph(6, 6)
        for _, _, held in graph.edges(data=True):
            held["weight"] = int(rng.integers(1, 50))
        theirs = networkx.bipartite.minimum_weight_full_matching(graph, range(6))
        own = nushbaret.solve_pairs(graph)
        yield sum(graph[row][theirs[row]]["weight"] for row in range(6)) - own.cost


def consensus(rng):
    """scikit-learn: how alike two biclusterings are."""
    metrics = importlib.import_module("sklearn.metrics")
    for _ in range(10):
        sides = [tuple(rng.random((4, 30)) < 0.4 for _ in range(2)) for _ in range(2)]
        yield metrics.consensus_score(*sides)


def quadratic(rng):
    """SciPy: quadratic assignment by FAQ, which assigns in each step."""
    for seed in range(5):
        first, second = rng.integers(0, 9, (2, 8, 8))
        yield scipy.optimize.quadratic_assignment(first, second, options={"rng": np.random.RandomState(seed)}).fun


def own_tests():
    """SciPy's tests of the call."""
    tests = loaded("scipy.optimize.tests.test_linear_assignment")
    pytest = loaded("pytest")
    if tests is None or pytest is None:
        return None
    tests.linear_sum_assignment = counted

    class Plugin:
        def pytest_collection_modifyitems(self, items):
            for item in items:
                item.module.linear_sum_assignment = counted
    held, sys.stdout = sys.stdout, io.StringIO()
    try:
        code = pytest.main(["-q", "-p", "no:cacheprovider", "-W", "ignore", tests.__file__], plugins=[Plugin()])
    finally:
        shown, sys.stdout = sys.stdout.getvalue(), held
    print("SciPy's tests of the call:", shown.strip().splitlines()[-1])
    return code == 0


def main():
    good = [own_tests() is not False]
    for needed, client in (("scipy", quadratic), ("networkx", edit_distance), ("networkx", matchings),
                           ("sklearn", consensus)):
        if loaded(needed) is None:
            print(f"{needed} isn't there")
            continue
        good.append(beside(client.__doc__.rstrip("."), lambda rng: list(client(rng))))
    return 0 if all(good) else 1


if __name__ == "__main__":
    sys.exit(main())
