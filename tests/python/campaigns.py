#!/usr/bin/env python3
"""Holds the package against all plans of many drawn problems, up to 6 x 7: the best, whether it is the only one, the
next, the first ones, the worst pair, who can change places, the fewest changes, changed rows and columns, counts.

tests/python/campaigns.py [COUNT [FIRST]], with PYTHONPATH=python, NumPy and SciPy. It prints a line with what it saw,
or ends at the first wrong answer and names its turn: `1 TURN` draws this one again.
"""
import functools
import itertools
import math
import random
import sys
from collections import Counter
from decimal import Decimal
from fractions import Fraction

import numpy as np
from scipy import sparse

import drawn
import nushbaret
from counts.test_counts import Roster
from nushbaret.costs.problem import of_whole_numbers
from nushbaret.counts.planned import planned, with_fewest_changes
from nushbaret.lap import fewest
from nushbaret.lap.solving import best_plan
from nushbaret.roster import single_nodes

ONES = {
    "whole": lambda draw: draw.randint(-draw.span, draw.span),
    "decimals": lambda draw: Decimal(draw.randint(-draw.span, draw.span)).scaleb(-draw.randint(0, 3)),
    "fractions": lambda draw: Fraction(draw.randint(-draw.span, draw.span), draw.randint(1, 7)),
    "beyond": lambda draw: draw.randint(-1, 1) * 10**40 + draw.randint(0, draw.span),
    "cents": lambda draw: draw.randint(-draw.span, draw.span) / 100,
}


def want(holds, *what):
    if not holds:
        raise AssertionError(" ".join(map(str, what)))


def costs_of(draw, turn):
    """Costs, None where a pair is forbidden; the kind of form that they get; whether they are to be greatest."""
    draw.span, n, m = draw.choice((0, 1, 4, 50, 10**12)), draw.randint(1, 6), draw.randint(1, 7)
    n, m = (m, n) if turn % 4 == 3 else (n, m)
    share, kind = draw.choice((1, 1, 0.9, 0.7, 0.4)), draw.choice((*ONES, *ONES, *drawn.KINDS))
    if kind in drawn.KINDS:
        return drawn.doubles(draw, n, m, kind, share), draw.randrange(3), draw.random() < 0.5
    costs = [[ONES[kind](draw) if draw.random() < share else None for _ in range(m)] for _ in range(n)]
    return costs, draw.randrange(3) if kind in ("whole", "cents") else 0, draw.random() < 0.5


def given(costs, form, maximize):
    """Costs as lists, as an array, or as a sparse matrix."""
    out = -np.inf if maximize else np.inf
    if form == 1 and not any(None in row for row in costs):
        return np.array(costs)
    if form == 2 and any(cost is not None for row in costs for cost in row):
        pairs = [(cost, row, column) for row, line in enumerate(costs) for column, cost in enumerate(line)
                 if cost is not None]
        numbers, rows, columns = zip(*pairs)
        return sparse.coo_matrix((numbers, (rows, columns)), (len(costs), len(costs[0])))
    return [[out if cost is None else cost for cost in row] for row in costs] if form == 1 else costs


def in_units(costs):
    """Costs as whole numbers, and how many make 1: floats are the decimals that they print as."""
    exact = drawn.exactly(costs, True)
    unit = math.lcm(*(cost.denominator for row in exact for cost in row if cost is not None))
    return [[None if cost is None else int(cost * unit) for cost in row] for row in exact], unit


@functools.lru_cache(None)
def columns_of(n, m, assigned):
    """The column of each row, m for none, in all plans with so many pairs, in order."""
    if n == 0:
        return np.zeros((int(assigned == 0), 0), int)
    found = []
    for column in range(m + 1):
        rest = columns_of(n - 1, m, assigned - (column < m))
        rest = rest[(rest != column).all(axis=1)] if column < m else rest
        found.append(np.column_stack([np.full(len(rest), column), rest]))
    return np.concatenate(found)


class AllPlans:
    """All plans of most pairs, in the promised order: the sum and the column of each row, m for none."""

    def __init__(self, costs, maximize):
        self.costs, self.maximize, (n, self.m) = costs, maximize, (len(costs), len(costs[0]))
        numbers = np.array([[*(cost or 0 for cost in row), 0] for row in costs], object)
        if max(map(abs, numbers.flat)) < 2**59:
            numbers = numbers.astype(np.int64)
        allowed = np.array([[*(cost is not None for cost in row), True] for row in costs])
        for self.assigned in range(min(n, self.m), -1, -1):
            columns = columns_of(n, self.m, self.assigned)
            columns = columns[allowed[np.arange(n), columns].all(axis=1)]
            if len(columns):
                break
        self.sign, pairs = -1 if maximize else 1, numbers[np.arange(n), columns]
        order = np.argsort(self.sign * pairs.sum(axis=1), kind="stable")
        self.columns, self.pairs, self.sums = columns[order], pairs[order], pairs[order].sum(axis=1)
        self.best = int((self.sums == self.sums[0]).sum())

    def first(self, count):
        return list(zip(map(int, self.sums[:count]), self.columns[:count].tolist()))

    def of(self, total):
        """The plans of this sum."""
        return [(int(total), columns) for columns in self.columns[self.sums == total].tolist()]

    def is_fairest(self, columns):
        """Whether no plan has a better worst pair, and of those with one as good none a better sum."""
        worst = np.where(self.columns < self.m, self.sign * self.pairs, (self.sign * self.pairs).min()).max(axis=1)
        sums = self.sign * self.sums
        return columns in self.columns[(worst == worst.min()) & (sums == sums[worst == worst.min()].min())].tolist()


def placed(plan, unit, n, m):
    """The cost of a plan in units, and the column of each row."""
    own = dict(zip(map(int, plan.rows), map(int, plan.columns)))
    return Fraction(plan.cost) * unit, [own.get(row, m) for row in range(n)]


def plans(draw, turn):
    """One problem and all questions."""
    if turn % 8 == 7:
        return counts(draw)
    costs, form, maximize = costs_of(draw, turn)
    (n, m), (whole, unit), matrix = (len(costs), len(costs[0])), in_units(costs), given(costs, form, maximize)
    known = AllPlans(whole, maximize)
    result = nushbaret.solve(matrix, maximize, partial=True)
    own = placed(result, unit, n, m)
    want(own in known.first(known.best), "best", matrix, own)
    want(result.is_unique() == (known.best == 1), "only one", matrix)
    other = result.next_best()
    if other is None:
        want(len(known.sums) == 1, "no next", matrix)
    else:
        cost, columns = placed(other, unit, n, m)
        want(columns != own[1] and (cost, columns) in known.of(known.sums[1]), "next", matrix, columns)
    for k in {1, draw.choice((2, 3, 7)), draw.choice((20, 20, 10000))}:
        listed = [placed(plan, unit, n, m) for plan in nushbaret.k_best(matrix, k, maximize, partial=True)]
        want(listed == known.first(k), "the first", k, matrix, listed)
    worst = placed(nushbaret.bottleneck(matrix, maximize, partial=True), unit, n, m)
    want(worst in known.of(worst[0]) and known.is_fairest(worst[1]), "worst pair", matrix, worst)
    if unit == 1 and max(abs(cost or 0) for row in whole for cost in row) <= 10**12 and known.assigned:
        alike(draw, known)
    if form < 2:
        changes(draw, costs, maximize, form)
    return "ties" if known.best > 1 else "one best"


def alike(draw, known):
    """Who can change places, and the fewest changes, of whole costs."""
    (n, m), sign = (len(known.costs), len(known.costs[0])), -1 if known.maximize else 1
    pairs = [(row, column) for row in range(n) for column in range(m) if known.costs[row][column] is not None]
    best = [{pair for pair in enumerate(columns) if pair[1] < m} for _, columns in known.first(known.best)]
    free, (rows, columns) = set.union(*best) - set.intersection(*best), map(list, zip(*pairs))
    numbers = [sign * known.costs[row][column] for row, column in pairs]
    nodes = single_nodes.RosterNodes([*range(n)], [*range(m)], rows, columns, numbers)
    problem = of_whole_numbers(n, m, rows, columns, numbers)
    plan = best_plan(problem, True)
    swaps = single_nodes.swaps_of(nodes, plan)
    want(all(any(row in swap.persons and column in swap.objects for swap in swaps) for row, column in free)
         and sorted(row for swap in swaps for row in swap.persons) == sorted({row for row, _ in free})
         and sorted(column for swap in swaps for column in swap.objects) == sorted({column for _, column in free}),
         "who can change places", known.costs, swaps)
    kept = set(zip(draw.sample(range(n), min(n, m)), draw.sample(range(m), min(n, m))))
    found = fewest.fewest_changes(problem, kept) if known.assigned == min(n, m) else None
    chosen = {*(zip(found.rows, found.columns) if found else single_nodes.kept_most(nodes, plan, kept))}
    want(chosen in best and len(chosen - kept) == min(len(those - kept) for those in best), "fewest changes",
         known.costs, kept, chosen)


def changes(draw, costs, maximize, form):
    """An Assigner after changed rows, columns and costs, and rows more or fewer."""
    out = -np.inf if maximize else np.inf
    costs = [[out if cost is None and form else cost for cost in row] for row in costs]
    assigner = nushbaret.Assigner(given(costs, form, maximize), maximize)
    for _ in range(3):
        n, m, like = len(costs), len(costs[0]), draw.choice(costs)
        row, column = draw.randrange(n), draw.randrange(m)
        what = draw.choice(("row", "column", "cost", "add", "remove"))
        if what == "column":
            new = [draw.choice(line) for line in costs]
            assigner.update_column(column, new)
            costs = [line[:column] + [cost] + line[column + 1:] for line, cost in zip(costs, new)]
        elif what == "remove" and n > 1:
            assigner.remove_row(row)
            del costs[row]
        elif what == "add" and n < 6:
            costs.append(draw.sample(like, m))
            assigner.add_row(costs[-1])
        else:
            costs[row] = draw.sample(like, m) if what == "row" else [
                draw.choice(like) if place == column else cost for place, cost in enumerate(costs[row])]
            assigner.update(row, costs[row])
        if draw.random() < 0.7:
            held(assigner, [[None if cost in (None, out) else cost for cost in line] for line in costs], maximize)


def held(assigner, costs, maximize):
    """The result of an Assigner next to all plans."""
    (whole, unit), (n, m) = in_units(costs), (len(costs), len(costs[0]))
    known = AllPlans(whole, maximize)
    try:
        result = assigner.result
    except nushbaret.Infeasible:
        return want(known.assigned < min(n, m), "no plan", costs)
    want(placed(result, unit, n, m) in known.of(known.sums[0]) and known.assigned == min(n, m), "after a change", costs)


def counts(draw):
    """A problem with counts and groups: the plans in order, who could swap, and the fewest changes."""
    roster = Roster(draw)
    found = sorted(plan[:2] for plan in roster.plans())
    best = [set(pairs) for *worth, pairs in roster.plans() if tuple(worth) == found[0]]
    part = planned(roster.counted(), True).plans
    want(set(part.pairs()) in best, "counts", roster.__dict__)
    free = sorted(pair for those in part.free_pairs() for pair in those)
    want(free == sorted(set.union(*best) - set.intersection(*best)), "swaps by counts", roster.__dict__, free)
    own = [found[0][1], *(found[0][1] + other.more for other in itertools.islice(part.after(), 8))]
    want(own == [cost for missed, cost in found if missed == found[0][0]][:9], "by counts in order", roster.__dict__)
    kept = {pair for pair in set.union(*best) | {(0, 0)} if draw.random() < 0.4}
    changed = set(with_fewest_changes(part, kept).pairs())
    want(changed in best and len(changed ^ kept) == min(len(those ^ kept) for those in best), "changes by counts",
         roster.__dict__, kept)
    return "counts"


def main():
    count, first = map(int, (sys.argv[1:] + ["1000", "0"][len(sys.argv) - 1:])[:2])
    seen = Counter()
    for turn in range(first, first + count):
        try:
            seen[plans(random.Random(turn), turn)] += 1
        except BaseException:
            print(f"turn {turn}:", file=sys.stderr)
            raise
    print(f"{count} problems as all plans say:", ", ".join(f"{number} {what}" for what, number in sorted(seen.items())))


if __name__ == "__main__":
    main()
