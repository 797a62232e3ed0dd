#!/usr/bin/env python3
"""Calls nushbaret_rows over the shared library: a table of rows, plans and trees with each code, and 2,000 drawn ones,
each against a plain slow program that reads the definitions and, where a tree is shown, looks at all plans.
tests/c/rows.py LIBRARY"""
import ctypes
import itertools
import random
import sys
from ctypes import c_int32, c_int64, c_size_t, c_uint32, c_uint64, c_uint8

MIN, MAX = -2**63, 2**63 - 1
(SHOWN, NOT_SHOWN, TOO_GREAT, TOO_DEEP, SHAPE, ROW, VARIABLE, LENGTH, START, ROW_VARIABLE, PLAN_NUMBER, BROKEN,
 COST, MEMORY, COST_ROW) = range(15)
KINDS = [c_size_t, c_uint32, c_int64, c_int64, c_int64, c_uint8, c_int64]


class Info(ctypes.Structure):
    _fields_ = [("cost", c_int64), ("place", c_uint64)]


def call(library, n, *lists):
    """The code, and the fields that were written: the others keep what they held."""
    arguments = []
    for kind, one in zip(KINDS, lists):
        arguments += [(kind * max(1, len(one)))(*one), c_size_t(len(one))]
    info = Info(-77, 77)
    code = library.nushbaret_rows(c_size_t(n), *arguments, ctypes.byref(info))
    return code, info.cost if info.cost != -77 else None, info.place if info.place != 77 else None


class Stop(Exception):
    pass


def rows_of(starts, variables, coefficients, least, most):
    for r, (low, high) in enumerate(zip(least, most)):
        terms = list(zip(variables, coefficients))[starts[r]:starts[r + 1]]
        yield (None if low == MIN else low, None if high == MAX else high, terms)


def pairs_at(tree, place, k):
    return [(tree[place + 2 * i], tree[place + 2 * i + 1]) for i in range(k)]


def judge_leaf(n, rows, pairs, place):
    weights, bound, size, lacks = [0] * n, 0, 0, False
    for row, times in pairs:
        least, most, terms = rows[row]
        side = 0 if times == 0 else least if times > 0 else most
        lacks = lacks or side is None
        bound += times * (side or 0)
        size += abs(times * (side or 0))
        for variable, coefficient in terms:
            weights[variable] += times * coefficient
            size += abs(times * coefficient)
    if size >= 2**127:
        raise Stop(TOO_GREAT, place)
    if lacks or sum(w for w in weights if w > 0) >= bound:
        raise Stop(NOT_SHOWN, place)


def judge(n, rows, tree, place, depth):
    """The place after the tree that stands at a place."""
    head = tree[place:place + 2]
    if len(head) < 2 or head[0] not in (0, 1) or head[1] < 0:
        raise Stop(SHAPE, place)
    k, first = head[1], place + 2 + head[0]
    if first + 2 * k > len(tree) or head[0] == 1 and tree[place + 2] == MAX:
        raise Stop(SHAPE, place)
    if head[0] == 1 and depth == 1000:
        raise Stop(TOO_DEEP, place)
    pairs = pairs_at(tree, first, k)
    for i, (named, _) in enumerate(pairs):
        if not 0 <= named < (n if head[0] else len(rows)):
            raise Stop(VARIABLE if head[0] else ROW, first + 2 * i)
    if head[0] == 0:
        judge_leaf(n, rows, pairs, place)
        return first + 2 * k
    high = judge(n, rows + [(None, tree[place + 2], pairs)], tree, first + 2 * k, depth + 1)
    return judge(n, rows + [(tree[place + 2] + 1, None, pairs)], tree, high, depth + 1)


def meets(plan, row):
    least, most, terms = row
    total = sum(c for v, c in terms if plan[v])
    return (least is None or least <= total) and (most is None or total <= most)


def first(of, wrong):
    return next((k for k, one in enumerate(of) if wrong(k, one)), None)


def list_fault(n, starts, variables, coefficients, least, most, plan):
    count = len(starts) - 1
    if (count < 0 or len(coefficients) != len(variables) or len(least) != count or len(most) != count or plan
        and (len(plan) != n or count == 0)):
        raise Stop(LENGTH, None)
    is_no_cost_row = plan and (least[-1] != MIN or most[-1] == MAX)
    for code, of, wrong in [(START, starts, lambda k, s: s < (starts[k - 1] if k else 0) or k == 0 and s or k == count
                             and s != len(variables)), (COST_ROW, [is_no_cost_row], lambda k, is_wrong: is_wrong),
                            (ROW_VARIABLE, variables, lambda k, v: v >= n), (PLAN_NUMBER, plan, lambda k, x: x > 1)]:
        place = first(of, wrong)
        if place is not None:
            raise Stop(code, None if code == COST_ROW else place)


def expected(n, starts, variables, coefficients, least, most, plan, tree):
    """What the call is to answer: the code, the cost and the place."""
    try:
        list_fault(n, starts, variables, coefficients, least, most, plan)
        rows, cost = list(rows_of(starts, variables, coefficients, least, most)), None
        if plan:
            broken = first(rows[:-1], lambda k, row: not meets(plan, row))
            if broken is not None:
                raise Stop(BROKEN, broken)
            cost = sum(c for v, c in rows[-1][2] if plan[v])
            if not MIN <= cost <= MAX:
                raise Stop(COST, None)
        end = judge(n, rows, tree, 0, 0)
        if end != len(tree):
            raise Stop(SHAPE, end)
    except Stop as stop:
        return stop.args[0], None, stop.args[1]
    plans = list(itertools.product([0, 1], repeat=n)) if n <= 12 else []
    assert not any(all(meets(x, row) for row in rows) for x in plans), "a plan meets rows that are shown"
    if plan:
        assert all(sum(c for v, c in rows[-1][2] if x[v]) > most[-1] for x in plans
                   if all(meets(x, row) for row in rows[:-1])), "a plan costs less than is shown"
    return SHOWN, cost, None


def leaf_of(n, rows, fixed, given):
    """The multiples that show that a row can't be met below the fixed variables, if one can't."""
    for r, (least, most, terms) in enumerate(rows[:given]):
        weights = [sum(c for v, c in terms if v == k) for k in range(n)]
        for times, side in [(1, least), (-1, most)]:
            reach = sum(times * w * fixed[k][0] if k in fixed else max(0, times * w) for k, w in enumerate(weights))
            if side is not None and reach < times * side:
                pairs = [r, times]
                for k, (value, row) in fixed.items():
                    w = times * weights[k]
                    if value == 0 and w > 0 or value == 1 and w < 0:
                        pairs += [row, -w]
                return [0, len(pairs) // 2] + pairs
    return None


def tree_of(n, rows, fixed, given):
    """A tree by branching on the variables; its leaves show it where all rows together can't be met."""
    leaf = leaf_of(n, rows, fixed, given)
    if leaf is not None or len(fixed) == n:
        return leaf or [0, 0]
    k = len(fixed)
    halves = [tree_of(n, rows, {**fixed, k: (value, given + k)}, given) for value in (0, 1)]
    return [1, 1, 0, k, 1] + halves[0] + halves[1]


def draw(chance):
    n, count = chance.randint(1, 8), chance.randint(1, 5)
    terms = [[(chance.randrange(n), chance.choice([-3, -2, -1, 1, 2, 3])) for _ in range(chance.randint(0, n))]
             for _ in range(count)]
    plan = [chance.randint(0, 1) for _ in range(n)] if chance.random() < 0.4 else []
    least, most = [], []
    for row in terms:
        middle = sum(c for v, c in row if plan[v]) if plan else chance.randint(-4, 6)
        least.append(MIN if chance.random() < 0.4 else middle - chance.randint(0, 1))
        most.append(MAX if chance.random() < 0.4 else middle + chance.randint(0, 1))
    if plan:
        least[-1], most[-1] = MIN, sum(c for v, c in terms[-1] if plan[v]) - 1
    starts = list(itertools.accumulate([0] + [len(row) for row in terms]))
    lists = [starts, [v for row in terms for v, _ in row], [c for row in terms for _, c in row], least, most]
    rows = list(rows_of(*lists))
    return [n, *lists, plan, tree_of(n, rows, {}, count)]


def spoil(chance, case):
    """Changes a number of a list, or leaves one out."""
    which = chance.choice([1, 2, 3, 4, 5, 6, 7, 7, 7, 7])
    if case[which]:
        at = chance.randrange(len(case[which]))
        if chance.random() < 0.2:
            del case[which][at]
        elif which in (1, 2, 6):
            case[which][at] = chance.randrange(12)
        else:
            number = chance.choice([case[which][at] + 1, case[which][at] - 1, MIN, MAX, 2**62, -1, 0, 1, 10**6])
            case[which][at] = min(MAX, max(MIN, number))


TRIANGLE = [3, [0, 2, 4, 6, 9], [0, 1, 1, 2, 0, 2, 0, 1, 2], [1] * 6 + [-1] * 3, [MIN] * 4, [1, 1, 1, -2], [0, 1, 0],
            [0, 4, 0, -1, 1, -1, 2, -1, 3, -2]]


def with_list(which, value):
    return TRIANGLE[:which] + [value] + TRIANGLE[which + 1:]


def deep(splits):
    """So many splits of no terms at 0, each with a high half that shows itself: 0 is at least 1."""
    return [1, 0, 0] * splits + [0, 4, 0, -1, 1, -1, 2, -1, 3,
                                 -2] + [number for k in reversed(range(splits)) for number in [0, 1, 4 + k, 1]]


# x0 + x1 is at least 1, 5 x0 + 3 x1 from 9 to 4: no plan meets both, and 1 0, of cost 5, isn't the cheapest that meets
# the first. Without a plan the last row is one like the others.
NO_COSTS = [2, [0, 2, 4], [0, 1, 0, 1], [1, 1, 5, 3], [1, 9], [MAX, 4], [1, 0], [0, 2, 1, 1, 1, -1]]


def no_costs(which, value):
    return NO_COSTS[:which] + [value] + NO_COSTS[which + 1:]


TABLE = [(TRIANGLE, (SHOWN, -1, None)), (with_list(6, []), (SHOWN, None, None)),
         (NO_COSTS, (COST_ROW, None, None)), (no_costs(6, []), (SHOWN, None, None)),
         (no_costs(4, [1, MIN]), (NOT_SHOWN, None, 0)), (no_costs(5, [MAX, MAX]), (COST_ROW, None, None)),
         (with_list(5, [1, 1, 1, MAX]), (COST_ROW, None, None)),
         (with_list(4, [MIN, MIN, MIN, -3]), (COST_ROW, None, None)),
         (no_costs(1, [0, 2, 3]), (START, None, 2)), (no_costs(2, [0, 1, 0, 2]), (COST_ROW, None, None)),
         (no_costs(6, [2, 0]), (COST_ROW, None, None)), (no_costs(6, [0, 0]), (COST_ROW, None, None)),
         (with_list(7, [0, 0]), (NOT_SHOWN, None, 0)),
         (with_list(7, [0, 4, 0, -1, 1, -1, 2, -1, 3, -1]), (NOT_SHOWN, None, 0)),
         (with_list(7, [0, 1, 0, 1]), (NOT_SHOWN, None, 0)), (with_list(7, [0, 1, 0, MIN]), (NOT_SHOWN, None, 0)),
         (with_list(7, [0, 4, 0, 1, 1, 1, 2, 1, 3, 1]), (NOT_SHOWN, None, 0)),
         ([1, [0, 3], [0, 0, 0], [MIN, MIN, MIN], [MIN], [-1], [], [0, 1, 0, MIN]], (TOO_GREAT, None, 0)),
         ([1, [0, 1], [0], [MIN], [MIN], [MIN], [], [0, 1, 0, MIN]], (TOO_GREAT, None, 0)),
         ([1, [0, 1], [0], [MIN], [MIN], [-1], [], [0, 1, 0, MIN]], (NOT_SHOWN, None, 0)),
         (with_list(7, deep(1000)), (SHOWN, -1, None)), (with_list(7, deep(1001)), (TOO_DEEP, None, 3000)),
         (with_list(7, []), (SHAPE, None, 0)), (with_list(7, [0]), (SHAPE, None, 0)),
         (with_list(7, [2, 0]), (SHAPE, None, 0)), (with_list(7, [0, -1]), (SHAPE, None, 0)),
         (with_list(7, [0, MIN]), (SHAPE, None, 0)), (with_list(7, [0, MAX]), (SHAPE, None, 0)),
         (with_list(7, [1, 0, 0]), (SHAPE, None, 3)), (with_list(7, [1, 0, MAX, 0, 0, 0, 0]), (SHAPE, None, 0)),
         (with_list(7, TRIANGLE[7] + [0]), (SHAPE, None, 10)), (with_list(7, [0, 1, 4, 0]), (ROW, None, 2)),
         (with_list(7, [0, 2, 0, 1, -1, 0]), (ROW, None, 4)),
         (with_list(7, [1, 2, 0, 0, 1, 3, 1]), (VARIABLE, None, 5)), (with_list(1, []), (LENGTH, None, None)),
         (with_list(3, [1]), (LENGTH, None, None)), (with_list(4, [1]), (LENGTH, None, None)),
         (with_list(5, []), (LENGTH, None, None)), (with_list(6, [0]), (LENGTH, None, None)),
         ([2, [0], [], [], [], [], [0, 1], [0, 0]], (LENGTH, None, None)),
         (with_list(1, [1, 2, 4, 6, 9]), (START, None, 0)), (with_list(1, [0, 4, 2, 6, 9]), (START, None, 2)),
         (with_list(1, [0, 2, 4, 6, 8]), (START, None, 4)), (with_list(1, [0, 2, 4, 2**64 - 1, 9]), (START, None, 4)),
         (with_list(2, [0, 1, 1, 3, 0, 2, 0, 1, 2]), (ROW_VARIABLE, None, 3)),
         (with_list(6, [0, 1, 2]), (PLAN_NUMBER, None, 2)), (with_list(6, [0, 1, 1]), (BROKEN, None, 1)),
         ([2, [0, 2], [0, 1], [MAX, 1], [MIN], [0], [1, 1], [0, 0]], (COST, None, None)),
         ([2, [0, 2], [0, 1], [2, 2], [1], [1], [], [1, 2, 0, 0, 1, 1, 1, 0, 2, 0, 1, 1, -2, 0, 2, 0, -1, 1, 2]],
          (SHOWN, None, None)), ([0, [0], [], [], [], [], [], [0, 0]], (NOT_SHOWN, None, 0)),
         ([0, [0, 0], [], [], [1], [MAX], [], [0, 1, 0, 1]], (SHOWN, None, None))]


def main():
    sys.setrecursionlimit(5000)
    library = ctypes.CDLL(sys.argv[1])
    library.nushbaret_rows.restype = c_int32
    for case, wanted in TABLE:
        assert call(library, *case) == wanted == expected(*case), (case, call(library, *case), wanted, expected(*case))
    chance, seen = random.Random(20261127), {}
    for number in range(2000):
        case = draw(chance)
        for _ in range(chance.choice([0, 1, 1, 2])):
            spoil(chance, case)
        wanted = expected(*case)
        assert call(library, *case) == wanted, (number, case, call(library, *case), wanted)
        seen[wanted[0]] = seen.get(wanted[0], 0) + 1
    assert seen[SHOWN] >= 300 and len(seen) >= 9, seen
    print(f"rows: {len(TABLE)} cases, 2000 drawn: {dict(sorted(seen.items()))}")


if __name__ == "__main__":
    main()
