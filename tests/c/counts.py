#!/usr/bin/env python3
"""Calls nushbaret_counts, nushbaret_counts_from, nushbaret_check_counts and nushbaret_check_shortage over the shared
library: each fault of the lists, and drawn problems, each against a plain slow program that looks at all plans and
reads the definitions. tests/c/counts.py LIBRARY [PROBLEMS]"""
import ctypes
import itertools
import random
import sys
from ctypes import c_int32, c_int64, c_size_t, c_uint32, c_uint64, c_uint8

(BEST, ROWS_LACK, COLUMNS_LACK, SENSE, DENSE, BUFFER, SIZE, LENGTH, ROW, ORDER, COLUMN, GROUP, ROW_COUNTS,
 COLUMN_COUNTS, COST, MEMORY, STOPPED, UNDECIDED, NUMBERS, TWICE, ROW_LOOSE, COLUMN_LOOSE, SLACK, MARKS, ENOUGH,
 SIDE) = range(26)
KINDS = {"rows": c_uint32, "columns": c_uint32, "costs": c_int64, "row_least": c_uint32, "row_most": c_uint32,
         "column_least": c_uint32, "column_most": c_uint32, "groups": c_uint32}


class Info(ctypes.Structure):
    _fields_ = [("total_high", c_int64), ("total_low", c_uint64), ("place", c_uint64), ("row", c_uint64),
                ("column", c_uint64)]


class Record(ctypes.Structure):
    _fields_ = [("state", c_uint64 * 8)]


def given(problem):
    arguments = [c_uint32(problem["sense"])]
    for name, kind in KINDS.items():
        one = problem[name]
        arguments += [(kind * max(1, len(one)))(*one), c_size_t(len(one))]
    return arguments


def with_length(kind, values):
    return [(kind * max(1, len(values)))(*values), c_size_t(len(values))]


def pairs_of(problem):
    """The listed pairs, from 0, with costs."""
    if not problem["rows"] and not problem["columns"] and problem["costs"]:
        m = len(problem["column_least"])
        return [(k // m, k % m, cost) for k, cost in enumerate(problem["costs"])]
    return [(i - 1, j - 1, cost) for i, j, cost in zip(problem["rows"], problem["columns"], problem["costs"])]


def group(problem, j):
    """The group of column j from 0, or one of its own."""
    groups = problem["groups"]
    return groups[j] if groups and groups[j] else -1 - j


def solve(library, problem, budget=None, start=()):
    """The code and what was written: (code, plan, row numbers, column numbers, row marks, column marks, the first three
    before the last call, info). The search begins from a state and numbers of columns, if they are given."""
    n, m, k = len(problem["row_least"]), len(problem["column_least"]), len(problem["costs"])
    plan, rows, columns = (c_uint8 * max(1, k))(*[7] * k), (c_int64 * n)(*[7] * n), (c_int64 * m)(*[7] * m)
    row_marks, column_marks = (c_uint8 * n)(*[7] * n), (c_uint8 * m)(*[7] * m)
    info, record = Info(7, 7, 7, 7, 7), Record()
    if start:
        record.state[:], columns[:] = start
    buffers = [plan, c_size_t(k), rows, c_size_t(n), columns, c_size_t(m)]
    buffers += [row_marks, c_size_t(n), column_marks, c_size_t(m)]
    code, before = STOPPED, (list(plan)[:k], list(rows), list(columns))
    if budget is None:
        code = library.nushbaret_counts(*given(problem), *buffers, ctypes.byref(info))
    calls = 0
    while budget is not None and code == STOPPED and calls < 10**5:
        calls += 1
        before = list(plan)[:k], list(rows), list(columns)
        code = library.nushbaret_counts_from(*given(problem), *buffers, c_uint64(budget), ctypes.byref(record),
                                             ctypes.byref(info))
    return code, list(plan)[:k], list(rows), list(columns), list(row_marks), list(column_marks), before, info


def keeps(problem, pairs, chosen):
    taken = set()
    row_counts, column_counts = [0] * len(problem["row_least"]), [0] * len(problem["column_least"])
    for k in chosen:
        i, j, _ = pairs[k]
        if (i, group(problem, j)) in taken:
            return False
        taken.add((i, group(problem, j)))
        row_counts[i] += 1
        column_counts[j] += 1
    sides = [("row", row_counts), ("column", column_counts)]
    return all(low <= count <= high for side, counts in sides
               for low, count, high in zip(problem[f"{side}_least"], counts, problem[f"{side}_most"]))


def best_of_all(problem, pairs):
    """The best cost of all plans, or None."""
    best = None
    for size in range(len(pairs) + 1):
        for chosen in itertools.combinations(range(len(pairs)), size):
            if keeps(problem, pairs, chosen):
                cost = sum(pairs[k][2] for k in chosen)
                if best is None or (cost < best if problem["sense"] == 0 else cost > best):
                    best = cost
    return best


def proves(problem, pairs, plan, r, v):
    """Whether numbers prove a plan best, by the definition."""
    if len(plan) != len(pairs) or len(r) != len(problem["row_least"]) or len(v) != len(problem["column_least"]):
        return False
    chosen = [k for k, one in enumerate(plan) if one]
    if not keeps(problem, pairs, chosen):
        return False
    rest = [(cost if problem["sense"] == 0 else -cost) - r[i] - v[j] for i, j, cost in pairs]
    for k, (i, j, _) in enumerate(pairs):
        own = [q for q in chosen if pairs[q][0] == i and group(problem, pairs[q][1]) == group(problem, j)]
        if plan[k] and rest[k] > 0 or any(rest[q] > rest[k] for q in own) or rest[k] < 0 and not own:
            return False
    for side, least, most, numbers in ((0, "row_least", "row_most", r), (1, "column_least", "column_most", v)):
        for one, number in enumerate(numbers):
            count = sum(pairs[k][side] == one for k in chosen)
            if number > 0 and count != problem[least][one] or number < 0 and count != problem[most][one]:
                return False
    return True


def lacks(problem, pairs, side, rows, columns):
    """Whether marks are a shortage of a side, by the definition."""
    def outside(i, j):
        return rows[i] and not columns[j] if side == ROWS_LACK else columns[j] and not rows[i]
    apart = len({(i, group(problem, j)) for i, j, _ in pairs if outside(i, j)})
    if side == ROWS_LACK:
        return (sum(low for low, mark in zip(problem["row_least"], rows) if mark)
                > sum(high for high, mark in zip(problem["column_most"], columns) if mark) + apart)
    return (sum(low for low, mark in zip(problem["column_least"], columns) if mark)
            > sum(high for high, mark in zip(problem["row_most"], rows) if mark) + apart)


def check(library, problem, plan, r, v):
    info = Info(7, 7, 7, 7, 7)
    code = library.nushbaret_check_counts(*given(problem), *with_length(c_uint8, plan), *with_length(c_int64, r),
                                          *with_length(c_int64, v), ctypes.byref(info))
    return code, info


def check_shortage(library, problem, side, rows, columns):
    info = Info(7, 7, 7, 7, 7)
    return library.nushbaret_check_shortage(*given(problem), c_uint32(side), *with_length(c_uint8, rows),
                                            *with_length(c_uint8, columns), ctypes.byref(info))


def drawn(dice):
    n, m = dice.randint(1, 3), dice.randint(1, 4)
    dense = dice.random() < 0.2
    every = [(i, j) for i in range(1, n + 1) for j in range(1, m + 1)]
    pairs = every if dense else sorted(dice.sample(every, dice.randint(0, min(9, n * m))))
    costs = [dice.choice([dice.randint(-3, 3), dice.randint(-10**12, 10**12)]) for _ in pairs]
    least = [dice.choice([0, 0, 1, 2]) for _ in range(n + m)]
    most = [low + dice.choice([0, 1, 2]) for low in least]
    groups = dice.choice([[], [dice.randint(0, min(m, 2)) for _ in range(m)]])
    if dice.random() < 0.2:
        least, most, groups = [1] * n + [0] * m, [1] * (n + m), []
    return {"sense": dice.randint(0, 1), "rows": [] if dense else [i for i, _ in pairs],
            "columns": [] if dense else [j for _, j in pairs], "costs": costs,
            "row_least": least[:n], "row_most": most[:n], "column_least": least[n:], "column_most": most[n:],
            "groups": groups}


def want(what, holds):
    if not holds:
        sys.exit(f"counts: {what}")


def total(info):
    return info.total_high * 2**64 + info.total_low


def judge_answer(library, problem, answer):
    code, plan, r, v, rows, columns, before, info = answer
    pairs = pairs_of(problem)
    best = best_of_all(problem, pairs)
    want(f"code {code} of {problem}, whose best is {best}", code == BEST if best is not None else code in (1, 2))
    if code == BEST:
        cost = sum(pairs[k][2] for k, one in enumerate(plan) if one)
        want(f"no proof of {problem}", proves(problem, pairs, plan, r, v) and cost == best == total(info))
        want("marks were written", rows == [7] * len(rows) and columns == [7] * len(columns))
        want("the checker says no", check(library, problem, plan, r, v)[0] == BEST)
        return
    want(f"no shortage of {problem}", lacks(problem, pairs, code, rows, columns))
    want("a plan was written", (plan, r, v) == before)
    want("the checker says no", check_shortage(library, problem, code, rows, columns) == code)


def judge_checkers(library, problem, dice):
    """Lists and marks that nobody found, against the definitions."""
    pairs = pairs_of(problem)
    plan = [dice.choice([0, 0, 1, 200]) for _ in pairs]
    r = [dice.choice([0, 0, 1, -2**63, 2**63 - 1]) for _ in problem["row_least"]]
    v = [dice.randint(-2, 2) for _ in problem["column_least"]]
    is_best = check(library, problem, plan, r, v)[0] == BEST
    want(f"another verdict on {problem}", is_best == proves(problem, pairs, plan, r, v))
    for side in (ROWS_LACK, COLUMNS_LACK):
        rows, columns = [dice.randint(0, 1) for _ in r], [dice.randint(0, 2) for _ in v]
        code = check_shortage(library, problem, side, rows, columns)
        is_short = lacks(problem, pairs, side, rows, columns)
        want(f"another verdict on a shortage of {problem}", code == (side if is_short else ENOUGH))
    want("marks too short", check_shortage(library, problem, ROWS_LACK, rows + [0], columns) == MARKS)
    want("a side", check_shortage(library, problem, 3, rows, columns) == SIDE)
    want("numbers too long", check(library, problem, plan, r + [0], v)[0] == NUMBERS)


def judge_widths(library, dice):
    """Rows that list all columns in their order, next to the same pairs in another order, with costs of several
    widths."""
    for greatest in (3, 2**31 - 1, 2**31, 10**12):
        n, m = dice.randint(20, 40), dice.randint(16, 40)
        dense = {"sense": dice.randint(0, 1), "rows": [], "columns": [], "row_least": [1] * n, "row_most": [2] * n,
                 "costs": [dice.randint(-greatest, greatest) for _ in range(n * m)], "column_least": [0] * m,
                 "column_most": [2 * n // m + 1] * m, "groups": []}
        pairs = [(i, j, cost) for i in range(n) for _, j, cost in dice.sample(pairs_of(dense)[i * m:i * m + m], m)]
        rows, columns, costs = zip(*pairs)
        listed = {**dense, "rows": [i + 1 for i in rows], "columns": [j + 1 for j in columns], "costs": costs}
        answers = [(problem, solve(library, problem)) for problem in (dense, listed)]
        want("two orders of pairs have two totals", len({total(answer[-1]) for _, answer in answers}) == 1)
        for problem, (code, plan, r, v, *_) in answers:
            want(f"no proof of {problem}", code == BEST and proves(problem, pairs_of(problem), plan, r, v))


def most_pairs(pairs):
    """How many rows can have a column each, by one augmenting path after another."""
    owners = {}

    def finds(row, seen):
        for other, column, _ in pairs:
            if other == row and column not in seen:
                seen.add(column)
                if column not in owners or finds(owners[column], seen):
                    owners[column] = row
                    return True
        return False

    return sum(finds(row, set()) for row in {row for row, _, _ in pairs})


def judge_matchings(library, dice):
    """As many pairs as possible: each row and each column takes at most one, and all pairs cost the same."""
    n, m, sense, cost = dice.randint(1, 12), dice.randint(1, 12), dice.randint(0, 1), dice.choice([1, 5, 10**12])
    pairs = [(i, j, cost if sense else -cost) for i in range(n) for j in range(m)
             for _ in range(dice.choice([0, 0, 0, 1, 1, 2]))]
    rows, columns, costs = [i + 1 for i, _, _ in pairs], [j + 1 for _, j, _ in pairs], [one for _, _, one in pairs]
    problem = {"sense": sense, "rows": rows, "columns": columns, "costs": costs, "row_least": [0] * n,
               "row_most": [1] * n, "column_least": [0] * m, "column_most": [1] * m, "groups": []}
    for budget in (None, 0, 1, 20):
        code, plan, r, v, *_, info = solve(library, problem, budget)
        want(f"no proof of {problem}", code == BEST and proves(problem, pairs, plan, r, v))
        want(f"a total of {problem}", abs(total(info)) == cost * most_pairs(pairs))


def faults(library):
    whole = {"sense": 0, "rows": [1, 1, 2], "columns": [1, 2, 1], "costs": [3, 1, 2], "row_least": [1, 1],
             "row_most": [1, 1], "column_least": [0, 0], "column_most": [1, 1], "groups": []}
    table = [({}, BEST, 7), ({"sense": 2}, SENSE, 7), ({"rows": [], "columns": []}, DENSE, 7),
             ({"row_least": [], "row_most": []}, SIZE, 7), ({"rows": [1, 1]}, LENGTH, 7),
             ({"row_most": [1]}, LENGTH, 7),
             ({"groups": [0]}, LENGTH, 7), ({"rows": [1, 3, 2]}, ROW, 1), ({"rows": [0, 1, 2]}, ROW, 0),
             ({"rows": [1, 2, 1]}, ORDER, 2), ({"columns": [1, 3, 1]}, COLUMN, 1), ({"groups": [2, 3]}, GROUP, 1),
             ({"row_least": [1, 2]}, ROW_COUNTS, 1), ({"column_least": [2, 0]}, COLUMN_COUNTS, 0),
             ({"costs": [3, 1, 10**12 + 1]}, COST, 2), ({"costs": [-10**12 - 1, 1, 2]}, COST, 0)]
    for change, code, place in table:
        problem = {**whole, **change}
        answer = solve(library, problem)
        want(f"code {answer[0]} for {change}", answer[0] == code and answer[-1].place == place)
        judged = check(library, problem, [0] * len(problem["costs"]), [0] * len(problem["row_least"]), [0, 0])
        want(f"code {judged[0]} of the check for {change}", judged[0] == code or code == BEST)
    n, m = (c_int64 * 2)(), (c_uint8 * 2)()
    buffers = [(c_uint8 * 3)(), c_size_t(2), n, c_size_t(2), n, c_size_t(2), m, c_size_t(2), m, c_size_t(2)]
    code = library.nushbaret_counts(*given(whole), *buffers, ctypes.byref(Info()))
    want("a plan too short", code == BUFFER)


def main():
    library = ctypes.CDLL(sys.argv[1])
    for name in ("nushbaret_counts", "nushbaret_counts_from", "nushbaret_check_counts", "nushbaret_check_shortage"):
        getattr(library, name).restype = c_int32
    faults(library)
    dice = random.Random(78)
    for _ in range(10):
        judge_widths(library, dice)
    for _ in range(200):
        judge_matchings(library, dice)
    for _ in range(int(sys.argv[2]) if sys.argv[2:] else 500):
        problem = drawn(dice)
        judge_answer(library, problem, solve(library, problem))
        judge_answer(library, problem, solve(library, problem, dice.choice([0, 1, 50])))
        numbers = [dice.choice([-1, 1]) * dice.getrandbits(dice.randint(1, 63)) for _ in problem["column_least"]]
        start = [1, 0, 0, 0, 0, dice.choice([0, 2**64 - 1]), 0, 0], numbers
        judge_answer(library, problem, solve(library, problem, 0, start))
        judge_checkers(library, problem, dice)


if __name__ == "__main__":
    main()
