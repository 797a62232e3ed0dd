#!/usr/bin/env python3
"""Calls the shared library on many drawn problems, and judges what it says by the definitions, which are read here.

tests/c/campaigns.py LIBRARY NAME [COUNT [FIRST]], with NumPy. It prints a line with what it saw, or ends at the first
wrong answer and names its turn: `LIBRARY NAME 1 TURN` draws this one again.

refused  proofs with one change, for each call that takes one: it is taken exactly where it still proves its claim
doubles  matrices of doubles with 2 to 30 rows, some with 100: each is decided, with a proof
wild     searches from plans, prices and records of any bits: they end, with a proof or a fault
"""
import random
import sys
from collections import Counter
from ctypes import byref, c_int64, c_size_t, c_uint64, c_void_p

import numpy as np

import counts
import rows
from judged import (ALONE, BEST, COST, GREATEST_PRICE, GREATEST_WIDE, HALL, PRICE, STOPPED, TIED, UNDECIDED, Problem,
                    call, is_certificate_of_doubles, library, of_wide, pointers, unit_of, want, wide)

# One change of a proof.


def changed(draw, numbers, most):
    """The same list with one number changed; small changes mostly."""
    numbers = list(map(int, numbers))
    place = draw.randrange(len(numbers))
    numbers[place] = max(0, draw.choice((numbers[place] + draw.choice((-1, 1)), draw.randint(0, most), numbers[place]
                                         + draw.randint(-3, 3))))
    return numbers


def one_change(draw, objects, prices, m):
    """Objects and prices, one of which is changed, or two objects change places."""
    objects, prices = list(map(int, objects)), list(map(int, prices))
    what = draw.randrange(3)
    if what == 0:
        return changed(draw, objects, m + 1), prices
    if what == 1:
        i, j = draw.randrange(len(objects)), draw.randrange(len(objects))
        objects[i], objects[j] = objects[j], objects[i]
        return objects, prices
    return objects, changed(draw, prices, 2 * max(prices) + 1)


def refused_whole(draw):
    """nushbaret_check, and the calls that begin with it, which are to say the same."""
    problem = Problem(draw, 6, draw.choice((2, 9, 10**12)), 0.3)
    code, info = problem.solve()
    if code == HALL:
        return refused_hall(draw, problem, problem.persons[:info[2]], problem.objects[:info[3]])
    objects, prices = one_change(draw, problem.objects, problem.prices, problem.shape[1])
    holds = problem.is_certificate(problem.costs.tolist(), objects, prices, GREATEST_PRICE)
    given = (*problem.lists(), np.array(objects, np.uint32), np.array(prices, np.uint64).view(np.int64))
    code, _ = call("check", problem.sense, problem.shape, *given)
    want((code == BEST) == holds, "check says", code)
    n, m = problem.shape
    other, margin, found = np.zeros(n, np.uint32), c_int64(), c_size_t()
    plans, totals = np.zeros(3 * n, np.uint32), np.zeros(3, np.int64)
    for name, lists, more in (
            ("unique", (other, np.zeros(m, np.int32)), ()), ("groups", (np.zeros(m, np.uint32),), ()),
            ("next", (), (c_uint64(2**64 - 1), *pointers(other), byref(margin))),
            ("ranked", (), (c_uint64(2**64 - 1), *pointers(plans), *pointers(totals), byref(found)))):
        said, _ = call(name, problem.sense, problem.shape, *given, *lists, more=more)
        want(said in (BEST, TIED, ALONE) if holds else said == code, name, "says", said)
    return "still true" if holds else "plans and prices refused"


def refused_hall(draw, problem, persons, objects):
    sets = [list(map(int, persons)), list(map(int, objects))]
    side = draw.randrange(2)
    one = draw.randint(1, problem.shape[side] + 1)
    sets[side] = sorted(set(sets[side]) ^ {one})
    holds = problem.is_hall_set(*sets)
    code, _ = call("check_hall", None, problem.shape, *problem.lists(), *(np.array(one, np.uint32) for one in sets))
    want((code == HALL) == holds or not len(problem.costs), "check_hall says", code)
    return "still true" if holds else "Hall sets refused"


def refused_bottleneck(draw):
    """A worst pair that is said to be needed, one cost further than it is."""
    problem = Problem(draw, 6, draw.choice((2, 9, 10**6)))
    record = (c_uint64 * 6)()
    code, info = call("bottleneck", problem.sense, problem.shape, *problem.lists(), problem.objects, problem.persons,
                      problem.few, more=(c_uint64(0), record))
    if code == HALL:
        return "no plan"
    bound = c_int64(info[0]).value
    sets = problem.persons[:info[2]], problem.few[:info[3]]
    want(code == BEST and problem.is_hall_set(*sets, bound), "bottleneck", code, bound)
    further = bound - 1 if problem.sense else bound + 1
    listed = problem.costs > further if problem.sense else problem.costs < further
    pairs = [np.array(one, np.uint32)[listed] + 1 for one in (problem.rows, problem.columns)]
    code, _ = call("check_hall", None, problem.shape, *pairs, problem.costs[listed], *sets)
    want(code != HALL and not problem.is_hall_set(*sets, further), "one further is taken")
    return "worst pairs refused"


def refused_wide(draw):
    """Costs of 128 bits, and combined ones for the fewest changes."""
    problem = Problem(draw, 5, draw.choice((2, 9, 10**6)), 0.2)
    n, m = problem.shape
    prices, total = np.zeros((m, 2), np.int64), np.zeros(2, np.int64)
    more = (c_void_p(total.ctypes.data),)
    if draw.random() < 0.5:
        kept = np.array([draw.randint(0, m) for _ in range(n)], np.uint32)
        code, _ = call("fewest_changes", problem.sense, problem.shape, *problem.lists(), kept, problem.objects,
                       problem.persons, prices, more=more)
        costs = [(n + 1) * cost + (1 - 2 * problem.sense) * (kept[row] != column + 1) for row, column, cost in zip(
            problem.rows, problem.columns, problem.costs.tolist())]
    else:
        costs = [cost * 10**draw.choice((0, 20)) + draw.randint(-1, 1) for cost in problem.costs.tolist()]
        code, _ = call("wide", problem.sense, problem.shape, *problem.pairs, wide(costs), problem.objects,
                       problem.persons, prices, more=more)
    if code == HALL:
        return "no plan"
    want(code == BEST and problem.is_certificate(costs, problem.objects, of_wide(prices), GREATEST_WIDE), "wide", code)
    objects, changed_prices = one_change(draw, problem.objects, of_wide(prices), m)
    holds = problem.is_certificate(costs, objects, changed_prices, GREATEST_WIDE)
    code, _ = call("check_wide", problem.sense, problem.shape, *problem.pairs, wide(costs),
                   np.array(objects, np.uint32), wide(changed_prices))
    want((code == BEST) == holds, "check_wide says", code)
    return "still true" if holds else "plans of 128 bits refused"


def refused_counts(draw):
    problem = counts.drawn(draw)
    pairs, (code, plan, row_numbers, column_numbers, row_marks, column_marks, *_) = counts.pairs_of(
        problem), counts.solve(library, problem)
    if code != BEST:
        marks = [row_marks, column_marks]
        one = draw.choice(marks)
        one[draw.randrange(len(one))] ^= 1
        holds = counts.lacks(problem, pairs, code, *marks)
        want((counts.check_shortage(library, problem, code, *marks) == code) == holds, "check_shortage", problem)
        return "still true" if holds else "shortages refused"
    what = draw.choice([one for one in (plan, row_numbers, column_numbers) if one])
    place = draw.randrange(len(what))
    what[place] = 1 - what[place] if what is plan else what[place] + draw.choice((-1, 1))
    holds = counts.proves(problem, pairs, plan, row_numbers, column_numbers)
    code, _ = counts.check(library, problem, plan, row_numbers, column_numbers)
    want((code == BEST) == holds, "check_counts", problem)
    return "still true" if holds else "plans by counts refused"


def refused_rows(draw):
    """A tree on rows, one of whose numbers is changed, or whose claim is one too high."""
    while True:
        case = rows.draw(draw)
        if rows.expected(*case)[0] == rows.SHOWN:
            break
    if case[6] and draw.random() < 0.5:
        case[5][-1] += 1
    else:
        which = draw.choice([which for which in (3, 4, 5, 7, 7) if case[which]])
        place = draw.randrange(len(case[which]))
        if abs(case[which][place]) < 2**62:
            case[which][place] += draw.choice((-1, 1))
    wanted = rows.expected(*case)
    want(rows.call(library, *case) == wanted, "rows", case)
    return "still true" if wanted[0] == rows.SHOWN else "trees refused"


def refused(draw, turn):
    return (refused_whole, refused_wide, refused_bottleneck, refused_doubles, refused_counts,
            refused_rows)[turn % 6](draw)


# Doubles.

DOUBLES = {
    "cents": lambda rng, shape: rng.integers(0, 1001, shape) * 0.01,
    "tenths": lambda rng, shape: rng.integers(0, 101, shape) * 0.1,
    "near ties": lambda rng, shape: np.nextafter(rng.integers(1, 5, shape) / 10, rng.integers(-1, 2, shape) * 9.0),
    "denormals": lambda rng, shape: rng.integers(0, 1000, shape) * 5e-324,
    "to 1e300": lambda rng, shape: rng.random(shape) * 1e300,
    "1e290": lambda rng, shape: rng.integers(0, 1001, shape) * 1e290,
    "below 1e-305": lambda rng, shape: rng.random(shape) * 1e-305,
    "uniform": lambda rng, shape: rng.random(shape),
    "sums": lambda rng, shape: rng.random((shape[0], 1)) + rng.random((1, shape[1])),
    "forbidden": lambda rng, shape: np.where(rng.random(shape) < 0.5, np.inf, rng.integers(0, 30, shape) * 0.01),
    "any size": lambda rng, shape: np.ldexp(rng.random(shape), rng.integers(-40, 40, shape)),
}


def solve_doubles(costs, sense, start=None):
    objects, prices = start or (np.zeros(len(costs), np.uint32), np.zeros(costs.shape[1]))
    persons = np.zeros(len(costs), np.uint32)
    code, info = call("doubles_from" if start else "doubles", sense, costs.shape, np.ascontiguousarray(costs).ravel(),
                      objects, persons, prices)
    return code, info, objects, persons, prices


def judge_doubles(costs, sense, answer):
    """Whether what was decided is so."""
    code, info, objects, persons, prices = answer
    if code == BEST:
        want(is_certificate_of_doubles(costs, sense, objects, prices, bool(info[5] & 1)), "no proof of", costs.tolist())
    elif code == HALL:
        want(is_hall_set_of_doubles(costs, persons[:info[1]], objects[:info[2]]), "no Hall set of", costs.tolist())
    else:
        want(code == UNDECIDED, "code", code)


def is_hall_set_of_doubles(costs, persons, objects):
    listed = np.flatnonzero(np.isfinite(costs[persons.astype(int) - 1]).any(axis=0)) + 1
    return len(objects) < len(persons) == len(set(persons.tolist())) and listed.tolist() == objects.tolist()


def judge_exact(costs, sense):
    """nushbaret_exact_doubles decides where 2^100 units hold all costs; whether they do."""
    shape, (n, m), (unit, whole) = costs.shape, costs.shape, unit_of(costs)
    objects, persons, prices = np.zeros(n, np.uint32), np.zeros(n, np.uint32), np.zeros((m, 2), np.int64)
    total, own_unit = np.zeros(2, np.int64), np.zeros(1, np.int32)
    code, info = call("exact_doubles", sense, shape, costs.ravel(), objects, persons, prices,
                      more=(c_void_p(total.ctypes.data), c_void_p(own_unit.ctypes.data)))
    if whole is None:
        want(code == COST, "beyond 2^100 units it says", code)
        return False
    want(code in (BEST, HALL) and own_unit[0] == unit, "exact doubles", costs.tolist(), code, own_unit, unit)
    if code == HALL:
        want(is_hall_set_of_doubles(costs, persons[:info[2]], objects[:info[3]]), "no Hall set", costs.tolist())
        return True
    held = np.array([0 if one is None else -one if sense else one for one in whole], object).reshape(shape)
    places, numbers = (np.arange(n), objects.astype(int) - 1), np.array(of_wide(prices), object)
    sums = held + numbers
    own = sums[places]
    want(len(set(objects.tolist())) == n and np.isfinite(costs[places]).all() and numbers.min() >= 0
         and not any(np.delete(numbers, places[1])), "no plan", costs.tolist())
    want((np.isinf(costs) | (sums >= own[:, None])).all()
         and sum(held[places]) == of_wide(total)[0] * (1 - 2 * sense), "no proof of", costs.tolist())
    return True


def drawn_doubles(turn):
    rng, kind = np.random.default_rng([80, turn]), list(DOUBLES)[turn % len(DOUBLES)]
    n = 100 if turn % 500 < len(DOUBLES) else int(rng.integers(2, 31))
    m, sense = n + int(rng.integers(0, 2) * rng.integers(0, 6)), turn // len(DOUBLES) % 2
    return kind, DOUBLES[kind](rng, (n, m)) * (1 - 2 * sense), sense


def doubles(_, turn):
    kind, costs, sense = drawn_doubles(turn)
    answer = solve_doubles(costs, sense)
    judge_doubles(costs, sense, answer)
    if answer[0] == UNDECIDED:
        return f"{kind} in 128 bits" if judge_exact(costs, sense) else f"{kind} beyond 2^100 units"
    if turn // len(DOUBLES) % 8 == 0:
        judge_exact(costs, sense)
    return f"{kind}"


def refused_doubles(draw):
    """nushbaret_check_doubles takes a proof of its own with one change only where it still is one."""
    _, costs, sense = drawn_doubles(draw.getrandbits(30) * 500 + 250 + draw.randrange(100))
    costs = np.ascontiguousarray(costs[:6, :7 if draw.random() < 0.5 else 6])
    code, _, objects, _, prices = solve_doubles(costs, sense)
    if code != BEST or costs.shape[0] > costs.shape[1]:
        return "none proved"
    place = draw.randrange(len(prices))
    if draw.random() < 0.5:
        objects[draw.randrange(len(objects))] = draw.randint(1, len(prices))
    else:
        prices[place] = draw.choice((np.nextafter(prices[place], np.inf), np.nextafter(prices[place], -np.inf),
                                     prices[draw.randrange(len(prices))], prices[place] + abs(costs).min()))
    holds = is_certificate_of_doubles(costs, sense, objects, prices)
    code, _ = call("check_doubles", sense, costs.shape, costs.ravel(), objects, prices)
    want(code != BEST or holds, "check_doubles takes", costs.tolist(), objects, prices)
    return ("still true" if code == BEST else "true, left open") if holds else "plans of doubles refused"


# Wild records.


def wild_words(draw, count):
    return (c_uint64 * count)(*(draw.choice((0, draw.randrange(9), draw.getrandbits(32), draw.getrandbits(64),
                                             2**64 - 1, 2**63)) for _ in range(count)))


def in_pieces(draw, words, run):
    """Calls until the search ends; now and then the record changes on the way."""
    is_again = draw.random() < 0.1
    for piece in range(10**5):
        said = run()
        if said[0] != STOPPED and said[0] != counts.STOPPED:
            return said
        if is_again and piece < 9:
            words[draw.randrange(len(words))] = draw.getrandbits(64)
    raise AssertionError("it doesn't end")


def wild(draw, turn):
    if turn % 5 == 3:
        return wild_counts(draw)
    if turn % 5 == 4:
        return wild_doubles(draw, turn)
    problem, words = Problem(draw, 8, draw.choice((1, 9, 10**12)), draw.choice((0, 0.3, 0.7))), wild_words(draw, 6)
    n, m = problem.shape
    if draw.random() < 0.9:
        words[0] = draw.randrange(20) + (draw.randrange(80) << 32)
    problem.objects[:] = [draw.choice((draw.randrange(m + 2), draw.randrange(m + 2), draw.getrandbits(32))) for _ in
                          range(n)]
    problem.prices[:] = [draw.choice((draw.randrange(99), -draw.randrange(2**63))) for _ in range(m)]
    first = [draw.choice((draw.randrange(99), draw.randrange(2 * 10**18))) for _ in range(draw.choice((0, m)))]
    first = np.array(first, np.int64)
    if len(first) and draw.random() < 0.05:
        first[draw.randrange(m)] = draw.choice((-1, -2**63, GREATEST_PRICE + 1))
    budget = c_uint64(draw.choice((0, 0, 0, 1, 9, 99, 10**6, 2**64 - 1)))
    if turn % 5 == 2:
        lists = (*problem.lists(), problem.objects, problem.persons, problem.few)
        code, info = in_pieces(draw, words, lambda: call("bottleneck", problem.sense, problem.shape, *lists, more=(
            budget, words)))
        bound = c_int64(info[0]).value if code == BEST else None
        want(code in (BEST, HALL) and problem.is_hall_set(problem.persons[:info[2]], problem.few[:info[3]], bound),
             "bottleneck", code)
        return "worst pairs"
    name, given = ("dense_from", [problem.costs]) if problem.is_dense else ("sparse_from", problem.lists())
    lists = (*given, first, problem.objects, problem.persons, problem.prices)
    code, info = in_pieces(draw, words, lambda: call(name, problem.sense, problem.shape, *lists, more=(budget, words)))
    if code == PRICE:
        want(not 0 <= first[info[1]] <= GREATEST_PRICE, "a price is refused", first, info[1])
        return "prices refused"
    want(not len(first) or min(first) >= 0 and max(first) <= GREATEST_PRICE, "a price is taken", first)
    if code == HALL:
        want(problem.is_hall_set(problem.persons[:info[2]], problem.objects[:info[3]]), "Hall set")
        return "Hall sets"
    want(code == BEST and problem.is_certificate(problem.costs.tolist(), problem.objects, problem.prices.tolist(),
                                                 GREATEST_PRICE)
         and c_int64(info[0]).value == problem.total(), name, "says", code)
    return "plans"


def wild_counts(draw):
    problem, words = counts.drawn(draw), wild_words(draw, 8)
    pairs, sides = counts.pairs_of(problem), (len(problem["row_least"]), len(problem["column_least"]))
    plan = np.array([draw.choice((0, 1, draw.randrange(256))) for _ in pairs], np.uint8)
    numbers = [np.array([draw.choice((0, draw.randrange(9), -draw.randrange(2**63))) for _ in range(size)], np.int64)
               for size in sides]
    marks = [np.zeros(size, np.uint8) for size in sides]
    lists = [word for values in (plan, *numbers, *marks) for word in pointers(values)]
    budget, info, given = c_uint64(draw.choice((0, 0, 1, 99))), counts.Info(), counts.given(problem)
    code, = in_pieces(draw, words, lambda: (library.nushbaret_counts_from(*given, *lists, budget, words, byref(info)),))
    if code == counts.BEST:
        want(counts.proves(problem, pairs, plan.tolist(), *(one.tolist() for one in numbers)), "counts", problem)
        return "plans by counts"
    if code == counts.UNDECIDED:
        return "counts left open"
    want(code in (counts.ROWS_LACK, counts.COLUMNS_LACK) and counts.lacks(problem, pairs, code, *(
        one.tolist() for one in marks)), "counts", problem, code)
    return "shortages"


def wild_doubles(draw, turn):
    _, costs, sense = drawn_doubles(turn + 20)
    n, m = costs[:8, :9].shape
    costs = np.ascontiguousarray(costs[:n, :m])
    objects = np.array([draw.choice((draw.randrange(m + 2), draw.getrandbits(32))) for _ in range(n)], np.uint32)
    prices = np.frombuffer(draw.randbytes(8 * m)).copy() if draw.random() < 0.5 else np.array(
        [draw.choice((0.0, np.nan, np.inf, -1e300, 5e-324, draw.random())) for _ in range(m)])
    answer = solve_doubles(costs, sense, (objects, prices))
    judge_doubles(costs, sense, answer)
    return "doubles left open" if answer[0] == UNDECIDED else "doubles"


def main():
    name, count, first = sys.argv[2], *map(int, (sys.argv[3:] + ["1000", "0"][len(sys.argv) - 3:])[:2])
    run, seen = {"refused": refused, "doubles": doubles, "wild": wild}[name], Counter()
    for turn in range(first, first + count):
        try:
            seen[run(random.Random(f"{name} {turn}"), turn)] += 1
        except BaseException:
            print(f"{name}, turn {turn}:", file=sys.stderr)
            raise
    print(f"{name}: {count} turns,", ", ".join(f"{number} {what}" for what, number in sorted(seen.items())), flush=True)


if __name__ == "__main__":
    main()
