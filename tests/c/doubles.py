#!/usr/bin/env python3
"""Calls nushbaret_doubles, nushbaret_doubles_from and nushbaret_check_doubles over the shared library: each code, and
drawn problems of many kinds, each against all plans in fractions. What a call doesn't write stays as it was.
tests/c/doubles.py LIBRARY [HOW MANY]"""
import ctypes
import fractions
import itertools
import math
import random
import sys
from ctypes import c_double, c_int32, c_size_t, c_uint32, c_uint64

MIN, MAX = 0, 1
BEST, HALL, SENSE, SIZE, LENGTH, COST, UNLISTED, TWICE, PRICE_RANGE, UNDECIDED = 0, 1, 2, 3, 4, 7, 11, 12, 13, 23
KEPT = 77
INFINITY, NAN = math.inf, math.nan
library = ctypes.CDLL(sys.argv[1])
HOW_MANY = int(sys.argv[2]) if sys.argv[2:] else 60


class Info(ctypes.Structure):
    _fields_ = [(name, c_uint64) for name in ("place", "persons", "objects", "person", "object")] + [
        ("by_margin", c_uint32)
    ]


for call in (library.nushbaret_doubles, library.nushbaret_doubles_from, library.nushbaret_check_doubles):
    call.restype = c_int32


def want(holds, *what):
    if not holds:
        print("not so:", *what)
        sys.exit(1)


def numbers(kind, values):
    return (kind * max(len(values), 1))(*values)


class Answer:
    """What a call returned and wrote."""

    def __init__(self, code, objects, persons, prices, info):
        self.code, self.info = code, info
        self.objects, self.persons, self.prices = list(objects), list(persons), list(prices)

    def fields(self):
        return {name: getattr(self.info, name) for name, _ in Info._fields_}

    def has_only(self, **written):
        """Whether the lists are as they were, and the record too, except these fields."""
        return self.fields() == {**{name: KEPT for name, _ in Info._fields_}, **written}


def solve(sense, n, m, costs, start=None, long=None):
    """One call; `start` has objects and prices, `long` other lengths of objects, persons and prices."""
    sizes = long or (n, n, m)
    objects = numbers(c_uint32, start[0] if start else [KEPT] * sizes[0])
    prices = numbers(c_double, start[1] if start else [KEPT] * sizes[2])
    persons, info = numbers(c_uint32, [KEPT] * sizes[1]), Info(KEPT, KEPT, KEPT, KEPT, KEPT, KEPT)
    before = list(objects), list(persons), list(prices)
    call = library.nushbaret_doubles_from if start else library.nushbaret_doubles
    code = call(
        c_uint32(sense),
        c_size_t(n),
        c_size_t(m),
        numbers(c_double, costs),
        c_size_t(len(costs)),
        objects,
        c_size_t(sizes[0]),
        persons,
        c_size_t(sizes[1]),
        prices,
        c_size_t(sizes[2]),
        ctypes.byref(info),
    )
    answer = Answer(code, objects, persons, prices, info)
    if code == BEST:
        want(
            answer.persons == before[1] and answer.has_only(by_margin=info.by_margin),
            "the best writes",
            answer.fields(),
        )
        want(info.by_margin in (0, 1), "by_margin is", info.by_margin)
    elif code == HALL:
        want(
            answer.persons[info.persons :] == before[1][info.persons :]
            and answer.objects[info.objects :] == before[0][info.objects :]
            and repr(answer.prices) == repr(before[2])
            and answer.has_only(persons=info.persons, objects=info.objects),
            "a Hall set writes",
            answer.fields(),
        )
    else:
        want(
            (answer.objects, answer.persons, repr(answer.prices)) == (before[0], before[1], repr(before[2])),
            code,
            "writes lists",
        )
        want(answer.has_only(**({"place": info.place} if code == COST else {})), code, "writes", answer.fields())
    return answer


def check(sense, n, m, costs, objects, prices):
    info = Info(KEPT, KEPT, KEPT, KEPT, KEPT, KEPT)
    code = library.nushbaret_check_doubles(
        c_uint32(sense),
        c_size_t(n),
        c_size_t(m),
        numbers(c_double, costs),
        c_size_t(len(costs)),
        numbers(c_uint32, objects),
        c_size_t(len(objects)),
        numbers(c_double, prices),
        c_size_t(len(prices)),
        ctypes.byref(info),
    )
    return Answer(code, [], [], [], info)


def plans(sense, n, m, costs):
    """The best sum in fractions; None if there is no plan."""
    exact = [None if math.isinf(cost) else fractions.Fraction(cost) for cost in costs]
    sums = [
        sum(row)
        for row in ([exact[i * m + j] for i, j in enumerate(plan)] for plan in itertools.permutations(range(m), n))
        if None not in row
    ]
    return (min if sense == MIN else max)(sums) if sums else None


def total(m, costs, objects):
    return sum(fractions.Fraction(costs[i * m + j - 1]) for i, j in enumerate(objects))


def is_hall_set(n, m, costs, persons, objects):
    listed = {j + 1 for i in persons for j in range(m) if not math.isinf(costs[(i - 1) * m + j])}
    return (
        sorted(set(persons)) == persons
        and sorted(listed) == objects
        and len(objects) < len(persons)
        and all(1 <= i <= n for i in persons)
    )


def is_right(sense, n, m, costs, answer):
    """Whether the answer is what all plans say; an undecided one is."""
    best = plans(sense, n, m, costs)
    if answer.code == BEST:
        objects = answer.objects
        if (
            best is None
            or len(set(objects)) < n
            or not all(1 <= j <= m for j in objects)
            or any(math.isinf(costs[i * m + j - 1]) for i, j in enumerate(objects))
        ):
            return False
        judged = check(sense, n, m, costs, objects, answer.prices)
        return (
            total(m, costs, objects) == best
            and judged.code == BEST
            and judged.has_only(by_margin=answer.info.by_margin)
        )
    if answer.code == HALL:
        return best is None and is_hall_set(
            n, m, costs, answer.persons[: answer.info.persons], answer.objects[: answer.info.objects]
        )
    return answer.code == UNDECIDED


def worked():
    costs = [4.5, 1.25, 9, 2, 3, INFINITY]
    answer = solve(MIN, 2, 3, costs)
    want(
        answer.code == BEST and answer.objects == [2, 1] and answer.info.by_margin == 1,
        "worked, least",
        answer.code,
        answer.objects,
    )
    answer = solve(MAX, 2, 3, [-cost for cost in costs])
    want(answer.code == BEST and answer.objects == [2, 1], "worked, greatest", answer.code, answer.objects)
    answer = solve(MIN, 2, 2, [0.1, 0.2, 0.1, 0.2])
    want(answer.code == BEST and answer.info.by_margin == 0, "equal plans", answer.code)
    answer = solve(MIN, 1, 1, [-0.0])
    want(answer.code == BEST and answer.objects == [1], "a zero", answer.code)
    answer = solve(MIN, 3, 2, [1, INFINITY] * 3)
    want(
        answer.code == HALL
        and answer.persons[: answer.info.persons] == [1, 2, 3]
        and answer.objects[: answer.info.objects] == [1],
        "three of one",
        answer.code,
    )
    answer = solve(MIN, 2, 2, [1, 2, INFINITY, INFINITY])
    want(
        answer.code == HALL and answer.persons[0] == 2 and answer.info.persons == 1 and answer.info.objects == 0,
        "a person with nothing",
        answer.code,
    )


def faults():
    costs = [1.0, 2.0, 3.0, 4.0]
    for sense, n, m, given, long, code in [
        (2, 0, 2, costs, None, SENSE),
        (9, 2, 2, costs, None, SENSE),
        (MIN, 0, 2, [], None, SIZE),
        (MIN, 2, 0, [], None, SIZE),
        (MIN, 4194305, 1, costs, (0, 0, 1), SIZE),
        (MIN, 1, 2**63, costs, (1, 1, 0), SIZE),
        (MIN, 2, 2, costs[:3], None, LENGTH),
        (MIN, 2, 2, costs + [1.0], None, LENGTH),
        (MIN, 2, 2, costs, (1, 2, 2), LENGTH),
        (MIN, 2, 2, costs, (2, 3, 2), LENGTH),
        (MIN, 2, 2, costs, (2, 2, 1), LENGTH),
        (MIN, 2, 2, [NAN] * 3, None, LENGTH),
    ]:
        answer = solve(sense, n, m, given, long=long)
        want(answer.code == code and answer.has_only(), sense, n, m, given, "gives", answer.code)
    for sense in (MIN, MAX):
        for fault in (NAN, -INFINITY if sense == MIN else INFINITY):
            for place in range(4):
                given = list(costs)
                given[place] = fault
                later = [fault if k >= place else cost for k, cost in enumerate(costs)]
                for doubles in (given, later):
                    for answer in (
                        solve(sense, 2, 2, doubles),
                        solve(sense, 2, 2, doubles, ([1, 2], [0.0, 0.0])),
                        check(sense, 2, 2, doubles, [1, 2], [0.0, 0.0]),
                    ):
                        want(
                            answer.code == COST and answer.has_only(place=place),
                            doubles,
                            "gives",
                            answer.code,
                            answer.info.place,
                        )


def verdicts():
    costs = [1.0, 2.0, 3.0, INFINITY]
    for objects, prices, code, named in [
        ([2, 1], [0.0, -1.0], BEST, {"by_margin": 0}),
        ([2, 1], [0.0, -1.5], BEST, {"by_margin": 1}),
        ([1], [0.0, 0.0], LENGTH, {}),
        ([2, 1], [0.0], LENGTH, {}),
        ([1, 2], [0.0, 0.0], UNLISTED, {"person": 2}),
        ([0, 1], [0.0, 0.0], UNLISTED, {"person": 1}),
        ([2, 3], [0.0, 0.0], UNLISTED, {"person": 2}),
        ([1, 1], [0.0, 0.0], TWICE, {"person": 2}),
        ([2, 1], [0.0, NAN], PRICE_RANGE, {"object": 2}),
        ([2, 1], [INFINITY, NAN], PRICE_RANGE, {"object": 1}),
        ([1, 3], [0.0, NAN], UNLISTED, {"person": 2}),
        ([1, 1], [0.0, NAN], TWICE, {"person": 2}),
        ([2, 1], [0.0, 0.0], UNDECIDED, {}),
        ([2, 1], [-1.5, 0.0], UNDECIDED, {}),
    ]:
        answer = check(MIN, 2, 2, costs, objects, prices)
        want(answer.code == code and answer.has_only(**named), objects, prices, "give", answer.code, answer.fields())
    answer = check(MIN, 3, 3, [1.0] * 9, [1, 1, 9], [0.0, 0.0, NAN])
    want(answer.code == UNLISTED and answer.has_only(person=3), "several faults give", answer.code, answer.fields())
    for sense in (2, 7):
        want(check(sense, 2, 2, costs, [2, 1], [0.0, 0.0]).code == SENSE, "sense", sense)
    want(check(MIN, 0, 2, [], [], [0.0, 0.0]).code == SIZE, "no persons")


def whole(random, low, high):
    return float(random.randint(low, high))


KINDS = {
    "uniform": lambda r, i, j: r.random(),
    "normal": lambda r, i, j: r.gauss(0, 1),
    "whole": lambda r, i, j: whole(r, 0, 9),
    "tenths": lambda r, i, j: whole(r, 0, 9) / 10,
    "large": lambda r, i, j: r.random() * 1e300,
    "small": lambda r, i, j: whole(r, 0, 9) * 5e-324,
    "gate": lambda r, i, j: r.random() if r.random() < 0.4 else 1e9,
    "wide": lambda r, i, j: r.random() if r.random() < 0.4 else 1e15,
    "allowed": lambda r, i, j: r.random() if r.random() < 0.5 else INFINITY,
    "allowed whole": lambda r, i, j: whole(r, -2, 2) if r.random() < 0.6 else INFINITY,
    "nearly equal": lambda r, i, j: 0.1 + whole(r, 0, 2) * 2.0**-56,
    "signs": lambda r, i, j: r.choice([-1, 1]) * r.random() * 10.0 ** r.randint(-3, 3),
}
# Where plans differ by more than rounding at most one in fifty may stay open.
DECIDED = ["uniform", "normal", "whole", "large", "gate", "allowed", "allowed whole"]


def drawn():
    rng = random.Random(1)
    for kind, cost in KINDS.items():
        undecided = count = 0
        for _ in range(HOW_MANY):
            for n, m in ((1, 1), (2, 2), (3, 3), (4, 4), (5, 5), (2, 4), (3, 5), (3, 2)):
                sense = rng.randint(MIN, MAX)
                costs = [cost(rng, i, j) * (1 if sense == MIN else -1) for i in range(n) for j in range(m)]
                answer = solve(sense, n, m, costs)
                want(
                    is_right(sense, n, m, costs, answer),
                    kind,
                    sense,
                    n,
                    m,
                    costs,
                    answer.code,
                    answer.objects,
                    answer.prices,
                )
                start = [rng.randint(0, m + 1) for _ in range(n)], [
                    rng.choice([0.0, 1.0, rng.random(), INFINITY, NAN, -1e300]) for _ in range(m)
                ]
                if answer.code == BEST and rng.random() < 0.5:
                    start = answer.objects[:], answer.prices[:]
                    start[0][rng.randrange(n)] = 0
                again = solve(sense, n, m, costs, start)
                want(
                    is_right(sense, n, m, costs, again),
                    "from",
                    start,
                    kind,
                    sense,
                    n,
                    m,
                    costs,
                    again.code,
                    again.objects,
                    again.prices,
                )
                undecided += answer.code == UNDECIDED
                count += 1
        want(kind not in DECIDED or undecided * 50 <= count, kind, undecided, "of", count, "are undecided")


worked()
faults()
verdicts()
drawn()
