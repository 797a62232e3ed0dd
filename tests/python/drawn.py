"""Drawn problems, and slow searches that the package is held against."""
import itertools
import math
import random
from decimal import Decimal
from fractions import Fraction


def matrix(draw, n_rows, n_columns, span, share=1.0):
    """Costs from -span to span; a pair is allowed with the chance `share`, and else None."""
    return [[draw.randint(-span, span) if draw.random() < share else None for _ in range(n_columns)]
            for _ in range(n_rows)]


def plans(costs, assigned):
    """The sums of all plans with so many pairs."""
    n_rows, n_columns = len(costs), len(costs[0]) if costs else 0
    for rows in itertools.combinations(range(n_rows), assigned):
        for columns in itertools.permutations(range(n_columns), assigned):
            pairs = [costs[row][column] for row, column in zip(rows, columns)]
            if None not in pairs:
                yield sum(pairs)


def best(costs, maximize, assigned):
    """The best sum of plans with so many pairs; None where there is none."""
    return (max if maximize else min)(plans(costs, assigned), default=None)


def drawing(seed):
    return random.Random(seed)


# Doubles of every kind.


def _near(draw):
    """Doubles one or two units in the last place from each other."""
    value = 0.3
    for _ in range(draw.randint(0, 2)):
        value = math.nextafter(value, 1) if hasattr(math, "nextafter") else value * (1 + 2.0**-52)
    return value + draw.choice([0, 0, 1])


KINDS = {
    "even": lambda draw: draw.random(),
    "half of them M": lambda draw: draw.choice([draw.random(), draw.great]),
    "of any power of ten": lambda draw: draw.random() * 10.0**draw.randint(-320, 300),
    "near ties": _near,
    "denormal": lambda draw: draw.randint(0, 3) * 5e-324,
    "small differences": lambda draw: draw.randint(0, 2) + draw.randint(0, 2) * 1e-13,
    "signs and gaps": lambda draw: draw.choice([0.0, -1.0, 1.0]) * 10.0**draw.choice([-310, -10, 0, 12, 20, 300]),
    "normal": lambda draw: draw.gauss(0, 1),
    "quarters": lambda draw: draw.randint(0, 9) / 4,
    "denormal and great": lambda draw: draw.randint(0, 2) * 1e300 + draw.randint(0, 2) * 5e-324,
    "tenths": lambda draw: draw.randint(-9, 9) * 0.1,
    "thirds and M": lambda draw: draw.choice([draw.randint(0, 9) / 3, draw.great * draw.randint(1, 3) / 3]),
}


def doubles(draw, n_rows, n_columns, kind, share=1.0):
    """A matrix of doubles of a kind; a pair is allowed with the chance `share`, and else None."""
    draw.great = 10.0**draw.randint(6, 300)
    return [[KINDS[kind](draw) if draw.random() < share else None for _ in range(n_columns)] for _ in range(n_rows)]


def exactly(costs, printed):
    """Costs as fractions; floats are what they are, or the decimals that they print as."""
    def of(cost):
        return (None if cost is None else Fraction(Decimal(repr(cost))) if printed and isinstance(cost, float)
                else Fraction(cost))
    return [[of(cost) for cost in row] for row in costs]


def hungarian(costs, maximize):
    """The best sum of a matrix of fractions, in which every pair is allowed: Kuhn's method by shortest paths, in whole
    numbers."""
    unit = 1
    for row in costs:
        for cost in row:
            unit = unit * cost.denominator // math.gcd(unit, cost.denominator)
    sign = -1 if maximize else 1
    whole = [[sign * cost.numerator * (unit // cost.denominator) for cost in row] for row in costs]
    if len(whole) > len(whole[0]):
        whole = [list(column) for column in zip(*whole)]
    rows, columns, owner = [0] * (len(whole) + 1), [0] * (len(whole[0]) + 1), [0] * (len(whole[0]) + 1)
    for row in range(1, len(whole) + 1):
        _augment(whole, row, rows, columns, owner)
    return Fraction(sign * sum(whole[row - 1][column - 1] for column, row in enumerate(owner) if row and column), unit)


def _augment(whole, row, rows, columns, owner):
    """Gives one more row a column, by a shortest path."""
    count = len(columns)
    owner[0], column = row, 0
    least, way, used = [None] * count, [0] * count, [False] * count
    while owner[column]:
        used[column] = True
        taking, delta, nearest = owner[column], None, 0
        for other in range(1, count):
            if used[other]:
                continue
            length = whole[taking - 1][other - 1] - rows[taking] - columns[other]
            if least[other] is None or length < least[other]:
                least[other], way[other] = length, column
            if delta is None or least[other] < delta:
                delta, nearest = least[other], other
        for other in range(count):
            if used[other]:
                rows[owner[other]] += delta
                columns[other] -= delta
            elif least[other] is not None:
                least[other] -= delta
        column = nearest
    while column:
        owner[column] = owner[way[column]]
        column = way[column]


def proves(costs, result, maximize):
    """Whether the duals alone, looked at here and not by the library, prove the plan best among those of as many
    pairs."""
    sign = -1 if maximize else 1
    rows, columns = ([sign * Fraction(dual) for dual in duals] for duals in (result.row_duals, result.column_duals))
    own = set(zip(map(int, result.rows), map(int, result.columns)))
    slack = {(row, column): sign * Fraction(cost) - rows[row] - columns[column]
             for row, held in enumerate(costs) for column, cost in enumerate(held) if cost is not None}
    if min(slack.values(), default=0) < 0 or any(slack[pair] for pair in own):
        return False
    out_rows, out_columns = [rows[row] for row in result.unmatched_rows], [columns[column]
                                                                           for column in result.unmatched_columns]
    both = sum(rows[row] for row, _ in own) + sum(columns[column] for _, column in own)
    if both != sign * Fraction(result.cost):
        return False
    if out_rows and not out_columns:
        return max(rows) == 0 and not any(out_rows) and sum(rows) + sum(columns) == both
    if out_rows and own:
        return set(out_rows) == {max(rows)} and max(columns) == 0 and not any(out_columns)
    return max(columns, default=0) == 0 and not any(out_columns) and sum(rows) + sum(columns) == both


def bounds(draw, number):
    """So many counts from-to."""
    least = [draw.choice((0, 0, 1, 2)) for _ in range(number)]
    return [(low, low + draw.randint(0, 2)) for low in least]


def groups(draw, number):
    """Disjoint groups of so many columns; some columns are in none."""
    columns = list(range(number))
    draw.shuffle(columns)
    cut, end = sorted((draw.randint(0, number), draw.randint(0, number)))
    return [sorted(group) for group in (columns[:cut], columns[cut:end]) if len(group) > 1]


def plans_by_counts(costs, row_bounds, column_bounds, own_groups):
    """All plans that pass no greatest count and keep groups: by how much they miss least counts, their sum, and their
    pairs."""
    columns = range(len(column_bounds))
    choices = []
    for row, (_, most) in zip(costs, row_bounds):
        allowed = [column for column in columns if row[column] is not None]
        choices.append([those for size in range(most + 1) for those in itertools.combinations(allowed, size)
                        if all(len(set(those) & set(group)) < 2 for group in own_groups)])
    for picked in itertools.product(*choices):
        had = [0] * len(column_bounds)
        for those in picked:
            for column in those:
                had[column] += 1
        if all(count <= most for count, (_, most) in zip(had, column_bounds)):
            missed = sum(max(0, least - len(those)) for those, (least, _) in zip(picked, row_bounds))
            missed += sum(max(0, least - count) for count, (least, _) in zip(had, column_bounds))
            pairs = [(row, column) for row, those in enumerate(picked) for column in those]
            yield missed, sum(costs[row][column] for row, column in pairs), pairs
