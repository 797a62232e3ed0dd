"""What a look at a block answers, by its definition: pair by pair, in whole numbers and fractions. Slow; the tests
compare with it."""
from fractions import Fraction


def exactly(number):
    number = number.item() if hasattr(number, "item") else number
    return Fraction(number) if abs(number) < float("inf") else number


def look(n, pairs, asked):
    """The answer for pairs of a row, a column and a cost, each given once or more."""
    numbers = [exactly(number) for number in asked.numbers]
    if asked.rests is not None:
        numbers = [number + exactly(rest) for number, rest in zip(numbers, asked.rests)]
    prices, sums = [exactly(price) for price in asked.prices], [{} for _ in range(n)]
    for row, column, cost in pairs:
        if abs(cost) < float("inf"):
            value = exactly(cost) + prices[column]
            sums[row][column] = min(sums[row].get(column, (value, cost)), (value, cost))
    better, least, shown = [], [], []
    for row, found in enumerate(sums):
        below = sorted((value, column, cost) for column, (value, cost) in found.items() if value < numbers[row])
        better.append(below)
        least.append(min((value for value, _ in found.values()), default=None))
        own = -1 if asked.own is None else asked.own[row]
        shown.append(own in found and found[own][0] == numbers[row])
    first = next(((row, min(column for _, column, _ in below)) for row, below in enumerate(better) if below), None)
    return better, least, first, shown


def of_matrix(costs):
    return [(row, column, costs[row, column]) for row in range(len(costs)) for column in range(costs.shape[1])]
