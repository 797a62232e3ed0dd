"""Groups of objects that can change places, of more columns than the library looks at together, compared with a search
along pairs without reduced cost."""
import unittest
from array import array

from drawn import drawing
from nushbaret.costs.kinds import WholeNumbers
from nushbaret.costs.problem import AssignmentProblem, of_whole_numbers
from nushbaret.lap import proved
from nushbaret.lap.solving import solved


def reached(problem, costs, answer):
    """A number for each object and for 0, nobody's, whose bits are those that it reaches: each object that is as good
    for its person as the own one, from one that nobody has 0, and from 0 those that somebody has at a price of 0."""
    most, sign = answer.m, -1 if problem.maximize else 1
    owner = {item: person for person, item in enumerate(answer.objects)}
    sums = [[sign * cost + price for cost, price in zip(row, answer.prices)] for row in costs]
    found = [0] * (most + 1)
    found[0] = 1 | sum(1 << item for item in owner if not answer.prices[item - 1])
    for item in range(1, most + 1):
        own = sums[owner[item]] if item in owner else ()
        found[item] = 1 << item | (sum(2 << place for place, cost in enumerate(own) if cost == own[item - 1]) or 1)
    for middle in range(most + 1):
        for item, held in enumerate(found):
            if held >> middle & 1:
                found[item] |= found[middle]
    return found


class Groups(unittest.TestCase):
    def judge(self, problem, costs):
        answer = solved(problem)
        numbers = proved.groups(problem, answer)
        both = reached(problem, costs, answer)
        wanted = {}
        for item in range(1, answer.m + 1):
            mutual = sum(1 << other for other in range(1, answer.m + 1)
                         if both[item] >> other & 1 and both[other] >> item & 1)
            wanted.setdefault(mutual, []).append(item)
        given = {}
        for item, number in enumerate(numbers, 1):
            given.setdefault(number, []).append(item)
        self.assertEqual(sorted(given.values()), sorted(wanted.values()))

    def test_drawn(self):
        draw = drawing(191)
        for turn in range(60):
            n = draw.randint(1, 40)
            m = draw.choice((n, n + draw.randint(0, 3), draw.randint(n, 75)))
            most, maximize = draw.choice((1, 4, 30, 1000)), turn % 3 == 0
            costs = [[draw.randint(-most, most) for _ in range(m)] for _ in range(n)]
            flat = [cost for row in costs for cost in row]
            with self.subTest(turn=turn, shape=(n, m), most=most):
                self.judge(AssignmentProblem(n, m, maximize, WholeNumbers(array("q", flat))), costs)
                rows, columns = [row for row in range(n) for _ in range(m)], [*range(m)] * n
                listed = of_whole_numbers(n, m, array("I", rows), array("I", columns), array("q", flat))
                self.judge(listed._replace(maximize=maximize), costs)


if __name__ == "__main__":
    unittest.main()
