"""Plans in which many stay out: as those with dummies, also of arrays, under both senses; of many rows in little
memory."""
import random
import unittest
from unittest import mock

import nushbaret
from nushbaret.lap import staying_out
from optional import np as numpy


def drawn(dice):
    """A sparse problem, by chance in arrays of NumPy's."""
    n_rows, n_columns, count = dice.randint(1, 7), dice.randint(1, 7), dice.randint(0, 14)
    lists = [[dice.randrange(n_rows) for _ in range(count)], [dice.randrange(n_columns) for _ in range(count)],
             [dice.randint(-9, 9) for _ in range(count)]]
    if numpy and dice.random() < .5:
        lists = [numpy.array(own, int) for own in lists]
    return n_rows, n_columns, *lists


class StayingOut(unittest.TestCase):
    def test_as_with_dummies(self):
        dice, seen = random.Random(79), 0
        for _ in range(300):
            problem, maximize = drawn(dice), dice.random() < .5
            first = nushbaret.solve_sparse(*problem, maximize=maximize, partial=True)
            with mock.patch.object(staying_out, "MOST_OF_DUMMIES", 0):
                second = nushbaret.solve_sparse(*problem, maximize=maximize, partial=True)
                self.assertTrue(second.verify())
            self.assertTrue(second.verify())
            self.assertEqual((first.cost, len(first.rows)), (second.cost, len(second.rows)))
            self.assertEqual(first.is_unique(), second.is_unique())
            others = [result.next_best() for result in (first, second)]
            self.assertEqual(len({other and other.cost for other in others}), 1)
            seen += 0 < len(first.rows) < min(problem[:2])
        self.assertGreater(seen, 50)

    def test_many_rows(self):
        count, dice = 4000, random.Random(7)
        rows = [row for row in range(count) for _ in range(3)]
        columns, costs = [dice.randrange(count) for _ in rows], [dice.randint(1, 100) for _ in rows]
        calls = []
        result = nushbaret.solve_sparse(count, count, rows, columns, costs, partial=True,
                                        progress=lambda *numbers: calls.append(numbers))
        self.assertEqual(calls[-1], (count, count))
        self.assertLess(len(result.rows), count - 100)
        self.assertTrue(result.verify())

    def test_costs_beyond_the_library(self):
        with mock.patch.object(staying_out, "MOST_OF_DUMMIES", 0):
            result = nushbaret.solve_sparse(2, 2, [0, 1], [0, 0], [10**15, 10**15 - 1], partial=True)
        self.assertEqual((result.pairs, result.cost), ([(1, 0)], 10**15 - 1))


if __name__ == "__main__":
    unittest.main()
