"""Every form and kind of number, compared with fractions: the same best sums, and what is wrong is refused."""
import random
import unittest
import warnings

from drawn_forms import judge_some
from optional import np


class Forms(unittest.TestCase):
    def test_some(self):
        with warnings.catch_warnings():
            warnings.simplefilter("ignore", DeprecationWarning)
            names = judge_some(random.Random(11), 300)
        self.assertGreater(len(names), 30 if np else 0)


if __name__ == "__main__":
    unittest.main()
