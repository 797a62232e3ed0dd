"""Arrays of every kind take the shorter way, and get the costs, kinds of answers and refusals of the longer one."""
import pickle
import unittest
from fractions import Fraction
from unittest import mock

import nushbaret
from nushbaret.costs import kinds as _kinds, problem as _problem
from nushbaret.lap import levels
from drawn import drawing
from optional import np, pd as pandas
from ways import by_the_longer_way, extension, is_short, longer_call

FLOATS = ("f8", "f4", "f2")
WHOLE = ("i8", "i4", "i2", "i1", "u4", "u2", "u1", "?")
# What is among the other numbers of an array.
ODD = {
    "plain": (),
    "infinite": (float("inf"),) * 3,
    "wrong infinite": (float("-inf"),),
    "both infinite": (float("inf"), float("-inf")),
    "NaN": (float("nan"),),
    "NaN and infinite": (float("nan"), float("inf"), float("inf")),
    "zeros": (-0.0, 0.0, -0.0),
    "subnormal": (5e-324, -5e-324, 1e-320, 6e-8, 1e-45),
    "huge": (1e308, -1e308, 2.0**53, 1e12, 1e13),
    "above the range": (1e12 + 1, 123456789012.5, 3e38, 65504.0),
}
VALUES = {
    "even": lambda draw: draw.random(),
    "cents": lambda draw: draw.randint(-999, 999) / 100,
    "millionths": lambda draw: draw.randint(-10**6, 10**7) / 10**6,
    "whole": lambda draw: float(draw.randint(-99, 99)),
    "thirds": lambda draw: draw.randint(0, 3) / 3,
    "ties": lambda draw: 0.1234567890123456 + draw.randint(0, 2) * 2.0**-54,
}


def _drawn(draw, kind, values, odd, shape):
    """An array of a kind, in which some costs are odd ones."""
    costs = np.array([[VALUES[values](draw) for _ in range(shape[1])] for _ in range(shape[0])]).reshape(shape)
    if kind not in FLOATS:
        return (costs * 30).astype(kind)
    for value in ODD[odd] * 2 if costs.size else ():
        costs[draw.randrange(shape[0]), draw.randrange(shape[1])] = value
    with np.errstate(all="ignore"):
        return costs.astype(kind)


def _laid_out(draw, costs):
    """The same array in another order in memory, as a part of a larger one, unaligned, or with another object as its
    dtype."""
    def strided():
        wide = np.zeros((2 * costs.shape[0], 3 * costs.shape[1]), costs.dtype)
        wide[::2, 1::3] = costs
        return wide[::2, 1::3]

    def unaligned():
        held = np.frombuffer(b"\0" + costs.tobytes(), np.uint8)[1:]
        return held.view(costs.dtype).reshape(costs.shape)

    forms = [lambda: costs, lambda: np.asfortranarray(costs), lambda: costs[::-1, ::-1],
             lambda: pickle.loads(pickle.dumps(costs)), lambda: costs.astype(costs.dtype.newbyteorder()), strided,
             unaligned]
    return draw.choice(forms)()


def _said(call, costs, maximize):
    """What a call says of a problem, but not which of several best plans, or its refusal."""
    try:
        found = call(costs, maximize)
    except (ValueError, TypeError) as fault:
        return type(fault), str(fault)
    if isinstance(found, tuple):
        rows, columns = found
        paid = np.asarray(costs)[rows, columns].tolist()
        return [(type(values), values.dtype, len(set(values.tolist()))) for values in found], sum(map(Fraction, paid))
    return (repr(found.cost), bool(found.verify()),
            [(type(values), len(set(values))) for values in (found.rows, found.columns)], found.maximize,
            [name for name, held in (("row", found.row_duals), ("column", found.column_duals)) if len(held)])


CALLS = ((nushbaret.solve, nushbaret.solve), (nushbaret.linear_sum_assignment, longer_call))


@unittest.skipUnless(np, "NumPy isn't there")
class Forms(unittest.TestCase):
    def both(self, costs, maximize):
        """Both calls by both ways."""
        for call, longer in CALLS:
            with self.subTest(costs=costs, kind=costs.dtype, maximize=maximize, call=call.__name__):
                shorter = _said(call, costs, maximize)
                with by_the_longer_way():
                    self.assertEqual(shorter, _said(longer, costs, maximize))

    def test_beside_the_longer_way(self):
        draw = drawing(171)
        for turn in range(3000):
            kind, values, odd = draw.choice(FLOATS * 3 + WHOLE), draw.choice(list(VALUES)), draw.choice(list(ODD)
                                                                                                        + ["plain",
                                                                                                           "infinite"])
            shape = draw.choice([(0, 0), (0, 3), (3, 0), (1, 1), (1, 5), (4, 1)]
                                + [(draw.randint(1, 6), draw.randint(1, 6))] * 12)
            self.both(_laid_out(draw, _drawn(draw, kind, values, odd, shape)), draw.random() < 0.5)

    def test_larger(self):
        """So large that some steps are in parts, that not all is copied, and that no second solving is tried."""
        draw = drawing(172)
        for turn, size in enumerate([(30, 40), (40, 30), (60, 60), (130, 130), (12, 1500)] * 3):
            for kind in "f8", "f4", "i4":
                values, odd = ("even", "thirds", "cents")[turn // 5], ("plain", "infinite")[turn % 2]
                self.both(_laid_out(draw, _drawn(draw, kind, values, odd, size)), turn % 3 == 0)

    @unittest.skipUnless(extension(), "the extension isn't there")
    def test_which_way_is_taken(self):
        """Of each of these forms the shorter way finds the answer."""
        draw = drawing(173)
        plain = _drawn(draw, "f8", "even", "plain", (8, 8))
        allowed = plain.copy()
        allowed[0, 1:5] = np.inf
        forms = [plain, pickle.loads(pickle.dumps(plain)), allowed, plain.astype("f4"), plain.astype("f2"),
                 (plain * 99).astype("i4"), plain > 0.5, _drawn(draw, "f8", "cents", "plain", (8, 8))]
        if pandas:
            forms += [pandas.DataFrame(plain), pandas.DataFrame((plain * 99).astype("i4"))]
        for form in forms:
            self.assertTrue(is_short(form, False))

    @unittest.skipUnless(pandas, "pandas isn't there")
    def test_frames(self):
        draw = drawing(174)
        for turn in range(200):
            kind, odd = draw.choice(FLOATS + WHOLE), draw.choice(["plain", "infinite", "NaN"])
            n, m = draw.randint(1, 5), draw.randint(1, 5)
            frame = pandas.DataFrame(_drawn(draw, kind, draw.choice(list(VALUES)), odd, (n, m)),
                                     [f"r{row}" for row in range(n)])
            if turn % 4 == 0:
                frame[0] = draw.randint(0, 9)
            for call, longer in CALLS:
                shorter = _said(call, frame, turn % 2 == 0)
                with by_the_longer_way():
                    self.assertEqual(shorter, _said(longer, frame, turn % 2 == 0))

    def test_what_is_forbidden_is_never_taken(self):
        """A plan without a forbidden pair may be dearer than what stands for one."""
        far = np.array([[0.1234567890123456, 0.7e300 / 3], [1e300 / 3, np.inf]])
        for costs, maximize in ((far, False), (-far, True)):
            self.assertEqual(nushbaret.solve(costs, maximize).columns.tolist(), [1, 0])
            self.assertEqual(nushbaret.linear_sum_assignment(costs, maximize)[1].tolist(), [1, 0])
        none = np.array([[0.1234567890123456, np.inf], [1 / 3, np.inf]])
        for call in nushbaret.solve, nushbaret.linear_sum_assignment:
            with self.assertRaises(nushbaret.Infeasible):
                call(none)

    def test_refined(self):
        """Where rounding doesn't show the best plan among allowed pairs, exact costs do."""
        draw = drawing(175)
        with mock.patch.object(levels, "answer", side_effect=levels.answer) as finer:
            for _ in range(40):
                costs = _drawn(draw, "f8", "ties", "infinite", (4, 5))
                self.both(costs, False)
            self.assertGreater(finer.call_count, 40)


@unittest.skipUnless(np, "NumPy isn't there")
class Listed(unittest.TestCase):
    """Listed pairs as arrays, compared with the same as lists."""

    def test_pairs_given_several_times(self):
        draw = drawing(177)
        for turn in range(1200):
            n, m, count = draw.randint(1, 5), draw.randint(1, 5), draw.randint(0, 24)
            rows, columns = [draw.randrange(n) for _ in range(count)], [draw.randrange(m) for _ in range(count)]
            if turn % 3 == 0:
                rows, columns = map(list, zip(*sorted(zip(rows, columns)))) if count else ([], [])
            value = VALUES[draw.choice(list(VALUES))]
            costs, maximize = [draw.choice([value(draw), 0.25, -0.0, 1e300 if turn % 5 == 0 else 1.0])
                               for _ in range(count)], turn % 2 == 0
            arrays = np.array(rows, draw.choice(["u1", "i8", "i4"])), np.array(columns, np.intp), np.array(costs)
            with self.subTest(rows=rows, columns=columns, costs=costs, maximize=maximize):
                listed = nushbaret.solve_sparse(n, m, rows, columns, costs, maximize, partial=True)
                found = nushbaret.solve_sparse(n, m, *arrays, maximize, partial=True)
                self.assertEqual((Fraction(found.cost), len(found.rows)), (Fraction(listed.cost), len(listed.rows)))
                self.assertEqual(self.once_by_lists(n, m, rows, columns, costs), self.once_by_arrays(n, m, *arrays))

    def once_by_lists(self, n, m, rows, columns, costs):
        """The pairs with their first least costs, by a plain search."""
        pairs = list(zip(rows, columns, costs))
        return [pair for place, pair in enumerate(pairs)
                if all(other[:2] != pair[:2] or other[2] > pair[2] or other[2] == pair[2] and place <= before
                       for before, other in enumerate(pairs))]

    def once_by_arrays(self, n, m, rows, columns, costs):
        kind = np.uint16
        held = _kinds.Doubles(costs, np, False)
        problem = _problem.once(_problem.AssignmentProblem(n, m, False, held, (rows + 1).astype(kind),
                                                           (columns + 1).astype(kind)))
        return list(zip((problem.persons - 1).tolist(), (problem.objects - 1).tolist(), problem.costs.listed()))


if __name__ == "__main__":
    unittest.main()
