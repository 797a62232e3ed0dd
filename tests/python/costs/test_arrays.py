"""Arrays of every kind mean what lists of Python's numbers mean: drawn ones in all calls, and the ends of each kind."""
import ctypes
import itertools
import math
import struct
import sys
import unittest
from array import array
from decimal import Decimal
from fractions import Fraction
from unittest import mock

import nushbaret
from nushbaret.costs import printing, problem as _problem, reading
from drawn import drawing
from optional import np, pd

LEAST, MOST = -2**63, 2**63 - 1


def outcome(call, *given, **named):
    """What a call answers, or what it refuses in which words."""
    try:
        found = call(*given, **named)
    except (ValueError, TypeError, OverflowError) as fault:
        return type(fault).__name__, str(fault)
    return found


def plan(result):
    """The cost of a result, and whether its own checks agree with it."""
    return Fraction(result.cost), len(result.rows), bool(result.verify()), result.is_unique()


def cost_of(rows, found):
    """The exact cost of the pairs that SciPy's call answers."""
    return sum(Fraction(rows[int(row)][int(column)]) for row, column in zip(*found))


def solved(costs, **named):
    return plan(nushbaret.solve(costs, **named))


def bottleneck(costs, **named):
    result = nushbaret.bottleneck(costs, **named)
    return Fraction(result.cost), result.pairs and len(result.pairs)


def counted(costs, **named):
    result = nushbaret.assign_counts(costs, (0, 2), 1, **named)
    return Fraction(result.cost), len(result.pairs)


def ranked(costs, **named):
    return [(Fraction(plan.cost), [*map(int, plan.rows)], [*map(int, plan.columns)])
            for plan in nushbaret.k_best(costs, 4, **named)]


def next_ones(costs, **named):
    """What other plans cost: the next one, and the one without the first pair."""
    result = nushbaret.solve(costs, **named)
    after = result.next_best()
    first = int(nushbaret.solve(costs, **named).rows[0])
    return after and Fraction(after.cost), sorted(outcome(lambda column: (Fraction(result.without(first,
                                                                                                  column).cost),),
                                                          column)
                                                  for column in range(len(costs[0]) if isinstance(costs, list)
                                                                      else costs.shape[1]))


def compared(costs, **named):
    height, width = (len(costs), len(costs[0])) if isinstance(costs, list) else costs.shape
    columns = [row if row < width else None for row in range(height)]
    found = nushbaret.compare(costs, columns, **named)
    return [Fraction(number) for number in found[:3]]


def checked(costs, **named):
    height, width = (len(costs), len(costs[0])) if isinstance(costs, list) else costs.shape
    verdict = nushbaret.check(costs, [row if row < width else None for row in range(height)], [0] * width, **named)
    return verdict.proved, verdict.why


CALLS = [solved, bottleneck, counted, ranked, next_ones, compared, checked]


class Kind:
    """A kind of NumPy's: what may stand in its cells, and what they mean in `solve` and in SciPy's call."""

    def __init__(self, name):
        self.type = np.dtype(name)
        self.kind = self.type.kind

    def cell(self, draw):
        if self.kind == "b":
            return draw.random() < 0.5
        if self.kind in "iu":
            ends = np.iinfo(self.type)
            return int(draw.choice([ends.min, ends.min + 1, ends.max, ends.max - 1, draw.randint(0, 9),
                                    draw.randint(0, 9), draw.randint(0, 100)]))
        return draw.choice([self.usual(draw), self.usual(draw), self.usual(draw), self.far(draw)])

    def usual(self, draw):
        return draw.choice([draw.randint(0, 9), draw.random(), draw.randint(-99, 99) / 10, draw.randint(1000, 65000),
                            0.1])

    def far(self, draw):
        """A cell near the ends of a kind of floats, or one that forbids its pair or is none."""
        ends = np.finfo(self.type)
        return draw.choice([ends.max, -ends.max, ends.tiny, ends.tiny / 4, ends.eps, draw.random() * ends.max, math.inf,
                            -math.inf, math.nan, math.inf])

    def matrix(self, draw, height, width):
        with np.errstate(all="ignore"):
            return np.array([[self.cell(draw) for _ in range(width)] for _ in range(height)], object).astype(self.type)


KINDS = ["bool", "int8", "uint8", "int16", "uint16", "int32", "uint32", "int64", "uint64", "float16", "float32",
         "float64", "longdouble", ">i8", ">u8", ">f4", ">f8", "object"]


def meaning(cell, doubles):
    """The number of Python's that a cell is, by how NumPy prints it or exactly."""
    if cell is None or not isinstance(cell, np.generic):
        return cell
    if cell.dtype.kind in "biu":
        return int(cell)
    if not np.isfinite(cell) or cell.dtype.itemsize == 8:
        return float(cell)
    if not doubles:
        return Decimal(str(cell))
    return float(cell) if cell.dtype.itemsize < 8 else Fraction(*cell.as_integer_ratio())


def twin(costs, doubles):
    """A matrix as a list of Python's numbers."""
    return [[meaning(cell, doubles) for cell in row] for row in costs]


@unittest.skipUnless(np, "NumPy isn't there")
class Drawn(unittest.TestCase):
    def form(self, draw, costs):
        """The same cells in another order in memory, or in the hands of others."""
        forms = [costs, np.asfortranarray(costs), costs[::-1].copy()[::-1], np.repeat(costs, 2, 1)[:, ::2],
                 np.ma.array(costs)]
        if pd and costs.dtype.byteorder in "=|" and costs.dtype.itemsize <= 8:
            forms.append(pd.DataFrame(costs))
        form = draw.choice(forms)
        if isinstance(form, np.ndarray):
            form.flags.writeable = draw.random() < 0.5
        return form

    def drawn(self, draw, kind):
        height, width = draw.randint(1, 3), draw.randint(1, 3)
        if kind != "object":
            return Kind(kind).matrix(draw, height, width)
        kinds = [Kind(name) for name in KINDS[:-1]]
        costs = np.empty((height, width), object)
        for place in np.ndindex(height, width):
            own = draw.choice(kinds)
            with np.errstate(all="ignore"):
                costs[place] = draw.choice([own.type.newbyteorder("=").type(own.cell(draw)), Decimal("0.1"),
                                            Fraction(1, 3), None, 7])
        return costs

    def test_beside_lists(self):
        draw, ran = drawing(60), {call.__name__: 0 for call in CALLS}
        for turn in range(5000):
            kind = KINDS[turn % len(KINDS)]
            costs, call = self.drawn(draw, kind), CALLS[turn // len(KINDS) % len(CALLS)]
            named = {"maximize": draw.random() < 0.5, "missing": draw.choice(["forbid", "refuse"])}
            if draw.random() < 0.2:
                named["decimals"] = draw.choice([0, 1, 3])
            with self.subTest(turn=turn, kind=kind, call=call.__name__, costs=twin(costs, False), named=named):
                form = self.form(draw, costs)
                own, wanted = outcome(call, form, **named), outcome(call, twin(costs, False), **named)
                self.assertEqual(own, wanted)
                named.pop("decimals", None)
                self.scipys(form, twin(costs, True), named)
                ran[call.__name__] += wanted[0] not in ("ValueError", "TypeError")
        self.assertGreater(min(ran.values()), 100)

    def scipys(self, form, rows, named):
        """SciPy's call, where a float of up to 64 bits is its double."""
        found, wanted = outcome(nushbaret.linear_sum_assignment, form,
                                **named), outcome(nushbaret.linear_sum_assignment, rows, **named)
        if isinstance(wanted[0], str):
            self.assertEqual(found, wanted)
        else:
            self.assertEqual(cost_of(rows, found), cost_of(rows, wanted))

    def test_masks(self):
        """What a mask covers is as None in a list."""
        draw = drawing(61)
        for turn in range(1000):
            costs = self.drawn(draw, KINDS[turn % len(KINDS)])
            mask = np.array([draw.random() < 0.3 for _ in range(costs.size)]).reshape(costs.shape)
            call, named = CALLS[turn % len(CALLS)], {"maximize": draw.random() < 0.5, "missing": "forbid"}
            rows = [[None if hidden else cell for cell, hidden in zip(*both)] for both in zip(twin(costs, False), mask)]
            doubles = [[None if hidden else cell for cell, hidden in zip(*both)]
                       for both in zip(twin(costs, True), mask)]
            with self.subTest(turn=turn, rows=rows, call=call.__name__, named=named):
                form = np.ma.array(costs, mask=mask)
                self.assertEqual(outcome(call, form, **named), outcome(call, rows, **named))
                self.scipys(form, doubles, named)
                refused = outcome(nushbaret.solve, form, named["maximize"])
                self.assertEqual(isinstance(refused, tuple) and "masked" in refused[1], bool(mask.any()))

    def test_listed_pairs(self):
        """Costs and numbers of rows and columns in any kinds of arrays."""
        draw = drawing(62)
        for turn in range(1000):
            costs = self.drawn(draw, KINDS[turn % len(KINDS)]).ravel()
            rows, columns = ([draw.randint(0, 2) for _ in costs] for _ in range(2))
            kinds = [draw.choice(["int8", "uint8", "int16", "uint32", "int64", "uint64", "object", ">i2"])
                     for _ in range(2)]
            given = [np.array(numbers, kind) for numbers, kind in zip((rows, columns), kinds)]
            maximize = draw.random() < 0.5
            with self.subTest(turn=turn, costs=costs, kinds=kinds):
                found, wanted = (outcome(lambda *lists: plan(nushbaret.solve_sparse(3, 3, *lists, maximize,
                                                                                    partial=True, missing="forbid")),
                                         *lists) for lists in ((*given, costs),
                                                               (rows, columns, twin([costs], False)[0])))
                self.assertEqual(found, wanted)


VIEWS = "bBhHiIlLqQfd"


class Views(unittest.TestCase):
    """Buffers, which need no NumPy."""

    def cells(self, draw, code, count):
        """Numbers as a view holds them, and what they mean: a decimal of few digits is what its float of 32 bits prints
        as."""
        if code in "fd":
            texts = [f"{draw.randint(-999999, 999999)}e{draw.randint(-30, 30)}" for _ in range(count)]
            return [float(text) for text in texts], [Decimal(text) for text in texts]
        bits = 8 * struct.calcsize(code)
        least, most = (-2**(bits - 1), 2**(bits - 1) - 1) if code.islower() else (0, 2**bits - 1)
        numbers = [draw.choice([least, least + 1, most, most - 1, draw.randint(0, 9), draw.randint(0, 100)])
                   for _ in range(count)]
        return numbers, numbers

    def test_beside_lists(self):
        draw = drawing(63)
        for turn in range(5000):
            code, height, width = VIEWS[turn % len(VIEWS)], draw.randint(1, 3), draw.randint(1, 3)
            given, numbers = self.cells(draw, code, height * width)
            view = memoryview(array(code, given)).cast("B").cast(code, (height, width))
            rows = [numbers[begin:begin + width] for begin in range(0, height * width, width)]
            call, maximize = CALLS[turn // len(VIEWS) % len(CALLS)], draw.random() < 0.5
            with self.subTest(turn=turn, code=code, rows=rows, call=call.__name__):
                form = view if draw.random() < 0.7 else [array(code, row) for row in view.tolist()]
                self.assertEqual(outcome(call, form, maximize=maximize), outcome(call, rows, maximize=maximize))
                exact = [list(map(Fraction, row)) for row in view.tolist()]
                found, wanted = (nushbaret.linear_sum_assignment(costs, maximize) for costs in (form, exact))
                self.assertEqual(cost_of(exact, found), cost_of(exact, wanted))

    def test_small_floats(self):
        """0.1 of 32 bits is 0.1 also in listed pairs, prices and rows, and exactly its double in SciPy's call."""
        tenth, exact = array("f", [0.1]), struct.unpack("f", struct.pack("f", 0.1))[0]
        self.assertEqual(nushbaret.solve([tenth]).cost, Decimal("0.1"))
        self.assertEqual(nushbaret.solve((ctypes.c_float * 1 * 1)((0.1,))).cost, Decimal("0.1"))
        self.assertEqual(nushbaret.solve_sparse(1, 1, [0], [0], tenth).cost, Decimal("0.1"))
        # The first row has its column only up to a price of a tenth, and the second row its own only from there on.
        row = [0, Decimal("0.1"), Decimal("5.000000000001")]
        costs, prices = [row, row], array("f", [0.1, 0, 0])
        for given in [prices, memoryview(prices)] + ([np.array(prices), [*np.array(prices)]] if np else []):
            self.assertTrue(nushbaret.check(costs, [0, 1], given))
        self.assertFalse(nushbaret.check(costs, [0, 1], [exact, 0, 0]))
        self.assertLess(0.1, exact)
        # By hand: as decimals both plans cost 0.1 + 0.1, as doubles the first one costs more.
        view = memoryview(array("f", [0.1, 0.1, 0.1, 0.1])).cast("B").cast("f", (2, 2))
        self.assertTrue(nushbaret.check(view, [0, 1], [0, 0]))
        self.assertFalse(nushbaret.check([[exact, 0.1], [0.1, exact]], [0, 1], [0, 0]))
        self.assertEqual(nushbaret.linear_sum_assignment([tenth, array("d", [0.1])]), ([1], [0]))

    def test_least_of_64_bits(self):
        """It has no negative of 64 bits: by hand, 5 - 2^63 is less than 1 + 2."""
        view = memoryview(array("q", [LEAST, 1, 2, 5])).cast("B").cast("q", (2, 2))
        forms = [view, view.tolist()] + ([np.array(view), np.asfortranarray(view)] if np else [])
        for form in forms:
            for maximize, wanted, other in (True, 3, LEAST + 5), (False, LEAST + 5, 3):
                result = nushbaret.solve(form, maximize)
                self.assertEqual((result.cost, bool(result.verify()), result.is_unique(), result.next_best().cost),
                                 (wanted, True, True, other))
                self.assertEqual([plan.cost for plan in nushbaret.k_best(form, 9, maximize)], [wanted, other])
                self.assertEqual(result.without(*result.pairs[0]).cost, other)
                self.assertEqual(nushbaret.assign_counts(form, 1, 1, maximize=maximize).cost, wanted)
                self.assertEqual(nushbaret.bottleneck(form, maximize).cost, 3)


@unittest.skipUnless(np, "NumPy isn't there")
class Bottlenecks(unittest.TestCase):
    def test_worse_pairs_at_a_price(self):
        """The search over all pairs, where a plan avoids the worse ones and where it doesn't, next to all plans."""
        for seed in range(200):
            dice = np.random.default_rng(seed)
            n, m = sorted(map(int, dice.integers(1, 6, 2)))
            costs, maximize = dice.integers(-9, 10, (n, m)), seed % 2 == 0
            plans = [costs[range(n), own] for own in itertools.permutations(range(m), n)]
            sign = -1 if maximize else 1
            wanted = min((int((sign * own).max()), int((sign * own).sum())) for own in plans)
            for away in 0, 8:
                with mock.patch("nushbaret.api.bottleneck._AWAY", away):
                    result = nushbaret.bottleneck(costs, maximize)
                own = [int(sign * costs[pair]) for pair in result.pairs]
                self.assertEqual((max(own), sum(own), bool(result.verify())), (*wanted, True))


@unittest.skipUnless(np, "NumPy isn't there")
class Ends(unittest.TestCase):
    def test_above_64_bits(self):
        costs = np.array([[5, 2**63]], np.uint64)
        self.assertEqual([part.tolist() for part in nushbaret.linear_sum_assignment(costs)], [[0], [0]])
        self.assertEqual([part.tolist() for part in nushbaret.linear_sum_assignment(costs, True)], [[0], [1]])
        for maximize, wanted in (False, 5), (True, 2**63):
            self.assertEqual(solved(costs, maximize=maximize)[:3], (wanted, 1, True))
            self.assertEqual(nushbaret.solve_sparse(1, 2, [0, 0], [0, 1], costs[0], maximize).cost, wanted)
            self.assertEqual(nushbaret.bottleneck(costs, maximize).cost, wanted)
            self.assertEqual(nushbaret.assign_counts(costs, 1, (0, 1), maximize=maximize).cost, wanted)
        self.assertTrue(nushbaret.check(costs, [0], [0, 0]))
        self.assertFalse(nushbaret.check(costs, [1], [0, 0]))
        self.assertEqual(nushbaret.solve(np.array([[2**63 - 1, 2**64 - 1]], np.uint64)).cost, MOST)

    def test_bounds_beyond_64_bits(self):
        """A bound is compared as a whole number, where NumPy would compare doubles."""
        for worst, kept, kept_greatest in (2**63, 2, 0), (2**70, 2, 0), (MOST, 2, 1), (LEAST, 1, 2), (LEAST - 1, 0,
                                                                                                      2), (-2**70, 0,
                                                                                                           2):
            for maximize, wanted in (False, kept), (True, kept_greatest):
                problem = _problem.of_matrix(np.array([[LEAST, MOST]]), reading.manner(maximize))
                self.assertEqual(len(_problem.within(problem, (worst, 1)).costs), wanted)

    def test_small_numbers_of_rows_and_columns(self):
        """The last number that a kind of few bits has."""
        for kind, count in ("uint8", 256), ("int8", 128):
            numbers = np.arange(count).astype(kind)
            result = nushbaret.solve_sparse(count, count, numbers, numbers[::-1], np.ones(count))
            self.assertEqual((result.cost, result.columns.tolist()), (count, [*range(count)][::-1]))
        with self.assertRaisesRegex(ValueError, r"rows\[1\] is 255: it must be from 0 to 254"):
            nushbaret.solve_sparse(255, 1, np.array([0, 255], np.uint8), [0, 0], [1, 1])
        with self.assertRaisesRegex(ValueError, r"columns\[0\] is -1: it must be from 0 to 1"):
            nushbaret.solve_sparse(2, 2, [0], np.array([-1], np.int8), [1])
        with self.assertRaisesRegex(TypeError, r"rows\[1\] is None"):
            nushbaret.solve_sparse(2, 2, np.ma.array([0, 1], mask=[0, 1]), [0, 1], [1, 1])

    def test_masks_in_scipys_call(self):
        """By hand: without the covered 0 the plan is the diagonal. By default a mask is as unseen as it is to SciPy."""
        costs = np.ma.array([[1.0, 0.0], [2.0, 4.0]], mask=[[0, 1], [0, 0]])
        self.assertEqual(nushbaret.linear_sum_assignment(costs, missing="forbid")[1].tolist(), [0, 1])
        self.assertEqual(nushbaret.linear_sum_assignment(costs)[1].tolist(), [1, 0])
        with self.assertRaisesRegex(nushbaret.Infeasible, "row 0 may have no column"):
            nushbaret.linear_sum_assignment(np.ma.array([[1]], mask=True), missing="forbid")

    def test_one_meaning_of_small_floats(self):
        """Whatever stands next to them: 65504 of 16 bits prints as 65500, 16777217 of 32 bits is 16777216, and
        123456792 prints as 123456790."""
        for kind, value, printed, exact in (("float16", 65504, 65500, 65504),
                                            ("float32", 123456789, 123456790, 123456792),
                                            ("float32", 16777217, 16777216, 16777216),
                                            ("float32", 1e20, 10**20, 100000002004087734272),
                                            ("float16", 2049, 2048, 2048), ("float16", 2051, 2052, 2052)):
            for other in "1", "0.1":
                costs = np.array([[value, math.inf], [math.inf, float(other)]], kind)
                self.assertEqual(nushbaret.solve(costs).cost, printed + Decimal(other))
                self.assertEqual(nushbaret.solve(costs[:1, :1]).cost, printed)
                # SciPy's call weighs the exact value against its neighbours.
                for near, column in (exact * (1 + 2.0**-50), 0), (exact * (1 - 2.0**-50), 1):
                    self.assertEqual(nushbaret.linear_sum_assignment([[costs[0, 0], near]])[1], [column])

    def test_all_of_16_bits(self):
        """Each float of 16 bits, and drawn ones of 32, are what NumPy prints."""
        every = np.arange(2**16, dtype=np.uint16).view(np.float16)
        bits = np.random.default_rng(60).integers(0, 2**32, 20000, dtype=np.uint64).astype(np.uint32).view(np.float32)
        near = (np.random.default_rng(61).integers(-10**6, 10**6, 20000) / 256).astype(np.float32)
        powers = (2.0**np.arange(-149, 128)).astype(np.float32)
        for floats in every, bits, near, powers:
            floats = floats[np.isfinite(floats)]
            with np.errstate(all="ignore"):
                found = printing.of_array(np, floats)
            wanted = [float(str(value)) for value in floats]
            self.assertEqual(found.tolist(), wanted)
            letter = floats.dtype.char
            self.assertEqual([printing.shortest(float(value), letter) for value in floats[::7]], wanted[::7])

    def test_great_long_doubles(self):
        if np.finfo(np.longdouble).max <= sys.float_info.max:
            self.skipTest("long doubles are doubles here")
        costs = np.array([[np.longdouble("1e400"), 1]])
        self.assertEqual((nushbaret.solve(costs).cost, nushbaret.solve(costs, maximize=True).cost), (1, 10**400))
        for form in costs, [list(costs[0])]:
            self.assertEqual([nushbaret.linear_sum_assignment(form, most)[1][0] for most in (False, True)], [1, 0])

    def test_long_doubles_that_are_no_doubles(self):
        """SciPy's call takes them as they are, too: it refuses arrays of them, and rounds those in lists."""
        if np.finfo(np.longdouble).nmant <= 52:
            self.skipTest("long doubles are doubles here")
        more = 1 + np.finfo(np.longdouble).eps
        for costs in np.array([[more, 1], [1, more]]), [[more, 1], [1, more]]:
            self.assertEqual([list(nushbaret.linear_sum_assignment(costs, most)[1]) for most in (False, True)],
                             [[1, 0], [0, 1]])


@unittest.skipUnless(pd, "pandas isn't there")
class Frames(unittest.TestCase):
    def test_columns_of_several_kinds(self):
        """No column is cast to the kind of another."""
        great = pd.DataFrame({"a": np.array([2**60 + 1, 2**60]), "b": [0.5, 0.25]})
        self.assertEqual(nushbaret.solve(great).cost, 2**60 + Decimal("0.5"))
        self.assertEqual(nushbaret.solve(great, maximize=True).cost, 2**60 + 1 + Decimal("0.25"))
        small = pd.DataFrame({"a": np.array([0.1, 9], np.float32), "b": [9, 0.2], "c": [5, 5]})
        self.assertEqual(nushbaret.solve(small).cost, Decimal("0.3"))
        own = pd.DataFrame({"a": pd.array([0.1, None], "Float32"), "b": pd.array([None, 7], "Int64")})
        self.assertEqual(nushbaret.solve(own, missing="forbid").cost, Decimal("7.1"))
        with self.assertRaisesRegex(ValueError, "nan at row 0, column b"):
            nushbaret.solve(own)

    def test_drawn_columns(self):
        """Each column of a kind of its own, compared with lists."""
        draw, kinds = drawing(64), [kind for kind in KINDS if kind[0] != ">" and kind != "longdouble"
                                    and kind != "object"]
        for turn in range(600):
            height, width = draw.randint(1, 3), draw.randint(1, 3)
            columns = [Kind(draw.choice(kinds)).matrix(draw, height, 1).ravel() for _ in range(width)]
            frame, call = pd.DataFrame(dict(enumerate(columns))), CALLS[turn % len(CALLS)]
            named = {"maximize": draw.random() < 0.5, "missing": draw.choice(["forbid", "refuse"])}
            rows, doubles = ([[meaning(column[row], exactly) for column in columns] for row in range(height)]
                             for exactly in (False, True))
            with self.subTest(turn=turn, call=call.__name__, rows=rows, named=named):
                self.assertEqual(outcome(call, frame, **named), outcome(call, rows, **named))
                found, wanted = (outcome(nushbaret.linear_sum_assignment, costs, **named) for costs in (frame, doubles))
                if isinstance(wanted[0], str):
                    self.assertEqual(found, wanted)
                else:
                    self.assertEqual(cost_of(doubles, found), cost_of(doubles, wanted))

    def test_nan_by_labels(self):
        frame = pd.DataFrame([[1, math.nan], [2, 3]], index=["Ada", "Ben"], columns=["early", "late"])
        for form in (frame, frame.astype("float32"), frame.astype(object), frame.astype("Float64"),
                     frame.astype("Float32")):
            # Of pandas' own kinds SciPy's call takes no missing cell for a number.
            calls = nushbaret.solve, nushbaret.bottleneck, nushbaret.linear_sum_assignment
            for call in calls if "Float" not in str(form.dtypes.iloc[0]) else calls[:2]:
                with self.assertRaisesRegex(ValueError, "nan at row Ada, column late: "):
                    call(form)


if __name__ == "__main__":
    unittest.main()
