"""The extension module: what it reads, what it leaves to the longer way, and that it keeps nothing and survives refused
memory."""
import contextlib
import gc
import importlib.machinery
import importlib.util
import inspect
import math
import os
import pickle
import signal
import subprocess
import sys
import threading
import unittest
from array import array
from concurrent.futures import ThreadPoolExecutor
from fractions import Fraction
from unittest import mock

import nushbaret
from nushbaret.lap import direct
from drawn import best, drawing, exactly
from optional import np, optimize, pd
from ways import by_the_longer_way, extension, longer_call

if np:
    import exact_doubles

LONGER = object()
# No end, and so many first plans with so many arc scans.
PLANS = math.inf, direct.FIRST, 3, 10**6


def is_near(costs, rows, columns):
    """Whether a plan's sum is that of SciPy's, to within their rounding."""
    theirs = costs[optimize.linear_sum_assignment(costs)] if optimize else costs[longer_call(costs)]
    return len(set(columns.tolist())) == len(rows) and abs(math.fsum(costs[rows, columns]) - math.fsum(theirs)) < 1e-9


def another(longer=lambda *words, **named: LONGER):
    """Another module of the same file, whose call goes to this longer way."""
    place = extension().__file__
    spec = importlib.util.spec_from_file_location(direct.NAME, place,
                                                  loader=importlib.machinery.ExtensionFileLoader(direct.NAME, place))
    module = importlib.util.module_from_spec(spec)
    spec.loader.exec_module(module)

    def connect():
        with mock.patch.dict(sys.modules, {direct.NAME: module}):
            direct.connect()

    module.asks(connect)
    return module, module.function(longer, "linear_sum_assignment()\n--\n\nText.", "nushbaret")


def sums(costs, rows, columns):
    """The exact sum of a plan, whose pairs differ."""
    rows, columns = list(map(int, rows)), list(map(int, columns))
    if rows != sorted(set(rows)) or len(set(columns)) != len(columns):
        raise AssertionError("no plan")
    return sum((Fraction(costs[row][column]) for row, column in zip(rows, columns)), Fraction(0))


@unittest.skipUnless(extension(), "the extension isn't there, or the library has no calls for doubles")
class Reading(unittest.TestCase):
    def setUp(self):
        self.module, self.call = another()

    def takes(self, form, costs, maximize=False):
        """Whether it answers this form of costs itself, with a best plan in the right form."""
        answer = self.call(form, maximize)
        if answer is LONGER:
            return False
        self.assertEqual([type(values) for values in answer], [list, list] if type(form) is list else [np.ndarray] * 2)
        self.assertEqual(sums(costs, *answer), best(exactly(costs, False), maximize, min(len(costs), len(costs[0]))))
        return True

    def test_lists(self):
        draw = drawing(301)
        for turn in range(300):
            n, m = draw.randint(1, 4), draw.randint(1, 4)
            costs = [[draw.choice([draw.random(), draw.randint(-9, 9), -2.5]) for _ in range(m)]
                     for _ in range(n)]
            self.assertTrue(self.takes(costs, costs, turn % 2 == 0), costs)
        great = [[2**53, 2**52], [0, -2**53]]
        self.assertTrue(self.takes(great, great, False))

    def test_other_lists_are_left(self):
        class Row(list):
            pass

        for costs in ([], [[]], [[1, 2], [3]], [[1, 2], (3,)], ((1, 2), (3, 4)), [Row([1])],
                      Row([[1]]), [[1], Row([1])],
                      [[None]], [[1, None], [2, None]], [["1"]], [[1j]], [[2**53 + 1]], [[10**30]],
                      [[Fraction(1, 2)]], [[math.nan]],
                      [[-math.inf]], [[math.inf]], [1, 2], [[[1]]], None, "12", 5, b"1"):
            self.assertIs(self.call(costs), LONGER, costs)

    @unittest.skipUnless(np, "NumPy isn't there")
    def test_arrays_of_any_kind_and_layout(self):
        draw, kinds = drawing(302), ["f8", "f4", "i8", "i4", "i2", "i1", "u4", "u2", "u1", "?"]
        for turn in range(1500):
            n, m = draw.randint(1, 4), draw.randint(1, 4)
            wide = np.array([[draw.random() * 30 for _ in range(3 * m)]
                             for _ in range(2 * n)]).astype(kinds[turn % len(kinds)])
            held = np.frombuffer(b"\0" + wide.tobytes(), np.uint8)[1:].view(wide.dtype).reshape(wide.shape)
            forms = [wide[:n, :m], wide[:n, :m].copy(), np.asfortranarray(wide[:n, :m]), wide[::2, 1::3],
                     wide[:n, :m][::-1, ::-1], wide.T[:n, :m], held[:n, :m], np.broadcast_to(wide[:1, :m], (n, m)),
                     pickle.loads(pickle.dumps(wide[:n, :m]))]
            form = forms[turn // len(kinds) % len(forms)]
            self.assertTrue(self.takes(form, form.astype(float).tolist(), turn % 2 == 0), (form.dtype, form.strides))

    @unittest.skipUnless(np, "NumPy isn't there")
    def test_other_arrays_are_left(self):
        class Other(np.ndarray):
            pass

        plain = np.array([[1.0, 2.0], [3.0, 5.0]])
        for costs in (plain.astype("c8"), plain.astype("longdouble"), np.array([[Fraction(1, 3)]]),
                      np.array([["1"]], object),
                      np.array([[10**30]], object), np.array([[2**63]], "u8"), plain[0], plain[None], np.zeros((0, 3)),
                      np.zeros((3, 0)), np.array(1.0), [plain[0], plain[0, :1]], [plain[0], np.array(["a", "b"])],
                      np.array([[2**53 + 1]]), np.array([[np.nan]]), np.array([[-np.inf]]), np.array([[np.inf]]),
                      np.array([["a"]]), np.array([[1]], "M8[s]"), memoryview(plain)):
            self.assertIs(self.call(costs), LONGER, repr(costs))
        self.assertIs(self.call(np.array([[np.inf]]), True), LONGER)

    @unittest.skipUnless(np, "NumPy isn't there")
    def test_every_kind_of_input(self):
        """Each of these is read without a step of Python's."""
        class Other(np.ndarray):
            pass

        draw = drawing(306)
        for turn in range(40):
            n, m, maximize = draw.randint(1, 14), draw.randint(1, 14), turn % 2 == 0
            plain = np.array([[draw.randint(-200, 400) / 4 for _ in range(m)] for _ in range(n)])
            forms = [plain.astype(kind) for kind in ("f2", "f4", ">f8", ">f4", ">f2", object)]
            forms += [plain.view(Other), np.ma.array(plain), np.ma.array(plain, mask=plain > 50), list(plain),
                      list(map(tuple, plain)), [*plain[:1], *plain[1:].tolist()], list(plain.astype("f4"))]
            forms += [pd.DataFrame(plain), pd.DataFrame(plain.T).T, pd.DataFrame(plain.astype(object))] if pd else []
            self.same(forms, plain, maximize)
            whole = np.abs(np.rint(plain))
            forms = [whole.astype(kind) for kind in ("i2", ">i2", "i8", "u8", ">i8", ">u8", "i4", "u2", ">u4")]
            self.same([*forms, *map(np.asfortranarray, forms)], whole, maximize)
            if pd:
                frame = pd.DataFrame(plain)
                frame[0] = 3
                self.same([frame, frame[frame.columns[::-1]].iloc[:, ::-1]], frame.to_numpy(float), maximize)

    def same(self, forms, plain, maximize):
        """Forms get what the plain array of doubles gets, each by itself."""
        wanted = sums(plain.tolist(), *longer_call(plain, maximize))
        for form in forms:
            answer = self.call(form, maximize)
            self.assertIsNot(answer, LONGER, repr(form))
            self.assertEqual(sums(plain.tolist(), *answer), wanted, repr(form))
            has_arrays = type(form) is not list or any(type(row) is np.ndarray for row in form)
            self.assertEqual([type(part) for part in answer], [np.ndarray if has_arrays else list] * 2)

    def test_none_forbids(self):
        draw = drawing(307)
        for turn in range(200):
            n, maximize = draw.randint(1, 4), turn % 2 == 0
            costs = [[draw.choice([None, draw.randint(0, 9), True, 2.5]) for _ in range(n)] for _ in range(n)]
            try:
                wanted = longer_call(costs, maximize)
            except nushbaret.Infeasible:
                self.assertIs(self.call(costs, maximize), LONGER)
            else:
                self.assertEqual(sums(costs, *self.call(costs, maximize)), sums(costs, *wanted))

    @unittest.skipUnless(np, "NumPy isn't there")
    def test_floats_of_32_bits_as_they_print(self):
        draw = np.random.default_rng(308)
        drawn = [draw.random(3000), draw.random(3000) * 10.0**draw.integers(-44, 38, 3000),
                 draw.integers(0, 10**8, 3000) / 100,
                 2.0**draw.integers(-149, 127, 300), np.arange(0, 2**31, 701_819).astype(np.int32).view(np.float32),
                 [0.0, -0.0, 1e-45, 3.4e38, 16777216, 0.015625, 9.999999e-5, 1e-4]]
        left = 0
        with np.errstate(all="ignore"):
            values = np.concatenate([np.asarray(part, float) for part in drawn]).astype(np.float32)
        for part in np.array_split(values[np.isfinite(values)], 150):
            for row in (part, -part[::-1]):
                for value in row[::7]:
                    answer = self.module.found(np.array([[value]]), False)
                    left += answer is None
                    if answer is not None:
                        (cost,), decimals = answer[1][0], answer[1][4]
                        self.assertEqual(Fraction(cost) / 10**max(decimals, 0) if decimals > 0 else cost,
                                         Fraction(str(value)) if decimals > 0 else float(str(value)))
            if len(part) > 9:
                square = part[:9].reshape(3, 3)
                wide = np.array([[float(str(value)) for value in row] for row in square])
                answer = self.module.found(square, False)
                if answer is not None:
                    self.assertEqual(answer[1], self.module.found(wide, False)[1])
        self.assertLess(left, len(values) // 4)

    def printed(self, floats):
        """What the extension writes, and that it is what NumPy prints; zeros have their signs."""
        found = np.empty(len(floats))
        self.assertIs(self.module.printed(floats, found), True)
        wanted = floats.astype("U32").astype(float)
        np.testing.assert_array_equal(found, wanted)
        np.testing.assert_array_equal(np.signbit(found[found == 0]), np.signbit(wanted[wanted == 0]))

    @unittest.skipUnless(np, "NumPy isn't there")
    def test_each_exponent_of_32_bits(self):
        draw = np.random.default_rng(309)
        exponents = np.repeat(np.arange(256, dtype=np.uint32), 200) << 23
        drawn = (exponents | draw.integers(0, 2**23, len(exponents), dtype=np.uint32)).view(np.float32)
        with np.errstate(all="ignore"):
            edges = np.concatenate([2.0**np.arange(-149, 128), [float(f"1e{power}") for power in range(-45, 39)]])
            edges = [edges.astype(np.float32)]
            for _ in range(3):
                edges += [np.nextafter(edges[0], np.float32(0)), np.nextafter(edges[-1], np.float32(np.inf))]
            self.printed(np.concatenate([*edges, -edges[0]]))
            self.printed(drawn)
            # Halves of a last place, and decimals of each number of digits.
            self.printed((draw.integers(2**21, 2**23, 5000) / 4).astype(np.float32))
            self.printed((draw.integers(1, 10**draw.integers(1, 9, 9000)) * 10.0**draw.integers(-44, 30, 9000)
                          ).astype(np.float32))
            self.printed(np.array([0.0, -0.0, np.inf, -np.inf, np.nan, 3.4028235e38, 1e-45], np.float32))

    @unittest.skipUnless(np, "NumPy isn't there")
    def test_arrays_that_are_printed(self):
        floats = np.random.default_rng(310).random(300).astype(np.float32)
        for part in floats[:0], floats[:1], floats[:63], floats[1:66], floats[::3], floats[::-1]:
            self.printed(part)
        room, wide = np.empty(300), floats.astype(float)
        for given, to in ((wide, room), (floats.astype(np.float16), room), (floats.astype(">f4"), room),
                          (floats, room[1:]), (floats, room.astype(np.float32)), (floats, np.empty(600)[::2]),
                          (floats, room.astype(">f8")), (floats[:, None], room), (floats.tolist(), room),
                          (floats, None)):
            self.assertIs(self.module.printed(given, to), False)

    def test_arguments(self):
        """Other arguments than a matrix and a bool are judged by the longer way, which gets them as they are."""
        seen = []
        module, call = another(lambda *words, **named: seen.append((words, named)))
        for words, named in (((), {}), (([[1]], 1), {}), (([[1]], None), {}), (([[1]], False, 3), {}),
                             ((), {"cost_matrix": [[1]]}), (([[1]],), {"missing": "refuse"}),
                             (([[1]],), {"maximise": True}), (([[1]], True), {"maximize": True}),
                             (([[1]],), {"maximize": 1}), (([[1]],), {"timeout": 0}), (([[1]],), {"timeout": "1"}),
                             (([[1]],), {"timeout": math.inf}), (([[1]],), {"unmatched_cost": math.inf}),
                             (([[1]],), {"unmatched_cost": (1, 2)}), (([[1]],), {"progress": None}),
                             (([[1]],), {"unmatched_cost": 2**60}), (([[math.nan]],), {"unmatched_cost": 1})):
            call(*words, **named)
            self.assertEqual(seen.pop(), (words, named))
        self.assertEqual((call([[1, 2]], maximize=True), call([[1, 2]], True), call([[1, 2]], maximize=False)),
                         (([0], [1]), ([0], [1]), ([0], [0])))
        self.assertEqual((call([[1, 2]], timeout=9), call([[1, 2]], timeout=None, maximize=True)),
                         (([0], [0]), ([0], [1])))
        self.assertEqual((call([[1, 2]], unmatched_cost=0.5), call([[1, 2]], unmatched_cost=1),
                          call([[2], [1]], True, unmatched_cost=2)), (([], []), ([0], [0]), ([0], [0])))
        self.assertEqual(seen, [])

    def test_what_the_longer_way_raises(self):
        fault = ValueError("so")

        def raising(*words, **named):
            raise fault

        with self.assertRaises(ValueError) as seen:
            another(raising)[1]([[None]])
        self.assertIs(seen.exception, fault)

    def test_the_same_refusals(self):
        for costs, named in (([[math.nan, 1]], {}), ([[1], [2, 3]], {}), ([[None]], {}), (["a"], {}),
                             ([[1]], {"missing": "so"}), (5, {}), ([], {}), ([[1]], {"timeout": -1}),
                             ([[-math.inf]], {}), ([[10**400]], {})):
            said = []
            for call in nushbaret.linear_sum_assignment, longer_call:
                with self.assertRaises(Exception) as seen:
                    call(costs, **named)
                said.append((type(seen.exception), str(seen.exception)))
            self.assertEqual(*said)

    def test_near_ties_take_the_longer_way_or_are_exact(self):
        draw = drawing(303)
        for _ in range(500):
            n = draw.randint(2, 4)
            costs = [[0.1 * draw.randint(1, 3) + draw.choice([0, 2.0**-56, 2.0**-54]) for _ in range(n)]
                     for _ in range(n)]
            self.assertEqual(sums(costs, *nushbaret.linear_sum_assignment(costs)),
                             best(exactly(costs, False), False, n))

    def test_what_it_is_called(self):
        call, plain = nushbaret.linear_sum_assignment, longer_call
        self.assertIs(pickle.loads(pickle.dumps(call)), call)
        self.assertEqual([inspect.signature(call).parameters[name].default
                          for name in ("maximize", "missing", "timeout")], [False, "refuse", None])
        self.assertEqual((list(inspect.signature(call).parameters), call.__doc__, call.__name__),
                         (list(inspect.signature(plain).parameters), plain.__doc__, plain.__name__))


@unittest.skipUnless(extension() and np, "the extension or NumPy isn't there")
class Exact(unittest.TestCase):
    def test_drawn(self):
        """Some of the problems of exact_doubles.py."""
        found, without = exact_doubles.look(nushbaret.linear_sum_assignment, 2, 800, exact_doubles.SMALL,
                                            nushbaret.Infeasible)
        self.assertGreater((found, without), (750, 0))
        exact_doubles.look(nushbaret.linear_sum_assignment, 3, 42, exact_doubles.LARGE, nushbaret.Infeasible)

    def test_rectangles_that_many_rows_compete_in(self):
        """Each row has nearly the same order of columns: shortest paths are long then."""
        little = np.random.default_rng(4).random((300, 320))
        costs = 1.5 * np.arange(300)[:, None] + 0.7 * np.arange(320) + 0.01 * little
        rows, columns = nushbaret.linear_sum_assignment(costs)
        self.assertTrue(exact_doubles.is_best(costs, rows, columns))

    def test_who_judges_sees_worse_plans(self):
        rng = np.random.default_rng(5)
        for name, draw in exact_doubles.KINDS.items():
            costs = draw(rng, 6, 6)
            if np.isfinite(costs).all() and name not in ("products", "sums"):
                rows, columns = nushbaret.linear_sum_assignment(-costs)
                self.assertEqual(exact_doubles.is_best(costs, rows, columns), len(np.unique(costs)) == 1)

    def test_long_searches(self):
        """Of 2048 rows and more too."""
        rng = np.random.default_rng(4)
        costs = np.where(rng.random((520, 520)) < 0.3, np.inf, rng.random((520, 520)))
        module, call = another()
        for matrix in costs, costs[:, ::-1], rng.random((520, 520)):
            for maximize in False, True:
                rows, columns = call(-matrix if maximize else matrix, maximize)
                wanted = longer_call(-matrix if maximize else matrix, maximize)
                self.assertEqual(sums(matrix, rows, columns), sums(matrix, *wanted))
        # So many doubles are rounded first, and searched in pieces.
        for costs in rng.random((2060, 2050))[:, ::-1], rng.random((2048, 2048)) - 0.5:
            answer = call(costs)
            self.assertIsNot(answer, LONGER)
            self.assertTrue(is_near(costs, *answer))
        costs = np.full((2048, 2048), 1 / 3)
        costs[0, 0] = np.inf
        self.assertIs(call(costs), LONGER)

    def test_whole_numbers_are_exact(self):
        """They go by the call for whole numbers, beyond what doubles hold, and whatever their order in memory."""
        rng = np.random.default_rng(12)
        for n, m in ((12, 12), (40, 30), (30, 55)):
            great = rng.integers(2**53, 2**53 + 9, (n, m))
            self.assertIs(another()[1](great), LONGER)
            for costs in rng.integers(-10**12, 10**12, (n, m)), np.arange(1, n + 1)[:, None] * np.arange(1, m + 1):
                for form in costs, np.asfortranarray(costs), costs.astype(float), costs[::-1, ::-1][::-1, ::-1]:
                    for maximize in False, True:
                        answer = another()[1](form, maximize)
                        self.assertIsNot(answer, LONGER)
                        wanted = longer_call(costs, maximize)
                        self.assertEqual(sums(costs.tolist(), *answer), sums(costs.tolist(), *wanted))


@unittest.skipUnless(extension() and np, "the extension or NumPy isn't there")
class Batch(unittest.TestCase):
    def test_each_as_alone(self):
        rng, draw = np.random.default_rng(6), drawing(304)
        for turn in range(150):
            shape = draw.randint(0, 6), draw.randint(1, 6), draw.randint(1, 6)
            costs = rng.random(shape) * 9
            costs = [costs, costs.astype("i4"), costs.astype("f4"), costs[:, ::-1], costs.transpose(0, 2, 1),
                     np.round(costs), costs[::-1]][turn % 7]
            rows, columns = nushbaret.linear_sum_assignment_batch(costs, turn % 2 == 0)
            self.assertEqual((rows.shape, columns.shape, rows.dtype),
                             ((len(costs), min(costs.shape[1:])),) * 2 + (np.dtype(np.intp),))
            for place, matrix in enumerate(costs):
                wanted = nushbaret.linear_sum_assignment(matrix, turn % 2 == 0)
                self.assertEqual(sums(matrix.tolist(), rows[place], columns[place]), sums(matrix.tolist(), *wanted))

    def test_near_ties_and_large_ones(self):
        rng = np.random.default_rng(7)
        costs = exact_doubles.KINDS["sums"](rng, 40 * 12, 12).reshape(40, 12, 12)
        rows, columns = nushbaret.linear_sum_assignment_batch(costs)
        self.assertTrue(all(exact_doubles.is_best(*one) for one in zip(costs, rows, columns)))
        costs = rng.random((3, 80, 90))
        rows, columns = nushbaret.linear_sum_assignment_batch(costs[:, :, ::-1])
        self.assertTrue(all(exact_doubles.is_best(*one) for one in zip(costs[:, :, ::-1], rows, columns)))

    def test_without_the_extension(self):
        costs = np.random.default_rng(8).random((5, 4, 6))
        with by_the_longer_way():
            rows, columns = nushbaret.linear_sum_assignment_batch(costs)
        self.assertEqual([columns.tolist(), rows.tolist()],
                         [nushbaret.linear_sum_assignment_batch(costs)[1].tolist(), [[0, 1, 2, 3]] * 5])

    def test_refusals(self):
        for wrong, text in ((np.nan, "matrix 2: matrix contains invalid numeric entries: nan at row 1, column 0"),
                            (np.inf, "matrix 2: cost matrix is infeasible: row 1 may have no column")):
            costs = np.ones((4, 2, 2))
            costs[2, 1] = wrong
            with self.assertRaisesRegex(ValueError, text):
                nushbaret.linear_sum_assignment_batch(costs)
        for shape in (3,), (2, 3), (1, 2, 3, 4):
            with self.assertRaisesRegex(ValueError, f"got a {len(shape)} array"):
                nushbaret.linear_sum_assignment_batch(np.ones(shape))
        for answer in map(nushbaret.linear_sum_assignment_batch, (np.ones((0, 2, 2)), np.ones((2, 0, 3)))):
            self.assertEqual(answer[0].size, 0)

    def test_own_arrays_alone_are_filled(self):
        """Arrays of another shape or kind are left as they are."""
        costs, good = np.ones((3, 2, 2)), np.zeros((3, 2), np.intp)
        for wrong in (np.zeros((3, 3), np.intp), np.zeros((2, 2), np.intp), np.zeros((3, 2)),
                      np.zeros((3, 4), np.intp)[:, ::2], good[0], None):
            for words in (good, wrong), (wrong, good):
                self.assertIsNone(extension().batch(costs, False, *words))

    @unittest.skipUnless(hasattr(signal, "setitimer"), "this system has no timer that raises a signal")
    def test_ctrl_c(self):
        many = np.broadcast_to(np.random.default_rng(9).random((64, 64)), (10**5, 64, 64))
        rows, columns = np.empty((2, 10**5, 64), np.intp)
        before = signal.signal(signal.SIGALRM, signal.default_int_handler)
        try:
            with self.assertRaises(KeyboardInterrupt):
                signal.setitimer(signal.ITIMER_REAL, 0.05)
                extension().batch(many, False, rows, columns)
        finally:
            signal.setitimer(signal.ITIMER_REAL, 0)
            signal.signal(signal.SIGALRM, before)


def forms():
    """Costs that take every way through the extension."""
    held = [[[0.5, 1.25], [0.75, 2.5]], [[1, 2], [3, 5], [7, 11]], [[0.1234567890123456, 1 / 3], [2 / 3, 0.1]],
            [[None]], [[1, 2], [3]], [[float(row * column % 7) for column in range(60)] for row in range(60)]]
    if np:
        rng = np.random.default_rng(10)
        held += [rng.random((3, 3)), rng.random((70, 70)), rng.random((5, 3)), np.ones((2, 2), "i4"),
                 np.asfortranarray(rng.random((4, 4))), np.ones(3), np.array([[np.inf]]), rng.random((60, 60))[:, ::-1],
                 rng.integers(0, 99, (12, 12)), rng.random((9, 9)).astype("f4"), np.ones((2, 2), object),
                 list(rng.random((3, 4))),
                 np.ma.array(rng.random((3, 3))), [(1, 2), [3, None]]]
    if pd:
        held += [pd.DataFrame(rng.random((4, 4))), pd.DataFrame({"a": [1, 2], "b": [0.5, 7], "c": [True, False]})]
    return held


def questions(module, costs):
    """The questions about a matrix, each as a call, with the plan that is found now, if one is."""
    plan = plan_found(module, costs)
    asked = [lambda: module.found(costs, False, *PLANS), lambda: module.found(costs, False, math.inf, direct.WORST)]
    for question in (direct.BEST, direct.ONLY, direct.NEXT) if plan else ():
        asked.append(lambda question=question: module.found(costs, False, math.inf, question, 0, 10**6, plan))
    return asked


def plan_found(module, costs):
    """A best plan as the extension takes it; None where it finds none."""
    answer = module.found(costs, False)
    if answer is None:
        return None
    (rows, _), (own, objects, prices, _, places) = answer
    n_rows = len(costs) if type(costs) is list else costs.shape[0]
    return n_rows, objects, prices or b"", own, places


@unittest.skipUnless(extension(), "the extension isn't there, or the library has no calls for doubles")
class Questions(unittest.TestCase):
    def same(self, costs, maximize):
        """Each question has the same answer by the longer way, and types are the same."""
        said = []
        for way in contextlib.nullcontext(), by_the_longer_way():
            with way:
                result, fair = nushbaret.solve(costs, maximize), nushbaret.bottleneck(costs, maximize)
                other, plans = result.next_best(), list(nushbaret.k_best(costs, 4, maximize))
                self.assertNotEqual(other and other.pairs, result.pairs)
                said.append((result.is_unique(), other and other.cost, other and type(other.rows), fair.cost,
                             fair.is_unique(), bool(fair.verdict), [(plan.cost, [*plan.columns]) for plan in plans]))
        self.assertEqual(*said)

    def test_by_either_way(self):
        draw = drawing(311)
        for turn in range(60):
            n, m = draw.randint(1, 5), draw.randint(1, 5)
            number = (lambda: draw.randint(0, 9), lambda: draw.randint(0, 90) / 10, draw.random)[turn % 3]
            costs = [[number() for _ in range(m)] for _ in range(n)]
            self.same(costs, turn % 2 == 0)
            if np:
                self.same(np.array(costs), turn % 2 == 0)
                self.same(np.asfortranarray(np.array(costs).astype(("i4", "f8", "f4")[turn % 3])), turn % 2 == 1)
            if pd and turn % 5 == 0:
                self.same(pd.DataFrame(costs), turn % 2 == 0)

    def test_they_are_asked(self):
        """None of these takes the longer way."""
        forms = [[[4, 1, 7], [2, 3, 9]], [[4.5, 1.25], [2.0, 3.75], [9.0, 8.0]]]
        forms += [np.array(form) for form in forms] if np else []
        for costs in forms:
            with mock.patch("nushbaret.api.solved.SolvedProblem.read_again", side_effect=AssertionError), \
                    mock.patch("nushbaret.costs.source.Source.read", side_effect=AssertionError):
                result = nushbaret.solve(costs)
                self.assertTrue(result.is_unique())
                self.assertGreater(result.next_best().cost, result.cost)
                nushbaret.bottleneck(costs)

    def test_changed_costs(self):
        """What was changed after the call is refused in the same words."""
        for change in (lambda costs: costs[0].__setitem__(1, 2), lambda costs: costs[1].__setitem__(1, -50),
                       lambda costs: costs.append([0, 0, 0]), lambda costs: costs[0].__setitem__(0, None)):
            for ask in nushbaret.Result.is_unique, nushbaret.Result.next_best:
                said = []
                for way in contextlib.nullcontext(), by_the_longer_way():
                    costs = [[4, 1, 7], [2, 3, 9]]
                    with way:
                        result = nushbaret.solve(costs)
                        change(costs)
                        try:
                            said.append(ask(result))
                        except ValueError as fault:
                            said.append(str(fault))
                self.assertEqual(*said)

    def test_other_plans_are_left(self):
        """A plan of another matrix, or with objects that aren't there, is nothing that is answered."""
        module, _ = another()
        costs = [[4, 1, 7], [2, 3, 9]]
        n_rows, objects, prices, own, places = plan_found(module, costs)
        beyond, nobody = array("I", [2, 4]).tobytes(), array("I", [2, 0]).tobytes()
        for plan in ((3, objects, prices, own, places), (n_rows, objects[:4], prices, own, places),
                     (n_rows, objects, prices[:8], own, places), (n_rows, objects, prices * 2, own, places),
                     (n_rows, beyond, prices, own, places), (n_rows, nobody, prices, own, places),
                     (n_rows, objects, b"", own, places), (n_rows, objects, prices, own, -1),
                     (n_rows, objects, prices, [1, 3], places), (n_rows, objects, prices, None, places)):
            for question in direct.ONLY, direct.NEXT:
                self.assertIsNone(module.found(costs, False, math.inf, question, 0, 10**6, plan), plan)
        for question in direct.ONLY, direct.NEXT, -1, 5, 99:
            self.assertIsNone(module.found(costs, False, math.inf, question))
        self.assertIsNone(module.found(costs, False, math.inf, direct.FIRST, 0, 10**6))

    def test_begins_at_a_plan(self):
        """The answer is as good from any plan and prices."""
        module, _ = another()
        draw = drawing(312)
        for _ in range(100):
            n, m = draw.randint(1, 6), draw.randint(1, 6)
            costs = [[draw.randint(-9, 9) for _ in range(m)] for _ in range(n)]
            least, most = sorted((n, m))
            objects = draw.sample(range(1, most + 1), least)
            objects[draw.randrange(least)] = 0
            prices = array("q", [draw.randint(0, 9) for _ in range(most)])
            answer = module.found(costs, False, math.inf, direct.BEST, 0, 0,
                                  (n, array("I", objects).tobytes(), prices.tobytes(), None, 0))
            self.assertEqual(answer[1][3], module.found(costs, False)[1][3])


@unittest.skipUnless(extension(), "the extension isn't there, or the library has no calls for doubles")
class Kept(unittest.TestCase):
    def each_way(self, module, call):
        for costs in forms():
            call(costs)
            call(costs, maximize=True)
            for ask in questions(module, costs):
                ask()

    def test_references(self):
        """No object is kept or let go once too often."""
        module, call = another()
        held = forms()
        self.each_way(module, call)
        for costs in held:
            watched = [costs, None, True, False, call,
                       module] + (costs if type(costs) is list else [type(costs)])
            watched += [costs.dtype] if np and isinstance(costs, np.ndarray) else []
            call(costs)
            before = [sys.getrefcount(value) for value in watched]
            for _ in range(50):
                call(costs)
                call(costs, maximize=False)
                module.found(costs, True)
                for ask in questions(module, costs):
                    ask()
            after = [sys.getrefcount(value) for value in watched]
            self.assertLess(max(abs(last - first) for first, last in zip(before, after)), 25, costs)

    def test_blocks(self):
        """Many calls leave as many blocks of Python's memory as a few."""
        module, call = another()
        for _ in range(5):
            self.each_way(module, call)
        gc.collect()
        before = sys.getallocatedblocks()
        for _ in range(100):
            self.each_way(module, call)
        gc.collect()
        self.assertLess(sys.getallocatedblocks() - before, 100)

    def test_modules_go(self):
        """A module that nobody has any more is freed, with its call and what that goes to."""
        class Way:
            def __call__(self, *words, **named):
                return LONGER

        import weakref
        way = Way()
        gone = weakref.ref(way)
        module, call = another(way)
        self.assertIs(call([[None]]), LONGER)
        del module, call, way
        gc.collect()
        self.assertIsNone(gone())

    def test_made_once(self):
        with self.assertRaisesRegex(RuntimeError, "made before"):
            extension().function(print, "", "nushbaret")
        for words in ((), (1, 2, 3, 4), (None, 1, 2)):
            with self.assertRaises(TypeError):
                extension().function(*words)


REFUSED = """
import sys
from lap.test_extension import another, forms, questions
import _testcapi
module, call = another()
held = forms()
for costs in held:
    call(costs), module.found(costs, True)
refused = 0
for costs in held:
    for run in (lambda: call(costs), lambda: call(costs, maximize=True), lambda: module.found(costs, False),
                *questions(module, costs)):
        wanted = run()
        for number in range(320):
            _testcapi.set_nomemory(number, number + 1)
            try:
                answer = run()
            except MemoryError:
                refused += 1
                answer = None
            finally:
                _testcapi.remove_mem_hooks()
        if answer is None and wanted is not None:
            sys.exit("refused for ever")
print(refused > 10)
"""

INTERPRETERS = """
import sys
try:
    import _interpreters as interpreters
except ImportError:
    import _xxsubinterpreters as interpreters
sys.path[:0] = {path!r}
import nushbaret
print(nushbaret.linear_sum_assignment([[1, 2], [3, 5]]))
for way in {ways!r}:
    for _ in range(3):
        held = interpreters.create(**way)
        found = interpreters.run_string(held, '''if True:
            import sys
            sys.path[:0] = {path!r}
            import nushbaret
            assert nushbaret.linear_sum_assignment([[1, 2], [3, 5]]) == ([0, 1], [1, 0])
            assert nushbaret.linear_sum_assignment([[1, 2.5], [3, 5]], True) == ([0, 1], [0, 1])
            assert nushbaret.solve([[1, 2], [3, 5]]).cost == 5
        ''')
        assert found is None, found
        interpreters.destroy(held)
print(nushbaret.linear_sum_assignment([[1, 2], [3, 5]]))
"""


@unittest.skipUnless(extension(), "the extension isn't there, or the library has no calls for doubles")
class Around(unittest.TestCase):
    def run_here(self, text):
        """What a script prints, in another process with this one's path."""
        path = os.pathsep.join([os.path.dirname(os.path.dirname(os.path.abspath(__file__))), *sys.path])
        ran = subprocess.run([sys.executable, "-c", text], capture_output=True, text=True,
                             env={**os.environ, "PYTHONPATH": path})
        self.assertEqual(ran.returncode, 0, ran.stderr[-2000:])
        return ran.stdout

    @unittest.skipUnless(importlib.util.find_spec("_testcapi"), "this Python has no module of its own tests")
    def test_each_allocation_refused(self):
        """Where an allocation is refused, each in its turn, a call answers or raises MemoryError, and the next one
        answers."""
        self.assertEqual(self.run_here(REFUSED), "True\n")

    def test_interpreters(self):
        """In an interpreter of its own within the process. One with a lock of its own refuses the extension, and goes
        by ctypes, which Python 3.12 refuses too there."""
        name = "_interpreters" if importlib.util.find_spec("_interpreters") else "_xxsubinterpreters"
        if not importlib.util.find_spec(name):
            self.skipTest("this Python has no module for interpreters")
        ways = [{"config": "legacy"}, {"config": "isolated"}] if name == "_interpreters" else [{"isolated": False}]
        self.assertEqual(self.run_here(INTERPRETERS.format(path=[path for path in sys.path if path], ways=ways)),
                         "([0, 1], [1, 0])\n" * 2)

    def test_threads(self):
        draw = drawing(305)
        problems = [[[draw.random() for _ in range(size)] for _ in range(size)] for size in (3, 20, 60)
                    for _ in range(10)]
        problems += list(map(np.array, problems)) if np else []
        alone = [list(map(list, nushbaret.linear_sum_assignment(costs))) for costs in problems]
        with ThreadPoolExecutor(4) as pool:
            for _ in range(5):
                self.assertEqual([list(map(list, found))
                                  for found in pool.map(nushbaret.linear_sum_assignment, problems)], alone)

    @unittest.skipUnless(np, "NumPy isn't there")
    def test_others_run_meanwhile(self):
        """While the library works on a large problem another thread may have the lock, which nobody else gives it
        here."""
        costs, go, ran = np.random.default_rng(11).random((300, 300)), threading.Event(), threading.Event()
        thread = threading.Thread(target=lambda: (go.wait(), ran.set()))
        thread.start()
        before = sys.getswitchinterval()
        sys.setswitchinterval(10**6)
        try:
            go.set()
            for _ in range(1000):
                nushbaret.linear_sum_assignment(costs)
                if ran.is_set():
                    break
            self.assertTrue(ran.is_set())
        finally:
            sys.setswitchinterval(before)
            thread.join()

    def test_hidden(self):
        """Without the extension all goes by ctypes; without a library the first call says so."""
        text = ("import sys\nsys.modules['nushbaret._extension'] = None\nimport "
                "nushbaret\nprint(type(nushbaret.linear_sum_assignment).__name__, "
                "nushbaret.linear_sum_assignment([[1.5, 2], [3, 5]]))")
        self.assertEqual(self.run_here(text), "function ([0, 1], [1, 0])\n")
        text = ("import pathlib\nfrom nushbaret.lap import library\npaths = library.PATHS\nimport nushbaret\ncall = "
                "nushbaret.linear_sum_assignment\nlibrary.PATHS = ()\ntry:\n    call([[1]])\nexcept "
                "nushbaret.LibraryNotFound as fault:\n    print(fault)\nlibrary.PATHS = paths\nprint(call([[1]]))")
        self.assertRegex(self.run_here(text), r"^libnushbaret.so isn't there: .*\n\(\[0\], \[0\]\)\n$")


if __name__ == "__main__":
    unittest.main()
