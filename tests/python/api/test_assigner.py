"""A matrix whose rows change: after each change the cost is that of a fresh solve, compared with a slow search too."""
import math
import os
import pickle
import random
import subprocess
import sys
import unittest
from array import array
from decimal import Decimal
from fractions import Fraction
from unittest import mock

import nushbaret
from nushbaret.api import assigner as _assigner
from drawn import best, drawing, exactly, proves
from optional import np, pd, sparse
from ways import extension, longer_call


def _far(draw):
    return draw.choice([draw.random(), draw.random(), -draw.worst])


KINDS = {
    "even": lambda draw: draw.random(),
    "whole": lambda draw: draw.randint(-20, 20),
    "cents": lambda draw: draw.randint(-500, 500) / 100,
    "forbidden": _far,
    "ties": lambda draw: draw.choice([0.1, 0.2, 0.3, 0.1 + 0.2, 1 / 3, 2 / 3]),
    "great": lambda draw: draw.choice([10**12, -10**12, 0, 10**12 - 1]),
    "beyond": lambda draw: draw.choice([10**20, 1, Fraction(1, 3), Decimal("0.1"), 2.5]),
    "mixed": lambda draw: draw.choice([1, 0.5, 0.25, 1 / 3, 10**13, 0.1]),
}


class Rows(unittest.TestCase):
    def said(self, call):
        """The cost, or why there is no plan."""
        try:
            return call().cost
        except nushbaret.Infeasible as short:
            return str(short), list(short.rows)

    def test_beside_fresh_solves(self):
        draw, kinds, again = drawing(401), list(KINDS), 0
        for turn in range(240):
            kind, maximize, n = kinds[turn % len(kinds)], draw.random() < 0.5, draw.randint(1, 6)
            m = draw.choice([n, n, n, n + 1, max(n - 1, 1)])
            draw.worst = math.inf if maximize else -math.inf
            costs = [[KINDS[kind](draw) for _ in range(m)] for _ in range(n)]
            assigner = nushbaret.Assigner(np.array(costs) if np and turn % 3 == 0 and kind != "beyond" else costs,
                                          maximize)
            with mock.patch.object(_assigner, "solve", side_effect=_assigner.solve) as fresh:
                for _ in range(6):
                    with self.subTest(kind=kind, costs=costs, maximize=maximize):
                        wanted = self.said(lambda: nushbaret.solve(costs, maximize))
                        self.assertEqual(self.said(lambda: assigner.result), wanted)
                    for _ in range(draw.choice([1, 1, 1, 2])):
                        row = draw.randrange(n)
                        other = KINDS["even" if draw.random() < 0.1 else kind]
                        costs[row] = [other(draw) for _ in range(m)]
                        assigner.update(row, np.array(costs[row]) if np and turn % 4 == 0 and kind != "beyond"
                                        else costs[row])
                again += 6 - fresh.call_count
        if extension():
            self.assertGreater(again, 300)

    def test_results(self):
        """A result is one of `solve`: with a proof, in the form of the costs."""
        draw = drawing(402)
        for turn in range(60):
            n, maximize = draw.randint(1, 5), turn % 2 == 0
            costs = [[list(KINDS.values())[turn % 3](draw) for _ in range(n)] for _ in range(n)]
            form = np.array(costs) if np and turn % 4 == 0 else costs
            assigner = nushbaret.Assigner(form, maximize)
            for _ in range(3):
                result, exact = assigner.result, exactly(costs, True)
                self.assertIs(result, assigner.result)
                self.assertEqual(Fraction(result.cost), best(exact, maximize, n))
                self.assertTrue(result.verify(costs))
                self.assertTrue(proves(exact, result, maximize))
                self.assertIsInstance(result.rows, list if form is costs else np.ndarray)
                self.assertEqual(result.next_best() is None, n == 1)
                costs[0] = [cost + draw.randint(0, 3) for cost in costs[0]]
                assigner.update(0, costs[0])

    def test_costs_are_its_own(self):
        costs = [[1, 5], [5, 1]]
        for form in (costs, np.array(costs)) if np else (costs,):
            assigner = nushbaret.Assigner(form)
            first = assigner.result
            form[0][0] = 99
            row = [9, 2]
            assigner.update(1, row)
            row[0] = -99
            self.assertEqual((assigner.result.cost, first.cost), (3, 2))
            with self.assertRaisesRegex(ValueError, "the costs were changed after the call"):
                first.without(0, 0)
            costs = [[1, 5], [5, 1]]

    @unittest.skipUnless(np, "NumPy isn't there")
    def test_arrays_of_either_byte_order(self):
        rng = np.random.default_rng(405)
        for kind in ["<f8", ">f8", "<i4", ">i4", ">f4"] * 20:
            costs = (rng.random((3, 3)) * 99).astype(kind)
            assigner = nushbaret.Assigner(costs)
            for row in range(3):
                self.assertEqual(assigner.result.cost, nushbaret.solve(costs).cost)
                costs[row] = costs[row][::-1]
                assigner.update(row, costs[row])
            self.assertEqual(assigner.result.cost, nushbaret.solve(costs).cost)

    @unittest.skipUnless(np, "NumPy isn't there")
    def test_rows_of_another_kind(self):
        """A row keeps the numbers that it has, and so do the others."""
        kinds = ("f2", "f4", "f8", "g", "i1", "i8", "u8", "O")
        draw = drawing(406)
        for first in kinds:
            for second in kinds:
                rows = [[abs(draw.choice([0.1, 0.3, 7, 100]) if kind[0] in "fgO" else draw.randint(0, 100))
                         for _ in range(3)] for kind in (first, first, second)]
                costs = np.array([*rows[:2], rows[0]], first)
                assigner = nushbaret.Assigner(costs)
                assigner.update(2, np.array(rows[2], second))
                fresh = [*costs[:2], np.array(rows[2], second)]
                self.assertEqual(assigner.result.cost, nushbaret.solve([list(row) for row in fresh]).cost,
                                 (first, second))
        for kind, row in (("f4", [0.1, 0.300000005]), ("f8", [2**53 + 1, 2**60]), ("i1", [1000, -1000]),
                          ("u8", [-1, 2**70]), ("?", [2, 3])):
            costs = np.array([[1, 2], [3, 1]], kind)
            assigner = nushbaret.Assigner(costs)
            assigner.update(1, row)
            self.assertEqual(assigner.result.cost, nushbaret.solve([list(costs[0]), row]).cost, kind)

    def test_short_floats(self):
        """Floats of 32 bits are the decimals that they print as, whatever else a matrix gets."""
        short, plain = [array("f", [0.1, 0.2]), array("f", [0.3, 0.5])], [[0.1, 0.2], [0.3, 0.5]]
        forms = [short, plain] + ([np.array(short), np.array(plain), np.array(plain, np.float16)] if np else [])
        for form in forms:
            assigner = nushbaret.Assigner(form)
            self.assertEqual(assigner.result.cost, Decimal("0.5"))
            for row in [array("f", [0.7, 0.9]), [0.7, 0.9]] + ([np.array([0.7, 0.9], np.float32)] if np else []):
                assigner.update(1, row)
                self.assertEqual(assigner.result.cost, Decimal("0.9"))
                assigner.update(1, plain[1])
                self.assertEqual(assigner.result.cost, Decimal("0.5"))

    @unittest.skipUnless(np, "NumPy isn't there")
    def test_great_numbers_among_floats(self):
        for row in [2**60 + 1, 0], np.array([2**60 + 1, 0]), np.array([2**60 + 1, 0], np.uint64):
            assigner = nushbaret.Assigner(np.array([[1, 0.5], [2, 3]]), True)
            assigner.update(0, row)
            self.assertEqual(assigner.result.cost, 2**60 + 4)

    @unittest.skipUnless(np, "NumPy isn't there")
    def test_masks(self):
        """What a mask covers is refused, as `solve` does, until a row without any is there."""
        for kind in float, int, np.float32:
            plain = np.array([[4, 1], [2, 3]], kind)
            masked = np.ma.array(plain, mask=[[False, True], [False, False]])
            changed = nushbaret.Assigner(plain)
            changed.update(0, masked[0])
            for assigner in nushbaret.Assigner(masked), changed:
                with self.assertRaisesRegex(ValueError, "-- \\(masked\\) at row 0, column 1"):
                    assigner.result
                assigner.update(0, plain[0])
                self.assertEqual(assigner.result.cost, 3)
            changed.update(1, np.ma.array([2**60, 1], mask=True))
            with self.assertRaisesRegex(ValueError, "-- \\(masked\\) at row 1, column 0"):
                changed.result
            changed = nushbaret.Assigner([[4, 1], [2, 3]])
            changed.update(0, masked[0])
            with self.assertRaisesRegex(ValueError, "-- \\(masked\\) at row 0, column 1$"):
                changed.result
            changed.update(0, plain[0])
            self.assertEqual(changed.result.cost, 3)

    def test_no_matrices(self):
        for wrong in 5, [1, 2], {(1, 2): 3, (3, 4): 5}, [b"ab", b"cd"], [{1: 2, 3: 4}, [5, 6]]:
            with self.assertRaises((ValueError, TypeError)) as wanted:
                nushbaret.solve(wrong)
            with self.assertRaises((ValueError, TypeError)) as seen:
                nushbaret.Assigner(wrong)
            self.assertEqual(str(seen.exception), str(wanted.exception))

    @unittest.skipUnless(pd, "pandas isn't there")
    def test_frames(self):
        """Columns of several kinds are exact, and results have the labels."""
        frames = (pd.DataFrame({"early": [2**60 + 1, 2**60], "late": [0.5, 0.25]}, index=["Ada", "Ben"]),
                  pd.DataFrame({"early": np.array([0.1, 0.2], "f4"), "late": [0.5, 0.25]}, index=["Ada", "Ben"]),
                  pd.DataFrame({"early": pd.array([1, 2], "Int64"), "late": [1, 3]}, index=["Ada", "Ben"]),
                  pd.DataFrame([[0.1, 5], [0.25, 9]], index=["Ada", "Ben"], columns=["early", "late"]))
        for frame, cost in zip(frames, (Decimal("1152921504606846976.5"), Decimal("0.35"), 3, Decimal("5.25"))):
            assigner, before = nushbaret.Assigner(frame), frame.copy()
            self.assertEqual((assigner.result.cost, assigner.result.verify().why), (cost, ""))
            self.assertEqual([row for row, _ in assigner.result.pairs], ["Ada", "Ben"])
            assigner.update(0, np.ma.array([1, 2], mask=[False, True]))
            with self.assertRaisesRegex(ValueError, r"-- \(masked\)"):
                assigner.result
            # By labels, whatever their order is.
            assigner.update(1, pd.Series({"late": 0.125, "early": 9}))
            assigner.update(0, {"late": 9, "early": 1})
            self.assertEqual((assigner.result.cost, assigner.result.pairs),
                             (Decimal("1.125"), [("Ada", "early"), ("Ben", "late")]))
            self.assertEqual(assigner.result.without("Ada", "early").cost, 18)
            with self.assertRaisesRegex(ValueError, "row 1 has 'night', which is no column"):
                assigner.update(1, pd.Series({"late": 3, "night": 5}))
            pd.testing.assert_frame_equal(frame, before)

    @unittest.skipUnless(pd, "pandas isn't there")
    def test_frames_in_another_process(self):
        """An Assigner of a frame loads pandas where nobody has."""
        assigner = nushbaret.Assigner(pd.DataFrame([[4, 1], [2, 3]], index=["Ada", "Ben"], columns=["early", "late"]))
        code = "import pickle, sys; print(pickle.load(sys.stdin.buffer).result.pairs)"
        top = os.path.dirname(os.path.dirname(nushbaret.__file__))
        ran = subprocess.run([sys.executable, "-c", code], input=pickle.dumps(assigner), capture_output=True,
                             check=True, env={**os.environ, "PYTHONPATH": top})
        self.assertEqual(ran.stdout.decode().strip(), "[('Ada', 'late'), ('Ben', 'early')]")

    def test_buffers(self):
        for kind in "d", "f", "q", "i":
            held = memoryview(array(kind, [1, 2, 3, 5]))
            assigner = nushbaret.Assigner(held.cast("B").cast(kind, (2, 2)))
            self.assertEqual(assigner.result.cost, 5)
            assigner.update(1, held[:2])
            self.assertEqual(assigner.result.cost, 3)
            with self.assertRaisesRegex(ValueError, r"expected a matrix \(2-D array\), got a 1 array"):
                nushbaret.Assigner(held)
        self.assertEqual(nushbaret.Assigner(memoryview(array("f", [0.1])).cast("B").cast("f", (1, 1))).result.cost,
                         Decimal("0.1"))

    @unittest.skipUnless(sparse, "SciPy isn't there")
    def test_sparse_matrices(self):
        for kind in "csr", "csc", "coo", "lil", "dok", "bsr", "dia":
            with self.assertRaisesRegex(ValueError, "expected a matrix .*, got a sparse one"):
                nushbaret.Assigner(sparse.eye(2, format=kind))

    def test_no_rows(self):
        wrong = [(5, TypeError, "row 1 is 5: it must be a list of costs"), (None, TypeError, "row 1 is None"),
                 ({1, 2}, TypeError, "row 1 is a set, which has no order"),
                 ({0: 3, 1: 5}, TypeError, "row 1 is a dict, which has no order"),
                 ("ab", TypeError, "row 1 is the text 'ab'")]
        if np:
            wrong += [(np.eye(2), ValueError, "row 1 has 2 dimensions"), (np.array(5), ValueError, "row 1 has 0 dimen")]
        for form in [[[1, 2], [3, 5]]] + ([np.array([[1, 2], [3, 5]])] if np else []):
            assigner = nushbaret.Assigner(form)
            for costs, fault, words in wrong:
                with self.assertRaisesRegex(fault, words):
                    assigner.update(1, costs)
                self.assertEqual(assigner.result.cost, 5)
            assigner.update(1, (cost for cost in (0, 5)))
            self.assertEqual(assigner.result.cost, 2)

    @unittest.skipUnless(np, "NumPy isn't there")
    def test_rows_of_numpys_in_lists(self):
        """An Assigner of lists begins at the last plan too where it gets arrays."""
        assigner = nushbaret.Assigner(list(np.array([[0.5, 0.25], [1, 2]])))
        with mock.patch.object(_assigner, "solve", side_effect=AssertionError):
            self.assertEqual(assigner.result.cost, Decimal("1.25"))
            for row in [0.125, 1], [0.1, 1]:
                assigner.update(1, np.array(row))
                self.assertEqual(assigner.result.cost, Decimal(str(row[0])) + Decimal("0.25"))

    def test_refusals(self):
        assigner = nushbaret.Assigner([[1, 2], [3, 5]])
        for row in -1, 2:
            with self.assertRaisesRegex(IndexError, f"row {row}: there are 2 rows"):
                assigner.update(row, [1, 2])
        with self.assertRaisesRegex(ValueError, "row 1 has 2 costs, and 3 were given"):
            assigner.update(1, [1, 2, 3])
        with self.assertRaisesRegex(TypeError, "row is 'a'"):
            assigner.update("a", [1, 2])
        self.assertEqual(assigner.result.cost, 5)
        for wrong, fault in ((math.nan, ValueError), ("1", TypeError), (None, nushbaret.Infeasible)):
            assigner.update(1, [wrong, wrong])
            for _ in range(2):
                with self.assertRaises(fault) as seen:
                    assigner.result
                with self.assertRaises(fault) as wanted:
                    nushbaret.solve([[1, 2], [wrong, wrong]])
                self.assertEqual(str(seen.exception), str(wanted.exception))
        assigner.update(1, [3, 5])
        self.assertEqual(assigner.result.cost, 5)
        for costs in ([], [[]], [[1], [2, 3]]):
            with self.subTest(costs=costs):
                try:
                    wanted = nushbaret.solve(costs).cost
                except ValueError as fault:
                    with self.assertRaisesRegex(ValueError, str(fault)[:20].replace("(", ".")):
                        nushbaret.Assigner(costs).result
                else:
                    self.assertEqual(nushbaret.Assigner(costs).result.cost, wanted)

    @unittest.skipUnless(np, "NumPy isn't there")
    def test_larger(self):
        rng, draw = np.random.default_rng(403), drawing(403)
        for costs in (rng.random((150, 150)), rng.integers(0, 10**6, (150, 150)), rng.integers(1, 4, (150, 150)),
                      np.round(rng.random((150, 150)) * 100, 2)):
            assigner = nushbaret.Assigner(costs, True)
            for _ in range(12):
                self.assertEqual(assigner.result.cost, nushbaret.solve(costs, True).cost)
                row = draw.randrange(150)
                costs[row] = costs[draw.randrange(150)][::-1]
                assigner.update(row, costs[row])

    def test_plans_at_equal_prices(self):
        begun, none, same = _assigner.library.begun, array("q", bytes(160)), array("q", [1] * 20)
        self.assertEqual(begun(none, array("I", range(20))), same)
        self.assertIs(begun(none, array("I", [0, 0, *range(1, 19)])), none)
        self.assertIs(begun(same, array("I", range(20))), same)

    @unittest.skipUnless(np, "NumPy isn't there")
    def test_long_searches_begin_in_pieces(self):
        costs = np.random.default_rng(404).random((520, 520))
        library = _assigner.library
        with mock.patch.multiple(library, LONGEST=520**3, searched=mock.Mock(side_effect=library.searched)):
            assigner = nushbaret.Assigner(costs)
            cost = assigner.result.cost
            assigner.update(3, costs[3])
            self.assertEqual(assigner.result.cost, cost)
            if extension():
                self.assertEqual(library.searched.call_count, 1)
        rows, columns = longer_call(costs)
        self.assertEqual(sum(map(Decimal, map(repr, costs[rows, columns].tolist()))), cost)


class Sides(unittest.TestCase):
    """Rectangles, changed columns, added and removed rows."""

    VALUES = (lambda draw: draw.randrange(100), lambda draw: round(draw.random() * 10, 2),
              lambda draw: draw.random() * 10)

    def change(self, draw, assigner, costs, value):
        """One change, in the assigner and in the list."""
        width, kind, row = len(costs[0]), draw.randrange(4), draw.randrange(len(costs))
        if kind == 0:
            costs[row] = [value(draw) for _ in range(width)]
            assigner.update(row, costs[row])
        elif kind == 1:
            column, own = draw.randrange(width), [value(draw) for _ in costs]
            for held, cost in zip(costs, own):
                held[column] = cost
            assigner.update_column(column, own)
        elif kind == 2:
            costs.append([value(draw) for _ in range(width)])
            self.assertEqual(assigner.add_row(list(costs[-1])), len(costs) - 1)
        elif len(costs) > 1:
            del costs[row]
            assigner.remove_row(row)

    def test_drawn_changes(self):
        draw = random.Random(3)
        for number in range(40):
            value, maximize = self.VALUES[number % 3], draw.random() < 0.4
            shape = draw.randrange(1, 8), draw.randrange(1, 8)
            costs = [[value(draw) for _ in range(shape[1])] for _ in range(shape[0])]
            form = np.array(costs) if np is not None and number % 2 else [list(row) for row in costs]
            assigner = nushbaret.Assigner(form, maximize)
            for _ in range(10):
                self.change(draw, assigner, costs, value)
                result = assigner.result
                with self.subTest(number=number, costs=costs):
                    self.assertEqual(result.cost, nushbaret.solve(costs, maximize).cost)
                    self.assertTrue(result.verify() and result.verify(costs))
                    self.assertEqual(list(result.rows), sorted(result.rows))

    def test_searches_begin_at_the_last_plan(self):
        """Also of a rectangle, with fewer rows or fewer columns."""
        for shape in ((3, 5), (5, 3), (4, 4)):
            assigner = nushbaret.Assigner([[7 * row * column % 11 for column in range(shape[1])]
                                           for row in range(shape[0])])
            assigner.result
            for change in (lambda: assigner.update(1, [3] * shape[1]),
                           lambda: assigner.update_column(1, [2] * shape[0]), lambda: assigner.remove_row(0)):
                change()
                self.assertEqual(assigner._numbers is not None and assigner._numbers.state is not None, True)
                assigner.result

    def test_refusals(self):
        assigner = nushbaret.Assigner([[4, 1, 3], [2, 0, 5]])
        for call, fault, text in ((lambda: assigner.update_column(3, [1, 2]), IndexError, "column 3: there are 3"),
                                  (lambda: assigner.update_column(0, [1]), ValueError, "column 0 has 2 costs"),
                                  (lambda: assigner.add_row([1, 2]), ValueError, "row 2 has 3 costs, and 2 were"),
                                  (lambda: assigner.remove_row(-1), IndexError, "row -1: there are 2 rows"),
                                  (lambda: assigner.add_row(5), TypeError, "must be a list of costs")):
            with self.assertRaisesRegex(fault, text):
                call()
        self.assertEqual((repr(assigner), assigner.result.cost),
                         ("<nushbaret.Assigner: 2 rows, 3 columns>", 3))

    def test_without_rows(self):
        assigner = nushbaret.Assigner([[4, 1]])
        assigner.remove_row(0)
        self.assertEqual(assigner.result.pairs, [])
        self.assertEqual((assigner.add_row([3, 2]), assigner.result.pairs), (0, [(0, 1)]))

    @unittest.skipUnless(pd, "pandas isn't there")
    def test_frames(self):
        assigner = nushbaret.Assigner(pd.DataFrame([[4, 1], [2, 3]], ["Ada", "Ben"], ["early", "late"]))
        before = assigner.result
        assigner.add_row(pd.Series({"late": 0, "early": 9}, name="Cleo"))
        assigner.update_column(0, {"Cleo": 9, "Ada": 8, "Ben": 2})
        self.assertEqual(assigner.result.pairs, [("Ben", "early"), ("Cleo", "late")])
        assigner.remove_row(1)
        self.assertEqual(assigner.result.pairs, [("Ada", "early"), ("Cleo", "late")])
        self.assertEqual(before.pairs, [("Ada", "late"), ("Ben", "early")])
        with self.assertRaisesRegex(ValueError, "needs a name"):
            assigner.add_row([1, 2])


if __name__ == "__main__":
    unittest.main()
