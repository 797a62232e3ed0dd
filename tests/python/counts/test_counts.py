"""Counts from-to with groups, compared with searches through all plans; and what is refused."""
import os
import pickle
import random
import signal
import threading
import time
import unittest
from array import array
from decimal import Decimal
from fractions import Fraction
from unittest import mock

import nushbaret
from nushbaret.counts.planned import planned, with_fewest_changes
from nushbaret.counts.counted import Bounds, Counted
import drawn
from nushbaret.lap import counts_call, library
from optional import np as numpy, pd as pandas, sparse

CASES = 1500
SMALL = 300


class Roster:
    """A drawn roster: costs, None where a pair is forbidden, counts of both sides, and groups."""

    def __init__(self, draw):
        rows, columns = draw.randint(1, 4), draw.randint(1, 5)
        self.costs = drawn.matrix(draw, rows, columns, draw.choice((2, 20)), 0.8)
        self.rows, self.columns = drawn.bounds(draw, rows), drawn.bounds(draw, columns)
        self.groups = drawn.groups(draw, columns)

    def plans(self, maximize=False):
        """All plans, as how much they miss, what they cost and their pairs; under maximize costs are negated."""
        costs = [[None if cost is None else -cost if maximize else cost for cost in row] for row in self.costs]
        return drawn.plans_by_counts(costs, self.rows, self.columns, self.groups)

    def assign(self, **options):
        return nushbaret.assign_counts(self.costs, self.rows, self.columns, self.groups, **options)

    def counted(self):
        """The roster as the package holds it."""
        group_of = [len(self.groups) + column for column in range(len(self.columns))]
        for number, group in enumerate(self.groups):
            for column in group:
                group_of[column] = number
        pairs = [(row, column) for row, own in enumerate(self.costs) for column, cost in enumerate(own)
                 if cost is not None]
        return Counted([Bounds(*bound) for bound in self.rows], [Bounds(*bound) for bound in self.columns], group_of,
                       len(self.groups), [row for row, _ in pairs], [column for _, column in pairs],
                       [self.costs[row][column] for row, column in pairs])


def rosters(seed, count):
    draw = drawn.drawing(seed)
    return [(Roster(draw), draw.random() < 0.5) for _ in range(count)]


class Plans(unittest.TestCase):
    def judge(self, roster, result, maximize, least):
        """Whether a result misses as little as can be, at the best cost."""
        sign = -1 if maximize else 1
        missed = sum(result.missing_rows.values()) + sum(result.missing_columns.values())
        self.assertEqual((missed, sign * result.cost), least)
        own = (missed, sign * sum(roster.costs[row][column] for row, column in result.pairs), result.pairs)
        self.assertIn(own, list(roster.plans(maximize)))

    def test_beside_all_plans(self):
        infeasible = 0
        for case, (roster, maximize) in enumerate(rosters(1, CASES)):
            least = min(plan[:2] for plan in roster.plans(maximize))
            with self.subTest(case=case):
                self.judge(roster, roster.assign(maximize=maximize, partial=True), maximize, least)
                if least[0] == 0:
                    self.judge(roster, roster.assign(maximize=maximize), maximize, least)
                    continue
                infeasible += 1
                with self.assertRaises(nushbaret.Infeasible) as caught:
                    roster.assign(maximize=maximize)
                self.assertEqual(sum(short.wanted - short.had for short in caught.exception.shortages), least[0])
        self.assertGreater(infeasible, 500)
        self.assertLess(infeasible, 1300)

    def test_kept_pairs_beside_all_best_plans(self):
        draw, changed = random.Random(3), 0
        for case, (roster, _) in enumerate(rosters(3, SMALL)):
            kept = [(row, column) for row in range(len(roster.rows)) for column in range(len(roster.columns))
                    if draw.random() < 0.4]
            roster.costs = [[None if cost is None else cost // 4 for cost in row] for row in roster.costs]
            plans = list(roster.plans())
            least = min(plan[:2] for plan in plans)
            fewest = min(len(set(pairs) - set(kept)) for *worth, pairs in plans if tuple(worth) == least)
            pairs = with_fewest_changes(planned(roster.counted(), True).plans, kept).pairs()
            with self.subTest(case=case):
                self.assertIn((*least, pairs), plans)
                self.assertEqual(len(set(pairs) - set(kept)), fewest)
            changed += fewest > 0
        self.assertGreater(changed, 50)

    def test_month(self):
        """100 nurses, one shift a day."""
        draw = random.Random(1)
        costs = [[draw.randint(1, 100) if draw.random() < 0.9 else None for _ in range(93)] for _ in range(100)]
        result = nushbaret.assign_counts(costs, (18, 20), (18, 22), [column // 3 for column in range(93)])
        self.assertEqual((result.cost, len(result.pairs)), (25223, 1800))
        self.assertEqual(len({(row, column // 3) for row, column in result.pairs}), 1800)


class AnyNumbers(unittest.TestCase):
    def test_doubles_of_every_kind_beside_all_plans(self):
        """The plan is best for the decimals that the costs print as, and its cost is exact."""
        draw = drawn.drawing(5)
        for case, (roster, maximize) in enumerate(rosters(5, SMALL)):
            roster.costs = drawn.doubles(draw, len(roster.rows), len(roster.columns),
                                         list(drawn.KINDS)[case % len(drawn.KINDS)], 0.8)
            result = roster.assign(maximize=maximize, partial=True)
            roster.costs = drawn.exactly(roster.costs, True)
            with self.subTest(case=case):
                missed = sum(result.missing_rows.values()) + sum(result.missing_columns.values())
                least = min(plan[:2] for plan in roster.plans(maximize))
                self.assertEqual((missed, Fraction(result.cost) * (-1 if maximize else 1)), least)

    def test_kinds(self):
        self.assertEqual(nushbaret.assign_counts([[Fraction(1, 3), 0.5]], 2, 1).cost, Fraction(5, 6))
        self.assertEqual(nushbaret.assign_counts([[10**40, 1]], 2, 1).cost, 10**40 + 1)
        self.assertEqual(nushbaret.assign_counts([[10.0**17, 1e-6]], 2, 1).cost, Decimal("100000000000000000.000001"))


class Shortages(unittest.TestCase):
    def test_each_is_true_by_itself(self):
        """Of just the rows, columns, counts and groups that a shortage names there is no plan."""
        found = 0
        for case, (roster, _) in enumerate(rosters(4, 1000)):
            try:
                roster.assign()
                continue
            except nushbaret.Infeasible as short:
                shortages = short.shortages
            found += 1
            for short in shortages:
                with self.subTest(case=case, short=short):
                    self.assertGreater(short.wanted, short.had)
                    self.assertEqual(short.had, self.most(roster, short))
            names = [(short.of_columns, number) for short in shortages
                     for number in (short.columns if short.of_columns else short.rows)]
            self.assertEqual(len(names), len(set(names)))
        self.assertGreater(found, 500)

    def most(self, roster, short):
        """How many pairs those that are short can have at most, by a search, where only what is named counts."""
        rows, columns = len(roster.rows), len(roster.columns)
        once = {(row, tuple(held)) for row, held in short.once}
        named = set(short.columns) | {column for _, held in once for column in held}
        costs = [[None if cost is None or column not in named else 1 for column, cost in enumerate(row)]
                 for row in roster.costs]
        if short.of_columns:
            row_bounds = [(0, roster.rows[row][1] if row in short.rows else 9) for row in range(rows)]
            column_bounds = [(0, roster.columns[column][0] if column in short.columns else 0)
                             for column in range(columns)]
        else:
            costs = [own if row in short.rows else [None] * columns for row, own in enumerate(costs)]
            row_bounds = [(0, roster.rows[row][0]) for row in range(rows)]
            column_bounds = [(0, roster.columns[column][1] if column in short.columns else 9)
                             for column in range(columns)]
        # A row that is named with all that it takes may take several of a group.
        for row in range(rows):
            listed = {column for held_row, held in once if held_row == row for column in held}
            for column in range(columns):
                if costs[row][column] is not None and column not in short.columns and column not in listed:
                    self.fail(f"row {row} may have column {column}, which isn't named")
        return max(len(pairs) for _, _, pairs in drawn.plans_by_counts(costs, row_bounds, column_bounds, roster.groups))

    def test_message(self):
        cases = [(([[1, 2], [3, 4]], 1, (1, 2), None), None),
                 (([[1, None], [3, None]], 1, (0, 1), None), "rows 0, 1 must have 2 columns, and can have 1: 1 by the "
                  "most of column 0"), (([[1, 2]], (0, 2), [2, 0], None), "column 0 must have 2 rows, and can have 1: "
                                        "1 where a pair or a group counts once"),
                 (([[1, 2]], 2, (0, 1), [[0, 1]]), "row 0 must have 2 columns, and can have 1: 1 where a pair or a "
                  "group counts once"), (([[None]], 1, (0, 1), None), "row 0 must have 1 column, and may have none")]
        for words, text in cases:
            with self.subTest(words=words):
                if text is None:
                    self.assertEqual(nushbaret.assign_counts(*words).cost, 5)
                    continue
                with self.assertRaises(nushbaret.Infeasible) as caught:
                    nushbaret.assign_counts(*words)
                self.assertEqual(str(caught.exception), f"counts can't be met: {text}")

    def test_groups_and_pickle(self):
        with self.assertRaises(nushbaret.Infeasible) as caught:
            nushbaret.assign_counts([[1, None], [None, 1]], 2, (0, 1))
        short = pickle.loads(pickle.dumps(caught.exception))
        self.assertEqual((short.groups, short.rows, short.columns), ([([0], []), ([1], [])], [0], []))
        self.assertEqual(short.shortages, [(False, [0], [], [(0, [0])], 2, 1), (False, [1], [], [(1, [1])], 2, 1)])
        self.assertIn("(the first of 2 groups)", str(short))


def stopped():
    """The library's search, which never ends: each piece of it stops at its budget."""
    def stops(*words):
        time.sleep(0.001)
        return counts_call.STOPPED
    return mock.patch.dict(library._calls, counts_from=stops)


class Time(unittest.TestCase):
    COSTS = [[(7919 * row * row + 104729 * column * column + 611953 * row * column) % 1000003 for column in range(20)]
             for row in range(60)]
    # Whole numbers, doubles of which not all end at the first level, and too few places, of which the most are taken.
    CALLS = (((COSTS, 1, (0, 4)), {}), (([[cost + 1e15 / 3 for cost in row] for row in COSTS], (1, 2), (3, 4)), {}),
             ((COSTS, 1, (0, 2)), {"partial": True}))

    def test_timeout(self):
        with stopped():
            for words, named in self.CALLS:
                self.assertRaises(TimeoutError, nushbaret.assign_counts, *words, timeout=0.05, **named)
        self.assertRaises(TimeoutError, nushbaret.assign_counts, self.COSTS, 1, (0, 4), timeout=0)
        self.assertEqual(nushbaret.assign_counts(self.COSTS, 1, (0, 4), timeout=1000).cost,
                         nushbaret.assign_counts(self.COSTS, 1, (0, 4)).cost)

    @unittest.skipUnless(os.name == "posix", "signals are sent as POSIX has them")
    def test_ctrl_c(self):
        self.addCleanup(signal.signal, signal.SIGINT, signal.signal(signal.SIGINT, signal.default_int_handler))
        with stopped():
            threading.Timer(0.1, lambda: os.kill(os.getpid(), signal.SIGINT)).start()
            with self.assertRaises(KeyboardInterrupt):
                nushbaret.assign_counts(self.COSTS, 1, (0, 4))
        self.assertEqual(len(nushbaret.assign_counts(self.COSTS, 1, (0, 4)).pairs), 60)

    def test_pieces_and_progress(self):
        """A search in small pieces finds what one in a single piece does, and says how far it is."""
        for words, named in self.CALLS:
            noted, wanted = [], nushbaret.assign_counts(*words, **named)
            with mock.patch.dict(library.PIECES, counts=library.PieceSize(1, 0)):
                result = nushbaret.assign_counts(*words, **named, progress=lambda *both: noted.append(both))
            self.assertEqual(result.cost, wanted.cost)
            self.assertGreater(len(noted), 0 if named else 3)
            self.assertTrue(all(0 <= assigned <= rows == 60 for assigned, rows in noted))
            self.assertEqual(noted[-1] == (60, 60), not named)

    def test_progress_may_end_the_call(self):
        def stop(*both):
            raise KeyError(both)
        self.assertRaises(KeyError, nushbaret.assign_counts, self.COSTS, 1, (0, 4), progress=stop)


class Words(unittest.TestCase):
    COSTS = [[4, 1, 3], [2, 0, 5]]

    def test_forms(self):
        by_lists = nushbaret.assign_counts(self.COSTS, [(1, 2), 1], 1, [[0, 1]])
        self.assertEqual((by_lists.pairs, by_lists.cost), ([(0, 1), (0, 2), (1, 0)], 6))
        self.assertEqual((by_lists.rows, by_lists.columns, by_lists.maximize), ([0, 0, 1], [1, 2, 0], False))
        for groups in ([0, 0, None], ["Mon", "Mon", float("nan")], [{0, 1}], [range(2)], ((0, 1), (2,))):
            self.assertEqual(nushbaret.assign_counts(self.COSTS, [(1, 2), 1], 1, groups).pairs, by_lists.pairs)
        self.assertEqual(nushbaret.assign_counts(self.COSTS, None, (0, 1), maximize=True).cost, 9)
        self.assertEqual(nushbaret.assign_counts(self.COSTS, (0, 10**9), 2).cost, 15)
        self.assertEqual(nushbaret.assign_counts(self.COSTS, (0, 3), None, maximize=True).cost, 10)

    def test_decimals_and_nothing(self):
        self.assertEqual(nushbaret.assign_counts([[0.1, 0.25]], 2, 1).cost, Decimal("0.35"))
        self.assertEqual(nushbaret.assign_counts([[0.14, 0.26]], 2, 1, decimals=1).cost, Decimal("0.4"))
        self.assertEqual(nushbaret.assign_counts([], 1).pairs, [])
        self.assertEqual(nushbaret.assign_counts([[], []], (0, 1)).pairs, [])
        self.assertEqual(nushbaret.assign_counts([[5]], 0, (0, 1)).pairs, [])
        partial = nushbaret.assign_counts([[1, None], [2, 3]], 2, (0, 3), partial=True)
        self.assertEqual((partial.cost, partial.missing_rows, partial.missing_columns), (6, {0: 1}, {}))
        self.assertEqual(repr(partial), "<nushbaret.CountsResult: cost 6, 3 pairs>")
        self.assertEqual(pickle.loads(pickle.dumps(partial)).pairs, partial.pairs)
        self.assertEqual((partial.row_numbers, partial.column_numbers), (None, None))
        with self.assertRaisesRegex(pickle.UnpicklingError, "a release before 5.1 pickled this result"):
            partial.__setstate__({"rows": [], "columns": [], "cost": 5, "_found": []})
        with self.assertRaises(AttributeError):
            partial.cost = 5

    def test_buffers_and_ends_of_64_bits(self):
        for numbers, maximize, pairs, cost in (
                ((4, 1, 3, 2, 0, 5), False, [(0, 2), (1, 0), (1, 1)], 5),
                ((4 * 10**14, 1, 3, 2, 0, -2**63), False, [(0, 1), (1, 0), (1, 2)], 3 - 2**63),
                ((4 * 10**14, 1, 3, 2, 0, -2**63), True, [(0, 0), (0, 2), (1, 1)], 4 * 10**14 + 3)):
            view = memoryview(array("q", numbers)).cast("B").cast("q", (2, 3))
            for costs in (view, *([numpy.array(view), numpy.asfortranarray(view)] if numpy else [])):
                result = nushbaret.assign_counts(costs, (1, 2), 1, maximize=maximize)
                self.assertEqual((result.pairs, result.cost), (pairs, cost))
                self.assertEqual((len(result.row_numbers), len(result.column_numbers)), (2, 3))

    def test_one_side_without_names(self):
        for costs in ([[], []], *([numpy.zeros((2, 0)), numpy.zeros((0, 2)).T] if numpy else [])):
            self.assertEqual(len(nushbaret.assign_counts(costs, (0, 2), (0, 1)).rows), 0)
            with self.assertRaisesRegex(nushbaret.Infeasible, "row 0 must have 1 column, and may have none"):
                nushbaret.assign_counts(costs, (1, 2), (0, 1))
            self.assertEqual(nushbaret.assign_counts(costs, (1, 2), (0, 1), partial=True).missing_rows, {0: 1, 1: 1})

    @unittest.skipUnless(pandas, "pandas isn't there")
    def test_columns_without_a_label(self):
        for missing in None, float("nan"), numpy.float32("nan"), pandas.NA, pandas.NaT:
            for groups in ["a", "a", missing], pandas.Series(["a", "a", missing], dtype=object):
                found = nushbaret.assign_counts([[4, 1, 3], [2, 0, 5]], (1, 2), 1, column_groups=groups)
                self.assertEqual((found.pairs, found.cost), ([(0, 1), (0, 2), (1, 0)], 6))

    def test_refusals(self):
        cases = [(TypeError, (None, None), "row_counts and column_counts are both missing: give one, or call solve"),
                 (TypeError, (1.5,), "row_counts is 1.5: a count is a whole number, or the least and the most"),
                 (TypeError, ([1, "2"],), "row_counts[1] is '2': a count is a whole number, or the least and the most"),
                 (TypeError, ([1, (1, 2, 3)],), "row_counts[1] is (1, 2, 3): a count is a whole number, or the least "
                  "and the most"), (ValueError, (-1,), "row_counts is -1: the least count must be 0 or more, and the "
                                    "most not less than it"),
                 (ValueError, (1, [1, 1, (2, 1)]), "column_counts[2] is (2, 1): the least count must be 0 or more, and "
                  "the most not less than it"), (ValueError, ([1],), "row_counts has 1 counts, where 2 are needed (one "
                                                 "for all is a number, or a tuple of least and most)"),
                 (ValueError, (1, 1, [[0, 1], [1, 2]]), "column 1 is in column_groups[0] and in column_groups[1]: "
                  "groups share none"), (ValueError, (1, 1, [[0, 3]]), "column_groups[0] has column 3: it must be from "
                                         "0 to 2"), (TypeError, (1, 1, [["early"]]), "column_groups[0] has 'early': a "
                                                     "column is its number"),
                 (ValueError, (1, 1, ["a", "b"]), "column_groups has 2 labels, and there are 3 columns"),
                 (TypeError, (1, 1, [0, [1, 2]]), "column_groups must be lists of columns, or one label for each "
                  "column")]
        for kind, words, text in cases:
            with self.subTest(words=words), self.assertRaises(kind) as caught:
                nushbaret.assign_counts(self.COSTS, *words)
            self.assertEqual(str(caught.exception), text)

    @unittest.skipUnless(numpy, "needs NumPy")
    def test_arrays(self):
        result = nushbaret.assign_counts(numpy.array(self.COSTS), numpy.array([[1, 2], [1, 1]]), numpy.ones(3, int),
                                         numpy.array([0, 0, 1]))
        self.assertEqual((result.rows.tolist(), result.columns.tolist(), result.cost), ([0, 0, 1], [1, 2, 0], 6))
        self.assertIsInstance(result.rows, numpy.ndarray)
        self.assertEqual(pickle.loads(pickle.dumps(result)).pairs, result.pairs)

    @unittest.skipUnless(sparse, "needs SciPy")
    def test_sparse(self):
        """Stored entries are the pairs, in whatever order they stand; each kind of numbers."""
        matrix = sparse.csr_matrix(numpy.array([[4, 0, 3], [2, 1, 0], [0, 6, 5]]))
        wanted = [(0, 2), (1, 1), (2, 1), (2, 2)]
        for costs in (matrix, matrix.tocoo(), matrix.tocsc(), matrix.tolil(), matrix * 0.5, matrix * 0.1,
                      matrix * 10**15, matrix[::1, :]):
            result = nushbaret.assign_counts(costs, [1, 1, 2], (0, 2))
            self.assertEqual((result.pairs, len(result.rows)), (wanted, 4))
        backwards = sparse.coo_matrix((matrix.tocoo().data[::-1], (matrix.tocoo().row[::-1], matrix.tocoo().col[::-1])))
        self.assertEqual(nushbaret.assign_counts(backwards, [1, 1, 2], (0, 2)).pairs, wanted)
        with self.assertRaisesRegex(nushbaret.Infeasible, "row 0 must have 3 columns, and can have 2: "):
            nushbaret.assign_counts(matrix, [3, 1, 1], (0, 3))
        self.assertEqual(nushbaret.assign_counts(matrix, [3, 1, 1], (0, 3), partial=True).missing_rows, {0: 1})

    @unittest.skipUnless(pandas, "needs pandas")
    def test_frames(self):
        frame = pandas.DataFrame(self.COSTS, ["Ada", "Ben"], ["early", "late", "office"])
        groups = pandas.Series(["Mon", "Mon", None], frame.columns)
        result = nushbaret.assign_counts(frame, pandas.Series([2, 1], frame.index), 1, groups)
        self.assertEqual(result.pairs, [("Ada", "late"), ("Ada", "office"), ("Ben", "early")])
        self.assertEqual(result.to_frame().values.tolist(),
                         [["Ada", "late", 1], ["Ada", "office", 3], ["Ben", "early", 2]])
        self.assertEqual(result.as_dict(), {"Ada": ["late", "office"], "Ben": ["early"]})
        series = result.to_series()
        self.assertEqual((list(series.items()), series.name, series.index.name), (result.pairs, "column", "row"))
        with self.assertRaises(nushbaret.Infeasible) as caught:
            nushbaret.assign_counts(frame, (0, 1), [3, 0, 0])
        self.assertEqual(str(pickle.loads(pickle.dumps(caught.exception))), "counts can't be met: column early must "
                         "have 3 rows, and can have 2: 2 where a pair or a group counts once")


if __name__ == "__main__":
    unittest.main()
