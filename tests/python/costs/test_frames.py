"""DataFrames of pandas, and costs that are missing."""
import math
import unittest
from decimal import Decimal

import nushbaret
from optional import np, pd


class Missing(unittest.TestCase):
    def test_nan(self):
        hint = 'nan at row 0, column 1: None or an infinite cost forbids a pair, and missing="forbid" takes nan so'
        costs = [[1, math.nan], [0, 3.5]]
        forms = [costs, [[1, Decimal("nan")], [0, 3.5]]] + ([np.array(costs), np.array(costs, object),
                                                             np.array(costs, np.float32)] if np else [])
        for form in forms:
            for call in nushbaret.solve, nushbaret.linear_sum_assignment, nushbaret.bottleneck:
                with self.assertRaisesRegex(ValueError, hint):
                    call(form)
            for decimals in None, 1, 30:
                result = nushbaret.solve(form, missing="forbid", decimals=decimals)
                self.assertEqual((list(result.columns), result.cost), ([0, 1], Decimal("4.5")))
            self.assertEqual(len(list(nushbaret.k_best(form, 9, missing="forbid"))), 1)
        self.assertEqual(nushbaret.solve_sparse(2, 2, [0, 0, 1], [0, 1, 0], [1, 2, math.nan], partial=True,
                                                missing="forbid").cost, 1)
        with self.assertRaisesRegex(ValueError, 'nan at costs\\[2\\] \\(row 1, column 0\\).*missing="forbid"'):
            nushbaret.solve_sparse(2, 2, [0, 0, 1], [0, 1, 0], [1, 2, math.nan])

    def test_pairs_without_labels(self):
        self.assertEqual(nushbaret.solve([[4, 1, 9], [2, 3, 9]]).pairs, [(0, 1), (1, 0)])
        self.assertEqual(nushbaret.solve([]).pairs, [])


@unittest.skipUnless(pd, "pandas isn't there")
class Frames(unittest.TestCase):
    def frame(self, costs):
        return pd.DataFrame(costs, index=["Ada", "Ben"], columns=["early", "late", "night"])

    def test_labels(self):
        result = nushbaret.solve(self.frame([[4, 1, 9], [2, 3, 9]]))
        self.assertEqual(result.pairs, [("Ada", "late"), ("Ben", "early")])
        self.assertEqual((result.columns.tolist(), result.unmatched_columns.tolist()), ([1, 0], [2]))
        as_frame = result.to_frame()
        self.assertEqual(as_frame.values.tolist(), [["Ada", "late", 1], ["Ben", "early", 2]])
        self.assertEqual(list(as_frame.columns), ["row", "column", "cost"])
        self.assertEqual(result.without(0, 1).pairs, [("Ada", "early"), ("Ben", "late")])
        self.assertEqual(nushbaret.solve(self.frame([[4, 1, 9], [2, 3, 9]]).T).pairs,
                         [("early", "Ben"), ("late", "Ada")])
        self.assertTrue(result.verify(self.frame([[4, 1, 9], [2, 3, 9]])))
        self.assertEqual([part.tolist() for part in nushbaret.linear_sum_assignment(self.frame([[4, 1, 9],
                                                                                                [2, 3, 9]]))],
                         [[0, 1], [1, 0]])

    def test_series_as_rows(self):
        """Short floats are the decimals that they print as."""
        for kind in "float16", "float32", "float64", "Float32":
            rows = [pd.Series([0.1, 0.7], dtype=kind), pd.Series([0.2, 0.3], dtype=kind)]
            self.assertEqual(nushbaret.solve(rows).cost, Decimal("0.4"), kind)
            assigner = nushbaret.Assigner([[5, 5], [5, 5]])
            for place, row in enumerate(rows):
                assigner.update(place, row)
            self.assertEqual(assigner.result.cost, Decimal("0.4"), kind)

    def test_kinds(self):
        for costs, wanted in (([[4.5, 1.25, 9], [2, 3, 9]], "3.25"), ([[4, None, 9], [2, 3, 1]], "5"),
                              ([["4", 1, 9], [2, 3, 9]], None)):
            frame = self.frame(costs)
            if wanted is None:
                with self.assertRaisesRegex(TypeError, "row Ada, column early is '4', which is no number"):
                    nushbaret.solve(frame)
            else:
                self.assertEqual(nushbaret.solve(frame, missing="forbid").cost, Decimal(wanted))
        self.assertEqual(nushbaret.solve(self.frame([[4, 1, 9], [2, 3, 9]]).astype("Int64")).cost, 3)
        holed = self.frame([[4, None, 9], [2, 3, 9]]).astype("Int64")
        with self.assertRaisesRegex(ValueError, 'nan at row Ada, column late.*missing="forbid"'):
            nushbaret.solve(holed)
        self.assertEqual(nushbaret.solve(holed, missing="forbid").cost, 7)
        self.assertEqual(nushbaret.bottleneck(holed, missing="forbid").pairs, [("Ada", "early"), ("Ben", "late")])

    def test_dates_are_no_costs(self):
        for dates in pd.to_datetime(["2027-01-01", "2027-01-02"]), pd.to_timedelta(["1d", "2d"]):
            for columns in {"cost": [1.5, 2.5], "day": dates}, {"begin": dates, "end": dates}:
                for call in nushbaret.solve, nushbaret.linear_sum_assignment:
                    with self.assertRaisesRegex(TypeError, "costs must be numbers"):
                        call(pd.DataFrame(columns))

    def test_names_of_numbers_and_ties(self):
        frame = pd.DataFrame([[1, 2], [2, 1]], index=[10, 20], columns=pd.to_datetime(["2026-01-01", "2026-01-02"]))
        self.assertEqual(nushbaret.solve(frame).pairs, [(10, frame.columns[0]), (20, frame.columns[1])])
        plain = nushbaret.solve([[1, 2], [2, 1]]).to_frame()
        self.assertEqual(plain.values.tolist(), [[0, 0, 1], [1, 1, 1]])


if __name__ == "__main__":
    unittest.main()
