"""What a result keeps: costs that are changed after the call, pickles and copies, attributes, prices; and forms of
costs."""
import copy
import ctypes
import multiprocessing
import pickle
import unittest
from array import array
from decimal import Decimal
from fractions import Fraction

import nushbaret
from nushbaret.api import solved
from drawn import KINDS, doubles, drawing
from optional import np, pd, pydata, sparse
from ways import longer_call


CHANGED = "the costs were changed after the call"


def forms_of(rows):
    """A matrix of floats in each form that can be changed."""
    flat = [cost for row in rows for cost in row]
    view = memoryview(array("d", flat)).cast("B").cast("d", (len(rows), len(rows[0])))
    forms = [[list(row) for row in rows], view]
    if np:
        forms.append(np.array(rows))
    if pd:
        forms.append(pd.DataFrame(rows))
    return forms


def fill(form, value):
    """Sets all costs of a form."""
    if isinstance(form, list):
        for row in form:
            row[:] = [value] * len(row)
    elif isinstance(form, memoryview):
        flat = form.cast("B").cast("d")
        for place in range(len(flat)):
            flat[place] = value
    elif np and isinstance(form, np.ndarray):
        form[:] = value
    else:
        form.iloc[:, :] = value


class Changed(unittest.TestCase):
    EXACT = [[1.0, 2.0], [3.0, 5.0]]
    OTHERS = [[1e-9, 7.7], [1.1, 1e15 / 3]]

    def test_what_needs_the_costs_no_more(self):
        for form in forms_of(self.EXACT):
            result = nushbaret.solve(form)
            fill(form, 0.0)
            self.assertEqual((result.cost, sum(result.row_duals) + sum(result.column_duals)), (5, 5))
            self.assertEqual(len(result.pairs), 2)
            if pd:
                self.assertEqual(result.to_frame()["cost"].tolist(), [2, 3])

    def test_what_needs_them(self):
        for costs in self.EXACT, self.OTHERS:
            for value in 0.0, 7.0, 1e300:
                for form in forms_of(costs):
                    result = nushbaret.solve(form)
                    fill(form, value)
                    for call in (lambda: result.without(0, 0), result.next_best, result.is_unique):
                        with self.assertRaisesRegex(ValueError, CHANGED):
                            call()
                    self.assertFalse(result.verify())

    def test_duals_of_other_numbers(self):
        """Of doubles they may need the costs; otherwise the call found them."""
        for form in forms_of(self.OTHERS):
            result = nushbaret.solve(form)
            fill(form, 3.0)
            if result._solved.answer.prices is None:
                with self.assertRaisesRegex(ValueError, CHANGED):
                    result.row_duals
                self.assertIn(CHANGED, result.verify().why)
            else:
                self.assertEqual(sum(result.row_duals) + sum(result.column_duals), result.cost)
            self.assertEqual(result.cost, Decimal("8.8"))

    def test_other_costs_for_which_the_plan_is_best(self):
        """Costs outside of the plan may change as long as the plan stays best."""
        costs = [[1.0, 2.0], [3.0, 5.0]]
        result = nushbaret.solve(costs)
        costs[1][1] = 9.0
        self.assertEqual((result.next_best().cost, result.without(0, 1).cost, bool(result.verify())), (10, 10, True))

    def test_start_at_a_result_of_costs_that_were_changed(self):
        for costs in self.EXACT, self.OTHERS:
            for form in forms_of(costs):
                result = nushbaret.solve(form)
                fill(form, 3.0)
                self.assertEqual(nushbaret.solve(form, start=result).cost, 6)

    @unittest.skipUnless(np, "NumPy isn't there")
    def test_next_best_ends(self):
        costs = np.random.default_rng(7).integers(0, 9, (4, 4))
        result = nushbaret.solve(costs)
        plans = nushbaret.k_best(costs, 100)
        costs[:] = 7
        with self.assertRaisesRegex(ValueError, CHANGED):
            result.next_best()
        found = [plan.cost for plan in plans]
        self.assertEqual((len(found), found[0]), (24, result.cost))

    @unittest.skipUnless(np, "NumPy isn't there")
    def test_a_result_holds_no_copy(self):
        costs = np.random.default_rng(1).random((300, 300))
        for form in costs, (costs * 1000).astype(int), costs.round(2), costs.astype(np.float32):
            result = nushbaret.solve(form)
            self.assertLess(self.size_of(result.__dict__, {id(form)}), form.nbytes // 4)

    def size_of(self, value, seen):
        """The memory of a value and what it holds, without what was seen."""
        import sys
        if id(value) in seen or isinstance(value, type(sys)):
            return 0
        seen.add(id(value))
        parts = [*value.keys(), *value.values()] if isinstance(value, dict) else value if isinstance(value,
                                                                                                     (list,
                                                                                                      tuple)) else []
        own = getattr(value, "__dict__", None)
        size = sys.getsizeof(value) + (value.nbytes if hasattr(value, "nbytes") else 0)
        return size + sum(self.size_of(part, seen) for part in parts) + (self.size_of(own, seen) if own else 0)


class Kept(unittest.TestCase):
    def results(self):
        draw = drawing(71)
        for turn in range(24):
            costs = doubles(draw, 3, 4, list(KINDS)[turn % len(KINDS)], 0.9)
            yield nushbaret.solve(costs, turn % 2 == 1, partial=True)
        for form in forms_of([[0.1, 0.7, 1e15], [0.25, 3, 1 / 3]]):
            yield nushbaret.solve(form)
        yield nushbaret.solve(memoryview(array("q", [1, 2, 3, 5])).cast("B").cast("q", (2, 2)))
        yield nushbaret.solve(((ctypes.c_double * 2) * 2)((0.5, 1 / 3), (2, 1e40)))
        yield nushbaret.solve(iter([iter([1, 2]), iter([3, 5])]))
        yield nushbaret.solve_sparse(2, 2, iter([0, 0, 1]), iter([0, 1, 0]), iter([1, 2, 3]))
        yield nushbaret.bottleneck([[0, 5.5, 1 / 3], [5, 9, 2]])
        yield nushbaret.solve([[1, 2, 3], [3, 5, 1]]).without(0, 0)
        if sparse:
            yield nushbaret.solve(sparse.coo_matrix([[1.5, 0.1], [3, 1 / 3]]))

    def described(self, result):
        rows, columns = list(map(int, result.rows)), list(map(int, result.columns))
        return (rows, columns, result.cost, result.row_duals, result.column_duals, result.prices, result.pairs,
                result.is_unique(), bool(result.verify()), str(result.next_best()), list(result.unmatched_rows),
                list(result.unmatched_columns), repr(result))

    def shown(self, result):
        """What a result says without its costs."""
        return (list(map(int, result.rows)), list(map(int, result.columns)), type(result.rows), result.cost,
                result.pairs, result.row_duals, result.column_duals, result.prices, list(result.unmatched_rows),
                list(result.unmatched_columns), repr(result), result.maximize, repr(result.verdict))

    def test_copied(self):
        for result in self.results():
            wanted = self.described(result)
            for other in copy.copy(result), copy.deepcopy(result):
                self.assertIsInstance(other, nushbaret.Result)
                self.assertEqual(self.described(other), wanted)

    def test_pickled(self):
        """A pickle says what the result says, and has no costs."""
        for result in self.results():
            fresh = pickle.loads(pickle.dumps(result))
            wanted = self.shown(result)
            for other in fresh, pickle.loads(pickle.dumps(result)), pickle.loads(pickle.dumps(fresh)):
                self.assertEqual(self.shown(other), wanted)
                for call in other.verify, other.next_best, lambda: other.without(0, 0):
                    with self.assertRaisesRegex(ValueError, r"a pickled result has no costs: .* with_costs\(costs\)"):
                        call()
            with self.assertRaisesRegex(ValueError, "a pickled result has no costs"):
                fresh.is_unique()
            unique = result.is_unique()
            self.assertIs(pickle.loads(pickle.dumps(result)).is_unique(), unique)

    def test_given_its_costs_again(self):
        forms = [*forms_of([[0.1, 0.7, 1e15], [0.25, 3, 1 / 3]]), *forms_of([[4.0, 1, 3], [2, 0, 5], [3, 2, 2]])]
        for form in forms:
            result = nushbaret.solve(form)
            wanted = self.described(result)
            again = pickle.loads(pickle.dumps(result))
            self.assertTrue(again.verify(form))
            self.assertEqual(self.described(again.with_costs(form)), wanted)
            self.assertEqual(nushbaret.solve(form, start=again).cost, result.cost)
            less = result.without(0, 1)
            self.assertEqual(self.described(pickle.loads(pickle.dumps(less)).with_costs(form)), self.described(less))
            other = [[7.0] * 3] * len(form)
            with self.assertRaisesRegex(ValueError, CHANGED):
                again.with_costs(other)
        listed = pickle.loads(pickle.dumps(nushbaret.solve_sparse(2, 2, [0, 0, 1], [0, 1, 0], [1, 2, 3])))
        self.assertEqual(listed.with_costs([1, 2, 3], [0, 0, 1], [0, 1, 0]).verify().proved, True)
        worst = pickle.loads(pickle.dumps(nushbaret.bottleneck([[0, 5], [5, 9]])))
        self.assertEqual((worst.pairs, worst.with_costs([[0, 5], [5, 9]]).next_best()), ([(0, 1), (1, 0)], None))

    @unittest.skipUnless(np, "NumPy isn't there")
    def test_a_pickle_is_small(self):
        costs = np.random.default_rng(1).random((1000, 1000))
        for form in costs, (costs * 1000).astype(int):
            self.assertLess(len(pickle.dumps(nushbaret.solve(form))), 100_000)

    def test_a_pickle_of_changed_costs_says_so(self):
        for form in forms_of(Changed.OTHERS) + forms_of(Changed.EXACT):
            result = nushbaret.solve(form)
            fill(form, 7.0)
            again = pickle.loads(pickle.dumps(result))
            self.assertEqual((again.cost, again.pairs, again.verdict.proved), (result.cost, result.pairs, False))

    def test_a_pickle_of_an_older_release(self):
        with self.assertRaisesRegex(pickle.UnpicklingError, "a release before 5.0 pickled this result"):
            nushbaret.Result.__new__(nushbaret.Result).__setstate__({"rows": [0], "columns": [0]})

    def test_what_it_shows_cant_be_changed(self):
        """What is shown is what `verify` judges."""
        forms = [[[4, 1, 3], [2, 0, 5]], [[1, None, None], [2, None, 3], [4, None, None]]]
        forms += [np.array(forms[0]), list(np.array(forms[0]))] if np else []
        for form in forms:
            result = nushbaret.solve(form, partial=True)
            for name in ("rows", "columns", "unmatched_rows", "unmatched_columns", "pairs", "row_duals",
                         "column_duals", "prices"):
                for held in result, pickle.loads(pickle.dumps(result)), copy.deepcopy(result):
                    self.refuses(getattr(held, name))
            self.refuses(result.next_best().columns) if result.next_best() else None
            self.assertTrue(result.verify())
        week = nushbaret.assign_counts([[4, 1, 3], [2, 0, 5]], (1, 3), (2, 2), [[0, 1]], partial=True)
        for held in week, pickle.loads(pickle.dumps(week)), copy.deepcopy(week):
            for name in "rows", "columns", "pairs", "missing_rows", "missing_columns":
                self.refuses(getattr(held, name))

    def refuses(self, values):
        """Whether all ways to write are refused, and nothing is changed."""
        before = dict(values) if isinstance(values, dict) else list(values)
        if isinstance(values, dict):
            writes = [lambda: values.update({0: 7}), lambda: values.pop(0, 0), values.clear, values.popitem,
                      lambda: values.setdefault(0, 7), lambda: values.__setitem__(0, 7)]
        elif isinstance(values, list):
            writes = [values.reverse, values.sort, values.clear, values.pop, lambda: values.append(7),
                      lambda: values.extend([7]), lambda: values.insert(0, 7), lambda: values.remove(7),
                      lambda: values.__setitem__(slice(None), [7]), lambda: values.__delitem__(slice(None)),
                      lambda: values.__iadd__([7]), lambda: values.__imul__(2)]
        else:
            writes = [lambda: values.fill(7), lambda: values.setflags(write=True), values.sort,
                      lambda: np.add(values, 1, values)] if len(values) else []
        for place, write in enumerate(writes):
            with self.subTest(values=values, place=place), self.assertRaises((TypeError, ValueError)):
                write()
        self.assertEqual(type(before)(values), before)

    def test_sent_to_a_pool(self):
        results = list(self.results())[:3]
        with multiprocessing.get_context("spawn").Pool(1) as pool:
            self.assertEqual([described for described in pool.map(_cost_of, results)],
                             [result.cost for result in results])

    def test_attributes_cant_be_set(self):
        result = nushbaret.solve([[1, 2], [3, 5]])
        for name in "cost", "rows", "columns", "maximize", "row_duals", "prices", "pairs", "is_unique", "other":
            with self.assertRaisesRegex(AttributeError, f"a result's {name} can't be set"):
                setattr(result, name, 1)
            with self.assertRaisesRegex(AttributeError, f"a result's {name} can't be deleted"):
                delattr(result, name)
        self.assertEqual((result.cost, result.row_duals), (5, nushbaret.solve([[1, 2], [3, 5]]).row_duals))

    def test_changed_text_is_said_once(self):
        self.assertIn(CHANGED, solved.CHANGED)


def _cost_of(result):
    return result.cost if result.verdict else None


class Prices(unittest.TestCase):
    def test_one_unit(self):
        draw = drawing(72)
        for turn in range(200):
            costs = doubles(draw, draw.randint(1, 4), draw.randint(1, 4), list(KINDS)[turn % len(KINDS)],
                            draw.choice([1, 0.7]))
            maximize = turn % 2 == 0
            result = nushbaret.solve(costs, maximize, partial=True)
            columns = [None] * len(costs)
            for row, column in result.pairs:
                columns[row] = column
            sign = 1 if maximize else -1
            self.assertEqual(len({Fraction(price) - sign * Fraction(dual)
                                  for price, dual in zip(result.prices, result.column_duals)}), 1)
            self.assertEqual(min(result.prices), 0)
            for prices in result.prices, iter(result.prices), tuple(result.prices):
                self.assertEqual(bool(nushbaret.check(costs, columns, prices, maximize=maximize)), True)
            self.assertEqual(nushbaret.solve(costs, maximize, start=iter(result.prices), partial=True).cost,
                             result.cost)

    @unittest.skipUnless(np, "NumPy isn't there")
    def test_arrays(self):
        costs = [[1, 2], [3, 5]]
        for kind in np.int64, np.uint8, np.float32, np.float64, object:
            prices = np.array([1, 0], kind)
            self.assertTrue(nushbaret.check(costs, [1, 0], prices))
            self.assertEqual(nushbaret.solve(costs, start=prices).cost, 5)
            self.assertEqual(nushbaret.solve([[1, None], [2, None]], start=prices, partial=True).cost, 1)


class Forms(unittest.TestCase):
    def test_missing(self):
        nan = float("nan")
        costs = [[1, nan], [nan, 3]]
        forms = [costs] + ([np.array(costs)] if np else [])
        for form in forms:
            self.assertEqual([list(map(int, part)) for part in nushbaret.linear_sum_assignment(form, missing="forbid")],
                             [[0, 1], [0, 1]])
            self.assertTrue(nushbaret.check(form, [0, 1], [0, 0], missing="forbid"))
            self.assertEqual(nushbaret.compare(form, [0, 1], missing="forbid").worse, 0)
            self.assertTrue(nushbaret.solve([[1, 9], [9, 3]]).verify(form, missing="forbid"))
            for call in (lambda: nushbaret.check(form, [0, 1], [0, 0]), lambda: nushbaret.compare(form, [0, 1]),
                         lambda: nushbaret.solve([[1, 9], [9, 3]]).verify(form),
                         lambda: nushbaret.linear_sum_assignment(form)):
                with self.assertRaisesRegex(ValueError, "contains invalid numeric entries: nan at row 0, column 1"):
                    call()

    def test_buffers(self):
        for kind, wanted in ((ctypes.c_double, 5), (ctypes.c_float, 5), (ctypes.c_int, 5), (ctypes.c_longlong, 5),
                             (ctypes.c_ubyte, 5), (ctypes.c_short, 5)):
            held = ((kind * 2) * 2)((1, 2), (3, 5))
            for form in held, memoryview(held):
                result = nushbaret.solve(form)
                self.assertEqual((result.cost, bool(result.verify()),
                                  [*map(list, nushbaret.linear_sum_assignment(form))]),
                                 (wanted, True, [[0, 1], [1, 0]]))
        turned = memoryview(array("d", [1, 3, 2, 5])).cast("B").cast("d", (2, 2))
        self.assertEqual(nushbaret.solve(turned).cost, 5)

    @unittest.skipUnless(np, "NumPy isn't there")
    def test_masks(self):
        costs = np.ma.array([[1.0, 0.0], [2.0, 4.0]], mask=[[0, 1], [0, 0]])
        with self.assertRaisesRegex(ValueError, "masked.* at row 0, column 1"):
            nushbaret.solve(costs)
        self.assertEqual(nushbaret.solve(costs, missing="forbid").cost, 5)
        self.assertEqual(costs.data.tolist(), [[1, 0], [2, 4]])
        self.assertEqual(nushbaret.solve(np.ma.array([[1, 0], [2, 4]], mask=[[0, 1], [0, 0]]), missing="forbid").cost,
                         5)
        self.assertEqual(nushbaret.solve(np.ma.array([[1, 2], [3, 5]])).cost, 5)
        self.assertEqual(nushbaret.linear_sum_assignment(costs)[1].tolist(), [1, 0])

    @unittest.skipUnless(np, "NumPy isn't there")
    def test_what_becomes_an_array(self):
        """Objects that say by one word alone that they are arrays."""
        costs = np.array([[4, 1, 3], [2, 0, 5], [3, 2, 2.5]])

        def of(word, values):
            """An object with this word alone."""
            held = type("Held", (), {} if word != "__dlpack__" else {
                "__dlpack__": lambda self, **words: values.__dlpack__(**words),
                "__dlpack_device__": lambda self: values.__dlpack_device__()})()
            held.memory = values
            if word != "__dlpack__":
                setattr(held, word, values.__array__ if word == "__array__" else getattr(values, word))
            return held

        words = ["__array__", "__array_interface__", "__array_struct__"]
        words += ["__dlpack__"] if hasattr(np, "from_dlpack") else []
        for word in words:
            with self.subTest(word=word):
                form = of(word, costs)
                rows, columns = nushbaret.linear_sum_assignment(form)
                self.assertEqual((type(columns), columns.tolist()), (np.ndarray, [1, 0, 2]))
                result = nushbaret.solve(form)
                self.assertEqual((result.cost, result.columns.tolist()), (Decimal("5.5"), [1, 0, 2]))
                self.assertTrue(result.verify(form) and result.verify())
                self.assertTrue(nushbaret.check(form, [1, 0, 2], of(word, np.array(result.prices, float))))
                self.assertEqual(nushbaret.Assigner(form).result.cost, Decimal("5.5"))
                batch = nushbaret.linear_sum_assignment_batch(of(word, np.array([costs, costs])))
                self.assertEqual(batch[1].tolist(), [[1, 0, 2]] * 2)
                self.assertEqual(nushbaret.solve([of(word, row) for row in costs]).columns.tolist(), [1, 0, 2])
                listed = [of(word, np.array(values)) for values in ([0, 0, 1], [0, 1, 0], [4.5, 1, 2])]
                self.assertEqual(nushbaret.solve_sparse(2, 2, *listed).cost, 3)
        if "__dlpack__" in words:
            with self.assertRaisesRegex(TypeError, "makes no array of this Held"):
                nushbaret.solve(type("Held", (), {"__dlpack__": 1})())

    @unittest.skipUnless(np, "NumPy isn't there")
    def test_rows_that_are_arrays(self):
        """Where any row is an array, the answer is in arrays, as SciPy's is."""
        costs = np.array([[4, 1, 3], [2, 0, 5], [3, 2, 2.5]])
        for rows in list(costs), tuple(costs), [costs[0], *costs[1:].tolist()], [*costs[:2].tolist(), costs[2]]:
            for call in nushbaret.linear_sum_assignment, longer_call:
                self.assertEqual([(type(part), part.tolist()) for part in call(rows)],
                                 [(np.ndarray, [0, 1, 2]), (np.ndarray, [1, 0, 2])])
            result = nushbaret.solve(rows)
            self.assertEqual([type(part) for part in (result.rows, result.columns, result.unmatched_rows,
                                                      result.next_best().rows)], [np.ndarray] * 4)
            self.assertEqual(result.cost, Decimal("5.5"))
        with self.assertRaises(nushbaret.Infeasible) as caught:
            nushbaret.solve([np.array([1, np.inf]), [2, None]])
        self.assertEqual(type(caught.exception.rows), np.ndarray)

    @unittest.skipUnless(pydata, "sparse isn't there")
    def test_sparse_arrays_of_pydata(self):
        costs = np.array([[4, 1.5, 0], [2, 0, 5], [0, 2, 1e20]])
        entries = pydata.COO.from_numpy(costs)
        zero = pydata.COO([[0, 0, 1], [0, 1, 1]], [7.0, 0.0, 3.0], shape=(2, 2))
        self.assertEqual(nushbaret.solve(zero).pairs, [(0, 0), (1, 1)])
        for form in entries, pydata.GCXS.from_coo(entries), pydata.DOK.from_coo(entries):
            with self.subTest(form=type(form).__name__):
                wanted = nushbaret.solve(np.where(costs == 0, np.inf, costs))
                for result in nushbaret.solve(form), nushbaret.solve_sparse(form):
                    self.assertEqual((result.cost, result.columns.tolist(), bool(result.verify())),
                                     (wanted.cost, wanted.columns.tolist(), True))
                self.assertEqual(nushbaret.bottleneck(form).cost, 11)
                with self.assertRaisesRegex(ValueError, "got a sparse one: an Assigner"):
                    nushbaret.Assigner(form)
        full = pydata.COO([[0, 1], [0, 1]], [1.0, 2.0], shape=(2, 2), fill_value=np.inf)
        self.assertEqual(nushbaret.solve(full).cost, 3)
        for call, form, words in ((nushbaret.solve, full + 1 - full, "the sparse array has nan wherever"),
                                  (lambda costs: nushbaret.solve(costs, True), full, "the sparse array has inf "),
                                  (nushbaret.solve, entries + 3, "the sparse array has 3.0 wherever nothing is stored"),
                                  (nushbaret.solve, pydata.COO([[0], [0], [0]], [1.0], shape=(2, 2, 2)),
                                   r"expected a matrix \(2-D array\), got a 3 array")):
            with self.assertRaisesRegex(ValueError, words):
                call(form)

    @unittest.skipUnless(sparse, "SciPy isn't there")
    def test_sparse_matrices(self):
        entries = sparse.coo_matrix(([3, 4, 0.1, 1e20], ([0, 0, 1, 1], [1, 1, 0, 1])), (2, 2))
        for form in entries, entries.tocsr(), entries.tocsc(), entries.tolil():
            result = nushbaret.solve(form)
            self.assertEqual((result.cost, bool(result.verify()), bool(result.verify(form))),
                             (Decimal("7.1"), True, True))
            self.assertEqual(nushbaret.compare(form, [1, 0]).worse, 0)
            self.assertEqual(nushbaret.bottleneck(form).cost, Decimal("7.1"))
        with self.assertRaises(nushbaret.Infeasible):
            nushbaret.solve(sparse.csr_matrix((2, 2)))

    @unittest.skipUnless(pd, "pandas isn't there")
    def test_labels(self):
        frame = pd.DataFrame([[4, 1, 9], [2, 3, None]], index=["Ada", "Ben"], columns=["early", "late", "night"])
        result = nushbaret.solve(frame, missing="forbid")
        self.assertEqual(result.without("Ada", "late").pairs, result.without(0, 1).pairs)
        with self.assertRaisesRegex(IndexError, "the frame has no label 'Cleo'"):
            result.without("Cleo", "late")
        self.assertTrue(nushbaret.check(frame, ["late", "early"], result.prices, missing="forbid"))
        self.assertTrue(nushbaret.check(frame, result.columns, result.prices, missing="forbid"))
        verdict = nushbaret.check(frame, ["early", "late"], result.prices, rows=["Ada", "Ben"], missing="forbid")
        self.assertIn("row Ada would be better off with column late", verdict.why)
        self.assertEqual(nushbaret.check(frame, ["late", "night"], [0, 0, 0], missing="forbid").why,
                         "row Ben may not have column night")
        self.assertEqual(nushbaret.compare(frame, ["early", "late"], missing="forbid").worse, 4)
        for judge in lambda *plan, **rows: nushbaret.check(frame, *plan, result.prices, **rows, missing="forbid"), \
                lambda *plan, **rows: nushbaret.compare(frame, *plan, **rows, missing="forbid"):
            for plan, rows, words in ((["noon", "early"], {}, r"columns\[0\]: the frame has no label 'noon'"),
                                      (["late", ["early"]], {}, r"columns\[1\]: the frame has no label \['early'\]"),
                                      (["late", "early"], {"rows": ["Ada", "Cleo"]}, r"rows\[1\]: .* no label 'Cleo'")):
                with self.assertRaisesRegex(ValueError, words):
                    judge(plan, **rows)
        frame.loc["Ben"] = [None, 3, None]
        frame.loc["Cleo"] = [None, 1, None]
        with self.assertRaisesRegex(nushbaret.Infeasible, "rows Ben, Cleo may have column late only") as caught:
            nushbaret.solve(frame, missing="forbid")
        self.assertEqual(caught.exception.rows.tolist(), [1, 2])
        self.assertEqual(str(pickle.loads(pickle.dumps(caught.exception))), str(caught.exception))

    @unittest.skipUnless(pd, "pandas isn't there")
    def test_labels_that_come_twice(self):
        """Nobody knows which one is meant."""
        frame = pd.DataFrame([[4, 1], [2, 3]], index=["Ada", "Ada"], columns=["early", "early"])
        result = nushbaret.solve(frame)
        for call in (lambda: nushbaret.check(frame, ["early", "early"], result.prices),
                     lambda: nushbaret.compare(frame, ["early", "early"]),
                     lambda: nushbaret.check(frame, [1, 0], result.prices, rows=["Ada", "Ada"]),
                     lambda: result.without("Ada", 0), lambda: result.without(0, "early")):
            with self.assertRaisesRegex(ValueError, "the frame has the label '(early|Ada)' several times"):
                call()
        self.assertTrue(nushbaret.check(frame, [1, 0], result.prices))
        self.assertEqual(result.without(0, 1).cost, 7)
        for call, word in ((lambda: nushbaret.check(frame, {"Ada": 1}, result.prices), "columns"),
                           (lambda: nushbaret.check(frame, [1, 0], {"early": 0}), "prices"),
                           (lambda: nushbaret.solve(frame, start={"early": 0}), "start"),
                           (lambda: nushbaret.assign_counts(frame, {"Ada": 1}), "row_counts"),
                           (lambda: nushbaret.assign_counts(frame, 1, {"early": 1}), "column_counts")):
            with self.assertRaisesRegex(ValueError, f"{word} is by names, and the frame has the .* several times"):
                call()

    @unittest.skipUnless(pd, "pandas isn't there")
    def test_bools_as_labels(self):
        frame = pd.DataFrame([[4, 1], [2, 3]], index=[True, False], columns=[True, False])
        result = nushbaret.solve(frame)
        self.assertEqual(result.pairs, [(True, False), (False, True)])
        for columns in [False, True], np.array([False, True]):
            self.assertTrue(nushbaret.check(frame, columns, result.prices))
        self.assertEqual(nushbaret.solve(frame + np.array([[0, 0], [0, -9]])).without(False, False).cost, 3)

    @unittest.skipUnless(pd, "pandas isn't there")
    def test_dates_as_labels(self):
        frame = pd.DataFrame([[4, 1], [2, 3]], columns=pd.date_range("2026-05-01", periods=2))
        for dates in frame.columns, frame.columns.to_numpy(), frame.columns.to_pydatetime():
            self.assertEqual(nushbaret.compare(frame, list(dates)).worse, 4)

    @unittest.skipUnless(pd, "pandas isn't there")
    def test_numbers_in_frames(self):
        for costs, kind in (([[4, 1], [2, 3]], "int64"), ([[0.5, 0.1], [0.3, 1]], "float64"),
                            ([[Decimal("0.1")]], "float64"), ([[Decimal("0.12345678901234567890123")]], "object"),
                            ([[10**30]], "object"), ([[Fraction(1, 3)]], "object")):
            self.assertEqual(str(nushbaret.solve(costs).to_frame()["cost"].dtype), kind)
        self.assertEqual(nushbaret.solve([[0.1, 1], [1, 0.3]]).to_frame()["cost"].tolist(), [0.1, 0.3])

    def test_plans_of_changed_costs(self):
        """Where the plan is still best, what reads the costs again is right for them as they are now."""
        for before, after, unique, next_cost in (([[1], [2]], [[1], [1]], False, 1), ([[1], [3]], [[1], [2]], True, 2),
                                                 ([[0.1], [0.2]], [[0.1], [0.1]], False, Decimal("0.1")),
                                                 ([[2.5], [1.0]], [[2.0], [1.0]], True, 2),
                                                 ([[-1.0, 2.5]], [[-1.0, 2.0]], True, 2)):
            for form in [before] + ([np.array(before)] if np else []):
                costs = form.copy() if form is not before else [list(row) for row in before]
                result = nushbaret.solve(costs)
                for place, row in enumerate(after):
                    costs[place][:] = row
                try:
                    self.assertEqual((result.is_unique(), result.next_best().cost), (unique, next_cost),
                                     (before, after))
                except ValueError as fault:
                    self.assertIn("the costs were changed after the call", str(fault))
                    self.assertEqual(before, [[-1.0, 2.5]])
                self.assertEqual(sum(result.row_duals) + sum(result.column_duals), result.cost)

    def test_words(self):
        for call, words in ((lambda: nushbaret.solve([[None]]), "row 0 may have no column$"),
                            (lambda: nushbaret.solve([["a"]]), "row 0, column 0 is 'a', which is no number"),
                            (lambda: nushbaret.solve(["ab", "cd"]), "row 0 is the text 'ab'"),
                            (lambda: nushbaret.solve([{1, 2}]), "row 0 is a set, which has no order"),
                            (lambda: nushbaret.solve([[1]], timeout=-1), "timeout is -1: it must be a number of "
                             "seconds, 0 or more")):
            with self.assertRaisesRegex((ValueError, TypeError), words):
                call()
        self.assertEqual(nushbaret.check([[1, 2], [3, 4]], [0, None], [0, 0]).why, "1 row of 2 has a column, and 2 can")


if __name__ == "__main__":
    unittest.main()
