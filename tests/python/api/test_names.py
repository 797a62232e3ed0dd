"""Labels in, labels out: pairs with names, graphs, and what results show by names."""
import pickle
import unittest
import warnings
from decimal import Decimal

import nushbaret
from optional import np, optimize, pd

try:
    import networkx
except ImportError:
    networkx = None

TRIPLES = [("Ada", "early", 4), ("Ada", "late", 1), ("Ben", "early", 2), ("Ada", "late", 3)]


class Pairs(unittest.TestCase):
    def test_forms(self):
        forms = [TRIPLES, iter(TRIPLES), {(row, column): cost for row, column, cost in reversed(TRIPLES)},
                 {"Ada": {"early": 4, "late": 1}, "Ben": {"early": 2}}]
        if pd is not None:
            frame = pd.DataFrame(TRIPLES)
            forms += [frame, frame.rename(columns={0: "row", 1: "column", 2: "cost"}).iloc[:, [2, 0, 1]].assign(more=0)]
        for form in forms:
            result = nushbaret.solve_pairs(form)
            self.assertEqual((result.as_dict(), result.cost), ({"Ada": "late", "Ben": "early"}, 3))
            self.assertTrue(result.verify())
        self.assertEqual(nushbaret.solve_pairs(TRIPLES, True).cost, 3)
        self.assertEqual(nushbaret.solve_pairs({}).pairs, [])

    def test_all_names(self):
        result = nushbaret.solve_pairs(TRIPLES, rows=["Cleo", "Ben", "Ada"], columns=["late", "early"], partial=True)
        self.assertEqual(result.pairs, [("Ben", "early"), ("Ada", "late")])
        self.assertEqual(result.labels[0], ["Cleo", "Ben", "Ada"])
        self.assertEqual(list(result.unmatched_rows), [0])
        with self.assertRaisesRegex(nushbaret.Infeasible, "row Cleo may have no column"):
            nushbaret.solve_pairs(TRIPLES, rows=["Cleo", "Ben", "Ada"], columns=["late", "early", "night"])

    def test_options(self):
        result = nushbaret.solve_pairs(TRIPLES, unmatched_cost=({"Ada": 0, "Ben": 5}, 0))
        self.assertEqual((result.pairs, result.cost, result.labels), ([("Ben", "early")], 2,
                                                                      (["Ada", "Ben"], ["early", "late"])))
        costs = [("Ada", "early", "0.25"), ("Ben", "early", 1)]
        with self.assertRaisesRegex(TypeError, "row Ada, column early is '0.25', which is no number"):
            nushbaret.solve_pairs(costs)
        self.assertEqual(nushbaret.solve_pairs([(1, 7, Decimal("0.26"))], decimals=1).cost, Decimal("0.3"))
        again = pickle.loads(pickle.dumps(nushbaret.solve_pairs(TRIPLES)))
        self.assertEqual((again.pairs, again.cost), ([("Ada", "late"), ("Ben", "early")], 3))
        with self.assertRaises(nushbaret.Infeasible):
            nushbaret.solve_pairs(TRIPLES).without("Ada", "late")

    def test_refusals(self):
        for form, words, fault, text in (
                ([("Ada", 1)], {}, ValueError, r"pairs\[0\] is \('Ada', 1\): it must be \(row, column, cost\)"),
                ([5], {}, ValueError, r"pairs\[0\] is 5"), (5, {}, TypeError, "pairs is 5"),
                ("abc", {}, TypeError, "pairs is 'abc'"), ({"Ada": 4}, {}, ValueError, r"pairs\['Ada'\] is 4"),
                ([([], 1, 2)], {}, TypeError, "a row has a name that can't be hashed"),
                (TRIPLES, {"rows": ["Ada"]}, ValueError, "a pair has the row 'Ben', which isn't among"),
                (TRIPLES, {"columns": ["late", "late"]}, ValueError, "the column 'late' is named twice")):
            with self.assertRaisesRegex(fault, text):
                nushbaret.solve_pairs(form, **words)

    @unittest.skipUnless(np, "NumPy isn't there")
    def test_arrays(self):
        result = nushbaret.solve_pairs(np.array([[7, 1, 4], [7, 2, 1], [9, 1, 2]]))
        self.assertEqual(result.pairs, [(7, 2), (9, 1)])
        with self.assertRaisesRegex(ValueError, "must have three columns"):
            nushbaret.solve_pairs(np.ones((2, 2)))

    @unittest.skipUnless(pd, "pandas isn't there")
    def test_frames(self):
        short = pd.DataFrame({"row": ["Ada", "Ben"], "column": [1, 2], "cost": np.array([0.1, 0.2], np.float32)})
        self.assertEqual(nushbaret.solve_pairs(short).cost, Decimal("0.3"))
        with self.assertRaisesRegex(ValueError, "it must have row, column and cost, or three"):
            nushbaret.solve_pairs(short[["row", "cost"]])

    @unittest.skipUnless(networkx, "networkx isn't there")
    def test_graphs(self):
        graph = networkx.Graph()
        graph.add_nodes_from(["Ada", "Ben"], bipartite=0)
        graph.add_nodes_from(["early", "late", "night"], bipartite=1)
        graph.add_weighted_edges_from([("early", "Ada", 4), ("Ada", "late", 1.5), ("Ben", "early", 2)])
        result = nushbaret.solve_pairs(graph)
        self.assertEqual((result.as_dict(), result.cost), ({"Ada": "late", "Ben": "early"}, Decimal("3.5")))
        self.assertEqual(list(result.unmatched_columns), [2])
        plain = networkx.Graph([("Ada", "early"), ("Ben", "late")])
        self.assertEqual(nushbaret.solve_pairs(plain, rows=["Ada", "Ben"]).cost, 2)
        self.assertEqual(nushbaret.solve_pairs(networkx.DiGraph(plain.edges), weight="none").cost, 2)
        many = networkx.MultiGraph()
        many.add_edge("Ada", "early", price=4)
        many.add_edge("early", "Ada", price=3)
        self.assertEqual(nushbaret.solve_pairs(many, rows=["Ada"], weight="price").cost, 3)
        if optimize is not None:
            self.judge_beside_networkx(graph.subgraph(["Ada", "Ben", "early", "late"]), result)

    def judge_beside_networkx(self, graph, result):
        with warnings.catch_warnings():
            warnings.simplefilter("ignore")
            theirs = networkx.bipartite.minimum_weight_full_matching(graph, ["Ada", "Ben"])
        self.assertEqual({row: theirs[row] for row in ("Ada", "Ben")}, result.as_dict())

    @unittest.skipUnless(networkx, "networkx isn't there")
    def test_graphs_that_are_refused(self):
        plain, alone = networkx.Graph([("Ada", "early"), ("early", "late")]), networkx.DiGraph([("Ada", "early")])
        alone.add_node("Ben")
        for graph, words, text in ((plain, {}, "Node 'Ada' has no attribute bipartite"),
                                   (plain, {"rows": ["Ada"]}, "the edge of 'early' and 'late' joins two columns"),
                                   (alone, {}, "is node 'Ben' a row?"),
                                   (networkx.DiGraph(plain.edges), {}, "'Ada' and 'early' joins two rows"),
                                   (networkx.DiGraph([("late", "Ada")]), {"rows": ["Ada"]}, "goes from a column")):
            with self.assertRaisesRegex(ValueError, text):
                nushbaret.solve_pairs(graph, **words)


class Shown(unittest.TestCase):
    def test_by_numbers(self):
        result = nushbaret.solve([[4, 1], [2, 3]])
        self.assertEqual((result.as_dict(), result.labels), ({0: 1, 1: 0}, None))
        other = result.next_best()
        self.assertEqual((other.as_dict(), tuple(other)), ({0: 0, 1: 1}, ([0, 1], [0, 1], 7)))

    @unittest.skipUnless(pd, "pandas isn't there")
    def test_by_labels(self):
        frame = pd.DataFrame([[4, 1], [2, 3]], ["Ada", "Ben"], ["early", "late"])
        plans = [nushbaret.solve(frame), nushbaret.bottleneck(frame), next(nushbaret.k_best(frame, 1)),
                 nushbaret.Assigner(frame).result, nushbaret.solve_batch([frame])[0],
                 nushbaret.compare(frame, ["early", "late"]).result, nushbaret.solve(frame, unmatched_cost=9)]
        for plan in plans:
            self.assertEqual(plan.as_dict(), {"Ada": "late", "Ben": "early"})
            series = plan.to_series()
            self.assertEqual((series.to_dict(), series.name, series.index.name), (plan.as_dict(), "column", "row"))
            self.assertEqual(plan.to_frame()[["row", "column"]].values.tolist(), [["Ada", "late"], ["Ben", "early"]])
        other = pickle.loads(pickle.dumps(plans[0].next_best()))
        self.assertEqual((other.pairs, other.cost), ([("Ada", "early"), ("Ben", "late")], 7))
        self.assertEqual(nushbaret.solve(frame, unmatched_cost=0).to_series().to_dict(), {})


if __name__ == "__main__":
    unittest.main()
