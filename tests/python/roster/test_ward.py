"""A ward of 28 nurses and 84 shifts, compared with the solver HiGHS where SciPy has it: a plan, one nurse sick, and the
past."""
import importlib.util
import json
import unittest

from commands import TOP, Runs
from optional import np, optimize, sparse

RULES = ("ward.csv", "--places", "ward_places.csv", "--groups", "ward_days.csv", "--tasks")
# So much more than all changes together.
SCALE = 10000


def month():
    """The script that makes the files of the ward."""
    spec = importlib.util.spec_from_file_location("month", TOP / "bench" / "month.py")
    script = importlib.util.module_from_spec(spec)
    spec.loader.exec_module(script)
    return script


@unittest.skipUnless(np and hasattr(optimize, "milp"), "SciPy's milp isn't installed")
class Ward(Runs):
    def setUp(self):
        super().setUp()
        self.tables = month().ward()
        for name, lines in self.tables.items():
            self.file(name, "".join(",".join(map(str, line)) + "\n" for line in lines))
        self.day = {shift: int(day) for shift, day in self.tables["ward_days.csv"][1:]}

    def least(self, tasks, kept, change, past):
        """The least sum of SCALE times the costs and of `change` for each pair that comes or goes, by HiGHS."""
        fixed = {pair for pair in kept if self.day[pair[1]] < past}
        every = {(nurse, shift): SCALE * cost for nurse, shift, cost in self.tables["ward.csv"][1:]}
        own = [pair for pair in every if self.day[pair[1]] >= past]
        places = self.tables["ward_places.csv"][1:]
        ranges = [self.range(name, least, most, sum(pair[0] == name for pair in fixed))
                  for name, least, most in self.tables[tasks][1:]]
        ranges += [(name, least, most) if self.day[name] >= past else (name, 0, 0) for name, least, most in places]
        ranges += [((nurse, day), 0, 1) for nurse, _, _ in self.tables[tasks][1:] for day in range(1, 29)]
        rows = {name: row for row, (name, _, _) in enumerate(ranges)}
        matrix = sparse.lil_matrix((len(rows), len(own)))
        for column, (nurse, shift) in enumerate(own):
            matrix[[rows[nurse], rows[shift], rows[nurse, self.day[shift]]], column] = 1
        costs = [every[pair] + (-change if pair in kept else change) for pair in own]
        bounds = optimize.LinearConstraint(matrix.tocsr(), [least for _, least, _ in ranges],
                                           [most for _, _, most in ranges])
        found = optimize.milp(costs, constraints=bounds, integrality=np.ones(len(own)), bounds=optimize.Bounds(0, 1))
        return round(found.fun) + change * len(kept - fixed) + sum(every[pair] for pair in fixed)

    def range(self, name, least, most, had):
        return name, max(least - had, 0), max(most - had, 0)

    def test_beside_highs(self):
        self.assertEqual(self.run_words(*RULES, "ward_tasks.csv", "--output", "plan.json")[0], 0)
        plan = json.loads(self.read("plan.json"))
        self.assertEqual(int(plan["cost"]) * SCALE, self.least("ward_tasks.csv", set(), 0, 0))
        kept = {(pair["person"], pair["object"]) for pair in plan["pairs"]}
        for change, past in ((0, 0), (3, 0), (0, 12), (7, 12)):
            words = ["--keep", "plan.json", "--output", "p.json", "--force"]
            words += (["--change-cost", str(change)] if change else []) + (["--past", str(past)] if past else [])
            with self.subTest(change=change, past=past):
                self.assertEqual(self.run_words(*RULES, "ward_sick.csv", *words)[0], 0)
                found = json.loads(self.read("p.json"))
                changes = len({(pair["person"], pair["object"]) for pair in found["pairs"]} ^ kept)
                # A change costs half of what is asked for, and without a cost as good as nothing.
                worth = change * SCALE // 2 or 1
                self.assertEqual(int(found["cost"]) * SCALE + worth * changes,
                                 self.least("ward_sick.csv", kept, worth, past))


if __name__ == "__main__":
    unittest.main()
