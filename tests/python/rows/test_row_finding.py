"""Finding plans of rows: small models and months held against slow searches, reasons, time and Ctrl-C."""
import os
import pathlib
import random
import signal
import subprocess
import sys
import threading
import time
import unittest
from unittest import mock

from nushbaret.rows import finding
from nushbaret.rows.certificate_check import shows
from nushbaret.rows.model import Model, Row
import row_models as models

MODELS = 500
MONTHS = 30
needs_scipy = unittest.skipUnless(models.scipy, "SciPy isn't there")
# A model whose search takes long: many persons whose months differ little.
LONG = """
import random, sys
sys.path[:0] = [{package!r}, {tests!r}]
from nushbaret.rows import finding
import row_models
taken = finding._taken
def noted(search, workers, message):
    if "started" in message:
        print(workers[-1].process.pid, flush=True)
    return taken(search, workers, message)
finding._taken = noted
finding._TIMES_RELAXED = 0
try:
    finding.find(row_models.drawn_month(random.Random(5), 60, 90), 600)
except KeyboardInterrupt:
    print("stopped", flush=True)
except RuntimeError as fault:
    print(fault, flush=True)
"""


@needs_scipy
class Small(unittest.TestCase):
    def check(self, model):
        found, plans = models.found_here(model), models.plans(model)
        if not plans:
            self.assertEqual(found.kind, "impossible")
            self.check_reasons(model, found)
            return False
        best = min(models.cost(model, plan) for plan in plans)
        self.assertEqual((found.kind, found.cost, models.cost(model, found.plan)), ("best", best, best))
        self.assertEqual(found.bound, best)
        self.assertIn(found.plan, plans)
        self.assertTrue(shows(found.certificate) and models.shows(found.certificate))
        return True

    def check_reasons(self, model, found):
        """No plan meets the rows of the reasons, and some plan does without any of them."""
        self.assertTrue(found.is_minimal and shows(found.certificate) and models.shows(found.certificate))
        self.assertEqual(models.plans(model, found.reasons), [])
        for text in found.reasons:
            self.assertNotEqual(models.plans(model, set(found.reasons) - {text}), [])

    def test_models(self):
        counts = [0, 0]
        for seed in range(MODELS):
            with self.subTest(seed=seed):
                counts[self.check(models.drawn_model(random.Random(seed)))] += 1
        self.assertGreater(min(counts), MODELS // 10)

    def test_no_variables_and_no_rows(self):
        self.assertEqual(models.found_here(Model(2, (3, -2), (), (None, None)))[:4], ("best", (0, 1), -2, -2))
        self.assertEqual(models.found_here(Model(1, (0,), (Row(1, (), None, "nothing"),), (0,))).reasons, ("nothing",))


@needs_scipy
class Months(unittest.TestCase):
    """Months by prices and persons' trees, however small."""

    def setUp(self):
        from nushbaret.rows import prover
        patched = mock.patch.object(prover, "_SMALL", 0)
        patched.start()
        self.addCleanup(patched.stop)

    def test_months(self):
        kinds = {"best": 0, "impossible": 0, "within": 0, "undecided": 0}
        for seed in range(MONTHS):
            with self.subTest(seed=seed):
                model = models.drawn_month(random.Random(seed))
                found, least = models.found_here(model), models.least_cost(model)
                kinds[found.kind] += 1
                self.assertEqual(found.kind == "impossible", least is None)
                if least is not None:
                    self.assertEqual((found.kind, found.cost, found.bound), ("best", least, least))
                self.assertTrue(shows(found.certificate) and models.shows(found.certificate))
        self.assertGreater(kinds["best"], MONTHS // 4)
        self.assertGreater(kinds["impossible"], 0)


@needs_scipy
class Around(unittest.TestCase):
    def test_what_comes_first(self):
        """Searches around months where only what nobody has costs anything, and HiGHS over all else."""
        from nushbaret.rows import highs
        rows = tuple(Row(1, ((person, 1), (2 + person, 1)), None, "one") for person in (0, 1))
        for costs, first, least in (((0, 0, 1, 1), "search", 0), ((0, 2, 1, 1), "whole", 1), ((0,) * 4, "whole", 0)):
            channel = models.Channel()
            finder = highs.Finder(Model(4, costs, rows, (0, 1, None, None)), channel, time.monotonic() + 600)
            done = mock.Mock()
            done.attach_mock(mock.patch.object(finder, "search", side_effect=finder.search).start(), "search")
            done.attach_mock(mock.patch.object(finder, "whole", side_effect=finder.whole).start(), "whole")
            finder.run(())
            self.assertEqual((done.mock_calls[0][0], channel.cost, finder.is_over), (first, least, True))
        mock.patch.stopall()

    def test_days_that_are_drawn(self):
        """Each real day is among them, also where days are counted from long ago, and they stand side by side."""
        from nushbaret.rows import neighbourhoods
        month = models.drawn_month(random.Random(5), 4, 7)
        days = tuple(739_000 + variable // 2 % 7 for variable in range(month.variables))
        search, seen = neighbourhoods.Neighbourhoods(month._replace(days=days)), set()
        for size in (0, 16, 100) * 40:
            search.sizes[1] = size
            own = sorted({day for day, is_free in zip(days, search._drawn_days()) if is_free})
            self.assertEqual((own[-1] - own[0] + 1, size > 56 or len(own) < 7), (len(own), True))
            self.assertGreaterEqual(8 * len(own), min(size, 56))
            seen.update(own if size == 0 else ())
        self.assertEqual(seen, set(days))
        self.assertFalse(neighbourhoods.Neighbourhoods(month).calendar.size)

    def test_a_search_has_its_time_by_the_processor(self):
        """Where it had an eighth of a processor, the next one may take longer by the clock."""
        from nushbaret.rows import neighbourhoods
        model = models.drawn_month(random.Random(5))
        search, allowed = neighbourhoods.Neighbourhoods(model), []
        clock = mock.Mock(**{"monotonic.side_effect": (0, 8, 8, 16), "process_time.side_effect": (0, 1, 1, 2)})
        with mock.patch.object(neighbourhoods, "time", clock), mock.patch.object(
                search, "around", side_effect=lambda point, free, seconds: allowed.append(seconds)):
            for _ in range(2):
                self.assertIsNone(search.step(search.point([0] * model.variables), 100))
        self.assertEqual(allowed, [neighbourhoods.LONGEST, 4.5 * neighbourhoods.LONGEST])


@needs_scipy
class Processes(unittest.TestCase):
    def test_finds_with_processes_of_its_own(self):
        told = []
        for seed in range(2, 5):
            model = models.drawn_month(random.Random(seed))
            found, least = finding.find(model, 600, lambda *stage: told.append(stage)), models.least_cost(model)
            self.assertEqual((found.kind == "impossible", found.cost), (least is None, least))
        self.assertTrue(any(bound is not None for _, _, bound in told))

    def test_one_process_for_an_easy_model(self):
        with mock.patch.object(finding, "_TIMES_RELAXED", 10**6), mock.patch.object(
                finding.Worker, "start", autospec=True, side_effect=finding.Worker.start) as start:
            self.assertEqual(finding.find(models.drawn_month(random.Random(9), 6, 10), 600)[2:4], (19, 19))
        self.assertEqual([call.args[1]["role"] for call in start.mock_calls], ["plans"])

    def test_a_plan_known_before(self):
        model = Model(2, (3, 4), (Row(1, ((0, 1), (1, 1)), None, "one"),), (0, 1))
        self.assertEqual(finding.find(model, 600, start=(0, 1))[:4], ("best", (1, 0), 3, 3))
        self.assertEqual(finding.find(model, 0, start=(0, 1))[:4], ("undecided", (0, 1), 4, None))
        self.assertEqual(finding.find(model, 0, start=(0, 0))[:2], ("undecided", None))

    def test_no_variables(self):
        rows = (Row(None, (), 0, "holds"), Row(None, (), -1, "less"), Row(1, (), None, "more"))
        self.assertEqual(finding.find(Model(0, (), rows[:1], ()), 1)[:4], ("best", (), 0, 0))
        for row in rows[1:]:
            found = finding.find(Model(0, (), (rows[0], row), ()), 1)
            self.assertEqual((found.kind, found.reasons, found.is_minimal), ("impossible", (row.text,), True))
            self.assertTrue(shows(found.certificate))

    def test_no_time(self):
        self.assertEqual(finding.find(models.drawn_month(random.Random(1)), 0).kind, "undecided")

    def test_ctrl_c_ends_the_processes(self):
        self.check_end(lambda process, workers: process.send_signal(signal.SIGINT), "stopped\n")

    def test_a_process_that_dies(self):
        for place in range(2):
            self.check_end(lambda process, workers: os.kill(workers[place], signal.SIGKILL),
                           "a process that finds plans ended: signal 9\n")

    def check_end(self, disturb, said):
        here = pathlib.Path(__file__).resolve().parents[1]
        code = LONG.format(package=str(here.parents[1] / "python"), tests=str(here))
        with subprocess.Popen([sys.executable, "-c", code], stdout=subprocess.PIPE, text=True) as process:
            workers = [int(process.stdout.readline()) for _ in range(2)]
            time.sleep(0.5)
            disturb(process, workers)
            self.assertEqual(process.stdout.read(), said)
        for worker in workers:
            while _is_there(worker):
                time.sleep(0.05)


def _is_there(process):
    try:
        os.kill(process, 0)
    except ProcessLookupError:
        return False
    return True


class Team(unittest.TestCase):
    """When the second process starts, and that the first goes on in its place."""

    def second_at(self, processors, *messages):
        """When the second process starts after messages at time 10, where the time ends at 110."""
        with mock.patch.object(finding.time, "monotonic", return_value=10.0), mock.patch.object(
                finding, "_processors", return_value=processors), mock.patch.object(finding, "_TIMES_RELAXED", 15):
            team = finding._Team(finding._PlanSearch(Model(1, (1,), (), (0,))), 110.0, {})
            team.workers = [mock.Mock()]
            for message in messages:
                team.told.put(message)
                self.assertEqual(team.next_message(), message)
            return team.second_at, [call.args[0] for call in team.workers[0].tell.mock_calls]

    def test_where_there_are_two_processors(self):
        self.assertEqual(self.second_at(2, {"started": True})[0], float("inf"))
        self.assertEqual(self.second_at(2, {"relaxed": 2.0})[0], 40.0)
        self.assertEqual(self.second_at(2, {"relaxed": 2.0}, {"plan": [0]})[0], 40.0)

    def test_on_one_it_waits_for_a_plan(self):
        self.assertEqual(self.second_at(1, {"relaxed": 2.0})[0], 50.0)
        self.assertEqual(self.second_at(1, {"relaxed": 2.0}, {"plan": [0]})[0], 40.0)

    def test_none_where_the_first_is_over(self):
        for later in ({"started": True}, {"plan": [0]}, {"relaxed": 1.0}):
            self.assertEqual(self.second_at(2, {"relaxed": 2.0}, {"over": True}, later),
                             (float("inf"), [{"goes_on": True}]))

    def test_no_third(self):
        with mock.patch.object(finding.Worker, "start") as start:
            team = finding._Team(finding._PlanSearch(Model(1, (1,), (), (0,))), time.monotonic() + 600, {})
            team.start("plans")
            team.second_at = 0.0
            for message in ({"relaxed": 0.0}, {"plan": [0]}, {"over": True}):
                threading.Timer(0.1, team.told.put, [message]).start()
                self.assertEqual(team.next_message(), message)
            self.assertEqual((start.call_count, team.second_at), (2, float("inf")))
            self.assertEqual(team.workers[0].waiting.get(), '{"goes_on": false}\n')


class Untrusted(unittest.TestCase):
    """What a process reports is kept only if it is so."""

    MODEL = Model(2, (2, 4), (Row(1, ((0, 1), (1, 1)), None, "one"), Row(None, ((0, 1), (1, 1)), 0, "none")), (0, 1))

    def test_plans(self):
        search = finding._PlanSearch(self.MODEL._replace(rows=self.MODEL.rows[:1]))
        for plan in ((0, 0), (1,), (2, 0), (1, 0, 0)):
            self.assertFalse(search.take_plan(plan))
        self.assertTrue(search.take_plan((0, 1)))
        self.assertFalse(search.take_plan((0, 1)))
        self.assertEqual(search.finding()[:3], ("undecided", (0, 1), 4))

    def test_bounds(self):
        search = finding._PlanSearch(self.MODEL._replace(rows=self.MODEL.rows[:1]))
        self.assertEqual(search.unit, 2)
        self.assertFalse(search.take_bound(0, (0, 1, 0, 1)))
        self.assertTrue(search.take_bound(0, (0, 2, 0, 1, 1, -1)))
        self.assertFalse(search.take_bound(1, (0, 2, 0, 1, 1, -1)))
        search.take_plan((1, 0))
        found = search.finding()
        self.assertEqual(found[:4], ("best", (1, 0), 2, 2))
        self.assertTrue(shows(found.certificate) and models.shows(found.certificate))

    def test_reasons(self):
        search = finding._PlanSearch(self.MODEL)
        told = {"reasons": ["one", "none"], "is_minimal": True, "rows": [0, 1], "tree": [0, 2, 0, 1, 1, 1]}
        self.assertFalse(search.take_reasons(told))
        self.assertTrue(search.take_reasons({**told, "tree": [0, 2, 0, 1, 1, -1]}))
        self.assertEqual(search.finding().reasons, ("one", "none"))

    def test_without_scipy(self):
        with mock.patch.object(finding.importlib.util, "find_spec", return_value=None):
            with self.assertRaisesRegex(ImportError, "need SciPy: (pip install nushbaret|apt install python3-scipy)"):
                finding.find(self.MODEL, 1)

    def test_how_scipy_is_installed(self):
        for prefix, base, text in (("/home/ada/venv", "/usr", "pip install nushbaret[rules]"),
                                   ("/usr", "/usr", "apt install python3-scipy"),
                                   ("/usr/local", "/usr/local", "pip install nushbaret[rules]")):
            with mock.patch.object(finding.os.path, "exists", return_value=True), mock.patch.multiple(
                    finding.sys, prefix=prefix, base_prefix=base):
                self.assertEqual(finding._needs_scipy(), "rosters with rules need SciPy: " + text)


if __name__ == "__main__":
    unittest.main()
