"""The package's folders: imports go down only, no import leads back to where it came from, and what breaks this is
seen. Tests import public names and modules of their own folder; what else they import is listed here."""
import pathlib
import tempfile
import unittest

import layers


# The modules of other folders that files of tests import.
OF_OTHER_FOLDERS = {
    # Problems and plans as the command has them.
    "campaigns": "costs.problem counts.planned lap.fewest lap.solving roster.single_nodes",
    # What several files of tests share.
    "commands": "roster.command",
    "drawn_rules": "roster.dates roster.month roster.roster roster.rules.rule_file",
    "row_models": "rows.certificates rows.finding rows.highs rows.model rows.process rows.prover",
    "ways": "api.solve lap.direct lap.library",
    # They count or replace calls below the public one: of levels, checks, searches and the library.
    "api.test_forms": "costs.kinds costs.problem lap.levels",
    "api.test_plans": "lap.library lap.proved lap.ranking",
    "api.test_solving": "lap.library",
    "api.test_time": "lap.levels lap.library",
    "counts.test_counts": "lap.counts_call lap.library",
    "roster.test_command": "lap.library",
    "rows.test_certificates": "lap.library",
    "roster.rules.test_command_rules": "rows.finding rows.model",
    # They compare or lower limits that aren't public.
    "api.test_refusals": "costs.limits lap.library lap.proved",
    # They make what the tested folder takes, or check what it makes.
    "counts.test_count_rows": "rows.certificate_check",
    "lap.test_fewest": "costs.kinds costs.problem",
    "lap.test_groups": "costs.kinds costs.problem",
    "lap.test_levels": "costs.kinds costs.problem",
    "lap.test_wide": "costs.kinds costs.limits",
    "roster.rules.test_stages": "rows.certificate_check rows.finding rows.model",
}
# Modules of features that came after the number of modules was set: like the folder beyond/ they don't count.
FEATURES = ("api.pairs", "api.unmatched", "costs.left_out", "roster.daily", "roster.forms", "roster.output.month_page",
            "roster.output.month_sheet", "roster.output.month_workbook")
# The files by which Python and processes begin.
BEGINS = ("__init__", "__main__", "worker")
MOST_MODULES, LEAST_LINES, MOST_LINES = 110, 40, 800


class Package(unittest.TestCase):
    GRAPH = layers.edges()

    def test_imports_go_down_only(self):
        graph = self.GRAPH
        self.assertEqual(layers.faults(graph), [])
        self.assertEqual(layers.cycle(graph), [])
        self.assertEqual(set(layers.layers(graph)), set(graph))

    def test_each_folder_has_its_rule(self):
        folders = {layers.folder_of(name) for name in self.GRAPH if name not in layers.ENTRIES}
        self.assertEqual(folders, set(layers.BELOW))
        drawn = "\n".join(layers.drawn(self.GRAPH))
        self.assertRegex(drawn, r"(?s)^beyond/ .*\napi/ .*\nroster/output/ .*\nroster/rules/ .*\nroster/ .*\ncounts/ .*"
                         r"\nrows/ .*\nlap/ .*\ncosts/  imports nothing\n")


class Files(unittest.TestCase):
    """How many files the package has, how long they are, and what they are called."""

    FILES = {name: path for name, path in layers.modules().items() if path.stem not in BEGINS}

    def test_few_modules(self):
        counted = [name for name in self.FILES if not name.startswith("beyond.") and name not in FEATURES]
        self.assertLessEqual(len(counted), MOST_MODULES)
        self.assertGreater(len(counted), MOST_MODULES // 2)

    def test_no_name_stands_twice(self):
        stems = sorted(path.stem for path in self.FILES.values())
        self.assertEqual(stems, sorted(set(stems)))

    def test_lengths(self):
        lines = {name: len(path.read_text(encoding="utf-8").splitlines()) for name, path in self.FILES.items()}
        self.assertEqual({name: count for name, count in lines.items() if not LEAST_LINES <= count <= MOST_LINES}, {})


class Tests(unittest.TestCase):
    def test_public_names_and_their_own_folder(self):
        self.assertEqual(dict(layers.beyond_their_folder()),
                         {name: others.split() for name, others in OF_OTHER_FOLDERS.items()})


class Planted(unittest.TestCase):
    """Imports that no order allows, in a package of some files."""

    def graph(self, texts):
        with tempfile.TemporaryDirectory() as folder:
            for name, text in texts.items():
                path = pathlib.Path(folder, *name.split(".")).with_suffix(".py")
                path.parent.mkdir(parents=True, exist_ok=True)
                path.write_text(text)
            return layers.edges(pathlib.Path(folder))

    def test_upward(self):
        for text in ("from ..lap import levels\n", "from ..lap.levels import solved\n", "import nushbaret.lap.levels\n",
                     "from nushbaret.lap import levels\n", "def late():\n    from ..lap.levels import solved\n    "
                     "return solved\n", "if TYPE_CHECKING:\n    from ..lap import levels\n"):
            with self.subTest(text=text):
                graph = self.graph({"costs.numbers": text, "lap.levels": ""})
                self.assertEqual(layers.faults(graph), ["costs.numbers imports lap.levels"])

    def test_upward_to_the_package_itself(self):
        graph = self.graph({"__init__": "", "__main__": "from .roster import command\n", "roster.command": "",
                            "costs.numbers": "from .. import solve\n"})
        self.assertEqual(layers.faults(graph), ["costs.numbers imports "])

    def test_a_front_is_imported_by_nobody(self):
        graph = self.graph({"roster.command": "from .rules import ruling\nfrom .output import page\n",
                            "roster.rules.ruling": "", "roster.output.page": "",
                            "roster.answer": "def late():\n    from .command import main\n   "
                            " return main\n", "roster.fair": "from .output import page\n"})
        self.assertEqual(layers.faults(graph), ["roster.answer imports roster.command",
                                                "roster.fair imports roster.output.page"])

    def test_cycles(self):
        graph = self.graph({"lap.levels": "from . import ties\n", "lap.ties": "def late():\n    from .levels import "
                            "solved\n    return solved\n", "lap.duals": "from .levels import solved\n"})
        self.assertEqual(layers.faults(graph), [])
        self.assertEqual(sorted(layers.cycle(graph)), ["lap.levels", "lap.ties"])
        self.assertEqual(layers.layers(graph), {})


if __name__ == "__main__":
    unittest.main()
