"""The processes that find plans: which modules they load, and how they fail."""
import os
import pathlib
import subprocess
import sys
import tempfile
import textwrap
import unittest
from unittest import mock

from nushbaret.rows import finding, process
from nushbaret.rows.model import Model, Row
import row_models as models

MODEL = Model(2, (3, 4), (Row(1, ((0, 1), (1, 1)), None, "one"),), (0, 1))
PACKAGE = pathlib.Path(process.__file__).resolve().parents[2]
# A program that finds a plan; it lies in a folder of its own.
FINDS = """
import sys
sys.path.append({package!r})
from nushbaret.rows.finding import find
from nushbaret.rows.model import Model, Row
print(find(Model(2, (3, 4), (Row(1, ((0, 1), (1, 1)), None, "one"),), (0, 1)), 600).plan)
"""
needs_scipy = unittest.skipUnless(models.scipy, "SciPy isn't there")


class InFolders(unittest.TestCase):
    """Tests with a folder of programs and one of a roster."""

    def setUp(self):
        holder = tempfile.TemporaryDirectory()
        self.addCleanup(holder.cleanup)
        self.programs, self.roster = (pathlib.Path(holder.name).resolve() / name for name in ("programs", "roster"))
        self.programs.mkdir()
        self.roster.mkdir()

    def program(self, name, text):
        path = self.programs / name
        path.write_text(textwrap.dedent(text), encoding="utf-8")
        return path

    def run_finds(self, python=sys.executable, **variables):
        """What the program prints where it runs in the roster's folder."""
        path = self.program("finds.py", FINDS.format(package=str(PACKAGE)))
        environment = {name: value for name, value in os.environ.items() if name != "PYTHONPATH"}
        return subprocess.run([python, str(path)], cwd=self.roster, stdout=subprocess.PIPE, stderr=subprocess.PIPE,
                              env={**environment, **variables}, text=True)


@needs_scipy
class Isolated(InFolders):
    def test_files_of_the_working_folder(self):
        for name in ("json", "random", "scipy", "numpy", "queue", "scikits", "nushbaret", "sitecustomize"):
            (self.roster / f"{name}.py").write_text(f"open('ran_{name}', 'w').close()\n")
        ended = self.run_finds()
        self.assertEqual((ended.stdout, ended.stderr), ("(1, 0)\n", ""))
        self.assertEqual([path.name for path in self.roster.glob("ran_*")], [])

    def test_files_beside_the_package(self):
        """The folder that the package lies in comes after the standard library."""
        beside = self.programs / "nushbaret"
        beside.symlink_to(PACKAGE / "nushbaret", True)
        (self.programs / "json.py").write_text("open('ran_json', 'w').close()\n")
        path = self.program("finds.py", "import sys\nown = sys.path.pop(0)\nimport json\nsys.path.append(own)\n"
                            + FINDS.format(package=str(self.programs)))
        ended = subprocess.run([sys.executable, str(path)], cwd=self.roster, stdout=subprocess.PIPE, text=True)
        self.assertEqual(ended.stdout, "(1, 0)\n")
        self.assertEqual(list(self.roster.glob("ran_*")), [])

    def test_scipy_that_the_caller_alone_sees(self):
        """An environment without SciPy, which PYTHONPATH shows the caller."""
        subprocess.run([sys.executable, "-m", "venv", "--without-pip", str(self.programs / "venv")], check=True)
        python = str(self.programs / "venv" / "bin" / "python")
        folder = str(pathlib.Path(models.scipy.__file__).resolve().parents[1])
        self.assertIn("need SciPy", self.run_finds(python).stderr)
        ended = self.run_finds(python, PYTHONPATH=folder)
        self.assertEqual((ended.stdout, ended.stderr), ("(1, 0)\n", ""))


class Command(InFolders):
    def test_words(self):
        """Folders are absolute, none is the working folder, and each is there once."""
        os.symlink(self.roster, self.programs / "link")
        self.addCleanup(os.chdir, os.getcwd())
        os.chdir(self.roster)
        programs = str(self.programs)
        paths = ["", "lib", str(self.roster), str(self.programs / "link"), programs, "/lib", programs]
        with mock.patch.object(sys, "path", paths):
            words = process.command()
        self.assertEqual(words[:2], [sys.executable, "-I"])
        self.assertEqual(words[-3:], [str(PACKAGE / "nushbaret" / "rows" / "worker.py"), str(self.programs), "/lib"])

    @unittest.skipIf(os.name == "nt", "these programs are those of Linux")
    def test_no_python(self):
        for executable, said in ((None, "sys.executable doesn't say where it is"),
                                 ("", "sys.executable doesn't say where it is"),
                                 ("/no/python", "can be started with /no/python: No .* file"),
                                 ("/bin/true", "/bin/true, by sys.executable, doesn't run as Python: status 0"),
                                 ("/bin/echo", "/bin/echo, by sys.executable, doesn't run as Python: -I"),
                                 ("/bin/cat", "/bin/cat, by sys.executable, doesn't run as Python: Try")):
            with self.subTest(executable), mock.patch.object(sys, "executable", executable), mock.patch.object(
                    finding.importlib.util, "find_spec"), self.assertRaisesRegex(RuntimeError, said):
                finding.find(MODEL, 600)


class Failing(InFolders):
    """Processes that end before their work does."""

    def check(self, text, said):
        with mock.patch.object(process, "START", self.program("worker.py", text)), mock.patch.object(
                finding.importlib.util, "find_spec"), self.assertRaisesRegex(RuntimeError, said):
            finding.find(MODEL, 600)

    def test_the_last_line_is_told(self):
        started = "print('{\"started\": true}', flush=True)\n"
        self.check(started + "raise ValueError('broken')\n", "^a process that finds plans ended: ValueError: broken$")
        self.check(started + "import no_module\n", "ended: ModuleNotFoundError: No module named 'no_module'$")
        self.check(started + "import os, signal\nos.kill(os.getpid(), signal.SIGKILL)\n", "plans ended: signal 9$")
        self.check(started, "plans ended: status 0$")
        self.check("raise SystemExit(7)\n", "doesn't run as Python: status 7$")

    @needs_scipy
    def test_a_plan_is_found_all_the_same_where_none_failed(self):
        self.assertEqual(finding.find(MODEL, 600).plan, (1, 0))


if __name__ == "__main__":
    unittest.main()
