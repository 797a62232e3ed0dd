"""What docs/RULES.md shows of a month is what the command prints."""
import importlib.util
import os
import pathlib
import subprocess
import sys
import tempfile
import unittest

from optional import np, optimize

TOP = pathlib.Path(__file__).resolve().parents[4]


def sessions():
    """The commands of the page, each with what stands below it."""
    spec = importlib.util.spec_from_file_location("pages", TOP / "tests" / "pages.py")
    pages = importlib.util.module_from_spec(spec)
    spec.loader.exec_module(pages)
    return [(command, below) for _, command, below in pages.sessions("docs/RULES.md")]


@unittest.skipIf(optimize is None or np is None, "needs SciPy")
class Page(unittest.TestCase):
    def test_sessions(self):
        """One shell runs them all, with this interpreter as python3, and with more time than they take on a busy
        machine."""
        with tempfile.TemporaryDirectory() as work:
            folder = pathlib.Path(work)
            (folder / "bin").mkdir()
            (folder / "bin" / "python3").symlink_to(sys.executable)
            (folder / "examples").symlink_to(TOP / "examples")
            environment = {**os.environ, "PATH": f"{folder / 'bin'}:{os.environ['PATH']}",
                           "PYTHONPATH": str(TOP / "python"), "PYTHONDONTWRITEBYTECODE": "1"}
            found = [(command.replace("--rules ", "--time 900 --rules "), below) for command, below in sessions()]
            script = "\n".join(f"echo '$ {number}'\n{command}" for number, (command, _) in enumerate(found))
            ran = subprocess.run(["bash", "-c", script], cwd=work, env=environment, capture_output=True, text=True)
            wanted = "".join(f"$ {number}\n" + below + "\n" * bool(below) for number, (_, below) in enumerate(found))
            self.assertEqual((ran.stdout, ran.stderr), (wanted, ""))


if __name__ == "__main__":
    unittest.main()
