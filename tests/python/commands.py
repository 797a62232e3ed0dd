"""The command for rosters with names, as tests run it: in a folder of their own, within this process or as a program;
and what its pages have."""
import contextlib
import io
import os
import pathlib
import random
import re
import subprocess
import sys
import tempfile
import unittest
from html.parser import HTMLParser

TOP = pathlib.Path(__file__).resolve().parents[2]
sys.path.insert(0, str(TOP / "python"))

from nushbaret.roster import command

OTHERS = "other plans are as good: --others shows who could change places\n"
SQUARE = ",early,late,night\nAda,4,1,3\nBen,2,0,5\nCleo,3,2,2\n"


class InFolder(unittest.TestCase):
    """Tests in a folder of their own."""

    def setUp(self):
        holder = tempfile.TemporaryDirectory()
        self.addCleanup(holder.cleanup)
        self.addCleanup(os.chdir, os.getcwd())
        os.chdir(holder.name)
        self.folder = holder.name


class Runs(InFolder):
    """Tests in a folder of their own, in which the command runs."""

    def file(self, name, content):
        pathlib.Path(name).write_text(content, encoding="utf-8")

    def files(self, contents):
        for name, content in contents.items():
            self.file(name, content)

    def read(self, name):
        return pathlib.Path(name).read_text(encoding="utf-8")

    def run_words(self, *words):
        out, err = io.StringIO(), io.StringIO()
        with contextlib.redirect_stdout(out), contextlib.redirect_stderr(err):
            try:
                status = command.main(words)
            except SystemExit as end:
                status = end.code
        return status, out.getvalue(), err.getvalue()

    def on_terminal(self, *words):
        """The status, and what is printed to standard error where that is a terminal."""
        with contextlib.redirect_stdout(io.StringIO()), contextlib.redirect_stderr(Terminal()) as err:
            status = command.main(words)
        return status, err.getvalue()

    def expect(self, status, out, err, *words):
        self.assertEqual(self.run_words(*words), (status, out, err))

    def refused(self, status, text, *words):
        before = sorted(os.listdir())
        found, out, err = self.run_words(*words)
        self.assertEqual((found, out), (status, ""))
        self.assertIn(text, err)
        self.assertEqual(sorted(os.listdir()), before)


class Terminal(io.StringIO):
    def isatty(self):
        return True


def environment():
    """That of a process which runs the package of this checkout."""
    return {**os.environ, "PYTHONPATH": str(TOP / "python")}


def program(*words, **options):
    """The command as a program, when it has ended."""
    return subprocess.run([sys.executable, "-m", "nushbaret", *words], env=environment(), stderr=subprocess.PIPE,
                          **options)


def shell(script, **options):
    """The status of a line of the shell in which N is the command, and what it prints."""
    line = script.replace("N ", f"{sys.executable} -m nushbaret ")
    ended = subprocess.run(["bash", "-c", line], stdout=subprocess.PIPE, stderr=subprocess.PIPE, env=environment(),
                           **options)
    return ended.returncode, ended.stdout.decode(), ended.stderr.decode()


def square(size):
    """A drawn matrix of so many persons and objects."""
    drawn = random.Random(size)
    return "," + ",".join(f"o{number}" for number in range(size)) + "\n" + "".join(
        f"p{number}," + ",".join(str(drawn.randrange(1000)) for _ in range(size)) + "\n" for number in range(size))


class Page(HTMLParser):
    """What a page has: its tags, the cells with their kinds, and the headings of the short group."""

    def __init__(self):
        super().__init__()
        self.tags, self.cells, self.short, self.open = set(), [], [], []
        self.kinds = []

    def handle_starttag(self, tag, attributes):
        self.tags.add(tag)
        named = dict(attributes)
        for name in named:
            assert name in ("class", "scope", "colspan", "span", "style", "tabindex", "lang", "charset", "name",
                            "http-equiv", "content"), name
        if tag not in ("meta", "col", "br"):
            self.open.append((tag, (named.get("class") or "").split()))
        if tag == "td":
            self.cells.append(["", self.open[-1][1]])

    def handle_endtag(self, tag):
        assert self.open.pop()[0] == tag, tag

    def handle_data(self, data):
        if self.open and self.open[-1][0] == "td":
            self.cells[-1][0] += data
        if any(tag == "th" and "short" in kinds for tag, kinds in self.open):
            self.short.append(data)


def without_names(text):
    """A page without the elements around names."""
    return re.sub("</?bdi[^>]*>", "", text)


def parsed(text):
    page = Page()
    page.feed(text)
    page.close()
    assert not page.open, page.open
    assert "content=\"default-src 'none'; style-src 'unsafe-inline'\"" in text
    assert not page.tags & {"script", "link", "img", "iframe",
                            "object"} and "url(" not in text and "@import" not in text
    return page
