"""The guide to rosters, as the command prints it, and as it is installed."""
import importlib.util
import pathlib
import re
import subprocess
import sys
import tempfile
import unittest
import zipfile
from html.parser import HTMLParser

import test_package
from commands import TOP, Runs

EXAMPLES = sorted(file.name for file in (TOP / "examples").glob("*.csv"))


def module():
    spec = importlib.util.spec_from_file_location("nushbaret_guide", TOP / "python" / "building" / "nushbaret_guide.py")
    found = importlib.util.module_from_spec(spec)
    spec.loader.exec_module(found)
    return found


class Reader(HTMLParser):
    """The text of a page, that of its code, its links and names, and tags that were left open."""

    def __init__(self):
        super().__init__()
        self.open, self.text, self.code, self.links, self.names = [], "", [], set(), set()

    def handle_starttag(self, tag, attrs):
        self.names.update(value for key, value in attrs if key == "id")
        self.links.update(value for key, value in attrs if key == "href")
        if tag != "meta":
            self.open.append(tag)

    def handle_endtag(self, tag):
        assert self.open.pop() == tag

    def handle_data(self, data):
        self.text += data
        if self.open[-1:] == ["pre"]:
            self.code.append(data)


def words(text):
    return re.sub(r"[`*#>-]", "", text).split()


class Printed(Runs):
    def test_in_a_checkout(self):
        status, out, err = self.run_words("--guide")
        page = TOP / "docs" / "ROSTERS.md"
        self.assertEqual((status, err), (0, ""))
        both = page.read_text(encoding="utf-8") + "\n" + (TOP / "docs" / "RULES.md").read_text(encoding="utf-8")
        self.assertEqual(out, both + f"\nThis guide as a page: {page}\nThe examples in it: {TOP / 'examples'}\n")

    def test_installed(self):
        build = test_package.backend()
        with tempfile.TemporaryDirectory() as folder:
            with zipfile.ZipFile(pathlib.Path(folder) / build.build_wheel(folder)) as wheel:
                wheel.extractall(folder)
            guide = pathlib.Path(folder) / "nushbaret" / "guide"
            ran = subprocess.run([sys.executable, "-c", "import sys; sys.path.insert(0, sys.argv.pop(1)); from "
                                  "nushbaret.__main__ import main; main()", folder, "--guide"], capture_output=True,
                                 text=True, cwd=folder)
            self.assertEqual((ran.returncode, ran.stderr), (0, ""))
            text = (guide / "rosters.txt").read_text(encoding="utf-8")
            self.assertEqual(ran.stdout, text + f"\nThis guide as a page: {guide / 'rosters.html'}\nThe examples in "
                             f"it: {guide / 'examples'}\n")
            self.assertEqual(sorted(file.name for file in (guide / "examples").iterdir()), EXAMPLES)
            for name in EXAMPLES:
                self.assertEqual((guide / "examples" / name).read_bytes(), (TOP / "examples" / name).read_bytes())


class Made(unittest.TestCase):
    def setUp(self):
        self.guide = module()
        self.page = (TOP / "docs" / "ROSTERS.md").read_text(encoding="utf-8")
        self.rules = (TOP / "docs" / "RULES.md").read_text(encoding="utf-8")
        self.text = self.guide.guide_files(self.page, self.rules, {})["rosters.txt"].decode()

    def test_text(self):
        self.assertNotIn("PYTHONPATH", self.text)
        self.assertNotIn("README", self.text)
        self.assertNotIn("python3 -m nushbaret examples", self.text)
        self.assertNotRegex(self.text, r"\]\((?!#|https?:)")
        for named in re.findall(r"examples/[\w*.]+", self.text):
            self.assertTrue(list(TOP.glob(named)), named)
        for page in ("no line of it", self.page + self.page):
            with self.assertRaisesRegex(SystemExit, "how the command is found in a checkout"):
                self.guide.guide_text(page)

    def test_page(self):
        """The page has all words of the text in their order, and each line of its code."""
        page = self.guide.guide_page(self.text)
        reader = Reader()
        reader.feed(page)
        self.assertEqual(reader.open, [])
        shown = reader.text[reader.text.index(self.guide.STYLE) + len(self.guide.STYLE):]
        plain = re.sub(r"\[([^][]+)\]\([^()]*\)", r"\1", self.text)
        self.assertEqual(words(shown.replace("|", " ")), words(plain.replace("|", " ")))
        code = [line[4:] for line in self.text.split("\n") if line.startswith("    ")]
        self.assertEqual([line for block in reader.code for line in block.split("\n") if line],
                         [line for line in code if line])
        self.assertLessEqual({link[1:] for link in reader.links if link.startswith("#")}, reader.names)

    def test_blocks(self):
        text = ("# A <b>\n\nSome `x < y` words\nin [two](#next-one) lines, **bold**:\n\n    $ a\n\n    b\n\n- one\n  "
                "more\n\n- `two`\n\n## Next one\n### Third\n\n| a | `b` |\n|---|---|\n| c | |\n")
        body = self.guide.guide_page(text).partition("<body>\n")[2].partition("\n</body>")[0]
        self.assertEqual(body, '<h1 id="a-b">A &lt;b&gt;</h1>\n<p>Some <code>x &lt; y</code> words in <a '
                         'href="#next-one">two</a> lines, <b>bold</b>:</p>\n' "<pre>$ a\n\nb</pre>\n<ul>\n<li>one "
                         "more</li>\n<li><code>two</code></li>\n</ul>\n" '<h2 id="next-one">Next one</h2>\n<h3 '
                         'id="third">Third</h3>\n'
                         "<table>\n<tr><th>a</th> <th><code>b</code></th></tr>\n<tr><td>c</td> "
                         "<td></td></tr>\n</table>")
        for line in ("```", "1. one", "> said"):
            with self.assertRaisesRegex(SystemExit, "has what its guide can't show"):
                self.guide.guide_page("# A\n\n" + line + "\n")


if __name__ == "__main__":
    unittest.main()
