"""Pages on phones, in dark rooms and on paper, and for the wall. Where Chromium is installed it measures and prints
them."""
import html
import pathlib
import re
import shutil
import struct
import subprocess
import sys
import tempfile
import unittest
from datetime import date, timedelta
from unittest import mock

from nushbaret.roster.names import BEGIN, END, Piece, joined, marked, pieces, without_marks
from nushbaret.roster.output import html as _html, page
from nushbaret.roster.output.days import SIZES, _size
from commands import SQUARE, TOP, Runs, parsed, without_names
from optional import optimize

BROWSER = next(filter(None, map(shutil.which, ("chromium", "chromium-browser", "google-chrome"))), None)
SHIFTS = ("early", "late", "night")
LONG = "Leutheusser-Schnarrenberger-Bartholomew, Maximiliane Theodora"


def brightness(colour):
    """The relative luminance of a colour, as the contrast of texts is measured."""
    parts = [int(colour[place:place + 2], 16) / 255 for place in (1, 3, 5)]
    red, green, blue = (part / 12.92 if part <= 0.03928 else ((part + 0.055) / 1.055) ** 2.4 for part in parts)
    return 0.2126 * red + 0.7152 * green + 0.0722 * blue


def contrast(one, other):
    low, high = sorted(map(brightness, (one, other)))
    return (high + 0.05) / (low + 0.05)


def browser(*words):
    ended = subprocess.run([BROWSER, "--headless", "--no-sandbox", "--disable-gpu", "--hide-scrollbars", *words],
                           stdout=subprocess.PIPE, stderr=subprocess.DEVNULL, check=True, timeout=300)
    return ended.stdout.decode()


class Colours(unittest.TestCase):
    def test_contrast(self):
        for colours, shades in ((_html.LIGHT, _html.LIGHT_SHADES), (_html.DARK, _html.DARK_SHADES)):
            pairs = [(colours[ink], colours[paper]) for paper in ("paper", "weekend", "changed")
                     for ink in ("ink", "soft", "alarm")]
            for one, other in [*pairs, (colours["alarm"], colours["alarm-paper"]), *shades]:
                self.assertGreaterEqual(contrast(one, other), 4.5, (one, other))
            self.assertEqual(len(shades), 9)
        self.assertEqual(_html.LIGHT.keys(), _html.DARK.keys())

    def test_greater_costs_are_further_from_the_paper(self):
        for colours, shades in ((_html.LIGHT, _html.LIGHT_SHADES), (_html.DARK, _html.DARK_SHADES)):
            far = [contrast(colour, colours["paper"]) for colour, _ in shades]
            self.assertEqual(far, sorted(far))

    def test_no_colour_is_in_a_rule(self):
        """All colours are named, so that dark rooms have their own."""
        for style in map(_html.style_of, ("frame.css", "page.css", "days.css", "each.css")):
            self.assertIsNone(re.search("#[0-9a-fA-F]{3}", style))


class Names(unittest.TestCase):
    def test_pieces(self):
        text = f"{marked('Ada')} and {marked('Ben, B.')}"
        self.assertEqual(list(pieces(text)), [Piece("Ada", True), Piece(" and ", False), Piece("Ben, B.", True)])
        self.assertEqual(without_marks(text), "Ada and Ben, B.")
        self.assertEqual(list(pieces(f"a{BEGIN}b")), [Piece("ab", False)])
        self.assertEqual(_html.words(f"<{marked('<b>')}{END}"), '&lt;<bdi lang="">&lt;b&gt;</bdi>')
        self.assertEqual(_html.name("x" * 31), f'<bdi lang="" class="long">{"x" * 31}</bdi>')

    def test_joined(self):
        self.assertEqual(joined(["a", "b"]), "a, b")
        self.assertEqual(joined(["Kurz, Ida", "b"]), "Kurz, Ida; b")


class Frame(Runs):
    def setUp(self):
        super().setUp()
        self.file("r.csv", SQUARE)

    def test_head(self):
        self.run_words("r.csv", "--html", "ward 5.page.html")
        text = self.read("ward 5.page.html")
        parsed(text)
        for line in ('<html lang="en">', '<meta name="viewport" content="width=device-width, initial-scale=1">',
                     '<meta name="color-scheme" content="light dark">', '<title lang="">ward 5.page</title>',
                     '<h1 lang="">ward 5.page</h1>', ":root { color-scheme: light dark }",
                     "@media screen and (prefers-color-scheme: dark) {"):
            self.assertIn(line, text)

    def test_title_without_a_file(self):
        self.assertIn('<title lang="">r</title>', self.run_words("r.csv", "--html", "/dev/stdout")[1])

    def test_words_and_names(self):
        """Our words are English; names are of no language that we know."""
        self.run_words("r.csv", "--others", "--html", "p.html")
        text = self.read("p.html")
        self.assertIn('<li>there <bdi lang="">Ada</bdi>: <bdi lang="">early</bdi>, 4</li>', text)
        self.assertIn('<table class="plan" lang="">', text)
        self.assertNotIn(BEGIN, text)
        self.assertNotIn(END, text)

    def test_the_plan_alone(self):
        self.file("o.csv", "a,b\nAda,early\nBen,late\nCleo,night\n")
        self.run_words("r.csv", "--others", "--keep", "o.csv", "--compare", "o.csv", "--html", "w.html", "--plan-only")
        body = self.read("w.html").partition("<body>")[2]
        self.assertEqual(body, '\n<h1 lang="">w</h1>\n<div class="scroll" tabindex="0">\n<table class="plan" lang="">\n'
                         '<thead><tr><th scope="col">person</th><th scope="col">object</th></tr></thead>\n<tbody>\n'
                         "<tr><td>Ada</td><td>late</td></tr>\n<tr><td>Ben</td><td>early</td></tr>\n"
                         "<tr><td>Cleo</td><td>night</td></tr>\n"
                         "</tbody>\n</table>\n</div>\n</body>\n</html>\n")

    def test_words_of_the_roster(self):
        """Titles that aren't English words of ours are of no language that we know, too."""
        self.file("r.csv", "Pflegekraft,shift,Punkte\nUwe,x,1\nEva,x,2\nUwe,y,1\nIda,x,1\n")
        self.run_words("r.csv", "--html", "p.html")
        self.assertIn('<p>least <bdi lang="">Punkte</bdi>: 2</p>', self.read("p.html"))
        self.assertIn('<summary>without: 1 <bdi lang="">Pflegekraft</bdi></summary>', self.read("p.html"))

    def test_plan_only_needs_a_page(self):
        self.refused(2, "--plan-only is of pages: name one, such as --output plan.html", "r.csv", "--plan-only",
                     "--output", "p.csv")

    def test_no_plan_alone(self):
        self.file("n.csv", ",x,y\nAda,1,\nBen,1,\n")
        status, out, _ = self.run_words("n.csv", "--html", "w.html", "--plan-only")
        self.assertEqual((status, out.splitlines()[-1]), (1, "w.html isn't written: there is no plan"))
        self.assertFalse(pathlib.Path("w.html").exists())


class Month(Runs):
    """A month of 28 nurses."""

    def setUp(self):
        super().setUp()
        self.persons = [f"Nurse {number:02}" for number in range(27)] + [LONG]
        self.days = [(date(2027, 3, 1) + timedelta(days=number)).isoformat() for number in range(28)]
        shifts = [(shift, day) for day in self.days for shift in SHIFTS]
        self.file("r.csv",
                  "nurse,shift,points\n"
                  + "".join(f'"{person}",{shift} {day},{(place * 7 + number * 5 + number * place) % 9}\n'
                            for place, person in enumerate(self.persons) for number, (shift, day) in enumerate(shifts)
                            if (place + number // 3) % 9))
        self.file("t.csv", "nurse,least,most\n" + "".join(f'"{person}",17,20\n' for person in self.persons))
        self.file("p.csv", "shift,least,most\n" + "".join(f"{shift} {day},5,8\n" for shift, day in shifts))
        self.file("g.csv", "shift,day\n" + "".join(f"{shift} {day},{day}\n" for shift, day in shifts))
        self.words = ("r.csv", "--tasks", "t.csv", "--places", "p.csv", "--groups", "g.csv")

    def test_weeks(self):
        self.assertEqual(self.run_words(*self.words, "--html", "m.html")[0], 0)
        text = without_names(self.read("m.html"))
        for first, last in ((1, 7), (8, 14), (15, 21), (22, 28)):
            self.assertEqual(text.count(f'<caption lang="en">day 2027-03-{first:02} to 2027-03-{last:02}</caption>'), 2)
        self.assertEqual(text.count('<th scope="col" class="weekend"><small lang="en">Sat</small> 2027-03-06</th>'), 2)
        self.assertEqual(len(re.findall(f'<tr><th scope="row">{LONG}</th>.*<td class="total">', text)), 4)
        totals = [list(map(int, re.findall("<td[^>]*>([0-9]+)</td>", row)))
                  for row in re.findall('<tr class="totals">.*', text)]
        self.assertEqual([(len(row), sum(row[:-1]) == row[-1]) for row in totals], [(8, True)] * 4)
        weeks = [sum(map(int, re.findall(f'<th scope="row">{name}</th>.*<td class="total">([0-9]+) <small', text)))
                 for name in self.persons]
        wholes = [int(re.search(f'<th scope="row">{name}</th>.*<small lang="en">of ([0-9]+)</small>', text)[1])
                  for name in self.persons]
        self.assertEqual(weeks, wholes)
        self.assertEqual(sum(wholes), sum(row[-1] for row in totals))

    def test_too_many_cells(self):
        """Where days have too many cells the plan is a list."""
        with mock.patch.object(page, "MOST_CELLS", 28 * 28 - 1):
            self.run_words(*self.words, "--html", "m.html")
        text = self.read("m.html")
        self.assertNotIn('class="days"', text)
        self.assertIn("<tr><td>Nurse 00</td><td>", text)

    def test_the_wall(self):
        """The plan alone has no costs, no matrix, and doesn't say who could have nothing."""
        self.file("f.csv", f'a,b\n"{LONG}",early 2027-03-02\n')
        self.run_words(*self.words, "--fixed", "f.csv", "--html", "w.html", "--html", "v.html", "--plan-only")
        self.run_words(*self.words, "--fixed", "f.csv", "--html", "m.html")
        wall, whole = (without_names(self.read(name)).partition("<body>")[2] for name in ("w.html", "m.html"))
        for word in ("points", ">off<", ">fixed<", 'class="matrix"', "other plans"):
            self.assertNotIn(word, wall)
            self.assertIn(word, whole)
        self.assertEqual(re.findall("<caption.*", wall), re.findall("<caption.*", whole))

    def test_marks(self):
        """What is fixed, what is new, what is gone, and what is past."""
        self.file("k.csv", f'a,b\nNurse 01,late 2027-03-01\n"{LONG}",early 2027-03-05\nNurse 02,early 2027-03-09\n')
        self.file("f.csv", "a,b\nNurse 03,late 2027-03-10\nNurse 02,night 2027-03-09\n")
        status, _, _ = self.run_words(*self.words, "--keep", "k.csv", "--past", "2027-03-03", "--fixed", "f.csv",
                                      "--html", "m.html", "--html", "w.html")
        self.assertEqual(status, 0)
        text = without_names(self.read("m.html"))
        rows = {name: row for name in self.persons for row in [re.findall(f'<tr><th scope="row">{name}</th>(.*<td '
                                                                          'class="total">.*)</tr>', text)]}
        self.assertTrue(rows["Nurse 01"][0].startswith('<td class="past">late</td><td class="past free">'),
                        rows["Nurse 01"][0])
        self.assertIn('<td class="changed fixed">night <small lang="en">fixed</small> <small '
                      'lang="en">new</small><br><s>early</s></td>', rows["Nurse 02"][1])
        self.assertIn('>late <small lang="en">fixed</small>', rows["Nurse 03"][1])
        self.assertEqual(text.count('<small lang="en">past</small></th>'), 2 * 2)
        self.assertEqual(text.count('<small lang="en">fixed</small>'), 2)

    def test_sizes_of_letters(self):
        self.assertEqual(_size(["Ada"] * 20, [[["early"]] * 7] * 20, 7), SIZES[0])
        self.assertEqual(_size(["Ada"] * 90, [[["early"]] * 7] * 90, 7), SIZES[-1])
        small = _size(["Ada"] * 3, [[[f"Nurse {number}" for number in range(14)]] * 7] * 3, 7)
        self.assertTrue(SIZES[-1] < small < SIZES[0], small)

    @unittest.skipUnless(BROWSER and shutil.which("pdftotext"), "Chromium or pdftotext isn't installed")
    def test_on_paper(self):
        """Each table of a week stands on one sheet, A4 as well as letter, and nobody's row is parted."""
        self.run_words(*self.words, "--html", "m.html")
        text = self.read("m.html")
        for paper in ("A4", "letter"):
            self.file("paper.html", text.replace("size: landscape", f"size: {paper} landscape"))
            browser("--no-pdf-header-footer", "--print-to-pdf=m.pdf", (pathlib.Path.cwd() / "paper.html").as_uri())
            sheets = subprocess.run(["pdftotext", "-layout", "m.pdf", "-"], stdout=subprocess.PIPE,
                                    check=True).stdout.decode().split("\f")
            for first, last in ((1, 7), (8, 14), (15, 21), (22, 28)):
                held = [sheet for sheet in sheets if f"day 2027-03-{first:02} to 2027-03-{last:02}" in sheet]
                with self.subTest(paper=paper, first=first):
                    whole = [sheet for sheet in held if all(name in sheet for name in self.persons[:-1])
                             and re.search(r"^\s*total ", sheet, re.MULTILINE)]
                    self.assertEqual(len(whole), 1)
                    self.assertTrue(1 <= len(held) <= 2)

    @unittest.skipUnless(BROWSER, "Chromium isn't installed")
    def test_on_a_phone(self):
        """Tables scroll by themselves: the page is no wider than the window, and days have one width."""
        self.run_words(*self.words, "--html", "m.html")
        script = ("<script>document.title = [document.documentElement.scrollWidth, ...new "
                  "Set([...document.querySelectorAll('.days')].flatMap(table => [...table.querySelectorAll('thead "
                  "th')].slice(1, 8).map(cell => Math.round(cell.offsetWidth))))].join(' ')</script>")
        text = re.sub("<meta http-equiv[^>]*>", "", self.read("m.html")).replace("</body>", script + "</body>")
        self.file("phone.html", text)
        for width in (390, 1280):
            # A window of Chromium is 500 pixels wide at least, so the page stands in a frame.
            self.file("frame.html", f'<iframe id="page" width="{width}" height="800" style="border: 0" '
                      'src="phone.html"></iframe><script>' "page.onload = () => document.title = "
                      "page.contentDocument.title</script>")
            found = browser("--allow-file-access-from-files", "--window-size=1400,900", "--virtual-time-budget=20000",
                            "--dump-dom", (pathlib.Path.cwd() / "frame.html").as_uri())
            title = html.unescape(re.search("<title>(.*)</title>", found)[1]).split()
            self.assertEqual((int(title[0]), len(title)), (width, 2))


class Picture(unittest.TestCase):
    """The pictures of a week and of a month that the pages show."""

    SHOWN = (("week", 990, "README.md", "docs/"), ("month", 1100, "docs/RULES.md", ""))

    def size(self, path):
        """The width and the height of a PNG."""
        data = path.read_bytes()
        self.assertEqual(data[:8], b"\x89PNG\r\n\x1a\n")
        self.assertLess(len(data), 150_000)
        return struct.unpack(">II", data[16:24])

    def test_they_are_shown(self):
        for name, width, shown_on, folder in self.SHOWN:
            self.assertIn(f"]({folder}pictures/{name}.png)", (TOP / shown_on).read_text(encoding="utf-8"))
            self.assertEqual(self.size(TOP / f"docs/pictures/{name}.png")[0], width)

    @unittest.skipUnless(BROWSER and optimize, "Chromium or SciPy isn't installed")
    def test_they_can_be_made_again(self):
        with tempfile.TemporaryDirectory() as folder:
            subprocess.run([sys.executable, str(TOP / "docs/pictures.py"), folder], check=True, timeout=300)
            for name, width, _, _ in self.SHOWN:
                found = self.size(pathlib.Path(folder) / f"{name}.png")
                self.assertEqual(found[0], width)
                # Letters differ between machines.
                self.assertLess(abs(found[1] - self.size(TOP / f"docs/pictures/{name}.png")[1]), 200)


if __name__ == "__main__":
    unittest.main()
