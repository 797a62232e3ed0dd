"""The picture of measured times: bars as long as the logarithm of their seconds, with their numbers."""
import importlib.util
import math
import re
import unittest
from xml.etree import ElementTree

from commands import TOP

ROWS = {"program, rounds": (0.5, None), "library": (None, 0.02), "SciPy": (2.0, 0.2)}


def picture():
    spec = importlib.util.spec_from_file_location("picture", TOP / "bench" / "picture.py")
    module = importlib.util.module_from_spec(spec)
    spec.loader.exec_module(module)
    return module


class Bars(unittest.TestCase):
    def test_lengths_and_numbers(self):
        module = picture()
        drawn = module.picture("Times", [("n = 1 < 2", ROWS), ("other", {"SciPy": (0.03, None)})], "foot & all")
        root = ElementTree.fromstring(drawn)
        tag = "{http://www.w3.org/2000/svg}"
        bars = [(rect.get("fill"), float(rect.get("width"))) for rect in list(root.iter(tag + "rect"))[1:]]
        wanted = [("none", 0.5), (module.OWN, 0.02), (module.OTHER, 0.2), ("none", 2.0), ("none", 0.03)]
        self.assertEqual(bars, [(colour, round(module.WIDTH * math.log10(seconds / 0.01) / 3, 1))
                                for colour, seconds in wanted])
        texts = [text.text for text in root.iter(tag + "text")]
        for text in ("Times", "n = 1 < 2", "foot & all", "0.5", "(0.02)", "2 (0.2)", "0.03", "0.01", "0.1", "1", "10"):
            self.assertIn(text, texts)

    def test_the_one_that_is_shown(self):
        text = (TOP / "bench" / "peers.svg").read_text(encoding="utf-8")
        ElementTree.fromstring(text)
        self.assertEqual(len(re.findall('class="title"', text)), 6)
        self.assertNotRegex(text, "<script|href|@import|url\\(")


if __name__ == "__main__":
    unittest.main()
