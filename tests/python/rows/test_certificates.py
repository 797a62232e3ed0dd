"""Certificates: changed ones, held against a check in fractions, the form in C, and files."""
import ctypes
import itertools
import pathlib
import random
import tempfile
import unittest
from unittest import mock

from nushbaret.lap import library
from nushbaret.rows import certificate_check, certificates as files
from nushbaret.rows.certificate_check import MOST_DEPTH, shows, shows_here
from nushbaret.rows.model import Certificate, Leaf, Limits, Split, flat
import row_models as models

CHANGES = 500
# Of each two of three variables at most one, and each earns 1: no plan earns 2.
TRIANGLE = Certificate(3, (Limits(None, ((0, 1), (1, 1)), 1), Limits(None, ((1, 1), (2, 1)), 1),
                           Limits(None, ((0, 1), (2, 1)), 1), Limits(None, ((0, -1), (1, -1), (2, -1)), -2)), (0, 1, 0),
                       (0, 4, 0, -1, 1, -1, 2, -1, 3, -2))
# 2 x + 2 y = 1, by the sum of x and y.
EVEN = Certificate(2, (Limits(1, ((0, 2), (1, 2)), 1),), None,
                   flat(Split(((0, 1), (1, 1)), 0, Leaf(((0, 1), (1, -2))), Leaf(((0, -1), (1, 2))))))
# x + y >= 1 and 9 <= 5 x + 3 y <= 4: no plan meets both, and the plan 1 0 isn't the cheapest that meets the first.
NO_COSTS = Certificate(2, (Limits(1, ((0, 1), (1, 1)), None), Limits(9, ((0, 5), (1, 3)), 4)), (1, 0),
                       (0, 2, 1, 1, 1, -1))
TEXT = ("nushbaret rows 1\nn 3\nstarts 0 2 4 6 9\nvariables 0 1 1 2 0 2 0 1 2\ncoefficients 1 1 1 1 1 1 -1 -1 "
        "-1\nleast - - - -\nmost 1 1 1 -2\nplan 0 1 0\ntree 0 4 0 -1 1 -1 2 -1 3 -2\n")


def grown(draw, depth):
    """A drawn tree, with rows and variables of all kinds."""
    pairs = tuple((draw.randint(0, 3), draw.randint(-2, 2)) for _ in range(draw.randint(0, 3)))
    if depth == 0 or draw.random() < 0.3:
        return Leaf(pairs)
    return Split(tuple((min(variable, 2), factor) for variable, factor in pairs), draw.randint(-2, 2),
                 grown(draw, depth - 1), grown(draw, depth - 1))


class Shown(unittest.TestCase):
    def agree(self, certificate):
        """What all checks say; where they say yes, a search of all plans agrees."""
        is_shown = models.shows(certificate)
        self.assertEqual((shows(certificate), shows_here(certificate)), (is_shown, is_shown))
        if is_shown:
            plans = itertools.product((0, 1), repeat=certificate.variables)
            self.assertFalse(any(models.meets(plan, certificate.rows if certificate.plan is None else
                                              (*certificate.rows[:-1], certificate.rows[-1]._replace(least=None)))
                                 for plan in plans))
        return is_shown

    def test_examples(self):
        self.assertTrue(self.agree(TRIANGLE) and self.agree(EVEN))
        self.assertFalse(self.agree(TRIANGLE._replace(plan=(0, 1, 1))) or self.agree(TRIANGLE._replace(plan=(0, 1))))
        for tree in ((), EVEN.tree[:-1], EVEN.tree + (0,), EVEN.tree + EVEN.tree, (2, 0), (0, -1), (1, 0, 0, 0, 0),
                     (1, 1, 0, 2, 1, 0, 0, 0, 0)):
            self.assertFalse(self.agree(EVEN._replace(tree=tree)))

    def test_cost_row(self):
        """With a plan the last row bounds the costs from above alone; without one it is a row like the others."""
        self.assertTrue(self.agree(NO_COSTS._replace(plan=None)))
        unbounded = NO_COSTS._replace(rows=(NO_COSTS.rows[0], NO_COSTS.rows[-1]._replace(most=None)))
        from_below = TRIANGLE._replace(rows=(*TRIANGLE.rows[:-1], TRIANGLE.rows[-1]._replace(least=-3)))
        for certificate in (NO_COSTS, unbounded, from_below, NO_COSTS._replace(rows=())):
            self.assertFalse(shows_here(certificate) or models.shows(certificate))
            with self.assertRaisesRegex(files.CertificateFault, "with a plan the last row bounds its cost: it needs an "
                                                                "upper bound, and no lower one"):
                files.certificate_of(files.lists_from(files.certificate_text(certificate)))

    def test_drawn_trees(self):
        draw, counts = random.Random(1), [0, 0]
        rows = (Limits(1, ((0, 1), (1, 1)), 1), Limits(None, ((0, 1), (1, 1)), 0), Limits(2, ((0, 1), (2, 1)), None))
        for _ in range(2000):
            counts[self.agree(Certificate(3, rows, None, flat(grown(draw, 3))))] += 1
        self.assertGreater(min(counts), 5)

    @unittest.skipUnless(models.scipy, "SciPy isn't there")
    def test_changes(self):
        draw, counts, seed = random.Random(2), [0, 0], 0
        while sum(counts) < CHANGES:
            seed += 1
            found = models.found_here(models.drawn_model(random.Random(seed)))
            self.assertTrue(self.agree(found.certificate))
            for _ in range(10):
                certificate = models.changed(draw, found.certificate)
                if certificate is not None:
                    counts[self.agree(certificate)] += 1
        self.assertGreater(min(counts), CHANGES // 10)

    def test_depth(self):
        for depth in (MOST_DEPTH, MOST_DEPTH + 1):
            numbers = (1, 1, 0, 0, 1) * depth + (0, 1, 0, 1) * (depth + 1)
            certificate = Certificate(1, (Limits(1, (), None),), None, numbers)
            self.assertEqual((shows(certificate), shows_here(certificate)), (depth == MOST_DEPTH,) * 2)

    def test_great_numbers(self):
        """Beyond what the library takes the check here answers."""
        for size in (2**40, 2**70):
            self.assertTrue(self.agree(Certificate(1, (Limits(size, ((0, size - 1),), None),), None, (0, 1, 0, 1))))
            self.assertFalse(self.agree(Certificate(1, (Limits(size, ((0, size),), None),), None, (0, 1, 0, size))))


def call_here(n, *arguments):
    """Takes the lists as the library does, and answers by the check in fractions."""
    kinds = (ctypes.c_size_t, ctypes.c_uint32, ctypes.c_int64, ctypes.c_int64, ctypes.c_int64, ctypes.c_uint8,
             ctypes.c_int64)
    starts, variables, factors, least, most, plan, tree = (list((kind * count).from_address(place)) if count else []
                                                           for kind, place, count in zip(kinds, arguments[0:14:2],
                                                                                         arguments[1:14:2]))
    bounds = [[None if value == none else value for value in values]
              for values, none in ((least, -2**63), (most, 2**63 - 1))]
    return int(not models.shows(files.certificate_of(files.Lists(n, starts, variables, factors, *bounds, plan, tree))))


class Library(unittest.TestCase):
    """The lists that the library's call takes."""

    def test_lists(self):
        with mock.patch.object(certificate_check, "_rows_call", return_value=call_here):
            self.assertTrue(shows(TRIANGLE) and shows(EVEN) and certificate_check.shown_by_library(TRIANGLE))
            self.assertFalse(certificate_check.shown_by_library(TRIANGLE._replace(plan=(1, 0, 1)))
                             or shows(EVEN._replace(tree=(0, 0))))
            self.assertIs(certificate_check.shown_by_library(EVEN._replace(tree=(0, 1, 0, 2**63))), None)
            self.assertIs(certificate_check.shown_by_library(EVEN._replace(rows=(Limits(-2**63, (), None),))), None)

    def test_undecided(self):
        for code, shown in ((2, None), (13, None), (0, True), (1, False), (4, False), (14, False)):
            with mock.patch.object(certificate_check, "_rows_call", return_value=lambda *_: code):
                self.assertIs(certificate_check.shown_by_library(EVEN), shown)
        with mock.patch.object(certificate_check, "_rows_call", return_value=None):
            self.assertIs(certificate_check.shown_by_library(EVEN), None)

    def test_other_versions(self):
        """A library of another version isn't called."""
        self.assertIs(certificate_check.shown_by_library(EVEN), True)
        with mock.patch.multiple(library, VERSION="0.0.0", _calls={}):
            self.assertIs(certificate_check.shown_by_library(EVEN), None)
            self.assertTrue(shows(EVEN))


class Files(unittest.TestCase):
    def test_text(self):
        self.assertEqual(files.certificate_text(TRIANGLE), TEXT)
        for certificate in (TRIANGLE, EVEN, Certificate(0, (), None, (0, 0))):
            self.assertEqual(files.certificate_of(files.lists_from(files.certificate_text(certificate))), certificate)
        self.assertEqual(files.certificate_of(files.lists_from(TEXT.replace("\n", "\r\n"))), TRIANGLE)

    def test_files(self):
        with tempfile.TemporaryDirectory() as place:
            path = pathlib.Path(place) / "best.txt"
            files.write_certificate(path, TRIANGLE)
            self.assertEqual(path.read_bytes(), TEXT.encode())
            self.assertEqual(files.certificate_of(files.read_lists(path)), TRIANGLE)
            path.write_bytes(b"\xff")
            with self.assertRaises(files.CertificateFault):
                files.read_lists(path)

    def test_work_of_long_files(self):
        """Numbers are read many at a time, whatever parts them: calls are counted."""
        for blank, number in ((" ", "1"), ("\t", "1"), (" ", "-123456789")):
            tree = blank.join([number] * 200_000)
            text = TEXT[:TEXT.index("tree")] + f"tree{blank}{tree}\n"
            with mock.patch.object(files, "_numbers", wraps=files._numbers) as many:
                with mock.patch.object(files, "_is_number", wraps=files._is_number) as one:
                    lists = files.lists_from(text)
            self.assertEqual((len(lists.tree), set(lists.tree)), (200_000, {int(number)}))
            self.assertLess(many.call_count + one.call_count, 100)
        with self.assertRaisesRegex(files.CertificateFault, "line 9: '2-3' is no whole number of 64 bits"):
            files.lists_from(TEXT[:TEXT.index("tree")] + "tree " + "1 " * 100_000 + "2-3" + " 1" * 9 + "\n")

    def test_refusals(self):
        lines = TEXT.split("\n")
        for line, instead, message in ((0, "nushbaret rows 2", "line 1: it isn't 'nushbaret rows 1'"),
                                       (1, "n", "line 2: one number is needed"),
                                       (1, "n -", "line 2: '-' is no whole number of 64 bits"),
                                       (2, "starts 0 2 4 6 8", "the lists of rows don't fit one another"),
                                       (2, "starts 1 2 4 6 9", "the lists of rows don't fit one another"),
                                       (2, "starts 0 4 2 6 9", "the lists of rows don't fit one another"),
                                       (3, "variables 0 1 1 2 0 2 0 1 3", "a row names a variable that isn't there"),
                                       (4, "coefficients 1 1 1 1 1 1 -1 -1 9223372036854775808",
                                        "line 5: '9223372036854775808' is no whole number of 64 bits"),
                                       (5, "most - - - -", "line 6: it doesn't begin with 'least'"),
                                       (6, "most 1 1 1 x", "line 7: 'x' is no whole number of 64 bits"),
                                       (7, "plan 0 1", "the plan isn't 3 times 0 or 1"),
                                       (7, "plan 0 1 2", "the plan isn't 3 times 0 or 1"),
                                       (9, "more", "there must be 9 lines")):
            with self.subTest(instead=instead), self.assertRaises(files.CertificateFault) as caught:
                files.certificate_of(files.lists_from("\n".join(lines[:line] + [instead] + lines[line + 1:])))
            self.assertEqual(str(caught.exception), message)
        with self.assertRaisesRegex(files.CertificateFault, "a number of the list tree is beyond 64 bits"):
            files.certificate_text(EVEN._replace(tree=(0, 1, 0, 2**63)))


if __name__ == "__main__":
    unittest.main()
