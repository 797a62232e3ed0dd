"""The sessions of docs/PYTHON.md, and the examples of the docstrings."""
import doctest
import inspect
import pathlib
import pydoc
import unittest

import nushbaret

PAGE = pathlib.Path(__file__).resolve().parent.parent.parent / "docs" / "PYTHON.md"


def public():
    """The public functions and classes by their names, with the public methods of the classes."""
    for name in nushbaret.__all__:
        value = getattr(nushbaret, name)
        if callable(value):
            yield name, value
        if inspect.isclass(value) and not issubclass(value, (Exception, tuple)):
            yield from ((f"{name}.{method}", getattr(value, method)) for method in dir(value)
                        if inspect.isfunction(getattr(value, method)) and method[0] != "_")


class Docstrings(unittest.TestCase):
    def test_examples_run(self):
        finder, runner = doctest.DocTestFinder(recurse=False), doctest.DocTestRunner(verbose=False)
        for name, value in public():
            tests = finder.find(value, name, module=False, globs={})
            self.assertTrue(tests and tests[0].examples, f"{name} has no example")
            self.assertRegex(value.__doc__, r"\n *Examples\n *--------\n", name)
            for test in tests:
                runner.run(test)
        self.assertEqual(runner.failures, 0)

    def test_what_a_user_sees_first(self):
        """dir has the public names alone, and help begins with three calls."""
        self.assertEqual(dir(nushbaret), sorted(nushbaret.__all__))
        first = pydoc.plain(pydoc.render_doc(nushbaret)).partition("PACKAGE CONTENTS")[0]
        for name in ("linear_sum_assignment(costs)", "solve(costs)", "solve_pairs("):
            self.assertIn(f"nushbaret.{name}", "\n".join(first.splitlines()[:14]))

    def test_properties_have_texts(self):
        for name, value in vars(nushbaret.Result).items():
            if name[0] != "_" and not callable(value):
                self.assertTrue(value.__doc__, name)


def load_tests(loader, tests, pattern):
    tests.addTests(doctest.DocFileSuite(str(PAGE), module_relative=False))
    return tests
