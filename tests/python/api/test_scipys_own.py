"""SciPy's own tests of linear_sum_assignment, as SciPy's package brings them, with this package's call put in its
place. Where pytest isn't there, the two of its words that they use are stood in for."""
import contextlib
import re
import sys
import types
import unittest

import nushbaret

try:
    import scipy.optimize
except ImportError:
    scipy = None


class _Marks:
    @staticmethod
    def parametrize(names, cases):
        def marked(test):
            # Taken when the test is run: two modules share one list, which can be gone through once.
            test.cases = (case if "," in names else (case,) for case in cases)
            return test
        return marked

    def __getattr__(self, name):
        return lambda *given, **named: lambda test: test


@contextlib.contextmanager
def _raises(kind, match=""):
    try:
        yield
    except kind as fault:
        if not re.search(match, str(fault)):
            raise AssertionError(f"{fault} says nothing of {match}") from fault
        return
    raise AssertionError(f"no {kind.__name__}")


def _stand_in():
    pytest = types.ModuleType("pytest")
    pytest.raises, pytest.mark = _raises, _Marks()
    pytest.param = lambda *values, **named: values
    return pytest


def _tests():
    """SciPy's module of tests, over this package's call."""
    theirs = sys.modules.get("pytest"), scipy.optimize.linear_sum_assignment
    sys.modules["pytest"] = _stand_in()
    scipy.optimize.linear_sum_assignment = nushbaret.linear_sum_assignment
    try:
        from scipy.optimize.tests import test_linear_assignment
        return test_linear_assignment
    finally:
        scipy.optimize.linear_sum_assignment = theirs[1]
        if theirs[0] is None:
            del sys.modules["pytest"]
        else:
            sys.modules["pytest"] = theirs[0]


@unittest.skipUnless(scipy, "SciPy isn't there")
class ScipysOwn(unittest.TestCase):
    def test_all(self):
        try:
            module = _tests()
        except ImportError as fault:
            self.skipTest(f"SciPy came without its tests: {fault}")
        self.assertIs(module.linear_sum_assignment, nushbaret.linear_sum_assignment)
        run = 0
        for name, test in sorted(vars(module).items()):
            if not name.startswith("test_") or not callable(test):
                continue
            for case in getattr(test, "cases", [()]):
                with self.subTest(name, case=case):
                    test(*case)
                    run += 1
        self.assertGreater(run, 20)


if __name__ == "__main__":
    unittest.main()
