"""Runs the tests whose answers come by the extension once more without it. With --is-here it only says whether it is
here, by its status."""
import sys
import unittest

NAMES = ("api.test_arguments", "api.test_assigner", "api.test_forms", "api.test_refusals", "api.test_results",
         "api.test_scipys_errors", "api.test_scipys_own", "api.test_solving", "costs.test_arrays", "costs.test_floats",
         "costs.test_numpy", "lap.test_levels", "lap.test_rectangles", "lap.test_small", "test_pages")

# A process that a test starts runs this file too, and has no extension either.
if sys.argv[1:] != ["--is-here"]:
    sys.modules["nushbaret._extension"] = None

if __name__ == "__main__":
    if sys.argv[1:] == ["--is-here"]:
        from ways import extension
        sys.exit(0 if extension() else 1)
    unittest.main(None, argv=[sys.argv[0], *NAMES])
