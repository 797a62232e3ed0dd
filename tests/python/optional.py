"""The packages that the tests use where they are installed; None where one isn't."""
import importlib


def _module(name):
    try:
        return importlib.import_module(name)
    except ImportError:
        return None


np = _module("numpy")
pd = _module("pandas")
optimize = _module("scipy.optimize")
sparse = _module("scipy.sparse")
pydata = _module("sparse")
openpyxl = _module("openpyxl")
