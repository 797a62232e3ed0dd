"""The shorter way to a plan, by the extension, and the longer one, through Python."""
from unittest import mock

from nushbaret.api import solve
from nushbaret.lap import direct, library

# SciPy's call by the longer way.
longer_call = solve.linear_sum_assignment


def extension():
    """The extension module, if it is here for this Python and the library has what it calls; else None."""
    try:
        for export in direct.EXPORTS:
            library.address(export)
    except AttributeError:
        return None
    return direct.extension()


def by_the_longer_way():
    """Within this block results are found by the longer way."""
    return mock.patch.object(direct, "extension", return_value=None)


def is_short(costs, maximize):
    """Whether the shorter way finds a result."""
    return direct.found(costs, maximize) is not None


def knows_plans(costs, maximize, count):
    """Whether the shorter way finds so many first plans, or all."""
    return direct.first_plans(costs, maximize, count) is not None
