"""The linear assignment problem, solved with proof: best assignments of rows to columns, with duals that prove them.

Three calls serve most:

    nushbaret.linear_sum_assignment(costs)      SciPy's call, with its results: rows and columns
    nushbaret.solve(costs)                      a result: columns, exact cost, duals, other plans
    nushbaret.solve_pairs({"Ada": {"early": 4, "late": 1}, "Ben": {"early": 2}})      by names

`solve_sparse` takes listed pairs, and `solve_batch` and `linear_sum_assignment_batch` many matrices. With
`unmatched_cost` rows and columns may be left out. An `Assigner` follows changes. `assign_counts` plans where rows and
columns count several times, and `plan_roster` where there are rules, such as of rest, weeks and weekends; for it SciPy
finds, and a check in whole numbers proves. `k_best` yields plans from the best on, and `bottleneck` makes the worst
pair as good as possible. `check` and `compare` judge plans from elsewhere.

Plans are best for the costs as given, of any size. Nushbaret's proved library solves all costs that are up to 10**12
multiples of one unit, and matrices of doubles unless plans nearly tie, and proves the plan; for any others it solves
rounded ones, level by level. What this package adds is tested, not proved: how costs are read, levels, dummies where
some stay out, and the order of plans.
"""
import importlib
from typing import TYPE_CHECKING, Any, List

if TYPE_CHECKING:
    from .api.assigner import Assigner
    from .api.batch import linear_sum_assignment_batch, solve_batch
    from .api.bottleneck import bottleneck
    from .api.check import Comparison, check, compare
    from .api.counts import CountsInfeasible, CountsResult, assign_counts
    from .api.infeasible import Infeasible, Shortage
    from .api.pairs import solve_pairs
    from .api.plans import k_best
    from .api.results import Plan, Result, Verdict
    from .api.rosters import RosterPlan, plan_roster
    from .api.solve import linear_sum_assignment, solve, solve_sparse
    from .costs.limits import GREATEST_COST, MOST_PERSONS
    from .lap.library import VERSION as __version__, LibraryNotFound

__all__ = ["GREATEST_COST", "MOST_PERSONS", "Assigner", "Comparison", "CountsInfeasible", "CountsResult", "Infeasible",
           "LibraryNotFound", "Plan", "Result", "RosterPlan", "Shortage", "Verdict", "__version__", "assign_counts",
           "bottleneck", "check", "compare", "k_best", "linear_sum_assignment", "linear_sum_assignment_batch",
           "plan_roster", "solve", "solve_batch", "solve_pairs", "solve_sparse"]

# The module of each name. It is loaded when the name is first used, so that the command can set what Ctrl-C does before
# that.
_MODULES = {
    "api.assigner": ("Assigner",),
    "api.batch": ("linear_sum_assignment", "linear_sum_assignment_batch", "solve_batch"),
    "api.bottleneck": ("bottleneck",),
    "api.check": ("Comparison", "check", "compare"),
    "api.counts": ("CountsInfeasible", "CountsResult", "assign_counts"),
    "api.infeasible": ("Infeasible", "Shortage"),
    "api.pairs": ("solve_pairs",),
    "api.plans": ("k_best",),
    "api.results": ("Plan", "Result", "Verdict"),
    "api.rosters": ("RosterPlan", "plan_roster"),
    "api.solve": ("solve", "solve_sparse"),
    "costs.limits": ("GREATEST_COST", "MOST_PERSONS"),
    "lap.library": ("VERSION", "LibraryNotFound"),
}


def __getattr__(name: str) -> Any:
    held = "VERSION" if name == "__version__" else name
    for module, names in _MODULES.items():
        if held in names and name != "VERSION":
            globals()[name] = getattr(importlib.import_module(f".{module}", __name__), held)
            return globals()[name]
    raise AttributeError(f"module {__name__!r} has no attribute {name!r}")


def __dir__() -> List[str]:
    return sorted(__all__)
