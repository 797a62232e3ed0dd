"""A user's program that uses each public name; mypy --strict passes it, and it runs."""
import importlib.util
from decimal import Decimal
from fractions import Fraction
from typing import Dict, List, Tuple, Union

import nushbaret

Cost = Union[int, Decimal, Fraction]
COSTS = [[4, 1, 3], [2, 0, 5], [3, 2, 2]]


def plans() -> List[Cost]:
    """Costs of plans by each call for one problem."""
    result: nushbaret.Result = nushbaret.solve(COSTS, missing="forbid", timeout=60)
    listed = nushbaret.solve_sparse(2, 2, rows=[0, 0, 1], columns=[0, 1, 0], costs=[4, 1, 2])
    named = nushbaret.solve_pairs({"Ada": {"early": 4, "late": 1}, "Ben": {"early": 2}}, unmatched_cost=9)
    other = result.next_best()
    costs: List[Cost] = [result.cost, listed.cost, named.cost, nushbaret.bottleneck(COSTS).cost]
    if isinstance(other, nushbaret.Plan):
        costs.append(other.cost)
    plan: nushbaret.Plan
    for plan in nushbaret.k_best(COSTS, 2):
        costs.append(plan.cost)
    return costs


def pairs() -> Tuple[List[int], List[int]]:
    """Rows and columns, as SciPy's call returns them."""
    rows, columns = nushbaret.linear_sum_assignment(COSTS, maximize=False, unmatched_cost=9.5)
    many: Tuple[List[List[int]], List[List[int]]] = nushbaret.linear_sum_assignment_batch([COSTS, COSTS], workers=2)
    results: List[nushbaret.Result] = nushbaret.solve_batch([COSTS], missing="refuse")
    return rows + many[0][0], columns + list(results[0].columns)


def changes() -> str:
    """A problem whose rows change."""
    assigner = nushbaret.Assigner(COSTS)
    assigner.update(0, [1, 1, 1])
    assigner.update_column(0, [2, 2, 2])
    assigner.remove_row(assigner.add_row([0, 0, 0]))
    return f"{assigner}: {assigner.result.cost}"


def judged() -> Tuple[bool, Cost]:
    """What is said of plans from elsewhere."""
    verdict: nushbaret.Verdict = nushbaret.check(COSTS, columns=[1, 0, 2], prices=[0, 2, 0])
    compared: nushbaret.Comparison = nushbaret.compare(COSTS, columns=[0, 1, 2])
    worse: Cost = compared.worse
    return bool(verdict), worse


def short() -> List[str]:
    """What is said where there is no plan."""
    found: List[str] = []
    try:
        nushbaret.solve([[1, None], [2, None]])
    except nushbaret.Infeasible as fault:
        found.append(str(fault))
    try:
        nushbaret.assign_counts(COSTS, (0, 1), 2)
    except nushbaret.CountsInfeasible as fault:
        shortage: nushbaret.Shortage = fault.shortages[0]
        found.append(f"{shortage.wanted} of {shortage.had}")
    except nushbaret.LibraryNotFound as fault:
        found.append(str(fault))
    return found


def counts() -> Dict[str, Cost]:
    """Plans by counts, and with rules."""
    week: nushbaret.CountsResult = nushbaret.assign_counts(COSTS, (1, 2), 1)
    found: Dict[str, Cost] = {"week": week.cost}
    if importlib.util.find_spec("scipy"):
        roster: nushbaret.RosterPlan = nushbaret.plan_roster({("Ada", "early"): 4, ("Ben", "early"): 2},
                                                             {"early": "2027-03-01"})
        if roster.cost is not None:
            found["roster"] = roster.cost
    return found


def main() -> None:
    limits = nushbaret.GREATEST_COST, nushbaret.MOST_PERSONS, nushbaret.__version__
    print(plans(), pairs(), changes(), judged(), short(), counts(), limits, sep="\n")


if __name__ == "__main__":
    main()
