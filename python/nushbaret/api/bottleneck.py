"""Plans whose worst pair is as good as possible."""
from array import array
from typing import Any, Optional

from ..costs import source as sources
from ..costs.kinds import plain
from ..costs.limits import GREATEST_COST, Numbers
from ..costs.problem import AssignmentProblem, costs_of_pairs, in_whole_numbers, no_worse
from ..costs.reading import Manner, manner
from ..costs.source import Source
from ..lap import direct, library, proved
from ..lap.matching import most_assigned
from ..lap.solving import Outcome, solved, worst_needed
from .results import Result
from .shown import Matrix, Missing
from .solve import solve_problem
from .solved import result_parts

# Where at least this part of all pairs may be chosen, the search over all of them is faster than over the listed ones.
_MANY = 1 / 32
# How much dearer a pair that may not be chosen is made, in spreads of the costs that may.
_AWAY = 8


def bottleneck(costs: Matrix, maximize: bool = False, decimals: Optional[int] = None, partial: bool = False,
               missing: Missing = "refuse", timeout: Optional[float] = None) -> Result:
    """A plan whose dearest pair is as cheap as possible, and among these one of the best sum.

    Parameters
    ----------
    costs : matrix
        As in `solve`.
    maximize : bool, optional
        Whether to find great costs: then the least pair is as great as possible.
    decimals, partial, missing, timeout
        As in `solve`.

    Returns
    -------
    Result
        Of the problem that forbids each worse pair. The library also proves that each plan has a pair as bad as its
        worst one: some rows have too few columns at better costs.

    Raises
    ------
    Infeasible, ValueError, TypeError, TimeoutError, MemoryError, LibraryNotFound
        As in `solve`.

    Notes
    -----
    `nushbaret_bottleneck` finds the worst cost that is needed; the pairs up to it are solved then.

    Examples
    --------
    >>> import nushbaret
    >>> nushbaret.bottleneck([[0, 5], [5, 9]]).pairs
    [(0, 1), (1, 0)]
    """
    if decimals is None and missing == "refuse" and timeout is None:
        found = direct.found(costs, bool(maximize), question=direct.WORST)
        if found:
            worst = found.shape.costs.ratio((min if maximize else max)(found.costs))
            return Result(Source(costs, None, None, None, Manner(bool(maximize)), worst=worst), found)
    source = Source(sources.lasting(costs), None, None, None, manner(maximize, decimals, missing))
    with library.limited(timeout):
        return _bottleneck(source, partial)


def _bottleneck(source: Source, partial: bool) -> Result:
    problem = source.read()
    least = min(problem.n_rows, problem.n_columns)
    assigned = least if problem.persons is None else most_assigned(problem)
    if not assigned or assigned < least and not partial:
        return solve_problem(problem, source, None, partial)
    # Doubles are in the order of the decimals that they print as.
    return _best_within(problem if problem.numpy else in_whole_numbers(problem), assigned, source)


def _best_within(pairs: AssignmentProblem, assigned: int, source: Source) -> Result:
    """The best plan of so many pairs among those whose worst pair is as good as possible."""
    bound, objects = worst_needed(pairs, assigned)
    answer = _of_one_cost(pairs, bound, objects, assigned) or _over_all_pairs(pairs, bound, assigned)
    if answer is None:
        answer = solved(no_worse(pairs, bound), None, assigned)
    if isinstance(answer, proved.HallSet):
        raise RuntimeError(f"{bound} was found to be the worst cost that is needed, and the library says otherwise")
    return Result(source._replace(worst=pairs.costs.ratio(bound)), result_parts(pairs, answer))


def _of_one_cost(pairs: AssignmentProblem, bound: Any, objects: Numbers, assigned: int) -> Optional[Outcome]:
    """The plan of these objects where no pair is better than the bound: each plan within it costs the same, which
    prices of 0 prove. Else None."""
    numbers = pairs.costs.of_64_bits()
    n, m = sorted((pairs.n_rows, pairs.n_columns))
    if numbers is None or assigned < n:
        return None
    of_all = ((numbers.max if pairs.maximize else numbers.min)() if pairs.numpy
              else (max if pairs.maximize else min)(plain(numbers)))
    return proved.Assignment(n, m, n * bound, objects, array("q", bytes(8 * m))) if bound == of_all else None


def _over_all_pairs(pairs: AssignmentProblem, bound: Any, assigned: int) -> Optional[Outcome]:
    """The best plan within a bound where many pairs of a dense problem are, by the search over all pairs: the worse
    ones are made so dear that a plan seldom has one. Then it is as good, at the same prices, among the pairs within the
    bound. None where it has one, or few pairs are."""
    numpy, numbers = pairs.numpy, pairs.costs.of_64_bits()
    if not numpy or numbers is None or pairs.persons is not None or assigned < min(pairs.n_rows, pairs.n_columns):
        return None
    worse = numbers < bound if pairs.maximize else numbers > bound
    if numpy.count_nonzero(worse) > len(numbers) * (1 - _MANY):
        return None
    least, greatest = int(numbers.min()), int(numbers.max())
    away = _AWAY * (bound - greatest - 1 if pairs.maximize else bound - least + 1)
    if max(greatest + away, -least - away) > GREATEST_COST:
        return None
    dearer = pairs._replace(costs=pairs.costs.with_numbers(numbers + worse * away))
    answer = solved(dearer)
    if isinstance(answer, proved.HallSet) or _has_worse(pairs, answer, bound):
        return None
    return answer


def _has_worse(pairs: AssignmentProblem, answer: proved.Assignment, bound: Any) -> bool:
    """Whether a pair of a plan is worse than a bound."""
    costs = costs_of_pairs(pairs, *proved.pairs_of(pairs, answer))
    return bool(min(costs) < bound if pairs.maximize else max(costs) > bound)
