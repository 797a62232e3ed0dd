"""Small trees that show that none of a person's months costs so little. Needs NumPy and SciPy."""
import importlib
import math
import time
from fractions import Fraction
from typing import Any, Dict, Iterator, List, NamedTuple, Optional, Sequence, Tuple

from .model import Leaf, Limits, Part, Proof, Split, Terms
from .persons import matrix_of
from .simplex import Tableau, solved as solved_from, tableau_of

np: Any = importlib.import_module("numpy")
sparse: Any = importlib.import_module("scipy.sparse")
optimize: Any = importlib.import_module("scipy.optimize")

# Multipliers are tried as whole multiples of one in so many.
DENOMINATORS = (1, 2, 3, 4, 6, 8, 12, 16, 24, 32, 48, 64, 120, 1000, 10_000, 100_000, 1_000_000)
_MOST = 2.0**62
# And of a common denominator of theirs, as far as it and theirs are no greater.
_MOST_DENOMINATOR, _MOST_COMMON = 1000, 10**9
# So many of the longest sums, and so many of those farthest from whole numbers, are tried for a split.
_CANDIDATES = 3
# What counts as a gain at least.
_LITTLE = 1e-6
# Relaxations with a tableau of so few entries are solved by it.
_MOST_ENTRIES = 60_000


class Open(Exception):
    """A tree can't be finished: the time or the leaves are used up, it is too deep for Python, or there is a plan."""


class _Bound(NamedTuple):
    """A bound, and the number of the row that has it: -1 for a 0 or 1 that no row says."""

    bound: int
    row: int


class _SearchNode(NamedTuple):
    """Bounds of the rows and of the variables at a node, and how many splits are above it."""

    low: Tuple[Optional[_Bound], ...]
    high: Tuple[Optional[_Bound], ...]
    least: Tuple[_Bound, ...]
    most: Tuple[_Bound, ...]
    depth: int


class Solved(NamedTuple):
    """The relaxation's value (infinite where it has no point), its point, multipliers of the rows, and the tableau
    where it is small."""

    value: float
    point: Any
    multipliers: Any
    tableau: Optional[Tableau] = None


class _Candidate(NamedTuple):
    """A sum to split on: that of a row, or of one variable; the whole number below it, and how far above that it is."""

    row: Optional[int]
    variable: int
    most: int
    above: float

    def key(self) -> int:
        """The row, or the variable as a number below 0."""
        return -1 - self.variable if self.row is None else self.row


class Trees:
    """Trees over a part's rows; several may be made, for different costs. `fixing` has the places of rows that leave
    one choice for each of their variables: of those with factor 1 none is taken, and each with factor -1 is."""

    def __init__(self, part: Part, deadline: float, fixing: Sequence[int] = ()):
        self.part = part
        self.deadline = deadline
        self.count = len(part.variables)
        self.matrix = matrix_of(part.rows, self.count)
        self.fixing = set(fixing)
        self.used = self._needed()
        self.both = sparse.vstack([self.matrix[self.used], -self.matrix[self.used]]).tocsr()
        self.whole = self.matrix.astype(np.int64)
        self.far = np.asarray(abs(self.matrix).sum(axis=1)).ravel() if part.rows else np.zeros(0)
        self.sums = [row for row in self.used if len(part.rows[row].terms) > 1
                     and all(abs(factor) == 1 for _, factor in part.rows[row].terms)]
        self._prepare_tableau()
        self.leaves = 0
        # What a step of 1 of a candidate gained in the half below and above, by the candidates' keys.
        self.gains: Dict[int, List[float]] = {}
        # A plan that a tree came upon instead of its end.
        self.plan: Optional[List[int]] = None

    def tree(self, costs: Any, most: Optional[int], most_leaves: int = 2000) -> Proof:
        """A tree that shows that no month costs `most` or less (None: that there is no month), where row number
        `len(rows)` is `cost <= most` and splits' rows follow. Raises `Open` where it isn't found."""
        self.costs, self.most, self.left = np.asarray(costs, dtype=np.int64), most, most_leaves
        self.gains = {}
        root = self._root()
        try:
            return self._grown(root, self._solve(root, self._first_tableau()))
        except RecursionError:
            raise Open from None

    def relaxed(self, costs: Any) -> Solved:
        """The relaxation's value, its point, and multipliers, before any split."""
        self.costs, self.most = np.asarray(costs, dtype=np.int64), 0
        return self._solve(self._root(), self._first_tableau())

    def reached(self, costs: Any, wanted: int, part: float) -> Any:
        """For each variable whether its other value than that of the relaxation's point costs `wanted`, or at least a
        part of the way there from the relaxation's value."""
        solved = self.relaxed(costs)
        reduced = np.abs(self.costs - self.matrix.T @ solved.multipliers)
        return reduced >= part * (wanted - solved.value)

    def _root(self) -> _SearchNode:
        rows = self.part.rows
        least, most = self._fixed()
        return _SearchNode(tuple(None if row.least is None else _Bound(row.least, at) for at, row in enumerate(rows)),
                           tuple(None if row.most is None else _Bound(row.most, at) for at, row in enumerate(rows)),
                           tuple(least), tuple(most), 0)

    def _fixed(self) -> Tuple[List[_Bound], List[_Bound]]:
        """The least and the greatest values of the variables, and the rows that fix them."""
        least, most = [_Bound(0, -1)] * self.count, [_Bound(1, -1)] * self.count
        for row in self.fixing:
            for variable, factor in self.part.rows[row].terms:
                (most if factor > 0 else least)[variable] = _Bound(int(factor < 0), row)
        return least, most

    def _needed(self) -> List[int]:
        """The rows that not every choice of the variables that aren't fixed meets."""
        least, most = ([side.bound for side in sides] for sides in self._fixed())
        return [place for place, row in enumerate(self.part.rows) if not _is_met(row, least, most)]

    def _grown(self, node: _SearchNode, solved: Solved) -> Proof:
        leaf = self._leaf(node, solved)
        if leaf is None and self.dense is not None and solved.value >= self._cut() - _LITTLE:
            # The tableau's multipliers are rounded too much.
            solved = self._solve(node)
            leaf = self._leaf(node, solved)
        if leaf is not None:
            self.leaves += 1
            return leaf
        self.left -= 1
        if self.left < 0 or time.monotonic() > self.deadline or not np.isfinite(solved.value):
            raise Open
        terms, most, halves = self._branch(node, solved)
        below, above = [self._grown(half, result) for half, result in halves]
        return Split(terms, most, below, above)

    def _branch(self, node: _SearchNode, solved: Solved) -> Tuple[Terms, int, List[Tuple[_SearchNode, Solved]]]:
        """The candidate whose halves gain the most, one times the other (Achterberg, Koch and Martin 2005)."""
        best: Optional[Tuple[float, Terms, int, List[Tuple[_SearchNode, Solved]]]] = None
        cut = self._cut()
        for candidate in self._worth_trying(solved, cut):
            halves = self._both(node, candidate, solved, 0.0 if best is None else best[0])
            if halves is None:
                continue
            low, high = sorted(min(result.value, cut) for _, result in halves)
            gain = product((low - solved.value, high - solved.value))
            if best is None or gain > best[0]:
                terms: Terms = ((candidate.variable,
                                 1),) if candidate.row is None else self.part.rows[candidate.row].terms
                best = (gain, terms, candidate.most, halves)
            if low >= cut:
                break
        if best is None:
            self.plan = np.rint(solved.point).astype(int).tolist()
            raise Open
        return best[1:]

    def _cut(self) -> float:
        """What a half needs to cost. Without costs a half that has a point costs 0."""
        return 1.0 if self.most is None else self.most + 1.0

    def _both(self, node: _SearchNode, candidate: _Candidate, solved: Solved, least: float
              ) -> Optional[List[Tuple[_SearchNode, Solved]]]:
        """The halves of a candidate, solved; None where the first shows that the product of their gains is `least` at
        most."""
        cut, value, start = self._cut(), solved.value, solved.tableau or self._first_tableau()
        below, above = self._halves(node, candidate)
        first = self._solve(below, start)
        if product((min(first.value, cut) - value, cut - value)) <= least:
            # The other counts as alike.
            alike = (first.value - value) * (1 - candidate.above) / candidate.above
            self._learn(candidate, value, (first.value, value + alike))
            return None
        second = self._solve(above, start)
        self._learn(candidate, value, (first.value, second.value))
        return [(below, first), (above, second)]

    def _worth_trying(self, solved: Solved, cut: float) -> List[_Candidate]:
        """Some candidates that weren't tried before: the longest sums, those farthest from whole numbers, and a
        variable; and of the others those that gained the most."""
        sums, ones = self._candidates(solved.point)
        new = [one for one in sums if one.row not in self.gains]
        longest = sorted(new, key=lambda one: -len(self.part.rows[one.row or 0].terms))[:_CANDIDATES]
        others = [one for one in new if one not in longest][:_CANDIDATES]
        tried = [one for one in sums + ones if one.key() in self.gains]
        tried.sort(key=lambda one: self._expected(one, solved.value, cut), reverse=True)
        some = longest + others + [one for one in ones if one.key() not in self.gains][:1]
        return some if not tried else tried[:2] + some[:_CANDIDATES]

    def _expected(self, candidate: _Candidate, value: float, cut: float) -> float:
        """The product of what the halves gain, as earlier gains let expect it."""
        below, above = self.gains[candidate.key()]
        return product((min(cut - value, below * candidate.above), min(cut - value, above * (1 - candidate.above))))

    def _learn(self, candidate: _Candidate, value: float, values: Sequence[float]) -> None:
        """Keeps the mean of what a step of 1 of the candidate gained before and gains now."""
        shares = (candidate.above, 1 - candidate.above)
        gains = [min(new - value, 10 * abs(value) + 10) / share for new, share in zip(values, shares)]
        before = self.gains.get(candidate.key(), gains)
        self.gains[candidate.key()] = [(old + new) / 2 for old, new in zip(before, gains)]

    def _candidates(self, point: Any) -> Tuple[List[_Candidate], List[_Candidate]]:
        """The sums of rows, and the variables, that aren't whole, the farthest from whole numbers first."""
        values = (self.matrix[self.sums] @ point).tolist() if self.sums else []
        sums = [_Candidate(row, -1, math.floor(value), value - math.floor(value))
                for row, value in zip(self.sums, values)]
        ones = [_Candidate(None, variable, 0, value) for variable, value in enumerate(point.tolist())]
        both = [[one for one in some if 1e-6 < one.above < 1 - 1e-6] for some in (sums, ones)]
        for some in both:
            some.sort(key=lambda one: abs(one.above - 0.5))
        return both[0], both[1]

    def _halves(self, node: _SearchNode, candidate: _Candidate) -> Tuple[_SearchNode, _SearchNode]:
        row, variable, most, _ = candidate
        side = len(self.part.rows) + int(self.most is not None) + node.depth
        below, above = _Bound(most, side), _Bound(most + 1, side)
        if row is None:
            return (node._replace(most=_with(node.most, variable, below), depth=node.depth + 1),
                    node._replace(least=_with(node.least, variable, above), depth=node.depth + 1))
        return (node._replace(high=_with(node.high, row, below), depth=node.depth + 1),
                node._replace(low=_with(node.low, row, above), depth=node.depth + 1))

    def _sides(self, node: _SearchNode) -> Tuple[Any, Any]:
        """Which of the rows, and of the rows with the signs changed, have a greatest value, and these values."""
        sides = np.array([np.inf if side is None else side.bound for side in (node.high[row] for row in self.used)]
                         + [np.inf if side is None else -side.bound for side in (node.low[row] for row in self.used)])
        places = np.flatnonzero(sides < np.inf)
        return places, sides[places]

    def _prepare_tableau(self) -> None:
        """The rows of a tableau over the variables that aren't fixed, each over its greatest coefficient, and what the
        fixed ones add to them; none where it is large."""
        self.dense: Any = None
        least, most = (np.array([side.bound for side in sides], dtype=float) for sides in self._fixed())
        self.open = np.flatnonzero(least < most)
        if 0 < len(self.used) * len(self.open) <= _MOST_ENTRIES:
            rows = self.matrix[self.used].toarray()
            self.scale = np.maximum(1.0, np.abs(rows).max(axis=1))
            self.shift = rows @ np.where(least < most, 0.0, least)
            self.dense = rows[:, self.open] / self.scale[:, None]

    def _first_tableau(self) -> Optional[Tableau]:
        """The tableau that relaxations begin with; none where there are no costs: reasons are those of HiGHS."""
        return None if self.dense is None or self.most is None else tableau_of(self.dense, self.costs[self.open])

    def _own_costs(self) -> Any:
        return np.zeros(self.count) if self.most is None else self.costs

    def _by_tableau(self, node: _SearchNode, least: Any, most: Any, start: Tableau) -> Optional[Solved]:
        """The relaxation from a tableau of other bounds; None where that fails."""
        low, high = (np.array([far if side is None else side.bound for side in map(sides.__getitem__, self.used)])
                     for sides, far in ((node.low, -np.inf), (node.high, np.inf)))
        ended = solved_from(start, np.append((low - self.shift) / self.scale, least[self.open]),
                            np.append((high - self.shift) / self.scale, most[self.open]))
        if ended is None:
            return None
        multipliers, point = np.zeros(len(self.part.rows)), least.copy()
        multipliers[self.used] = ended.multipliers / self.scale
        if ended.values is None:
            return Solved(np.inf, None, multipliers)
        point[self.open] = ended.values[len(self.used):]
        return Solved(float(self._own_costs() @ point), point, multipliers, ended.tableau)

    def _solve(self, node: _SearchNode, start: Optional[Tableau] = None) -> Solved:
        """The relaxation at a node; from a tableau of other bounds where there is one."""
        least, most = (np.array([side.bound for side in sides], dtype=float) for sides in (node.least, node.most))
        if (least > most).any():
            return Solved(np.inf, None, np.zeros(len(self.part.rows)))
        found = None if start is None else self._by_tableau(node, least, most, start)
        return found or self._by_highs(node, least, most)

    def _by_highs(self, node: _SearchNode, least: Any, most: Any) -> Solved:
        costs = self._own_costs()
        if not self.used:
            point = np.where(costs < 0, most, least)
            return Solved(float(costs @ point), point, np.zeros(len(self.part.rows)))
        (places, sides), bounds = self._sides(node), np.column_stack([least, most])
        found = optimize.linprog(costs, A_ub=self.both[places], b_ub=sides, bounds=bounds, method="highs")
        if found.status == 2:
            return self._without_point(places, sides, bounds)
        if found.status != 0:
            raise Open
        return Solved(float(found.fun), found.x, self._multipliers(found, places))

    def _multipliers(self, found: Any, places: Any) -> Any:
        """The rows' multipliers from those of their sides."""
        rows, marginals = len(self.used), np.zeros(2 * len(self.used))
        marginals[places] = found.ineqlin.marginals
        multipliers = np.zeros(len(self.part.rows))
        multipliers[self.used] = marginals[:rows] - marginals[rows:]
        return multipliers

    def _without_point(self, places: Any, sides: Any, bounds: Any) -> Solved:
        """Multipliers that show that the relaxation has no point: those of the least violation."""
        rows = len(self.used)
        slack = sparse.vstack([sparse.identity(rows)] * 2).tocsr()
        wide = sparse.hstack([self.both[places], -slack[places]]).tocsr()
        free = np.column_stack([np.zeros(rows), np.full(rows, np.inf)])
        found = optimize.linprog(np.append(np.zeros(self.count), np.ones(rows)), A_ub=wide, b_ub=sides,
                                 bounds=np.concatenate([bounds, free]), method="highs")
        if found.status != 0:
            raise Open
        return Solved(np.inf, None, self._multipliers(found, places))

    def _leaf(self, node: _SearchNode, solved: Solved) -> Optional[Leaf]:
        """A leaf by the multipliers, where they show it in whole numbers."""
        is_costly = bool(np.isfinite(solved.value))
        if is_costly and (self.most is None or solved.value < self.most + 1e-6):
            return None
        for denominator in _denominators(solved.multipliers):
            if denominator * float(np.abs(self.costs).max(initial=1)) * self.count > _MOST:
                return None
            whole = np.rint(solved.multipliers * denominator)
            if float(np.abs(whole).sum()) * float(self.far.max(initial=0.0) + 1) > _MOST:
                return None
            leaf = self._shown(node, whole.astype(np.int64), denominator if is_costly else 0)
            if leaf is not None:
                return leaf
        return None

    def _shown(self, node: _SearchNode, multipliers: Any, times: int) -> Optional[Leaf]:
        """The leaf with these multipliers of rows, and `times` the costs against them, where no month reaches the
        weighed sum."""
        weights = (self.whole.T @ multipliers if self.part.rows
                   else np.zeros(self.count, dtype=np.int64)) - times * self.costs
        used: Dict[int, int] = {}
        bound = 0
        for row in np.flatnonzero(multipliers).tolist():
            factor = int(multipliers[row])
            side = node.low[row] if factor > 0 else node.high[row]
            if side is None:
                return None
            bound += factor * side.bound
            used[side.row] = used.get(side.row, 0) + factor
        if times:
            bound -= times * (self.most or 0)
            used[len(self.part.rows)] = -times
        for variable in np.flatnonzero(weights).tolist():
            weight = int(weights[variable])
            side = node.most[variable] if weight > 0 else node.least[variable]
            bound -= weight * side.bound
            if side.row in self.fixing:
                used[side.row] = min(used.get(side.row, 0), -abs(weight))
            elif side.row >= 0:
                used[side.row] = used.get(side.row, 0) - weight
        return Leaf(tuple(used.items())) if bound > 0 else None


def _denominators(values: Any) -> Iterator[int]:
    """Denominators to try for values, at last one that they have in common, as far as theirs are small."""
    yield from DENOMINATORS
    common = 1
    for value in values[values.nonzero()].tolist():
        common = math.lcm(common, Fraction(value).limit_denominator(_MOST_DENOMINATOR).denominator)
        if common > _MOST_COMMON:
            return
    yield common


def product(gains: Sequence[float], little: float = _LITTLE) -> float:
    """What halves gain, one times the other; what is no gain counts as a little."""
    return math.prod(max(gain, little) for gain in gains)


def _with(sides: Tuple[Any, ...], at: int, side: _Bound) -> Tuple[Any, ...]:
    return sides[:at] + (side,) + sides[at + 1:]


def _is_met(row: Limits, least: Sequence[int], most: Sequence[int]) -> bool:
    """Whether each choice of variables within bounds meets a row."""
    low = sum(factor * (least if factor > 0 else most)[variable] for variable, factor in row.terms)
    high = sum(factor * (most if factor > 0 else least)[variable] for variable, factor in row.terms)
    return (row.least is None or row.least <= low) and (row.most is None or high <= row.most)
