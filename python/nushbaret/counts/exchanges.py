"""How plans by counts differ: who could swap at no cost, and what the best other plan costs.

Two plans differ by rounds of changes. In a graph of rows, row groups of groups and columns, an arrow leads from a row
to a column that it could take, and back where it has it. One more vertex is where rows and columns that may take more,
or less, begin and end. The numbers that prove a plan best are potentials under which no arrow costs less than 0."""
from collections import Counter, deque
from heapq import heappop, heappush
from typing import Any, Collection, Dict, Iterator, List, NamedTuple, Optional, Sequence, Set, Tuple

from .counted import Bounds, Counted, Pair, RowGroup

Arrows = List[Dict[int, int]]


class Exchanges(NamedTuple):
    """The graph of changes of a plan: what each arrow costs, and the potentials of the vertices. Rows are the first
    vertices, and columns come after them; then the one where counts begin and end. `ends` has the two vertices of each
    pair."""

    arrows: Arrows
    ends: Dict[Pair, Tuple[int, int]]
    chosen: Set[Pair]
    potentials: List[int]

    def without(self, pair: Pair) -> "Exchanges":
        """The changes that leave a pair as it is."""
        ends = dict(self.ends)
        begin, end = ends.pop(pair)
        begin, end = (end, begin) if pair in self.chosen else (begin, end)
        arrows = list(self.arrows)
        arrows[begin] = {other: cost for other, cost in arrows[begin].items() if other != end}
        return self._replace(arrows=arrows, ends=ends)


def exchanges_of(counted: Counted, chosen: Sequence[Pair], rows: Sequence[int], columns: Sequence[int]) -> Exchanges:
    """The changes of a plan, which numbers of rows and columns prove best."""
    n_rows, n_columns = len(counted.row_bounds), len(counted.column_bounds)
    row_groups = _row_groups(counted, n_rows + n_columns + 1)
    arrows: Arrows = [{} for _ in range(n_rows + n_columns + 1 + len(row_groups))]
    own = set(chosen)
    ends: Dict[Pair, Tuple[int, int]] = {}
    least = dict.fromkeys(row_groups, 0)
    for row_group, row, column, cost in zip(counted.row_groups(), counted.rows, counted.columns, counted.costs):
        begin, end = ends[row, column] = row_groups.get(row_group, row), n_rows + column
        if (row, column) in own:
            arrows[end][begin] = -cost
        else:
            arrows[begin][end] = cost
        if begin != row:
            least[row_group] = min(least[row_group], cost - rows[row] - columns[column])
    taken = {(row, counted.group_of[column]) for row, column in chosen}
    for row_group, vertex in row_groups.items():
        begin, end = (vertex, row_group[0]) if row_group in taken else (row_group[0], vertex)
        arrows[begin][end] = 0
    _add_ends(arrows, counted, own)
    return Exchanges(arrows, ends, own, [*(-number for number in rows), *columns, 0,
                                         *(-rows[row] - least[row, group] for row, group in row_groups)])


def _add_ends(arrows: Arrows, counted: Counted, chosen: Set[Pair]) -> None:
    """Adds the arrows of rows and columns that could have one more or one less."""
    n_rows = len(counted.row_bounds)
    free = n_rows + len(counted.column_bounds)
    had, used = Counter(row for row, _ in chosen), Counter(column for _, column in chosen)
    for row, bounds in enumerate(counted.row_bounds):
        for begin, end in _ends(row, free, had[row], bounds):
            arrows[begin][end] = 0
    for column, bounds in enumerate(counted.column_bounds):
        for end, begin in _ends(n_rows + column, free, used[column], bounds):
            arrows[begin][end] = 0


def _row_groups(counted: Counted, first: int) -> Dict[RowGroup, int]:
    """A vertex for each row group of a group that was given."""
    row_groups: Dict[RowGroup, int] = {}
    for row_group in counted.row_groups() if counted.n_groups else ():
        if row_group[1] < counted.n_groups:
            row_groups.setdefault(row_group, first + len(row_groups))
    return row_groups


def _ends(vertex: int, free: int, count: int, bounds: Bounds) -> List[Tuple[int, int]]:
    """Arrows of a row that takes one more, and of one that takes one less; those of a column lead the other way."""
    return [(free, vertex)] * (count < bounds.most) + [(vertex, free)] * (count > bounds.least)


def exact_numbers(counted: Counted, chosen: Sequence[Pair], rows: Sequence[int],
                  columns: Sequence[int]) -> Tuple[List[int], List[int]]:
    """The numbers of rows and columns that prove a best plan, from others that may not: Bellman (1958) and Ford.
    RuntimeError where a round of changes costs less than 0."""
    exchanges = exchanges_of(counted, chosen, rows, columns)
    arrows, potentials = exchanges.arrows, exchanges.potentials
    waiting, waits = deque(range(len(arrows))), [True] * len(arrows)
    # Of the way that a potential is the cost of: how many arrows. More than there are vertices go along a round below
    # 0.
    steps = [0] * len(arrows)
    while waiting:
        vertex = waiting.popleft()
        waits[vertex] = False
        for end, cost in arrows[vertex].items():
            if potentials[vertex] + cost < potentials[end]:
                potentials[end] = potentials[vertex] + cost
                steps[end] = steps[vertex] + 1
                if steps[end] > len(arrows):
                    raise RuntimeError("a plan was found to be the best, and a change of it costs less: please report "
                                       "this problem")
                if not waits[end]:
                    waiting.append(end)
                    waits[end] = True
    n_rows, free = len(counted.row_bounds), len(counted.row_bounds) + len(counted.column_bounds)
    return ([potentials[free] - own for own in potentials[:n_rows]],
            [own - potentials[free] for own in potentials[n_rows:free]])


def free_pairs(exchanges: Exchanges) -> List[List[Pair]]:
    """The pairs that are in some best plan and not in all, in groups that depend on each other, by their first
    pairs."""
    potentials = exchanges.potentials
    tight = [[end for end, cost in ends.items() if potentials[begin] + cost == potentials[end]]
             for begin, ends in enumerate(exchanges.arrows)]
    part = _strong_parts(tight)
    groups: Dict[int, List[Pair]] = {}
    for pair, (begin, end) in sorted(exchanges.ends.items()):
        begin, end = (end, begin) if pair in exchanges.chosen else (begin, end)
        if part[begin] == part[end] and potentials[begin] + exchanges.arrows[begin][end] == potentials[end]:
            groups.setdefault(part[begin], []).append(pair)
    return list(groups.values())


class Other(NamedTuple):
    """A plan, and by how much it costs more than another."""

    more: int
    pairs: Set[Pair]


class Round(NamedTuple):
    """The vertices of a round of changes, and what it costs."""

    length: float
    vertices: List[int]


# A vertex, and whether the round began with a pair of its column.
State = Tuple[int, bool]


def next_plan(exchanges: Exchanges) -> Optional[Other]:
    """The best other plan; None where there is none. Each changes some column's pairs."""
    potentials = exchanges.potentials
    leads = [sorted((cost + potentials[begin] - potentials[end], end) for end, cost in ends.items())
             for begin, ends in enumerate(exchanges.arrows)]
    tails: Dict[int, Set[int]] = {}
    for begin, end in exchanges.ends.values():
        tails.setdefault(end, set()).add(begin)
    best = Round(float("inf"), [])
    for column in sorted(tails):
        if best.length:
            best = _round(leads, range(min(tails), column), column, tails[column], best)
    if not best.vertices:
        return None
    pairs = {ends: pair for pair, ends in exchanges.ends.items()}
    steps = list(zip(best.vertices, best.vertices[1:] + best.vertices[:1]))
    changed = {pairs[ends] for step in steps for ends in (step, step[::-1]) if ends in pairs}
    return Other(int(best.length), exchanges.chosen ^ changed)


def _round(leads: Sequence[Sequence[Tuple[int, int]]], done: range, column: int, tails: Set[int], best: Round) -> Round:
    """The cheapest round through a column, and none of those that are done, that changes one of its pairs, whose other
    ends are given; `best` where none costs less (Dijkstra 1959). Arrows lead from each vertex, the cheapest first."""
    most = best.length
    far: Dict[State, float] = {}
    back: Dict[State, Optional[State]] = {}
    last: Optional[State] = None
    waiting: List[Tuple[float, int, bool]] = [(0, column, False)]
    while waiting and waiting[0][0] < most:
        length, vertex, by_pair = heappop(waiting)
        if length > far.get((vertex, by_pair), length):
            continue
        for cost, end in leads[vertex]:
            longer = length + cost
            if longer >= most:
                break
            state = end, by_pair or vertex == column and end in tails
            if end == column:
                if by_pair or vertex in tails:
                    most, last = longer, (vertex, by_pair)
            elif end not in done and longer < far.get(state, most):
                far[state], back[state] = longer, None if vertex == column else (vertex, by_pair)
                heappush(waiting, (longer, *state))
    return best if last is None else Round(most, [column, *_way(back, last)])


def _way(back: Dict[State, Optional[State]], last: State) -> List[int]:
    """The vertices that lead to a state, in order."""
    way: List[int] = []
    state: Optional[State] = last
    while state is not None:
        way.append(state[0])
        state = back[state]
    return way[::-1]


def _strong_parts(leads: Sequence[Collection[int]]) -> List[int]:
    """A number for each vertex of a graph: the same for two exactly where arrows lead from each to the other (Sharir
    1981)."""
    part = [0] * len(leads)
    done = [vertex for tree in _trees(leads, range(len(leads))) for vertex in tree]
    for number, tree in enumerate(_trees(turned(leads), done[::-1])):
        for vertex in tree:
            part[vertex] = number
    return part


def turned(arrows: Sequence[Collection[int]]) -> List[List[int]]:
    """The arrows the other way round."""
    found: List[List[int]] = [[] for _ in arrows]
    for begin, ends in enumerate(arrows):
        for end in ends:
            found[end].append(begin)
    return found


def _trees(leads: Sequence[Collection[int]], order: Sequence[int]) -> Iterator[List[int]]:
    """What searches into the depth find from one vertex after the other, in the order in which they are done with
    it."""
    seen = [False] * len(leads)
    for first in order:
        tree: List[int] = []
        way: List[Tuple[int, Any]] = [] if seen[first] else [(first, iter(leads[first]))]
        seen[first] = True
        while way:
            vertex, ends = way[-1]
            end = next((end for end in ends if not seen[end]), None)
            if end is None:
                tree.append(vertex)
                way.pop()
            else:
                seen[end] = True
                way.append((end, iter(leads[end])))
        yield tree
