"""Decision diagrams: all 0/1 months of a person that meet the person's rows, for cheapest months at any costs.

Needs NumPy. What is found here is a hint only; certificates show what holds.
"""
import importlib
from collections import defaultdict
from typing import Any, Dict, List, NamedTuple, Optional, Sequence, Set, Tuple

from .model import Limits

np: Any = importlib.import_module("numpy")
# A diagram with a layer of more nodes isn't made.
MOST_NODES = 40_000
# So many variables are in one layer at most.
_MOST_CHOICES = 8
# Below it sums of 32 bits are added up.
_SMALL_SUM = 2**29


class Diagram(NamedTuple):
    """Layers of a decision diagram, each of a few variables of which one is taken at most: where none of them and each
    of them leads from each node, a line for each choice. The number after a layer's last node is a dead end."""

    layers: List[List[int]]
    to: List[Any]
    widths: List[int]


def order_of(variables: int, rows: Sequence[Limits]) -> List[int]:
    """An order of the variables in which few rows have begun and not ended: about that given, or one step by step."""
    orders = [_as_given(variables, rows), _step_by_step(variables, rows)]
    return min(orders, key=lambda order: _open_rows(order, rows))


def _open_rows(order: Sequence[int], rows: Sequence[Limits]) -> int:
    """Over how many variables rows have begun and not ended, in all."""
    place = {variable: at for at, variable in enumerate(order)}
    spans = [[place[variable] for variable, _ in row.terms] for row in rows]
    return sum(max(span) - min(span) for span in spans if span)


def _as_given(variables: int, rows: Sequence[Limits]) -> List[int]:
    """The order given, but a variable right after the variables before it with which it has its shortest rows."""
    shortest = [variables] * variables
    after = list(range(variables))
    for row in sorted(rows, key=lambda row: len(row.terms)):
        for variable, _ in row.terms:
            if len(row.terms) <= shortest[variable]:
                before = [other for other, _ in row.terms if other < variable]
                after[variable] = (max(before, default=variable) if len(row.terms) < shortest[variable]
                                   else max([after[variable], *before]))
                shortest[variable] = len(row.terms)
    return sorted(range(variables), key=lambda variable: (after[variable], variable))


def _step_by_step(variables: int, rows: Sequence[Limits]) -> List[int]:
    """Each variable next that begins the fewest rows and ends the most."""
    rows_of: List[List[int]] = [[] for _ in range(variables)]
    for number, row in enumerate(rows):
        for variable, _ in row.terms:
            rows_of[variable].append(number)
    left = [len(row.terms) for row in rows]
    # How many rows each variable would begin, less those that it would end.
    grows = [sum(1 - (left[row] == 1) for row in own) for own in rows_of]
    waiting, order = list(range(variables)), []
    while waiting:
        best = min(waiting, key=grows.__getitem__)
        waiting.remove(best)
        order.append(best)
        for number in rows_of[best]:
            begins = left[number] == len(rows[number].terms)
            left[number] -= 1
            change = begins + (left[number] == 1)
            for variable, _ in rows[number].terms if change else ():
                grows[variable] -= change
    return order


def _grouped(order: Sequence[int], rows: Sequence[Limits]) -> List[List[int]]:
    """The variables in their order, those side by side together of which a row lets one be taken."""
    rows_of: List[Set[int]] = [set() for _ in order]
    for number, row in enumerate(rows):
        if row.most == 1 and all(factor == 1 for _, factor in row.terms):
            for variable, _ in row.terms:
                rows_of[variable].add(number)
    layers: List[List[int]] = []
    common: Set[int] = set()
    for variable in order:
        common = common & rows_of[variable]
        if common and len(layers[-1]) < _MOST_CHOICES:
            layers[-1].append(variable)
        else:
            layers.append([variable])
            common = rows_of[variable]
    return layers


class _Packing:
    """Disjoint rows of ones of which at most so many may be taken: bounds on what the rest of another row can come
    to."""

    def __init__(self, layers: Sequence[Sequence[int]], rows: Sequence[Limits]):
        self.layers, count = layers, sum(map(len, layers))
        packed = [row for row in rows if row.most is not None and row.terms
                  and all(factor == 1 for _, factor in row.terms)]
        self.item_of, self.items = _disjoint([[variable for variable, _ in row.terms] for row in packed
                                              if row.most == 1], count)
        wide = [row for row in packed if row.most is not None and row.most > 1]
        unions = [(sorted({self.item_of[variable] for variable, _ in row.terms}), row.most or 0) for row in wide]
        self.group_of, groups = _disjoint([union for union, _ in unions], self.items)
        most_of = {tuple(union): most for union, most in reversed(unions)}
        members: List[List[int]] = [[] for _ in range(groups)]
        for item, group in enumerate(self.group_of):
            members[group].append(item)
        self.groups = [(own, most_of.get(tuple(own), len(own))) for own in members]

    def most_left(self, weights: Dict[int, int], first: int, last: int) -> List[int]:
        """The greatest sum of weights from each layer on, by these rows, from the layer after `first` to that after
        `last`, where nothing is left."""
        of_items: Dict[int, int] = defaultdict(int)
        of_groups: Dict[int, int] = defaultdict(int)
        total, found = 0, [0]
        for layer in reversed(self.layers[first + 1:last + 1]):
            for variable in layer:
                item = self.item_of[variable]
                if weights.get(variable, 0) <= of_items[item]:
                    continue
                of_items[item] = weights[variable]
                group = self.group_of[item]
                own, most = self.groups[group]
                value = sum(sorted((of_items[other] for other in own), reverse=True)[:most])
                total, of_groups[group] = total + value - of_groups[group], value
            found.append(total)
        return found[::-1]


def _disjoint(sets: Sequence[Sequence[int]], count: int) -> Tuple[List[int], int]:
    """To which of disjoint sets each of 0..count belongs, and how many there are: those given that share none, then one
    of its own."""
    set_of, number = [-1] * count, 0
    for own in sets:
        if all(set_of[one] < 0 for one in own):
            for one in own:
                set_of[one] = number
            number += 1
    for one in range(count):
        if set_of[one] < 0:
            set_of[one] = number
            number += 1
    return set_of, number


class _Layers:
    """States of a layer: for each row that has begun and not ended a line of the sums so far, one for each node."""

    def __init__(self, layers: Sequence[Sequence[int]], rows: Sequence[Limits]):
        self.rows = rows
        # What each choice of a layer adds to its rows.
        self.adds: List[Dict[int, List[int]]] = [{} for _ in layers]
        place = {variable: (at, choice) for at, layer in enumerate(layers) for choice, variable in enumerate(layer, 1)}
        for number, row in enumerate(rows):
            for variable, factor in row.terms:
                at, choice = place[variable]
                self.adds[at].setdefault(number, [0] * (1 + len(layers[at])))[choice] += factor
        spans = [[place[variable][0] for variable, _ in row.terms] or [-1] for row in rows]
        self.begins, self.ends = [min(span) for span in spans], [max(span) for span in spans]
        packing = _Packing(layers, rows)
        self.mosts = [packing.most_left(dict(row.terms), *span) for row, *span in zip(rows, self.begins, self.ends)]
        self.leasts = [packing.most_left({variable: -factor for variable, factor in row.terms}, *span)
                       for row, *span in zip(rows, self.begins, self.ends)]
        self.choices = [1 + len(layer) for layer in layers]
        largest = max((sum(abs(factor) for _, factor in row.terms) for row in rows), default=0)
        self.kind = np.int32 if largest < _SMALL_SUM else np.int64
        self.sums: Dict[int, Any] = {}
        self.count = 1
        self.mixers: Any = np.random.default_rng(1).integers(1, 2**62, (2, len(rows)), dtype=np.int64) * 2 + 1

    def step(self, at: int) -> Any:
        """Takes the variables of this layer; where each choice leads from each node."""
        adds, count, choices = self.adds[at], self.count, self.choices[at]
        sums, alive = {}, np.ones((choices, count), dtype=bool)
        for row in [*self.sums, *(row for row in adds if self.begins[row] == at)]:
            own = self.sums[row] if row in self.sums else np.zeros(count, dtype=self.kind)
            sums[row] = own + np.array(adds.get(row, [0] * choices), dtype=self.kind)[:, None]
            self._refuse_dead(row, at, sums[row], alive)
        places = np.flatnonzero(alive)
        sums = {row: own.ravel()[places] for row, own in sums.items() if self.ends[row] > at}
        first, inverse = _distinct(self._keys(sums, len(places), at))
        self.sums, self.count = {row: own[first] for row, own in sums.items()}, len(first)
        to = np.full((choices, count), len(first), dtype=np.int32)
        to.ravel()[places] = inverse
        return to

    def _refuse_dead(self, row: int, at: int, sums: Any, alive: Any) -> None:
        """Takes out of `alive` the choices after which a row can't be met any more."""
        limits, place = self.rows[row], at - self.begins[row]
        if limits.least is not None:
            alive &= sums >= limits.least - self.mosts[row][place]
        if limits.most is not None:
            alive &= sums <= limits.most + self.leasts[row][place]

    def _keys(self, sums: Dict[int, Any], count: int, at: int) -> Any:
        """A number for each state, the same for states from which the same is left to do."""
        keys = np.zeros(count, dtype=np.int64)
        for row, own in sums.items():
            limits, place = self.rows[row], at - self.begins[row]
            if limits.least is not None:
                left = np.maximum(limits.least - own, -self.leasts[row][place])
                keys += np.multiply(left, self.mixers[0, row], dtype=np.int64)
            if limits.most is not None:
                left = np.minimum(limits.most - own, self.mosts[row][place])
                keys += np.multiply(left, self.mixers[1, row], dtype=np.int64)
        return keys


def _distinct(keys: Any) -> Tuple[Any, Any]:
    """A place of each number that is among keys, and which of these numbers each key is. Keys are sorted by two of
    their four parts: where others differ, a number may rarely count as two."""
    parts = keys.view(np.uint16).reshape(-1, 4)
    order = parts[:, 0].argsort(kind="stable")
    order = order[parts[order, 1].argsort(kind="stable")]
    placed = keys[order]
    is_first = np.append(True, placed[1:] != placed[:-1])[:len(keys)]
    inverse = np.empty(len(keys), dtype=np.int32)
    inverse[order] = is_first.cumsum(dtype=np.int32) - 1
    return order[is_first], inverse


def diagram_of(variables: int, rows: Sequence[Limits], most_nodes: int = MOST_NODES) -> Optional[Diagram]:
    """The diagram of all plans that meet rows; None where it is too wide."""
    layers = _grouped(order_of(variables, rows), rows)
    states, to = _Layers(layers, rows), []
    for at in range(len(layers)):
        to.append(states.step(at))
        if states.count > most_nodes:
            return None
    return _reduced(layers, to, states.count)


def narrowed(diagram: Diagram, least: Any, most: Any) -> Diagram:
    """The diagram of those plans alone that are within bounds of the variables, each 0 or 1."""
    alive, to = np.arange(diagram.widths[0]), []
    for at, layer in enumerate(diagram.layers):
        own, dead = diagram.to[at][:, alive], diagram.widths[at + 1]
        own[1:][most[layer] == 0] = dead
        for choice in np.flatnonzero(least[layer]).tolist():
            own[np.arange(len(own)) != choice + 1] = dead
        is_reached = np.zeros(dead + 1, dtype=bool)
        is_reached[own] = True
        alive = np.flatnonzero(is_reached[:-1])
        number_of = np.full(dead + 1, len(alive), dtype=np.int32)
        number_of[alive] = np.arange(len(alive))
        to.append(number_of[own])
    return _reduced(diagram.layers, to, len(alive))


def _reduced(layers: List[List[int]], to: List[Any], ends: int) -> Diagram:
    """The diagram with nodes of a layer made one that lead to the same, and without dead ends."""
    after, widths = np.arange(ends + 1, dtype=np.int32), [ends]
    mixers = np.random.default_rng(2).integers(1, 2**62, 1 + _MOST_CHOICES, dtype=np.int64) * 2 + 1
    for at in range(len(layers) - 1, -1, -1):
        own = after[to[at]]
        alive = np.flatnonzero((own != widths[-1]).any(axis=0))
        first, inverse = _distinct(sum(np.multiply(line[alive], mixer, dtype=np.int64)
                                       for line, mixer in zip(own, mixers)))
        after = np.full(to[at].shape[1] + 1, len(first), dtype=np.int32)
        after[alive] = inverse
        to[at] = own[:, alive[first]]
        widths.append(len(first))
    return Diagram(layers, to, widths[::-1])
