"""The decision diagrams of all persons, one upon the other: the cheapest months of all at once.

Needs NumPy. What is found here is a hint only; certificates show what holds.
"""
import importlib
from typing import Any, List, NamedTuple, Optional, Sequence, Tuple

from .diagrams import Diagram

np: Any = importlib.import_module("numpy")
# More than any sum of costs of a month.
TOO_MUCH = 2**60
# Costs whose sum is less are added up in 32 bits, where so much is more than any.
_SMALL_SUM, _TOO_MUCH_SHORT = 2**29, 2**30
# The nodes that stand first: the dead end, and the end of each month.
_DEAD, _END, _FIRST = 0, 1, 2


class _Layer(NamedTuple):
    """A layer of those diagrams that are so long: its nodes, where each choice leads from each, the variable of each
    choice but the first, for each diagram and for each node, and the first node of each diagram, from the layer's
    begin. Numbers have the bits of places in memory: others are copied whenever NumPy takes by them."""

    nodes: slice
    to: Any
    variables: Any
    of_nodes: Any
    starts: Any


class Stacked:
    """Diagrams that end in one layer, each over its own of many variables."""

    def __init__(self, diagrams: Sequence[Diagram], variables: Sequence[Sequence[int]]):
        self.has_all = all(diagram.widths[0] for diagram in diagrams)
        # The longest first, so that those with a node in a layer are the first ones.
        self.places = sorted(range(len(diagrams)), key=lambda place: -len(diagrams[place].layers))
        self.count = sum(map(len, variables))
        self.layers: List[_Layer] = []
        # The first node of each diagram in the layer after this one.
        after, size = [_END] * len(diagrams), _FIRST
        for height in range(1, 1 + max((len(diagram.layers) for diagram in diagrams), default=0)):
            own = [place for place in self.places if len(diagrams[place].layers) >= height]
            layer = self._layer([diagrams[place] for place in own], [variables[place] for place in own],
                                [after[place] for place in own], height, size)
            for place, start in zip(own, layer.starts.tolist()):
                after[place] = size + start
            size = layer.nodes.stop
            self.layers.insert(0, layer)
        self.roots = np.array([after[place] for place in self.places], dtype=np.int64)
        self.values = {kind: np.zeros(size, dtype=kind) for kind in (np.int32, np.int64)}
        widest = max((len(layer.of_nodes.T) for layer in self.layers), default=0)
        # Room for what each choice costs.
        self.rooms = {kind: np.zeros((2, widest), dtype=kind) for kind in (np.int32, np.int64)}

    def _layer(self, diagrams: Sequence[Diagram], variables: Sequence[Sequence[int]], after: Sequence[int], height: int,
               size: int) -> _Layer:
        """The layer of diagrams that is so far from the end, where their next ones begin at `after`."""
        widths = [diagram.widths[-1 - height] for diagram in diagrams]
        choices = max(len(diagram.to[-height]) for diagram in diagrams)
        to = np.full((choices, sum(widths)), _DEAD, dtype=np.intp)
        # A choice that a diagram doesn't have is that of a variable after all.
        taken = np.full((choices - 1, len(diagrams)), self.count)
        starts = np.cumsum([0, *widths[:-1]])
        for place, (diagram, start) in enumerate(zip(diagrams, starts.tolist())):
            own = diagram.to[-height]
            to[:len(own), start:start + widths[place]] = np.where(own == diagram.widths[-height], _DEAD,
                                                                  own + after[place])
            taken[:len(own) - 1, place] = [variables[place][variable] for variable in diagram.layers[-height]]
        of_nodes = taken.repeat(widths, axis=1).astype(np.intp)
        return _Layer(slice(size, size + sum(widths)), to, taken, of_nodes, starts)

    def _filled(self, costs: Any) -> Any:
        """The least cost from each node on, in as many bits as the costs have."""
        values = self.values[costs.dtype.type]
        values[_DEAD], values[_END] = TOO_MUCH if costs.dtype == np.int64 else _TOO_MUCH_SHORT, 0
        for layer in reversed(self.layers):
            least = values[layer.nodes]
            more, taken = self.rooms[costs.dtype.type][:, :len(least)]
            values.take(layer.to[0], out=least, mode="clip")
            for to, variables in zip(layer.to[1:], layer.of_nodes):
                values.take(to, out=taken, mode="clip")
                taken += costs.take(variables, out=more, mode="clip")
                np.minimum(least, taken, out=least)
        return values

    def cheapest(self, costs: Any) -> Optional[Tuple[List[int], Any]]:
        """The least costs of months at whole costs, one for each diagram, and months of them over all variables; None
        where a diagram has no month."""
        if not self.has_all:
            return None
        is_small = np.abs(costs).sum(dtype=np.float64) < _SMALL_SUM
        costs = np.append(costs, 0).astype(np.int32 if is_small else np.int64)
        filled = self._filled(costs)
        plan, nodes = np.zeros(self.count + 1, dtype=np.int8), self.roots.copy()
        for layer in self.layers:
            count = layer.variables.shape[1]
            to = layer.to[:, nodes[:count] - layer.nodes.start]
            values = filled[to]
            values[1:] += costs[layer.variables]
            choices, all_of = values.argmin(axis=0), np.arange(count)
            takes = np.flatnonzero(choices)
            plan[layer.variables[choices[takes] - 1, takes]] = 1
            nodes[:count] = to[choices, all_of]
        least = np.zeros(len(self.places), dtype=np.int64)
        least[self.places] = filled[self.roots]
        return least.tolist(), plan[:-1]

    def with_and_without(self, costs: Any) -> Any:
        """For each variable the least costs of its diagram's months without it and with it: an array of shape (2,
        variables). Each diagram has a month."""
        costs = np.append(costs, 0)
        filled = self._filled(costs)
        found = np.full((2, self.count + 1), TOO_MUCH, dtype=np.int64)
        before = np.full(len(filled), TOO_MUCH, dtype=np.int64)
        before[self.roots] = 0
        for layer in self.layers:
            least = np.zeros((len(layer.to), layer.variables.shape[1]), dtype=np.int64)
            for choice, to in enumerate(layer.to):
                cost = before[layer.nodes]
                if choice:
                    cost = cost + costs[layer.of_nodes[choice - 1]]
                least[choice] = np.minimum.reduceat(cost + filled[to], layer.starts)
                np.minimum.at(before, to, cost)
            for choice, variables in enumerate(layer.variables, 1):
                found[0, variables] = np.delete(least, choice, 0).min(axis=0)
                found[1, variables] = least[choice]
        return np.minimum(found[:, :-1], TOO_MUCH)
