"""One decision diagram for many persons: that of a person who has every variable that one of them has, cut down to the
variables of each. Needs NumPy.

What is found here is a hint only; certificates show what holds.
"""
import importlib
from collections import defaultdict
from typing import Any, Dict, FrozenSet, Hashable, List, NamedTuple, Optional, Sequence, Set, Tuple

from .diagrams import Diagram, diagram_of, narrowed
from .model import Limits
from .persons import PersonBlock

np: Any = importlib.import_module("numpy")
# Whether persons share no row with the variable, its day, the first row that they share, and its place among these.
Key = Tuple[bool, int, int, int]
# For fewer persons with the same least counts no diagram is shared.
_FEWEST = 3


class _CommonRow(NamedTuple):
    """A row over keys, which are the same for variables of the same kind."""

    least: Optional[int]
    terms: FrozenSet[Tuple[Key, int]]
    most: Optional[int]

    def within(self, keys: Set[Key]) -> "_CommonRow":
        """What is left of it for who has these keys alone."""
        return self._replace(terms=frozenset(term for term in self.terms if term[0] in keys))

    def can_fail(self) -> bool:
        """Whether some choice of its variables breaks it."""
        return (self.least is not None and sum(min(factor, 0) for _, factor in self.terms) < self.least
                or self.most is not None and sum(max(factor, 0) for _, factor in self.terms) > self.most)

    def implies(self, other: "_CommonRow") -> bool:
        """Whether who keeps it keeps the other, which has fewer terms, all above 0, and the same greatest sum."""
        return other.least is None and self.most == other.most and other.terms <= self.terms and all(
            factor > 0 for _, factor in self.terms)


class _Template:
    """Rows and keys of several persons in one, and the diagram of these."""

    def __init__(self) -> None:
        self.keys: Set[Key] = set()
        self.rows: List[_CommonRow] = []
        # The keys in order, once the diagram is made.
        self.order: List[Key] = []
        self.diagram: Optional[Diagram] = None

    def add(self, keys: Sequence[Key], rows: Sequence[_CommonRow]) -> None:
        """Adds a person's rows: each to one that is the same as far as both go, if there is one."""
        own = set(keys)
        alike: Dict[_CommonRow, List[int]] = defaultdict(list)
        for number, row in enumerate(self.rows):
            alike[row.within(own)].append(number)
        for row in rows:
            known = row.within(self.keys)
            if known.terms and alike.get(known):
                number = alike[known].pop(0)
                self.rows[number] = row._replace(terms=row.terms | self.rows[number].terms)
            else:
                self.rows.append(row)
        self.keys |= own

    def fits(self, keys: Sequence[Key], rows: Sequence[_CommonRow]) -> bool:
        """Whether it leaves a person the person's own rows, and else only what these imply."""
        keys_of_person, wanted = set(keys), {row for row in rows if row.can_fail()}
        left = {row.within(keys_of_person) for row in self.rows}
        return wanted <= left and all(not row.can_fail() or any(own.implies(row) for own in wanted)
                                      for row in left - wanted)

    def diagram_for(self, keys: Sequence[Key]) -> Optional[Diagram]:
        """The diagram of a person who has these keys; None where it is too wide for all together."""
        if not self.order:
            self.order = sorted(self.keys)
            number_of = {key: number for number, key in enumerate(self.order)}
            self.diagram = diagram_of(len(self.order), [
                Limits(row.least, tuple(sorted((number_of[key], factor) for key, factor in row.terms)), row.most)
                for row in self.rows])
        if self.diagram is None:
            return None
        place_of = {key: place for place, key in enumerate(keys)}
        places = [place_of.get(key, -1) for key in self.order]
        least = np.zeros(len(self.order), dtype=bool)
        return _renamed(narrowed(self.diagram, least, np.array(places) >= 0), places)


def _renamed(diagram: Diagram, places: Sequence[int]) -> Diagram:
    """The diagram over other numbers of variables, without those that have none."""
    layers, to = [], []
    for layer, lines in zip(diagram.layers, diagram.to):
        kept = [choice for choice, variable in enumerate(layer, 1) if places[variable] >= 0]
        layers.append([places[layer[choice - 1]] for choice in kept])
        to.append(lines[[0, *kept]])
    return Diagram(layers, to, diagram.widths)


class Templates:
    """The diagrams of persons who share one with others."""

    def __init__(self, blocks: Sequence[PersonBlock], keys: Sequence[Sequence[Key]]):
        self.keys = keys
        self.of_blocks: Dict[int, _Template] = {}
        rows = [[_CommonRow(row.least, frozenset((own[variable], factor) for variable, factor in row.terms), row.most)
                 for row in block.rows] for block, own in zip(blocks, keys)]
        groups: Dict[Hashable, List[int]] = defaultdict(list)
        for number, own_rows in enumerate(rows):
            groups[frozenset((row.least, row.most) for row in own_rows if row.least is not None)].append(number)
        for numbers in groups.values():
            if len(numbers) >= _FEWEST:
                template = _Template()
                for number in numbers:
                    template.add(keys[number], rows[number])
                fitting = [number for number in numbers if template.fits(keys[number], rows[number])]
                if len(fitting) >= _FEWEST:
                    self.of_blocks.update(dict.fromkeys(fitting, template))

    def diagram_of(self, number: int) -> Optional[Diagram]:
        """The diagram of a block; None where it shares none."""
        template = self.of_blocks.get(number)
        return None if template is None else template.diagram_for(self.keys[number])


def keys_of(blocks: Sequence[PersonBlock], days: Sequence[Optional[int]], rows_of: Sequence[Sequence[int]]
            ) -> List[List[Key]]:
    """For each block the keys of its variables: what stands first in no order of days, the day, the first one of the
    rows among those that persons share in which the variable is, and how many of its block were there before."""
    found = []
    for block in blocks:
        seen: Dict[int, int] = defaultdict(int)
        keys: List[Key] = []
        for variable in block.variables:
            first = min(rows_of[variable], default=-1)
            day = (days[variable] if days else None) or 0
            keys.append((first < 0, day, first, seen[first]))
            seen[first] += 1
        found.append(keys)
    return found
