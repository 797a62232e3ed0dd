"""Models of 0/1 variables, rows with sentences, and costs; what is found of one; and parts of a model, with trees over
them in the model's numbers."""
from typing import Dict, List, NamedTuple, Optional, Sequence, Tuple, Union

# A sum of variables: each by its number, from 0, with a whole coefficient that isn't 0.
Terms = Tuple[Tuple[int, int], ...]


class Row(NamedTuple):
    """A row of a model: the sum of its terms is at least `least` and at most `most`; None is no limit."""

    least: Optional[int]
    terms: Terms
    most: Optional[int]
    # The sentence that it comes from. Several rows may share one: 'free weekends: 2 (Anna)'.
    text: str = ""
    # Whose row it is; None where it is about several persons or none.
    person: Optional[int] = None


class Model(NamedTuple):
    """A model: which plans there are, as 0/1 variables that meet rows, and what each variable costs."""

    variables: int
    costs: Tuple[int, ...]
    rows: Tuple[Row, ...]
    # Whose variable each is; None where it is nobody's. A row whose variables are all of one person counts as that
    # person's.
    persons: Tuple[Optional[int], ...]
    # The day of each variable, None where it has none; empty where no days are known.
    days: Tuple[Optional[int], ...] = ()


class Limits(NamedTuple):
    """A row as a certificate has it."""

    least: Optional[int]
    terms: Terms
    most: Optional[int]


class Leaf(NamedTuple):
    """The end of a branch of a proof: whole multipliers of rows, by the rows' numbers, whose weighed sum no plan can
    reach."""

    multipliers: Tuple[Tuple[int, int], ...]


class Split(NamedTuple):
    """A branching of a proof: the sum of the terms is at most `most` in the one half, and at least one more in the
    other.

    Each half has this as one more row, after the rows that were there.
    """

    terms: Terms
    most: int
    below: "Proof"
    above: "Proof"


Proof = Union[Leaf, Split]


def flat(proof: Proof) -> Tuple[int, ...]:
    """A proof as one list: a leaf is 0, how many multipliers, and them; a split 1, how many terms, the greatest sum of
    the half below, the terms, and then both halves."""
    numbers: List[int] = []
    waiting = [proof]
    while waiting:
        node = waiting.pop()
        pairs = node.multipliers if isinstance(node, Leaf) else node.terms
        numbers += (0, len(pairs)) if isinstance(node, Leaf) else (1, len(pairs), node.most)
        numbers += [number for pair in pairs for number in pair]
        if isinstance(node, Split):
            waiting += (node.above, node.below)
    return tuple(numbers)


class Certificate(NamedTuple):
    """The claim that no 0/1 plan meets all rows, with its proof as one list, in the form of `nushbaret_rows` in C.

    With a plan the last row is `cost <= most`, without a lower bound: the plan meets all rows but that one, and no plan
    that does costs less than `most + 1`.
    """

    variables: int
    rows: Tuple[Limits, ...]
    plan: Optional[Tuple[int, ...]]
    tree: Tuple[int, ...]


def bounds_costs(rows: Sequence[Limits]) -> bool:
    """Whether the last row can be that of a plan's costs: it has an upper bound and no lower one."""
    return bool(rows) and rows[-1].least is None and rows[-1].most is not None


class Conflict(NamedTuple):
    """Sentences that can't hold together; whether none of them can be left out, since without any some plan is known;
    and the certificate that no plan meets their rows."""

    reasons: Tuple[str, ...]
    is_minimal: bool
    certificate: Certificate


class Shortage(NamedTuple):
    """A sum of least counts, by its place, that no plan reaches: `had` is all that can be had. The sentences are those
    of the other rows that limit it, and the certificate shows that no plan has `had + 1`."""

    place: int
    had: int
    limits: Tuple[str, ...]
    certificate: Certificate


class Finding(NamedTuple):
    """What was found of a model, no more than its certificate has shown.

    kind
        "best": the plan costs the least. "within": a plan and a bound that is less than its cost. "impossible": no plan
        meets the rows. "undecided": there is no bound, and maybe no plan, and no proof that there is none.
    plan
        0 or 1 for each variable, or None.
    cost
        What the plan costs, or None.
    bound
        No plan costs less than that, or None.
    conflicts
        Where the kind is "impossible": what can't hold together, no sentence in two of them.
    shortages
        Where it is that instead of conflicts: sums of least counts that are short.
    certificate
        What shows the bound, or that no plan meets the rows; None where nothing is shown.
    """

    kind: str
    plan: Optional[Tuple[int, ...]] = None
    cost: Optional[int] = None
    bound: Optional[int] = None
    conflicts: Tuple[Conflict, ...] = ()
    shortages: Tuple[Shortage, ...] = ()
    certificate: Optional[Certificate] = None

    @property
    def reasons(self) -> Tuple[str, ...]:
        """The sentences of the first conflict."""
        return self.conflicts[0].reasons if self.conflicts else ()

    @property
    def is_minimal(self) -> bool:
        """Whether none of these can be left out. False where the time ended before."""
        return bool(self.conflicts) and self.conflicts[0].is_minimal


class Part(NamedTuple):
    """Rows over a person's variables, from 0, with the numbers that the rows and the variables have in the model."""

    rows: List[Limits]
    numbers: List[int]
    variables: List[int]


def renamed(proof: Proof, part: Part, cost_row: Optional[int], first: int) -> Proof:
    """A part's tree in the model's numbers, where `cost <= most` is row `cost_row`, if there is one, and the splits'
    rows begin with `first`."""
    numbers = dict(enumerate([*part.numbers, *([] if cost_row is None else [cost_row])]))
    after = first - len(numbers)
    return _renamed(proof, part.variables, numbers, after)


def _renamed(proof: Proof, variables: Sequence[int], numbers: Dict[int, int], after: int) -> Proof:
    if isinstance(proof, Leaf):
        return Leaf(tuple((numbers.get(row, row + after), factor) for row, factor in proof.multipliers))
    terms = tuple((variables[variable], factor) for variable, factor in proof.terms)
    return Split(terms, proof.most, _renamed(proof.below, variables, numbers, after),
                 _renamed(proof.above, variables, numbers, after))
