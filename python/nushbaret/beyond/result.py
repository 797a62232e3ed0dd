"""What a search over blocks answers."""
from typing import Any, List, NamedTuple, Optional, Tuple

Cost = Any


class BeyondResult(NamedTuple):
    """A plan for costs that nobody holds.

    Attributes
    ----------
    columns : array
        The column of each row, from 0; -1 where a row stays out.
    cost : int or float
        What the plan costs: whole costs exactly, doubles as the double nearest to the exact sum.
    prices : array
        A price of each column, 0 or more. At these no row has a better pair than its own one if the plan is proved by
        them.
    row_duals : array
        For each row the least sum of a cost and the column's price; under maximize the greatest difference.
    out : number or None
        The sum at which rows stay out, if any may.
    verdict : str
        "proved": no plan is better. "undecided": by doubles that differ less than their rounding it isn't known; no
        plan is better by more than `gap`.
    gap : number
        The most that the plan may cost above the best one; 0 if it is proved.
    passes : int
        How often all pairs were looked at, also for the first pairs and for the proof.
    pairs : int
        How many pairs the core has.
    arc_scans : float
        Looks at pairs, also those for first prices, divided by rows times columns.
    labels : tuple of two lists, or None
        The names of the rows and of the columns, where pairs have names.
    """

    columns: Any
    cost: Cost
    prices: Any
    row_duals: Any
    out: Optional[Cost]
    verdict: str
    gap: Cost
    passes: int
    pairs: int
    arc_scans: float
    labels: Optional[Tuple[List[Any], List[Any]]] = None

    @property
    def proved(self) -> bool:
        """Whether no plan is better."""
        return self.verdict == "proved"

    def __repr__(self) -> str:
        return (f"<nushbaret.beyond: cost {self.cost}, {self.verdict}, gap {self.gap}, {self.passes} passes, "
                f"{self.pairs} pairs>")


class OutOfTime(TimeoutError):
    """The time is over; `best` is the best plan so far, with its proved gap, or None where there is none yet."""

    def __init__(self, best: Optional[BeyondResult]):
        known = "no plan is known yet" if best is None else f"the best plan costs {best.cost}, with a gap of {best.gap}"
        super().__init__(f"the time is over: {known}")
        self.best = best

    def __reduce__(self) -> Tuple[Any, ...]:
        return type(self), (self.best,)
