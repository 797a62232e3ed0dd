"""Rosters with rules, from Python."""
import warnings
from array import array
from datetime import date, datetime
from typing import Any, Dict, Iterable, List, Mapping, NamedTuple, Optional, Sequence, Tuple, Union

from ..costs.numbers import Number, Ratio, Unit, in_unit, unit_of
from ..costs.reading import exact_ratio
from ..counts.counted import Bounds
from ..roster.answer import NamedPlan, Request
from ..roster.month import Before, month_of
from ..roster.output.rule_texts import sentence_of
from ..roster.roster import Earlier, Groups, PlanLine, Roster, Takes, Wanted
from ..roster.rules.roster_model import OwnRow
from ..roster.rules.rule_file import RuleLine, rules_of
from ..roster.rules.rules_kept import days_in_order, kinds_alike, left_out, other_holidays, without_day, without_kind
from ..roster.rules.stages import Proved, Task, answer_by_rules
from ..rows.model import Certificate
from .shown import frame_of

Named = Tuple[str, str]
Count = Union[int, Tuple[int, int]]
# The most that a cost may be, in units of the last decimal that any has.
MOST_UNITS = 10**15


class RosterPlan(NamedTuple):
    """What was found of a roster with rules, and what was proved of it.

    Attributes
    ----------
    proved : str
        'best': no plan that keeps the rules is better. 'within': none is more than `better` better. 'impossible': no
        plan keeps them. 'undecided': nothing was proved in the time.
    pairs : list of tuple, or None
        The persons and objects of the plan, person by person; None where there is no plan.
    cost : int, decimal.Decimal, fractions.Fraction or None
        The sum of their costs, exactly.
    better : int, decimal.Decimal, fractions.Fraction or None
        By how much another plan may be better at most; 0 where this one is best.
    reasons : list of str
        Where no plan keeps the rules: sentences that can't hold together.
    is_minimal : bool
        Whether none of the reasons can be left out.
    even : list of tuple
        Of each rule of evenness the sentence, and the least and the greatest count.
    certificate : Certificate or None
        What proves the answer, for `write_certificate`.
    missed : list of tuple
        Of rules and places with a price what the plan misses: a sentence, by how many units, and what that costs.
    missed_cost : int, decimal.Decimal or fractions.Fraction
        What it costs in all; `better` is of the sum of this and `cost`.

    Examples
    --------
    >>> import nushbaret
    >>> nushbaret.RosterPlan._fields[:4]
    ('proved', 'pairs', 'cost', 'better')
    """

    proved: str
    pairs: Optional[List[Named]]
    cost: Optional[Number]
    better: Optional[Number]
    reasons: List[str]
    is_minimal: bool
    even: List[Tuple[str, int, int]]
    certificate: Optional[Certificate]
    missed: List[Tuple[str, int, Number]] = []
    missed_cost: Number = 0

    def to_frame(self) -> Any:
        """The pairs as a DataFrame of pandas, which must be installed, with the columns row and column: persons and
        objects. It has no rows where there is no plan."""
        return frame_of(self.pairs or [], None)

    def write_certificate(self, path: str) -> None:
        """Writes what proves the answer; `nushbaret --check FILE` checks it alone.

        Raises ValueError where nothing was proved, and OSError where the file can't be written.
        """
        from ..rows.certificates import write_certificate
        if self.certificate is None:
            raise ValueError("nothing was proved, so there is no certificate")
        write_certificate(path, self.certificate)


def plan_roster(costs: Mapping[Named, Any], days: Mapping[str, Union[str, date]], rules: Iterable[Sequence[Any]] = (),
                *, kinds: Optional[Mapping[str, str]] = None, tasks: Optional[Mapping[str, Count]] = None,
                places: Optional[Mapping[str, Count]] = None,
                wanted: Optional[Mapping[str, Tuple[int, Any]]] = None, fixed: Iterable[Named] = (),
                before: Iterable[Tuple[str, Union[str, date], str]] = (), rows: Iterable[Sequence[Any]] = (),
                maximize: bool = False, seconds: float = 60) -> RosterPlan:
    """Finds a plan of least cost that keeps rules, and proves how good it is. SciPy finds; the proof is checked in
    whole numbers.

    Parameters
    ----------
    costs : mapping of (str, str) to number
        The allowed pairs of a person and an object, and what each costs, exactly: ints, floats as they print, Decimals
        or Fractions.
    days : mapping of str to str or datetime.date
        The day of each object, in order. Nobody takes two objects of one day. Where all are dates, weeks begin on
        Monday.
    rules : iterable of sequences
        Each a rule, its value and maybe names, as in a file of rules: ('rest', 'Late > Early'), ('Night per month',
        '4', 'Ada, Ben'). A fourth cell is a price: what each unit costs by which the rule is missed.
    kinds : mapping of str to str, optional
        The kind of each object. Without it, its name without that of its day.
    tasks : mapping of str to int or (int, int), optional
        How many objects persons take, or at least and at most; others take as many as they may.
    places : mapping of str to int or (int, int), optional
        How many persons objects take, or at least and at most; others take exactly one.
    wanted : mapping of str to (int, number), optional
        How many persons objects should take, and what each that is missing costs.
    fixed : iterable of (str, str), optional
        Pairs that the plan must have.
    before : iterable of (str, str or datetime.date, str), optional
        What was worked on earlier days, in order: a person, the day and the kind.
    rows : iterable of (least, terms, most, text), optional
        Rules of your own. `terms` maps pairs to whole numbers: the sum of those of the plan's pairs is from `least` to
        `most`, each an int or None. `text` says the rule.
    maximize : bool, optional
        Whether the sum is to be the greatest.
    seconds : float, optional
        How long to find and prove, by the clock.

    Returns
    -------
    RosterPlan

    Raises
    ------
    ValueError
        A rule, a name, a count or a number is refused.
    TypeError
        A cost or `seconds` is no number.
    ImportError
        SciPy isn't there.

    Warns
    -----
    UserWarning
        No rule looks at an object without a day, none of kinds at one without a kind, and none at a person of `before`
        without a cost or at a holiday on another day; kinds differ in case or spaces alone; or days that aren't dates
        have other days of the week than their order.

    Examples
    --------
    >>> import nushbaret
    >>> try:
    ...     nushbaret.plan_roster({("Ada", "Early Mon"): 1}, {"Early Mon": "Mon"}, [("rest", "Late > Early")])
    ... except ValueError as fault:
    ...     print(fault)
    rules, line 1, column 2: no kind of shift is 'Late': the kinds are Early
    """
    if not hasattr(seconds, "__float__"):
        raise TypeError(f"seconds is {seconds!r}: it must be a number of seconds")
    if not seconds >= 0:
        raise ValueError(f"seconds is {seconds!r}: it must be a number of seconds, 0 or more")
    listed = dict(costs)
    ratios = [_ratio(f"the cost of {pair!r} is {cost!r}, which", cost) for pair, cost in listed.items()]
    cells = [_cells(rule) for rule in rules]
    priced = [(f"rules, line {number}", rule[3]) for number, rule in enumerate(cells, 1) if rule[3] is not None]
    priced += [(f"wanted: {name!r}", own[1]) for name, own in (wanted or {}).items()]
    prices = [_ratio(f"{what}: the price {price!r}", price, True) for what, price in priced]
    unit = unit_of(ratios + prices)
    units, of_prices = [in_unit(ratio, unit) for ratio in ratios], iter([in_unit(ratio, unit) for ratio in prices])
    if any(abs(own) > MOST_UNITS for own in units):
        raise ValueError(f"a cost is more than {MOST_UNITS} times the unit that all costs have in common")
    roster = _roster(list(listed), units, days, kinds)
    earlier = [(person, _day_name(day), kind) for person, day, kind in before]
    of_persons = _bounds("tasks", roster.person_numbers, tasks or {}, Bounds(0, len(roster.objects)))
    of_objects = _bounds("places", roster.object_numbers, places or {}, Bounds(1, 1))
    roster = roster._replace(takes=Takes(of_persons, of_objects, False))
    groups = _groups(roster, earlier)
    worked = Before("before", [(person, _earlier_name(day, kind), number)
                               for number, (person, day, kind) in enumerate(earlier, 1)])
    month = month_of(roster, groups, "days", worked)
    # Names may be a list too.
    lines = [RuleLine(rule[0], str(rule[1]), rule[2] if isinstance(rule[2], str) else _names(list(rule[2]), number),
                      number, "" if rule[3] is None else str(next(of_prices))) for number, rule in enumerate(cells, 1)]
    roster = roster._replace(wanted=_wanted(roster, wanted or {}, list(of_prices)))
    ruled = rules_of("rules", lines, roster, month)
    request = Request(_fixed(roster, fixed), maximize)
    own = [_own_row(roster, row) for row in rows]
    with_earlier = roster._replace(groups=groups)
    for line in (*without_day(with_earlier, "days: none for"), *without_kind(with_earlier, "kinds: none for"),
                 *left_out(with_earlier, worked), *kinds_alike("kinds", month), *other_holidays(ruled, month),
                 *days_in_order("days", ruled, month)):
        warnings.warn(line, stacklevel=2)
    task = Task(roster, month._replace(holidays=ruled.holidays), ruled, request, float(seconds), own)
    answer, proved = answer_by_rules(task)
    return _result(roster, answer.plan, proved, unit)


def _result(roster: Roster, plan: Optional[NamedPlan], proved: Proved, unit: Unit) -> RosterPlan:
    pairs = plan and [(roster.persons[pair.person], roster.objects[pair.object]) for pair in plan.pairs]
    cost, better = (None if own is None else unit.shown(own) for own in (plan and plan.cost, proved.better))
    return RosterPlan(proved.kind, pairs, cost, better, list(map(sentence_of, proved.reasons)), proved.is_minimal,
                      [(even.sentence, even.least, even.most) for even in proved.even], proved.certificate,
                      [(one.broken.sentence, one.amount, unit.shown(one.cost)) for one in proved.missed],
                      unit.shown(proved.missed_cost))


def _ratio(said: str, number: Any, is_above_0: bool = False) -> Ratio:
    """A number as a ratio. What is wrong with it is said after `said`, which ends with the number."""
    try:
        ratio = exact_ratio(number)
    except TypeError:
        raise TypeError(f"{said} is no number") from None
    except (ValueError, OverflowError):
        raise ValueError(f"{said} isn't finite") from None
    if is_above_0 and ratio[0] <= 0:
        raise ValueError(f"{said} isn't above 0")
    if abs(ratio[0]) > MOST_UNITS or ratio[1] > MOST_UNITS:
        raise ValueError(f"{said} has too many digits")
    return ratio


def _day_name(day: Any) -> str:
    """A day's name; that of a date with a time, maybe one of NumPy's, is the date's."""
    if day is None or day != day:
        raise ValueError(f"{day!r} is no day: an object without one isn't in days")
    if isinstance(day, datetime):
        return str(day.date())
    return str(day.astype("datetime64[D]") if type(day).__name__ == "datetime64" else day)


def _numbers(names: Iterable[str]) -> Dict[str, int]:
    return {name: number for number, name in enumerate(dict.fromkeys(names))}


def _roster(pairs: List[Named], costs: List[int], days: Mapping[str, Union[str, date]],
            kinds: Optional[Mapping[str, str]]) -> Roster:
    """A roster of pairs, whose groups are days."""
    persons, objects = _numbers(person for person, _ in pairs), _numbers([*days, *(object_ for _, object_ in pairs)])
    for name in kinds or {}:
        if name not in objects:
            raise ValueError(f"kinds: there is no object {name!r}")
    names = _numbers(map(_day_name, days.values()))
    groups = Groups("day", list(names), {objects[name]: names[_day_name(day)] for name, day in days.items()}, {},
                    {objects[name]: kind for name, kind in (kinds or {}).items()}, kinds is not None)
    order = sorted(range(len(pairs)), key=lambda place: (persons[pairs[place][0]], objects[pairs[place][1]]))
    return Roster(list(persons), list(objects), persons, objects,
                  array("I", (persons[pairs[place][0]] for place in order)),
                  array("I", (objects[pairs[place][1]] for place in order)),
                  array("q", (costs[place] for place in order)), 0, ("person", "object", "cost"), ",", False,
                  by_persons=True, groups=groups)


def _bounds(what: str, numbers: Mapping[str, int], counts: Mapping[str, Count], default: Bounds) -> Dict[int, Bounds]:
    """How many each name takes."""
    found = dict.fromkeys(numbers.values(), default)
    for name, count in counts.items():
        least, most = count if isinstance(count, (tuple, list)) else (count, count)
        if name not in numbers or not (_are_whole(least, most) and 0 <= least <= most):
            raise ValueError(f"{what}: {name!r}: {count!r}" + ("" if name in numbers else ": no cost has this name"))
        found[numbers[name]] = Bounds(int(least), int(most))
    return found


def _are_whole(*numbers: Any) -> bool:
    """Whether all are whole numbers, maybe of NumPy's."""
    return all(hasattr(number, "__index__") for number in numbers)


def _earlier_name(day: str, kind: str) -> str:
    return f"{kind} {day}, earlier"


def _groups(roster: Roster, earlier: Sequence[Tuple[str, str, str]]) -> Groups:
    """The days, with earlier ones."""
    if roster.groups is None or not roster.groups.names:
        raise ValueError("no object has a day")
    named = {(day, kind): Earlier(_earlier_name(day, kind), day, kind, None, number)
             for number, (_, day, kind) in enumerate(earlier, 1)}
    return roster.groups._replace(earlier=tuple(named.values()))


def _cells(rule: Sequence[Any]) -> List[Any]:
    """The four cells of a rule; the price is None where there is none."""
    if isinstance(rule, str) or not 1 <= len(rule) <= 4:
        raise ValueError(f"rules: {rule!r} is no rule, value, names and price")
    return [*rule, *("", "", None)[len(rule) - 1:]]


def _wanted(roster: Roster, wanted: Mapping[str, Tuple[int, Any]], prices: Sequence[int]) -> Dict[int, Wanted]:
    """How many objects should take, with the price in units of each that is missing."""
    found = {}
    for (name, (number, _)), price in zip(wanted.items(), prices):
        if name not in roster.object_numbers:
            raise ValueError(f"wanted: there is no object {name!r}")
        bounds = roster.of_object(roster.object_numbers[name])
        if not (_are_whole(number) and bounds.least <= number <= bounds.most):
            raise ValueError(f"wanted: {name!r}: {number!r}, where {bounds.least} to {bounds.most} may be")
        found[roster.object_numbers[name]] = Wanted(int(number), price)
    return found


def _names(names: List[str], number: int) -> str:
    """The names of a list as a cell, in which none would be everybody."""
    if not all(names) or not names:
        raise ValueError(f"rules, line {number}, column 3: {'an empty name' if names else 'an empty list of names'}")
    return "; ".join(names)


def _fixed(roster: Roster, fixed: Iterable[Named]) -> List[PlanLine]:
    """Fixed pairs by number."""
    places = [(_pair(roster, pair), number) for number, pair in enumerate(dict.fromkeys(fixed), 1)]
    costs = roster.costs_of({pair for pair, _ in places})
    for pair, _ in places:
        if pair not in costs:
            raise ValueError(f"fixed: {roster.persons[pair[0]]!r}, {roster.objects[pair[1]]!r} has no cost, so it "
                             "isn't allowed")
    return [PlanLine(*pair, number, costs[pair]) for pair, number in places]


def _pair(roster: Roster, pair: Named) -> Tuple[int, int]:
    person, object_ = pair
    if person not in roster.person_numbers or object_ not in roster.object_numbers:
        raise ValueError(f"there is no person {person!r}" if person not in roster.person_numbers
                         else f"there is no object {object_!r}")
    return roster.person_numbers[person], roster.object_numbers[object_]


def _own_row(roster: Roster, row: Sequence[Any]) -> OwnRow:
    """A row of somebody's own rule."""
    least, terms, most, text = row
    numbers = [*dict(terms).values(), *(bound for bound in (least, most) if bound is not None)]
    if not _are_whole(*numbers) or any(abs(int(number)) >= MOST_UNITS for number in numbers):
        raise ValueError(f"rows: {text!r}: whole numbers are needed")
    low, high = (None if bound is None else int(bound) for bound in (least, most))
    if low is not None and high is not None and low > high:
        raise ValueError(f"rows: {text!r}: at least {low} and at most {high}")
    return OwnRow(low, [(_pair(roster, pair), int(factor)) for pair, factor in dict(terms).items() if factor], high,
                  str(text))
