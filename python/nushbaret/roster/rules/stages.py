"""Answers to rosters with rules: stages of finding, and what was proved of each."""
import time
from typing import Callable, Dict, List, NamedTuple, Optional, Sequence, Set, Tuple

from ...counts.count_rows import certificate_of_best, certificate_of_lack, terms_of
from ...counts.planned import planned
from ...rows.model import Certificate, Conflict, Finding, Row
from ..answer import Answer, NamedPlan, Request, full_pairs, plan_of
from ..by_counts import counted_of
from ..month import Month
from ..roster import Roster
from .evenness import even_counted, even_rules, start_of
from .roster_model import Built, OwnRow, built
from .rule_file import Rules
from .rules_kept import Missed, broken_by, missed_by, plan_of as daily_plan_of
from .short_sums import MOST_LINES, PlacesSum, line_of, lines_of_lacks, shorts_of, sums_of

BEST, WITHIN, IMPOSSIBLE, UNDECIDED = "best", "within", "impossible", "undecided"
# How sums are short: by counts alone, or with rules.
BY_COUNTS, BY_RULES = "counts", "rules"
# What is said while something is found: the goal, what is being done, the cost of the best plan, and what no plan costs
# less than.
Progress = Callable[[str, str, Optional[int], Optional[int]], None]
# The share of the time that a stage before the costs gets, and that is left for one after them.
SHARE = 0.25
# The share of the time in which as little as can be is to be missed.
MISSING_SHARE = 0.6
# The share of the time in which it is looked for why something is missing, of what is left then.
WHY_SHARE = 0.3
# The share of the time that the plan that misses the least has by itself, where it wasn't asked for.
FULLEST = 0.5
# The goals, as progress shows them.
MISSING, UNEVEN, COSTS, CHANGES = "missing", "evenness", "costs", "changes"
# The text of the row that forbids a plan.
ANOTHER = "another plan"


class Task(NamedTuple):
    """What is asked: a roster, its calendar and rules, rows of own rules, and for how many seconds."""

    roster: Roster
    month: Month
    rules: Rules
    request: Request
    seconds: float
    own: Sequence[OwnRow] = ()
    progress: Optional[Progress] = None
    # Plans known before, which may break rules, the best first: plans near them are looked for.
    known: Sequence[Set[Tuple[int, int]]] = ()


class Reason(NamedTuple):
    """A sentence, and who and what it is about."""

    sentence: str
    about: List[str]


class Why(NamedTuple):
    """Why no plan keeps all: sentences that can't hold together, of which none can be left out if `is_minimal`; or
    sums that are short, each by itself, `by` counts alone or rules."""

    reasons: Sequence[Reason]
    is_minimal: bool = True
    by: str = ""


class Evenness(NamedTuple):
    """A rule of evenness: its sentence, and the least and the greatest count of those that it compares."""

    sentence: str
    least: int
    most: int


class Next(NamedTuple):
    """What was found of plans that differ from those before: the next one, None where none was; what it pays for what
    it misses; by how much another of them may be better at most, None where nothing is known; and whether it is proved
    that there is none at all."""

    plan: Optional[NamedPlan]
    missed_cost: int
    better: Optional[int]
    is_none: bool
    certificate: Optional[Certificate]


class Proved(NamedTuple):
    """What was proved of an answer.

    `kind` is that of the costs; `better` is by how much another plan may be better at most, None where nothing is
    known; `with_changes` is the cost with what changes cost, where they do. `whys` say why there is
    no plan. `missing` is by how many least counts are missed, and `least_missing` that no plan
    misses less; `is_fullest_open` says that none that misses some was found. `even` says how even counts are,
    `is_most_even` that no plan is more even, and `otherwise` what a plan without the rules of evenness would cost.
    `fewer_changes` says that fewer changes may be enough. Costs are in units
    of the roster, those with changes in halves. `has_prices` says that rules or counts have prices, and `missed` what
    the plan misses of these.
    """

    kind: str
    seconds: float
    better: Optional[int] = None
    with_changes: Optional[int] = None
    whys: Sequence[Why] = ()
    is_around_past: bool = False
    missing: int = 0
    least_missing: Optional[int] = None
    is_fullest_open: bool = False
    even: Sequence[Evenness] = ()
    is_most_even: bool = True
    otherwise: Optional["Proved"] = None
    otherwise_cost: Optional[int] = None
    fewer_changes: bool = False
    has_prices: bool = False
    missed: Sequence[Missed] = ()
    certificate: Optional[Certificate] = None
    # The next plans, as many as were asked for, and the least cost with what is missed of those that follow.
    following: Sequence[Next] = ()

    @property
    def is_impossible(self) -> bool:
        """Whether no plan keeps all rules and counts."""
        return self.kind == IMPOSSIBLE or bool(self.whys)

    @property
    def missed_cost(self) -> int:
        """What the plan pays for what it misses."""
        return sum(one.cost for one in self.missed)

    @property
    def reasons(self) -> List[Reason]:
        """All reasons."""
        return [reason for why in self.whys for reason in why.reasons]

    @property
    def is_minimal(self) -> bool:
        """Whether no reason can be left out."""
        return bool(self.whys) and all(why.is_minimal for why in self.whys)


def answer_by_rules(task: Task) -> Tuple[Answer, Proved]:
    """The answer to a roster with rules, and what was proved of it. Counts are looked at first, and then rules.

    Raises ImportError where SciPy isn't there, and RuntimeError where a process that finds plans fails.
    """
    begin, is_fullest = time.monotonic(), task.request.fullest
    end = begin + task.seconds
    by_counts, of_counts = _by_counts(task)
    if by_counts is not None:
        answer, proved = by_counts
        return _fullest(task, proved, end) if answer.plan is None and is_fullest else by_counts
    kept = task.request.kept
    task = task._replace(known=[*([kept] if kept else []), *task.known, *([of_counts] if of_counts else [])])
    return _fullest(task, None, end) if is_fullest else _by_costs(task, end)


def _by_costs(task: Task, end: float) -> Tuple[Answer, Proved]:
    """The plan of least cost, or why there is none; where that takes many sentences, the one that misses the least."""
    stages = _Stages(task, end)
    finding = stages.costs()
    if finding.plan is not None:
        return stages.answer(finding)
    proved = _why(task, stages, finding)
    is_long = bool(proved.whys) and len(proved.whys[0].reasons) > MOST_LINES
    # The plan that misses the least has a time of its own.
    own_end = max(end, time.monotonic() + FULLEST * task.seconds)
    return _fullest(task, proved, own_end) if is_long else (Answer(None, []), proved)


def _by_counts(task: Task) -> Tuple[Optional[Tuple[Answer, Proved]], Set[Tuple[int, int]]]:
    """The answer, where counts and groups alone decide: they are short, or the best plan by them keeps all rules. And
    the pairs of that plan."""
    roster, request = task.roster, task.request
    problem = counted_of(roster, request._replace(kept=None, change=None))
    if any(bounds.most < 0 for bounds in (*problem.row_bounds, *problem.column_bounds)):
        # Fixed pairs are more than a name may have: rows say so.
        return None, set()
    lacks, plans = planned(problem, False)
    if lacks:
        reasons = [Reason(line, []) for line in lines_of_lacks(roster, task.month, lacks)]
        certificate = certificate_of_lack(problem, terms_of(problem), lacks[0])
        return (Answer(None, []), Proved(IMPOSSIBLE, task.seconds, whys=[Why(reasons, by=BY_COUNTS)],
                                         is_around_past=_is_around_past(task), certificate=certificate)), set()
    if plans is None:
        return None, set()
    plan = plan_of(roster, request.fixed, plans.pairs())
    own = {(pair.person, pair.object) for pair in plan.pairs}
    asks_for_more = request.kept is not None or request.others or request.plans > 1
    if asks_for_more or task.own or even_rules(task.rules.rules):
        return None, own
    daily = daily_plan_of(roster, task.rules, task.month, plan.pairs)
    if broken_by(daily) or missed_by(daily):
        return None, own
    return (Answer(plan, []), Proved(BEST, task.seconds, 0, has_prices=_has_prices(task),
                                     certificate=certificate_of_best(problem, [], plans.shown()))), own


def _has_prices(task: Task) -> bool:
    """Whether any rule, or any place, has a price."""
    return bool(task.roster.wanted) or any(rule.price is not None for rule in task.rules.rules)


def _why(task: Task, stages: "_Stages", finding: Finding) -> Proved:
    """What is known where no plan was found."""
    if finding.kind != IMPOSSIBLE:
        return Proved(UNDECIDED, task.seconds, certificate=finding.certificate)
    found = stages.built
    whys: List[Why] = []
    shorts = shorts_of(found, stages.sums, finding.shortages)
    if shorts:
        whys.append(Why([Reason(line_of(task.roster, task.month, short), []) for short in shorts], by=BY_RULES))
    return Proved(IMPOSSIBLE, task.seconds, whys=[*whys, *_conflicts(found, finding.conflicts)],
                  is_around_past=_is_around_past(task), certificate=finding.certificate)


def _conflicts(found: Built, conflicts: Sequence[Conflict]) -> List[Why]:
    """Conflicts of the same sentences together, the first of all that are small."""
    alike: Dict[Tuple[Tuple[str, ...], bool], List[Reason]] = {}
    for one in conflicts:
        reasons = _reasons(found, one.reasons)
        key = tuple(sorted(reason.sentence for reason in reasons)), one.is_minimal
        before = {reason.sentence: reason for reason in alike.setdefault(key, [])}
        for reason in reasons:
            if reason.sentence in before:
                before[reason.sentence].about.extend(reason.about)
            else:
                alike[key].append(reason)
    return [Why(reasons, is_minimal) for (_, is_minimal), reasons in alike.items()]


def _is_around_past(task: Task) -> bool:
    return bool(task.roster.past) or bool(task.month.worked)


def _fullest(task: Task, why: Optional[Proved], end: float) -> Tuple[Answer, Proved]:
    """The plan that misses as few least counts as can be, and costs the least then, or is as good as was found until
    the end. Where it isn't known why any are missed, that is looked for between."""
    stages = _Stages(task, end, True)
    if not stages.built.missing:
        return _by_costs(task, end)
    finding = stages.least_missing()
    if finding.plan is not None and not finding.cost:
        # The plan of least cost, where one that misses nothing is known.
        known = {pair for pair, value in zip(stages.built.pairs, finding.plan) if value}
        whole = _Stages(task._replace(known=[known, *task.known]), end)
        return whole.answer(whole.costs())
    if why is None:
        first = _Stages(task, time.monotonic() + WHY_SHARE * max(0.1, end - time.monotonic()))
        of_all = first.costs()
        if of_all.plan is not None:
            return first.answer(of_all)
        why = _why(task, first, of_all)
    if finding.plan is None:
        # Rules are never missed, so there may be no plan.
        return Answer(None, []), (_why(task, stages, finding) if finding.kind == IMPOSSIBLE
                                  else why._replace(is_fullest_open=True))
    finding = stages.costs()
    if finding.plan is None:
        return Answer(None, []), why._replace(is_fullest_open=True)
    answer, proved = stages.answer(finding)
    return answer, proved._replace(whys=why.whys, is_around_past=why.is_around_past)


def _reasons(found: Built, texts: Sequence[str]) -> List[Reason]:
    """The sentences of rows, those of one sentence together."""
    about: Dict[str, List[str]] = {}
    for text in texts:
        said = found.rows.said.get(text)
        own = about.setdefault(said.sentence if said else text, [])
        own += [said.about] if said and said.about else []
    return [Reason(sentence, names) for sentence, names in about.items()]


class _Stages:
    """One goal after the other: what is missing, evenness rule by rule, costs, changes. What one has reached bounds the
    next. All ends at a time of the monotonic clock."""

    def __init__(self, task: Task, end: float, may_miss: bool = False, is_even: bool = True):
        self.task, self._end, self._may_miss = task, end, may_miss
        self.is_even = is_even and bool(even_rules(task.rules.rules))
        self._spreads: List[int] = []
        self.built = self._build(False)
        self._rows: List[Row] = []
        self._start: Optional[Sequence[int]] = None
        self.sums: List[PlacesSum] = []
        self._reached: List[Finding] = []
        self._missing: Optional[Finding] = None

    def _build(self, is_measured: bool) -> Built:
        task = self.task
        return built(task.roster, task.rules, task.month, task.request, task.own, self._may_miss, self._spreads,
                     is_measured)

    def _left(self, share: float = 1.0) -> float:
        """A share of the time that is left."""
        return max(0.1, (self._end - time.monotonic()) * share)

    def _find(self, goal: str, costs: Sequence[int], seconds: float) -> Finding:
        from ...rows.finding import find
        show = self.task.progress

        def named(done: str, cost: Optional[int], bound: Optional[int]) -> None:
            if show is not None:
                show(goal, done, cost, bound)

        self.sums = sums_of(self.built, self.task.month)
        # The values of the pairs' variables in plans known before.
        fixed = {(pair.person, pair.object) for pair in self.task.request.fixed}
        known = [[int(pair in own or pair in fixed) for pair in self.built.pairs] for own in self.task.known]
        finding = find(self.built.rows.model(costs, self._rows), seconds, named, self._start,
                       [own.rows for own in self.sums], known)
        self._start = finding.plan if finding.plan is not None else self._start
        return finding

    def _weighed(self, factors: Dict[int, int]) -> List[int]:
        """Costs that are factors of some variables alone."""
        return [factors.get(variable, 0) for variable in range(len(self.built.rows.costs))]

    def _pair_costs(self) -> List[int]:
        """What variables cost, twice where half of what a change costs counts for each."""
        request, costs = self.task.request, list(self.built.rows.costs)
        if request.kept is not None and request.change is not None:
            costs = [2 * cost for cost in costs]
            for variable, pair in enumerate(self.built.pairs):
                costs[variable] += -request.change if pair in request.kept else request.change
        return costs

    def costs(self) -> Finding:
        """The plan of least cost, of those that miss the least and are the most even; or why an earlier goal has
        none."""
        if self._may_miss and self._missing is None:
            self.least_missing()
        if self._missing is not None and self._missing.plan is None:
            return self._missing
        for _ in even_rules(self.task.rules.rules) if self.is_even else ():
            finding = self._more_even()
            if finding.plan is None:
                return finding
        needs_more = self.is_even or self._counts_changes
        return self._find(COSTS, self._pair_costs(), self._left(1 - SHARE if needs_more else 1.0))

    def least_missing(self) -> Finding:
        """A plan that misses as few least counts as can be."""
        self._missing = self._find(MISSING, self._weighed(self.built.missing), self._left(MISSING_SHARE))
        self._rows.append(Row(None, tuple(sorted(self.built.missing.items())), self._missing.cost, MISSING))
        return self._missing

    def _more_even(self) -> Finding:
        """Makes the counts of the next rule of evenness differ as little as can be, and keeps it so."""
        before, self.built = self._start, self._build(True)
        self._start = None
        finding = self._find(UNEVEN, self._weighed(self.built.evenness.excess), self._left(SHARE))
        self._reached.append(finding)
        if finding.plan is None:
            self._start = before
            return finding
        prefix = finding.plan[:self.built.before_even]
        self._spreads.append(1 + (finding.cost or 0))
        self.built = self._build(False)
        self._start = start_of(self.built.evenness, prefix)
        return finding

    @property
    def _counts_changes(self) -> bool:
        """Whether of plans of one cost that with the fewest changes is asked for."""
        return self.task.request.kept is not None and self.task.request.change is None

    def answer(self, finding: Finding) -> Tuple[Answer, Proved]:
        """The answer by a plan that was found, and what was proved of it."""
        request, costs = self.task.request, self._pair_costs()
        changed = self._with_fewest_changes(finding, costs) if self._counts_changes else finding
        values = changed.plan if changed.plan is not None else finding.plan or ()
        plan = self._plan(values)
        cost = sum(own for own, value in zip(costs, values) if value)
        missed = missed_by(daily_plan_of(self.task.roster, self.task.rules, self.task.month, plan.pairs))
        cost -= self._paid_above(values, sum(one.cost for one in missed))
        better = None if finding.bound is None else cost - finding.bound
        kind = UNDECIDED if better is None else WITHIN if better else BEST
        missing = self._missing
        with_changes = self._with_changes(cost) if request.change is not None else None
        proved = Proved(kind, self.task.seconds, better, with_changes,
                        missing=0 if missing is None or missing.cost is None else missing.cost,
                        least_missing=None if missing is None else missing.bound,
                        is_most_even=all(reached.kind == BEST for reached in self._reached),
                        even=self._even(plan) if self.is_even else (),
                        fewer_changes=changed is not finding and changed.kind != BEST,
                        has_prices=_has_prices(self.task), missed=missed, certificate=finding.certificate)
        return Answer(plan, []), self._with_otherwise(proved._replace(following=self._following(plan)))

    def _following(self, plan: NamedPlan) -> List[Next]:
        """The next plans, each with its proof: a row forbids each one before. The rows stand where costs are weighed
        alone."""
        request, found, before = self.task.request, [], plan
        count = max(request.plans - 1, int(request.others))
        rows = [row for row in self._rows if row.text != COSTS]
        costs = self._pair_costs()
        for number in range(count):
            rows.append(self._another(before))
            self._rows, self._start = list(rows), None
            finding = self._find(COSTS, costs, self._left(1 / (count - number)))
            found.append(self._next(finding))
            if finding.plan is None:
                return found
            before = self._plan(finding.plan)
        return found

    def _another(self, plan: NamedPlan) -> Row:
        """The row that a plan differs from this one in some pair."""
        own = {(pair.person, pair.object) for pair in plan.pairs}
        terms = tuple((variable, 1 if pair in own else -1) for variable, pair in enumerate(self.built.pairs))
        return Row(None, terms, sum(factor > 0 for _, factor in terms) - 1, ANOTHER)

    def _next(self, finding: Finding) -> Next:
        """What a finding says of the next plan."""
        if finding.plan is None:
            return Next(None, 0, None, finding.kind == IMPOSSIBLE, finding.certificate)
        plan = self._plan(finding.plan)
        missed = sum(one.cost for one in missed_by(daily_plan_of(self.task.roster, self.task.rules, self.task.month,
                                                                 plan.pairs)))
        cost = (finding.cost or 0) - self._paid_above(finding.plan, missed)
        better = None if finding.bound is None else cost - finding.bound
        return Next(plan, missed, better, False, finding.certificate)

    def _paid_above(self, values: Sequence[int], missed: int) -> int:
        """What values pay for more than the plan misses, in units of their costs: a plan that isn't proved best may
        have helpers that it needn't."""
        count, times = len(self.built.pairs), 2 if self.task.request.change is not None else 1
        paid = sum(own for own, value in zip(self.built.rows.costs[count:], values[count:]) if value)
        if paid < missed:
            raise RuntimeError("a plan misses more than its rows say: please report this problem")
        return (paid - missed) * (times if self.task.request.kept is not None else 1)

    def _plan(self, values: Sequence[int]) -> NamedPlan:
        fixed = {(pair.person, pair.object) for pair in self.task.request.fixed}
        chosen = [pair for pair, value in zip(self.built.pairs, values) if value and pair not in fixed]
        return plan_of(self.task.roster, self.task.request.fixed, sorted(chosen))

    def _with_fewest_changes(self, finding: Finding, costs: Sequence[int]) -> Finding:
        """Of plans that cost no more one with the fewest changes from the kept plan."""
        kept = self.task.request.kept or set()
        factors = {variable: -1 if pair in kept else 1 for variable, pair in enumerate(self.built.pairs)}
        terms = tuple((variable, cost) for variable, cost in enumerate(costs) if cost)
        self._rows.append(Row(None, terms, finding.cost, COSTS))
        self._start = finding.plan
        return self._find(CHANGES, self._weighed(factors), self._left(0.5 if self.is_even else 1.0))

    def _with_changes(self, cost: int) -> int:
        """What a plan costs with its changes, in halves: a kept pair that goes costs too, if it is possible now."""
        request = self.task.request
        still = (request.kept or set()).intersection(self.built.pairs)
        still -= full_pairs(self.task.roster, request.fixed, still)
        past = sum(pair.cost for pair in request.fixed if pair.object in self.task.roster.past)
        return (-1 if request.maximize else 1) * (cost + len(still) * (request.change or 0)) + 2 * past

    def _even(self, plan: NamedPlan) -> List[Evenness]:
        """How even a plan is."""
        found, month = [], self.task.month
        for rule in even_rules(self.task.rules.rules):
            persons = even_counted(self.built.making, rule)
            counts = dict.fromkeys(persons, 0)
            for pair in plan.pairs:
                shift = month.shifts.get(pair.object)
                if pair.person in counts and shift is not None and (rule.kinds is None or shift.kind in rule.kinds):
                    counts[pair.person] += not rule.of_weekends or month.is_weekend(shift.day)
            if counts:
                found.append(Evenness(rule.sentence, min(counts.values()), max(counts.values())))
        return found

    def _with_otherwise(self, proved: Proved) -> Proved:
        """What a plan without the rules of evenness would cost, as far as the time that is left shows it."""
        if not self.is_even:
            return proved
        task = self.task
        other = _Stages(task._replace(request=task.request._replace(kept=None, change=None)), self._end, self._may_miss,
                        False)
        finding = other.costs()
        if finding.plan is None:
            return proved._replace(otherwise=Proved(UNDECIDED, task.seconds))
        answer, others = other.answer(finding)
        sign = -1 if task.request.maximize else 1
        cost = None if answer.plan is None else answer.plan.cost + sign * others.missed_cost
        return proved._replace(otherwise=others, otherwise_cost=cost)
