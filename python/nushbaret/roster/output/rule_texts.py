"""What is said of an answer to a roster with rules: exactly what was proved."""
from typing import Dict, Iterator, List, Optional, Tuple

from ..answer import NamedPlan
from ..names import MOST_NAMES, first_of
from ..roster import Roster
from ..rules.rules_kept import Missed
from ..rules.short_sums import MOST_LINES
from ..rules.stages import BEST, BY_COUNTS, IMPOSSIBLE, UNDECIDED, Next, Proved, Reason, Why
from ..words import Options

Content = Dict[str, object]


def first_lines(roster: Roster, plan: Optional[NamedPlan], proved: Proved, maximize: bool) -> List[str]:
    """Why no plan keeps the rules, or what the plan costs and what is proved of it."""
    lines = reason_lines(proved)
    if plan is not None:
        return [*lines, *_missing_lines(proved), _cost_line(roster, plan, proved, maximize)]
    if proved.is_fullest_open:
        lines.append(f"no plan that misses some was found in {proved.seconds:g} s: it wasn't looked for long enough, "
                     "and --time gives more")
    return lines or [f"not decided in {proved.seconds:g} s"]


def reason_lines(proved: Proved) -> List[str]:
    """The sums that are short, and the sentences that can't hold together, as far as these are few lines; none where a
    plan keeps all."""
    if not proved.is_impossible:
        return []
    around = "around the past, " if proved.is_around_past else ""
    first = proved.whys[0] if proved.whys else Why([])
    if first.by != BY_COUNTS and len(first.reasons) > MOST_LINES:
        return [f"{around}no plan keeps these rules, proved: {len(first.reasons)} sentences can't hold together"]
    lines = [around + ("no plan meets these counts, whatever the rules, proved:" if first.by == BY_COUNTS
                       else f"no plan keeps these rules, proved:{_together(first)}"), *_indented(first)]
    for number, why in enumerate(proved.whys[1:], 1):
        if len(lines) + len(why.reasons) > MOST_LINES + number:
            more = len(proved.whys) - number
            return [*lines, f"and {more} more conflict{'s' if more > 1 else ''}"]
        lines += [f"and{_together(why)}", *_indented(why)]
    return lines


def _together(why: Why) -> str:
    """What is said before the reasons."""
    if why.by:
        return ""
    return " together they can't hold" + (":" if why.is_minimal else ", and maybe fewer of them can't:")


def _indented(why: Why) -> List[str]:
    return ["  " + sentence_of(reason) for reason in why.reasons]


def sentence_of(reason: Reason) -> str:
    """A sentence with those that it is about, the first of many."""
    names = first_of(reason.about, more="others" if len(reason.about) > MOST_NAMES + 1 else "other")
    return f"{reason.sentence} ({names})" if reason.about else reason.sentence


def _missing_lines(proved: Proved) -> List[str]:
    """How much is missing, where anything is."""
    if not proved.missing:
        return []
    if proved.least_missing == proved.missing:
        return [f"{proved.missing} missing in all, proved: no plan that keeps the rules misses less"]
    if proved.least_missing is None:
        return [f"{proved.missing} missing in all"]
    return [f"{proved.missing} missing in all, proved: no plan that keeps the rules misses less than "
            f"{proved.least_missing}"]


def _cost_line(roster: Roster, plan: NamedPlan, proved: Proved, maximize: bool) -> str:
    title, own = roster.titles[2], roster.shown(plan.cost)
    parts = f"({title} {own}, missed {roster.shown(proved.missed_cost)})" if proved.missed else f"({title} {own})"
    if proved.with_changes is not None:
        title, own = f"{title} with changes", f"{roster.shown_halves(proved.with_changes)} {parts}"
    elif proved.has_prices:
        paid = plan.cost + (-proved.missed_cost if maximize else proved.missed_cost)
        title, own = f"{title} with prices", f"{roster.shown(paid)} {parts}"
    title += f" of {len(plan.pairs)} pairs" if proved.missing else ""
    if proved.kind == BEST:
        less = "has more" if maximize else "costs less"
        return f"{'greatest' if maximize else 'least'} {title}: {own}, proved: {_no_plan(proved)} {less}"
    if proved.better is None:
        return f"{title} {own}, nothing proved in {proved.seconds:g} s"
    return f"{title} {own}, {_within(roster, proved, 'the rules')}"


def _no_plan(proved: Proved, rules: str = "the rules") -> str:
    """Which plans are meant; where least counts are missed those that miss more aren't."""
    return f"no plan that keeps {rules}" + (" and misses no more" if proved.missing else "")


def _within(roster: Roster, proved: Proved, rules: str) -> str:
    """By how much a plan may be better at most."""
    plan = _no_plan(proved, rules) if proved.missing else "no plan"
    return f"proved: {plan} is more than {better_text(roster, proved)} better"


def better_text(roster: Roster, proved: Proved) -> str:
    """By how much another plan may be better at most."""
    better = proved.better or 0
    return roster.shown(better) if proved.with_changes is None else roster.shown_halves(better)


def even_lines(roster: Roster, proved: Proved, maximize: bool) -> List[str]:
    """How even counts are, and what a plan without the rules of evenness would cost."""
    lines = [f"{even.sentence}: {even.least}" + (f" to {even.most}" if even.most > even.least else " each")
             for even in proved.even]
    if any(even.most - even.least > 1 for even in proved.even):
        lines.append(f"proved: {_no_plan(proved)} is more even" if proved.is_most_even
                     else "a more even plan may exist")
    other = proved.otherwise
    if other is not None and proved.otherwise_cost is not None:
        cost = f"{roster.titles[2]} {roster.shown(proved.otherwise_cost)}"
        lines.append(f"without the rules of evenness: {_otherwise(roster, cost, other, maximize)}")
    return lines


def following_lines(roster: Roster, plan: NamedPlan, proved: Proved,
                    options: Options) -> Iterator[Tuple[str, NamedPlan, Optional[NamedPlan]]]:
    """A line on each of the next plans, with the first plan and that one, if there is one."""
    sign = -1 if options.max else 1
    first = sign * plan.cost + proved.missed_cost
    for number, found in enumerate(proved.following, 2):
        name = f"plan {number}" if options.plans > 1 else ""
        yield _following_line(roster, name, found, first, proved, sign), plan, found.plan


def _following_line(roster: Roster, name: str, found: Next, first: int, proved: Proved, sign: int) -> str:
    """What is said of a next plan: its cost, next to that of the first, and what is proved of it."""
    mark = f"{name}: " if name else ""
    if found.plan is None:
        few = " and misses no more" if proved.missing else ""
        return mark + (f"no other plan keeps the rules{few}, proved" if found.is_none
                       else f"no other plan was found in {proved.seconds:g} s")
    cost = sign * found.plan.cost + found.missed_cost
    more = cost - first
    paid = roster.shown(sign * cost)
    said = f"{paid}, " + (f"{roster.shown(abs(more))} {'more' if (more > 0) == (sign > 0) else 'less'}" if more
                          else "as good")
    if name:
        end = ("" if found.better == 0 else ", not proved to be the next" if found.better is None
               else f", proved: none of the others is more than {roster.shown(found.better)} better")
        return f"{mark}{said}{end}"
    if not more:
        return f"another plan is as good: {paid}"
    if found.better is None or found.better >= more:
        return f"whether another plan is as good isn't decided; one is {said}"
    return f"no other plan is as good, proved{': the next best' if not found.better else '; one'} is {said}"


def missed_lines(roster: Roster, proved: Proved) -> List[str]:
    """What is missed of rules and counts with a price, and what that costs: a line for all, and one for each."""
    if not proved.has_prices:
        return []
    if not proved.missed:
        return ["missed: nothing that has a price"]
    return [f"missed: {roster.shown(proved.missed_cost)} in all", *(_missed(roster, one) for one in proved.missed)]


def _missed(roster: Roster, one: Missed) -> str:
    times = f"{one.amount} times {roster.shown(one.cost // one.amount)}, " if one.amount > 1 else ""
    return f"{one.broken.sentence}: {times}{roster.shown(one.cost)}"


def _otherwise(roster: Roster, cost: str, other: Proved, maximize: bool) -> str:
    if other.kind == BEST:
        return (f"{'greatest' if maximize else 'least'} {cost}, proved: {_no_plan(other, 'the other rules')} "
                f"{'has more' if maximize else 'costs less'}")
    return cost if other.better is None else f"{cost}, {_within(roster, other, 'the other rules')}"


def as_content(roster: Roster, proved: Proved) -> Content:
    """What was proved, for JSON."""
    content: Content = {"proved": proved.kind}
    if proved.better is not None:
        content["better"] = better_text(roster, proved).replace(",", ".")
    if proved.with_changes is not None:
        content["with_changes"] = roster.shown_halves(proved.with_changes).replace(",", ".")
    if proved.reasons:
        content["reasons"] = [reason._asdict() for reason in proved.reasons]
        content["is_minimal"] = proved.is_minimal
    if len(proved.whys) > 1 or any(why.by for why in proved.whys):
        content["conflicts"] = [{"reasons": [reason.sentence for reason in why.reasons], "is_minimal": why.is_minimal,
                                 **({"short_by": why.by} if why.by else {})} for why in proved.whys]
    if proved.missing:
        content["missing"], content["least_missing"] = proved.missing, proved.least_missing
    if proved.has_prices:
        content["missed_cost"] = roster.plain(proved.missed_cost)
        content["missed"] = [{**one.broken._asdict(), "amount": one.amount, "cost": roster.plain(one.cost)}
                             for one in proved.missed]
    if proved.even:
        content["even"], content["is_most_even"] = [even._asdict() for even in proved.even], proved.is_most_even
    if proved.following:
        content["following"] = [_next_content(roster, found) for found in proved.following]
    if proved.otherwise is not None and proved.otherwise_cost is not None:
        without = as_content(roster, proved.otherwise)
        without["cost"] = roster.plain(proved.otherwise_cost)
        content["without_evenness"] = without
    return content


def _next_content(roster: Roster, found: Next) -> Content:
    """A next plan, for JSON: its pairs, what it costs and misses, and by how much others after it may be better."""
    if found.plan is None:
        return {"proved": IMPOSSIBLE if found.is_none else UNDECIDED}
    pairs = [{"person": roster.persons[pair.person], "object": roster.objects[pair.object],
              "cost": roster.plain(pair.cost)} for pair in found.plan.pairs]
    content: Content = {"cost": roster.plain(found.plan.cost), "missed_cost": roster.plain(found.missed_cost),
                        "pairs": pairs}
    return content if found.better is None else {**content, "better": roster.plain(found.better)}
