"""The whole answer in JSON, for other programs. Costs and rents stand in quotes, exactly, with a point."""
import json
from collections import Counter
from typing import Dict, List, Sequence

from ..answer import NamedPlan, Pair, ShortGroup, by_person, changes_of
from ..groups import missing_of
from ..plan_json import FORMAT
from ..roster import Roster
from .texts import Hand, Report, only_there, worse_by

Content = Dict[str, object]


def _names(names: List[str], numbers: List[int]) -> List[str]:
    return [names[number] for number in numbers]


def _short(roster: Roster, short: ShortGroup, line: str) -> Content:
    """A group that is short; where names count, how many are needed and possible."""
    counts: Content = {"needed": short.wanted, "possible": short.had} if roster.ruled else {}
    names = {"persons": _names(roster.persons, short.persons), "objects": _names(roster.objects, short.objects)}
    return {**names, **counts, "sentence": line}


def _pair(roster: Roster, pair: Pair, cost: str) -> Content:
    """A pair, the group of its object, where it is in one, and whether it is in the past, where there is one."""
    found: Content = {"person": roster.persons[pair.person], "object": roster.objects[pair.object], "cost": cost,
                      "fixed": pair.fixed}
    if roster.past:
        found["past"] = pair.object in roster.past
    if roster.groups is not None and pair.object in roster.groups.of_objects:
        found["group"] = roster.groups.names[roster.groups.of_objects[pair.object]]
    return found


def as_json(report: Report, lines: Sequence[str]) -> str:
    """The answer, with the sentences of groups that are short."""
    roster, answer = report.roster, report.answer
    content: Content = {"format": FORMAT, "sense": "max" if report.options.max else "min"}
    if report.proved is not None:
        from .rule_texts import as_content
        content["rules"] = as_content(roster, report.proved)
    if answer.groups:
        content["short"] = [_short(roster, short, line) for short, line in zip(answer.groups, lines)]
    if answer.plan is not None:
        content.update(_plan(report, answer.plan))
    elif report.hand:
        content["compare"] = _broken(report.hand)
    return json.dumps(content, ensure_ascii=False, indent=1) + "\n"


def _plan(report: Report, plan: NamedPlan) -> Content:
    """The plan, who and what stays out, and what there is to say of it, as far as it was asked for."""
    roster, options, text = report.roster, report.options, report.roster.plain

    def pairs(those: Sequence[Pair]) -> List[Content]:
        return [_pair(roster, pair, text(pair.cost)) for pair in those]

    content: Content = {"cost": text(plan.cost), "pairs": pairs(plan.pairs), **_outside(roster, plan)}
    content["rents"] = {roster.objects[number]: text(rent) for number, rent in plan.rents.items()}
    if report.fair:
        content["fair"] = {"pair": pairs([report.fair.pair])[0] if report.fair.pair else None,
                           "best_cost": text(report.fair.best.cost), "best_pair": pairs([report.fair.best_pair])[0]}
    if options.change_cost is None and not options.fair and report.proved is None:
        content["only_one"] = plan.is_only_one
    if options.others:
        content["swaps"] = [{"persons": _names(roster.persons, swap.persons),
                             "objects": _names(roster.objects, swap.objects)} for swap in plan.swaps]
    if plan.following:
        content["following"] = [{"cost": text(other.cost), "pairs": pairs(other.pairs)} for other in plan.following]
    if report.kept:
        found = changes_of(roster, plan, report.kept)
        content["keep"] = {"plan": report.kept.path, "gone": report.kept.gone,
                           "changes": [own._asdict() for own in by_person(roster, found)],
                           "not_possible": [lost._asdict() for lost in found.lost]}
    if report.hand:
        content["compare"] = _comparison(report, plan, report.hand)
    return content


def _outside(roster: Roster, plan: NamedPlan) -> Content:
    """Who and what has less than it may, or than it must."""
    had, used = Counter(pair.person for pair in plan.pairs), Counter(pair.object for pair in plan.pairs)
    content: Content = {}
    if roster.has_bounds:
        content["missing"] = [{("person", "object")[missing.side]: missing.name, "had": missing.had,
                               "least": missing.least} for missing in missing_of(roster, plan.pairs)]
    content["without"] = [{"person": roster.persons[person], "had": had[person], "most": roster.tasks_of(person)}
                          for person in plan.without]
    content["unused"] = [{"object": roster.objects[object_], "had": used[object_], "most": roster.capacity_of(object_)}
                         for object_ in plan.unused]
    return content


def _broken(hand: Hand) -> Content:
    """A plan from elsewhere, and which rules it breaks."""
    return {"plan": hand.plan.path, "gone": hand.plan.gone, "broken": [broken._asdict() for broken in hand.broken]}


def _comparison(report: Report, plan: NamedPlan, hand: Hand) -> Content:
    """How a plan from elsewhere compares; `worse` where it breaks no rules that the best plan keeps."""
    roster, text = report.roster, report.roster.plain
    content: Content = {**_broken(hand), "cost": text(sum(pair.cost for pair in hand.plan.known))}
    if hand.is_comparable:
        content["worse"] = text(worse_by(report, plan, hand))
    content["only_there"] = [{"person": roster.persons[pair.person], "object": roster.objects[pair.object],
                              "cost": text(pair.cost)} for pair in only_there(plan, hand.plan)]
    return content
