"""What the command says: lines for people, and the plan as CSV."""
import csv
import io
from collections import Counter
from typing import TYPE_CHECKING, Dict, Iterable, List, NamedTuple, Optional, Sequence, Tuple

from ..answer import (MOST_NAMES_SHOWN, PLURALS, Answer, Fair, Lost, NamedPlan, Pair, by_person, changes_of, counted,
    left_out, named, sentence)
from ..groups import Broken, Counts, order_of
from ..names import guarded, joined, marked, quoted, said, shown_path, with_names_marked
from ..roster import CHANGE, COMES, GOES, NOT_POSSIBLE, TITLES, OldPlan, PlanLine, Roster, alike, like
from ..sheets import SEPARATORS
from ..words import Options

if TYPE_CHECKING:
    from ..rules.rule_file import Ruling
    from ..rules.stages import Proved


class Hand(NamedTuple):
    """A plan from elsewhere, the rules that it breaks, by how much it and the best plan miss least counts, and what it
    misses costs that has a price."""

    plan: OldPlan
    broken: Sequence[Broken]
    lack: int
    best_lack: int = 0
    missed: int = 0

    @property
    def is_comparable(self) -> bool:
        """Whether it keeps all rules, or misses as much as the best plan and keeps all others."""
        return self.lack == self.best_lack and all(broken.rule == "least" for broken in self.broken)


class Report(NamedTuple):
    """All that is said of a run: what was asked for, the answer, the plans that were read, what fairness costs, what
    was proved of a roster with rules, and the rules."""

    options: Options
    roster: Roster
    answer: Answer
    kept: Optional[OldPlan] = None
    hand: Optional[Hand] = None
    fair: Optional[Fair] = None
    proved: Optional["Proved"] = None
    ruling: Optional["Ruling"] = None

    @property
    def alarms(self) -> int:
        """How many of the first lines say why there is no plan."""
        if self.proved is None:
            return len(self.answer.groups)
        from .rule_texts import reason_lines
        return len(reason_lines(self.proved))


class Note(NamedTuple):
    """A line on the plan, and what it is about, one by one."""

    line: str
    details: Sequence[str] = ()


def read_lines(path: str, roster: Roster, on_terminal: bool) -> List[str]:
    """What standard error says of a roster: on a terminal how much was read and how names count, and always which names
    are hardly two."""
    lines = []
    if on_terminal:
        persons, objects = counted(len(roster.persons), roster.titles[0]), counted(len(roster.objects),
                                                                                   roster.titles[1])
        rule = ("" if not roster.ruled else "; bounds: each name's counts are kept" if roster.has_bounds
                else "; single counts: the side with the smaller sum takes all")
        lines.append(f"{persons}, {objects}, {counted(len(roster.costs), 'pair')}{rule}")
    groups = alike(roster.persons) + alike(roster.objects)
    lines += [f"{shown_path(path)}: {said('alike', ', '.join(map(quoted, group)))}"
              for group in groups[:MOST_NAMES_SHOWN]]
    if len(groups) > MOST_NAMES_SHOWN:
        lines.append(f"{shown_path(path)}: {said('more alike', len(groups) - MOST_NAMES_SHOWN)}")
    return lines


def with_marks(report: Report) -> Report:
    """A report whose texts have marks around names."""
    groups, kept, hand = report.roster.groups, report.kept, report.hand
    if groups is not None:
        groups = groups._replace(title=_title(groups.title), names=list(map(marked, groups.names)))
    if kept is not None:
        kept = kept._replace(named=[pair._replace(person=marked(pair.person), object=marked(pair.object))
                                    for pair in kept.named], gone=list(map(marked, kept.gone)))
    if hand is not None:
        hand = hand._replace(broken=list(map(_broken_marked, hand.broken)))
    proved = report.proved
    if proved is not None:
        named = [*report.roster.persons, *report.roster.objects]
        missed = [one._replace(broken=_broken_marked(one.broken)) for one in proved.missed]
        proved = proved._replace(missed=missed, whys=[why._replace(reasons=[
            reason._replace(sentence=with_names_marked(reason.sentence, named), about=list(map(marked, reason.about)))
            for reason in why.reasons]) for why in proved.whys])
    persons, objects = list(map(marked, report.roster.persons)), list(map(marked, report.roster.objects))
    person, object_, cost = map(_title, report.roster.titles)
    roster = report.roster._replace(persons=persons, objects=objects, groups=groups,
                                    person_numbers=_numbers_of(persons), object_numbers=_numbers_of(objects),
                                    titles=(person, object_, cost))
    return report._replace(roster=roster, kept=kept, hand=hand, proved=proved)


def _broken_marked(broken: Broken) -> Broken:
    return broken._replace(sentence=with_names_marked(broken.sentence, (*broken.persons, *broken.objects)))


def _title(title: str) -> str:
    """A title with marks, unless it is a word of ours."""
    return title if title in PLURALS or title in TITLES else marked(title)


def _numbers_of(names: List[str]) -> Dict[str, int]:
    return {name: number for number, name in enumerate(names)}


def forgotten_line(roster: Roster, counts: Counts, side: int) -> Optional[str]:
    """What standard error says of the persons (side 0) or the objects that have no line in a file of counts; None where
    all have one."""
    names = roster.objects if side else roster.persons
    numbers = [number for number in range(len(names)) if number not in counts.bounds]
    if not numbers:
        return None
    bound = "" if not roster.has_bounds else "exactly " if side else "at most "
    takes = said("takes" if len(numbers) == 1 else "each takes")
    text = said("no count line", named(numbers, roster.titles[side], names), takes, bound)
    return f"{shown_path(counts.path)}: {text}"


def gone_line(plan: OldPlan, roster: Roster) -> str:
    """What an earlier plan has and the roster has no more, or under another name."""
    names = [name for name in roster.persons + roster.objects if name not in plan.gone]
    near = [like(name, names) if len(plan.gone) <= MOST_NAMES_SHOWN else [] for name in plan.gone]
    shown = [name + (f" (did you mean {' or '.join(those)}?)" if those else "") for name, those in zip(plan.gone, near)]
    return f"{shown_path(plan.path)}: the roster has no {', '.join(shown)}"


def first_lines(report: Report) -> List[str]:
    """A sentence for each group that is short, with marks around names, and the cost of the plan."""
    roster, answer = report.roster, report.answer
    lines = [sentence(roster, short, bool(report.options.fixed)) for short in answer.groups]
    if report.proved is not None:
        from .rule_texts import first_lines as lines_with_rules
        lines = lines_with_rules(roster, answer.plan, report.proved, report.options.max)
    elif answer.plan is not None:
        lines.append(_cost_line(report, answer.plan))
    if answer.plan is not None and roster.rounded:
        lines.append(_rounding_line(report, answer.plan))
    return lines


def _cost_line(report: Report, plan: NamedPlan) -> str:
    """What the plan costs, and among which plans that is best."""
    roster, options = report.roster, report.options
    which, title, own = "greatest" if options.max else "least", roster.titles[2], roster.shown(plan.cost)
    if report.answer.groups:
        title = said("of pairs that miss least" if roster.has_bounds else "of pairs", title, len(plan.pairs))
    if report.fair:
        bound = report.fair.pair and roster.shown(report.fair.pair.cost)
        side = f" {_not_fixed(report.answer.plan)}{'below' if options.max else 'above'} {bound}" if bound else ""
        title += " with no pair" + side
    if options.change_cost is not None:
        return f"{title}: {own}, the {which} with changes at {options.change_cost} each"
    return f"{which} {title}: {own}"


def _rounding_line(report: Report, plan: NamedPlan) -> str:
    """By how much another plan may be better for the costs before they were rounded: half a unit for each pair of both
    plans that isn't given, and what isn't proved of the rounded costs."""
    roster, proved = report.roster, report.proved
    better = 0 if proved is None else proved.better
    if better is None:
        return "costs were rounded, and nothing is proved for the exact ones"
    with_changes = report.options.change_cost is not None
    fixed = sum(pair.fixed for pair in plan.pairs)
    most = len(plan.pairs) if not roster.has_bounds and proved is None else _most_pairs(roster, plan)
    half_units = len(plan.pairs) + most - 2 * fixed + (better if with_changes else 2 * better)
    counted_in = " with changes" if with_changes else ""
    return (f"costs were rounded: another plan may be better for the exact ones{counted_in}, by "
            f"{roster.shown_halves(half_units)} at most")


def _most_pairs(roster: Roster, plan: NamedPlan) -> int:
    """No plan has more pairs: those of the past stand, and each other one needs room on both sides."""
    past = Counter(pair.person for pair in plan.pairs if pair.object in roster.past)
    given = sum(pair.fixed and pair.object not in roster.past for pair in plan.pairs)
    allowed = given + sum(object_ not in roster.past for object_ in roster.of_objects)
    of_persons = sum(max(0, roster.tasks_of(person) - past[person]) for person in range(len(roster.persons)))
    of_objects = sum(roster.capacity_of(object_) for object_ in range(len(roster.objects))
                     if object_ not in roster.past)
    return sum(past.values()) + min(allowed, of_persons, of_objects)


def _not_fixed(plan: Optional[NamedPlan]) -> str:
    """That some pairs are given, where any is."""
    return "that isn't fixed " if plan is not None and any(pair.fixed for pair in plan.pairs) else ""


def printed(report: Report) -> List[str]:
    """The plan by names, who and what stays out, and what there is to say of it."""
    plan, notes = report.answer.plan, broken_rules(report.hand)
    lines: List[str] = []
    if plan is not None:
        lines = rows_of(report.roster, plan) + [f"{out.how}: {joined(out.names)}"
                                                for out in left_out(report.roster, plan)]
        notes = notes_of(report, plan)
    for note in notes:
        lines += [note.line, *("  " + detail for detail in note.details)]
    return lines


def notes_of(report: Report, plan: NamedPlan) -> List[Note]:
    """Other plans, the rents, and how the plan compares with plans that were read."""
    roster, options = report.roster, report.options
    notes = [fairness(report, report.fair)] if report.fair else []
    notes += others(report, plan) if report.proved is None else _of_rules(report, plan, report.proved)
    if options.plans > 1 and report.proved is None:
        notes += [_difference(report, plan, other, f"plan {number}") for number, other in enumerate(plan.following, 2)]
    if options.rents:
        notes += [Note(f"rent of {roster.objects[number]}: {roster.shown(rent)}")
                  for number, rent in plan.rents.items()]
    notes += [changes(roster, plan, report.kept)] if report.kept else []
    return notes + broken_rules(report.hand) + ([compared(report, plan, report.hand)] if report.hand else [])


def _of_rules(report: Report, plan: NamedPlan, proved: "Proved") -> List[Note]:
    """How even counts are, whether fewer changes may be enough, and the next plans."""
    from .rule_texts import even_lines, following_lines, missed_lines
    missed = missed_lines(report.roster, proved)
    fewer = ([Note(f"{shown_path(report.kept.path)}: fewer changes may be enough")]
             if report.kept and proved.fewer_changes else [])
    return [*([Note(missed[0], missed[1:])] if missed else []),
            *map(Note, even_lines(report.roster, proved, report.options.max)), *fewer,
            *(Note(line, there(report.roster, before, plan.pairs) if plan else ())
              for line, before, plan in following_lines(report.roster, plan, proved, report.options))]


def rows_of(roster: Roster, plan: NamedPlan) -> List[str]:
    """Each person with all of its own, then, if any object may have several, each object with all of its own."""
    own: Dict[int, List[str]] = {}
    for pair in plan.pairs:
        why = "" if not pair.fixed else " (past)" if pair.object in roster.past else " (fixed)"
        own.setdefault(pair.person, []).append(f"{roster.objects[pair.object]}, {roster.shown(pair.cost)}{why}")
    lines = [f"{roster.persons[person]}{_times(roster, len(texts))}: {'; '.join(texts)}"
             for person, texts in own.items()]
    return lines + [f"at {roster.objects[object_]}{_times(roster, len(who))}: {joined(who)}"
                    for object_, who in persons_at(roster, plan)]


def persons_at(roster: Roster, plan: NamedPlan) -> List[Tuple[int, List[str]]]:
    """Who is at each object that is in a pair, in the roster's order, or the groups'; nothing where no object may have
    several."""
    if all(roster.capacity_of(object_) <= 1 for object_ in range(len(roster.objects))):
        return []
    who: Dict[int, List[str]] = {}
    for pair in plan.pairs:
        who.setdefault(pair.object, []).append(roster.persons[pair.person])
    ranks = order_of(roster)
    return sorted(who.items(), key=lambda those: ranks[those[0]])


def _times(roster: Roster, count: int) -> str:
    """How often a name is used, where that isn't once and isn't what its count says."""
    return f" ({count})" if count != 1 and (roster.has_bounds or roster.groups is not None) else ""


def pair_text(roster: Roster, pair: Pair) -> str:
    """A pair in a line."""
    return f"{roster.persons[pair.person]}, {roster.objects[pair.object]}, {roster.shown(pair.cost)}"


def fairness(report: Report, fair: Fair) -> Note:
    """Which pair is the dearest, and what fairness costs."""
    roster, maximize = report.roster, report.options.max
    kind, which = ("cheapest", "greatest") if maximize else ("dearest", "least")
    pair = f"{kind} pair {_not_fixed(report.answer.plan)}".rstrip()
    best = f"the {which} {roster.titles[2]} is {roster.shown(fair.best.cost)}, with {pair_text(roster, fair.best_pair)}"
    if fair.pair is None:
        return Note(f"no pair is needed; {best}")
    if fair.best_pair.cost == fair.pair.cost:
        return Note(f"{pair}: {pair_text(roster, fair.pair)}; this is also the {which} {roster.titles[2]} of all")
    return Note(f"{pair}: {pair_text(roster, fair.pair)}; {best}")


def others(report: Report, plan: NamedPlan) -> List[Note]:
    """That there are other best plans, and where it is asked for, who could swap, or the next best plan."""
    roster, options = report.roster, report.options
    if not options.others:
        is_shown = not plan.is_only_one and not options.keep and options.plans < 2 and not options.fair
        return [Note("other plans are as good: --others shows who could change places")] if is_shown else []
    if plan.swaps:
        return [Note(said("swap", named(swap.persons, roster.titles[0], roster.persons),
                          named(swap.objects, roster.titles[1], roster.objects))) for swap in plan.swaps]
    if not plan.following:
        return [Note(said("only plan"))]
    return [_difference(report, plan, plan.following[0], said("only plan") + ": the next best is", " ")]


def _difference(report: Report, plan: NamedPlan, other: NamedPlan, name: str, mark: str = ": ") -> Note:
    """Another plan: its cost, and where it differs."""
    roster = report.roster
    more = abs(other.cost - plan.cost)
    cost = f"{roster.shown(other.cost)}, " + (f"{roster.shown(more)} {'less' if report.options.max else 'more'}" if more
                                              else "as good")
    return Note(f"{name}{mark}{cost}", there(roster, plan, other.pairs))


def there(roster: Roster, plan: NamedPlan, pairs: Sequence[Pair]) -> List[str]:
    """What each person has in another plan that it hasn't in the plan; that it has nothing there; and where names
    count, what it hasn't."""
    own, others = ({(pair.person, pair.object) for pair in those} for those in (plan.pairs, pairs))
    some = {person for person, _ in others}
    lines: Dict[int, List[str]] = {}
    for pair in pairs:
        if (pair.person, pair.object) not in own:
            lines.setdefault(pair.person, []).append(f"{roster.objects[pair.object]}, {roster.shown(pair.cost)}")
    for pair in plan.pairs:
        if pair.person not in some:
            lines[pair.person] = ["nothing"]
        elif roster.ruled and (pair.person, pair.object) not in others:
            lines.setdefault(pair.person, []).append(f"not {roster.objects[pair.object]}")
    return [f"there {roster.persons[person]}: {text}" for person in sorted(lines) for text in lines[person]]


def changes(roster: Roster, plan: NamedPlan, kept: OldPlan) -> Note:
    """How many pairs come and go from an earlier plan, and whose; and what can't be any more."""
    found = changes_of(roster, plan, kept)
    goes = str(len(found.goes)) if found.comes else counted(len(found.goes), "pair")
    counts = _moved("come", found.comes, counted(len(found.comes), "pair")) + _moved("go", found.goes, goes)
    details = [f"{own.person}: " + "; ".join(_moved("go", own.goes, joined(own.goes))
                                             + _moved("come", own.comes, joined(own.comes)))
               for own in by_person(roster, found)]
    return Note(f"{shown_path(kept.path)}: {', '.join(counts) or said('no change')}", details + _lost_lines(found.lost))


def _moved(way: str, those: Sequence[object], what: str) -> List[str]:
    """What comes, or goes."""
    return [said(f"{way} alone" if len(those) == 1 else way, what)] if those else []


def _lost_lines(lost: Sequence[Lost]) -> List[str]:
    """What of an earlier plan can't be any more, by person and reason."""
    names: Dict[Tuple[str, str], List[str]] = {}
    for pair in lost:
        names.setdefault((pair.person, pair.why), []).append(pair.object)
    return [f"{person}: {joined(own)} {NOT_POSSIBLE} now ({why})" for (person, why), own in names.items()]


def broken_rules(hand: Optional[Hand]) -> List[Note]:
    """Which rules a plan from elsewhere breaks."""
    if hand is None or not hand.broken:
        return []
    count = len(hand.broken)
    return [Note(f"{shown_path(hand.plan.path)}: breaks {count} rule{'' if count == 1 else 's'}",
                 [broken.sentence for broken in hand.broken])]


def worse_by(report: Report, plan: NamedPlan, hand: Hand) -> int:
    """By how much a plan from elsewhere is worse than the best, with what each misses that has a price."""
    more = sum(pair.cost for pair in hand.plan.known) - plan.cost
    missed = hand.missed - (0 if report.proved is None else report.proved.missed_cost)
    return missed - more if report.options.max else missed + more


def only_there(plan: NamedPlan, hand: OldPlan) -> List[PlanLine]:
    """The pairs of a plan from elsewhere that the best doesn't have."""
    own = {(pair.person, pair.object) for pair in plan.pairs}
    return [pair for pair in sorted(hand.known) if (pair.person, pair.object) not in own]


def compared(report: Report, plan: NamedPlan, hand: Hand) -> Note:
    """By how much a plan from elsewhere is worse than the best, or better as far as it breaks rules, and where the two
    differ."""
    roster, own = report.roster, hand.plan
    cost = sum(pair.cost for pair in own.known)
    more = -worse_by(report, plan, hand) if report.options.max else worse_by(report, plan, hand)
    size = f"{roster.shown(abs(more))} {'more' if more > 0 else 'less'} than" if more else "as good as"
    of_pairs = (f" for {counted(len(own.known), 'pair')} that the roster allows" if len(own.known) < len(own.named)
                else "")
    of_pairs += f" and {roster.shown(hand.missed)} missed" if hand.missed else ""
    rest = "" if hand.is_comparable or hand.best_lack else ", which breaks none"
    rest = ", which misses less" if hand.lack > hand.best_lack > 0 else rest
    is_best = report.options.change_cost is None if report.proved is None else report.proved.better == 0
    best = "the best" if is_best else "this plan"
    return Note(f"{shown_path(own.path)}: {roster.shown(cost)}{of_pairs}, {size} {best}{rest}",
                [f"there {roster.persons[pair.person]}: {roster.objects[pair.object]}, {roster.shown(pair.cost)}"
                 for pair in only_there(plan, own)])


def as_csv(roster: Roster, plan: NamedPlan) -> str:
    """The pairs as a roster of lines, with the titles, the separator and the decimal mark of the roster that was
    read."""
    return _csv(roster, roster.titles, ((roster.persons[pair.person], roster.objects[pair.object],
                                         roster.shown(pair.cost)) for pair in plan.pairs))


def changes_as_csv(roster: Roster, plan: NamedPlan, kept: OldPlan) -> str:
    """What comes, what goes, and what isn't possible now of an earlier plan: a pair in each line."""
    found = changes_of(roster, plan, kept)
    changed: List[Tuple[int, int, str]] = [*((pair.person, pair.object, GOES) for pair in found.goes),
                                           *((pair.person, pair.object, COMES) for pair in found.comes)]
    changed.sort(key=lambda own: own[0])
    lines = [(roster.persons[person], roster.objects[object_], word) for person, object_, word in changed]
    lost = [(pair.person, pair.object, NOT_POSSIBLE) for pair in found.lost]
    return _csv(roster, (*roster.titles[:2], CHANGE), lines + lost)


def _csv(roster: Roster, titles: Sequence[str], lines: Iterable[Sequence[str]]) -> str:
    """Lines below titles, as the roster's own file has them."""
    text = io.StringIO()
    text.write("\ufeff" if roster.has_bom else "")
    # Readers take the separator from the title line, so no other may seem to be there.
    is_quoted = any(mark in title for mark in SEPARATORS for title in roster.titles)
    csv.writer(text, delimiter=roster.separator, lineterminator="\n",
               quoting=csv.QUOTE_ALL if is_quoted else csv.QUOTE_MINIMAL).writerow(map(guarded, titles))
    writer = csv.writer(text, delimiter=roster.separator, lineterminator="\n")
    writer.writerows(map(guarded, line) for line in lines)
    return text.getvalue()


def in_encoding_of(roster: Roster, text: str) -> bytes:
    """A text in the encoding of the roster's file, or in UTF-8 with a BOM where that lacks a letter."""
    try:
        return text.encode(roster.encoding)
    except UnicodeEncodeError:
        return text.encode("utf-8-sig")
