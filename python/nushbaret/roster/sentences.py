"""Sentences on who is short, where counts and groups decide. The numbers of the reasons add up to what can be had. Each
name stands once, with marks around it."""
from collections import Counter
from typing import Dict, Iterator, List, Sequence, Tuple

from ..counts.lack import Lack
from ..counts.counted import Bounds, Counted
from .answer import counted, few
from .names import NamesShown, first_of, marked, numbered, said, with_counts
from .roster import Roster

# So many objects are listed even where they are all of their groups.
MOST_LISTED = 6


def sentence_of(roster: Roster, problem: Counted, lack: Lack) -> str:
    """What a planner reads of a group that is short."""
    return _of_objects(roster, problem, lack) if lack.of_columns else _of_persons(roster, problem, lack)


def _of_objects(roster: Roster, problem: Counted, lack: Lack) -> str:
    """These persons can't fill all places that must be filled."""
    of_once = Counter(person for person, _ in lack.once)
    n_persons = len(lack.rows) + len(of_once)
    is_whole = _are_whole_groups(problem, lack.columns)
    shown = NamesShown(n_persons, 0 if is_whole else len(lack.columns))
    objects = _objects(roster, problem, lack.columns, shown)
    places = said("place" if lack.wanted == 1 else "places", lack.wanted, objects)
    fewer = said("fill fewer", few(lack)) if lack.had else said("fill none")
    if not n_persons:
        return said("nobody", places, fewer)
    reasons = [*_most(roster.persons, problem.row_bounds, lack.rows, shown, 0),
               *_once(roster, problem, lack, of_once, shown)]
    return said("take too few", counted(n_persons, roster.titles[0]), lack.had, places, "; ".join(reasons), fewer)


def _of_persons(roster: Roster, problem: Counted, lack: Lack) -> str:
    """These persons can't have all objects that they must."""
    single = sorted({group - problem.n_groups for _, group in lack.once if group >= problem.n_groups})
    shown = NamesShown(len(lack.rows), len(lack.columns) + len(single))
    names = with_counts(numbered(roster.persons, lack.rows), [problem.row_bounds[person].least for person in lack.rows])
    several = len(lack.rows) > 1
    who = (counted(len(lack.rows), roster.titles[0]) + shown.bracketed(0, names) if several
           else marked(roster.persons[lack.rows[0]]))
    them = said("them") if several else said("this", roster.titles[0])
    must = said("must between them" if several else "must", who, counted(lack.wanted, roster.titles[1]))
    if not lack.columns and not lack.once:
        return said("may take none", must, them)
    reasons = [*_most(roster.objects, problem.column_bounds, lack.columns, shown, 1)]
    groups = sorted({group for _, group in lack.once if group < problem.n_groups})
    rules = [f"{said('one of each', roster.groups.title)} "
             f"({first_of(numbered(roster.groups.names, groups))})"] if groups and roster.groups else []
    rules += ([said("once at each", roster.titles[1]) + shown.bracketed(1, numbered(roster.objects, single))] if single
              else [])
    if rules:
        reasons.append((said("elsewhere", len(lack.once)) if lack.columns else "") + ", ".join(rules))
    return said("must too many", must, lack.had, "; ".join(reasons), them, few(lack))


def _are_whole_groups(problem: Counted, objects: List[int]) -> bool:
    """Whether many objects are all of their groups, and so needn't be listed."""
    groups = {problem.group_of[object_] for object_ in objects}
    return (len(objects) > MOST_LISTED and max(groups) < problem.n_groups
            and len(objects) == sum(group in groups for group in problem.group_of))


def _objects(roster: Roster, problem: Counted, objects: List[int], shown: NamesShown) -> str:
    """Objects with their least counts, and their groups where all are in one."""
    count = counted(len(objects), roster.titles[1])
    is_whole = _are_whole_groups(problem, objects)
    names = "" if is_whole else shown.bracketed(1, with_counts(
        numbered(roster.objects, objects), [problem.column_bounds[object_].least for object_ in objects]))
    groups = sorted({problem.group_of[object_] for object_ in objects})
    if roster.groups is None or groups[-1] >= problem.n_groups:
        return count + names
    return said("all of groups" if is_whole else "of groups", count + names,
                _groups(roster.groups.title, numbered(roster.groups.names, groups)))


def _groups(title: str, names: List[str]) -> str:
    """Groups by name, the first of many."""
    return f"{title} {names[0]}" if len(names) == 1 else f"{counted(len(names), title)} ({first_of(names)})"


def _at_most(count: int, own: Sequence[int]) -> str:
    return said("at most", count) + (said("each") if len(own) > 1 else "")


def _most(names: List[str], bounds: Sequence[Bounds], numbers: List[int], shown: NamesShown,
          side: int) -> Iterator[str]:
    """What each takes at most, those of one count together."""
    by_count: Dict[int, List[int]] = {}
    for number in numbers:
        by_count.setdefault(bounds[number].most, []).append(number)
    for most, own in sorted(by_count.items(), reverse=True):
        yield _those(numbered(names, own), _at_most(most, own) if most else said("none"), shown, side)


def _once(roster: Roster, problem: Counted, lack: Lack, of_once: Dict[int, int], shown: NamesShown) -> Iterator[str]:
    """Who takes at most one of a group, or once of an object, and so how many; those of one number together."""
    groups_of: Dict[int, List[int]] = {}
    for person, group in lack.once:
        groups_of.setdefault(person, []).append(group)
    by_rule: Dict[Tuple[int, str], List[int]] = {}
    for person in sorted(groups_of):
        by_rule.setdefault((of_once[person], _rule(roster, problem, groups_of[person])), []).append(person)
    for (count, rule), own in sorted(by_rule.items(), reverse=True):
        yield _those(numbered(roster.persons, own), said("so", rule, _at_most(count, own)), shown, 0)


def _those(names: List[str], what: str, shown: NamesShown, side: int) -> str:
    """What is said of several names, or of one."""
    text = shown.listed(side, names)
    if len(names) == 1:
        return f"{text or said('one')} {what}"
    return f"{len(names)} {what}" + (f" ({text})" if text else "")


def _rule(roster: Roster, problem: Counted, groups: Sequence[int]) -> str:
    """Why somebody takes one of each of these at most: groups, or single objects, whose numbers come after those of
    groups."""
    rules = []
    if roster.groups is not None and min(groups) < problem.n_groups:
        rules.append(said("one of each", roster.groups.title))
    if max(groups) >= problem.n_groups:
        rules.append(said("once at each", roster.titles[1]))
    return ", ".join(rules)
