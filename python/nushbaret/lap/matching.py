"""Greatest matchings, which the library finds and proves, and every group that is short: from one greatest matching
these are all nodes that an unmatched one reaches, in connected parts."""
from array import array
from itertools import compress, islice
from operator import le
from typing import Any, Dict, Iterable, List, Mapping, NamedTuple, Set, Tuple

from ..costs.problem import AssignmentProblem
from . import library
from .counts_call import BEST, Written, searched_counts

Lists = Dict[int, List[int]]


def _matched(count: int, other: int, nodes: Any, others: Any) -> Written:
    """A greatest matching: node nodes[k] may have others[k], both from 1, nodes rising. As a problem with counts: each
    takes at most one, and each pair costs -1. The number of a node is 0 if an unmatched one reaches it, and -1
    otherwise."""
    none, one = array("I", [0]), array("I", [1])
    written = searched_counts([nodes, others, array("q", [-1]) * len(nodes), none * count, one * count, none * other,
                               one * other, none[:0]], count, other)
    if written.code != BEST:
        raise RuntimeError("no pairs were found to be possible: please report this problem")
    return written


def most_assigned(problem: AssignmentProblem) -> int:
    """The greatest number of rows that can have a column each, which the library proves."""
    if not min(problem.n_rows, problem.n_columns):
        return 0
    return sum(_matched(problem.n_rows, problem.n_columns, *by_nodes(problem.persons, problem.objects)).plan)


def by_nodes(*lists: Any) -> List[Any]:
    """Lists of pairs, by rising numbers of the first one."""
    nodes = lists[0]
    if hasattr(nodes, "dtype"):
        order = nodes.argsort(kind="stable")
        return [own[order] for own in lists]
    if all(map(le, nodes, islice(nodes, 1, None))):
        return [*lists]
    places = sorted(range(len(nodes)), key=nodes.__getitem__)
    return [array(own.typecode, map(own.__getitem__, places)) for own in lists]


class Group(NamedTuple):
    """Nodes of one side, and all nodes of the other side that these list, which are fewer."""

    many: List[int]
    few: List[int]


def short_groups(problem: AssignmentProblem) -> List[Tuple[List[int], List[int]]]:
    """Rows and columns of each group that is short in a problem that lists its pairs: of its rows, or of its columns
    where these are fewer. The groups come in the order of their first nodes, each proved by the library."""
    of_columns = problem.n_rows > problem.n_columns
    count, other = sorted((problem.n_rows, problem.n_columns))
    nodes, others = (problem.objects, problem.persons) if of_columns else (problem.persons, problem.objects)
    lists = _reached(count, other, *by_nodes(nodes, others))
    groups = [Group(part, sorted(set().union(*map(lists.__getitem__, part)))) for part in connected(lists)]
    for group in groups:
        prove_short(group, lists)
    return [(group.few, group.many) if of_columns else (group.many, group.few) for group in groups]


def _reached(count: int, other: int, nodes: Any, others: Any) -> Lists:
    """What each node lists, from 0, that an unmatched one reaches in a greatest matching."""
    if not other:
        return {node: [] for node in range(count)}
    numbers = _matched(count, other, nodes, others).numbers[0]
    lists: Lists = {node: [] for node, number in enumerate(numbers) if not number}
    nodes, others = memoryview(nodes), memoryview(others)
    is_reached = bytes(not numbers[node - 1] for node in nodes)
    for node, item in zip(compress(nodes, is_reached), compress(others, is_reached)):
        lists[node - 1].append(item - 1)
    return lists


def connected(links: Mapping[int, Iterable[Any]]) -> List[List[int]]:
    """The connected parts of names, by what they are linked to, in the order of the first ones."""
    back: Dict[Any, List[int]] = {}
    for name, ends in links.items():
        for end in ends:
            back.setdefault(end, []).append(name)
    parts: List[List[int]] = []
    seen: Set[int] = set()
    for first in links:
        part, waiting = {first}, [] if first in seen else [first]
        while waiting:
            fresh = {name for end in links[waiting.pop()] for name in back.pop(end, ())} - part
            part |= fresh
            waiting += fresh
        parts += [] if first in seen else [sorted(part)]
        seen |= part
    return parts


def prove_short(group: Group, lists: Lists) -> None:
    """Lets the library check that these nodes list just these others, which are fewer."""
    place = {item: number for number, item in enumerate(group.few, 1)}
    own = array("I", [number for number, node in enumerate(group.many, 1) for _ in lists[node]])
    others = array("I", [place[item] for node in group.many for item in lists[node]])
    many, few = len(group.many), len(group.few)
    code, _ = library.call("check_hall", None, many, max(many, few), own, others, array("q", bytes(8 * len(own))),
                           array("I", range(1, many + 1)), array("I", range(1, few + 1)))
    if code != "HALL":
        raise RuntimeError(f"a group was found to be short, and the library says otherwise: {code}")
