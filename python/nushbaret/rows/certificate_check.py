"""The check of certificates: by the library's proved check, `nushbaret_rows`, or here in Python's whole numbers."""
import ctypes
from array import array
from typing import Any, Dict, Iterable, Iterator, List, NamedTuple, Optional, Sequence, Tuple

from ..lap.library import LIST, LibraryNotFound, function
from .certificates import Lists, certificate_of, lists_of, refuse_unfit
from .model import Certificate, Limits, Terms, bounds_costs

MOST_DEPTH = 1000
SHOWN = 0
# Of the codes, these say that the library can't decide: a sum is too great, or memory was refused.
_UNDECIDED = (2, 13)
_LISTS = 7
_NO_LEAST, _NO_MOST = -2**63, 2**63 - 1
_KINDS = (ctypes.c_size_t, *LIST * _LISTS, ctypes.c_void_p)


class _Info(ctypes.Structure):
    _fields_ = [("cost", ctypes.c_int64), ("place", ctypes.c_uint64)]


def _rows_call() -> Any:
    """The library's call; None where there is no library of this version."""
    try:
        return function("rows", *_KINDS)
    except LibraryNotFound:
        return None


def _bounds(values: Iterable[Optional[int]], absent: int) -> "array[int]":
    """Bounds of 64 bits with `absent` where there is none. A bound that is that number itself can't be said."""
    numbers = [absent if value is None else value for value in values]
    return array("q", numbers)


def shown_by_library(certificate: Certificate) -> Optional[bool]:
    """Whether the library shows a certificate's claim; None where it can't decide: it isn't there, or a number is too
    great."""
    if certificate.plan is not None and certificate.variables == 0:
        return None
    return lists_shown_by_library(lists_of(certificate))


def lists_shown_by_library(lists: Lists) -> Optional[bool]:
    """The same of a certificate's lists, which fit one another."""
    # These bounds the library takes for none.
    if _NO_LEAST in lists.least or _NO_MOST in lists.most:
        return None
    try:
        return _shown(lists.n, (array("Q", lists.starts), array("I", lists.variables), array("q", lists.coefficients),
                                _bounds(lists.least, _NO_LEAST), _bounds(lists.most, _NO_MOST), array("B", lists.plan),
                                array("q", lists.tree)))
    except (OverflowError, ValueError):
        return None


def _shown(variables: int, lists: Tuple["array[Any]", ...]) -> Optional[bool]:
    """What the library says of its lists."""
    call = _rows_call()
    if call is None:
        return None
    info, spare = _Info(), array("q", [0])
    arguments: List[Any] = []
    for values in lists:
        arguments += (values.buffer_info()[0] if values else spare.buffer_info()[0], len(values))
    code = call(variables, *arguments, ctypes.byref(info))
    return None if code in _UNDECIDED else bool(code == SHOWN)


class WrongTree(ValueError):
    """The list of a tree isn't one, or it names a row or a variable that isn't there."""


class _TreeNode(NamedTuple):
    is_leaf: bool
    pairs: List[Tuple[int, int]]
    most: int
    after: int


def shows(certificate: Certificate) -> bool:
    """Whether a certificate shows that no plan meets its rows, and its plan, where it has one, meets all but the last,
    which bounds the costs.
    The library says so; where it isn't there, or a number is beyond 64 bits, this module does."""
    is_shown = shown_by_library(certificate)
    return shows_here(certificate) if is_shown is None else is_shown


def lists_show(lists: Lists) -> bool:
    """The same of a certificate's lists; raises `CertificateFault` where they don't fit one another."""
    refuse_unfit(lists)
    is_shown = lists_shown_by_library(lists)
    return shows_here(certificate_of(lists)) if is_shown is None else is_shown


def shows_here(certificate: Certificate) -> bool:
    """The same by this module alone."""
    plan, rows = certificate.plan, certificate.rows
    if plan is not None and not (bounds_costs(rows) and len(plan) == certificate.variables and set(plan) <= {0, 1}
                                 and meets(plan, rows[:-1])):
        return False
    try:
        return all(_is_shown(leaf, rows, path) for leaf, path in _leaves(certificate))
    except WrongTree:
        return False


def meets(plan: Sequence[int], rows: Sequence[Limits]) -> bool:
    """Whether a 0/1 plan meets all rows."""
    return all(_within(row, sum(factor for variable, factor in row.terms if plan[variable])) for row in rows)


def _within(row: Limits, value: int) -> bool:
    return (row.least is None or row.least <= value) and (row.most is None or value <= row.most)


def _leaves(certificate: Certificate) -> Iterator[Tuple[_TreeNode, List[Limits]]]:
    """The leaves, each with the rows of the splits above it."""
    path: List[Limits] = []
    # Of each split above: its terms, the greatest sum of the half below, and whether that half is done.
    place, are_done = 0, [False]
    while are_done:
        node = _node(certificate.tree, place)
        place = node.after
        if not node.is_leaf:
            if len(path) >= MOST_DEPTH or any(not 0 <= variable < certificate.variables for variable, _ in node.pairs):
                raise WrongTree
            path.append(Limits(None, tuple(node.pairs), node.most))
            are_done.append(False)
            continue
        yield node, path
        while len(are_done) > 1 and are_done[-1]:
            are_done.pop()
            path.pop()
        if len(are_done) == 1:
            break
        are_done[-1] = True
        below = path.pop()
        path.append(Limits((below.most or 0) + 1, below.terms, None))
    if place != len(certificate.tree):
        raise WrongTree


def _node(tree: Sequence[int], place: int) -> _TreeNode:
    """The node that begins at a place."""
    head = 2 if place < len(tree) and tree[place] == 0 else 3
    if place + head > len(tree) or tree[place] not in (0, 1) or not 0 <= tree[place + 1] <= len(tree):
        raise WrongTree
    after = place + head + 2 * tree[place + 1]
    if after > len(tree):
        raise WrongTree
    numbers = tree[place + head:after]
    return _TreeNode(head == 2, list(zip(numbers[::2], numbers[1::2])), tree[place + 2] if head == 3 else 0, after)


def _is_shown(leaf: _TreeNode, rows: Sequence[Limits], path: Sequence[Limits]) -> bool:
    """Whether no 0/1 plan reaches the weighed sum of a leaf's rows."""
    weights: Dict[int, int] = {}
    bound = 0
    for number, factor in leaf.pairs:
        if not 0 <= number < len(rows) + len(path):
            raise WrongTree
        row = rows[number] if number < len(rows) else path[number - len(rows)]
        side = 0 if factor == 0 else row.least if factor > 0 else row.most
        if side is None:
            return False
        bound += factor * side
        _add(weights, row.terms, factor)
    return sum(weight for weight in weights.values() if weight > 0) < bound


def _add(weights: Dict[int, int], terms: Terms, factor: int) -> None:
    for variable, coefficient in terms:
        weights[variable] = weights.get(variable, 0) + factor * coefficient
