"""Files of certificates: rows, a plan where there is one, and a tree, as lists of whole numbers in a text."""
import pathlib
import re
from array import array
from typing import Dict, Iterator, List, NamedTuple, Optional, Sequence, Union

from .model import Certificate, Limits, bounds_costs

_HEAD = "nushbaret rows 1"
_LISTS = ("n", "starts", "variables", "coefficients", "least", "most", "plan", "tree")
# A whole number of 64 bits has at most 19 digits.
_NUMBER = re.compile("-?[0-9]{1,19}")
_LETTERS = b"-0123456789 \t\r\n\v\f"
_SPACE = re.compile(r"\s")
_LEAST, _MOST = -2**63, 2**63 - 1
# About so many letters of a line are looked at in one go.
_PIECE = 2**16
_MOST_BYTES = 2**30


class CertificateFault(ValueError):
    """A file is no certificate; the text says which line is wrong, and why."""


class Lists(NamedTuple):
    """A certificate's lists: rows as starts, variables and coefficients, and bounds, None where there is none."""

    n: int
    starts: Sequence[int]
    variables: Sequence[int]
    coefficients: Sequence[int]
    least: Sequence[Optional[int]]
    most: Sequence[Optional[int]]
    plan: Sequence[int]
    tree: Sequence[int]

    @property
    def last(self) -> Optional[Limits]:
        """The last row, if there is one."""
        return self.row(len(self.least) - 1) if self.least else None

    def row(self, number: int) -> Limits:
        """A row by its number, from 0."""
        first, last = self.starts[number], self.starts[number + 1]
        terms = tuple(zip(self.variables[first:last], self.coefficients[first:last]))
        return Limits(self.least[number], terms, self.most[number])


def lists_of(certificate: Certificate) -> Lists:
    """The lists of a certificate."""
    rows = certificate.rows
    starts = [0]
    for row in rows:
        starts.append(starts[-1] + len(row.terms))
    return Lists(certificate.variables, starts, [variable for row in rows for variable, _ in row.terms],
                 [factor for row in rows for _, factor in row.terms], [row.least for row in rows],
                 [row.most for row in rows], list(certificate.plan or ()), list(certificate.tree))


def certificate_of(lists: Lists) -> Certificate:
    """The certificate of lists whose lengths fit; raises `CertificateFault` where they don't."""
    refuse_unfit(lists)
    rows = tuple(map(lists.row, range(len(lists.least))))
    return Certificate(lists.n, rows, tuple(lists.plan) if lists.plan else None, tuple(lists.tree))


def refuse_unfit(lists: Lists) -> None:
    """Raises `CertificateFault` where the lists are those of no certificate."""
    starts = lists.starts
    fits = len(lists.variables) == len(lists.coefficients) and len(lists.least) == len(lists.most) == len(starts) - 1
    if not starts or starts[0] != 0 or sorted(starts) != list(starts) or starts[-1] != len(lists.variables) or not fits:
        raise CertificateFault("the lists of rows don't fit one another")
    if lists.n < 0 or lists.variables and not (0 <= min(lists.variables) and max(lists.variables) < lists.n):
        raise CertificateFault("a row names a variable that isn't there")
    if len(lists.plan) not in (0, lists.n) or not set(lists.plan) <= {0, 1}:
        raise CertificateFault(f"the plan isn't {lists.n} times 0 or 1")
    if lists.plan and not bounds_costs([lists.last] if lists.last else []):
        raise CertificateFault("with a plan the last row bounds its cost: it needs an upper bound, and no lower one")


def certificate_text(certificate: Certificate) -> str:
    """A certificate as the text of its file. Raises `CertificateFault` where a number is beyond 64 bits."""
    lists = lists_of(certificate)
    lines = [_HEAD]
    for name in _LISTS:
        numbers: Sequence[Optional[int]] = [lists.n] if name == "n" else getattr(lists, name)
        if any(number is not None and not _LEAST < number < _MOST for number in numbers):
            raise CertificateFault(f"a number of the list {name} is beyond 64 bits")
        lines.append(" ".join([name, *("-" if number is None else str(number) for number in numbers)]))
    return "\n".join(lines) + "\n"


def lists_from(text: str) -> Lists:
    """The lists of a file's text, as they stand there. Raises `CertificateFault` for the first line that is wrong."""
    lines = text.split("\n", len(_LISTS) + 1)
    if lines[0].rstrip("\r") != _HEAD:
        raise CertificateFault(f"line 1: it isn't {_HEAD!r}")
    if len(lines) < len(_LISTS) + 1 or "".join(lines[len(_LISTS) + 1:]).strip():
        raise CertificateFault(f"there must be {len(_LISTS) + 1} lines")
    bounds: Dict[str, List[Optional[int]]] = {"least": [], "most": []}
    whole: Dict[str, "array[int]"] = {name: array("q") for name in _LISTS if name not in bounds}
    for number, (name, line) in enumerate(zip(_LISTS, lines[1:]), 2):
        begin = len(line) - len(line.lstrip())
        if line[begin:].split(None, 1)[:1] != [name]:
            raise CertificateFault(f"line {number}: it doesn't begin with {name!r}")
        for piece in _pieces(line, begin + len(name)):
            if name in bounds:
                bounds[name] += _bounds(piece, number)
            else:
                whole[name].extend(_numbers(piece, number))
    if len(whole["n"]) != 1:
        raise CertificateFault("line 2: one number is needed")
    return Lists(whole["n"][0], whole["starts"], whole["variables"], whole["coefficients"], bounds["least"],
                 bounds["most"], whole["plan"], whole["tree"])


def _pieces(line: str, begin: int) -> Iterator[str]:
    """Many whole words of a line at a time, from a place on."""
    while 0 <= begin < len(line):
        found = _SPACE.search(line, begin + _PIECE)
        yield line[begin:found.start()] if found else line[begin:]
        begin = found.start() if found else -1


class _Small(Dict[str, int]):
    """The numbers of few digits by their words, which are looked up faster than read; others are read."""

    def __missing__(self, word: str) -> int:
        return int(word)


_SMALL = _Small({str(number): number for number in range(-99, 1000)})
# Words are looked up where they have so many letters on average, with the blank.
_FEW = 4


def _numbers(piece: str, line: int) -> "array[int]":
    """Words as whole numbers; raises `CertificateFault` for the first that is none of 64 bits."""
    words = piece.split()
    is_plain = len(piece) <= 2 * _PIECE and not piece.encode().translate(None, _LETTERS)
    try:
        if is_plain and str(_MOST) not in piece and str(_LEAST) not in piece:
            is_looked_up = len(words) * _FEW > len(piece)
            return array("q", list(map(_SMALL.__getitem__, words) if is_looked_up else map(int, words)))
    except (ValueError, OverflowError):
        pass
    fault = next((word for word in words if not _is_number(word)), None)
    if fault is not None:
        raise CertificateFault(f"line {line}: {fault[:40]!r} is no whole number of 64 bits")
    return array("q", list(map(int, words)))


def _is_number(word: str) -> bool:
    return _NUMBER.fullmatch(word) is not None and _LEAST < int(word) < _MOST


def _bounds(piece: str, line: int) -> List[Optional[int]]:
    """Words as bounds, `-` where there is none."""
    words = piece.split()
    numbers = iter(_numbers(" ".join(word for word in words if word != "-"), line))
    return [None if word == "-" else next(numbers) for word in words]


def write_certificate(path: Union[str, "pathlib.Path"], certificate: Certificate) -> None:
    """Writes a certificate. Raises `CertificateFault` and writes nothing where a number is beyond 64 bits, OSError
    where it can't be written."""
    pathlib.Path(path).write_bytes(certificate_text(certificate).encode("ascii"))


def read_lists(path: Union[str, "pathlib.Path"]) -> Lists:
    """Reads a certificate's lists, as they stand in its file. Raises `CertificateFault` where they are none, OSError
    where it can't be read."""
    if pathlib.Path(path).stat().st_size > _MOST_BYTES:
        raise CertificateFault(f"longer than {_MOST_BYTES} bytes")
    try:
        return lists_from(pathlib.Path(path).read_bytes().decode("ascii"))
    except UnicodeDecodeError:
        raise CertificateFault("it isn't a text of ASCII characters") from None
