"""Names in texts: lists of them, and marks around them, by which a page sets names apart from our words. Cells as
names, and cells that a spreadsheet would run as a formula: they are written with an apostrophe in front, which readers
take off again. And words and texts of faults that the page for browsers says too."""
import json
import pathlib
import re
import unicodedata
from typing import Dict, Iterator, List, NamedTuple, Sequence


class Shared(NamedTuple):
    """What the page for browsers says too; it gets a copy of shared.json. The days of the week from Monday in some
    languages, without accents; their names in English; titles whose plural has an s; letters and marks above 127 that
    western texts of Windows have; and texts by name, with gaps."""

    weekdays: List[str]
    day_names: str
    with_s: str
    western: Dict[str, str]
    texts: Dict[str, str]


SHARED = Shared(**json.loads(pathlib.Path(__file__).with_name("shared.json").read_text(encoding="utf-8")))


def said(name: str, *values: object) -> str:
    """A text that both say, with values in its gaps."""
    return SHARED.texts[name].format(*values)


# What no name may hold, since control characters are refused.
BEGIN, END = "\x01", "\x02"
MARKED = re.compile(f"({BEGIN}[^{BEGIN}{END}]*{END})")
# A sentence on who is short names so many persons and objects at most.
MOST_NAMES = 8
# Of a cell of CSV in quotes, by Python's reader.
MOST_LETTERS = 131072
LINE_BREAKS = re.compile(r"\s*[\r\n]\s*")
# Control characters, what turns the direction of a text or ends a line in it, and halves of characters.
FORBIDDEN = re.compile("[\x00-\x1f\x7f-\x9f\u200e\u200f\u2028-\u202e\u2066-\u2069\ud800-\udfff]")
_NUMBER = r"[0-9]+(?:[.,][0-9]*)?(?:[eE][+-]?[0-9]{1,2})?\Z"
_RUN = rf"(?:[=@\t\r]|[+-](?!{_NUMBER}))"
_IS_RUN = re.compile(f"'*{_RUN}")
_IS_GUARDED = re.compile(f"'+{_RUN}")
# A text without any of these has no guarded cell.
GUARDS = tuple(f"'{mark}" for mark in "=@\t\r+-")


class Piece(NamedTuple):
    """A piece of a text: a name, or what stands between names."""

    text: str
    is_name: bool


def marked(name: str) -> str:
    """A name with marks around it, also if it has them."""
    return name if name.startswith(BEGIN) else f"{BEGIN}{name}{END}"


def with_names_marked(text: str, names: Sequence[str]) -> str:
    """A text with marks around those of some names that it has."""
    longest_first = "|".join(map(re.escape, sorted(set(names), key=len, reverse=True)))
    return re.sub(rf"(?<!\w)(?:{longest_first})(?!\w)", lambda found: marked(found[0]), text) if names else text


def without_marks(text: str) -> str:
    """A text as people read it."""
    return text.replace(BEGIN, "").replace(END, "")


def pieces(text: str) -> Iterator[Piece]:
    """The names of a marked text, and what stands between them, in order."""
    for number, piece in enumerate(MARKED.split(text)):
        if piece:
            yield Piece(without_marks(piece), number % 2 == 1)


def joined(names: Sequence[str]) -> str:
    """Names in a row, parted by semicolons where one has a comma."""
    return ("; " if any("," in name for name in names) else ", ").join(names)


def first_of(names: Sequence[str], most: int = MOST_NAMES, more: str = "more") -> str:
    """Names in a row; of many the first, and how many more there are."""
    others = len(names) - most
    return joined(names[:most]) + (f" and {others} {more}" if others > 0 else "")


class NamesShown:
    """The names that a sentence shows: persons and objects share eight, and each side may have four at least. Each is
    to be asked for once."""

    def __init__(self, persons: int, objects: int):
        of_objects = min(objects, max(MOST_NAMES // 2, MOST_NAMES - persons))
        self._left = [min(persons, MOST_NAMES - of_objects), of_objects]

    def listed(self, side: int, names: Sequence[str]) -> str:
        """Names of persons (side 0) or of objects (side 1) in a row, the last of many as their number; nothing where
        none may be shown."""
        shown = list(names[:self._left[side]])
        self._left[side] -= len(shown)
        more = len(names) - len(shown)
        others = f" and {more} other{'s' if more > 1 else ''}" if more else ""
        return joined(shown) + others if shown else ""

    def bracketed(self, side: int, names: Sequence[str]) -> str:
        """The same in brackets."""
        text = self.listed(side, names)
        return f" ({text})" if text else ""


def numbered(names: List[str], numbers: Sequence[int]) -> List[str]:
    """The names of some numbers, with marks around them."""
    return [marked(names[number]) for number in numbers]


def with_counts(names: Sequence[str], counts: Sequence[int]) -> List[str]:
    """Names with their counts, as far as these aren't 1."""
    return [f"{name} ({count})" if count != 1 else name for name, count in zip(names, counts)]


def quoted(cell: str) -> str:
    """A cell as a message shows it: in quotes, on one line, and not too long."""
    return repr(cell if len(cell) <= 40 else cell[:37] + "...")


def shown_path(path: str) -> str:
    """A file's name as a message shows it: in quotes, where it has what can't be printed."""
    return path if path.isprintable() else repr(path)


class NoName(ValueError):
    """Why a cell is no name."""


def as_name(cell: str) -> str:
    """A cell as a name, with a blank for each line break; letters with accents are one name however they are written.

    Raises `NoName` where it is empty, too long, or has a control character.
    """
    if not cell.isprintable():
        cell = LINE_BREAKS.sub(" ", cell)
    if not cell:
        raise NoName(said("no name"))
    if len(cell) > MOST_LETTERS:
        raise NoName(said("long name", MOST_LETTERS))
    if not cell.isprintable() and FORBIDDEN.search(cell):
        raise NoName(said("control", quoted(cell)))
    return unicodedata.normalize("NFC", cell)


def is_plain(name: str) -> bool:
    """Whether a cell is a name as it stands."""
    return name.isprintable() and 0 < len(name) <= MOST_LETTERS and unicodedata.is_normalized("NFC", name)


def guarded(cell: str) -> str:
    """A cell of CSV as it is written: with an apostrophe in front where a spreadsheet would run it, and one more where
    apostrophes stand before what it would run."""
    return "'" + cell if _IS_RUN.match(cell) else cell


def unguarded(cell: str) -> str:
    """A cell of CSV as it is meant: without the first of the apostrophes before what a spreadsheet would run."""
    return cell[1:].strip() if cell[:1] == "'" and _IS_GUARDED.match(cell) else cell


def kept_apart(cell: str) -> str:
    """A text for a sheet that keeps texts from formulas: with one more apostrophe where readers take one off."""
    return "'" + cell if _IS_GUARDED.match(cell) else cell
