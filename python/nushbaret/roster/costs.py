"""Costs as a roster writes them, read exactly."""
import re
from array import array
from decimal import Decimal
from itertools import repeat
from operator import floordiv, mod, mul
from typing import Iterable, List, NoReturn, Optional, Protocol, Sequence, Tuple

from ..costs.limits import GREATEST_COST, Numbers
from ..costs.reading import MOST_UNIT_DECIMALS
from .names import quoted, said

MILLION = 10**MOST_UNIT_DECIMALS
ZEROS = "0" * MOST_UNIT_DECIMALS
NUMBERS = b"0123456789+-"


class Refuses(Protocol):
    """What refuses a cell of a file."""

    def refuse(self, text: str, line: Optional[int] = None, column: Optional[int] = None) -> NoReturn: ...


class CostColumn:
    """Costs as they are read, exactly, with as many decimals as they have until it is known how many are used."""

    def __init__(self, sheet: Refuses, decimals: Optional[int], comma: bool, rounds: Optional[int] = None) -> None:
        self._sheet, self._comma, self._rounds = sheet, comma, rounds
        self._given = decimals if rounds is None else rounds
        self._most = MOST_UNIT_DECIMALS if decimals is None else decimals
        self.rounded = False
        point = "," if comma else r"\."
        # Sign, whole part without leading zeros, decimals without trailing zeros; at least one digit.
        self._plain = re.compile(rf"([+-]?)(?={point}?[0-9])0*([0-9]*)(?:{point}([0-9]*?)0*)?")
        self._empty = {"", "+", "-", *(sign + point[-1] for sign in ("", "+", "-"))}
        self._point = point[-1]
        # Numbers in a row, each run in units of 10^-decimals.
        self._runs: List[Tuple[int, Numbers]] = []
        self._decimals = 0
        self._greatest, self._greatest_at = 0, [0, 0]

    def take_all(self, cells: Sequence[str], lines: Iterable[int], columns: Iterable[int]) -> None:
        """Takes many cells: in one go where all are plain numbers, and else one by one, up to the first that is
        refused."""
        if cells and not self.take_plain(cells, lines, columns):
            for cell, line, column in zip(cells, lines, columns):
                self.take(cell.strip(), line, column)

    def take_plain(self, cells: Sequence[str], lines: Iterable[int], columns: Iterable[int]) -> bool:
        """Takes cells that are digits with at most a sign and a point, none out of range or with too many decimals.
        Otherwise takes none."""
        try:
            decimals, numbers = self._plain_numbers(cells)
        except ValueError:
            return False
        size = max(max(numbers), -min(numbers))
        used = self._used(decimals, numbers)
        if size > GREATEST_COST * 10**decimals or used > self._most or self._rounds is not None and used > self._rounds:
            return False
        self._decimals = used
        if size * 10**(MOST_UNIT_DECIMALS - decimals) > self._greatest:
            self._greatest = size * 10**(MOST_UNIT_DECIMALS - decimals)
            self._greatest_at = next(at for number, *at in zip(numbers, lines, columns) if abs(number) == size)
        self._run(decimals).extend(array("q", numbers))
        return True

    def _plain_numbers(self, cells: Sequence[str]) -> Tuple[int, List[int]]:
        """How many decimals cells have, and their numbers in that unit; ValueError where any isn't plain."""
        text = " ".join(cells)
        if text.count(" ") >= len(cells):
            cells = list(map(str.strip, cells))
            text = " ".join(cells)
        # What is left without digits and signs: the gaps between the cells, and points.
        left = text.encode().translate(None, NUMBERS)
        if left == b" " * (len(cells) - 1):
            return 0, list(map(int, cells))
        if left.replace(self._point.encode(), b"") != b" " * (len(cells) - 1) or not self._empty.isdisjoint(cells):
            raise ValueError
        if f"{self._point}-" in text or f"{self._point}+" in text:
            raise ValueError
        parts = [cell.partition(self._point) for cell in cells]
        decimals = max([len(part) for _, _, part in parts])
        if decimals > MOST_UNIT_DECIMALS:
            raise ValueError
        return decimals, [int(whole + part + ZEROS[len(part):decimals]) for whole, _, part in parts]

    def _used(self, decimals: int, numbers: List[int]) -> int:
        """How many decimals are used so far, with these numbers of so many."""
        used, unit = decimals, 10
        while used > self._decimals and not any(map(mod, numbers, repeat(unit))):
            used, unit = used - 1, unit * 10
        return max(used, self._decimals)

    def _run(self, decimals: int) -> Numbers:
        """What numbers of so many decimals are put at the end of."""
        if not self._runs or self._runs[-1][0] != decimals:
            self._runs.append((decimals, array("q")))
        return self._runs[-1][1]

    def take(self, cell: str, line: int, column: int) -> None:
        """Takes a cell, or refuses it."""
        found = self._plain.fullmatch(cell) or self._plain.fullmatch(self._without_power(cell))
        if found is None:
            self._sheet.refuse(said("no cost", quoted(cell), self._hint(cell)), line, column)
        sign, whole, part = found.groups("")
        if self._rounds is not None and len(part) > self._rounds:
            whole, part = self._round(whole, part, self._rounds)
        if len(part) > self._decimals:
            self._more_decimals(cell, len(part), line, column)
        size = int(whole[:20] + part + ZEROS[len(part):])
        if size > self._greatest:
            if size > GREATEST_COST * MILLION:
                self._out_of_range(0, line, column)
            self._greatest, self._greatest_at = size, [line, column]
        self._run(MOST_UNIT_DECIMALS).append(-size if sign == "-" else size)

    def _round(self, whole: str, part: str, decimals: int) -> Tuple[str, str]:
        """The whole part and so many decimals of a cell, rounded to the nearest, halves to even ones."""
        self.rounded = True
        number, rest = int("0" + whole[:20] + part[:decimals]), part[decimals:]
        number += rest > "5" or rest == "5" and number % 2
        digits = str(number).zfill(decimals + 1)
        return digits[:len(digits) - decimals], digits[len(digits) - decimals:]

    def _without_power(self, cell: str) -> str:
        """A cell such as 1.2E+03 as a plain number, and any other as it is."""
        point, other = (",", ".") if self._comma else (".", ",")
        if other in cell or re.fullmatch(r"[+-]?[0-9]+(?:[.,][0-9]*)?[eE][+-]?[0-9]{1,2}", cell) is None:
            return cell
        return format(Decimal(cell.replace(",", ".")), "f").replace(".", point)

    def _more_decimals(self, cell: str, decimals: int, line: int, column: int) -> None:
        if decimals > self._most:
            hint = f": --decimals {decimals} allows it" if decimals <= MOST_UNIT_DECIMALS else ""
            self._sheet.refuse(said("many places", quoted(cell), self._most, hint), line, column)
        self._decimals = decimals

    def scaled(self) -> Tuple[int, Numbers]:
        """How many decimals are used or were asked for, and the costs as whole numbers of that unit."""
        decimals = self._decimals if self._given is None else self._given
        if self._greatest // 10 ** (MOST_UNIT_DECIMALS - decimals) > GREATEST_COST:
            self._out_of_range(decimals, *self._greatest_at)
        runs = [_in_unit(numbers, decimals - own) for own, numbers in self._runs]
        costs = runs[0] if runs else array("q")
        for run in runs[1:]:
            costs.extend(run)
        return decimals, costs

    def _hint(self, cell: str) -> str:
        if self._comma and re.fullmatch(r"[+-]?[0-9]+\.[0-9]+", cell):
            return said("comma")
        if not self._comma and re.fullmatch("[+-]?[0-9]+,[0-9]+", cell):
            return "; with --decimal-comma it may be"
        if cell.lower() in ("x", "-", "n/a"):
            return said("forbids")
        return ""

    def _out_of_range(self, decimals: int, line: int, column: int) -> NoReturn:
        shown = said("with places", decimals) if decimals else ""
        self._sheet.refuse(said("beyond", GREATEST_COST // 10**decimals, shown), line, column)


def _in_unit(numbers: Numbers, more: int) -> Numbers:
    """Numbers with so many decimals more, or less where these aren't used."""
    if more == 0:
        return numbers
    return array("q", map(mul, numbers, repeat(10**more)) if more > 0 else map(floordiv, numbers, repeat(10**-more)))
