"""The limits of the library, and lists of numbers as it takes them."""
import ctypes
from array import array
from typing import TYPE_CHECKING, Any, List

# An array of whole numbers; before Python 3.12 `array` takes no type while a program runs.
if TYPE_CHECKING:
    Numbers = array[int]
else:
    Numbers = array

MOST_PERSONS = 4194304
GREATEST_COST = 10**12
GREATEST_PRICE = 9 * 10**18
# Costs of 128 bits are from -2**100 to 2**100.
WIDE_BITS = 100
# NumPy returns an array's address slowly: up to so many numbers a copy is faster.
FEW = 1024


class TooLarge(ValueError):
    """A problem that is too large for the library: it has too many rows, columns or nodes, or too great costs."""


def judge_size(n_rows: int, n_columns: int) -> None:
    """Refuses numbers of rows and columns that no problem has."""
    if n_rows < 0 or n_columns < 0:
        raise ValueError(f"{n_rows} rows and {n_columns} columns: neither can be below 0")
    if max(n_rows, n_columns) > MOST_PERSONS:
        raise TooLarge(f"{n_rows} rows and {n_columns} columns: at most {MOST_PERSONS} of each are possible")


class BorrowedNumbers:
    """A buffer of 64-bit numbers of another owner, which stays as long as this does."""

    def __init__(self, view: memoryview):
        self.held = (ctypes.c_char * view.nbytes).from_buffer(view)
        self.address = ctypes.addressof(self.held)
        self.count = view.nbytes // 8

    def __len__(self) -> int:
        return self.count


class WideNumbers(BorrowedNumbers):
    """Whole numbers of 128 bits, two words of 64 bits each, the lower one first: an `array`, or an array of NumPy's."""

    def __init__(self, words: Any):
        self.words = words
        self.address, held = words.buffer_info() if isinstance(words, array) else (words.ctypes.data, words.size)
        self.count = held // 2

    def listed(self) -> List[int]:
        """The numbers as a list of Python's."""
        data = self.words.tobytes()
        if isinstance(self.words, array) and not any(self.words[1::2]) and data[7::16].isascii():
            return self.words[::2].tolist()
        return [int.from_bytes(data[begin:begin + 16], "little", signed=True) for begin in range(0, len(data), 16)]
