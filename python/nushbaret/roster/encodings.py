"""The text of a file's bytes: in the encoding that was named, or by its BOM, as UTF-8, or as western text of
Windows."""
import re
from typing import NamedTuple, NoReturn, Optional

from .names import SHARED, said

SAVE = said("save")
_SAVE_OR_NAME = f"{SAVE}, or name its encoding by --encoding"
WESTERN = "Windows-1252"
# Four bytes go first: the shorter marks begin as they do.
BOMS = ((b"\xff\xfe\x00\x00", "utf-32"), (b"\x00\x00\xfe\xff", "utf-32"), (b"\xef\xbb\xbf", "utf-8-sig"),
        (b"\xff\xfe", "utf-16"), (b"\xfe\xff", "utf-16"))
# How files of spreadsheets begin that are no text.
SPREADSHEETS = (b"PK\x03\x04", b"\xd0\xcf\x11\xe0")
# Without what other encodings use for common letters: Mac OS Roman has letters at the bytes of Š, Ž, š, ž and Ÿ,
# Latin-9 the euro at that of the general sign of currency.
PLAUSIBLE = bytes(range(128)) + "".join(SHARED.western.values()).encode(WESTERN)
NOT_PLAUSIBLE = re.compile(b"[^" + re.escape(PLAUSIBLE) + b"]")
# DOS has letters with accents where Windows has these quotes, which stand between letters in no text.
QUOTE_IN_WORD = re.compile("[A-Za-z][\u201a\u201c\u201d\u201e][a-z]".encode(WESTERN))


# So many bytes at the beginning say which encoding one with NUL bytes is.
SAMPLE = 2**16


class Undecodable(ValueError):
    """Bytes that aren't the text that they should be; the first of them, if it is known."""

    def __init__(self, text: str, place: Optional[int] = None) -> None:
        super().__init__(text)
        self.place = place


class Decoded(NamedTuple):
    """A text; the encoding that it is written again in; whether it had a BOM, and whether its encoding was guessed."""

    text: str
    encoding: str
    has_bom: bool = False
    is_guess: bool = False


def decoded(data: bytes, named: Optional[str]) -> Decoded:
    """The text of bytes. A BOM says more than the name of an encoding.

    Raises `Undecodable` where they are no text in the named encoding, or where without a name they are no UTF-8 and no
    western text.
    """
    by_bom = next((encoding for bom, encoding in BOMS if data.startswith(bom)), None)
    if by_bom is not None:
        return Decoded(_strictly(data, by_bom), "utf-8", has_bom=True)
    if named is not None:
        text = _strictly(data, named)
        if "\0" in text:
            raise Undecodable(f"NUL characters, which no text in {named} has: {_SAVE_OR_NAME}")
        return Decoded(text, named)
    if data.startswith(SPREADSHEETS):
        raise Undecodable(f"a spreadsheet that is no .xlsx, and no text: save it as .xlsx, or {SAVE}")
    if b"\0" in data:
        _refuse_nuls(data)
    try:
        return Decoded(data.decode(), "utf-8")
    except UnicodeDecodeError:
        # All bytes above 127 must be likely in western text of Windows.
        odd = NOT_PLAUSIBLE.search(data) or QUOTE_IN_WORD.search(data)
        if odd is not None:
            raise Undecodable(f"bytes that are no UTF-8 and no western text in {WESTERN}: {_SAVE_OR_NAME}",
                              odd.start())
        return Decoded(data.decode(WESTERN), WESTERN, is_guess=True)


def _refuse_nuls(data: bytes) -> NoReturn:
    """Says which encoding a text with NUL bytes is likely in. UTF-16 has one for each letter of English."""
    sample = data[:SAMPLE]
    least, most = sorted((sample[::2].count(0), sample[1::2].count(0)))
    if most >= max(4, len(sample) / 16, 8 * least):
        raise Undecodable(f"{said('UTF-16')}: {_SAVE_OR_NAME}")
    what = said("NUL" if data.strip(b"\0") else "NUL alone")
    raise Undecodable(f"{what}: {_SAVE_OR_NAME}", data.index(b"\0"))


def _strictly(data: bytes, encoding: str) -> str:
    try:
        return data.decode(encoding)
    except UnicodeDecodeError as error:
        name = encoding.replace("-sig", "").upper() if encoding.startswith("utf") else encoding
        raise Undecodable(f"{said('no encoding', name)}: {_SAVE_OR_NAME}", error.start) from error
    except UnicodeError as error:
        raise Undecodable(f"{said('no encoding', encoding)}: {_SAVE_OR_NAME}") from error
