"""What all pages have in common: their frame, colours for light and dark rooms and for paper, and names that are set
apart from our words."""
import pathlib
from functools import lru_cache
from html import escape
from typing import Dict, Iterable, Iterator, List, Sequence, Tuple

from ..names import pieces

# Names up to so many letters stand in one line; longer ones may be broken.
MOST_UNBROKEN = 30

# Colours by what they are for, and those of costs from the least to the greatest, each with that of the letters on it.
Colours = Dict[str, str]
Shades = Sequence[Tuple[str, str]]
LIGHT: Colours = {"paper": "#ffffff", "ink": "#1b1b1b", "soft": "#595959", "line": "#cfcfcf", "weekend": "#e9edf3",
                  "changed": "#fff3c4", "hatch": "#e4e4e4", "alarm": "#b00020", "alarm-paper": "#fdecee",
                  "own": "#d35400"}
DARK: Colours = {"paper": "#16181c", "ink": "#e8e8e8", "soft": "#b4b9c2", "line": "#4a4f58", "weekend": "#262b34",
                 "changed": "#4a3f12", "hatch": "#2e323a", "alarm": "#ff9a9a", "alarm-paper": "#3a1a1e",
                 "own": "#ffb067"}
_BLACK, _WHITE, _NIGHT, _PALE = "#1b1b1b", "#ffffff", "#111418", "#f2f2f2"
LIGHT_SHADES: Shades = (
    *((colour, _BLACK) for colour in ("#f7fbff", "#e3eef9", "#cfe1f2", "#b5d4e9", "#93c3df", "#6daed5", "#4b97c9")),
    ("#2a74b0", _WHITE), ("#14548c", _WHITE))
DARK_SHADES: Shades = (
    *((colour, _PALE) for colour in ("#1b2530", "#1e3144", "#213e59", "#244b6e", "#285a86", "#2c699e")),
    *((colour, _NIGHT) for colour in ("#6aaee0", "#8fc4ec", "#b7dbf6")))


def _variables(colours: Colours, shades: Shades) -> str:
    named = [f"--{name}: {colour}" for name, colour in colours.items()]
    of_costs = [f"--s{level}: {colour}; --i{level}: {ink}" for level, (colour, ink) in enumerate(shades)]
    return ":root { " + "; ".join(named + of_costs) + " }\n"


COLOURS = (":root { color-scheme: light dark }\n" + _variables(LIGHT, LIGHT_SHADES)
           + "@media screen and (prefers-color-scheme: dark) {\n" + _variables(DARK, DARK_SHADES) + "}\n"
           + "@media print {\n:root { color-scheme: light }\n}\n")


@lru_cache(maxsize=None)
def style_of(file: str) -> str:
    """The style in a file of this folder."""
    return "\n" + pathlib.Path(__file__).with_name(file).read_text(encoding="utf-8")


def document(title: str, style: str, content: Iterable[str]) -> Iterator[str]:
    """A whole page without scripts or anything from elsewhere."""
    yield ('<!DOCTYPE html>\n<html lang="en">\n<head>\n<meta charset="utf-8">\n<meta name="viewport" '
           'content="width=device-width, initial-scale=1">\n<meta name="color-scheme" content="light dark">\n'
           "<meta http-equiv=\"Content-Security-Policy\" content=\"default-src 'none'; style-src 'unsafe-inline'\">\n"
           f'<title lang="">{escape(title)}</title>\n<style>\n{COLOURS}{style_of("frame.css")}{style}</style>\n'
           f'</head>\n<body>\n<h1 lang="">{escape(title)}</h1>\n')
    yield from content
    yield "</body>\n</html>\n"


def name(text: str) -> str:
    """A name among our words: of no language that we know, and in one line as far as that can be."""
    kind = ' class="long"' if len(text) > MOST_UNBROKEN else ""
    return f'<bdi lang=""{kind}>{escape(text)}</bdi>'


def words(text: str) -> str:
    """A marked text: our words, and names among them."""
    return "".join(name(piece.text) if piece.is_name else escape(piece.text) for piece in pieces(text))


def scrolling(table: Iterable[str]) -> Iterator[str]:
    """A table that scrolls by itself where it is wider than the page, also by keys."""
    yield '<div class="scroll" tabindex="0">\n'
    yield from table
    yield "</div>\n"


def ours(word: str) -> str:
    """A word of ours among names."""
    return f'<small lang="en">{escape(word)}</small>'


def classes(*kinds: str) -> str:
    """The attribute of some classes, those that aren't empty."""
    some: List[str] = [kind for kind in kinds if kind]
    return f' class="{" ".join(some)}"' if some else ""
