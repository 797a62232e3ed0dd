"""What the header for C declares, with the comments above."""
import re
from typing import List, NamedTuple


class Part(NamedTuple):
    """A comment of the header, and what is declared below it up to the next one."""

    comment: str
    code: List[str]

    def calls(self):
        """The functions among what is declared, by name, each without a body that it may have."""
        return {call_of(text): re.sub(r"\s*\{.*", ";", text, flags=re.S) for text in self.code if call_of(text)}

    def others(self):
        """What is declared besides functions."""
        return [text for text in self.code if not call_of(text)]


def call_of(text):
    """The name of the function that a text declares, if it declares one."""
    found = re.match(r"(?!#)[^({;]*?\b(nushbaret_\w+)\s*\(", text)
    return found and found[1]


def _end(header, at):
    """Where the declaration ends that begins here: after its semicolon, or after the body of a function."""
    depth, begin = 0, at
    while at < len(header):
        if header.startswith("/*", at):
            at = header.index("*/", at) + 1
        elif header[at] == "{":
            depth += 1
        elif header[at] == "}":
            depth -= 1
            if depth == 0 and call_of(header[begin:at]):
                return at + 1
        elif header[at] == ";" and depth == 0:
            return at + 1
        at += 1
    raise SystemExit(f"a declaration of the header has no end: {header[begin:begin + 60]!r}")


def _pieces(header):
    """The comments, the lines of the preprocessor and the declarations, one after the other."""
    wrapped = re.compile(r'extern "C" \{|\}')
    at = 0
    while at < len(header):
        braces = wrapped.match(header, at)
        if header[at].isspace():
            end = at + 1
        elif braces:
            end = braces.end()
        elif header.startswith("/*", at):
            end = header.index("*/", at) + 2
        elif header[at] == "#":
            end = re.compile(r"(?:\\\n|[^\n])*").match(header, at).end()
        else:
            end = _end(header, at)
        if not header[at].isspace() and not braces:
            yield header[at:end]
        at = end


def read_header(header):
    """The header's parts; what guards and includes is left out."""
    parts = []
    for piece in _pieces(header):
        if piece.startswith("/*"):
            parts.append(Part(piece[2:-2].strip(), []))
        elif not piece.startswith("#") or re.match(r"#define NUSHBARET_(?!H\n?$)", piece):
            parts[-1].code.append(piece)
    return parts
