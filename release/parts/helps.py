"""What helps say: the program's, read from the program itself, and the roster command's, from its table of options."""
import pathlib
import re
import subprocess
import sys
from typing import List, NamedTuple

PYTHON = pathlib.Path(__file__).resolve().parents[2] / "python"
sys.path[:0] = [str(PYTHON), str(PYTHON / "building")]
import nushbaret_manual as manual
from nushbaret_manual import Entry

# What a value is called that is a file.
FILES = ("<FILE>", "<REPORT>")
ENTRY = re.compile(r"^ {2,6}(?:(-\w), )?(--[\w-]+|<\w+>|\w+)(?: (<\w+>))?(?: {2,}(\S.*))?$")
HEADS = ("Commands:", "Arguments:", "Options:")


class Help(NamedTuple):
    """The help of the program, of one of its commands, or of the roster command."""

    about: str
    usage: str
    commands: List[Entry]
    arguments: List[Entry]
    options: List[Entry]
    notes: List[str]


def printed_by(program, *words):
    """What the program prints."""
    return subprocess.run([program, *words], stdin=subprocess.DEVNULL, capture_output=True, text=True,
                          check=True).stdout


def _choices(text):
    """The words that a value may be, where the text of its option lists them."""
    listed = re.search(r"\[possible values: (.*?)\]", text)
    if listed:
        return tuple(listed[1].split(", "))
    either = re.search(r": (\w+) or (\w+)(?: \[|$)", text)
    return (either[1], either[2]) if either else ()


def _entries(block):
    """The entries of a block; a line that is indented deeper goes on with the one above."""
    entries = []
    for line in block.splitlines()[1:]:
        found = ENTRY.match(line)
        if found:
            entries.append(Entry(*(part or "" for part in found.groups())))
        elif entries:
            entries[-1] = entries[-1]._replace(text=f"{entries[-1].text} {line.strip()}".strip())
        else:
            raise SystemExit(f"help that isn't understood: {line!r}")
    return [entry._replace(choices=_choices(entry.text), is_file=any(file in entry for file in FILES))
            for entry in entries]


def read_help(program, *command):
    """The help of the program, or of this command."""
    blocks = [block for block in printed_by(program, *command, "--help").strip("\n").split("\n\n") if block]
    begins = next(at for at, block in enumerate(blocks) if block.startswith("Usage:"))
    lists = {head: [] for head in HEADS}
    behind = begins + 1
    while behind < len(blocks) and blocks[behind].splitlines()[0] in HEADS:
        lists[blocks[behind].splitlines()[0]] = _entries(blocks[behind])
        behind += 1
    usage = " ".join(blocks[begins].split())[len("Usage: "):]
    return Help(" ".join(" ".join(blocks[:begins]).split()), usage, *(lists[head] for head in HEADS), blocks[behind:])


def read_all(program):
    """The help of the program, and that of each of its commands by name, except `help` itself."""
    top = read_help(program)
    return top, {entry.name: read_help(program, entry.name) for entry in top.commands if entry.name != "help"}


def roster_help():
    """The help of the roster command, which has no commands of its own."""
    options = [entry for section in manual.words.SECTIONS for entry in manual.option_entries(section)]
    return Help(manual.words.SUMMARY, "", [], [manual.ARGUMENT], [*manual.GENERAL, *options], [])
