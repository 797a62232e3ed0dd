"""The manual's page of the command, nushbaret(1), made of its table of options; and how a page of the manual is
written."""
import textwrap
from typing import Iterable, Iterator, List, NamedTuple, Tuple

from nushbaret.roster import words
from nushbaret.lap.library import VERSION

# The variables that the command looks at.
VARIABLES = [("NUSHBARET_DEBUG", "If it is set, a fault of the command itself shows where it comes from.")]
EXAMPLES = """
The costs of nurses and shifts, one pair in each line of roster.csv:

    nurse,shift,hours
    Ada,early,2.50
    Ada,late,4.00
    Ben,early,3.25

The plan, also written for next week, and next week's plan with the fewest changes:

    nushbaret roster.csv --output plan.csv
    nushbaret next_week.csv --keep plan.csv --output next_plan.csv
"""


class Entry(NamedTuple):
    """A command, an option or an argument, as a help lists it: its short name if any, its name, what its value is
    called, and its text; the words that the value may be, whether it is a file, and whether the option may stand
    several times."""

    short: str
    name: str
    value: str
    text: str
    choices: Tuple[str, ...] = ()
    is_file: bool = False
    repeats: bool = False


ARGUMENT = Entry("", "ROSTER", "", words.ROSTER, is_file=True)
# The options that need no roster.
GENERAL = [Entry("-h", "--help", "", "show this help message and exit"),
           *(Entry(*own, is_file=bool(own[2])) for own in words.GENERAL)]


def option_entries(section: str) -> List[Entry]:
    """The options of a section of the help."""
    return [_entry(option) for option in words.OPTIONS if option.section == section]


def _entry(option: words.Option) -> Entry:
    if option.value is None:
        return Entry(option.short, option.word, "", option.help)
    value = option.value
    return Entry(option.short, option.word, value.name, option.help, value.choices, value.is_file, option.repeats)


def escaped(text: str) -> str:
    """A text as roff prints it: each mark as it is, and no word parted."""
    for mark, written in (("\\", "\\e"), ("-", "\\-"), ("'", "\\(aq"), ("`", "\\(ga"), ("^", "\\(ha"), ("~", "\\(ti")):
        text = text.replace(mark, written)
    return "\n".join("\\&" + line if line.startswith(".") else line for line in text.split("\n"))


def heading(name: str, section: int, version: str) -> List[str]:
    """The first lines of a page."""
    return [f'.TH {name.upper()} {section} "" "nushbaret {version}" "Nushbaret"', ".nh", ".ad l"]


def verbatim(text: str) -> List[str]:
    """A text whose lines stand as they are."""
    return [".PP", ".nf", escaped(text), ".fi"]


def option_lines(entries: Iterable[Entry]) -> Iterator[str]:
    """Options or arguments, each with its text below."""
    for entry in entries:
        names = ", ".join(f"\\fB{escaped(name)}\\fR" for name in (entry.short, entry.name) if name)
        yield from (".TP", names + (f" \\fI{escaped(entry.value)}\\fR" if entry.value else ""), escaped(entry.text))


def _examples() -> Iterator[str]:
    """The examples: each block as it stands, or filled."""
    for block in EXAMPLES.strip("\n").split("\n\n"):
        yield from (verbatim(textwrap.indent(textwrap.dedent(block), "    ")) if block.startswith(" ")
                    else (".PP", escaped(block)))


def command_page() -> str:
    """The page of the command."""
    lines = heading(words.NAME, 1, VERSION)
    lines += [".SH NAME", f"{words.NAME} \\- {escaped(words.SUMMARY[0].lower() + words.SUMMARY[1:].rstrip('.'))}"]
    lines += [".SH SYNOPSIS", f"\\fB{words.NAME}\\fR [\\fIOPTION\\fR].. \\fI{ARGUMENT.name}\\fR"]
    lines += [".SH DESCRIPTION", escaped(words.SUMMARY), *option_lines([ARGUMENT]), ".SH OPTIONS",
              *option_lines(GENERAL)]
    for section in words.SECTIONS:
        lines += [f'.SS "{escaped(section)}"', *option_lines(option_entries(section))]
    lines += [".SH EXIT STATUS", escaped(words.STATUSES), ".SH ENVIRONMENT"]
    lines += [line for name, text in VARIABLES for line in (".TP", f"\\fB{name}\\fR", escaped(text))]
    lines += [".SH EXAMPLES", *_examples()]
    return "\n".join([*lines, ".SH SEE ALSO", "\\fBnushbaret\\fR(3), \\fBauction_cli\\fR(1)", ""])
