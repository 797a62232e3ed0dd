"""The words of the command: one table of options, from which the parser and the help come; and what they ask for
without a roster: the guide, and the check of a certificate's file."""
import argparse
import contextlib
import os
import pathlib
import re
import sys
from typing import Any, Callable, Dict, Iterator, List, NamedTuple, NoReturn, Optional, Sequence, Tuple

from ..costs.reading import MOST_UNIT_DECIMALS
from ..lap.library import VERSION
from ..rows.certificate_check import lists_show
from ..rows.certificates import CertificateFault, Lists, read_lists
from .encodings import WESTERN
from .files import KINDS, Output, OutputFault, print_content
from .names import shown_path
from .roster import LINES, MATRIX
from .sheets import content_of, file_and_sheet

NAME = "nushbaret"
MOST_PLANS = 1000
SUMMARY = "Find the plan of least cost for a roster of names in a CSV file, or who is short of what."
STATUSES = ("Status 0: a plan; 1: there is none; 2: these words are refused; 3: a file's content is; 4: a file can't "
            "be read or written, an output exists, the library isn't there, or memory was refused; 6: not decided in "
            "time. Ctrl-C: 130.")
ROSTER = ("a CSV file (- is standard input) or an .xlsx workbook, with a title line: a person, an object and a cost in "
          "each line, or a matrix with names in the first line and column, where an empty cell forbids a pair")
# The guide to rosters and their rules: where it lies with the package, or else with the sources.
PACKAGE = pathlib.Path(__file__).resolve().parent.parent
INSTALLED = PACKAGE / "guide"
CHECKOUT = PACKAGE.parent.parent
# What the check of a certificate's file ends with.
SHOWN, NOT_SHOWN, REFUSED = 0, 1, 3


class WordsFault(Exception):
    """Why words can't be followed here: what they need isn't installed."""


class Value(NamedTuple):
    """What stands after an option: how the help calls it; a file, and with which ends of its name; or one of some
    words. `read` makes it of the word."""

    name: str
    is_file: bool = False
    ends: Tuple[str, ...] = ()
    choices: Tuple[str, ...] = ()
    read: Callable[[str], Any] = str


class Option(NamedTuple):
    """An option: its word; what it does, in the words of the help; the section of the help; what stands after it, None
    for nothing; what it sets where nothing does; whether it may stand several times; and what is set where it doesn't
    stand. Of the options of one `choice` only one may stand. `short` is a word of one letter for it, and `of` the field
    of Options that it sets, where this isn't called as the word is."""

    word: str
    help: str
    section: str
    value: Optional[Value] = None
    sets: Any = True
    repeats: bool = False
    choice: str = ""
    default: Any = None
    short: str = ""
    of: str = ""

    @property
    def field(self) -> str:
        """The field of Options that it sets."""
        return self.of or self.word[2:].replace("-", "_")


class Options(NamedTuple):
    """What was asked for: the roster, and a field for each option."""

    roster: str
    form: Optional[str]
    decimals: Optional[int]
    round: Optional[int]
    decimal_comma: bool
    places: Optional[str]
    tasks: Optional[str]
    groups: Optional[str]
    rules: Optional[str]
    before: Optional[str]
    encoding: Optional[str]
    sheet: Optional[str]
    skip_rows: int
    max: bool
    fair: bool
    fixed: Optional[str]
    as_many_as_can: bool
    keep: Optional[str]
    past: Optional[str]
    change_cost: Optional[str]
    time: Optional[int]
    compare: Optional[str]
    others: bool
    plans: int
    rents: bool
    print: Optional[str]
    outputs: Sequence[Output]
    plan_only: bool
    each: Optional[str]
    certificate: Optional[str]
    quiet: bool
    force: bool

    @property
    def written(self) -> List[str]:
        """All files that are written, except those for each person."""
        return [output.path for output in self.outputs] + list(filter(None, [self.certificate])) + self.changes

    @property
    def changes(self) -> List[str]:
        """The files of changes from a kept plan: one next to each plan in CSV."""
        return [os.path.splitext(output.path)[0] + CHANGES for output in self.outputs
                if self.keep is not None and output.kind == "csv" and not output.is_standard]


def _output(path: str) -> Output:
    kind = os.path.splitext(path)[1][1:].lower()
    if kind not in KINDS:
        raise argparse.ArgumentTypeError(f"{path!r} ends in none of .csv, .json, .html and .xlsx")
    return Output(path, kind)


def _number(least: int, most: int) -> Callable[[str], int]:
    """What reads a whole number of a range."""
    def read(word: str) -> int:
        if not (word.isascii() and word.isdigit() and len(word) < 10 and least <= int(word) <= most):
            raise argparse.ArgumentTypeError(f"{word!r} is no number from {least} to {most}")
        return int(word)
    return read


def _encoding(word: str) -> str:
    """The name of an encoding that Python has."""
    with contextlib.suppress(UnicodeError):
        try:
            b" ".decode(word)
        except LookupError:
            raise argparse.ArgumentTypeError(f"{word!r} is no encoding that Python has, such as Windows-1252 or "
                                             "UTF-8") from None
    return word


# How the file of changes next to a plan ends.
CHANGES = "-changes.csv"
DECIMALS = tuple(map(str, range(MOST_UNIT_DECIMALS + 1)))
COUNT_OF_DECIMALS = Value("K", choices=DECIMALS, read=_number(0, MOST_UNIT_DECIMALS))
PLAN = Value("PLAN", True, (".csv", ".json", ".xlsx"))
COUNTS = Value("FILE.csv", True, (".csv", ".xlsx"))

READING, COUNTING, PLANNING, SHOWING, WRITING = ("The roster", "Counts and rules", "The plan", "What is printed",
                                                 "What is written")
SECTIONS = (READING, COUNTING, PLANNING, SHOWING, WRITING)

OPTIONS = (
    Option("--lines", "the roster has lines", READING, sets=LINES, choice="form", of="form"),
    Option("--matrix", "the roster is a matrix", READING, sets=MATRIX, choice="form", of="form"),
    Option("--decimals", f"costs have at most K decimal places, 0 to {MOST_UNIT_DECIMALS} (else as many as the roster "
           "uses)", READING, COUNT_OF_DECIMALS, choice="decimals"),
    Option("--round", "round costs to K decimal places, and say by how much that may matter", READING,
           COUNT_OF_DECIMALS, choice="decimals"),
    Option("--decimal-comma", "costs are written as 2,50", READING),
    Option("--encoding", f"files of text are in this encoding (else UTF-8, or plain {WESTERN})", READING,
           Value("NAME", read=_encoding)),
    Option("--sheet", "read this sheet of the roster's workbook (else the first); FILE.xlsx#SHEET names one of any "
           "file", READING, Value("NAME")),
    Option("--skip-rows", "skip so many rows above the titles", READING, Value("K", read=_number(0, 10**6)), default=0),
    Option("--places", "lines of an object and how many persons it takes (else one): a number, or at least and at most",
           COUNTING, COUNTS),
    Option("--tasks", "lines of a person and how many objects it takes (else one): a number, or at least and at most",
           COUNTING, COUNTS),
    Option("--groups", "lines of an object and its group: nobody takes two objects of one group", COUNTING, COUNTS),
    Option("--rules", "lines of a rule, its value and names: rest, runs, weeks, free weekends, hours and others; needs "
           "--groups, and SciPy", COUNTING, COUNTS),
    Option("--before", "with --rules: what was worked on earlier days (.csv, .json or .xlsx), whose objects the file "
           "of groups lists too", COUNTING, PLAN),
    Option("--max", "find the plan of greatest cost", PLANNING),
    Option("--fair", "make the dearest pair as cheap as possible, and then the sum", PLANNING),
    Option("--fixed", "keep the pairs of this plan (.csv, .json or .xlsx)", PLANNING, PLAN),
    Option("--as-many-as-can", "where there is no plan for all, find the fullest", PLANNING),
    Option("--keep", "of all best plans take one with the fewest changes from this one (.csv, .json or .xlsx)",
           PLANNING, PLAN),
    Option("--past", "with --keep: what the plan has in the groups before this one stays, and the rest is planned",
           PLANNING, Value("GROUP")),
    Option("--change-cost", "weigh changes from the kept plan: half of C for each pair that comes, and for each that "
           "goes", PLANNING, Value("C")),
    Option("--time", "with --rules: find and prove for at most S seconds (else 60)", PLANNING,
           Value("S", read=_number(1, 10**6))),
    Option("--compare", "list the rules that this plan (.csv, .json or .xlsx) breaks, and by how much it is worse than "
           "the best", SHOWING, PLAN),
    Option("--others", "show who could change places at no cost, or the next best plan", SHOWING),
    Option("--plans", f"show the K best plans, 2 to {MOST_PLANS}: each as what differs from the first", SHOWING,
           Value("K", read=_number(2, MOST_PLANS)), default=1),
    Option("--rents", "print the rents of the objects too", SHOWING),
    Option("--print", "write the plan to standard output as csv or json, and what is printed else to standard error",
           SHOWING, Value("KIND", choices=("csv", "json"))),
    Option("--output", "write the plan as .csv, .json, .html or .xlsx; may be given several times", WRITING,
           Value("FILE", True, tuple("." + kind for kind in KINDS), read=_output), repeats=True, short="-o",
           of="outputs"),
    Option("--html", "draw the plan as a page", WRITING,
           Value("FILE", True, (".html",), read=lambda path: Output(path, "html")), repeats=True, of="outputs"),
    Option("--plan-only", "leave wishes, costs, hints and other plans out of pages, as for the wall", WRITING),
    Option("--each", "write for each person a page and, where groups are dates, a calendar (.ics) into this folder",
           WRITING, Value("FOLDER", True)),
    Option("--certificate", "with --rules: write what proves the answer; --check FILE checks it alone", WRITING,
           Value("FILE", True)),
    Option("--quiet", "print the cost alone, or who is short", WRITING, short="-q"),
    Option("--force", "overwrite an output that exists", WRITING))

# The options that need no roster, with their short words and what stands after them, if any, after the one for help.
GENERAL = (("-V", "--version", "", "show program's version number and exit"),
           ("", "--guide", "", "print the guide to rosters, and where it lies with its examples, and exit"),
           ("", "--check", "FILE", "check a file that --certificate wrote, print what it shows, and exit: 0 if shown, "
            "1 if not"))
HINT = f"{NAME} --help lists all options"
DASHES = "-\u2013\u2014"


class _Help(argparse.HelpFormatter):
    """Shows what stands after an option once, also where the option has a short word."""

    def _format_action_invocation(self, action: argparse.Action) -> str:
        if not action.option_strings or action.nargs == 0:
            return super()._format_action_invocation(action)
        return ", ".join(action.option_strings) + f" {action.metavar}"


class _Parser(argparse.ArgumentParser):
    """A parser that says in one line why words are refused."""

    def _print_message(self, message: str, file: Any = None) -> None:
        """Prints a message; where standard output takes none of it, that is the last line."""
        if file is not sys.stdout or file is None:
            super()._print_message(message, file)
            return
        try:
            print_content(message)
        except OutputFault as fault:
            self.exit(4, f"{NAME}: {fault}\n")

    def error(self, message: str) -> NoReturn:
        for begin, text in (("the following arguments are required: ROSTER", "the file of a roster is needed"),
                            ("argument ", ""), ("unrecognized arguments: ", "one roster at a time, and there is also "
                                                "")):
            if message.startswith(begin):
                message = text + message[len(begin):]
        self.refuse(f"{message} ({HINT})")

    def refuse(self, text: str) -> NoReturn:
        """Ends with a line that says what is wrong."""
        self.exit(2, f"{NAME}: {text}\n")


class _Alone(argparse.Action):
    """Prints what a call says, given as `const`, and ends with the status that it says."""

    def __call__(self, parser: argparse.ArgumentParser, namespace: argparse.Namespace, values: Any,
                 option_string: Optional[str] = None) -> None:
        try:
            status, text = self.const(values)
            print_content(text + "\n")
        except (OSError, OutputFault) as fault:
            parser.exit(4, f"{NAME}: {fault}\n")
        parser.exit(status)


def guide() -> str:
    """The guide, and where it is as a page.

    Raises `OSError` where it isn't installed with the package.
    """
    if INSTALLED.exists():
        return _guide_of([INSTALLED / "rosters.txt"], INSTALLED / "rosters.html", INSTALLED / "examples")
    pages = [CHECKOUT / "docs" / name for name in ("ROSTERS.md", "RULES.md")]
    return _guide_of(pages, pages[0], CHECKOUT / "examples")


def _guide_of(texts: List[pathlib.Path], page: pathlib.Path, examples: pathlib.Path) -> str:
    return "\n".join([*(text.read_text(encoding="utf-8") for text in texts), f"This guide as a page: {page}",
                      f"The examples in it: {examples}"])


def checked(path: str) -> Tuple[int, str]:
    """What a certificate shows: a status, and a line that says it. OSError where the file can't be read."""
    try:
        lists = read_lists(path)
        is_shown = lists_show(lists)
    except CertificateFault as fault:
        return REFUSED, f"{shown_path(path)}: no certificate: {fault}"
    return (SHOWN, f"{shown_path(path)}: shown: {_claim(lists)}") if is_shown else (NOT_SHOWN,
                                                                              f"{shown_path(path)}: not shown")


def _claim(lists: Lists) -> str:
    """What is shown. With a plan the last row bounds the cost from above alone. Costs are whole, in units of the
    roster's last decimal."""
    count, last = len(lists.least), lists.last
    if not lists.plan or last is None or last.most is None:
        return f"no plan meets the {count} rows"
    cost = sum(factor for variable, factor in last.terms if lists.plan[variable])
    better = cost - (last.most + 1)
    rest = f"is more than {better} better" if better else "costs less"
    return f"a plan of cost {cost} meets the {count - 1} rows, and no plan that meets them {rest}"


class _Once(argparse.Action):
    """Takes a file that is asked for once."""

    def __call__(self, parser: argparse.ArgumentParser, namespace: argparse.Namespace, values: Any,
                 option_string: Optional[str] = None) -> None:
        before = getattr(namespace, self.dest)
        if before is not None:
            raise argparse.ArgumentError(self, f"given twice, with {shown_path(before)} and {shown_path(values)}")
        setattr(namespace, self.dest, values)


def parser_of(options: Sequence[Option] = OPTIONS) -> _Parser:
    """The parser of a table of options."""
    parser = _Parser(prog=NAME, allow_abbrev=False, description=SUMMARY, epilog=STATUSES, formatter_class=_Help)
    parser.add_argument("roster", metavar="ROSTER", help=ROSTER)
    (short, version, _, version_help), (_, word, _, guide_help), (_, check, file, check_help) = GENERAL
    parser.add_argument(short, version, action="version", version=f"{NAME} {VERSION}", help=version_help)
    parser.add_argument(word, action=_Alone, nargs=0, const=lambda _: (0, guide()), default=argparse.SUPPRESS,
                        help=guide_help)
    parser.add_argument(check, action=_Alone, const=checked, default=argparse.SUPPRESS, metavar=file, help=check_help)
    sections = {name: parser.add_argument_group(name) for name in SECTIONS}
    choices: Dict[str, Any] = {}
    for option in options:
        group = sections[option.section]
        if option.choice and option.choice not in choices:
            choices[option.choice] = group.add_mutually_exclusive_group()
        _add(choices[option.choice] if option.choice else group, option)
    return parser


def _add(group: Any, option: Option) -> None:
    """Adds an option to a group of the parser."""
    words = [word for word in (option.short, option.word) if word]
    if option.value is None:
        default = False if option.sets is True else None
        group.add_argument(*words, dest=option.field, action="store_const", const=option.sets, default=default,
                           help=option.help)
        return
    # A word that isn't one of the choices is refused by argparse; numbers refuse their own.
    choices = option.value.choices if option.value.read is str and option.value.choices else None
    action = "append" if option.repeats else _Once if option.value.is_file else "store"
    group.add_argument(*words, dest=option.field, metavar=option.value.name, type=option.value.read, choices=choices,
                       help=option.help, action=action, default=[] if option.repeats else option.default)


def read_words(words: Optional[Sequence[str]]) -> Options:
    """The options of a command line. Words that are refused, and `--help`, end by `SystemExit`."""
    parser = parser_of()
    words = sys.argv[1:] if words is None else words
    _refuse_unknown(words, parser)
    options = with_sheets(Options(**vars(parser.parse_args(words))))
    for is_so, text in _faults(options):
        if is_so:
            parser.refuse(text)
    _judge_files(options, parser.refuse)
    return options


# Sheets of a workbook that are read with the roster, by the options that name them.
_SHEETS = ("places", "tasks", "groups", "rules")


def with_sheets(options: Options) -> Options:
    """The options, where the roster is a workbook with sheets for places, tasks, groups or rules: these are read where
    no option names another file, and the roster is the first other sheet."""
    if os.path.splitext(options.roster)[1].lower() != ".xlsx" or not os.path.isfile(options.roster):
        return options
    from .read_workbook import sheets_of
    try:
        names = sheets_of(content_of(options.roster))
    except OSError:
        # Reading the roster says what is wrong.
        return options
    titled = {name.strip().casefold(): name for name in reversed(names)}
    own = {word: f"{options.roster}#{titled[word]}" for word in _SHEETS if word in titled}
    rest = [name for name in names if name.strip().casefold() not in _SHEETS]
    if not own or not rest:
        return options
    read: Dict[str, Any] = {word: getattr(options, word) or own.get(word) for word in _SHEETS}
    return options._replace(sheet=options.sheet or rest[0], **read)


def _refuse_unknown(words: Sequence[str], parser: argparse.ArgumentParser) -> None:
    """Refuses the first word that looks like an option and is none, with the nearest option."""
    known = ["-h", "--help", *(word for *both, _, _ in GENERAL for word in both if word)]
    known += [word for option in OPTIONS for word in (option.word, option.short) if word]
    valued = {word for option in OPTIONS if option.value is not None for word in (option.word, option.short) if word}
    valued.update(word for _, word, value, _ in GENERAL if value)
    words = words[:words.index("--")] if "--" in words else words
    for before, word in zip((NAME, *words), words):
        name = word.partition("=")[0]
        # An option begins with a dash of any length, and isn't a number.
        is_like_one = name[:1] in tuple(DASHES) and name.strip(DASHES) and not re.fullmatch("-[0-9.,]+", name)
        if (before in valued or not is_like_one or name in known or name[:2] in known
            and "--" + name[1:] not in known):
            continue
        near = _nearest(name.strip(DASHES), [word for word in known if word.startswith("--")])
        if near or word[0] == "-":
            parser.error(f"no option {name}" + (f": did you mean {near}?" if near else ""))


def _nearest(name: str, known: Sequence[str]) -> Optional[str]:
    """The option that a word was meant to be, if one is near: one that begins so, or looks so."""
    found = [word for word in known if word[2:].startswith(name)]
    if not found:
        from difflib import get_close_matches
        found = get_close_matches("--" + name, known, 1, 0.7)
    return found[0] if found else None


def _faults(options: Options) -> Iterator[Tuple[object, str]]:
    """What of options may not go together, in the order in which it is refused: whether it is so, and what is said."""
    yield options.change_cost is not None and not options.keep, "--change-cost needs --keep"
    yield options.past is not None and not options.keep, "--past needs --keep and --groups"
    of_sums: Sequence[Tuple[str, object]] = (
        ("--others", options.others), ("--plans", options.plans > 1), ("--compare", options.compare),
        ("--change-cost", options.change_cost), ("--rents", options.rents))
    for word, is_given in of_sums[:2]:
        yield is_given and options.change_cost is not None, f"{word} compares costs alone: not with --change-cost"
    for word, is_given in of_sums:
        yield options.fair and is_given, f"{word} is of the least sum of all pairs: not with --fair"
    for word, value in (("--before", options.before), ("--time", options.time), ("--certificate", options.certificate)):
        yield options.rules is None and value is not None, f"{word} needs --rules"
    for word, is_given in (("--fair", options.fair), ("--rents", options.rents)):
        yield options.rules is not None and is_given, f"{word} is of plans without rules: not with --rules"
    yield (options.plan_only and all(output.kind != "html" for output in options.outputs),
           "--plan-only is of pages: name one, such as --output plan.html")
    yield (options.print and any(output.is_standard for output in options.outputs),
           "standard output takes one thing: --print, or an output")
    yield (options.rents and (options.places or options.tasks or options.groups),
           "--rents are of single places and tasks: not with --places, --tasks or --groups")


def _judge_files(options: Options, refuse: Callable[[str], NoReturn]) -> None:
    read = [options.roster] + [getattr(options, option.field) for option in OPTIONS
                               if option.value is not None and option.value.is_file and option.section != WRITING]
    if "-" in read[1:]:
        refuse("only the roster can come from standard input")
    if options.sheet is not None and file_and_sheet(options.roster)[1] is not None:
        refuse(f"--sheet and {shown_path(options.roster)} both name a sheet")
    seen = {os.path.realpath(file_and_sheet(path)[0]) for path in read if path}
    for path in options.written:
        file = os.path.realpath(path)
        if file in seen:
            refuse(f"{shown_path(path)} is named twice, or is read too")
        seen.add(file)
