"""The command with rules: what is read, and what is shown while a plan is found."""
import contextlib
import sys
from typing import Callable, Iterator, List, Optional, Sequence, Tuple

from ..answer import Answer, Request
from ..files import interrupts_raise
from ..groups import Broken, Paired
from ..month import Before, month_of
from ..roster import OldPlan, Roster, named_pairs
from ..words import Options, WordsFault
from .rule_file import Ruling, read_rules
from .rules_kept import (broken_by, days_in_order, kinds_alike, left_out, missed_by, other_holidays, plan_of,
    without_day, without_kind)
from .stages import COSTS, Progress, Proved, Task, answer_by_rules

DEFAULT_SECONDS = 60


def read_ruling(options: Options, roster: Roster, say: Callable[[str], object]) -> Optional[Ruling]:
    """The rules that are asked for, if any are."""
    if options.rules is None or roster.groups is None:
        return None
    path = options.groups or options.roster
    before = None
    if options.before is not None:
        before = Before(options.before, [(pair.person, pair.object, pair.line)
                                         for pair in named_pairs(options.before, roster)])
    for line in (*without_day(roster, f"{path}: no line for"),
                 *without_kind(roster, f"{path}: no kind of"), *left_out(roster, before)):
        say(line)
    month = month_of(roster, roster.groups, path, before)
    for line in kinds_alike(path, month):
        say(line)
    rules = read_rules(options.rules, roster, month)
    for line in (*other_holidays(rules, month), *days_in_order(path, rules, month)):
        say(line)
    return Ruling(month._replace(holidays=rules.holidays), rules)


def judged(ruling: Ruling, roster: Roster, pairs: Sequence[Paired]) -> Tuple[List[Broken], int]:
    """The rules of the file that a plan breaks, and what it misses costs of rules and counts with a price."""
    plan = plan_of(roster, ruling.rules, ruling.month, pairs)
    return broken_by(plan), sum(one.cost for one in missed_by(plan))


def answered_by(ruling: Ruling, roster: Roster, request: Request, options: Options,
                compared: Optional[OldPlan]) -> Tuple[Answer, Proved]:
    """The answer, with progress on a terminal. A compared plan is one that is known before.

    Raises `WordsFault` where SciPy isn't installed.
    """
    seconds = DEFAULT_SECONDS if options.time is None else options.time
    with interrupts_raise(), _shown(roster, options) as progress:
        try:
            known = [] if compared is None else [{(pair.person, pair.object) for pair in compared.known}]
            return answer_by_rules(Task(roster, ruling.month, ruling.rules, request, seconds, (), progress, known))
        except ImportError as fault:
            raise WordsFault(str(fault)) from fault


@contextlib.contextmanager
def _shown(roster: Roster, options: Options) -> Iterator[Optional[Progress]]:
    """On a terminal a line of progress, which is wiped at the end."""
    if sys.stderr is None or not sys.stderr.isatty():
        yield None
        return
    widest = [0]

    def show(goal: str, done: str, cost: Optional[int], bound: Optional[int]) -> None:
        line = progress_line(roster, options, goal, done, cost, bound)
        widest[0] = max(widest[0], len(line))
        _put("\r" + line.ljust(widest[0]))

    try:
        yield show
    finally:
        _put("\r" + " " * widest[0] + "\r")


def progress_line(roster: Roster, options: Options, goal: str, done: str, cost: Optional[int],
                  bound: Optional[int]) -> str:
    """A goal, what is being done, the best plan so far, and what is proved of all plans; other goals than costs count
    from 0."""
    def shown(units: int) -> str:
        own = -units if options.max else units
        if goal != COSTS:
            return str(units)
        return roster.shown(own) if options.change_cost is None else roster.shown_halves(own)
    parts = [f"{goal}: {done}"] + [f"found {shown(cost)}" for cost in [cost] if cost is not None]
    side = "at most" if options.max and goal == COSTS else "at least"
    return ", ".join(parts if bound is None else [*parts, f"proved {side} {shown(bound)}"])


def _put(text: str) -> None:
    with contextlib.suppress(OSError):
        sys.stderr.write(text)
        sys.stderr.flush()
