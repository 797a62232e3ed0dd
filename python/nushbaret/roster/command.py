"""The command: a roster of names in a CSV file, and its plan.

Status 0: a plan; 1: there is none; 2: the words are refused; 3: something is wrong in a roster, a plan or a list of
counts; 4: a file can't be read or written, an output exists, the library isn't there, memory was refused, or nushbaret
itself failed; 6: not decided in time; 130: Ctrl-C.
"""
import contextlib
import io
import os
import re
import sys
from typing import TYPE_CHECKING, List, Optional, Sequence, Tuple

from ..costs.limits import TooLarge
from ..costs.reading import MOST_UNIT_DECIMALS
from .answer import Answer, Fair, Request, answer_of
from .files import (STANDARD_OUTPUT, Output, OutputFault, is_device, make_folder, print_content, refuse_existing,
    write_files)
from .forms import read_roster
from .groups import read_counts, read_groups, refuse_two_of_a_group, with_rules
from .names import quoted, said, shown_path, without_marks
from .output.texts import (Hand, Report, as_csv, changes_as_csv, first_lines, forgotten_line, gone_line,
    in_encoding_of, printed, read_lines)
from .roster import OldPlan, PlanLine, Roster, read_hand_plan, read_old_plan, read_plan
from .sheets import Reading, RosterFault, heading_of
from .words import Options, WordsFault, read_words

if TYPE_CHECKING:
    from .rules.stages import Proved
    from .past import Past
    from .rules.rule_file import Ruling

PLANNED, NONE, WORDS, REFUSED, DEVICE = range(5)
UNDECIDED = 6
INTERRUPTED = 130


def main(words: Optional[Sequence[str]] = None) -> int:
    """Runs the command.

    Parameters
    ----------
    words : sequence of str or None
        The words after the command's name; None takes them from `sys.argv`.

    Returns
    -------
    int
        The status, 0 to 4 or 6, or 130 after Ctrl-C. Words that are refused, and `--help`, end by `SystemExit` with
        status 2 and 0. A fault of nushbaret itself is raised where NUSHBARET_DEBUG is set.
    """
    for stream in (sys.stdout, sys.stderr):
        if isinstance(stream, io.TextIOWrapper):
            stream.reconfigure(encoding=None if stream.isatty() else "utf-8", errors="backslashreplace")
    options = read_words(words)
    try:
        return _run(options)
    except RosterFault as fault:
        return _refused(fault, REFUSED)
    except WordsFault as fault:
        return _refused(fault, WORDS)
    except (OSError, OutputFault) as fault:
        return _refused(f"{shown_path(str(fault.filename))}: {fault.strerror}" if isinstance(fault, OSError)
                        and fault.filename is not None else fault, DEVICE)
    except MemoryError:
        return _refused("memory refused", DEVICE)
    except KeyboardInterrupt:
        return INTERRUPTED
    except Exception as fault:
        return _own_fault(fault)


def _own_fault(fault: Exception) -> int:
    """Says in one line that nushbaret failed, and raises the fault again where its trace is asked for."""
    text = " ".join(str(fault).split())
    _say(f"a fault of nushbaret itself: {type(fault).__name__}: {text} (NUSHBARET_DEBUG=1 shows where)")
    if os.environ.get("NUSHBARET_DEBUG"):
        raise fault
    return DEVICE


def _refused(fault: object, status: int) -> int:
    _say(str(fault))
    return status


def _run(options: Options) -> int:
    for path in [*filter(None, [options.certificate]), *options.changes] if not options.force else ():
        refuse_existing(path)
    for output in options.outputs:
        if not options.force and not output.is_standard:
            refuse_existing(output.path)
        if output.kind == "xlsx":
            from .output.workbook import need_openpyxl
            need_openpyxl(output.path)
    roster = _read(options)
    _refuse_existing_of_each(options, roster)
    report = _report(options, roster)
    answer = report.answer
    for plan in (report.kept, report.hand.plan if report.hand else None):
        if plan is not None and plan.gone:
            _say(gone_line(plan, report.roster))
    lines = list(map(without_marks, first_lines(report)))
    is_content = _write(report, lines)
    skipped = [f"{shown_path(output.path)} isn't written: {_why_none(report)}" for output in options.outputs
               if not _is_written(output, answer, options)]
    skipped += _lines_on_each(report)
    if options.certificate is not None and (report.proved is None or report.proved.certificate is None):
        skipped.append(f"{shown_path(options.certificate)} isn't written: nothing was proved")
    _print_lines(lines + ([] if options.quiet else printed(report)) + skipped, is_content)
    return _status(report)


def _status(report: Report) -> int:
    """The status of an answer."""
    if report.alarms:
        return NONE
    if report.answer.plan is None:
        return UNDECIDED
    if report.proved is not None and report.proved.missing:
        return NONE if report.proved.least_missing else UNDECIDED
    return PLANNED


def _why_none(report: Report) -> str:
    """Why no plan is written."""
    is_open = report.proved is not None and report.proved.is_fullest_open
    return "there is no plan" if report.alarms and not is_open else "no plan was found"


def _report(options: Options, roster: Roster) -> Report:
    """The answer, and what was read to compare it with."""
    # Counts may have changed since an earlier plan: what of it can't be any more is changed.
    kept = read_old_plan(options.keep, roster, not roster.ruled) if options.keep else None
    roster, kept, past = _read_past(options, roster, kept)
    fixed = read_plan(options.fixed, roster) if options.fixed else []
    refuse_two_of_a_group(options.fixed or "", roster, fixed)
    if past is not None:
        from .past import with_fixed
        fixed = with_fixed(roster, past, fixed, options.fixed or "")
    ruling: Optional["Ruling"] = None
    if options.rules is not None:
        from .rules.ruling import read_ruling
        ruling = read_ruling(options, roster, _say)
    hand = _read_hand(options.compare, roster, fixed, ruling) if options.compare else None
    pairs = None if kept is None else {(pair.person, pair.object) for pair in kept.known}
    request = Request(fixed, options.max, options.as_many_as_can, pairs, change_cost(options, roster), options.others,
                   options.plans)
    fair: Optional[Fair] = None
    proved: Optional["Proved"] = None
    try:
        if ruling is not None:
            from .rules.ruling import answered_by
            answer, proved = answered_by(ruling, roster, request, options, hand.plan if hand else None)
        else:
            answer, fair = _answered(roster, request, options.fair)
    except TooLarge as fault:
        raise RosterFault(options.roster, str(fault)) from fault
    if hand is not None and answer.plan is not None:
        from .rules.broken_rules import lack_of
        hand = hand._replace(best_lack=lack_of(roster, answer.plan.pairs, fixed))
    return Report(options, roster, answer, kept, hand, fair, proved, ruling)


def _read_hand(path: str, roster: Roster, fixed: List[PlanLine], ruling: Optional["Ruling"]) -> Hand:
    """The plan that is to be compared, and the rules that it breaks."""
    from .rules.broken_rules import broken_rules, lack_of
    plan, repeated = read_hand_plan(path, roster)
    broken = broken_rules(roster, plan, repeated, fixed)
    missed = 0
    if ruling is not None:
        from .rules.ruling import judged
        more, missed = judged(ruling, roster, [*plan.known, *(PlanLine(*pair, 0) for pair in plan.forbidden)])
        broken += more
    return Hand(plan, broken, lack_of(roster, plan.known, fixed), missed=missed)


def _read_past(options: Options, roster: Roster, kept: Optional[OldPlan]) -> Tuple[Roster, Optional[OldPlan],
                                                                                   Optional["Past"]]:
    """The roster and the kept plan with what is past, if any is."""
    if options.past is None or kept is None or roster.groups is None:
        return roster, kept, None
    from .past import with_past
    roster, kept, past = with_past(roster, roster.groups, kept, options.past, options.round)
    for line in past.lines:
        _say(line)
    return roster, kept, past


def _answered(roster: Roster, request: Request, is_fair: bool) -> Tuple[Answer, Optional[Fair]]:
    """The answer, and what is to be said of a fair one. What few rosters need is imported here: loading takes a small
    one's time."""
    solve = answer_of
    if roster.ruled:
        from .by_counts import answer_by_counts
        solve = answer_by_counts
    if not is_fair:
        return solve(roster, request), None
    from .answer import fair_answer
    return fair_answer(roster, request, solve)


def _read(options: Options) -> Roster:
    """The roster, with how many each name takes. What is said of it is also said where its counts or groups are
    refused."""
    roster = read_roster(options.roster, options.form, options.decimals, options.decimal_comma, options.round,
                         options.sheet, options.skip_rows, Reading(options.encoding, _say))
    forgotten: List[Optional[str]] = []
    try:
        tasks = read_counts(options.tasks, roster, False) if options.tasks else None
        capacities = read_counts(options.places, roster, True) if options.places else None
        if capacities is not None and capacities.wanted and options.rules is None:
            raise RosterFault(capacities.path, said("wanted"))
        _refuse_without_groups(options, roster)
        roster = with_rules(roster, tasks, capacities, read_groups(options.groups, roster, options.before is not None)
                            if options.groups else None)
        takes_nobody = not any(roster.of_object(object_).least for object_ in range(len(roster.objects)))
        if (capacities is not None and tasks is None and not any(bounds.least for bounds in capacities.bounds.values())
                and roster.has_bounds and takes_nobody and not roster.wanted):
            _say(f"{capacities.path}: each place may stay empty, and without --tasks nobody has to be placed")
        forgotten = [forgotten_line(roster, counts, side) for side, counts in ((1, capacities), (0, tasks))
                     if counts is not None]
    finally:
        for line in [*read_lines(options.roster, roster, sys.stderr is not None and sys.stderr.isatty()),
                     *filter(None, forgotten)]:
            _say(line)
    return roster


def _refuse_without_groups(options: Options, roster: Roster) -> None:
    """Refuses what needs the day of each object, where no file says it."""
    if not options.groups and roster.groups is None:
        if options.rules is not None:
            raise WordsFault("nushbaret: --rules needs --groups, which says the day of each object")
        if options.past is not None:
            raise WordsFault("nushbaret: --past needs --keep and --groups")


def _say(line: str) -> None:
    """Prints a line on standard error, if that is open."""
    if sys.stderr is not None:
        with contextlib.suppress(OSError):
            print(line, file=sys.stderr)


def change_cost(options: Options, roster: Roster) -> Optional[int]:
    """What a change costs, in units of the roster."""
    text = options.change_cost
    if text is None:
        return None
    point = "," if roster.comma else r"\."
    found = re.fullmatch(rf"([0-9]{{1,13}})(?:{point}([0-9]*))?", text)
    if found is None:
        raise RosterFault("--change-cost", f"{quoted(text)} is no cost from 0 on")
    part = (found[2] or "").rstrip("0")
    if len(part) > roster.decimals:
        word = "--round" if options.round is not None else "--decimals"
        hint = f": {word} {len(part)} allows it" if len(part) <= MOST_UNIT_DECIMALS else ""
        raise RosterFault("--change-cost", f"{quoted(text)} has more decimal places than the roster's "
                          f"{roster.decimals}{hint}")
    return int(found[1] + part.ljust(roster.decimals, "0"))


def _is_written(output: Output, answer: Answer, options: Options) -> bool:
    """Whether an output is written: without a plan as JSON, or as a page that isn't of the plan alone."""
    return answer.plan is not None or output.kind == "json" or output.kind == "html" and not options.plan_only


def _write(report: Report, lines: List[str]) -> bool:
    """Writes the outputs, the files first. Whether standard output got one."""
    options = report.options
    outputs = [*options.outputs, *([Output(STANDARD_OUTPUT[0], options.print)] if options.print else [])]
    contents = [(output, content_of(report, lines, output)) for output in outputs
                if _is_written(output, report.answer, options)]
    files = [(output.path, content) for output, content in contents if not output.is_standard]
    if report.proved is not None and report.proved.certificate is not None and options.certificate is not None:
        from ..rows.certificates import certificate_text
        files.append((options.certificate, certificate_text(report.proved.certificate).encode()))
        stem, end = os.path.splitext(options.certificate)
        files += [(f"{stem}-{number}{end}", certificate_text(found.certificate).encode())
                  for number, found in enumerate(report.proved.following, 2) if found.certificate is not None]
    if report.kept is not None and report.answer.plan is not None:
        text = changes_as_csv(report.roster, report.answer.plan, report.kept)
        files += [(path, in_encoding_of(report.roster, text)) for path in options.changes]
    if options.each and report.answer.plan is not None:
        from .output.each import files_of
        files += files_of(report.roster, report.answer.plan, report.kept, options.each)
        make_folder(options.each)
    write_files(files, options.force)
    for output, content in contents:
        if output.is_standard:
            print_content(content)
    return any(output.is_standard for output in outputs)


def _refuse_existing_of_each(options: Options, roster: Roster) -> None:
    """Refuses to write for each person what exists, unless it may be overwritten, or is another output."""
    if options.each is None:
        return
    from .output.each import paths_of
    others = {os.path.realpath(path) for path in options.written}
    for path in paths_of(roster, options.each):
        if os.path.realpath(path) in others:
            raise OutputFault(f"{shown_path(path)} is another output too")
        if not options.force:
            refuse_existing(path)


def _lines_on_each(report: Report) -> List[str]:
    """What is said of the files for each person that aren't written."""
    folder, plan = report.options.each, report.answer.plan
    if folder is None:
        return []
    from .output.each import lines_on_calendars
    return ([f"{shown_path(folder)}: nothing is written: {_why_none(report)}"] if plan is None
            else lines_on_calendars(report.roster, plan, folder))


def content_of(report: Report, lines: List[str], output: Output) -> bytes:
    """What is written to an output. Standard output is UTF-8."""
    kind = output.kind
    if kind == "json":
        from .output.json import as_json
        return as_json(report, lines).encode()
    if kind == "html":
        from .output.page import page
        is_file = not output.is_standard and not is_device(output.path)
        return page(report, os.path.splitext(os.path.basename(output.path))[0] if is_file
                    else heading_of(report.options.roster)).encode()
    plan = report.answer.plan
    if plan is None:
        raise ValueError("there is no plan")
    if kind == "xlsx":
        from .output.workbook import as_xlsx
        return as_xlsx(report, plan)
    text = as_csv(report.roster, plan)
    return text.encode() if output.is_standard else in_encoding_of(report.roster, text)


def _print_lines(lines: List[str], is_content: bool) -> None:
    """Prints what is said: to standard error where standard output has an output."""
    if is_content:
        for line in lines:
            _say(line)
    else:
        print_content("".join(line + "\n" for line in lines))
