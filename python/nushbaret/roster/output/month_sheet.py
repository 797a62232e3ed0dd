"""A month on one sheet: a letter for each kind of shift, persons by days, what each has in all, and each day's staff of
how many. Pages and workbooks draw it."""
from collections import Counter
from fractions import Fraction
from typing import TYPE_CHECKING, Counter as Counts, Dict, List, NamedTuple, Optional, Sequence, Tuple

from ..answer import NamedPlan
from ..day_tables import Block, Cell, Day, blocks_of
from ..names import said
from ..roster import Roster
from ..rules.rule_file import HOURS, MONTHLY
from ..rules.rule_rows import hours_of
from ..rules.rules_kept import decimal
from .texts import Report

if TYPE_CHECKING:
    from ..rules.rule_file import Ruling

# So many days make a month, and so many kinds have letters.
LEAST_DAYS, MOST_DAYS = 8, 62
MOST_KINDS = 12
# A sheet of paper has no more persons.
MOST_PERSONS = 150
_ALPHABET = "ABCDEFGHIJKLMNOPQRSTUVWXYZ"


class SheetColumn(NamedTuple):
    """A column after the days: its title, what the title means, and a text for each person."""

    title: str
    meaning: str
    texts: List[str]


class StaffCell(NamedTuple):
    """How many are there on a day of how many, and whether these are too few."""

    had: int
    wanted: Optional[int]
    is_short: bool

    @property
    def text(self) -> str:
        return str(self.had) if self.wanted is None else f"{self.had}/{self.wanted}"


class MonthSheet(NamedTuple):
    """The days, the letters of kinds, the persons with a cell for each day, the columns after the days, and for each
    kind its staff day by day, None where it has no shift."""

    days: List[Day]
    letters: Dict[str, str]
    persons: List[Tuple[str, List[Cell]]]
    columns: List[SheetColumn]
    staff: List[Tuple[str, List[Optional[StaffCell]]]]

    def text(self, cell: Cell) -> str:
        """The letters of what a person has on a day."""
        return " ".join(self.letters[entry.label] for entry in cell.entries)

    @property
    def is_changed(self) -> bool:
        """Whether any cell isn't as in a plan that was read."""
        return any(cell.is_changed for _, cells in self.persons for cell in cells)


def month_sheet(report: Report, plan: NamedPlan) -> Optional[MonthSheet]:
    """The sheet of a plan; None where its days are no month, or its kinds too many."""
    roster = report.roster
    before = report.kept or (report.hand.plan if report.hand else None)
    blocks = blocks_of(roster, plan, before)
    columns = [(block, column) for block in blocks for column, day in enumerate(block.days)
               if day.has_objects and day.group is not None]
    kinds = list(dict.fromkeys(row.label for block in blocks for row in block.objects))
    is_sheet = LEAST_DAYS <= len(columns) <= MOST_DAYS and len(kinds) <= MOST_KINDS
    is_sheet = is_sheet and len(roster.persons) <= MOST_PERSONS
    if not is_sheet or any(day.group is None for block in blocks for day in block.days if day.has_objects):
        return None
    days = [_with_holiday(report.ruling, roster, block.days[column]) for block, column in columns]
    persons = [(name, [block.persons[number].cells[column] for block, column in columns])
               for number, name in enumerate(roster.persons)]
    staff = [(kind, [_staff_of(roster, block, column, kind) for block, column in columns]) for kind in kinds]
    return MonthSheet(days, letters_of(kinds), persons, _columns(report, plan, days, kinds, persons), staff)


def letters_of(kinds: Sequence[str]) -> Dict[str, str]:
    """A letter for each kind, or the fewest first letters by which all differ."""
    for count in (1, 2, 3):
        short = [kind[:count].strip() for kind in kinds]
        if len(set(short)) == len(kinds) and all(short):
            return dict(zip(kinds, short))
    return dict(zip(kinds, _ALPHABET))


def _with_holiday(ruling: Optional["Ruling"], roster: Roster, day: Day) -> Day:
    """A day, which a rule may count as a weekend."""
    if ruling is None or roster.groups is None:
        return day
    object_ = next(object_ for object_, group in roster.groups.of_objects.items() if group == day.group)
    return day._replace(is_weekend=ruling.month.is_weekend(ruling.month.shifts[object_].day))


def _staff_of(roster: Roster, block: Block, column: int, kind: str) -> Optional[StaffCell]:
    """How many are at a kind on a day."""
    staff = next((row.staff[column] for row in block.objects if row.label == kind), None)
    if staff is None:
        return None
    least, number = roster.of_object(staff.object).least if roster.has_bounds else None, len(staff.persons)
    wanted = roster.wanted[staff.object].number if staff.object in roster.wanted else least
    return StaffCell(number, wanted, wanted is not None and number < wanted)


def _columns(report: Report, plan: NamedPlan, days: Sequence[Day], kinds: Sequence[str],
             persons: Sequence[Tuple[str, List[Cell]]]) -> List[SheetColumn]:
    """What each person has in all: shifts, those of each kind, weekends, hours, what is missed, and costs."""
    letters = letters_of(kinds)
    counts = [Counter(entry.label for cell in cells for entry in cell.entries) for _, cells in persons]
    columns = [SheetColumn("\u03a3", said("all shifts"), [str(sum(own.values())) for own in counts])]
    if 1 < len(kinds) <= 4:
        columns += [SheetColumn(letters[kind], kind, [str(own[kind]) for own in counts]) for kind in kinds]
    if any(day.is_weekend for day in days):
        columns.append(SheetColumn("we", said("weekends"), [str(_weekends(days, cells))
                                                                   for _, cells in persons]))
    if report.ruling is not None:
        columns += _hours(report.roster, report.ruling, plan)
    if report.proved is not None and report.proved.has_prices:
        missed: Counts[str] = Counter()
        for one in report.proved.missed:
            missed.update({person: one.cost for person in one.broken.persons})
        columns.append(SheetColumn("missed", "cost of what is missed", [
            report.roster.shown(missed[name]) if missed[name] else "" for name, _ in persons]))
    return columns if report.options.plan_only else [*columns, _costs(report.roster, plan)]


def _costs(roster: Roster, plan: NamedPlan) -> SheetColumn:
    """What each person's shifts cost."""
    sums: Counts[int] = Counter()
    for pair in plan.pairs:
        sums[pair.person] += pair.cost
    return SheetColumn(roster.titles[2], "", [roster.shown(sums[person]) for person in range(len(roster.persons))])


def _weekends(days: Sequence[Day], cells: Sequence[Cell]) -> int:
    """How many weekends have a shift: days of weekends side by side are one."""
    count, is_counted = 0, False
    for day, cell in zip(days, cells):
        is_counted = is_counted and day.is_weekend
        if day.is_weekend and cell.entries and not is_counted:
            count, is_counted = count + 1, True
    return count


def _hours(roster: Roster, ruling: "Ruling", plan: NamedPlan) -> List[SheetColumn]:
    """The hours of each person, and those of a rule of the month in brackets; none where no rule has any."""
    rules, month = ruling.rules, ruling.month
    due = {person: rule for rule in rules.rules if rule.what == HOURS and rule.per == MONTHLY and rule.kinds is None
           for person in rule.persons}
    if not due:
        return []
    worked: Dict[int, Fraction] = dict.fromkeys(range(len(roster.persons)), Fraction(0))
    for pair in plan.pairs:
        if pair.object in month.shifts:
            worked[pair.person] += hours_of(rules, month.shifts[pair.object])
    for (person, _), hours in rules.credits.items():
        worked[person] += hours
    texts = [decimal(hours) + (f" ({_bounds(due[person].least, due[person].most)})" if person in due else "")
             for person, hours in worked.items()]
    return [SheetColumn("hours", "hours (due)", texts)]


def _bounds(least: Optional[Fraction], most: Optional[Fraction]) -> str:
    if least is None or most is None or least == most:
        return decimal(least if least is not None else most or Fraction(0)) + ("-" if most is None else "")
    return f"{decimal(least)}-{decimal(most)}"
