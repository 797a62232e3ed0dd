"""Rules of rosters as planners write them: lines of a rule, its value, and for which names it is."""
import re
import unicodedata
from difflib import get_close_matches
from fractions import Fraction
from math import ceil
from typing import Callable, Dict, FrozenSet, List, Mapping, Match, NamedTuple, NoReturn, Optional, Sequence, Tuple

from ..dates import dates_of, spellings
from ..groups import price_of
from ..month import NO_KIND, Month
from ..names import quoted
from ..roster import Roster, like
from ..sheets import RosterFault, Sheet

# Which rule a line is.
REST, RUN, COUNT, HOURS, FREE, WHOLE, STAFF, APART, TOGETHER, EVEN = (
    "rest", "run", "count", "hours", "free weekends", "whole weekends", "staff", "apart", "together", "even")
PAUSE, OFF, WINDOW, AFTER, WEEKEND_RUN = "pause", "days off", "window", "free after", "weekends in a row"
WEEKLY, MONTHLY = "week", "month"
# Words for shifts of any kind, instead of a kind; the last one only where no kind is called so.
ANY = ("shift", "shifts", "days")
DAY = "day"
WEEKENDS = "weekend shifts"
# The rules as they are written, for a hint where one is unknown; KIND is a kind of shifts.
SHAPES = ("rest", "days in a row", "KIND in a row", "shifts per week", "shifts per month", "KIND per week",
          "KIND per month", "weekend shifts per month", "hours per week", "hours per month", "free weekends",
          "whole weekends", "no single", "hours of", "at least 1 on", "at most 1 on", "apart", "together", "holiday",
          "even", "days off in a row", "same kind in a row", "weekends in a row", "shifts in 7 days", "KIND in 7 days",
          "free after", "credit")
NUMBER = r"[0-9]{1,6}(?:[.,][0-9]{1,3})?"
RANGE = re.compile(rf"(?P<least>{NUMBER})?\s*(?P<dash>[-\u2013])?\s*(?P<most>{NUMBER})?")


class Rule(NamedTuple):
    """A rule: what it is, the sentence that it is, and for which persons.

    `kinds` are the kinds of shifts that it counts, None for all; for rest those of the one day, and `after` those of
    the next one.
    """

    what: str
    sentence: str
    persons: Tuple[int, ...]
    kinds: Optional[FrozenSet[str]] = None
    after: Optional[FrozenSet[str]] = None
    least: Optional[Fraction] = None
    most: Optional[Fraction] = None
    # Of counts and hours: in each week, or in the month; and whether weekends alone count.
    per: str = MONTHLY
    of_weekends: bool = False
    # What each unit costs by which it is missed, in units of the roster; None where it has to be kept.
    price: Optional[int] = None
    # Of windows: how many days each has; of free days after a run: how many days that has; of rest: how many minutes.
    length: int = 0


class Rules(NamedTuple):
    """The rules of a file, the hours of kinds, the days that count as weekends, and hours of days without shifts."""

    path: str
    rules: Sequence[Rule] = ()
    hours: Dict[str, Fraction] = {}
    holidays: FrozenSet[int] = frozenset()
    # The hours that a person's day counts as, whatever it has: leave or sickness.
    credits: Mapping[Tuple[int, int], Fraction] = {}


class Ruling(NamedTuple):
    """The rules of a roster, and its calendar."""

    month: Month
    rules: Rules


# Rules that can't have a price: they say what others count, or go before costs.
UNPRICED = ("hours_of", "holiday", "even", "credit")


class RuleLine(NamedTuple):
    """A line of the file, its cells, and where it stands."""

    rule: str
    value: str
    names: str
    line: int
    price: str = ""


def read_rules(path: str, roster: Roster, month: Month) -> Rules:
    """Reads rules: a title line, and lines of a rule, its value, names, none for everybody, and maybe its price.

    Raises `RosterFault` for the first rule, kind, name or number that can't be read, with its place; `OSError` where
    the file can't be.
    """
    sheet = Sheet(path, roster.comma, reading=roster.reading)
    line, title = sheet.title()
    if _shape_of(title[0]) is not None:
        sheet.refuse(f"a title line must come first, and {quoted(title[0])} is a rule", line, 1)
    width = 4 if len(title) > 3 and title[3] else 3
    records = sheet.records()
    next(records)
    lines = []
    for line, cells in records:
        if any(cells[width:]):
            rest = ", names and a price" if width > 3 else " and names"
            hint = " (several names in one cell need quotes)" if sheet.separator == "," else ""
            sheet.refuse(f"{len(cells)} cells, where a rule, a value{rest} are needed{hint}", line)
        rule, value, names, price = (unicodedata.normalize("NFC", cell) for cell in (cells + [""] * 3)[:4])
        lines.append(RuleLine(rule, value, names, line, price if width > 3 else ""))
    return rules_of(sheet.path, lines, roster, month)


def rules_of(path: str, lines: Sequence[RuleLine], roster: Roster, month: Month) -> Rules:
    """The rules of some lines."""
    reader = _RuleReader(path, roster, month)
    for line in lines:
        reader.take(line)
    for rule, line in zip(reader.rules, reader.lines):
        if rule.what == HOURS:
            reader.need_hours(line)
        if rule.what == PAUSE:
            reader.need_times(line)
    return Rules(path, tuple(reader.rules), reader.hours, frozenset(reader.holidays), reader.credits)


PATTERNS: Sequence[Tuple[str, str]] = (
    ("rest", "rest"), ("hours of", "hours_of"), ("holiday", "holiday"), ("no single", "no_single"),
    ("apart|together", "with_others"), ("whole weekends?", "whole"), ("free weekends?", "free"), ("even", "even"),
    (r"at (least|most) ([0-9]{1,4}) on", "staff"), ("days off in a row", "off"), ("weekends in a row", "weekend_run"),
    ("same kind in a row", "same"), ("(.+) in a row", "run"), (r"(.+) in ([0-9]{1,3}) days", "window"),
    ("free after(?: (.+))?", "after"), ("credit", "credit"), ("hours per (week|month)", "per_hours"),
    ("(.+) per (week|month)", "per"))


def _shape_of(text: str) -> Optional[Tuple[str, Match[str]]]:
    """Which rule a text is."""
    words = " ".join(text.split())
    for pattern, name in PATTERNS:
        found = re.fullmatch(pattern, words, re.IGNORECASE)
        if found is not None:
            return name, found
    return None


class _RuleReader:
    """Rules as they are read."""

    def __init__(self, path: str, roster: Roster, month: Month):
        self._path, self._roster, self._month = path, roster, month
        self.rules: List[Rule] = []
        self.lines: List[RuleLine] = []
        self.hours: Dict[str, Fraction] = {}
        self.holidays: List[int] = []
        self.credits: Dict[Tuple[int, int], Fraction] = {}

    def take(self, line: RuleLine) -> None:
        """Takes a line."""
        found = _shape_of(line.rule)
        if found is None:
            self._unknown(line)
        name, words = found
        take: Callable[[RuleLine, Match[str]], None] = getattr(self, "_" + name)
        price = self._price(line, name)
        count = len(self.rules)
        take(line, words)
        self.rules[count:] = [rule._replace(price=price) for rule in self.rules[count:]]

    def _price(self, line: RuleLine, name: str) -> Optional[int]:
        """What a unit costs by which the rule is missed, in units of the roster; None where it has to be kept."""
        if not line.price:
            return None
        if name in UNPRICED:
            self._refuse(line, 4, f"{quoted(line.rule)} has no price")
        try:
            return price_of(line.price, self._roster)
        except ValueError as fault:
            self._refuse(line, 4, str(fault))

    def _refuse(self, line: RuleLine, column: int, text: str) -> NoReturn:
        raise RosterFault(self._path, text, line.line, column)

    def _unknown(self, line: RuleLine) -> NoReturn:
        if not line.rule:
            self._refuse(line, 1, "no rule")
        shapes = [shape.replace("KIND", kind) for shape in SHAPES
                  for kind in (self._month.kinds if "KIND" in shape else [""])]
        near = get_close_matches(line.rule.casefold(), [shape.casefold() for shape in shapes], 1, 0.6)
        named = [shape for shape in shapes if shape.casefold() in near]
        self._refuse(line, 1, f"{quoted(line.rule)} is no rule"
                     + (f": did you mean {quoted(named[0])}?" if named else ""))

    def _kinds(self, line: RuleLine, column: int, text: str) -> Optional[FrozenSet[str]]:
        """The kinds that a text lists; None where it is all shifts."""
        kinds, found = self._month.kinds, set()
        for word in re.split(r"\s*,\s*", text.strip()):
            if word.casefold() in ANY:
                if word in kinds and len(kinds) > 1:
                    self._refuse(line, column, f"{quoted(word)} is a shift of any kind: give that kind another name")
                return None
            kind = _kind_of(word, kinds)
            if kind is None and word.casefold() == DAY:
                return None
            if kind is None:
                near = like(word, kinds) or get_close_matches(word, kinds, 1, 0.6)
                hint = (f": did you mean {' or '.join(map(quoted, near))}?" if near
                        else f": the kinds are {', '.join(kinds) or 'none'}")
                self._refuse(line, column, f"no kind of shift is {quoted(word)}{hint}")
            found.add(kind)
        return frozenset(found)

    def _persons(self, line: RuleLine) -> Tuple[int, ...]:
        """The persons that a line names, by themselves or as a group; everybody where it names none, except those who
        are gone."""
        numbers = self._roster.person_numbers
        if not line.names:
            return tuple(person for person in range(len(self._roster.persons)) if person not in self._roster.gone)
        between = r"\s*[;|]\s*" if re.search("[;|]", line.names) else r"\s*,\s*"
        names = [line.names] if line.names in numbers else re.split(between, line.names)
        found: List[int] = []
        for name in names:
            group = self._roster.persons_of(name) if name not in numbers else None
            found += [numbers[name]] if name in numbers else group or ()
            if name not in numbers and not group:
                near = like(name, self._roster.persons)
                hint = f": did you mean {' or '.join(map(quoted, near))}?" if near else ""
                self._refuse(line, 3, f"the roster has no person {quoted(name)}{hint}" if name else "an empty name")
        return tuple(dict.fromkeys(found))

    def _bounds(self, line: RuleLine, is_whole: bool = True, is_least: bool = False) -> Tuple[Optional[Fraction],
                                                                                              Optional[Fraction]]:
        """At least and at most so many. One number is the most, or with `is_least` the least."""
        found = RANGE.fullmatch(line.value)
        if found is None or not (found["least"] or found["most"]):
            self._refuse(line, 2, f"{quoted(line.value)} is no number, and no range such as 2-5" if line.value
                         else "no number")
        least, most = (None if text is None else Fraction(text.replace(",", "."))
                       for text in (found["least"], found["most"]))
        if not found["dash"]:
            if least is None or most is not None:
                self._refuse(line, 2, f"{quoted(line.value)} is no number, and no range such as 2-5")
            least, most = (least, None) if is_least else (None, least)
        if is_whole and any(bound is not None and bound.denominator > 1 for bound in (least, most)):
            self._refuse(line, 2, f"{quoted(line.value)}: whole numbers are needed")
        if least is not None and most is not None and least > most:
            self._refuse(line, 2, f"{quoted(line.value)}: the second number can't be less")
        return least, most

    def _add(self, line: RuleLine, rule: Rule) -> None:
        self.rules.append(rule)
        self.lines.append(line)

    def _no_value(self, line: RuleLine) -> None:
        """Refuses a value, where the rule takes none but `yes`."""
        if line.value.casefold() not in ("", "yes"):
            self._refuse(line, 2, f"{quoted(line.value)}, where {quoted(line.rule)} has no value")

    def _several(self, line: RuleLine, count: int = 2) -> Tuple[int, ...]:
        persons = self._persons(line)
        if not line.names or len(persons) < count:
            self._refuse(line, 3, f"{count} names are needed" if count > 1 else "a name is needed")
        return persons

    def _rest(self, line: RuleLine, words: Match[str]) -> None:
        hours = re.fullmatch(rf"({NUMBER})\s*(?:hours|h)", line.value, re.IGNORECASE)
        if hours is not None:
            minutes = Fraction(hours[1].replace(",", ".")) * 60
            self._add(line, Rule(PAUSE, _sentence(line), self._persons(line), length=ceil(minutes)))
            return
        first, arrow, second = line.value.partition(">")
        if not (arrow and first.strip() and second.strip()):
            self._refuse(line, 2, f"{quoted(line.value)}, where two kinds are needed, such as Late > Early")
        every = frozenset([*self._month.kinds, NO_KIND])
        one, other = (self._kinds(line, 2, text) or every for text in (first, second))
        self._add(line, Rule(REST, f"rest: {line.value}", self._persons(line), one, other))

    def _run(self, line: RuleLine, words: Match[str]) -> None:
        least, most = self._bounds(line)
        self._add(line, Rule(RUN, _sentence(line), self._persons(line), self._kinds(line, 1, words[1]), None, least,
                             most))

    def _same(self, line: RuleLine, words: Match[str]) -> None:
        least, most = self._bounds(line)
        for kind in self._month.kinds:
            self._add(line, Rule(RUN, f"{_sentence(line)}, {kind}", self._persons(line), frozenset([kind]), None, least,
                                 most))

    def _off(self, line: RuleLine, words: Match[str]) -> None:
        least, most = self._bounds(line)
        self._add(line, Rule(OFF, _sentence(line), self._persons(line), None, None, least, most))

    def _weekend_run(self, line: RuleLine, words: Match[str]) -> None:
        least, most = self._bounds(line)
        if least is not None or most is None:
            self._refuse(line, 2, f"{quoted(line.value)}, where the most weekends are needed")
        self._add(line, Rule(WEEKEND_RUN, _sentence(line), self._persons(line), None, None, None, most))

    def _window(self, line: RuleLine, words: Match[str]) -> None:
        least, most = self._bounds(line)
        if not int(words[2]):
            self._refuse(line, 1, "a day at least is needed")
        self._add(line, Rule(WINDOW, _sentence(line), self._persons(line), self._kinds(line, 1, words[1]), None, least,
                             most, length=int(words[2])))

    def _after(self, line: RuleLine, words: Match[str]) -> None:
        """The run and the number: `free after Night Night` and `2`, or `free after` and `Night Night: 2`; also with
        the number in the place of names."""
        if words[1]:
            kinds, number, column = words[1], line.value, 1
        elif ":" in line.value:
            kinds, number, column = (*line.value.rsplit(":", 1), 2)
        else:
            kinds, number, column = line.value, line.names, 2
            line = line._replace(names="")
        run = kinds.split()
        if not re.fullmatch("[0-9]{1,3}", number.strip()) or not int(number) or not run:
            self._refuse(line, 2, f"{quoted(line.value)}, where a run and the free days after it are needed, such as "
                         "Night Night: 2")
        found = {self._kinds(line, column, word) for word in run}
        if len(found) > 1:
            self._refuse(line, column, f"{quoted(kinds.strip())}: one kind as often as it is in a row, as Night "
                         "Night")
        sentence = f"free after {' '.join(run)}: {int(number)}"
        self._add(line, Rule(AFTER, sentence, self._persons(line), found.pop(), None, Fraction(int(number)),
                             length=len(run)))

    def _credit(self, line: RuleLine, words: Match[str]) -> None:
        found = re.fullmatch(rf"(.+?)(?:\s*\.\.\s*(.+?))?\s*:\s*({NUMBER})(?:\s*h)?", line.value)
        if found is None:
            self._refuse(line, 2, f"{quoted(line.value)}, where days and hours are needed, such as 2027-03-12 .. "
                         "2027-03-19: 7.7")
        first, last = (self._day(line, text) for text in (found[1], found[2] or found[1]))
        if last < first:
            self._refuse(line, 2, f"{quoted(line.value)}: the second day can't be before the first")
        for person in self._several(line, 1):
            for day in range(first, last + 1):
                self.credits[person, day] = Fraction(found[3].replace(",", "."))

    def _no_single(self, line: RuleLine, words: Match[str]) -> None:
        self._add(line, Rule(RUN, _sentence(line), self._persons(line), self._kinds(line, 2, line.value), None,
                             Fraction(2)))

    def _per(self, line: RuleLine, words: Match[str]) -> None:
        least, most = self._bounds(line)
        of_weekends = words[1].casefold() == WEEKENDS
        kinds = None if of_weekends else self._kinds(line, 1, words[1])
        self._add(line, Rule(COUNT, _sentence(line), self._persons(line), kinds, None, least, most, words[2].casefold(),
                             of_weekends))

    def _per_hours(self, line: RuleLine, words: Match[str]) -> None:
        least, most = self._bounds(line, False)
        self._add(line, Rule(HOURS, _sentence(line), self._persons(line), None, None, least, most, words[1].casefold()))

    def _free(self, line: RuleLine, words: Match[str]) -> None:
        least, most = self._bounds(line, True, True)
        self._add(line, Rule(FREE, _sentence(line), self._persons(line), None, None, least, most))

    def _whole(self, line: RuleLine, words: Match[str]) -> None:
        self._no_value(line)
        self._add(line, Rule(WHOLE, "whole weekends", self._persons(line)))

    def _staff(self, line: RuleLine, words: Match[str]) -> None:
        text = re.sub("^each *", "", line.value, flags=re.IGNORECASE)
        kinds = self._kinds(line, 2, text) if text else None
        persons, count = self._several(line, 1), Fraction(words[2])
        side = words[1].casefold()
        least, most = (count, None) if side == "least" else (None, count)
        who = ", ".join(self._roster.persons[person] for person in persons)
        self._add(line, Rule(STAFF, f"at {side} {words[2]} of {who} on {line.value or 'each'}", persons, kinds, None,
                             least, most))

    def _with_others(self, line: RuleLine, words: Match[str]) -> None:
        self._no_value(line)
        persons, what = self._several(line), words[0].casefold()
        self._add(line, Rule(what, f"{what}: {', '.join(self._roster.persons[person] for person in persons)}", persons))

    def _even(self, line: RuleLine, words: Match[str]) -> None:
        of_weekends = line.value.casefold() == WEEKENDS
        kinds = None if of_weekends else self._kinds(line, 2, line.value)
        self._add(line, Rule(EVEN, f"even: {line.value}", self._persons(line), kinds, of_weekends=of_weekends))

    def _hours_of(self, line: RuleLine, words: Match[str]) -> None:
        found = re.fullmatch(rf"(.+?)\s+({NUMBER})(?:\s*h)?", line.value)
        if found is None:
            self._refuse(line, 2, f"{quoted(line.value)}, where a kind and its hours are needed, such as Early 7.7")
        if line.names:
            self._refuse(line, 3, "hours of a kind are for everybody")
        for kind in self._kinds(line, 2, found[1]) or [*self._month.kinds, NO_KIND]:
            if kind in self.hours:
                self._refuse(line, 2, f"the hours of {quoted(kind)} a second time")
            self.hours[kind] = Fraction(found[2].replace(",", "."))

    def _holiday(self, line: RuleLine, words: Match[str]) -> None:
        if line.names:
            self._refuse(line, 3, "a holiday is for everybody")
        self.holidays.append(self._day(line, line.value))

    def _day(self, line: RuleLine, text: str) -> int:
        """A day of the roster by its name, or any date where days are dates."""
        days = {spelling: day for day, name in self._month.names.items() for spelling in spellings(name)}
        day = days.get(text)
        if day is None and self._month.are_dates:
            dates = dates_of([*self._month.names.values(), text]).all
            day = None if dates is None else dates[-1].toordinal()
        if day is None:
            self._refuse(line, 2, f"{quoted(text)} is no day of the roster"
                         + (", and no date" if self._month.are_dates else ""))
        return day

    def need_times(self, line: RuleLine) -> None:
        """Refuses rest in hours where any shift has no times."""
        shifts = [*self._month.shifts.values(), *(shift for own in self._month.worked.values() for shift in own)]
        if any(shift.times is None for shift in shifts):
            self._refuse(line, 2, "hours of rest need columns from and to in the groups' file, for each shift")

    def need_hours(self, line: RuleLine) -> None:
        """Refuses a rule of hours where any shift has none."""
        shifts = [*self._month.shifts.values(), *(shift for own in self._month.worked.values() for shift in own)]
        for shift in shifts:
            if shift.kind not in self.hours and shift.times is None:
                named = f"of the kind {quoted(shift.kind)}" if shift.kind else "of shifts without a kind"
                self._refuse(line, 1, f"the hours {named} aren't known: a rule 'hours of', or columns from and to in "
                             "the groups' file")


def _kind_of(word: str, kinds: Sequence[str]) -> Optional[str]:
    """The one kind that a word names: as it is written, else in any case, else in its plural."""
    if word in kinds:
        return word
    bare = word.casefold()
    for one in (bare, re.sub("s$", "", bare)):
        same = [kind for kind in kinds if kind.casefold() == one]
        if same:
            return same[0] if len(same) == 1 else None
    return None


def _sentence(line: RuleLine) -> str:
    """The rule and its value as they are written."""
    return f"{' '.join(line.rule.split())}: {' '.join(line.value.split())}"
