"""Names that are dates with a year, such as 2027-03-01, 01.03.2027 or, where another has the year, Mo 01.03; and times
of day in a file of groups: columns titled `from` and `to`."""
import re
import unicodedata
from bisect import bisect_left
from datetime import date, timedelta
from functools import lru_cache
from typing import Dict, FrozenSet, List, NamedTuple, Optional, Sequence, Tuple

from .names import SHARED, quoted, said
from .sheets import Sheet

DAY_NAMES = SHARED.day_names.split()
SATURDAY = 5
HALF_A_YEAR = timedelta(days=183)
# Files of calendars have years of four digits, and the week of a later day would end after the last day of Python's.
FIRST, LAST = date(1000, 1, 1), date(9999, 12, 26)
# The days of the week from Monday, without accents, in English, German, French, Spanish, Italian and Dutch.
LANGUAGES = tuple(tuple(day.split("/") for day in week.split()) for week in SHARED.weekdays)
# Tuesday in three of these languages, and March in five.
MARCH = "mar"
WORD = r"[^\W\d_]{2,}"
DATE = re.compile(
    rf"(?:(?P<before>{WORD})[.,]{{0,2}}\s*)?"
    r"(?:(?P<year>[0-9]{4})-(?P<month>[0-9]{1,2})-(?P<day>[0-9]{1,2})"
    r"|(?P<own_day>[0-9]{1,2})\.\s?(?P<own_month>[0-9]{1,2})(?:\.\s?(?P<own_year>[0-9]{4})?)?)"
    rf"(?:,?\s*\(?(?P<after>{WORD})\.?\)?)?")
FROM, TO = "from", "to"
DAY = 24 * 60
TIME = re.compile("([0-9]{1,2}):([0-9]{2})(?::00)?")


class _Written(NamedTuple):
    """A name read as a date: its month and day, its year where it has one, and the days of the week that its word may
    mean."""

    name: str
    year: Optional[int]
    month: int
    day: int
    weekdays: FrozenSet[int]


class Dates(NamedTuple):
    """The dates of some names, None where these aren't dates with a year; then `why` says which one, `name`, isn't."""

    all: Optional[List[date]]
    why: str = ""
    name: str = ""


def weekdays_of(word: str, languages: Sequence[Sequence[Sequence[str]]] = LANGUAGES) -> FrozenSet[int]:
    """The days of the week, from 0, that a word may mean: it is one, or the first two letters or more of one."""
    bare = "".join(letter for letter in unicodedata.normalize("NFKD", word.casefold())
                   if not unicodedata.combining(letter))
    return frozenset(number for week in languages for number, days in enumerate(week) for day in days
                     if len(bare) > 1 and day.startswith(bare))


def _day_words(name: str) -> List[str]:
    """The words of a name for days of the week. `Mar` may be March, and isn't there where another word is."""
    words = [word.casefold() for word in re.findall(WORD, name) if weekdays_of(word)]
    return [word for word in words if word != MARCH] or words


@lru_cache(16)
def weekdays_among(names: Tuple[str, ...]) -> Dict[str, FrozenSet[int]]:
    """The days of the week that the first word for one may mean in each name that has any: in the languages that have
    all these words, or in any if none has."""
    words = {name: own[0] for name, own in zip(names, map(_day_words, names)) if own}
    fitting = [week for week in LANGUAGES if all(weekdays_of(word, (week,)) for word in words.values())]
    return {name: weekdays_of(word, fitting or LANGUAGES) for name, word in words.items()}


def weekends_among(names: Tuple[str, ...]) -> FrozenSet[str]:
    """The names whose first word for a day of the week is one for Saturday or Sunday."""
    return frozenset(name for name, days in weekdays_among(names).items() if min(days) >= SATURDAY)


def has_weekday(name: str) -> bool:
    """Whether a name has a word for a day of the week."""
    return bool(_day_words(name))


@lru_cache(16)
def are_weekdays(names: Tuple[str, ...]) -> bool:
    """Whether any name has a word that is surely one for a day of the week."""
    return any(word != MARCH for name in names for word in _day_words(name))


def has_year(name: str) -> bool:
    """Whether a name is a date with a year, maybe one that no calendar has."""
    written = _written(name)
    return written is not None and written.year is not None


def dates_of(names: Sequence[str]) -> Dates:
    """The dates of names, if each is one and any has a year. A name without one has the year in which it is nearest to
    a date with one."""
    written: List[_Written] = []
    for name in names:
        found = _written(name)
        if found is None:
            return Dates(None, said("no date", name), name)
        written.append(found)
    wrong = [own.name for own in written if own.year is not None and _dated(own) is None]
    if wrong:
        return Dates(None, said("no day", wrong[0]), wrong[0])
    if all(own.year is None for own in written):
        return Dates(None, said("no year", names[0]) if names else said("there are none"))
    return _all_dated(written, sorted(found for found in map(_dated, written) if found is not None))


def _all_dated(written: Sequence[_Written], anchors: Sequence[date]) -> Dates:
    dates: List[date] = []
    for own in written:
        found = _dated(own) if own.year is not None else _nearest(own, anchors)
        if found is None:
            return Dates(None, said("no day", own.name), own.name)
        if own.weekdays and found.weekday() not in own.weekdays:
            return Dates(None, said("other weekday", own.name, DAY_NAMES[found.weekday()]), own.name)
        dates.append(found)
    return Dates(dates)


def _written(name: str) -> Optional[_Written]:
    """A name read as a date, if it is one; its words must be days of the week."""
    found = DATE.fullmatch(name)
    if found is None:
        return None
    weekdays = [weekdays_of(word) for word in (found["before"], found["after"]) if word]
    if not all(weekdays):
        return None
    year = found["year"] or found["own_year"]
    month, day = int(found["month"] or found["own_month"]), int(found["day"] or found["own_day"])
    return _Written(name, int(year) if year else None, month, day,
                    frozenset.intersection(*weekdays) if weekdays else frozenset())


def _dated(own: _Written, year: Optional[int] = None) -> Optional[date]:
    """The date, with its own year or a given one; None where the calendar has none."""
    year = own.year if year is None else year
    try:
        found = None if year is None else date(year, own.month, own.day)
    except ValueError:
        return None
    return found if found is not None and FIRST <= found <= LAST else None


def _nearest(own: _Written, anchors: Sequence[date]) -> Optional[date]:
    """The date in that year in which it is nearest to one of some others, which rise, at most half a year away; of two
    the earlier."""
    years = sorted({year for anchor in anchors for year in (anchor.year - 1, anchor.year, anchor.year + 1)})
    found = [(_apart(one, anchors), one) for one in (_dated(own, year) for year in years) if one is not None]
    return min(((apart, one) for apart, one in found if apart <= HALF_A_YEAR), default=(None, None))[1]


def _apart(one: date, anchors: Sequence[date]) -> timedelta:
    """How far a date is from the nearest of some others, which rise."""
    place = bisect_left(anchors, one)
    return min(abs(one - anchor) for anchor in anchors[max(place - 1, 0):place + 1])


def monday_of(day: date) -> date:
    """The Monday of a day's week."""
    return day - timedelta(days=day.weekday())


def spellings(name: str) -> Tuple[str, ...]:
    """All common ways to write a name that is a date with a year alone, first as date cells are read; of any other name
    itself."""
    written = None if any(map(str.isalpha, name)) else _written(name)
    day = None if written is None else _dated(written)
    if day is None:
        return (name,)
    days, months = (dict.fromkeys((f"{number:02}", str(number))) for number in (day.day, day.month))
    dashed = (f"{day.year}-{month}-{own}" for month in months for own in days)
    dotted = (f"{own}.{space}{month}.{space}{day.year}" for space in ("", " ") for own in days for month in months)
    return tuple(dict.fromkeys((*dashed, *dotted, name)))


class Times(NamedTuple):
    """When an object begins and ends, in minutes after the midnight at which its day begins."""

    begin: int
    end: int

    def shown(self) -> str:
        """The times as people write them; the next day's have a mark."""
        return f"{_clock(self.begin)}\u2013{_clock(self.end)}" + (" (+1)" if self.end > DAY else "")


def _clock(minutes: int) -> str:
    """A time of day; the end of a day is 24:00."""
    hour, minute = divmod(minutes if minutes <= DAY else minutes - DAY, 60)
    return f"{hour:02}:{minute:02}"


class Columns(NamedTuple):
    """Which cells of a line, from 0, have the times."""

    begin: int
    end: int


def columns_of(sheet: Sheet, title: Sequence[str], line: int) -> Optional[Columns]:
    """The columns of times after the first two, if there are any. Refuses one without the other."""
    places = [[place for place, cell in enumerate(title) if place > 1 and cell.casefold() == word]
              for word in (FROM, TO)]
    if not any(places):
        return None
    for own, word, other in zip(places, (FROM, TO), (TO, FROM)):
        if len(own) != 1:
            sheet.refuse(said("times", len(own), quoted(word), quoted(other)) if own
                         else said("one time", quoted(other), quoted(word)), line)
    return Columns(places[0][0], places[1][0])


def times_of(sheet: Sheet, cells: List[str], columns: Columns, line: int) -> Optional[Times]:
    """The times of a line, None where both cells are empty. What ends before it begins, or when it begins, ends on the
    next day."""
    if not cells[columns.begin] and not cells[columns.end]:
        return None
    begin, end = (_minutes(sheet, cells[place], line, place + 1, most)
                  for place, most in ((columns.begin, DAY - 1), (columns.end, DAY)))
    return Times(begin, end if end > begin else end + DAY)


def _minutes(sheet: Sheet, cell: str, line: int, column: int, most: int) -> int:
    """A time of day in minutes, at most so many."""
    found = TIME.fullmatch(cell)
    if found is None or int(found[2]) > 59 or int(found[1]) * 60 + int(found[2]) > most:
        sheet.refuse(said("no time", quoted(cell)), line, column)
    return int(found[1]) * 60 + int(found[2])
