"""Drawn rosters with rules: the roster, its calendar and its rules, for tests that compare two ways to read them."""
from array import array
from datetime import date, timedelta

from nushbaret.roster.month import Before, month_of
from nushbaret.roster.roster import Earlier, Groups, PlanLine, Roster
from nushbaret.roster.rules.rule_file import RuleLine, rules_of
from nushbaret.roster.dates import Times

KINDS = ("Early", "Late", "Night")
NAMES = ("Ada", "Ben", "Cleo", "Dan", "Eve", "Finn")
# Each rule as it may be drawn: a maker of its value, and how many names it needs.
SHAPES = (
    ("rest", lambda r: f"{r.choice(KINDS)} > {r.choice(KINDS)}", 0),
    ("rest", lambda r: f"{r.choice(KINDS)}, {r.choice(KINDS)} > {r.choice(KINDS)}", 0),
    ("days in a row", lambda r: str(r.randint(1, 4)), 0),
    ("Night in a row", lambda r: r.choice(("1", "2", "3", "2-3", "2-", "1-2")), 0),
    ("shifts in a row", lambda r: r.choice(("2-4", "3-")), 0),
    ("shifts per week", lambda r: r.choice(("2", "4", "2-5", "1-3", "3-")), 0),
    ("Night per week", lambda r: r.choice(("1", "0-2", "1-")), 0),
    ("Late per month", lambda r: r.choice(("2", "3", "1-4")), 0),
    ("shifts per month", lambda r: r.choice(("5", "7", "3-8", "4-")), 0),
    ("weekend shifts per month", lambda r: r.choice(("1", "2", "1-3")), 0),
    ("hours per month", lambda r: r.choice(("40", "60,5", "20-70", "24-")), 0),
    ("hours per week", lambda r: r.choice(("24", "30.5", "8-40")), 0),
    ("free weekends", lambda r: r.choice(("1", "2", "1-1", "0-1")), 0),
    ("whole weekends", lambda r: "", 0),
    ("no single", lambda r: r.choice(KINDS), 0),
    ("at least 1 on", lambda r: r.choice(("each", "Night", "each Early")), 2),
    ("at most 1 on", lambda r: r.choice(("each", "each Late")), 2),
    ("apart", lambda r: r.choice(("", "yes")), 2),
    ("together", lambda r: "", 2),
    ("days off in a row", lambda r: r.choice(("2-", "3-", "1-2", "2-4", "3")), 0),
    ("same kind in a row", lambda r: r.choice(("2-", "2", "1-2", "2-3")), 0),
    ("weekends in a row", lambda r: r.choice(("1", "2")), 0),
    ("shifts in 7 days", lambda r: r.choice(("2", "4", "1-4", "2-")), 0),
    ("Night in 3 days", lambda r: r.choice(("1", "0-2", "1-")), 0),
    ("free after Night", lambda r: r.choice(("1", "2")), 0),
    ("free after", lambda r: r.choice(("Night Night: 1", "Late Late: 2", "shift shift: 1")), 0),
    ("rest", lambda r: r.choice(("11 hours", "17 h", "35.5 hours")), 0),
)
HOURS = (RuleLine("hours of", "Early 7.7", "", 2), RuleLine("hours of", "Night 9,5", "", 3))
TIMES = (Times(6 * 60, 14 * 60), Times(14 * 60, 22 * 60), Times(21 * 60 + 30, 30 * 60 + 30))


def roster_of(r, n_persons, n_days, are_dates, share=0.85):
    """A roster with an object of each kind on most days, and a day in ten without any."""
    first = date(2027, 2, r.randint(1, 28))
    days = [first + timedelta(day) for day in range(n_days)]
    open_days = [number for number in range(n_days) if not are_dates or r.random() < 0.9] or [0]
    names = [days[number].isoformat() if are_dates else f"day {number + 1}" for number in open_days]
    objects = [f"{kind} {name}" for name in names for kind in KINDS]
    of_objects = {object_: object_ // len(KINDS) for object_ in range(len(objects))}
    kinds = {object_: KINDS[object_ % len(KINDS)] for object_ in range(len(objects))}
    times = {object_: TIMES[object_ % len(KINDS)] for object_ in range(len(objects))}
    pairs = [(person, object_) for person in range(n_persons) for object_ in range(len(objects)) if r.random() < share]
    persons = list(NAMES[:n_persons])
    numbers = [{name: number for number, name in enumerate(names)} for names in (persons, objects)]
    roster = Roster(persons, objects, *numbers, array("H", (person for person, _ in pairs)),
                    array("H", (object_ for _, object_ in pairs)), array("q", (r.randint(0, 9) for _ in pairs)), 0,
                    ("nurse", "shift", "cost"), ",", False, by_persons=True)
    return roster._replace(groups=Groups("day", names, of_objects, times, kinds, True)), first


def with_earlier(r, roster, first, are_dates):
    """The roster with up to five days before its first one, and what was worked on them."""
    names = [(first - timedelta(back)).isoformat() if are_dates else f"earlier {-back}"
             for back in range(r.randint(1, 5), 0, -1)]
    earlier = [Earlier(f"{kind} {name}", name, kind, times, 2) for name in names for kind, times in zip(KINDS, TIMES)]
    pairs = [(person, f"{r.choice(KINDS)} {name}", 2) for person in roster.persons for name in names
             if r.random() < 0.6]
    return roster._replace(groups=roster.groups._replace(earlier=tuple(earlier))), Before("before.csv", pairs)


def with_past(r, roster):
    """The roster with the first days past, and the pairs of the past."""
    cut = r.randint(1, max(1, len(roster.groups.names) // 2))
    past = frozenset(object_ for object_, group in roster.groups.of_objects.items() if group < cut)
    allowed = sorted(roster.costs_of({(person, object_) for person in range(len(roster.persons))
                                      for object_ in past}).items())
    taken = {}
    for (person, object_), cost in r.sample(allowed, len(allowed)):
        if r.random() < 0.6:
            taken.setdefault((person, roster.groups.of_objects[object_]), PlanLine(person, object_, 2, cost))
    return roster._replace(past=past), sorted(taken.values())


def drawn_lines(r, persons, count, shapes=SHAPES):
    """Some lines of rules."""
    lines = []
    for number in range(count):
        rule, value, least = r.choice(shapes)
        some = r.sample(persons, r.randint(least, len(persons))) if least or r.random() < 0.3 else []
        lines.append(RuleLine(rule, value(r), ", ".join(some), number + 4))
    return [*HOURS, *lines]


def drawn_case(r, n_persons, n_days, n_rules, shapes=SHAPES):
    """A roster, its calendar, its rules, and the pairs of the past."""
    are_dates = r.random() < 0.7
    roster, first = roster_of(r, n_persons, n_days, are_dates)
    before, past = None, []
    if r.random() < 0.4:
        roster, before = with_earlier(r, roster, first, are_dates)
    if r.random() < 0.3:
        roster, past = with_past(r, roster)
    month = month_of(roster, roster.groups, "g.csv", before)
    lines = drawn_lines(r, roster.persons, n_rules, shapes)
    if r.random() < 0.3:
        lines.insert(2, RuleLine("credit", f"{r.choice(roster.groups.names)}: {r.choice(('7.7', '4', '8,25'))}",
                                 r.choice(roster.persons), 3))
    if r.random() < 0.3:
        lines.insert(2, RuleLine("holiday", r.choice(roster.groups.names), "", 3))
    rules = rules_of("rules.csv", lines, roster, month)
    return roster, month._replace(holidays=rules.holidays), rules, past
