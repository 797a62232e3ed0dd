#!/usr/bin/env python3
"""What the command makes of rosters, for the page to agree with: those of a table, of examples/, and drawn ones.

    tests/page/read_rosters.py TABLE.json HOW_MANY MONTHS EXAMPLE.csv.. > READ.json

Each has its bytes, how it is to be read, and what the command's reader and its answer say, in the page's words where
these name options.
"""
import base64
import datetime
import json
import os
import random
import sys
import tempfile
from typing import Any, Dict, List, Optional, Tuple

sys.path.insert(0, os.path.join(os.path.dirname(os.path.abspath(__file__)), "../../python"))
sys.dont_write_bytecode = True

from nushbaret.roster.names import guarded  # noqa: E402
from nushbaret.roster.answer import Answer, Request, answer_of, left_out  # noqa: E402
from nushbaret.roster.by_counts import answer_by_counts  # noqa: E402
from nushbaret.roster.answer import changes_of  # noqa: E402
from nushbaret.roster.groups import read_counts, read_groups, with_rules  # noqa: E402
from nushbaret.roster.past import with_past  # noqa: E402
from nushbaret.roster.names import without_marks  # noqa: E402
from nushbaret.roster.forms import read_roster  # noqa: E402
from nushbaret.roster.roster import PlanLine, Roster, read_old_plan  # noqa: E402
from nushbaret.roster.sheets import Reading, RosterFault  # noqa: E402
from nushbaret.roster.output.texts import Report, as_csv, first_lines, rows_of  # noqa: E402
from nushbaret.roster.words import read_words  # noqa: E402

# The command names its options, and the page what it has for them.
WORDS = {
    "; with --decimal-comma it may be": "; with a decimal comma it may be",
    "? Say --lines or --matrix": "? Choose the form",
    "(list it once; --tasks says how many it takes)": "(list it once; a file of tasks says how many it takes)",
    "(list it once; --places says how many it takes)": "(list it once; a file of places says how many it takes)",
    ", or name its encoding by --encoding": "",
}
NAMES = ["Ada", "Ben", "Cleo", "Zoë", "Müller", "O'Hara", "Anne Marie", "day 1", "2027-03-01", "1.3.2027",
         "night, late", 'the "wall"', "x", "a;b", "7", "ada", "Straße", "Łukasz", "早番", " padded ", "n/a", "A\u00a0B",
         "12.5", "Mon 01.03.", "=1+1", "'=a", "''=a", "@b", "+c", "-d", "'-7", "-7", "'", "'+"]
COSTS = ["0", "1", "2", "3", "17", "-4", "+5", "2.5", "2.50", "0.125", "-0.000001", "1e2", "1.5E+01", "007", ".5", "5.",
         "1000000", " 3 ", "-0"]
ODD = ["x", "1.2.3", "0.1234567", "1000000000001", "-", "2,5", "1e99", "--1", "½", "٣"]


def words_of(text: str) -> str:
    for own, other in WORDS.items():
        text = text.replace(own, other)
    return text


def drawn(random_: random.Random) -> Dict[str, Any]:
    """A roster, with a fault at times."""
    separator = random_.choice(";,\t")
    comma = separator != "," and random_.random() < 0.3
    persons, objects = (random_.sample(NAMES, random_.randint(1, 6)) for _ in range(2))
    is_matrix = random_.random() < 0.5
    rows = _matrix(random_, persons, objects) if is_matrix else _lines(random_, persons, objects)
    end = random_.choice(["\n", "\n", "\r\n", "\r"])
    text = end.join(separator.join(_cell(random_, cell, separator) for cell in row)
                    for row in rows) + random_.choice(["", end])
    if comma:
        text = text.replace(".", ",")
    if random_.random() < 0.1:
        text = f"sep={separator}{end}{text}"
    if random_.random() < 0.35:
        text = _with_fault(random_, text)
    encoding = random_.choice(["utf-8", "utf-8", "utf-8", "utf-8-sig", "utf-16", "cp1252"])
    return {"bytes": text.encode(encoding, "replace"), "comma": comma,
            "form": random_.choice(["", "", "", "lines", "matrix"]), "max": random_.random() < 0.3}


def _cost(random_: random.Random) -> str:
    return random_.choice(ODD) if random_.random() < 0.005 else random_.choice(COSTS)


def _matrix(random_: random.Random, persons: List[str], objects: List[str]) -> List[List[str]]:
    share = random_.choice([0.0, 0.2, 0.6])
    title = [random_.choice(["", "nurse", "Person"]), *objects]
    return [title] + [[name, *("" if random_.random() < share else _cost(random_) for _ in objects)]
                      for name in persons]


def _lines(random_: random.Random, persons: List[str], objects: List[str]) -> List[List[str]]:
    share = random_.choice([0.2, 0.6, 1.0])
    pairs = [[name, object_, _cost(random_)] for name in persons for object_ in objects if random_.random() < share]
    random_.shuffle(pairs)
    return [random_.choice([["nurse", "shift", "hours"], ["a", "b", "c"], ["person", "", "cost"]])] + pairs


def _cell(random_: random.Random, cell: str, separator: str) -> str:
    if separator in cell or '"' in cell or random_.random() < 0.1:
        return '"' + cell.replace('"', '""') + '"'
    return cell


def _with_fault(random_: random.Random, text: str) -> str:
    place = random_.randrange(len(text) + 1)
    kind = random_.randrange(4)
    if kind == 0:
        return text[:place] + text[place + 1:]
    if kind == 1:
        return text[:place] + random_.choice(';,\t"\n\rx-1\x07é\u200b \u202e\u200e\u2028\0=@+\'') + text[place:]
    lines = text.splitlines(True) or [text]
    line = random_.randrange(len(lines))
    return "".join(lines[:line] + lines[line:line + 1] * (2 if kind == 2 else 0) + lines[line + 1:])


FILES = ("places", "tasks", "groups", "plan")
KINDS = ["early", "late", "night"]
# So many wards are drawn.
WARDS = 500
WISHES = [0, 1, 1, 2, 2, 3, 4, 5, 6, 9]


def drawn_ward(random_: random.Random) -> Dict[str, Any]:
    """A roster with counts, days, an earlier plan and a past, each at times, and at times with a fault."""
    persons, kinds = random_.sample(NAMES[:8], random_.randint(2, 5)), KINDS[:random_.randint(1, 3)]
    days = random_.choice([["2027-03-0%d" % day for day in range(5, 9)], ["Mon", "Tue", "Sat"], ["x", "y"],
                           ["Fr 05.03.", "06.03.2027", "So 07.03."]])
    objects = [(f"{kind} {day}", day) for day in days for kind in kinds]
    rows = [[person, name, _cost(random_)] for person in persons for name, _ in objects if random_.random() < 0.7]
    case: Dict[str, Any] = {"text": _csv([["nurse", "shift", "dislike"], *rows]), "max": random_.random() < 0.3,
                            "fullest": random_.random() < 0.3}
    if not rows:
        return case
    known = list(dict.fromkeys(row[1] for row in rows))
    if random_.random() < 0.8:
        case["places"] = _counts(random_, "shift", known)
    if random_.random() < 0.8:
        case["tasks"] = _counts(random_, "nurse", list(dict.fromkeys(row[0] for row in rows)), 4)
    if random_.random() < 0.8:
        case["groups"] = _csv([["shift", "day"], *[[name, day] for name, day in objects if name in known]])
    if random_.random() < 0.4:
        taken = random_.sample(rows, min(len(rows), random_.randint(1, 4)))
        case["plan"] = _csv([["nurse", "shift", "dislike"], *taken])
        if "groups" in case and random_.random() < 0.6:
            case["past"] = random_.choice(days)
    if random_.random() < 0.25:
        return _with_odd_file(random_, case)
    if "plan" in case and random_.random() < 0.5:
        case["plan"] = json.dumps({"pairs": [dict(zip(("person", "object", "cost"), row)) for row in taken]})
    return case


def _csv(rows: List[List[str]]) -> str:
    return "".join(",".join(_cell(random.Random(0), cell, ",") for cell in row) + "\n" for row in rows)


def _counts(random_: random.Random, title: str, names: List[str], most: int = 2) -> str:
    """A file of counts: of one number in each line, or of two."""
    if random_.random() < 0.3:
        return _csv([[title, "number"], *[[name, str(random_.randint(0, most))] for name in names]])
    rows = [[name, str(random_.randint(0, most - 1)), str(random_.randint(1, most))] for name in names
            if random_.random() < 0.95]
    return _csv([[title, "at least", "at most"], *[row[:1] + sorted(row[1:]) for row in rows]])


def _with_odd_file(random_: random.Random, case: Dict[str, Any]) -> Dict[str, Any]:
    """The case with a fault in one of its files."""
    file = random_.choice([name for name in ("text", *FILES) if name in case])
    lines = case[file].splitlines(True)
    place = random_.randrange(len(lines))
    cells = lines[place].rstrip("\n").split(",")
    odd = random_.choice(["", "Adda", "early  Mon", "-1", "x", "9999999", "1", "LATE Mon", '"'])
    cells[random_.randrange(len(cells))] = odd
    changed = ",".join(cells) + "\n"
    return {**case, file: "".join(lines[:place] + [changed] * random_.choice([1, 1, 2]) + lines[place + 1:])}


def drawn_month(random_: random.Random) -> Dict[str, Any]:
    """A month of 28 nurses and 93 shifts, with wishes, leave, one shift a day, and counts of both sides."""
    days = [f"2027-03-{day:02}" for day in range(1, 32)]
    nurses = [f"Nurse {number:02}" for number in range(1, 29)]
    leave = {nurse: random_.randrange(25) for nurse in random_.sample(nurses, 8)}
    away = {nurse: set(days[begin:begin + 6]) for nurse, begin in leave.items()}
    rows = [["nurse", *(f"{kind} {day}" for day in days for kind in KINDS)]]
    rows += [[nurse, *("" if day in away.get(nurse, ()) or random_.random() < 0.05 else str(random_.choice(WISHES))
                       for day in days for _ in KINDS)] for nurse in nurses]
    places = [[name, str(least), str(least + 1)] for name, least in zip(rows[0][1:], [4, 3, 2] * 31)]
    return {"text": _csv(rows), "places": _csv([["shift", "at least", "at most"], *places]),
            "tasks": _csv([["nurse", "at least", "at most"], *[[nurse, "8", "13"] for nurse in nurses]]),
            "groups": _csv([["shift", "day"], *[[name, name.split()[1]] for name in rows[0][1:]]])}


def months_of(random_: random.Random, folder: str, count: int) -> List[Dict[str, Any]]:
    """Drawn months, and each with a nurse who is sick from the 12th: of the plan before as little changes as can
    be."""
    found: List[Dict[str, Any]] = []
    for number in range(count):
        case: Dict[str, Any] = {**drawn_month(random_), "name": f"month {number}"}
        case["wanted"] = plan_of_ward(folder, case)
        sick = {**case, "name": f"month {number}, one sick", "plan": case["wanted"].pop("csv"), "past": "2027-03-12",
                "tasks": case["tasks"].replace("Nurse 05,8,13", "Nurse 05,0,0")}
        sick["wanted"] = {name: value for name, value in plan_of_ward(folder, sick).items() if name != "csv"}
        found += [case, sick]
    return found


def plan_of_ward(folder: str, case: Dict[str, Any]) -> Dict[str, Any]:
    """What the command says of a roster with counts and groups, of its plan, and of what changes from an earlier
    one."""
    paths = {name: os.path.join(folder, f"{name}.csv") for name in ("roster", *FILES)}
    if case.get("plan", "").startswith("{"):
        paths["plan"] = os.path.join(folder, "plan.json")
    for name in ("roster", *FILES):
        text = case["text"] if name == "roster" else case.get(name)
        if text is not None:
            with open(paths[name], "w", encoding="utf-8", newline="") as out:
                out.write(text)
    try:
        roster, request, report = asked(paths, case)
        solve = answer_by_counts if roster.ruled else answer_of
        answer = solve(roster, request)
    except RosterFault as fault:
        name = os.path.splitext(os.path.basename(fault.path))[0]
        return {"text": words_of(fault.text), "file": "" if fault.path.startswith("--") else name,
                "line": fault.line or 0, "column": fault.column or 0}
    report = report._replace(answer=answer)
    found: Dict[str, Any] = {"said": list(map(without_marks, first_lines(report)))}
    if answer.plan is not None:
        found["pairs"] = len(answer.plan.pairs)
        changes = changes_of(roster, answer.plan, report.kept) if report.kept else None
        found["changes"] = len(changes.comes) + len(changes.goes) if changes else -1
        found["csv"] = as_csv(roster, answer.plan)
        found["swaps"] = [[list(swap.persons), list(swap.objects)] for swap in answer.plan.swaps]
    return found


def asked(paths: Dict[str, str], case: Dict[str, Any]) -> Tuple[Roster, Request, Report]:
    """A roster with all its files, and what is asked of it."""
    roster = read_roster(paths["roster"], None, None, False)
    tasks = read_counts(paths["tasks"], roster, False) if "tasks" in case else None
    places = read_counts(paths["places"], roster, True) if "places" in case else None
    roster = with_rules(roster, tasks, places, read_groups(paths["groups"], roster) if "groups" in case else None)
    kept = read_old_plan(paths["plan"], roster, not roster.ruled) if "plan" in case else None
    fixed: List[PlanLine] = []
    if "past" in case and kept is not None and roster.groups is not None:
        roster, kept, past = with_past(roster, roster.groups, kept, case["past"], None)
        fixed = list(past.pairs)
    pairs = None if kept is None else {(pair.person, pair.object) for pair in kept.known}
    request = Request(fixed, case.get("max", False), case.get("fullest", False), pairs, None, True)
    options = read_words(["roster.csv"])._replace(max=case.get("max", False))
    return roster, request, Report(options, roster, Answer(None, []), kept)

def said(roster: Roster, maximize: bool) -> List[str]:
    """The first lines of the answer, and who is left over; the plan's pairs are any of the best ones."""
    options = read_words(["roster.csv"])._replace(max=maximize)
    answer = answer_of(roster, Request(maximize=maximize))
    lines = list(map(without_marks, first_lines(Report(options, roster, answer))))
    if answer.plan is not None:
        lines += [f"{len(rows_of(roster, answer.plan))} pairs"]
        lines += [f"{out.how}: {len(out.names)}" for out in left_out(roster, answer.plan)]
    return lines


def read(path: str, case: Dict[str, Any]) -> Dict[str, Any]:
    """What the command makes of a roster."""
    notes: List[str] = []
    try:
        roster = read_roster(path, case["form"] or None, None, case["comma"], reading=Reading(None, notes.append))
    except RosterFault as fault:
        return {"text": words_of(fault.text), "line": fault.line or 0, "column": fault.column or 0}
    return {"titles": list(roster.titles), "persons": roster.persons, "objects": roster.objects,
            "ofPersons": list(roster.of_persons), "ofObjects": list(roster.of_objects), "costs": list(roster.costs),
            "decimals": roster.decimals, "separator": roster.separator, "comma": roster.comma,
            "isMatrix": roster.is_matrix, "isGuess": bool(notes), "said": said(roster, case["max"]),
            "written": list(map(guarded, [*roster.titles, *roster.persons, *roster.objects]))}


def workbook(folder: str) -> Optional[Dict[str, Any]]:
    """A workbook with dates, merged titles, numbers and a sheet of tasks, and what the command reads; None without
    openpyxl."""
    try:
        import openpyxl
    except ImportError:
        return None
    book = openpyxl.Workbook()
    sheet, tasks = book.active, book.create_sheet("tasks")
    sheet.title = "roster"
    for row in (["nurse", datetime.date(2027, 3, 1), None, datetime.datetime(2027, 3, 2), None],
                ["", "early", "late", "early", "late"], ["Zoë & <b>", 1, 2.5, 0.1 + 0.2, None],
                ["=Ben", 3, None, 0.001, 12]):
        sheet.append(["'" + cell if cell == "=Ben" else cell for cell in row])
    sheet.merge_cells("B1:C1")
    sheet.merge_cells("D1:E1")
    for row in (["nurse", "at least", "at most"], ["Zoë & <b>", 1, 2], ["=Ben", 0, 3]):
        tasks.append(["'" + cell if cell == "=Ben" else cell for cell in row])
    path = os.path.join(folder, "book.xlsx")
    book.save(path)
    roster = read_roster(path, None, None, False)
    counts = read_counts(path + "#tasks", roster, False)
    with open(path, "rb") as data:
        content = base64.b64encode(data.read()).decode()
    return {"bytes": content, "wanted": {"persons": roster.persons, "objects": roster.objects,
                                         "costs": list(roster.costs), "decimals": roster.decimals,
                                         "tasks": [list(own) for _, own in sorted(counts.bounds.items())]}}


def is_ward(case: Dict[str, Any]) -> bool:
    """Whether a case has more files than a roster."""
    return any(name in case for name in FILES)


def text_of(case: Dict[str, Any]) -> str:
    """The text of a case, with what is long in it written out."""
    text: str = case["text"]
    return text.replace("LONG", case.get("letter", "a") * case["long"]) if "long" in case else text


def main() -> None:
    with open(sys.argv[1], encoding="utf-8") as file:
        table = json.load(file)
    cases = [{"bytes": bytes.fromhex(case["bytes"]) if "bytes" in case else text_of(case).encode(),
              "name": case["name"], "comma": case.get("comma", False), "form": case.get("form", ""),
              "max": case.get("max", False)} for case in table if not is_ward(case)]
    for path in sys.argv[4:]:
        with open(path, "rb") as data:
            cases.append({"bytes": data.read(), "name": os.path.basename(path), "comma": False, "form": "",
                          "max": False})
    random_ = random.Random(65)
    cases += [{**drawn(random_), "name": f"drawn {number}"} for number in range(int(sys.argv[2]))]
    with tempfile.TemporaryDirectory() as folder:
        path = os.path.join(folder, "roster.csv")
        for case in cases:
            with open(path, "wb") as out:
                out.write(case["bytes"])
            case["wanted"] = read(path, case)
            case["bytes"] = base64.b64encode(case["bytes"]).decode()
        wards = [case for case in table if is_ward(case)]
        wards += [{**drawn_ward(random_), "name": f"drawn ward {number}"} for number in range(WARDS)]
        for case in wards:
            case["wanted"] = plan_of_ward(folder, case)
            case["wanted"].pop("csv", None)
        wards += months_of(random_, folder, int(sys.argv[3]))
        book = workbook(folder)
    json.dump({"rosters": cases, "wards": wards, "workbook": book}, sys.stdout)


if __name__ == "__main__":
    main()
