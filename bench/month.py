#!/usr/bin/env python3
"""Times the command for a month of 100 nurses and 93 shifts, 18 to 20 tasks and 18 to 22 places each, with one shift a
day and without that rule; and for a ward of 28 nurses and 84 shifts of 28 days, a new plan, a nurse who is sick from
day 12, and a plan compared: processor time and peak memory. PACKAGE=.. names another folder of the package."""
import os
import random
import sys
import tempfile

TOP = os.path.dirname(os.path.dirname(os.path.abspath(__file__)))
NURSES = [f"nurse {number}" for number in range(1, 101)]
DAYS = range(1, 32)
SHIFTS = [f"{shift} {day}" for day in DAYS for shift in ("early", "late", "night")]


def tables():
    """The files of the month, by their names: nine pairs in ten are allowed."""
    draw = random.Random(1)
    pairs = [(nurse, shift, draw.randint(1, 100)) for nurse in NURSES for shift in SHIFTS if draw.random() < 0.9]
    return {
        "month.csv": [("nurse", "shift", "hours"), *pairs],
        "tasks.csv": [("nurse", "least", "most"), *((nurse, 18, 20) for nurse in NURSES)],
        "places.csv": [("shift", "least", "most"), *((shift, 18, 22) for shift in SHIFTS)],
        "days.csv": [("shift", "day"), *((shift, shift.split()[1]) for shift in SHIFTS)],
    }


def ward():
    """The files of the ward, where four pairs in five are allowed: two to four nurses a shift, a day off after five,
    and one is sick."""
    draw = random.Random(2)
    nurses = [f"nurse {number}" for number in range(1, 29)]
    shifts = [f"{shift} {day}" for day in range(1, 29) for shift in ("early", "late", "night")]
    pairs = [(nurse, shift, draw.randint(1, 9)) for nurse in nurses for shift in shifts if draw.random() < 0.8]
    tasks = [(nurse, 8, 14) for nurse in nurses]
    return {"ward.csv": [("nurse", "shift", "dislike"), *pairs], "ward_tasks.csv": [("nurse", "least", "most"), *tasks],
            "ward_sick.csv": [("nurse", "least", "most"), ("nurse 1", 0, 0), *tasks[1:]],
            "ward_places.csv": [("shift", "least", "most"),
                                *((shift, 2, 4) if shift[0] != "n" else (shift, 2, 2) for shift in shifts)],
            "ward_days.csv": [("shift", "day"), *((shift, shift.split()[1]) for shift in shifts)]}


def run(words):
    """Seconds of processor time, and MB."""
    child = os.fork()
    if child == 0:
        os.environ["PYTHONPATH"] = os.environ.get("PACKAGE", os.path.join(TOP, "python"))
        os.dup2(os.open(os.devnull, os.O_WRONLY), 1)
        os.execv(sys.executable, [sys.executable, "-m", "nushbaret", *words])
    _, status, used = os.wait4(child, 0)
    if status:
        raise SystemExit(f"{' '.join(words)} ended with {status}")
    return used.ru_utime + used.ru_stime, used.ru_maxrss / 1024


def main():
    with tempfile.TemporaryDirectory() as folder:
        os.chdir(folder)
        for name, lines in {**tables(), **ward()}.items():
            with open(name, "w", encoding="utf-8") as file:
                file.writelines(",".join(map(str, line)) + "\n" for line in lines)
        words = ["month.csv", "--tasks", "tasks.csv", "--places", "places.csv"]
        for what, more in (("one shift a day", ["--groups", "days.csv"]), ("without that rule", [])):
            print("{}: {:.1f} s, {:.0f} MB".format(what, *run(words + more)))
        rules = ["ward.csv", "--places", "ward_places.csv", "--groups", "ward_days.csv", "--tasks"]
        for what, more in (("a ward", ["ward_tasks.csv", "--output", "plan.csv", "--output", "plan.html"]),
                           ("one is sick", ["ward_sick.csv", "--keep", "plan.csv"]),
                           ("one is sick, and changes cost",
                            ["ward_sick.csv", "--keep", "plan.csv", "--change-cost", "3"])):
            print("{}: {:.2f} s, {:.0f} MB".format(what, *min(run(rules + more + ["--force"]) for _ in range(3))))


if __name__ == "__main__":
    main()
