#!/usr/bin/env python3
"""How many drawn months with rules are proved best by the command: `rules.py [SECONDS [SEED [MONTHS]]]`, as a rule 180
s, the time as seed, and 25 months of 14 to 50 nurses, with rest, runs, weeks and nights; some with free weekends,
hours, qualifications, whole weekends. Months that no plan meets are replaced. Needs SciPy and a built library.

On four cores, seed 20261128: 23 of 25 months were proved best after 1 to 31 s, and two within 1, of 207 and of 307."""
import collections
import datetime
import os
import pathlib
import random
import re
import subprocess
import sys
import tempfile
import time

TOP = pathlib.Path(__file__).resolve().parent.parent
DAYS, KINDS, NURSES = 28, ("Early", "Late", "Night"), (14, 20, 28, 36, 50)
FIRST = datetime.date(2027, 3, 1)
RULES = {"rest, runs, weeks, nights": "", "free weekends": "F", "hours": "FH", "qualifications": "FHC",
         "whole weekends": "FHCW"}


class Month:
    """A drawn month: nurses, some of them in part time or without nights, days off, wishes from 0 to 10, and what each
    shift needs."""

    def __init__(self, draw, nurses, letters):
        self.draw, self.letters = draw, letters
        self.names = [f"N{number:02}" for number in range(1, nurses + 1)]
        self.part_time = {name for name in self.names if draw.random() < 0.15}
        self.wishes = [line for number, name in enumerate(self.names) for line in self._wishes(number, name)]

    def _wishes(self, number, name):
        draw = self.draw
        first = draw.randrange(DAYS - 6)
        off = set(range(first, first + 7)) if number % 4 == 0 else set(draw.sample(range(DAYS), 2))
        kinds = KINDS[:2] if draw.random() < 0.08 else KINDS
        best = draw.choice(KINDS)
        for day in range(DAYS):
            for kind in kinds if day not in off else ():
                wish = draw.choice([0, 0, 1, 2] if kind == best else [1, 2, 3, 4, 5]) + (draw.choice([1, 2])
                                                                                         if day % 7 > 4 else 0)
                yield f"{name},{shift(day, kind)},{10 if draw.random() < 0.06 else wish}"

    def places(self):
        a_day = sum(7.5 if name in self.part_time else 15.5 for name in self.names) / DAYS
        for day in range(DAYS):
            for kind, share in zip(KINDS, (0.42, 0.34, 0.24)):
                least = max(1, round(a_day * share * (0.8 if day % 7 > 4 else 1.07) * 0.93))
                yield f"{shift(day, kind)},{least},{least + (0 if kind == 'Night' else max(1, least // 4))}"

    def tasks(self):
        return (f"{name},{'6,9' if name in self.part_time else '13,18'}" for name in self.names)

    def rules(self):
        """The rules' lines."""
        yield from ("rest,Late > Early,", "rest,Night > Early,", "rest,Night > Late,", "days in a row,5,",
                    "shifts per week,5,", "Night per month,5,")
        if "F" in self.letters:
            yield "free weekends,2,"
        if "H" in self.letters:
            yield from ("hours of,Early 7.7,", "hours of,Late 7.7,", "hours of,Night 9.5,")
            yield from (f"hours per month,{'45-70' if name in self.part_time else '100-135'},{name}"
                        for name in self.names)
        if "C" in self.letters:
            yield from (f'at least 1 on,each shift,"{", ".join(self.names[::2])}"',
                        f'apart,,"{", ".join(self.names[-2:])}"')
        if "W" in self.letters:
            yield "whole weekends,,"


def shift(day, kind):
    return f"{kind} {FIRST + datetime.timedelta(day)}"


def write(place, month):
    """Writes the month's files."""
    days = (f"{shift(day, kind)},{FIRST + datetime.timedelta(day)},{kind}" for day in range(DAYS) for kind in KINDS)
    for name, title, lines in (("wishes", "nurse,shift,wish", month.wishes),
                               ("places", "shift,at least,at most", month.places()),
                               ("tasks", "nurse,at least,at most", month.tasks()), ("days", "shift,day,kind", days),
                               ("rules", "rule,value,for", month.rules())):
        (place / f"{name}.csv").write_text("\n".join([title, *lines]) + "\n")


def answer(month, seconds):
    """The first line that the command prints, and seconds by the clock."""
    with tempfile.TemporaryDirectory() as name:
        place = pathlib.Path(name)
        write(place, month)
        options = [word for option in ("places", "tasks", "days", "rules") for word in
                   ("--groups" if option == "days" else f"--{option}", f"{option}.csv")]
        start = time.monotonic()
        ran = subprocess.run([sys.executable, "-m", "nushbaret", "wishes.csv", *options, "--time", str(seconds)],
                             cwd=place, capture_output=True, text=True,
                             env={**os.environ, "PYTHONPATH": str(TOP / "python")})
        return (ran.stdout or ran.stderr).partition("\n")[0], time.monotonic() - start


def kind_of(line):
    """What was said, in a word: best, within, impossible or undecided; and by how much a plan may be better, as a share
    of the cost."""
    if line.startswith("least"):
        return "best", 0.0
    within = re.fullmatch(r"\S+ ([0-9.]+), proved: no plan is more than ([0-9.]+) better.*", line)
    if within:
        return "within", float(within[2]) / float(within[1])
    return "impossible" if line.startswith("no plan keeps") else "undecided", 0.0


def main():
    seconds, seed, months = (int(word) for word in [*sys.argv[1:],
                                                    *("180", str(int(time.time())), "25")[len(sys.argv) - 1:]])
    draw, counts, worst = random.Random(seed), collections.Counter(), 0.0
    print(f"seed {seed}, {seconds} s")
    for number in range(months):
        rules = list(RULES)[number % len(RULES)]
        nurses, kind = NURSES[number // len(RULES) % len(NURSES)], "impossible"
        while kind == "impossible":
            line, took = answer(Month(draw, nurses, RULES[rules]), seconds)
            kind, share = kind_of(line)
        counts[kind] += 1
        worst = max(worst, share)
        print(f"{nurses} nurses, {rules}: {line} ({took:.0f} s)", flush=True)
    print(", ".join(f"{kind} {count}" for kind, count in counts.items())
          + f"; others within {100 * worst:.2f} in a hundred")


if __name__ == "__main__":
    main()
