#!/usr/bin/env python3
"""25 drawn months of wards, and HiGHS on them: `wards.py [SEED [MONTHS [FIRST]]]`, as a rule seed 1 and all.

Each ward has 10 to 100 nurses, 2 to 8 weeks, and rules of rest, runs and weeks, some with free weekends, hours, single
nights and seniors. HiGHS, as SciPy has it, gets a model that this script makes itself from the drawn numbers, in a
process of its own; T is the processor time of that process, at most LIMIT. HiGHS comes first on all months, then the
command on each, in the order of T, with 4 T of processor time in all, as a package that is installed with its bytecode;
where the clock ended it before that, it runs again. Printed are T, what HiGHS found and its bound, the command's
processor time, verdict, cost and bound.
`wards.py --prices` draws months in which a person missing of those wanted costs 3, and a night above the most 4, and
prints whether both find the same least cost.
`wards.py --sick` draws wards of 28 nurses of which two are gone from the 12th on, and prints how many places HiGHS
leaves empty in the processor time that the command takes, and how many the command does.

README.md has what was measured.

Needs SciPy and a built library."""
import datetime
import json
import os
import pathlib
import random
import resource
import shutil
import subprocess
import sys
import tempfile
import time

TOP = pathlib.Path(__file__).resolve().parent.parent
KINDS, MINUTES = ("Early", "Late", "Night"), {"Early": 77, "Late": 77, "Night": 95}
FIRST = datetime.date(2027, 3, 1)
LIMIT = 30.0
# The command gets TIMES T. Where the clock ended it before ENOUGH T, it runs again with more time, RUNS times in all.
TIMES, ENOUGH, RUNS = 4, 3.7, 4
# HiGHS gets a part so great of the command's processor time in sick wards, at least.
AS_MUCH = 0.97
# Nurses, weeks, and rules by letters: F free weekends, H hours, N no single night, S a senior on each night.
# With prices: of a person that is missing of those wanted, and of a night above the most.
WANTED, NIGHT = 3, 4
SIZES = ((10, 2), (12, 4), (14, 3), (16, 8), (20, 4), (28, 4), (28, 5), (40, 4), (60, 3), (100, 2))
RULES = ("", "F", "FN", "FH", "FHS", "FHNS", "NS", "HS")


class Ward:
    """A drawn ward, the same for each seed and number."""

    def __init__(self, seed, number, nurses=None, weeks=None, letters=None, has_prices=False):
        self.has_prices = has_prices
        draw = self.draw = random.Random(f"{seed} {number}")
        size = SIZES[number % len(SIZES)]
        self.nurses, self.weeks = nurses or size[0], weeks or size[1]
        self.letters = RULES[(number * 3 + number // len(SIZES)) % len(RULES)] if letters is None else letters
        self.days = 7 * self.weeks
        self.names = [f"N{place:03}" for place in range(1, self.nurses + 1)]
        self.part_time = {name for name in self.names if draw.random() < 0.2}
        self.seniors = {name for name in self.names if draw.random() < 0.4} | set(self.names[:2])
        self.wishes = {}
        for place, name in enumerate(self.names):
            self._draw_wishes(place, name)
        a_day = sum(2.0 if name in self.part_time else 3.9 for name in self.names) / 7 * 0.93
        self.places = {(day, kind): max(1, round(a_day * share * (0.8 if day % 7 > 4 else 1.05)))
                       for day in range(self.days) for kind, share in zip(KINDS, (0.42, 0.34, 0.24))}
        self.room = {key: least + (0 if key[1] == "Night" else max(1, least // 4))
                     for key, least in self.places.items()}
        self.tasks = {name: (round((1.5 if name in self.part_time else 3.2) * self.weeks),
                             round((2.3 if name in self.part_time else 4.6) * self.weeks)) for name in self.names}
        self.hours = {name: tuple(round(share * 77 * self.weeks) for share in
                                  ((1.2, 2.4) if name in self.part_time else (2.9, 4.6))) for name in self.names}

    def _draw_wishes(self, place, name):
        draw = self.draw
        first = draw.randrange(self.days - 6)
        off = set(range(first, first + 7)) if place % 4 == 0 and self.weeks > 2 else set(
            draw.sample(range(self.days), max(1, self.weeks // 2)))
        kinds = KINDS[:2] if draw.random() < 0.08 else KINDS
        best = draw.choice(KINDS)
        for day in range(self.days):
            for kind in kinds if day not in off else ():
                wish = draw.choice([0, 0, 1, 2] if kind == best else [1, 2, 3, 4, 5])
                wish += draw.choice([1, 2]) if day % 7 > 4 else 0
                self.wishes[name, day, kind] = 10 if draw.random() < 0.06 else wish

    def rules(self):
        """The lines of the rules' file."""
        yield from ("rest,Late > Early,", '"rest","Night > Early, Late",', "days in a row,5,", "shifts per week,5,",
                    f"Night per month,{self.nights()},{f',{NIGHT}' if self.has_prices else ''}")
        if "F" in self.letters:
            yield f"free weekends,{self.weeks // 2},"
        if "N" in self.letters:
            yield "no single,Night,"
        if "S" in self.letters:
            yield "at least 1 on,each Night,skill: senior"
        if "H" in self.letters:
            yield from (f"hours of,{kind} {length / 10},{''}" for kind, length in MINUTES.items())
            yield from (f"hours per month,{least / 10}-{most / 10},{name}" for name, (least, most) in
                        self.hours.items())

    def nights(self):
        """How many nights each takes at most."""
        return max(2, round(1.3 * self.weeks))

    def write(self, place, is_short=False):
        """Writes the ward's files."""
        days = [(day, kind) for day in range(self.days) for kind in KINDS]
        files = {"wishes": ["nurse,shift,wish", *(f"{name},{shift(day, kind)},{wish}"
                                                  for (name, day, kind), wish in self.wishes.items())],
                 "places": ["shift,at least,at most,wanted,price", *(
                     f"{shift(*key)},{self.places[key]},{self.room[key]},"
                     f"{f'{self.room[key]},{WANTED}' if self.has_prices else ','}" for key in days)],
                 "tasks": ["nurse,at least,at most,skill", *(
                     f"{name},{0 if is_short else self.tasks[name][0]},{self.tasks[name][1]},"
                     f"{'senior' if name in self.seniors else 'junior'}" for name in self.names)],
                 "days": ["shift,day,kind", *(f"{shift(*key)},{FIRST + datetime.timedelta(key[0])},{key[1]}"
                                              for key in days)],
                 "rules": ["rule,value,for" + ",price" * self.has_prices, *self.rules()]}
        for name, lines in files.items():
            (place / f"{name}.csv").write_text("\n".join(lines) + "\n")


def shift(day, kind):
    return f"{kind} {FIRST + datetime.timedelta(day)}"


def model_of(ward, may_miss=False):
    """Costs, rows and sides of HiGHS's model, with nothing of the package; and the names of its first variables. With
    `may_miss` each missing person costs 1000, and no nurse has to work."""
    at = {key: place for place, key in enumerate(ward.wishes)}
    costs, rows = list(ward.wishes.values()), []

    def of(name, days, kinds=KINDS):
        return [(at[name, day, kind], 1) for day in days for kind in kinds if (name, day, kind) in at]

    def add(least, terms, most):
        rows.append((least, terms, most))

    def helper(cost=0):
        costs.append(cost)
        return len(costs) - 1

    for (day, kind), least in ward.places.items():
        own = [(at[name, day, kind], 1) for name in ward.names if (name, day, kind) in at]
        add(least, own + [(helper(1000), 1) for _ in range(least)] if may_miss else own, ward.room[day, kind])
        if ward.has_prices:
            add(ward.room[day, kind], own + [(helper(WANTED), 1) for _ in range(ward.room[day, kind])], np_inf)
        if "S" in ward.letters and kind == "Night":
            add(1, [(at[name, day, kind], 1) for name in ward.seniors if (name, day, kind) in at], np_inf)
    for name in ward.names:
        add(0 if may_miss else ward.tasks[name][0], of(name, range(ward.days)), ward.tasks[name][1])
        above = [(helper(NIGHT), -1) for _ in range(ward.days)] if ward.has_prices else []
        add(-ward.days, of(name, range(ward.days), ["Night"]) + above, ward.nights())
        for day in range(ward.days):
            add(0, of(name, [day]), 1)
            if day + 1 < ward.days:
                add(0, of(name, [day], ["Late", "Night"]) + of(name, [day + 1], ["Early"]), 1)
                add(0, of(name, [day], ["Night"]) + of(name, [day + 1], ["Early", "Late"]), 1)
            if day + 6 <= ward.days:
                add(0, of(name, range(day, day + 6)), 5)
            if "N" in ward.letters and 0 < day < ward.days - 1 and (name, day, "Night") in at:
                add(0, [(at[name, day, "Night"], -1), *of(name, [day - 1, day + 1], ["Night"])], np_inf)
        for week in range(ward.weeks):
            add(0, of(name, range(7 * week, 7 * week + 7)), 5)
        if "F" in ward.letters:
            free = [helper() for _ in range(ward.weeks)]
            for week, variable in enumerate(free):
                for day in (7 * week + 5, 7 * week + 6):
                    add(0, [*of(name, [day]), (variable, 1)], 1)
            add(ward.weeks // 2, [(variable, 1) for variable in free], np_inf)
        if "H" in ward.letters:
            add(ward.hours[name][0], [(at[key], MINUTES[key[2]]) for key in ward.wishes if key[0] == name],
                ward.hours[name][1])
    return costs, rows


np_inf = float("inf")


def highs(ward, seconds, may_miss=False):
    """What HiGHS finds alone: status, cost and bound; run in a process of its own."""
    import numpy as np
    from scipy import optimize, sparse
    costs, rows = model_of(ward, may_miss)
    starts = np.cumsum([0, *(len(terms) for _, terms, _ in rows)])
    matrix = sparse.csr_matrix(([factor for _, terms, _ in rows for _, factor in terms],
                                [variable for _, terms, _ in rows for variable, _ in terms], starts),
                               shape=(len(rows), len(costs)))
    found = optimize.milp(np.array(costs, float), integrality=np.ones(len(costs)), bounds=optimize.Bounds(0, 1),
                          constraints=optimize.LinearConstraint(matrix, [row[0] for row in rows],
                                                                [row[2] for row in rows]),
                          options={"time_limit": seconds, "mip_rel_gap": 0})
    return {"status": int(found.status), "cost": None if found.x is None else round(float(found.fun)),
            "bound": None if found.mip_dual_bound is None else float(found.mip_dual_bound)}


def run(words, **more):
    """A finished process, and the processor time that it and its own processes took."""
    before = resource.getrusage(resource.RUSAGE_CHILDREN)
    ran = subprocess.run(words, capture_output=True, text=True, **more)
    after = resource.getrusage(resource.RUSAGE_CHILDREN)
    return ran, after.ru_utime + after.ru_stime - before.ru_utime - before.ru_stime


def alone(seed, number, seconds, *more):
    """HiGHS alone, and its processor time."""
    ran, took = run([sys.executable, __file__, "--highs", str(seed), str(number), str(seconds), *more],
                    env={**os.environ, "OMP_NUM_THREADS": "1", "OPENBLAS_NUM_THREADS": "1"})
    return json.loads(ran.stdout), took


def install(place):
    """Copies the package with its library to a folder, with bytecode."""
    shutil.copytree(TOP / "python" / "nushbaret", place / "nushbaret", ignore=shutil.ignore_patterns("__pycache__"))
    shutil.copy(TOP / "c" / "out" / "libnushbaret.so", place / "nushbaret")
    subprocess.run([sys.executable, "-m", "compileall", "-q", str(place)], check=True)


def command(ward, seconds, *more):
    """What the command says, as JSON, its first line, and its processor time."""
    with tempfile.TemporaryDirectory() as name:
        place = pathlib.Path(name)
        ward.write(place, bool(more))
        words = [sys.executable, "-m", "nushbaret", "wishes.csv", "--places", "places.csv", "--tasks", "tasks.csv",
                 "--groups", "days.csv", "--rules", "rules.csv", "--output", "plan.json", "--time", str(seconds),
                 *more]
        ran, took = run(words, cwd=place, env={**os.environ, "PYTHONPATH": str(INSTALLED)})
        told = json.loads((place / "plan.json").read_text()) if (place / "plan.json").exists() else {}
        return told, (ran.stdout or ran.stderr).partition("\n")[0], took


def busy_now():
    """How many seconds by the clock one of processor time takes now."""
    begin, used = time.monotonic(), time.process_time()
    while time.process_time() < used + 0.5:
        pass
    return max(1.0, (time.monotonic() - begin) / (time.process_time() - used))


def compare_all(seed, numbers):
    """HiGHS on all months first, then the command on each, in the order of HiGHS's times; which are reached."""
    # HiGHS has its limit by the clock.
    by_highs = {number: alone(seed, number, LIMIT * busy_now()) for number in numbers}
    return [compare(seed, number, *by_highs[number]) for number in sorted(numbers, key=lambda one: by_highs[one][1])]


def compare(seed, number, found, took):
    """Prints one month, where HiGHS took so long; whether its aim is reached."""
    ward, begin = Ward(seed, number), time.monotonic()
    # Two processes take 4 T in 2 T by the clock of a machine without other work.
    seconds, is_open = max(2, round(2 * took * busy_now())), found["status"] == 1
    told, line, own = command(ward, seconds)
    for _ in range(RUNS - 1):
        if not (is_open and own > TIMES * took) and (is_reached(told, found) or own >= ENOUGH * took):
            break
        seconds = max(2, round(seconds * (ENOUGH + TIMES) / 2 * took / own))
        told, line, own = command(ward, seconds)
    rules, cost = told.get("rules", {}), told.get("cost")
    bound = None if cost is None or rules.get("better") is None else float(cost) - float(rules["better"])
    is_met = is_reached(told, found) and own <= TIMES * took
    print(f"{number:2} {ward.nurses:3} nurses, {ward.weeks} weeks, {ward.letters or 'easy':4}: HiGHS {took:5.1f} s "
          f"{('best', 'open', 'none')[found['status']]} {found['cost']} (bound {found['bound']}), command {own:5.1f} s "
          f"({own / took:.1f} T, {time.monotonic() - begin:.0f} s by the clock) {rules.get('proved')} {cost} "
          f"(bound {bound}) {'reached' if is_met else 'MISSED'}: {line}", flush=True)
    return is_met


def is_reached(told, found):
    """Whether the command says what HiGHS does: the least cost, or that there is no plan; or, where HiGHS left that
    open, has a bound and a plan that costs no more."""
    proved, cost = told.get("rules", {}).get("proved"), told.get("cost")
    if found["status"] == 2:
        return proved == "impossible"
    is_cheap = cost is not None and (found["cost"] is None or float(cost) <= found["cost"])
    return is_cheap and (proved == "best" or found["status"] == 1 and told["rules"].get("better") is not None)


def priced(seed, number):
    """Prints one month with prices; whether HiGHS and the command find the same least cost, or bounds that agree."""
    ward = priced_ward(seed, number)
    found, took = alone(seed, number, LIMIT * busy_now(), "prices")
    told, line, own = command(ward, max(10, round(LIMIT * busy_now())))
    rules = told.get("rules", {})
    cost = None if told.get("cost") is None else int(told["cost"]) + int(rules.get("missed_cost", 0))
    if found["status"] == 2 or cost is None:
        agrees = found["status"] > 0 and rules.get("proved") in ("impossible", "undecided")
    else:
        agrees = found["status"] == 1 or (cost == found["cost"] if rules["proved"] == "best" else cost >= found["cost"])
    print(f"{number:2} {ward.nurses:3} nurses, {ward.weeks} weeks, {ward.letters or 'easy':4} with prices: HiGHS "
          f"{took:.1f} s {found['cost']}, command {own:.1f} s {rules.get('proved')} {cost} (missed "
          f"{rules.get('missed_cost')}) {'agrees' if agrees else 'DIFFERS'}: {line}", flush=True)
    return agrees


def priced_ward(seed, number):
    """A small ward with prices."""
    return Ward(seed, number, (8, 10, 12)[number % 3], (1, 2)[number % 2], has_prices=True)


def sick(seed, number):
    """Prints one sick ward; whether it misses at most 3 more places than HiGHS finds in the same processor time."""
    ward = sick_ward(seed, number)
    told, line, own = command(ward, round(LIMIT * busy_now()), "--as-many-as-can")
    seconds = own * busy_now()
    for _ in range(RUNS):
        found, took = alone(seed, number, seconds, "sick")
        if found["status"] == 0 or took >= AS_MUCH * own:
            break
        seconds *= 1.1 * own / took
    rules = told.get("rules", {})
    missing = rules.get("missing", 0) if told.get("cost") is not None else None
    theirs = None if found["cost"] is None else found["cost"] // 1000
    is_met = missing is not None and (theirs is None or missing <= theirs + 3)
    print(f"sick {number} ({ward.letters or 'easy'}): HiGHS misses {theirs} ({took:.1f} s), the command {missing} "
          f"({own:.1f} s) {'reached' if is_met else 'MISSED'}: {line}", flush=True)
    return is_met


def sick_ward(seed, number):
    """A ward of 28 nurses, where two are gone from the 12th on."""
    ward = Ward(seed, number, 28, 4, ("", "F", "FS", "FN")[number % 4])
    gone = set(ward.names[5:7])
    ward.wishes = {key: wish for key, wish in ward.wishes.items() if key[0] not in gone or key[1] < 11}
    ward.places = {key: least + (key[1] != "Night") for key, least in ward.places.items()}
    ward.room = {key: max(room, ward.places[key]) for key, room in ward.room.items()}
    return ward


def main():
    words = sys.argv[1:]
    if words[:1] == ["--highs"]:
        seed, number, seconds, kind = words[1], int(words[2]), float(words[3]), "".join(words[4:])
        print(json.dumps(highs(WARDS[kind](seed, number), seconds, kind == "sick")))
        return
    kind = words.pop(0)[2:] if words[:1] in (["--sick"], ["--prices"]) else ""
    reach, most = {"sick": (sick, 4), "prices": (priced, 100), "": (None, 25)}[kind]
    seed, months, first = [int(word) for word in words] + [1, most, 0][len(words):]
    with tempfile.TemporaryDirectory() as name:
        global INSTALLED
        INSTALLED = pathlib.Path(name)
        install(INSTALLED)
        numbers = range(first, first + months)
        reached = [reach(str(seed), number) for number in numbers] if reach else compare_all(str(seed), numbers)
    print(f"{sum(reached)} of {len(reached)} reached")


INSTALLED = TOP / "python"
WARDS = {"": Ward, "sick": sick_ward, "prices": priced_ward}


if __name__ == "__main__":
    main()
