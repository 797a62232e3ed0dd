#!/usr/bin/env python3
"""Measures the gate: minutes of processor time of `.ci/run`, by crate and by part.

    bench/gate.py FOLDER..

Each folder is a fresh clone of a state that has not passed on this machine, since `rt ci` doesn't prove again what
has. Several gates run side by side from the same moment, each on its own share of the
processors, so that what disturbs one disturbs the others as much; the last line of each is its ratio to the
first. What a gate prints goes to FOLDER.log. A process is known by its session and its command; one that lives less
than half a second counts as rest, and the sum of all is the system's own. An interrupt ends the gates, and what they
took up to then is printed.
"""
import collections
import os
import re
import signal
import subprocess
import sys
import threading
import time

TICKS = os.sysconf("SC_CLK_TCK")
PARTS = ["proof", "tests", "planted bugs", "rest"]


def begin(folder, processors):
    """Starts a gate in a session of its own."""
    log = open(f"{folder.rstrip('/')}.log", "w")
    return subprocess.Popen(
        [".ci/run"], cwd=folder, stdout=log, stderr=subprocess.STDOUT, start_new_session=True,
        preexec_fn=lambda: os.sched_setaffinity(0, processors),
    )


def part_of(command, cwd):
    """The crate that a process checks, and in which part of the gate."""
    named = re.search(r"--crate-name[ =](\w+)", command)
    if not named:
        return "", "rest"
    if "/rt-edit" in cwd:
        return named[1], "planted bugs"
    return named[1], "tests" if " --test" in command else "proof"


def processes():
    """Each process with its session, its start and its processor time in seconds."""
    for pid in filter(str.isdigit, os.listdir("/proc")):
        try:
            with open(f"/proc/{pid}/stat") as file:
                stat = file.read()
        except OSError:
            continue
        fields = stat[stat.rindex(")") + 2:].split()
        yield pid, int(fields[3]), fields[19], (int(fields[11]) + int(fields[12])) / TICKS


def look(seen, sessions):
    """Notes each process of these sessions with its time up to now."""
    for pid, session, start, seconds in processes():
        if session not in sessions:
            continue
        try:
            with open(f"/proc/{pid}/cmdline") as file:
                part = part_of(file.read().replace("\0", " "), os.readlink(f"/proc/{pid}/cwd"))
        except OSError:
            continue
        seen[session][pid, start] = part, seconds


def wait_for(run, ends):
    """Waits for a gate, and notes its status, its minutes by the clock and those of processor time."""
    begun = time.time()
    _, status, usage = os.wait4(run.pid, 0)
    ends[run.pid] = os.waitstatus_to_exitcode(status), (time.time() - begun) / 60, (usage.ru_utime
                                                                                    + usage.ru_stime) / 60


def whole_of(seen, end):
    """All minutes of a gate: the system's own sum, which lacks what was ended, or what was seen."""
    return max(end[2], sum(seconds for _, seconds in seen.values()) / 60)


def tell(folder, seen, end, first):
    """Prints a gate's minutes by crate."""
    status, clock, _ = end
    whole = whole_of(seen, end)
    minutes = collections.defaultdict(collections.Counter)
    for (crate, part), seconds in seen.values():
        minutes[crate][part] += seconds / 60
    print(f"{folder}: status {status}, {clock:.0f} minutes by the clock")
    for crate in sorted(filter(None, minutes)):
        print(f"  {crate:16}", *(f"{part} {minutes[crate][part]:5.1f} " for part in PARTS[:3]))
    sums = [sum(each[part] for crate, each in minutes.items() if crate) for part in PARTS[:3]]
    print(f"  {'all':16}", *(f"{part} {value:5.1f} " for part, value in zip(PARTS, [*sums, whole - sum(sums)])))
    print(f"  {whole:.1f} minutes of processor time, {whole / first:.3f} of the first", flush=True)


def end_all(runs):
    """Ends each gate with all that it runs."""
    for run in runs:
        subprocess.run(["pkill", "-KILL", "-s", str(run.pid)], check=False)


def main():
    folders = sys.argv[1:] or sys.exit(__doc__)
    free = sorted(os.sched_getaffinity(0))
    share = max(len(free) // len(folders), 1)
    shares = [{free[(i * share + j) % len(free)] for j in range(share)} for i in range(len(folders))]
    runs = [begin(folder, processors) for folder, processors in zip(folders, shares)]
    ends, seen = {}, {run.pid: {} for run in runs}
    waiting = [threading.Thread(target=wait_for, args=(run, ends)) for run in runs]
    for each in waiting:
        each.start()
    signal.signal(signal.SIGTERM, signal.default_int_handler)
    try:
        while any(each.is_alive() for each in waiting):
            look(seen, set(seen))
            time.sleep(0.5)
    except KeyboardInterrupt:
        end_all(runs)
    for each in waiting:
        each.join()
    first = whole_of(seen[runs[0].pid], ends[runs[0].pid])
    for folder, run in zip(folders, runs):
        tell(folder, seen[run.pid], ends[run.pid], first)


if __name__ == "__main__":
    main()
