#!/usr/bin/env python3
"""Drawn small rosters with rules and prices, next to a search of all their plans: `small_wards.py [ROSTERS [FIRST]]`,
as a rule 500. The least cost with what is missed agrees with the search; a sum that is short is no less than any plan
has; sentences that can't hold together have no plan by HiGHS, and have one without any of them; each certificate holds,
and changed ones are judged as by a check in fractions. Needs SciPy and a built library."""
import collections
import itertools
import pathlib
import random
import sys
import time

TOP = pathlib.Path(__file__).resolve().parent.parent
for folder in ("tests/python", "python"):
    sys.path.insert(0, str(TOP / folder))

import row_models as models
from nushbaret.roster.answer import Request
from nushbaret.roster.rules.roster_model import built
from nushbaret.roster.rules.rules_kept import broken_by, plan_of
from nushbaret.roster.rules.short_sums import shorts_of, sums_of
from nushbaret.roster.rules.stages import Task, answer_by_rules
from nushbaret.rows import finding
from nushbaret.rows.certificate_check import shows
from nushbaret.rows.highs import tried
from nushbaret.rows.persons import limits_of
from roster.rules.test_stages import Prices, costs_of_all, keeps_counts, without_least

SECONDS = 600
CHANGES = 4
counts = collections.Counter()


def here(model, seconds, progress=None, start=None, sums=(), known=()):
    """Finding in this process, which starts no others."""
    return models.found_here(model, seconds, sums)


def insist(holds, seed, what):
    if not holds:
        sys.exit(f"roster {seed}: {what}")


def hold(certificate, draw, seed):
    """The certificate holds, and changed ones hold as by the check in fractions."""
    insist(shows(certificate) and models.shows(certificate), seed, "a certificate doesn't hold")
    for _ in range(CHANGES):
        other = models.changed(draw, certificate)
        if other is not None:
            holds = models.shows(other)
            insist(shows(other) == holds, seed, "a changed certificate is judged otherwise")
            counts["changed certificates that hold" if holds else "changed certificates that are refused"] += 1


def compare(seed):
    """One roster."""
    draw, case = random.Random(seed), Prices.drawn(seed)
    roster, month, rules, past, _ = case
    costs = costs_of_all(*case)
    answer, proved = answer_by_rules(Task(roster, month, rules, Request(past), SECONDS))
    if costs:
        found = None if answer.plan is None else answer.plan.cost + proved.missed_cost
        insist((proved.kind, found) == ("best", costs[0]), seed, f"{proved.kind} {found}, by search {costs[0]}")
        counts["plans" + (" that miss what has a price" if proved.missed else "")] += 1
        hold(proved.certificate, draw, seed)
    else:
        insist(proved.kind == "impossible" and bool(proved.whys), seed, f"{proved.kind} where there is no plan")
        hold(proved.certificate, draw, seed)
        say_why(seed, draw, case)


def say_why(seed, draw, case):
    """Sums and sentences of a roster without a plan."""
    roster, month, rules, past, options = case
    found = built(roster, rules, month, Request(past))
    sums, model = sums_of(found, month), found.rows.model()
    reached = here(model, SECONDS, sums=[own.rows for own in sums])
    loose = without_least(roster, 1)
    plans = [plan for plan in ([*past, *filter(None, choice)] for choice in itertools.product(*options))
             if keeps_counts(loose, plan) and not broken_by(plan_of(loose, rules, month, plan))]
    for short in shorts_of(found, sums, reached.shortages):
        had = max((sum(pair.object in short.objects for pair in plan) for plan in plans), default=0)
        insist(had <= short.had < short.wanted, seed, f"a sum has {had}, and is said to have {short.had}")
        counts["sums, the most that a plan has" if had == short.had else "sums, more than a plan has"] += 1
    for shortage in reached.shortages:
        hold(shortage.certificate, draw, seed)
    for conflict in reached.conflicts:
        hold(conflict.certificate, draw, seed)
        insist(not has_plan(model, conflict.reasons), seed, f"{conflict.reasons} can hold together")
        if conflict.is_minimal:
            insist(all(has_plan(model, {*conflict.reasons} - {one}) for one in conflict.reasons), seed,
                   f"one of {conflict.reasons} can be left out")
        counts["conflicts"] += 1


def has_plan(model, texts):
    """Whether HiGHS finds a plan that meets the rows of some sentences."""
    rows = [limits_of(row) for row in model.rows if row.text in texts]
    taken = tried([0] * model.variables, rows, SECONDS)
    return taken.plan is not None


def main():
    rosters, first = [int(word) for word in sys.argv[1:]] + [500, 20_000][len(sys.argv) - 1:]
    finding.find, begin = here, time.process_time()
    for seed in range(first, first + rosters):
        compare(seed)
    for what, count in sorted(counts.items()):
        print(f"{count} {what}")
    print(f"{rosters} rosters, {time.process_time() - begin:.0f} s of processor time")


if __name__ == "__main__":
    main()
