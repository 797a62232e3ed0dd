#!/usr/bin/env python3
"""Holds the wrong bodies that are wanted for ever: for each the planted bug that the prover has to refuse, or the tests
that it fails. Says which are gone, and which bugs no longer fit the source. The gate tries the bugs."""
import pathlib
import re
import sys

CRATES = pathlib.Path(__file__).resolve().parent.parent / "crates"

# The crates with a planted bug of this name.
BUGS = {
    "accepts_an_earlier_phase": ["auction_book"],
    "accepts_less_than_eps": ["auction_book"],
    "adds_eps_twice": ["bidder"],
    "always_stuck": ["rounds"],
    "answers_before_the_last_phase": ["auction_book"],
    "catch_up_moves_the_version_alone": ["price_log"],
    "eviction_forgets_the_owner": ["auction_book"],
    "give_up_drops_the_person": ["auction_book"],
    "gives_every_claim_up": ["async_workers"],
    "greatest_prints_the_least": ["auction_command"],
    "ignores_the_starting_prices": ["auction_book", "rounds"],
    "invents_a_refusal_with_a_table_to_match": ["async_workers"],
    "keeps_the_last_cost_of_a_pair": ["assign_core"],
    "never_claims": ["async_workers"],
    "next_phase_zeroes_prices": ["auction_book"],
    "refutes_with_the_start_person_alone": ["hall_refuter"],
    "report_takes_leading_zeros_or_two_spaces": ["report"],
    "round_uses_the_newest_prices": ["rounds"],
    "schedule_answers_the_opening": ["auction_book"],
    "second_includes_the_best": ["bidder"],
    "slack_against_the_cheapest_alone": ["dual_checker"],
    "take_hands_out_a_fresh_book": ["async_workers"],
    "take_loses_the_own_raise": ["async_workers"],
    "tallies_of_zero": ["async_workers"],
    "tells_accepted_and_gives_the_old_book": ["auction_book"],
    "tie_to_a_later_object": ["bidder"],
    "trims_past_a_worker": ["auction_book", "price_log"],
}

# The tests that a body of this name fails.
TESTS = {
    "always_memory": ["eight_persons", "three_persons_and_no_assignment"],
    "offers_while_holding": ["the_gate_is_called_without_the_book"],
    "one_thread_only": ["all_workers_start"],
}
TEST_FILE = "solver_tests/src/by_workers/whole_runs.rt"


def fault_of_bug(crate: str, name: str) -> str | None:
    """What is wrong with a planted bug: it isn't there, or an old text doesn't stand once in its file."""
    edit = CRATES / crate / "must-fail" / f"{name}.edit"
    if not edit.exists():
        return f"crates/{crate}: the planted bug {name} is gone"
    lines = dict(line.split(":", 1) for line in edit.read_text(encoding="utf-8").splitlines() if ":" in line)
    source = CRATES / crate / lines.get("file", "").strip()
    old = lines.get("old", "").strip()
    if not old or not source.is_file() or source.read_text(encoding="utf-8").count(old) != 1:
        return f"crates/{crate}: the planted bug {name} doesn't fit its source"
    return None


def fault_of_test(tests: str, name: str, test: str) -> str | None:
    """What is wrong with a test: it isn't there."""
    if re.search(rf"#\[test\]\s+fn {test}\(", tests):
        return None
    return f"crates/{TEST_FILE}: the test {test}, which fails where a body is {name}, is gone"


def main() -> int:
    tests = (CRATES / TEST_FILE).read_text(encoding="utf-8")
    faults = [fault_of_bug(crate, name) for name, crates in BUGS.items() for crate in crates]
    faults += [fault_of_test(tests, name, test) for name, wanted in TESTS.items() for test in wanted]
    found = [fault for fault in faults if fault is not None]
    print("\n".join(found + [f"planted: {len(BUGS)} bugs and {len(TESTS)} kinds of tests, {len(found)} faults"]))
    return 1 if found else 0


if __name__ == "__main__":
    sys.exit(main())
