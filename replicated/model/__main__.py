"""Runs the searches, several at once, and says what each looked at and found.

    python3 -m model [--large] [--traces] [--only WORDS]

in the folder `replicated`. With `--large` also those that take long; with `--traces` it prints the steps to each fault
that has to be found, and not only those of the old rules; with `--only` it runs those whose name has these words. The
last line is 'N passed, M failed'.
"""

from __future__ import annotations

import argparse
import multiprocessing
import sys
from typing import Tuple

from .scenarios import LARGE, OLD_FAULTS, Scenario, small
from .search import Result, search


def _run(scenario: Scenario) -> Tuple[Scenario, Result]:
    return scenario, search(scenario.rules, scenario.bounds, scenario.kinds)


def passes(scenario: Scenario, result: Result) -> bool:
    """Whether a search found what it has to find."""
    if not scenario.finds:
        return result.found is None
    return result.found is not None and result.found.trace[-1].endswith(scenario.ends)


def _say(scenario: Scenario, result: Result, traces: bool) -> None:
    has_passed = passes(scenario, result)
    looked = f"{result.states:,} states, {result.steps:,} steps, {result.seconds:.0f} s"
    print(f"{'ok' if has_passed else 'FAILED'}: {scenario.name}: {looked}")
    if result.found is None:
        print(f"    no fault in {result.schedules:.1e} schedules")
        return
    print(f"    {result.found.fault}, after {len(result.found.trace)} steps")
    if traces or scenario in OLD_FAULTS or not has_passed:
        for number, words in enumerate(result.found.trace, 1):
            print(f"    {number:3} {words}")


def main() -> int:
    parser = argparse.ArgumentParser(prog="python3 -m model", description="Searches the schedules of the replication.")
    parser.add_argument("--large", action="store_true", help="also run the searches that take long")
    parser.add_argument("--traces", action="store_true", help="print the steps to each fault")
    parser.add_argument("--only", metavar="WORDS", default="", help="run only searches whose name has these words")
    words = parser.parse_args()
    scenarios = [one for one in small() + (LARGE if words.large else ()) if words.only in one.name]
    failed = states = steps = 0
    # Each search has a process of its own, whose memory goes with it. The longest ones are the last in their order.
    with multiprocessing.Pool(maxtasksperchild=1) as pool:
        for scenario, result in pool.imap(_run, scenarios[::-1], chunksize=1):
            _say(scenario, result, words.traces)
            failed += not passes(scenario, result)
            states, steps = states + result.states, steps + result.steps
            sys.stdout.flush()
    print(f"{states:,} states, {steps:,} steps")
    print(f"{len(scenarios) - failed} passed, {failed} failed")
    return 1 if failed else 0


if __name__ == "__main__":
    sys.exit(main())
