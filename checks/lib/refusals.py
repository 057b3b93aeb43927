"""Runs that lack one allocation: the first of them, then the second, and so on until there are no more.

A library under a program (shims/refuse.c) refuses the allocation. Each run is looked at, and ends in one of some ways.
The last one, which has all its memory, has to be done.
"""

from __future__ import annotations

import itertools
import os
import subprocess
from collections import Counter
from collections.abc import Callable, Mapping, Sequence
from dataclasses import dataclass

from .store_runs import Ended, Failures

# How a run ended: memory ran out for what it was asked, it did without the allocation, or memory ran out for the
# program itself. The last is what it is called where something was wrong with it.
OUT_OF_MEMORY = "out of memory"
DONE = "done without"
BY_ITSELF = "ended by the program"
WRONG = "answered wrongly"


@dataclass(frozen=True)
class Run:
    """A run that lacks an allocation: its name, a folder for its files, and its environment."""

    name: str
    top: str
    environment: Mapping[str, str]
    failures: Failures

    def of(self, words: Sequence[str], given: bytes) -> Ended:
        """Runs a program that reads bytes, without the allocation."""
        done = subprocess.run(words, input=given, capture_output=True, check=False, env=self.environment)
        return done.returncode, done.stdout, done.stderr.decode()

    def expect(self, about: str, found: object, wanted: object) -> None:
        self.failures.expect(f"{self.name}: {about}", found, wanted)


@dataclass(frozen=True)
class Trial:
    """What is run without each of its allocations. `attempt` makes a run, looks at what it does and leaves, and says
    how it ended."""

    name: str
    attempt: Callable[[Run], str]


def refuse_each(library: str, top: str, trial: Trial) -> tuple[Failures, str]:
    """Refuses each allocation of a trial in turn, with files in a folder. Returns what went wrong, and a line that says
    how many runs ended how."""
    failures, mark = Failures(), os.path.join(top, "refused")
    endings = Counter({OUT_OF_MEMORY: 0, DONE: 0})
    for number in itertools.count(1):
        names = {"LD_PRELOAD": library, "REFUSE_ALLOCATION": str(number), "REFUSED_FILE": mark}
        run = Run(f"{trial.name}, allocation {number}", top, {**os.environ, **names}, failures)
        ending = trial.attempt(run)
        if not os.path.exists(mark):
            break
        os.remove(mark)
        endings[ending] += 1
    failures.expect(f"{trial.name}, no allocation refused", ending, DONE)
    failures.expect(f"{trial.name}: memory ran out", endings[OUT_OF_MEMORY] > 0, True)
    counted = ", ".join(f"{count} {ending}" for ending, count in endings.items())
    return failures, f"{trial.name}: {number - 1} allocations refused in turn: {counted}"


def one_of(words: Sequence[str], given: bytes, endings: Mapping[Ended, str]) -> Callable[[Run], str]:
    """An attempt of a program that reads bytes and ends in one of these ways."""

    def attempt(run: Run) -> str:
        found = run.of(words, given)
        run.expect(f"{found} is one of {list(endings)}", found in endings, True)
        return endings.get(found, WRONG)

    return attempt


# Says how a run of a probe ended, from its status and its answers, and looks at them.
Outcome = Callable[[Run, int, Sequence[str]], str]


def of_probe(program: str, orders: Sequence[str], outcome: Outcome) -> Callable[[Run], str]:
    """An attempt of a probe that performs orders."""

    def attempt(run: Run) -> str:
        status, output, _ = run.of([program], "".join(f"{order}\n" for order in orders).encode())
        return outcome(run, status, output.decode().splitlines())

    return attempt
