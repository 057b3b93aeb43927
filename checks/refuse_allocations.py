#!/usr/bin/env python3
"""Refuses each allocation of some runs in turn, and looks at what they answer and at what is left.

A library under a program (shims/refuse.c) refuses one allocation. What has to happen then is in the modules of lib/:

- `texts`: `format` on a text that has every form of node, and `check` (lib/refuse_texts.py);
- `tree`: reading that text to its tree, by `bench_driver`;
- `state`: commands on a state, by `tree_probe` (lib/refuse_state.py);
- `store`: calls on a store, rounds among them, by `store_probe` (lib/refuse_store.py);
- `sessions`: nine sessions, batches and conditions among them (lib/refuse_sessions.py);
- `words`: each word of the program, in 48 runs (lib/refuse_words.py).

    checks/refuse_allocations.py [KIND ..]

Without a word all of them are tried. `texts`, `sessions` and `words` need the built program; a line says what builds
the others where one isn't. All need a C compiler. It takes half a minute on four processors. Each run has a line with
how many of its allocations were refused, and what became of them. The last line is 'N passed, M failed', and the status
is 0 if M is 0.
"""

from __future__ import annotations

import os
import sys
import tempfile
from collections.abc import Sequence
from concurrent.futures import ThreadPoolExecutor
from typing import NamedTuple

from lib.refusals import Trial, refuse_each
from lib.refuse_sessions import SESSIONS
from lib.refuse_state import COMMANDS_ON_A_STATE
from lib.refuse_store import CALLS_ON_A_STORE
from lib.refuse_texts import CHECK, FORMAT, TREE
from lib.refuse_words import RUNS_OF_WORDS
from lib.store_runs import DRIVER, PROGRAM, STATE_PROBE, STORE_PROBE, Failures, compiled, need_program


class Kind(NamedTuple):
    """What is run, and the program that has to be built for it."""

    program: str
    trials: Sequence[Trial]


# Those that take longest first.
KINDS = {
    "store": Kind(STORE_PROBE, [CALLS_ON_A_STORE]),
    "sessions": Kind(PROGRAM, SESSIONS),
    "words": Kind(PROGRAM, RUNS_OF_WORDS),
    "state": Kind(STATE_PROBE, [COMMANDS_ON_A_STATE]),
    "texts": Kind(PROGRAM, [FORMAT, CHECK]),
    "tree": Kind(DRIVER, [TREE]),
}


def chosen_kinds(words: Sequence[str]) -> list[Kind]:
    """The kinds that are named, or all. Ends the script for a word that is none, or without a program."""
    for word in words:
        if word not in KINDS:
            sys.exit(f"{word!r} is none of the kinds: {', '.join(KINDS)}")
    kinds = [kind for word, kind in KINDS.items() if word in words or not words]
    for kind in kinds:
        need_program(kind.program)
    return kinds


def main() -> int:
    trials = [trial for kind in chosen_kinds(sys.argv[1:]) for trial in kind.trials]
    failures = Failures()
    with tempfile.TemporaryDirectory() as top, ThreadPoolExecutor(os.cpu_count()) as workers:
        library = compiled("refuse.c", top)
        results = workers.map(lambda trial: refuse_each(library, tempfile.mkdtemp(dir=top), trial), trials)
        for found, line in results:
            failures.take(found)
            print(f"  {line}")
    return failures.report()


if __name__ == "__main__":
    sys.exit(main())
