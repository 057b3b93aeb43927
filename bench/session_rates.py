#!/usr/bin/env python3
"""Times sessions of the built program beside a stub in C that appends and syncs as many bytes and parses nothing.

Each command sets one value. They are sent all at once, and one by one, each after the answer to the one before. It
does so in a folder of the disk that holds the temporary files, and in one in memory (/dev/shm), and prints commands a
second and the time beside the stub's. Run it from the repository's root after the program is built; it takes about a
minute:

    ./prove && python3 bench/session_rates.py
"""

from __future__ import annotations

import os
import statistics
import subprocess
import sys
import tempfile
import time
from collections.abc import Callable, Sequence

from lib.pipes import piped
from lib.programs import PROGRAM, appending_stub, need_program
from lib.runs import Words, by_turns
from lib.stores import command, fresh, record_bytes, store_in

# A place, how many commands a run sends there, and how many runs there are.
PLACES = [("/dev/shm", 10_000, 9), (tempfile.gettempdir(), 500, 31)]
# Sends a process the pieces, and returns the seconds until all are answered.
Measure = Callable[[Words, Sequence[bytes]], float]


def all_at_once(words: Words, pieces: Sequence[bytes]) -> float:
    start = time.perf_counter()
    done = subprocess.run(words, input=b"".join(pieces), stdout=subprocess.PIPE, check=True)
    seconds = time.perf_counter() - start
    if done.stdout.count(b"...\n") != len(pieces):
        sys.exit(f"{words} gave {done.stdout[-80:]!r}")
    return seconds


def one_by_one(words: Words, pieces: Sequence[bytes]) -> float:
    return piped(words, pieces, 1)


def compare(name: str, measure: Measure, top: str, stub: str, count: int, runs: int) -> None:
    """Prints the least time of a session and of the stub, and the median of their ratios."""
    commands = [command(number) for number in range(count)]
    records = [record_bytes(number) for number in range(count)]
    ways: dict[str, Callable[[], float]] = {
        "session": lambda: measure([PROGRAM, "run", store_in(top, "store")], commands),
        "stub": lambda: measure([stub, os.path.join(fresh(top, "appended"), "stub")], records),
    }
    sessions, stubs = by_turns(ways, runs).values()
    ratios = [session / stubbed for session, stubbed in zip(sessions, stubs)]
    print(
        f"  {name}: {count / min(sessions):9.0f} commands a second, stub {count / min(stubs):9.0f}; an answer takes"
        f" {min(sessions) / count * 1e6:7.1f} us, {min(sessions) / min(stubs):4.2f} times the stub's"
        f" (median of the ratios {statistics.median(ratios):4.2f})"
    )


def main() -> int:
    need_program()
    with tempfile.TemporaryDirectory() as tools:
        stub = appending_stub(tools)
        for place, count, runs in PLACES:
            with tempfile.TemporaryDirectory(dir=place) as top:
                print(place)
                compare("all at once", all_at_once, top, stub, count, runs)
                compare("one by one", one_by_one, top, stub, count, runs)
    return 0


if __name__ == "__main__":
    sys.exit(main())
