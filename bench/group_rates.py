#!/usr/bin/env python3
"""Times grouped sessions of the built program, `confstore run --group`, and checkpoints that go on beside commands.

First 100 commands at a time are sent, each group after the answers to the one before, beside a stub in C that appends
as many bytes and syncs once for each group, beside SQLite (in WAL mode, with full syncs) and LMDB, where 100 changes
are one transaction. Their times include those of Python's calls. Then commands are sent one by one, to a grouped
session and to a plain one. Where strace is installed, the syncs of such a session are counted.

Then a store whose base has some 60 MB takes commands one by one, and the longest time until an answer is printed: with
no checkpoint, with one in slices beside the commands (`--checkpoint-after`), and with one by a command. The same
follows in a folder in memory, where there is one, in which no wait is a device's: with few large configurations, and
with many small ones.

It uses a folder of the disk that holds the temporary files, and prints the least of several runs that take turns, and
the median of the ratios. Run it from the repository's root after the program is built; it takes about a minute:

    ./prove && python3 bench/group_rates.py

LMDB is left out if it is not installed: `apt-get install python3-lmdb` installs it for the system's Python.
"""

from __future__ import annotations

import os
import shutil
import statistics
import sys
import tempfile
import time
from collections.abc import Callable, Mapping, Sequence

from lib.databases import DATABASES, Lmdb, Sqlite
from lib.pipes import Pipes, piped
from lib.programs import MEMORY, PROGRAM, appending_stub, need_program
from lib.runs import Words, by_turns, syncs_of
from lib.stores import command, fresh, perform, record_bytes, store_in

GROUP = 100
GROUPS = 50
SINGLE = 1_000
RUNS = 9
# How many configurations of how many letters make the large base, and how many commands it takes.
FEW = (60, 1_000_000)
MANY = (60_000, 900)
BESIDE = 20_000


def in_transactions(kind: type[Sqlite] | type[Lmdb], folder: str) -> float:
    """The seconds of a peer for as many changes."""
    base = kind(folder)
    start = time.perf_counter()
    for group in range(GROUPS):
        numbers = range(group * GROUP, (group + 1) * GROUP)
        base.put_all((f"{number:09}", f"v{number:09}") for number in numbers)
    seconds = time.perf_counter() - start
    base.close()
    return seconds


def compare(count: int, ways: Mapping[str, Callable[[], float]]) -> None:
    """Prints what each way takes; a way is a call that returns seconds. The last one is what the others are beside."""
    seconds = by_turns(ways, RUNS)
    last = seconds[list(ways)[-1]]
    for name, times in seconds.items():
        ratio = statistics.median(base / own for own, base in zip(times, last))
        print(f"  {name}: {count / min(times):9.0f} commands a second, {ratio:.2f} of the last one's rate")


def compare_groups(top: str, stub: str) -> None:
    pieces = [command(number) for number in range(GROUP * GROUPS)]
    records = [record_bytes(number) for number in range(GROUP * GROUPS)]

    def by_database(kind: type[Sqlite] | type[Lmdb]) -> Callable[[], float]:
        return lambda: in_transactions(kind, fresh(top, "p"))

    ways: dict[str, Callable[[], float]] = {
        "confstore run --group": lambda: piped([PROGRAM, "run", "--group", store_in(top, "s")], pieces, GROUP)
    }
    ways.update((kind.name, by_database(kind)) for kind in DATABASES)
    ways["the stub in C"] = lambda: piped([stub, os.path.join(fresh(top, "c"), "stub"), "group"], records, GROUP)
    print(f"{GROUP} commands at a time")
    compare(GROUP * GROUPS, ways)


def compare_single(top: str) -> None:
    pieces = [command(number) for number in range(SINGLE)]
    print("one command at a time")
    compare(
        SINGLE,
        {
            "confstore run --group": lambda: piped([PROGRAM, "run", "--group", store_in(top, "s")], pieces, 1),
            "confstore run": lambda: piped([PROGRAM, "run", store_in(top, "s")], pieces, 1),
        },
    )


def count_syncs(top: str) -> None:
    """Prints how many syncs a session makes for the groups."""
    pieces = [command(number) for number in range(GROUP * GROUPS)]
    words = [PROGRAM, "run", "--group", store_in(top, "s")]
    syncs = syncs_of(words, top, lambda traced: piped(traced, pieces, GROUP))
    if syncs is None:
        print("syncs aren't counted: install strace")
    else:
        print(f"  {syncs} syncs for {GROUPS} groups, those of opening among them")


def longest_wait(top: str, base: str, words: Words, commands: Sequence[bytes]) -> tuple[float, float, int]:
    """The longest time until an answer and the median in milliseconds, and the length of the file at the end."""
    folder = os.path.join(top, "s")
    shutil.rmtree(folder, ignore_errors=True)
    shutil.copytree(base, folder)
    pipes = Pipes([PROGRAM, *words, folder])
    pipes.ask([b"names:\n...\n"])
    waits = [pipes.ask([piece]) for piece in commands]
    pipes.end()
    size = os.path.getsize(os.path.join(folder, "store.yaml"))
    return max(waits) * 1e3, statistics.median(waits) * 1e3, size


def compare_checkpoints(top: str, kind: tuple[int, int], where: str) -> None:
    many, letters = kind
    base = store_in(top, "base")
    texts = (f"import: c{number}\ntext: |\n  k: {'x' * letters}\n...\n" for number in range(many))
    perform(base, ("".join(texts) + "checkpoint:\n...\n").encode())
    sets = [command(number) for number in range(BESIDE)]
    size = os.path.getsize(os.path.join(base, "store.yaml"))
    print(f"{where}, a base of {many:,} configurations, {size:,} bytes; {BESIDE:,} commands one by one")
    ways = {
        "no checkpoint": (["run", "--group"], sets),
        "one in slices": (["run", "--group", "--checkpoint-after", "10000"], sets),
        "one by a command": (["run", "--group"], [*sets[:100], b"checkpoint:\n...\n", *sets[100:1000]]),
    }
    for name, (words, pieces) in ways.items():
        longest, median, size = min(longest_wait(top, base, words, pieces) for _ in range(3))
        print(f"  {name}: the longest wait {longest:.2f} ms, the median {median:.3f} ms; {size:,} bytes at the end")


def main() -> int:
    need_program()
    with tempfile.TemporaryDirectory() as top:
        compare_groups(top, appending_stub(top))
        count_syncs(top)
        compare_single(top)
        compare_checkpoints(top, FEW, "on the disk")
    for kind in (FEW, MANY) if MEMORY else ():
        with tempfile.TemporaryDirectory(dir=MEMORY) as top:
            compare_checkpoints(top, kind, "in memory")
    return 0


if __name__ == "__main__":
    sys.exit(main())
