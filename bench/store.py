#!/usr/bin/env python3
"""Times a store: opening a long journal, and the commands, beside SQLite and LMDB.

A journal of 10,000 and of 100,000 edits of one value of 100 bytes is made by a session, each edit synced. The store is
opened by a session without commands, beside a loop inside one process that reads the same file to its events: opening
reads each piece to a tree, takes it as a command and performs it. Then stores of 1 to 10,000 configurations take edits
in a session: an edit has to cost little more in a large one. Journals that put configurations and delete them again,
the oldest first, are opened: a command of a long one has to cost what one of a short one does. With `-i` instructions,
as valgrind counts them, are printed beside the times.

SQLite (in WAL mode, with its default checkpoints and full syncs) and LMDB take the same edits, each in a
transaction of its own, and are opened as a crash would leave them. Their times include those of Python's calls.
Everything is in a folder in memory, where there is one, so that no device is measured. A time is the least
processor time of several runs, less the least of runs with less to do: of opening an empty store, or of fewer rounds
or edits. Run it on a quiet machine from the repository's root, after the programs are built:

    ./prove && (cd crates/bench_driver && rt run -- edits tree wide 1 1) && python3 bench/store.py [-i]

LMDB is left out if it is not installed: `apt-get install python3-lmdb valgrind` installs it for the system's Python,
and valgrind.
"""

from __future__ import annotations

import os
import shutil
import sys
import tempfile
import time
from collections.abc import Callable

from lib.databases import DATABASES, Lmdb, Sqlite
from lib.programs import DRIVER, MEMORY, PROGRAM, counts_instructions, need_program
from lib.runs import Words, instructions_of, processor_seconds

EDITS = [10_000, 100_000]
# How many configurations the stores have that take edits, and how many edits those are.
CONFIGURATIONS = [1, 100, 1_000, 10_000]
APPLIED = 20_000
COUNTED = 1_000
# How many configurations the journals put that delete them again.
DELETED = [1_000, 10_000, 100_000]
# How many bytes the texts of a configuration have that is not edited.
LETTERS = 900
RUNS = 5


def least(words: Words, commands: str = os.devnull, before: Callable[[], None] = lambda: None) -> float:
    """The least processor time of several runs, each after a call of `before`."""
    times = []
    for _ in range(RUNS):
        before()
        times.append(processor_seconds(words, commands))
    return min(times)


def value(number: int) -> str:
    return f"v{number:099}"


def write_edits(path: str, name: str, count: int) -> None:
    """Writes a file of that many commands, each of which sets the value of a configuration."""
    with open(path, "w", encoding="utf-8") as target:
        for number in range(count):
            target.write(f"set: {name}\npath: /value\nvalue: {value(number)}\n...\n")


def write_store(folder: str, last: int) -> None:
    """Makes a store in a folder, with configurations under the names from `c0` to the one of this number."""
    os.makedirs(folder, exist_ok=True)
    text = f'    long: "{"x" * LETTERS}"\n    value: none\n'
    with open(os.path.join(folder, "store.yaml"), "w", encoding="utf-8") as target:
        target.write('---\nstore: confstore-2\nat: "0"\nconfigs:\n')
        target.writelines(f"  c{number}:\n{text}" for number in range(last + 1))
        target.write("...\n")


def opening(folder: str, edits: int, counts: bool) -> float:
    """Fills a store, prints what opening it costs, and returns that for an edit."""
    path, commands = os.path.join(folder, str(edits)), os.path.join(folder, "commands")
    write_store(path, 0)
    write_edits(commands, "c0", edits)
    filled = processor_seconds([PROGRAM, "run", path], commands)
    file = os.path.join(path, "store.yaml")
    size = os.path.getsize(file)
    empty = os.path.join(folder, "empty")
    write_store(empty, 0)
    opened = least([PROGRAM, "run", path]) - least([PROGRAM, "run", empty])
    rounds = 400_000 // edits
    reading = [DRIVER, "read", "events", file]
    read = (least([*reading, str(1 + rounds)]) - least([*reading, "1"])) / rounds
    print(f"a journal of {edits:,} edits, {size:,} bytes; filled in {filled / edits * 1e6:.1f} us an edit")
    for work, cost in (("open", opened), ("read", read)):
        print(f"  {work} {cost * 1e3:9.2f} ms, {cost / edits * 1e6:7.3f} us an edit, {size / cost / 1e6:8.1f} MB/s")
    print(f"  opening takes {opened / read:.2f} times what reading the file to its events takes")
    if counts and edits == EDITS[0]:
        opened_by = instructions_of([PROGRAM, "run", path]) - instructions_of([PROGRAM, "run", empty])
        read_by = instructions_of([*reading, "2"]) - instructions_of([*reading, "1"])
        print(f"  in instructions an edit: {opened_by / edits:.0f} to open, {read_by / edits:.0f} to read:", end=" ")
        print(f"{opened_by / read_by:.2f} times")
    return opened / edits


def openings(folder: str, counts: bool) -> None:
    costs = [opening(folder, edits, counts) for edits in EDITS]
    print(f"an edit of the longer journal takes {costs[1] / costs[0]:.2f} times one of the shorter one")


def applied(folder: str, counts: bool) -> None:
    """Prints what an edit costs in stores of several sizes: of the last configuration, in a session."""
    path = os.path.join(folder, "edited")
    files = {count: os.path.join(folder, f"edits-{count}") for count in (1, APPLIED, COUNTED)}
    for count in CONFIGURATIONS:
        for edits, commands in files.items():
            write_edits(commands, f"c{count}", edits)

        def anew(last: int = count) -> None:
            write_store(path, last)

        words = [PROGRAM, "run", path]
        cost = (least(words, files[APPLIED], anew) - least(words, files[1], anew)) / (APPLIED - 1)
        shown = f"an edit of a store of {count:6,} configurations: {cost * 1e6:7.3f} us"
        if counts:
            numbers = []
            for edits in (COUNTED, 1):
                anew()
                numbers.append(instructions_of(words, files[edits]))
            shown += f", {(numbers[0] - numbers[1]) / (COUNTED - 1):8.0f} instructions"
        print(shown)


def write_deletes(path: str, count: int) -> None:
    """Writes a journal that puts so many configurations, and deletes all but the last one, the oldest first."""
    os.makedirs(path)
    with open(os.path.join(path, "store.yaml"), "w", encoding="utf-8") as target:
        target.write('---\nstore: confstore-2\nat: "0"\nconfigs: {}\n...\n')
        for number in range(count):
            target.write(f'---\nat: "{number + 1}"\nimport: c{number}\ntree: x\n...\n')
        for number in range(count - 1):
            target.write(f'---\nat: "{count + number + 1}"\ndelete: c{number}\npath: ""\n...\n')


def deleted(folder: str) -> None:
    """Prints what opening costs where configurations were put and deleted again."""
    for count in DELETED:
        path = os.path.join(folder, f"deleted-{count}")
        write_deletes(path, count)
        cost = least([PROGRAM, "run", path])
        print(f"a journal that puts {count:,} configurations and deletes them:", end=" ")
        print(f"opened in {cost * 1e3:.2f} ms, {cost / (2 * count - 1) * 1e6:.3f} us a command")


def time_here(work: Callable[[], None]) -> float:
    """The processor time that a call takes here."""
    start = time.process_time()
    work()
    return time.process_time() - start


def peer(folder: str, kind: type[Sqlite] | type[Lmdb], edits: int) -> None:
    """Fills a peer's store, copies its files as a crash would leave them, and prints what filling and opening cost."""
    path = os.path.join(folder, f"{kind.__name__}-{edits}")
    os.mkdir(path)
    base = kind(path)

    def fill() -> None:
        for number in range(edits):
            base.set(value(number))

    filled = time_here(fill)
    costs, size = [], 0
    for number in range(RUNS):
        left = f"{path}-{number}"
        shutil.copytree(path, left)
        size = sum(os.path.getsize(os.path.join(left, name)) for name in os.listdir(left))

        def open_left(left: str = left) -> None:
            opened = kind(left)
            assert opened.get() == value(edits - 1)
            opened.close()

        costs.append(time_here(open_left))
    base.close()
    filling, opened = filled / edits * 1e6, min(costs) * 1e3
    print(f"{kind.name}, {edits:,} edits, {size:,} bytes:", end=" ")
    print(f"filled in {filling:.1f} us an edit, opened in {opened:.2f} ms")


def peers(folder: str) -> None:
    if Lmdb not in DATABASES:
        print("LMDB is left out: install python3-lmdb to compare with it")
    for kind in DATABASES:
        for edits in EDITS:
            peer(folder, kind, edits)


def main() -> int:
    need_program()
    need_program(DRIVER)
    counts = counts_instructions()
    with tempfile.TemporaryDirectory(dir=MEMORY) as folder:
        openings(folder, counts)
        applied(folder, counts)
        deleted(folder)
        peers(folder)
    return 0


if __name__ == "__main__":
    sys.exit(main())
