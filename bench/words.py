#!/usr/bin/env python3
"""Times the words that read a store.

- `names` and `get` on a store that was just checkpointed, with a base of 1 MiB, beside `cat` on its file and the
  reading of its base to a tree by `bench_driver`.
- Each word that reads, beside a base of 60 MiB, with the memory that it takes, and `sqlite3` with the same question on
  a database of the same pairs, if it is installed.
- `log` and `verify` on journals of three lengths, with the memory that they take.

The programs take turns, in processor time. Run it from the repository's root after they are built; it takes two
minutes, and with `-l` the large base alone is read:

    ./prove && (cd crates/bench_driver && rt run -- edits tree wide 1 1) && python3 bench/words.py [-l]
"""

from __future__ import annotations

import contextlib
import os
import shutil
import sqlite3
import statistics
import sys
import tempfile
from collections.abc import Callable, Mapping

from lib.programs import DRIVER, MEMORY, MIB, PROGRAM, need_program
from lib.runs import Words, by_turns, greatest_memory, processor_seconds
from lib.stores import CHECKPOINT, fresh, perform

TURNS = 41
# Of how many configurations a base is, and of how many pairs each of them: one of 1 MiB, and one of 60 MiB.
SMALL = (16, 1524)
LARGE = (240, 5577)
LARGE_TURNS = 5
EDITS = (10_000, 40_000, 160_000)


def median_times(programs: Mapping[str, Words], turns: int) -> dict[str, float]:
    """The median time of each program in milliseconds, run by turns."""

    def timed(words: Words) -> Callable[[], float]:
        return lambda: processor_seconds(words)

    times = by_turns({name: timed(words) for name, words in programs.items()}, turns)
    return {name: 1000 * statistics.median(seconds) for name, seconds in times.items()}


def filled(top: str, name: str, configurations: int, pairs: int) -> str:
    """A store that is a base alone, of so many configurations of so many pairs."""
    folder = fresh(top, name)
    text = b"".join(b"  key_%06d: a value of some thirty bytes\n" % pair for pair in range(pairs))
    commands = b"".join(b"---\nimport: c%d\ntext: |\n%s...\n" % (number, text) for number in range(configurations))
    perform(folder, commands + CHECKPOINT, "--group")
    return folder


def database(top: str, configurations: int, pairs: int) -> str:
    """A database of SQLite with the same names and pairs."""
    path = os.path.join(top, "database")
    with contextlib.closing(sqlite3.connect(path)) as base:
        base.execute("CREATE TABLE configs (name TEXT PRIMARY KEY)")
        base.execute("CREATE TABLE pairs (name TEXT, key TEXT, value TEXT, PRIMARY KEY (name, key)) WITHOUT ROWID")
        for name in (f"c{number}" for number in range(configurations)):
            rows = ((name, f"key_{pair:06}", "a value of some thirty bytes") for pair in range(pairs))
            base.execute("INSERT INTO configs VALUES (?)", (name,))
            base.executemany("INSERT INTO pairs VALUES (?, ?, ?)", rows)
        base.commit()
    return path


def compare_readers(top: str) -> None:
    """Prints what reading a store with a base of 1 MiB takes, beside `cat` and the reading of its base."""
    folder = filled(top, "store", *SMALL)
    store = os.path.join(folder, "store.yaml")
    programs = {
        "cat": ["cat", store],
        "the base to a tree": [DRIVER, "read", "tree", store, "1"],
        "names": [PROGRAM, "names", folder],
        "get": [PROGRAM, "get", folder, "c7", "/key_000100"],
    }
    times = median_times(programs, TURNS)
    print(f"A base of {os.path.getsize(store)} bytes:")
    for name, time in times.items():
        print(f"  {name:20} {time:6.2f} ms")
    limit = 3 * times["cat"] + times["the base to a tree"]
    print(f"  3 times cat and the reading of the base: {limit:.2f} ms")


def words_on(folder: str) -> dict[str, Words]:
    """The words that read a store."""
    place = ("c7", "/key_000100")
    return {
        "names": [PROGRAM, "names", folder],
        "get": [PROGRAM, "get", folder, *place],
        "exists": [PROGRAM, "exists", folder, *place],
        "keys": [PROGRAM, "keys", folder, "c7"],
        "export": [PROGRAM, "export", folder, "c7"],
        "log": [PROGRAM, "log", folder],
        "verify": [PROGRAM, "verify", folder],
        "backup": ["sh", "-c", 'rm -rf "$2" && "$0" backup "$1" "$2"', PROGRAM, folder, f"{folder}-copy"],
    }


def questions_on(path: str) -> dict[str, Words]:
    """The questions of SQLite's program that are the same as some of these words."""
    if shutil.which("sqlite3") is None:
        print("sqlite3 is left out: apt-get install sqlite3")
        return {}
    place = "FROM pairs WHERE name = 'c7' AND key = 'key_000100'"
    questions = {
        "names": "SELECT name FROM configs",
        "get": f"SELECT value {place}",
        "exists": f"SELECT count(*) {place}",
        "keys": "SELECT key FROM pairs WHERE name = 'c7'",
        "export": "SELECT key || ': ' || value FROM pairs WHERE name = 'c7'",
    }
    return {f"sqlite3 {word}": ["sqlite3", "-readonly", path, question] for word, question in questions.items()}


def measure_large(top: str) -> None:
    """Prints what each word takes beside a base of 60 MiB, in time and in memory, and what SQLite takes."""
    folder = filled(top, "large", *LARGE)
    words = words_on(folder) | questions_on(database(top, *LARGE))
    times = median_times(words, LARGE_TURNS)
    print(f"A base of {os.path.getsize(os.path.join(folder, 'store.yaml'))} bytes:")
    for word, time in times.items():
        print(f"  {word:15} {time:7.1f} ms {greatest_memory(words[word]) / MIB:6.1f} MiB at most")


def measure_journal(top: str, edits: int) -> None:
    """Prints what `log` and `verify` take on a journal of so many edits."""
    folder = fresh(top, f"store{edits}")
    sets = b"".join(b"---\nset: a\npath: /k%d\nvalue: v%d\n...\n" % (edit % 50, edit) for edit in range(edits))
    perform(folder, b"---\nimport: a\ntext: 'k: v'\n...\n" + sets, "--group")
    words = {word: [PROGRAM, word, folder] for word in ("log", "verify")}
    for word, time in median_times(words, 5).items():
        print(f"{edits} edits: {word:6} {time:7.1f} ms, {1000 * time / edits:.2f} us an edit, "
              f"{greatest_memory(words[word]) / MIB:.0f} MiB at most")  # fmt: skip


def main() -> int:
    need_program()
    with tempfile.TemporaryDirectory(dir=MEMORY) as top:
        measure_large(top)
    if "-l" in sys.argv[1:]:
        return 0
    need_program(DRIVER)
    with tempfile.TemporaryDirectory() as top:
        compare_readers(top)
        for edits in EDITS:
            measure_journal(top, edits)
    return 0


if __name__ == "__main__":
    sys.exit(main())
