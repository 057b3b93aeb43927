#!/usr/bin/env python3
"""Flips single bits of journals, and counts how many a session notices.

A store has no checksums. A flipped bit is noticed if the file is then refused (`Damaged`, `NotAStore`), or if its last
piece isn't closed or has a zero, which opening drops and tells. Otherwise it changed a text, a key, a name or a
spelling, and the session goes on with what the file now says. Nothing is judged but that no session ends in any other
way. The figures say what to expect of a device that changes bytes.

Run it from the repository's root after the program is built; it takes some seconds:

    ./prove && python3 checks/flipped_bits.py

A seed may follow. The status is 0 if all is as it should be.
"""

from __future__ import annotations

import os
import random
import re
import sys
import tempfile
from collections import Counter

from lib.command_line import seed_given
from lib.store_runs import Failures, need_program, read_file, session, write_file

FLIPS = 300

DROPPED = re.compile(r"confstore: the last [0-9]+ bytes of store\.yaml were dropped: they were no whole record\n")

# Short edits as a program makes them, texts as people write them, and lists of numbers.
JOURNALS = {
    "edits of one value": ['import: app\ntext: "port: 80"\n...\n']
    + [f"set: app\npath: /port\nvalue: {number}\n...\n" for number in range(300)],
    "texts": [
        f"import: page{number}\ntext: |\n  title: Page {number}\n"
        "  body: |\n    Some words about it,\n    on two lines.\n...\n"
        for number in range(100)
    ],
    "lists": ['import: log\ntext: "[]"\n...\n']
    + [f"set: log\npath: /-\nvalue: [{number}, {number * 7919}]\n...\n" for number in range(300)],
}


def seen(folder: str, before: int, failures: Failures) -> str:
    """What a session makes of the file in the folder, where it answered `before` for the whole one."""
    status, answers, errors = session(folder, b"---\nnames:\n...\n")
    if status == 1 and errors in ("confstore: Damaged\n", "confstore: NotAStore\n"):
        return "refused"
    size = os.path.getsize(os.path.join(folder, "store.yaml"))
    if status == 0 and DROPPED.fullmatch(errors) and answers and size != before:
        return "cut at its end"
    failures.expect("a session on a changed file", (status, errors, bool(answers), size), (0, "", True, before))
    return "read as it is"


def main() -> int:
    need_program()
    chance, failures = random.Random(seed_given(1)), Failures()
    with tempfile.TemporaryDirectory() as top:
        for name, commands in JOURNALS.items():
            store = os.path.join(top, name)
            os.mkdir(store)
            session(store, "".join(commands).encode())
            journal = read_file(os.path.join(store, "store.yaml"))
            counts: Counter[str] = Counter()
            for _ in range(FLIPS):
                changed, place = bytearray(journal), chance.randrange(len(journal))
                changed[place] ^= 1 << chance.randrange(8)
                write_file(os.path.join(store, "store.yaml"), bytes(changed))
                counts[seen(store, len(journal), failures)] += 1
            print(f"{name}: of {FLIPS} flipped bits", ", ".join(f"{count} {what}" for what, count in counts.items()))
    return failures.report()


if __name__ == "__main__":
    sys.exit(main())
