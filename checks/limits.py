#!/usr/bin/env python3
"""Looks at the limits of a session and of a store file, to the byte, through the built program.

- A session of exactly 1,073,741,824 bytes is answered whole. With one byte more it ends with `SessionLong`, after all
  answers.
- A store is filled by records of nearly 4 MiB until `store.yaml` has exactly 1,073,741,824 bytes. Before and after
  that, a command that would make it longer is refused by `JournalLong`, and changes nothing. The file is opened, a
  checkpoint makes it short, and commands go on.
- The same file with one byte more is no store, and stays as it is.

It needs 1 GiB in a folder, which may be on a RAM disk, and the program takes as much memory. Run it from the
repository's root after the program is built; it takes two minutes:

    ./prove && python3 checks/limits.py

A folder may follow. The status is 0 if all is as it should be.
"""

from __future__ import annotations

import os
import subprocess
import sys
import tempfile
from collections.abc import Iterable, Iterator

from lib.store_runs import EMPTY, PROGRAM, Failures, need_program, read_file, session

SESSION_LIMIT = STORE_LIMIT = 1_073_741_824
PIECE_LIMIT = 16_777_216
CONFIG_LIMIT = 4_194_304

CLOSING = b"...\n"
BAD_COMMAND = b"---\nrefused: BadCommand\n...\n"
JOURNAL_LONG = b"---\nrefused: JournalLong\n...\n"


def ok(count: int) -> bytes:
    return f'---\nok: "{count}"\n...\n'.encode()


def streamed(folder: str, parts: Iterable[bytes]) -> tuple[int, bytes, str]:
    """A session whose input comes in parts: its status, its answers, and what it wrote to standard error."""
    pipe = subprocess.PIPE
    process = subprocess.Popen([PROGRAM, "run", folder], stdin=pipe, stdout=pipe, stderr=pipe)
    assert process.stdin is not None
    try:
        for part in parts:
            process.stdin.write(part)
    except BrokenPipeError:
        pass
    output, errors = process.communicate()
    return process.returncode, output, errors.decode()


def comment(length: int) -> bytes:
    """A piece of so many bytes that is a comment, and so no command."""
    return b"#" + b"x" * (length - len(CLOSING) - 2) + b"\n" + CLOSING


def sessions_have_a_greatest_length(top: str, failures: Failures) -> None:
    pieces = SESSION_LIMIT // PIECE_LIMIT
    longest = comment(PIECE_LIMIT)
    folder = os.path.join(top, "session")
    os.mkdir(folder)
    whole = streamed(folder, [longest] * pieces)
    failures.expect("a session of the greatest length", whole, (0, BAD_COMMAND * pieces, ""))
    longer = streamed(folder, [longest] * pieces + [b"n"])
    failures.expect("a session of one byte more", longer, (1, BAD_COMMAND * pieces, "confstore: SessionLong\n"))


def value_of(length: int) -> bytes:
    """A text of so many bytes in the one style, with its quotes."""
    return b'"' + b"x" * (length - 2) + b'"'


def setting(length: int) -> bytes:
    return b'set: c\npath: ""\nvalue: ' + value_of(length) + b"\n...\n"


def record_length(count: int, length: int) -> int:
    """The length of the record of such a command."""
    return len(b'---\nat: "%d"\n' % count) + len(setting(0)) - 2 + length


class Filling:
    """A store that is filled by one command after the other: how long its file is, and how many commands it has."""

    def __init__(self, folder: str) -> None:
        self.folder = folder
        self.length = len(EMPTY)
        self.count = 0

    def file(self) -> str:
        return os.path.join(self.folder, "store.yaml")

    def take(self, command: bytes, record: int) -> bytes:
        """What a command adds."""
        self.count += 1
        self.length += record
        return command

    def commands(self) -> Iterator[bytes]:
        """Commands that leave room for one more record, of at most the greatest length."""
        yield self.take(b"import: c\ntext: x\n...\n", len(b'---\nat: "1"\nimport: c\ntree: x\n...\n'))
        # The value's line in the one style has a line feed.
        length = CONFIG_LIMIT - 1
        while self.length + 2 * record_length(self.count + 1, length) <= STORE_LIMIT:
            yield self.take(setting(length), record_length(self.count + 1, length))
        half = (STORE_LIMIT - self.length) // 2 - record_length(self.count + 1, 0)
        yield self.take(setting(half), record_length(self.count + 1, half))

    def last(self) -> int:
        """How long a value may be so that its record fits to the byte."""
        return STORE_LIMIT - self.length - record_length(self.count + 1, 0)


def fill(top: str, failures: Failures) -> tuple[Filling, int]:
    """Fills a store to its limit."""
    filling = Filling(os.path.join(top, "store"))
    os.mkdir(filling.folder)
    filled = streamed(filling.folder, filling.commands())
    answers = b"".join(ok(count) for count in range(1, filling.count + 1))
    failures.expect("the commands that fill a store", filled, (0, answers, ""))
    failures.expect("the length of the file", os.path.getsize(filling.file()), filling.length)
    room = filling.last()
    failures.expect("a value of the last record that may be", 2 < room < CONFIG_LIMIT, True)
    longer = session(filling.folder, setting(room + 1))
    failures.expect("a record of one byte too much", longer, (0, JOURNAL_LONG, ""))
    failures.expect("the length after it", os.path.getsize(filling.file()), filling.length)
    fitting = session(filling.folder, setting(room) + b"delete: c\npath: ''\n...\n")
    failures.expect("a record that fits", fitting, (0, ok(filling.count + 1) + JOURNAL_LONG, ""))
    failures.expect("the greatest length", os.path.getsize(filling.file()), STORE_LIMIT)
    print(f"  a store of {STORE_LIMIT} bytes has {filling.count + 1} records")
    return filling, room


def longer_files_are_no_store(filling: Filling, failures: Failures) -> None:
    """The file with one byte more is refused and left, and is a store without it."""
    with open(filling.file(), "ab") as target:
        target.write(b"\n")
    refused = session(filling.folder, b"names:\n...\n")
    failures.expect("a file of one byte more", refused, (1, b"", "confstore: NotAStore\n"))
    failures.expect("its length", os.path.getsize(filling.file()), STORE_LIMIT + 1)
    os.truncate(filling.file(), STORE_LIMIT)


def stores_have_a_greatest_length(top: str, failures: Failures) -> None:
    filling, room = fill(top, failures)
    longer_files_are_no_store(filling, failures)
    count = filling.count + 1
    commands = b"delete: c\npath: ''\n...\nnames:\n...\ncheckpoint:\n...\ndelete: c\npath: ''\n...\n"
    answers = JOURNAL_LONG + b"---\nnames:\n  - c\n...\n" + ok(count) + ok(count + 1)
    failures.expect("a checkpoint of a full store", session(filling.folder, commands), (0, answers, ""))
    base = b'---\nstore: confstore-2\nat: "%d"\nconfigs:\n  c: ' % count + value_of(room) + b"\n...\n"
    record = b'---\nat: "%d"\ndelete: c\npath: ""\n...\n' % (count + 1)
    failures.expect("the file after it", read_file(filling.file()) == base + record, True)


def main() -> int:
    need_program()
    failures = Failures()
    with tempfile.TemporaryDirectory(dir=sys.argv[1] if len(sys.argv) > 1 else None) as top:
        sessions_have_a_greatest_length(top, failures)
        stores_have_a_greatest_length(top, failures)
    return failures.report()


if __name__ == "__main__":
    sys.exit(main())
