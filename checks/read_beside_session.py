#!/usr/bin/env python3
"""Reads a store beside a session that changes it, with the words that take no lock.

A session makes 10,000 edits: the first imports `count: "1"` under the name `web`, and each further one sets `/count` to
its own number. After every thousandth it makes a checkpoint, which puts a new file in the place of `store.yaml`. Beside
it the built program is started 10,000 times, with `names`, `get`, `log` and `verify` in turn, by one reader for each
processor. The session waits for the readers, so that it ends when they do.

Each answer has to be that of the state after some prefix of the edits, and no earlier one than the reader saw before:

- `get` gives a number, `names` the one name, and `verify` says that the store is whole, after so many commands.
- `log` gives the edits from the last checkpoint on, without a gap, under their numbers.
- `get --at N` gives N, for a command that the reader has seen, or the fault NoSuchCommand: a checkpoint dropped it.
- No reader writes to standard error otherwise, and the folder has no file that the session did not make.

Run it from the repository's root after the program is built; it takes about a minute:

    ./prove && python3 checks/read_beside_session.py

A number of edits and a number of reads may follow. The last line is 'N passed, M failed', and the status is 0 if M is
0.
"""

from __future__ import annotations

import os
import re
import subprocess
import sys
import tempfile
import threading
import time
from collections.abc import Iterator
from concurrent.futures import ThreadPoolExecutor

from lib.command_line import number_given
from lib.store_runs import PROGRAM, Failures, need_program, session

EDITS = 10_000
READS = 10_000

# After so many edits the session makes a checkpoint.
CHECKPOINT = 1_000

# How long one read may take, in seconds, and how long the session may.
HANGS = 20
PATIENCE = 600

# So many edits are made before the session waits for the readers.
AHEAD = 20

MEMORY = "/dev/shm"

NO_SUCH_COMMAND = (1, "", "confstore: NoSuchCommand")


def edits(count: int) -> Iterator[str]:
    """The commands of the session, each with the number that it sets."""
    for number in range(1, count + 1):
        if number == 1:
            yield 'import: web\ntext: "count: 1"\n...\n'
        else:
            yield f'set: web\npath: "/count"\nvalue: "{number}"\n...\n'
        if number % CHECKPOINT == 0:
            yield "checkpoint:\n...\n"


def log_line(number: int) -> str:
    """The line of the log for an edit."""
    return f'{number} set web "/count"' if number > 1 else "1 import web"


class Progress:
    """How many reads are done, of how many."""

    def __init__(self, wanted: int) -> None:
        self.wanted, self.done, self.lock = wanted, 0, threading.Lock()

    def read_one(self) -> None:
        with self.lock:
            self.done += 1

    def await_share(self, number: int, count: int) -> None:
        """Waits until the readers have come as far as the edit with this number."""
        while number > AHEAD and number * self.wanted > (self.done + 1) * count and self.done < self.wanted:
            time.sleep(0.001)


class Writer(threading.Thread):
    """A session that makes the edits one after the other, and ends about when the readers do."""

    def __init__(self, folder: str, count: int, progress: Progress, done: threading.Event) -> None:
        super().__init__()
        self.folder, self.count, self.progress, self.done = folder, count, progress, done
        self.refused: list[tuple[str, bytes]] = []

    def run(self) -> None:
        words = [PROGRAM, "run", self.folder]
        with subprocess.Popen(words, stdin=subprocess.PIPE, stdout=subprocess.PIPE) as run:
            assert run.stdin is not None and run.stdout is not None
            for number, command in enumerate(edits(self.count)):
                self.progress.await_share(number, self.count)
                run.stdin.write(command.encode())
                run.stdin.flush()
                answer = b"".join(iter(run.stdout.readline, b"...\n"))
                if not answer.startswith(b"---\nok:"):
                    self.refused.append((command, answer))
                    break
            run.stdin.close()
        self.done.set()


def read(*words: str) -> tuple[int, str, str]:
    """The status, the output and the errors of a word that reads."""
    done = subprocess.run([PROGRAM, *words], capture_output=True, check=False, timeout=HANGS)
    return done.returncode, done.stdout.decode(), done.stderr.decode()


class Reader:
    """One that reads the store again and again, and remembers the last edit that it saw."""

    def __init__(self, folder: str, progress: Progress) -> None:
        self.folder, self.progress, self.failures, self.seen = folder, progress, Failures(), 1

    def saw(self, what: str, number: int) -> None:
        """The state after the edit of this number was seen: it is no earlier one than before."""
        self.failures.expect(f"{what}: edit {number} after {self.seen}", number >= self.seen, True)
        self.seen = max(self.seen, number)

    def names(self) -> None:
        self.failures.expect("names", read("names", self.folder), (0, "web\n", ""))

    def get(self) -> None:
        status, output, errors = read("get", self.folder, "web", "/count", "--raw")
        self.failures.expect("get", (status, errors, bool(re.fullmatch(r"\d+\n", output))), (0, "", True))
        self.saw("get", int(output or 0))

    def log(self) -> None:
        status, output, errors = read("log", self.folder)
        self.failures.expect("log", (status, errors), (0, ""))
        lines = output.splitlines()
        numbers = [int(line.split(" ", 1)[0]) for line in lines]
        self.failures.expect("the lines of a log", lines, [log_line(number) for number in numbers])
        if numbers:
            self.failures.expect("the numbers of a log", numbers, list(range(numbers[0], numbers[0] + len(numbers))))
            self.saw("log", numbers[-1])

    def verify(self) -> None:
        status, output, errors = read("verify", self.folder)
        found = re.fullmatch(r'state: whole\nbase: "(\d+)"\ncommands: "(\d+)"\ndropped: "\d+"\n', output)
        self.failures.expect(f"verify: {output!r}", (status, errors, bool(found)), (0, "", True))
        if found:
            self.saw("verify", int(found[1]) + int(found[2]))

    def get_at(self) -> None:
        number = self.seen
        status, output, errors = read("get", self.folder, "web", "/count", "--raw", "--at", str(number))
        if (status, output, errors.partition("\n")[0]) != NO_SUCH_COMMAND:
            self.failures.expect(f"get --at {number}", (status, output, errors), (0, f"{number}\n", ""))

    def read_often(self, times: int) -> None:
        turns = (self.names, self.get, self.log, self.get, self.verify, self.get_at)
        for turn in range(times):
            turns[turn % len(turns)]()
            self.progress.read_one()


def read_beside(folder: str, edit_count: int, read_count: int, failures: Failures) -> None:
    """Readers beside a session."""
    reader_count = os.cpu_count() or 1
    each = max(1, read_count // reader_count)
    done, progress = threading.Event(), Progress(each * reader_count)
    writer = Writer(folder, edit_count, progress, done)
    readers = [Reader(folder, progress) for _ in range(reader_count)]
    writer.start()
    while not os.path.exists(os.path.join(folder, "store.yaml")) or read("get", folder, "web")[0] != 0:
        time.sleep(0.01)
    with ThreadPoolExecutor(reader_count) as pool:
        list(pool.map(Reader.read_often, readers, [each] * reader_count))
    writer.join(PATIENCE)
    failures.expect("the session has ended", done.is_set(), True)
    failures.expect("refused edits", writer.refused, [])
    for reader in readers:
        failures.take(reader.failures)


def read_at_rest(folder: str, edit_count: int, failures: Failures) -> None:
    """What the words say once the session has ended."""
    base = edit_count - edit_count % CHECKPOINT
    lines = "".join(f"{log_line(number)}\n" for number in range(base + 1, edit_count + 1))
    failures.expect("get at the end", read("get", folder, "web"), (0, f'count: "{edit_count}"\n', ""))
    failures.expect("log at the end", read("log", folder), (0, lines, ""))
    failures.expect("log of no such command", read("log", folder, "--at", str(edit_count + 1))[0], 1)
    failures.expect("files", sorted(os.listdir(folder)), ["store.lock", "store.yaml"])


def main() -> int:
    need_program()
    edit_count, read_count = number_given(1, EDITS), number_given(2, READS)
    failures = Failures()
    with tempfile.TemporaryDirectory(dir=MEMORY if os.path.isdir(MEMORY) else None) as folder:
        read_beside(folder, edit_count, read_count, failures)
        read_at_rest(folder, edit_count, failures)
        found = session(folder, b"names:\n...\n")
        failures.expect("a session afterwards", found, (0, b"---\nnames:\n  - web\n...\n", ""))
    return failures.report()


if __name__ == "__main__":
    sys.exit(main())
