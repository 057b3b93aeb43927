"""What the scripts on stores share: the built programs, a worked session, and a list of what went wrong."""

from __future__ import annotations

import os
import subprocess
import sys
from collections.abc import Mapping, Sequence
from os import PathLike
from typing import Any

TOP = os.path.dirname(os.path.dirname(os.path.dirname(os.path.abspath(__file__))))


def program_of(crate: str) -> str:
    """Where the program of a crate is once it is built."""
    return os.path.join(TOP, "crates", crate, "out", crate)


PROGRAM = os.environ.get("CONFSTORE") or program_of("confstore")
DRIVER = program_of("bench_driver")
STATE_PROBE = program_of("tree_probe")
STORE_PROBE = program_of("store_probe")

# The orders for the driver that build it. A probe is built by its rows.
ORDERS_OF_DRIVER = "-- edits tree wide 1 1"

# The file of an empty state.
EMPTY = b'---\nstore: confstore-2\nat: "0"\nconfigs: {}\n...\n'

# The record of an import of the text `x` under `a`, as the first command.
IMPORT = b'---\nat: "1"\nimport: a\ntree: x\n...\n'

# A worked session over an empty store: each command with its answer.
WORKED = [
    ('import: app\ntext: "port: 80\\n"\n...\n', '---\nok: "1"\n...\n'),
    ("set: app\npath: /port\nvalue: 81\n...\n", '---\nok: "2"\n...\n'),
    ("export: app\n...\n", '---\ntext: |\n  port: "81"\n...\n'),
    ('delete: app\npath: ""\n...\n', '---\nok: "3"\n...\n'),
    ('get: app\npath: ""\n...\n', "---\nrefused: NoConfig\n...\n"),
    ("names:\n...\n", "---\nnames: []\n...\n"),
]


class Failures:
    """What was tried, and what went wrong."""

    def __init__(self) -> None:
        self.tried = 0
        self.wrong: list[str] = []

    def expect(self, name: str, found: object, wanted: object) -> None:
        self.tried += 1
        if found != wanted:
            self.wrong.append(f"{name}: {found!r} instead of {wanted!r}")

    def take(self, others: Failures) -> None:
        """Adds what was tried and what went wrong elsewhere."""
        self.tried += others.tried
        self.wrong += others.wrong

    def report(self) -> int:
        """Prints what went wrong and the last line. Returns the status."""
        for wrong in self.wrong:
            print(f"WRONG {wrong}")
        print(f"{self.tried - len(self.wrong)} passed, {len(self.wrong)} failed")
        return 1 if self.wrong else 0


def need_program(program: str = PROGRAM) -> None:
    """Ends the script where a program is not built, and says what builds it."""
    if os.access(program, os.X_OK):
        return
    if program == PROGRAM:
        sys.exit("the program is not built: run ./prove first, or set CONFSTORE")
    crate = os.path.basename(program)
    given = ORDERS_OF_DRIVER if program == DRIVER else "< stdin"
    sys.exit(f"{crate} is not built: run `rt run {given}` in crates/{crate} first")


# The words for a session, for one in groups, and for one that also makes checkpoints in slices, as often as it can.
SINGLE = ("run",)
GROUPED = ("run", "--group")
SLICED = ("run", "--group", "--checkpoint-after", "1")


# What becomes of a session: its status, its answers, and what it wrote to standard error.
Ended = tuple[int, bytes, str]


def session(folder: str | PathLike[str], commands: bytes, words: Sequence[str] = SINGLE, **more: Any) -> Ended:
    """A session from start to end: its status, its answers, and what it wrote to standard error."""
    done = subprocess.run([PROGRAM, *words, folder], input=commands, capture_output=True, check=False, **more)
    return done.returncode, done.stdout, done.stderr.decode()


def rest_of(files: Mapping[str, bytes]) -> bytes:
    """The bytes after the last closing line of `store.yaml`, of the files of a folder."""
    return files.get("store.yaml", b"").rpartition(b"\n...\n")[2]


def dropped(count: int) -> str:
    """What is said on standard error where opening drops so many bytes after the last whole record."""
    if not count:
        return ""
    what = "last byte of store.yaml was" if count == 1 else f"last {count} bytes of store.yaml were"
    return f"confstore: the {what} dropped: {'it was' if count == 1 else 'they were'} no whole record\n"


def compiled(source: str, folder: str | PathLike[str]) -> str:
    """A library made of a C file of checks/shims, to be loaded with LD_PRELOAD."""
    library = os.path.join(folder, os.path.splitext(source)[0] + ".so")
    path = os.path.join(TOP, "checks", "shims", source)
    subprocess.run(["cc", "-shared", "-fPIC", "-O1", "-o", library, path, "-ldl"], check=True)
    return library


def write_file(path: str | PathLike[str], content: bytes) -> None:
    with open(path, "wb") as target:
        target.write(content)


def read_file(path: str | PathLike[str]) -> bytes:
    with open(path, "rb") as source:
        return source.read()
