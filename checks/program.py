#!/usr/bin/env python3
"""Runs the built program with words and inputs, and compares what it does with what is expected.

The rows are in checks/data/program.txt. A row is some lines, and an empty line ends it. Each begins with a word:

    folder NAME     makes a folder before the program runs
    file PATH TEXT  makes a file there
    link PATH TO    makes a symbolic link there
    held FOLDER     another run of the program holds the store in the folder meanwhile
    stuck WORDS     another run of the program, with these words, has filled a pipe that nobody reads, and waits
    words WORDS     the program's words
    word TEXT       one more word, behind those; there may be several such lines
    input TEXT      what it reads; nothing without this line
    reader broken   reading fails after the input
    writer full     what it writes goes to a full device
    writer gone     what it writes goes to a pipe that nobody reads any more
    closed STREAMS  these streams are closed when it starts, of input, output and errors
    status NUMBER   the status it ends with
    output TEXT     what it writes; nothing without a line on its output
    length NUMBER   or the number of bytes that it writes
    output_has TEXT or a part of what it writes; there may be several such lines
    errors TEXT     what it writes to standard error, in the same three ways: `errors_have` for a part
    errors_begin TEXT   and its first two words
    left PATH TEXT  what is in a file afterwards
    leads PATH TO   where a symbolic link leads afterwards
    has PATH NAMES  what is in a folder afterwards, in order
    keeps PATH      a file that is there before and afterwards: no other is in its place, and none wrote to it
    mode PATH MODE  who may use a file afterwards, as `chmod` takes it

A text has the escapes of checks/cases.py, and so has the path of a file or a folder that is made. All rows share one
folder, and run in order. The program has to be built first:

    ./prove && python3 checks/program.py

The last line is 'N passed, M failed', of rows; the status is 0 if M is 0.
"""

from __future__ import annotations

import array
import contextlib
import fcntl
import os
import socket
import stat
import subprocess
import sys
import tempfile
import termios
import threading
from collections.abc import Iterator, Sequence
from typing import IO, Any

from lib.store_runs import PROGRAM, TOP, need_program, read_file, write_file
from lib.text_cases import bytes_of, long_runs
from lib.waiting import until

ROWS = os.path.join(TOP, "checks", "data", "program.txt")

# The standard streams, by their numbers.
STREAMS = ("input", "output", "errors")

# The lines of a row: of each its word, and what follows it.
Row = Sequence[tuple[str, str]]

# How many seconds another run has to fill a pipe.
PATIENCE = 60

# A pipe that has no room for so many bytes is full.
PAGE = 4096

# Who may not use a new file.
UMASK = 0o022


def read_rows(path: str) -> list[tuple[int, Row]]:
    """The rows of a file: of each the number of its first line, and its lines."""
    rows: list[tuple[int, Row]] = []
    row: list[tuple[str, str]] = []
    with open(path, encoding="utf-8") as source:
        for number, line in enumerate(source, 1):
            line = line.rstrip("\n")
            if line and not line.startswith("#"):
                word, _, rest = line.partition(" ")
                row.append((word, long_runs(rest)))
            elif row and not line:
                rows.append((number - len(row), row))
                row = []
    return rows + ([(number + 1 - len(row), row)] if row else [])


def values(row: Row, word: str) -> list[str]:
    """What follows a word, in each line of the row that begins with it."""
    return [rest for found, rest in row if found == word]


def value(row: Row, word: str) -> str:
    """What follows a word in the row, or nothing."""
    return "".join(values(row, word)[:1])


def name_of(text: str) -> str:
    """The name of a file that a text with escapes means."""
    return os.fsdecode(bytes_of(text))


def prepare(row: Row, top: str) -> None:
    """Makes the folders and files of a row."""
    for folder in values(row, "folder"):
        os.mkdir(os.path.join(top, name_of(folder)))
    for file in values(row, "file"):
        path, text = file.split(" ", 1)
        write_file(os.path.join(top, name_of(path)), bytes_of(text))
    for link in values(row, "link"):
        path, target = link.split(" ")
        os.symlink(target, os.path.join(top, path))


@contextlib.contextmanager
def held(folder: str, top: str) -> Iterator[None]:
    """Another run of the program over the store in a folder, which has answered a command and waits for the next."""
    run = subprocess.Popen([PROGRAM, "run", folder], cwd=top, stdin=subprocess.PIPE, stdout=subprocess.PIPE)
    assert run.stdin and run.stdout
    run.stdin.write(b"names:\n...\n")
    run.stdin.flush()
    for line in run.stdout:
        if line == b"...\n":
            break
    yield
    run.stdin.close()
    run.stdout.close()
    run.wait()


def wait_until_full(pipe: int) -> None:
    """Waits until a pipe has no room for a page."""
    size = fcntl.fcntl(pipe, fcntl.F_GETPIPE_SZ)
    held = array.array("i", [0])

    def is_full() -> bool:
        fcntl.ioctl(pipe, termios.FIONREAD, held)
        return held[0] > size - PAGE

    if not until(is_full, PATIENCE):
        raise SystemExit(f"a run that was to fill a pipe wrote {held[0]} bytes")


@contextlib.contextmanager
def stuck(words: str, top: str) -> Iterator[None]:
    """Another run of the program, which has filled a pipe that nobody reads, and waits."""
    reading, writing = os.pipe()
    run = subprocess.Popen([PROGRAM, *words.split()], cwd=top, stdin=subprocess.DEVNULL, stdout=writing)
    os.close(writing)
    try:
        wait_until_full(reading)
        yield
    finally:
        run.kill()
        run.wait()
        os.close(reading)


@contextlib.contextmanager
def broken_reader(content: bytes) -> Iterator[socket.socket]:
    """A stream with these bytes, after which reading fails: its other end was closed with bytes that it had not
    read."""
    ours, theirs = socket.socketpair()
    sender = threading.Thread(target=ours.sendall, args=(content,))
    sender.start()
    theirs.sendall(b"not read")
    sender.join()
    ours.close()
    with theirs:
        yield theirs


@contextlib.contextmanager
def unread_pipe() -> Iterator[IO[bytes]]:
    """The end for writing of a pipe whose other end is closed."""
    reading, writing = os.pipe()
    os.close(reading)
    with open(writing, "wb") as end:
        yield end


def close(streams: Sequence[str]) -> None:
    """Closes standard streams."""
    for stream in streams:
        os.close(STREAMS.index(stream))


def run(row: Row, top: str) -> tuple[int, bytes, bytes]:
    """The status, the output and the errors of the program."""
    words: list[str | bytes] = [PROGRAM, *value(row, "words").split(), *map(bytes_of, values(row, "word"))]
    content = bytes_of(value(row, "input"))
    with contextlib.ExitStack() as ends:
        for folder in values(row, "held"):
            ends.enter_context(held(folder, top))
        for other in values(row, "stuck"):
            ends.enter_context(stuck(other, top))
        given: dict[str, Any] = {"input": content}
        if value(row, "reader") == "broken":
            given = {"stdin": ends.enter_context(broken_reader(content))}
        output: int | IO[bytes] = subprocess.PIPE
        if value(row, "writer") == "full":
            output = ends.enter_context(open("/dev/full", "wb"))
        if value(row, "writer") == "gone":
            output = ends.enter_context(unread_pipe())
        closed = value(row, "closed").split()
        if closed:
            given["preexec_fn"] = lambda: close(closed)
        done: subprocess.CompletedProcess[bytes] = subprocess.run(
            words, cwd=top, stdout=output, stderr=subprocess.PIPE, check=False, **given
        )
    return done.returncode, done.stdout or b"", done.stderr


def faults_of_output(row: Row, output: bytes) -> list[str]:
    """What is wrong with what the program wrote."""
    if values(row, "length"):
        return [] if len(output) == int(value(row, "length")) else [f"{len(output)} bytes were written"]
    parts = values(row, "output_has")
    if parts:
        return [f"{part!r} is not in the output" for part in parts if part.encode() not in output]
    return [] if output == bytes_of(value(row, "output")) else [f"output {output!r}"]


def faults_of_errors(row: Row, errors: bytes) -> list[str]:
    """What is wrong with what the program wrote to standard error."""
    if values(row, "errors_begin"):
        begin = errors.split()[:2]
        return [] if begin == value(row, "errors_begin").encode().split() else [f"errors {errors!r}"]
    parts = values(row, "errors_have")
    if parts:
        return [f"{part!r} is not in the errors" for part in parts if part.encode() not in errors]
    return [] if errors == bytes_of(value(row, "errors")) else [f"errors {errors!r}"]


def faults_of_files(row: Row, top: str) -> Iterator[str]:
    """What is wrong with the files that the program left."""
    for file in values(row, "left"):
        path, _, text = file.partition(" ")
        place = os.path.join(top, path)
        found = read_file(place) if os.path.isfile(place) else None
        if found != bytes_of(text):
            yield f"{path} has {found!r}"
    for link in values(row, "leads"):
        path, target = link.split(" ")
        full = os.path.join(top, path)
        if not os.path.islink(full) or os.readlink(full) != target:
            yield f"{path} does not lead to {target}"
    for folder in values(row, "has"):
        path, *names = folder.split(" ")
        place = os.path.join(top, path)
        there = sorted(os.listdir(place)) if os.path.isdir(place) else None
        if there != names:
            yield f"{path} has {there}"
    for file in values(row, "mode"):
        path, wanted = file.split(" ")
        state = state_of(os.path.join(top, path))
        if state is None or stat.S_IMODE(state.st_mode) != int(wanted, 8):
            yield f"{path} has not the mode {wanted}"


def state_of(path: str) -> os.stat_result | None:
    """What the system says of a file, if it is there."""
    return os.stat(path) if os.path.exists(path) else None


def kept_files(row: Row, top: str) -> dict[str, tuple[int, int] | None]:
    """The files that the program is to leave alone: of each which one it is, and when it was written last."""
    states = {path: state_of(os.path.join(top, path)) for path in values(row, "keeps")}
    return {path: state and (state.st_ino, state.st_mtime_ns) for path, state in states.items()}


def faults_of(row: Row, top: str) -> list[str]:
    """What is wrong with what the program does in a row."""
    prepare(row, top)
    kept = kept_files(row, top)
    status, output, errors = run(row, top)
    faults = [] if status == int(value(row, "status")) else [f"status {status}"]
    found = kept_files(row, top)
    faults += [f"{path} is not the same" for path, file in found.items() if file is None or file != kept[path]]
    return [*faults, *faults_of_output(row, output), *faults_of_errors(row, errors), *faults_of_files(row, top)]


def main() -> int:
    need_program()
    os.umask(UMASK)
    rows = read_rows(ROWS)
    wrong = 0
    with tempfile.TemporaryDirectory() as top:
        for number, row in rows:
            faults = faults_of(row, top)
            wrong += bool(faults)
            for fault in faults:
                print(f"program.txt:{number}: {fault}")
    print(f"{len(rows) - wrong} passed, {wrong} failed")
    return 1 if wrong else 0


if __name__ == "__main__":
    sys.exit(main())
