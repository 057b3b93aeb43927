"""Stores that are measured: folders for them, commands, and sessions that perform these."""

from __future__ import annotations

import os
import resource
import shutil
import subprocess
import sys
import tempfile

from lib.programs import PROGRAM
from lib.runs import CALLGRIND, instructions_in, usage_of

FIRST = b'import: app\ntext: "n: v0\\n"\n...\n'
CHECKPOINT = b"---\ncheckpoint:\n...\n"


def fresh(top: str, name: str) -> str:
    """An empty folder of this name."""
    folder = os.path.join(top, name)
    shutil.rmtree(folder, ignore_errors=True)
    os.mkdir(folder)
    return folder


def perform(folder: str, commands: bytes, *options: str) -> None:
    """A session that performs commands, none of which may be refused, and is not measured."""
    words = [PROGRAM, "run", *options, folder]
    expect_no_refusal(subprocess.run(words, input=commands, stdout=subprocess.PIPE, check=True).stdout)


def store_in(top: str, name: str) -> str:
    """A new store with the configuration that `command` edits."""
    folder = fresh(top, name)
    perform(folder, FIRST)
    return folder


def command(number: int) -> bytes:
    """A command that sets the one value of a store of `store_in`."""
    return f"set: app\npath: /n\nvalue: v{number:09}\n...\n".encode()


def record_bytes(number: int) -> bytes:
    """What the stub appends: as many bytes as the record of that command has."""
    return f'---\nat: "{number}"\nset: app\npath: /n\nvalue: v{number:09}\n...\n'.encode()


def session_usage(folder: str, commands: bytes, *options: str) -> resource.struct_rusage:
    """What a session used that performs commands from a file, none of which may be refused."""
    with tempfile.TemporaryFile() as given, tempfile.TemporaryFile() as answers:
        given.write(commands)
        given.seek(0)
        status, usage = usage_of([PROGRAM, "run", *options, folder], given, answers)
        answers.seek(0)
        said = answers.read()
    if status != 0:
        sys.exit(f"a session ended with {status}: {said[:200]!r}")
    expect_no_refusal(said)
    return usage


def session_instructions(folder: str, commands: bytes, *options: str) -> int:
    """How many instructions a session takes that performs commands, none of which may be refused."""
    words = [*CALLGRIND, PROGRAM, "run", *options, folder]
    done = subprocess.run(words, input=commands, capture_output=True, check=True)
    expect_no_refusal(done.stdout)
    return instructions_in(done.stderr)


def expect_no_refusal(answers: bytes) -> None:
    """Ends the script where a session has refused a command."""
    if b"refused" in answers:
        sys.exit(f"a command was refused: {answers[:200]!r}")
