"""What a run of a program takes: processor time, memory, and instructions."""

from __future__ import annotations

import os
import re
import resource
import shutil
import subprocess
import sys
from collections.abc import Callable, Collection, Mapping, Sequence
from typing import IO, TypeVar, Union

Words = Sequence[str]
Stream = Union[int, IO[bytes], None]
Result = TypeVar("Result")

CALLGRIND = ("valgrind", "--tool=callgrind", "--callgrind-out-file=/dev/null")


def usage_of(
    words: Words,
    source: Stream = subprocess.DEVNULL,
    output: Stream = subprocess.DEVNULL,
    errors: Stream = None,
    settings: Mapping[str, str] | None = None,
) -> tuple[int, resource.struct_rusage]:
    """The status of a run, and what it used, in an environment with more settings."""
    environment = {**os.environ, **(settings or {})}
    process = subprocess.Popen(words, stdin=source, stdout=output, stderr=errors, env=environment)
    _, status, usage = os.wait4(process.pid, 0)
    process.returncode = os.waitstatus_to_exitcode(status)
    return process.returncode, usage


def seconds_in(usage: resource.struct_rusage) -> float:
    """The processor time of a run, for the process and for the system."""
    return usage.ru_utime + usage.ru_stime


def processor_seconds(words: Words, source: str = os.devnull, statuses: Collection[int] = (0,)) -> float:
    """The processor time of a run that reads a file, and ends with one of these statuses."""
    with open(source, "rb") as text:
        status, usage = usage_of(words, text)
    if status not in statuses:
        sys.exit(f"`{' '.join(words)}`, which reads {source}, ended with {status}")
    return seconds_in(usage)


def greatest_memory(words: Words, source: str = os.devnull) -> int:
    """The greatest memory of a run in bytes, as `time` reports it."""
    timed = ["/usr/bin/time", "-f", "%M", *words]
    with open(source, "rb") as text:
        done = subprocess.run(
            timed, stdin=text, stdout=subprocess.DEVNULL, stderr=subprocess.PIPE, text=True, check=False
        )
    return int(done.stderr.split()[-1]) * 1024


def instructions_in(errors: bytes) -> int:
    """How many instructions callgrind says that it counted."""
    found = re.search(rb"Collected : (\d+)", errors)
    if found is None:
        sys.exit(f"valgrind has counted nothing: {errors[-200:]!r}")
    return int(found[1])


def instructions_of(words: Words, source: str = os.devnull) -> int:
    """How many instructions a run takes that reads a file, as callgrind counts them."""
    with open(source, "rb") as text:
        done = subprocess.run([*CALLGRIND, *words], stdin=text, capture_output=True, check=True)
    return instructions_in(done.stderr)


def syncs_of(words: Words, top: str, run: Callable[[Words], object]) -> int | None:
    """How many syncs a program makes, or none where strace is not installed. `run` runs the words that it is given."""
    if shutil.which("strace") is None:
        return None
    log = os.path.join(top, "syncs")
    run(["strace", "-f", "-e", "trace=fsync,fdatasync", "-o", log, *words])
    with open(log, encoding="utf-8") as calls:
        return sum("sync(" in line for line in calls)


def by_turns(ways: Mapping[str, Callable[[], Result]], turns: int) -> dict[str, list[Result]]:
    """What each way returns, in so many turns. Every other turn takes the ways from the last to the first, since a
    machine or a disk that others use is slower for a while and faster again."""
    results: dict[str, list[Result]] = {name: [] for name in ways}
    for turn in range(turns):
        for name in ways if turn % 2 == 0 else reversed(list(ways)):
            results[name].append(ways[name]())
    return results
