"""Ways in which a system call goes wrong, by a library under a program (shims/fail_calls.c), and the calls of a run."""

from __future__ import annotations

import errno
import os
from collections import Counter
from collections.abc import Callable, Iterable
from concurrent.futures import ThreadPoolExecutor
from dataclasses import dataclass
from typing import TypeVar

from .store_runs import Failures, read_file

# The status of a process that the library ended.
ENDED = 99


class Kind:
    """A way in which a call goes wrong: what of it is done, what it returns, and the error's number. With `later`,
    all later calls fail."""

    def __init__(self, done: str, answer: str, error: int = 0, later: bool = False) -> None:
        self.done = done
        self.answer = answer
        self.error = error
        self.later = later

    def __str__(self) -> str:
        error = f" {errno.errorcode[self.error]}" if self.error else ""
        return f"{self.done} done, {self.answer}{error}{', then every call fails' if self.later else ''}"

    def environment(self, call: int) -> dict[str, str]:
        names = {"FAULT_CALL": str(call), "FAULT_DONE": self.done, "FAULT_ANSWER": self.answer}
        names["FAULT_ERROR"] = str(self.error)
        return {**names, **({"FAULT_LATER": "1"} if self.later else {})}


ANY_CALL = [
    Kind("none", "error", errno.EIO),
    Kind("none", "error", errno.EIO, later=True),
    Kind("whole", "error", errno.EIO),
    Kind("none", "exit"),
    Kind("whole", "exit"),
]
INTERRUPTED = Kind("none", "error", errno.EINTR)
HALF = Kind("half", "count")
OF_WRITES = [
    Kind("none", "error", errno.ENOSPC),
    Kind("half", "error", errno.ENOSPC),
    Kind("half", "count", errno.ENOSPC, later=True),
    Kind("none", "zero"),
    Kind("half", "exit"),
    HALF,
    INTERRUPTED,
]
OF_CALLS = {
    "write": ANY_CALL + OF_WRITES,
    "read": ANY_CALL + [HALF, INTERRUPTED],
    "flock": ANY_CALL + [Kind("none", "error", errno.EWOULDBLOCK)],
    "fsync": ANY_CALL + [INTERRUPTED],
    "open": ANY_CALL + [INTERRUPTED],
    "create": ANY_CALL + [INTERRUPTED],
}


@dataclass(frozen=True)
class Call:
    """A call of a run without faults: its number from 1, its name, the file that it is made on, and how many bytes it
    moves."""

    number: int
    name: str
    file: str
    size: int

    def __str__(self) -> str:
        return f"call {self.number}, {self.name} {self.file}"

    def kinds(self) -> list[Kind]:
        """The faults of this call. One byte has no half. A handle that is not closed shows nothing before the next
        call."""
        return [
            kind for kind in OF_CALLS.get(self.name, ANY_CALL)
            if not (kind.done == "half" and self.size == 1) and not (kind.later and self.name == "close")
        ]  # fmt: skip


def calls_in(log: str) -> list[Call]:
    """The calls that the library wrote to a file."""
    lines = [line.split(" ") for line in read_file(log).decode().splitlines()]
    return [Call(number, name, file, int(size)) for number, (name, file, size) in enumerate(lines, 1)]


OneCall = TypeVar("OneCall", bound=Call)


def try_faults(
    calls: Iterable[OneCall], attempt: Callable[[OneCall, Kind], tuple[Failures, str]], failures: Failures
) -> Counter[str]:
    """Makes a run for each kind of fault at each of the calls, on all processors. An attempt says what is wrong with
    its run and how that ended. Returns how many ended how."""
    endings: Counter[str] = Counter()
    pairs = [(call, kind) for call in calls for kind in call.kinds()]
    with ThreadPoolExecutor(os.cpu_count()) as workers:
        for found, ending in workers.map(lambda pair: attempt(*pair), pairs):
            failures.take(found)
            endings[ending] += 1
    return endings


def counted(endings: Counter[str]) -> str:
    """How many runs there were, and how many of them ended how."""
    return f"{sum(endings.values())} faults: " + ", ".join(f"{count} {end}" for end, count in sorted(endings.items()))
