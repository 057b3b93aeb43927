"""What confstorectl has the program confstore do."""

from __future__ import annotations

import os
import signal

import confstore  # which imports an exception once it is asked for, as where one is raised

from .ctl_faults import Fault, TextFault, fault_of, hint_of, shown
from .places import find_program

TYPE_CHECKING = False
if TYPE_CHECKING:
    from collections.abc import Sequence
    from typing import Any

# What the program's lines begin with, and those of confstorectl.
THEIRS, OURS = "confstore: ", "confstorectl: "

# What the lines on a text of standard input begin with.
INPUT = "-:"

# The signals that Python ignores, and that the program is to know of.
RESTORED = (signal.SIGPIPE, signal.SIGXFSZ)

# The signals that are meant for a program which reads what this process would.
PASSED_ON = (signal.SIGTERM, signal.SIGHUP)

PART = 65_536


def program() -> str:
    """The path of the program. Raises a `Fault` where there is none."""
    try:
        return find_program(None)
    except confstore.ConfstoreError as error:
        raise fault_of(error) from None


def program_if_any() -> str | None:
    try:
        return find_program(None)
    except confstore.MissingProgram:
        return None


class Source:
    """Where a text comes from: what the lines on it name it by, and whether they are to explain why it is refused."""

    def __init__(self, name: str = "-", is_explained: bool = False) -> None:
        self.name, self.is_explained = name, is_explained

    def named(self, name: str) -> Source:
        """This by another name."""
        return Source(name, self.is_explained)


class Ended:
    """A run of the program that has ended: its status, what it wrote, and its lines on standard error."""

    def __init__(self, status: int, output: bytes, errors: bytes) -> None:
        self.status, self.output, self.errors = status, output, errors

    @property
    def was_locked(self) -> bool:
        return self.has_fault("Locked")

    def has_fault(self, name: str) -> bool:
        """Whether it ended with the fault of a name."""
        return self.status != 0 and f"{THEIRS}{name}".encode() in self.errors.split(b"\n")

    @property
    def complaint(self) -> str:
        """What it said of its words, on one line."""
        first = self.errors.decode("utf-8", "replace").partition("\n\n")[0]
        return shown(" ".join(first.split())).removeprefix("error: ")

    @property
    def how(self) -> str:
        """How it has ended."""
        return f"ended with status {self.status}" if self.status >= 0 else f"was ended by signal {-self.status}"

    def fault(self) -> Fault:
        """Why it did not do its word. One that a signal ended does not say."""
        return Fault("BadAnswer", f"the program {self.how}") if self.status < 0 else TextFault(self.lines(), self.status)

    def lines(self, source: Source = Source()) -> str:
        """Its lines on standard error, as confstorectl says them where this text was on standard input."""
        lines = self.errors.decode("utf-8", "replace").removesuffix("\n").split("\n") if self.errors else []
        return "".join(_told(line, following, source) for line, following in zip(lines, [*lines[1:], ""]))


def _told(line: str, following: str, source: Source) -> str:
    if line.startswith(INPUT):
        return f"{shown(source.name)}:{line[len(INPUT) :]}\n"
    if not line.startswith(THEIRS):
        return f"{line}\n"
    name = line[len(THEIRS) :]
    hint = hint_of(name)
    # The line that follows may say the same.
    return f"{OURS}{name}: {hint}\n" if hint not in ("", following) else f"{OURS}{name}\n"


def _not_started(error: OSError) -> Fault:
    return Fault("NotStarted", f"the program can't be run: {error.strerror}")


def run(words: Sequence[str], given: bytes | None) -> Ended:
    """Runs the program to its end, with these bytes on standard input, and keeps what it writes."""
    return _communicated(words, given, is_kept=True)


def run_shown(words: Sequence[str], given: bytes | None, *, is_fed: bool) -> Ended:
    """The same, but what it writes goes to the standard output of this process at once. One that is fed reads standard
    input itself."""
    if given is not None:
        return _communicated(words, given, is_kept=False)
    return _spawned([program(), *words], is_fed=is_fed)


def _communicated(words: Sequence[str], given: bytes | None, *, is_kept: bool) -> Ended:
    import subprocess  # only where there is more than one stream to look after

    source = subprocess.PIPE if given is not None else subprocess.DEVNULL
    output = subprocess.PIPE if is_kept else None
    try:
        process = subprocess.Popen([program(), *words], stdin=source, stdout=output, stderr=subprocess.PIPE)
    except OSError as error:
        raise _not_started(error) from None
    with process:
        written, errors = process.communicate(given)
    return Ended(process.returncode, written or b"", errors)


def _spawned(words: list[str], *, is_fed: bool) -> Ended:
    """A program that wrote to the output of this process, and that read its input if it is fed, or nothing."""
    told, tells = os.pipe()
    quiet = [] if is_fed else [(os.POSIX_SPAWN_OPEN, 0, os.devnull, os.O_RDONLY, 0)]
    actions = [*quiet, (os.POSIX_SPAWN_DUP2, tells, 2)]
    try:
        child = os.posix_spawn(words[0], words, os.environ, file_actions=actions, setsigdef=RESTORED)
    except OSError as error:
        os.close(told)
        raise _not_started(error) from None
    finally:
        os.close(tells)
    kept = _pass_on(child) if is_fed else {}
    try:
        errors = b"".join(iter(lambda: os.read(told, PART), b""))
        return Ended(os.waitstatus_to_exitcode(os.waitpid(child, 0)[1]), b"", errors)
    except ChildProcessError:
        raise Fault("Unknown", "somebody else waits for the programs of this process") from None
    finally:
        os.close(told)
        for number, handler in kept.items():
            signal.signal(number, handler)


def _pass_on(child: int) -> dict[int, Any]:
    """Has signals that would end this process sent to the program, which may hold a store. What handled them before."""
    handlers = {number: signal.getsignal(number) for number in PASSED_ON}
    kept: dict[int, Any] = {number: old for number, old in handlers.items() if old is not signal.SIG_IGN}
    for number in kept:
        signal.signal(number, lambda number, _: os.kill(child, number))
    return kept


def styled(text: bytes, source: Source) -> bytes:
    """A YAML text in the one style. Raises the `Fault` of one that is refused."""
    ended = run(["format", *(["--explain"] if source.is_explained else []), "-"], text)
    if ended.status == 0:
        return ended.output
    lines = ended.lines(source)
    if not lines:
        raise Fault("BadAnswer", f"the program ended with status {ended.status}, and did not say why")
    raise TextFault(lines, ended.status)


def is_without_store(folder: str) -> bool:
    """Whether there is a folder, and no store in it."""
    return os.path.isdir(folder) and not os.path.lexists(os.path.join(folder, "store.yaml"))
