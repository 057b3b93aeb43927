"""The commands that confstorectl runs for its user: for changes that are watched, and for a file that was rendered."""

from __future__ import annotations

import os
import shlex
import subprocess
import time
from typing import Dict, List, Optional, Sequence, Tuple

from .ctl_asked import Asked
from .ctl_faults import Fault, shown
from .ctl_outputs import json_shown
from .ctl_streams import write_error
from .ctl_words import SETTLE, YAML_RECORDS
from .following import Event, Told
from .hidden import Hidden
from .pointers import steps_of
from .records import Record

# How many bytes of changes the environment of a command has at most. Its standard input has all of them.
MOST_IN_ENVIRONMENT = 100_000


def run_command(command: Sequence[str], given: Optional[bytes], more: Dict[str, str]) -> int:
    """Runs a command to its end, with these bytes on standard input and this environment more. Its status. Raises a
    `Fault` where it can't be started."""
    try:
        return subprocess.run(command, input=given, env={**os.environ, **more}, check=False).returncode
    except OSError as error:
        raise Fault("NotStarted", f"{shown(shlex.join(command))} can't be run: {error.strerror}") from None


def failure_of(command: Sequence[str], status: int) -> Fault:
    """The fault of a command that has ended with another status than 0."""
    how = f"with status {status}" if status > 0 else f"by signal {-status}"
    return Fault("CommandFailed", f"{shown(shlex.join(command))} ended {how}")


def line_with_values(record: Record, hidden: Hidden = [], shown_keys: Optional[Tuple[str, ...]] = None) -> str:
    """The line of a change with the value of each import and set, as of `confstore log --values`: without what is
    hidden, and with these keys of its about in place of `by`, `when` and `why`."""
    done = "; ".join(
        edit.line if edit.tree is None else f"{edit.line} {json_shown(steps_of(edit.path), edit.tree, hidden)}"
        for edit in record.edits
    )
    return record.line_of(done, shown_keys)


def _last_of(event: Event) -> int:
    return event.number if isinstance(event, Record) else event.last


def _names_of(event: Event) -> List[str]:
    return [edit.name for edit in event.edits] if isinstance(event, Record) else []


class Runner:
    """Runs the command of a `watch` for each change, or once for those that come within some seconds."""

    def __init__(self, asked: Asked) -> None:
        self._asked = asked
        self._settle = float(asked.options.get(SETTLE.name, "0"))
        self._waiting: "List[tuple[Event, bytes]]" = []
        self._due = 0.0

    def take(self, told: "Sequence[tuple[Told, bytes]]") -> None:
        """Takes changes, each with what is written of it, and runs the command if it is time."""
        for one, text in told:
            if not self._waiting:
                self._due = time.monotonic() + self._settle
            self._waiting.append((one.event, text))
            if not self._settle:
                self.finish()
        if self._waiting and time.monotonic() >= self._due:
            self.finish()

    def within(self, seconds: float) -> float:
        """How long it may be until the next call, of so many seconds at most."""
        return min(seconds, max(self._due - time.monotonic(), 0.0)) if self._waiting else seconds

    def finish(self) -> None:
        """Runs the command for the changes that wait."""
        waiting, self._waiting = self._waiting, []
        if not waiting:
            return
        text = b"".join(text for _, text in waiting)
        status = run_command(self._asked.command, text, self._environment([event for event, _ in waiting], text))
        if status:
            numbers = f" for the changes up to {_last_of(waiting[-1][0])}"
            write_error(f"{failure_of(self._asked.command, status).line}{numbers}\n")

    def _environment(self, events: Sequence[Event], text: bytes) -> Dict[str, str]:
        name = self._asked.argument("NAME")
        names = [name] if name else list(dict.fromkeys(one for event in events for one in _names_of(event)))
        more = {
            "CONFSTORE_FOLDER": os.path.abspath(self._asked.folder),
            "CONFSTORE_NAME": " ".join(names),
            "CONFSTORE_NUMBER": str(_last_of(events[-1])),
            "CONFSTORE_CHANGES": "",
        }
        if len(text) <= MOST_IN_ENVIRONMENT and not self._asked.has(YAML_RECORDS):
            more["CONFSTORE_CHANGES"] = text.decode().removesuffix("\n")
        return more
