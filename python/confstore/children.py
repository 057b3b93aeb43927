"""A program that was started, and how it ended.

`subprocess` says 0 of a child whose status it doesn't get: where the process ignores SIGCHLD, as one that a daemon
started may, and where another part of it waits for all children. Here the status of such a child is None. Where SIGCHLD
is ignored a shell stands between: it gets the status, and says it through a pipe.
"""

from __future__ import annotations

import io
import math
import os
import select
import signal
import subprocess
import threading
import time
from typing import Any, Dict, Optional, Sequence

# The shell, and what it does: it says the status if it gets any. Its first argument is the number of the pipe.
SHELL = "/bin/sh"
_SCRIPT = '(exit 7); [ $? = 7 ] || exit; "$@"; echo $? >"/dev/fd/$0"'
_LONGEST_SAID = 16

# What a shell adds to the number of the signal that ended a program.
BY_SIGNAL = 128

# How many seconds lie between two looks whether a program is over, at first and at most.
SOON, LATER = 0.0005, 0.02

# How many seconds a shell may take to be gone after it has said the status.
GOING = 1.0


def await_event(end: int, event: int, seconds: float) -> bool:
    """Whether an event is there within so many seconds."""
    poll = select.poll()
    poll.register(end, event)
    return bool(poll.poll(max(seconds, 0) * 1000))


class Child(subprocess.Popen[bytes]):
    """A program that runs in a session of its own. Any thread may look at it, and kill it."""

    def __init__(self, words: Sequence[str], source: int, output: int, errors: int) -> None:
        #: How it ended, once it is over: its status, or the negative number of a signal, or None if that isn't known.
        self.status: Optional[int] = None
        self._is_over = self._was_killed = False
        self._looking = threading.Lock()
        self._told: Optional[io.FileIO] = None
        how: Dict[str, Any] = {
            "stdin": source, "stdout": output, "stderr": errors, "start_new_session": True, "restore_signals": False,
        }  # fmt: skip
        if signal.getsignal(signal.SIGCHLD) is signal.SIG_IGN and os.access(SHELL, os.X_OK):
            self._start_by_shell(words, how)
        else:
            super().__init__(list(words), **how)

    def _start_by_shell(self, words: Sequence[str], how: Dict[str, Any]) -> None:
        told, says = os.pipe()
        self._told = io.FileIO(told)
        try:
            super().__init__([SHELL, "-c", _SCRIPT, str(says), *words], pass_fds=(says,), **how)
        except BaseException:
            self._told.close()
            raise
        finally:
            os.close(says)

    def is_over(self) -> bool:
        """Whether it is over. Then its status is there."""
        with self._looking:
            if not self._is_over:
                self._look()
            return self._is_over

    def _look(self) -> None:
        if self._told is not None:
            if await_event(self._told.fileno(), select.POLLIN, 0):
                self._end_as(self._said())
            return
        try:
            ended = os.waitid(os.P_PID, self.pid, os.WEXITED | os.WNOHANG | os.WNOWAIT)
        except ChildProcessError:
            self._end_as(None)
            return
        if ended is not None:
            self._end_as(ended.si_status if ended.si_code == os.CLD_EXITED else -ended.si_status)

    def _said(self) -> Optional[int]:
        """The status that the shell said, if it said one before it was gone."""
        assert self._told is not None
        said = self._told.read(_LONGEST_SAID) or b""
        if not said.strip().isdigit():
            return -signal.SIGKILL if self._was_killed else None
        status = int(said)
        return status if status <= BY_SIGNAL else BY_SIGNAL - status

    def _end_as(self, status: Optional[int]) -> None:
        self.status, self._is_over = status, True
        try:
            self.wait(GOING)  # so that nothing is left of it; what this returns may be wrong
        except subprocess.TimeoutExpired:
            pass
        self.close()

    def ends_within(self, seconds: float = math.inf) -> bool:
        """Whether it is over after so many seconds at most."""
        deadline, pause = time.monotonic() + seconds, SOON
        while not self.is_over():
            left = deadline - time.monotonic()
            if left <= 0:
                return False
            time.sleep(min(pause, left))
            pause = min(2 * pause, LATER)
        return True

    def kill(self) -> None:
        """Kills it, with a shell that stands between."""
        if self.is_over():
            return
        self._was_killed = True
        try:
            os.killpg(self.pid, signal.SIGKILL)
        except ProcessLookupError:
            pass  # it ended meanwhile

    def close(self) -> None:
        """Closes what this process has of it."""
        if self._told is not None:
            self._told.close()
