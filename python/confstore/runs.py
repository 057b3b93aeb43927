"""Runs of the program that print and end, each in a thread of its own: whatever exception a signal handler raises in
the call that waits for one, nothing of the run is left half done."""

from __future__ import annotations

import _thread
import errno
import io
import os
import select
import subprocess
import tempfile
import threading
import time
from typing import Optional, Sequence, Tuple

from .children import Child
from .faults import AnswerLong, ConfstoreError, NotStarted, TimedOut, Unknown
from .other import finished, started, take, take_errors

# How often in seconds it is looked whether anybody still waits for a run.
LOOK = 0.1


class Run:
    """A run of the program. `status`, `output` and the end of `errors` are there once it is done. The status is None if
    it isn't known."""

    def __init__(self, words: Sequence[str], timeout: float, longest: int, given: bytes = b"") -> None:
        self.status: Optional[int] = None
        self.output = bytearray()
        self.errors = bytearray()
        self._words, self._longest, self._given = words, longest, given
        self._timeout, self._deadline = timeout, time.monotonic() + timeout
        self._fault: Optional[ConfstoreError] = None
        self._is_left = False
        self._done = _thread.allocate_lock()
        self._done.acquire()

    def wait(self) -> None:
        """Runs the program to its end. Raises `TimedOut`, `AnswerLong`, or why it can't be run. Where this raises
        anything, the program is killed."""
        try:
            _thread.start_new_thread(self._run, ())
            left = min(max(self._deadline - time.monotonic(), 0), threading.TIMEOUT_MAX)
            if not self._done.acquire(timeout=left):
                raise self._late()
        except RuntimeError as error:
            raise NotStarted(errno.EAGAIN, f"no thread for a run: {error}") from None
        finally:
            self._is_left = True
        if self._fault is not None:
            raise self._fault

    def _late(self) -> TimedOut:
        return TimedOut(f"the program took more than {self._timeout} seconds", False)

    def _run(self) -> None:
        try:
            self._perform()
        except ConfstoreError as fault:
            self._fault = fault.with_traceback(None)
        except BaseException as fault:
            self._fault = Unknown(f"the run was given up half way: {type(fault).__name__}: {fault}")
        finally:
            self._done.release()

    def _started(self) -> Tuple[Child, io.FileIO, io.FileIO]:
        """Starts the program with what it is given on standard input."""
        if not self._given:
            return started(self._words, subprocess.DEVNULL)
        with tempfile.TemporaryFile() as source:
            source.write(self._given)
            source.seek(0)
            return started(self._words, source.fileno())

    def _perform(self) -> None:
        process, output, errors = self._started()
        with output, errors:
            os.set_blocking(errors.fileno(), False)
            os.set_blocking(output.fileno(), False)
            try:
                self._hear(output.fileno(), errors.fileno())
            except BaseException:
                process.kill()
                raise
            finally:
                self.status = finished(process, errors.fileno(), self.errors)

    def _hear(self, output: int, errors: int) -> None:
        """Takes what is printed, until the output ends."""
        poll = select.poll()
        poll.register(output, select.POLLIN)
        poll.register(errors, select.POLLIN)
        while True:
            left = self._deadline - time.monotonic()
            if left <= 0 or self._is_left:
                raise self._late()
            for end, _ in poll.poll(min(left, LOOK) * 1000):
                if end == errors:
                    if not take_errors(end, self.errors):
                        poll.unregister(end)
                    continue
                part = take(end)
                if part == b"":
                    return
                self.output += part or b""
                if len(self.output) > self._longest:
                    self.output.clear()
                    raise AnswerLong(f"the program printed more than {self._longest} bytes")
