"""The other side of a session: a program, or a server on a socket. Only a session's own threads call what is here."""

from __future__ import annotations

import _thread
import io
import os
import select
import socket
import time
from typing import List, NamedTuple, Optional, Sequence, Set, Tuple, Union

from .children import Child, await_event
from .faults import AnswerCut, ConfstoreError, Disconnected, end_of, program_fault

# How many bytes are read at once, and how many of standard error are kept.
PART = 65_536
ERRORS_KEPT = 8_192
# What is kept of its beginning, which names the fault: a line behind it may be as long as the words.
ERRORS_BEGUN = 1_024

# How many seconds a program may take to be gone after it closed its output.
GOING = 5.0

# How long in seconds what was written to standard error is waited for at once.
LOOK = 0.02

# The sides that are open in this process. A forked process closes its copies, so that it does not hold the session.
# The lock is held while a side is made or closed, so that no fork comes between that and its place here.
_sides: Set["Other"] = set()
_making = _thread.allocate_lock()


class _WithoutForks:
    """Keeps forks away while a side is made or closed."""

    def __enter__(self) -> None:
        _making.acquire()

    def __exit__(self, *_: object) -> None:
        try:
            _making.release()
        except RuntimeError:
            pass  # a fork, whose wait for the lock was interrupted, has released it


class Gone(NamedTuple):
    """A process that is over. It stands for the one that `subprocess` made, which runs bytecode when it is collected:
    an exception of a signal handler would be lost there."""

    pid: int
    status: Optional[int]


class Program:
    """A program that is a session over its standard streams."""

    process: "Child | Gone"

    def __init__(self, words: Sequence[str]) -> None:
        self._folder = words[-1]
        with _WithoutForks():
            self._start(words)
            _sides.add(self)
        self._commands.setblocking(False)
        os.set_blocking(self.answers, False)
        os.set_blocking(self.errors, False)

    def _start(self, words: Sequence[str]) -> None:
        """Starts the program. Its commands go through a socket: one end can be shut, whoever has copies of it."""
        try:
            self._commands, theirs = socket.socketpair()
        except OSError as error:
            raise program_fault(error, words[0]) from None
        try:
            self.process, *self._streams = started(words, theirs.fileno())
        except BaseException:
            self._commands.close()
            raise
        finally:
            theirs.close()
        self.answers, self.errors = (stream.fileno() for stream in self._streams)

    def send(self, part: Union[bytes, bytearray]) -> int:
        """Sends what is taken at once, and returns how much that is."""
        return self._commands.send(part, socket.MSG_NOSIGNAL)

    def await_room(self, seconds: float) -> None:
        """Waits until something can be sent, at most so long."""
        await_event(self._commands.fileno(), select.POLLOUT, seconds)

    def no_more(self) -> None:
        """Tells the session that no more commands come."""
        shut(self._commands, socket.SHUT_WR)

    def kill(self) -> None:
        process = self.process
        if not isinstance(process, Gone):
            process.kill()

    def end(self, errors: bytearray, cut: bool) -> ConfstoreError:
        """Why the program, which has closed its output, is over. `errors` is what was read of standard error."""
        assert not isinstance(self.process, Gone)
        status = finished(self.process, self.errors, errors)
        return end_of(status, bytes(errors), cut, self._folder)

    def close(self) -> None:
        with _WithoutForks():
            _sides.discard(self)
            self._commands.close()
            for stream in self._streams:
                stream.close()
        if not isinstance(self.process, Gone):
            self.process.close()
            self.process = Gone(self.process.pid, self.process.status)

    def let_go(self) -> None:
        """Closes a forked process's copies."""
        if not isinstance(self.process, Gone):
            self.process.returncode = 0  # it is no child of this process, which is not to ask for it
        self.close()


class Server:
    """A connection to a server of a session, on a Unix socket."""

    errors: Optional[int] = None

    def __init__(self, path: str, timeout: float) -> None:
        with _WithoutForks():
            try:
                self._connection = socket.socket(socket.AF_UNIX)
            except OSError as error:
                raise Disconnected(f"no socket for {path}: {error.strerror}") from None
            _sides.add(self)
        try:
            self._connection.settimeout(timeout)
            self._connection.connect(path)
        except (OSError, ValueError) as error:
            self.close()
            about = getattr(error, "strerror", None) or error
            raise Disconnected(f"no server takes clients at {path}: {about}") from None
        self._connection.setblocking(False)
        self.answers = self._connection.fileno()

    def send(self, part: Union[bytes, bytearray]) -> int:
        """Sends what is taken at once, and returns how much that is."""
        return self._connection.send(part, socket.MSG_NOSIGNAL)

    def await_room(self, seconds: float) -> None:
        """Waits until something can be sent, at most so long."""
        await_event(self._connection.fileno(), select.POLLOUT, seconds)

    def no_more(self) -> None:
        """Tells the server that no more commands come."""
        shut(self._connection, socket.SHUT_WR)

    def kill(self) -> None:
        shut(self._connection, socket.SHUT_RDWR)

    def end(self, _errors: bytearray, cut: bool) -> ConfstoreError:
        self.kill()
        about = "the server closed the connection"
        return AnswerCut(f"{about} in the middle of an answer") if cut else Disconnected(about)

    def close(self) -> None:
        with _WithoutForks():
            _sides.discard(self)
            self._connection.close()

    def let_go(self) -> None:
        """Closes a forked process's copy."""
        self.close()


Other = Union[Program, Server]


def started(words: Sequence[str], source: int) -> Tuple[Child, io.FileIO, io.FileIO]:
    """Starts a program with such a standard input, and returns it with the ends of its output and its errors."""
    ends: List[int] = []
    try:
        ends += os.pipe()
        ends += os.pipe()
        process = Child(words, source, ends[1], ends[3])
    except BaseException as error:
        for end in ends:
            os.close(end)
        if isinstance(error, OSError):
            raise program_fault(error, words[0]) from None
        raise
    os.close(ends[1])
    os.close(ends[3])
    return process, io.FileIO(ends[0]), io.FileIO(ends[2])


def shut(connection: socket.socket, how: int) -> None:
    try:
        connection.shutdown(how)
    except OSError:
        pass


def take(source: int) -> Optional[bytes]:
    """What is there to read: nothing at the end, and None if nothing is there yet."""
    try:
        return os.read(source, PART)
    except BlockingIOError:
        return None
    except OSError:
        return b""


def take_errors(source: int, errors: bytearray) -> bool:
    """Takes what is on standard error, and keeps its beginning and its end. Whether there may be more."""
    part = take(source)
    errors += part or b""
    del errors[ERRORS_BEGUN:-ERRORS_KEPT]
    return part != b""


def finished(process: Child, source: int, errors: bytearray, seconds: float = GOING) -> Optional[int]:
    """The status of a program that has closed its output, and is killed if it stays longer than so many seconds; None
    if it isn't known. What the program writes to standard error until then is read."""
    deadline = time.monotonic() + seconds
    is_open = True
    while is_open and not process.is_over() and time.monotonic() < deadline:
        if await_event(source, select.POLLIN, LOOK):
            is_open = take_errors(source, errors)
    if not process.ends_within(deadline - time.monotonic()):
        process.kill()
        process.ends_within()
    for _ in range(PART // ERRORS_KEPT):  # what is in the pipe
        if not is_open or not await_event(source, select.POLLIN, 0):
            break
        is_open = take_errors(source, errors)
    return process.status


def let_go() -> None:
    """Closes what this process, which was forked, has of the sessions of another."""
    _making.release()
    for side in list(_sides):
        side.let_go()


os.register_at_fork(before=_making.acquire, after_in_parent=_making.release, after_in_child=let_go)
