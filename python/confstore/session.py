"""A session of the program, or a connection to a server of one: documents go in, and an answer comes out for each.

Any number of threads may `ask` at once. A call puts one tuple into a queue, and waits for its own lock; it changes
nothing else that another thread looks at. So whatever exception a signal handler raises in it, and wherever, its
command is in the queue or it isn't, and no other call is touched. Two threads that Python never has handle a signal do
the rest: one opens the other side, sends what is in the queue and says when all is over, and one takes the answers and
hands each to the call that waits for it.

Commands that come while the session syncs are sent at once, so they share the next sync. No call here waits longer than
it was told to.
"""

from __future__ import annotations

import _thread
import copy
import errno
import functools
import os
import queue
import select
import threading
import time
import weakref
from collections import deque
from typing import TYPE_CHECKING, Callable, Deque, Dict, List, Optional, Sequence, Tuple, Union

from .faults import AnswerLong, BadAnswer, Closed, ConfstoreError, NotStarted, SessionEnded, TimedOut, TooLongToSend
from .faults import Unknown
from .other import GOING, PART, Other, Program, Server, take, take_errors
from .pieces import LONGEST_ANSWER, LONGEST_COMMAND, Cutter

if TYPE_CHECKING:
    import asyncio

__all__ = ["LONGEST_ANSWER", "LONGEST_COMMAND", "Cutter", "Session"]

# How many seconds a command that the other side does not take waits before it is looked whether the session is to end.
STUCK = 0.05

# What may be asked of a session's thread: to send commands, to answer at once, to end, to kill, and to tell that it is
# over. Each is put into the queue with slots.
SEND, LOOK, CLOSE, KILL, OVER = "send", "look", "close", "kill", "over"


class _Slot:
    """A command, and a place for its answer. `answer` is set before `tell`, unless the session ended."""

    __slots__ = ("document", "answer", "_claim", "_told")

    def __init__(self, document: bytes = b"") -> None:
        self.document = document
        self.answer: Optional[bytes] = None
        self._claim = _thread.allocate_lock()
        self._told = _thread.allocate_lock()
        self._told.acquire()

    def claim(self) -> bool:
        """Whether this call is the first one. The thread claims what it sends, and a caller what is not to be sent."""
        return self._claim.acquire(False)

    def withdraw(self) -> bool:
        """Whether the command isn't sent, and won't be."""
        if not self.claim():
            return False
        self.document = b""
        return True

    def tell(self) -> None:
        """Has the caller look. Whoever is told again has looked already, or will."""
        try:
            self._told.release()
        except RuntimeError:
            pass

    def wait(self, deadline: float) -> bool:
        """Whether this is told before the deadline. Only one thread waits, and only once."""
        left = min(max(deadline - time.monotonic(), 0), threading.TIMEOUT_MAX)
        return self._told.acquire(timeout=left)


class _AwaitedSlot(_Slot):
    """A slot whose caller awaits it in an event loop, and holds no thread meanwhile."""

    __slots__ = ("_loop", "woken")

    def __init__(self, document: bytes = b"") -> None:
        from asyncio import get_running_loop  # by those alone who have a loop: it takes long to import

        super().__init__(document)
        self._loop = get_running_loop()
        self.woken: "asyncio.Future[None]" = self._loop.create_future()

    def tell(self) -> None:
        try:
            self._loop.call_soon_threadsafe(self.wake)
        except RuntimeError:
            pass  # the loop is closed, so nobody waits

    def wake(self) -> None:
        if not self.woken.done():
            self.woken.set_result(None)

    async def wait_awake(self, seconds: float) -> None:
        """Waits until this is told, at most so long."""
        timer = self._loop.call_later(seconds, self.wake)
        try:
            await self.woken
        finally:
            timer.cancel()


class _Line:
    """What the handle of a session shares with its threads. The queue is all that others put into it."""

    def __init__(self, opening: Callable[[], Other]) -> None:
        self.opening = opening
        self.owner = os.getpid()
        self.queue: "queue.SimpleQueue[Tuple[str, Sequence[_Slot]]]" = queue.SimpleQueue()
        self.is_begun = False
        self.is_closed = False  # no more commands are taken
        self.fault: Optional[ConfstoreError] = None  # why it is to be killed
        self.end: Optional[ConfstoreError] = None  # why it is over; nobody takes from the queue then
        self.other: Optional[Other] = None
        self.handle: Optional["weakref.ref[Session]"] = None
        self.due: Deque[_Slot] = deque()  # of the commands that were sent, those that are not answered
        self.ending: List[_Slot] = []  # of those that wait for the end
        self.heard: ConfstoreError = Unknown("the session was given up")  # what its answers ended with
        self._begin = _thread.allocate_lock()

    def put(self, order: str, slots: Sequence[_Slot]) -> None:
        """Has the session's thread do something. Each call starts it until it has begun, since the one before may have
        been interrupted; a second one ends at once."""
        self.queue.put((order, slots))
        if not self.is_begun and self.end is None:
            try:
                _thread.start_new_thread(self.run, ())
            except RuntimeError as error:
                raise NotStarted(errno.EAGAIN, f"no thread for a session: {error}") from None

    def give_up(self, fault: BaseException) -> None:
        about = f"the session was given up half way: {type(fault).__name__}: {fault}"
        self.fault = self.fault or Unknown(about)

    # ---- the thread that sends

    def run(self) -> None:
        if not self._begin.acquire(False):
            return
        self.is_begun = True
        _lines.add(self)
        try:
            self.end_with(self._carry() if self._open() else self.heard)
        except BaseException as fault:
            self.give_up(fault)
            self.end_with(self.heard)

    def _open(self) -> bool:
        """Opens the other side, and starts the thread that listens."""
        try:
            if self.is_closed or self.fault is not None:
                raise Closed("this store is closed")
            self.other = self.opening()
            _thread.start_new_thread(self._listen, (self.other,))
            return True
        except ConfstoreError as fault:
            self.heard = fault.with_traceback(None)
        except BaseException as fault:
            self.give_up(fault)
            if self.other is not None:
                self.other.kill()
                self.other.end(bytearray(), False)
        return False

    def _carry(self) -> ConfstoreError:
        """Does what is asked, until the answers have ended. Returns why they have."""
        part = bytearray()
        while True:
            order, slots = self.queue.get()
            try:
                if order is OVER:
                    return self.heard
                if order is SEND:
                    self._claim(slots, part)
                    if self.queue.empty():
                        self._send(part)
                    continue
                self._send(part)
                self._turn(order, slots)
            except BaseException as fault:
                self.give_up(fault)
                self.ending += slots
            if self.fault is not None and self.other is not None:
                self.other.kill()

    def _claim(self, slots: Sequence[_Slot], part: bytearray) -> None:
        """Takes what is still to be sent, and sends it where it is much."""
        for slot in slots:
            if self.fault is not None:
                self.ending.append(slot)
            elif slot.claim():
                document, slot.document = slot.document, b""
                self.due.append(slot)
                part += document
                if len(part) >= PART:
                    self._send(part)

    def _send(self, part: bytearray) -> None:
        """Sends all of it, unless the session is to be killed or is over."""
        assert self.other is not None
        while part and self.fault is None:
            try:
                del part[: self.other.send(part)]
            except BlockingIOError:
                self.other.await_room(STUCK)
            except OSError:
                break  # the session ends, which is heard
        part.clear()

    def _turn(self, order: str, slots: Sequence[_Slot]) -> None:
        if order is LOOK:
            for slot in slots:
                slot.answer = b""
                slot.tell()
            return
        self.ending += slots
        if order is CLOSE and self.other is not None:
            self.other.no_more()

    def end_with(self, end: ConfstoreError) -> None:
        """Notes why the session is over, and tells all that wait."""
        if self.other is not None:
            self.other.close()
        _lines.discard(self)
        self.is_begun = True
        self.end = self.fault or end
        for slots in (self.due, self.ending):
            while slots:
                slots.pop().tell()
        try:
            while True:
                for slot in self.queue.get_nowait()[1]:
                    slot.tell()
        except queue.Empty:
            pass

    # ---- the thread that listens

    def _listen(self, other: Other) -> None:
        cutter, errors = Cutter(), bytearray()
        try:
            self._hear(other, cutter, errors)
        except ConfstoreError as fault:
            self.fault = self.fault or fault.with_traceback(None)
        except BaseException as fault:
            self.give_up(fault)
        try:
            if self.fault is not None:
                other.kill()
            self.heard = other.end(errors, bool(cutter.rest))
        finally:
            self.queue.put((OVER, ()))

    def _hear(self, other: Other, cutter: Cutter, errors: bytearray) -> None:
        """Hands out the answers until they end."""
        poll = select.poll()
        poll.register(other.answers, select.POLLIN)
        if other.errors is not None:
            poll.register(other.errors, select.POLLIN)
        while self.fault is None:
            for end, _ in poll.poll():
                if end == other.answers:
                    part = take(end)
                    if part == b"":
                        return
                    self._hand_out(cutter, part or b"")
                elif not take_errors(end, errors):
                    poll.unregister(end)

    def _hand_out(self, cutter: Cutter, part: bytes) -> None:
        for answer in cutter.cut(part):
            if len(answer) > LONGEST_ANSWER:
                raise AnswerLong(f"an answer of {len(answer)} bytes, more than {LONGEST_ANSWER}")
            if not self.due:
                raise BadAnswer("an answer came to no command")
            slot = self.due.popleft()
            slot.answer = answer
            slot.tell()
        if len(cutter.rest) >= LONGEST_ANSWER:
            raise AnswerLong(f"an answer of more than {LONGEST_ANSWER} bytes")


# The sessions that are open in this process.
_lines: "set[_Line]" = set()


def _end_all() -> None:
    """Ends the sessions of the process that this one was forked from, for this one."""
    for line in list(_lines):
        line.other = None  # it is closed already
        line.fault = None
        line.end_with(_forked())


def _forked() -> Closed:
    return Closed("this store was opened by another process")


def _timed_out(slot: _Slot, timeout: float) -> TimedOut:
    """The exception of a command that got no answer in time. It is taken back if it is not sent yet."""
    if slot.withdraw():
        return TimedOut("the session takes no commands", False)
    return TimedOut(f"no answer within {timeout} seconds", True)


os.register_at_fork(after_in_child=_end_all)


class Session:
    """A session, which answers the k-th document that it is sent by its k-th answer.

    It is opened by the first call. It ends by itself when nobody has it any more.
    """

    def __init__(self, opening: Callable[[], Other]) -> None:
        self._line = line = _Line(opening)
        self._next: Dict[str, Session] = {}
        # No bytecode runs when this is collected, so no exception of a handler can come between, or be lost there.
        line.handle = weakref.ref(self, functools.partial(line.queue.put, (CLOSE, ())))

    @classmethod
    def start(cls, words: Sequence[str]) -> "Session":
        """A session of a program over its standard streams.

        It has a process group of its own, so the keys of a terminal don't end it, and it ends by itself when this
        process does. It ignores SIGXFSZ as Python does: where a limit of file sizes is met it ends with `Device`.
        """
        return cls(functools.partial(Program, words))

    @classmethod
    def to_server(cls, path: str, timeout: float) -> "Session":
        """A session of a server on a Unix socket."""
        return cls(functools.partial(Server, path, timeout))

    @classmethod
    def connect(cls, path: str, timeout: float) -> "Session":
        """Connects to a server of a session on a Unix socket."""
        session = cls.to_server(path, timeout)
        session.open(timeout)
        return session

    @property
    def _other(self) -> Optional[Other]:
        return self._line.other

    @property
    def end(self) -> Optional[ConfstoreError]:
        """Why the session is over, or None while it goes on."""
        return self._line.end

    @property
    def goes_on(self) -> bool:
        """Whether it takes commands."""
        return self._line.end is None and not self._line.is_closed

    @property
    def is_forked(self) -> bool:
        """Whether it is another process's, from which this one was forked."""
        return os.getpid() != self._line.owner

    def latest(self) -> "Session":
        """This session, or the last one that followed it."""
        session = self
        while (following := session._next.get("")) is not None:
            session = following
        return session

    def followed_by(self, following: "Session") -> "Session":
        """The session that follows this one: the first that was given, whoever gave it."""
        return self._next.setdefault("", following)

    def open(self, timeout: float) -> None:
        """Waits until the other side is open. Raises why it isn't."""
        deadline, slot = time.monotonic() + timeout, _Slot()
        self._line.put(LOOK, (slot,))
        self._answer_in(slot, deadline, timeout)

    def ask(self, document: bytes, timeout: float) -> bytes:
        """The answer to a document, which ends in its closing line.

        Raises `TimedOut` after so many seconds, `TooLongToSend`, `Closed`, or what the session ended with.
        """
        (answer,) = self.ask_all((document,), timeout)
        if isinstance(answer, ConfstoreError):
            raise answer
        return answer

    def ask_all(self, documents: Sequence[bytes], timeout: float) -> List[Union[bytes, ConfstoreError]]:
        """The answers to documents that are sent in this order, before the first is answered.

        Where one got no answer, `TimedOut` or what the session ended with is in its place. Raises `TooLongToSend`,
        `Closed` or what the session ended with where nothing was sent.
        """
        deadline = time.monotonic() + timeout
        session = self.latest()
        slots = session._checked(documents)
        try:
            session._line.put(SEND, slots)
            return [session._answer_or_fault(slot, deadline, timeout) for slot in slots]
        except BaseException:
            for slot in slots:
                slot.withdraw()
            raise

    async def ask_awaited(self, document: bytes, timeout: float) -> bytes:
        """As `ask`, for a caller in an event loop. Where the call is cancelled, what is not sent yet is taken back."""
        session = self.latest()
        session._check((document,))
        slot = _AwaitedSlot(document)
        try:
            session._line.put(SEND, (slot,))
            if session._line.end is None:
                await slot.wait_awake(timeout)
        except BaseException:
            slot.withdraw()
            raise
        if slot.answer is None and session._line.end is None:
            raise _timed_out(slot, timeout)
        return session._answer_of(slot)

    def _checked(self, documents: Sequence[bytes]) -> Tuple[_Slot, ...]:
        """The slots of documents that may be sent."""
        self._check(documents)
        return tuple(map(_Slot, documents))

    def _check(self, documents: Sequence[bytes]) -> None:
        """Raises why documents may not be sent."""
        line = self._line
        for document in documents:
            if len(document) > LONGEST_COMMAND:
                raise TooLongToSend(f"a command of {len(document)} bytes, more than {LONGEST_COMMAND}")
        if self.is_forked:
            raise _forked()
        if line.is_closed:
            raise Closed("this store is closed")
        if line.end is not None:
            raise self._ended()

    def _answer_or_fault(self, slot: _Slot, deadline: float, timeout: float) -> Union[bytes, ConfstoreError]:
        try:
            return self._answer_in(slot, deadline, timeout)
        except ConfstoreError as fault:
            return fault

    def _answer_in(self, slot: _Slot, deadline: float, timeout: float) -> bytes:
        if self._line.end is None and not slot.wait(deadline):
            raise _timed_out(slot, timeout)
        return self._answer_of(slot)

    def _answer_of(self, slot: _Slot) -> bytes:
        if slot.answer is None:
            raise self._ended()
        return slot.answer

    def _ended(self) -> ConfstoreError:
        """The exception that the session ended with, anew for each call that raises it."""
        end = self._line.end
        assert end is not None
        again = copy.copy(end)
        again.__traceback__ = None
        return again

    def _await(self, order: str, timeout: float) -> bool:
        """Has the session end in a way. Whether it is over within so many seconds."""
        deadline, slot = time.monotonic() + timeout, _Slot()
        try:
            self._line.put(order, (slot,))
        except NotStarted:
            return False
        return self._line.end is not None or slot.wait(deadline)

    def distrust(self, fault: ConfstoreError) -> None:
        """Ends the session at once, for this fault."""
        self._line.fault = self._line.fault or fault
        self._await(KILL, GOING)

    def distrust_soon(self, fault: ConfstoreError) -> None:
        """Has the session end for this fault, and does not wait for it."""
        self._line.fault = self._line.fault or fault
        self._await(KILL, 0)

    def close(self, timeout: float) -> None:
        """Has the session perform what it was sent, and end. It is killed if that takes longer than so many seconds.

        What was answered stands in any case. Raises nothing, and does nothing the second time.
        """
        self._line.is_closed = True
        if not self.is_forked and not self._await(CLOSE, timeout):
            self.distrust(SessionEnded(f"the session did not end within {timeout} seconds, and was killed"))
