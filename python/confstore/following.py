"""Follows what is changed in a store, beside the session that holds it: each change once, in order."""

from __future__ import annotations

import hashlib
import time
from collections import deque
from dataclasses import dataclass
from typing import Deque, Iterator, List, NamedTuple, Optional, Union

from .faults import ConfstoreError
from .records import Record
from .store_file import StoreFile
from .waking import Waker


# How many bytes of records are read before those that were read are told.
MUCH = 4_194_304


@dataclass(frozen=True)
class Cut:
    """A checkpoint dropped the changes from the number `first` to the number `last` before they were seen."""

    first: int
    last: int


@dataclass(frozen=True)
class Replaced:
    """The store has another history than the one that was seen, as where a backup was put in its place. The changes
    after the number `last` are told from it."""

    last: int


Event = Union[Record, Cut, Replaced]


class Told(NamedTuple):
    """An event, and the bytes of its record as they stand in the file."""

    event: Event
    text: bytes


class _Mark(NamedTuple):
    """A record that was read: its number, and a digest of it."""

    number: int
    digest: bytes


class Following:
    """Reads the changes of a store from the number `start` on, or those after its last one where that is None."""

    def __init__(self, folder: str, program: str, timeout: float, start: Optional[int]) -> None:
        self._folder, self._program, self._timeout = folder, program, timeout
        self._told: List[Told] = []
        self._fault: Optional[ConfstoreError] = None
        self._reached = 0  # the last number of the file that was read before this one
        self._mark: Optional[_Mark] = None  # of the last record that was read
        self._next = max(start or 1, 1)  # the number of the change that is told next
        self._file = self._opened()
        try:
            self._begin(start is None)
        except BaseException:
            self.close()
            raise

    def _opened(self) -> StoreFile:
        return StoreFile(self._folder, self._program, self._timeout)

    def _begin(self, is_at_end: bool) -> None:
        """Reads the file up to where the telling begins."""
        base, last = self._file.read_base(), None
        if not is_at_end:
            self._tell_cut(base)
            return
        for last in self._file.records():
            pass
        self._mark = _mark_of(*last) if last else None
        self._next = self._file.number + 1

    def close(self) -> None:
        """Closes the file. Does nothing the second time."""
        self._file.close()

    def look(self) -> List[Told]:
        """What is there now and was not told yet, or the first part of it where it is much. Where the store is gone or
        damaged it raises why, after all that comes before was told, and from then on."""
        if self._fault is None:
            try:
                self._read_all()
            except ConfstoreError as fault:
                self._fault = fault
        if self._fault is not None and not self._told:
            raise self._fault
        told, self._told = self._told, []
        return told

    def _read_all(self) -> None:
        """Reads the file to its end, and those that were put in its place, until much is to be told."""
        was_replaced = True
        while was_replaced:
            was_replaced = self._file.is_replaced()  # nothing is appended to it from then on
            if not self._read():
                return
            if self._file.number < self._reached:
                self._tell_replaced(self._file.number)
            self._reached = self._file.number
            if was_replaced:
                self._go_on()

    def _read(self) -> bool:
        """Reads the records that follow in the file, and tells those that were not. Whether these are all."""
        length = 0
        for number, piece in self._file.records():
            mark = _mark_of(number, piece)
            if self._mark is not None and self._mark.number == number and self._mark != mark:
                self._tell_replaced(number - 1)
            if number >= self._next:
                self._told.append(Told(self._file.record_of(piece), piece))
                self._next = number + 1
                length += len(piece)
            if self._mark is None or number >= self._mark.number:
                self._mark = mark
            if length >= MUCH:
                return False
        return True

    def _go_on(self) -> None:
        """Goes on with the file that stands in the place of the one that was read to its end."""
        old, self._file = self._file, self._opened()
        old.close()
        self._tell_cut(self._file.read_base())

    def _tell_cut(self, base: int) -> None:
        """Tells of the changes that a base stands for, and that were to be told."""
        if base >= self._next:
            self._told.append(Told(Cut(self._next, base), b""))
            self._next = base + 1

    def _tell_replaced(self, last: int) -> None:
        self._told.append(Told(Replaced(last), b""))
        self._next, self._mark = min(self._next, last + 1), None


def _mark_of(number: int, piece: bytes) -> _Mark:
    return _Mark(number, hashlib.blake2b(piece, digest_size=16).digest())


class Changes(Iterator[Event]):
    """The changes of a store as they are made: each a `Record`, once and in order. Use it in a loop, and in `with`.

    Where a checkpoint dropped changes before they were seen there is a `Cut` in their place, and a `Replaced` where the
    store has another history than before. `Reader.follow` makes one. A loop over it waits for the next change, and ends
    with the exception of what has become of the store: `NotAStore`, `Damaged` or `Device`. One thread at a time may use
    it.
    """

    def __init__(self, folder: str, program: str, timeout: float, start: Optional[int]) -> None:
        self._waker = Waker(folder)
        self._ready: Deque[Event] = deque()
        try:
            self._following = Following(folder, program, timeout, start)
        except BaseException:
            self._waker.close()
            raise

    def __iter__(self) -> "Changes":
        return self

    def __next__(self) -> Event:
        while True:
            event = self.within(self._waker.longest)
            if event is not None:
                return event

    def within(self, seconds: float) -> Optional[Event]:
        """The next change, or None where none comes within so many seconds."""
        deadline = time.monotonic() + seconds
        while not self._ready:
            self._ready.extend(told.event for told in self._following.look())
            left = deadline - time.monotonic()
            if self._ready:
                self._waker.found()
            elif left > 0:
                self._waker.wait(left)
            else:
                break
        return self._ready.popleft() if self._ready else None

    def close(self) -> None:
        """Ends it. Does nothing the second time."""
        self._waker.close()
        self._following.close()

    def __enter__(self) -> "Changes":
        return self

    def __exit__(self, *_: object) -> None:
        self.close()
