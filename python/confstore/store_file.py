"""The file of a store, read by pieces beside the session that appends to it.

A file of a store is never overwritten and never cut: a session appends to it, and a checkpoint puts another file in its
place. So one that is open can be read to its end after it was replaced, and what was read of it stands.
"""

from __future__ import annotations

import io
import os
import re
import stat
from typing import BinaryIO, Iterator, Optional, Tuple

from .faults import BadAnswer, Damaged, Device, NotAStore, end_of
from .pieces import Cutter
from .records import Record, record_of
from .runs import Run
from .style import Tree, document
from .trees import from_text, trees_of

NAME = "store.yaml"

# How many bytes are read at once.
PART = 1_048_576

# The most bytes that the program prints of a record, or of what it says of a store.
LONGEST = 67_108_864

_BASE = re.compile(rb'(?:---\n)?store: "?confstore-[0-9]+"?\nat: "([0-9]{1,20})"\n')
_AT = re.compile(rb'(?:---\n)?at: "([0-9]{1,20})"\n')
_SURVEY = re.compile(rb'(?m)^base: "([0-9]+)"$')


# The lengths of `store.lock` that say that no two records waited for one sync.
_ALONE = (1, 2)


def _may_several_wait(folder: str) -> bool:
    """Whether several records may have waited for one sync when the machine stopped, by the length of `store.lock`."""
    try:
        return os.lstat(os.path.join(folder, "store.lock")).st_size not in _ALONE
    except OSError:
        return True


class StoreFile:
    """An open `store.yaml`. It is read from its start, a piece at a time, as far as there are whole ones."""

    def __init__(self, folder: str, program: str, timeout: float) -> None:
        self._path, self._folder = os.path.join(folder, NAME), folder
        self._program, self._timeout = program, timeout
        # The note first: who puts a file in the place of one with zeros takes it away.
        self._may_several_wait = _may_several_wait(folder)
        self._file = io.FileIO(self._opened())
        self._place = 0  # the end of the last whole piece that was read
        #: The number of the last command that was read: at first that of the base.
        self.number = 0

    def _opened(self) -> int:
        """The descriptor of the file. What is no plain file is refused, and not waited for."""
        try:
            opened = os.open(self._path, os.O_RDONLY | os.O_CLOEXEC | os.O_NOFOLLOW | os.O_NONBLOCK)
        except FileNotFoundError:
            raise NotAStore(f"{self._folder} has no {NAME}") from None
        except OSError as error:
            raise Device(f"{self._path} can't be read: {error.strerror}") from None
        if not stat.S_ISREG(os.fstat(opened).st_mode):
            os.close(opened)
            raise Device(f"{self._path} is no plain file")
        return opened

    def close(self) -> None:
        """Closes the file. Does nothing the second time."""
        self._file.close()

    def is_replaced(self) -> bool:
        """Whether another file stands in its place now, or the same one is shorter than what was read of it."""
        mine = os.fstat(self._file.fileno())
        try:
            there = os.lstat(self._path)
        except FileNotFoundError:
            raise NotAStore(f"{self._folder} has no {NAME} any more") from None
        except OSError as error:
            raise Device(f"{self._path} can't be looked at: {error.strerror}") from None
        return (mine.st_dev, mine.st_ino) != (there.st_dev, there.st_ino) or there.st_size < self._place

    def read_base(self) -> int:
        """Reads the first piece. The number of the last command that it stands for."""
        piece = next(self._pieces(), None)
        if piece is None or b"\0" in piece:
            raise NotAStore(f"{self._path} has no base")
        found = _BASE.match(piece)
        self.number = int(found[1]) if found else self._base_by_program()
        return self.number

    def _base_by_program(self) -> int:
        """The number of a base that is not written as the program writes one."""
        run = Run([self._program, "verify", "--", self._folder], self._timeout, LONGEST)
        run.wait()
        found = _SURVEY.search(run.output)
        if found is None:
            raise end_of(run.status, bytes(run.errors), False, self._folder)
        if self.is_replaced():
            raise Device(f"{self._path} was replaced while its base was read")
        return int(found[1])

    def records(self) -> Iterator[Tuple[int, bytes]]:
        """The records that follow what was read, with their numbers. Raises `Damaged` where a number is not the next
        one. A piece with a zero ends them, as a crash leaves one, unless a record stands behind it, and no two waited
        for one sync."""
        pieces = self._pieces()
        for piece in pieces:
            if b"\0" in piece:
                begin = self._place - len(piece)
                if not self._may_several_wait and any(map(self._is_record, pieces)):
                    raise Damaged(f"Damaged: what follows command {self.number} has a zero, and a record behind it")
                self._place = begin
                return
            found = _AT.match(piece)
            number = int(found[1]) if found else self.record_of(piece).number
            if number != self.number + 1:
                raise Damaged(f"Damaged: a record has the number {number} after {self.number}")
            self.number = number
            yield number, piece

    def record_of(self, piece: bytes) -> Record:
        """The record that a piece is."""
        try:
            return record_of(self._tree_of(piece))
        except BadAnswer as fault:
            raise Damaged(f"Damaged: after command {self.number}: {fault}") from None

    def copy_read(self, target: BinaryIO) -> None:
        """Copies the bytes that were read, which are whole pieces."""
        place = 0
        while part := os.pread(self._file.fileno(), min(PART, self._place - place), place):
            target.write(part)
            place += len(part)

    def _is_record(self, piece: bytes) -> bool:
        """Whether a piece is a record, whatever its number. None has a zero."""
        try:
            return b"\0" not in piece and record_of(self._tree_of(piece)).number >= 0
        except BadAnswer:
            return False

    def _tree_of(self, piece: bytes) -> Tree:
        """The tree of a piece. One that is not written as the program writes it is read by the program."""
        tree = _read_in_style(piece)
        if tree is not None:
            return tree
        run = Run([self._program, "format", "-"], self._timeout, LONGEST, piece)
        run.wait()
        if run.status is None:
            raise end_of(None, bytes(run.errors), False, self._folder)
        if run.status != 0:
            raise BadAnswer(run.errors.decode("utf-8", "replace").strip())
        return from_text(bytes(run.output))

    def _pieces(self) -> Iterator[bytes]:
        """The whole pieces that follow what was read."""
        cutter = Cutter()
        self._file.seek(self._place)
        while part := self._file.read(PART):
            for piece in cutter.cut(part):
                self._place += len(piece)
                yield piece


def _read_in_style(piece: bytes) -> Optional[Tree]:
    """The tree of a piece that is a document in the one style, or None if it isn't."""
    try:
        (tree,) = trees_of(piece)
        return tree if document(tree) == piece else None
    except Exception:  # whatever a reader of another text may raise, the program reads it
        return None
