"""The protocol of `SystemDisk` (crates/conf_protocol) over a model of the system, and the calls of a store.

Each method of `FolderDisk` makes the calls of the one of its name. `Store` makes those of `conf_journal` and
`conf_store`. `checks/search_schedules.py` compares both with the program.
"""

from __future__ import annotations

from collections.abc import Sequence
from typing import NamedTuple, Optional

from .failing_system import NEXT, STORE, COPY, UNKNOWN, Content, Failed, Handle, Kernel, Note

# Where the bytes of a file are, as `Bytes` says.
SAFE, PENDING, IN_DOUBT = "on the device", "pending", "unsure"

# What is known of the names, as `Names` says.
SETTLED, CHANGED, RENAMED, BROKEN = "settled", "changed", "renamed", "broken"


class Appended(NamedTuple):
    """A file that the run appends to."""

    handle: Optional[Handle]
    where: str


class DiskState(NamedTuple):
    """What a disk knows. `is_marked` says whether `store.lock` has the byte of a note."""

    note: Optional[Note]
    is_marked: bool
    several: bool
    store: Appended
    next: Appended
    names: str


class FolderDisk:
    def __init__(self, kernel: Kernel, state: Optional[DiskState] = None) -> None:
        self.kernel = kernel
        self.note, self.is_marked, self.several, self.store, self.next, self.names = state or self.opened()

    def state(self) -> DiskState:
        return DiskState(self.note, self.is_marked, self.several, self.store, self.next, self.names)

    def opened(self) -> DiskState:
        """The disk of a folder in which an earlier run may have ended in any way."""
        found = self.kernel.read_note()
        note = found if found is not None and self.kernel.now.store is not None else UNKNOWN
        closed = Appended(None, IN_DOUBT)
        if note.on_device:
            return DiskState(note, found is not None, note.several, Appended(None, SAFE), closed, CHANGED)
        if note.several:
            self.kernel.sync_note()
        if self.kernel.now.store is not None and self.kernel.now.store == self.kernel.now.next:
            self.kernel.unlink_next()
        self.kernel.fsync_folder()
        return DiskState(note, found is not None, note.several, closed, closed, SETTLED)

    def several_waited(self) -> bool:
        return self.several

    def need_change(self) -> None:
        if self.names == BROKEN:
            raise Failed

    def have_noted(self, several: bool) -> None:
        note = Note(False, several)
        if self.note != note:
            self.note = None
            self.write_note(note)
            self.note = note

    def write_note(self, note: Note) -> None:
        self.kernel.write_note(note, self.is_marked)
        self.is_marked = True

    def note_append(self) -> None:
        is_next = self.store.where == PENDING and not self.several
        self.have_noted(self.several or is_next)
        if is_next:
            self.sync_note()
            self.several = True

    def sync_note(self) -> None:
        self.kernel.sync_note()

    def note_doubt(self) -> None:
        if self.names != RENAMED:
            try:
                self.have_noted(self.several)
            except Failed:
                pass

    def file(self, name: str) -> Appended:
        return self.store if name == STORE else self.next

    def put_file(self, name: str, file: Appended) -> None:
        if name == STORE:
            self.store = file
        else:
            self.next = file

    def take_handle(self, name: str) -> Handle:
        kept = self.file(name)
        self.put_file(name, Appended(None, kept.where))
        return kept.handle or self.kernel.open(name)

    def append(self, name: str, contents: Sequence[Content]) -> None:
        self.need_change()
        if name == STORE:
            if self.store.where == IN_DOUBT or self.names == RENAMED:
                raise Failed
            self.note_append()
        where = self.file(name).where
        self.put_file(name, Appended(self.file(name).handle, IN_DOUBT))
        handle = self.take_handle(name)
        self.kernel.write(handle, name, contents)
        is_same = where == IN_DOUBT or not contents
        self.put_file(name, Appended(handle, where if is_same else PENDING))

    def sync(self, name: str) -> None:
        self.need_change()
        if self.file(name).where == IN_DOUBT:
            self.sync_in_doubt(name)
            return
        try:
            handle = self.take_handle(name)
            self.fsync(handle, name)
        except Failed:
            self.put_file(name, Appended(None, IN_DOUBT))
            if name == STORE:
                self.note_doubt()
            raise
        self.put_file(name, Appended(handle, SAFE))

    def fsync(self, handle: Handle, name: str) -> None:
        self.kernel.fsync(handle, name)

    def sync_in_doubt(self, name: str) -> None:
        if self.kernel.file_of(name) is None:
            return
        if name == NEXT or self.names != SETTLED:
            raise Failed
        self.have_noted(self.several)
        self.names = BROKEN
        self.put_copy()
        self.names = SETTLED

    def put_copy(self) -> None:
        """Puts a copy that the device has whole in the place of `store.yaml`."""
        try:
            handle = self.make_copy()
        except Failed:
            self.try_to_remove_copy()
            raise
        self.kernel.place_copy()
        self.store = Appended(handle, SAFE)
        self.kernel.fsync_folder()

    def make_copy(self) -> Handle:
        if self.kernel.copy is not None:
            self.kernel.unlink_copy()
        handle = self.kernel.create_copy()
        self.kernel.open(STORE)
        if contents := self.kernel.read(STORE):
            self.kernel.write(handle, COPY, contents)
        self.kernel.fsync(handle, COPY)
        return handle

    def try_to_remove_copy(self) -> None:
        try:
            if self.kernel.copy is not None:
                self.kernel.unlink_copy()
        except Failed:
            pass

    def change_names(self) -> None:
        if self.names == SETTLED:
            self.names = CHANGED

    def create_next(self) -> None:
        self.need_change()
        self.next = Appended(None, IN_DOUBT)
        self.change_names()
        self.next = Appended(self.kernel.create_next(), SAFE)

    def remove_next(self) -> None:
        self.need_change()
        self.next = Appended(None, IN_DOUBT)
        if self.kernel.now.next is not None:
            self.change_names()
            self.kernel.unlink_next()

    def rename_next(self) -> None:
        self.need_change()
        if self.names == RENAMED:
            raise Failed
        self.note_rename()
        is_replacing = self.kernel.now.store is not None
        staged = self.next
        self.store = self.next = Appended(None, IN_DOUBT)
        if is_replacing:
            self.names = RENAMED
            self.kernel.rename_next()
        else:
            self.names = BROKEN
            self.kernel.link_next()
            self.kernel.unlink_next()
            self.names = RENAMED
        self.store, self.several = staged, False

    def note_rename(self) -> None:
        self.have_noted(self.several)

    def sync_folder(self) -> None:
        self.need_change()
        try:
            self.kernel.fsync_folder()
        except Failed:
            self.store = Appended(self.store.handle, IN_DOUBT)
            self.note_doubt()
            raise
        self.names = SETTLED

    def read(self, name: str) -> Optional[tuple[Content, ...]]:
        if self.kernel.file_of(name) is None:
            return None
        self.kernel.open(name)
        return self.kernel.read(name)

    def release(self) -> None:
        note = Note(True, self.several)
        if self.store.where == SAFE and self.names in (SETTLED, CHANGED) and self.note != note:
            try:
                self.write_note(note)
            except Failed:
                pass


class Session(NamedTuple):
    """A run on a store: its disk, the records that were read or acknowledged, those that wait for a sync, and of a
    running checkpoint what is not in its file yet. It has to make a new file first if the last record of the
    one that it read is torn or there is no file; after a failure it only ends."""

    disk: DiskState
    acknowledged: tuple[int, ...]
    waiting: tuple[int, ...] = ()
    unstaged: Optional[tuple[Content, ...]] = None
    is_torn: bool = False
    has_failed: bool = False


def pages_of(record: int, parts: int) -> tuple[int, ...]:
    return (record,) if parts == 1 else (record, ~record)


def meaning(
    contents: Optional[Sequence[Content]], parts: int, several: bool
) -> Optional[tuple[tuple[int, ...], bool]]:
    """The records that a file says, and whether more stands behind them. `None` if opening refuses it: what is no record
    and has no zeros is damage, and so is anything with a whole record behind it, unless several may have waited."""
    if contents is None:
        return (), True
    if not contents or not isinstance(contents[0], tuple):
        return None
    records, at = list(contents[0]), 1
    while (record := record_at(contents, at, parts)) is not None:
        records.append(record)
        at += parts
    rest = contents[at:]
    is_damaged = any(isinstance(content, tuple) for content in rest) or (bool(rest) and starts_wrong(rest[0]))
    if is_damaged or (not several and any(record_at(rest, place, parts) is not None for place in range(len(rest)))):
        return None
    return tuple(records), bool(rest)


def record_at(contents: Sequence[Content], at: int, parts: int) -> Optional[int]:
    """The record at a place, if a whole one stands there."""
    record = contents[at] if at < len(contents) else None
    if not isinstance(record, int) or record < 0 or tuple(contents[at : at + parts]) != pages_of(record, parts):
        return None
    return record


def starts_wrong(content: Content) -> bool:
    """Whether a piece with this first page is no record, and was none before zeros came into it."""
    return isinstance(content, int) and content < 0


class Store:
    """A store in a session, with the calls that it makes of a disk."""

    def __init__(self, disk: FolderDisk, session: Session, parts: int) -> None:
        self.disk, self.parts = disk, parts
        _, self.acknowledged, self.waiting, self.unstaged, self.is_torn, self.has_failed = session

    def session(self) -> Session:
        return Session(
            self.disk.state(), self.acknowledged, self.waiting, self.unstaged, self.is_torn, self.has_failed
        )

    def open(self) -> Optional[tuple[Content, ...]]:
        """Reads the file, as `load`. What is read counts as acknowledged."""
        self.disk.sync_folder()
        self.disk.sync(STORE)
        contents = self.disk.read(STORE)
        said = meaning(contents, self.parts, self.disk.several_waited())
        if said is not None:
            self.acknowledged, self.is_torn = said
        return contents

    def append(self, record: int) -> None:
        self.waiting += (record,)
        if self.unstaged is not None:
            self.unstaged += pages_of(record, self.parts)
        self.disk.append(STORE, pages_of(record, self.parts))

    def flush(self) -> None:
        self.disk.sync(STORE)
        self.acknowledge()

    def acknowledge(self) -> None:
        self.acknowledged, self.waiting = self.acknowledged + self.waiting, ()

    def begin_checkpoint(self) -> None:
        self.disk.remove_next()
        self.disk.create_next()
        self.unstaged = (self.acknowledged + self.waiting,)

    def write_slice(self) -> None:
        """Writes what is known so far of the new file."""
        self.disk.append(NEXT, self.unstaged or ())
        self.unstaged = ()

    def finish_checkpoint(self) -> None:
        """Writes the rest of the new file, and puts it in the place of the old one."""
        if self.unstaged:
            self.write_slice()
        self.disk.sync(NEXT)
        self.disk.rename_next()
        self.disk.sync_folder()
        self.unstaged, self.is_torn = None, False
        self.acknowledge()
