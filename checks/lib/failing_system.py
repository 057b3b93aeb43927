"""A model of kernel and device under a store's folder: calls that fail, processes that are killed, and power cuts.

A file has pages. The device has a page, or the next sync writes it (`dirty`), or it is in memory alone and no sync
writes it any more (`memory`), as after a write of it failed. A failure to write is said once to each open handle, and
to the first handle that is opened after it if nobody was told, as Linux does from 4.13 on. The folder has stages, of
which the last is what is read and a power cut leaves any. A call may fail with all of its effect, a part or none.
"""

from __future__ import annotations

from collections.abc import Callable, Iterator, Sequence
from itertools import combinations
from typing import NamedTuple, Optional, Union

STORE, NEXT, COPY, LOCK, FOLDER = "store.yaml", "next.yaml", "copy.yaml", "store.lock", "."
DEVICE, DIRTY, MEMORY = "device", "dirty", "memory"


class Note(NamedTuple):
    """What is noted in `store.lock`: whether the device has all bytes of `store.yaml`, and whether several appends may
    have waited for one sync."""

    on_device: bool
    several: bool


# What stands where nothing is noted, and how long each note is.
UNKNOWN = Note(False, True)
LENGTHS = {Note(True, False): 1, Note(False, False): 2, Note(False, True): 3, Note(True, True): 4}

# What a page says: a base with its records; the record of a number, or the closing part of one, which is ~number; or
# zeros.
Content = Union[tuple[int, ...], int, None]


class Page(NamedTuple):
    content: Content
    where: str


class File(NamedTuple):
    """A file, how many failures to write it had, and whether the last one was told."""

    pages: tuple[Page, ...] = ()
    errors: int = 0
    is_told: bool = True


class Names(NamedTuple):
    """Which files have the two names."""

    store: Optional[int] = None
    next: Optional[int] = None


class Budget(NamedTuple):
    """How many calls may still fail, how many processes may be killed, and how many power cuts may come."""

    failures: int
    kills: int
    cuts: int


class Assumptions(NamedTuple):
    """Whether a power cut may keep pages that stand behind ones that it loses."""

    holes: bool = True


class System(NamedTuple):
    """Files, stages of names, what `store.lock` says, if it is a note, and what a power cut may leave of it, whether a
    sync of the folder failed after which none helps, and the copy of `store.yaml`, if there is one."""

    files: tuple[File, ...]
    stages: tuple[Names, ...]
    note: Optional[Note]
    notes: frozenset[Optional[Note]]
    budget: Budget
    is_folder_lost: bool = False
    copy: Optional[int] = None


class Killed(Exception):
    """The process is killed."""


class Failed(Exception):
    """A call fails."""


class NotFound(Failed):
    """There is no file of that name."""


class Choices:
    """One schedule: the given choices, and then the first of each. `said` are those that aren't the first."""

    def __init__(self, given: Sequence[int]) -> None:
        self.given = given
        self.taken: list[tuple[int, int]] = []
        self.said: list[str] = []

    def choose(self, call: str, options: Sequence[str]) -> str:
        at = len(self.taken)
        number = self.given[at] if at < len(self.given) else 0
        self.taken.append((number, len(options)))
        if number:
            self.said.append(f"{call}: {options[number]}")
        return options[number]

    def following(self) -> Optional[list[int]]:
        """The choices of the next schedule, if there is one."""
        for at in range(len(self.taken) - 1, -1, -1):
            number, count = self.taken[at]
            if number + 1 < count:
                return [taken for taken, _ in self.taken[:at]] + [number + 1]
        return None


class Handle(NamedTuple):
    """An open file, and how many of its failures were told to this handle."""

    file: int
    errors: int


class Kernel:
    """The calls that a process makes. `calls` are those that it made, each with the file."""

    def __init__(self, system: System, choices: Choices, assumptions: Assumptions) -> None:
        self.choices, self.assumptions = choices, assumptions
        self.files, self.stages = list(system.files), list(system.stages)
        self.note, self.notes, self.is_folder_lost = system.note, system.notes, system.is_folder_lost
        self.copy = system.copy
        self.failures, self.kills, self.cuts = system.budget
        self.calls: list[str] = []

    def system(self) -> System:
        budget = Budget(self.failures, self.kills, self.cuts)
        files, stages = tuple(self.files), tuple(self.stages)
        return System(files, stages, self.note, self.notes, budget, self.is_folder_lost, self.copy)

    @property
    def now(self) -> Names:
        return self.stages[-1]

    def file_of(self, name: str) -> Optional[int]:
        return self.now.store if name == STORE else self.now.next

    def begin(self, call: str, file: str) -> None:
        """A call begins. Before it the process may be killed, or the system may fail to write a file by itself."""
        options = ["made"]
        if self.kills:
            options.append("killed before")
        if self.failures:
            options += [f"file {at} lost before" for at, found in enumerate(self.files) if is_dirty(found)]
        choice = self.choices.choose(f"{call} {file}", options) if len(options) > 1 else "made"
        if choice == "killed before":
            self.kills -= 1
            raise Killed
        if choice != "made":
            self.failures -= 1
            self.fail_to_write(int(choice.split()[1]), lambda at: True)
        self.calls.append(f"{call} {file}")

    def end(self, options: Sequence[str]) -> str:
        """How the call that began ends: the first is that it succeeds, all others that it fails."""
        if not self.failures:
            return options[0]
        choice = self.choices.choose(self.calls[-1], options)
        if choice != options[0]:
            self.failures -= 1
        return choice

    def fail_to_write(self, file: int, is_lost: Callable[[int], bool]) -> None:
        """The system writes the dirty pages of a file, but for some, and takes those for written."""
        pages, errors, _ = self.files[file]
        dirty = [at for at, page in enumerate(pages) if page.where == DIRTY]
        written = list(pages)
        for number, at in enumerate(dirty):
            written[at] = Page(pages[at].content, MEMORY if is_lost(number) else DEVICE)
        self.files[file] = File(tuple(written), errors + 1, False)

    def add_stage(self, names: Names) -> None:
        self.stages.append(names)
        self.is_folder_lost = False

    def change_names(self, names: Names) -> None:
        ending = self.end(["done", "failed", "failed when done"])
        if ending != "failed":
            self.add_stage(names)
        if ending != "done":
            raise Failed

    def must(self) -> None:
        """The call that began has its effect, or fails without one."""
        if self.end(["done", "failed"]) == "failed":
            raise Failed

    def open(self, name: str) -> Handle:
        file = self.file_of(name)
        if file is None:
            raise NotFound
        self.begin("open", name)
        self.must()
        return Handle(file, self.files[file].errors if self.files[file].is_told else 0)

    def create_next(self) -> Handle:
        self.begin("create", NEXT)
        if self.now.next is not None:
            raise Failed
        self.files.append(File())
        self.change_names(Names(self.now.store, len(self.files) - 1))
        return Handle(len(self.files) - 1, 0)

    def write(self, handle: Handle, name: str, contents: Sequence[Content]) -> None:
        self.begin("write", name)
        ending = self.end(["done", *(f"failed after {number}" for number in range(len(contents) + 1))])
        count = len(contents) if ending == "done" else int(ending.split()[2])
        pages, errors, is_told = self.files[handle.file]
        added = tuple(Page(content, DIRTY) for content in contents[:count])
        self.files[handle.file] = File(pages + added, errors, is_told)
        if ending != "done":
            raise Failed

    def fsync(self, handle: Handle, name: str) -> None:
        self.begin("fsync", name)
        dirty = sum(page.where == DIRTY for page in self.files[handle.file].pages)
        options = ["done", "failed", *(f"lost from {number}" for number in range(dirty))]
        if self.assumptions.holes and dirty > 1:
            options.append("lost only 0")
        ending = self.end(options)
        if ending == "failed":
            raise Failed
        if ending.startswith("lost"):
            first, is_only = int(ending.split()[2]), ending.startswith("lost only")
            self.fail_to_write(handle.file, lambda number: number == first if is_only else number >= first)
        pages, errors, is_told = self.files[handle.file]
        written = tuple(page._replace(where=DEVICE) if page.where == DIRTY else page for page in pages)
        is_failure = errors != handle.errors
        self.files[handle.file] = File(written, errors, is_told or is_failure)
        if is_failure:
            raise Failed

    def read(self, name: str) -> tuple[Content, ...]:
        """What a file reads as that was opened."""
        file = self.file_of(name)
        assert file is not None
        contents = tuple(page.content for page in self.files[file].pages)
        if contents:
            self.begin("pread64", name)
            self.must()
        return contents

    def create_copy(self) -> Handle:
        self.begin("create", COPY)
        if self.copy is not None:
            raise Failed
        ending = self.end(["done", "failed", "failed when done"])
        if ending != "failed":
            self.files.append(File())
            self.copy = len(self.files) - 1
        if ending != "done":
            raise Failed
        return Handle(len(self.files) - 1, 0)

    def place_copy(self) -> None:
        self.begin("rename", COPY)
        ending = self.end(["done", "failed", "failed when done"])
        if ending != "failed":
            self.add_stage(Names(self.copy, self.now.next))
            self.copy = None
        if ending != "done":
            raise Failed

    def unlink_copy(self) -> None:
        self.begin("unlink", COPY)
        ending = self.end(["done", "failed", "failed when done"])
        if ending != "failed":
            self.copy = None
        if ending != "done":
            raise Failed

    def rename_next(self) -> None:
        self.begin("rename", NEXT)
        self.change_names(Names(self.now.next))

    def link_next(self) -> None:
        self.begin("link", NEXT)
        if self.now.store is not None:
            raise Failed
        self.change_names(Names(self.now.next, self.now.next))

    def unlink_next(self) -> None:
        self.begin("unlink", NEXT)
        self.change_names(Names(self.now.store))

    def fsync_folder(self) -> None:
        self.begin("fsync", FOLDER)
        last = len(self.stages) - 1
        ending = self.end(["done", *(f"failed, stage {number} or later" for number in range(last + 1))])
        if not self.is_folder_lost:
            self.stages = self.stages[last if ending == "done" else int(ending.split()[2]) :]
        if ending != "done":
            self.is_folder_lost = len(self.stages) > 1
            raise Failed

    def read_note(self) -> Optional[Note]:
        self.begin("pread64", LOCK)
        self.must()
        return self.note

    def write_note(self, note: Note, is_marked: bool) -> None:
        """Cuts `store.lock` to the length of a note, and writes its byte if it is no note yet."""
        self.begin(f"ftruncate {LENGTHS[note]}", LOCK)
        self.put_note(note if is_marked else self.note)
        if not is_marked:
            self.begin("pwrite64 -", LOCK)
            self.put_note(note)

    def put_note(self, note: Optional[Note]) -> None:
        ending = self.end(["done", "failed", "failed when done"])
        if ending != "failed":
            self.note, self.notes = note, self.notes | {note}
        if ending != "done":
            raise Failed

    def sync_note(self) -> None:
        self.begin("fsync", LOCK)
        self.must()
        self.notes = frozenset([self.note])


def is_dirty(file: File) -> bool:
    return any(page.where == DIRTY for page in file.pages)


def seen(contents: Sequence[Content], assumptions: Assumptions) -> tuple[Content, ...]:
    """What a file that has lost pages reads as. Without holes nothing is left behind the first one."""
    if assumptions.holes or None not in contents:
        return tuple(contents)
    first = contents.index(None)
    return (*contents[:first], *(None for _ in contents[first:]))


def contents_left(pages: Sequence[Page], assumptions: Assumptions) -> Iterator[tuple[Content, ...]]:
    """What a power cut may leave of a file: what the device has, and some of the dirty pages. Zeros may stand for the
    others. With holes these are any dirty pages, and else the first ones."""
    dirty = [at for at, page in enumerate(pages) if page.where == DIRTY]
    counts = range(len(dirty) + 1)
    fronts = [dirty[:count] for count in counts]
    subsets = [list(some) for count in counts for some in combinations(dirty, count)]
    for kept in subsets if assumptions.holes else fronts:
        left = [page.content if page.where == DEVICE or at in kept else None for at, page in enumerate(pages)]
        there = [at + 1 for at, page in enumerate(pages) if page.where == DEVICE or at in kept]
        for length in range(max(there, default=0), len(pages) + 1):
            yield seen(left[:length], assumptions)


# What a power cut leaves under the two names, and whether it is noted that several appends may have waited.
Image = tuple[Optional[tuple[Content, ...]], Optional[tuple[Content, ...]]]


def images_of(system: System, assumptions: Assumptions) -> set[Image]:
    images: set[Image] = set()
    for names in system.stages:
        left = [
            [None] if file is None else set(contents_left(system.files[file].pages, assumptions)) for file in names
        ]
        images |= {(store, staged) for store in left[0] for staged in left[1]}
    return images


def settled(pages: tuple[Page, ...], parts: int) -> tuple[Page, ...]:
    """The same with one base for the base and the records behind it that the device has."""
    if not pages or pages[0].where != DEVICE or not isinstance(pages[0].content, tuple):
        return pages
    records, at = pages[0].content, 1
    while at + parts <= len(pages) and all(page.where == DEVICE for page in pages[at : at + parts]):
        record = pages[at].content
        if not isinstance(record, int) or (parts == 2 and pages[at + 1].content != ~record):
            break
        records += (record,)
        at += parts
    return (Page(records, DEVICE), *pages[at:])


def tidied(
    system: System, handles: Sequence[Optional[Handle]], parts: int
) -> tuple[System, tuple[Optional[Handle], ...]]:
    """The same with as few files, stages and counts as say it."""
    held = {handle.file: handle for handle in handles if handle}
    named = [file for names in reversed(system.stages) for file in names if file is not None]
    kept = list(dict.fromkeys([*named, *held, *([] if system.copy is None else [system.copy])]))
    number = {file: at for at, file in enumerate(kept)}
    files: list[File] = []
    for pages, errors, is_told in (system.files[file] for file in kept):
        at = kept[len(files)]
        is_due = errors != held[at].errors if at in held else not is_told
        files.append(File(settled(pages, parts), int(is_due), is_told))
    stages = [Names(*(None if file is None else number[file] for file in names)) for names in reversed(system.stages)]
    copy = None if system.copy is None else number[system.copy]
    tidy = system._replace(files=tuple(files), stages=tuple(reversed(list(dict.fromkeys(stages)))), copy=copy)
    return tidy, tuple(handle and Handle(number[handle.file], 0) for handle in handles)


def cut_off(system: System, assumptions: Assumptions) -> Iterator[System]:
    """What the next process may find after a power cut."""
    if not system.budget.cuts:
        return
    budget = system.budget._replace(cuts=system.budget.cuts - 1)
    for image in images_of(system, assumptions):
        files: list[File] = []
        names: list[Optional[int]] = []
        for contents in image:
            names.append(None if contents is None else len(files))
            if contents is not None:
                files.append(File(tuple(Page(content, DEVICE) for content in contents)))
        for note in system.notes:
            yield System(tuple(files), (Names(*names),), note, frozenset([note]), budget)


def evicted(system: System, assumptions: Assumptions) -> Iterator[System]:
    """What the next process may find once memory was short: of a file that no process has open, pages that are in
    memory alone read as zeros, and its failures are forgotten."""
    for at, file in enumerate(system.files):
        if (file.errors and not file.is_told) or any(page.where == MEMORY for page in file.pages):
            left = seen([None if page.where == MEMORY else page.content for page in file.pages], assumptions)
            pages = tuple(
                Page(None, DEVICE) if content is None else page for content, page in zip(left, file.pages)
            )
            yield system._replace(files=system.files[:at] + (File(pages),) + system.files[at + 1 :])
