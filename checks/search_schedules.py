#!/usr/bin/env python3
"""Searches all schedules of calls, failures, kills and power cuts over a model of a folder's protocol.

The model of kernel and device is lib/failing_system.py; that of `FolderDisk` and of the store above it is
lib/folder_protocol.py. Runs on a store make changes one at a time and in groups, and checkpoints beside them. Each call
of the system may fail, with all of its effect, a part or none. A run may be killed before each call. The system may
fail to write pages by itself, and drop them between two runs. The power may be cut. At each moment all that a power cut
may leave has what was acknowledged, and so has what each run reads. Three things are tried:

- The calls of the model are those of the program, by strace, also where a call fails and in the runs after it.
- Each broken variant of the protocol loses something, so the search sees faults of its kind.
- The protocol loses nothing in any schedule with as many faults and changes as SEARCHES says.

    ./prove && python3 checks/search_schedules.py [--no-strace]

It takes a minute on four processors, and ends after two, unless the machine is slow: a search that is cut off says up to
how many steps it took all schedules. Without strace (Debian's package), or with --no-strace, the calls are not compared,
and a line says so. The last line is 'N passed, M failed', and the status is 0 if M is 0.
"""

from __future__ import annotations

import argparse
import os
import re
import shutil
import subprocess
import sys
import tempfile
import time
from collections.abc import Iterator, Sequence
from concurrent.futures import ProcessPoolExecutor
from pathlib import Path
from typing import NamedTuple, Optional

from lib.failing_system import (
    DEVICE, FOLDER, STORE, UNKNOWN, Assumptions, Budget, Choices, Content, Failed, File, Handle, Kernel, Killed, Names,
    Note, Page, System, cut_off, evicted, images_of, tidied,
)  # fmt: skip
from lib.folder_protocol import SAFE, SETTLED, Appended, FolderDisk, Session, Store, meaning
from lib.store_runs import PROGRAM, Failures, need_program

SECONDS = 120
# How many seconds more the variants may take on a slow machine, since each has to be caught.
SLOWNESS = 600


class NoSync(FolderDisk):
    """A sync says Ok, and does nothing."""

    def fsync(self, handle: Handle, name: str) -> None:
        pass


class SyncAgain(FolderDisk):
    """A sync that failed is tried again."""

    def fsync(self, handle: Handle, name: str) -> None:
        try:
            super().fsync(handle, name)
        except Failed:
            super().fsync(Handle(handle.file, self.kernel.files[handle.file].errors), name)


class NotedBeforeSync(FolderDisk):
    """It is noted that the device has all bytes before what was appended is synced."""

    def fsync(self, handle: Handle, name: str) -> None:
        if name == STORE:
            self.write_note(Note(True, self.several))
        super().fsync(handle, name)


class NotedAtEachEnd(FolderDisk):
    """The same is noted at the end of each run."""

    def release(self) -> None:
        self.store, self.names = Appended(None, SAFE), SETTLED
        super().release()


class NotedBeforeCopy(FolderDisk):
    """The same is noted before the copy is made."""

    def put_copy(self) -> None:
        self.write_note(Note(True, self.several))
        super().put_copy()


class NoNote(FolderDisk):
    """Nothing is noted before an append."""

    def note_append(self) -> None:
        pass


class NotedAfterAppend(FolderDisk):
    """It is noted after an append that bytes may be in memory alone."""

    def note_append(self) -> None:
        pass

    def append(self, name: str, contents: Sequence[Content]) -> None:
        super().append(name, contents)
        if name == STORE:
            super().note_append()


class SeveralNotNoted(FolderDisk):
    """Nothing more is noted before a second append."""

    def note_append(self) -> None:
        self.have_noted(self.several)


class SeveralNotSynced(FolderDisk):
    """The note that several appends wait is not synced."""

    def sync_note(self) -> None:
        pass


class SeveralForgotten(FolderDisk):
    """A file that replaces one loses its note before the folder is synced."""

    def rename_next(self) -> None:
        super().rename_next()
        self.have_noted(False)


class NoFolderSync(FolderDisk):
    """A rename is not followed by a sync of the folder."""

    def sync_folder(self) -> None:
        pass


class CopyWithoutFolderSync(FolderDisk):
    """The copy is renamed, and the folder is not synced."""

    def put_copy(self) -> None:
        handle = self.make_copy()
        self.kernel.place_copy()
        self.store = Appended(handle, SAFE)


class RenameNotNoted(FolderDisk):
    """Nothing is noted before a rename."""

    def note_rename(self) -> None:
        pass


class CopyNotSynced(FolderDisk):
    """The copy is renamed before it is synced."""

    def make_copy(self) -> Handle:
        if self.kernel.copy is not None:
            self.kernel.unlink_copy()
        handle = self.kernel.create_copy()
        self.kernel.open(STORE)
        self.kernel.write(handle, STORE, self.kernel.read(STORE))
        return handle


class NoCopy(FolderDisk):
    """Instead of a copy the file is synced again."""

    def put_copy(self) -> None:
        handle = self.kernel.open(STORE)
        self.kernel.fsync(handle, STORE)
        self.store = Appended(handle, SAFE)


VARIANTS = [
    NoSync, SyncAgain, NotedBeforeSync, NotedAtEachEnd, NotedBeforeCopy, NoNote, NotedAfterAppend, SeveralNotNoted,
    SeveralNotSynced, SeveralForgotten, NoFolderSync, RenameNotNoted, CopyWithoutFolderSync, CopyNotSynced, NoCopy,
]  # fmt: skip


class Bounds(NamedTuple):
    """What a search begins with, a store or an empty folder, and how many faults and changes there are."""

    start: str
    budget: Budget
    changes: int

    def __str__(self) -> str:
        failures, kills, cuts = self.budget
        return f"{self.start}, {failures} failures, {kills} kills, {cuts} power cuts, {self.changes} changes"


# The last ones take the most time, and may be cut off.
SEARCHES = [
    Bounds("a store", Budget(1, 1, 0), 2),
    Bounds("a store", Budget(2, 1, 0), 1),
    Bounds("a store", Budget(1, 1, 1), 1),
    Bounds("an empty folder", Budget(1, 1, 1), 1),
    Bounds("a store", Budget(2, 1, 0), 2),
    Bounds("a store", Budget(1, 1, 1), 2),
]
OF_VARIANTS = Bounds("a store", Budget(2, 1, 0), 2)


class Node(NamedTuple):
    """What is there after some steps: the system, the run that is under way, what was acknowledged, and how many
    changes were made."""

    system: System
    run: Optional[Session]
    acknowledged: tuple[int, ...]
    changes: int


def steps_of(run: Optional[Session], can_change: bool) -> list[str]:
    """The steps that may follow."""
    if run is None:
        return ["run"]
    if run.has_failed:
        return ["end", "drop"]
    steps = ["end", "begin checkpoint" if run.unstaged is None else "finish checkpoint"]
    if run.unstaged and isinstance(run.unstaged[0], tuple):
        steps.append("write slice")
    if can_change and not run.is_torn:
        steps.append("append")
    return steps + (["flush"] if run.waiting else [])


# What a store does in the steps between the first and the last of a run, beside appends.
STEPS = {
    "flush": Store.flush,
    "begin checkpoint": Store.begin_checkpoint,
    "write slice": Store.write_slice,
    "finish checkpoint": Store.finish_checkpoint,
}


def perform(store: Store, step: str, record: int) -> None:
    if step == "append":
        store.append(record)
    else:
        STEPS[step](store)


def tidied_with(system: System, run: Optional[Session], parts: int) -> tuple[System, Optional[Session]]:
    """The same system and run, with as little as says it."""
    if run is None:
        return tidied(system, [], parts)[0], None
    disk = run.disk
    system, (store, staged) = tidied(system, [disk.store.handle, disk.next.handle], parts)
    disk = disk._replace(store=disk.store._replace(handle=store), next=disk.next._replace(handle=staged))
    return system, run._replace(disk=disk)


class World(NamedTuple):
    """What a search is over."""

    protocol: type[FolderDisk]
    assumptions: Assumptions

    @property
    def parts(self) -> int:
        """How many pages a record has. With one, what is behind a hole would be no part of a record."""
        return 2 if self.assumptions.holes else 1

    def trouble(self, contents: Optional[Sequence[Content]], several: bool, acknowledged: tuple[int, ...]) -> str:
        """What is wrong with a file, if anything is."""
        said = meaning(contents, self.parts, several)
        if said is None:
            return f"a file that opening refuses: {contents}"
        return "" if said[0][: len(acknowledged)] == acknowledged else f"{said[0]}, and {acknowledged} was acknowledged"

    def trouble_after_cut(self, node: Node) -> str:
        noted = {(note or UNKNOWN).several for note in node.system.notes}
        for contents, _ in images_of(node.system, self.assumptions):
            for several in noted:
                if found := self.trouble(contents, several, node.acknowledged):
                    return f"a power cut leaves {found}"
        return ""

    def take(self, node: Node, step: str, choices: Choices) -> tuple[Node, str]:
        """The node after a step by some schedule, and what is wrong with what it read."""
        kernel = Kernel(node.system, choices, self.assumptions)
        store, found = None, ""
        try:
            disk = self.protocol(kernel, node.run and node.run.disk)
            store = Store(disk, node.run or Session(disk.state(), node.acknowledged), self.parts)
            if step == "run":
                found = self.trouble(store.open(), disk.several_waited(), node.acknowledged)
            elif step == "end":
                disk.release()
            elif step != "drop":
                perform(store, step, node.changes)
        except Failed:
            if store:
                store.has_failed = True
        except Killed:
            store = None
        run = None if store is None or step in ("end", "drop") else store.session()
        system, run = tidied_with(kernel.system(), run, self.parts)
        acknowledged = store.acknowledged if store else node.acknowledged
        return Node(system, run, acknowledged, node.changes + (step == "append")), found and f"a run reads {found}"

    def following(self, node: Node, changes: int) -> Iterator[tuple[Node, str, str]]:
        """What may come after a node: the node after it, what was done, and what is wrong with what was read."""
        for step in steps_of(node.run, node.changes < changes):
            given: Optional[list[int]] = []
            while given is not None:
                choices = Choices(given)
                new, found = self.take(node, step, choices)
                yield new, ", ".join([step, *choices.said]), found
                given = choices.following()
        for system in cut_off(node.system, self.assumptions):
            yield node._replace(system=system, run=None), f"power cut, then the note is {system.note}", ""
        for system in evicted(node.system, self.assumptions) if node.run is None else ():
            yield node._replace(system=system), "memory is short", ""


class Result(NamedTuple):
    """What a search found: the schedule that loses something, or none; and how far it came."""

    trouble: list[str]
    states: int
    steps: int
    is_whole: bool

    def __str__(self) -> str:
        return f"{self.states:,} states, {'all' if self.is_whole else f'all of {self.steps} steps'}"


def first_node(bounds: Bounds) -> Node:
    if bounds.start == "an empty folder":
        system = System((), (Names(),), None, frozenset([None]), bounds.budget)
    else:
        store = File((Page((), DEVICE),))
        note = Note(True, False)
        system = System((store,), (Names(0),), note, frozenset([note]), bounds.budget)
    return Node(system, None, (), 0)


def search(bounds: Bounds, world: World, until: float) -> Result:
    """Takes all schedules, those of fewer steps first, until one loses something or the time is over."""
    level = [first_node(bounds)]
    before: dict[Node, Optional[tuple[Node, str]]] = {level[0]: None}
    steps = 0
    while level:
        steps += 1
        next_level = []
        for node in level:
            if time.monotonic() > until:
                return Result([], len(before), steps - 1, False)
            for new, done, found in world.following(node, bounds.changes):
                if new in before and not found:
                    continue
                before.setdefault(new, (node, done))
                found = found or world.trouble_after_cut(new)
                if found:
                    return Result([*path_to(before, node), done, found], len(before), steps, False)
                next_level.append(new)
        level = next_level
    return Result([], len(before), steps, True)


def path_to(before: dict[Node, Optional[tuple[Node, str]]], node: Node) -> list[str]:
    path, step = [], before[node]
    while step is not None:
        path.append(step[1])
        step = before[step[0]]
    return path[::-1]


class Scripted(Choices):
    """The schedule in which one call fails without an effect: the one of this name and number, from 1, or none."""

    def __init__(self, failing: str) -> None:
        super().__init__([])
        self.name, _, number = failing.partition(" ")
        self.left = int(number or 0)

    def choose(self, call: str, options: Sequence[str]) -> str:
        if options[0] == "made" or call.split()[0] != self.name:
            return options[0]
        self.left -= 1
        return options[0] if self.left else options[1]


class Traced(NamedTuple):
    """A run of the program on `store`, its steps in the model, its input, and the call that fails, as `fsync 2`."""

    words: Sequence[str]
    steps: Sequence[str]
    given: str = ""
    failing: str = ""


CHANGE = ["append", "flush"]
CHECKPOINT = ["begin checkpoint", "finish checkpoint"]
A_SET = "set: web\npath: /a\nvalue: b\n...\n"
SET = ["set", "store", "web", "/a", "b"]

# Runs on one folder, one after the other. After a fault comes a run that finds what it left.
TRACED = [
    Traced(["init", "store"], CHECKPOINT),
    Traced(["import", "store", "web"], CHANGE, "port: 80\n"),
    Traced(SET, CHANGE),
    Traced(["checkpoint", "store"], CHECKPOINT),
    Traced(["run", "store"], CHANGE + CHANGE, A_SET + A_SET),
    Traced(["run", "--group", "store"], ["append", "append", "flush"], A_SET + A_SET),
    Traced(["run", "--group", "--checkpoint-after", "1", "store"], [*CHANGE, "begin checkpoint"], A_SET),
    Traced(["checkpoint", "store"], CHECKPOINT),
    Traced(SET, CHANGE, failing="fsync 1"),
    Traced(SET, CHANGE, failing="fsync 2"),
    Traced(SET, CHANGE),
    Traced(SET, CHANGE, failing="fsync 3"),
    Traced(SET, CHANGE, failing="fsync 3"),
    Traced(SET, CHANGE, failing="rename 1"),
    Traced(SET, CHANGE, failing="fsync 4"),
    Traced(SET, CHANGE, failing="pwrite64 1"),
    Traced(SET, CHANGE),
    Traced(SET, CHANGE, failing="pwrite64 1"),
    Traced(SET, CHANGE, failing="write 1"),
    Traced(SET, CHANGE, failing="pwrite64 2"),
    Traced(SET, CHANGE),
    Traced(["checkpoint", "store"], CHECKPOINT, failing="fsync 3"),
    Traced(["checkpoint", "store"], CHECKPOINT, failing="rename 1"),
    Traced(["checkpoint", "store"], CHECKPOINT, failing="unlink 1"),
    Traced(["checkpoint", "store"], CHECKPOINT, failing="fsync 4"),
    Traced(SET, CHANGE),
]
TORN = Traced(SET, CHECKPOINT + CHANGE)

TRACE = "trace=openat,read,pread64,write,pwrite64,fsync,fdatasync,rename,renameat2,link,unlink,ftruncate"
# A call with the path that it is given or that its handle is of, and what follows.
CALL = re.compile(r'^(?:\d+ +)?(\w+)\((?:AT_FDCWD<[^>]*>, )?(?:"([^"]*)"|\d+<([^>]*)>)(.*)', re.M)


def calls_of_program(top: Path, run: Traced) -> list[str]:
    """The calls of a run on the files of the folder `store`, from the first read of the note on."""
    name, _, number = run.failing.partition(" ")
    fault = ["-e", f"inject={name}:error=EIO:when={number}"] if name else []
    words = ["strace", "-f", "-y", "-o", "log", "-e", TRACE, *fault, PROGRAM, *run.words]
    subprocess.run(words, input=run.given.encode(), check=False, capture_output=True, cwd=top)
    calls = []
    for call, path, file, more in CALL.findall((top / "log").read_text(encoding="utf-8", errors="replace")):
        if not path.startswith("/proc/self/fd/") and not f"{file}/".startswith(f"{top}/store/"):
            continue
        if call == "openat":
            call = "create" if "O_CREAT" in more else "open"
        elif call == "pwrite64":
            call += " " + more.split('"')[1]
        elif call == "ftruncate":
            call += " " + more.split(")")[0].strip(", ")
        calls.append(f"{call} {FOLDER if file == f'{top}/store' else os.path.basename(path or file)}")
    first = next((at for at, call in enumerate(calls) if call.startswith("pread64")), 0)
    pairs = zip(calls[first:], ["", *calls[first:]])
    return [call for call, last in pairs if call != last or not call.startswith("pread64 store.yaml")]


def calls_of_model(system: System, run: Traced) -> tuple[list[str], System]:
    """The calls of a run of the model, and the system after it."""
    system = system._replace(budget=Budget(1 if run.failing else 0, 0, 0))
    kernel = Kernel(system, Scripted(run.failing), Assumptions())
    disk = FolderDisk(kernel)
    store = Store(disk, Session(disk.state(), ()), 1)
    try:
        store.open()
        for number, step in enumerate(run.steps):
            perform(store, step, number)
    except Failed:
        pass
    disk.release()
    return kernel.calls, tidied(kernel.system(), [], 1)[0]


def with_torn_record(system: System) -> System:
    """The same with a part of a record at the end of `store.yaml`."""
    (store,) = system.files
    return system._replace(files=(store._replace(pages=(*store.pages, Page(None, DEVICE))),))


def compare_calls(failures: Failures) -> None:
    """The calls of the program and of the model are the same."""
    system = first_node(Bounds("an empty folder", Budget(0, 0, 0), 0)).system
    with tempfile.TemporaryDirectory() as folder:
        top = Path(folder).resolve()
        for number, run in enumerate([*TRACED, TORN], 1):
            if run is TORN:
                with open(top / "store" / STORE, "ab") as store:
                    store.write(b"---\nat")
                system = with_torn_record(system)
            calls, system = calls_of_model(system, run)
            failures.expect(f"run {number}: {run.words} {run.failing}", calls_of_program(top, run), calls)


def main() -> int:
    parser = argparse.ArgumentParser()
    parser.add_argument("--no-strace", action="store_true")
    given = parser.parse_args()
    until = time.monotonic() + SECONDS
    failures = Failures()
    if given.no_strace or shutil.which("strace") is None:
        print("  not tried: whether the calls of the model are those of the program, which needs strace")
    else:
        need_program()
        compare_calls(failures)
        print(f"  {failures.tried} runs of the program beside the model")
    with ProcessPoolExecutor(os.cpu_count()) as workers:
        world = World(FolderDisk, Assumptions())
        of_variants = until + SLOWNESS
        tries = [workers.submit(search, OF_VARIANTS, World(each, Assumptions()), of_variants) for each in VARIANTS]
        searches = [workers.submit(search, bounds, world, until) for bounds in SEARCHES]
        for variant, found in zip(VARIANTS, tries):
            print(f"  {variant.__name__}: {'; '.join(found.result().trouble)}")
            failures.expect(f"{variant.__name__} is caught", bool(found.result().trouble), True)
        for bounds, found in zip(SEARCHES, searches):
            print(f"  {bounds}: {found.result()}")
            failures.expect(str(bounds), "; ".join(found.result().trouble), "")
    return failures.report()


if __name__ == "__main__":
    sys.exit(main())
