#!/usr/bin/env python3
"""Makes images that a device may hold after a power cut, of ext4, xfs and btrfs, and opens the stores in them.

A file system is mounted over a block device that logs each write and flush, and holds some writes for a while
(lib/logged_device.py). Beside a neighbour that syncs, stores in it are worked on (lib/crash_works.py):

- Sessions make single changes, groups, groups with checkpoints in slices, an import of 3 MB, a batch of 1 MB and a
  checkpoint of 5 MB.
- Sessions renew the file of a store for a first about (docs/STORE.md): by single changes, by groups where commands wait
  before it, beside a checkpoint in slices, over a base of 3 MB, and of a store of the first format.
- confstorectl does `undo`, `sync` and `checkpoint --archive`, of which some renew the file, too; and it is asked for
  archives beside a server that a client changes.

Then comes a power cut at some moment of the log. The device holds all that was flushed, and of the later writes none,
all or some: whole ones, pages or sectors. Each such image is mounted, and the store that was worked on is opened by a
change. Where it has archives, these are looked at before, and one more is made.

Its file is whole, a prefix that ends within a record, or has zeros at its end (`zeros`) or zeros with other bytes
behind (`holes`); it may be of the third format (`third`). An image is refused if the program says `Damaged`. It is lost
if one of these is so:

- Anything acknowledged is missing from the store, or from what `salvage` makes of a refused one.
- The file is of the third format without the command that renewed it, or of the old one with it; an about stands behind
  a base of another format; or a command has another about than it was given.
- Another store, or an archive of one, has changed.
- Archives and store are not one history with all that was acknowledged, once each `kept.yaml` was taken as
  docs/OPERATING.md says; or a run with a folder that has an archive is not refused, or one with another makes none.

    ./prove && python3 checks/crash_images.py [--images N] [--seed N] [--known-holes] [--keep FOLDER] [--system NAME]
        [--work NAME]

The seed repeats what is chosen here, and not when the kernel writes: --keep keeps each store that is refused or lost.
It needs root, PyYAML, a C compiler, and of Debian e2fsprogs, xfsprogs, btrfs-progs, libfuse3-dev, fuse3 and pkg-config.
With 1,000 images each, which is what it does without words, it takes some forty minutes. The status is 0 if none is
refused and none lost, and 77 if it can't be run here. With --known-holes a store that has holes may be refused.
"""

from __future__ import annotations

import argparse
import ctypes
import fcntl
import importlib.util
import os
import random
import shutil
import sys
import tempfile
import threading
import time
from collections import Counter
from collections.abc import Iterator, Sequence
from pathlib import Path
from typing import NamedTuple, Optional

from lib.crash_works import FIRST, SECOND, THIRD, TOLD, Ended, State, Work, archives_of, between, confstore, ctl
from lib.crash_works import number_of, set_of, state_of, works
from lib.logged_device import MAKERS, Event, Hold, LoggedDevice, NotMounted, call, replayed
from lib.store_runs import need_program

NOT_RUN = 77
IMAGES_OF_WORK = 10
START_COMMIT_OF_BTRFS = 0x80089418
NEW_NAMESPACE_OF_MOUNTS = 0x20000

# How writes are held in a run, and what the neighbour does.
HOLDS = [Hold(0, 1), Hold(25, 60), Hold(25, 60), Hold(15, 150), Hold(5, 400), Hold(5, 400)]
NEIGHBOURS = ["nothing", "syncs a file", "syncs a file", "syncs all", "commits", "commits"]

# In how many of the images confstorectl reads the log of archives, too, which takes long.
SHARE_OF_LOGS = 0.25

COLUMNS = ["images", "whole", "prefix", "zeros", "holes", "third", "refused", "lost", "not mounted"]

# The change that opens a store in an image, and the line that it adds.
OPENING, OPENED = ("web", "/opened", "after"), "opened: after"


def shape_of(content: bytes) -> str:
    zero = content.find(b"\0")
    if zero < 0:
        return "whole" if content.endswith(b"\n...\n") else "prefix"
    return "holes" if content[zero:].strip(b"\0") else "zeros"


class Done(NamedTuple):
    """A work that was done: the files before and after, the states after each change, and the log of the archives and
    the store in the end, if there are archives."""

    before: bytes
    after: bytes
    states: list[State]
    log: list[str]


class Run:
    """What was done on a device that logs."""

    def __init__(self, todo: list[Work], done: dict[str, Done], events: list[Event]) -> None:
        self.works, self.done, self.events = todo, done, events
        self._notes: dict[str, list[int]] = {}
        for at, event in enumerate(events):
            if event.kind == "M":
                self._notes.setdefault(event.content.decode(), []).append(at)

    def noted(self, text: str) -> list[int]:
        """The places of the events that note something."""
        return self._notes.get(text, [])

    def span(self, work: Work, number: int) -> tuple[int, int]:
        """The events between which a change of a work is made, or all of it for 0."""
        (begin,), (end,) = self.noted(f"begin {work.name}"), self.noted(f"end {work.name}")
        acknowledged = [begin] * work.waiting + self.noted(f"ack {work.name}")
        return (acknowledged[number - 1], acknowledged[number - 1 + work.waiting]) if number else (begin, end)

    def cuts(self, rnd: random.Random) -> dict[int, Work]:
        """Events after which the power is cut, each in a work. Two of three are flushes of a write that began after one
        that is not flushed, if there are any, and half of them are at a change that a work is about."""
        busy = [
            at for at, (flushed, pending) in enumerate(replayed(self.events))
            if pending and any(write.number > pending[0].number for write in flushed)
        ]  # fmt: skip
        cuts = {}
        for work in self.works * IMAGES_OF_WORK:
            begin, end = self.span(work, rnd.choice(work.focus) if work.focus and rnd.random() < 1 / 2 else 0)
            within = [at for at in busy if begin < at < end]
            cuts[rnd.choice(within) if within and rnd.random() < 2 / 3 else rnd.randrange(begin, end)] = work
        return cuts

    def later(self, work: Work, cut: int) -> list[State]:
        """The states of a work from the one on that was acknowledged before a cut."""
        first = sum(at <= cut for at in self.noted(f"ack {work.name}"))
        return self.done[work.name].states[first:]

    def wrong_format(self, work: Work, state: State, found: bytes, opened: bytes) -> Iterator[str]:
        """What is wrong with the format of a file, as it is found and opened, in which a work has made a state. An
        opening may write a file of the first format anew, in the second."""
        states = self.done[work.name].states
        is_renewed = work.turn > 0 and state.number >= states[work.turn].number
        old = [FIRST, SECOND] if work.is_first else [SECOND]
        for content, formats in ((found, old[:1]), (opened, old)):
            if not content.startswith(THIRD if is_renewed else tuple(formats)):
                yield f"the format is wrong: {content[:40]!r}"
            if b"\nabout:" in content and not content.startswith(THIRD):
                yield "an about stands behind a base of another format"

    def wrong_abouts(self, work: Work, state: State, store: Path) -> Iterator[str]:
        """The lines of the log of a store whose commands have not the abouts that a work gave them."""
        before = self.done[work.name].states[0].number
        wanted = dict(enumerate(work.whys, before + 1))
        for line in confstore("log", store)[1].splitlines() if work.turn else []:
            number, told = int(line.split(" ", 1)[0]), TOLD.search(line)
            if number <= state.number and (told[1] if told else "") != wanted.get(number, ""):
                yield f"a command has another about: {line}"


class Bench(LoggedDevice):
    """A device with a store for each work."""

    def __init__(self, top: Path, system: str, rnd: random.Random, names: Sequence[str]) -> None:
        super().__init__(top, system)
        self.rnd, self.names = rnd, names
        with self.mounted(self.first):
            for work in self.works():
                store = self.tree / work.name
                given = work.before + "import: web\ntext: |\n  port: web\n...\n" + set_of("a", rnd.randint(1, 4500))
                confstore("init", store)
                confstore("run", store, given=given)
                if work.is_first:
                    (store / "store.yaml").write_bytes(self.file(work).replace(SECOND, FIRST, 1))
                if work.has_archives:
                    archives_of(store).mkdir()

    def works(self) -> list[Work]:
        return [work for work in works(self.rnd) if not self.names or work.name in self.names]

    def file(self, work: Work) -> bytes:
        return (self.tree / work.name / "store.yaml").read_bytes()

    def archives(self, work: Work) -> list[Path]:
        """The archives of a store that are made."""
        return sorted(file.parent for file in archives_of(self.tree / work.name).glob("*/store.yaml"))

    def files(self, work: Work) -> bytes:
        """The file of a store, and those of its archives."""
        return self.file(work) + b"".join((archive / "store.yaml").read_bytes() for archive in self.archives(work))

    def history(self, work: Work) -> Ended:
        """The log of a store and its archives, by confstorectl."""
        words = [word for archive in self.archives(work) for word in ("--archive", str(archive))]
        return ctl("log", "--values", self.tree / work.name, *words)

    def disturb(self, how: str, ended: threading.Event) -> None:
        """What the neighbour does, until it is told to end."""
        rnd = random.Random(how)
        while how != "nothing" and not ended.wait(0.003):
            with open(self.tree / f"neighbour{rnd.randrange(9)}", "wb", buffering=0) as file:
                file.write(b"neighbour\n" * 10)
                if how == "syncs all":
                    call("sync", "--file-system", self.tree)
                elif how == "commits" and self.system == "btrfs":
                    fcntl.ioctl(file, START_COMMIT_OF_BTRFS, bytearray(8))
                else:
                    os.fsync(file)

    def perform(self, work: Work) -> Done:
        """Does a work, and notes what is acknowledged."""
        store, before = self.tree / work.name, self.files(work)
        states = [state_of(store)]
        self.note(f"begin {work.name}")
        for number, _ in enumerate(work.acknowledged(store), 1):
            self.note(f"ack {work.name}")
            if work.is_read:
                states.append(state_of(store))
        self.note(f"end {work.name}")
        if not work.is_read:
            states = between(states[0], state_of(store), number)
        log = self.history(work)[1].splitlines() if work.has_archives else []
        numbers = range(1, states[-1].number + 1) if work.has_archives else []
        assert [line.split(" ", 1)[0] for line in log] == list(map(str, numbers)), log
        return Done(before, self.files(work), states, log)

    def run(self) -> Run:
        """Does all works, in some order, on the device that logs."""
        todo, how, hold = self.works(), self.rnd.choice(NEIGHBOURS), self.rnd.choice(HOLDS)
        with self.logged(hold, self.rnd.randrange(1 << 30)):
            ended = threading.Event()
            neighbour = threading.Thread(target=self.disturb, args=(how, ended))
            neighbour.start()
            try:
                done = {work.name: self.perform(work) for work in self.rnd.sample(todo, len(todo))}
            finally:
                ended.set()
                neighbour.join()
        return Run(todo, done, list(self.events()))

    def look(self, run: Run, work: Work, cut: int, keep: Optional[Path]) -> set[str]:
        """Opens the store of a work in the image that is mounted. Returns the columns that count it."""
        store, content, lost = self.tree / work.name, self.file(work), list(self.changed(run, work, cut))
        found = {"images", shape_of(content)} | ({"third"} if content.startswith(THIRD) else set())
        if keep:
            self.copy_found(work)
        lost += self.mend(work)
        if work.has_archives and not confstore("verify", store)[0]:
            lost += self.wrong_archives(run, work, cut)
        status, _, errors = confstore("set", store, *OPENING)
        if status and "Damaged" in errors:
            found |= {"refused"} if "holes" in found else {"refused", "refused without holes"}
            store = self.salvaged(store)
        elif status:
            lost.append(errors)
        state = state_of(store)
        state = State(state.number - (status == 0), [line for line in state.lines if line != OPENED])
        if state not in run.later(work, cut):
            lost.append("something acknowledged is missing")
        lost += run.wrong_format(work, state, content, content if status else self.file(work))
        if not status:
            lost += run.wrong_abouts(work, state, store)
        if lost:
            found.add("lost")
            print(f"LOST {self.system} {work.name}, cut off after event {cut}: {'; '.join(lost)}", flush=True)
        if keep and found & {"refused", "lost"}:
            name = f"{self.system} {work.name} {' '.join(sorted(found))} {time.time_ns()}"
            shutil.copytree(self.top / "found", keep / f"{name}, found")
            (keep / f"{name}, after.yaml").write_bytes(run.done[work.name].after)
        return found

    def changed(self, run: Run, work: Work, cut: int) -> Iterator[str]:
        """The stores of other works that are not as they were at a cut."""
        for other in run.works:
            done = run.done[other.name]
            wanted = done.after if cut > run.noted(f"end {other.name}")[0] else done.before
            if other is not work and self.files(other) != wanted:
                yield f"the store of {other.name} has changed"

    def copy_found(self, work: Work) -> None:
        """Copies what is found of a store, before it is opened."""
        shutil.rmtree(self.top / "found", ignore_errors=True)
        for folder in (self.tree / work.name, archives_of(self.tree / work.name)):
            if folder.exists():
                shutil.copytree(folder, self.top / "found" / folder.name)

    def mend(self, work: Work) -> Iterator[str]:
        """Does with each `kept.yaml` what docs/OPERATING.md says. What is wrong with it."""
        for kept in list(archives_of(self.tree / work.name).glob("*/kept.yaml")):
            if kept.samefile(self.tree / work.name / "store.yaml"):
                kept.unlink()
                continue
            if not kept.with_name("store.yaml").exists():
                yield "a file is kept without a copy beside it"
            kept.rename(kept.with_name("store.yaml"))

    def wrong_archives(self, run: Run, work: Work, cut: int) -> Iterator[str]:
        """What is wrong with the archives of a store, and with one that a second run makes. The store was not opened,
        since an opening drops the log where the file has a cut end."""
        folder = archives_of(self.tree / work.name)
        archives = sorted(folder.iterdir())
        empty = [archive for archive in archives if not (archive / "store.yaml").exists()]
        again = [*empty, *archives[-1:], folder / "0"][0]
        is_made = not empty and archives != []
        yield from self.wrong_history(run, work, cut)
        status, _, errors = ctl("checkpoint", self.tree / work.name, "--archive", again)
        if (status, "StoreExists" in errors) != (int(is_made), is_made):
            yield f"a second run with archive {again.name} ended with status {status}: {errors}"
        yield from self.wrong_history(run, work, cut)
        if self.rnd.random() < SHARE_OF_LOGS:
            status, log, errors = self.history(work)
            if (status, errors) != (0, "") or log.splitlines() != run.done[work.name].log[: log.count("\n")]:
                yield f"the log of the archives and the store ended with status {status}: {errors}"

    def wrong_history(self, run: Run, work: Work, cut: int) -> Iterator[str]:
        """What is wrong with the logs of the archives and the store: all together are those of one history, with the
        number of the store's last command, and all that was acknowledged."""
        store = self.tree / work.name
        logs = [confstore("log", "--values", folder) for folder in (store, *self.archives(work))]
        yield from (f"a log ended with status {status}: {errors}" for status, _, errors in logs if status)
        lines, number = {line for _, log, _ in logs for line in log.splitlines()}, number_of(store)
        if lines != set(run.done[work.name].log[:number]) or number < run.later(work, cut)[0].number:
            yield f"the archives and the store have not each command up to {number}"

    def salvaged(self, store: Path) -> Path:
        """What `salvage` makes of a store."""
        new = self.top / "salvaged"
        shutil.rmtree(new, ignore_errors=True)
        confstore("salvage", store, new)
        return new

    def tried(self, keep: Optional[Path]) -> Iterator[tuple[str, set[str]]]:
        """Makes a run, and its images: the work that each is of, and the columns that count it."""
        run = self.run()
        cuts = run.cuts(self.rnd)
        for at, is_mounted in self.images(run.events, cuts, self.rnd):
            yield cuts[at].name, self.look(run, cuts[at], at, keep) if is_mounted else {"not mounted"}


def counted(system: str, given: argparse.Namespace) -> dict[str, Counter[str]]:
    """What the images of a file system are, by the kind of work."""
    images, keep = given.images, given.keep
    with tempfile.TemporaryDirectory(dir="/dev/shm") as top:
        bench = Bench(Path(top), system, random.Random(f"{system} {given.seed}"), given.work or [])
        counts = {work.name: Counter[str]() for work in bench.works()}
        while sum(count["images"] for count in counts.values()) < images:
            for name, found in bench.tried(keep):
                counts[name].update(found)
    return counts


def missing() -> str:
    """What is missing to run this here, if anything is. Mounts are made in a namespace of their own."""
    if os.geteuid() != 0:
        return "it needs root"
    if not os.path.exists("/dev/fuse"):
        return "there is no /dev/fuse"
    if importlib.util.find_spec("yaml") is None:
        return "PyYAML is not installed"
    needed = ["cc", "pkg-config", "fusermount3", "losetup", *(f"mkfs.{system}" for system in MAKERS)]
    if lacking := [name for name in needed if not shutil.which(name)]:
        return f"{lacking[0]} is not installed"
    # A process elsewhere that takes over all mounts would keep an image mounted that is unmounted here.
    if ctypes.CDLL(None).unshare(NEW_NAMESPACE_OF_MOUNTS) != 0:
        return "it may not have mounts of its own"
    call("mount", "--make-rprivate", "/")
    return ""


def main() -> int:
    parser = argparse.ArgumentParser()
    parser.add_argument("--system", action="append", choices=list(MAKERS))
    parser.add_argument("--work", action="append", choices=[work.name for work in works(random.Random())])
    parser.add_argument("--images", type=int, default=1000)
    parser.add_argument("--seed", type=int, default=1)
    parser.add_argument("--known-holes", action="store_true")
    parser.add_argument("--keep", type=Path)
    given = parser.parse_args()
    need_program()
    if given.keep:
        given.keep.mkdir(parents=True, exist_ok=True)
    if why := missing():
        print(f"not run: {why}")
        return NOT_RUN
    wrong = 0
    print(f"{'file system':12}{'work':14}", *(f"{column:>{len(column) + 2}}" for column in COLUMNS))
    for system in given.system or MAKERS:
        try:
            counts = counted(system, given)
        except NotMounted as error:
            print(f"not run: {error}")
            return NOT_RUN
        counts["all"] = sum(counts.values(), Counter[str]())
        for name, count in counts.items():
            print(f"{system:12}{name:14}", *(f"{count[column]:>{len(column) + 2}}" for column in COLUMNS), flush=True)
        refused = counts["all"]["refused without holes" if given.known_holes else "refused"]
        wrong += refused + counts["all"]["lost"]
    print(f"{wrong} wrong")
    return 1 if wrong else 0


if __name__ == "__main__":
    sys.exit(main())
