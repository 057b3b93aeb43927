"""A block device that logs writes and flushes (shims/crash_device.c), and images that it may hold after a power cut.

Each image has all that was flushed before some event of the log, and of the later writes none, all or some: whole ones,
pages or sectors. It takes root, and libfuse3-dev, fuse3 and pkg-config of Debian.
"""

from __future__ import annotations

import os
import random
import struct
import subprocess
import time
from collections.abc import Container, Iterator, Sequence
from contextlib import contextmanager
from pathlib import Path
from typing import NamedTuple

from .store_runs import TOP

SECONDS = 60

# The megabytes of each file system's image, and what makes it.
MAKERS = {"ext4": (64, "mkfs.ext4 -q -b 4096 -E nodiscard,lazy_itable_init=0,lazy_journal_init=0"),
          "xfs": (300, "mkfs.xfs -q -K"), "btrfs": (120, "mkfs.btrfs -q -K -m single")}  # fmt: skip

# The chance with which the device has a part of a write that was not flushed, and the bytes of a part.
CHANCES = [0, 0.1, 0.5, 0.9, 1]
PARTS = [1 << 30, 1 << 30, 4096, 4096, 512]

ENTRY = struct.Struct("=IIQQ")


def call(*words: str | Path) -> str:
    return subprocess.run(words, check=True, capture_output=True, text=True, timeout=SECONDS).stdout.strip()


class Event(NamedTuple):
    """An entry of the log: `W` a write begins, `E` it ends, `F` what ended is flushed, `M` something is noted."""

    kind: str
    number: int
    place: int
    content: bytes


class Hold(NamedTuple):
    """How many writes of a hundred are held, and for how many milliseconds at most."""

    chance: int
    longest: int


def replayed(events: Sequence[Event]) -> Iterator[tuple[list[Event], list[Event]]]:
    """Of each event, the writes that it flushes, and those that began and are not flushed."""
    pending: dict[int, Event] = {}
    ended: list[int] = []
    for event in events:
        flushed = []
        if event.kind == "W":
            pending[event.number] = event
        elif event.kind == "E":
            ended.append(event.number)
        elif event.kind == "F":
            flushed = [pending.pop(number) for number in ended]
            ended.clear()
        yield flushed, list(pending.values())


def chosen(writes: Sequence[Event], rnd: random.Random) -> Iterator[Event]:
    """The parts of some writes that the device has."""
    chance, size = rnd.choice(CHANCES), rnd.choice(PARTS)
    for write in writes:
        for at in range(0, len(write.content), size):
            if rnd.random() < chance:
                yield write._replace(place=write.place + at, content=write.content[at : at + size])


class NotMounted(Exception):
    """The system refuses to mount an image."""


class LoggedDevice:
    """A folder with an image of a file system, and with what is made of it. The file system is mounted at `tree`."""

    def __init__(self, top: Path, system: str) -> None:
        self.top, self.system = top, system
        self.first, self.log, self.tree, self.device = (top / name for name in ("first", "log", "tree", "device"))
        self.tree.mkdir()
        self.device.mkdir()
        options = call("pkg-config", "--cflags", "--libs", "fuse3").split()
        call("cc", "-O1", "-o", top / "crash_device", f"{TOP}/checks/shims/crash_device.c", *options)
        megabytes, maker = MAKERS[system]
        self.first.touch()
        os.truncate(self.first, megabytes << 20)
        call(*maker.split(), self.first)

    def note(self, text: str) -> None:
        with open(self.log, "ab", buffering=0) as log:
            log.write(ENTRY.pack(ord("M"), 0, 0, len(text)) + text.encode())

    def events(self) -> Iterator[Event]:
        log, at = self.log.read_bytes(), 0
        while at < len(log):
            kind, number, place, size = ENTRY.unpack_from(log, at)
            at += ENTRY.size + size
            yield Event(chr(kind), number, place, log[at - size : at])

    def copied(self, source: Path, name: str) -> Path:
        """A copy in a new file, since the system may know the old one as a device."""
        call("cp", "--sparse=always", "--remove-destination", source, self.top / name)
        return self.top / name

    @contextmanager
    def mounted(self, device: Path) -> Iterator[None]:
        """Mounts a block device or an image."""
        try:
            call("mount", "-t", self.system, *([] if device.is_block_device() else ["-o", "loop"]), device, self.tree)
        except subprocess.CalledProcessError as error:
            raise NotMounted(f"{self.system} is not mounted: {error.stderr}") from error
        try:
            yield
        finally:
            call("umount", self.tree)

    @contextmanager
    def logged(self, hold: Hold, seed: int) -> Iterator[None]:
        """Mounts a copy of the first image over the device that logs."""
        self.log.write_bytes(b"")
        numbers = [str(hold.chance), str(hold.longest), str(seed)]
        image = self.copied(self.first, "image")
        with subprocess.Popen([self.top / "crash_device", image, self.log, *numbers, self.device]) as device:
            try:
                while not (self.device / "disk").exists():
                    time.sleep(0.02)
                loop = Path(call("losetup", "--direct-io=on", "--find", "--show", self.device / "disk"))
                try:
                    with self.mounted(loop):
                        yield
                finally:
                    call("losetup", "--detach", loop)
            finally:
                device.terminate()

    def images(
        self, events: Sequence[Event], cuts: Container[int], rnd: random.Random
    ) -> Iterator[tuple[int, bool]]:
        """Mounts an image of a power cut after each of some events. Yields the event, and whether it could be."""
        durable = self.copied(self.first, "durable")
        with open(durable, "r+b") as image:
            for at, (flushed, pending) in enumerate(replayed(events)):
                for write in flushed:
                    os.pwrite(image.fileno(), write.content, write.place)
                if at not in cuts:
                    continue
                crashed = self.copied(durable, "crashed")
                with open(crashed, "r+b") as changed:
                    for part in chosen(pending, rnd):
                        os.pwrite(changed.fileno(), part.content, part.place)
                try:
                    with self.mounted(crashed):
                        yield at, True
                except NotMounted:
                    yield at, False
