#!/usr/bin/env python3
"""Proves the program's crate and all below it, as many side by side as there are processors, and builds the program.

    packaging/proof.py [JOBS]

`./prove` calls it, from anywhere. A crate is proved once those below it are, by a run of `rt` of its own, and the crates
with the longest chain above them come first. As many run at once as there are processors, each with one job: a check
with four jobs takes up to three times the processor time, and ends little sooner. A crate that nothing can run beside
gets a job for each processor. JOBS is how many crates run at one time: one for each processor, if there are 3 GiB of
memory for each.

`rt` locks a crate and all below it. So each crate is proved in a folder of its own below `out/proof`, which has the
sources of these crates as they stood at the start, and links to the libraries below it. What the run makes is then moved into
the crate's `out/`, where `rt` finds it.

Lines on standard error say what is proved, and each half minute what runs and how long it has taken. What each crate
cost is kept in `out/proof-costs`, a line for each: its name, its seconds by the clock and of processors, and its jobs.
`checks/crate_costs.py` makes a table of it. The status is 0 if all is proved and built, 1 if something isn't, whose log
is then printed, and 2 if the toolchain can't be run.
"""

from __future__ import annotations

import contextlib
import fcntl
import os
import re
import shutil
import signal
import subprocess
import sys
import time
from dataclasses import dataclass, field
from pathlib import Path
from types import FrameType

TOP = Path(__file__).resolve().parent.parent
CRATES = TOP / "crates"
ROOM = TOP / "out" / "proof"
COSTS = TOP / "out" / "proof-costs"
PROGRAM = "confstore"
MEMORY_OF_A_JOB = 3 << 30
# More jobs than this one crate doesn't use.
MOST_JOBS = 4
# The seconds between two lines that say what runs.
QUIET = 30
# What a run makes in a crate's out/; what of it the crates above need; and what a next run of the crate begins with.
MADE = ("incremental", "rlib", PROGRAM)
LIBRARY = "rlib"
BEGUN = "incremental"


@dataclass
class Crate:
    """A crate of the program: the crates that it names, all below it, and how long it takes by its lines of code."""

    name: str
    named: list[str]
    below: set[str] = field(default_factory=set)
    lines: int = 0
    # The lines of the longest chain of crates that wait for it, with its own.
    chain: int = 0


@dataclass
class Run:
    """A run of rt that proves a crate."""

    crate: Crate
    jobs: int
    process: subprocess.Popen[bytes]
    start: float
    # Seconds of processors, once it has ended.
    processors: float = 0.0

    def has_ended(self) -> bool:
        """Looks whether the run has ended, and takes its status and what it used of processors, with all that it started."""
        if self.process.returncode is None:
            found, status, usage = os.wait4(self.process.pid, os.WNOHANG)
            if not found:
                return False
            self.process.returncode = os.waitstatus_to_exitcode(status)
            self.processors = usage.ru_utime + usage.ru_stime
        return True

    def log(self) -> Path:
        return ROOM / f"{self.crate.name}.log"

    def says(self, now: float) -> str:
        jobs = "" if self.jobs == 1 else f" with {self.jobs} jobs"
        return f"{self.crate.name} {now - self.start:.0f} s{jobs}"


def say(text: str) -> None:
    print(f"confstore: {text}", file=sys.stderr, flush=True)


def crates_of_program() -> dict[str, Crate]:
    """The program's crate and all below it, by crates.txt, each after those below it."""
    lines = re.findall(r"^(\w+)[^:\n]*:(.*)$", (TOP / "crates.txt").read_text(encoding="utf-8"), re.M)
    named = {name: rest.split() for name, rest in lines}
    crates: dict[str, Crate] = {}

    def add(name: str) -> None:
        if name in crates or name not in named:
            return
        crate = Crate(name, [other for other in named[name] if other in named])
        for other in crate.named:
            add(other)
            crate.below |= {other} | crates[other].below
        sources = (CRATES / name / "src").rglob("*.rt")
        crate.lines = 100 + sum(source.read_bytes().count(b"\n") for source in sources)
        crates[name] = crate

    add(PROGRAM)
    for crate in reversed(list(crates.values())):
        above = [other.chain for other in crates.values() if crate.name in other.below]
        crate.chain = crate.lines + max(above, default=0)
    return crates


def jobs_at_once() -> int:
    """One for each processor, if the memory allows."""
    processors = len(os.sched_getaffinity(0))
    found = re.search(r"^MemAvailable: +(\d+)", Path("/proc/meminfo").read_text(encoding="utf-8"), re.M)
    by_memory = int(found[1]) * 1024 // MEMORY_OF_A_JOB if found else processors
    return max(1, min(processors, by_memory))


def link(source: str, target: str) -> str:
    """Gives a file a second name. rt replaces the files in out/ and never writes into one."""
    try:
        os.link(source, target)
    except OSError:
        shutil.copy2(source, target)
    return target


def take_sources(crates: dict[str, Crate]) -> None:
    """Copies the sources, so that all crates are proved as they stood at one time."""
    shutil.rmtree(ROOM, ignore_errors=True)
    sources = ROOM / "sources"
    sources.mkdir(parents=True)
    shutil.copy2(TOP / "crates.txt", sources)
    for name in crates:
        shutil.copytree(CRATES / name, sources / "crates" / name, ignore=shutil.ignore_patterns("out", "must-fail*"))


def make_room(crate: Crate) -> Path:
    """The folder that the crate is proved in, with what is there of it and of the libraries below."""
    room = ROOM / "rooms" / crate.name
    for name in sorted(crate.below | {crate.name}):
        shutil.copytree(ROOM / "sources" / "crates" / name, room / "crates" / name, copy_function=link)
        for made in MADE if name == crate.name else (LIBRARY,):
            place = CRATES / name / "out" / made
            if place.is_dir():
                shutil.copytree(place, room / "crates" / name / "out" / made, copy_function=link)
    lines = (ROOM / "sources" / "crates.txt").read_text(encoding="utf-8").splitlines(keepends=True)
    here = [line for line in lines if re.split(r"\W", line)[0] in crate.below | {crate.name}]
    (room / "crates.txt").write_text("".join(here), encoding="utf-8")
    return room / "crates" / crate.name


def start(crate: Crate, jobs: int) -> Run:
    verb = ["run"] if crate.name == PROGRAM else ["lib"]
    arguments = ["--", "--version"] if crate.name == PROGRAM else []
    words = ["rt", *verb, "--jobs", str(jobs), *arguments]
    folder = make_room(crate)
    with (ROOM / f"{crate.name}.log").open("wb") as log:
        process = subprocess.Popen(
            words, cwd=folder, stdin=subprocess.DEVNULL, stdout=log, stderr=log, start_new_session=True
        )
    return Run(crate, jobs, process, time.monotonic())


def take_made(crate: Crate, names: tuple[str, ...] = MADE) -> None:
    """Moves what a run made, under these names, into the crate's out/, while no rt works there."""
    made = ROOM / "rooms" / crate.name / "crates" / crate.name / "out"
    place = CRATES / crate.name / "out"
    place.mkdir(exist_ok=True)
    folder = os.open(CRATES / crate.name, os.O_RDONLY)
    try:
        fcntl.flock(folder, fcntl.LOCK_EX)
        for name in names:
            if not (made / name).exists():
                continue
            if (place / name).is_dir():
                shutil.rmtree(place / name)
            shutil.move(made / name, place / name)
    finally:
        os.close(folder)
    shutil.rmtree(ROOM / "rooms" / crate.name, ignore_errors=True)


class Proof:
    """What is done, what runs, and what waits."""

    def __init__(self, crates: dict[str, Crate], jobs: int) -> None:
        self.crates = crates
        self.jobs = jobs
        self.waiting = sorted(crates.values(), key=lambda crate: -crate.chain)
        self.running: list[Run] = []
        self.done: set[str] = set()
        self.costs: list[str] = []
        self.start = time.monotonic()
        self.said = self.start

    def begin(self) -> None:
        """Starts crates that are ready, one for each processor that none is proved on."""
        ready = [crate for crate in self.waiting if crate.below <= self.done]
        is_alone = len(ready) == 1 and not self.running
        for crate in ready[: self.jobs - len(self.running)]:
            self.waiting.remove(crate)
            self.running.append(start(crate, min(MOST_JOBS, self.jobs) if is_alone else 1))

    def what_runs(self, now: float) -> str:
        return ", ".join(run.says(now) for run in self.running) or "nothing"

    def progress(self, what: str) -> None:
        now = time.monotonic()
        self.said = now
        share = f"{len(self.done)} of {len(self.crates)} crates after {now - self.start:.0f} s"
        say(f"{share}{what}; now {self.what_runs(now)}")

    def end(self, run: Run) -> bool:
        """Takes what an ended run made, and returns whether it proved its crate."""
        self.running.remove(run)
        if run.process.returncode:
            sys.stderr.write(run.log().read_text(encoding="utf-8", errors="replace"))
            say(f"{run.crate.name} was not proved; the lines above say why")
            take_made(run.crate, (BEGUN,))
            return False
        took = time.monotonic() - run.start
        self.costs.append(f"{run.crate.name} {took:.0f} {run.processors:.0f} {run.jobs}\n")
        COSTS.write_text("".join(self.costs), encoding="utf-8")
        take_made(run.crate)
        self.done.add(run.crate.name)
        self.begin()
        self.progress(f", {run.crate.name} in {took:.0f} s")
        return True

    def whole(self) -> bool:
        """Proves all, and returns whether that went well."""
        self.begin()
        while self.running:
            ended = [run for run in self.running if run.has_ended()]
            if not all([self.end(run) for run in ended]):
                return False
            if not ended:
                time.sleep(0.2)
            if time.monotonic() - self.said > QUIET:
                self.progress("")
        return len(self.done) == len(self.crates)

    def stop(self) -> None:
        """Ends the runs that are left."""
        for run in self.running:
            try:
                os.killpg(run.process.pid, signal.SIGTERM)
            except ProcessLookupError:
                pass
            run.process.wait()


def interrupt(number: int, _: FrameType | None) -> None:
    sys.exit(128 + number)


def toolchain_of_release() -> str:
    """What the released program was made with, as `rt version` prints it, or nothing where no release is here."""
    with contextlib.suppress(OSError):
        found = re.search(r'^toolchain: "(.*)"$', (TOP / "release" / "manifest").read_text(), re.M)
        return found[1] if found else ""
    return ""


def main() -> int:
    if shutil.which("rt") is None:
        say("the proof needs the Rattle toolchain: no rt is on the PATH")
        if known := toolchain_of_release():
            say(f"the release is made with the kit whose `rt version` prints '{known}': put the folder of its rt on the PATH")
        return 2
    crates = crates_of_program()
    if PROGRAM not in crates:
        say(f"crates.txt names no crate {PROGRAM}")
        return 1
    jobs = int(sys.argv[1]) if len(sys.argv) > 1 else jobs_at_once()
    # ./confstore runs no program that others may have changed.
    os.umask(os.umask(0o077) | 0o022)
    ROOM.parent.mkdir(exist_ok=True)
    with ROOM.with_suffix(".lock").open("w", encoding="utf-8") as lock:
        try:
            fcntl.flock(lock, fcntl.LOCK_EX | fcntl.LOCK_NB)
        except BlockingIOError:
            say("waiting for another proof here to end")
            fcntl.flock(lock, fcntl.LOCK_EX)
        for number in (signal.SIGINT, signal.SIGTERM, signal.SIGHUP):
            signal.signal(number, interrupt)
        say(f"proving {len(crates)} crates by {jobs} jobs, and building the program")
        proof = Proof(crates, jobs)
        try:
            take_sources(crates)
            return 0 if proof.whole() else 1
        finally:
            proof.stop()
            shutil.rmtree(ROOM, ignore_errors=True)


if __name__ == "__main__":
    sys.exit(main())
