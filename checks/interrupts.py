#!/usr/bin/env python3
"""Raises exceptions from a signal handler in calls of the Python package, as Ctrl-C does, and looks at what was done.

Each interruption hits one call of a store or a reader: `set`, `put`, `import_text`, `delete`, a batch, many batches,
`checkpoint`, the calls that read, `close`, the end of `with`, the last use of a store, `reopen`, and the opening. One
half comes from a timer, after a time that moves through the call and beyond it, every fourth of them twice in a row.
The other half comes at any bytecode of the package. Two threads use the same store meanwhile, and are never
interrupted. After each interruption another call has to get its own answer.

At the end the records of the store are compared with what the calls were told: each command is there at most once, each
that returned is there with the number that it returned, none is there that was not sent. No call may take longer than
20 seconds, and no process may be left behind.

Run it from the repository's root after the program is built; it takes ten seconds, or two minutes for 10,000:

    ./prove && python3 checks/interrupts.py [--interruptions 10000] [--seed NUMBER]

The status is 0 if all is as it should be.
"""

from __future__ import annotations

import argparse
import collections
import concurrent.futures
import faulthandler
import gc
import glob
import itertools
import json
import os
import random
import signal
import subprocess
import sys
import tempfile
import threading
import time
from collections.abc import Callable, Sequence
from types import FrameType
from typing import Any, TypeVar

from lib.store_runs import PROGRAM, TOP, Failures, need_program
from lib.waiting import until

PACKAGE = os.path.join(TOP, "python", "confstore")
sys.path.insert(0, os.path.dirname(PACKAGE))
os.environ["CONFSTORE"] = PROGRAM

from confstore import Closed, ConfstoreError, Edit, Locked, Reader, SessionEnded, Store, to_text  # noqa: E402
from confstore.other import Program  # noqa: E402

# How many interruptions a process makes, how many seconds a call may take, and how long a whole process may.
BLOCK = 100
PATIENCE = 20
LONGEST_BLOCK = 300

# How much is shown of what a process wrote to standard error.
ERRORS_SHOWN = 1_000

# How many steps of a call's time a timer moves through; the last ones are beyond its end.
STEPS = 40

VALUES: dict[str, Any] = {
    f"v{number}": {"own": f"value {number}", "list": [str(number)] * number} for number in range(6)
}
NAMES = ["l", "p", "t", "d", "o0", "o1", *VALUES]
STOPPED = "stopped"

Result = TypeVar("Result")
# What is interrupted, and what is done with what it returned or raised.
Call = Callable[[], object]
Told = Callable[[Any], object]


class Stop(BaseException):
    """What the handler raises."""


class Interrupter:
    """Raises `Stop` in a call that is under way."""

    def __init__(self) -> None:
        self.left = 0
        self.found: object = STOPPED
        signal.signal(signal.SIGALRM, self.handle)

    def handle(self, *_: object) -> None:
        if self.left > 0:
            self.left -= 1
            raise Stop

    def attempt(self, call: Call, arm: Call) -> None:
        """Makes a call, and notes what it returned or raised. `Stop` may come twice, also while this is noted."""
        self.found = STOPPED
        try:
            try:
                try:
                    arm()
                    self.found = call()
                except Stop:
                    pass
                except Exception as fault:  # one that is no fault of the package is looked at too
                    self.found = fault
                self.left = 0
            except Stop:
                self.left = 0
        except Stop:
            self.left = 0

    def by_timer(self, call: Call, delay: float, times: int) -> object:
        """What a call returned or raised that is interrupted after a time."""

        def arm() -> None:
            self.left = times
            signal.setitimer(signal.ITIMER_REAL, max(delay, 1e-6), 5e-5 if times > 1 else 0)

        self.attempt(call, arm)
        signal.setitimer(signal.ITIMER_REAL, 0)
        return self.found

    def by_opcode(self, call: Call, number: int) -> tuple[object, int]:
        """What a call returned or raised that is interrupted before so many bytecodes of the package, and how many
        were left to come to when it ended."""
        left = number

        def inside(frame: FrameType, event: str, _: object) -> Callable[..., Any]:
            nonlocal left
            frame.f_trace_opcodes = True
            if event == "opcode":
                left -= 1
                if left == 0:
                    raise Stop
            return inside

        def tracer(frame: FrameType, *_: object) -> Callable[..., Any] | None:
            if frame.f_code.co_filename.startswith(PACKAGE):
                frame.f_trace_opcodes = True
                return inside
            return None

        self.attempt(call, lambda: sys.settrace(tracer))
        sys.settrace(None)
        return self.found, left


def children() -> list[str]:
    """The processes that this one has started and not taken."""
    found: list[str] = []
    for path in glob.glob("/proc/self/task/*/children"):
        try:
            with open(path, encoding="ascii") as source:
                found += source.read().split()
        except OSError:
            pass
    return found


def unlocked(call: Callable[[], Result]) -> Result:
    """What a call gives on a store that another one may just be letting go of."""
    end = time.monotonic() + PATIENCE
    while True:
        try:
            return call()
        except Locked:
            if time.monotonic() > end:
                raise
            time.sleep(0.005)


def opened(folder: str) -> Store:
    return unlocked(lambda: Store(folder, timeout=PATIENCE))


class Beside(threading.Thread):
    """Appends to a list of its own, and is never interrupted."""

    def __init__(self, block: Block, number: int) -> None:
        super().__init__(daemon=True)
        self.block, self.number = block, number
        self.stop = threading.Event()

    def run(self) -> None:
        for turn in itertools.count():
            if self.stop.is_set():
                return
            tag = f"{self.number}-{turn}"
            try:
                count = self.block.store.set(f"o{self.number}", "/-", tag)
                self.block.told.append(((Edit("set", f"o{self.number}", "/-", tag),), count))
            except (Closed, SessionEnded):
                self.block.told.append(((Edit("set", f"o{self.number}", "/-", tag),), None))
            except ConfstoreError as fault:
                self.block.wrong.append(f"a call beside: {type(fault).__name__}: {fault}")
            time.sleep(0.01)


class Block:
    """Interruptions of calls on one store."""

    def __init__(self, top: str, number: int) -> None:
        self.folder, self.other = os.path.join(top, "store"), os.path.join(top, "other")
        self.number = number
        self.chance = random.Random(number)
        self.interrupter = Interrupter()
        self.told: list[tuple[tuple[Edit, ...], int | None]] = []
        self.wrong: list[str] = []
        self.counts: collections.Counter[str] = collections.Counter()
        self.times: dict[str, float] = {}
        self.lengths: dict[str, int] = {}
        self.store = Store(self.folder, timeout=PATIENCE, make=True)
        trees: dict[str, Any] = {"l": [], "p": "", "t": "", "o0": [], "o1": [], **VALUES}
        for name, tree in trees.items():
            self.store.put(name, tree)
        self.store.put("d", {f"k{number}": "" for number in range(BLOCK)})
        self.setup = self.store.set("p", "", "ready")
        Store(self.other, make=True).close()

    # ---- calls: each is what to interrupt, and what to do with what it returned

    def append(self, tag: str) -> tuple[Call, Told]:
        return self.change(lambda: self.store.set("l", "/-", tag), Edit("set", "l", "/-", tag))

    def put(self, tag: str) -> tuple[Call, Told]:
        return self.change(lambda: self.store.put("p", {"tag": tag}), Edit("import", "p", "", {"tag": tag}))

    def import_text(self, tag: str) -> tuple[Call, Told]:
        return self.change(lambda: self.store.import_text("t", f"- {tag}\n"), Edit("import", "t", "", [tag]))

    def delete(self, tag: str) -> tuple[Call, Told]:
        return self.change(lambda: self.store.delete("d", "/" + tag), Edit("delete", "d", "/" + tag, None))

    def batch(self, tag: str) -> tuple[Call, Told]:
        def call() -> int | None:
            with self.store.batch() as batch:
                batch.set("l", "/-", tag)
                batch.put("p", tag)
            return batch.count

        return self.change(call, Edit("set", "l", "/-", tag), Edit("import", "p", "", tag))

    def batches(self, tag: str) -> tuple[Call, Told]:
        tags = [f"{tag}-{number}" for number in range(3)]
        edits: list[list[Any]] = [[{"set": "l", "path": "/-", "value": each}] for each in tags]

        def told(found: object) -> None:
            counts = found if isinstance(found, list) else [found] * 3
            for each, count in zip(tags, counts):
                self.note((Edit("set", "l", "/-", each),), count)

        return lambda: self.store.perform_batches(edits), told

    def change(self, call: Call, *edits: Edit) -> tuple[Call, Told]:
        return call, lambda found: self.note(edits, found)

    def note(self, edits: tuple[Edit, ...], found: object) -> None:
        if isinstance(found, Exception):
            self.wrong.append(f"{edits[0].kind} raised {type(found).__name__}: {found}")
        self.told.append((edits, found if isinstance(found, int) else None))

    def checkpoint(self, _: str) -> tuple[Call, Told]:
        """It is one of another store, since the records go with it."""
        store = opened(self.other)
        wanted = store.put("n", "x")

        def told(found: object) -> None:
            self.expect("checkpoint", found, wanted)
            self.expect("after a checkpoint", (store.get("n"), store.checkpoint()), ("x", wanted))
            store.close()

        return store.checkpoint, told

    def reading(self, name: str, call: Call, wanted: object) -> tuple[Call, Told]:
        return call, lambda found: self.expect(name, found, wanted)

    def get(self, _: str) -> tuple[Call, Told]:
        name = self.chance.choice(list(VALUES))
        return self.reading("get", lambda: self.store.get(name), VALUES[name])

    def export(self, _: str) -> tuple[Call, Told]:
        name = self.chance.choice(list(VALUES))
        return self.reading("export", lambda: self.store.export(name), to_text(VALUES[name]))

    def names(self, _: str) -> tuple[Call, Told]:
        return self.reading("names", lambda: sorted(self.store.names()), sorted(NAMES))

    def contains(self, _: str) -> tuple[Call, Told]:
        return self.reading("in", lambda: ("v1" in self.store, len(self.store)), (True, len(NAMES)))

    def read_names(self, _: str) -> tuple[Call, Told]:
        return self.reading("Reader.names", lambda: sorted(Reader(self.folder).names()), sorted(NAMES))

    def read_get(self, _: str) -> tuple[Call, Told]:
        name = self.chance.choice(list(VALUES))
        return self.reading("Reader.get", lambda: Reader(self.folder).get(name), VALUES[name])

    def read_log(self, _: str) -> tuple[Call, Told]:
        def call() -> list[int]:
            return [record.number for record in Reader(self.folder).log()][: self.setup]

        return self.reading("Reader.log", call, list(range(1, self.setup + 1)))

    def read_at(self, _: str) -> tuple[Call, Told]:
        return self.reading("Reader.at", lambda: self.store.at(self.setup)["p"], "ready")

    def close(self, _: str) -> tuple[Call, Told]:
        return self.store.close, self.again

    def leave(self, _: str) -> tuple[Call, Told]:
        def call() -> None:
            with self.store:
                pass

        return call, self.again

    def again(self, found: object) -> None:
        """A store that was to be closed is closed, and opened again."""
        self.expect("close", found, None)
        self.store.close()
        try:
            self.store.get("v1")
            self.wrong.append("a store that is closed answers")
        except Closed:
            pass
        unlocked(self.store.reopen)

    def reopen(self, _: str) -> tuple[Call, Told]:
        if self.chance.random() < 0.5:
            self.store.close()
        else:
            other = self.store._session._other
            assert isinstance(other, Program)
            os.kill(other.process.pid, signal.SIGKILL)
            if not until(lambda: self.store._session.end is not None, PATIENCE):
                self.wrong.append("a session that is killed does not end")

        def told(found: object) -> None:
            self.expect("reopen", found, None)
            unlocked(self.store.reopen)

        return self.store.reopen, told

    def opening(self, _: str) -> tuple[Call, Told]:
        def told(found: object) -> None:
            if isinstance(found, Store):
                found.close()
            elif found is not STOPPED:
                self.wrong.append(f"opening: {found!r}")
            self.interrupter.found = found = None
            opened(self.other).close()

        return lambda: Store(self.other, timeout=PATIENCE), told

    def drop(self, _: str) -> tuple[Call, Told]:
        stores = [opened(self.other)]

        def call() -> None:
            del stores[0]

        def told(_: object) -> None:
            stores.clear()
            gc.collect()
            opened(self.other).close()

        return call, told

    # ---- what is looked at

    def expect(self, name: str, found: object, wanted: object) -> None:
        if found is not STOPPED and found != wanted:
            self.wrong.append(f"{name}: {str(found)[:200]!r} instead of {str(wanted)[:200]!r}")

    def later(self) -> None:
        """A call after an interruption gets its own answer."""
        name = self.chance.choice(list(VALUES))
        try:
            self.expect("a later call", self.store.get(name), VALUES[name])
        except ConfstoreError as fault:
            self.wrong.append(f"a later call: {type(fault).__name__}: {str(fault)[:80]}")
            unlocked(self.store.reopen)

    def compare(self) -> None:
        """The records beside what was told."""
        records = {record.number: record.edits for record in Reader(self.folder).log()[self.setup :]}
        performed = collections.Counter(map(repr, records.values()))
        sent = {repr(edits) for edits, _ in self.told}
        for edits, count in self.told:
            if count is not None and records.get(count) != edits:
                self.counts["a count of another command"] += 1
            if count is not None and not performed[repr(edits)]:
                self.counts["acknowledged and missing"] += 1
        self.counts["performed twice"] += sum(number > 1 for number in performed.values())
        self.counts["never sent"] += sum(edits not in sent for edits in performed)
        self.counts["returned"] += sum(count is not None for _, count in self.told)
        self.counts["unknown and performed"] += sum(
            count is None and performed[repr(edits)] for edits, count in self.told
        )

    def interrupt(self, kind: str, turn: int, tag: str) -> None:
        """One interruption of a call of this kind."""
        call, told = getattr(self, kind)(tag)
        faulthandler.dump_traceback_later(PATIENCE + 10, exit=True)
        if turn % 2:
            found, left = self.interrupter.by_opcode(call, 1 + self.chance.randrange(self.lengths[kind]))
            self.counts["bytecodes" if left <= 0 else "no bytecode"] += 1
        else:
            delay = self.times[kind] * 1.2 * (turn // 2 % STEPS + self.chance.random()) / STEPS
            found = self.interrupter.by_timer(call, delay, 2 if turn % 8 == 0 else 1)
        self.counts["stopped"] += found is STOPPED
        told(found)
        self.later()
        faulthandler.cancel_dump_traceback_later()

    def measure(self) -> None:
        """How long a call of each kind takes, and how many bytecodes of the package it has."""
        for kind in dict.fromkeys(KINDS):
            call, told = getattr(self, kind)("k0")
            start = time.perf_counter()
            found = self.interrupter.by_timer(call, 1000, 0)
            self.times[kind] = time.perf_counter() - start
            told(found)
            call, told = getattr(self, kind)("k1")
            found, left = self.interrupter.by_opcode(call, 10**9)
            told(found)
            self.lengths[kind] = max(10**9 - left, 1)

    def run(self) -> None:
        self.measure()
        beside = [Beside(self, number) for number in range(2)]
        for thread in beside:
            thread.start()
        try:
            for turn in range(2, BLOCK):
                number = self.number * BLOCK + turn
                self.interrupt(KINDS[number // 2 % len(KINDS)], number, f"k{turn}")
        except Exception as fault:
            self.wrong.append(f"no call works any more: {type(fault).__name__}: {fault}")
        for thread in beside:
            thread.stop.set()
            thread.join(PATIENCE)
            self.expect("a thread beside lives on", thread.is_alive(), False)
        self.compare()
        self.store.close()
        self.interrupter.found = None
        gc.collect()
        if not until(lambda: not children(), PATIENCE):
            self.counts["a process that is left"] += 1


# The kinds of calls, the cheap ones more than once.
CHEAP = ["append", "put", "import_text", "delete", "batch", "batches", "get", "export", "names", "contains"]
KINDS = [*CHEAP, "close", *CHEAP, "reopen", "leave", *CHEAP, "opening", "read_names", *CHEAP, "drop", "read_get"]
KINDS += [*CHEAP, "checkpoint", "read_log", *CHEAP, "read_at"]


def run_block(number: int, folder: str) -> int:
    """A block in this process, whose counts are printed."""
    block = Block(folder, number)
    block.run()
    print(json.dumps([block.counts, block.wrong]), flush=True)
    return 0


def block_of(number: int) -> tuple[dict[str, int], Sequence[str]]:
    """A block in a process of its own: its counts, and what was wrong."""
    with tempfile.TemporaryDirectory(dir=os.environ.get("INTERRUPTS_FOLDER")) as top:
        words = [sys.executable, os.path.abspath(__file__), "--block", str(number), "--folder", top]
        done = subprocess.Popen(
            words, start_new_session=True, stdout=subprocess.PIPE, stderr=subprocess.PIPE, text=True
        )
        try:
            output, errors = done.communicate(timeout=LONGEST_BLOCK)
        except subprocess.TimeoutExpired:
            done.kill()
            output, errors = done.communicate()
            return {"hung": 1}, [errors[-ERRORS_SHOWN:]]
    if "Timeout (" in errors:
        return {"hung": 1}, [errors[-ERRORS_SHOWN:]]
    try:
        counts, wrong = json.loads(output)
    except ValueError:
        return {"broken": 1}, [errors[-ERRORS_SHOWN:]]
    return counts, wrong + ([errors[-ERRORS_SHOWN:]] if errors else [])


def main() -> int:
    parser = argparse.ArgumentParser()
    parser.add_argument("--interruptions", type=int, default=1_000)
    parser.add_argument("--seed", type=int, default=random.randrange(10**6))
    parser.add_argument("--jobs", type=int, default=max((os.cpu_count() or 2) // 2, 1))
    parser.add_argument("--block", type=int, help=argparse.SUPPRESS)
    parser.add_argument("--folder", help=argparse.SUPPRESS)
    arguments = parser.parse_args()
    need_program()
    if arguments.block is not None:
        return run_block(arguments.block, arguments.folder)
    print(f"seed {arguments.seed}")
    blocks = -(-arguments.interruptions // (BLOCK - 2))
    failures = Failures()
    counts: collections.Counter[str] = collections.Counter()
    with concurrent.futures.ThreadPoolExecutor(arguments.jobs) as jobs:
        for found, wrong in jobs.map(block_of, range(arguments.seed, arguments.seed + blocks)):
            counts.update(found)
            failures.tried += BLOCK - 2
            failures.wrong += wrong
    for name in ("a count of another command", "acknowledged and missing", "performed twice", "never sent"):
        failures.expect(name, counts[name], 0)
    for name in ("a process that is left", "hung", "broken"):
        failures.expect(name, counts[name], 0)
    failures.expect("some were stopped", counts["stopped"] > arguments.interruptions // 4, True)
    print(f"{blocks * (BLOCK - 2)} interruptions: " + ", ".join(f"{count} {name}" for name, count in counts.items()))
    return failures.report()


if __name__ == "__main__":
    sys.exit(main())
