#!/usr/bin/env python3
"""Searches all orders of the single calls by which runs take the locks of a store (crates/conf_locks), for two that hold
it at once.

Three runs open the folder, are refused or hold the store, and end, some of them twice. Each may be killed before each
call. One is of another user, and may open no file that the others made. A program that is no run may hold the folder's
lock. Two things are tried:

- In no order two runs hold the store.
- Each broken variant of the order of calls lets two runs hold it in some order, so the search sees faults of its kind.

    python3 checks/search_locks.py

It takes some seconds. The last line is 'N passed, M failed', and the status is 0 if M is 0.
"""

from __future__ import annotations

import sys
from collections.abc import Iterator
from typing import NamedTuple, Optional

from lib.store_runs import Failures

RUNS = 3
STRANGER = 2
PROGRAM = -1
# How often a run may begin, and how many files may be made.
BEGINS = (2, 2, 1)
FILES = 4

OPEN, IS_MARKED, LOCK, SHARE, FIND, LOCK_FOLDER, MAKE, OPEN_FOUND, IS_THERE_MARKED, REMOVE, MAKE_AGAIN = range(11)
LOCK_MADE, MARK, HOLDS, ENDED = range(11, 15)


class File(NamedTuple):
    """A `store.lock`, which has the name or had it."""

    maker: int
    marked: bool
    holder: Optional[int]


class Run(NamedTuple):
    """Where a run is: its next call, the file that it has open, whether it made it, and how often it may still begin."""

    step: int
    file: Optional[int]
    made: bool
    begins: int


class Folder(NamedTuple):
    path: Optional[int]
    files: tuple[File, ...]
    alone: Optional[int]
    shared: frozenset[int]
    runs: tuple[Run, ...]


class Rules:
    """The order of calls of `take_locks`, as it is."""

    finds_in_place = True
    locks_folder = True
    keeps_marked = True
    locks_before_finding = True


class NeverFinds(Rules):
    finds_in_place = False


class NeverLocksFolder(Rules):
    locks_folder = False


class ReplacesMarked(Rules):
    keeps_marked = False


class FindsBeforeLocking(Rules):
    locks_before_finding = False


def may_open(run: int, file: File) -> bool:
    return run == file.maker or (run != STRANGER and file.maker != STRANGER)


def with_run(folder: Folder, run: int, **changes: object) -> Folder:
    runs = list(folder.runs)
    runs[run] = runs[run]._replace(**changes)  # type: ignore[arg-type]
    return folder._replace(runs=tuple(runs))


def with_file(folder: Folder, at: int, **changes: object) -> Folder:
    files = list(folder.files)
    files[at] = files[at]._replace(**changes)  # type: ignore[arg-type]
    return folder._replace(files=tuple(files))


def ended(folder: Folder, run: int) -> Folder:
    """The run ends or is killed: all its locks are let go."""
    for at, file in enumerate(folder.files):
        if file.holder == run:
            folder = with_file(folder, at, holder=None)
    alone = None if folder.alone == run else folder.alone
    folder = folder._replace(alone=alone, shared=folder.shared - {run})
    return with_run(folder, run, step=ENDED, file=None, made=False)


def locked(folder: Folder, run: int, then: int) -> Folder:
    """The run asks for the lock of the file that it has open."""
    at = folder.runs[run].file
    assert at is not None
    if folder.files[at].holder is not None:
        return ended(folder, run)
    return with_run(with_file(folder, at, holder=run), run, step=then)


def made(folder: Folder, run: int, otherwise: Optional[int], is_new: bool) -> Optional[Folder]:
    """The run makes the file, where there is none. None where the search makes no more files."""
    if folder.path is not None:
        return ended(folder, run) if otherwise is None else with_run(folder, run, step=otherwise)
    at = len(folder.files)
    if at == FILES:
        return None
    folder = folder._replace(path=at, files=(*folder.files, File(run, False, None)))
    return with_run(folder, run, step=LOCK_MADE, file=at, made=is_new)


def opened(folder: Folder, run: int) -> Optional[int]:
    """The file that has the name, if the run may open it."""
    at = folder.path
    return at if at is not None and may_open(run, folder.files[at]) else None


def called(folder: Folder, run: int, rules: type[Rules]) -> Optional[Folder]:
    """After the next call of a run."""
    step, at = folder.runs[run].step, folder.runs[run].file
    first = LOCK if rules.locks_before_finding else FIND
    if step == OPEN:
        at = opened(folder, run)
        return with_run(folder, run, step=LOCK_FOLDER if at is None else IS_MARKED, file=at)
    if step == IS_MARKED:
        assert at is not None
        return with_run(folder, run, step=first if folder.files[at].marked else LOCK_FOLDER)
    if step == LOCK:
        return locked(folder, run, SHARE)
    if step == SHARE:
        if folder.alone is None:
            folder = folder._replace(shared=folder.shared | {run})
        is_found = not rules.finds_in_place or not rules.locks_before_finding
        return with_run(folder, run, step=HOLDS if is_found else FIND)
    if step == FIND:
        if folder.path != at:
            return ended(folder, run)
        return with_run(folder, run, step=HOLDS if rules.locks_before_finding else LOCK)
    if step == LOCK_FOLDER:
        if rules.locks_folder:
            if folder.alone is not None or folder.shared:
                return ended(folder, run)
            folder = folder._replace(alone=run)
        return with_run(folder, run, step=MAKE, file=None)
    if step == MAKE:
        return made(folder, run, OPEN_FOUND, True)
    if step == OPEN_FOUND:
        at = opened(folder, run)
        if at is not None:
            return with_run(folder, run, step=LOCK_MADE, file=at)
        return ended(folder, run) if folder.path is None else with_run(folder, run, step=IS_THERE_MARKED)
    if step == IS_THERE_MARKED:
        is_kept = rules.keeps_marked and folder.path is not None and folder.files[folder.path].marked
        return ended(folder, run) if is_kept else with_run(folder, run, step=REMOVE)
    if step == REMOVE:
        return with_run(folder._replace(path=None), run, step=MAKE_AGAIN)
    if step == MAKE_AGAIN:
        return made(folder, run, None, False)
    if step == LOCK_MADE:
        return locked(folder, run, MARK)
    if step == MARK:
        assert at is not None
        return with_run(with_file(folder, at, marked=True), run, step=HOLDS)
    return None


def follows(folder: Folder, rules: type[Rules]) -> Iterator[Folder]:
    """All that may be after one more call, kill, or step of the other program."""
    for at, run in enumerate(folder.runs):
        if run.step == ENDED:
            if run.begins:
                yield with_run(folder, at, step=OPEN, begins=run.begins - 1)
            continue
        yield ended(folder, at)
        if run.step == HOLDS and run.made:
            yield ended(folder._replace(path=None), at)
        after = called(folder, at, rules)
        if after is not None:
            yield after
    if folder.alone == PROGRAM:
        yield folder._replace(alone=None)
    elif folder.alone is None and not folder.shared:
        yield folder._replace(alone=PROGRAM)


def two_hold(rules: type[Rules]) -> tuple[bool, int]:
    """Whether two runs hold the store in some order, and how many states were seen."""
    first = Folder(None, (), None, frozenset(), tuple(Run(ENDED, None, False, count) for count in BEGINS))
    seen, left = {first}, [first]
    while left:
        folder = left.pop()
        for after in follows(folder, rules):
            if after in seen:
                continue
            if sum(run.step == HOLDS for run in after.runs) > 1:
                return True, len(seen)
            seen.add(after)
            left.append(after)
    return False, len(seen)


def main() -> int:
    failures = Failures()
    found, count = two_hold(Rules)
    print(f"{count} states")
    failures.expect("two runs hold the store", found, False)
    for rules in (NeverFinds, NeverLocksFolder, ReplacesMarked, FindsBeforeLocking):
        failures.expect(f"{rules.__name__} is seen", two_hold(rules)[0], True)
    return failures.report()


if __name__ == "__main__":
    sys.exit(main())
