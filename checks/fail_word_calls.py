#!/usr/bin/env python3
"""Lets each system call of each word that changes a store, or makes files of one, go wrong in turn, and looks at what
is left.

The library and the ways in which a call goes wrong are those of lib/call_faults.py; the words, and what each has to
leave, are in lib/word_rows.py. Each time `store.yaml` has what it had or what the word makes of it, once what opening
drops is taken off, and a new store of `init`, `salvage` or `backup` is not there or is whole. A file that
`export --all` replaces is the old one or the new one, and one that it makes is not there, is empty, or is whole.
Status 0 says that the change is made. Another status comes with a fault, and where no call after the failed one fails
too, no empty folder is left, but by `export --all`. `verify` then finds the store whole, and the word, run again, makes
the change or finds it made.

Run it from the repository's root after the program is built. It takes a minute, and needs a C compiler:

    ./prove && python3 checks/fail_word_calls.py

The last line is 'N passed, M failed', and the status is 0 if M is 0.
"""

from __future__ import annotations

import functools
import os
import re
import shutil
import subprocess
import sys
import tempfile
from collections.abc import Mapping
from dataclasses import dataclass

from lib.call_faults import ENDED, Call, Kind, calls_in, counted, try_faults
from lib.store_runs import PROGRAM, Ended, Failures, compiled, need_program
from lib.word_rows import BASE, FILES, STORE, WORDS, Word, files_in, new_folder

# The line of a fault, as `confstore: Device`, or of a file that is read or written, as `-: Input`.
FAULT = re.compile(r"confstore: (Device|Locked|Output)|(confstore|-|VALUE): Input|(NEW|D)/web\.(yaml|json): Output")
# The words that a store in the new folder refuses.
INTO_NEW = ("salvage", "backup")
# The folders in which words make files.
FOLDERS = ("NEW/", "D/")


@dataclass(frozen=True)
class Trial:
    """The runs of a word in folders of their own."""

    top: str
    word: Word

    def run(self, folder: str, faults: Mapping[str, str]) -> Ended:
        library = os.path.join(self.top, "fail_calls.so")
        return self.word.run(folder, {**os.environ, "LD_PRELOAD": library, **faults})

    def calls(self, failures: Failures) -> list[Call]:
        """The calls of a run without faults."""
        log = os.path.join(self.top, f"log {self.word.words.replace('/', ' ')}")
        folder = new_folder(os.path.join(self.top, "plain", self.word.words.replace("/", " ")))
        name = f"{self.word.words}, without faults"
        failures.expect(name, self.run(folder, {"FAULT_LOG": log}), (self.word.status, self.word.output, ""))
        failures.expect(f"{name}: files", files_in(folder), self.word.files())
        return calls_in(log)


def without_rest(content: bytes) -> bytes:
    """The bytes of a store's file up to its last closing line: opening drops what is behind."""
    pieces, closing, _ = content.rpartition(b"\n...\n")
    return pieces + closing


def is_store(name: str) -> bool:
    return os.path.basename(name) == "store.yaml"


def held_in(files: Mapping[str, bytes], name: str) -> bytes:
    """What a file has, and one of a store up to its last closing line; nothing if it isn't there."""
    found = files.get(name, b"")
    return without_rest(found) if is_store(name) else found


def is_whole(trial: Trial, files: Mapping[str, bytes], start: bytes = STORE) -> bool:
    """Whether all that the word makes of this start is made."""
    word = trial.word
    store = start + word.store[len(STORE) :] if word.store.startswith(STORE) else word.store
    made = {"S/store.yaml": store, **word.made}
    return all(held_in(files, name) == content for name, content in made.items())


def is_empty(folder: str) -> bool:
    return os.path.isdir(folder) and not os.listdir(folder)


def may_have(file: str, found: bytes, content: bytes) -> bool:
    """Whether a file that is to have this content may be found so: one that is replaced is the old one or the new one,
    and a new one that is no store may have nothing in it."""
    return found == content or (not is_store(file) and found == FILES.get(file, b""))


def expect_files(trial: Trial, name: str, files: Mapping[str, bytes], failures: Failures) -> None:
    """The store has what it had or what the word makes of it, and a new one is not there or whole."""
    held = held_in(files, "S/store.yaml")
    failures.expect(f"{name}: store.yaml is {held!r}", held in (STORE, trial.word.store), True)
    for file, content in trial.word.made.items():
        found = files.get(file, content)
        failures.expect(f"{name}: {file} is {found!r}", may_have(file, found, content), True)


def expect_told(
    trial: Trial, name: str, status: int, errors: str, files: Mapping[str, bytes], failures: Failures
) -> None:
    """The status and the fault of a run that came to its end tell what is there."""
    lines = errors.splitlines()
    if status == trial.word.status:
        failures.expect(f"{name}: done, and whole", (is_whole(trial, files), errors), (True, ""))
        return
    told = FAULT.fullmatch(lines[0]) if lines else None
    failures.expect(f"{name}: {errors!r} has a fault", told is not None, True)
    failures.expect(f"{name}: status", status, 3)


def run_again(trial: Trial, name: str, folder: str, was_whole: bool, failures: Failures) -> None:
    """The store is whole, and the word makes the change, or says that it is made."""
    verified = subprocess.run([PROGRAM, "verify", "S"], cwd=folder, capture_output=True, check=False)
    begins = verified.stdout.startswith(b"state: whole\n")
    failures.expect(f"{name}: verified", (verified.returncode, begins), (0, True))
    status, _, errors = trial.word.run(folder, os.environ)
    if not was_whole:
        said = "".join(line for line in errors.splitlines(keepends=True) if "dropped" not in line)
        failures.expect(f"{name}: run again", (status, said), (trial.word.status, ""))
        # Opening puts a base in the place of a file whose last record is torn.
        made = files_in(folder)
        failures.expect(f"{name}: then whole", is_whole(trial, made) or is_whole(trial, made, BASE), True)
    elif trial.word.words.startswith(INTO_NEW):
        failures.expect(f"{name}: run again", (status, errors), (1, "confstore: StoreExists\n"))


def try_fault(trial: Trial, call: Call, kind: Kind) -> tuple[Failures, str]:
    """A run with a fault: what is wrong with it, and how it ended."""
    name = f"{trial.word.words}, {call}, {kind}"
    folder = new_folder(os.path.join(trial.top, name.replace("/", " ")))
    failures = Failures()
    status, _, errors = trial.run(folder, kind.environment(call.number))
    files = files_in(folder)
    expect_files(trial, name, files, failures)
    if kind.answer == "exit":
        failures.expect(f"{name}: ending", (status, errors), (ENDED, ""))
    else:
        expect_told(trial, name, status, errors, files, failures)
        if not kind.later and call.name != "rmdir" and not trial.word.leaves_empty:
            failures.expect(f"{name}: no empty folder", is_empty(os.path.join(folder, "NEW")), False)
    whole = is_whole(trial, files)
    run_again(trial, name, folder, whole, failures)
    shutil.rmtree(folder)
    return failures, "ended" if kind.answer == "exit" else "done" if status == trial.word.status else "refused"


def try_word(top: str, word: Word, failures: Failures) -> None:
    """Each kind of fault at each call of a word."""
    trial = Trial(top, word)
    endings = try_faults(trial.calls(failures), functools.partial(try_fault, trial), failures)
    print(f"  {word.words}: {counted(endings)}")


def main() -> int:
    need_program()
    failures = Failures()
    with tempfile.TemporaryDirectory() as top:
        compiled("fail_calls.c", top)
        for word in WORDS:
            if word.store != STORE or any(file.startswith(FOLDERS) for file in word.made):
                try_word(top, word, failures)
    return failures.report()


if __name__ == "__main__":
    sys.exit(main())
