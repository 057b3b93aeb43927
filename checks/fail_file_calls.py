#!/usr/bin/env python3
"""Lets each system call of `confstore format -i` on two files go wrong in turn, and looks at the files.

The library and the ways in which a call goes wrong are those of lib/call_faults.py. The first file is named by a link.
Each time a file is its old text or its new one, whole, with its mode, and the link stays. The status and the message
tell what was done: status 0 and no message where both files are new; else status 3, and a line for each file that was
not read or not replaced, with the cause in a second line where one is known. Every file that is not named is new. One
that is named as `Input` is old. One that is named as `Output` is old, or new where the rename was made but failed, or
its folder could not be synced then.

No new file is left beside them, but where the process was ended, the removal failed too, or the file was made by a call
that failed. A run without faults then finds a folder in which it works as ever.

Then each allocation of that run is refused in turn (shims/refuse.c): status 1 and `OutOfMemory` of the file, which is
old, or of the program, when both are; or the run does without it.

Run it from the repository's root after the program is built. It takes some seconds, and needs a C compiler:

    ./prove && python3 checks/fail_file_calls.py

The status is 0 if all is as it should be.
"""

from __future__ import annotations

import functools
import os
import re
import shutil
import stat
import subprocess
import sys
import tempfile
from collections.abc import Collection, Mapping

from lib.call_faults import ENDED, Call, Kind, calls_in, counted, try_faults
from lib.refusals import DONE, OUT_OF_MEMORY, Run, Trial, refuse_each
from lib.store_runs import PROGRAM, Failures, compiled, need_program, read_file, write_file

# The files: the name that the program is given, the file that it means, its old text, and its new one.
FILES = [
    ("link.yaml", "one.yaml", b"{port: 80, host: example}", b'port: "80"\nhost: example\n'),
    ("two.yaml", "two.yaml", b"[a, b]\n", b"- a\n- b\n"),
]

NAMES = [given for given, *_ in FILES]

# The mode of both files.
MODE = 0o640

# The calls of a run without faults that change the folder or sync it.
CHANGES = [
    "create .confstore-0.tmp", "write .confstore-0.tmp", "fchmod .confstore-0.tmp", "fsync .confstore-0.tmp",
    "rename .confstore-0.tmp", "fsync folder",
] * 2


# A line that says of a file, or of the program, what went wrong.
FAULT = re.compile(r"(.+): (Input|Output|OutOfMemory)")


def may_replace(call: Call) -> bool:
    """Whether a file may be new though the call failed: it is the rename, or the sync of the folder after it."""
    return call.name == "rename" or (call.name == "fsync" and not call.file.endswith(".tmp"))


def new_folder(top: str, name: str) -> str:
    """A folder with the two files, and a link to the first."""
    folder = os.path.join(top, name)
    os.mkdir(folder)
    for _, file, old, _ in FILES:
        path = os.path.join(folder, file)
        write_file(path, old)
        os.chmod(path, MODE)
    os.symlink("one.yaml", os.path.join(folder, "link.yaml"))
    return folder


def run(folder: str, environment: Mapping[str, str]) -> tuple[int, bytes]:
    """The program on both files: its status, and what it wrote."""
    words = [PROGRAM, "format", "-i", *NAMES]
    done = subprocess.run(words, cwd=folder, capture_output=True, check=False, env={**os.environ, **environment})
    return done.returncode, done.stdout + done.stderr


def calls_of(top: str, library: str, failures: Failures) -> list[Call]:
    """The calls of a run without faults."""
    log = os.path.join(top, "log")
    folder = new_folder(top, "plain")
    failures.expect("without faults", run(folder, {"LD_PRELOAD": library, "FAULT_LOG": log}), (0, b""))
    expect_files("without faults", folder, [], failures)
    shutil.rmtree(folder)
    calls = calls_in(log)
    changing = [
        f"{call.name} {'folder' if call.name == 'fsync' and '.tmp' not in call.file else call.file}" for call in calls
        if call.name in ("create", "write", "fchmod", "fchown", "fsync", "rename", "unlink")
    ]
    failures.expect("the calls that change something", changing, CHANGES)
    return calls


def expect_files(
    name: str, folder: str, named: Collection[str], failures: Failures, may_be_either: Collection[str] = ()
) -> None:
    """The files: new, or old where they are named, or either where that is allowed."""
    failures.expect(f"{name}: the link", os.readlink(os.path.join(folder, "link.yaml")), "one.yaml")
    for given, file, old, new in FILES:
        path = os.path.join(folder, file)
        content = read_file(path)
        allowed = (old, new) if given in may_be_either else (old,) if given in named else (new,)
        failures.expect(f"{name}: {file} is {content!r}, of {allowed}", content in allowed, True)
        failures.expect(f"{name}: the mode of {file}", stat.S_IMODE(os.stat(path).st_mode), MODE)


def left_over(folder: str) -> list[str]:
    return sorted(set(os.listdir(folder)) - {"link.yaml", "one.yaml", "two.yaml"})


def try_fault(top: str, library: str, call: Call, kind: Kind) -> tuple[Failures, str]:
    """A run with a fault: what is wrong with it, and how it ended."""
    name = f"{call}, {kind}"
    folder = new_folder(top, name)
    failures = Failures()
    status, said = run(folder, {"LD_PRELOAD": library, **kind.environment(call.number)})
    if kind.answer == "exit":
        failures.expect(f"{name}: ending", (status, said), (ENDED, b""))
        expect_files(name, folder, [], failures, NAMES)
    else:
        expect_told(name, folder, status, said, call, kind, failures)
        may_be_left = kind.later or call.name == "unlink" or (call.name == "create" and kind.done == "whole")
        failures.expect(f"{name}: left over", left_over(folder) if not may_be_left else [], [])
    failures.expect(f"{name}: run again", run(folder, {}), (0, b""))
    expect_files(f"{name}: run again", folder, [], failures)
    shutil.rmtree(folder)
    return failures, "ended" if kind.answer == "exit" else "done" if status == 0 else list(told_of(said).values())[-1]


def told_of(said: bytes) -> dict[str, str]:
    """What went wrong with each file that standard error names, in that order."""
    found = map(FAULT.fullmatch, said.decode().splitlines())
    return {fault[1]: fault[2] for fault in found if fault}


def is_cause(line: str, before: str, kind: Kind) -> bool:
    """Whether a line says why the file of the line before it was not read or not replaced: the file itself, its folder,
    or the new file could not be used."""
    fault = FAULT.fullmatch(before)
    reason = os.strerror(kind.error) if kind.error else "failed to write whole buffer"
    subjects = ("", "its folder: ", "a new file beside it: ")
    return fault is not None and line in {f"{fault[1]}: {subject}{reason}" for subject in subjects}


def expect_told(
    name: str, folder: str, status: int, said: bytes, call: Call, kind: Kind, failures: Failures
) -> None:
    """What a run that came to its end says of the files is so."""
    lines, told = said.decode().splitlines(), told_of(said)
    causes = [pair for pair in zip(lines, ["", *lines]) if not FAULT.fullmatch(pair[0])]
    failures.expect(f"{name}: the causes {causes}", all(is_cause(*pair, kind) for pair in causes), True)
    failures.expect(f"{name}: the status of {lines}", status, 3 if told else 0)
    failures.expect(f"{name}: what is told of each file", set(told) <= set(NAMES), True)
    failures.expect(f"{name}: why", set(told.values()) <= {"Input", "Output"}, True)
    either = [given for given, why in told.items() if why == "Output" and may_replace(call)]
    expect_files(name, folder, told, failures, either)


def run_without(lacking: Run) -> str:
    """A run without one of its allocations: how it ended."""
    folder = new_folder(lacking.top, "folder")
    status, said = run(folder, lacking.environment)
    told = told_of(said)
    lacking.expect(f"the lines {said!r}", len(said.splitlines()), len(told))
    lacking.expect("the status", status, 1 if told else 0)
    lacking.expect(f"{told}", set(told.values()) <= {"OutOfMemory"}, True)
    expect_files(lacking.name, folder, NAMES if "confstore" in told else told, lacking.failures)
    lacking.expect("left over", left_over(folder), [])
    shutil.rmtree(folder)
    return OUT_OF_MEMORY if told else DONE


def main() -> int:
    need_program()
    failures = Failures()
    with tempfile.TemporaryDirectory() as top:
        found, line = refuse_each(compiled("refuse.c", top), top, Trial("format -i", run_without))
        failures.take(found)
        print(f"  {line}")
        library = compiled("fail_calls.c", top)
        calls = calls_of(top, library, failures)
        endings = try_faults(calls, functools.partial(try_fault, top, library), failures)
    print(f"  {len(calls)} calls, {counted(endings)}")
    return failures.report()


if __name__ == "__main__":
    sys.exit(main())
