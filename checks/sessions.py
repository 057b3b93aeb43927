#!/usr/bin/env python3
"""Runs sessions through the built program on real folders.

- Each answer arrives before the next command is sent, and a session's input may come byte by byte.
- 200 sessions of 50 commands are killed at random moments. The store is opened again each time: no command that was
  answered is missing, and none is there that was not sent.
- Output to a full device, and folders that are missing, a file, read-only or locked. An export and `get` read a store
  in a folder that is read-only, and an export one that a full device keeps from being recovered.
- The lock's file is deleted or replaced and the folder moved during a session, also where there is no /proc; links,
  FIFOs and folders lie at the names of the files.
- A file that replaces a store has its owner, its group and its mode, for root and for `nobody`.
- A small store with each of its bytes changed in turn is opened, or refused by name and left as it is.
- Where strace is installed: one command is appended, synced and answered, in this order.

Run it from the repository's root after the program is built; it takes some 10 seconds, and needs a C compiler:

    ./prove && python3 checks/sessions.py

A seed for the random moments may follow. The status is 0 if all is as it should be.
"""

from __future__ import annotations

import errno
import fcntl
import functools
import os
import pwd
import random
import re
import resource
import shutil
import socket
import stat
import subprocess
import sys
import tempfile
import time
from collections.abc import Callable, Sequence
from typing import Any

from lib.command_line import seed_given
from lib.store_runs import (
    EMPTY, IMPORT, PROGRAM, WORKED, Ended, Failures, compiled, dropped, need_program, read_file, session, write_file,
)

# The user that owns no folder here.
NOBODY = "nobody"

# The file whose lock a session holds.
LOCK_FILE = "store.lock"

# Why what lies at a name is not used.
NO_FOLDER = "it is no folder"
NO_PLAIN_FILE = "it is no plain file"

# A change of the store that `EMPTY + IMPORT` is, and a look at it with its answer.
SET = b'set: a\npath: ""\nvalue: z\n...\n'
LOOK = b'get: a\npath: ""\n...\n'
# What an export says of a file that it read as it stands, since the device failed.
READ_ALONE = "confstore: store.yaml was only read, not put on the device: a crash may undo its last commands\n"
HELD = (0, b"---\nvalue: z\n...\n", "")
HELD_BEFORE = (0, b"---\nvalue: x\n...\n", "")
CHECKPOINT = b"checkpoint:\n...\n"
SECOND = '---\nok: "2"\n...\n'

# The names of a folder, and how long a session may take that is to be refused at once.
NAMES = (LOCK_FILE, "store.yaml", "next.yaml")
SECONDS = 10

KILLED = 200
COMMANDS = 50

# A session that runs; the owner, the group and the mode of a file; and how something is made at a path, of a plain file
# and a name that is not there.
Session = subprocess.Popen[bytes]
Owned = tuple[int, int, int]
Making = Callable[[str, str, str], object]


def device(subject: str, reason: int | str) -> Ended:
    """What a session ends with that can't use its folder: for which file or folder, and the system's reason by its
    number, or another one."""
    said = os.strerror(reason) if isinstance(reason, int) else reason
    return 3, b"", f"confstore: Device\n{subject}: {said}\n"


def locked(subject: str) -> Ended:
    """What a session ends with where another one holds the lock of the subject."""
    return 3, b"", f"confstore: Locked\n{subject}: another run holds its lock\n"


def started(folder: str, **more: Any) -> Session:
    return subprocess.Popen([PROGRAM, "run", folder], stdin=subprocess.PIPE, stdout=subprocess.PIPE, **more)


def answer(process: Session) -> str:
    """The next answer of a running session, through its closing line."""
    assert process.stdout
    lines: list[bytes] = []
    while not lines or lines[-1] not in (b"...\n", b""):
        lines.append(process.stdout.readline())
    return b"".join(lines).decode()


def answers_come_before_the_next_command(top: str, failures: Failures) -> None:
    folder = os.path.join(top, "slow")
    os.mkdir(folder)
    process = started(folder)
    for command, wanted in WORKED:
        failures.expect(f"the answer to {command!r}", ask(process, command.encode()), wanted)
    end_input(process)
    failures.expect("the status", process.wait(), 0)


def send(process: Session, part: bytes) -> None:
    """Sends a part of the input to a running session."""
    assert process.stdin
    process.stdin.write(part)
    process.stdin.flush()


def end_input(process: Session) -> None:
    assert process.stdin
    process.stdin.close()


def ask(process: Session, command: bytes) -> str:
    """The answer of a running session to a command."""
    send(process, command)
    return answer(process)


def begun(folder: str, **more: Any) -> Session:
    """A running session that holds the store in a folder: it has answered a command."""
    process = started(folder, **more)
    ask(process, b"names:\n...\n")
    return process


def ended(process: Session) -> int:
    """The status of a session at the end of its input."""
    assert process.stdout
    end_input(process)
    process.stdout.close()
    return process.wait()


def input_comes_byte_by_byte(top: str, failures: Failures) -> None:
    folder = os.path.join(top, "bytes")
    os.mkdir(folder)
    process = started(folder)
    for byte in "".join(command for command, _ in WORKED).encode():
        send(process, bytes([byte]))
    end_input(process)
    assert process.stdout
    failures.expect("the answers byte by byte", process.stdout.read().decode(), "".join(wanted for _, wanted in WORKED))
    failures.expect("the status", process.wait(), 0)


def set_to(number: int) -> bytes:
    return f"set: app\npath: /n\nvalue: v{number}\n...\n".encode()


def value_of(folder: str) -> int | str:
    """The number that was set last, by a new session, or what it said where it gave none."""
    status, output, faults = session(folder, b"get: app\npath: /n\n...\n")
    found = re.fullmatch(r"---\nvalue: v(\d+)\n\.\.\.\n", output.decode())
    if status != 0 or not found:
        return f"status {status}, {output!r}, {faults!r}"
    return int(found[1])


def killed_sessions_lose_nothing(top: str, failures: Failures, chance: random.Random) -> None:
    folder = os.path.join(top, "killed")
    os.mkdir(folder)
    failures.expect("the start", session(folder, b'import: app\ntext: "n: v0\\n"\n...\n')[0], 0)
    sent = answered = 0
    lost = 0
    for _ in range(KILLED):
        process = started(folder)
        stop = time.monotonic() + chance.uniform(0, 0.03)
        for _ in range(COMMANDS):
            sent += 1
            send(process, set_to(sent))
            if time.monotonic() > stop:
                break
            if answer(process).startswith("---\nok: "):
                answered = sent
        process.kill()
        process.wait()
        end_input(process)
        found = value_of(folder)
        failures.expect("a number is there", isinstance(found, int), True)
        if not isinstance(found, int) or not answered <= found <= sent:
            lost += 1
        else:
            sent = answered = found
    failures.expect("commands lost or never sent", lost, 0)
    print(f"  {KILLED} sessions killed, {sent} commands held at the end")


def outputs_and_folders_fail(top: str, failures: Failures) -> None:
    folder = os.path.join(top, "full")
    os.mkdir(folder)
    with open("/dev/full", "wb") as full:
        words = [PROGRAM, "run", folder]
        done = subprocess.run(words, input=b"names:\n...\n", stdout=full, stderr=subprocess.PIPE, check=False)
    failures.expect("a full device", (done.returncode, done.stderr), (3, b"confstore: Output\n"))
    missing = os.path.join(top, "none")
    failures.expect("a missing folder", session(missing, b""), device(missing, errno.ENOENT))
    file = os.path.join(top, "file")
    with open(file, "w", encoding="utf-8"):
        pass
    failures.expect("a file for a folder", session(file, b""), device(file, NO_FOLDER))
    held = os.path.join(top, "held")
    os.mkdir(held)
    process = begun(held)
    failures.expect("a locked folder", session(held, b""), locked(LOCK_FILE))
    ended(process)
    failures.expect("a folder that is free again", session(held, b"")[0], 0)


def program_for_all(top: str) -> str:
    """A copy of the program that every user can reach."""
    os.chmod(top, 0o755)
    program: str = shutil.copy(PROGRAM, os.path.join(top, "confstore"))
    os.chmod(program, 0o755)
    return program


def read_only_folders_are_refused(top: str, failures: Failures) -> None:
    """Run as root, this is tried as `nobody`."""
    who: dict[str, Any] = {"user": NOBODY, "cwd": top, "env": {}} if os.geteuid() == 0 else {}
    program = program_for_all(top)
    stores: dict[str, dict[str, bytes]] = {
        "empty": {}, "with a store": {"store.yaml": EMPTY + IMPORT, "store.lock": b""},
    }  # fmt: skip
    for name, files in stores.items():
        folder = os.path.join(top, f"read-only, {name}")
        os.mkdir(folder)
        for file, content in files.items():
            write_file(os.path.join(folder, file), content)
            os.chmod(os.path.join(folder, file), 0o444)
        os.chmod(folder, 0o555)
        done = subprocess.run([program, "run", folder], input=b"names:\n...\n", capture_output=True, check=False, **who)
        found = done.returncode, done.stdout, done.stderr.decode()
        failures.expect(f"a read-only folder, {name}", found, device(LOCK_FILE, errno.EACCES))
        done = subprocess.run([program, "export", folder, "a"], capture_output=True, check=False, **who)
        wanted = (0, b"x\n", READ_ALONE.encode()) if files else (1, b"", b"confstore: NoConfig\n")
        failures.expect(f"an export, {name}", (done.returncode, done.stdout, done.stderr), wanted)
        done = subprocess.run([program, "get", folder, "a"], capture_output=True, check=False, **who)
        wanted = (0, b"x\n", b"") if files else (1, b"", b"confstore: NotAStore")
        first_line = done.stderr.partition(b"\n")[0]
        failures.expect(f"a value, {name}", (done.returncode, done.stdout, first_line), wanted)
        left = {file: read_file(os.path.join(folder, file)) for file in os.listdir(folder)}
        failures.expect(f"the files of a read-only folder, {name}", left, files)
        os.chmod(folder, 0o755)


def limited(most: int, words: Sequence[str], commands: bytes = b"") -> Ended:
    """The program where no file may have more bytes, and a write that would pass that fails."""
    limit = functools.partial(resource.setrlimit, resource.RLIMIT_FSIZE, (most, most))
    done = subprocess.run(
        [PROGRAM, *words], input=commands, capture_output=True, check=False, restore_signals=False, preexec_fn=limit
    )
    return done.returncode, done.stdout, done.stderr.decode()


def a_full_device_is_read(top: str, failures: Failures) -> None:
    """A limit on the sizes of files stands for a full device, which tears an append."""
    full = functools.partial(device, reason=errno.EFBIG)
    folder = folder_with_store(top, "full device")
    store = os.path.join(folder, "store.yaml")
    failures.expect("a torn append", limited(len(EMPTY + IMPORT) + 10, ["run", folder], SET), full("store.yaml"))
    torn = read_file(store)
    left = torn.startswith(EMPTY + IMPORT), len(torn)
    failures.expect("what the append left", left, (True, len(EMPTY + IMPORT) + 10))
    failures.expect("a session on a full device", limited(0, ["run", folder], LOOK), full("copy.yaml"))
    failures.expect("an export from a full device", limited(0, ["export", folder, "a"]), (0, b"x\n", READ_ALONE))
    failures.expect("an unknown name", limited(0, ["export", folder, "b"]), (1, b"", "confstore: NoConfig\n"))
    failures.expect("the file", read_file(store), torn)
    wanted = 0, b"---\nvalue: x\n...\n", dropped(10)
    failures.expect("a session with space again", session(folder, LOOK), wanted)


def folder_with_store(top: str, name: str) -> str:
    """A new folder with a store that has one configuration."""
    folder = os.path.join(top, name)
    os.mkdir(folder)
    write_file(os.path.join(folder, "store.yaml"), EMPTY + IMPORT)
    return folder


def a_lock_outlives_its_file(top: str, failures: Failures) -> None:
    for way in ("deleted", "replaced"):
        folder = folder_with_store(top, f"lock {way}")
        lock = os.path.join(folder, "store.lock")
        process = begun(folder)
        os.remove(lock)
        if way == "replaced":
            write_file(lock, b"")
        failures.expect(f"a second session, store.lock {way}", session(folder, LOOK), locked(folder))
        failures.expect(f"a change, store.lock {way}", ask(process, SET), SECOND)
        failures.expect(f"a checkpoint, store.lock {way}", ask(process, CHECKPOINT), SECOND)
        failures.expect(f"the status, store.lock {way}", ended(process), 0)
        failures.expect(f"what is held, store.lock {way}", session(folder, LOOK), HELD)
    for name, made in ((".", False), (".", True), (LOCK_FILE, True)):
        for how in (fcntl.LOCK_EX, fcntl.LOCK_SH):
            folder = folder_with_store(top, f"lock {how} at {name}, {made}")
            if made:
                session(folder, b"")
            handle = os.open(os.path.join(folder, name), os.O_RDONLY)
            fcntl.flock(handle, how)
            described = f"another program's lock {how} at {name}, store.lock {'there' if made else 'missing'}"
            wanted = locked(LOCK_FILE) if name == LOCK_FILE else HELD_BEFORE if made else locked(folder)
            failures.expect(described, session(folder, LOOK), wanted)
            os.close(handle)


def without_proc(top: str) -> dict[str, str]:
    """The environment of a session that finds no /proc."""
    library, log = compiled("fail_calls.c", top), os.path.join(top, "calls")
    folder = folder_with_store(top, "logged")
    session(folder, b"", env={**os.environ, "LD_PRELOAD": library, "FAULT_LOG": log})
    calls = read_file(log).decode().splitlines()
    fault = {"FAULT_CALL": str(calls.index("statx proc 0") + 1), "FAULT_DONE": "none", "FAULT_ANSWER": "error"}
    return {**os.environ, "LD_PRELOAD": library, "FAULT_ERROR": str(errno.ENOENT), **fault}


def a_moved_folder_keeps_its_store(top: str, failures: Failures) -> None:
    """A folder is moved during a session, and another one is made under its name. Where there is no /proc, a checkpoint
    is refused then."""
    ways: Sequence[tuple[str, dict[str, Any], str]] = (
        ("moved", {}, SECOND), ("moved, no proc", {"env": without_proc(top)}, ""),
    )  # fmt: skip
    for way, more, answered in ways:
        folder = folder_with_store(top, f"{way}, before")
        end = (0, "") if answered else (3, device(folder, "its name leads elsewhere by now")[2])
        moved = os.path.join(top, f"{way}, after")
        process = begun(folder, stderr=subprocess.PIPE, **more)
        os.rename(folder, moved)
        os.mkdir(folder)
        failures.expect(f"a change, {way}", ask(process, SET), SECOND)
        failures.expect(f"a second session, {way}", session(moved, LOOK), locked(LOCK_FILE))
        failures.expect(f"a checkpoint, {way}", ask(process, CHECKPOINT), answered)
        failures.expect(f"the end, {way}", (ended(process), said_by(process)), end)
        failures.expect(f"the folder under the old name, {way}", os.listdir(folder), [])
        failures.expect(f"what the folder holds, {way}", session(moved, LOOK), HELD)


def said_by(process: Session) -> str:
    """What a session that is over has written to standard error, which is a pipe."""
    assert process.stderr
    said: bytes = process.stderr.read()
    return said.decode()


def things() -> Sequence[tuple[str, str, Making]]:
    """What may lie at a name in the place of a plain file: each with why it is not used, and how it is made there.
    `outside` is a plain file in another folder, and `missing` is not there."""
    link = "it is a link, which is not followed"
    return (
        ("a link", link, lambda path, outside, missing: os.symlink(outside, path)),
        ("a link to nothing", link, lambda path, outside, missing: os.symlink(missing, path)),
        ("a FIFO", NO_PLAIN_FILE, lambda path, outside, missing: os.mkfifo(path)),
        ("a folder", "it is a folder", lambda path, outside, missing: os.mkdir(path)),
        ("a socket", NO_PLAIN_FILE, lambda path, outside, missing: socket.socket(socket.AF_UNIX).bind(path)),
    )


def only_plain_files_are_used(top: str, failures: Failures) -> None:
    missing = os.path.join(top, "missing")
    for name in NAMES:
        for thing, reason, make in things():
            folder = folder_with_store(top, f"{thing} at {name}")
            outside = os.path.join(top, f"outside of {thing} at {name}")
            write_file(outside, EMPTY)
            if name == "store.yaml":
                os.remove(os.path.join(folder, name))
            make(os.path.join(folder, name), outside, missing)
            before = {file: os.lstat(os.path.join(folder, file)).st_ino for file in os.listdir(folder)}
            wanted = device(name, reason)
            failures.expect(f"{thing} at {name}", session(folder, CHECKPOINT, timeout=SECONDS), wanted)
            if name == "store.yaml":
                failures.expect(f"`names` of {thing}", session(folder, b"", ("names",), timeout=SECONDS), wanted)
            after = {file: os.lstat(os.path.join(folder, file)).st_ino for file in os.listdir(folder)}
            failures.expect(f"the folder with {thing} at {name}", after, before)
            failures.expect(f"the file outside of {thing} at {name}", read_file(outside), EMPTY)
            failures.expect(f"the missing file of {thing} at {name}", os.path.exists(missing), False)
    folder = folder_with_store(top, "a FIFO during a session")
    process = begun(folder, stderr=subprocess.PIPE)
    os.mkfifo(os.path.join(folder, "next.yaml"))
    failures.expect("a checkpoint over a FIFO", ask(process, CHECKPOINT), "")
    failures.expect("the status after a checkpoint over a FIFO", ended(process), 3)
    failures.expect("the fault of a checkpoint over a FIFO", said_by(process), device("next.yaml", NO_PLAIN_FILE)[2])
    fifo = os.path.join(top, "fifo")
    os.mkfifo(fifo)
    failures.expect("a FIFO for a folder", session(fifo, b"", timeout=SECONDS), device(fifo, NO_FOLDER))
    link = os.path.join(top, "link")
    os.symlink(folder_with_store(top, "linked"), link)
    failures.expect("a link to a folder", session(link, b""), (0, b"", ""))


def kept_rows() -> list[tuple[int, int, Owned, Owned]]:
    """Rows of who runs the program, with which umask, over a store of which owner, group and mode; and the owner, the
    group and the mode that the store has after it was written anew. A user or a group is its number."""
    myself, mine = os.geteuid(), os.getegid()
    alike = [
        (myself, umask, (myself, mine, mode), (myself, mine, mode))
        for umask in (0o000, 0o077)
        for mode in (0o600, 0o640, 0o644, 0o664, 0o606)
    ]
    if myself != 0:
        return alike
    nobody, nogroup = pwd.getpwnam(NOBODY).pw_uid, pwd.getpwnam(NOBODY).pw_gid
    others = ((nobody, nogroup, 0o600), (nobody, 0, 0o640), (0, nogroup, 0o604), (nobody, nogroup, 0o400))
    by_root = [(0, umask, other, other) for umask in (0o000, 0o022, 0o077) for other in others]
    by_nobody = [
        (nobody, 0o000, (nobody, nogroup, 0o600), (nobody, nogroup, 0o600)),
        (nobody, 0o077, (nobody, nogroup, 0o664), (nobody, nogroup, 0o664)),
        (nobody, 0o000, (nobody, 0, 0o640), (nobody, nogroup, 0o600)),
        (nobody, 0o000, (nobody, 0, 0o664), (nobody, nogroup, 0o644)),
        (nobody, 0o000, (0, nogroup, 0o660), (nobody, nogroup, 0o660)),
        (nobody, 0o000, (0, 0, 0o666), (nobody, nogroup, 0o666)),
        (nobody, 0o000, (0, 0, 0o606), (nobody, nogroup, 0o600)),
    ]
    return alike + by_root + by_nobody


def owner_group_and_mode(path: str) -> Owned:
    found = os.stat(path)
    return found.st_uid, found.st_gid, stat.S_IMODE(found.st_mode)


def run_as(user: int, umask: int, top: str, words: Sequence[str], commands: bytes) -> tuple[int, bytes, bytes]:
    """What the program does as a user, who has one group."""
    who: dict[str, Any] = {"env": {}}
    if user != os.geteuid():
        who.update(user=user, group=pwd.getpwuid(user).pw_gid, extra_groups=[])
    done = subprocess.run(
        [os.path.join(top, "confstore"), *words], input=commands, capture_output=True, check=False, umask=umask,
        cwd=top, **who,
    )  # fmt: skip
    return done.returncode, done.stdout, done.stderr


def owners_and_modes_survive(top: str, failures: Failures) -> None:
    """A checkpoint puts a new file in the place of `store.yaml`, and so does an opening that recovers a torn store. Run
    as root, this is tried as root and as `nobody`."""
    program_for_all(top)
    for number, (user, umask, given, wanted) in enumerate(kept_rows()):
        ways = (
            ("checkpoint", "run", b"", b"checkpoint:\n...\n", b'---\nok: "1"\n...\n'),
            ("recovery", "export", b"---\nat", b"", b"x\n"),
        )
        for way, word, rest, commands, answer in ways:
            folder = os.path.join(top, f"{way} {number}")
            os.mkdir(folder)
            store = os.path.join(folder, "store.yaml")
            write_file(store, EMPTY + IMPORT + rest)
            os.chown(store, given[0], given[1])
            os.chmod(store, given[2])
            os.chown(folder, user, -1)
            words = [word, folder, "a"] if word == "export" else [word, folder]
            name = f"{way} by {user} with the umask {umask:o} over {given[0]}:{given[1]} {given[2]:o}"
            with open(store, "rb") as old:
                ended_as = run_as(user, umask, top, words, commands)
                failures.expect(name, ended_as, (0, answer, dropped(len(rest)).encode()))
                failures.expect(f"{name}: names of the old file", os.fstat(old.fileno()).st_nlink, 0)
            failures.expect(f"{name}: its owner, group and mode", owner_group_and_mode(store), wanted)


def new_stores_have_the_mode_of_any_new_file(top: str, failures: Failures) -> None:
    program_for_all(top)
    for umask in (0o000, 0o022, 0o077):
        name = f"a new store with the umask {umask:o}"
        folder = os.path.join(top, name)
        os.mkdir(folder)
        failures.expect(name, run_as(os.geteuid(), umask, top, ["run", folder], b""), (0, b"", b""))
        found = owner_group_and_mode(os.path.join(folder, "store.yaml"))
        failures.expect(f"{name}: its owner, group and mode", found, (os.geteuid(), os.getegid(), 0o666 & ~umask))


def damage_is_named_or_harmless(top: str, failures: Failures) -> None:
    folder = os.path.join(top, "damaged")
    os.mkdir(folder)
    store = os.path.join(folder, "store.yaml")
    opened = refused = 0
    small = EMPTY + IMPORT
    for place in range(len(small)):
        damaged = bytearray(small)
        damaged[place] ^= 1
        write_file(store, damaged)
        status, _, faults = session(folder, b"")
        if status == 0:
            opened += 1
            continue
        refused += 1
        is_named = faults in ("confstore: NotAStore\n", "confstore: Damaged\n")
        failures.expect(f"the fault with byte {place} changed", (status, is_named), (1, True))
        failures.expect(f"the file with byte {place} changed", read_file(store), bytes(damaged))
    print(f"  {len(small)} damaged stores: {opened} opened, {refused} refused and left as they were")


def a_command_is_synced_before_its_answer(top: str, failures: Failures) -> None:
    """A run notes by the length of `store.lock` that bytes may be in memory alone, appends, syncs, answers, and in the
    end notes that the device has them."""
    if not shutil.which("strace"):
        print("  strace is not installed: the order of the system's calls was not looked at")
        return
    folder = os.path.join(top, "traced")
    os.mkdir(folder)
    session(folder, b"")
    trace = os.path.join(top, "trace")
    calls = "write,writev,ftruncate,fsync,fdatasync"
    subprocess.run(
        ["strace", "-f", "-e", f"trace={calls}", "-o", trace, PROGRAM, "run", folder],
        input=b"import: a\ntext: x\n...\n", stdout=subprocess.DEVNULL, check=True,
    )
    with open(trace, encoding="utf-8", errors="replace") as source:
        made = re.findall(r"(\w+)\(\d+(?:, (?:\"---\\n(at|ok)|(\d)\)))?", source.read())
    order = ["sync" if "sync" in name else what or length for name, what, length in made if "sync" in name or what or length]
    end = order[order.index("2"):] if "2" in order else order
    failures.expect("the calls of a command", end, ["2", "at", "sync", "ok", "1"])


def a_staged_file_is_narrow_before_it_is_written(top: str, failures: Failures) -> None:
    if not shutil.which("strace"):
        return
    folder = os.path.join(top, "staged")
    os.mkdir(folder)
    store = os.path.join(folder, "store.yaml")
    write_file(store, EMPTY + IMPORT)
    os.chmod(store, 0o640)
    trace = os.path.join(top, "trace of staging")
    subprocess.run(
        ["strace", "-f", "-e", "trace=open,openat,fchmod,write", "-o", trace, PROGRAM, "run", folder],
        input=b"checkpoint:\n...\n", stdout=subprocess.DEVNULL, check=True,
    )
    with open(trace, encoding="utf-8", errors="replace") as source:
        made = source.read()
    created = re.search(r"next\.yaml\", \S+O_EXCL\S+, (0\d+)\) = (\d+)", made)
    failures.expect("the mode that next.yaml is made with", created and created[1], "0600")
    if created:
        after = re.findall(r"(fchmod|write)\(" + created[2] + r", (0\d+)?", made[created.end():])
        failures.expect("what comes first at next.yaml", after[:2], [("fchmod", "0640"), ("write", "")])


def main() -> int:
    need_program()
    chance = random.Random(seed_given(1))
    failures = Failures()
    with tempfile.TemporaryDirectory() as top:
        answers_come_before_the_next_command(top, failures)
        input_comes_byte_by_byte(top, failures)
        killed_sessions_lose_nothing(top, failures, chance)
        outputs_and_folders_fail(top, failures)
        read_only_folders_are_refused(top, failures)
        a_full_device_is_read(top, failures)
        a_lock_outlives_its_file(top, failures)
        a_moved_folder_keeps_its_store(top, failures)
        only_plain_files_are_used(top, failures)
        owners_and_modes_survive(top, failures)
        new_stores_have_the_mode_of_any_new_file(top, failures)
        a_staged_file_is_narrow_before_it_is_written(top, failures)
        damage_is_named_or_harmless(top, failures)
        a_command_is_synced_before_its_answer(top, failures)
    return failures.report()


if __name__ == "__main__":
    sys.exit(main())
