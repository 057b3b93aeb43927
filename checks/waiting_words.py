#!/usr/bin/env python3
"""Has words wait for the lock of a store, as `--wait SECONDS` and CONFSTORE_WAIT say.

- **Eight writers.** Each appends 200 texts to one list, with a word for each. All words are done: the list has each text
  once, each writer's in its order, and the log has as many commands.
- **A session.** A word that waits while a session holds the store is done when the session ends, and not before.
- **In vain.** Each word that takes the lock ends with `Locked` when its time is over, not before, and at most a second
  later. Words that have no time, or the time 0, end at once, and so does a word of which anything but the lock is wrong.
- **A signal.** A word that waits ends at SIGTERM, and leaves the folder as it is.
- **Wrong words.** What is no time is refused with the status 2, also in the environment, where the word looks there.

Run it from the repository's root after the program is built; it takes half a minute:

    ./prove && python3 checks/waiting_words.py

The last line is 'N passed, M failed', and the status is 0 if M is 0.
"""

from __future__ import annotations

import contextlib
import fcntl
import json
import os
import signal
import subprocess
import sys
import tempfile
import threading
import time
from collections.abc import Iterator, Sequence

from lib.store_runs import PROGRAM, Failures, need_program, read_file

WRITERS = 8
COMMANDS = 200

# The seconds for which words wait: longer than anything here takes, and so short that they wait in vain.
LONG = "60"
SHORT = "0.5"

# How many seconds a word may take beyond its time, and how many it waits before something is done.
LATE = 1.0
BEFORE = 0.3

VARIABLE = "CONFSTORE_WAIT"
SET = ("set", "FOLDER", "web", "/port", "81")

# Each word that takes the lock of a store.
LOCKING: list[Sequence[str]] = [
    SET,
    ("import", "FOLDER", "mail"),
    ("delete", "FOLDER", "web"),
    ("copy", "FOLDER", "web", "mail", "--replace"),
    ("rename", "FOLDER", "web", "mail"),
    ("move", "FOLDER", "web", "/port", "/number"),
    ("checkpoint", "FOLDER"),
    ("run", "FOLDER"),
    ("export", "FOLDER", "web"),
]

NO_TIMES = ("", "x", "1s", "1.", ".5", "1.2.3", "+1", "1e3", "1234567890", "0.1234567890", "\u0661")

# A word's status, what it wrote to standard error, and the seconds that it took.
Ended = tuple[int, str, float]


def started(folder: str, words: Sequence[str], wait: str | None = None) -> subprocess.Popen[str]:
    """A word that runs, with a value of the variable, or without it. `FOLDER` stands for the folder."""
    environment = {name: value for name, value in os.environ.items() if name != VARIABLE}
    if wait is not None:
        environment[VARIABLE] = wait
    given = [PROGRAM, *(folder if word == "FOLDER" else word for word in words)]
    pipe = subprocess.PIPE
    return subprocess.Popen(given, stdin=subprocess.DEVNULL, stdout=pipe, stderr=pipe, text=True, env=environment)


def ended(folder: str, words: Sequence[str], wait: str | None = None) -> Ended:
    """What becomes of a word."""
    began = time.monotonic()
    process = started(folder, words, wait)
    _, errors = process.communicate()
    return process.returncode, errors, time.monotonic() - began


def output_of(*words: str) -> str:
    return subprocess.run([PROGRAM, *words], stdout=subprocess.PIPE, check=True, text=True).stdout


def store_in(top: str, name: str, text: str) -> str:
    """A folder with a store that has a configuration."""
    folder = os.path.join(top, name)
    os.mkdir(folder)
    subprocess.run([PROGRAM, "import", "--init", folder, "web"], input=text, check=True, text=True)
    return folder


def files_of(folder: str) -> dict[str, bytes]:
    return {name: read_file(os.path.join(folder, name)) for name in sorted(os.listdir(folder))}


@contextlib.contextmanager
def session(folder: str) -> Iterator[subprocess.Popen[bytes]]:
    """A session that holds the store in a folder, until its input ends."""
    with subprocess.Popen([PROGRAM, "run", folder], stdin=subprocess.PIPE, stdout=subprocess.PIPE) as process:
        assert process.stdin and process.stdout
        process.stdin.write(b"names:\n...\n")
        process.stdin.flush()
        process.stdout.readline()
        yield process


@contextlib.contextmanager
def lock_on(folder: str) -> Iterator[None]:
    """The lock on a folder, which another program holds."""
    descriptor = os.open(folder, os.O_RDONLY)
    try:
        fcntl.flock(descriptor, fcntl.LOCK_EX)
        yield
    finally:
        os.close(descriptor)


def write_all(folder: str, writer: int, ends: list[Ended]) -> None:
    """Appends each text of a writer by a word of its own, and notes what became of it."""
    for number in range(COMMANDS):
        ends.append(ended(folder, ("set", "FOLDER", "web", "/list/-", f"{writer}.{number}", "--wait", LONG)))


def try_writers(top: str, failures: Failures) -> None:
    folder = store_in(top, "writers", "list: []\n")
    ends: list[Ended] = []
    threads = [threading.Thread(target=write_all, args=(folder, writer, ends)) for writer in range(WRITERS)]
    began = time.monotonic()
    for thread in threads:
        thread.start()
    for thread in threads:
        thread.join()
    took = time.monotonic() - began
    failures.expect("eight writers: ends", {end[:2] for end in ends}, {(0, "")})
    found = json.loads(output_of("get", "--json", folder, "web", "/list"))
    wanted = {writer: [f"{writer}.{number}" for number in range(COMMANDS)] for writer in range(WRITERS)}
    of_each = {writer: [text for text in found if text.startswith(f"{writer}.")] for writer in range(WRITERS)}
    failures.expect("eight writers: texts", of_each, wanted)
    failures.expect("eight writers: how many", len(found), WRITERS * COMMANDS)
    failures.expect("eight writers: commands", len(output_of("log", folder).splitlines()), WRITERS * COMMANDS + 1)
    longest = max(seconds for _, _, seconds in ends)
    print(f"{WRITERS} writers: {len(found)} commands in {took:.1f} s, the longest word took {longest:.2f} s")


def try_session(top: str, failures: Failures) -> None:
    """A word is done when the session ends that holds the store."""
    folder = store_in(top, "session", "port: 80\n")
    for about, words, wait in (
        ("the option", (*SET, "--wait", LONG), None),
        ("the environment", SET, LONG),
        ("both", (*SET, f"--wait={LONG}"), "0"),
    ):
        with session(folder) as process:
            waiting = started(folder, words, wait)
            time.sleep(BEFORE)
            failures.expect(f"{about}: it waits", waiting.poll(), None)
            assert process.stdin
            process.stdin.close()
            process.wait()
            began = time.monotonic()
            _, errors = waiting.communicate()
        failures.expect(f"{about}: it is done", (waiting.returncode, errors), (0, ""))
        failures.expect(f"{about}: soon", time.monotonic() - began < LATE, True)
    failures.expect("a session: its changes", len(output_of("log", folder).splitlines()), 4)


def expect_locked(failures: Failures, about: str, subject: str, end: Ended, least: float) -> None:
    """A word ended with `Locked` after so many seconds, and not much later."""
    status, errors, seconds = end
    said = f"confstore: Locked\n{subject}: another run holds its lock\n"
    failures.expect(f"{about}: its end", (status, errors), (3, said))
    failures.expect(f"{about}: {seconds:.2f} s", least <= seconds <= least + LATE, True)


def try_in_vain(top: str, failures: Failures) -> None:
    folder = store_in(top, "held", "port: 80\n")
    before = files_of(folder)
    with session(folder):
        for words in LOCKING:
            end = ended(folder, (*words, "--wait", SHORT))
            expect_locked(failures, words[0], "store.lock", end, float(SHORT))
        for about, words, wait, least in (
            ("the environment", SET, SHORT, float(SHORT)),
            ("the option goes before", (*SET, "--wait", "0"), LONG, 0.0),
            ("no time", SET, None, 0.0),
            ("a nanosecond", (*SET, "--wait", "0.000000001"), None, 0.0),
        ):
            expect_locked(failures, about, "store.lock", ended(folder, words, wait), least)
    failures.expect("in vain: the files", files_of(folder), before)


def try_init(top: str, failures: Failures) -> None:
    """A store is made once nobody holds the folder's lock."""
    folder = os.path.join(top, "new")
    os.mkdir(folder)
    with lock_on(folder):
        end = ended(folder, ("init", "--wait", SHORT, "FOLDER"))
        expect_locked(failures, "init", folder, end, float(SHORT))
        failures.expect("init: the folder", os.listdir(folder), [])
        waiting = started(folder, ("init", "--wait", LONG, "FOLDER"))
        time.sleep(BEFORE)
        failures.expect("init: it waits", waiting.poll(), None)
    failures.expect("init: it is done", waiting.communicate() and waiting.returncode, 0)


def try_faults(top: str, failures: Failures) -> None:
    """What is no lock is not waited for."""
    empty = os.path.join(top, "empty")
    os.mkdir(empty)
    for about, folder, status in (("a missing folder", os.path.join(top, "missing"), 3), ("no store", empty, 1)):
        found, _, seconds = ended(folder, (*SET, "--wait", LONG))
        failures.expect(about, (found, seconds < LATE), (status, True))
    failures.expect("faults: the folder", os.listdir(empty), [])


def try_signal(top: str, failures: Failures) -> None:
    folder = store_in(top, "signal", "port: 80\n")
    before = files_of(folder)
    with session(folder):
        for words in LOCKING:
            waiting = started(folder, (*words, "--wait", LONG))
            time.sleep(BEFORE)
            began = time.monotonic()
            waiting.send_signal(signal.SIGTERM)
            output = waiting.communicate()
            failures.expect(f"a signal: {words[0]}", (waiting.returncode, output), (-signal.SIGTERM, ("", "")))
            failures.expect(f"a signal: {words[0]} at once", time.monotonic() - began < LATE, True)
    failures.expect("a signal: the files", files_of(folder), before)


def try_wrong_words(top: str, failures: Failures) -> None:
    folder = store_in(top, "words", "port: 80\n")
    before = files_of(folder)
    for time_given in NO_TIMES:
        status, errors, _ = ended(folder, (*SET, f"--wait={time_given}"))
        failures.expect(f"--wait={time_given}", (status, "--wait" in errors), (2, True))
        status, errors, _ = ended(folder, SET, time_given)
        failures.expect(f"{VARIABLE}={time_given}", (status, VARIABLE in errors), (2, True))
        failures.expect(f"names with {VARIABLE}={time_given}", ended(folder, ("names", "FOLDER"), time_given)[0], 0)
    for words in (("names", "FOLDER", "--wait", "1"), (*SET, "--wait", "-1"), (*SET, "--wait")):
        failures.expect(f"{words}", ended(folder, words)[0], 2)
    failures.expect("wrong words: the files", files_of(folder), before)
    for time_given in ("0", "5", "0.5", "007.250", "999999999.999999999"):
        failures.expect(f"--wait {time_given}", ended(folder, (*SET, "--wait", time_given))[0], 0)


def main() -> int:
    need_program()
    failures = Failures()
    with tempfile.TemporaryDirectory() as top:
        for tries in (try_wrong_words, try_faults, try_init, try_in_vain, try_session, try_signal, try_writers):
            tries(top, failures)
    return failures.report()


if __name__ == "__main__":
    sys.exit(main())
