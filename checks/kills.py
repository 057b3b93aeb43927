#!/usr/bin/env python3
"""Sends 10,000 commands to a store on a real folder, and kills its sessions 500 times at random moments.

Each command appends a number to a list, and each session takes up where the one before was killed: it is asked for
the list, which has to be the numbers from 1 on without a gap. None that was answered may be missing, and none may be
there that was not sent. Some sessions are killed while they open the store, some while they make a checkpoint. In
every other one each answer is awaited before the next command is sent.

`kill -9` takes away what the process has, and nothing of the system's: what a crash of the machine leaves is tested
over a disk in memory (crates/store_probe). Half of the sessions are in groups, with checkpoints in slices beside them.

Run it from the repository's root after the program is built; it takes half a minute:

    ./prove && python3 checks/kills.py

A folder for the store and a seed may follow. The status is 0 if all is as it should be.
"""

from __future__ import annotations

import random
import subprocess
import sys
import tempfile
import threading
import time
from collections.abc import Sequence

from lib.command_line import seed_given
from lib.store_runs import PROGRAM, SINGLE, SLICED, Failures, need_program, session

COMMANDS = 10_000
KILLS = 500

# How many commands the sessions may be ahead of an even pace, and the longest time in seconds until one is killed. An
# eighth of the sessions is killed within the time of an opening.
AHEAD = 30
LONGEST = 0.08
OPENING = 0.004

# Every so many commands there is a checkpoint.
CHECKPOINT = 25

LOOK = b'get: log\npath: ""\n...\n'


def appending(number: int) -> str:
    """The command that appends a number, with a checkpoint now and then."""
    command = f"set: log\npath: /-\nvalue: n{number}\n...\n"
    return command + ("checkpoint:\n...\n" if number % CHECKPOINT == 0 else "")


def numbers_of(folder: str) -> list[int] | tuple[int, bytes, str]:
    """The numbers of the list, or what was answered in their place."""
    status, output, errors = session(folder, LOOK)
    lines = output.decode().split("\n")
    if lines == ["---", "value: []", "...", ""]:
        return []
    if status != 0 or lines[:2] != ["---", "value:"] or lines[-2:] != ["...", ""]:
        return status, output, errors
    return [int(line.removeprefix("  - n")) for line in lines[2:-2]]


class Life:
    """A session that is killed. `first` is the first number that it is sent, `sent` the last one."""

    def __init__(self, folder: str, first: int, moment: float, words: Sequence[str]) -> None:
        self.first = first
        self.sent = first - 1
        self.oks = 0
        self.process = subprocess.Popen([PROGRAM, *words, folder], stdin=subprocess.PIPE, stdout=subprocess.PIPE)
        assert self.process.stdin is not None and self.process.stdout is not None
        self.commands, self.answers = self.process.stdin, self.process.stdout
        self.killer = threading.Timer(moment, self.process.kill)
        self.killer.start()

    def send(self, count: int) -> int:
        """Sends the next numbers; the session may be killed meanwhile."""
        numbers = range(self.sent + 1, self.sent + 1 + count)
        self.sent += count
        try:
            self.commands.write("".join(map(appending, numbers)).encode())
            self.commands.flush()
        except BrokenPipeError:
            pass
        return sum(1 + (number % CHECKPOINT == 0) for number in numbers)

    def read(self, answers: int) -> None:
        """Reads so many answers, or those that come."""
        for _ in range(3 * answers):
            line = self.answers.readline()
            self.oks += line.startswith(b"ok: ") and line.endswith(b"\n")

    def end(self) -> int:
        """Waits for the kill. Returns the last number that was answered for certain."""
        self.killer.join()
        self.oks += sum(line.startswith(b"ok: ") and line.endswith(b"\n") for line in self.answers.readlines())
        self.process.wait()
        try:
            self.commands.close()
        except BrokenPipeError:
            pass
        self.answers.close()
        return self.answered()

    def answered(self) -> int:
        """The last number of those that the answers are for."""
        last, oks = self.first - 1, self.oks
        while oks > 0:
            last += 1
            oks -= 1 + (last % CHECKPOINT == 0)
        return last


def live(folder: str, first: int, most: int, chance: random.Random) -> tuple[int, int]:
    """A session from its start to its kill."""
    moment = chance.uniform(0, OPENING if chance.random() < 0.125 else LONGEST)
    life = Life(folder, first, moment, chance.choice([SINGLE, SLICED]))
    if chance.random() < 0.5:
        life.send(most)
    else:
        stop = time.monotonic() + moment
        for _ in range(most):
            if time.monotonic() >= stop:
                break
            life.read(life.send(1))
    return life.end(), life.sent


def kill_sessions(folder: str, chance: random.Random, failures: Failures) -> tuple[int, int]:
    """Kills sessions one after the other. Returns the number that is held, and how many kills lost an answer."""
    held, unanswered = 0, 0
    for number in range(KILLS):
        most = min(COMMANDS, COMMANDS * number // KILLS + AHEAD) - held
        answered, sent = live(folder, held + 1, most, chance)
        numbers = numbers_of(folder)
        failures.expect(f"the list after kill {number}", numbers, list(range(1, len(numbers) + 1)))
        held = len(numbers)
        failures.expect(f"kill {number}: {answered} answered, {held} held, {sent} sent", answered <= held <= sent, True)
        unanswered += held > answered
    return held, unanswered


def main() -> int:
    need_program()
    folder = sys.argv[1] if len(sys.argv) > 1 else None
    seed = seed_given(2)
    failures = Failures()
    with tempfile.TemporaryDirectory(dir=folder) as top:
        failures.expect("the start", session(top, b'import: log\ntext: "[]"\n...\n'), (0, b'---\nok: "1"\n...\n', ""))
        held, unanswered = kill_sessions(top, random.Random(seed), failures)
        rest = "".join(map(appending, range(held + 1, COMMANDS + 1)))
        failures.expect("the last session", session(top, rest.encode())[0], 0)
        failures.expect("the list at the end", numbers_of(top), list(range(1, COMMANDS + 1)))
        print(f"  {KILLS} kills, {held} commands held by then; {unanswered} kills came between a change and its answer")
    return failures.report()


if __name__ == "__main__":
    sys.exit(main())
