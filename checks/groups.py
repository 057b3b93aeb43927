#!/usr/bin/env python3
"""Runs random lists of calls on stores, by orders to the built store_probe, beside a model.

The calls are submits, flushes, slices, checkpoints, commands, closes and openings, over a disk in memory. One call of
the disk may fail, or all from one on. A crash may keep no pending byte, or all of them with zeros in one place. The
model is the list of the accepted commands, how many of them are flushed, and how many bytes of a running checkpoint
are left.

- Each answer has to be the model's. A call of which the disk may fail may also return `Device`, and then the store
  answers `Reopen` until it is opened again, and shows the state with the command that met it.
- Opening finds all accepted commands, if no call failed; after a crash those that are flushed, or those before the
  first zero, and then it drops the bytes from that record on; and otherwise a number between. The state is the one
  after so many of them, and no checkpoint runs.

Run it from the repository's root after the program is built. It takes at most a minute or so: what is not begun by then
is left out, and the number of lists that were run is printed.

    (cd crates/store_probe && rt run < stdin > /dev/null) && python3 checks/groups.py

A number of lists and a seed may follow; the same seed makes the same lists. The status is 0 if all is as it should
be.
"""

from __future__ import annotations

import random
import re
import subprocess
import sys
import time
from collections import Counter
from collections.abc import Callable, Sequence
from concurrent.futures import ProcessPoolExecutor
from itertools import accumulate

from lib.command_line import number_given, seed_given
from lib.lengths import SLICE, base_length, meant, record_length, styled
from lib.store_runs import STORE_PROBE, Failures, need_program

COUNT = 6_000
CHUNK = 100

# After so many seconds no further lists are begun. How long one process may take, and the most calls of a list.
SECONDS = 60
HANGS = 100
LONGEST = 60

# What was counted, and what went wrong.
Tried = tuple["Counter[str]", Failures]

NAMES = ["a", "b", "c"]
# The lengths of texts: short ones, and such as make one slice, two, or several.
LENGTHS = [1, 2, 3, 100, 128, 129, 1_500, 3_990, 4_044, 4_045, 5_000, 8_140, 9_948]
# Where the zeros of a crash begin among the pending bytes, less up to 100, and how many they are.
PLACES = [0, 0, 1, 40, 80, 150, 1_500, 4_000, 9_900]
ZEROS = [1, 1, 8, 50, 512, 5_000]

# The orders that a list draws from, and how often.
ORDERS = {
    "submit": 12, "command": 4, "flush": 5, "begin": 6, "slice": 12, "slices": 1, "checkpoint": 1, "running": 2,
    "reopen": 1, "names": 1, "export": 4, "open": 2, "fused": 3, "crash": 2, "worn": 3, "file": 1,
}  # fmt: skip


def command_words(chance: random.Random) -> str:
    """An import, a set or a delete."""
    name, length = chance.choice(NAMES), chance.choice(LENGTHS)
    imports, sets, deletes = f"import;{name};*{length}*", f"set;{name};;*{length}*", f"delete;{name};"
    return chance.choice([imports, imports, sets, sets, deletes])


def orders_of(chance: random.Random) -> list[str]:
    """A list of calls. Behind each opening the count is asked, and behind all of them each configuration."""
    orders = ["folder", "open", "count"]
    for order in chance.choices(list(ORDERS), list(ORDERS.values()), k=chance.randrange(LONGEST)):
        if order == "submit":
            orders.append(f"submit;{chance.randrange(9)};{command_words(chance)}")
        elif order == "command":
            orders.append(command_words(chance))
        elif order == "export":
            orders.append(f"export;{chance.choice(NAMES)}")
        elif order == "fused":
            orders += [f"open;{chance.choice(['stop', 'done', 'undone'])};{chance.randrange(20)}", "count"]
        elif order == "crash":
            orders += [f"image;{chance.choice([0, 0, 1, 2])}", "open", "count"]
        elif order == "worn":
            start = chance.choice(PLACES) + chance.randrange(100)
            orders += [f"worn;{chance.choice([0, 0, 1])};{start};{chance.choice(ZEROS)}", "open", "count"]
        elif order == "open":
            orders += ["open", "count"]
        elif order == "file":
            orders += ["file", "open", "count"]
        else:
            orders.append(order)
    return orders + ["open", "count", "names", *(f"export;{name}" for name in NAMES)]


# The calls that write to the disk, and what is answered where a checkpoint in slices runs or does not.
WRITES = ("flush", "begin", "slice", "slices", "checkpoint")
UNTIMELY = {"begin": "a checkpoint runs", "slice": "no checkpoint runs", "slices": "0 slices"}


class Model:
    """The accepted commands, by the states after each of them, and what is known of the store and its folder."""

    def __init__(self) -> None:
        self.states: list[dict[str, str]] = [{}]  # the state after so many commands
        self.lengths = [0]  # the length of the record of the last of so many commands
        self.flushed = 0  # how many commands no crash takes away
        self.least = 0  # how many commands opening finds at least; at most it is all of them
        self.left: int | None = None  # how many bytes a running checkpoint has left
        self.dropped: int | None = 0  # how many bytes opening drops, if that is known
        self.is_open = self.needs_reopen = self.may_fail = False
        self.has_failed = False  # whether a call failed since the last opening

    @property
    def count(self) -> int:
        return len(self.states) - 1

    def fails(self, answer: str) -> bool:
        """Whether the answer is that the disk failed, if it may. The store has to be opened again then."""
        if answer != "Device" or not self.may_fail:
            return False
        self.needs_reopen = self.has_failed = True
        return True

    def close(self) -> None:
        """The store is closed, if it is open. All its commands are read then, if no call failed."""
        if self.is_open:
            self.least = self.flushed if self.has_failed else self.count
        self.is_open = self.needs_reopen = False
        self.left = None

    def allows(self, order: str, answer: str) -> bool:
        """Whether the answer to an order is right. The model is then that of the store after it."""
        kind, *words = order.split(";")
        if kind in ("open", "image", "worn", "file"):
            self.close()
            return self.answer_to(kind, words, answer)
        if not self.is_open:
            return answer == "no store is open"
        if kind == "submit":
            return self.command(words[1:], answer)
        if kind in ("import", "set", "delete"):
            return self.single([kind, *words], answer)
        return self.writes(kind, answer) if kind in WRITES else self.answer_to(kind, words, answer)

    def answer_to(self, kind: str, words: list[str], answer: str) -> bool:
        """Whether the answer to an order is right, by the method of its name."""
        method: Callable[[list[str], str], bool] = getattr(self, kind)
        return method(words, answer)

    def open(self, words: list[str], answer: str) -> bool:
        self.may_fail = bool(words)
        found = re.fullmatch(r"commands \d+, dropped (\d+)", answer)
        self.is_open = found is not None
        self.has_failed = not self.is_open
        if found is None:
            return self.may_fail and answer == "Device"
        is_right = self.dropped in (None, int(found[1]))
        self.dropped = 0
        return is_right

    def image(self, words: list[str], answer: str) -> bool:
        """A crash that keeps no pending byte. Every stage between calls has the same store."""
        if answer == "an image":
            self.least = self.flushed
            if not self.has_failed:
                self.forget(self.flushed)
        return answer == "an image" or (answer == "no image" and words != ["0"])

    def worn(self, words: list[str], answer: str) -> bool:
        """A crash that keeps all pending bytes with zeros in one place: what is behind its record is dropped."""
        stage, start, _ = map(int, words)
        if answer == "an image" and self.has_failed:
            self.least, self.dropped = self.flushed, None
        elif answer == "an image":
            waiting = self.lengths[self.flushed + 1 :]
            ends = list(accumulate(waiting))
            kept = sum(end <= start for end in ends) if start < sum(waiting) else len(waiting)
            self.dropped = sum(waiting[kept:])
            self.forget(self.flushed + kept)
            self.least = self.count
        return answer == "an image" or (answer == "no image" and stage > 0)

    def forget(self, count: int) -> None:
        """Only so many commands are left."""
        del self.states[count + 1 :]
        del self.lengths[count + 1 :]

    def file(self, _words: list[str], answer: str) -> bool:
        return answer.split()[0].isdigit() or answer == "no file"

    def found(self, answer: str) -> bool:
        """Behind an opening the count is found, and all its commands are flushed."""
        if not answer.isdigit() or not self.least <= int(answer) <= self.count:
            return False
        count = int(answer)
        self.forget(count)
        self.flushed = self.least = count
        return True

    def single(self, words: list[str], answer: str) -> bool:
        """A command that is flushed at once."""
        before = self.count
        is_right = self.command(words, answer)
        if self.count > before and not self.needs_reopen:
            self.flush()
        return is_right

    def command(self, words: list[str], answer: str) -> bool:
        if self.needs_reopen:
            return answer == "Reopen"
        kind, name, *rest = words = meant(words)
        state = self.states[-1]
        if kind != "import" and name not in state:
            return answer == "NoConfig"
        after = {key: text for key, text in state.items() if kind != "delete" or key != name}
        if kind != "delete":
            after[name] = rest[-1]
        self.lengths.append(record_length(self.count + 1, words))
        if self.left is not None:
            self.left += self.lengths[-1]
        self.states.append(after)
        return self.fails(answer) or answer == str(self.count)

    def writes(self, kind: str, answer: str) -> bool:
        """Whether the answer to a call that writes to the disk is right. It is made by the method of its name."""
        if kind in UNTIMELY and (self.left is None) != (kind == "begin"):
            return answer == UNTIMELY[kind]
        if self.needs_reopen:
            return answer == "Reopen"
        made: Callable[[], str] = getattr(self, kind)
        return self.fails(answer) or answer == made()

    def flush(self) -> str:
        self.flushed = self.count
        return "done"

    def begin(self) -> str:
        self.left = base_length(self.count, self.states[-1])
        return "done"

    def slice(self) -> str:
        assert self.left is not None
        if self.left <= SLICE:
            return self.checkpoint()
        self.left -= SLICE
        return f"left {self.left}"

    def slices(self) -> str:
        assert self.left is not None
        count = -(-self.left // SLICE)
        self.checkpoint()
        return f"{count} slices"

    def checkpoint(self) -> str:
        self.left = None
        return self.flush()

    def running(self, _words: list[str], answer: str) -> bool:
        return answer == ("false" if self.left is None else "true")

    def reopen(self, _words: list[str], answer: str) -> bool:
        return answer == ("true" if self.needs_reopen else "false")

    def names(self, _words: list[str], answer: str) -> bool:
        return answer == "[" + ", ".join(f'"{name}"' for name in self.states[-1]) + "]"

    def export(self, words: list[str], answer: str) -> bool:
        text = self.states[-1].get(words[0])
        return answer == ("NoConfig" if text is None else measured(styled(text) + "\n"))


def measured(text: str) -> str:
    """The length of a text, and the text if it has at most 1,000 bytes, as the program shows it."""
    shown = text.replace("\\", "\\\\").replace('"', '\\"').replace("\n", "\\n")
    return str(len(text)) if len(text) > 1_000 else f'{len(text)} "{shown}"'


def named(order: str, answer: str) -> str:
    """What an answer is counted as."""
    if answer in ("Device", "Reopen", "NoConfig", "an image"):
        return answer
    is_dropped = answer.startswith("commands ") and not answer.endswith(" dropped 0")
    return "open with bytes dropped" if is_dropped else order.split(";")[0]


def look(orders: Sequence[str], answers: Sequence[str]) -> tuple[str | None, Counter[str]]:
    """The first order of a list that is not answered as it has to be, if there is one, and what the answers were."""
    model = Model()
    counts: Counter[str] = Counter()
    for number, (order, answer) in enumerate(zip(orders, answers)):
        follows_open = number > 0 and orders[number - 1].split(";")[0] == "open"
        if order == "folder":
            model = Model()
            is_right = answer == "no file"
        elif order == "count" and follows_open and model.is_open:
            is_right = model.found(answer)
        elif order == "count":
            is_right = answer == (str(model.count) if model.is_open else "no store is open")
        else:
            is_right = model.allows(order, answer)
        if not is_right:
            return f"{number} {order}: {answer}, in {orders[: number + 1]}", counts
        counts[named(order, answer)] += 1
    return None, counts


def try_lists(seed: str, count: int, end: float) -> Tried:
    """Runs so many lists in one process, unless it is past the end. Returns what was counted, and what went wrong."""
    chance, failures = random.Random(seed), Failures()
    counts: Counter[str] = Counter()
    if time.monotonic() > end:
        return counts, failures
    lists = [orders_of(chance) for _ in range(count)]
    lines = "".join(f"{order}\n" for orders in lists for order in orders).encode()
    done = subprocess.run([STORE_PROBE], input=lines, capture_output=True, check=False, timeout=HANGS)
    answers = done.stdout.decode().splitlines()
    failures.expect(f"seed {seed}: status and answers", (done.returncode, len(answers)), (0, sum(map(len, lists))))
    at = 0
    for orders in lists:
        wrong, found = look(orders, answers[at : at + len(orders)])
        failures.expect(f"seed {seed}", wrong, None)
        counts += found
        at += len(orders)
    return counts, failures


def main() -> int:
    need_program(STORE_PROBE)
    count, seed = number_given(1, COUNT), seed_given(2)
    failures, end = Failures(), time.monotonic() + SECONDS
    counts: Counter[str] = Counter()
    with ProcessPoolExecutor() as workers:
        parts = range(0, count, CHUNK)
        for part in [workers.submit(try_lists, f"{seed} {part}", min(CHUNK, count - part), end) for part in parts]:
            found, others = part.result()
            counts += found
            failures.take(others)
    counted = ", ".join(f"{number} {word}" for word, number in counts.most_common())
    print(f"  {counts['folder']} lists, {sum(counts.values())} answers: {counted}")
    failures.expect("lists were run", counts["folder"] > 0, True)
    return failures.report()


if __name__ == "__main__":
    sys.exit(main())
