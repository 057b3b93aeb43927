#!/usr/bin/env python3
"""Times `confstore format` and `confstore check` on inputs of several sizes, beside `wc -c` on the same file.

For each form of text that is read, and each size, it prints the least processor time of fifteen runs, the speed
without the start of the program, and the greatest memory; then the time of `check`, also as a multiple of that of
`format`, and its memory. At the end it says whether the time a byte grew by at most a quarter from the smallest size to
the largest, whether the memory was at most 12 times the input, and whether `check` took at most 1.3 times the time of
`format` at the largest size. The status is 0 if all three hold.

First it prints the greatest memory of `format` on 3 MiB of short lines of several forms, and what it says of them: most
are refused, since they would be too long in the one style. With `-m` it prints that alone.

Run it from the repository's root after the program is built:

    python3 bench/format.py [-m]
"""

from __future__ import annotations

import os
import string
import subprocess
import sys
import tempfile

from lib.corpora import Part, until
from lib.programs import MIB, PROGRAM, need_program
from lib.runs import Words, greatest_memory, processor_seconds

SIZES = [64 * 1024, 256 * 1024, MIB]
FORMS: dict[str, Part] = {
    "plain words": lambda i: f"key-{i:07}: value/of.{i:07}\n",
    "double quotes": lambda i: f'key-{i:07}: "the value of key {i}, as text"\n',
    "long values": lambda i: f'k{i:06}: "' + "lorem ipsum dolor " * 20 + '"\n',
    # a finding on each line
    "single quotes": lambda i: f"key-{i:07}: 'the value of key {i}, as text' \n",
}
# Short lines, of which so many bytes are read.
SHORT_LINES = 3 * MIB
SHORT: dict[str, Part] = {
    "lines `-`": lambda i: "-\n",
    "lines `- `": lambda i: "- \n",
    "lines `k:`": lambda i: "k:\n",
    "lines `- k:`": lambda i: "- k:\n",
    # as many to a mapping as there are
    "three letters": lambda i: f"{'  ' if i % 26**3 else '- '}{three_letters(i)}:\n",
    "other keys": lambda i: f"k{i:06}:\n",
}
FORMAT, CHECK = [PROGRAM, "format"], [PROGRAM, "check"]
# How often each run is made.
TIMES = 15


def three_letters(number: int) -> str:
    return "".join(string.ascii_lowercase[number // 26**place % 26] for place in (2, 1, 0))


def best(words: Words, path: str) -> float:
    """The least processor time of several runs. `check` ends with 1 where it found something."""
    statuses = (0, 1) if words is CHECK else (0,)
    return min(processor_seconds(words, path, statuses) for _ in range(TIMES))


class Cost:
    """What `format` and `check` take on a file, beyond the start of the program."""

    def __init__(self, path: str, start: float, floor: int) -> None:
        self.length = os.path.getsize(path)
        self.seconds = best(FORMAT, path)
        self.memory = greatest_memory(FORMAT, path)
        self.checked = best(CHECK, path)
        self.check_memory = greatest_memory(CHECK, path)
        self.peer = best(["wc", "-c"], path)
        self.work = max(self.seconds - start, 1e-6)
        self.ratio = max(self.checked - start, 1e-6) / self.work
        self.beyond = self.memory - floor

    def show(self, form: str) -> None:
        print(
            f"{form:14} {self.length:8} bytes  {self.seconds * 1000:7.2f} ms  {self.length / self.work / 1e6:7.1f} MB/s"
            f"  wc -c {self.peer * 1000:5.2f} ms  {self.memory / MIB:6.1f} MiB"
            f" ({self.beyond / self.length:4.1f} times the input)"
            f"  check {self.checked * 1000:7.2f} ms ({self.ratio:4.2f} times)  {self.check_memory / MIB:6.1f} MiB"
        )


def show_memory(form: str, path: str) -> None:
    """Prints the greatest memory of `format` on short lines, and what it says of them."""
    with open(path, "w", encoding="utf-8") as target:
        target.write(until(SHORT_LINES, SHORT[form]))
    length, memory = os.path.getsize(path), greatest_memory(FORMAT, path)
    with open(path, "rb") as text:
        done = subprocess.run(FORMAT, stdin=text, stdout=subprocess.DEVNULL, stderr=subprocess.PIPE, check=False)
    said = done.stderr.decode().strip() or "written"
    print(f"{form:14} {length:8} bytes  {memory / MIB:6.1f} MiB ({memory / length:4.1f} times the input)  {said}")


def is_within(form: str, folder: str, start: float, floor: int) -> bool:
    """Prints what a form of text takes at each size, and returns whether that is within the bounds."""
    path, costs = os.path.join(folder, "input.yaml"), []
    for size in SIZES:
        with open(path, "w", encoding="utf-8") as target:
            target.write(until(size, FORMS[form]))
        costs.append(Cost(path, start, floor))
        costs[-1].show(form)
    growth = (costs[-1].work / costs[-1].length) / (costs[0].work / costs[0].length)
    print(f"{form:14} the time a byte at the largest size is {growth:.2f} times that at the smallest")
    fits = all(cost.beyond <= 12 * cost.length for cost in costs)
    return fits and growth <= 1.25 and costs[-1].ratio <= 1.3


def main() -> int:
    need_program()
    with tempfile.TemporaryDirectory() as folder:
        for form in SHORT:
            show_memory(form, os.path.join(folder, "input.yaml"))
        if "-m" in sys.argv[1:]:
            return 0
        word = os.path.join(folder, "word")
        with open(word, "w", encoding="utf-8") as target:
            target.write("a: b\n")
        start, floor = best(FORMAT, word), greatest_memory(FORMAT, word)
        print(f"start of the program: {start * 1000:.2f} ms, {floor / MIB:.1f} MiB")
        sound = all([is_within(form, folder, start, floor) for form in FORMS])
    if sound:
        print("linear, within 12 times the input, and `check` within 1.3 times the time of `format`")
    else:
        print("NOT within the bounds")
    return 0 if sound else 1


if __name__ == "__main__":
    sys.exit(main())
