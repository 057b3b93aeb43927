#!/usr/bin/env python3
"""Reads a million changed texts to trees in one process, and looks at how long each takes.

The texts are those of checks/data after random changes. `style` of `tree_probe` reads them, one
after the other; another process reads a thousand that are repeated to 64 to 256 KiB.

- Each is answered by a tree or by the name of a fault, within a time and a memory that are linear in its length.
- A tree is written in the one style; this script reads that text back by libyaml, and the text that was read as well,
  if PyYAML is installed. Where libyaml reads both, the trees have to be the same, but for the two forms below that it
  reads by other rules. It reads YAML 1.1 and less than the profile, so it refuses some texts; these are counted. Texts
  with the breaks of YAML 1.1 alone (x85, x2028, x2029) are not compared.

Run it from the repository's root after the program is built; it takes some 3 minutes, and more on a busy machine:

    (cd crates/tree_probe && rt run) && python3 checks/fuzz_texts.py

A number of texts and a seed may follow. The status is 0 if all is as it should be.
"""

from __future__ import annotations

import importlib
import multiprocessing
import os
import queue
import random
import re
import resource
import subprocess
import sys
import threading
from collections import Counter
from collections.abc import Iterable, Iterator, Sequence
from concurrent.futures import Future, ProcessPoolExecutor
from typing import Any

from lib.command_line import number_given, seed_given
from lib.mutations import changed
from lib.store_runs import TOP, Failures, need_program, program_of, read_file
from lib.text_cases import CASES, bytes_of, read_cases

yaml: Any
try:
    yaml = importlib.import_module("yaml")
except ImportError:
    yaml = None

PROBE = program_of("tree_probe")
COUNT = 1_000_000

# For each long text there are so many short ones.
LONG = 1000
SHORTEST, LONGEST = 64 * 1024, 256 * 1024

# The most time that reading may take, in nanoseconds: for any text, and more for each of its bytes. A text that takes
# longer is read again, some times, since other processes may have taken the time.
TIME = 100_000
TIME_A_BYTE = 500
AGAIN = 20

# The most memory of the process in bytes, in the same way: for the program, and for each byte of the longest text. A
# process that asks for more is refused it, and answers 'OutOfMemory'.
MEMORY = 16 * 1024 * 1024
MEMORY_A_BYTE = 200
LONGEST_SHORT = 8 * 1024

# A text and its tree in the one style.
Pair = tuple[bytes, str]
# What was counted, and what went wrong: what a comparison gave, the text, and its tree in the one style.
Compared = tuple["Counter[str]", "list[tuple[str, bytes, str]]"]

# If nothing is read for so many seconds, the process hangs.
HANGS = 60

# How many answers are compared at once.
CHUNK = 2000

# The faults that a text is refused by.
FAULTS = {"TooLong", "NotUtf8", "Syntax", "Documents", "KeyNotText", "KeyTwice", "TooDeep", "LargeInStyle"}

# Breaks in YAML 1.1 that are none in YAML 1.2.
OLD_BREAKS = re.compile("[\x85\u2028\u2029]")

# Where libyaml reads another tree. In brackets, a `?` that begins a word, as in `[?a]`, asks for a key, and a `:` after
# a `?` for a value. At the top, a block scalar has no text in a first line that begins with `#`.
OTHER_RULES = re.compile(r"\?[^ \t\r\n]|\?\s+:|[|>][^\r\n]*[\r\n]\s*#")

# How the bytes that are no printable characters are written in a line.
ESCAPES = {byte: f"\\x{byte:02x}" for byte in (*range(32), *range(127, 256))}
ESCAPES.update({0x0A: "\\n", 0x0D: "\\r", 0x09: "\\t", 0x5C: "\\\\"})


def seeds() -> list[bytes]:
    """The texts that are changed."""
    texts: list[bytes] = [read_file(os.path.join(TOP, "checks", "data", "every_form.yaml"))]
    for name in sorted(os.listdir(CASES)):
        texts += [bytes_of(case["text"]) for case in read_cases(os.path.join(CASES, name))]
    return [text for text in texts if len(text) <= 2000]


def short_texts(chance: random.Random, count: int) -> Iterator[bytes]:
    known = seeds()
    for _ in range(count):
        yield changed(chance, chance.choice(known))


def long_texts(chance: random.Random, count: int) -> Iterator[bytes]:
    """So many changed texts, some as items of a list, each repeated, and some changed once more."""
    known = seeds()
    for _ in range(count):
        one = changed(chance, chance.choice(known)) or b"- "
        if chance.random() < 0.5:
            one = b"- " + one.rstrip(b"\n").replace(b"\n", b"\n  ") + b"\n"
        times = chance.randrange(SHORTEST, LONGEST) // len(one)
        yield one * times if chance.random() < 0.5 else changed(chance, one * times)


def order_of(text: bytes) -> bytes:
    """The line that asks for the tree of a text."""
    return b"style;" + text.decode("latin-1").translate(ESCAPES).encode() + b"\n"


def unescaped(line: str) -> str:
    return re.sub(r"\\(.)", lambda found: "\n" if found[1] == "n" else "\\", line)


class Probe:
    """A process that reads texts. `sent` has those that were sent and not answered yet."""

    def __init__(self, source: Iterable[bytes], longest: int) -> None:
        self.most = MEMORY + MEMORY_A_BYTE * longest
        self.peak = 0
        self.sent: queue.Queue[bytes] = queue.Queue(100_000)
        self.process = subprocess.Popen(
            [PROBE], stdin=subprocess.PIPE, stdout=subprocess.PIPE, preexec_fn=self.limit_memory
        )
        assert self.process.stdin is not None and self.process.stdout is not None
        self.orders, self.lines = self.process.stdin, self.process.stdout
        self.progress = 0
        self.ended = threading.Event()
        threading.Thread(target=self.send, args=(source,), daemon=True).start()
        threading.Thread(target=self.watch, daemon=True).start()

    def limit_memory(self) -> None:
        resource.setrlimit(resource.RLIMIT_AS, (self.most, self.most))

    def send(self, source: Iterable[bytes]) -> None:
        try:
            for text in source:
                self.sent.put(text)
                self.orders.write(order_of(text))
            self.orders.close()
        except BrokenPipeError:
            pass

    def watch(self) -> None:
        """Ends the process once it makes no progress."""
        last = -1
        while not self.ended.wait(HANGS):
            if last == self.progress:
                self.process.kill()
            last = self.progress

    def answers(self) -> Iterator[tuple[bytes, int, str]]:
        """Each text with the nanoseconds that reading took, and its answer."""
        for line in self.lines:
            self.progress += 1
            if self.progress % 100 == 0:
                self.peak = self.memory() or self.peak
            time, answer = line.decode().rstrip("\n").split(" ", 1)
            yield self.sent.get(), int(time), answer

    def memory(self) -> int | None:
        """The greatest memory of the process so far in KiB, or nothing once it has ended."""
        with open(f"/proc/{self.process.pid}/status", encoding="ascii") as source:
            found = re.search(r"VmHWM:\s+(\d+) kB", source.read())
        return int(found[1]) if found else None

    def end(self) -> int:
        """Waits for the process. Returns its status."""
        self.ended.set()
        return self.process.wait()


def may_take(text: bytes) -> int:
    return TIME + TIME_A_BYTE * len(text)


def least_time(text: bytes) -> int:
    """The least time of some readings of a text."""
    probe = Probe([text] * AGAIN, len(text))
    least = min(time for _, time, _ in probe.answers())
    probe.end()
    return least


def read_by_libyaml(text: bytes | str) -> Any:
    """The tree that libyaml reads, or why it refuses the text."""
    try:
        return yaml.load(text, yaml.CBaseLoader)
    except (yaml.YAMLError, UnicodeError, RecursionError, TypeError) as error:
        return error


def comparison(text: bytes, style: str) -> str:
    """What libyaml says of a text that was read, and of its tree in the one style."""
    if OLD_BREAKS.search(text.decode()):
        return "not compared"
    wanted = read_by_libyaml(style)
    found = read_by_libyaml(text)
    if isinstance(wanted, Exception):
        return f"the one style is refused: {wanted}"
    if isinstance(found, Exception):
        return "refused by libyaml"
    if found == wanted:
        return "the same tree"
    return "another tree by other rules" if OTHER_RULES.search(text.decode()) else "another tree"


def compare(pairs: Sequence[Pair]) -> Compared:
    """How many comparisons went how, and those that went wrong."""
    results = [(comparison(text, style), text, style) for text, style in pairs]
    counts = Counter(result for result, _, _ in results)
    wrong = [each for each in results if each[0] not in EXPECTED]
    return counts, wrong


# The results of a comparison that are as they should be.
EXPECTED = {"the same tree", "refused by libyaml", "not compared", "another tree by other rules"}


class Tally:
    """What was answered, and what took long."""

    def __init__(self) -> None:
        self.answers: Counter[str] = Counter()
        self.slow: list[bytes] = []
        self.slowest = 0.0
        self.longest = 0
        self.trees: list[Pair] = []

    def take(self, text: bytes, time: int, answer: str) -> None:
        word, _, rest = answer.partition(" ")
        self.answers[word] += 1
        self.longest = max(self.longest, len(text))
        self.slowest = max(self.slowest, time / max(len(text), 1000))
        if time > may_take(text):
            self.slow.append(text)
        if word == "tree" and yaml:
            self.trees.append((text, unescaped(rest)))

    def taken(self) -> list[Pair]:
        """The trees to be compared next."""
        trees, self.trees = self.trees, []
        return trees


def read_all(source: Iterable[bytes], longest: int, failures: Failures) -> tuple[Tally, list[Compared]]:
    """Reads texts of at most so many bytes in one process, and compares their trees. Returns what was answered, and
    the comparisons."""
    tally, probe = Tally(), Probe(source, longest)
    parts: list[Future[Compared]] = []
    with ProcessPoolExecutor(mp_context=multiprocessing.get_context("spawn")) as workers:
        for text, time, answer in probe.answers():
            tally.take(text, time, answer)
            if len(tally.trees) >= CHUNK:
                parts.append(workers.submit(compare, tally.taken()))
        failures.expect("the status", probe.end(), 0)
        parts.append(workers.submit(compare, tally.taken()))
        compared = [each.result() for each in parts]
    print(f"  {probe.peak} KiB of memory, of {probe.most // 1024}, for texts of up to {tally.longest} bytes")
    return tally, compared


def try_texts(source: Iterable[bytes], count: int, longest: int, failures: Failures) -> None:
    """Reads so many texts, and looks at their answers."""
    tally, compared = read_all(source, longest, failures)
    failures.expect("texts answered", sum(tally.answers.values()), count)
    failures.expect("other answers", set(tally.answers) - FAULTS - {"tree"}, set())
    print("  " + ", ".join(f"{number} {word}" for word, number in tally.answers.most_common()))
    slow = [text for text in tally.slow if least_time(text) > may_take(text)]
    print(f"  at most {tally.slowest:.0f} ns a byte; {len(tally.slow)} texts were read again for their time")
    failures.expect("texts that take long", [text[:60] for text in slow], [])
    report_comparisons(compared, failures)


def main() -> int:
    need_program(PROBE)
    count, seed = number_given(1, COUNT), seed_given(2)
    failures = Failures()
    chance = random.Random(seed)
    try_texts(short_texts(chance, count), count, LONGEST_SHORT, failures)
    try_texts(long_texts(chance, count // LONG), count // LONG, LONGEST, failures)
    return failures.report()


def report_comparisons(compared: Sequence[Compared], failures: Failures) -> None:
    if not yaml:
        print("  PyYAML is not installed: no tree was compared")
        return
    counts: Counter[str] = sum((count for count, _ in compared), Counter())
    print("  libyaml: " + ", ".join(f"{number} {word}" for word, number in counts.most_common()))
    for result, text, style in [each for _, wrong in compared for each in wrong]:
        failures.expect(f"{result}: {text[:200]!r}, {style[:200]!r}", False, True)


if __name__ == "__main__":
    sys.exit(main())
