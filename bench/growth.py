#!/usr/bin/env python3
"""Says where the time that a byte takes grows with the length of a text.

It reads the corpora of `bench/reading_rates.py`, and hostile texts, to events in a loop inside one process, at 64 KiB,
1 MiB and 16 MiB. It prints the nanoseconds a byte, and how many times those at 64 KiB the others are, with `GROWS`
where the reader's own time grows to more than 1.25 times.

A process keeps the memory of a small text from round to round. That of a large one it gives back, and the system
hands it out anew, page by page; for a text of signs alone that are up to 26 bytes for each byte. What the system takes
for a page differs much between machines, so it is printed first. So that the sizes are measured alike, the times come
twice:

- `kept`: malloc is set to keep what it has, at each size, and to ask for huge pages. This is the reader's own time.
- `anew`: malloc is set to take each piece of 32 KiB or more from the system, at each size, and to give it back. The
  processor's time for the process is printed beside that for the system. Where a text of 64 KiB needs less memory than
  that, it is kept all the same.

The runs of the three sizes come by turns, and the growth is the median over the turns, so that a machine whose speed
moves shows the same. The nanoseconds are medians too. What a process takes to start, and for its first round, is taken
away.

    python3 bench/growth.py [-i] [WORD]

A line ends with the number of events of the largest text, or with why it is refused; with `-i` also the instructions a
byte at 64 KiB and 1 MiB, as valgrind counts them. With a word only the texts are read whose names have it. Run it on a
quiet machine with glibc 2.35 or later, from the repository's root, after `bench_driver` is built as
`bench/reading_rates.py` says. It takes some 25 minutes.
"""

from __future__ import annotations

import mmap
import os
import statistics
import sys
import tempfile
import time
from collections.abc import Callable, Iterable, Mapping, Sequence

from lib.corpora import CORPORA, HOSTILE, Part
from lib.programs import DRIVER, MIB, need_program
from lib.reading import Reading, round_instructions, written
from lib.runs import Words

SIZES = [64 * 1024, MIB, 16 * MIB]
# The greatest growth.
MOST = 1.25
# How many rounds of one run are measured at least.
ROUNDS = 4
# How many turns there are.
TURNS = 9
# The settings of glibc's malloc.
KEPT = {"GLIBC_TUNABLES": "glibc.malloc.hugetlb=1:glibc.malloc.mmap_max=0:glibc.malloc.trim_threshold=17179869184"}
ANEW = {"GLIBC_TUNABLES": "glibc.malloc.mmap_threshold=32768:glibc.malloc.trim_threshold=32768"}

# What a byte takes in nanoseconds: for the process, and for the system.
Cost = tuple[float, float]
# The costs of each turn, for the file of each size.
Turns = Sequence[Sequence[Cost]]


def times(words: Words, settings: Mapping[str, str]) -> tuple[float, float]:
    """The processor time of a run in seconds: for the process, and for the system."""
    usage, _ = Reading(settings).usage_and_output(words)
    return usage.ru_utime, usage.ru_stime


def measured(orders: Sequence[Words], settings: Mapping[str, str]) -> Turns:
    """What a byte of each order's file takes in each turn, in nanoseconds: for the process, and for the system."""
    rounds = [max(ROUNDS, Reading().rounds_of(words)) for words in orders]
    turns: list[list[Cost]] = [[] for _ in orders]
    for _ in range(TURNS):
        for words, count, costs in zip(orders, rounds, turns):
            one, many = times([*words, "1"], settings), times([*words, str(count + 1)], settings)
            own, system = ((more - less) / (count * length_of(words)) * 1e9 for less, more in zip(one, many))
            costs.append((own, system))
    return turns


def length_of(words: Words) -> int:
    """The length of an order's file."""
    return os.path.getsize(words[-1])


def medians(turns: Turns, part: Callable[[Cost], float]) -> list[float]:
    """The medians over the turns of a part of what a byte takes."""
    return [statistics.median(map(part, costs)) for costs in turns]


def growths(turns: Turns) -> list[float]:
    """How many times what a byte takes at the first size it takes at the others."""
    first = [sum(cost) for cost in turns[0]]
    return [statistics.median(sum(cost) / one for cost, one in zip(costs, first)) for costs in turns[1:]]


def page_cost(pages: int = 16_384) -> float:
    """The microseconds that the system takes to hand out a page: what touching it takes more the first time."""
    with mmap.mmap(-1, pages * mmap.PAGESIZE) as memory:
        memory.madvise(mmap.MADV_NOHUGEPAGE)
        seconds = []
        for _ in range(2):
            start = time.perf_counter()
            for page in range(pages):
                memory[page * mmap.PAGESIZE] = 1
            seconds.append(time.perf_counter() - start)
    return (seconds[0] - seconds[1]) / pages * 1e6


def shown(costs: Iterable[float]) -> str:
    return ", ".join(f"{cost:6.2f}" for cost in costs)


def grows(name: str, make: Part, folder: str, counts: bool) -> bool:
    """Prints what a byte of a text takes at each size, and returns whether it grows by more than it may."""
    orders = [[DRIVER, "read", "events", written(folder, make(size), f"{size}.yaml")] for size in SIZES]
    kept, anew = measured(orders, KEPT), measured(orders, ANEW)
    is_more = max(growths(kept)) > MOST
    line = f"{name:22} {'GROWS' if is_more else '     '}"
    line += f" kept {shown(medians(kept, sum))} ns, {shown(growths(kept))} times"
    line += f" | anew {shown(medians(anew, lambda cost: cost[0]))} ns"
    line += f" and {shown(medians(anew, lambda cost: cost[1]))} for the system, {shown(growths(anew))} times"
    if counts:
        line += f" | {shown(round_instructions(words) / length_of(words) for words in orders[:2])} instructions"
    answer = Reading().run([*orders[-1], "1"])[1].decode().strip()
    print(f"{line}  ({answer})", flush=True)
    return is_more


def main() -> int:
    need_program(DRIVER)
    words = [word for word in sys.argv[1:] if word != "-i"]
    print(f"A page of {mmap.PAGESIZE} bytes takes the system {min(page_cost() for _ in range(5)):.2f} us.")
    grown = []
    with tempfile.TemporaryDirectory() as folder:
        for name, make in {**CORPORA, **HOSTILE}.items():
            if all(word in name for word in words) and grows(name, make, folder, "-i" in sys.argv):
                grown.append(name)
    print(f"more than {MOST} times: {', '.join(grown) or 'none'}")
    return 0


if __name__ == "__main__":
    sys.exit(main())
