#!/usr/bin/env python3
"""Times the reading of texts, beside libyaml, libfyaml and rapidyaml.

It makes nine corpora of 1 MiB each, and reads them to events and to a tree in a loop inside one process, as the peers
do, and once by `confstore format` beside what the peers take to read and write the same text. The row `styled` is the
tree of the text that `format` writes. It prints MB/s, the ratio to the best peer, the greatest memory, how many pages
of memory the system hands out in a round, and with `-i` instructions a byte as valgrind counts them. At the end come
the geometric mean of the ratios and the worst corpus. `bench/growth.py` says how the time a byte grows with the length
of a text.

With malloc's own settings some of the programs give memory back in each round, and the system hands it out anew. On
some machines that takes as long as the reading. So all is measured twice: with malloc's own settings, and with malloc
keeping its memory, for the peers as for ours.

The programs take turns, since the speed of a shared machine changes within seconds. What is printed is the median of
the processor times of eleven turns, less the least time of a run with one round, and of the ratios of each turn. Run it
on a quiet machine from the repository's root, after the programs are built:

    ./prove && (cd crates/bench_driver && rt run -- edits tree wide 1 1)
    python3 bench/reading_rates.py [-i] [-n FOLDER]

With `-n FOLDER` the newest libfyaml and rapidyaml are peers too, which `bench/peers/newest.sh FOLDER` has put there. A
peer that is not installed is left out: `apt-get install libyaml-dev libfyaml-dev valgrind` installs libyaml, an older
libfyaml, and valgrind. With `-c NAME` one corpus alone is read.
"""

from __future__ import annotations

import math
import os
import re
import subprocess
import sys
import tempfile
from collections.abc import Collection, Sequence
from statistics import median

from lib.corpora import CORPORA, Part
from lib.programs import DRIVER, MIB, PROGRAM, built, counts_instructions, need_program
from lib.reading import Reading, round_instructions, written
from lib.runs import Words, greatest_memory

# The peers, with what each is linked to and the package that has it.
PEERS = {"libyaml": ("-lyaml", "libyaml-dev"), "libfyaml": ("-lfyaml", "libfyaml-dev")}
# What a peer can do, and the newest peers, which `bench/peers/newest.sh` builds, with what each can do.
WORKS = ("events", "tree", "copy")
NEWEST = {"libfyaml": WORKS, "rapidyaml": ("tree", "copy")}
# The settings of glibc's malloc with which it keeps its memory.
KEPT = {"GLIBC_TUNABLES": "glibc.malloc.mmap_max=0:glibc.malloc.trim_threshold=17179869184"}


def times_as_fast(own: Sequence[float], other: Sequence[float]) -> float:
    """How many times as fast the first of two programs is, by their times of the same turns."""
    return median(second / first for first, second in zip(own, other))


class Peer:
    """A peer's driver, and the works that it can do."""

    def __init__(self, program: str, works: Collection[str] = WORKS) -> None:
        self.program = program
        self.works = works


Peers = dict[str, Peer]


def newest_peers(folder: str) -> Peers:
    """The drivers in a folder that `bench/peers/newest.sh` made, each with its version in its name."""
    with open(os.path.join(folder, "versions"), encoding="utf-8") as lines:
        versions = re.findall(r"Version: ([0-9.]+)", lines.read())
    return {
        f"{name} {version}": Peer(os.path.join(folder, name), works)
        for (name, works), version in zip(NEWEST.items(), versions)
    }


def built_peers(folder: str) -> Peers:
    """The peers' drivers that can be built here."""
    peers = {}
    for name, (library, package) in PEERS.items():
        program = built(folder, name, library)
        if program is not None:
            peers[name] = Peer(program)
        else:
            print(f"{name} is left out: install {package} to compare with it")
    return peers


def megabytes(length: int, seconds: float) -> float:
    return length / max(seconds, 1e-9) / 1e6


class Comparison:
    """The comparison with peers: how programs are run, and whether instructions are counted."""

    def __init__(self, reading: Reading, peers: Peers, counts: bool) -> None:
        self.reading, self.peers, self.counts = reading, peers, counts

    def part(self, name: str, words: Words, length: int, turns: Sequence[float]) -> str:
        """What is printed of a program that reads a file of this length."""
        memory = greatest_memory([*words, "1"]) / MIB
        shown = f"{name} {megabytes(length, median(turns)):6.1f} MB/s {memory:5.1f} MiB"
        shown += f" {self.reading.round_pages(words):5.0f} pages"
        return shown + (f" {round_instructions(words) / length:6.1f} a byte" if self.counts else "")

    def of_work(self, work: str, path: str) -> float:
        """Prints how fast a file is read, beside the peers, and returns the ratio to the best of them."""
        length = os.path.getsize(path)
        peers = {name: peer for name, peer in self.peers.items() if work in peer.works}
        programs = {"confstore": [DRIVER, "read"], **{name: [peer.program] for name, peer in peers.items()}}
        orders = {name: [*program, work, path] for name, program in programs.items()}
        turns = dict(zip(orders, self.reading.round_turns(list(orders.values()))))
        parts = [self.part(name, words, length, turns[name]) for name, words in orders.items()]
        ratio = min((times_as_fast(turns["confstore"], turns[name]) for name in peers), default=math.nan)
        print(f"  {work:6} {' | '.join(parts)} | {ratio:4.2f} times the best peer")
        return ratio

    def style_limited(self, folder: str, make: Part) -> str:
        """A file with a text of a corpus whose text in the one style has at most 1 MiB."""
        size = MIB
        while True:
            path = written(folder, make(size))
            length = int(self.reading.run([DRIVER, "read", "tree", path, "1"])[1])
            if length <= MIB:
                return path
            size = int(size * MIB / length * 0.99)

    def of_format(self, path: str) -> float:
        """Prints how fast `format` is as a program, beside the peers' reading and writing as one, and returns the
        ratio."""
        length = os.path.getsize(path)
        copies = [([peer.program, "copy", path, "1"], os.devnull) for peer in self.peers.values()]
        own, *others = self.reading.turns_of([([PROGRAM, "format"], path), *copies])
        times = greatest_memory([PROGRAM, "format"], path) / length
        speed = megabytes(length, median(own))
        print(f"  format confstore {speed:6.1f} MB/s, {times:4.1f} times the input in memory", end="")
        for name, other in zip(self.peers, others):
            print(f" | {name} {megabytes(length, median(other)):6.1f} MB/s", end="")
        ratio = min((times_as_fast(own, other) for other in others), default=math.nan)
        print(f" | {ratio:4.2f} times the best peer")
        return ratio

    def of_styled(self, path: str, folder: str) -> None:
        """Prints how fast the text of a file in the one style is read to a tree."""
        styled = os.path.join(folder, "styled.yaml")
        with open(path, "rb") as source, open(styled, "wb") as target:
            subprocess.run([PROGRAM, "format"], stdin=source, stdout=target, check=True)
        words = [DRIVER, "read", "tree", styled]
        [turns] = self.reading.round_turns([words])
        print(f"  styled {self.part('confstore', words, os.path.getsize(styled), turns)}")

    def event_bytes(self, path: str, floor: int) -> float:
        """How much memory an event takes: what a run takes more than on a short text, without the text itself."""
        words = [DRIVER, "read", "events", path, "1"]
        return (greatest_memory(words) - floor - os.path.getsize(path)) / int(self.reading.run(words)[1])

    def of_corpora(self, folder: str, chosen: Sequence[str]) -> None:
        """Reads the corpora beside the peers."""
        ratios: dict[str, dict[str, float]] = {"events": {}, "tree": {}, "format": {}}
        floor = greatest_memory([DRIVER, "read", "events", written(folder, "a: b\n"), "1"])
        for name in chosen:
            path = written(folder, CORPORA[name](MIB))
            print(f"{name}: {self.event_bytes(path, floor):.0f} bytes an event")
            for work in ("events", "tree"):
                ratios[work][name] = self.of_work(work, path)
            limited = self.style_limited(folder, CORPORA[name])
            ratios["format"][name] = self.of_format(limited)
            self.of_styled(limited, folder)
        for work, of_names in ratios.items():
            worst = min(of_names, key=lambda name: of_names[name])
            print(
                f"{work}: {mean(of_names.values()):.2f} times the best peer in the geometric mean, "
                f"{of_names[worst]:.2f} times on the worst corpus ({worst})"
            )


def mean(ratios: Collection[float]) -> float:
    """The geometric mean."""
    return math.exp(sum(map(math.log, ratios)) / len(ratios))


def option(name: str) -> str | None:
    """The word after an option, if it is given."""
    words = sys.argv[1:]
    return words[words.index(name) + 1] if name in words else None


def main() -> int:
    need_program()
    need_program(DRIVER)
    newest, only = option("-n"), option("-c")
    chosen = [only] if only else list(CORPORA)
    with tempfile.TemporaryDirectory() as folder:
        peers = {**built_peers(folder), **(newest_peers(newest) if newest else {})}
        print("== malloc with its own settings")
        Comparison(Reading(), peers, counts_instructions()).of_corpora(folder, chosen)
        print("== malloc keeps its memory")
        Comparison(Reading(KEPT), peers, False).of_corpora(folder, chosen)
    return 0


if __name__ == "__main__":
    sys.exit(main())
