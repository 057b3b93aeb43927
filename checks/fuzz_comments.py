#!/usr/bin/env python3
"""Formats a million random texts with comments and blank lines, beside a model.

The texts are those of `lib/commented_texts.py`. `keep` of `tree_probe` formats each with its comments, and
`lib/comments_model.py` says what it has to write. What is written is formatted once more, and has to stay as it is.
Texts that PyYAML does not read are counted and not compared.

Run it from the repository's root after the probe is built; it needs PyYAML, and takes half an hour on two processors:

    (cd crates/tree_probe && rt run < stdin > /dev/null) && python3 checks/fuzz_comments.py

A number of texts and a seed may follow. The status is 0 if all is as it should be.
"""

from __future__ import annotations

import multiprocessing
import random
import sys
from collections import Counter
from dataclasses import dataclass, field

from lib.command_line import number_given, seed_given
from lib.commented_texts import Texts
from lib.comments_model import NotRead, formatted
from lib.kept_comments import PROBE, kept
from lib.store_runs import need_program

COUNT = 1_000_000
PROCESSES = 2

# How many texts one run of the probe formats.
CHUNK = 2000

# How many differences are shown.
SHOWN = 5

@dataclass
class Tried:
    """What came of some texts: how many there were of each kind, and those that differ."""

    counts: Counter[str] = field(default_factory=Counter)
    wrong: list[str] = field(default_factory=list)


def tried(seed: int) -> Tried:
    """Formats one chunk of texts."""
    found = Tried()
    maker = Texts(random.Random(seed))
    texts: list[str] = []
    expected: list[str] = []
    for _ in range(CHUNK):
        text = maker.text()
        try:
            expected.append(formatted(text))
        except NotRead:
            found.counts["not read by PyYAML"] += 1
            continue
        texts.append(text)
    for text, want, got in zip(texts, expected, kept(texts), strict=True):
        found.counts["compared"] += 1
        if got != want:
            found.counts["refused" if got is None else "differ"] += 1
            found.wrong.append(f"{text!r}\n  has to be {want!r}\n  and is    {got!r}")
    for want, got in zip(expected, kept(expected), strict=True):
        if got != want:
            found.counts["change once more"] += 1
            found.wrong.append(f"{want!r}\n  becomes {got!r}")
    return found


def main() -> None:
    """Tries the texts."""
    need_program(PROBE)
    count = number_given(1, COUNT)
    seed = seed_given(2)
    seeds = range(seed, seed + max(1, count // CHUNK))
    total = Tried()
    with multiprocessing.Pool(PROCESSES) as pool:
        for part in pool.imap_unordered(tried, seeds):
            total.counts += part.counts
            total.wrong += part.wrong[: SHOWN - len(total.wrong)]
    print(", ".join(f"{kind}: {number}" for kind, number in sorted(total.counts.items())))
    for line in total.wrong:
        print(line)
    sys.exit(1 if total.wrong else 0)


if __name__ == "__main__":
    main()
