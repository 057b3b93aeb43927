#!/usr/bin/env python3
"""Draws how fast texts are read, beside other readers, as docs/speed.svg: from what bench/reading_rates.py has printed.

    python3 bench/reading_rates.py -n FOLDER >bench/data/reading_rates.txt
    python3 bench/plot.py

It takes the first part, which was measured with malloc's own settings. Each row is a corpus of 1 MiB, each mark a
reader, and further to the right is faster; one that is too slow for the axis has its number. It needs the standard
library alone, and the same data gives the same bytes.
"""

from __future__ import annotations

import math
import os
import re
from collections.abc import Iterable, Iterator, Mapping

from lib.programs import TOP

DATA = os.path.join(TOP, "bench", "data", "reading_rates.txt")
TARGET = os.path.join(TOP, "docs", "speed.svg")

WORKS = {"events": "to events", "tree": "to a tree", "format": "reading and writing"}
COLOURS = {"confstore": "#1b6ca8", "libyaml": "#888888", "libfyaml": "#d1495b", "rapidyaml": "#edae49"}
# In pixels: the column of names, the width of a panel and the space behind it, a row, and the lines above and below.
NAMES, PANEL, SPACE, ROW, ABOVE, BELOW = 84, 250, 36, 24, 58, 26
# The ends of the axis in MB/s, and its marks.
SLOWEST, FASTEST, TICKS = 3, 1000, (3, 10, 30, 100, 300, 1000)

# The rates in MB/s, by corpus and reader.
Rates = dict[str, dict[str, float]]


def rates(path: str) -> dict[str, Rates]:
    """The rates in MB/s, by work, corpus and reader, of the first part of what was printed."""
    found: dict[str, Rates] = {work: {} for work in WORKS}
    corpus = ""
    with open(path, encoding="utf-8") as data:
        for line in data.read().partition("== malloc keeps")[0].splitlines():
            head = re.match(r"(\w+): +\d+ bytes an event", line)
            work = re.match(r"  (events|tree|format) ", line)
            if head:
                corpus = head[1]
            elif work:
                of_readers = re.findall(r"([a-z]+(?: [\d.]+)?) +([\d.]+) MB/s", line)
                found[work[1]][corpus] = {reader: float(rate) for reader, rate in of_readers}
    return found


def x_of(rate: float) -> float:
    """Where a rate is in its panel."""
    share = math.log(rate / SLOWEST) / math.log(FASTEST / SLOWEST)
    return PANEL * min(max(share, 0), 1)


def text(x: float, y: float, words: str, anchor: str = "start", weight: str = "normal") -> str:
    return f'<text x="{x:.1f}" y="{y:.1f}" text-anchor="{anchor}" font-weight="{weight}">{words}</text>'


def mark(x: float, y: float, reader: str) -> str:
    colour = COLOURS[reader.partition(" ")[0]]
    size = 5.5 if reader == "confstore" else 4
    return f'<circle cx="{x:.1f}" cy="{y:.1f}" r="{size}" fill="{colour}"><title>{reader}</title></circle>'


def panel(left: float, title: str, of_corpora: Rates) -> Iterator[str]:
    """A panel: its axis, and the marks of each corpus."""
    bottom = ABOVE + ROW * len(of_corpora)
    yield text(left, ABOVE - 12, title, weight="bold")
    for tick in TICKS:
        x = left + x_of(tick)
        yield f'<line x1="{x:.1f}" y1="{ABOVE}" x2="{x:.1f}" y2="{bottom}" stroke="#dddddd"/>'
        yield text(x, bottom + 14, f"{tick}", "middle")
    for row, of_readers in enumerate(of_corpora.values()):
        y = ABOVE + ROW * (row + 0.5)
        yield f'<line x1="{left}" y1="{y}" x2="{left + PANEL}" y2="{y}" stroke="#eeeeee"/>'
        for reader, rate in sorted(of_readers.items(), key=lambda pair: pair[0] == "confstore"):
            yield mark(left + x_of(rate), y, reader)
            if rate < SLOWEST:
                yield text(left - 8, y + 4, f"{rate:g}", "end")


def legend(readers: Iterable[str]) -> Iterator[str]:
    x: float = NAMES
    for reader in readers:
        yield mark(x + 5, 18, reader)
        yield text(x + 14, 22, reader)
        x += 36 + 7.5 * len(reader)
    yield text(x, 22, "MB/s of the text")


def drawing(found: Mapping[str, Rates]) -> Iterator[str]:
    corpora = list(found["events"])
    readers = list(dict.fromkeys(reader for of in found.values() for some in of.values() for reader in some))
    width = NAMES + len(WORKS) * (PANEL + SPACE)
    height = ABOVE + ROW * len(corpora) + BELOW
    yield (f'<svg xmlns="http://www.w3.org/2000/svg" viewBox="0 0 {width} {height}" width="{width}" height="{height}" '
           'font-family="sans-serif" font-size="12">')  # fmt: skip
    yield f'<rect width="{width}" height="{height}" fill="#ffffff"/>'
    yield from legend(readers)
    for row, corpus in enumerate(corpora):
        yield text(NAMES - 10, ABOVE + ROW * (row + 0.5) + 4, corpus, "end")
    for number, (work, title) in enumerate(WORKS.items()):
        yield from panel(NAMES + number * (PANEL + SPACE), title, found[work])
    yield "</svg>"


def main() -> None:
    with open(TARGET, "w", encoding="utf-8") as target:
        target.write("\n".join(drawing(rates(DATA))) + "\n")


if __name__ == "__main__":
    main()
