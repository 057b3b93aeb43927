"""Who relies on whom, and why one may, as docs/trust.svg: docs/TRUSTED.md in boxes."""

from __future__ import annotations

import os
import re
from collections.abc import Iterator

from shapes import BLANK, BLUE, BOLD, GREEN, GREY, RED, TOP, YELLOW, Colours, arrow, box, legend, lines, picture, text


def lines_to_read() -> str:
    """How many lines docs/TRUSTED.md says that the headline needs."""
    with open(os.path.join(TOP, "docs", "TRUSTED.md"), encoding="utf-8") as page:
        found = re.search(r"needs\s+some\s+([\d,]+)\s+lines", page.read())
    return found[1] if found else ""


LINES = lines_to_read()
WIDTH, HEIGHT, BOX_WIDTH, BOX_HEIGHT = 900, 400, 250, 74

# Each box: its place, its colours, its name, and lines below the name.
BOXES: dict[str, tuple[float, float, Colours, str, list[str]]] = {
    "you": (325, 40, BLANK, "You, or your program", ["reads answers and files"]),
    "clients": (20, 40, GREY, "Clients, replicated stores",
                ["python/, clients/, replicated/:", "tested; etcd is trusted"]),
    "program": (325, 160, GREEN, "The code and its proofs",
                ["crates/*/src, crates/*/proofs:", "proved, and not trusted"]),
    "definitions": (630, 160, BLUE, "Definitions and contracts",
                    ["crates/*/specs, ensures clauses:", f"read them, some {LINES} lines"]),
    "toolchain": (630, 290, YELLOW, "The Rattle toolchain",
                  ["prover, std's statements,", "ported crates, two compilers"]),
    "system": (325, 290, YELLOW, "The system",
               ["C library, streams, allocation;", "host.rt, Host: which calls are made"]),
    "disk": (20, 290, RED, "The calls on the folder",
             ["do what docs/DISK.md says of each;", "nobody else writes in the folder"]),
}  # fmt: skip

# Who relies on whom, and for what.
RELIES: list[tuple[str, str, str]] = [
    ("you", "program", "what is promised"),
    ("you", "clients", ""),
    ("clients", "program", "one session"),
    ("program", "definitions", "meets"),
    ("program", "system", "calls"),
    ("program", "disk", "premise"),
    ("definitions", "toolchain", "checked by"),
]

LEGEND: list[tuple[Colours, str]] = [
    (GREEN, "proved"),
    (BLUE, "yours to read"),
    (YELLOW, "trusted"),
    (RED, "yours to see to"),
    (GREY, "tested"),
]


def boxes() -> Iterator[str]:
    for x, y, colours, name, below in BOXES.values():
        yield box(x, y, BOX_WIDTH, BOX_HEIGHT, colours)
        yield text(x + BOX_WIDTH / 2, y + 22, name, size=13, font=BOLD)
        yield from lines(x + BOX_WIDTH / 2, y + 42, below)


def edge(name: str, towards: str) -> tuple[float, float]:
    """The middle of the side of a box that looks towards another one."""
    x, y, *_ = BOXES[name]
    to_x, to_y, *_ = BOXES[towards]
    if y == to_y:
        return (x + BOX_WIDTH if x < to_x else x), y + BOX_HEIGHT / 2
    across = BOX_WIDTH / 2 + (to_x - x) / 4
    return x + across, (y + BOX_HEIGHT if y < to_y else y)


def label(x: float, y: float, to_x: float, to_y: float, words: str) -> str:
    """What an arrow says: above one that is level, and else beside the middle."""
    middle_x, middle_y = (x + to_x) / 2, (y + to_y) / 2
    if y == to_y:
        return text(middle_x, middle_y - 6, words, size=11)
    if to_x < x:
        return text(middle_x - 10, middle_y - 4, words, "end", 11)
    return text(middle_x + 10, middle_y - 4, words, "start", 11)


def arrows() -> Iterator[str]:
    for name, other, words in RELIES:
        ends = (*edge(name, other), *edge(other, name))
        yield arrow(*ends)
        yield label(*ends, words)


def drawing() -> tuple[str, str]:
    title = text(20, 24, "Who relies on whom for what confstore promises", "start")
    return picture("trust", WIDTH, HEIGHT, [title, *arrows(), *boxes(), *legend(20, HEIGHT - 26, 150, LEGEND)])
