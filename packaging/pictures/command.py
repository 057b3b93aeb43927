"""The way of a `set` through the crates, as docs/command.svg: a call is a box below its caller, and time goes to the
right. It is drawn from the text drawing of docs/ARCHITECTURE.md, whose names checks/names.py looks up in the sources;
`draw.py --check` looks whether each crate's sources name the functions that it calls here.
"""

from __future__ import annotations

import os
import re
from collections.abc import Iterator
from dataclasses import dataclass, field

from shapes import BLUE, BOLD, CODE, GREEN, RED, TOP, YELLOW, Colours, box, legend, picture, text

# A line of the drawing: a crate or none, its functions, what they do, and their files.
DRAWN = re.compile(r"^ +(\w+)? {2,}([\w:, ]+?)(?:: (.*?))? {2,}[\w., ]+\.rt$")
# The column in which the functions of the outermost lines begin, and how much further in the next level is.
COLUMN, STEP = 21, 2
# In pixels: a call that calls nothing here, a row, the box in it, the margin, and the lines above and below.
LEAF, ROW, HEIGHT, MARGIN, ABOVE, BELOW = 106, 56, 52, 16, 40, 44
OF_TEXTS = re.compile("yaml_|tree_path")
OF_DISKS = re.compile("conf_journal|conf_folder|conf_protocol")


@dataclass
class Call:
    """A crate's functions on the way, and what they call."""

    crate: str
    functions: list[str]
    says: str
    depth: int
    calls: list[Call] = field(default_factory=list)

    def width(self) -> float:
        return sum(call.width() for call in self.calls) or LEAF

    def rows(self) -> int:
        return 1 + max((call.rows() for call in self.calls), default=0)

    def colours(self) -> Colours:
        if OF_TEXTS.match(self.crate):
            return GREEN
        if OF_DISKS.match(self.crate):
            return RED
        return YELLOW if self.crate in ("confstore", "conf_words", "conf_tools") else BLUE


def read(path: str) -> str:
    with open(os.path.join(TOP, path), encoding="utf-8") as file:
        return file.read()


def libraries() -> dict[str, set[str]]:
    """The libraries that each crate's line of crates.txt names."""
    parts = [line.partition("#")[0].partition(":") for line in read("crates.txt").splitlines()]
    return {crate.strip(): set(named.split()) for crate, colon, named in parts if colon}


def drawn_calls() -> Iterator[Call]:
    """The lines of the drawing; one without a crate is of the crate before."""
    crate = ""
    drawing = read("docs/ARCHITECTURE.md").partition("## The way of a command")[2].partition("## ")[0]
    for line in drawing.splitlines():
        found = DRAWN.match(line)
        if found:
            crate = found[1] or crate
            yield Call(crate, found[2].split(", "), found[3] or "", (found.start(2) - COLUMN) // STEP)


def tree_of_calls() -> Call:
    """The outermost call. A line is called by the last one further out; an outermost one, by the last that uses it."""
    used = libraries()
    first, *others = drawn_calls()
    open_calls = [first]
    for call in others:
        while not (open_calls[-1].depth < call.depth or may_call(open_calls[-1], call, used)):
            open_calls.pop()
        open_calls[-1].calls.append(call)
        open_calls.append(call)
    return first


def may_call(caller: Call, call: Call, used: dict[str, set[str]]) -> bool:
    """Whether one outermost line calls another: its crate names the other's, or is the same."""
    if caller.depth or call.depth:
        return False
    return call.crate == caller.crate or call.crate in used[caller.crate]


def sources_of(crate: str) -> str:
    folder = os.path.join("crates", crate, "src")
    return "\n".join(read(os.path.join(folder, name)) for name in sorted(os.listdir(os.path.join(TOP, folder))))


def missing_calls(call: Call) -> Iterator[str]:
    """What is drawn as a call and is none: the caller's crate does not name the function."""
    named = sources_of(call.crate)
    for inner in call.calls:
        for function in inner.functions:
            if not re.search(rf"\b{function.rpartition(':')[2]}\b", named):
                yield f"docs/ARCHITECTURE.md: {call.crate} does not call `{function}` of {inner.crate}"
        yield from missing_calls(inner)


def box_of(call: Call, x: float, y: float) -> Iterator[str]:
    width = call.width() - 4
    yield f"<g><title>{call.says}</title>"
    yield box(x, y, width, HEIGHT, call.colours())
    yield text(x + width / 2, y + 16, call.crate, font=BOLD)
    names = [", ".join(call.functions)] if width > 2 * LEAF else call.functions
    for number, name in enumerate(names):
        yield text(x + width / 2, y + 31 + 13 * number, name, size=10.5, font=CODE)
    if call.says and width > 3 * LEAF:
        yield text(x + width / 2, y + 45, call.says, size=10.5)
    yield "</g>"


def boxes(call: Call, x: float, y: float) -> Iterator[str]:
    """A call's box, and those of its calls below it, from the left to the right."""
    yield from box_of(call, x, y)
    for inner in call.calls:
        yield from boxes(inner, x, y + ROW)
        x += inner.width()


def left_of(call: Call, crate: str, x: float = MARGIN) -> float:
    """Where the last call of a crate begins, or 0."""
    found = x if call.crate == crate else 0.0
    for inner in call.calls:
        found = left_of(inner, crate, x) or found
        x += inner.width()
    return found


def bands(call: Call, y: float) -> Iterator[str]:
    """What holds before the disk is changed, while it is, and after."""
    right = MARGIN + call.width()
    disk = left_of(call, "conf_folder")
    for start, end, words in (
        (MARGIN, disk, "a refusal, or no memory: nothing has changed"),
        (disk, disk + LEAF, "a crash: either"),
        (disk + LEAF, right, "acknowledged"),
    ):
        yield f'<line x1="{start + 2}" y1="{y}" x2="{end - 6}" y2="{y}" stroke="#444444" stroke-width="2"/>'
        yield text((start + end - 4) / 2, y + 16, words, size=11)


def drawing() -> tuple[str, str]:
    first = tree_of_calls()
    bottom = ABOVE + ROW * first.rows()
    width = first.width() + 2 * MARGIN
    title = text(MARGIN, 24, "A set that comes to a session: a box calls those below it, from left to right", "start")
    groups = [(YELLOW, "the program"), (BLUE, "sessions, stores"), (GREEN, "texts, trees"), (RED, "the disk")]
    parts = [title, *legend(width - 490, 13, 120, groups), *boxes(first, MARGIN, ABOVE), *bands(first, bottom + 10)]
    return picture("command", width, bottom + BELOW, parts)
