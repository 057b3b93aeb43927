"""A store's folder over two commands, a flush and a checkpoint, what a crash leaves at each moment, and what it may leave
of the bytes of two commands that wait, as docs/folder.svg. The steps are those of docs/STORE.md; what a crash leaves is
computed by the model of docs/DISK.md.
"""

from __future__ import annotations

from collections.abc import Callable, Iterator
from dataclasses import dataclass, replace

from shapes import BLANK, BLUE, BOLD, CODE, GREEN, GREY, RED, Colours, box, lines, picture, text

# In pixels: a step's column, the column of names, a block, the margin, and where each file and each line begins.
COLUMN, NAMES, BLOCK, MARGIN = 104, 84, 20, 14
STORE_TOP, NEXT_TOP, CRASH_TOP = 78, 194, 256
IMAGES_TOP, HEIGHT = 318, 520


@dataclass(frozen=True)
class File:
    """A file's blocks in order, and how many of them are synced. A block is a base or a record."""

    blocks: tuple[str, ...] = ()
    synced: int = 0

    def state(self, blocks: int) -> str:
        """The number of the last command of so many blocks."""
        return self.blocks[blocks - 1].split()[-1]


@dataclass(frozen=True)
class Folder:
    """The stages of a folder, each the files under its names; a crash leaves one of them, and a read sees the last."""

    stages: tuple[dict[str, File], ...]

    def files(self) -> dict[str, File]:
        return self.stages[-1]


def appended(name: str, block: str) -> Callable[[Folder], Folder]:
    def append(folder: Folder) -> Folder:
        return changed(folder, name, lambda file: replace(file, blocks=(*file.blocks, block)))

    return append


def synced(name: str) -> Callable[[Folder], Folder]:
    return lambda folder: changed(folder, name, lambda file: replace(file, synced=len(file.blocks)))


def changed(folder: Folder, name: str, change: Callable[[File], File]) -> Folder:
    """The folder with a change of one file, which is in each stage that has it."""
    old = folder.files()[name]
    new = change(old)
    swap = {old: new}
    return Folder(tuple({at: swap.get(file, file) for at, file in stage.items()} for stage in folder.stages))


def created(folder: Folder) -> Folder:
    return Folder((*folder.stages, {**folder.files(), "next.yaml": File()}))


def renamed(folder: Folder) -> Folder:
    return Folder((*folder.stages, {"store.yaml": folder.files()["next.yaml"]}))


def folder_synced(folder: Folder) -> Folder:
    return Folder(folder.stages[-1:])


# Each step: what is called, what it is, and what it makes of the folder; a base is appended to a file that is made.
STEPS: list[tuple[str, str, list[Callable[[Folder], Folder]]]] = [
    ("open", "command 1 is there", []),
    ("submit", "command 2 waits", [appended("store.yaml", "record 2")]),
    ("flush", "2 is acknowledged", [synced("store.yaml")]),
    ("submit", "command 3 waits", [appended("store.yaml", "record 3")]),
    ("checkpoint", "append a base", [created, appended("next.yaml", "base 3")]),
    ("", "sync the new file", [synced("next.yaml")]),
    ("", "rename it", [renamed]),
    ("", "sync the folder: Ok", [folder_synced]),
]


def folders() -> Iterator[Folder]:
    """The folder after each step."""
    folder = Folder(({"store.yaml": File(("base 0", "record 1"), 2)},))
    for _, _, changes in STEPS:
        for change in changes:
            folder = change(folder)
        yield folder


def states_left(folder: Folder) -> list[str]:
    """What a crash may leave: of each stage, store.yaml with its synced blocks and a prefix of the pending ones."""
    stores = [stage["store.yaml"] for stage in folder.stages]
    return sorted({file.state(kept) for file in stores for kept in range(file.synced, len(file.blocks) + 1)})


# What a crash may leave of store.yaml while commands 2 and 3 wait, by two lines above it: each piece is whole, has zeros,
# is cut, or is not there.
WHOLE, ZEROS, CUT, GONE = "whole", "zeros", "cut", "gone"
IMAGES: list[tuple[str, str, list[str]]] = [
    ("both records", "are there", [WHOLE, WHOLE, WHOLE, WHOLE]),
    ("the last one", "is cut", [WHOLE, WHOLE, WHOLE, CUT]),
    ("the last one", "has zeros", [WHOLE, WHOLE, WHOLE, ZEROS]),
    ("the first one", "is cut", [WHOLE, WHOLE, CUT, GONE]),
    ("the first one", "has zeros", [WHOLE, WHOLE, ZEROS, WHOLE]),
    ("neither", "is there", [WHOLE, WHOLE, GONE, GONE]),
    ("no crash: zeros", "in what was synced", [WHOLE, ZEROS, WHOLE, GONE]),
]
PIECES = ("base 0", "record 1", "record 2", "record 3")
SYNCED = 2  # of the pieces


def found(pieces: list[str]) -> tuple[str, Colours | None]:
    """What opening makes of an image: the last command of the whole pieces at its start, or damage where one that was
    synced is among the others and a record stands behind it."""
    kept = next((number for number, piece in enumerate(pieces) if piece != WHOLE), len(pieces))
    if kept < SYNCED:
        return "Damaged", RED
    return PIECES[kept - 1].split()[-1], None


def image(number: int) -> Iterator[str]:
    above, below, pieces = IMAGES[number]
    x = MARGIN + NAMES + number * (COLUMN + 14)
    middle = x + (COLUMN - 16) / 2
    yield from lines(middle, IMAGES_TOP + 26, [above, below], size=10.5)
    kept = next((at for at, piece in enumerate(pieces) if piece != WHOLE), len(pieces))
    for at, piece in enumerate(pieces):
        if piece == GONE:
            continue
        y = IMAGES_TOP + 50 + at * (BLOCK + 3)
        width = (COLUMN - 16) / (2 if piece == CUT else 1)
        colours = (GREEN if at == 0 else BLUE) if at < kept else GREY
        yield box(x, y, width, BLOCK, colours)
        yield text(x + width / 2, y + 14, {ZEROS: "00 00 00", CUT: PIECES[at][:6]}.get(piece, PIECES[at]), size=11)
    words, colours_of_state = found(pieces)
    y = IMAGES_TOP + 50 + len(PIECES) * (BLOCK + 3) + 16
    if colours_of_state:
        yield box(middle - 42, y - 14, 84, BLOCK, colours_of_state)
    yield text(middle, y, words, size=13, font=BOLD)


def images() -> Iterator[str]:
    """What a crash may leave while two commands wait, and what opening makes of it."""
    title = "Two commands wait, and the machine stops: what store.yaml may have then. Grey pieces do not count"
    yield text(MARGIN, IMAGES_TOP, title, "start")
    y = IMAGES_TOP + 50 + len(PIECES) * (BLOCK + 3) + 8
    yield from lines(MARGIN, y, ["opening finds", "the state after"], "start", 10.5)
    for number in range(len(IMAGES)):
        yield from image(number)


def file_blocks(file: File, x: float, y: float) -> Iterator[str]:
    for number, block in enumerate(file.blocks):
        is_synced = number < file.synced
        colours = (GREEN if block.startswith("base") else BLUE) if is_synced else BLANK
        yield box(x, y + number * (BLOCK + 3), COLUMN - 16, BLOCK, colours, dashed=not is_synced)
        yield text(x + (COLUMN - 16) / 2, y + number * (BLOCK + 3) + 14, block, size=11)


def column(number: int, folder: Folder) -> Iterator[str]:
    call, does, _ = STEPS[number]
    x = MARGIN + NAMES + number * COLUMN
    middle = x + (COLUMN - 16) / 2
    yield text(middle, 46, call, size=12, font=BOLD)
    yield text(middle, 62, does, size=10.5)
    yield from file_blocks(folder.files()["store.yaml"], x, STORE_TOP)
    if "next.yaml" in folder.files():
        yield from file_blocks(folder.files()["next.yaml"], x, NEXT_TOP)
    yield text(middle, CRASH_TOP + 14, " or ".join(states_left(folder)), size=13, font=BOLD)


def drawing() -> tuple[str, str]:
    width = 2 * MARGIN + NAMES + len(STEPS) * COLUMN
    title = "A store's folder: coloured boxes are synced, dashed ones are written and not synced yet"
    parts = [text(MARGIN, 22, title, "start")]
    parts += [text(MARGIN, STORE_TOP + 14, "store.yaml", "start", 11, CODE)]
    parts += [text(MARGIN, NEXT_TOP + 14, "next.yaml", "start", 11, CODE)]
    parts += lines(MARGIN, CRASH_TOP + 8, ["a crash leaves", "the state after"], "start", 10.5)
    parts += [part for number, folder in enumerate(folders()) for part in column(number, folder)]
    parts += images()
    promise = "A command that was acknowledged is in each state that a crash leaves. A torn record is never performed."
    parts += [text(MARGIN, HEIGHT - 14, promise, "start")]
    return picture("folder", width, HEIGHT, parts)
