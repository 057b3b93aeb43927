#!/usr/bin/env python3
"""Draws the pictures of the pages: docs/command.svg, docs/folder.svg and docs/trust.svg.

    packaging/pictures/draw.py [--check]

`--check` writes nothing, names each picture that is not the one that would be drawn, and each call of the first one that
the sources do not make, and then has the status 1. It needs the standard library alone, and the same sources give the same
bytes.
"""

from __future__ import annotations

import os
import sys

import command
import folder
import trust
from shapes import TOP


def is_drawn(path: str, content: str) -> bool:
    """Whether the file is there, with this content."""
    if not os.path.exists(path):
        return False
    with open(path, encoding="utf-8") as file:
        return file.read() == content


def main() -> int:
    drawn = [module.drawing() for module in (command, folder, trust)]
    if sys.argv[1:] == ["--check"]:
        wrong = [name for name, content in drawn if not is_drawn(os.path.join(TOP, name), content)]
        said = [f"{name} is not what packaging/pictures/draw.py draws" for name in wrong]
        said += command.missing_calls(command.tree_of_calls())
        print("".join(f"{line}\n" for line in said), end="")
        return 1 if said else 0
    for name, content in drawn:
        with open(os.path.join(TOP, name), "w", encoding="utf-8") as file:
            file.write(content)
    return 0


if __name__ == "__main__":
    sys.exit(main())
