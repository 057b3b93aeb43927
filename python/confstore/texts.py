"""Where a text is refused, asked of the program."""

from __future__ import annotations

import re
from typing import NamedTuple, Optional

from .faults import MissingProgram, Refused
from .places import find_program
from .runs import Run

# How many seconds the program may take to look at a text, and how many bytes it may print.
TIMEOUT = 60.0
LONGEST = 16_777_216

# The line of a refused text. What is known of it follows in parentheses or quotes, as the first place of a key.
_PLACE = re.compile(rb"(?m)^-:(?:([0-9]+):([0-9]+):)? (\w+)(?: (\w+))?(?: .*)?$")


class Place(NamedTuple):
    """Where a text was refused: its line, and its column in characters, both from 1, and the reason of a `Syntax`."""

    line: int
    column: int
    reason: str


def place_of(fault: Refused) -> Optional[Place]:
    """The place in the first of a refusal's texts that the program refuses by the same word."""
    try:
        program = find_program(fault.program)
    except MissingProgram:
        return None
    for text in fault.texts:
        run = Run([program, "check", "-"], TIMEOUT, LONGEST, text)
        run.wait()
        found = _PLACE.search(bytes(run.errors)) if run.status in (1, None) else None
        if found and found[3].decode() == fault.word:
            return Place(int(found[1]), int(found[2]), (found[4] or b"").decode()) if found[1] else None
    return None
