"""What is answered where a text is read without one of the allocations: a text that has every form of node."""

from __future__ import annotations

import os

from .refusals import BY_ITSELF, DONE, OUT_OF_MEMORY, Trial, one_of
from .store_runs import DRIVER, PROGRAM, TOP, Ended, read_file

TEXT = os.path.join(TOP, "checks", "data", "every_form.yaml")
STYLED = read_file(os.path.join(TOP, "checks", "data", "every_form.expected"))
LACKING: Ended = (1, b"", "confstore: OutOfMemory\n")

FORMAT = Trial("format", one_of([PROGRAM, "format"], read_file(TEXT), {LACKING: OUT_OF_MEMORY, (0, STYLED, ""): DONE}))

FINDINGS = b"S1 1\nS2 1\nS4 1\nS2 2\n"
CHECK = Trial(
    "check",
    one_of([PROGRAM, "check"], b'a:  1 \r\nb: [x, "y: z"]', {LACKING: OUT_OF_MEMORY, (1, FINDINGS, ""): DONE}),
)

# The driver prints the length of the tree in the one style. Its allocations for the words of the order and for the file
# come before the reading.
LENGTH = f"{len(STYLED)}\n".encode()
TREE = Trial(
    "a text to its tree",
    one_of(
        [DRIVER, "read", "tree", TEXT, "1"],
        b"",
        {(1, b"", ""): BY_ITSELF, (0, b"OutOfMemory\n", ""): OUT_OF_MEMORY, (0, LENGTH, ""): DONE},
    ),
)
