"""Texts that `tree_probe` formats with their comments."""

from __future__ import annotations

import re
import subprocess
import sys
from collections.abc import Sequence

from lib.store_runs import program_of

PROBE = program_of("tree_probe")

ESCAPES = {"\\": "\\x5c", "\n": "\\n", "\r": "\\r", "\t": "\\t", "\0": "\\0", ";": "\\x3b"}
SHOWN = re.compile(r'\\(?:u\{([0-9a-f]+)\}|([nrt0"\'\\]))')
SIGNS = {"n": "\n", "r": "\r", "t": "\t", "0": "\0"}


def order(text: str) -> str:
    """The line that asks the probe to format a text."""
    return "tree;keep;" + "".join(ESCAPES.get(char, char) for char in text) + "\n"


def unescaped(shown: str) -> str:
    """The text that the probe shows in quotes."""

    def char(found: re.Match[str]) -> str:
        if found[1]:
            return chr(int(found[1], 16))
        return SIGNS.get(found[2], found[2])

    return SHOWN.sub(char, shown)


def kept(texts: Sequence[str]) -> list[str | None]:
    """What the probe writes for each text, or None if it refuses it."""
    given = "".join(map(order, texts)).encode()
    done = subprocess.run([PROBE], input=given, capture_output=True, check=False)
    if done.returncode != 0:
        sys.exit(f"tree_probe failed: {done.stderr.decode()}")
    answers = done.stdout.decode().split("\n")[: len(texts)]
    written: list[str | None] = []
    for answer in answers:
        length, _, shown = answer.partition(" ")
        if not length.isdigit():
            written.append(None)
            continue
        text = unescaped(shown[1:-1])
        if len(text.encode()) != int(length):
            sys.exit(f"tree_probe shows a text of another length: {answer}")
        written.append(text)
    return written
