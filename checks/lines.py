#!/usr/bin/env python3
"""Looks whether each line of the code and of the proofs can be read at once, and prints those that are too long.

A line of crates/**/*.rt has at most 120 characters, and one of crates/**/*.antt 140. Two kinds of lines may have more:
a `ghost use`, for which `rt fmt` knows one line or a line for each name, and a text in quotes alone. The last line is
'N lines, M too long', and the status is 1 if M is above 0. It takes a second.
"""

from __future__ import annotations

import glob
import os
import re
import sys
from collections.abc import Iterator

TOP = os.path.dirname(os.path.dirname(os.path.abspath(__file__)))
# The most characters of a line, by the end of its file's name.
MOST = {".rt": 120, ".antt": 140}
MAY_BE_LONGER = re.compile(r'\s*(ghost use .*;|"(?:[^"\\]|\\.)*",?)$')


def all_lines() -> Iterator[tuple[str, int, str, int]]:
    """Each line with its file, its number, and the most characters that it may have."""
    for end, most in MOST.items():
        for path in sorted(glob.glob(os.path.join(TOP, f"crates/*/[!o]*/**/*{end}"), recursive=True)):
            with open(path, encoding="utf-8") as file:
                for number, line in enumerate(file, 1):
                    yield os.path.relpath(path, TOP), number, line.rstrip("\n"), most


def main() -> int:
    count = wrong = 0
    for path, number, line, most in all_lines():
        count += 1
        if len(line) > most and not MAY_BE_LONGER.match(line):
            print(f"{path}:{number} has {len(line)} characters, and may have {most}")
            wrong += 1
    print(f"{count} lines, {wrong} too long")
    return 1 if wrong else 0


if __name__ == "__main__":
    sys.exit(main())
