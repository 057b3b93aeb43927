"""The texts of checks/data/cases with what is expected of them. The head of checks/cases.py has how they are written."""

from __future__ import annotations

import os
import re

from .store_runs import TOP

CASES = os.path.join(TOP, "checks", "data", "cases")

# A case: what follows each of its words, and as `line` the number of its first line.
Case = dict[str, str]

ESCAPES = {"n": "\n", "r": "\r", "t": "\t", "\\": "\\"}


def long_runs(line: str) -> str:
    """The line with what is repeated written out."""
    return re.sub(r"\\\{(.+?)\*(\d+)\}", lambda found: found[1] * int(found[2]), line)


def bytes_of(line: str) -> bytes:
    """The bytes that a line means."""

    def byte(found: re.Match[bytes]) -> bytes:
        word = found[1].decode()
        return ESCAPES[word].encode() if word in ESCAPES else bytes([int(word[1:], 16)])

    return re.sub(rb"\\(n|r|t|\\|x..)", byte, line.encode())


def read_cases(path: str) -> list[Case]:
    """The cases of a file."""
    cases: list[Case] = []
    case: Case = {}
    with open(path, encoding="utf-8") as source:
        for number, line in enumerate(source, 1):
            line = line.rstrip("\n")
            if line.startswith("#"):
                continue
            if not line:
                cases.append(case)
                case = {}
                continue
            case.setdefault("line", str(number))
            word, _, rest = line.partition(" ")
            case[word] = long_runs(rest)
    cases.append(case)
    return [case for case in cases if case]
