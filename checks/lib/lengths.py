"""The lengths of records and bases whose trees are texts of letters, and the most bytes that a slice writes."""

from __future__ import annotations

import re
from collections.abc import Mapping, Sequence

SLICE = 4_096


def styled(text: str) -> str:
    """A text of letters in the one style: within quotes if it is longer than 128."""
    return text if len(text) <= 128 else f'"{text}"'


def record_length(number: int, words: Sequence[str]) -> int:
    """The length of the record of a command under a number."""
    kind, name, *rest = words
    path = "" if kind == "import" else 'path: ""\n'
    value = {"import": "tree: ", "set": "value: ", "delete": ""}[kind]
    if kind != "delete":
        value += styled(rest[-1]) + "\n"
    return len(f'---\nat: "{number}"\n{kind}: {name}\n{path}{value}...\n')


def base_length(count: int, state: Mapping[str, str]) -> int:
    """The length of the base of a state."""
    configs = "".join(f"  {name}: {styled(text)}\n" for name, text in state.items())
    return len(f'---\nstore: confstore-2\nat: "{count}"\nconfigs:{"" if state else " {}"}\n{configs}...\n')


def meant(words: Sequence[str]) -> list[str]:
    """The words of a command, with the letters that a run means."""
    *before, value = words
    run = re.fullmatch(r"\*(\d+)\*", value)
    return [*before, "x" * int(run[1]) if run else value]
