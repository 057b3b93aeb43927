#!/usr/bin/env python3
"""Compares what is said of 71 refused texts with what yamllint, PyYAML and libyaml say of them.

`lib/refused_texts.py` has the texts. A message has two merits: it names a line where the text is wrong or where that
began, and it says what is wrong by one of some words; both are known by hand. What only confstore refuses, as an
anchor, has to have both merits, and its own word. Of any other text no reader may have more of them than confstore.

Run it from the repository's root after the program is built; it needs PyYAML, and takes ten seconds. yamllint and
libyaml are left out where they are missing:

    ./prove && python3 checks/other_messages.py [--table]

With `--table` each text is a line, with the merits of each reader. The last line is 'N passed, M failed', and the status
is 0 if M is 0.
"""

from __future__ import annotations

import re
import shutil
import subprocess
import sys
import tempfile
from collections.abc import Callable
from typing import NamedTuple, Optional

import yaml
from lib.refused_texts import TEXTS, Refused
from lib.store_runs import PROGRAM, Failures, need_program, write_file

# Where a message has a line: `FILE:3:1:` of this program and of yamllint, or `line 3` of PyYAML and libyaml.
PLACES = (re.compile(r"(?m)^[^\s:]*:(\d+):\d+:"), re.compile(r"\bline (\d+)\b"))

# What yamllint finds that is no fault of the text.
STYLE = re.compile(r"(?m)^.*\[warning\].*$|^.*\((?:document-start|new-line-at-end-of-file|trailing-spaces)\)$")


class Merits(NamedTuple):
    """Whether a message names a right line, and says what is wrong."""

    line: bool
    words: bool

    def __str__(self) -> str:
        return "line and words" if all(self) else "line" if self.line else "words" if self.words else "neither"


# What a reader says of a text, or None where it takes it.
Reader = Callable[[bytes], Optional[str]]


def merits_of(message: str, text: Refused) -> Merits:
    lines = {int(number) for place in PLACES for number in place.findall(message)}
    return Merits(bool(lines & set(text.lines)), any(word in message.lower() for word in text.words))


def by_program(text: bytes) -> str | None:
    with tempfile.NamedTemporaryFile(suffix=".yaml") as file:
        write_file(file.name, text)
        done = subprocess.run([PROGRAM, "check", "--explain", file.name], capture_output=True, check=False)
        return (done.stderr or done.stdout).decode().replace(file.name, "FILE") if done.returncode else None


def by_yamllint(text: bytes) -> str | None:
    done = subprocess.run(["yamllint", "-f", "parsable", "-"], input=text, capture_output=True, check=False)
    said = STYLE.sub("", (done.stdout + done.stderr[-200:]).decode("utf-8", "replace")).strip()
    return said or None


def by_loader(loader: type) -> Reader:
    def read(text: bytes) -> str | None:
        try:
            yaml.load(text, loader)  # noqa: S506
        except Exception as error:  # whatever a reader says, it is what its user is told
            return str(error)
        return None

    return read


def readers() -> dict[str, Reader]:
    """The other readers that are here."""
    found: dict[str, Reader] = {"PyYAML": by_loader(yaml.BaseLoader)}
    if hasattr(yaml, "CBaseLoader"):
        found["libyaml"] = by_loader(yaml.CBaseLoader)
    if shutil.which("yamllint"):
        found["yamllint"] = by_yamllint
    return found


def compare(text: Refused, others: dict[str, Reader], failures: Failures) -> list[str]:
    """Compares the messages of one text. Returns a row of the table."""
    message = by_program(text.text)
    failures.expect(f"{text.name}: refused", message is not None, True)
    message = message or ""
    ours, row = merits_of(message, text), [text.name]
    if text.ours:
        failures.expect(f"{text.name}: {message!r}", (ours, text.ours in message.lower()), (Merits(True, True), True))
    row.append(str(ours) if not text.ours or text.ours in message.lower() else f"{ours}, not {text.ours!r}")
    for reader, read in others.items():
        said = read(text.text)
        theirs = merits_of(said, text) if said is not None else None
        row.append("taken" if theirs is None else str(theirs))
        if theirs is not None and sum(theirs) > sum(ours):
            failures.expect(f"{text.name}: {message!r}, while {reader} says {said!r}", str(ours), str(theirs))
        else:
            failures.tried += 1
    return row


def main() -> int:
    need_program()
    others, failures, rows = readers(), Failures(), []
    for missing in sorted({"PyYAML", "libyaml", "yamllint"} - set(others)):
        print(f"left out: {missing}, which is not installed")
    for text in TEXTS:
        rows.append(compare(text, others, failures))
    if "--table" in sys.argv[1:]:
        for row in [["text", "confstore", *others], *rows]:
            print(" | ".join(row))
    print(f"{len(TEXTS)} texts beside {', '.join(others)}")
    return failures.report()


if __name__ == "__main__":
    sys.exit(main())
