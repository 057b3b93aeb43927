"""The log of a node's store, without the records that the node keeps for itself.

    python3 -m confstore_replicated.log FOLDER [--values] [--after N] [--all] [--program CONFSTORE]

Each entry is one line, with the number that its answer `ok` had, and what it changed, as `confstore log` writes it; of
an entry that was refused, the word. It takes no lock, so it runs beside the node that holds the store.
"""

from __future__ import annotations

import argparse
import os
import re
import sys
from typing import Callable, Optional, Sequence, Union

from confstore import ConfstoreError, Reader, Record
from confstore.ctl_commands import line_with_values

from .entries import RESERVED

_WORD = re.compile(r"[A-Za-z]+")


def _fault_of(record: Record) -> ConfstoreError:
    return ConfstoreError(
        f"record {record.number} is that of no entry, so this is not the store of a node: read it by `confstore log`"
    )


def entry_in(record: Record) -> Union[Record, str]:
    """What an entry has changed, as its record without the first edit and the last one, which are the node's own; or
    the word that it was refused by. Raises `ConfstoreError` for a record that no node has made."""
    edits = record.edits
    if not record.is_batch or len(edits) < 3 or {edits[0].name, edits[-1].name} != {RESERVED}:
        raise _fault_of(record)
    inner = edits[1:-1]
    word = inner[0].tree
    if len(inner) == 1 and inner[0].name == RESERVED and isinstance(word, str) and _WORD.fullmatch(word):
        return word
    if any(edit.name == RESERVED for edit in inner):
        raise _fault_of(record)
    return Record(record.number, inner, len(inner) > 1, record.about)


def line_of_entry(record: Record, line_of: Callable[[Record], str]) -> str:
    """The line of an entry that a store has performed."""
    entry = entry_in(record)
    return f"{record.number} refused {entry}" if isinstance(entry, str) else line_of(entry)


def _line(record: Record) -> str:
    return record.line


def _parser() -> argparse.ArgumentParser:
    parser = argparse.ArgumentParser(
        prog="python3 -m confstore_replicated.log",
        description="Writes the entries that a node's store has performed since its last checkpoint.",
    )
    parser.add_argument("folder", help="the folder of the node's store")
    parser.add_argument("--values", action="store_true", help="write the value of each import and set too, as JSON")
    parser.add_argument("--after", type=int, default=0, metavar="N", help="only those with a number beyond N")
    parser.add_argument("--all", action="store_true", help="write the node's own records too, as `confstore log` does")
    parser.add_argument("--program", help="the program confstore; else CONFSTORE, or confstore on the PATH")
    return parser


def main(words: Optional[Sequence[str]] = None) -> int:
    asked = _parser().parse_args(words)
    line_of: Callable[[Record], str] = line_with_values if asked.values else _line
    try:
        records = Reader(asked.folder, program=asked.program).log(asked.after)
        lines = [line_of(record) if asked.all else line_of_entry(record, line_of) for record in records]
    except ConfstoreError as fault:
        print(f"log: {fault}", file=sys.stderr)
        return 1
    try:
        sys.stdout.buffer.write("".join(f"{line}\n" for line in lines).encode())
        sys.stdout.flush()
    except BrokenPipeError:  # whoever reads has enough
        os.dup2(os.open(os.devnull, os.O_WRONLY), sys.stdout.fileno())
    return 0


if __name__ == "__main__":
    sys.exit(main())
