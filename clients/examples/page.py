#!/usr/bin/env python3
"""Makes a page of a store's log: each command with the values before and after it, and the store at each number.

    page.py [--hide POINTER].. FOLDER > store.html

It is what `confstorectl page` writes. With `--hide` the text `(hidden)` stands for what is at the JSON Pointer of any
configuration, or below it. An index is the one that a command names, and `-` is taken for every index: hide a list
whole.

The page is one file of HTML, and its policy lets it reach no network. It has the records of `store.yaml`, so what came
since the last checkpoint. Nothing is changed, and a session may hold the store meanwhile. Values stand there as
`confstore get` prints them. What comes behind the page's address:

    #at=3                 the command 3
    #at=3&view=store      the store after it, and what it changed; `&whole=` shows all of the store
    #at=3&beside=1        what is different from the store after command 1
    #find=port            the commands that have this in a name, a path or a value
"""

from __future__ import annotations

import argparse
import sys

from confstore import ConfstoreError, Reader
from confstore.commands import is_pointer
from confstore.log_page import page_of
from confstore.pointers import steps_of


def pointer(text: str) -> list[str]:
    """The steps of a pointer of the command line."""
    if not is_pointer(text):
        raise argparse.ArgumentTypeError(f"{text!r} is no JSON Pointer: begin it with `/`, and write `~` as `~0`")
    return steps_of(text)


def main() -> None:
    words = argparse.ArgumentParser(description=__doc__, formatter_class=argparse.RawDescriptionHelpFormatter)
    words.add_argument("--hide", action="append", type=pointer, default=[], metavar="POINTER")
    words.add_argument("folder", metavar="FOLDER")
    asked = words.parse_args()
    try:
        sys.stdout.write(page_of(Reader(asked.folder), asked.hide))
    except ConfstoreError as fault:
        sys.exit(f"page.py: {fault}")


if __name__ == "__main__":
    main()
