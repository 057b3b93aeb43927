"""The words of confstore by its help, and those of confstorectl by its table, in one form."""

from __future__ import annotations

import os
import re
import subprocess
import sys
from typing import NamedTuple

from lib.store_runs import TOP

sys.path.insert(0, os.path.join(TOP, "python"))

from confstore.ctl_words import (  # noqa: E402
    ARCHIVE, ARCHIVES, EDITS, ENVIRONMENT, EXPLAIN, FOREIGN, HIDE_VALUES, JSON_RECORDS, LINES, NOTE_SHOWN, NOTED,
    PLANNED, WORDS,
)  # fmt: skip

# The options of words of confstore that it does not have, and those that it has of other words alone.
ALONE = (*FOREIGN, *PLANNED, *NOTED, ARCHIVE, ARCHIVES, EDITS, ENVIRONMENT, LINES, HIDE_VALUES)
ALONE_OF = {"diff": (EXPLAIN,), "log": (NOTE_SHOWN, JSON_RECORDS)}

# Those that confstore may have or not: what notes and shows who makes a change, when and why.
OPTIONAL = {option.name for option in (*NOTED, NOTE_SHOWN)}
OPTIONAL_OF = {"log": {JSON_RECORDS.name}}

# A row of the help of a word: an argument, or an option, and a row of the words in the help of all.
ARGUMENT = re.compile(r"(?m)^  (<|\[)([A-Z]+)[>\]](?:\.\.\.)?  +\S")
OPTION = re.compile(r"(?m)^  (?:-\w, |    )(--[a-z-]+)(?: <([A-Z]+)>)?(?:  +\S|$)")
LISTED = re.compile(r"(?m)^  ([a-z]+)  +\S")


class Shape(NamedTuple):
    """How a word is written: its arguments, each with whether it may be left out, and its options, each with the name
    of its value, or nothing."""

    arguments: list[tuple[str, bool]]
    options: dict[str, str]


Table = dict[str, Shape]


def part_of(text: str, heading: str) -> str:
    """The lines below a heading, up to the next empty one."""
    return text.partition(f"{heading}:\n")[2].partition("\n\n")[0]


def help_of(program: str, *words: str) -> str:
    return subprocess.run([program, *words], capture_output=True, check=True).stdout.decode()


def shape_in(text: str) -> Shape:
    """The shape of a word that a text is the help of."""
    arguments = [(name, mark == "[") for mark, name in ARGUMENT.findall(part_of(text, "Arguments"))]
    options = dict(OPTION.findall(part_of(text, "Options")))
    options.pop("--help", None)
    return Shape(arguments, options)


def table_of_program(program: str) -> Table:
    words = LISTED.findall(part_of(help_of(program, "--help"), "Commands"))
    return {word: shape_in(help_of(program, "help", word) if word != "help" else "") for word in words}


def common_of_ctl(word: str) -> set[str]:
    """The options of a word of confstorectl that most of its words have."""
    return {option.name for option in WORDS[word].common}


def table_of_ctl() -> Table:
    """The words of confstorectl, without the options that confstore has of no word."""
    return {
        word.name: Shape(
            [(one.name, one.is_optional) for one in word.arguments],
            {
                option.name: option.value
                for option in word.options
                if option not in (*ALONE, *ALONE_OF.get(word.name, ()))
            },
        )
        for word in WORDS.values()
    }
