"""What a store was at earlier commands, which confstorectl has the program read in its folder."""

from __future__ import annotations

import json
import re
from typing import List, NamedTuple, Optional, Sequence

from .ctl_faults import Fault
from .ctl_program import Ended, run
from .style import Tree

# An edit in a line of the log: what it does, the name, and the pointer in double quotes.
_EDIT = re.compile(r'(?:import|set|delete) ([a-z][a-z0-9_-]*)(?: "(?:[^"\\]|\\.)*")?(?:; |$)')
_NUMBER = re.compile(r'(base|commands): "([0-9]+)"')

# Who made a command, when and why, before what it does.
_ABOUT = re.compile(r'(?:(?:by|when|why) "(?:[^"\\]|\\.)*" )*')


class Numbers(NamedTuple):
    """The numbers of the commands that the file of a store knows of: it has the states from the first to the last."""

    first: int
    last: int


def performed(words: Sequence[str]) -> Ended:
    """A run of a word of the program that did it. Raises the `Fault` of one that did not."""
    ended = run(words, None)
    if ended.status:
        raise ended.fault()
    return ended


def numbers_of(folder: str) -> Numbers:
    """The numbers of a store's commands. Raises a `Fault`."""
    told = dict(_NUMBER.findall(performed(["verify", "--", folder]).output.decode()))
    if set(told) != {"base", "commands"}:
        raise Fault("BadAnswer", "`verify` does not tell the numbers of the commands")
    base = int(told["base"])
    return Numbers(base, base + int(told["commands"]))


def tree_at(folder: str, name: str, number: Optional[int]) -> Optional[Tree]:
    """A configuration as it was after a command, or as it is, or None where none had the name. Raises a `Fault`."""
    at = [] if number is None else ["--at", str(number)]
    ended = run(["get", "--json", *at, "--", folder, name], None)
    if ended.status == 0:
        return _tree_in(ended.output)
    if ended.has_fault("NoConfig"):
        return None
    raise ended.fault()


def _tree_in(output: bytes) -> Tree:
    try:
        tree: Tree = json.loads(output)
    except (ValueError, RecursionError):
        raise Fault("BadAnswer", "what the program wrote is no JSON") from None
    return tree


def names_at(folder: str, number: int) -> List[str]:
    """The names of the configurations as they were after a command, in their order. Raises a `Fault`."""
    return performed(["names", "--at", str(number), "--", folder]).output.decode().splitlines()


def names_changed(folder: str, first: int, last: int) -> List[str]:
    """The names of what the commands from one number to another have changed, in the order of their changes. Raises a
    `Fault`, as where the file does not have them."""
    lines = performed(["log", "--at", str(last), "--", folder]).output.decode().splitlines()
    split = [line.partition(" ") for line in lines]
    changes = [_ABOUT.sub("", done, count=1) for number, _, done in split if int(number) >= first]
    if len(changes) != last - first + 1:
        raise Fault("NoSuchCommand", f"a checkpoint dropped what came before number {last - len(changes) + 1}")
    return list(dict.fromkeys(name for done in changes for name in _names_in(done.removeprefix("batch "))))


def _names_in(done: str) -> List[str]:
    """The names in what a line of the log says that a command did."""
    names, place = [], 0
    while place < len(done):
        edit = _EDIT.match(done, place)
        if edit is None:
            raise Fault("BadAnswer", "`log` tells of an edit that is not known here")
        names.append(edit[1])
        place = edit.end()
    return names
