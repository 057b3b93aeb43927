"""Reading a store beside the session that holds it, by the words of the program that take no lock and write nothing.

What is read so is the state after some prefix of the accepted commands. The last of them may not be on the disk yet.
"""

from __future__ import annotations

import errno
import operator
import os
import re
from typing import Any, List, Optional, overload

import yaml

from .commands import get_of, is_name, refused
from .faults import REFUSALS, BadAnswer, ConfstoreError, NotStarted, NotText, Refused, TooLongToSend, Unsupported
from .faults import end_of, refusal
from .following import Changes
from .mapping import MISSING, Configurations, D
from .pieces import LONGEST_ANSWER, Cutter
from .places import find_program, need_folder, path_of
from .records import Record, record_of
from .runs import Run
from .style import Tree, text_of
from .trees import from_text, trees_of

_FAULT = re.compile(r"confstore: (\w+)")
_AT = re.compile(rb'(?:---\n)?at: "([0-9]{1,20})"\n')

# The program's status for words that it does not know.
WRONG_WORDS = 2

# The greatest number that a command can have.
GREATEST = 2**64 - 1


# The most bytes that the word `log` prints: as many as a file has.
LONGEST_LOG = 1_073_741_824


class Reader(Configurations):
    """Reads a store without holding it. It takes no lock, and writes, makes and removes nothing.

    It is a mapping of names to configurations, each read anew. Where all have to be of one state, use `at`.

    Each call runs the program once, for at most `timeout` seconds. A call raises `Unsupported` where the program lacks
    the word.
    """

    def __init__(self, path: "str | os.PathLike[str]", *, program: Optional[str] = None, timeout: float = 60.0) -> None:
        self.folder = path_of(path)
        self.program = find_program(program)
        self.timeout = timeout

    def __repr__(self) -> str:
        return f"Reader({self.folder!r})"

    def _read(self, word: str, options: List[str], *more: str, longest: int = LONGEST_ANSWER) -> bytes:
        need_folder(self.folder)
        run = Run([self.program, word, *options, self.folder, *more], self.timeout, longest)
        try:
            run.wait()
        except NotStarted as fault:
            if fault.errno == errno.E2BIG and more:
                about = f"a pointer of {len(more[-1].encode())} bytes can't be a word of the program: use a Store"
                raise TooLongToSend(about) from None
            raise
        if run.status == 0:
            return bytes(run.output)
        raise self._fault(word, run)

    def _fault(self, word: str, run: Run) -> ConfstoreError:
        errors = run.errors.decode("utf-8", "replace")
        if run.status == WRONG_WORDS and "unrecognized subcommand" in errors:
            return Unsupported(f"this program has no word `{word}`")
        if run.status == WRONG_WORDS and "unexpected argument" in errors:
            return Unsupported(f"the word `{word}` of this program lacks an option: {errors.splitlines()[0]}")
        found = _FAULT.search(errors)
        if found and found[1] in REFUSALS:
            return refusal(found[1])
        return end_of(run.status, bytes(run.errors), False, self.folder)

    def names(self, at: Optional[int] = None) -> List[str]:
        """The names of the configurations, in order."""
        return self._read("names", _at(at)).decode().splitlines()

    @overload  # type: ignore[override]
    def get(self, name: str, path: str = "", at: Optional[int] = None) -> Tree: ...

    @overload
    def get(self, name: str, path: str = "", at: Optional[int] = None, *, default: D) -> "Tree | D": ...

    def get(self, name: str, path: str = "", at: Optional[int] = None, *, default: Any = MISSING) -> Any:
        """The tree at a path of a configuration, as of a command if its number is given. `default` is returned as by
        the `get` of a `Store`."""
        if at is None:
            return super().get(name, path, default=default)
        return View(self, at).get(name, path, default=default)

    def _read_at(self, name: str, path: str, at: Optional[int] = None) -> Tree:
        name, path = text_of(name), text_of(path)
        if not is_name(name):
            raise refused("BadName", get_of(name, path), self.program)
        if path and not path.startswith("/"):
            raise refused("BadPath", get_of(name, path), self.program)
        _check_word(path)
        try:
            text = self._read("get", _at(at), name, *([path] if path else []))
        except Refused as fault:
            raise refused(fault.word, get_of(name, path), self.program) from None
        try:
            return from_text(text)
        except yaml.YAMLError:
            raise BadAnswer("what `get` printed is no YAML") from None

    def log(self, after: int = 0) -> List[Record]:
        """The records of the file with a number beyond `after`, in order. A checkpoint drops those before it."""
        printed = self._read("log", ["--yaml"], longest=LONGEST_LOG)
        try:
            records = [record_of(tree) for tree in trees_of(_later(printed, after))]
        except yaml.YAMLError:
            raise BadAnswer("what `log` printed is no YAML") from None
        return [record for record in records if record.number > after]

    def follow(self, start: Optional[int] = None) -> Changes:
        """The changes of the store as they are made, to loop over: from the number `start` on, or those that come after
        this call where it is None.

        It goes on over checkpoints, and over sessions that end and begin. Each change comes once, in order. Where a
        checkpoint has dropped some before they were seen, a `Cut` says which. Close it, or use it in `with`. The last
        changes may not be on the disk yet.
        """
        need_folder(self.folder)
        return Changes(self.folder, self.program, self.timeout, start)

    def at(self, number: int) -> "View":
        """The store as of the command with this number. Raises `NoSuchCommand` if the file does not have it."""
        view = View(self, number)
        view.names()
        return view


class View(Configurations):
    """A store as of one command, as a mapping. Each call reads it anew, so it raises `NoSuchCommand` once a checkpoint
    dropped it."""

    def __init__(self, reader: Reader, number: int) -> None:
        self._reader = reader
        self.number = number

    def __repr__(self) -> str:
        return f"{self._reader!r}.at({self.number})"

    def names(self) -> List[str]:
        """The names of the configurations, in order."""
        return self._reader.names(self.number)

    def _read_at(self, name: str, path: str) -> Tree:
        return self._reader._read_at(name, path, self.number)


def _later(records: bytes, after: int) -> bytes:
    """The records without those that show a number up to `after` at once, so that these are not read."""
    if after <= 0:
        return records
    pieces = Cutter().cut(records)
    return b"".join(piece for piece in pieces if not (shown := _AT.match(piece)) or int(shown[1]) > after)


def _check_word(path: str) -> None:
    """Raises `NotText` or `Unsupported` if a pointer can't be a word of the program."""
    try:
        path.encode()
    except UnicodeEncodeError:
        raise NotText("a pointer with a lone surrogate is no text") from None
    if "\0" in path:
        raise Unsupported("a pointer with the character 0 can't be a word of the program: use a Store")


def _at(number: Optional[int]) -> List[str]:
    if number is None:
        return []
    if not 0 <= number <= GREATEST:
        raise refusal("NoSuchCommand")
    return ["--at", format(operator.index(number), "d")]
