"""What confstorectl reads of a store's archives: the commands that `checkpoint --archive` has put there, beside those
of the store's own file.

Each archive is a store, with the commands from one checkpoint to another. In the order of their numbers they and the
store are one history: the next one begins with a state that the one before has. Where that is not so nothing is read.
"""

from __future__ import annotations

import contextlib
import os
import re
import tempfile
from itertools import zip_longest
from typing import Callable, Iterator, List, NamedTuple, Optional, Sequence, Tuple, TypeVar

from .ctl_asked import Asked
from .ctl_faults import Fault, TextFault, fault_of, shown
from .ctl_history import Numbers, names_changed, numbers_of, performed, tree_at
from .ctl_program import Ended, program, run, run_shown
from .ctl_streams import write
from .ctl_words import AT, FIRST, HIDE, TO_NUMBER, VALUES, YAML_RECORDS
from .faults import ConfstoreError
from .store_file import NAME, StoreFile
from .style import Tree

T = TypeVar("T")

# How many seconds the program may take to read a piece that it did not write.
TIMEOUT = 60.0

# How often what a store and its archives have is read again, where a checkpoint comes between.
TRIES = 10

# How many folders a fault names at most.
MOST_FOLDERS = 10

# The line of a base that says in which format it is.
_FORMAT = re.compile(rb"(?:---\n)?store: .*\n")

# The name of the store's file in an archive whose checkpoint was cut off (see `ctl_archiving`).
KEPT = "kept.yaml"


class File(NamedTuple):
    """The file of an archive, or of the store itself: its folder, and the numbers of the states that it has."""

    folder: str
    numbers: Numbers


class Part(NamedTuple):
    """Commands that are read from one folder: those from the number `first` to the number `last`."""

    folder: str
    first: int
    last: int


class History:
    """The history of a store, of its archives and of its own file. Raises a `Fault` where they are not one history."""

    def __init__(self, folder: str, archives: Sequence[str]) -> None:
        files = [_archive(archive) for archive in archives]
        self._own = File(folder, numbers_of(folder))  # last, since commands may come meanwhile
        self._files = sorted([*files, self._own], key=lambda file: file.numbers)
        self._parts = list(_parts_of(self._files))
        if self._parts[-1].last > self._own.numbers.last:
            longest = next(file for file in files if file.numbers.last == self._parts[-1].last)
            about = f"{shown(longest.folder)} has command {longest.numbers.last}"
            raise _other_archive(f"{about}, and {shown(folder)} ends with {self._own.numbers.last}")

    @property
    def numbers(self) -> Numbers:
        """The numbers of the states that they have."""
        return Numbers(self._files[0].numbers.first, self._own.numbers.last)

    @property
    def folders(self) -> List[str]:
        """The folders that commands are read from: the oldest one first, and that of the store last."""
        return [*(part.folder for part in self._parts if part.folder != self._own.folder), self._own.folder]

    def need(self, number: int) -> None:
        """Raises a `Fault` for a number that they have not."""
        known = self.numbers
        if not known.first <= number <= known.last:
            are = f"the numbers from {known.first} to {known.last}"
            several = f"the archives and the store have {are}: {_where(self._files)}"
            raise Fault("NoSuchCommand", several if len(self._files) > 1 else f"the file has {are}")

    def folder_with(self, number: int) -> str:
        """The folder that has the state after a command: that of the store, if it has it."""
        self.need(number)
        having = [file for file in (*self._files, self._own) if _has(file.numbers, number)]
        return having[-1].folder

    def parts(self, first: int, last: int) -> List[Part]:
        """The commands from one number to another, each once, in order."""
        cut = (Part(part.folder, max(part.first, first), min(part.last, last)) for part in self._parts)
        return [part for part in cut if part.first <= part.last]

    def is_own(self, part: Part) -> bool:
        """Whether commands are read from the store itself."""
        return part.folder == self._own.folder

    def is_as_it_was(self) -> bool:
        """Whether the store's file still has all that it had: whether no checkpoint came."""
        return numbers_of(self._own.folder).first == self._own.numbers.first

    def tree_at(self, name: str, number: int) -> Optional[Tree]:
        """A configuration as it was after a command, or None where none had the name. Raises a `Fault`."""
        return tree_at(self.folder_with(number), name, number)

    def names_changed(self, first: int, last: int) -> List[str]:
        """The names of what the commands from one number to another have changed, in the order of their changes."""
        names = (names_changed(*part) for part in self.parts(first, last))
        return list(dict.fromkeys(name for several in names for name in several))


def history_of(asked: Asked) -> History:
    """The history that a word looks into. Where a checkpoint comes while it is read, it is read again."""
    return again(lambda: History(asked.folder, asked.archives))


class Moved(Exception):
    """A checkpoint came while the files were read."""


def again(read: Callable[[], T]) -> T:
    """What is read, as often as checkpoints come between. Raises a `Fault`."""
    for _ in range(TRIES):
        with contextlib.suppress(Moved):
            return read()
    raise Fault("Unmet", "checkpoints come faster than the store is read")


def _has(numbers: Numbers, number: int) -> bool:
    return numbers.first <= number <= numbers.last


def _archive(folder: str) -> File:
    """The file of an archive. Raises the `Fault` of one that can't be read, which names it."""
    try:
        return File(folder, numbers_of(folder))
    except TextFault as fault:
        raise TextFault(f"{fault.line}\n{shown(folder)}: it can't be read as an archive\n", fault.status) from None


def _other_archive(why: str) -> Fault:
    return Fault("OtherArchive", f"an archive is one of another store, or of another time of this one: {why}")


def _parts_of(files: Sequence[File]) -> Iterator[Part]:
    """The commands of files in the order of their numbers, each once. Raises the `Fault` of files that are not one
    history."""
    longest = files[0]
    yield Part(longest.folder, longest.numbers.first + 1, longest.numbers.last)
    for file in files[1:]:
        reached = longest.numbers.last
        if file.numbers.first > reached:
            raise _gap(files, reached + 1, file.numbers.first)
        _need_one_history(longest, file)
        if file.numbers.last > reached:
            yield Part(file.folder, reached + 1, file.numbers.last)
            longest = file


def _where(files: Sequence[File]) -> str:
    """Which numbers are where."""
    told = [f"{shown(file.folder)} from {file.numbers.first} to {file.numbers.last}" for file in files]
    return ", ".join([*told[:MOST_FOLDERS], *(["and more"] if len(told) > MOST_FOLDERS else [])])


def _gap(files: Sequence[File], first: int, last: int) -> Fault:
    """The fault of numbers that no file has."""
    numbers = f"the commands from {first} to {last} are" if first < last else f"command {first} is"
    beside = [file for file in files if first - 1 == file.numbers.last or last == file.numbers.first]
    about = f"{numbers} in no folder that was given ({_where(beside)})"
    about += ": give the archive that has them, or look into each side alone"
    kept = [os.path.join(file.folder, KEPT) for file in files if os.path.lexists(os.path.join(file.folder, KEPT))]
    more = f"; a checkpoint was cut off, and {shown(kept[0])} may have them: rename it to {NAME}" if kept else ""
    return Fault("Gap", about + more)


def _need_one_history(older: File, newer: File) -> None:
    """Raises the `Fault` of two files that have not the same state where the second one begins, or not the same
    commands after that."""
    try:
        with _opened(older) as one, _opened(newer) as other:
            _read_to(other, newer.numbers.first)
            _read_to(one, newer.numbers.first)
            both = f"{shown(older.folder)} and {shown(newer.folder)}"
            if _state_of(one) != _state_of(other):
                raise _other_archive(f"{both} are two states after command {newer.numbers.first}")
            last = min(older.numbers.last, newer.numbers.last)
            for mine, theirs in zip_longest(_records_to(one, last), _records_to(other, last)):
                if mine != theirs:
                    raise _other_archive(f"{both} have two commands with the number {(mine or theirs)[0]}")
    except ConfstoreError as error:
        raise fault_of(error) from None


@contextlib.contextmanager
def _opened(file: File) -> Iterator[StoreFile]:
    opened = StoreFile(file.folder, program(), TIMEOUT)
    try:
        yield opened
    finally:
        opened.close()


def _read_to(file: StoreFile, number: int) -> None:
    """Reads a file up to a command. Raises `Moved` where it has it no more."""
    at = file.read_base()
    if at != number and all(at != number for at, _ in file.records()):
        raise Moved


def _records_to(file: StoreFile, last: int) -> "Iterator[tuple[int, bytes]]":
    """The records that follow what was read, up to a number."""
    if file.number < last:
        for number, piece in file.records():
            yield number, piece
            if number == last:
                return


def _state_of(file: StoreFile) -> bytes:
    """The text of the state after what was read of a file: the base that the program makes of it, without the format,
    which is another one once the store has an about."""
    with tempfile.TemporaryDirectory(prefix="confstorectl-") as folder:
        path = os.path.join(folder, NAME)
        with open(path, "wb") as target:
            file.copy_read(target)
        performed(["checkpoint", "--", folder])
        with open(path, "rb") as source:
            return _FORMAT.sub(b"", source.read(), count=1)


# ---- the words


def found(asked: Asked) -> Asked:
    """A word that reads what the store was after a command, of the folder that has that."""
    return asked.of_archive(history_of(asked).folder_with(int(asked.options[AT.name])))


def log(asked: Asked) -> int:
    """Writes the commands of a store and its archives. The status. Raises a `Fault`."""
    return again(lambda: _log(asked))


def records_of(asked: Asked) -> bytes:
    """The records of a store and its archives that are asked for, as they stand there. Raises a `Fault`."""
    if not asked.archives:
        return performed(_words_for(asked, asked.folder, [YAML_RECORDS.name, *_numbers_asked(asked)])).output
    return again(lambda: _records_of(asked))


def _records_of(asked: Asked) -> bytes:
    history, parts = _parts_asked(asked)
    words = [_words_for(asked, part.folder, [YAML_RECORDS.name, *_numbers_of(part)]) for part in parts]
    records = b"".join(performed(one).output for one in words)
    if not history.is_as_it_was():
        raise Moved
    return records


def _parts_asked(asked: Asked) -> Tuple[History, List[Part]]:
    """The history of a store and its archives, and the commands of it that are asked for."""
    history = History(asked.folder, asked.archives)
    last = int(asked.options.get(TO_NUMBER.name, asked.options.get(AT.name, history.numbers.last)))
    history.need(last)
    return history, history.parts(int(asked.options.get(FIRST.name, 0)), last)


def _log(asked: Asked) -> int:
    history, parts = _parts_asked(asked)
    own = b"".join(_of_own(asked, history, part) for part in parts if history.is_own(part))  # before any is written
    for part in parts:
        if not history.is_own(part):
            _need_done(run_shown(_words(asked, part), None, is_fed=False))
    write(own)
    return 0


def _of_own(asked: Asked, history: History, part: Part) -> bytes:
    """What the program writes of the store's own commands. Raises `Moved` where a checkpoint came meanwhile."""
    try:
        output = performed(_words(asked, part)).output
    except Fault:
        if history.is_as_it_was():
            raise
        raise Moved from None
    if not history.is_as_it_was():
        raise Moved
    return output


def _words(asked: Asked, part: Part) -> List[str]:
    """The words for the program that write some commands."""
    options = [option.name for option in (VALUES, YAML_RECORDS) if asked.has(option)]
    options += [f"{HIDE.name}={pointer}" for pointer in asked.hidden]
    return _words_for(asked, part.folder, [*options, *_numbers_of(part)])


def _words_for(asked: Asked, folder: str, options: Sequence[str]) -> List[str]:
    """The words for the program that write commands of a folder, with options."""
    name = [asked.arguments["NAME"]] if "NAME" in asked.arguments else []
    return ["log", *options, "--", folder, *name]


def _numbers_of(part: Part) -> List[str]:
    return [FIRST.name, str(part.first), TO_NUMBER.name, str(part.last)]


def _numbers_asked(asked: Asked) -> List[str]:
    """The options of a word that say which commands are asked for."""
    given = [(option.name, asked.options.get(option.name)) for option in (FIRST, TO_NUMBER, AT)]
    return [part for name, number in given if number is not None for part in (name, number)]


def _need_done(ended: Ended) -> None:
    if ended.status:
        raise ended.fault()
