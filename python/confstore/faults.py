"""What can go wrong, each as an exception of its own.

Every exception of this package is a `ConfstoreError`. A `Refused` is the store's answer to one command: it changed
nothing, and the store goes on. A `SessionEnded` says why a session is over: every command that was answered stands, and
of those that weren't, each was performed or not.
"""

from __future__ import annotations

import errno

TYPE_CHECKING = False
if TYPE_CHECKING:
    from .texts import Place

__all__ = [
    "AboutLarge", "AnswerCut", "AnswerLong", "BadAnswer", "BadCommand", "BadName", "BadPath", "CheckFailed", "Closed",
    "CommandLong", "ConfigLarge", "ConfstoreError", "CountFull", "Damaged", "Device", "Disconnected", "Documents",
    "EmptyBatch", "InputFailed", "JournalLong", "KeyNotText", "KeyTwice", "LargeInStyle", "Locked", "MissingFolder",
    "MissingProgram", "NoConfig", "NoSuchCommand", "NoSuchPlace", "NotAStore", "NotAText", "NotATree", "NotIndex",
    "NotStarted", "NotText", "NotUtf8", "OutOfMemory", "OutputFailed", "RecordLong", "Refused", "SessionEnded",
    "SessionLong", "StoreFull", "StoreReplaced", "Syntax", "TimedOut", "TooDeep", "TooLong", "TooLongToSend", "Unknown",
    "Unmet", "Unsupported", "UnusablePath", "Unwritten",
]  # fmt: skip


class ConfstoreError(Exception):
    """Anything that this package raises of its own."""


class Refused(ConfstoreError):
    """A command was refused. It changed nothing, and the store goes on.

    As a text it is a sentence: what was refused, of what, by which word, and why. `word` is the refusal's name, and
    `about` says what was refused, or is empty. `name` and `path` are those of the command, or None where it has none.
    """

    #: Why a command is refused by this word.
    because = ""

    def __init__(self, word: str, about: str = "") -> None:
        super().__init__(word, about)
        self.word = word
        self.about = about
        self.name: str | None = None
        self.path: str | None = None
        #: The texts that were refused, or one of them, and the program that knows where.
        self.texts: tuple[bytes, ...] = ()
        self.program: str | None = None

    def __str__(self) -> str:
        return ": ".join(part for part in (self.about, self.word, self.because) if part)

    @property
    def place(self) -> Place | None:
        """Where a text was refused, or None: where no text was, the program names no place, or there is no program.

        It is asked of the program whenever this is looked at, by `confstore check -`. It raises what a run of the
        program may raise, as `TimedOut`.
        """
        from .texts import place_of

        return place_of(self)


class BadCommand(Refused):
    """The command is none, or its value is nested too deep for one."""

    because = "it is no command, or its value is nested too deep for one"


class Unmet(Refused):
    """A condition of the command does not hold."""

    because = "a condition of the command does not hold"


class BadName(Refused, ValueError):
    """A name has 1 to 64 of `a` to `z`, `0` to `9`, `_` and `-`, and begins with a letter; this one doesn't."""

    because = "a name has 1 to 64 of a to z, 0 to 9, _ and -, and begins with a letter"


class NoConfig(Refused, KeyError):
    """No configuration has the name."""

    because = "no configuration has the name"


class BadPath(Refused, ValueError):
    """The pointer is none of RFC 6901."""

    because = "the path is no pointer of RFC 6901"


class NoSuchPlace(Refused, KeyError):
    """Nothing is at the path."""

    because = "nothing is at the path"


class NotIndex(Refused, LookupError):
    """A step into a list is no index."""

    because = "a step into a list is no index"


class TooLong(Refused):
    """The text of an import has more bytes than a configuration may have."""

    because = "the text has more bytes than a configuration may have"


class NotUtf8(Refused):
    """The bytes are not UTF-8."""

    because = "the bytes are not UTF-8"


class Syntax(Refused, ValueError):
    """YAML 1.2.2, or the profile, does not allow the text of an import."""

    because = "YAML 1.2.2, or the profile, does not allow the text"


class Documents(Refused, ValueError):
    """The text of an import has no document, or more than one."""

    because = "the text has no document, or more than one"


class KeyNotText(Refused, ValueError):
    """A key in the text of an import is a list or a mapping."""

    because = "a key in the text is a list or a mapping"


class KeyTwice(Refused, ValueError):
    """A mapping in the text of an import has a key twice."""

    because = "a mapping in the text has a key twice"


class TooDeep(Refused, ValueError):
    """Collections would be nested deeper than a configuration may be."""

    because = "collections would be nested deeper than a configuration may be"


class LargeInStyle(Refused):
    """The configuration would have too many bytes in the one style."""

    because = "the configuration would have too many bytes in the one style"


class ConfigLarge(Refused):
    """The configuration would have too many bytes in the one style."""

    because = "the configuration would have too many bytes in the one style"


class StoreFull(Refused):
    """All configurations together would be too long for a base."""

    because = "all configurations together would be too long for a base"


class JournalLong(Refused):
    """`store.yaml` would be too long. A checkpoint helps."""

    because = "store.yaml would be too long; a checkpoint helps"


class CountFull(Refused):
    """As many commands were accepted as can be counted."""

    because = "as many commands were accepted as can be counted"


class EmptyBatch(Refused, ValueError):
    """A batch has no edits."""

    because = "a batch has no edits"


class RecordLong(Refused):
    """The record of a batch would be too long."""

    because = "the record of the batch would be too long"


class AboutLarge(Refused, ValueError):
    """The about of the command has too many keys or bytes, or a key that is too long."""

    because = "an about has at most 16 keys of 64 characters, and 4,096 bytes"


class NoSuchCommand(Refused, LookupError):
    """The file has no state of this number: it is beyond the last command, or a checkpoint dropped it."""

    because = "the file has no state of this number: it is beyond the last command, or a checkpoint dropped it"


class StoreReplaced(Refused):
    """Another store stands in the place of the one that the server of the socket held. The server ends."""

    because = "another store stands in the place of the one that the server held; start the server again"


class CheckFailed(Refused):
    """The command that judges changes for the server (`serve.py --check`) refused what this one would give, or it could
    not be judged. Nothing was changed.

    `lines` says how that command ended, and on which configuration, and then has the last lines of what it said; they
    are empty where the server does not know them any more.
    """

    because = "the server's check refused what it would give"
    lines: tuple[str, ...] = ()

    def __str__(self) -> str:
        return "\n".join([super().__str__(), *self.lines])


class SessionEnded(ConfstoreError):
    """The session is over, or the run of the program that was to read. What was answered stands; `reopen` starts
    another session.

    As a text it is a sentence, with the folder. `status` is the program's, or the negative number of the signal that
    ended it, or None where it isn't known. `folder` is the store's, or None where it isn't known. `cause` is what the
    program has said beside, as which call of the system failed, or empty.
    """

    #: What a program means that ends with this name.
    because = ""

    def __init__(self, about: str, status: int | None = None, folder: str | None = None, cause: str = "") -> None:
        super().__init__(about)
        self.status, self.folder, self.cause = status, folder, cause

    def __str__(self) -> str:
        return self._sentence(self.because)

    def _sentence(self, because: str) -> str:
        """What is over, why where that isn't said yet, and of which folder."""
        about = str(self.args[0])
        parts = (about, because if " " not in about else "", repr(self.folder) if self.folder else "")
        return ": ".join(part for part in parts if part)


class Device(SessionEnded):
    """A call of the system failed, as on a full device. The command in hand was performed or not."""

    because = "a call of the system failed, as on a full device"

    def __str__(self) -> str:
        return self._sentence(self.cause or self.because)


class Locked(SessionEnded):
    """Another run holds the folder."""

    because = "another run holds the folder"


class NotAStore(SessionEnded):
    """`store.yaml` does not begin with a base. It is left as it was."""

    because = "store.yaml does not begin with a base"


class Damaged(SessionEnded):
    """A piece of `store.yaml` is no record. The file is left as it was."""

    because = "a piece of store.yaml is no record"


class OutOfMemory(SessionEnded):
    """The program's memory ran out. The command in hand changed nothing."""

    because = "the program's memory ran out"


class CommandLong(SessionEnded):
    """A command was longer than the program takes. Everything before it was performed."""

    because = "a command was longer than the program takes"


class SessionLong(SessionEnded):
    """The session was sent as many bytes as it takes, 1,073,741,824. Everything before was performed."""

    because = "the session was sent as many bytes as it takes"


class InputFailed(SessionEnded):
    """The program could not read its commands."""

    because = "the program could not read its commands"


class OutputFailed(SessionEnded):
    """The program could not write an answer."""

    because = "the program could not write an answer"


class AnswerCut(SessionEnded):
    """The session ended in the middle of an answer. The command was performed or not."""


class BadAnswer(SessionEnded):
    """What came is no answer of a session. The session was ended, since nothing else that it says can be trusted."""


class AnswerLong(SessionEnded):
    """An answer had more than the 67,108,864 bytes that one may have. The session was ended, since it is none of a
    session, and the command was performed or not."""


class Disconnected(SessionEnded):
    """The server of the socket closed the connection."""


class Unknown(SessionEnded):
    """The session was given up, since a thread of it was interrupted half way, as where memory ran out; or nobody says
    how its program ended. Each command that was not answered was performed or not."""


class Unwritten(ConfstoreError):
    """What was given has no text. Nothing was sent.

    As a text it is a sentence, with the place. `within` is the path (RFC 6901) within the tree to what is at fault, and
    `name` and `path` are those of the command; each is None where there is none.
    """

    def __init__(self, about: str, within: str | None = None) -> None:
        super().__init__(about)
        self.within = within
        self.name: str | None = None
        self.path: str | None = None

    def __str__(self) -> str:
        inner = f"at {self.within!r} of " if self.within else ""
        what = "the command" if self.within is None else f"{inner}the tree"
        of = f" for {self.name!r}" if self.name is not None else ""
        at = f" at {self.path!r}" if self.path else ""
        return f"{self.args[0]}: {what}{of}{at}" if inner or of else str(self.args[0])


class NotATree(Unwritten, TypeError):
    """A tree is a str, a list of trees, or a dict of str to trees; this is none. Nothing was sent."""


class NotText(Unwritten, ValueError):
    """A str that no YAML can hold, since it has a lone surrogate. Nothing was sent."""


class NotAText(ConfstoreError, TypeError):
    """What is at the path is a list or a mapping, where `get_text` was to read a text. `name` and `path` say where."""

    def __init__(self, name: str, path: str, kind: str) -> None:
        super().__init__(name, path, kind)
        self.name, self.path, self.kind = name, path, kind

    def __str__(self) -> str:
        what = f"what is at {self.path!r} of {self.name!r}" if self.path else repr(self.name)
        return f"{what} is a {self.kind}, and no text"


class TooLongToSend(ConfstoreError, ValueError):
    """The command would have more bytes than a session takes of one, or a pointer more than a word of a program may
    have. Nothing was sent."""


class TimedOut(ConfstoreError, TimeoutError):
    """No answer came within the time that was given. `sent` says whether the command may be performed, now or later."""

    def __init__(self, about: str, sent: bool = True) -> None:
        super().__init__(about)
        self.sent = sent


class MissingProgram(ConfstoreError, FileNotFoundError):
    """There is no program `confstore` where it was looked for, or what is there is none that may be run."""


class MissingFolder(ConfstoreError, FileNotFoundError):
    """There is no folder of this name, or it can't be made."""


class UnusablePath(ConfstoreError, OSError):
    """The path of a folder or a program is too long, a loop of links or no path, or may not be looked at. `errno` says
    which."""


class NotStarted(ConfstoreError, OSError):
    """The program is there, and the system did not start it: as where too many files are open, or where the words and
    the environment are too long. `errno` says why."""


class Closed(ConfstoreError):
    """The store was closed before, or it was opened by another process than this one."""


class Unsupported(ConfstoreError):
    """The program lacks a word or a command that this call needs."""


REFUSALS: dict[str, type[Refused]] = {
    kind.__name__: kind
    for kind in (
        BadCommand, Unmet, BadName, NoConfig, BadPath, NoSuchPlace, NotIndex, TooLong, NotUtf8, Syntax, Documents,
        KeyNotText, KeyTwice, TooDeep, LargeInStyle, ConfigLarge, StoreFull, JournalLong, CountFull, EmptyBatch,
        RecordLong, AboutLarge, NoSuchCommand, CheckFailed,
    )
}  # fmt: skip
REFUSALS["Replaced"] = StoreReplaced

# What the system says of a path that may be fine where nothing is, or where what is there can't be run.
_NOTHING_THERE = (errno.ENOENT, errno.ENOTDIR)
_NO_PROGRAM = (*_NOTHING_THERE, errno.EACCES, errno.EISDIR, errno.ENOEXEC)
_NO_PATH = (errno.ENAMETOOLONG, errno.ELOOP, errno.EINVAL)

ENDS: dict[str, type[SessionEnded]] = {
    "Device": Device,
    "Locked": Locked,
    "NotAStore": NotAStore,
    "Damaged": Damaged,
    "OutOfMemory": OutOfMemory,
    "TooLong": CommandLong,
    "SessionLong": SessionLong,
    "Input": InputFailed,
    "Output": OutputFailed,
}


def refusal(word: str, about: str = "") -> Refused:
    """The exception of a refusal's word."""
    return REFUSALS.get(word, Refused)(word, about)


def folder_fault(error: OSError, folder: str) -> ConfstoreError:
    """The exception of a folder that the system does not show."""
    kind = MissingFolder if error.errno in _NOTHING_THERE else UnusablePath
    return kind(error.errno, f"the folder can't be used: {error.strerror}", folder)


def program_fault(error: OSError, program: str) -> ConfstoreError:
    """The exception of a program that was not started."""
    if error.errno in _NO_PROGRAM:
        return MissingProgram(error.errno, f"the program can't be run: {error.strerror}", program)
    if error.errno in _NO_PATH:
        return UnusablePath(error.errno, f"the program can't be run: {error.strerror}", program)
    return NotStarted(error.errno, f"the program was not started: {error.strerror}", program)


def end_of(status: int | None, errors: bytes, cut: bool, folder: str | None = None) -> SessionEnded:
    """Why a program is over: by its status, by what it wrote to standard error, and by whether an answer was cut."""
    name = cause = ""
    for line in errors.decode("utf-8", "replace").splitlines():
        if line.startswith("confstore: "):
            name, cause = line[len("confstore: ") :], ""
        else:
            cause = cause or (line if name else "")
    import re  # by a process whose program has ended

    kind = ENDS.get(re.split(r"\W", name, maxsplit=1)[0])
    if kind is not None:
        return kind(name, status, folder, cause)
    if status is None:
        how = "how the program ended isn't known: SIGCHLD is ignored here, or somebody else waits for all children"
    elif status < 0:
        how = f"the session was ended by signal {-status}"
    elif status:
        how = f"the session ended with status {status}" + (f": {name}" if name else "")
    else:
        how = "the session ended"
    if cut:
        return AnswerCut(f"{how}, in the middle of an answer", status, folder)
    return Unknown(how, None, folder) if status is None else SessionEnded(how, status, folder)
