"""What confstorectl says where something goes wrong: a name, and what to do."""

from __future__ import annotations

TYPE_CHECKING = False
if TYPE_CHECKING:
    import re

    from .faults import ConfstoreError

DEVICE, REFUSED, WRONG_WORDS = 3, 1, 2

# The statuses of names that are neither refusals nor about a store.
_STATUSES: dict[str, int] = {
    "WrongWords": WRONG_WORDS,
    **dict.fromkeys(("Device", "Locked", "Input", "Output", "Reopen", "Failed", "Unknown"), DEVICE),
    **dict.fromkeys(("Disconnected", "TimedOut", "BadAnswer", "OtherStore"), DEVICE),
    **dict.fromkeys(("MissingProgram", "NotStarted", "EditorFailed"), DEVICE),
}

# What to do, where it isn't plain.
_HINTS: dict[str, str] = {
    "Locked": "another run holds the store: name its socket with --socket, or wait for it with --wait SECONDS",
    "BadCommand": "compare the keys of each edit, and their order, with `confstorectl help batch`",
    "EmptyBatch": "the list has no edit",
    "BadName": "a name has 1 to 64 of a-z, 0-9, _ and -, a letter first",
    "NoConfig": "no configuration has the name; `confstorectl names` lists those that are there",
    "BadPath": "begin the pointer with `/`; write `~` as `~0`, and `/` in a key as `~1`",
    "NoSuchPlace": "nothing is at the pointer",
    "NotIndex": "an element of a list is named by its number, or `-` for the place behind the last",
    "NotUtf8": "save the text as UTF-8",
    "Documents": "a text has one document",
    "KeyTwice": "a mapping of the text has a key twice",
    "KeyNotText": "a key of the text is a list or a mapping",
    "JournalLong": "the store file is too long: `confstorectl checkpoint` makes it short",
    "StoreFull": "use a second store",
    "RecordLong": "make two batches of it",
    "AboutLarge": "an about has at most 16 keys of 64 characters, and 4,096 bytes",
    "NotAStore": "the folder has no store; `confstore init` makes one",
    "StoreExists": "the folder has a store; take another folder",
    "FileExists": "take the name of a new file",
    "NoSuchCommand": "`confstorectl verify` says which commands the file has",
    "Device": "the folder is missing or can't be used, or its device failed",
    "IdTaken": "send the command again",
    "NotText": "the value is a list or a mapping: leave out --raw",
    "NotCollection": "a text has neither keys nor indexes",
    "Unmet": "a condition does not hold, so nothing was changed",
    "Replaced": "another store stands in the place of the one that the server held: start the server again",
    "CheckFailed": "the server's check refused what it would give, so nothing was changed",
    "MissingProgram": "install confstore, or name it in CONFSTORE",
}

# The names of a fault where nothing is at a place.
NOTHING_THERE = frozenset(("NoConfig", "NoSuchPlace", "NotIndex"))

# The names of what is wrong with a text.
OF_TEXTS = frozenset("TooLong NotUtf8 Syntax Documents KeyNotText KeyTwice TooDeep LargeInStyle".split())

_HIDDEN = "[\0-\x1f\x7f-\x9f\u061c\u200e\u200f\u2028-\u202e\u2066-\u2069\\\\]"


def shown(text: str) -> str:
    """A word or a path for a line: what could change what a terminal shows is escaped, as by confstore."""
    import re  # by those faults alone that show something

    return re.sub(_HIDDEN, _escape, text.encode("utf-8", "replace").decode())


def shown_line(line: str) -> str:
    """A line of a server, which has escaped what it shows so: the signs `\\` in it stay as they are."""
    return "\\".join(map(shown, line.split("\\")))


def _escape(found: re.Match[str]) -> str:
    sign = found.group()
    plain = {"\n": "\\n", "\r": "\\r", "\t": "\\t", "\\": "\\\\"}.get(sign)
    return plain or f"\\u{{{ord(sign):x}}}"


class Fault(Exception):
    """A word could not be done: by the name of what went wrong, with a line about it.

    `may_try_again` says that nothing was done, and that it may go well later.
    """

    def __init__(self, name: str, about: str | None = None, may_try_again: bool = False) -> None:
        super().__init__(name)
        self.name = name
        self.about = about
        self.may_try_again = may_try_again

    @property
    def kind(self) -> str:
        """The name without what may follow it, as a line and a column."""
        return self.name.partition(" ")[0]

    @property
    def status(self) -> int:
        return _STATUSES.get(self.kind, REFUSED)

    @property
    def line(self) -> str:
        """The line for standard error, or lines of which the last one has no end."""
        about = self.about if self.about is not None else _HINTS.get(self.kind, "")
        return f"confstorectl: {self.name}" + (f": {about}" if about else "")


class TextFault(Fault):
    """A text came to nothing: the lines say of which file, where and why, as those of confstore do."""

    def __init__(self, lines: str, status: int) -> None:
        super().__init__(lines.partition("\n")[0])
        self._lines, self._status = lines, status

    @property
    def status(self) -> int:
        return self._status

    @property
    def line(self) -> str:
        return self._lines.removesuffix("\n")


def unread(file: str, error: OSError) -> TextFault:
    """The fault of a file that can't be read."""
    return TextFault(f"{shown(file)}: Input\n{shown(file)}: {error.strerror}\n", DEVICE)


def hint_of(name: str) -> str:
    """What to do about a fault of the program, or nothing where that is plain."""
    return _HINTS.get(name, "")


# The names of the program for what the package has other names for.
_NAMES = {"MissingFolder": "Device", "UnusablePath": "Device", "InputFailed": "Input", "OutputFailed": "Output"}


def fault_of(error: ConfstoreError) -> Fault:
    """The fault of an exception of the package."""
    from .faults import Refused

    if not isinstance(error, Refused):
        name = _NAMES.get(type(error).__name__, type(error).__name__)
        return Fault(name, shown(str(error)).removeprefix(f"{name}: "))
    place = error.place if error.word == "Syntax" else None
    return Fault(f"Syntax {place.line}:{place.column} {place.reason}" if place else shown(error.word))
