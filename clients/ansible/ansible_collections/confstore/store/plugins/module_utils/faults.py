"""The faults of tasks: what each name says, and what to do. The program's names are those of docs/FAULTS.md, and what
to do about a text is what the program says with `--explain`."""

from __future__ import annotations

from typing import Any, Dict, NamedTuple, Optional, Tuple

# Of a text and of a command: the name, what it says, and what to do about it in a task.
REFUSALS: Dict[str, Tuple[str, str]] = {
    "TooLong": ("the text has more than 4,194,304 bytes", "make more than one configuration of it"),
    "NotUtf8": ("the bytes are not UTF-8", "save it as UTF-8"),
    "Syntax": ("YAML 1.2.2, or the profile, does not allow it", "look at the place"),
    "Documents": (
        "the text has no document, or more than one",
        "keep one, or let `confstorectl import --from yaml --split` take each",
    ),
    "KeyNotText": ("a key is a list or a mapping", "write the key as a text"),
    "KeyTwice": ("a mapping has a key twice", "drop one, or give it another key"),
    "TooDeep": ("collections are nested more than 128 deep", "make it flatter"),
    "LargeInStyle": ("the tree would have more than 4,194,304 bytes", "make more than one configuration of it"),
    "BadCommand": ("the store takes no such command", "look whether the program or the server is an old one"),
    "EmptyBatch": ("the batch has no edit", "leave it out"),
    "Unmet": ("a condition of the task does not hold of the store", "look what is there, and run the task again"),
    "BadName": (
        "the name is not 1 to 64 of `a` to `z`, `0` to `9`, `_` and `-`, a letter first", "use another name",
    ),
    "NoConfig": ("no configuration has the name", "put one there first, without a path, or set `parents`"),
    "BadPath": ("the pointer is none of RFC 6901", "begin it with `/`; write `~` as `~0`, and `/` in a key as `~1`"),
    "NoSuchPlace": ("nothing is at the path", "put what is above it first, or set `parents`"),
    "NotIndex": ("a step into a list is no index", "use 0, 1, 2 and so on, or `-` to append"),
    "ConfigLarge": ("the configuration would have more than 4,194,304 bytes", "make two of it"),
    "StoreFull": ("all configurations together would be too long", "use a second store"),
    "RecordLong": ("the edits are too long for one batch", "make two tasks of them"),
    "AboutLarge": (
        "an about has at most 16 keys of 64 characters, and 4,096 bytes", "shorten `about`, or the name of the task",
    ),
    "JournalLong": ("`store.yaml` would be too long", "run `confstore checkpoint` on the folder"),
    "CountFull": ("no more commands can be counted", "export all, and import it into a new store"),
}  # fmt: skip

# Of a `Syntax`: the reason, what it says, and what to do.
REASONS: Dict[str, Tuple[str, str]] = {
    "Alias": (
        "`*name`, which the profile has not", "`confstorectl import --from yaml` expands them, or quote the text",
    ),
    "Anchor": (
        "`&name`, which the profile has not", "`confstorectl import --from yaml` expands them, or quote the text",
    ),
    "Tag": ("`!name`, which the profile has not", "`confstorectl import --from yaml` drops them, or quote the text"),
    "Directive": ("a `%` line that is not `%YAML 1.1` or `1.2` before a `---`", "take it out, or quote the value"),
    "OmittedKey": ("a value without a key", 'write a key, or `""`'),
    "ByteOrderMark": ("a byte order mark that is not the first character", "take it out"),
    "Character": ("a control character, or another that is not allowed", "escape it in double quotes"),
    "Escape": ("a `\\` in double quotes before what is no escape", "write `\\\\`, or use single quotes"),
    "Indent": ("a line with too few or too many spaces, or a TAB before it", "indent it as its neighbours"),
    "Quote": ("a quote is not closed", "close it"),
    "Flow": ("a bracket is not closed, or an entry in it is malformed", "close it, or put a comma"),
    "Key": (
        "a key of over 1,024 characters, over lines, or the second on its line",
        "write `? ` before it, or a line of its own",
    ),
    "BlockHeader": (
        "what is after a `|` or `>` is no header", "only a digit, `+` or `-`, and a comment may be there",
    ),
    "Marker": (
        "`---` or `...` at the start of a line inside a value", "indent it, or close the quote or bracket above it",
    ),
    "Other": ("none of these", "compare the place with the line above"),
}  # fmt: skip

# Of `Documents` at the start of a text: what it says, and what to do.
NO_DOCUMENT = ("the text has no document", "write one: `{}` is an empty mapping")

# Why a session ended: the name, what it says, and what to do.
ENDS: Dict[str, Tuple[str, str]] = {
    "NotAStore": (
        "`store.yaml` does not begin with a base, or is too long",
        "choose another folder",
    ),
    "Damaged": (
        "a piece after the base is no record, or has the wrong number",
        "`confstore verify` says where, and `confstore salvage` saves what comes before",
    ),
    "SessionLong": ("a command of a session, or its input, is too long", "send less at once"),
    "StoreExists": ("there is a `store.yaml` where a new store is to be", "use it, or choose another folder"),
    "NoSuchCommand": (
        "the store has no such command: it is beyond the last one, or a checkpoint dropped it",
        "`confstore verify` says which are there: `base` to `base` + `commands`",
    ),
    "OutOfMemory": ("memory ran out; the command in hand changed nothing", "free memory, and run the task again"),
    "Device": (
        "a call of the system failed, as where the folder can't be written or the device is full",
        "mend that, and run the task again: it looks first what is there",
    ),
    "Locked": ("another run holds the folder", "end it, set a longer `wait`, or give the `socket` of its server"),
    "Input": ("the program could not read its commands", "run the task again: it looks first what is there"),
    "Output": ("the program could not write", "run the task again: it looks first what is there"),
}

# What a task meets beside the program's faults.
OTHERS: Dict[str, Tuple[str, str]] = {
    "MissingFolder": ("there is no such folder", "make it, or set `create`"),
    "MissingProgram": ("there is no program `confstore` that may be run", "install it, or name it by `program`"),
    "MissingFile": ("the file of a text can't be read", "put it on the host, or correct `src`"),
    "TimedOut": ("no answer came in time", "run the task again: it looks first what is there"),
    "Disconnected": ("the server of the socket can't be reached, or closed the connection", "start it, and run again"),
    "Replaced": ("another store stands in the place of the one that the server held", "start the server again"),
    "AnswerCut": ("the session ended in the middle of an answer", "run the task again: it looks first what is there"),
    "BadAnswer": ("what came is no answer of a session", "look whether the program or the server is confstore's"),
    "NotATree": ("a tree has texts, lists and mappings alone", "write it in quotes"),
    "NotText": ("a text with a lone surrogate can't be written", "take it out"),
    "UnusablePath": ("the path can't be used", "correct it"),
    "NotStarted": ("the system did not start the program", "free what it lacks, and run the task again"),
    "TooLongToSend": ("the edits are longer than a command may be", "make two tasks of them"),
    "AnswerLong": ("an answer is longer than a session's may be", "look whether the server is confstore's"),
    "Unsupported": ("the program is an old one", "install the one of this module's version"),
    "BadTask": ("the task's words contradict each other", "see `ansible-doc confstore.store.confstore`"),
    "SessionEnded": ("the session ended", "run the task again: it looks first what is there"),
    "Unknown": (
        "nobody says how the program ended, or the session was given up",
        "let SIGCHLD not be ignored, and run the task again: it looks first what is there",
    ),
}

_ALL = {**OTHERS, **ENDS, **REFUSALS}


class Place(NamedTuple):
    """Where a text was refused: its line, and its column in characters, both from 1, and the reason of a `Syntax`."""

    line: int
    column: int
    reason: str


class Fault(Exception):
    """What ends a task: the fault's name, what was refused, and where in a text that was."""

    def __init__(self, name: str, about: str = "", place: Optional[Place] = None) -> None:
        super().__init__(name, about, place)
        self.name = name
        self.about = about
        self.place = place

    def __str__(self) -> str:
        """What was refused, the fault's name, what it says, and what to do."""
        says, remedy = _ALL.get(self.name, ("the program said so", "compare with `docs/FAULTS.md`"))
        name = self.name
        if self.place is not None and self.place.reason:
            name = f"{name} {self.place.reason}"
            says, remedy = REASONS.get(self.place.reason, (says, remedy))
        elif self.name == "Documents" and self.place is not None and self.place[:2] == (1, 1):
            says, remedy = NO_DOCUMENT
        about = f"{self.about}: " if self.about else ""
        return f"{about}{name}: {says}. What to do: {remedy}."

    def result(self) -> Dict[str, Any]:
        """What a failed task has beside its message."""
        found: Dict[str, Any] = {"fault": self.name}
        if self.place is not None:
            found["place"] = self.place._asdict()
        return found
