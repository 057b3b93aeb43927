"""Entries of the log: what a client asks to be changed, and the batches that perform an entry on a store.

A command is a JSON object, `{"edits": [..]}`, with the key `if` before that where it has conditions, and the key
`about` behind it where it notes who makes the change, when and why. Each edit and each condition is an object of
strings, in the form that it has for a session, but that a value may be a tree: a string, a list of trees, or an object
of trees. An entry is a command with one more key, `nonce`, which no two requests to etcd have in common. Its number is
the revision of etcd that made it, so later entries have greater numbers.

A store keeps the number of the last entry that it performed under a name of its own, with a mark (`history.py`). The
batch of an entry takes out the number of the entry before it, makes the entry's edits, and puts its own number, all or
nothing. So a store takes no entry twice, and none before its turn: the batch would be refused. An entry that is refused
has its number put alone.

The conditions of an entry stand before its batch, so each store judges them on what the entries before it have made.
No node judges them elsewhere, and none that doesn't hold is anything else than a refusal, by `Unmet`.
"""

from __future__ import annotations

import hashlib
import json
import re
import secrets
from typing import Any, Dict, List, Mapping, NamedTuple, Sequence, Tuple, Union

from confstore import ConfstoreError, NotATree, NotText, TooDeep, document
from confstore.abouts import ABOUT, BY, WHEN, NotAbout, check, is_about
from confstore.session import LONGEST_COMMAND

# The name under which each store keeps the number of the last entry that it performed. No command may touch it.
RESERVED = "replication"

# The most bytes of a command. etcd takes 1.5 MB in one request.
LONGEST = 1_000_000

# How deep a value is looked at. A store keeps less.
DEEPEST = 150

# What an older version has put with a number, in the place of a mark. All marks are as long, so that no answer depends
# on which version has put it. A store that is full to its last bytes keeps less, where its count gets a digit more.
NO_MARK = "spare-room-for-the-count"
MARK_LENGTH = len(NO_MARK)

_NONCE = re.compile(rb',"nonce":"[0-9a-f]{32}"}\Z')

KEYS = (("import", "text"), ("set", "path", "value"), ("delete", "path"))
CONDITION_KEYS = (("test", "path", "value"), ("absent", "path"), ("absent",), ("count",))

# The keys of an entry, with conditions and an about, and without. One of an older version has no nonce.
ENTRY_KEYS = (
    ("edits", "nonce"), ("edits",), ("if", "edits", "nonce"), ("edits", "about", "nonce"),
    ("if", "edits", "about", "nonce"),
)  # fmt: skip

Tree = Union[str, List["Tree"], Dict[str, "Tree"]]
Edit = Dict[str, Tree]
Condition = Dict[str, Tree]
Command = Dict[str, Tree]


class Change(NamedTuple):
    """What a command changes: its edits, the conditions under which it makes them, and what it notes of itself."""

    edits: List[Edit]
    conditions: Sequence[Condition] = ()
    about: Mapping[str, str] = {}


class Refused(Exception):
    """The command is refused by a word, and is not in the log."""

    def __init__(self, word: str) -> None:
        super().__init__(word)
        self.word = word


def _is_tree(value: Any, depth: int = 0) -> bool:
    if depth > DEEPEST:
        raise Refused("TooDeep")
    if isinstance(value, str):
        return True
    if isinstance(value, dict):
        value = list(value.values())
    return isinstance(value, list) and all(_is_tree(item, depth + 1) for item in value)


def _is_one_of(item: Any, keys: Tuple[Tuple[str, ...], ...]) -> bool:
    """Whether something is an edit, or a condition: it has these keys, and texts under all but `value`."""
    if not isinstance(item, dict) or tuple(item) not in keys:
        return False
    *texts, last = item.values()
    if not all(isinstance(text, str) for text in texts):
        return False
    return _is_tree(last) if "value" in item else isinstance(last, str)


def _are_of(items: Any, keys: Tuple[Tuple[str, ...], ...]) -> bool:
    return isinstance(items, list) and all(_is_one_of(item, keys) for item in items)


def _about_in(command: Dict[str, Any]) -> Dict[str, str]:
    """What a command notes of itself, under its last key. Raises `Refused`."""
    if ABOUT not in command:
        return {}
    about = command[ABOUT]
    if next(reversed(command)) != ABOUT or not is_about(about):
        raise Refused("BadCommand")
    try:
        check(about)
    except NotAbout as fault:
        raise Refused(fault.name) from None
    return dict(about)


def change_of(command: Any) -> Change:
    """What a client's command changes: an edit, or `{"batch": [..]}`, with `if` before it where it has conditions, and
    `about` behind it where it notes something of itself. Raises `Refused`.

    A batch without edits is refused, but where it has conditions: then its entry says whether they hold.
    """
    if not isinstance(command, dict):
        raise Refused("BadCommand")
    about = _about_in(command)
    command = {key: value for key, value in command.items() if key != ABOUT}
    conditions: Any = ()
    if next(iter(command), None) == "if":
        conditions = command["if"]
        if not conditions or not _are_of(conditions, CONDITION_KEYS):
            raise Refused("BadCommand")
        command = {key: value for key, value in command.items() if key != "if"}
    edits = command["batch"] if tuple(command) == ("batch",) else [command]
    if not _are_of(edits, KEYS):
        raise Refused("BadCommand")
    if not edits and not conditions:
        raise Refused("EmptyBatch")
    if any(next(iter(item.values())) == RESERVED for item in (*edits, *conditions) if "count" not in item):
        raise Refused("BadName")
    return Change(edits, conditions, about)


def command_of(change: Change) -> bytes:
    """The bytes of a command. Raises `Refused` if it, or its batch, is too long, or has a text that YAML can't hold."""
    before = {"if": list(change.conditions)} if change.conditions else {}
    behind = {ABOUT: dict(change.about)} if change.about else {}
    try:
        text = json.dumps({**before, "edits": change.edits, **behind}, ensure_ascii=False, separators=(",", ":"))
        command = text.encode("utf-8", "strict")
        batch = document(batch_of(change, 1, 1, NO_MARK))
    except (NotText, UnicodeEncodeError):
        raise Refused("NotText") from None
    except NotATree:
        raise Refused("BadCommand") from None
    except TooDeep:
        raise Refused("TooDeep") from None
    if len(command) > LONGEST or len(batch) > LONGEST_COMMAND:
        raise Refused("TooLong")
    return command


def digest_of(change: Change, command: bytes) -> bytes:
    """What etcd keeps of a command with its name, of which these are the bytes: nothing of who has sent it, and when,
    which a node notes anew where it is sent again."""
    if change.about:
        command = command_of(change._replace(about={k: t for k, t in change.about.items() if k not in (BY, WHEN)}))
    return hashlib.sha256(command).digest()


def entry_of(command: bytes) -> bytes:
    """The bytes of an entry: a command with a new nonce."""
    return command[:-1] + b',"nonce":"' + secrets.token_hex(16).encode() + b'"}'


def has_nonce(entry: bytes) -> bool:
    """Whether an entry has a nonce. Those of an older version have none."""
    return _NONCE.search(entry) is not None


def change_in(entry: bytes) -> Tuple[Change, bytes]:
    """What an entry that stands in the log changes, and its command. Raises `Refused` for what no node puts there, and
    `ConfstoreError` for an entry with keys that this version doesn't know: it must not perform less than it says."""
    try:
        told = json.loads(entry)
        keys, edits, conditions = tuple(told), told["edits"], told.get("if")
        about = {key: told[key] for key in keys if key == ABOUT}
    except (ValueError, KeyError, TypeError, AttributeError, RecursionError):
        raise Refused("BadCommand") from None
    if keys not in ENTRY_KEYS:
        raise ConfstoreError(
            f"an entry of the log has the keys {json.dumps(keys)[:200]}, which this version of confstore_replicated "
            "does not know: end this node, and start the version that the other nodes have"
        )
    before: Dict[str, Any] = {} if conditions is None else {"if": conditions}
    change = change_of({**before, "batch": edits, **about})
    return change, command_of(change)


def _path_of(number: int) -> str:
    return f"/{number:020}"


def _without(before: int) -> Edit:
    """Takes out the number of the entry before; there is none before the first, whose number comes under a new name."""
    if before == 0:
        return {"import": RESERVED, "text": "{}\n"}
    return {"delete": RESERVED, "path": _path_of(before)}


def marked(edits: Sequence[Edit], number: int, before: int, mark: str) -> List[Edit]:
    """The edits of an entry with this number and mark, on a store whose last entry has the number `before`, or 0
    without one."""
    return [_without(before), *edits, {"set": RESERVED, "path": _path_of(number), "value": mark}]


def batch_of(change: Change, number: int, before: int, mark: str) -> Command:
    """The command of a session by which an entry is performed. Of one without edits it is refused in any case."""
    edits = marked(change.edits, number, before, mark) if change.edits else []
    conditions: Command = {"if": list(change.conditions)} if change.conditions else {}
    texts: Dict[str, Tree] = dict(change.about)
    about: Command = {ABOUT: texts} if texts else {}
    return {**conditions, "batch": list(edits), **about}


def refusal_of(word: str, number: int, before: int, mark: str) -> Command:
    """The command that puts the number of a refused entry alone. Its record has the word; the state has not."""
    told: Edit = {"set": RESERVED, "path": _path_of(number), "value": word}
    return batch_of(Change([told]), number, before, mark)


def number_in(tree: Tree) -> Tuple[int, str]:
    """The number that a store holds under `RESERVED`, and its mark. Raises `ConfstoreError` if something else is there.
    """
    if isinstance(tree, dict) and len(tree) == 1:
        ((key, mark),) = tree.items()
        if len(key) == 20 and key.isdecimal() and key.isascii() and isinstance(mark, str):
            return int(key), mark
    raise ConfstoreError(f"the configuration {RESERVED} of this store is not that of a replicated one")
