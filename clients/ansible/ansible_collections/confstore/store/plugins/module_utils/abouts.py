"""Who makes a change, when and why: the abouts of commands, by the rules of docs/SESSION.md. The Ansible collection has
a copy of this file, since a host may not have this package. `checks/names.py` compares the two.

An about is a mapping of texts, which stands as the last key of a command that changes a store, and of its record. It
changes no state and no answer. The usual keys are `by`, `when` and `why`.

A store that has or had an about says so in the first line of its file. Who changes such a store adds `by` and `when`
without being asked, since a team that notes them wants all of them. In any other store nothing is added unless somebody
asks for it: the first about makes it one that older programs refuse.
"""

from __future__ import annotations

import os

TYPE_CHECKING = False  # `typing` takes as long to import as a word of confstorectl
if TYPE_CHECKING:
    from collections.abc import Mapping
    from typing import Optional

    from .written import Tree

    # What is given for an about: None in the place of a text leaves a key out.
    Given = Mapping[str, Optional[str]]

ABOUT = "about"
BY, WHEN, WHY = "by", "when", "why"

# The keys that are shown of an about, in this order.
SHOWN = (BY, WHEN, WHY)

# What an about may have: so many keys, so many characters in each, and so many bytes in the one style.
MOST_KEYS = 16
LONGEST_KEY = 64
LONGEST = 4_096

# What the environment gives for abouts: `KEY=TEXT`, a line each.
VARIABLE = "CONFSTORE_ABOUT"

# How the file of a store begins that has or had an about.
_STARTS = tuple(b"%bstore: %bconfstore-3%b\n" % (head, sign, sign) for head in (b"---\n", b"") for sign in (b"", b'"'))
_LONGEST_START = max(map(len, _STARTS))

# The keys of the commands that change something, and may have an about.
CHANGES = frozenset(("import", "set", "delete", "batch"))


class NotAbout(Exception):
    """Why there is no such about: the name of the fault, and a sentence on it."""

    def __init__(self, name: str, why: str) -> None:
        super().__init__(name, why)
        self.name, self.why = name, why


def keeps_abouts(folder: str) -> bool:
    """Whether the store in a folder has or had an about, by how its file begins."""
    try:
        opened = os.open(os.path.join(folder, "store.yaml"), os.O_RDONLY | os.O_NONBLOCK | os.O_NOFOLLOW | os.O_CLOEXEC)
    except OSError:
        return False
    try:
        return os.read(opened, _LONGEST_START).startswith(_STARTS)
    except OSError:
        return False
    finally:
        os.close(opened)


def user_name(user: int | None = None) -> str:
    """The login name of a user, or else of who runs this process; the number of the user where it has none."""
    import pwd

    number = os.getuid() if user is None else user
    try:
        return pwd.getpwuid(number).pw_name
    except KeyError:
        return str(number)


def time_now() -> str:
    """The time, in UTC and to the second (RFC 3339)."""
    import time

    return time.strftime("%Y-%m-%dT%H:%M:%SZ", time.gmtime())


def pair_of(text: str) -> tuple[str, str]:
    """The key and the text of `KEY=TEXT`. Raises `NotAbout`."""
    key, mark, value = text.partition("=")
    if not key or not mark:
        raise NotAbout("BadCommand", f"an about is given as KEY=TEXT, and not as {text[:LONGEST_KEY]!r}")
    return key, value


def from_environment() -> dict[str, str] | None:
    """What the environment gives for abouts, or None where that is nothing. Raises `NotAbout`."""
    lines = [line for line in os.environ.get(VARIABLE, "").split("\n") if line]
    try:
        return dict(map(pair_of, lines)) if lines else None
    except NotAbout as fault:
        raise NotAbout(fault.name, f"{VARIABLE}: {fault.why}") from None


def joined(*given: Given | None) -> Given | None:
    """What several give for an about: of one key what the last one says. None where nobody asks for an about."""
    asked = [pairs for pairs in given if pairs is not None]
    if not asked:
        return None
    both: dict[str, str | None] = {}
    for pairs in asked:
        both.update(pairs)
    return both


def filled(given: Given | None, is_kept: bool) -> dict[str, str]:
    """The about of a change, with who makes it and when, unless that is given or left out. It is empty where nobody
    asks for one, and the store does not keep them. Raises `NotAbout`."""
    if given is None and not is_kept:
        return {}
    pairs: dict[str, str | None] = dict(given or {})
    if WHEN not in pairs:
        pairs = {WHEN: time_now(), **pairs}
    if BY not in pairs:
        pairs = {BY: user_name(), **pairs}
    about = {key: text for key, text in pairs.items() if text is not None}
    check(about)
    return about


def check(about: Mapping[str, str]) -> None:
    """Raises `NotAbout` for a mapping that a store would not take as an about, but for one that is empty."""
    for key, text in about.items():
        if not isinstance(key, str) or not isinstance(text, str):
            kind = type(text if isinstance(key, str) else key).__name__
            raise NotAbout("NotATree", f"an about is a mapping of texts, and has no {kind}")
        if not key:
            raise NotAbout("BadCommand", "an about has an empty key: give it a name")
        if len(key) > LONGEST_KEY:
            raise NotAbout("AboutLarge", f"the key {key[:8]!r}.. of an about has more than {LONGEST_KEY} characters")
    if len(about) > MOST_KEYS:
        raise NotAbout("AboutLarge", f"an about has at most {MOST_KEYS} keys, and this one has {len(about)}")
    length = _length_of(about)
    if length > LONGEST:
        raise NotAbout("AboutLarge", f"an about has at most {LONGEST:,} bytes, and this one has {length:,}")


def _length_of(about: Mapping[str, str]) -> int:
    """How many bytes an about has in the one style."""
    from .written import NotWritten, written

    tree: dict[str, Tree] = dict(about)
    try:
        return len(written(tree).encode())
    except NotWritten as fault:
        raise NotAbout(fault.name, f"an about: {fault.about}") from None


def with_about(command: Mapping[str, Tree], about: Mapping[str, str]) -> dict[str, Tree]:
    """A command with an about, if that has anything, and the command may have one."""
    if not about or not is_change(command):
        return dict(command)
    tree: dict[str, Tree] = dict(about)
    return {**command, ABOUT: tree}


def is_change(command: Mapping[str, Tree]) -> bool:
    """Whether a command of a session may have an about."""
    return next((key for key in command if key != "if"), "") in CHANGES


def is_about(tree: object) -> bool:
    """Whether a tree is an about that a record may have."""
    if not isinstance(tree, dict) or not tree:
        return False
    return all(isinstance(key, str) and isinstance(text, str) for key, text in tree.items()) and "" not in tree


def words_of(about: Mapping[str, str], keys: tuple[str, ...] = SHOWN) -> str:
    """What is shown of an about in a line, before what the command does: each of these keys that is there, with its
    text in double quotes, and a space."""
    from .written import quoted

    def name(key: str) -> str:
        return key if key.isascii() and key.isidentifier() else quoted(key)

    return "".join(f"{name(key)} {quoted(about[key])} " for key in keys if key in about)
