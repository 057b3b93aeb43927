"""What `serve.py` does with the abouts of commands, which note who makes a change, when and why.

The server writes `by`, the user at the other end of the client's socket, and `when` itself: so no client can say
another's name. What else a client notes, as `why`, it keeps. It does so where a client's command has an about, and for
each change of a store that has or had one, as its file says.

Commands are bytes to this server, which reads no YAML. Where a store has no abouts, a command goes to the session as it
came, unless its bytes could spell the key `about`: as they stand, or by an escape. Only such commands are looked at.
Three spellings are known:

- JSON, as confstorectl sends it
- lines, where each key of the command begins a line and the about is a mapping in lines of its own, as the one style
  has it and the packages send it
- all others. The program writes them in the one style first (`confstore format`), which takes some milliseconds

What is none of these can't be a command with an about, and is answered by `refused: BadCommand`. So is a command that
would be too long with its about.
"""

from __future__ import annotations

import json
import os
import pwd
import re
import subprocess
import time
from typing import Any, NamedTuple, Optional, Union

from serve_watch import Store

LONGEST = 16_777_216  # bytes of a command
GROWTH = 8_388_608  # bytes by which a command may grow at most
PATIENCE = 10  # seconds that the program may take to write a command in the one style

# How the file of a store begins that has or had an about.
KEPT = re.compile(rb'(?:---\n)?store: "?confstore-3"?\n')

# The commands that may have an about.
CHANGES = frozenset(("import", "set", "delete", "batch"))
OWN = ("by", "when")  # keys that the server writes
OWN_BYTES = tuple(key.encode() for key in OWN)

CLOSING = b"...\n"

# What is sent in the place of a command that is none.
NO_COMMAND = b"---\nabout:\n...\n"

# A line that doesn't begin with a space, and one that begins with a key of a command.
LINE = re.compile(rb"(?m)^[^ \n].*$")
KEY = re.compile(rb"([a-z]+):(?: .*)?")

# A pair of an about in lines: its key, and what is behind it. The text of the key is seen at once in the first form. In
# the one style it is so, too, where it could be one of the server's own.
REST = rb":(?: .*)?\n(?:(?: {3}.*)?\n)*"
PLAIN_PAIR = re.compile(rb'  ([A-Za-z][A-Za-z0-9_./-]*|"[^"\\\n]*")%b' % REST)
STYLED_PAIR = re.compile(rb'  ([A-Za-z][A-Za-z0-9_./-]*|"(?:[^"\\\n]|\\.)*")%b' % REST)

# What has to be escaped in JSON, so that YAML takes it as it is.
ESCAPED = re.compile("[\x7f-\x9f\u2028\u2029\ufeff\ufffe\uffff]")

Piece = Union[bytes, bytearray]


class NotRead(Exception):
    """A command is not spelled in a way that is read here."""


class Lines(NamedTuple):
    """A command in lines: the names of its keys, and where the last of them begins, and its line ends."""

    keys: list[str]
    last: int
    last_end: int

    @property
    def is_change(self) -> bool:
        kind = self.keys[1:2] if self.keys[0] == "if" else self.keys[:1]
        return bool(kind) and kind[0] in CHANGES


def lines_of(piece: Piece) -> Lines:
    """The keys of a command that is written in lines. Raises `NotRead`."""
    if b"\r" in piece:
        raise NotRead
    keys: list[str] = []
    last = last_end = 0
    for found in LINE.finditer(piece):
        line = found[0]
        if (found.start() == 0 and line == b"---") or (found.end() == len(piece) - 1 and line == b"..."):
            continue
        key = KEY.fullmatch(line)
        if key is not None:
            keys.append(key[1].decode())
            last, last_end = found.start(), found.end() + 1
        elif not line.startswith((b"- ", b"#")):
            raise NotRead
    if not keys:
        raise NotRead  # all may stand further to the right
    return Lines(keys, last, last_end)


def kept_pairs(block: bytes, pair: re.Pattern[bytes]) -> bytes:
    """The pairs of an about in lines, without those that the server writes. Raises `NotRead`."""
    kept: list[bytes] = []
    keys: list[bytes] = []
    place = 0
    while place < len(block):
        found = pair.match(block, place)
        if found is None:
            raise NotRead
        keys.append(found[1].strip(b'"'))
        if keys[-1] not in OWN_BYTES:
            kept.append(found[0])
        place = found.end()
    if not keys or len(set(keys)) < len(keys):
        raise NotRead
    return b"".join(kept)


def json_text(value: Any) -> str:
    """A value as JSON that is YAML, too."""
    text = json.dumps(value, ensure_ascii=False)
    return ESCAPED.sub(lambda found: f"\\u{ord(found[0]):04x}", text)


def is_tree(value: Any) -> bool:
    if isinstance(value, dict):
        return all(map(is_tree, value.values()))
    return isinstance(value, str) or (isinstance(value, list) and all(map(is_tree, value)))


def mapping_of(pairs: list[tuple[str, Any]]) -> dict[str, Any]:
    """The pairs of a JSON object. Raises `ValueError` for a key that is there twice."""
    mapping = dict(pairs)
    if len(mapping) < len(pairs):
        raise ValueError
    return mapping


class Abouts:
    """Gives the commands of clients their abouts."""

    def __init__(self, program: str, store: Store) -> None:
        self.program = program
        self.store = store
        self.is_kept = False  # whether the store has or had an about
        self.is_due = False  # whether it may have its first one by now
        self.names: dict[int, str] = {}

    def look(self) -> None:
        """Looks at the start of the store's file."""
        file = self.store.opened()
        if file is not None:
            self.is_kept = KEPT.match(os.pread(file, 64, 0)) is not None
            os.close(file)

    def look_again(self, *, is_idle: bool) -> None:
        """Looks there after answers, until the session has answered all, or has put the first about there."""
        self.look()
        self.is_due = not self.is_kept and not is_idle

    def name_of(self, user: int) -> str:
        """The login name of a user, or the number where it has none."""
        if user not in self.names:
            try:
                self.names[user] = pwd.getpwuid(user).pw_name
            except KeyError:
                self.names[user] = str(user)
        return self.names[user]

    def own(self, user: int) -> dict[str, str]:
        """What the server notes of a change that a user makes now."""
        return {"by": self.name_of(user), "when": time.strftime("%Y-%m-%dT%H:%M:%SZ", time.gmtime())}

    def noted(self, piece: bytearray, user: int) -> bytearray:
        """The command that goes to the session for one of a user."""
        own = self.own(user)
        try:
            noted = self.noted_json(piece, own) if piece[:1] == b"{" else self.noted_lines(piece, own, PLAIN_PAIR)
        except (NotRead, ValueError, RecursionError):
            noted = self.noted_styled(piece, own)
        if len(noted) > LONGEST:
            return bytearray(NO_COMMAND)
        self.is_due = self.is_due or (noted is not piece and not self.is_kept)
        return noted

    def noted_json(self, piece: bytearray, own: dict[str, str]) -> bytearray:
        """The same of one in JSON. Raises `NotRead` or `ValueError`."""
        text = piece[: -len(CLOSING)].decode()
        command = json.loads(text, object_pairs_hook=mapping_of)
        if not isinstance(command, dict) or not is_tree(command):
            raise NotRead
        if next((key for key in command if key != "if"), "") not in CHANGES:
            return piece
        if "about" not in command:
            if not self.is_kept:
                return piece
            return bytearray(f'{text.rstrip()[:-1]}, "about": {json_text(own)}}}\n...\n'.encode())
        about = command["about"]
        if next(reversed(command)) != "about" or not isinstance(about, dict) or not about:
            return bytearray(NO_COMMAND)
        command["about"] = {**own, **{key: text for key, text in about.items() if key not in OWN}}
        return bytearray(f"{json_text(command)}\n...\n".encode())

    def noted_lines(self, piece: bytearray, own: dict[str, str], pair: re.Pattern[bytes]) -> bytearray:
        """The same of one in lines, whose about has such pairs. Raises `NotRead`."""
        lines = lines_of(piece)
        if not lines.is_change:
            return piece
        count = lines.keys.count("about")
        if not count and not self.is_kept:
            return piece
        if count > 1 or (count and lines.keys[-1] != "about"):
            return bytearray(NO_COMMAND)
        head, kept = piece[: -len(CLOSING)], b""
        if count:
            if piece[lines.last : lines.last_end] != b"about:\n":
                raise NotRead
            head, kept = piece[: lines.last], kept_pairs(bytes(piece[lines.last_end : -len(CLOSING)]), pair)
        mine = "".join(f"  {key}: {json_text(text)}\n" for key, text in own.items()).encode()
        return bytearray(b"%babout:\n%b%b%b" % (head, mine, kept, CLOSING))

    def noted_styled(self, piece: bytearray, own: dict[str, str]) -> bytearray:
        """The same of one in another spelling."""
        styled = self.styled(piece)
        if styled is None:
            return bytearray(NO_COMMAND)
        try:
            noted = self.noted_lines(styled, own, STYLED_PAIR)
        except NotRead:
            return bytearray(NO_COMMAND)
        return piece if noted is styled else noted

    def styled(self, piece: bytearray) -> Optional[bytearray]:
        """A command in the one style, or None where it has none."""
        try:
            done = subprocess.run(
                [self.program, "format", "-"], input=piece, stdout=subprocess.PIPE, stderr=subprocess.DEVNULL,
                timeout=PATIENCE, check=False,
            )  # fmt: skip
        except (OSError, subprocess.TimeoutExpired):
            return None
        return bytearray(b"---\n" + done.stdout + CLOSING) if done.returncode == 0 else None
