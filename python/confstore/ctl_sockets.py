"""What confstorectl asks through a socket: a server of a session, or a node of a replicated store.

A session takes YAML documents, and a node JSON, a line each. A command is sent as one line that is both, and the line
that closes a document. So whoever listens takes it, and the first byte of the answer says who that is. What a node says
of the closing line, which is no command for it, is not read.
"""

from __future__ import annotations

import errno
import os
import re
import socket
import time

from .ctl_faults import Fault, hint_of, shown, shown_line
from .ctl_places import NO_SERVER, Place
from .pieces import LONGEST_ANSWER, LONGEST_COMMAND, Cutter, simple_value

TYPE_CHECKING = False
if TYPE_CHECKING:
    from .style import Tree

Command = dict[str, "Tree"]

# How many seconds an answer is waited for, and how long it is between two tries to be taken where many others wait.
PATIENCE = 60.0
PAUSE = 0.05

PART = 1_048_576

# How many seconds a server may take to go once nothing more is asked.
PARTING = 1.0

# What is said of a server that says more than one answer.
_MORE = "more came than the answer; a change was made or not: look"

# The longest path that a socket may have.
LONGEST_PATH = 107

# What JSON and YAML both have to have escaped, or what a reader of the one might not take as the other does.
_ESCAPED = re.compile("[\x80-\x9f\u2028\u2029\ufeff\ufffe\uffff]")
_KEY = re.compile(rb"---\n([a-z]+):")

# A pair of a mapping in JSON.
_PAIR = '"%s": "%s"'

# The start of a line of a document that is not under the key of its first line.
_BESIDE = re.compile(rb"(?m)^(?!  |$)")

# The name by which a server binds its socket: the device and the inode of its store's folder.
_STORE = re.compile(r"store-([0-9]+)-([0-9]+)")

# The key of the answer to a command, by the command's key. To all others it is `ok`, with a number.
_ANSWERS = {"get": "value", "export": "text", "names": "names"}
_NUMBER = re.compile("0|[1-9][0-9]*")

# What a replicated node takes for no command, and why.
NOT_BY_NODES = {
    "checkpoint": "a replicated node makes its checkpoints itself",
    "watch": "a replicated node tells no changes: watch its folder",
}


class Reply:
    """An answer: its one key, and what is under it. `about` is what a server says of a refusal by its check."""

    def __init__(self, key: str) -> None:
        self.key = key
        self.about = ""

    def tree(self) -> Tree:
        """What is under the key."""
        raise NotImplementedError

    def styled(self) -> bytes:
        """The text in the one style of what is under the key."""
        from .faults import ConfstoreError
        from .style import to_text

        try:
            return to_text(self.tree()).encode()
        except ConfstoreError as error:
            raise Fault("BadAnswer", f"the answer has no tree: {shown(str(error))}") from None


class SessionReply(Reply):
    """An answer of a session. Its text is in the one style, and so is each part of it."""

    def __init__(self, piece: bytes) -> None:
        found = _KEY.match(piece)
        if found is None or not piece.endswith(b"\n...\n"):
            raise Fault("BadAnswer", "the server's answer is no document of a session")
        super().__init__(found[1].decode())
        self._piece, self._rest = piece, piece[found.end() : -len(b"...\n")]
        if self._rest[:1] not in (b" ", b"\n") or _BESIDE.search(self._rest, self._rest.index(b"\n") + 1):
            raise Fault("BadAnswer", "the server's answer has other keys than one")
        if not self._rest.strip():
            raise Fault("BadAnswer", "the server's answer has nothing under its key")

    def tree(self) -> Tree:
        if (value := simple_value(self._rest)) is not None:
            return list(value) if isinstance(value, list) else value
        from .trees import NO_TREES, trees_of

        try:
            (tree,) = trees_of(self._piece)
        except NO_TREES:
            raise Fault("BadAnswer", "the server's answer is no YAML") from None
        if not isinstance(tree, dict) or tuple(tree) != (self.key,):
            raise Fault("BadAnswer", "the server's answer has other keys than one")
        return tree[self.key]

    def styled(self) -> bytes:
        if self._rest.startswith(b" "):
            return self._rest[1:]
        return re.sub(rb"(?m)^  ", b"", self._rest[1:])


class NodeReply(Reply):
    """An answer of a node."""

    def __init__(self, line: bytes) -> None:
        import json  # which a session does not speak

        try:
            answer = json.loads(line)
        except (ValueError, RecursionError):
            answer = None
        if not isinstance(answer, dict) or len(answer) != 1:
            raise Fault("BadAnswer", "the node's answer is no JSON object with one key")
        (key,) = answer
        self._tree: Tree = answer[key]
        super().__init__(key)

    def tree(self) -> Tree:
        return self._tree


def line_of(command: Command) -> bytes:
    """A command as a line of JSON that is YAML too."""
    if all(_is_plain(value) for value in command.values()):
        return f"{{{', '.join([_PAIR % pair for pair in command.items()])}}}\n".encode()
    import json  # for what has to be escaped, or is no text

    line = json.dumps(command, ensure_ascii=False, separators=(", ", ": "))
    return _ESCAPED.sub(lambda found: f"\\u{ord(found.group()):04x}", line).encode() + b"\n"


def _is_plain(tree: Tree) -> bool:
    """Whether this is a text that stands in double quotes as it is."""
    return isinstance(tree, str) and tree.isascii() and tree.isprintable() and '"' not in tree and "\\" not in tree


class Connection:
    """A connection to whoever listens at a socket."""

    def __init__(self, place: Place) -> None:
        self._path = place.path
        self._socket = socket.socket(socket.AF_UNIX)
        self._socket.settimeout(PATIENCE)
        self._heard = bytearray()
        self._cutter = Cutter()
        self._count = 0  # of the bytes of the answer
        self._is_node = False
        try:
            self._connect()
            self._need_store(place)
        except OSError as error:
            self._socket.close()
            raise self._refused(error) from None
        except Fault:
            self._socket.close()
            raise

    def _refused(self, error: OSError) -> Fault:
        about = f"no server takes clients at {shown(self._path)}: {error.strerror or error}"
        if error.errno in (errno.EACCES, errno.EPERM):
            return Fault(NO_SERVER, f"{about}: those may connect who may write in the store's folder", True)
        return Fault(NO_SERVER, f"{about}: start one", error.errno in (errno.ECONNREFUSED, errno.ENOENT))

    def _connect(self) -> None:
        """Connects, and waits where as many others do as may wait."""
        deadline = time.monotonic() + PATIENCE
        while True:
            try:
                self._connect_once()
                return
            except BlockingIOError:
                if time.monotonic() > deadline:
                    raise
            time.sleep(PAUSE)

    def _connect_once(self) -> None:
        if len(os.fsencode(self._path)) <= LONGEST_PATH:
            self._socket.connect(self._path)
            return
        folder, name = os.path.split(self._path)
        above = os.open(folder, os.O_PATH | os.O_DIRECTORY)
        try:
            self._socket.connect(f"/proc/self/fd/{above}/{name}")
        finally:
            os.close(above)

    def _need_store(self, place: Place) -> None:
        """Raises a `Fault` where the server has to have one store, and has another one. The system gives
        a connection the name by which the server has bound the socket, through whatever link it was reached."""
        if place.folder is None:
            return
        about = "name the server of this store with --socket"
        if not place.is_given:
            about = f"remove {shown(place.path)}, or name the server with --socket"
        found = _STORE.fullmatch(os.path.basename(os.fsdecode(self._socket.getpeername())))
        if found is None:
            if os.path.islink(place.path):
                raise Fault("OtherStore", f"the server to which a link leads does not say which store it has: {about}")
        elif _identity_of(place.folder) not in (None, (int(found[1]), int(found[2]))):
            raise Fault("OtherStore", f"the server has another store than {shown(place.folder)}: {about}")

    def close(self) -> None:
        self._socket.close()

    def __enter__(self) -> "Connection":
        return self

    def __exit__(self, *_: object) -> None:
        self.close()

    def send(self, command: Command) -> None:
        """Sends a command, whose answers are taken by `pieces_within`."""
        try:
            self._socket.sendall(line_of(command) + b"...\n")
        except OSError as error:
            raise self._cut_off(error.strerror or str(error)) from None

    def pieces_within(self, seconds: float) -> list[bytes]:
        """The documents that have come, after so many seconds at most. Raises a `Fault` where none can come."""
        from select import POLLIN

        from .children import await_event

        if not await_event(self._socket.fileno(), POLLIN, seconds):
            return []
        try:
            part = self._socket.recv(PART)
        except OSError as error:
            raise self._cut_off(error.strerror or str(error)) from None
        if not part:
            raise self._cut_off("it closed the connection")
        pieces = self._cutter.cut(part)
        if self._cutter.rest[:1] == b"{":
            raise Fault("Unsupported", NOT_BY_NODES["watch"])
        if len(self._cutter.rest) > LONGEST_ANSWER:
            raise Fault("BadAnswer", f"a document has more than {LONGEST_ANSWER} bytes")
        return pieces

    def ask(self, command: Command) -> Reply:
        """The answer to a command. Raises a `Fault` where none comes."""
        line = line_of(command)
        if len(line) + len(b"...\n") > LONGEST_COMMAND:
            raise Fault("TooLong", "the command is longer than a session takes")
        reply = self._answer_to(line + b"...\n")
        if isinstance(reply, SessionReply) and (reply.key, reply.styled()) == ("refused", b"BadCommand\n"):
            from .style import document

            reply = self._answer_to(document(command))  # as where a key is too long to stand in one line
        if isinstance(reply, SessionReply) and (reply.key, reply.styled()) == ("refused", b"CheckFailed\n"):
            reply.about = self._said_by_check()
        return reply

    def _said_by_check(self) -> str:
        """What the server's check said of the change that it has just refused; nothing where the server does not say
        it."""
        try:
            said = self._answer_to(line_of({"check": ""}) + b"...\n")
            text = said.tree() if said.key == "text" else ""
        except Fault:
            return ""
        return text.removesuffix("\n") if isinstance(text, str) else ""

    def finish(self) -> None:
        """Ends what is asked. Raises a `Fault` where a session says more than was asked."""
        if self._is_node:
            return
        try:
            self._socket.shutdown(socket.SHUT_WR)
            self._socket.settimeout(PARTING)
            more = self._socket.recv(PART)
        except OSError:
            return  # it goes without a word, or stays and is silent
        if more:
            raise Fault("BadAnswer", _MORE)

    def _answer_to(self, sent: bytes) -> SessionReply | NodeReply:
        self._count = 0
        try:
            try:
                self._socket.sendall(sent)
            except (BrokenPipeError, ConnectionResetError):
                pass  # what it said before it went is read
            if not self._heard:
                self._hear()
            self._is_node = self._heard[:1] == b"{"
            return NodeReply(self._line()) if self._is_node else SessionReply(self._piece())
        except socket.timeout:
            about = f"no answer within {PATIENCE:g} seconds; a change was made or not, or will be: look"
            raise Fault("TimedOut", about) from None
        except OSError as error:
            raise self._cut_off(error.strerror or str(error)) from None

    def _cut_off(self, why: str) -> Fault:
        about = f"the server at {shown(self._path)} ended, or cut this client off ({why})"
        return Fault(NO_SERVER, f"{about}; a change was made or not: look")

    def _hear(self) -> None:
        part = self._socket.recv(PART)
        if not part:
            raise self._cut_off("it closed the connection")
        self._heard += part
        self._count += len(part)
        if self._count > LONGEST_ANSWER:
            raise Fault("BadAnswer", f"the answer has more than {LONGEST_ANSWER} bytes")

    def _line(self) -> bytes:
        looked = 0
        while (found := self._heard.find(b"\n", looked)) < 0:
            looked = len(self._heard)
            self._hear()
        line = bytes(self._heard[: found + 1])
        del self._heard[: found + 1]
        return line

    def _piece(self) -> bytes:
        cutter = Cutter()
        pieces: list[bytes] = []
        while not pieces:
            heard, self._heard = bytes(self._heard), bytearray()
            pieces = cutter.cut(heard)
            if not pieces:
                self._hear()
        if len(pieces) > 1 or cutter.rest:
            raise Fault("BadAnswer", _MORE)
        return pieces[0]


def _identity_of(folder: str) -> tuple[int, int] | None:
    """The device and the inode of a folder, none of which one has that is not there; or None if that may not be said."""
    try:
        found = os.stat(folder)
    except PermissionError:
        return None
    except OSError:
        return -1, -1
    return found.st_dev, found.st_ino


def answer_of(reply: Reply, command: Command, program: str | None) -> Reply:
    """The answer to a command, which was not refused. Raises the `Fault` of one that was, or that failed, or that is no
    answer to this command.

    The program says where a text was refused.
    """
    if reply.key == "refused":
        raise _refusal_of(reply, command, program)
    if reply.key == "failed" and isinstance(reply, NodeReply):
        about = "the node could not do it; a change may be in its log or not: look, or ask another node"
        raise Fault(shown(f"Failed {reply.tree()}"), about)
    word = next(key for key in command if key != "if")
    if word in _ANSWERS and reply.key != _ANSWERS[word]:
        raise Fault("BadAnswer", f"`{word}` was answered by `{shown(reply.key)}`")
    if word not in _ANSWERS and not (reply.key == "ok" and _is_number(reply.tree())):
        raise Fault("BadAnswer", f"`{word}` was not answered by `ok` and a number; a change was made or not: look")
    return reply


def _is_number(tree: Tree) -> bool:
    return isinstance(tree, str) and _NUMBER.fullmatch(tree) is not None


def _refusal_of(reply: Reply, command: Command, program: str | None) -> Fault:
    """The fault of a command that was refused."""
    from .commands import refused
    from .ctl_faults import fault_of
    from .faults import ConfstoreError

    word = reply.tree()
    if not isinstance(word, str):
        raise Fault("BadAnswer", "a refusal has no name")
    if isinstance(reply, NodeReply):
        for key, about in NOT_BY_NODES.items():
            if word == "BadCommand" and key in command:
                return Fault("Unsupported", about)
        if word == "NotText":
            return Fault(word, "a text has a lone surrogate")
    if reply.about:
        return Fault(shown(word), "\n".join(map(shown_line, reply.about.split("\n"))))
    if word == "BadCommand" and "about" in command:
        about = "the program or the server may be one that takes no abouts: leave out --about and CONFSTORE_ABOUT"
        return Fault(word, about if "batch" not in command else f"{hint_of(word)}; {about}")
    if word == "BadCommand" and "if" in command:
        return Fault(word, "the server takes no such command; its program may be one without conditions")
    try:
        fault = fault_of(refused(word, command, program))
    except ConfstoreError as error:
        return fault_of(error)
    if "batch" in command and fault.kind == "Syntax":
        fault.about = "this is the place in a text that an edit imports"
    return fault
