"""Stores as tasks read and change them: a folder by the program, or the socket of a server.

The Python package `confstore` does it where it can be imported. Where it can't, a host needs the program alone.
"""

from __future__ import annotations

import os
import re
import shutil
import signal
import socket
import subprocess
import tempfile
import threading
from types import ModuleType
from typing import IO, Any, Dict, List, NamedTuple, Optional, Sequence

from ansible_collections.confstore.store.plugins.module_utils.abouts import (
    ABOUT,
    WHY,
    NotAbout,
    filled,
    from_environment,
    joined,
    keeps_abouts,
)
from ansible_collections.confstore.store.plugins.module_utils.edits import Edit
from ansible_collections.confstore.store.plugins.module_utils.faults import REFUSALS, Fault, Place
from ansible_collections.confstore.store.plugins.module_utils.grounds import Condition
from ansible_collections.confstore.store.plugins.module_utils.style import Tree, from_text, to_text

package: Optional[ModuleType]
try:
    import confstore

    _USED = (confstore.Store.about, confstore.Reader, confstore.Test)  # the package imports each once it is asked for
    package = confstore
except (ImportError, AttributeError):  # it is not installed, or PyYAML is not, or it is one without abouts
    package = None

CLOSING = b"...\n"

# How many bytes an answer may have.
LONGEST_ANSWER = 67_108_864

# How many characters of a task's name are noted.
LONGEST_NAME = 200

_FAULT = re.compile(r"(?m)^confstore: (\w+)")

# The line of a refused text of standard input: its place, if there is one, the fault's name, and a reason of `Syntax`.
_REFUSED = re.compile(r"(?m)^-:(?:([0-9]+):([0-9]+):)? (\w+)(?: (\w+))?")

# The names of the package, and of a session's end, where a task has another one.
_ENDS = {"CommandLong": "SessionLong", "InputFailed": "Input", "OutputFailed": "Output", "TooLong": "SessionLong"}


# What is given for an about: None in the place of a text leaves a key out.
Given = Dict[str, Optional[str]]


class Target(NamedTuple):
    """Where a store is, by a folder or by a socket; the program, and how many seconds an answer may take; and what the
    task gives for the about of its change, with the name of the task."""

    folder: Optional[str]
    socket: Optional[str]
    program: Optional[str]
    timeout: float
    about: Optional[Given] = None
    task: str = ""

    def given(self) -> Optional[Given]:
        """What is given for the about of a change. None where nobody asks for one, and the store does not keep them, as
        far as this is known: that of a socket's server is not. The task's name says why, unless something else does."""
        is_kept = self.folder is not None and keeps_abouts(self.folder)
        asked = joined(_checked(from_environment), self.about, {} if is_kept else None)
        return None if asked is None else {**({WHY: self.task[:LONGEST_NAME]} if self.task else {}), **asked}

    @property
    def where(self) -> str:
        return f"the store at {self.socket or self.folder}"

    def find_program(self) -> str:
        """The program's path: what the task names, or the environment's CONFSTORE, or `confstore` on the PATH."""
        wanted = self.program or os.environ.get("CONFSTORE") or "confstore"
        found = shutil.which(wanted)
        if found is None:
            raise Fault("MissingProgram", wanted)
        return found

    def has_store(self) -> bool:
        """Whether the folder has a store. Raises `Fault` for a folder that is missing."""
        assert self.folder is not None
        if not os.path.isdir(self.folder):
            raise Fault("MissingFolder", self.folder)
        return os.path.lexists(os.path.join(self.folder, "store.yaml"))


def _checked(call: Any, *words: Any) -> Any:
    """What a call of `abouts` returns. Raises `Fault` for what it raises."""
    try:
        return call(*words)
    except NotAbout as fault:
        raise Fault(fault.name, fault.why) from None


class Store:
    """A store that is read, and changed if it is held by a session."""

    def read(self, name: str) -> Optional[Tree]:
        """The configuration under a name, or None where there is none."""
        raise NotImplementedError

    def names(self) -> List[str]:
        """The names of the configurations, in order."""
        raise NotImplementedError

    def perform(self, edits: List[Edit], conditions: Sequence[Condition] = (), count: Optional[int] = None) -> int:
        """Makes all edits as one command, or none; also where a condition does not hold, or where the store has another
        count of commands, if one is given. Returns the command's number."""
        raise NotImplementedError

    def close(self) -> None:
        """Lets go of the store."""


class Empty(Store):
    """A folder that has no store yet."""

    def read(self, name: str) -> Optional[Tree]:
        return None

    def names(self) -> List[str]:
        return []


def reading(target: Target) -> Store:
    """A store that is only read. Of a folder this takes no lock, and changes nothing."""
    if target.socket is not None:
        return session(target)
    if not target.has_store():
        return Empty()
    return ByWords(target) if package is None else ByPackage(package.Reader, target.folder, target)


def session(target: Target) -> Store:
    """A store that is held by a session until it is closed, or shared by the server at a socket. It answers by then."""
    if package is None:
        return BySession(Connection(target) if target.socket is not None else Program(target), target).begun()
    if target.socket is not None:
        return ByPackage(package.Store.connect, target.socket, target, about=target.given())
    return ByPackage(package.Store, target.folder, target, about=target.given())


def make_store(target: Target) -> None:
    """Makes the folder with those above it, and an empty store in it, unless there is one."""
    if target.folder is None or os.path.lexists(os.path.join(target.folder, "store.yaml")):
        return
    try:
        _make_above(os.path.abspath(target.folder))
    except OSError as error:
        raise Fault("Device", f"{target.folder}: {error.strerror}") from None
    try:
        run_words(target, ["init", "--", target.folder])
    except Fault as fault:
        if fault.name != "StoreExists":  # another run has made it meanwhile
            raise


def _make_above(path: str) -> None:
    """Makes the folders above a path that are missing, and syncs their names."""
    folder = os.path.dirname(path)
    if os.path.isdir(folder):
        return
    _make_above(folder)
    os.makedirs(folder, exist_ok=True)
    around = os.open(os.path.dirname(folder), os.O_RDONLY | os.O_DIRECTORY)
    try:
        os.fsync(around)
    finally:
        os.close(around)


def need_statuses() -> None:
    """Raises `Fault` where the system does not tell this process how a program ended."""
    if signal.getsignal(signal.SIGCHLD) is signal.SIG_IGN:
        raise Fault("Unknown", "Ansible was started with SIGCHLD ignored")


def run_words(target: Target, words: List[str], given: bytes = b"") -> bytes:
    """What the program prints. Raises `Fault` for what it says instead."""
    need_statuses()
    program = target.find_program()
    try:
        done = subprocess.run(
            [program, *words], input=given, capture_output=True, timeout=target.timeout, check=False
        )
    except subprocess.TimeoutExpired:
        raise Fault("TimedOut", f"`confstore {words[0]}`") from None
    except OSError as error:
        raise Fault("MissingProgram", f"{program}: {error.strerror}") from None
    if done.returncode != 0:
        raise said(f"`confstore {words[0]}`", done.returncode, done.stderr)
    return done.stdout


def said(about: str, status: int, errors: bytes) -> Fault:
    """The fault of a program that has ended, by what it wrote to standard error."""
    text = errors.decode("utf-8", "replace")
    refused = _REFUSED.search(text)
    names = _FAULT.findall(text)
    if refused is not None and refused[3] in REFUSALS:
        place = Place(int(refused[1]), int(refused[2]), refused[4] or "") if refused[1] else None
        return Fault(refused[3], about, place)
    if not names or status == 2:
        return Fault("SessionEnded", f"{about} ended with status {status}: {text.strip()[:200]}")
    return Fault(names[-1], about)


def tree_of_text(target: Target, text: bytes, about: str) -> Tree:
    """The tree of a YAML text, as the program reads it. Raises `Fault` with the place where it is refused."""
    try:
        styled = run_words(target, ["format", "-"], text)
    except Fault as fault:
        if fault.place is None:
            raise Fault(fault.name, about) from None
        at = f"line {fault.place.line}, column {fault.place.column}"
        raise Fault(fault.name, f"{about}, at {at}", fault.place) from None
    return from_text(styled.decode())


class ByWords(Store):
    """Reads a folder by the words of the program."""

    def __init__(self, target: Target) -> None:
        assert target.folder is not None
        self._target, self._folder = target, target.folder

    def read(self, name: str) -> Optional[Tree]:
        try:
            printed = run_words(self._target, ["get", "--", self._folder, name])
        except Fault as fault:
            if fault.name == "NoConfig":
                return None
            raise Fault(fault.name, self._target.where) from None
        return from_text(printed.decode())

    def names(self) -> List[str]:
        return run_words(self._target, ["names", "--", self._folder]).decode().split()


class Program:
    """A session that the program holds on a folder, which is killed where it takes too long."""

    def __init__(self, target: Target) -> None:
        assert target.folder is not None
        need_statuses()
        self._target = target
        self._errors = tempfile.TemporaryFile()
        words = [target.find_program(), "run", "--", target.folder]
        try:
            self._process = subprocess.Popen(
                words, stdin=subprocess.PIPE, stdout=subprocess.PIPE, stderr=self._errors
            )
        except OSError as error:
            raise Fault("MissingProgram", f"{words[0]}: {error.strerror}") from None
        assert self._process.stdin is not None and self._process.stdout is not None
        self.commands: IO[bytes] = self._process.stdin
        self.answers: IO[bytes] = self._process.stdout
        self._is_late = threading.Event()
        self._timer = threading.Timer(target.timeout, self._give_up)
        self._timer.daemon = True
        self._timer.start()

    def _give_up(self) -> None:
        self._is_late.set()
        self._process.kill()

    def end(self) -> Fault:
        """Why there is no answer."""
        status = self._process.wait()
        if self._is_late.is_set():
            return Fault("TimedOut", self._target.where)
        self._errors.seek(0)
        fault = said(self._target.where, status, self._errors.read())
        return Fault(_ENDS.get(fault.name, fault.name), fault.about)

    def close(self) -> None:
        """Ends the session, and waits for its end."""
        try:
            self.commands.close()
        except OSError:
            pass  # the program is gone
        self._process.wait()
        self._timer.cancel()
        self.answers.close()
        self._errors.close()


class Connection:
    """A connection to the server of a session."""

    def __init__(self, target: Target) -> None:
        assert target.socket is not None
        self._target = target
        self._socket = socket.socket(socket.AF_UNIX)
        self._socket.settimeout(target.timeout)
        try:
            self._socket.connect(target.socket)
        except OSError as error:
            self._socket.close()
            raise Fault("Disconnected", f"{target.where}: {error.strerror or error}") from None
        self.commands: IO[bytes] = self._socket.makefile("wb")
        self.answers: IO[bytes] = self._socket.makefile("rb")

    def end(self) -> Fault:
        """Why there is no answer."""
        return Fault("Disconnected", self._target.where)

    def close(self) -> None:
        """Ends the connection."""
        self._socket.close()
        for end in (self.commands, self.answers):
            try:
                end.close()
            except OSError:
                pass  # the server is gone


class BySession(Store):
    """Reads and changes a store by the commands of a session."""

    def __init__(self, other: "Program | Connection", target: Target) -> None:
        self._other, self._target = other, target

    def begun(self) -> "BySession":
        """The same, once it has answered. Raises `Fault` for why it does not, and lets go of the store."""
        try:
            self.names()
        except Fault:
            self.close()
            raise
        return self

    def _answer(self) -> bytes:
        """The next answer, without its first and its last line."""
        lines: List[bytes] = []
        length = 0
        for line in self._other.answers:
            if line == CLOSING:
                return b"".join(lines[1:])
            lines.append(line)
            length += len(line)
            if length > LONGEST_ANSWER:
                raise Fault("BadAnswer", "an answer that is too long")
        raise Fault("AnswerCut", "the session") if lines else self._other.end()

    def _ask(self, command: Dict[str, Tree], key: str) -> Tree:
        """What a session answers under a key. Raises `Fault` for a refusal."""
        try:
            self._other.commands.write(b"---\n" + to_text(command).encode() + CLOSING)
            self._other.commands.flush()
            answer = from_text(self._answer().decode("utf-8", "replace"))
        except socket.timeout:
            raise Fault("TimedOut", _about(command)) from None
        except OSError:
            raise self._other.end() from None
        if isinstance(answer, dict) and key in answer:
            return answer[key]
        refused = answer.get("refused") if isinstance(answer, dict) else None
        raise Fault(refused if isinstance(refused, str) else "BadAnswer", _about(command))

    def read(self, name: str) -> Optional[Tree]:
        try:
            return self._ask({"get": name, "path": ""}, "value")
        except Fault as fault:
            if fault.name == "NoConfig":
                return None
            raise

    def names(self) -> List[str]:
        names = self._ask({"names": ""}, "names")
        return [str(name) for name in names]

    def perform(self, edits: List[Edit], conditions: Sequence[Condition] = (), count: Optional[int] = None) -> int:
        commands = [_command_of(edit) for edit in edits]
        wanted = [_tree_of(condition) for condition in conditions]
        if count is not None:
            wanted.append({"count": str(count)})
        command: Dict[str, Tree] = commands[0] if len(commands) == 1 and not wanted else {"batch": list(commands)}
        about: Dict[str, Tree] = dict(_checked(filled, self._target.given(), False))
        before: Dict[str, Tree] = {"if": wanted} if wanted else {}
        behind: Dict[str, Tree] = {ABOUT: about} if about else {}
        return int(str(self._ask_all({**before, **command, **behind})))

    def _ask_all(self, command: Dict[str, Tree]) -> Tree:
        """Has a command performed. Raises `Fault` for a program or a server that has no conditions, or no abouts."""
        try:
            return self._ask(command, "ok")
        except Fault as fault:
            if fault.name == "BadCommand" and ABOUT in command:
                raise Fault("Unsupported", "abouts (`about`), which this task needs") from None
            if fault.name == "BadCommand" and "if" in command:
                raise Fault("Unsupported", "conditions (`if`), which this task needs") from None
            raise

    def close(self) -> None:
        self._other.close()


def _command_of(edit: Edit) -> Dict[str, Tree]:
    if edit.tree is None:
        return {"delete": edit.name, "path": edit.path}
    if edit.kind == "import":
        return {"import": edit.name, "text": to_text(edit.tree)}
    return {"set": edit.name, "path": edit.path, "value": edit.tree}


def _tree_of(condition: Condition) -> Tree:
    """A condition as a session takes it."""
    if condition.tree is None:
        return {"absent": condition.name, "path": condition.path}
    return {"test": condition.name, "path": condition.path, "value": condition.tree}


def _about(command: Dict[str, Tree]) -> str:
    kind, first = next(pair for pair in command.items() if pair[0] != "if")
    return f"`{kind}` of {first!r}" if isinstance(first, str) else f"a batch of {len(first)}"


def _package() -> Any:
    """The Python package, which is there."""
    assert package is not None
    return package


class ByPackage(Store):
    """Reads and changes a store by the Python package."""

    def __init__(self, opens: Any, where: Optional[str], target: Target, **more: Any) -> None:
        more = more if target.socket is not None else {**more, "program": target.program}
        self._target = target
        self._store = self._called(opens, where, timeout=target.timeout, **more)

    def _called(self, call: Any, *words: Any, **more: Any) -> Any:
        """What a call of the package returns. Raises `Fault` for what it raises."""
        try:
            return call(*words, **more)
        except _package().Refused as error:
            raise Fault(error.word, error.about or self._target.where) from None
        except _package().ConfstoreError as error:
            name = type(error).__name__
            raise Fault(_ENDS.get(name, name), f"{self._target.where}: {error}") from None

    def read(self, name: str) -> Optional[Tree]:
        tree: Optional[Tree] = self._called(self._store.get, name, default=None)
        return tree

    def names(self) -> List[str]:
        names: List[str] = self._called(self._store.names)
        return names

    def perform(self, edits: List[Edit], conditions: Sequence[Condition] = (), count: Optional[int] = None) -> int:
        if not conditions and count is None:
            return int(self._called(self._one if len(edits) == 1 else self._batch, edits))
        when = [_condition_of(condition) for condition in conditions]
        return int(self._called(self._batch, edits, when=when + ([] if count is None else [_package().Count(count)])))

    def _one(self, edits: List[Edit]) -> int:
        return int(_make(self._store, edits[0]))

    def _batch(self, edits: List[Edit], **when: Any) -> int:
        with self._store.batch(**when) as batch:
            for edit in edits:
                _make(batch, edit)
        return int(batch.count)

    def close(self) -> None:
        if not isinstance(self._store, _package().Reader):
            self._store.close()


def _condition_of(condition: Condition) -> Any:
    """A condition of the package."""
    if condition.tree is None:
        return _package().Absent(condition.name, condition.path)
    return _package().Test(condition.name, condition.path, condition.tree)


def _make(maker: Any, edit: Edit) -> Any:
    """Has a store of the package, or a batch, make an edit."""
    if edit.tree is None:
        return maker.delete(edit.name, edit.path)
    if edit.kind == "import":
        return maker.put(edit.name, edit.tree)
    return maker.set(edit.name, edit.path, edit.tree)
