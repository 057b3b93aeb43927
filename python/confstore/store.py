"""A store of named configuration trees, held by a session of the program `confstore`."""

from __future__ import annotations

import copy
import operator
import os
import time
from types import TracebackType
from typing import Any, Callable, Dict, List, MutableMapping, Optional, Sequence, Tuple, Type, TypeVar, overload

from .abouting import PROBE as ABOUT_PROBE, Abouting, Given
from .abouts import ABOUT
from .answers import Answers
from .commands import CHECKPOINT, NAMES, delete_of, get_of, import_of, lines_of, put_of, refused_as, set_of
from .conditions import PROBE, Condition, Test, at_place, move_of, under
from .edits import Edits
from .faults import BadCommand, BadName, CheckFailed, Closed, ConfstoreError, EmptyBatch, NoConfig, Refused, Unmet
from .faults import Unsupported, refusal
from .mapping import MISSING, MISSING_HERE, Configurations, D, Missing
from .places import find_program, make_folder, need_folder, path_of
from .reader import Reader, View
from .records import Record
from .session import Session
from .style import Tree, document

T = TypeVar("T")

# How many seconds a call may take, unless a store is opened with another number.
TIMEOUT = 60.0


def words_of(path: "str | os.PathLike[str]", program: Optional[str], checkpoint_after: Optional[int]) -> List[str]:
    """The words of a program that is a session over a folder."""
    more = [] if checkpoint_after is None else ["--checkpoint-after", format(operator.index(checkpoint_after), "d")]
    return [find_program(program), "run", "--group", *more, path_of(path)]


class Batch(Edits):
    """Edits that are performed together when its block is left, or not at all. `Store.batch` makes one."""

    def __init__(self, perform: Callable[[List[Tree], Sequence[Condition]], int], when: Sequence[Condition]) -> None:
        super().__init__()
        self._perform, self._when = perform, when
        #: The count of accepted commands after the batch, once it was performed.
        self.count: Optional[int] = None

    def __enter__(self) -> "Batch":
        return self

    def __exit__(self, kind: Optional[Type[BaseException]], *_: object) -> None:
        if kind is None and self._edits:
            self.count = self._perform(self._edits, self._when)


class Store(Abouting, Answers, Configurations, MutableMapping[str, Tree]):
    """A store in a folder, held by one session until it is closed. Use it in `with`.

    It is a mapping of names to configurations, whose values are dicts, lists and texts:

    >>> with Store(folder) as store:
    ...     store["web"] = {"port": "80", "hosts": ["a", "b"]}
    ...     store.update(dns={"server": "a"}, mail={"port": "25"})
    ...     print(list(store), "web" in store, store.pop("mail"))
    ...     print(store.set("web", "/port", "81"), store.get("web", "/port"), store.get("none", default=None))
    ['web', 'dns', 'mail'] True {'port': '25'}
    4 81 None

    What `store[name]` returns is a copy: a change of it is no change of the store.

    >>> with Store(folder) as store:
    ...     store.get("web", "/color")
    Traceback (most recent call last):
    confstore.faults.NoSuchPlace: `get` of 'web' at '/color' was refused: NoSuchPlace: nothing is at the path

    Any number of threads may use one `Store`; commands that come while the session syncs share the next sync. When a
    call that changes something returns, the change is on the disk. It returns the new count of accepted commands.

    A refused command raises a `Refused` and changes nothing. When the session ends, each call raises why, as `Device`;
    `reopen` starts another one. No call waits longer than `timeout` seconds: then it raises `TimedOut`, and its `sent`
    says whether the command may be performed all the same. A store can't be used after a fork, by the new process.

    A signal handler may raise an exception in any call, as `KeyboardInterrupt` is one. Then the call's command was
    performed once, will be, or never is. The session goes on, and every other call gets its own answer.

    `program` is the program to run: by default what the environment has as `CONFSTORE`, else `confstore` on the PATH.
    With `checkpoint_after` the session writes a checkpoint beside the commands whenever `store.yaml` has grown by so
    many bytes. With `make` the folder is made if it is missing. With `about`, a mapping, each change says who makes it,
    when, and what the mapping has (see the method `about`).
    """

    def __init__(
        self,
        path: "str | os.PathLike[str]",
        *,
        program: Optional[str] = None,
        timeout: float = TIMEOUT,
        checkpoint_after: Optional[int] = None,
        make: bool = False,
        about: Optional[Given] = None,
    ) -> None:
        self._give(about)
        self._reader: Optional[Reader] = Reader(path, program=program, timeout=timeout)
        self._timeout = timeout
        folder = self._reader.folder
        if make:
            make_folder(folder)
        need_folder(folder)
        self._program = self._reader.program
        self._words: Sequence[str] = words_of(folder, self._reader.program, checkpoint_after)
        self._socket: Optional[str] = None
        self._begin()

    @classmethod
    def connect(
        cls, path: "str | os.PathLike[str]", *, timeout: float = TIMEOUT, about: Optional[Given] = None
    ) -> "Store":
        """A client of the server at a Unix socket, as `clients/serve.py` is one, which holds the store.

        It has no `log` and no `at`: they read a folder, which a `Reader` does. Raises `Disconnected` if no server is
        there. Of an `about` the server writes `by` and `when` itself.
        """
        store = cls.__new__(cls)
        store._give(about)
        store._reader, store._timeout = None, timeout
        store._words, store._socket = (), os.fsdecode(path)
        store._begin()
        return store

    def _new_session(self) -> Session:
        """A session that is begun by its first command."""
        if self._socket is None:
            return Session.start(self._words)
        return Session.to_server(self._socket, self._timeout)

    def _begin(self) -> None:
        """Begins the first session. Nobody has this store yet, so whatever comes between ends it."""
        self._session = session = self._new_session()
        try:
            self.names()
            self._look()
        except BaseException:
            session.distrust(ConfstoreError("the session did not open the store"))
            raise

    def _look(self) -> None:
        """Looks how the file of a store begins that a session holds now."""
        if self._reader is not None:
            self._look_at_format(self._reader.folder)

    def reopen(self) -> None:
        """Starts another session over the same folder or socket if the last one is over, or was closed.

        It does nothing while a session goes on, so each of several threads whose calls raised may call it.
        """
        session = self._session.latest()
        if session.is_forked:
            raise Closed("this store was opened by another process")
        if not session.goes_on:
            session.close(self._timeout)
            session = session.followed_by(self._new_session())
            self._session = session
            try:
                self.names()
                self._look()
            except ConfstoreError:
                session.distrust(ConfstoreError("the session did not open the store"))
                raise

    @property
    def end(self) -> Optional[ConfstoreError]:
        """Why its session is over, as each call raises it until `reopen`, or None while it goes on."""
        return self._session.latest().end

    def close(self) -> None:
        """Ends the session. What was answered is on the disk. Does nothing the second time, and raises nothing."""
        self._session.latest().close(self._timeout)

    def __repr__(self) -> str:
        return f"Store({self._words[-1]!r})" if self._socket is None else f"Store.connect({self._socket!r})"

    def __enter__(self) -> "Store":
        return self

    def __exit__(
        self, kind: Optional[Type[BaseException]], fault: Optional[BaseException], trace: Optional[TracebackType]
    ) -> None:
        self.close()

    def _ask(self, command: Tree) -> bytes:
        return self._session.ask(document(command), self._timeout)

    def _end_for(self, fault: ConfstoreError) -> None:
        self._session.distrust(fault)

    def _count(self, command: Tree) -> int:
        return self._counted(self._ask(command), command)

    def _counted(self, answer: bytes, command: Tree) -> int:
        """The count in the answer to a command. Where the check of a server refused it, the lines are asked for."""
        try:
            return self._count_in(answer, command)
        except CheckFailed as fault:
            fault.lines = self._lines_behind(command)
            raise

    def _lines_behind(self, command: Tree) -> Tuple[str, ...]:
        """The lines behind the refusal of a command by the check of a server, or none where they don't come."""
        try:
            return self._lines_in(self._ask(lines_of(document(command))))
        except ConfstoreError:
            return ()

    def _read_at(self, name: str, path: str) -> Tree:
        command = get_of(name, path)
        return self._value_in(self._ask(command), "value", command)

    def _change(self, command: Dict[str, Tree], conditions: Sequence[Condition]) -> int:
        """Has a command performed where conditions hold, with its about. The new count."""
        command = self._with_about(under(conditions, command))
        try:
            count = self._count(command)
        except BadCommand:
            if conditions:
                self._need_conditions()
            if ABOUT in command:
                self._need_abouts()
            raise
        self._note(command, count)
        return count

    def import_text(
        self, name: str, text: str, *,
        if_value: Tree = MISSING, if_absent: bool = False, if_count: Optional[int] = None,
    ) -> int:  # fmt: skip
        """Reads a text of YAML and puts its tree under a name, which may be new."""
        return self._change(import_of(name, text), at_place(name, "", if_value, if_absent, if_count))

    def put(
        self, name: str, tree: Tree, *,
        if_value: Tree = MISSING, if_absent: bool = False, if_count: Optional[int] = None,
    ) -> int:  # fmt: skip
        """Puts a tree under a name, which may be new."""
        return self._change(put_of(name, tree), at_place(name, "", if_value, if_absent, if_count))

    def set(
        self, name: str, path: str, tree: Tree, *,
        if_value: Tree = MISSING, if_absent: bool = False, if_count: Optional[int] = None,
    ) -> int:  # fmt: skip
        """Puts a tree at a path (RFC 6901) of a configuration; the step `-` appends to a list.

        With `if_value` it does so only where the value there is that tree, with `if_absent` where nothing is there, and
        with `if_count` where the store has accepted exactly so many commands. Else it raises `Unmet`, and nothing is
        changed. So do the other calls that change something. `batch` takes any conditions.
        """
        return self._change(set_of(name, path, tree), at_place(name, path, if_value, if_absent, if_count))

    def delete(
        self, name: str, path: str = "", *,
        if_value: Tree = MISSING, if_absent: bool = False, if_count: Optional[int] = None,
    ) -> int:  # fmt: skip
        """Takes out what is at a path of a configuration, or the whole of it if the path is empty."""
        return self._change(delete_of(name, path), at_place(name, path, if_value, if_absent, if_count))

    def copy(
        self, source: str, target: str, *,
        if_value: Tree = MISSING, if_absent: bool = False, if_count: Optional[int] = None,
    ) -> int:  # fmt: skip
        """Puts what a configuration is under another name too, in one step. The conditions are on that name, whose
        configuration is replaced if there is one. Where another user changes the first one meanwhile, it is read
        again, so what is put is what it is then; after `timeout` seconds this raises `Unmet`."""
        return self._move("copy", source, target, at_place(target, "", if_value, if_absent, if_count))

    def rename(
        self, source: str, target: str, *,
        if_value: Tree = MISSING, if_absent: bool = False, if_count: Optional[int] = None,
    ) -> int:  # fmt: skip
        """Puts a configuration under another name in place of its own, in one step. The conditions are on the new name,
        whose configuration is replaced if there is one. Nothing is lost that another user puts meanwhile under the old
        name: it is read again, as by `copy`."""
        return self._move("rename", source, target, at_place(target, "", if_value, if_absent, if_count))

    def _move(self, word: str, source: str, target: str, conditions: Sequence[Condition]) -> int:
        """A `copy` or a `rename`: read, and performed while what was read is there; else it is tried again."""
        deadline = time.monotonic() + self._timeout
        try:
            while True:
                tree = self[source]
                try:
                    return self._change(move_of(word, source, target, tree), [*conditions, Test(source, "", tree)])
                except Unmet:
                    if time.monotonic() > deadline or (conditions and not self._hold(conditions)):
                        raise
        except Refused as fault:
            raise refused_as(fault, {word: source}, self._program) from None

    def _hold(self, conditions: Sequence[Condition]) -> bool:
        """Whether conditions hold. It asks for an empty batch, which is refused after they were looked at."""
        try:
            self._change({"batch": []}, conditions)
        except Unmet:
            return False
        except EmptyBatch:
            pass
        return True

    def export(self, name: str) -> str:
        """The text of a configuration in the one style."""
        command: Tree = {"export": name}
        return self._text_in(self._ask(command), command)

    def names(self) -> List[str]:
        """The names of the configurations, in order."""
        return self._names_in(self._ask(NAMES))

    def checkpoint(self) -> int:
        """Writes a new `store.yaml` of the state alone. The log begins anew with it."""
        return self._count(CHECKPOINT)

    def batch(self, *, when: Sequence[Condition] = ()) -> Batch:
        """A context that lists edits, and performs them together when it is left, or not at all:

            with store.batch(when=[Absent("web", "/tls"), Test("web", "/port", "80")]) as batch:
                batch.set("web", "/port", "81")
                batch.delete("old")

        If the block raises, nothing is sent, and if one edit is refused, none of them changes anything. Nor does any
        where a condition does not hold of the store before the batch: then it raises `Unmet`. A batch without edits
        sends nothing. Afterwards `batch.count` is the new count.
        """
        return Batch(self._perform_batch, when)

    def _perform_batch(self, edits: List[Tree], conditions: Sequence[Condition]) -> int:
        try:
            return self._change({"batch": edits}, conditions)
        except BadCommand:
            self._need_batches()
            raise

    def perform_batches(self, batches: Sequence[Sequence[Tree]]) -> "List[int | ConfstoreError]":
        """Performs many batches, one after the other, and returns the new count for each, or why it has none.

        Each is a list of edits in the form of a session's `batch`, and is performed whole or not at all. All are sent
        before the first is answered, so they share syncs; a batch that is refused keeps none of the others back. Where
        the session ended, its end is in the place of each batch that got no answer: it was performed or not.
        """
        commands: List[Tree] = [self._with_about({"batch": list(edits)}) for edits in batches]
        counts: List[int | ConfstoreError] = []
        answers = self._session.ask_all([document(command) for command in commands], self._timeout)
        for command, answer in zip(commands, answers):
            try:
                counts.append(answer if isinstance(answer, ConfstoreError) else self._counted(answer, command))
            except ConfstoreError as fault:
                counts.append(fault)
            self._note(command, counts[-1])
        return counts

    def _note(self, command: Tree, answer: "int | ConfstoreError") -> None:
        """Notes that the file of the store has an about, once a command with one was performed."""
        if isinstance(answer, int) and ABOUT in command and self._reader is not None:
            self._keeps_abouts = True

    def _need_batches(self) -> None:
        """Raises `Unsupported` if the program has no batches: one that has them refuses an empty one by name."""
        try:
            self._count({"batch": []})
        except EmptyBatch:
            pass
        except BadCommand:
            raise Unsupported("this program has no command `batch`") from None

    def _need_conditions(self) -> None:
        """Raises `Unsupported` if the program has no conditions: one that has them refuses the name in this one."""
        try:
            self._count(PROBE)
        except BadName:
            pass
        except BadCommand:
            raise Unsupported("this program has no conditions (`if`)") from None

    def _need_abouts(self) -> None:
        """Raises `Unsupported` if the program takes no abouts: one that does refuses the name in this one."""
        try:
            self._count(ABOUT_PROBE)
        except BadName:
            pass
        except BadCommand:
            raise Unsupported("this program takes no abouts (`about`): use a newer one, or give none") from None

    def _need_reader(self) -> Reader:
        if self._reader is None:
            raise Unsupported("a client of a server has no folder to read: use a Reader of the folder")
        return self._reader

    def log(self, after: int = 0) -> List[Record]:
        """The records of the file with a number beyond `after`, in order. A checkpoint drops those before it."""
        return self._need_reader().log(after)

    def at(self, number: int) -> View:
        """The store as of the command with this number, if the file still has it."""
        return self._need_reader().at(number)

    def __setitem__(self, name: str, tree: Tree) -> None:
        self.put(name, tree)

    def __delitem__(self, name: str) -> None:
        self.delete(name)

    @overload  # type: ignore[override]
    def pop(self, name: str, /) -> Tree: ...

    @overload
    def pop(self, name: str, /, default: "Tree | D") -> "Tree | D": ...

    def pop(self, name: str, /, default: Any = MISSING) -> Any:
        """Deletes a configuration, and returns what it was; or the default, if one is given, where it is not there.

        It is deleted only while it is what was read; else it is read again. So of many who pop at once each gets what
        another one has put, once, and nothing is deleted unseen. After `timeout` seconds it raises `Unmet`.
        """
        try:
            return self._tried(lambda: self._popped(name))
        except (BadName, NoConfig):
            if default is MISSING:
                raise
            return default

    def _popped(self, name: str) -> Tree:
        tree = self[name]
        self.delete(name, if_value=tree)
        return tree

    def popitem(self) -> Tuple[str, Tree]:
        """Deletes the last configuration, as `pop` does, and returns its name and what it was. It is the last one of
        those that there were when it looked: another user may have put one behind it meanwhile."""
        while names := self.names():
            tree = self.pop(names[-1], MISSING_HERE)
            if not isinstance(tree, Missing):
                return names[-1], tree
        raise refusal("NoConfig", "`popitem` of an empty store")

    def setdefault(self, name: str, default: Any = None) -> Any:
        """What a configuration is; where there is none, the default is put under the name, and returned.

        It is put only while there is none; else what another user has put is returned. So of many who do this at once
        one puts its own, and all return that. After `timeout` seconds it raises `Unmet`.
        """
        return self._tried(lambda: self._found_or_put(name, default))

    def _found_or_put(self, name: str, tree: Tree) -> Tree:
        try:
            return self[name]
        except NoConfig:
            self.put(name, tree, if_absent=True)
            return tree

    def _tried(self, attempt: Callable[[], T]) -> T:
        """What a call returns that reads, and then changes under a condition. Where another user came between, it is
        called again, for `timeout` seconds."""
        deadline = time.monotonic() + self._timeout
        while True:
            try:
                return attempt()
            except Unmet:
                if time.monotonic() > deadline:
                    raise

    @overload
    def update(self, other: Any = (), /, **more: Tree) -> None: ...

    @overload
    def update(self, name: str, path: str, function: Callable[[Tree], Tree], /) -> int: ...

    def update(self, other: Any = (), /, *place: Any, **more: Tree) -> Any:
        """Puts each tree of a mapping, or of pairs, under its name: all in one batch, so all of them or none. What is
        under the names by then is replaced, whoever has put it.

        Without trees it sends nothing. It raises `TooLongToSend` where they are together longer than a command may be.

        With a name, a path and a function it sets what is at the path to what the function makes of it, and returns the
        new count:

        >>> with Store(folder) as store:
        ...     store["hits"] = {"web": "41"}
        ...     count = store.update("hits", "/web", lambda hits: str(int(hits) + 1))
        ...     print(store.get("hits", "/web"))
        42

        Where somebody else has changed the value meanwhile, this is tried again with the new one. So the function may
        be called more than once. After `timeout` seconds it raises `Unmet`.
        """
        if place:
            path, function = place
            return self._update_at(other, path, function)
        with self.batch() as batch:
            for name, tree in dict(other, **more).items():
                batch.put(name, tree)
        return None

    def _update_at(self, name: str, path: str, function: Callable[[Tree], Tree]) -> int:
        def attempt() -> int:
            tree = self.get(name, path)
            return self.set(name, path, function(copy.deepcopy(tree)), if_value=tree)

        return self._tried(attempt)

    def clear(self) -> None:
        """Deletes all configurations in one batch, so all of them or none.

        These are those that the store had before the batch, as they are by then. Where another user deletes one of them
        before it is performed, the batch is refused, and made again of those that are left. After `timeout` seconds it
        raises `NoConfig`.
        """
        deadline = time.monotonic() + self._timeout
        while names := self.names():
            try:
                with self.batch() as batch:
                    for name in names:
                        batch.delete(name)
                return
            except NoConfig:
                if time.monotonic() > deadline:
                    raise
