"""A store whose calls are coroutines."""

from __future__ import annotations

import asyncio
import copy
import os
import time
from typing import Any, Callable, Dict, List, Mapping, Optional, Sequence, Tuple, Type, Union, overload

from .abouting import PROBE as ABOUT_PROBE, Abouting, Given
from .abouts import ABOUT
from .answers import Answers
from .commands import CHECKPOINT, NAMES, delete_of, get_of, import_of, lines_of, put_of, refused_as, set_of
from .conditions import PROBE, Condition, Test, at_place, move_of, under
from .edits import Edits
from .faults import BadCommand, BadName, CheckFailed, Closed, ConfstoreError, EmptyBatch, NoConfig, NoSuchPlace
from .faults import NotIndex, NotText, Refused, Unmet, Unsupported
from .mapping import MISSING, MISSING_HERE, NOWHERE, D, Missing, text_at
from .places import make_folder, need_folder
from .session import Session
from .store import words_of
from .style import Tree, document


class AsyncBatch(Edits):
    """Edits that are performed together when their `async with` is left, or not at all: `AsyncStore.batch` makes it."""

    def __init__(self, store: "AsyncStore", when: Sequence[Condition]) -> None:
        super().__init__()
        self._store, self._when = store, when
        #: The count of accepted commands after the batch, once it was performed.
        self.count: Optional[int] = None

    async def __aenter__(self) -> "AsyncBatch":
        return self

    async def __aexit__(self, kind: Optional[Type[BaseException]], *_: object) -> None:
        if kind is None and self._edits:
            self.count = await self._store._perform_batch(self._edits, self._when)


class AsyncStore(Abouting, Answers):
    """A store whose calls are coroutines, over one session. Use it in `async with`, which opens it.

    It has the calls of a `Store` but `log`, `at` and those that only a mapping has. Those that are awaited at once go
    to the session at once and share its next sync; no thread waits for them. Any number of tasks may use it.

    Where an awaited call is cancelled, its command is performed once or never, and no other call gets its answer. What
    is not sent yet is taken back. The arguments are those of `Store`.
    """

    def __init__(
        self,
        path: "str | os.PathLike[str]",
        *,
        program: Optional[str] = None,
        timeout: float = 60.0,
        checkpoint_after: Optional[int] = None,
        make: bool = False,
        about: Optional[Given] = None,
    ) -> None:
        self._give(about)
        self._timeout = timeout
        self._words = words_of(path, program, checkpoint_after)
        self._program, self._makes, self._socket = self._words[0], make, ""
        self._session: Optional[Session] = None

    @classmethod
    def connect(
        cls, path: "str | os.PathLike[str]", *, timeout: float = 60.0, about: Optional[Given] = None
    ) -> "AsyncStore":
        """A client of the server at a Unix socket, opened by `async with`."""
        store = cls.__new__(cls)
        store._give(about)
        store._timeout, store._words, store._makes = timeout, [], False
        store._socket, store._session = os.fsdecode(path), None
        return store

    def __repr__(self) -> str:
        return f"AsyncStore.connect({self._socket!r})" if self._socket else f"AsyncStore({self._words[-1]!r})"

    async def open(self) -> None:
        """Opens the store. Where this raises anything, or is cancelled, the session is ended."""
        if self._makes:
            await asyncio.to_thread(make_folder, self._words[-1])
        if not self._socket:
            need_folder(self._words[-1])
        session = Session.to_server(self._socket, self._timeout) if self._socket else Session.start(self._words)
        self._session = session
        try:
            await self.names()
            if not self._socket:
                self._look_at_format(self._words[-1])
        except BaseException:
            session.distrust_soon(ConfstoreError("the session did not open the store"))
            raise

    async def close(self) -> None:
        """Ends the session. What was answered is on the disk. Does nothing the second time."""
        if self._session is not None:
            await asyncio.to_thread(self._session.close, self._timeout)

    async def __aenter__(self) -> "AsyncStore":
        await self.open()
        return self

    async def __aexit__(self, *_: object) -> None:
        await self.close()

    def _end_for(self, fault: ConfstoreError) -> None:
        if self._session is not None:
            self._session.distrust_soon(fault)

    async def _ask(self, command: Tree) -> bytes:
        if self._session is None:
            raise Closed("this store is not open: use `async with`")
        return await self._session.ask_awaited(document(command), self._timeout)

    async def _count(self, command: Tree) -> int:
        answer = await self._ask(command)
        try:
            return self._count_in(answer, command)
        except CheckFailed as fault:
            fault.lines = await self._lines_behind(command)
            raise

    async def _lines_behind(self, command: Tree) -> Tuple[str, ...]:
        """The lines behind the refusal of a command by the check of a server, or none where they don't come."""
        try:
            return self._lines_in(await self._ask(lines_of(document(command))))
        except ConfstoreError:
            return ()

    async def _read_at(self, name: str, path: str) -> Tree:
        command = get_of(name, path)
        return self._value_in(await self._ask(command), "value", command)

    async def _change(self, command: Dict[str, Tree], conditions: Sequence[Condition]) -> int:
        """Has a command performed where conditions hold, with its about. The new count."""
        command = self._with_about(under(conditions, command))
        try:
            count = await self._count(command)
        except BadCommand:
            if conditions:
                await self._need_conditions()
            if ABOUT in command:
                await self._need_abouts()
            raise
        self._keeps_abouts = self._keeps_abouts or (ABOUT in command and not self._socket)
        return count

    async def import_text(
        self, name: str, text: str, *,
        if_value: Tree = MISSING, if_absent: bool = False, if_count: Optional[int] = None,
    ) -> int:  # fmt: skip
        """Reads a text of YAML and puts its tree under a name, which may be new."""
        return await self._change(import_of(name, text), at_place(name, "", if_value, if_absent, if_count))

    async def put(
        self, name: str, tree: Tree, *,
        if_value: Tree = MISSING, if_absent: bool = False, if_count: Optional[int] = None,
    ) -> int:  # fmt: skip
        """Puts a tree under a name, which may be new."""
        return await self._change(put_of(name, tree), at_place(name, "", if_value, if_absent, if_count))

    async def set(
        self, name: str, path: str, tree: Tree, *,
        if_value: Tree = MISSING, if_absent: bool = False, if_count: Optional[int] = None,
    ) -> int:  # fmt: skip
        """Puts a tree at a path (RFC 6901) of a configuration; the step `-` appends to a list."""
        return await self._change(set_of(name, path, tree), at_place(name, path, if_value, if_absent, if_count))

    async def delete(
        self, name: str, path: str = "", *,
        if_value: Tree = MISSING, if_absent: bool = False, if_count: Optional[int] = None,
    ) -> int:  # fmt: skip
        """Takes out what is at a path of a configuration, or the whole of it if the path is empty."""
        return await self._change(delete_of(name, path), at_place(name, path, if_value, if_absent, if_count))

    async def copy(
        self, source: str, target: str, *,
        if_value: Tree = MISSING, if_absent: bool = False, if_count: Optional[int] = None,
    ) -> int:  # fmt: skip
        """Puts what a configuration is under another name too, as `Store.copy` does."""
        return await self._move("copy", source, target, at_place(target, "", if_value, if_absent, if_count))

    async def rename(
        self, source: str, target: str, *,
        if_value: Tree = MISSING, if_absent: bool = False, if_count: Optional[int] = None,
    ) -> int:  # fmt: skip
        """Puts a configuration under another name in place of its own, as `Store.rename` does."""
        return await self._move("rename", source, target, at_place(target, "", if_value, if_absent, if_count))

    async def _move(self, word: str, source: str, target: str, conditions: Sequence[Condition]) -> int:
        deadline = time.monotonic() + self._timeout
        try:
            while True:
                tree = await self._read_at(source, "")
                try:
                    command, still = move_of(word, source, target, tree), Test(source, "", tree)
                    return await self._change(command, [*conditions, still])
                except Unmet:
                    if time.monotonic() > deadline or (conditions and not await self._hold(conditions)):
                        raise
        except Refused as fault:
            raise refused_as(fault, {word: source}, self._program) from None

    async def _hold(self, conditions: Sequence[Condition]) -> bool:
        """Whether conditions hold, as of `Store`."""
        try:
            await self._change({"batch": []}, conditions)
        except Unmet:
            return False
        except EmptyBatch:
            pass
        return True

    @overload
    async def get(self, name: str, path: str = "") -> Tree: ...

    @overload
    async def get(self, name: str, path: str = "", *, default: D) -> Union[Tree, D]: ...

    async def get(self, name: str, path: str = "", *, default: Any = MISSING) -> Any:
        """The tree at a path of a configuration; or the default, if one is given, where nothing is there."""
        try:
            return await self._read_at(name, path)
        except (BadName, NoConfig, NoSuchPlace):
            if default is MISSING:
                raise
            return default

    @overload
    async def get_text(self, name: str, path: str = "") -> str: ...

    @overload
    async def get_text(self, name: str, path: str = "", *, default: D) -> Union[str, D]: ...

    async def get_text(self, name: str, path: str = "", *, default: Any = MISSING) -> Any:
        """The text at a path of a configuration, read as by `get`. Raises `NotAText` where a list or a mapping is."""
        if default is MISSING:
            return text_at(name, path, await self.get(name, path))
        tree = await self.get(name, path, default=MISSING_HERE)
        return default if isinstance(tree, Missing) else text_at(name, path, tree)

    async def has(self, name: str) -> bool:
        """Whether a configuration has the name."""
        try:
            await self._read_at(name, NOWHERE)
        except (BadName, NoConfig, NotText):
            return False
        except (NoSuchPlace, NotIndex):
            pass
        return True

    async def export(self, name: str) -> str:
        """The text of a configuration in the one style."""
        command: Tree = {"export": name}
        return self._text_in(await self._ask(command), command)

    async def names(self) -> List[str]:
        """The names of the configurations, in order."""
        return self._names_in(await self._ask(NAMES))

    async def checkpoint(self) -> int:
        """Writes a new `store.yaml` of the state alone. The log begins anew with it."""
        return await self._count(CHECKPOINT)

    def batch(self, *, when: Sequence[Condition] = ()) -> AsyncBatch:
        """Lists edits in `async with`, and performs them together when it is left, or not at all; also where a
        condition does not hold."""
        return AsyncBatch(self, when)

    @overload
    async def update(self, other: Mapping[str, Tree], /) -> None: ...

    @overload
    async def update(self, name: str, path: str, function: Callable[[Tree], Tree], /) -> int: ...

    async def update(self, other: Any, /, *place: Any) -> Any:
        """Puts each tree under its name: all in one batch, so all of them or none. With a name, a path and a function
        it sets what is at the path to what the function makes of it, as `Store.update` does."""
        if place:
            path, function = place
            return await self._update_at(other, path, function)
        async with self.batch() as batch:
            for name, tree in other.items():
                batch.put(name, tree)
        return None

    async def _update_at(self, name: str, path: str, function: Callable[[Tree], Tree]) -> int:
        deadline = time.monotonic() + self._timeout
        while True:
            tree = await self._read_at(name, path)
            made = function(copy.deepcopy(tree))
            try:
                return await self.set(name, path, made, if_value=tree)
            except Unmet:
                if time.monotonic() > deadline:
                    raise

    async def clear(self) -> None:
        """Deletes all configurations in one batch, as `Store.clear` does."""
        deadline = time.monotonic() + self._timeout
        while names := await self.names():
            try:
                async with self.batch() as batch:
                    for name in names:
                        batch.delete(name)
                return
            except NoConfig:
                if time.monotonic() > deadline:
                    raise

    async def _perform_batch(self, edits: List[Tree], conditions: Sequence[Condition]) -> int:
        try:
            return await self._change({"batch": edits}, conditions)
        except BadCommand:
            await self._need_batches()
            raise

    async def _need_conditions(self) -> None:
        try:
            await self._count(PROBE)
        except BadName:
            pass
        except BadCommand:
            raise Unsupported("this program has no conditions (`if`)") from None

    async def _need_abouts(self) -> None:
        try:
            await self._count(ABOUT_PROBE)
        except BadName:
            pass
        except BadCommand:
            raise Unsupported("this program takes no abouts (`about`): use a newer one, or give none") from None

    async def _need_batches(self) -> None:
        try:
            await self._count({"batch": []})
        except EmptyBatch:
            pass
        except BadCommand:
            raise Unsupported("this program has no command `batch`") from None
