"""The abouts that a `Store` and an `AsyncStore` give their changes."""

from __future__ import annotations

from contextvars import ContextVar
from types import TracebackType
from typing import Dict, List, Mapping, Optional, Tuple, Type

from .abouts import NotAbout, check, filled, from_environment, joined, keeps_abouts, with_about
from .commands import delete_of
from .faults import ConfstoreError, NotATree, NotText, refusal
from .style import Tree

# What is given for an about: None in the place of a text leaves a key out.
Given = Mapping[str, Optional[str]]

# What blocks of `about` give, with the stores that they are of, from the outermost block on. A thread begins with none,
# and a task with those of the block that has made it.
_Blocks = Tuple[Tuple["Abouting", Given], ...]
_blocks: "ContextVar[_Blocks]" = ContextVar("blocks", default=())

# A command that is refused by `BadName` where abouts are known, and by `BadCommand` where they are not.
PROBE: Tree = {**delete_of("-", ""), "about": {"why": "-"}}


def fault_of(fault: NotAbout) -> ConfstoreError:
    """The exception of what is no about."""
    if fault.name == "NotATree":
        return NotATree(fault.why)
    return NotText(fault.why) if fault.name == "NotText" else refusal(fault.name, fault.why)


class About:
    """A block whose changes of one store have an about, which `Store.about` makes. Use it in `with`."""

    def __init__(self, store: "Abouting", given: Given) -> None:
        self._store, self._given = store, given
        self._before: List[_Blocks] = []  # the blocks around each time that it was entered

    def __enter__(self) -> "About":
        before = _blocks.get()
        try:
            self._before.append(before)
            _blocks.set((*before, (self._store, self._given)))
        except BaseException:  # of a handler of a signal
            _blocks.set(before)
            raise
        return self

    def __exit__(
        self, kind: Optional[Type[BaseException]], fault: Optional[BaseException], trace: Optional[TracebackType]
    ) -> None:
        _blocks.set(self._before[-1])
        self._before.pop()


class Abouting:
    """A store whose changes may have abouts."""

    _given: Optional[Given] = None  # for each change
    _keeps_abouts = False  # whether its file has or had one

    def _give(self, given: Optional[Given]) -> None:
        """Takes what is given for each change. Raises what is wrong with it."""
        if given is not None:
            _check(given)
            self._given = dict(given)

    def _look_at_format(self, folder: str) -> None:
        """Looks whether the store in a folder keeps abouts, which nobody else may change while it is held."""
        self._keeps_abouts = keeps_abouts(folder)

    def about(self, given: Given = {}, /, **more: Optional[str]) -> About:
        """A block whose changes have these pairs in their about, by this thread or task, and not by others:

            with store.about(why="the certificate expires", ticket="OPS-7"):
                store.set("web", "/tls/cert", "new.pem")

        `by` and `when` are added: the login name, and the time. Blocks may stand in each other, and of one key the
        innermost counts. `by=None` leaves a key out. A key that is no name of Python is given in a mapping.
        """
        pairs = {**given, **more}
        _check(pairs)
        return About(self, pairs)

    def _with_about(self, command: Dict[str, Tree]) -> Dict[str, Tree]:
        """A change with its about, if it has one."""
        blocks = [given for store, given in _blocks.get() if store is self]
        try:
            given = joined(from_environment(), self._given, *blocks)
            return with_about(command, filled(given, self._keeps_abouts))
        except NotAbout as fault:
            raise fault_of(fault) from None


def _check(given: Given) -> None:
    try:
        check({key: text for key, text in given.items() if text is not None})
    except NotAbout as fault:
        raise fault_of(fault) from None
