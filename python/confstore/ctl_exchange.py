"""What confstorectl asks of the holder of a store where a word takes more than one command."""

from __future__ import annotations

import time
from typing import List, Optional

from .commands import get_of
from .ctl_abouts import noted
from .ctl_asked import Asked
from .ctl_faults import Fault, shown
from .ctl_places import Place, place_of
from .ctl_program import Ended, is_without_store, program_if_any, run
from .ctl_sockets import Command, Connection, Reply, SessionReply, answer_of
from .ctl_words import INIT, WITH_HISTORY
from .style import Tree, document
from .trees import NO_TREES, from_text

# How many seconds lie between two tries.
PAUSE = 0.1


class Exchange:
    """Asks commands of the server at the socket of a word, if there is one, and else of a session of the program."""

    def __init__(self, asked: Asked) -> None:
        self._asked = asked

    def ask(self, command: Command) -> Reply:
        """The answer to a command, which is tried again for as long as the word may wait. Raises its `Fault`."""
        deadline = time.monotonic() + self._asked.wait
        while True:
            try:
                return self._ask(command)
            except Fault as fault:
                if not fault.may_try_again or time.monotonic() >= deadline:
                    raise
            time.sleep(min(PAUSE, max(deadline - time.monotonic(), 0)))

    @property
    def _place(self) -> Optional[Place]:
        """The socket that is there now, if any is. A word that reads the history reads it in the folder."""
        return place_of(self._asked.socket, self._asked.folder, is_read=self._asked.word in WITH_HISTORY)

    def tree(self, name: str) -> Optional[Tree]:
        """The tree of a configuration, or None if none has the name. The program takes no lock for it."""
        folder = self._asked.folder
        if self._asked.has(INIT) and is_without_store(folder):
            return None
        try:
            if self._place is not None:
                return self.ask(get_of(name, "")).tree()
        except Fault as fault:
            if fault.kind != "NoConfig":
                raise
            return None
        ended = run(["get", "--", folder, name], None)
        if ended.status == 0:
            return tree_in(ended.output)
        if ended.has_fault("NoConfig"):
            return None
        raise ended.fault()

    def names(self) -> List[str]:
        """The names of the configurations. The program takes no lock for them."""
        folder = self._asked.folder
        if self._place is None:
            ended = run(["names", "--", folder], None)
            if ended.status:
                raise ended.fault()
            return ended.output.decode().split()
        return names_in(self.ask({"names": ""}).tree())

    def _ask(self, command: Command) -> Reply:
        place = self._place
        if place is None:
            return self._ask_program(command)
        try:
            return self._ask_server(place, command)
        except Fault as fault:
            if place.is_given or not fault.may_try_again:
                raise
        return self._ask_program(command)  # the server that was there has ended

    def _ask_server(self, place: Place, command: Command) -> Reply:
        command = noted(self._asked, place, command)
        with Connection(place) as connection:
            answer = connection.ask(command)
            connection.finish()
        return answer_of(answer, command, program_if_any())

    def _ask_program(self, command: Command) -> Reply:
        if is_without_store(self._asked.folder) and not self._asked.has(INIT):
            raise Fault("NotAStore")
        return answer_by_program(self._asked.folder, noted(self._asked, None, command))


def names_in(tree: Tree) -> List[str]:
    """The names that an answer has. Raises a `Fault` where it has something else."""
    if not isinstance(tree, list) or not all(isinstance(name, str) for name in tree):
        raise Fault("BadAnswer", "the names are no list of texts")
    return [name for name in tree if isinstance(name, str)]


def tree_in(output: bytes) -> Tree:
    """The tree that the program has written. Raises a `Fault` where that is none."""
    try:
        return from_text(output)
    except NO_TREES as error:
        raise Fault("BadAnswer", f"what the program wrote is no tree: {shown(str(error))}") from None


def ended_session(folder: str, command: Command) -> Ended:
    """A session of the program that was asked one command. Raises the `Fault` of a store that is held."""
    ended = run(["run", "--", folder], document(command))
    if ended.was_locked:
        raise Fault("Locked", None, True)
    return ended


def answer_by_program(folder: str, command: Command) -> Reply:
    """The answer of a session of the program to one command. Raises its `Fault`."""
    ended = ended_session(folder, command)
    if not ended.output:
        if ended.status > 0 and ended.errors:
            raise ended.fault()
        raise Fault("BadAnswer", f"the program {ended.how}; a change was made or not: look")
    return answer_of(SessionReply(ended.output), command, program_if_any())
