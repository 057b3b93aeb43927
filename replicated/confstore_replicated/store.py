"""The store of a node: one that performs the batches of entries, which may have conditions."""

from __future__ import annotations

from typing import Dict, List, Optional, Sequence, Union

from confstore import ConfstoreError, Store, Unsupported, document
from confstore.style import Tree

from .entries import Command


class NodeStore(Store):
    """A store that performs many commands with one sync. It adds no about of its own: what each node performs is in the
    log."""

    _takes_abouts: Optional[bool] = None  # where that is known

    def takes_abouts(self) -> bool:
        """Whether its program takes abouts."""
        if self._takes_abouts is None:
            try:
                self._need_abouts()
                self._takes_abouts = True
            except Unsupported:
                self._takes_abouts = False
        return self._takes_abouts

    def _with_about(self, command: Dict[str, Tree]) -> Dict[str, Tree]:
        return command

    def perform(self, commands: Sequence[Command]) -> List[Union[int, ConfstoreError]]:
        """Performs batches, one after the other, and returns the new count for each, or why it has none. It is what
        `perform_batches` is of batches without conditions."""
        answers = self._session.ask_all([document(command) for command in commands], self._timeout)
        return [self._count_or_fault(answer, command) for answer, command in zip(answers, commands)]

    def _count_or_fault(self, answer: Union[bytes, ConfstoreError], command: Command) -> Union[int, ConfstoreError]:
        try:
            return answer if isinstance(answer, ConfstoreError) else self._count_in(answer, command)
        except ConfstoreError as fault:
            return fault
