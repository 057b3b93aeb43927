"""What the answers of a session say."""

from __future__ import annotations

import re
from typing import List, Optional, Tuple

from .commands import NAMES, refused
from .faults import BadAnswer, ConfstoreError
from .style import Tree
from .trees import NO_TREES, trees_of

_OK = re.compile(rb'---\nok: "([0-9]+)"\n\.\.\.\n')


class Answers:
    """Reads the answers of a session."""

    _program: Optional[str] = None

    def _end_for(self, fault: ConfstoreError) -> None:
        """Ends the session."""
        raise NotImplementedError

    def _distrust(self, answer: bytes, about: str) -> BadAnswer:
        """Ends the session, which gave an answer that is none."""
        self._end_for(BadAnswer(about))
        return BadAnswer(f"{about}: {answer[:200]!r}")

    def _value_in(self, answer: bytes, key: str, command: Tree) -> Tree:
        """What the answer to a command has under the key that is expected."""
        try:
            (tree,) = trees_of(answer)
        except NO_TREES as error:
            raise self._distrust(answer, f"the answer is no YAML document: {type(error).__name__}") from None
        if isinstance(tree, dict) and len(tree) == 1:
            if key in tree:
                return tree[key]
            word = tree.get("refused")
            if isinstance(word, str):
                raise refused(word, command, self._program)
        raise self._distrust(answer, "the answer is none to the command")

    def _count_in(self, answer: bytes, command: Tree) -> int:
        found = _OK.fullmatch(answer)
        if found:
            return int(found[1])
        raise self._distrust(answer, f"the answer has {self._value_in(answer, 'ok', command)!r} for a number")

    def _text_in(self, answer: bytes, command: Tree) -> str:
        text = self._value_in(answer, "text", command)
        if not isinstance(text, str):
            raise BadAnswer("the text of an export is a collection")
        return text

    def _lines_in(self, answer: bytes) -> Tuple[str, ...]:
        """The lines behind a refusal by the check of a server."""
        text = self._value_in(answer, "text", "")
        return tuple(text.removesuffix("\n").split("\n")) if isinstance(text, str) and text else ()

    def _names_in(self, answer: bytes) -> List[str]:
        names = self._value_in(answer, "names", NAMES)
        if not isinstance(names, list):
            raise BadAnswer("the names are no list")
        return [str(name) for name in names]
