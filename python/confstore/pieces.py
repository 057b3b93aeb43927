"""The pieces of a session's streams: documents, each with its closing line."""

from __future__ import annotations

import re

# The longest command of a session, and the longest answer, in bytes.
LONGEST_COMMAND = 16_777_216
LONGEST_ANSWER = 67_108_864

CLOSING = b"...\n"

# A text that the one style writes on one line and without an escape, and what stands behind the only key of a document
# whose value is such a text, or a list of them.
_TEXT = rb'(?:"[ !#-\[\]-~]*"|[A-Za-z][A-Za-z0-9_./-]*)'
_ONE = re.compile(rb" %b\n" % _TEXT)
_LIST = re.compile(rb"\n(?:  - %b\n)+" % _TEXT)


def simple_value(rest: bytes) -> str | list[str] | None:
    """The value behind the key of a document, where it is a text or a list of texts that needs no reader of YAML; None
    of another one. PyYAML takes longer to import than all that a word of confstorectl does."""
    if _ONE.fullmatch(rest):
        return _text_in(rest[1:-1])
    if _LIST.fullmatch(rest):
        return [_text_in(line[len("  - ") :]) for line in rest[1:-1].split(b"\n")]
    return None


def _text_in(written: bytes) -> str:
    return written.decode().strip('"')


class Cutter:
    """Cuts bytes after each closing line, and never looks at a byte twice."""

    def __init__(self) -> None:
        self.rest = bytearray()
        self._looked = 0

    def cut(self, part: bytes) -> list[bytes]:
        self.rest += part
        pieces: list[bytes] = []
        start = 0
        while (found := self.rest.find(CLOSING, self._looked)) >= 0:
            self._looked = found + len(CLOSING)
            if found == start or self.rest[found - 1 : found] == b"\n":
                pieces.append(bytes(self.rest[start : self._looked]))
                start = self._looked
        self._looked = max(len(self.rest) - len(CLOSING) + 1, self._looked) - start
        del self.rest[:start]
        return pieces
