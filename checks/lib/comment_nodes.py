"""At which nodes of a text a person sees its comments, to compare a text with what is written for it."""

from __future__ import annotations

from dataclasses import dataclass

from lib.comments_model import Comment, Document, Line, Path


@dataclass(frozen=True)
class Seen:
    """How a comment is seen: behind, above or below one of these nodes."""

    where: str
    nodes: frozenset[Path]

    def is_like(self, other: Seen) -> bool:
        """Whether both are at the same node. What is above a node in one text may be behind its line in the other."""
        same_place = self.where == other.where or {self.where, other.where} == {"above", "behind"}
        return same_place and bool(self.nodes & other.nodes)


def column_of(document: Document, line: Line) -> int:
    """The column at which a line's first token begins in the text."""
    return line.start - document.rows[document.row(line.start)]


def seen_behind(document: Document, comment: Comment, below: Line | None) -> Seen:
    """How a comment is seen that has a token before it on its row."""
    on_row = [
        line.path
        for line in document.lines
        if line.end <= comment.at and document.row(max(line.end - 1, 0)) == comment.row
    ]
    if on_row:
        return Seen("behind", frozenset(on_row))
    return Seen("above", frozenset([below.path] if below else []))


def seen_between(document: Document, comment: Comment, above: Line | None, below: Line | None) -> Seen:
    """How a comment is seen that is alone on its row, between two lines of the one style."""
    if above is None:
        return Seen("above", frozenset([below.path] if below else []))
    inside = [part for part in document.brackets if part.start < comment.at < part.end and above.end > part.start]
    if inside:
        part = inside[-1].path
        if below and below.path[: len(part)] == part and len(below.path) > len(part):
            return Seen("above", frozenset([below.path]))
        return Seen("below", frozenset([part]))
    if below and (comment.column <= column_of(document, below) or len(below.path) > len(above.path)):
        return Seen("above", frozenset([below.path]))
    blocks = [level for level in above.levels if level.column is not None]
    if blocks and comment.column > (blocks[-1].column or 0):
        return Seen("deeper", frozenset([above.path]))
    holding = [level for level in blocks if (level.column or 0) <= comment.column]
    best = max(holding, key=lambda level: level.column or 0, default=None)
    if best is None or (below is None and best is blocks[0]):
        return Seen("end", frozenset([()]))
    return Seen("below", frozenset([best.path]))


def seen(text: str) -> list[Seen]:
    """How each comment of a text is seen, in order."""
    document = Document(text)
    found: list[Seen] = []
    for comment in document.comments:
        number = sum(1 for line in document.lines if line.end <= comment.at)
        above = document.lines[number - 1] if number else None
        below = document.lines[number] if number < len(document.lines) else None
        before = text[document.rows[comment.row] : comment.at].lstrip("\ufeff")
        if before.strip(" \t"):
            found.append(seen_behind(document, comment, below))
        else:
            found.append(seen_between(document, comment, above, below))
    return found
