"""A model of `format --keep-comments`: what it writes for a text, by the rule that `comments_kept` states.

It stands on PyYAML's tokens, and shares nothing with the program. A text that PyYAML does not read, or that is no
configuration, raises `NotRead`. PyYAML's breaks x85, x2028 and x2029 are none here, so a text with one is not read.
"""

from __future__ import annotations

import bisect
import re
from dataclasses import dataclass, field
from typing import TYPE_CHECKING, Any

import yaml
from yaml.nodes import MappingNode, ScalarNode, SequenceNode

Node = Any

ENDS = "\0\r\n\x85\u2028\u2029"
RESERVED = frozenset("null true false yes no on off y n".split())
ESCAPES = {
    '"': '\\"', "\\": "\\\\", "\0": "\\0", "\a": "\\a", "\b": "\\b", "\t": "\\t", "\n": "\\n", "\v": "\\v",
    "\f": "\\f", "\r": "\\r", "\x1b": "\\e",
}  # fmt: skip
HEADER = re.compile(r"[|>][-+0-9]*")
LONG_KEY = 1000


class NotRead(Exception):
    """The model has no answer to a text."""


@dataclass(frozen=True)
class Comment:
    """A comment of a text: the index of its `#`, its row and column, and what it is without whitespace at its end."""

    at: int
    row: int
    column: int
    text: str


NOT_ALLOWED = (yaml.tokens.AnchorToken, yaml.tokens.AliasToken, yaml.tokens.TagToken)

# The keys and indexes that lead to a node.
Path = tuple[str | int, ...]


@dataclass(frozen=True)
class Level:
    """A collection that holds a line: its column in the text, or None between brackets, its indentation and path."""

    column: int | None
    indent: int
    path: Path


@dataclass(frozen=True)
class Brackets:
    """A collection in brackets: its range in the text, and its path."""

    start: int
    end: int
    path: Path


@dataclass
class Line:
    """A line in the one style: where its first token begins in the text and its last one ends, and what holds it."""

    indent: int
    text: str
    start: int
    end: int
    path: Path
    levels: tuple[Level, ...]
    body: list[str] = field(default_factory=list)
    is_literal: bool = False
    ends_blank: bool = False


if TYPE_CHECKING:

    class BaseLoader(yaml.BaseLoader):
        """PyYAML's loader, with the types of what is called here."""

        index: int
        line: int
        column: int
        flow_level: int
        allow_simple_key: bool

        def __init__(self, stream: str) -> None: ...
        def get_token(self) -> Any: ...
        def peek(self, index: int = 0) -> str: ...
        def forward(self, length: int = 1) -> None: ...
        def scan_line_break(self) -> str: ...

else:
    BaseLoader = yaml.BaseLoader


class Loader(BaseLoader):
    """PyYAML's loader, which notes the comments and the tokens."""

    def __init__(self, text: str) -> None:
        self.comments: dict[int, Comment] = {}
        self.taken: list[Any] = []
        super().__init__(text)

    def get_token(self) -> Any:
        token = super().get_token()
        self.taken.append(token)
        return token

    def note(self) -> None:
        """Notes the comment that begins here, and goes behind it."""
        at, row, column, text = self.index, self.line, self.column, ""
        while self.peek() not in ENDS:
            text += self.peek()
            self.forward()
        self.comments[at] = Comment(at, row, column, text.rstrip(" \t"))

    def is_blank_before_end(self) -> bool:
        """Whether whitespace goes on up to a comment or a break, or may separate tokens."""
        count = 0
        while self.peek(count) in (" ", "\t"):
            count += 1
        return self.peek(count) in "#\r\n\0" or (self.column > 0 and not self.allow_simple_key)

    def scan_to_next_token(self) -> None:
        if self.index == 0 and self.peek() == "\ufeff":
            self.forward()
        while True:
            while self.peek() == " " or (self.peek() == "\t" and self.is_blank_before_end()):
                self.forward()
            if self.peek() == "#":
                self.note()
            if not self.scan_line_break():
                return
            if not self.flow_level:
                self.allow_simple_key = True

    def ignored_line(self) -> None:
        """The rest of a line: whitespace, and perhaps a comment."""
        while self.peek() in (" ", "\t"):
            self.forward()
        if self.peek() == "#":
            self.note()
        if self.peek() not in ENDS:
            raise NotRead("something behind a header or a directive")
        self.scan_line_break()

    def scan_block_scalar_indicators(self, start_mark: Any) -> tuple[bool | None, int | None]:
        """The two signs of a header; PyYAML wants no TAB behind them."""
        del start_mark
        chomping: bool | None = None
        increment: int | None = None
        for _ in range(2):
            sign = self.peek()
            if chomping is None and sign in ("+", "-"):
                chomping = sign == "+"
                self.forward()
            elif increment is None and sign in "123456789":
                increment = int(sign)
                self.forward()
        return chomping, increment

    def scan_block_scalar_ignored_line(self, start_mark: Any) -> None:
        del start_mark
        self.ignored_line()

    def scan_directive_ignored_line(self, start_mark: Any) -> None:
        del start_mark
        self.ignored_line()


# ---- the one style


def is_shown(char: str) -> bool:
    """Whether a character stands for itself in quotes and literals."""
    code = ord(char)
    if code < 0xA0:
        return 0x20 <= code <= 0x7E
    return code not in (0x2028, 0x2029, 0xFEFF, 0xFFFE, 0xFFFF) and not 0xD800 <= code < 0xE000


def is_word(value: str) -> bool:
    """Whether a text is written plain."""
    return bool(re.fullmatch(r"[A-Za-z][A-Za-z0-9_\-./]{0,127}", value)) and value.lower() not in RESERVED


def is_literal(value: str) -> bool:
    """Whether a value is written as a literal, if it is no word."""
    return "\n" in value and value[0] not in " \n" and all(char == "\n" or is_shown(char) for char in value)


def quoted(value: str) -> str:
    """A text in double quotes."""
    shown = ""
    for char in value:
        code = ord(char)
        if char in ESCAPES:
            shown += ESCAPES[char]
        elif is_shown(char):
            shown += char
        elif code < 0x100:
            shown += f"\\x{code:02X}"
        elif code < 0x10000:
            shown += f"\\u{code:04X}"
        else:
            shown += f"\\U{code:08X}"
    return f'"{shown}"'


def flat(value: str) -> str:
    """A text on one line."""
    return value if is_word(value) else quoted(value)


def header(value: str) -> str:
    """The header of a literal."""
    if not value.endswith("\n"):
        return "|-"
    return "|+" if value.endswith("\n\n") else "|"


# ---- a text


class Document:
    """A text that was read: its tree, its comments, and the lines of its tree in the one style."""

    def __init__(self, text: str) -> None:
        self.text = text
        try:
            loader = Loader(text)
            self.node: Node = loader.get_single_node()
        except (yaml.YAMLError, RecursionError) as fault:
            raise NotRead(str(fault)) from fault
        self.comments = [loader.comments[at] for at in sorted(loader.comments)]
        if self.node is None:
            raise NotRead("no document")
        if any(isinstance(token, NOT_ALLOWED) for token in loader.taken):
            raise NotRead("an anchor, an alias or a tag")
        kinds = (yaml.tokens.StreamStartToken, yaml.tokens.DirectiveToken)
        self.tokens = [
            token for token in loader.taken if token.end_mark.index > token.start_mark.index and not isinstance(token, kinds)
        ]
        self.starts = [token.start_mark.index for token in self.tokens]
        self.ends = [self.token_end(token) for token in self.tokens]
        self.rows = [0] + [found.end() for found in re.finditer(r"\r\n|\n|\r", text)]
        self.lines: list[Line] = []
        self.brackets: list[Brackets] = []
        self.add(self.node, 0, "", None, (), ())

    def token_end(self, token: Any) -> int:
        """Where a token ends; a block scalar ends with its header."""
        if isinstance(token, yaml.tokens.ScalarToken) and token.style in ("|", ">"):
            return self.header_end(token.start_mark.index)
        return int(token.end_mark.index)

    def header_end(self, at: int) -> int:
        """Where the header of a block scalar ends that begins here."""
        found = HEADER.match(self.text, at)
        if found is None:
            raise NotRead("a block scalar without a header")
        return found.end()

    def row(self, at: int) -> int:
        """The row of an index."""
        return bisect.bisect_right(self.rows, at) - 1

    def node_end(self, node: Node) -> int:
        """Where the last token of a scalar or of an empty collection ends."""
        start, end = node.start_mark.index, node.end_mark.index
        if isinstance(node, ScalarNode):
            if node.style in ("|", ">"):
                return self.header_end(start)
            if start == end:
                before = bisect.bisect_right(self.ends, start) - 1
                return self.ends[before] if before >= 0 else 0
        return int(end)

    def colon_end(self, key: Node) -> int:
        """Where the `:` behind a key ends, or the key if there is none."""
        from_index = key.end_mark.index if key.style in ("|", ">") else self.node_end(key)
        at = bisect.bisect_left(self.starts, from_index)
        while at < len(self.tokens) and isinstance(self.tokens[at], yaml.tokens.KeyToken):
            at += 1
        if at < len(self.tokens) and isinstance(self.tokens[at], yaml.tokens.ValueToken):
            return self.ends[at]
        return self.node_end(key)

    def sign_start(self, node: Node) -> int:
        """Where the `-` of a node begins."""
        start = node.start_mark.index
        if node.end_mark.index > start:
            at = bisect.bisect_left(self.starts, start) - 1
        else:
            at = bisect.bisect_right(self.starts, start - 1) - 1
        while not isinstance(self.tokens[at], yaml.tokens.BlockEntryToken):
            at -= 1
        return int(self.starts[at])

    def key_start(self, key: Node) -> int:
        """Where a key begins, or its `?`."""
        start = key.start_mark.index
        at = bisect.bisect_left(self.starts, start) - 1
        if at >= 0 and isinstance(self.tokens[at], yaml.tokens.KeyToken):
            return int(self.starts[at])
        return int(start)

    def add_line(self, indent: int, text: str, start: int, end: int, path: Path, levels: tuple[Level, ...]) -> Line:
        """Adds a line."""
        line = Line(indent, text, start, end, path, levels)
        self.lines.append(line)
        return line

    def add_last(
        self, node: Node, indent: int, lead: str, start: int, path: Path, levels: tuple[Level, ...]
    ) -> None:
        """Adds the line of a scalar or an empty collection, behind what comes before it on the line."""
        end = self.node_end(node)
        if not isinstance(node, ScalarNode):
            sign = "[]" if isinstance(node, SequenceNode) else "{}"
            self.add_line(indent, lead + sign, start, end, path, levels)
        elif is_word(node.value) or not is_literal(node.value):
            self.add_line(indent, lead + flat(node.value), start, end, path, levels)
        else:
            line = self.add_line(indent, lead + header(node.value), start, end, path, levels)
            spaces = " " * ((levels[-1].indent if levels else 0) + 2)
            body = node.value.removesuffix("\n").split("\n")
            line.body = [spaces + part if part else "" for part in body]
            line.is_literal = True
            line.ends_blank = not body[-1].strip(" ")

    def add(
        self, node: Node, indent: int, lead: str, start: int | None, path: Path, levels: tuple[Level, ...]
    ) -> None:
        """Adds the lines of a node at an indentation, behind signs that its first line begins with."""
        begins = node.start_mark.index if start is None else start
        if isinstance(node, ScalarNode) or not node.value:
            self.add_last(node, indent - len(lead), lead, begins, path, levels)
            return
        column = None if node.flow_style else node.start_mark.column
        if node.flow_style:
            self.brackets.append(Brackets(node.start_mark.index, node.end_mark.index, path))
        inner = (*levels, Level(column, indent, path))
        for number, part in enumerate(node.value):
            first = begins if number == 0 and start is not None else None
            sign = lead if number == 0 else ""
            if isinstance(node, MappingNode):
                self.add_pair(part[0], part[1], indent, sign, first, path, inner)
            else:
                here = part.start_mark.index if node.flow_style else self.sign_start(part)
                self.add(part, indent + 2, sign + "- ", here if first is None else first, (*path, number), inner)

    def add_pair(
        self, key: Node, value: Node, indent: int, lead: str, start: int | None, path: Path, levels: tuple[Level, ...]
    ) -> None:
        """Adds the lines of a key and its value."""
        if not isinstance(key, ScalarNode):
            raise NotRead("a key that is no text")
        begins = self.key_start(key) if start is None else start
        name, path = flat(key.value), (*path, key.value)
        if len(name) > LONG_KEY:
            self.add_line(indent - len(lead), f"{lead}? {name}", begins, self.node_end(key), path, levels)
            begins = max(self.colon_end(key) - 1, 0)
            lead, name = "", ""
        if isinstance(value, ScalarNode) or not value.value:
            self.add_last(value, indent - len(lead), f"{lead}{name}: ", begins, path, levels)
            return
        self.add_line(indent - len(lead), f"{lead}{name}:", begins, self.colon_end(key), path, levels)
        self.add(value, indent + 2, "", None, path, levels)


# ---- what is written


def own_indent(document: Document, comment: Comment, above: Line | None) -> int:
    """The indentation that a comment on a line of its own asks for, by the line that is written above it."""
    before = document.text[document.rows[comment.row] : comment.at].lstrip("\ufeff")
    if above is None or before.strip(" \t"):
        return 0
    blocks = [level for level in above.levels if level.column is not None]
    if blocks and comment.column > (blocks[-1].column or 0):
        indent = blocks[-1].indent + 2
    else:
        indent, best = 0, -1
        for level in blocks:
            column = level.column or 0
            if best < column <= comment.column:
                best, indent = column, level.indent
    if above.is_literal:
        indent = min(indent, above.levels[-1].indent if above.levels else 0)
    return indent


def is_below_blank(document: Document, at: int) -> bool:
    """Whether only whitespace, perhaps behind a `---`, comes before on its row, and the row above is blank."""
    row = document.row(at)
    before = document.text[document.rows[row] : at].lstrip("\ufeff").rstrip(" \t")
    if row == 0 or before not in ("", "---"):
        return False
    return not document.text[document.rows[row - 1] : document.rows[row]].strip(" \t\r\n")


class Writer:
    """Lines that are written."""

    def __init__(self, document: Document) -> None:
        self.document = document
        self.out: list[str] = []
        self.holds = True

    def put(self, line: str, at: int) -> None:
        """Writes a line, with a blank one above it if what begins here is below one."""
        if not self.holds and is_below_blank(self.document, at):
            self.out.append("")
        self.out.append(line)
        self.holds = False

    def put_comment(self, comment: Comment, above: Line | None, below: Line | None) -> None:
        """Writes a comment on a line of its own."""
        least = below.indent if below else 0
        indent = max(least, own_indent(self.document, comment, above))
        self.put(" " * indent + comment.text, comment.at)

    def put_line(self, line: Line, behind: Comment | None) -> None:
        """Writes a line, with the comment that is behind it."""
        end = f" {behind.text}" if behind else ""
        self.put(" " * line.indent + line.text + end, line.start)
        self.out.extend(line.body)
        self.holds = line.ends_blank


def formatted(text: str) -> str:
    """What is written for a text."""
    if re.search("[\x85\u2028\u2029]", text):
        raise NotRead("a break of YAML 1.1")
    document = Document(text)
    writer = Writer(document)
    comments = list(document.comments)
    above: Line | None = None
    for line in document.lines:
        row_start = document.rows[document.row(max(line.end - 1, 0))]
        row_end = document.row(max(line.end - 1, 0))
        while comments and comments[0].at < line.end:
            writer.put_comment(comments.pop(0), above, line)
        behind = comments.pop(0) if comments and comments[0].row == row_end and comments[0].at >= row_start else None
        writer.put_line(line, behind)
        above = line
    for comment in comments:
        writer.put_comment(comment, above, None)
    return "\n".join(writer.out) + "\n"
