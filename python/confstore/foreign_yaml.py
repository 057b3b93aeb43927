"""Reads YAML with aliases, anchors, merges, tags and several documents, as the trees that a store has.

Aliases and merges are expanded and tags are dropped; both are told. A value keeps its spelling. PyYAML cuts the text
into events. The trees are built here without recursion, so neither depth nor a text of aliases upon aliases ends the
process.
"""

from __future__ import annotations

from typing import Any, Dict, List, Optional, Tuple, Union

import yaml

from .foreign import Document, Notes, Unread
from .style import Tree

_LOADER: Any = getattr(yaml, "CBaseLoader", yaml.BaseLoader)
_parse: Any = yaml.parse

# How many bytes a tree may have in the one style, which are more than the characters of its texts.
LARGEST = 4_194_304

# How deep collections may be nested here. A store keeps less.
DEEPEST = 150

_CORE = "tag:yaml.org,2002:"

# A line and a column, from 1.
Place = Tuple[int, int]


class _Open:
    """A collection that is being read, and in a mapping the key whose value comes next."""

    def __init__(self, tree: "Union[List[Tree], Dict[str, Tree]]", anchor: Optional[str], place: Place) -> None:
        self.tree, self.anchor, self.place, self.size = tree, anchor, place, 1
        self.key: Optional[str] = None
        self.is_merge_next = False
        self.merged: Dict[str, Tree] = {}

    def done(self) -> Tree:
        """The whole collection. What a mapping has itself stands in place of what is merged."""
        return {**self.merged, **self.tree} if self.merged and isinstance(self.tree, dict) else self.tree


def _hint(text: str) -> str:
    """What to do with a text that is refused, if it looks like a template."""
    return "; a template has to be rendered first" if "{{" in text or "{%" in text else ""


def _place(event: Any) -> Place:
    return event.start_mark.line + 1, event.start_mark.column + 1


class _Reader:
    """Makes the documents of a stream of events."""

    def __init__(self, hint: str) -> None:
        self.documents: List[Document] = []
        self._hint = hint
        self._begin()

    def _begin(self) -> None:
        """Begins a document."""
        self._notes = Notes()
        self._root: Optional[Tree] = None
        self._open: List[_Open] = []
        self._anchors: Dict[str, Optional[Tuple[Tree, int]]] = {}  # None while it is open

    def take(self, event: Any) -> None:
        if isinstance(event, yaml.DocumentStartEvent):
            self._begin()
        elif isinstance(event, yaml.DocumentEndEvent):
            self.documents.append(Document(self._root, self._notes))
        elif isinstance(event, yaml.ScalarEvent):
            self._take_scalar(event)
        elif isinstance(event, yaml.AliasEvent):
            self._take_alias(event)
        elif isinstance(event, (yaml.SequenceStartEvent, yaml.MappingStartEvent)):
            self._drop_tag(event)
            if len(self._open) >= DEEPEST:
                raise Unread("TooDeep", f"collections are nested over {DEEPEST} deep", *_place(event))
            tree: Union[List[Tree], Dict[str, Tree]] = [] if isinstance(event, yaml.SequenceStartEvent) else {}
            self._open.append(_Open(tree, event.anchor, _place(event)))
            if event.anchor:
                self._anchors[event.anchor] = None
        elif isinstance(event, (yaml.SequenceEndEvent, yaml.MappingEndEvent)):
            ended = self._open.pop()
            self._anchor(ended.anchor, ended.done(), ended.size)
            self._put(ended.place, ended.done(), ended.size)

    def _take_scalar(self, event: Any) -> None:
        is_plain = not event.style and event.tag in (None, f"{_CORE}merge")
        if is_plain and event.value == "<<" and self._is_key_next():
            self._open[-1].is_merge_next = True
            return
        if is_plain and not event.value and not self._open and not event.anchor:
            return  # the document is empty
        self._drop_tag(event)
        size = len(event.value) + 1
        self._anchor(event.anchor, event.value, size)
        self._put(_place(event), event.value, size)

    def _take_alias(self, event: Any) -> None:
        found = self._anchors.get(event.anchor)
        if found is None:
            what = "what it is part of" if event.anchor in self._anchors else "nothing before it"
            raise Unread("Syntax", f"the alias *{event.anchor} stands for {what}", *_place(event))
        self._notes.add(f"expanded the alias *{event.anchor}", *_place(event))
        self._put(_place(event), *found)

    def _drop_tag(self, event: Any) -> None:
        if event.tag is not None:
            tag = event.tag.replace(_CORE, "!!", 1) if event.tag.startswith(_CORE) else event.tag
            self._notes.add(f"dropped the tag {tag}", *_place(event))

    def _anchor(self, anchor: Optional[str], tree: Tree, size: int) -> None:
        if anchor:
            self._anchors[anchor] = (tree, size)

    def _is_key_next(self) -> bool:
        if not self._open:
            return False
        around = self._open[-1]
        return isinstance(around.tree, dict) and around.key is None and not around.is_merge_next

    def _put(self, place: Place, tree: Tree, size: int) -> None:
        """Puts what was read to its place."""
        if not self._open:
            self._root = tree
            return
        around = self._open[-1]
        around.size += size
        if around.size > LARGEST:
            raise Unread("LargeInStyle", "with all aliases expanded it has over 4,194,304 bytes", *place)
        if isinstance(around.tree, list):
            around.tree.append(tree)
        elif around.is_merge_next:
            self._merge(place, around, tree)
        elif around.key is None:
            around.key = self._key(place, around.tree, tree)
        else:
            around.tree[around.key] = tree
            around.key = None

    def _merge(self, place: Place, around: _Open, tree: Tree) -> None:
        """Merges mappings into one: of a key that more of them have the first one's value counts."""
        around.is_merge_next = False
        for one in tree if isinstance(tree, list) else [tree]:
            if not isinstance(one, dict):
                raise Unread("Syntax", "a merge takes a mapping, or a list of them", *place)
            around.merged = {**one, **around.merged}
        self._notes.add("expanded a merge", *place)

    def _key(self, place: Place, around: Dict[str, Tree], key: Tree) -> str:
        if not isinstance(key, str):
            raise Unread("KeyNotText", "a key is a list or a mapping" + self._hint, *place)
        if key in around:
            raise Unread("KeyTwice", f'"{key}" is there already', *place)
        return key


def read_yaml(text: str) -> List[Document]:
    """The documents of a YAML text. Raises `Unread`."""
    hint = _hint(text)
    reader = _Reader(hint)
    try:
        for event in _parse(text, Loader=_LOADER):
            reader.take(event)
    except yaml.MarkedYAMLError as error:
        mark, detail = error.problem_mark or error.context_mark, error.problem or error.context or "no YAML"
        raise Unread("Syntax", detail + hint, *((mark.line + 1, mark.column + 1) if mark else ())) from None
    except yaml.reader.ReaderError as error:
        line = text.count("\n", 0, error.position) + 1
        raise Unread("Syntax", f"YAML has no character U+{ord(str(error.character)):04X}", line, 1) from None
    except RecursionError:
        raise Unread("TooDeep", "collections are nested too deep") from None
    return reader.documents
