"""The trees of texts in the one style of docs/STYLE.md, read by PyYAML. `style.py` writes them."""

from __future__ import annotations

from typing import Any, Dict, List, Optional, Union

import yaml

from .faults import BadAnswer
from .style import Tree
from .written import DEEPEST

_LOADER: Any = getattr(yaml, "CBaseLoader", yaml.BaseLoader)

# What is raised where a text has no trees, or not as many as are expected.
NO_TREES = (yaml.YAMLError, ValueError, BadAnswer)


class _Builder:
    """Makes the trees of a stream of events. It keeps its own stack, so no depth of a text can end the process."""

    def __init__(self) -> None:
        self.trees: List[Tree] = []
        self._open: List[Union[List[Tree], Dict[str, Tree]]] = []
        self._keys: List[Optional[str]] = []  # of each open mapping, the key whose value comes next

    def take(self, event: yaml.Event) -> None:
        if isinstance(event, yaml.ScalarEvent):
            _check_plain(event)
            self._put(event.value)
        elif isinstance(event, (yaml.SequenceStartEvent, yaml.MappingStartEvent)):
            _check_plain(event)
            if len(self._open) >= DEEPEST:
                raise BadAnswer(f"collections are nested more than {DEEPEST} deep")
            tree: Union[List[Tree], Dict[str, Tree]] = [] if isinstance(event, yaml.SequenceStartEvent) else {}
            self._put(tree)
            self._open.append(tree)
            self._keys.append(None)
        elif isinstance(event, (yaml.SequenceEndEvent, yaml.MappingEndEvent)):
            self._open.pop()
            self._keys.pop()
        elif isinstance(event, yaml.AliasEvent):
            raise BadAnswer("an alias is no tree")

    def _put(self, tree: Tree) -> None:
        if not self._open:
            self.trees.append(tree)
            return
        around, key = self._open[-1], self._keys[-1]
        if isinstance(around, list):
            around.append(tree)
        elif key is not None:
            around[key] = tree
            self._keys[-1] = None
        elif isinstance(tree, str) and tree not in around:
            self._keys[-1] = tree
        else:
            raise BadAnswer("a key is no text, or is there twice")


def _check_plain(event: Any) -> None:
    if event.anchor is not None or event.tag is not None:
        raise BadAnswer("an anchor or a tag is part of no tree")


def trees_of(text: Union[str, bytes]) -> List[Tree]:
    """The trees of a stream of documents in the one style. Raises `BadAnswer`, or what PyYAML raises, for others."""
    builder, loader = _Builder(), _LOADER(text)
    try:
        # Not by `yaml.parse`, which is a generator: what a signal's handler raises while one is closed would be lost.
        while loader.check_event():
            builder.take(loader.get_event())
    finally:
        loader.dispose()
    return builder.trees


def from_text(text: Union[str, bytes]) -> Tree:
    """The tree of a text in the one style. Texts of other styles are read by a store, with `import_text`."""
    trees = trees_of(text)
    if len(trees) != 1:
        raise BadAnswer("the text has no document, or more than one")
    return trees[0]
