"""Stores as mappings of names to configurations."""

from __future__ import annotations

from typing import Any, Iterator, ItemsView, List, Mapping, Tuple, TypeVar, Union, ValuesView, overload

from .faults import BadName, NoConfig, NoSuchPlace, NotAText, NotIndex, NotText
from .style import Tree

D = TypeVar("D")


class Missing:
    """Stands for what is not there."""


#: A default that is not given.
MISSING: Any = Missing()
MISSING_HERE = Missing()

# A pointer at which hardly any configuration has something, so that the answer is short.
NOWHERE = "/"


def text_at(name: str, path: str, tree: Tree) -> str:
    """The text that was found at a path. Raises `NotAText` where it is none."""
    if not isinstance(tree, str):
        raise NotAText(name, path, "list" if isinstance(tree, list) else "mapping")
    return tree


class Configurations(Mapping[str, Tree]):
    """What can be read as a mapping of names to configurations, by `names` and by `get` of a path.

    A store is equal to itself alone: compare `dict(store)` where the configurations are meant.
    """

    __eq__ = object.__eq__
    __hash__ = object.__hash__

    def names(self) -> List[str]:
        """The names of the configurations, in order."""
        raise NotImplementedError

    def _read_at(self, name: str, path: str) -> Tree:
        """The tree at a path of a configuration."""
        raise NotImplementedError

    @overload  # type: ignore[override]
    def get(self, name: str, path: str = "") -> Tree: ...

    @overload
    def get(self, name: str, path: str = "", *, default: D) -> Union[Tree, D]: ...

    def get(self, name: str, path: str = "", *, default: Any = MISSING) -> Any:
        """The tree at a path (RFC 6901) of a configuration, which is the whole of it if the path is empty.

        Where no configuration has the name, or nothing is at the path, this returns `default` if one is given, and
        raises `NoConfig` or `NoSuchPlace` if none is. It differs from the `get` of a dict so: the second argument is
        the path, `default` is given by its name, and nothing is returned in its place.
        """
        try:
            return self._read_at(name, path)
        except (BadName, NoConfig, NoSuchPlace):
            if default is MISSING:
                raise
            return default

    @overload
    def get_text(self, name: str, path: str = "") -> str: ...

    @overload
    def get_text(self, name: str, path: str = "", *, default: D) -> Union[str, D]: ...

    def get_text(self, name: str, path: str = "", *, default: Any = MISSING) -> Any:
        """The text at a path of a configuration, read as by `get`. Raises `NotAText` where a list or a mapping is."""
        if default is MISSING:
            return text_at(name, path, self.get(name, path))
        tree = self.get(name, path, default=MISSING_HERE)
        return default if isinstance(tree, Missing) else text_at(name, path, tree)

    def __getitem__(self, name: str) -> Tree:
        return self._read_at(name, "")

    def __contains__(self, name: object) -> bool:
        """Whether a configuration has the name. It is one question with a short answer, however much the store has."""
        if not isinstance(name, str):
            return False
        try:
            self._read_at(name, NOWHERE)
        except (NoConfig, BadName, NotText):
            return False
        except (NoSuchPlace, NotIndex):
            pass
        return True

    def __iter__(self) -> Iterator[str]:
        return iter(self.names())

    def __len__(self) -> int:
        return len(self.names())

    def items(self) -> ItemsView[str, Tree]:
        """A view of the names with their configurations. Each is read when it is reached, so together they may be no
        state that the store had; a configuration that is deleted in the meantime is left out."""
        return _Items(self)

    def values(self) -> ValuesView[Tree]:
        """A view of the configurations, read as by `items`."""
        return _Values(self)


class _Items(ItemsView[str, Tree]):
    _mapping: Configurations

    def __contains__(self, item: object) -> bool:
        if not isinstance(item, tuple) or len(item) != 2 or not isinstance(item[0], str):
            return False
        return bool(self._mapping.get(item[0], default=MISSING_HERE) == item[1])

    def __iter__(self) -> Iterator[Tuple[str, Tree]]:
        for name in self._mapping:
            tree = self._mapping.get(name, default=MISSING_HERE)
            if not isinstance(tree, Missing):
                yield name, tree


class _Values(ValuesView[Tree]):
    _mapping: Configurations

    def __contains__(self, tree: object) -> bool:
        return any(tree == value for value in self)

    def __iter__(self) -> Iterator[Tree]:
        return (tree for _, tree in _Items(self._mapping))
