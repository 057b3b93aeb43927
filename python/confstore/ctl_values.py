"""`get` of confstorectl with several pointers, or as variables; and `export --all`."""

from __future__ import annotations

import os
import re
from typing import Dict, List, Optional, Sequence, Tuple

from .commands import is_name, is_pointer
from .ctl_asked import Asked
from .ctl_faults import Fault, shown
from .ctl_history import tree_at
from .ctl_exchange import Exchange
from .ctl_outputs import has_form, in_form
from .ctl_program import run
from .ctl_render import put
from .ctl_streams import write
from .ctl_words import ALL, AT, ENVIRONMENT, JSON
from .pointers import pointer_of, steps_of, value_at
from .style import Tree, to_text

# What a variable of a shell may not have in its name, and what has a meaning within double quotes, both for sh
# (POSIX, 2.2.3) and in systemd's EnvironmentFile=.
_NO_NAME = re.compile("[^A-Za-z0-9_]")
_QUOTED = re.compile(r'["\\$`]')


def get_values(asked: Asked) -> int:
    """Writes several values of one configuration, of one moment. The status. Raises a `Fault`."""
    pointers = [asked.argument("POINTER"), *asked.repeated]
    for pointer in pointers:
        if not is_pointer(pointer):
            raise Fault("BadPath", f"{shown(pointer)}: begin the pointer with `/`")
    tree = _tree_of(asked)
    values = [(pointer, _value_at(tree, pointer)) for pointer in pointers]
    if asked.has(ENVIRONMENT):
        write(_variables([pair for pointer, value in values for pair in _texts_in(steps_of(pointer), value)]))
    else:
        write(b"".join(in_form(asked, value) for _, value in values))
    return 0


def _tree_of(asked: Asked) -> Tree:
    name = asked.arguments["NAME"]
    if not is_name(name):
        raise Fault("BadName")
    tree = tree_at(asked.folder, name, int(asked.options[AT.name])) if asked.has(AT) else Exchange(asked).tree(name)
    if tree is None:
        raise Fault("NoConfig")
    return tree


def _value_at(tree: Tree, pointer: str) -> Tree:
    value = value_at(tree, steps_of(pointer))
    if value is None:
        raise Fault("NoSuchPlace", f"nothing is at {shown(pointer)}")
    return value


def _texts_in(steps: Sequence[str], tree: Tree) -> List[Tuple[List[str], str]]:
    """The texts in a tree, each with the steps to it."""
    if isinstance(tree, str):
        return [(list(steps), tree)]
    parts = tree.items() if isinstance(tree, dict) else ((str(index), item) for index, item in enumerate(tree))
    return [pair for step, part in parts for pair in _texts_in([*steps, step], part)]


def _variables(texts: Sequence[Tuple[List[str], str]]) -> bytes:
    """Lines that set variables, for sh and for systemd. Raises the `Fault` of two that would have one name."""
    lines: Dict[str, str] = {}
    for steps, text in texts:
        name = _name_of(steps)
        if name in lines:
            raise Fault("NameTwice", f"{shown(pointer_of(steps))} and another place would both be the variable {name}")
        if "\0" in text:
            raise Fault("NoVariable", f"{shown(pointer_of(steps))} has the character 0, which no variable can have")
        lines[name] = '{}="{}"\n'.format(name, _QUOTED.sub(r"\\\g<0>", text))
    return "".join(lines.values()).encode()


def _name_of(steps: Sequence[str]) -> str:
    name = "_".join(_NO_NAME.sub("_", step) for step in steps)
    if not name:
        raise Fault("NoVariable", "a configuration that is a text has no key to name it by")
    return f"_{name}" if name[0].isdigit() else name


def export_all(asked: Asked) -> int:
    """Writes each configuration into a file of its own. The status. Raises a `Fault`."""
    exchange, folder = Exchange(asked), asked.options[ALL.name]
    ending = ".json" if asked.has(JSON) else ".yaml"
    trees: Dict[str, Optional[Tree]] = {name: exchange.tree(name) for name in exchange.names()}
    if _has_store(folder):
        raise Fault("StoreExists")
    try:
        os.makedirs(folder, exist_ok=True)
        for name, tree in trees.items():
            if tree is not None:
                text = in_form(asked, tree) if has_form(asked) else to_text(tree).encode()
                put(os.path.join(os.path.realpath(folder), name + ending), text)
    except OSError as error:
        raise Fault("Output", f"{shown(folder)}: {error.strerror}") from None
    return 0


def _has_store(folder: str) -> bool:
    """Whether the file of a store could be replaced in a folder, by that of a configuration."""
    is_there = os.path.lexists(os.path.join(folder, "store.yaml"))
    return is_there and not run(["names", "--", folder], None).has_fault("NotAStore")
