"""Tasks of the Ansible collection, as its module performs them, where ansible-core is installed."""

from __future__ import annotations

import importlib
import os
import sys
from typing import Any

from .store_runs import PROGRAM, TOP

sys.path[:0] = [os.path.join(TOP, "python"), os.path.join(TOP, "clients", "ansible")]

PLUGINS = "ansible_collections.confstore.store.plugins"


def imported(name: str) -> Any:
    """A part of the collection, or None where Ansible isn't installed."""
    try:
        return importlib.import_module(f"{PLUGINS}.{name}")
    except ImportError:
        return None


module, stores = imported("modules.confstore"), imported("module_utils.stores")


def edit(**options: Any) -> dict[str, Any]:
    """An edit of a task, as Ansible gives it to the module."""
    if module is None:
        return options
    return {**{name: option.get("default") for name, option in module.EDIT_OPTIONS.items()}, **options}


class Options:
    """A module of Ansible, as far as a task looks at it."""

    check_mode = False

    def __init__(self, **options: Any) -> None:
        all_of_them = {name: option.get("default") for name, option in module.OPTIONS.items()}
        self.params = {**all_of_them, "program": PROGRAM, **options}
