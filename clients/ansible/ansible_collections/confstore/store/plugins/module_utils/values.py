"""Values of a store, with a default where there is none."""

from __future__ import annotations

from typing import Any

from ansible_collections.confstore.store.plugins.module_utils.faults import Fault
from ansible_collections.confstore.store.plugins.module_utils.pointers import Missing, steps_of, value_at
from ansible_collections.confstore.store.plugins.module_utils.stores import Store

#: A default that is not given.
NONE_GIVEN: Any = object()


def read_value(store: Store, name: str, path: str, default: Any = NONE_GIVEN) -> Any:
    """The tree at a path of a configuration, or the default. Raises `Fault` where neither is there."""
    steps = steps_of(name, path)
    tree = store.read(name)
    try:
        if tree is not None:
            return value_at(tree, steps)
    except Missing:
        pass
    except Fault as fault:
        raise Fault(fault.name, f"{path!r} of {name!r}") from None
    if default is not NONE_GIVEN:
        return default
    about = f"{path!r} of {name!r}" if path else f"{name!r}"
    raise Fault("NoConfig" if tree is None else "NoSuchPlace", about)
