"""Holds a confstore store: named configuration trees that survive a crash at any moment.

    from confstore import Store

    with Store("/var/lib/app", make=True) as store:
        store["web"] = {"port": "80", "hosts": ["a", "b"]}
        store.set("web", "/port", "81")
        print(store.get("web", "/port"))

A `Store` is a mapping of names to configurations. A tree is a str, a list of trees, or a dict of str to trees. The
package starts `confstore run --group` and speaks to it in YAML documents; what it promises of the disk is that
session's promise. See `Store`, `AsyncStore` and `Reader` here, and `confstore.faults` for what can go wrong.
"""

TYPE_CHECKING = False
if TYPE_CHECKING:
    from . import faults
    from .awaited import AsyncBatch, AsyncStore
    from .conditions import Absent, Condition, Count, Test
    from .faults import *  # noqa: F403
    from .faults import ConfstoreError, Refused, SessionEnded
    from .following import Changes, Cut, Replaced
    from .reader import Reader, View
    from .records import Edit, Record
    from .store import Batch, Store
    from .style import Tree, document, to_text
    from .texts import Place
    from .trees import from_text

__version__ = "0.7.2"

# What `help` shows, in this order. The other exceptions are in `faults`, and can be imported from here too.
__all__ = [
    "Store", "Batch", "AsyncStore", "AsyncBatch", "Test", "Absent", "Count", "Condition", "Reader", "View", "Changes",
    "Cut", "Replaced", "Record", "Edit", "Place", "Tree", "document", "from_text", "to_text", "ConfstoreError",
    "Refused", "SessionEnded",
]  # fmt: skip

# Where each of them is. It is imported once it is asked for: who wants little waits for little.
_MODULES = {
    "Store": "store", "Batch": "store", "AsyncStore": "awaited", "AsyncBatch": "awaited", "Test": "conditions",
    "Absent": "conditions", "Count": "conditions", "Condition": "conditions", "Reader": "reader", "View": "reader",
    "Changes": "following", "Cut": "following", "Replaced": "following", "Record": "records", "Edit": "records",
    "Place": "texts", "Tree": "style", "document": "style", "to_text": "style", "from_text": "trees",
}  # fmt: skip


if not TYPE_CHECKING:

    def __getattr__(name: str) -> object:
        """A name of the package, of a module that is imported now."""
        from importlib import import_module

        if name == "faults":
            return import_module(".faults", __name__)
        if name not in _MODULES and name not in import_module(".faults", __name__).__all__:
            raise AttributeError(f"module {__name__!r} has no attribute {name!r}")
        found = globals()[name] = getattr(import_module(f".{_MODULES.get(name, 'faults')}", __name__), name)
        return found

    def __dir__() -> "list[str]":
        return sorted({*globals(), *__all__, "faults", *__getattr__("faults").__all__})
