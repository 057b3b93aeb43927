"""What the words of confstorectl that read write of an answer, as confstore does."""

from __future__ import annotations

from .ctl_asked import Asked
from .ctl_faults import Fault
from .ctl_words import DEFAULT, JSON, NO_NEWLINE, PLAIN, RAW

TYPE_CHECKING = False  # `style` is imported by what writes another form than the one that came
if TYPE_CHECKING:
    import re
    from collections.abc import Callable, Sequence

    from .ctl_sockets import Reply
    from .hidden import Hidden
    from .style import Tree

# What stands for a value that is hidden, and what it is in a tree until it is written.
MARK = "hidden"
_HIDDEN = "\0hidden"

# The letters of JSON's escapes (RFC 8259, 7).
_LETTERS = {"\b": "b", "\t": "t", "\n": "n", "\f": "f", "\r": "r", '"': '"', "\\": "\\"}


def json_text(tree: Tree) -> str:
    """A tree as a JSON text on one line: what the one style spells in double quotes is an escape."""
    from .style import SPELLED

    if isinstance(tree, str):
        return f'"{SPELLED.sub(_json_escape, tree)}"'
    if isinstance(tree, list):
        return f"[{','.join(map(json_text, tree))}]"
    return f"{{{','.join(f'{json_text(key)}:{json_text(value)}' for key, value in tree.items())}}}"


def _json_escape(found: re.Match[str]) -> str:
    sign = found.group()
    return f"\\{_LETTERS[sign]}" if sign in _LETTERS else f"\\u{ord(sign):04X}"


def json_shown(steps: Sequence[str], tree: Tree, hidden: Hidden) -> str:
    """The value at a place as a JSON text, but for what is hidden of it."""
    from .hidden import Hiding, shown

    hiding = Hiding(steps, hidden)
    if hiding.is_whole:
        return MARK
    return json_text(shown(tree, hiding.hidden, _HIDDEN)).replace(json_text(_HIDDEN), MARK)


def json_line(tree: Tree) -> bytes:
    """The same with a line feed after it."""
    return f"{json_text(tree)}\n".encode()


def _raw(asked: Asked, tree: Tree) -> bytes:
    if not isinstance(tree, str):
        raise Fault("NotText")
    end = "" if asked.has(NO_NEWLINE) else "\n"
    return f"{tree}{end}".encode()


def _value(asked: Asked, reply: Reply) -> bytes:
    return in_form(asked, reply.tree()) if has_form(asked) else reply.styled()


def in_form(asked: Asked, tree: Tree) -> bytes:
    """A tree in the form that is asked for."""
    from .style import to_plain_text, to_text

    if asked.has(JSON):
        return json_line(tree)
    if asked.has(RAW):
        return _raw(asked, tree)
    return (to_plain_text(tree) if asked.has(PLAIN) else to_text(tree)).encode()


def has_form(asked: Asked) -> bool:
    """Whether another form than the one style is asked for."""
    return asked.has(JSON) or asked.has(RAW) or asked.has(PLAIN)


def _text(asked: Asked, reply: Reply) -> bytes:
    if has_form(asked):
        return in_form(asked, reply.tree())
    text = reply.tree()
    if not isinstance(text, str):
        raise Fault("BadAnswer", "the text of an export is a collection")
    return text.encode()


def _names(asked: Asked, reply: Reply) -> bytes:
    names = reply.tree()
    if not isinstance(names, list) or not all(isinstance(name, str) for name in names):
        raise Fault("BadAnswer", "the names are no list of texts")
    return json_line(names) if asked.has(JSON) else "".join(f"{name}\n" for name in names).encode()


def _keys(_asked: Asked, reply: Reply) -> bytes:
    tree = reply.tree()
    if isinstance(tree, str):
        raise Fault("NotCollection")
    keys = map(str, range(len(tree))) if isinstance(tree, list) else map(_key_line, tree)
    return "".join(f"{key}\n" for key in keys).encode()


def _key_line(key: str) -> str:
    """A key as it is, or in double quotes where that would be no line of its own."""
    from .style import SPELLED, quoted

    is_line = key != "" and key[0] != '"' and SPELLED.search(key.replace('"', "").replace("\\", "")) is None
    return key if is_line else quoted(key)


_OUTPUTS: dict[str, Callable[[Asked, Reply], bytes]] = {
    "get": _value, "export": _text, "names": _names, "keys": _keys,
}  # fmt: skip


def output_of(asked: Asked, reply: Reply) -> bytes:
    """What a word writes of the answer to it."""
    write = _OUTPUTS.get(asked.word.name)
    return write(asked, reply) if write else b""


def output_of_default(asked: Asked) -> bytes | None:
    """What a word writes where nothing is at the place, or None where that is a fault."""
    if not asked.has(DEFAULT):
        return None
    return in_form(asked, asked.options[DEFAULT.name])
