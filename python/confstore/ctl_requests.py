"""The commands of a session by which the words of confstorectl are done."""

from __future__ import annotations

import re

from .commands import CHECKPOINT, NAMES, delete_of, get_of, import_of, is_name, set_of
from .ctl_faults import REFUSED, TextFault, shown
from .ctl_outputs import has_form
from .ctl_program import styled
from .ctl_streams import MOST_INPUT
from .ctl_words import ANY_ROOT, CONDITIONS, YAML_VALUE
from .pieces import LONGEST_COMMAND

TYPE_CHECKING = False  # PyYAML and conditions take longer to import than all of this
if TYPE_CHECKING:
    from collections.abc import Callable

    from .ctl import Work
    from .ctl_program import Source
    from .ctl_sockets import Command
    from .style import Tree

# How many bytes a character of a text has at most in a command.
LONGEST_CHARACTER = 6

# The text of an empty list.
EMPTY = "[]\n"

# What is said of a text that is one value alone.
ONE_VALUE = "neither a mapping nor a list"

# Where a comment begins behind something else.
COMMENT = re.compile(rb"[ \t]#")


def request_of(work: Work) -> Command:
    """The command of a word. Raises the `Fault` of a text that is refused."""
    command = _COMMANDS[work.asked.word.name](work)
    if not any(work.asked.has(option) for option in CONDITIONS):
        return command
    from .conditions import under
    from .ctl_changes import conditions_of

    return under(conditions_of(work.asked), command)


def _import_command(work: Work) -> Command:
    """The import of the text. One that is not UTF-8, or that is longer than a command as it stands, is looked at by the
    program."""
    assert work.text is not None
    if not work.asked.has(ANY_ROOT):
        refuse_one_value(work.text, work.source)
    name = work.asked.arguments["NAME"]
    if not is_name(name):
        return import_of(name, EMPTY)  # so that the name is what is refused
    try:
        text = work.text.decode()
    except UnicodeDecodeError:
        text = styled(work.text, work.source).decode()
    if len(text) * LONGEST_CHARACTER > LONGEST_COMMAND:
        text = styled(work.text, work.source).decode()
    return import_of(name, text)


def refuse_one_value(text: bytes, source: Source) -> None:
    """Raises the `Fault` of a text that is one value alone. The program reads one that may be; a text that gives no tree
    is left to who imports it."""
    if _begins_more(text):
        return
    from .ctl_texts import tree_of

    try:
        tree = tree_of(text, source)
    except TextFault:
        return
    if isinstance(tree, str):
        lines = f"{shown(source.name)}: OneValue ({ONE_VALUE})\n"
        if source.is_explained:
            lines += f"help: a configuration is mostly a mapping; {ANY_ROOT.name} takes one value, too\n"
        raise TextFault(lines, REFUSED)


def _begins_more(text: bytes) -> bool:
    """Whether the first line of a text that is no comment begins a mapping or a list, if the text is not refused."""
    for line in text.split(b"\n"):
        line = COMMENT.split(line, maxsplit=1)[0].rstrip()
        if not line or line == b"---" or line.lstrip().startswith(b"#") or line.startswith(b"%"):
            continue
        line = line.lstrip()
        is_mapping = b": " in line or line.endswith(b":")
        return line.startswith((b"- ", b"{", b"[", b"? ")) or (is_mapping and line[:1] not in b"\"'|>-\xef")
    return False


def _set_command(work: Work) -> Command:
    given = work.asked.arguments
    return set_of(given["NAME"], given["POINTER"], _value_of(work))


def _value_of(work: Work) -> Tree:
    """The value that is to be set. A file that is not UTF-8, or that is too long, is refused by the program."""
    if work.text is None:
        return work.asked.arguments["VALUE"]
    if work.asked.has(YAML_VALUE):
        from .ctl_texts import tree_of

        return tree_of(work.text, work.source)
    try:
        if len(work.text) < MOST_INPUT:
            return work.text.decode()
    except UnicodeDecodeError:
        pass
    return styled(work.text, work.source).decode()


def _batch_command(work: Work) -> Command:
    from .ctl_texts import edits_of

    assert work.text is not None
    return {"batch": edits_of(work.text, work.source)}


def _export_command(work: Work) -> Command:
    name = work.asked.arguments["NAME"]
    return get_of(name, "") if has_form(work.asked) else {"export": name}


_COMMANDS: dict[str, Callable[[Work], Command]] = {
    "import": _import_command,
    "set": _set_command,
    "batch": _batch_command,
    "delete": lambda work: delete_of(work.asked.arguments["NAME"], work.asked.argument("POINTER")),
    "get": lambda work: get_of(work.asked.arguments["NAME"], work.asked.argument("POINTER")),
    "keys": lambda work: get_of(work.asked.arguments["NAME"], work.asked.argument("POINTER")),
    "exists": lambda work: get_of(work.asked.arguments["NAME"], work.asked.argument("POINTER")),
    "export": _export_command,
    "names": lambda _: dict(_mapping(NAMES)),
    "checkpoint": lambda _: dict(_mapping(CHECKPOINT)),
}


def _mapping(command: Tree) -> Command:
    assert isinstance(command, dict)
    return command


