"""The word `import` of confstorectl for texts of other formats: they are read here, and the program reads what comes of
them."""

from __future__ import annotations

import os
import re
import stat
from typing import Dict, List, NamedTuple, Tuple

from .commands import import_of, is_name
from .conditions import Condition, at_place, under
from .ctl_asked import Asked, wrong
from .ctl_changes import conditions_of
from .ctl_check import change
from .ctl_exchange import Exchange
from .ctl_faults import Fault, TextFault, hint_of, shown, unread
from .ctl_program import Source, styled
from .ctl_requests import ONE_VALUE
from .ctl_sockets import Command
from .ctl_streams import MOST_INPUT, read_text, write_error
from .ctl_words import ANY_ROOT, DIR, DOCUMENT, EXPLAIN, FORMAT, IF_ABSENT, IF_COUNT, IF_VALUE, IMPORT, PLANNED
from .ctl_words import SPLIT
from .faults import ConfstoreError
from .foreign import Document, Notes, Unread
from .style import Tree, to_text

# Of each format, the endings of the files that `--dir` takes.
ENDINGS: Dict[str, Tuple[str, ...]] = {
    "yaml": (".yaml", ".yml"),
    "toml": (".toml",),
    "ini": (".ini", ".cfg", ".conf"),
    "env": (".env",),
    "properties": (".properties",),
    "json5": (".json5", ".json", ".jsonc"),
}

# What stands in NAME for the number of a document, and for the name of a file.
NUMBER, FILE = "{n}", "{file}"


class Imported(NamedTuple):
    """A configuration that is to be imported, and the text of its tree."""

    name: str
    text: str


def check_import(asked: Asked) -> None:
    """Raises `WrongWords` for options of an import that do not go together."""
    of_format = asked.options.get(FORMAT.name)
    if of_format is None:
        other = next((option for option in (DOCUMENT, SPLIT, DIR) if asked.has(option)), None)
        if other:
            raise wrong(f"{other.name} needs {FORMAT.name}", IMPORT)
        return
    if of_format not in ENDINGS:
        raise wrong(f"{FORMAT.name} takes {', '.join(ENDINGS)}, not {shown(of_format)}", IMPORT)
    if of_format != "yaml" and (asked.has(DOCUMENT) or asked.has(SPLIT)):
        raise wrong(f"only {FORMAT.name} yaml has more than one document", IMPORT)
    if asked.has(DIR) and "FILE" in asked.arguments:
        raise wrong(f"{DIR.name} takes the place of FILE", IMPORT)
    name = asked.arguments["NAME"]
    for option, part in ((SPLIT, NUMBER), (DIR, FILE)):
        if asked.has(option) != (part in name):
            raise wrong(f"{option.name} and a NAME with {part} need each other, as in web-{part}", IMPORT)
    if asked.has(IF_VALUE) and (asked.has(SPLIT) or asked.has(DIR)):
        raise wrong(f"{IF_VALUE.name} is of one configuration", IMPORT)


def import_foreign(asked: Asked) -> int:
    """Imports texts of another format. The status. Raises a `Fault`."""
    check_import(asked)
    found = _imports_of(asked)
    edits: List[Tree] = [import_of(*one) for one in found]
    has_many = asked.has(SPLIT) or asked.has(DIR)
    command: Command = {"batch": edits} if has_many else import_of(*found[0])
    conditions = _conditions_of(asked, found) if has_many else conditions_of(asked)
    if any(asked.has(option) for option in PLANNED):
        return change(asked, command, conditions)
    Exchange(asked).ask(under(conditions, command))
    return 0


def _conditions_of(asked: Asked, found: List[Imported]) -> List[Condition]:
    """The conditions of an import of several configurations."""
    conditions = [one for name, _ in found for one in at_place(name, "", if_absent=asked.has(IF_ABSENT))]
    return conditions + (at_place("", "", if_count=int(asked.options[IF_COUNT.name])) if asked.has(IF_COUNT) else [])


def _imports_of(asked: Asked) -> List[Imported]:
    """The configurations of all files, each of another name."""
    files: Dict[str, str] = {}
    found = [(file, one) for name, file in _files_of(asked) for one in _imports_of_file(asked, name, file)]
    for file, one in found:
        if one.name in files:
            raise Fault("BadName", f"{shown(files[one.name])} and {shown(file)} both give {one.name}")
        files[one.name] = file
    if not found:
        raise Fault("NothingToImport")
    return [one for _, one in found]


def _files_of(asked: Asked) -> List[Tuple[str, str]]:
    """The names and the files: one, or those of a folder that have an ending of the format."""
    name, folder = asked.arguments["NAME"], asked.options.get(DIR.name)
    if folder is None:
        return [(name, asked.argument("FILE") or "-")]
    try:
        files = sorted(entry.name for entry in os.scandir(folder) if stat.S_ISREG(entry.stat().st_mode))
    except OSError as error:
        raise unread(folder, error) from None
    endings = ENDINGS[asked.options[FORMAT.name]]
    taken = [file for file in files if file.lower().endswith(endings) and not file.startswith(".")]
    if len(taken) < len(files):
        left = len(files) - len(taken)
        write_error(f"{shown(folder)}: left out {left} {'file' if left == 1 else 'files'} of another ending\n")
    return [(name.replace(FILE, _name_of(file)), os.path.join(folder, file)) for file in taken]


def _name_of(file: str) -> str:
    """The name of a file without its ending, in the signs that the name of a configuration has."""
    return re.sub(r"[^a-z0-9_-]+", "-", os.path.splitext(file)[0].lower())


def _imports_of_file(asked: Asked, name: str, file: str) -> List[Imported]:
    """The configurations that a file gives."""
    try:
        text = read_text(file)
    except OSError as error:
        raise unread(file, error) from None
    try:
        numbered = _documents_of(asked, text)
        return [_imported(asked, name.replace(NUMBER, str(number)), file, one) for number, one in numbered]
    except Unread as fault:
        raise TextFault(f"{fault.line_of(shown(file))}\n", Fault(fault.name).status) from None


def _documents_of(asked: Asked, text: bytes) -> List[Tuple[int, Document]]:
    """The documents of a text that are imported, with their numbers from 1."""
    documents = list(enumerate(_read(asked.options[FORMAT.name], text), 1))
    if asked.has(DOCUMENT):
        number = int(asked.options[DOCUMENT.name])
        if not 1 <= number <= len(documents):
            raise Unread("Documents", f"it has {len(documents)}, and not number {number}")
        return [documents[number - 1]]
    full = [(number, document) for number, document in documents if document.tree is not None]
    if asked.has(SPLIT) or len(full) == 1:
        return full
    if not full:
        raise Unread("Documents", "none that is not empty")
    remedy = f"take one by {DOCUMENT.name} N, or all by {SPLIT.name} and a NAME with {NUMBER}"
    raise Unread("Documents", f"{len(full)}: {remedy}")


def _read(of_format: str, text: bytes) -> List[Document]:
    """The documents of a text of a format."""
    if len(text) >= MOST_INPUT:
        raise Unread("TooLong", "it has over 4,194,304 bytes")
    try:
        plain = text.decode("utf-8-sig")
    except UnicodeDecodeError as error:
        line = text.count(b"\n", 0, error.start) + 1
        raise Unread("NotUtf8", f"byte {text[error.start]:02X}", line, 1) from None
    if of_format == "yaml":
        from .foreign_yaml import read_yaml

        return read_yaml(plain)
    return [Document(_tree_of(of_format, plain), Notes())]


def _tree_of(of_format: str, text: str) -> Tree:
    if of_format == "toml":
        from .foreign_toml import read_toml

        return read_toml(text)
    if of_format == "json5":
        from .foreign_json5 import read_json5

        return read_json5(text)
    from .foreign_flat import READERS

    return READERS[of_format](text)


def _imported(asked: Asked, name: str, file: str, document: Document) -> Imported:
    """What a document gives, after the program has read it. What was expanded or dropped is told."""
    if isinstance(document.tree, str) and not asked.has(ANY_ROOT):
        raise Unread("OneValue", f"{ONE_VALUE}; {ANY_ROOT.name} takes it")
    if not is_name(name):
        raise Fault("BadName", f"{shown(name)}, of {shown(file)}: {hint_of('BadName')}")
    try:
        text = to_text(document.tree if document.tree is not None else "").encode()
    except ConfstoreError as error:
        raise Unread(type(error).__name__, shown(str(error))) from None
    told = styled(text, Source(f"{file}, as YAML", asked.has(EXPLAIN)))
    write_error("".join(f"{line}\n" for line in document.notes.lines(shown(file))))
    return Imported(name, told.decode())
