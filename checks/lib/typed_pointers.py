"""Pointers that are typed in bash, zsh and fish up to a TAB, and what completions make of them.

The keys of the store are such that a shell which took one as it is would run it, expand it, or cut it into words.
"""

from __future__ import annotations

import json
import os
import subprocess

from .store_runs import PROGRAM, write_file

# What some keys would make if a shell ran them.
MADE = "made-by-a-key"

TREE: dict[str, object] = {
    "port": "80",
    "tls": {"key": "a", "cert": "b"},
    "one": ["x"],
    f"$(touch {MADE})": "x",
    f"`touch {MADE}`": {"$HOME": "x"},
    "*.yaml": "x",
    "globs": {"*.yaml": "x"},
    "q\"u'o": "x",
    '"first': "x",
    "new\nline": "x",
    "htab\there": "x",
    "step": {"\u009b\u0001\\": "x"},
    "sl/ash~tilde": "x",
    "ba\\ck": "x",
    "co:lon=1": "x",
    "co:lon=2": "x",
    "word one": "x",
    "word two": "x",
    "!bang": "x",
    "{a,b}": "x",
    "x;y|z&w": "x",
    "ümlaut ß": "x",
    "&": {" a": "x", "$b": "x"},
}

# What is typed before a TAB, the last word that the program is called with then, and what is typed behind the TAB.
LINES_OF_POINTERS = [
    ("get store web /po", "/port", ""),
    ("set store web /tls/ce", "/tls/cert", ""),
    ("delete store web /tl", "/tls", ""),
    ("delete store web /tl", "/tls/key", "key"),
    ("keys store web /on", "/one", ""),
    ("exists store web '/po", "/port", ""),
    ("get store web /port /tls/ce", "/tls/cert", ""),
    ("move store web /po", "/port", ""),
    ("move store web /port /tls/ce", "/tls/cert", ""),
    ("log store web --values --hide /tls/ke", "/tls/key", ""),
    ("get --at 1 store web /tls/ce", "/tls/cert", ""),
    ("get ~/store web /po", "/port", ""),
    ("get store web /\\$", f"/$(touch {MADE})", ""),
    ("get store web /\\`", f"/`touch {MADE}`", ""),
    ("get store web /new", "/new\nline", ""),
    ("get store web /sl", "/sl~1ash~0tilde", ""),
    ("get store wbe /po", "/po", ""),
]

# More keys, places that are not there, and `-` for the end of a list.
MORE_LINES_OF_POINTERS = [
    ("get store web '/$", f"/$(touch {MADE})", ""),
    ('get store web "/\\$', f"/$(touch {MADE})", ""),
    (f"get store web '/`touch {MADE}`/", f"/`touch {MADE}`/$HOME", ""),
    ("get store web /globs/", "/globs/*.yaml", ""),
    ("get store web /q", "/q\"u'o", ""),
    ("get store web '/q", "/q\"u'o", ""),
    ('get store web "/q', "/q\"u'o", ""),
    ('get store web /\\"', '/"first', ""),
    ("get store web '/new", "/new\nline", ""),
    ("get store web /ba", "/ba\\ck", ""),
    ('get store web "/ba', "/ba\\ck", ""),
    ("get store web /step/", "/step/\u009b\u0001\\", ""),
    ("get store web /sl~1a", "/sl~1ash~0tilde", ""),
    ("get store web /co", "/co:lon=1", "1"),
    ("get store web /co:lon=2", "/co:lon=2", ""),
    ("get store web /wo", "/word two", "two"),
    ("get store web /word\\ t", "/word two", ""),
    ("get store web /\\!", "/!bang", ""),
    ("get store web /\\{", "/{a,b}", ""),
    ("get store web /x", "/x;y|z&w", ""),
    ("get store web /üm", "/ümlaut ß", ""),
    ("get 'store' web /tls/ce", "/tls/cert", ""),
    ("set store web /port /po", "/po", ""),
    ("get nostore web /po", "/po", ""),
    ("get store web /none/po", "/none/po", ""),
    ("get store web /port/po", "/port/po", ""),
    ("get store web po", "po", ""),
    ("get store web /port /many/", "/many/kx", "x"),
]

# fish takes what is behind a TAB of a candidate for a description, puts no space behind a `-`, and completes no word
# with a `*`.
LINES_WITHOUT_FISH = [
    ("get store web /\\*", "/*.yaml", ""),
    ("get store web '/*", "/*.yaml", ""),
    ("get store web /ht", "/htab\there", ""),
    ("set store web /one/-", "x", "x"),
    ("set store web /tls/-", "/tls/-x", "x"),
    ("get store web /one/-", "/one/-x", "x"),
    ("move store web /port /one/-", "x", "x"),
]

# Keys that have nothing but a backslash in common once they are quoted.
LINES_OF_BASH = [("get store web /\\&/", "/&/", "")]


def put_keys(top: str, folder: str) -> None:
    """Puts a configuration `web` with such keys into the store in a folder."""
    many = dict.fromkeys([*(f"k{number}" for number in range(1000)), "other"], "x")
    tree: dict[str, object] = {**TREE, "many": many}
    path = os.path.join(top, "keys.yaml")
    write_file(path, json.dumps(tree).encode())
    subprocess.run([PROGRAM, "import", "--init", folder, "web", path], check=True)
