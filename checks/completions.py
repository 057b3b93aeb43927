#!/usr/bin/env python3
"""Presses keys in bash, zsh and fish, as far as they are installed, and looks at what their completions make of them.

Each shell runs in a terminal of its own with only the file of `completions/`. A line is typed up to a TAB, and the
words that it then has are those with which `confstore` is called. Some are pointers to keys that a shell would run,
expand or cut, if it took them as they are. Then the words that `confstore --help` lists are looked up in the three
files and in docs/man/confstore.1.

Run it from the repository's root after the program is built; it takes some seconds:

    ./prove && python3 checks/completions.py

The last line is 'N passed, M failed', and the status is 0 if M is 0.
"""

from __future__ import annotations

import os
import re
import shutil
import subprocess
import sys
import tempfile
from concurrent.futures import ThreadPoolExecutor

from lib.keys import FOLDER, SHELLS, press_for_last_word, press_keys, put_stand_in
from lib.store_runs import PROGRAM, TOP, Failures, need_program, session, write_file
from lib.typed_pointers import (
    LINES_OF_BASH, LINES_OF_POINTERS, LINES_WITHOUT_FISH, MADE, MORE_LINES_OF_POINTERS, put_keys,
)  # fmt: skip

PAGE = "docs/man/confstore.1"

# What is typed before a TAB, and the words that confstore is called with then.
LINES = [
    ("exp", "export"),
    ("ini", "init"),
    ("run --gr", "run --group"),
    ("run --group sto", "run --group store"),
    ("export sto", "export store"),
    ("export --al", "export --all"),
    ("export --all sto", "export --all store"),
    ("export --all store sto", "export --all store store"),
    ("set --ya", "set --yaml"),
    ("import store app fil", "import store app file.yaml"),
    ("bat", "batch"),
    ("batch --if-c", "batch --if-count"),
    ("batch --abo", "batch --about"),
    ("batch --about by=ann sto", "batch --about by=ann store"),
    ("set --abo", "set --about"),
    ("set --about by=ann store we", "set --about by=ann store web"),
    ("batch store fil", "batch store file.yaml"),
    ("verif", "verify"),
    ("log --ya", "log --yaml"),
    ("log --va", "log --values"),
    ("log --js", "log --json"),
    ("log --abo", "log --about"),
    ("log --about by sto", "log --about by store"),
    ("dif", "diff"),
    ("diff --fro", "diff --from"),
    ("diff --from 1 sto", "diff --from 1 store"),
    ("diff store we", "diff store web"),
    ("diff --fil", "diff --files"),
    ("diff --files fil", "diff --files file.yaml"),
    ("diff --files file.yaml fil", "diff --files file.yaml file.yaml"),
    ("get --at 1 --ra", "get --at 1 --raw"),
    ("get store we", "get store web"),
    ("get --at 1 store we", "get --at 1 store web"),
    ("export store ap", "export store app"),
    ("salvage store sto", "salvage store store"),
    ("format --in", "format --in-place"),
    ("format -i fil", "format -i file.yaml"),
    ("check fil", "check file.yaml"),
    ("import --ini", "import --init"),
    ("set --who", "set --whole"),
    ("delete --who", "delete --whole"),
    ("checkpoint --wa", "checkpoint --wait"),
    ("check --exp", "check --explain"),
    ("format -i --dro", "format -i --drop-comments"),
    ("check --kee", "check --keep-comments"),
]


def store_with_names(top: str) -> None:
    folder = os.path.join(top, "store")
    os.mkdir(folder)
    session(folder, b"import: web\ntext: x\n...\nimport: app\ntext: x\n...\n")
    write_file(os.path.join(top, "file.yaml"), b"a: b\n")


def look_up_words(failures: Failures) -> None:
    """Each word of the program is completed, and is in its page."""
    printed = subprocess.run([PROGRAM, "--help"], capture_output=True, check=True).stdout.decode()
    listed = printed.partition("Commands:\n")[2].partition("\n\n")[0]
    words = set(re.findall(r"(?m)^  (\S+)", listed))
    failures.expect("words in the help", bool(words), True)
    for file in ("completions/confstore.bash", "completions/_confstore", "completions/confstore.fish", PAGE):
        with open(os.path.join(TOP, file), encoding="utf-8") as source:
            text = source.read()
        lacking = {word for word in words - {"help"} if not re.search(rf"\b{word}\b", text)}
        failures.expect(f"words that {file} lacks", lacking, set())
    with open(os.path.join(FOLDER, "confstore.bash"), encoding="utf-8") as source:
        found = re.search(r"_confstore_words='(.*)'", source.read())
    if found is None:
        sys.exit("completions/confstore.bash has no list _confstore_words")
    completed = set(found[1].split())
    if completed - words - {"help"}:
        print(f"completed, but not in this program: {' '.join(sorted(completed - words - {'help'}))}")


def type_pointers(shell: str, top: str, programs: str, failures: Failures) -> None:
    lines = [*LINES_OF_POINTERS, *MORE_LINES_OF_POINTERS]
    lines += LINES_WITHOUT_FISH if shell != "fish" else []
    lines += LINES_OF_BASH if shell == "bash" else []
    press_for_last_word(shell, "confstore", lines, top, programs, failures)


def main() -> int:
    need_program()
    failures = Failures()
    with tempfile.TemporaryDirectory() as top:
        store_with_names(top)
        programs = os.path.join(top, "bin")
        os.mkdir(programs)
        put_stand_in(programs, "confstore")
        there = [shell for shell in SHELLS if shutil.which(shell)]
        print("".join(f"left out: {shell}\n" for shell in SHELLS if shell not in there), end="")
        with ThreadPoolExecutor() as pool:
            list(pool.map(lambda shell: press_keys(shell, "confstore", LINES, top, programs, failures), there))
        room = os.path.join(top, "pointers")
        os.makedirs(os.path.join(room, "store"))
        put_keys(top, os.path.join(room, "store"))
        with ThreadPoolExecutor() as pool:
            list(pool.map(lambda shell: type_pointers(shell, room, programs, failures), there))
        failures.expect("files that keys made", [file for file in os.listdir(room) if MADE in file], [])
    look_up_words(failures)
    return failures.report()


if __name__ == "__main__":
    sys.exit(main())
