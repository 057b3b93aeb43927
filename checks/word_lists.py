#!/usr/bin/env python3
"""Gives random lists of words to two programs, and compares what they make of them.

    checks/word_lists.py OTHER [LISTS [SEED]]

OTHER is a program of other sources that should take the same words, as the released one of an older commit. The program
beside it is the one that was built here, or the environment's CONFSTORE. Each list is given to both in an empty folder.
Where one of them has the status 2, for wrong words, or shows help, both have to, and to write the same. What words do
that are right is not compared: they name folders and files that are not there. Lists have empty words, `--`, options
behind it, options given twice or cut short, numbers at their limits, and words that begin with `-`.

The last line is 'N lists, M differ'; the status is 0 if M is 0.
"""

from __future__ import annotations

import os
import random
import subprocess
import sys
import tempfile

from lib.command_line import number_given, seed_given
from lib.store_runs import PROGRAM, need_program

OPTIONS = {
    "init": "wait=",
    "import": "init any-root explain if-value= if-absent if-count= wait=",
    "set": "yaml file= parents insert whole explain if-value= if-absent if-count= wait=",
    "delete": "whole if-value= if-absent if-count= wait=",
    "copy": "replace if-value= if-absent if-count= wait=",
    "rename": "if-value= if-absent if-count= wait=",
    "move": "if-value= if-absent if-count= wait=",
    "checkpoint": "wait=",
    "run": "group checkpoint-after= wait=",
    "export": "all= json plain wait=",
    "names": "json at=",
    "get": "raw no-newline json plain default= at=",
    "keys": "at=",
    "exists": "at=",
    "log": "values hide= yaml from= to= at=",
    "diff": "from= to= files",
    "verify": "keep-dropped=",
    "salvage": "keep-dropped=",
    "backup": "",
    "format": "in-place drop-comments keep-comments check explain",
    "check": "keep-comments explain",
}
PLACES = {
    "import": 3,
    "set": 4,
    "delete": 3,
    "copy": 3,
    "rename": 3,
    "move": 4,
    "export": 2,
    "get": 3,
    "keys": 3,
    "exists": 3,
    "diff": 2,
}
ALL = sorted({option for options in OPTIONS.values() for option in options.split()})
USUAL = ["store", "web", "/port", "80", "x", "y"]
TEXTS = ["store", "web", "/port", "", "-", "a=b", "=", "80", "x y", "\u00e9", "help", "get", "\u202e", "\\"]
NUMBERS = "0 1 +5 -5 -0 -1.5 -1.5e3 -1e -1. -.5 -e5 -1e5e ++1 00012 5x 0.5 1. 999999999 1234567890".split()
NUMBERS += ["18446744073709551615", "18446744073709551616", "+", "\u0663", "-\u00e9"]
ODD = "-- --= --- --=x - --help -h -hx -xh -i -ii -ih -hi -i= -V --version --help= --help=x -5 -5h -= --i --if".split()
ODD += "--if-valu --if-value= --if-count= --raw=1 --json= --wait= --FOLDER --FOLDER=x --FILE=x -N -00 --".split()
ODD += ["", "-\u00e9", "--\u00e9", "--\u00e9=1"]


def text_for(chance: random.Random, option: str) -> str:
    if option in ("if-count=", "checkpoint-after=", "at=", "from=", "to=", "wait=") and chance.random() < 0.75:
        return chance.choice(NUMBERS)
    return chance.choice(chance.choice([TEXTS, TEXTS, NUMBERS, ODD]))


def option_words(chance: random.Random, word: str) -> list[str]:
    own = OPTIONS[word].split()
    option = chance.choice(own if own and chance.random() < 0.92 else ALL)
    if option == "in-place" and chance.random() < 0.4:
        return ["-i"]
    name, text = f"--{option.rstrip('=')}", text_for(chance, option)
    if not option.endswith("="):
        return [name] if chance.random() < 0.96 else [f"{name}={text}"]
    return chance.choice([[name, text], [name, text], [f"{name}={text}"], [f"{name}={text}"], [name]])


def words_of(chance: random.Random) -> list[str]:
    if chance.random() < 0.06:
        pool = ODD + TEXTS + list(OPTIONS) + ["help"] * 9
        return [chance.choice(pool) for _ in range(chance.randint(0, 4))]
    word = chance.choice(list(OPTIONS))
    count = max(0, PLACES.get(word, 1) + chance.choice([0, 0, 0, 0, -1, 1, 2]))
    parts = [[text] for text in USUAL[:count]]
    if chance.random() < 0.3:
        parts = [[chance.choice(TEXTS + ODD + NUMBERS)] for _ in range(count)]
    more = [option_words(chance, word) for _ in range(chance.choice([0, 1, 1, 2, 2, 3, 4]))]
    more += [["--"]] * (chance.random() < 0.2) + [[chance.choice(ODD)]] * (chance.random() < 0.12)
    for part in more:
        parts.insert(chance.randint(0, len(parts)), part)
    return [word] + [text for part in parts for text in part]


def answer(program: str, words: list[str], folder: str) -> tuple[int, bytes, bytes] | None:
    """What a program says of words that are wrong or ask for help; None where they are right."""
    done = subprocess.run([program, *words], cwd=folder, stdin=subprocess.DEVNULL, capture_output=True, timeout=60)
    is_help = done.returncode == 0 and (b"Usage:" in done.stdout or done.stdout.startswith(b"confstore "))
    return (done.returncode, done.stdout, done.stderr) if done.returncode == 2 or is_help else None


def main() -> int:
    need_program()
    other, lists = os.path.abspath(sys.argv[1]), number_given(2, 4000)
    chance = random.Random(seed_given(3))
    differing = 0
    for _ in range(lists):
        words = words_of(chance)
        with tempfile.TemporaryDirectory() as one, tempfile.TemporaryDirectory() as two:
            first, second = answer(other, words, one), answer(PROGRAM, words, two)
        if first != second:
            differing += 1
            print(f"{words}\n  {first}\n  {second}")
    print(f"{lists} lists, {differing} differ")
    return 1 if differing else 0


if __name__ == "__main__":
    sys.exit(main())
