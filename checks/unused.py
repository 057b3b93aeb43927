#!/usr/bin/env python3
"""Lists the lemmas, definitions and functions that nothing names, and fails if there is one.

A definition or lemma of crates/*/specs and crates/*/proofs is named if its name stands in code, in an answer, or in
another definition or lemma; an import alone does not count. Files of worked rows (`*Examples.antt`, `Rows.antt`) are
left out: their facts are what the prover computes. A function of crates/*/src is named if its name stands once more in
code. Two kinds are left out: a law, which takes and returns nothing, and whose contract is the theorem; and a method of
a trait. The last line is 'N names, M that nothing uses', and the status is 1 if M is above 0. It takes some seconds:

    checks/unused.py
"""

from __future__ import annotations

import re
import sys
from collections import Counter
from collections.abc import Iterator
from dataclasses import dataclass
from pathlib import Path

TOP = Path(__file__).resolve().parent.parent
# Files whose declarations answer goals, or list modules and what other crates have: no other file names them.
ANSWERS = ("Answers.antt", "Invariants.antt", "Proof.antt", "Lib.antt", "Prelude.antt")
WORDS = re.compile(r"[^\s(){}\[\];,.λ:\"=`]+")
COMMENT = re.compile(r"^\s*(?:--|//).*$|\s--\s.*$", re.M)
USE = re.compile(r"^\s*(?:pub |unfoldable )*(?:ghost )?use [^\n]*$", re.M)
DECLARED = re.compile(r"^( *)(?:(?:pub|abbrev|unfoldable|opaque)\s+)*([^\s:={}()|.]+) :(?:\s|$)")
FUNCTION = re.compile(r"^\s*(?:pub(?:\([^)]*\))? )?(?:const )?fn (\w+)", re.M)
LAW = re.compile(r"\(\)\n\s+(?:requires|ensures)\b")
WORKED = re.compile(r"Examples?\.antt|^Rows\.antt")
IDENTIFIER = re.compile(r"\w+")


@dataclass(frozen=True)
class Named:
    """A declaration: its file, its name, the number of its first line from 1, and how often it names itself."""

    path: Path
    name: str
    line: int
    own: int


def words_in(text: str) -> list[str]:
    """The words of a text, without comments and imports."""
    return WORDS.findall(USE.sub("", COMMENT.sub("", text)))


def indentation(line: str) -> int:
    return len(line) - len(line.lstrip(" "))


def in_module_block(lines: list[str], at: int) -> bool:
    """Whether the line is in a block of a module with parameters, and in no record."""
    deep = indentation(lines[at])
    around = next((line for line in reversed(lines[:at]) if line.strip() and indentation(line) < deep), "")
    return around.lstrip().startswith("module")


def end_of(lines: list[str], at: int, name: str) -> int:
    """The line behind a declaration that begins at a line."""
    deep = indentation(lines[at])
    goes_on = re.compile(rf"(?:{re.escape(name)}(?:[ ={{]|$)|unfolding |[)}}\]])")
    for number, line in enumerate(lines[at + 1 :], at + 1):
        if not line.strip() or indentation(line) <= deep and not goes_on.match(line[deep:]):
            return number
    return len(lines)


def declarations(path: Path, text: str) -> Iterator[Named]:
    lines = text.split("\n")
    for at, line in enumerate(lines):
        match = DECLARED.match(line)
        if match and (not match[1] or in_module_block(lines, at)):
            block = "\n".join(lines[at : end_of(lines, at, match[2])])
            yield Named(path, match[2], at + 1, words_in(block).count(match[2]))


def is_of_trait(text: str, at: int) -> bool:
    """Whether the function there stands in a trait, or in the impl of one."""
    blocks = list(re.finditer(r"^(?:(?:pub )?trait\b.*|impl\b.*|\})$", text[:at], re.M))
    return bool(blocks) and bool(re.search(r" for |\btrait ", blocks[-1][0]))


def functions(path: Path, text: str) -> Iterator[Named]:
    for match in FUNCTION.finditer(text):
        is_test = text[: match.start()].rstrip().endswith("#[test]")
        is_called = match[1] == "main" or is_test or is_of_trait(text, match.start())
        if not is_called and not LAW.match(text, match.end()):
            yield Named(path, match[1], text.count("\n", 0, match.start(1)) + 1, 1)


def main() -> int:
    declared: list[Named] = []
    coded: list[Named] = []
    words: Counter[str] = Counter()
    identifiers: Counter[str] = Counter()
    for path in sorted((TOP / "crates").rglob("*")):
        if path.suffix not in (".rt", ".antt") or "out" in path.relative_to(TOP).parts:
            continue
        text = path.read_text("utf-8")
        words.update(words_in(text))
        if path.suffix == ".rt":
            identifiers.update(IDENTIFIER.findall(COMMENT.sub("", text)))
            coded += functions(path, text)
        elif path.name not in ANSWERS and not WORKED.search(path.name):
            declared += declarations(path, text)
    unused = [one for one in declared if words[one.name] <= one.own]
    unused += [one for one in coded if identifiers[one.name] <= one.own]
    for one in unused:
        print(f"{one.path.relative_to(TOP)}:{one.line}: nothing names {one.name}")
    print(f"{len(declared) + len(coded)} names, {len(unused)} that nothing uses")
    return 1 if unused else 0


if __name__ == "__main__":
    sys.exit(main())
