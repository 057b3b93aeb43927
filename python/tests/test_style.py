"""Texts in the one style: the rows of docs/STYLE.md, and the program's own as the measure of random trees."""

from __future__ import annotations

import enum
import os
import random
import subprocess
import unittest
from typing import Any

from confstore import ConfstoreError, NotATree, NotText, TooDeep, Tree, document, from_text, to_text
from confstore.style import to_plain_text
from confstore.written import scalar

# Texts with what they are as values, indented by two, worked out by hand from docs/STYLE.md.
SCALARS = [
    ("", '""'),
    ("example", "example"),
    ("a-b_c/d.e", "a-b_c/d.e"),
    ("80", '"80"'),
    ("a b", '"a b"'),
    ("True", '"True"'),
    ("n", '"n"'),
    ("nn", "nn"),
    ("x" * 128, "x" * 128),
    ("x" * 129, '"' + "x" * 129 + '"'),
    ('"\\', '"\\"\\\\"'),
    ("\0\a\b\t\v\f\r\x1b\x01\x7f\x85", '"\\0\\a\\b\\t\\v\\f\\r\\e\\x01\\x7F\\x85"'),
    ("\u2028\ufeff\ufffe", '"\\u2028\\uFEFF\\uFFFE"'),
    ("\u00e4\U0001d11e", '"\u00e4\U0001d11e"'),
    ("a\nb", "|-\n  a\n  b"),
    ("a\n", "|\n  a"),
    ("a\n\n", "|+\n  a\n"),
    ("a\n\nb\n", "|\n  a\n\n  b"),
    ("\na", '"\\na"'),
    (" a\n", '" a\\n"'),
    ("a\tb\n", '"a\\tb\\n"'),
    ("...\n", "|\n  ..."),
]

PAGE = """host: example
port: "8080"
motd: |
  Welcome.
  Be kind.
ports:
  - "80"
  - name: tls
    number: "443"
empty: {}
"""
PAGE_TREE: Tree = {
    "host": "example",
    "port": "8080",
    "motd": "Welcome.\nBe kind.\n",
    "ports": ["80", {"name": "tls", "number": "443"}],
    "empty": {},
}

CHARACTERS = "ab \n\t\"'\\:#-?[]{},&*!|>%@`~\0\x1f\x7f\x85\xa0\u00e4\u2028\u2029\ufeff\ufffd\ufffe\U0001f600."


class Color(str, enum.Enum):
    RED = "red"
    DARK = "dark\nred\n"
    NUMBER = "80"
    EMPTY = ""


class Odd(str):
    """A str that says something else of itself wherever it can."""

    def odd(self, *_: object) -> str:
        return "odd"

    __str__ = __repr__ = __format__ = lower = rstrip = odd
    __hash__ = object.__hash__

    def __eq__(self, other: object) -> bool:
        return self is other

    def __contains__(self, _: object) -> bool:
        return False

    def __len__(self) -> int:
        return 0

    def __getitem__(self, _: object) -> str:
        return " "

    def encode(self, *_: object) -> bytes:
        return b"odd"

    def split(self, *_: Any) -> list[str]:
        return ["odd"]


def random_text(chance: random.Random) -> str:
    return "".join(chance.choice(CHARACTERS) for _ in range(chance.choice((0, 1, 3, 9))))


def random_tree(chance: random.Random, depth: int) -> Tree:
    kind = chance.randrange(4) if depth else 0
    if kind < 2:
        return random_text(chance)
    if kind == 2:
        return [random_tree(chance, depth - 1) for _ in range(chance.randrange(4))]
    return {random_text(chance): random_tree(chance, depth - 1) for _ in range(chance.randrange(4))}


class Style(unittest.TestCase):
    def test_scalars(self) -> None:
        for text, written in SCALARS:
            self.assertEqual(scalar(text), written, repr(text))

    def test_classes_of_str(self) -> None:
        """A text of a class of its own is written as the text that it is, wherever it stands."""
        for text in (*(color.value for color in Color), *(text for text, _ in SCALARS)):
            odd = Odd(text)
            rows: list[tuple[Tree, Tree]] = [
                (text, odd),
                ([text, "a"], [odd, "a"]),
                ({text: text}, {odd: odd}),
                ({"a": [{text: []}]}, {"a": [{odd: []}]}),
            ]
            for plain, other in rows:
                self.assertEqual(to_text(other), to_text(plain))
                self.assertEqual(document(other), document(plain))
            self.assertEqual(scalar(odd), scalar(text))
        for color in Color:
            self.assertEqual(to_text(color), to_text(color.value))
            self.assertEqual(to_text({color: [color]}), to_text({color.value: [color.value]}))
        with self.assertRaises(NotATree):
            to_text({Odd("red"): "a", "red": "b"})
        with self.assertRaises(NotText):
            to_text(Odd("\ud800"))

    def test_page(self) -> None:
        self.assertEqual(to_text(PAGE_TREE), PAGE)
        self.assertEqual(from_text(PAGE), PAGE_TREE)

    def test_long_key(self) -> None:
        for length, written in ((998, f'"{"x" * 998}": ""\n'), (999, f'? "{"x" * 999}"\n: ""\n')):
            self.assertEqual(to_text({"x" * length: ""}), written)

    def test_as_the_program(self) -> None:
        chance = random.Random(5)
        trees = [random_tree(chance, 4) for _ in range(60)]
        for tree in trees:
            text = to_text(tree)
            done = subprocess.run(
                [os.environ["CONFSTORE"], "format"], input=text.encode(), capture_output=True, check=False
            )
            self.assertEqual((done.stdout.decode(), done.stderr), (text, b""), repr(tree))
            self.assertEqual(from_text(text), tree)

    def test_plain(self) -> None:
        """What YAML's core schema (1.2.2, 10.3.2) reads as something else than a text stands without quotes, and gives
        the same tree where all is read as texts."""
        typed = "null Null NULL ~ true True TRUE false False FALSE 0 80 -5 +5 007 0o17 0x1F 1.10 .5 1. -1.e3 1E+5"
        typed += " .inf .Inf .INF -.inf +.INF .nan .NaN .NAN"
        untyped = "nULL tRUE yes No on 0o8 0xG 1_000 1.2.3 . + - 1e e5 1e+ ..5 -0x1F 0o .InF +.nan inf 80a"
        for word in typed.split():
            self.assertEqual(to_plain_text({"k": [word]}), f"k:\n  - {word}\n")
        for word in ["", " 80", "80 ", *untyped.split()]:
            self.assertEqual(to_plain_text({"k": [word]}), to_text({"k": [word]}))
        self.assertEqual(to_plain_text({"80": "80"}), '"80": 80\n')
        chance = random.Random(7)
        for tree in (random_tree(chance, 4) for _ in range(300)):
            self.assertEqual(from_text(to_plain_text([tree, *typed.split()])), [tree, *typed.split()])

    def test_refused(self) -> None:
        endless: list[Tree] = []
        endless.append(endless)
        deep: Tree = "x"
        for _ in range(201):
            deep = [deep]
        rows: list[tuple[Any, type[ConfstoreError]]] = [
            (80, NotATree), (None, NotATree), ({1: "a"}, NotATree), ([True], NotATree), (("a",), NotATree),
            ("\ud800", NotText), (["a\udfffb"], NotText), ({"\ud800": ""}, NotText), (endless, TooDeep),
            (deep, TooDeep),
        ]  # fmt: skip
        for tree, kind in rows:
            with self.assertRaises(kind):
                to_text(tree)


if __name__ == "__main__":
    unittest.main()
