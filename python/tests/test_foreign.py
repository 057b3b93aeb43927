"""Texts of other formats: what is read of them, what is told, and what is refused, with its place."""

from __future__ import annotations

import json
import random
import unittest
from typing import Callable

import yaml
from confstore.foreign import Unread
from confstore.foreign_flat import read_env, read_ini, read_properties
from confstore.foreign_json5 import read_json5
from confstore.foreign_toml import read_toml
from confstore.foreign_yaml import read_yaml
from confstore.style import Tree


def tree_of_yaml(text: str) -> Tree | None:
    (document,) = read_yaml(text)
    return document.tree


class ForeignTest(unittest.TestCase):
    def check(self, read: Callable[[str], Tree | None], rows: tuple[tuple[str, Tree | None], ...]) -> None:
        for text, wanted in rows:
            with self.subTest(text):
                self.assertEqual(read(text), wanted)

    def check_refused(
        self, read: Callable[[str], Tree | None], rows: tuple[tuple[str, tuple[str, int, int]], ...]
    ) -> None:
        for text, wanted in rows:
            with self.subTest(text[:80]):
                with self.assertRaises(Unread) as caught:
                    read(text)
                fault = caught.exception
                self.assertEqual((fault.name, fault.line, fault.column), wanted, fault.detail)
                self.assertNotIn("\n", fault.line_of("a"))


class Yaml(ForeignTest):
    def test_values_keep_their_spelling(self) -> None:
        self.check(
            tree_of_yaml,
            (
                ("a: 3.10\nb: 0x1F\nc: yes\nd: ~\ne:\nf: 2001-01-01\n",
                 {"a": "3.10", "b": "0x1F", "c": "yes", "d": "~", "e": "", "f": "2001-01-01"}),
                ("- |\n  a\n  b\n- >-\n  c\n  d\n- \"\\x41\"\n", ["a\nb\n", "c d", "A"]),
                ("text", "text"), ("''", ""), ("---\n...\n", None),
            ),
        )  # fmt: skip

    def test_aliases_and_merges(self) -> None:
        self.check(
            tree_of_yaml,
            (
                ("a: &x {p: 1}\nb: *x\n", {"a": {"p": "1"}, "b": {"p": "1"}}),
                ("a: &x k\n*x : v\n", {"a": "k", "k": "v"}),
                ("a: &x {p: 1, q: 2}\nb: {<<: *x, q: 3}\n", {"a": {"p": "1", "q": "2"}, "b": {"p": "1", "q": "3"}}),
                ("a: &x {p: 1}\nc: &y {p: 2, r: 3}\nb: {q: 4, <<: [*x, *y]}\n",
                 {"a": {"p": "1"}, "c": {"p": "2", "r": "3"}, "b": {"p": "1", "r": "3", "q": "4"}}),
                ("a: &x {p: 1}\nb: &y {<<: *x, q: 2}\nc: {<<: *y}\n",
                 {"a": {"p": "1"}, "b": {"p": "1", "q": "2"}, "c": {"p": "1", "q": "2"}}),
                ("a: &x 1\nb: &x 2\nc: *x\n", {"a": "1", "b": "2", "c": "2"}),
                ("'<<': 1\n", {"<<": "1"}),
            ),
        )  # fmt: skip

    def test_merges_are_those_of_pyyaml(self) -> None:
        text = "a: &a {p: 1, q: 2}\nb: &b {q: 3, r: 4}\nc: {<<: [*a, *b], r: 5}\nd: {s: 6, <<: *b}\n"
        wanted = json.loads(json.dumps(yaml.safe_load(text)), parse_int=str)
        self.assertEqual(tree_of_yaml(text), wanted)

    def test_what_is_told(self) -> None:
        text = "a: &x {p: !Ref 1}\nb: *x\nc:\n  <<: *x\n  d: !!str 5\ne: [*x, !Ref f]\n"
        (document,) = read_yaml(text)
        wanted = [
            "f:1:11: dropped the tag !Ref (2 times)", "f:2:4: expanded the alias *x (3 times)",
            "f:4:7: expanded a merge", "f:5:6: dropped the tag !!str",
        ]  # fmt: skip
        self.assertEqual(document.notes.lines("f"), wanted)
        self.assertEqual(read_yaml("a: b")[0].notes.lines("f"), [])

    def test_documents(self) -> None:
        found = read_yaml("---\na: &x 1\n---\n---\n- b\n")
        self.assertEqual([one.tree for one in found], [{"a": "1"}, None, ["b"]])
        with self.assertRaises(Unread):
            read_yaml("a: &x 1\n---\nb: *x\n")

    def test_refused(self) -> None:
        laughs = "a: &a [x,x,x,x,x,x,x,x,x]\n" + "".join(
            f"{after}: &{after} [{','.join([f'*{before}'] * 9)}]\n" for before, after in zip("abcdefghi", "bcdefghij")
        )
        self.check_refused(
            tree_of_yaml,
            (
                ("a: 1\nb: 2\na: 3\n", ("KeyTwice", 3, 1)), ("? [a]\n: b\n", ("KeyNotText", 1, 3)),
                ("a: *x\n", ("Syntax", 1, 4)), ("a: &x [*x]\n", ("Syntax", 1, 8)),
                ("a: &x 1\nb: {<<: *x}\n", ("Syntax", 2, 9)), ("a: [b\n", ("Syntax", 2, 1)),
                ("a: {{- if x }}\n", ("Syntax", 1, 6)), ("a: \0\n", ("Syntax", 1, 1)),
                (laughs, ("LargeInStyle", 7, 17)),
            ),
        )  # fmt: skip
        for text in ("{{- if .Values.a }}\na: b\n", "a: {{ .Values.a }}\n", "{% for a in b %}\nc: d\n", "{{ a }}: b\n"):
            with self.subTest(text), self.assertRaises(Unread) as caught:
                read_yaml(text)
            self.assertIn("a template has to be rendered first", caught.exception.detail)
        with self.assertRaises(Unread) as caught:
            read_yaml("? [a]\n: b\n")
        self.assertNotIn("template", caught.exception.detail)

    def test_depth_ends_nothing(self) -> None:
        for text in ("[" * 100_000, "- " * 50_000, "{a: " * 50_000):
            with self.subTest(text[:4]), self.assertRaises(Unread):
                read_yaml(text)


class Toml(ForeignTest):
    def setUp(self) -> None:
        try:
            read_toml("")
        except Unread as lack:
            self.skipTest(lack.detail)

    def test_values(self) -> None:
        text = "a=1_000\nb=3.10\nc=true\nd=1979-05-27T07:32:00Z\ne=1979-05-27T07:32:00-07:00\n"
        wanted = {
            "a": "1000", "b": "3.10", "c": "true", "d": "1979-05-27T07:32:00Z", "e": "1979-05-27T07:32:00-07:00",
            "f": "1979-05-27", "g": "07:32:00", "h": {"i": ["0.5", {"j": "inf"}]},
        }  # fmt: skip
        self.assertEqual(read_toml(text + "f=1979-05-27\ng=07:32:00\n[h]\ni=[0.5, {j=inf}]\n"), wanted)

    def test_refused(self) -> None:
        rows = (("a = \n", ("Syntax", 1, 5)), ("a=1\na=2\n", ("Syntax", 2, 4)), ("a = [1,\n", ("Syntax", 2, 1)))
        self.check_refused(read_toml, rows)


class Ini(ForeignTest):
    def test_values(self) -> None:
        text = "; c\n[a]\nb = c ; d\n  e\nF: %(x)s\ng\n[DEFAULT]\nh=\n[empty]\n"
        wanted: Tree = {"a": {"b": "c ; d\ne", "F": "%(x)s", "g": ""}, "DEFAULT": {"h": ""}, "empty": {}}
        self.assertEqual(read_ini(text), wanted)

    def test_refused(self) -> None:
        rows = (
            ("a=1\n", ("Syntax", 1, 1)), ("[a]\nb=1\nb=2\n", ("KeyTwice", 3, 1)),
            ("[a]\n[b]\n[a]\n", ("KeyTwice", 3, 1)), ("[a]\n=x\n", ("Syntax", 2, 1)),
        )  # fmt: skip
        self.check_refused(read_ini, rows)


class Env(ForeignTest):
    def test_values(self) -> None:
        self.check(
            read_env,
            (
                ("A=1\r\n\n # c\nexport B=x y # c\nC=\nD.e=a#b\n", {"A": "1", "B": "x y", "C": "", "D.e": "a#b"}),
                ("A='x $y \\n\nz'  # c\nB='#'", {"A": "x $y \\n\nz", "B": "#"}),
                ('A="x\\n\\"\\$y\\\\ \'\nz"\nB="a $ b"\n', {"A": 'x\n"$y\\ \'\nz', "B": "a $ b"}),
                ("A=5$\nB=http://h/?a=b&c=d\n", {"A": "5$", "B": "http://h/?a=b&c=d"}),
                ("B= # c\nC=\t\n", {"B": "", "C": ""}), ("", {}), ("# c", {}),
            ),
        )  # fmt: skip

    def test_refused(self) -> None:
        rows = (
            ("A\n", ("Syntax", 1, 1)), ("A =1\n", ("Syntax", 1, 1)), ("A=1\nA=2\n", ("KeyTwice", 2, 1)),
            ("A=$HOME/x\n", ("Syntax", 1, 3)), ('A="a${B}"\n', ("Syntax", 1, 5)), ("A=`x`\n", ("Syntax", 1, 3)),
            ("A=C:\\x\n", ("Syntax", 1, 5)), ("A=a'b'\n", ("Syntax", 1, 4)), ("A='b'c\n", ("Syntax", 1, 6)),
            ("A='b\n", ("Syntax", 1, 3)), ("A= b\n", ("Syntax", 1, 3)), ("A=#b\n", ("Syntax", 1, 3)),
            ('A="b\\"\n', ("Syntax", 1, 3)), ('A="\\x"\n', ("Syntax", 1, 4)),
        )  # fmt: skip
        self.check_refused(read_env, rows)


class Properties(ForeignTest):
    def test_values(self) -> None:
        self.check(
            read_properties,
            (
                ("a.b = c\nd:e\n f g h \nempty\n", {"a.b": "c", "d": "e", "f": "g h ", "empty": ""}),
                ("# c\n! d \\\na=b\\\n   c\\\\\nd=e\n", {"a": "bc\\", "d": "e"}),
                ("a\\ b\\=c : \\ d\\te\\u00e9\\ud83d\\ude00\\q", {"a b=c": " d\teé😀q"}),
                ("a==b\r\nc=\\\r\n  d\r\n=x\n", {"a": "=b", "c": "d", "": "x"}), ("\n\n", {}), ("a=b\\", {"a": "b"}),
                ("a=\\\\u12\n", {"a": "\\u12"}),
            ),
        )  # fmt: skip

    def test_refused(self) -> None:
        rows = (
            ("a=1\n\n a=2\n", ("KeyTwice", 3, 2)), ("a=x\\u12\n", ("Syntax", 1, 4)), ("a=\\ud83d\n", ("NotText", 1, 3)),
        )  # fmt: skip
        self.check_refused(read_properties, rows)


class Json5(ForeignTest):
    def test_values(self) -> None:
        self.check(
            read_json5,
            (
                ("{a: +1, 'b': .5, $c_1: 5., é: 0xFF,}", {"a": "+1", "b": ".5", "$c_1": "5.", "é": "0xFF"}),
                ("// c\n[null, true, -Infinity, NaN, 1e+10, /* d ** */ 1.50]",
                 ["null", "true", "-Infinity", "NaN", "1e+10", "1.50"]),
                ("'a\\\nb\\'\\x41\\u00e9\\ud83d\\ude00\\0\\q\"'", "ab'Aé😀\0q\""), ("{}", {}), ("[]", []), (" 0 ", "0"),
            ),
        )  # fmt: skip

    def test_json_is_read_as_python_does(self) -> None:
        chance = random.Random(5)

        def value(depth: int) -> object:
            kind = chance.randrange(6 if depth < 4 else 4)
            if kind == 4:
                return [value(depth + 1) for _ in range(chance.randrange(4))]
            if kind == 5:
                return {text(): value(depth + 1) for _ in range(chance.randrange(4))}
            return text()

        def text() -> str:
            return "".join(chance.choice("ab\n\"'\\/\u2028é😀\0\t") for _ in range(chance.randrange(6)))

        for _ in range(300):
            made = value(0)
            for written in (json.dumps(made), json.dumps(made, ensure_ascii=False, indent=1)):
                self.assertEqual(read_json5(written), made)

    def test_refused(self) -> None:
        rows = (
            ("{a: 1, a: 2}", ("KeyTwice", 1, 8)), ("[1 2]", ("Syntax", 1, 4)), ("[01]", ("Syntax", 1, 2)),
            ("{a 1}", ("Syntax", 1, 4)), ("", ("Syntax", 1, 1)), ("{}\nx", ("Syntax", 2, 1)), ("[,]", ("Syntax", 1, 2)),
            ("'a\nb'", ("Syntax", 1, 1)), ("'\\u12'", ("Syntax", 1, 2)), ("'\\ud83d'", ("NotText", 1, 1)),
            ("trueish", ("Syntax", 1, 1)), ("{5: 1}", ("Syntax", 1, 2)), ("[" * 100_000, ("TooDeep", 1, 152)),
            ("/* c", ("Syntax", 1, 1)),
        )  # fmt: skip
        self.check_refused(read_json5, rows)


if __name__ == "__main__":
    unittest.main()
