"""Random texts of YAML with comments and blank lines at every place where the standard allows one (1.2.2, 6.6, 6.7)."""

from __future__ import annotations

import random

WORDS = ("a", "bc", "key", "x-1", "list.of", "Name_2", "on", "null", "1.10", "é")
DOUBLE = ('"# no"', '"x\\ny"', '"x\\n\\n"', '"a b\\n"', '"\\tq"', '""', '"é # \\u2028"', '"x  \\n  y\\n"')
SINGLE = ("'# no'", "'it''s'", "''", "'a: b'")
PLAIN = ("a b", "x#y", "1", "-1.5", "http://h/p", "v1.2", "true", "~")
COMMENTS = ("#", "#c", "# c", "# - item", "# key: value", "#  two", "##", "# 'q", "# [", "#\tt", "# a # b", "# é")


class Texts:
    """Texts from one source of random numbers."""

    def __init__(self, rng: random.Random) -> None:
        self.rng = rng
        self.parts: list[str] = []
        self.keys = 0

    def chance(self, share: float) -> bool:
        """True in such a share of cases."""
        return self.rng.random() < share

    def pick(self, choices: tuple[str, ...]) -> str:
        """One of them."""
        return self.rng.choice(choices)

    def put(self, text: str) -> None:
        """Writes a text."""
        self.parts.append(text)

    # ---- comments and blank lines

    def comment(self) -> str:
        """A comment, perhaps with whitespace at its end."""
        return self.pick(COMMENTS) + (self.pick((" ", "\t", "  ")) if self.chance(0.1) else "")

    def blanks(self) -> str:
        """Whitespace before a comment."""
        return self.pick((" ", " ", "  ", "\t", " \t "))

    def extra_lines(self, most: int | None = None) -> None:
        """Lines of comments and blank ones; the first comment has at most so many spaces before it."""
        while self.chance(0.3):
            if self.chance(0.4):
                self.put(self.pick(("", "", "", " ", "   ")) + "\n")
                continue
            spaces = self.rng.choice((0, 0, 1, 2, 2, 3, 4, 4, 6, 8))
            spaces = spaces if most is None else min(spaces, most)
            self.put(" " * spaces + self.comment() + "\n")
            most = None

    def end_line(self) -> None:
        """The end of a line, perhaps with a comment, and the lines below it."""
        if self.chance(0.25):
            self.put(self.blanks() + self.comment())
        elif self.chance(0.05):
            self.put(self.pick((" ", "\t")))
        self.put("\n")
        self.extra_lines()

    def gap(self, indent: int, must: bool = False) -> None:
        """What may be between two tokens in brackets: whitespace, or comments and breaks."""
        if self.chance(0.35):
            self.end_line()
            self.put(" " * (indent + self.rng.randrange(1, 4)))
        elif must or self.chance(0.5):
            self.put(" ")

    # ---- scalars

    def key(self) -> str:
        """A key that no other is like."""
        self.keys += 1
        name = f"{self.pick(('k', 'name', 'x-', 'A_'))}{self.keys}"
        if self.chance(0.01):
            name = "k" * 1001 + name
        return f'"{name}"' if self.chance(0.1) else f"'{name} # '" if self.chance(0.05) else name

    def flow_scalar(self, in_brackets: bool, indent: int) -> str:
        """A scalar in quotes or plain, perhaps on two lines."""
        kind = self.rng.randrange(6)
        if kind == 0:
            return self.pick(DOUBLE)
        if kind == 1:
            return self.pick(SINGLE)
        if kind == 2 and self.chance(0.3):
            middle = self.pick(("\n", "\n\n", "\n\n\n")) + " " * (indent + self.rng.randrange(1, 4))
            return self.pick((f'"x{middle}y"', f"'p{middle}q'", f"x{middle}y"))
        if kind == 3 and not in_brackets:
            return self.pick(PLAIN)
        return self.pick(WORDS)

    def block_scalar(self, indent: int) -> None:
        """A literal or a folded scalar, whose lines are deeper than an indentation, with the lines behind it."""
        chomp = self.pick(("", "", "-", "+"))
        self.put(self.pick(("|", "|", ">")) + chomp)
        if self.chance(0.3):
            self.put(self.blanks() + self.comment())
        self.put("\n")
        body = indent + self.rng.randrange(1, 5)
        for _ in range(self.rng.randrange(1, 4)):
            if self.chance(0.2):
                self.put("\n")
            self.put(" " * body + self.pick(("x", "# no", "a: b", "- c", " deeper", "x  ", "é")).lstrip(" ") + "\n")
        if self.chance(0.2):
            self.put("\n")
        if self.chance(0.1):
            self.put(" " * (body + 2) + "\n")
        self.extra_lines(body - 1)

    # ---- nodes

    def flow(self, depth: int, indent: int) -> None:
        """A node in brackets."""
        if depth <= 0 or self.chance(0.5):
            self.put(self.flow_scalar(True, indent))
            return
        is_sequence = self.chance(0.5)
        self.put("[" if is_sequence else "{")
        count = self.rng.randrange(0, 4)
        for number in range(count):
            self.gap(indent)
            if is_sequence and self.chance(0.7):
                self.flow(depth - 1, indent)
            else:
                self.flow_pair(depth, indent)
            if number + 1 < count or self.chance(0.2):
                self.gap(indent)
                self.put(",")
        self.gap(indent)
        self.put("]" if is_sequence else "}")

    def flow_pair(self, depth: int, indent: int) -> None:
        """A pair in brackets."""
        if self.chance(0.1):
            self.put("?")
            self.gap(indent, must=True)
        self.put(self.key())
        if self.chance(0.15):
            return
        if self.chance(0.1) and not self.parts[-1].startswith("k" * 99):
            self.put(" ")
        self.put(":")
        if self.chance(0.85):
            self.gap(indent, must=True)
            self.flow(depth - 1, indent)

    def value(self, depth: int, indent: int, column: int) -> None:
        """What comes behind a `:` or a `-` at a column, in a collection at an indentation."""
        kind = self.rng.randrange(10)
        if kind < 3 or depth <= 0:
            if self.chance(0.15):
                self.end_line()
                self.put(" " * (indent + self.rng.randrange(1, 4)))
            else:
                self.put(" ")
            self.put(self.flow_scalar(False, indent))
            self.end_line()
        elif kind == 3:
            self.put(" ")
            self.block_scalar(indent)
        elif kind == 4:
            self.put(" ")
            self.flow(depth, indent)
            self.end_line()
        elif kind == 5:
            self.end_line()
        else:
            self.end_line()
            self.collection(depth - 1, column + self.rng.randrange(1, 5), None)

    def collection(self, depth: int, column: int, lead: str | None) -> None:
        """A block collection at a column; what is before its first line is written already, if `lead` is given."""
        if self.chance(0.5):
            self.sequence(depth, column, lead)
        else:
            self.mapping(depth, column, lead)

    def sequence(self, depth: int, column: int, lead: str | None) -> None:
        """A block sequence."""
        for number in range(self.rng.randrange(1, 4)):
            self.put(" " * column if number or lead is None else lead)
            self.put("-")
            if depth > 0 and self.chance(0.35):
                spaces = self.rng.randrange(1, 4)
                self.collection(depth - 1, column + 1 + spaces, " " * spaces)
            else:
                self.value(depth, column, column)

    def mapping(self, depth: int, column: int, lead: str | None) -> None:
        """A block mapping."""
        for number in range(self.rng.randrange(1, 4)):
            self.put(" " * column if number or lead is None else lead)
            key = self.key()
            if len(key) > 1000 or self.chance(0.08):
                self.put(f"? {key}")
                self.end_line()
                if self.chance(0.2):
                    continue
                self.put(" " * column + ":")
                self.value(depth, column, column)
                continue
            self.put(f"{key}:")
            if depth > 0 and self.chance(0.12):
                self.end_line()
                self.sequence(depth - 1, column, None)
            else:
                self.value(depth, column, column)

    # ---- the whole

    def text(self) -> str:
        """A text of one document."""
        self.parts = []
        self.keys = 0
        self.extra_lines()
        marked = self.chance(0.15)
        if marked:
            if self.chance(0.3):
                self.put("%YAML 1.2")
                self.end_line()
            self.put("---")
        kind = self.rng.randrange(12)
        if kind == 0:
            self.put(" " if marked else "")
            self.put(self.flow_scalar(False, 0))
            self.end_line()
        elif kind == 1:
            self.put(" " if marked else "")
            self.flow(3, 0)
            self.end_line()
        elif kind == 2:
            self.put(" " if marked else "--- ")
            self.block_scalar(0)
        else:
            if marked:
                self.end_line()
            self.collection(3, 0, None)
        if self.chance(0.05):
            self.put("...")
            self.end_line()
        whole = "".join(self.parts)
        if self.chance(0.03):
            whole = whole.replace("\n", "\r\n")
        return whole.removesuffix("\n") if self.chance(0.05) else whole
