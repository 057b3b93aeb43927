"""Random changes of texts and of bytes, for the scripts that look for texts and stores that are read wrongly."""

from __future__ import annotations

from collections.abc import Callable
from random import Random

# What is put into a text: signs and words that mean something, and characters of each length and class.
TOKENS = [
    token.encode()
    for token in (
        "- ", "-", ": ", ":", "? ", "?", '"', "'", "|", ">", "|-", ">+", "|2", "{", "}", "[", "]", ",", "#", " #", " ",
        "  ", "\n", "\n\n", "\n ", "\n  ", "\r\n", "\r", "\t", "---\n", "--- ", "...\n", "... ", "%YAML 1.2\n---\n",
        "%YAML 1.1\n---\n", "\ufeff", "&a ", "*a", "!!str ", "!", "@", "`", "%", "\\", "\\n", "\\x41", "\\u263a",
        "\\U0001F600", "\\\n", "\\ ", "\0", "\x07", "\x7f", "\x85", "\xa0", "\u2028", "\ufffe", "\u00e9", "\u263a",
        "\U0001f600", "null", "a", "k: v\n", "- x\n", "[a, b]", "{a: b}", "''", '""',
    )
] + [b"\xff", b"\xc3", b"\xed\xa0\x80", b"\xf4\x90\x80\x80"]


def place(chance: Random, data: bytes) -> int:
    return chance.randrange(len(data) + 1)


def part(chance: Random, data: bytes, most: int = 40) -> tuple[int, int]:
    """The ends of a part of the bytes, of at most so many."""
    start = place(chance, data)
    return start, min(len(data), start + chance.randrange(1, most))


def flip_bit(chance: Random, data: bytes) -> bytes:
    if not data:
        return data
    at = chance.randrange(len(data))
    return data[:at] + bytes([data[at] ^ (1 << chance.randrange(8))]) + data[at + 1 :]


def change_byte(chance: Random, data: bytes) -> bytes:
    at = place(chance, data)
    return data[:at] + bytes([chance.randrange(256)]) + data[at + 1 :]


def put_token(chance: Random, data: bytes) -> bytes:
    at = place(chance, data)
    return data[:at] + chance.choice(TOKENS) + data[at:]


def take_out(chance: Random, data: bytes) -> bytes:
    start, end = part(chance, data)
    return data[:start] + data[end:]


def double(chance: Random, data: bytes) -> bytes:
    start, end = part(chance, data)
    return data[:end] + data[start:]


def move(chance: Random, data: bytes) -> bytes:
    start, end = part(chance, data)
    rest = data[:start] + data[end:]
    at = place(chance, rest)
    return rest[:at] + data[start:end] + rest[at:]


def cut(chance: Random, data: bytes) -> bytes:
    return data[: place(chance, data)]


def swap_lines(chance: Random, data: bytes) -> bytes:
    lines = data.splitlines(keepends=True)
    if len(lines) < 2:
        return data
    one, other = chance.sample(range(len(lines)), 2)
    lines[one], lines[other] = lines[other], lines[one]
    return b"".join(lines)


def indent_line(chance: Random, data: bytes) -> bytes:
    lines = data.splitlines(keepends=True)
    if not lines:
        return data
    at = chance.randrange(len(lines))
    lines[at] = lines[at].lstrip(b" ") if chance.random() < 0.3 else b" " * chance.randrange(1, 4) + lines[at]
    return b"".join(lines)


CHANGES: list[Callable[[Random, bytes], bytes]] = [
    flip_bit, change_byte, put_token, put_token, put_token, take_out, double, move, cut, swap_lines, indent_line,
]  # fmt: skip


def changed(chance: Random, data: bytes, most: int = 4) -> bytes:
    """The bytes after one to `most` random changes."""
    for _ in range(chance.randrange(1, most + 1)):
        data = chance.choice(CHANGES)(chance, data)
    return data
