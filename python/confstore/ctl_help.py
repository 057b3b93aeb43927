"""The help of confstorectl, made of the table of its words."""

from __future__ import annotations

import re
import textwrap

from .ctl_description import ABOUT, DESCRIPTION, FAULTS, STATUSES
from .ctl_words import COMMON, GROUPS, VERSION, WORDS, Option, Word

TYPE_CHECKING = False
if TYPE_CHECKING:
    from collections.abc import Iterator, Sequence

WIDTH = 100


def _paragraphs(texts: Sequence[str]) -> Iterator[str]:
    """Paragraphs in lines, with an empty one before each."""
    for text in texts:
        yield "\n" + textwrap.fill(text, WIDTH, break_long_words=False, break_on_hyphens=False) + "\n"


def _rows(heading: str, rows: Sequence[tuple[str, str]]) -> str:
    """Rows of two columns, under a heading."""
    if not rows:
        return ""
    width = max(len(left) for left, _ in rows)
    return f"\n{heading}:\n" + "".join(f"  {left:{width}}  {right}\n" for left, right in rows)


def _shapes(options: Sequence[Option]) -> list[tuple[str, str]]:
    return [(f"{option.name} {option.value}".strip(), option.about) for option in options]


def help_of_all() -> str:
    """The help of the program."""
    parts = [f"{ABOUT}\n\nUsage: confstorectl [--socket PATH] [--wait SECONDS] WORD ..\n"]
    for heading, words in GROUPS:
        parts.append(_rows(f"Words that {heading}", [(word.name, word.about) for word in words]))
    parts.append(_rows("Options", _shapes([*COMMON, VERSION])))
    parts.append("".join(_paragraphs(DESCRIPTION)))
    parts.append(_rows("Statuses", STATUSES))
    parts.append("".join(_paragraphs([FAULTS])))
    examples = ["confstorectl set /var/lib/app web /port 81", "confstorectl get /var/lib/app web /port --raw"]
    examples += ["confstorectl --wait 10 checkpoint /var/lib/app", "confstorectl watch /var/lib/app web"]
    parts.append("\nExamples:\n" + "".join(f"  {line}\n" for line in examples))
    parts.append("\n`confstorectl help WORD` says more of a word.\n")
    return "".join(parts)


def _usage_of(word: Word) -> str:
    """How a word is written, in lines that end at no space within brackets."""
    usage = re.sub(r"(\[[^]]*) ", "\\1\0", word.usage)
    filled = textwrap.fill(usage, WIDTH, subsequent_indent=" " * 4, break_long_words=False, break_on_hyphens=False)
    return filled.replace("\0", " ")


def help_of(name: str) -> str:
    """The help of a word."""
    word = WORDS[name]
    parts = [f"{word.about}\n\nUsage: {_usage_of(word)}\n"]
    parts.append(_rows("Arguments", [(argument.name, argument.about) for argument in word.arguments]))
    parts.append(_rows("Options", _shapes([*word.options, *word.common])))
    parts.append("".join(_paragraphs(word.details)))
    parts.append("\nExamples:\n" + "".join(f"  {line}\n" for line in word.examples))
    return "".join(parts)
