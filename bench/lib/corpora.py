"""Nine corpora inside the profile, and hostile texts, to be read and measured. The same size gives the same text."""

from __future__ import annotations

import functools
import random
from collections.abc import Callable

# Makes a text of a size, or the part of a text with a number.
Part = Callable[[int], str]

WORDS = (
    "alpha beta gamma delta config server proxy cache queue worker storage network region backup metrics gateway "
    "ingress token secret volume memory limit policy default internal external primary replica"
).split()
SENTENCE = (
    "The store keeps what was written before the crash, and a reader finds either the old state or the new one; "
    "nothing between them is ever seen by anybody who opens the folder again."
).split()


def until(size: int, part: Part) -> str:
    """The parts 0, 1, 2 .. in a row, as many as fit into the size."""
    parts: list[str] = []
    length, number = 0, 0
    while True:
        text = part(number)
        if length + len(text) > size:
            return "".join(parts)
        parts.append(text)
        length += len(text)
        number += 1


def service(chance: random.Random, number: int) -> str:
    """A service: short keys and words."""
    names = [chance.choice(WORDS) for _ in range(4)]
    return (
        f"{names[0]}-{number:06}:\n  image: {names[1]}/{names[2]}\n  restart: always\n"
        f"  port: {8000 + number % 999}\n  user: {names[3]}\n  env: production\n"
    )


def deployment(chance: random.Random, number: int) -> str:
    """Mappings and sequences in one another, as a file of Kubernetes has them."""
    name = f"{chance.choice(WORDS)}-{number}"
    return (
        f"- apiVersion: apps/v1\n  kind: Deployment\n  metadata:\n    name: {name}\n    labels:\n"
        f"      app: {name}\n      tier: {chance.choice(WORDS)}\n"
        f"  spec:\n    replicas: {number % 9}\n    template:\n      spec:\n"
        f"        containers:\n          - name: {name}\n            image: registry/{name}:1.{number % 50}\n"
        f"            args: [\"--port\", '80{number % 90}']\n"
        "            ports:\n              - containerPort: 8080\n            env:\n"
        f"              - name: {chance.choice(WORDS).upper()}\n                value: \"{number}\"\n"
        "              # set by the chart\n              - name: MODE\n                value: production\n"
    )


def literal(chance: random.Random, number: int) -> str:
    """A long literal scalar."""
    lines = [" ".join(chance.choice(WORDS) for _ in range(chance.randrange(4, 12))) for _ in range(40)]
    return f"file-{number}: |\n" + "".join(f"  {line}\n" for line in lines)


def flow_record(chance: random.Random, number: int) -> str:
    """A flow collection, as JSON has them."""
    names = [chance.choice(WORDS) for _ in range(5)]
    return (
        f' {{"id": {number}, "name": "{names[0]} {names[1]}", "tags": ["{names[2]}", "{names[3]}"], '
        f'"nested": {{"x": {number % 77}.5, "ok": true, "list": [1, 2, 3]}}, "owner": "{names[4]}"}},\n'
    )


def nest(number: int) -> str:
    """A collection of 40 levels."""
    lines = [f"nest-{number}:\n"]
    for level in range(1, 40):
        indent = "  " * level
        is_last = level == 39
        lines.append(f"{indent}- end\n{indent}- here\n" if is_last else f"{indent}left-{level}: a\n{indent}down:\n")
    return "".join(lines)


def paragraph(chance: random.Random, indent: str) -> str:
    """Some lines of words, each but the first behind an indent."""
    lines = []
    for _ in range(chance.randrange(3, 7)):
        start = chance.randrange(len(SENTENCE) - 12)
        lines.append(" ".join(SENTENCE[start : start + 12]).replace(":", ""))
    return ("\n" + indent).join(lines)


def chapter(chance: random.Random, number: int) -> str:
    """Folded and quoted scalars over lines, and plain ones."""
    return (
        f"folded-{number}: >\n  {paragraph(chance, '  ')}\n\n  {paragraph(chance, '  ')}\n"
        f"quoted-{number}: \"{paragraph(chance, '  ')}\\\n  {paragraph(chance, '  ')}\"\n"
        f"single-{number}: '{paragraph(chance, '  ')}\n\n  it''s said'\n"
        f"plain-{number}:\n  {paragraph(chance, '  ')}\n"
    )


def json_record(chance: random.Random, number: int) -> str:
    """JSON without whitespace, as programs write it."""
    names = [chance.choice(WORDS) for _ in range(4)]
    return (
        f'{{"id":{number},"name":"{names[0]}-{names[1]}",'
        f'"at":"2024-01-{number % 28 + 1:02}T10:{number % 60:02}:00Z",'
        f'"tags":["{names[2]}","{names[3]}"],"size":[{number % 640},{number % 480}],'
        f'"open":{"true" if number % 2 else "false"}}},'
    )


def job(chance: random.Random, number: int) -> str:
    """A job of a build pipeline: a literal of shell commands, a comment and empty lines."""
    name = f"{chance.choice(WORDS)}-{number}"
    commands = "".join(
        f"        {chance.choice(WORDS)} --{chance.choice(WORDS)} ${{{chance.choice(WORDS).upper()}}}\n"
        for _ in range(5)
    )
    return (
        f"# {name}: made by hand\n{name}:\n  stage: {chance.choice(WORDS)}\n"
        f"  needs: [{chance.choice(WORDS)}, {chance.choice(WORDS)}]\n"
        f"  script:\n    - |\n{commands}    - echo \"{name} is done\"\n\n"
        "  only:\n    - main\n    - /^release-.*$/\n\n"
    )


def listing(chance: random.Random, number: int) -> str:
    """A long sequence of short scalars, plain and quoted by turns."""
    entries = "".join(
        f"  - {chance.choice(WORDS)}\n" if entry % 3 else f"  - '{chance.choice(WORDS)} {entry}'\n"
        for entry in range(60)
    )
    return f"list-{number}:\n{entries}"


def parts(seed: int, part: Callable[[random.Random, int], str]) -> Part:
    """The parts of a corpus, which differ at random, each time in the same way."""
    return functools.partial(part, random.Random(seed))


CORPORA: dict[str, Part] = {
    "services": lambda size: until(size, parts(1, service)),
    "kubernetes": lambda size: until(size, parts(2, deployment)),
    "literals": lambda size: until(size, parts(3, literal)),
    "brackets": lambda size: "[\n" + until(size - 4, parts(4, flow_record)) + " ]\n",
    "nests": lambda size: until(size, nest),
    "prose": lambda size: until(size, parts(5, chapter)),
    "compact": lambda size: "[" + until(size - 4, parts(6, json_record))[:-1] + "]\n",
    "pipelines": lambda size: until(size, parts(7, job)),
    "listings": lambda size: until(size, parts(8, listing)),
}

# Texts that a careless reader takes more than linear time for. Some of them are refused.
HOSTILE: dict[str, Part] = {
    "[ alone": lambda size: "[" * size,
    "[ and ]": lambda size: "[" * (size // 2) + "]" * (size // 2),
    "{a: {a:": lambda size: "{a: " * (size // 5) + "}" * (size // 5),
    "- - - x": lambda size: "- " * (size // 2 - 1) + "x\n",
    "? ? ? x": lambda size: "? " * (size // 2 - 1) + "x\n",
    "long keys": lambda size: until(size, lambda number: f"{number:07}{'k' * 1016}: v\n"),
    "many keys": lambda size: until(size, lambda number: f"k{number}:\n"),
    "near keys": lambda size: until(size, lambda number: f"- {'k' * 1022}\n"),
    "collections as keys": lambda size: until(size, lambda number: "- " + "[" * 200 + "a" + "]: b" * 200 + "\n"),
    "white space": lambda size: "a:" + " " * (size - 4) + "b\n",
    "empty lines": lambda size: "a: b\n" + "\n" * (size - 5),
    "empty lines in a plain": lambda size: "a\n" + "\n" * (size - 4) + "b\n",
    "escapes": lambda size: '"' + "\\x41" * (size // 4 - 1) + '"\n',
    "rising literals": lambda size: until(
        size, lambda number: "- |\n" + "".join(" " * (k + 1) + "x\n" for k in range(60))
    ),
    "stairs": lambda size: until(
        size, lambda number: "- " * 99 + "a\n" + "".join("  " * level + "- b\n" for level in range(98, 0, -1))
    ),
    "comments": lambda size: "a: b\n" + until(size - 5, lambda number: f"# {number}\n"),
    "documents": lambda size: until(size, lambda number: "---\n"),
}
