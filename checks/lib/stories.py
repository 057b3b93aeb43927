"""Sessions whose every fault is tried: their commands, what is answered, and what the store then holds."""

from __future__ import annotations

import copy
from collections.abc import Mapping, Sequence

from lib.store_runs import EMPTY, IMPORT, SINGLE, SLICED, WORKED


class Story:
    """A session over a folder. `files` is what is in the folder before. `changes` has for each command whether it is
    accepted and changes the state. `states` has for each number of such commands what `LOOK` is answered then."""

    def __init__(
        self,
        name: str,
        files: Mapping[str, bytes],
        steps: Sequence[tuple[str, str]],
        changes: Sequence[bool],
        states: Sequence[str],
    ) -> None:
        self.name = name
        self.files = files
        self.commands = "".join(command for command, _ in steps).encode()
        self.answers = [answer.encode() for _, answer in steps]
        self.changes = changes
        self.states = [state.encode() for state in states]
        self.words: Sequence[str] = SINGLE

    def in_groups(self) -> Story:
        """The same session in groups, with a checkpoint in slices beside it as often as it can."""
        story = copy.copy(self)
        story.name, story.words = f"{self.name}, in groups", SLICED
        return story

    def accepted(self, performed: int) -> int:
        """How many of the first so many commands changed the state."""
        return sum(self.changes[:performed])

    def answered(self, written: int) -> int:
        """How many answers are whole in the first so many bytes of output."""
        ends = [len(b"".join(self.answers[: count + 1])) for count in range(len(self.answers))]
        return sum(end <= written for end in ends)

    @property
    def output(self) -> bytes:
        return b"".join(self.answers)


# Looks at a store: its count, its names, and the configuration of the story.
LOOK = b'checkpoint:\n...\nnames:\n...\nexport: app\n...\n'


def looked(count: int, text: str | None) -> str:
    """What `LOOK` is answered."""
    end = "---\nnames: []\n...\n---\nrefused: NoConfig\n...\n"
    if text is not None:
        end = f"---\nnames:\n  - app\n...\n---\ntext: |\n  {text}\n...\n"
    return f'---\nok: "{count}"\n...\n{end}'


# The worked session over a new folder.
NEW = Story(
    "a new folder",
    {},
    WORKED,
    [True, True, False, True, False, False],
    [looked(0, None), looked(1, 'port: "80"'), looked(2, 'port: "81"'), looked(3, None)],
)

# A store with a torn record, beside a left-over `next.yaml`: opening drops the record. Then come a checkpoint and
# edits.
TORN = Story(
    "a torn store",
    {
        "store.yaml": EMPTY + IMPORT.replace(b"import: a", b"import: app") + b'---\nat: "2"\nset: app\npa',
        "next.yaml": b"left over",
    },
    [
        ("checkpoint:\n...\n", '---\nok: "1"\n...\n'),
        ('set: app\npath: ""\nvalue: z\n...\n', '---\nok: "2"\n...\n'),
        ("checkpoint:\n...\n", '---\nok: "2"\n...\n'),
        ('get: app\npath: ""\n...\n', "---\nvalue: z\n...\n"),
        ('delete: app\npath: ""\n...\n', '---\nok: "3"\n...\n'),
    ],
    [False, True, False, False, True],
    [looked(1, "x"), looked(2, "z"), looked(3, None)],
)

# Batches over a new folder, one of which is refused for its last edit.
BATCHES = Story(
    "batches",
    {},
    [
        (
            'batch:\n  - import: app\n    text: "port: 80"\n  - set: app\n    path: /port\n    value: 81\n...\n',
            '---\nok: "1"\n...\n',
        ),
        (
            'batch:\n  - set: app\n    path: /port\n    value: 82\n  - delete: gone\n    path: ""\n...\n',
            "---\nrefused: NoConfig\n...\n",
        ),
        (
            'batch:\n  - delete: app\n    path: ""\n  - import: app\n    text: "x: v"\n'
            "  - set: app\n    path: /z\n    value: w\n...\n",
            '---\nok: "2"\n...\n',
        ),
        ('delete: app\npath: ""\n...\n', '---\nok: "3"\n...\n'),
    ],
    [True, False, True, True],
    [looked(0, None), looked(1, 'port: "81"'), looked(2, "x: v\n  z: w"), looked(3, None)],
)

# Commands with conditions over a new folder. The second and the fourth have one that does not hold.
CONDITIONS = Story(
    "conditions",
    {},
    [
        (
            'if:\n  - absent: app\n  - count: "0"\nimport: app\ntext: "port: 80"\n...\n',
            '---\nok: "1"\n...\n',
        ),
        (
            'if:\n  - absent: app\n    path: /tls\n  - count: "0"\nimport: app\ntext: "port: 80"\n...\n',
            "---\nrefused: Unmet\n...\n",
        ),
        (
            'if:\n  - test: app\n    path: ""\n    value:\n      port: 80\nbatch:\n'
            "  - set: app\n    path: /port\n    value: 81\n...\n",
            '---\nok: "2"\n...\n',
        ),
        (
            'if:\n  - test: app\n    path: /port\n    value: "80"\nbatch:\n'
            '  - import: app\n    text: "port: 82"\n...\n',
            "---\nrefused: Unmet\n...\n",
        ),
        ('if:\n  - absent: app\n    path: /a~1b\ndelete: app\npath: ""\n...\n', '---\nok: "3"\n...\n'),
    ],
    [True, False, True, False, True],
    [looked(0, None), looked(1, 'port: "80"'), looked(2, 'port: "81"'), looked(3, None)],
)

# A store whose base takes several slices. Each command has as many bytes of a comment as a read may bring, so that no
# two are in one group, and a checkpoint goes on between them.
TEXT = "x" * 9_000
PADDING = f"# {'x' * 65_536}\n"
LARGE = Story(
    "a large store",
    {"store.yaml": EMPTY + IMPORT.replace(b"import: a", b"import: app").replace(b"tree: x", f"tree: {TEXT}".encode())},
    [
        (f"{PADDING}set: app\npath: \"\"\nvalue: {TEXT}{number}\n...\n", f'---\nok: "{number}"\n...\n')
        for number in range(2, 7)
    ],
    [True] * 5,
    [looked(1, f'"{TEXT}"'), *(looked(number, f'"{TEXT}{number}"') for number in range(2, 7))],
).in_groups()
