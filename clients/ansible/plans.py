"""Tries the parts of the Ansible collection by themselves: texts in the one style beside `confstore format`, planned
edits beside a store, what plans stand on where another user comes between, what is shown of them, and what is noted of
a change."""

from __future__ import annotations

import functools
import os
import pwd
import random
import subprocess
from typing import Any
from unittest import mock

from ansible_collections.confstore.store.plugins.module_utils import differences, edits, faults, grounds, stores, style
from confstore import Absent, Condition, Refused, Store, Test
from confstore.trees import trees_of
from lib.store_runs import PROGRAM, Failures

SECRET = "s3cret-of-the-trial"


def random_text(choices: random.Random) -> str:
    pieces = [*"ab-_./: #'\"\\\n\n \t\0\x7f\x85\xa0\u2028\ufeffé", "\U0001f600", "yes", "|", "- ", "? ", "..."]
    pieces.append("k" * 999)
    return "".join(choices.choice(pieces) for _ in range(choices.randrange(8)))


def random_tree(choices: random.Random, depth: int = 0) -> style.Tree:
    kind = choices.randrange(3) if depth < 5 else 0
    if kind == 0:
        return random_text(choices)
    if kind == 1:
        return [random_tree(choices, depth + 1) for _ in range(choices.randrange(4))]
    return {random_text(choices): random_tree(choices, depth + 1) for _ in range(choices.randrange(4))}


def in_flow(tree: style.Tree) -> str:
    """A tree in flow style, with each character of a text as an escape."""
    if isinstance(tree, str):
        return '"' + "".join(f"\\U{ord(character):08X}" for character in tree) + '"'
    if isinstance(tree, list):
        return "[" + ", ".join(map(in_flow, tree)) + "]"
    return "{" + ", ".join(f"? {in_flow(key)} : {in_flow(value)}" for key, value in tree.items()) + "}"


def try_style(failures: Failures) -> None:
    """Random trees beside `confstore format`."""
    choices = random.Random(11)
    trees = [random_tree(choices) for _ in range(2_000)]
    for tree in [*trees[:100], *(trees[start : start + 100] for start in range(100, 2_000, 100))]:
        done = subprocess.run([PROGRAM, "format"], input=in_flow(tree).encode(), capture_output=True, check=False)
        text = style.to_text(tree)
        failures.expect(f"the text of {str(tree)[:60]}", text.encode(), done.stdout)
        failures.expect(f"the tree of {str(tree)[:60]}", style.same(style.from_text(text), tree), True)
    for text in ("a: b: c\n", "- a\n  - b\n", '"\\q"\n', "a\nb\n", "a:\n b\n", "'a'\n", ""):
        try:
            failures.expect(f"{text!r} is not in the one style", style.from_text(text), "a fault")
        except faults.Fault as fault:
            failures.expect(f"{text!r} is not in the one style", fault.name, "BadAnswer")


def random_wish(choices: random.Random) -> edits.Wish:
    steps = ["a", "b", "-", "0", "1", "2", "01", "~0", "~1x", "", "x~"]
    path = "".join(f"/{choices.choice(steps)}" for _ in range(choices.randrange(4)))
    trees: list[style.Tree] = ["x", "y", [], {"a": ["x"]}, ["x", {"b": "y"}]]
    tree = choices.choice(trees)
    is_present = choices.random() < 0.6
    return edits.Wish(choices.choice(["web"] * 20 + ["none", "Bad"]), path, tree if is_present else None, is_present)


def told(store: Store, wish: edits.Wish) -> str:
    """How the store takes what a wish says, as one edit."""
    try:
        if wish.tree is None:
            store.delete(wish.name, wish.path)
        elif wish.path:
            store.set(wish.name, wish.path, wish.tree)
        else:
            store.put(wish.name, wish.tree)
    except Refused as refused:
        return refused.word
    return "done"


def planned(store: Store, wish: edits.Wish) -> tuple[str, style.Tree | None]:
    """How a wish is planned, and the configuration then."""
    try:
        plan = edits.plan_of([wish], lambda name: store.get(name, default=None))
    except faults.Fault as fault:
        return fault.name, None
    return "done", plan.after[wish.name]


def try_plans(folder: str, failures: Failures) -> None:
    """Random wishes beside what a store does with the same edits."""
    choices = random.Random(13)
    starts: list[style.Tree] = ["x", [], {"a": "x", "-": "y"}, ["x", "y"], {"a": ["x", {"b": "y"}], "b": {"a": "x"}}]
    with Store(folder, make=True) as store:
        for _ in range(1_500):
            store["web"] = choices.choice(starts)
            wish = random_wish(choices)
            how, after = planned(store, wish)
            taken = told(store, wish)
            is_gone_already = not wish.is_present and taken in ("NoConfig", "NoSuchPlace") and how == "done"
            if how == "BadPath" and taken == "NoConfig":
                taken = how  # both are so, and which is said first is the module's own
            failures.expect(f"{wish}", "done" if is_gone_already else taken, how)
            if how == "done" and not wish.path.endswith("/-"):
                failures.expect(f"after {wish}", store.get(wish.name, default=None), after)


def reads(tree: style.Tree | None) -> edits.Read:
    """Reads this as each configuration."""
    return lambda _: tree


def try_wishes(failures: Failures) -> None:
    """What is the module's own: elements of lists, and what is missing above a path."""
    rows: list[tuple[style.Tree | None, edits.Wish, style.Tree | None, list[str]]] = [
        ({"l": ["a"]}, edits.Wish("web", "/l/-", "b"), {"l": ["a", "b"]}, ["set /l/-"]),
        ({"l": ["a", "b"]}, edits.Wish("web", "/l/-", "b"), {"l": ["a", "b"]}, []),
        ({"l": ["b", "a", "b"]}, edits.Wish("web", "/l/-", "b", False), {"l": ["a"]}, ["delete /l/2", "delete /l/0"]),
        ({"l": ["a"]}, edits.Wish("web", "/l/-", "b", False), {"l": ["a"]}, []),
        (None, edits.Wish("web", "/a/b", "x", True, True), {"a": {"b": "x"}}, ["import "]),
        ({"c": "y"}, edits.Wish("web", "/a/b", "x", True, True), {"c": "y", "a": {"b": "x"}}, ["set /a"]),
        ({"a": {"b": "x"}}, edits.Wish("web", "/a/b", "x", True, True), {"a": {"b": "x"}}, []),
        ({}, edits.Wish("web", "/l/-", "x", True, True), {"l": ["x"]}, ["set /l"]),
        ({"l": [{"b": "x"}]}, edits.Wish("web", "/l/-/b", "x", True, True), {"l": [{"b": "x"}]}, []),
        ({"a": "x", "b": "y"}, edits.Wish("web", "", {"b": "y", "a": "x"}), {"b": "y", "a": "x"}, ["import "]),
        (None, edits.Wish("web", "", None, False), None, []),
    ]
    for before, wish, after, wanted in rows:
        plan = edits.plan_of([wish], reads(before))
        failures.expect(f"{wish} of {before}", plan.after["web"], after)
        failures.expect(f"edits of {wish}", [f"{edit.kind} {edit.path}" for edit in plan.edits], wanted)
    back = [edits.Wish("web", "/a", "y"), edits.Wish("web", "/a", "x")]
    failures.expect("an edit that is taken back", edits.plan_of(back, reads({"a": "x"})).edits, [])


def condition_of(condition: grounds.Condition) -> Condition:
    if condition.tree is None:
        return Absent(condition.name, condition.path)
    return Test(condition.name, condition.path, condition.tree)


def performed(store: Store, plan: edits.Plan) -> str:
    """What becomes of the edits of a plan where what it stands on has to hold: `done`, or the refusal."""
    try:
        with store.batch(when=[condition_of(condition) for condition in plan.grounds]) as batch:
            for edit in plan.edits:
                if edit.tree is None:
                    batch.delete(edit.name, edit.path)
                elif edit.kind == "set":
                    batch.set(edit.name, edit.path, edit.tree)
                else:
                    batch.put(edit.name, edit.tree)
    except Refused as refused:
        return refused.word
    return "done"


def random_wishes(choices: random.Random) -> list[edits.Wish]:
    """Wishes for small configurations, so that they often meet."""
    found = []
    for _ in range(choices.randrange(1, 4)):
        path = "".join(f"/{choices.choice(['a', 'b', '0', '1', '-'])}" for _ in range(choices.randrange(4)))
        is_present, tree = choices.random() < 0.6, choices.choice(SMALL)
        of_list = is_present or path.endswith("/-")
        wish = edits.Wish("web", path, tree if of_list else None, is_present, choices.random() < 0.5)
        found.append(wish)
    return found


def planned_after(wishes: list[edits.Wish], read: edits.Read) -> object:
    """What wishes make of a configuration, or the fault's name."""
    try:
        return edits.plan_of(wishes, read).after["web"]
    except faults.Fault as fault:
        return f"fault {fault.name}"


SMALL: list[style.Tree] = [
    "x", "y", ["x"], ["x", "y"], {"a": "x"}, {"a": ["x", "y"], "b": {"a": "x"}}, [["x"], {"a": "y"}],
]  # fmt: skip


def try_grounds(folder: str, failures: Failures) -> None:
    """Plans that are made on one state and performed on the next one, which another user made: what they leave is what
    a plan would that is made on the second, or they are refused. What they stand on holds where nobody came between."""
    choices = random.Random(17)
    outcomes: dict[str, int] = {}
    with Store(folder, make=True) as store:
        read: edits.Read = functools.partial(store.get, default=None)
        for _ in range(4_000):
            store["web"] = choices.choice(SMALL)
            wishes, others = random_wishes(choices), random_wishes(choices)
            try:
                plan, other = edits.plan_of(wishes, read), edits.plan_of(others, read)
            except faults.Fault:
                continue
            if other.edits and choices.random() < 0.8:
                failures.expect(f"alone: {others}", performed(store, other), "done")
            if not plan.edits:
                continue
            wanted = planned_after(wishes, read)
            ended = performed(store, plan)
            outcomes[ended] = outcomes.get(ended, 0) + 1
            if ended == "done":
                failures.expect(f"{wishes} after {others}", read("web"), wanted)
    failures.expect("enough of each", min(outcomes["done"], outcomes["Unmet"]) > 200, True)
    failures.expect("how they end", set(outcomes) - {"done", "Unmet", "NoConfig", "NoSuchPlace", "NotIndex"}, set())


def try_places_of_grounds(failures: Failures) -> None:
    """Which places plans stand on."""
    put, take = edits.Wish, functools.partial(edits.Wish, tree=None, is_present=False)
    three: style.Tree = ["a", "b", "c"]
    rows: list[tuple[style.Tree | None, list[edits.Wish], list[tuple[str, style.Tree | None]]]] = [
        ({"a": "x", "b": "y"}, [put("web", "/a", "y")], [("/a", "x")]),
        ({"a": "x"}, [put("web", "/t~1/k", "v", True, True)], [("/t~1", None)]),
        ({"t": {"c": "x"}}, [put("web", "/t/k", "v", True, True)], [("/t/k", None)]),
        (None, [put("web", "/t/k", "v", True, True)], [("", None)]),
        ({"l": ["a"]}, [put("web", "/l/-", "b")], [("/l", ["a"])]),
        ({"l": three}, [put("web", "/l/-", "b", False)], [("/l", three)]),
        ({"a": "x", "b": "y"}, [take("web", "/a")], [("/a", "x")]),
        ({"a": "x"}, [take("web", "")], [("", {"a": "x"})]),
        ({"a": "x"}, [put("web", "", "y")], [("", {"a": "x"})]),
        # What an edit of the plan has made needs no condition, and a place has that of a place above it.
        ({"a": "x"}, [put("web", "/t/k", "v", True, True), put("web", "/t/c", "w", True, True)], [("/t", None)]),
        ({"a": {"b": "x"}}, [put("web", "/a/b", "y"), take("web", "/a")], [("/a", {"b": "x"})]),
        # In a list that edits have changed an index may mean another element.
        ({"l": three}, [take("web", "/l/0"), take("web", "/l/0")], [("/l", three)]),
        ({"l": ["a"]}, [put("web", "/l/-", "b"), put("web", "/l/1", "c")], [("/l", ["a"])]),
        ({"l": [["a"], ["b"]]}, [take("web", "/l/0"), put("web", "/l/0/-", "c")], [("/l", [["a"], ["b"]])]),
        # What is as it should be counts too.
        ({"a": "x", "b": "y"}, [take("web", "/c"), put("web", "/a", "x"), put("web", "/b", "z")],
         [("/c", None), ("/a", "x"), ("/b", "y")]),
    ]  # fmt: skip
    for before, wishes, wanted in rows:
        found = edits.plan_of(wishes, reads(before)).grounds
        failures.expect(f"what {wishes} of {before} stand on", found, [("web", *place) for place in wanted])


def texts_of(tree: style.Tree | None, path: str = "") -> dict[str, str]:
    """The texts of a tree, by their places."""
    if isinstance(tree, str):
        return {path: tree}
    if isinstance(tree, dict):
        pairs = [(key.replace("~", "~0").replace("/", "~1"), value) for key, value in tree.items()]
    else:
        pairs = [(str(at), value) for at, value in enumerate(tree or [])]
    return {place: text for step, value in pairs for place, text in texts_of(value, f"{path}/{step}").items()}


def try_differences(failures: Failures) -> None:
    """Of two random trees: what is shown has each text that is in one of them alone, or there in another place."""
    choices = random.Random(19)
    for _ in range(3_000):
        before, after = (choices.choice([*SMALL, random_tree(choices, 3)]) for _ in range(2))
        found = differences.differences(before, after)
        was = {place: text for one in found for place, text in texts_of(one.before, one.path).items()}
        is_now = {place: text for one in found for place, text in texts_of(one.after, one.path).items()}
        old, new = texts_of(before), texts_of(after)
        for mine, other, shown in ((old, new, was), (new, old, is_now)):
            lacking = [place for place, text in mine.items() if other.get(place) != text and shown.get(place) != text]
            failures.expect(f"what is not shown of {before} and {after}", lacking, [])
    rows: list[tuple[style.Tree | None, style.Tree | None, list[tuple[str, Any, Any]]]] = [
        ({"port": "80", "password": SECRET}, {"port": "81", "password": SECRET}, [("/port", "80", "81")]),
        ({"l": [SECRET, "a", SECRET]}, {"l": [SECRET, SECRET]}, [("/l/1", "a", None)]),
        ([SECRET], [SECRET, "a"], [("/1", None, "a")]),
        ([{"p": SECRET, "n": "1"}], [{"p": SECRET, "n": "2"}], [("/0/n", "1", "2")]),
        ({"a": SECRET, "b": "x"}, {"b": "x", "a": SECRET}, [("", ["a", "b"], ["b", "a"])]),
        ({"a~/": {"b": "x"}}, {"a~/": {}}, [("/a~0~1/b", "x", None)]),
        (None, "x", [("", None, "x")]), ("x", None, [("", "x", None)]), ("x", "x", []), ({}, [], [("", {}, [])]),
    ]  # fmt: skip
    for one, other_one, wanted in rows:
        found = differences.differences(one, other_one)
        failures.expect(f"what is shown of {one} and {other_one}", [tuple(place) for place in found], wanted)


def noted(target: stores.Target, kind: str) -> Any:
    """What the store notes of one more change of a task, with the length of `when`. `kind` is how it is made."""
    assert target.folder is not None
    if kind == "package":
        store: stores.Store = stores.ByPackage(Store, target.folder, target, about=target.given())
    else:
        store = stores.BySession(stores.Program(target), target).begun()
    try:
        store.perform([edits.Edit("import", "web", "", {"n": "1"})])
    finally:
        store.close()
    with open(os.path.join(target.folder, "store.yaml"), "rb") as source:
        record = trees_of(source.read())[-1]
    assert isinstance(record, dict)
    about: Any = record.get("about")
    return about and {**about, "when": len(about["when"]) if "when" in about else 0}


def try_abouts(top: str, failures: Failures) -> None:
    """What a task gives, and its name, where it asks for an about, or the store keeps them; by a program that takes
    abouts, or by a stand-in of one (`python/tests/about_program.py`)."""
    os.environ.setdefault("CONFSTORE", PROGRAM)
    from tests.about_program import program_with_abouts

    environment = program_with_abouts()
    with mock.patch.dict(os.environ, environment):
        for kind in ("package", "session"):
            folder = os.path.join(top, f"abouts-{kind}")
            os.mkdir(folder)
            try_abouts_by(kind, stores.Target(folder, None, environment["CONFSTORE"], 60.0, None, "A task"), failures)


def try_abouts_by(kind: str, target: stores.Target, failures: Failures) -> None:
    own = {"by": pwd.getpwuid(os.getuid()).pw_name, "when": len("2026-12-01T10:00:00Z"), "why": "A task"}
    rows: list[tuple[stores.Given | None, Any]] = [
        (None, None), ({"ticket": "7"}, {**own, "ticket": "7"}), (None, own),
        ({"why": "mine", "by": None}, {"when": own["when"], "why": "mine"}), ({}, own),
        ({"by": None, "when": None, "why": None}, None),
    ]  # fmt: skip
    for given, wanted in rows:
        failures.expect(f"{given} by the {kind}", noted(target._replace(about=given), kind), wanted)
    wrongs: list[tuple[stores.Given, str]] = [
        ({"": "x"}, "BadCommand"), ({"k" * 65: "x"}, "AboutLarge"), ({"k": "x" * 5000}, "AboutLarge")
    ]  # fmt: skip
    for given, name in wrongs:
        try:
            noted(target._replace(about=given), kind)
            failures.expect(f"{name} by the {kind}", "done", name)
        except stores.Fault as fault:
            failures.expect(f"{name} by the {kind}", fault.name, name)


def try_parts(top: str, failures: Failures) -> None:
    try_abouts(top, failures)
    try_style(failures)
    try_plans(os.path.join(top, "plans"), failures)
    try_wishes(failures)
    try_grounds(os.path.join(top, "grounds"), failures)
    try_places_of_grounds(failures)
    try_differences(failures)
