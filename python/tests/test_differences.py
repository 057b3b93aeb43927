"""What differs between two trees, beside a plain model of JSON Pointers' edits; and changes that are taken back."""

from __future__ import annotations

import copy
import random
import unittest

from confstore.differences import are_same, differences, edits_between, listed_between
from confstore.merging import taken_back
from confstore.style import Tree, to_text

PAIRS = 3_000

KEYS = ["a", "b", "c", "d", "a/b", "~", "", "0", "-"]


def some_tree(chance: random.Random, depth: int) -> Tree:
    kind = chance.randrange(6) if depth else 0
    if kind < 2:
        return chance.choice(["x", "y", "", "80"])
    if kind < 4:
        return [some_tree(chance, depth - 1) for _ in range(chance.randrange(5))]
    return {key: some_tree(chance, depth - 1) for key in chance.sample(KEYS, chance.randrange(6))}


def changed_tree(chance: random.Random, tree: Tree, depth: int) -> Tree:
    """A tree that is like another one."""
    if chance.random() < 0.15 or isinstance(tree, str):
        return some_tree(chance, depth) if chance.random() < 0.5 else tree
    if isinstance(tree, list):
        items = [changed_tree(chance, item, depth - 1) for item in tree if chance.random() < 0.9]
        if chance.random() < 0.3:
            items.insert(chance.randrange(len(items) + 1), some_tree(chance, max(depth - 1, 0)))
        return items
    pairs = [(key, changed_tree(chance, value, depth - 1)) for key, value in tree.items() if chance.random() < 0.9]
    if chance.random() < 0.1:
        chance.shuffle(pairs)
    if chance.random() < 0.2:
        pairs.insert(chance.randrange(len(pairs) + 1), (chance.choice(KEYS), some_tree(chance, max(depth - 1, 0))))
    return dict(pairs)


def performed(tree: Tree, path: str, new: "Tree | None") -> Tree:
    """The tree after an edit, by RFC 6901 and what docs/SESSION.md says of `set` and `delete`."""
    if path == "":
        assert new is not None
        return new
    assert path.startswith("/")
    *above, last = [step.replace("~1", "/").replace("~0", "~") for step in path[1:].split("/")]
    tree = copy.deepcopy(tree)
    around = tree
    for step in above:
        assert not isinstance(around, str)
        around = around[int(step)] if isinstance(around, list) else around[step]
    assert not isinstance(around, str)
    if isinstance(around, dict):
        if new is None:
            del around[last]
        else:
            around[last] = new
    elif new is None:
        del around[int(last)]
    elif last == "-":
        around.append(new)
    else:
        around[int(last)] = new
    return tree


class Differences(unittest.TestCase):
    def rows(self, first: Tree, second: Tree) -> "list[tuple[str, Tree | None, Tree | None]]":
        return [(one.path, one.old, one.new) for one in differences(first, second)]

    def test_rows(self) -> None:
        """By hand, of the rules that the crate `tree_diff` states."""
        rows: list[tuple[Tree, Tree, list[tuple[str, Tree | None, Tree | None]]]] = [
            ("x", "x", []), ("x", "y", [("", "x", "y")]), ("x", ["x"], [("", "x", ["x"])]),
            ({"a": "1", "b": "2"}, {"a": "1", "b": "3"}, [("/b", "2", "3")]),
            ({"a/b": "1", "~": "2"}, {"a/b": "2", "~": "3"}, [("/a~1b", "1", "2"), ("/~0", "2", "3")]),
            ({"a": "1", "b": "2"}, {"b": "2"}, [("/a", "1", None)]),
            ({"b": "2"}, {"b": "2", "a": "1"}, [("/a", None, "1")]),
            # a key that comes before the others is one of a mapping that is set anew
            ({"b": "2"}, {"a": "1", "b": "2"}, [("", {"b": "2"}, {"a": "1", "b": "2"})]),
            ({"a": "1", "b": "2", "c": "3"}, {"a": "1", "c": "3", "b": "2"},
             [("/b", "2", None), ("/b", None, "2")]),
            (["a", "b", "c"], ["a", "c"], [("/1", "b", None)]), (["a", "b"], ["a"], [("/1", "b", None)]),
            (["a"], ["a", "b", "c"], [("/-", None, "b"), ("/-", None, "c")]),
            (["a", "b"], ["a", "x"], [("/1", "b", "x")]),
            (["a", "b", "c", "d"], ["x", "d"], [("/0", "a", "x"), ("/1", "b", None), ("/1", "c", None)]),
            ({"a": {"b": ["1"]}}, {"a": {"b": ["2"]}}, [("/a/b/0", "1", "2")]), ({}, [], [("", {}, [])]),
        ]  # fmt: skip
        for first, second, wanted in rows:
            with self.subTest(first=first, second=second):
                self.assertEqual(self.rows(first, second), wanted)

    def test_pairs(self) -> None:
        """The edits make the second tree of the first, in order. Equal trees have none."""
        chance = random.Random(80)
        edits = 0
        for _ in range(PAIRS):
            first = some_tree(chance, 4)
            second = changed_tree(chance, first, 4)
            tree = first
            for difference in differences(first, second):
                tree = performed(tree, difference.path, difference.new)
                edits += 1
            self.assertEqual(to_text(tree), to_text(second))
            self.assertEqual(are_same(first, second), to_text(first) == to_text(second))
            self.assertEqual(differences(first, copy.deepcopy(first)), [])
        self.assertGreater(edits, PAIRS)

    def test_none(self) -> None:
        self.assertEqual([differences(None, None), [tuple(one) for one in differences(None, "x")],
                          [tuple(one) for one in differences("x", None)]],
                         [[], [((), None, "x")], [((), "x", None)]])  # fmt: skip


class Edits(unittest.TestCase):
    def test_an_import_is_shorter(self) -> None:
        """By hand: a set of a key has 37 bytes, an import 22 and 11 for each key."""
        for count, is_import in ((1, False), (27, False), (28, True), (40, True)):
            first: Tree = {f"k{number}": "a" for number in range(10, 10 + count)}
            second: Tree = {f"k{number}": "b" for number in range(10, 10 + count)}
            listed = listed_between("app", first, second)
            sets: list[Tree] = [{"set": "app", "path": f"/k{number}", "value": "b"} for number in range(10, 10 + count)]
            self.assertEqual(listed, [{"import": "app", "tree": second}] if is_import else sets, count)
            self.assertEqual(len(to_text(list(listed))), 22 + 11 * count if is_import else 37 * count)
            whole: list[Tree] = [{"import": "app", "text": to_text(second)}]
            self.assertEqual(edits_between("app", first, second), whole if is_import else sets)

    def test_edits_that_are_shorter_stay(self) -> None:
        first: Tree = {f"k{number}": "a" * 50 for number in range(60)}
        second: Tree = {f"k{number}": "b" if number < 30 else "a" * 50 for number in range(60)}
        wanted: list[Tree] = [{"set": "app", "path": f"/k{number}", "value": "b"} for number in range(30)]
        self.assertEqual(listed_between("app", first, second), wanted)

    def test_one_that_is_new_or_gone(self) -> None:
        tree: Tree = {f"k{number}": "a" for number in range(60)}
        self.assertEqual(listed_between("app", None, tree), [{"import": "app", "tree": tree}])
        self.assertEqual(listed_between("app", tree, None), [{"delete": "app", "path": ""}])
        self.assertEqual(edits_between("app", tree, dict(tree)), [])


class TakenBack(unittest.TestCase):
    def test_rows(self) -> None:
        one: dict[str, Tree] = {"hosts": ["a", "b"], "port": "80"}
        two: dict[str, Tree] = {"hosts": ["a", "b"], "port": "81"}
        three: dict[str, Tree] = {"hosts": ["a", "b"], "port": "82"}
        rows: list[tuple[Tree | None, Tree | None, Tree | None, Tree | None, list[str]]] = [
            (one, two, two, one, []),
            # another place was changed since
            (one, two, {"hosts": [], "port": "81"}, {"hosts": [], "port": "80"}, []),
            # the same place was changed since
            (one, two, three, three, ["/port"]),
            # it has its old value again
            (one, two, one, one, []),
            # what was put in goes, and what was taken out stands where it stood
            ({"a": "1", "b": "2", "c": "3"}, {"a": "1", "c": "3", "d": "4"}, {"a": "1", "c": "9", "d": "4"},
             {"a": "1", "b": "2", "c": "9"}, []),
            ({"a": "1", "b": "2"}, {"b": "2"}, {"x": "0", "b": "2"}, {"a": "1", "x": "0", "b": "2"}, []),
            ({"a": {"b": "1"}}, {}, {"a": {"b": "1", "c": "2"}}, {"a": {"b": "1", "c": "2"}}, ["/a"]),
            # a list of as many elements is gone through, and another one is one place
            (["a", "b"], ["x", "b"], ["x", "c"], ["a", "c"], []),
            (["a", "b"], ["x", "b"], ["y", "b"], ["y", "b"], ["/0"]),
            (["a"], ["a", "b"], ["a", "b", "c"], ["a", "b", "c"], [""]),
            ({"l": ["a"]}, {"l": ["a", "b"]}, {"l": ["a", "b"], "m": "1"}, {"l": ["a"], "m": "1"}, []),
            (None, {"a": "1"}, {"a": "1"}, None, []), (None, {"a": "1"}, {"a": "2"}, {"a": "2"}, [""]),
            ({"a": "1"}, None, None, {"a": "1"}, []), ({"a": "1"}, None, {"a": "2"}, {"a": "2"}, [""]),
            ({"a": "1"}, {"a": "2"}, None, None, [""]),
            ({"~/": "1", "b": {"c": "1"}}, {"~/": "2", "b": {"c": "2"}}, {"~/": "3", "b": {"c": "4"}},
             {"~/": "3", "b": {"c": "4"}}, ["/~0~1", "/b/c"]),
        ]  # fmt: skip
        for before, after, now, wanted, places in rows:
            with self.subTest(before=before, after=after, now=now):
                found, changed = taken_back(before, after, now)
                self.assertEqual(changed, places)
                self.assertTrue(are_same(found, wanted), f"{found} instead of {wanted}")

    def test_the_last_change_is_taken_back_exactly(self) -> None:
        """Where nothing came since, what was there before is there again, whatever was changed."""
        chance = random.Random(81)
        for _ in range(PAIRS):
            before = some_tree(chance, 4)
            after = changed_tree(chance, before, 4)
            self.assertEqual(taken_back(before, after, copy.deepcopy(after)), (before, []))

    def test_what_came_since_stays(self) -> None:
        """Of mappings of texts, beside a model that looks at each key alone."""
        chance = random.Random(82)
        for _ in range(PAIRS):
            before, after, now = (
                {key: chance.choice("xy") for key in chance.sample(KEYS, chance.randrange(6))} for _ in range(3)
            )
            found, changed = taken_back(dict(before), dict(after), dict(now))
            if after == now and list(after) == list(now):
                continue
            if list(before.items()) == list(after.items()) or list(before.items()) == list(now.items()):
                self.assertEqual((found, changed), (now, []))
                continue
            wanted, places = {}, set()
            for key in KEYS:
                old, new, here = before.get(key), after.get(key), now.get(key)
                kept = here if old == new or here == old or here != new else old
                if here not in (old, new) and old != new:
                    places.add("/" + key.replace("~", "~0").replace("/", "~1"))
                if kept is not None:
                    wanted[key] = kept
            self.assertEqual((found, set(changed)), (wanted, places))


if __name__ == "__main__":
    unittest.main()
