"""Entries, and the batches that perform them: once, in their order, and no others."""

from __future__ import annotations

import os
import tempfile
import unittest
from typing import Any, List
from unittest import mock

import confstore
from confstore import Refused as StoreRefused, Store, Tree
from confstore_replicated import answers as answers_module
from confstore_replicated import follower as following
from confstore_replicated.answers import answers_in, base_length_in, count_in
from confstore_replicated.entries import LONGEST, MARK_LENGTH, NO_MARK, RESERVED, Command, Condition, Edit, Refused
from confstore_replicated.entries import batch_of, change_in, change_of, command_of, entry_of, has_nonce, number_in
from confstore_replicated.entries import marked as marked_with, refusal_of as refusal_with
from confstore_replicated.etcd import Item
from confstore_replicated.follower import Follower, NotReplicated
from confstore_replicated.history import mark_of, short_of
from confstore_replicated.store import NodeStore

IMPORT: Edit = {"import": "a", "text": "n: x"}
SET: Edit = {"set": "a", "path": "/n", "value": "y"}
WRONG: Edit = {"set": "b", "path": "/n", "value": "y"}
NUMBERED: Condition = {"count": "1"}
IS_X: Condition = {"test": "a", "path": "/n", "value": "x"}

MARK = "e" + "x" * (MARK_LENGTH - 1)


Edits = List[Edit]


def marked(edits: Edits, number: int, before: int) -> Edits:
    return marked_with(edits, number, before, MARK)


def refusal_of(word: str, number: int, before: int) -> Edits:
    edits: Any = refusal_with(word, number, before, MARK)["batch"]
    return list(edits)


# The longest base of a store, as docs/STORE.md says.
LONGEST_BASE = 67_108_864


def nested(depth: int, tree: Tree = "x") -> Tree:
    for _ in range(depth):
        tree = [tree]
    return tree


class Entries(unittest.TestCase):
    def test_what_is_refused_before_the_log(self) -> None:
        rows: list[tuple[str, Any]] = [
            ("BadCommand", None),
            ("BadCommand", {}),
            ("BadCommand", {"set": "a", "value": "y", "path": "/n"}),
            ("BadCommand", {"set": "a", "path": 1, "value": "y"}),
            ("BadCommand", {"set": "a", "path": "", "value": 80}),
            ("BadCommand", {"set": "a", "path": "", "value": ["x", None]}),
            ("BadCommand", {"delete": "a"}),
            ("BadCommand", {"batch": "a"}),
            ("BadCommand", {"batch": [IMPORT, {"names": ""}]}),
            ("EmptyBatch", {"batch": []}),
            ("BadName", {"delete": RESERVED, "path": ""}),
            ("BadName", {"batch": [IMPORT, {"import": RESERVED, "text": "{}"}]}),
            ("BadCommand", {"if": [], **SET}),
            ("BadCommand", {"if": "a", **SET}),
            ("BadCommand", {"if": [NUMBERED]}),
            ("BadCommand", {**SET, "if": [NUMBERED]}),
            ("BadCommand", {"if": [NUMBERED], "names": ""}),
            ("BadCommand", {"if": [NUMBERED], "batch": [{"if": [NUMBERED], **SET}]}),
            ("BadCommand", {"if": [SET], **SET}),
            ("BadCommand", {"if": [{"count": 3}], **SET}),
            ("BadCommand", {"if": [{"test": "a", "path": "/n"}], **SET}),
            ("BadCommand", {"if": [{"path": "/n", "absent": "a"}], **SET}),
            ("BadName", {"if": [NUMBERED, {"absent": RESERVED}], **SET}),
            ("BadName", {"if": [{"test": RESERVED, "path": "", "value": "x"}], **SET}),
            ("NotText", {"if": [{"test": "a", "path": "/n", "value": "\ud800"}], **SET}),
            ("TooLong", {"if": [{"test": "a", "path": "/n", "value": "x" * LONGEST}], **SET}),
            ("TooDeep", {"if": [{"test": "a", "path": "", "value": nested(151)}], **SET}),
            ("TooDeep", {"set": "a", "path": "", "value": nested(151)}),
            ("NotText", {"set": "a", "path": "/\ud800", "value": "y"}),
            ("NotText", {"set": "a", "path": "", "value": {"\udc80": "y"}}),
            ("NotText", {"import": "a", "text": "\udfff"}),
            ("TooLong", {"import": "a", "text": "x" * LONGEST}),
            # Short as JSON, and more than a session takes as YAML, where each line is indented.
            ("TooLong", {"set": "a", "path": "", "value": nested(100, ["" for _ in range(200_000)])}),
        ]
        for word, command in rows:
            with self.assertRaises(Refused) as caught:
                command_of(change_of(command))
            self.assertEqual(caught.exception.word, word, str(command)[:100])

    def test_what_stands_in_the_log(self) -> None:
        commands: list[Any] = [IMPORT, SET, {"batch": [IMPORT, SET]}, {"set": "a", "path": "", "value": nested(150)}]
        for command in [*commands, *({"if": [NUMBERED, IS_X], **command} for command in commands)]:
            change = change_of(command)
            wanted = command_of(change)
            entry, another = entry_of(wanted), entry_of(wanted)
            self.assertEqual((change_in(entry), change_in(another)), ((change, wanted), (change, wanted)))
            self.assertTrue(entry != another and has_nonce(entry) and not has_nonce(wanted))
            if not change.conditions:
                self.assertEqual(change_in(wanted), (change, wanted), "an entry of an older version has no nonce")
        self.assertEqual(command_of(change_of(SET)), b'{"edits":[{"set":"a","path":"/n","value":"y"}]}')
        for entry in (b"", b"[]", b"{", b'{"edits": 1}', b'{"edits": []}', b"\xff", b"[" * 100_000):
            with self.assertRaises(Refused):
                change_in(entry)

    def test_an_entry_of_a_later_version(self) -> None:
        """It is not performed without what this version doesn't know, and it isn't refused either."""
        nonce = b',"nonce":"' + b"0" * 32 + b'"}'
        for entry in (b'{"edits":[],"when":"x"', b'{"unless":[],"edits":[]', b'{"edits":[],"if":[{"count":"1"}]'):
            with self.assertRaises(confstore.ConfstoreError) as caught:
                change_in(entry + nonce)
            self.assertIn("start the version that the other nodes have", str(caught.exception))

    def test_numbers(self) -> None:
        self.assertEqual(number_in({"00000000000000000012": NO_MARK}), (12, NO_MARK))
        wrong: list[Tree] = [{}, "12", {"12": ""}, {"0000000000000000001x": ""}, {"00000000000000000012": "", "b": ""}]
        wrong.append({"00000000000000000012": ["x"]})
        for tree in wrong:
            with self.assertRaises(confstore.ConfstoreError):
                number_in(tree)


class StoreTest(unittest.TestCase):
    def setUp(self) -> None:
        holder = tempfile.TemporaryDirectory()
        self.addCleanup(holder.cleanup)
        self.folder = os.path.join(holder.name, "store")
        self.top = holder.name
        os.mkdir(self.folder)

    def store(self) -> Store:
        store = Store(self.folder)
        self.addCleanup(store.close)
        return store


def answer_shown(answer: Any) -> Any:
    """A refusal by its word, another fault by its sentence, and a count as it is."""
    if isinstance(answer, StoreRefused):
        return answer.word
    return str(answer) if isinstance(answer, Exception) else answer


class Batches(StoreTest):
    def answers(self, store: Store, *batches: Edits) -> list[Any]:
        return [answer_shown(answer) for answer in store.perform_batches(batches)]

    def test_each_once_and_in_order(self) -> None:
        store = self.store()
        first, second, third = marked([IMPORT], 5, 0), marked([SET], 7, 5), marked([SET], 9, 7)
        self.assertEqual(self.answers(store, first, second), [1, 2])
        self.assertEqual(self.answers(store, second, second), ["NoSuchPlace"] * 2)
        self.assertEqual(self.answers(store, marked([SET], 11, 9), third), ["NoSuchPlace", 3])
        self.assertEqual(number_in(store[RESERVED]), (9, MARK))

    def test_a_refused_one_keeps_those_behind_it_back(self) -> None:
        store = self.store()
        batches = [marked([IMPORT], 5, 0), marked([WRONG], 6, 5), marked([SET], 7, 6)]
        self.assertEqual(self.answers(store, *batches), [1, "NoConfig", "NoSuchPlace"])
        self.assertEqual(self.answers(store, refusal_of("NoConfig", 6, 5), batches[2]), [2, 3])
        self.assertEqual(store["a"], {"n": "y"})

    def test_a_refused_one_is_the_first(self) -> None:
        store = self.store()
        self.assertEqual(self.answers(store, marked([WRONG], 5, 0), marked([IMPORT], 6, 5)), ["NoConfig"] * 2)
        self.assertEqual(self.answers(store, refusal_of("NoConfig", 5, 0), marked([IMPORT], 6, 5)), [1, 2])


def store_of(follower: Follower) -> NodeStore:
    """The store that a follower holds."""
    assert follower.store is not None
    return follower.store


class Followers(StoreTest):
    def follower(self) -> tuple[Follower, list[tuple[Any, ...]]]:
        told = []
        follower = Follower(self.folder, ["127.0.0.1:1"], "x", told=lambda *answer: told.append(answer))
        self.addCleanup(follower.close)
        follower.open()
        return follower, told

    def items(self, *commands: dict[str, Any], start: int = 1) -> list[Item]:
        return [self.item(command_of(change_of(command)), start + at) for at, command in enumerate(commands)]

    def item(self, command: bytes, number: int) -> Item:
        return Item(b"k", entry_of(command) if command.endswith(b"}") else command, number, number)

    def test_answers(self) -> None:
        follower, told = self.follower()
        entries = self.items(WRONG, IMPORT, WRONG, WRONG, SET, {"import": "a", "text": "["})
        follower._perform(entries)
        follower._perform([self.item(b"no entry", 20)])
        wanted = [
            (1, {"refused": "NoConfig"}), (2, {"ok": "2"}), (3, {"refused": "NoConfig"}), (4, {"refused": "NoConfig"}),
            (5, {"ok": "5"}), (6, {"refused": "Syntax"}), (20, {"refused": "BadCommand"}),
        ]  # fmt: skip
        self.assertEqual([(number, performed.answer) for number, performed in told], wanted)
        follower.close()
        again, from_file = self.follower()
        self.assertEqual([(number, performed.answer) for number, performed in from_file], wanted)
        self.assertEqual((again._place.number, store_of(again)["a"]), (20, {"n": "y"}))
        for (_, performed), entry in zip(from_file, entries):
            self.assertEqual([performed.is_of(other) for other in entries], [other is entry for other in entries])
            another = entry._replace(value=entry_of(change_in(entry.value)[1]))
            self.assertFalse(performed.is_of(another), "the same command with another nonce is another entry")

    def test_conditions_are_judged_one_entry_after_the_other(self) -> None:
        """All are sent at once. What one entry makes or refuses is seen by the conditions of the next."""
        follower, told = self.follower()
        is_y: Condition = {**IS_X, "value": "y"}
        is_gone: Condition = {"absent": "a", "path": "/n"}
        rows: list[tuple[dict[str, Any], dict[str, str]]] = [
            (IMPORT, {"ok": "1"}),
            ({"if": [IS_X], **SET}, {"ok": "2"}),
            ({"if": [IS_X], **SET}, {"refused": "Unmet"}),
            ({"if": [is_y], "batch": [WRONG]}, {"refused": "NoConfig"}),
            ({"if": [is_y, {"count": "3"}], **SET}, {"refused": "Unmet"}),
            ({"if": [is_y, {"count": "5"}], "delete": "a", "path": "/n"}, {"ok": "6"}),
            ({"if": [is_gone], "batch": []}, {"refused": "EmptyBatch"}),
            ({"if": [is_y], "batch": []}, {"refused": "Unmet"}),
            ({"if": [{"absent": "-"}], **SET}, {"refused": "BadName"}),
            ({"if": [{"absent": "a", "path": "n"}], **SET}, {"refused": "BadPath"}),
            ({"if": [is_gone], **SET}, {"ok": "11"}),
        ]
        follower._perform(self.items(*[command for command, _ in rows]))
        wanted = [answer for _, answer in rows]
        self.assertEqual([performed.answer for _, performed in told], wanted)
        follower.close()
        _, from_file = self.follower()
        self.assertEqual([performed.answer for _, performed in from_file], wanted)

    def test_a_performed_entry_under_conditions_is_not_performed_again(self) -> None:
        """Whether its conditions hold or not, a batch whose number before isn't there changes nothing."""
        follower, told = self.follower()
        entries = self.items(IMPORT, {"if": [IS_X], "set": "a", "path": "/m", "value": "y"})
        follower._perform(entries)
        store = store_of(follower)
        tree = store["a"]
        for number, before in ((2, 1), (2, 3), (3, 1)):
            change, _ = change_in(entries[1].value)
            answers = store.perform([batch_of(change, number, before, MARK)])
            self.assertEqual([answer_shown(answer) for answer in answers], ["NoSuchPlace"])
            self.assertEqual((store["a"], number_in(store[RESERVED])[0]), (tree, 2))

    def test_a_store_of_something_else(self) -> None:
        self.store()[RESERVED] = {"entry": "1"}
        with self.assertRaises(confstore.ConfstoreError):
            self.follower()

    def test_a_store_that_had_commands_before(self) -> None:
        with Store(self.folder) as store:
            store.put("a", "x")
        with self.assertRaises(NotReplicated):
            self.follower()
        with Store(self.folder) as store:
            store.delete("a")
            store.checkpoint()
        with self.assertRaises(NotReplicated) as caught:
            self.follower()
        self.assertIn(self.folder, str(caught.exception))

    def test_the_file(self) -> None:
        """Records are found however the file lies in what is read at once."""
        follower, told = self.follower()
        long: Edit = {"import": "a", "text": "x" * 3_000}
        follower._perform(self.items(*[IMPORT, long, WRONG] * 10))
        wanted = [(number, performed.answer) for number, performed in told]
        with open(os.path.join(self.folder, "store.yaml"), "rb") as file:
            base_length = file.read().index(b"\n...\n") + 5
        for part in (1, 7, 611, answers_module.PART):
            with mock.patch.object(answers_module, "PART", part):
                found = [(number, performed.answer) for number, performed in answers_in(self.folder)]
                self.assertEqual(found, wanted)
                self.assertEqual((count_in(self.folder), base_length_in(self.folder)), (30, base_length))

    def test_marks_are_as_long_as_those_of_the_version_before(self) -> None:
        """So the size of a state doesn't tell which version performed its entries."""
        lengths = set()
        with Store(self.folder) as store:
            for number in range(200):
                mark = mark_of(number * 92_233_720_368_547_758, Item(b"k", b"%d" % number, number, number))
                store.put(RESERVED, {f"{number:020}": mark})
                self.assertEqual(number_in(store[RESERVED]), (number, mark))
                lengths.add(len(store.export(RESERVED)))
            store.put(RESERVED, {f"{1:020}": NO_MARK})
            self.assertEqual(lengths, {len(store.export(RESERVED))})

    def test_a_file_that_is_too_long(self) -> None:
        """`JournalLong` is no answer: the store makes its file short, and the command is sent again."""
        follower, told = self.follower()
        follower._perform(self.items(IMPORT))
        sent: list[int] = []
        perform = store_of(follower).perform

        def too_long(batches: list[Command]) -> list[int | confstore.ConfstoreError]:
            sent.append(len(batches))
            if len(sent) in wanted:
                first = perform(batches[: wanted[len(sent)]])
                return [*first, *[confstore.JournalLong("JournalLong")] * (len(batches) - len(first))]
            return perform(batches)

        wanted = {1: 2}
        answers = [{"ok": "1"}, {"ok": "2"}, {"refused": "NoConfig"}, {"ok": "4"}, {"ok": "5"}]
        with mock.patch.object(store_of(follower), "perform", too_long):
            follower._perform(self.items(SET, WRONG, SET, SET, start=2))
            self.assertEqual([performed.answer for _, performed in told], answers)
            sent.clear()
            wanted.update({1: 1, 2: 0})
            with self.assertRaises(confstore.ConfstoreError):
                follower._perform(self.items(SET, SET, start=7))
        self.assertEqual(len(told), 6, "what is refused again after a checkpoint is not answered")

    def test_a_word_that_is_not_known(self) -> None:
        follower, told = self.follower()
        refused = mock.patch.object(store_of(follower), "perform", return_value=[confstore.Refused("NewWord")])
        with refused, self.assertRaises(confstore.ConfstoreError):
            follower._perform(self.items(IMPORT))
        self.assertEqual(told, [])

    def test_checkpoints_by_what_is_written(self) -> None:
        """A small entry whose record is long: the file is made short by the bytes of records."""
        deep: Edit = {"set": "a", "path": "", "value": nested(120, ["x"] * 2_000)}
        entries = self.items(*[deep] * 8, start=2)
        self.assertLess(sum(len(entry.value) for entry in entries), 200_000)
        with mock.patch.object(following, "CHECKPOINT_BYTES", 1_000_000):
            follower, _ = self.follower()
            follower._perform(self.items(IMPORT))
            for entry in entries:
                follower._perform([entry])
                self.assertLess(os.path.getsize(os.path.join(self.folder, "store.yaml")), 2_600_000)

    def test_a_store_that_is_full(self) -> None:
        """A number is put also where the store is full to the last byte and its count gets a digit more."""
        follower, told = self.follower()
        follower._perform(self.items(IMPORT))
        store = store_of(follower)
        self.fill(store)
        follower._checkpoint_length = LONGEST_BASE
        count = store.checkpoint()
        self.assertTrue(10 <= count < 99)
        entries = self.items(*[WRONG] * (105 - count), start=2)
        follower._perform(entries)
        self.assertEqual([performed.answer for _, performed in told[1:]], [{"refused": "NoConfig"}] * (105 - count))
        number, mark = number_in(store[RESERVED])
        self.assertEqual((number, mark), (entries[-1].created, short_of(mark_of(0, entries[-1]))))
        *_, (number, performed) = answers_in(self.folder)
        self.assertEqual((number, performed.mark), (entries[-1].created, mark))
        self.assertEqual([performed.is_of(entry) for entry in entries[-2:]], [False, True])
        self.assertEqual(store.checkpoint(), 105)

    def fill(self, store: Store) -> None:
        """Has the base of a store be as long as it may be."""
        for number in range(15):
            store.put(f"c{number}", "1" * 4_194_000)
        store.put("d", "1" * 4_000_000)
        store.put("e", "1" * 100)
        length = 100 + LONGEST_BASE - self.base_length(store)
        store.put("e", "1" * length)
        self.assertEqual(self.base_length(store), LONGEST_BASE)
        with self.assertRaises(confstore.StoreFull):
            store.put("e", "1" * (length + 1))

    def base_length(self, store: Store) -> int:
        store.checkpoint()
        return os.path.getsize(os.path.join(self.folder, "store.yaml"))


if __name__ == "__main__":
    unittest.main()
