"""Marks, and whether a log is the one that a store has performed."""

from __future__ import annotations

import json
import unittest

from confstore_replicated.entries import MARK_LENGTH, NO_MARK, entry_of
from confstore_replicated.etcd import Item, Look
from confstore_replicated.history import Behind, OtherHistory, Place, base_in, is_tied, judge, mark_of, short_of, tie_of

COMMAND = b'{"edits":[{"delete":"a","path":""}]}'
ENTRY = Item(b"/confstore/x/log/k", entry_of(COMMAND), 10, 10)
OLD_ENTRY = ENTRY._replace(value=COMMAND)
CLUSTER, OTHER = 7, 8
MARK = mark_of(CLUSTER, ENTRY)


def base(floor: int, number: int = 20, floor_mark: str = "") -> bytes:
    return json.dumps({"number": number, "floor": floor, "sha256": "", "floor_mark": floor_mark}).encode()


class Marks(unittest.TestCase):
    def test_each_entry_has_its_own(self) -> None:
        others = [
            ENTRY._replace(created=11), ENTRY._replace(key=b"/confstore/x/log/l"),
            ENTRY._replace(value=entry_of(COMMAND)), ENTRY._replace(value=COMMAND),
            ENTRY._replace(key=ENTRY.key + ENTRY.value[:1], value=ENTRY.value[1:]),
        ]  # fmt: skip
        self.assertEqual(len({tie_of(entry) for entry in (ENTRY, *others)}), len(others) + 1)
        for mark in (MARK, short_of(MARK)):
            self.assertTrue(is_tied(mark, ENTRY))
            self.assertFalse(any(is_tied(mark, other) for other in others))
        self.assertEqual((len(MARK), len(NO_MARK)), (MARK_LENGTH, MARK_LENGTH))
        self.assertLess(len(short_of(MARK)), MARK_LENGTH)
        self.assertNotEqual(mark_of(OTHER, ENTRY), MARK)
        for mark in (NO_MARK, ""):
            self.assertTrue(is_tied(mark, ENTRY), "the version before has none")

    def test_what_is_no_base(self) -> None:
        for text in (b"", b"junk", b"[]", b"1", b'{"number": "1"}', b'{"history": 1}', b'{"mark": 1}', b"\xff"):
            with self.assertRaises(ValueError):
                base_in(text)
        self.assertEqual(base_in(None).number, 0)
        self.assertEqual(base_in(b'{"number": 5, "floor": 2, "sha256": "x", "more": 1}').floor, 2)


class Judgements(unittest.TestCase):
    def judged(
        self,
        place: Place,
        at: Item | None = None,
        base_text: bytes | None = None,
        revision: int = 30,
        cluster: int = CLUSTER,
    ) -> type[Exception] | None:
        try:
            judge(Look(cluster, revision, at, base_text, []), place)
        except (Behind, OtherHistory) as error:
            return type(error)
        return None

    def test_an_empty_store(self) -> None:
        self.assertEqual(self.judged(Place(0, ""), revision=1), None)
        self.assertEqual(self.judged(Place(0, ""), base_text=base(0)), None)
        self.assertEqual(self.judged(Place(0, ""), base_text=base(5)), Behind)

    def test_the_entry_is_there(self) -> None:
        place = Place(10, MARK)
        again = ENTRY._replace(value=entry_of(COMMAND))
        self.assertEqual(self.judged(place, ENTRY), None)
        self.assertEqual(self.judged(place, ENTRY, cluster=OTHER), None, "a restored one has another id")
        self.assertEqual(self.judged(place, ENTRY, base(10)), None)
        self.assertEqual(self.judged(place, ENTRY, base(11)), Behind)
        self.assertEqual(self.judged(place, ENTRY, revision=9), OtherHistory)
        self.assertEqual(self.judged(place, again), OtherHistory)
        self.assertEqual(self.judged(place, ENTRY._replace(modified=12)), OtherHistory)
        self.assertEqual(self.judged(Place(10, short_of(MARK)), ENTRY), None)
        self.assertEqual(self.judged(Place(10, short_of(MARK)), again), OtherHistory)

    def test_the_entry_is_not_there(self) -> None:
        place = Place(10, MARK)
        self.assertEqual(self.judged(place), OtherHistory)
        self.assertEqual(self.judged(place, base_text=base(9)), OtherHistory)
        self.assertEqual(self.judged(place, base_text=base(11)), Behind)
        self.assertEqual(self.judged(place, base_text=base(11), cluster=OTHER), OtherHistory)
        self.assertEqual(self.judged(place, base_text=base(11), revision=9), OtherHistory)

    def test_the_base_before_is_of_the_entry(self) -> None:
        another = mark_of(CLUSTER, ENTRY._replace(value=entry_of(COMMAND)))
        for place in (Place(10, MARK), Place(10, short_of(MARK))):
            for cluster in (CLUSTER, OTHER):
                for mark, wanted in ((MARK, None), (short_of(MARK), None), (another, OtherHistory)):
                    found = self.judged(place, base_text=base(10, floor_mark=mark), cluster=cluster)
                    self.assertEqual(found, wanted)
        self.assertEqual(self.judged(Place(10, MARK), base_text=base(10)), None, "a base of the version before")
        self.assertEqual(self.judged(Place(10, MARK), base_text=base(10), cluster=OTHER), OtherHistory)

    def test_entries_and_stores_of_the_version_before(self) -> None:
        mark = mark_of(CLUSTER, OLD_ENTRY)
        self.assertEqual(self.judged(Place(10, mark), OLD_ENTRY), None)
        self.assertEqual(self.judged(Place(10, mark), OLD_ENTRY, cluster=OTHER), OtherHistory)
        for mark in (NO_MARK, ""):
            self.assertEqual(self.judged(Place(10, mark), OLD_ENTRY), None)
            self.assertEqual(self.judged(Place(10, mark)), OtherHistory)
            self.assertEqual(self.judged(Place(10, mark), revision=9), OtherHistory)
            self.assertEqual(self.judged(Place(10, mark), base_text=base(11)), Behind)
            self.assertEqual(self.judged(Place(10, mark), base_text=base(10, floor_mark=MARK)), None)
            self.assertEqual(self.judged(Place(10, MARK), base_text=base(10, floor_mark=mark)), None)


if __name__ == "__main__":
    unittest.main()
