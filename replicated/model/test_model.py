"""The model's parts, so that a search which finds nothing means something."""

import unittest
from array import array

from . import properties
from .__main__ import passes
from .properties import fault_of, faults
from .rules import NEW, OLD, Bounds, Rules
from .scenarios import FIRST, LARGE, LEFT_OUT, OLD_FAULTS, OTHER, SECOND, Scenario, small
from .search import Result, schedules, search
from .states import BEFORE, FIRST_OF_ALL, JOURNAL_LONG, MET, NO_CONFIG, NOT_MET, QUESTION, UNMET, Base, Disk, Done
from .states import Entry, Etcd, Left, Log, Node, State, answer_of, performed
from .steps import ANEW, Claim, start
from .steps_new import BEHIND, OTHER as OTHER_HISTORY, YES, NewSteps

ONE, TWO = Entry(2, 0, 1, 1), Entry(3, 0, 2, 2)
BOUNDS = Bounds((FIRST, SECOND), (1, 1))


def disk_of(*done: Done) -> Disk:
    return Disk(done[-1].entry.number if done else 0, done, 0, 1)


def state_of(one: Disk, other: Disk, life: "tuple[Entry, ...]" = (ONE, TWO), etcd: "Etcd | None" = None) -> State:
    etcd = etcd or Etcd(revision=3, logs=(Log(3, life),))
    return State(etcd, (Node(one, "looking"), Node(other, "looking")), Left(), lives=(life,))


def found_in(state: State) -> "list[str]":
    """The faults of a state that comes after one with nothing."""
    return faults(state, start(BOUNDS), NEW, BOUNDS)


class Stores(unittest.TestCase):
    def test_a_needy_command_is_refused_first_and_accepted_then(self) -> None:
        self.assertEqual(answer_of((), 2), NO_CONFIG)
        self.assertEqual(answer_of((Done(ONE, 1),), 2), 2)
        self.assertEqual(answer_of((Done(ONE, NO_CONFIG),), 2), NO_CONFIG)

    def test_the_condition_of_a_command(self) -> None:
        """It holds for the first one alone. One that doesn't hold is an entry, and changes nothing."""
        log = tuple(Entry(number, 0, number, FIRST_OF_ALL) for number in (2, 3, 4))
        self.assertEqual([done.answer for done in performed(log)], [1, UNMET, UNMET])
        later = (Entry(2, 0, 2, FIRST_OF_ALL), Entry(3, 0, 3, FIRST_OF_ALL), Entry(4, 0, 1, 1))
        self.assertEqual([done.answer for done in performed(later)], [1, UNMET, 3])
        self.assertEqual(answer_of((Done(log[0], UNMET),), FIRST_OF_ALL), 2)
        self.assertEqual([answer_of((), FIRST_OF_ALL, judged) for judged in (MET, NOT_MET)], [1, UNMET])

    def test_a_refused_entry_counts(self) -> None:
        log = (Entry(2, 0, 2, 2), Entry(3, 0, 1, 1))
        self.assertEqual([done.answer for done in performed(log)], [NO_CONFIG, 2])


class Properties(unittest.TestCase):
    """Each kind of fault is seen in a state that has it."""

    def test_stores_that_are_what_the_log_says(self) -> None:
        whole = performed((ONE, TWO))
        self.assertEqual(found_in(state_of(disk_of(*whole), disk_of(*whole[:1]))), [])
        self.assertEqual(found_in(state_of(disk_of(*whole), disk_of())), [])

    def test_a_store_that_left_an_entry_out(self) -> None:
        self.assertIn(properties.WRONG_STORE, found_in(state_of(disk_of(Done(TWO, NO_CONFIG)), disk_of())))

    def test_a_store_with_an_entry_twice(self) -> None:
        twice = disk_of(Done(ONE, 1), Done(ONE, 2))
        self.assertIn(properties.WRONG_STORE, found_in(state_of(twice, disk_of())))

    def test_a_store_whose_place_is_not_its_last_entry(self) -> None:
        wrong = disk_of(Done(ONE, 1))._replace(position=3)
        self.assertIn(properties.WRONG_STORE, found_in(state_of(wrong, disk_of())))

    def test_two_answers_and_two_stores(self) -> None:
        one, other = disk_of(Done(ONE, 1)), disk_of(Done(ONE, JOURNAL_LONG))
        found = found_in(state_of(one, other))
        self.assertIn(properties.DIVIDED_ANSWERS, found)
        self.assertIn(properties.DIVIDED_STORES, found)

    def test_a_store_with_a_command_of_before(self) -> None:
        self.assertEqual(found_in(state_of(Disk(0, (Done(BEFORE, 1),), 1), disk_of())), [])
        joined = disk_of(Done(BEFORE, 1), Done(ONE, 2))
        self.assertIn(properties.WRONG_STORE, found_in(state_of(joined, disk_of())))

    def test_an_id_twice_in_the_log(self) -> None:
        again = (ONE, Entry(3, 0, 1, 1))
        self.assertIn(properties.DOUBLED, found_in(state_of(disk_of(), disk_of(), again)))
        late = BOUNDS._replace(ids_kept=0)
        self.assertEqual(faults(state_of(disk_of(), disk_of(), again), start(late), NEW, late), [])

    def test_a_base_and_a_log_that_are_wrong(self) -> None:
        whole = disk_of(*performed((ONE, TWO)))
        base = Base(3, 2, file=whole)
        right = Etcd(revision=3, logs=(Log(3, (TWO,)),), base=base, parts=(whole,))
        self.assertEqual(found_in(state_of(whole, disk_of(), etcd=right)), [])
        self.assertIn(properties.NO_PARTS, found_in(state_of(whole, disk_of(), etcd=right._replace(parts=()))))
        gone = right._replace(logs=(Log(3),))
        self.assertIn(properties.LOST_ENTRY, found_in(state_of(whole, disk_of(), etcd=gone)))
        other = disk_of(Done(ONE, 1), Done(TWO, NO_CONFIG))
        wrong = right._replace(base=base._replace(file=other), parts=(other,))
        self.assertIn(properties.WRONG_BASE, found_in(state_of(whole, disk_of(), etcd=wrong)))

    def test_answers(self) -> None:
        state = state_of(disk_of(Done(ONE, 1)), disk_of())
        rows = [
            (None, 0, Claim(FIRST, 2, 0, 1)),
            (None, 0, Claim(FIRST, 2, 0, 0)),
            (properties.WRONG_ANSWER, 0, Claim(FIRST, 2, 0, 2)),
            (properties.LOST_ANSWER, 0, Claim(FIRST, 4, 0, 1)),
            (properties.LOST_ANSWER, 0, Claim(OTHER, 2, 0, 1)),
            (properties.LOST_COMMAND, 1, Claim(FIRST, 2, 0, 1)),
            (properties.LOST_COMMAND, 0, Claim(SECOND, 3, 0, 0)),
            (None, 0, Claim(QUESTION, 2, 0, 0)),
            (properties.OLD_ANSWER, 0, Claim(QUESTION, 3, 0, 0)),
        ]
        for fault, place, claim in rows:
            self.assertEqual(fault_of(state, place, claim), fault, claim)

    def test_a_fresh_answer_from_another_log(self) -> None:
        state = state_of(disk_of(Done(Entry(2, 5, 1, 1), 1)), disk_of())
        self.assertEqual(fault_of(state, 0, Claim(QUESTION, 0, 0, 0)), properties.OTHER_LOG)


class Judgement(unittest.TestCase):
    def judged(self, place: "tuple[Entry, ...]", etcd: Etcd, rules: Rules = NEW) -> str:
        return NewSteps(rules, BOUNDS).judge(etcd, disk_of(*performed(place)))

    def test_places(self) -> None:
        log, other = Etcd(revision=3, logs=(Log(3, (ONE, TWO)),)), Entry(2, 7, 1, 1)
        empty, whole = Etcd(), disk_of(*performed((ONE, TWO)))
        floor = Etcd(revision=9, base=Base(9, 3, TWO, file=whole))
        rows = [
            (YES, (), log),
            (YES, (ONE,), log),
            (YES, (ONE, TWO), log),
            (OTHER_HISTORY, (ONE,), empty),
            (OTHER_HISTORY, (other,), log),
            (YES, (ONE, TWO), floor),
            (BEHIND, (ONE,), floor),
            (BEHIND, (), floor),
            (OTHER_HISTORY, (ONE,), floor._replace(cluster=2)),
            (YES, (ONE,), log._replace(cluster=2)),
            (OTHER_HISTORY, (ONE, Entry(3, 7, 2, 2)), floor),
            (OTHER_HISTORY, (ONE, Entry(9, 0, 2, 2)), floor),
        ]
        for expected, place, etcd in rows:
            self.assertEqual(self.judged(place, etcd), expected, (place, etcd))


class Searches(unittest.TestCase):
    def test_the_shortest_trace(self) -> None:
        found = search(OLD, BOUNDS._replace(restores=1, ways=(ANEW,)), (properties.LOST_COMMAND,)).found
        assert found is not None
        self.assertEqual(len(found.trace), 10)
        self.assertEqual(found.trace[-1][1:], " answers id 2: ok 1")

    def test_nothing_happens_without_clients(self) -> None:
        result = search(NEW, Bounds((), ()))
        self.assertIsNone(result.found)
        self.assertEqual(result.longest, result.states)

    def test_each_rule_has_a_search_without_it(self) -> None:
        self.assertEqual(set(LEFT_OUT), set(Rules._fields))

    def test_names_are_one_each(self) -> None:
        names = [one.name for one in small() + LARGE]
        self.assertEqual(len(names), len(set(names)))
        self.assertTrue(all(one.finds and one.kinds for one in OLD_FAULTS))

    def test_a_step_that_cannot_be_taken(self) -> None:
        with self.assertRaises(ValueError):
            search(NEW, BOUNDS._replace(first=("a performs entry 2",)))

    def test_what_passes(self) -> None:
        none = Result(1, 1, 1, 1, 0.0, None)
        self.assertTrue(passes(Scenario("x", NEW, BOUNDS), none))
        self.assertFalse(passes(Scenario("x", NEW, BOUNDS, finds=True), none))
        found = search(OLD, BOUNDS._replace(restores=1, ways=(ANEW,)))
        self.assertFalse(passes(Scenario("x", OLD, BOUNDS), found))
        self.assertTrue(passes(Scenario("x", OLD, BOUNDS, finds=True), found))
        self.assertFalse(passes(Scenario("x", OLD, BOUNDS, finds=True, ends=": ok 99"), found))

    def test_quick_rules_left_out(self) -> None:
        quick = ("journal_is_own", "only_empty_stores_join", "behind_answers_nothing", "forgets_on_install")
        for rule in (*quick, "judges_conditions_in_the_log", "judges_conditions_in_turn"):
            self.assertIsNotNone(search(NEW._replace(**{rule: False}), LEFT_OUT[rule]).found, rule)
            self.assertIsNone(search(NEW, LEFT_OUT[rule]).found, rule)


class Schedules(unittest.TestCase):
    def count(self, states: int, *edges: "tuple[int, int]") -> int:
        return schedules(states, array("q", [place for edge in edges for place in edge]))

    def test_counts(self) -> None:
        self.assertEqual(self.count(1), 1)
        self.assertEqual(self.count(4, (0, 1), (0, 2), (1, 3), (2, 3)), 2)
        self.assertEqual(self.count(4, (0, 1), (0, 2), (1, 3), (2, 3), (0, 3)), 3)
        self.assertEqual(self.count(3, (0, 1), (0, 1), (0, 2)), 3)

    def test_an_endless_schedule(self) -> None:
        for edges in (((0, 1), (1, 0)), ((0, 1), (1, 2), (2, 1))):
            with self.assertRaises(ValueError):
                self.count(3, *edges)


if __name__ == "__main__":
    unittest.main()
