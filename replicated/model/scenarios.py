"""What is searched: which rules, within which bounds, and the fault that has to be found, if one has to be."""

from __future__ import annotations

from typing import NamedTuple, Tuple

from .properties import DIVIDED_ANSWERS, DIVIDED_STORES, LOST_COMMAND
from .rules import NEW, OLD, Bounds, Rules
from .states import FIRST_OF_ALL, NEEDY, Command
from .steps import ANEW, BUMPED, OTHER_ID

FIRST, SECOND, THIRD = Command(1, 1), Command(2, NEEDY), Command(3, 1)
# Another command under the first id.
OTHER = Command(1, 3)
# Two commands with a condition, of which the first in the log makes that the other's does not hold.
ONE_IF, OTHER_IF = Command(1, FIRST_OF_ALL), Command(2, FIRST_OF_ALL)

RESTORED = "with the same id"


class Scenario(NamedTuple):
    """A search for faults whose words begin with one of the kinds. It finds one by a step that ends so, or none."""

    name: str
    rules: Rules
    bounds: Bounds
    kinds: Tuple[str, ...] = ("",)
    finds: bool = False
    ends: str = ""


def _perform(node: str, *entries: int) -> Tuple[str, ...]:
    """A node looks, and performs these entries."""
    steps = [f"{node} looks"]
    for entry in entries:
        steps += [f"{node} performs entry {entry}", f"{node} notes entry {entry}"]
    return tuple(steps)


def _put_base(node: str, number: int, *taken_out: int) -> Tuple[str, ...]:
    """A node puts a base, and takes these entries out."""
    begun = (f"{node} finds the last base", f"{node} writes a checkpoint", f"{node} puts the parts of base {number}")
    taken = tuple(f"{node} takes entry {entry} out" for entry in taken_out)
    ended = (f"{node} finds no entries", f"{node} takes ids", f"{node} compacts")
    return begun + (f"{node} replaces the base", f"{node} takes old parts") + taken + ended


_OPENED = ("a opens its store", "b opens its store")
_SNAPSHOT = _OPENED + ("a snapshot of etcd is taken",)
_OF_A = ("a puts id 1", "a puts id 2") + _perform("a", 2, 3) + _put_base("a", 3)

# etcd is made anew after node a performed ids 1 and 2. Node b performs id 2, which is entry 2 now, id 1 and id 3, and
# the entries up to that of a's place are out of the log, which is the base's floor.
_AT_FLOOR = (
    _OPENED + _OF_A + ("etcd is restored", "b puts id 2") + _perform("b", 2) + _put_base("b", 2)
    + ("b puts id 1",) + _perform("b", 3) + _put_base("b", 3, 2)
    + ("b puts id 3",) + _perform("b", 4) + _put_base("b", 4, 3)
)  # fmt: skip

# The same, but id 2 is entry 3 as before, where b's store refuses it, and the floor is beyond a's place.
_BEHIND_FLOOR = (
    _OPENED + _OF_A + ("etcd is restored", "another application", "b puts id 2") + _perform("b", 3) + _put_base("b", 3)
    + ("b puts id 1",) + _perform("b", 4) + _put_base("b", 4, 3)
    + ("b puts id 3",) + _perform("b", 5) + _put_base("b", 5, 4)
)  # fmt: skip

_TWO = Bounds((FIRST, SECOND), (1, 1))
_BASES = _TWO._replace(base_after=1)
_THREE_BASES = Bounds((FIRST, SECOND, THIRD), (1, 1, 1), base_after=1)
_REMADE = _TWO._replace(restores=1, ways=(ANEW,))
_RESTORED = _TWO._replace(snapshots=1, restores=1, ways=(RESTORED,))
_REPLACED = Bounds(
    (FIRST, SECOND, THIRD), (2, 3, 1), base_after=1, other_writes=1, restores=1, ways=(ANEW,), first=_BEHIND_FLOOR
)
_IF = Bounds((ONE_IF, OTHER_IF), (1, 1))
_IDS = Bounds((FIRST, OTHER, THIRD), (1, 1, 1), base_after=1, ids_kept=1, other_writes=1, other_write=2)

# What has to be found under the old rules.
OLD_FAULTS = (
    Scenario("etcd from a snapshot: ok for what is not performed", OLD, _RESTORED, (LOST_COMMAND,), True, ": ok 1"),
    Scenario("etcd from a snapshot: divided stores", OLD,
             _RESTORED._replace(commands=(FIRST, SECOND, THIRD), sends=(1, 1, 1), first=_SNAPSHOT),
             (DIVIDED_STORES,), True),
    Scenario("etcd made anew: ok for what is not performed", OLD, _REMADE, (LOST_COMMAND,), True, ": ok 1"),
    Scenario("JournalLong at one node: two answers to one id", OLD, _TWO._replace(full=1), (DIVIDED_ANSWERS,), True),
    Scenario("an id that goes before its entry: two stores", OLD, _IDS._replace(ids_kept=2), (DIVIDED_STORES,), True),
    Scenario("a store that has a command and no place", OLD, _TWO._replace(store_before=True), (DIVIDED_STORES,), True),
)  # fmt: skip

# What has to be found where one rule is left out.
LEFT_OUT = {
    "judges": _REMADE,
    "nonces": Bounds((FIRST, THIRD), (2, 1), restores=1, ways=(ANEW,), other_writes=1),
    "compares_the_floor": Bounds(
        (FIRST, SECOND, THIRD), (2, 2, 1), base_after=1, restores=1, ways=(ANEW,), first=_AT_FLOOR
    ),
    "installs_when_behind": _THREE_BASES,
    "looks_again": _REMADE._replace(other_writes=1, other_write=2),
    "compares_the_revision": _REMADE._replace(other_writes=2, other_write=2),
    "behind_answers_nothing": _REPLACED,
    "recalls_with_the_place": _REPLACED,
    "asks_again": _REMADE._replace(other_writes=1),
    "compares_the_place": _REMADE._replace(base_after=1),
    "compares_the_parts": _RESTORED._replace(base_after=1),
    "compares_the_base": _REMADE._replace(base_after=1),
    "compares_the_entry": _REMADE,
    "forgets_on_install": _REPLACED,
    "journal_is_own": _TWO._replace(full=1),
    "ids_with_entries": _IDS,
    "only_empty_stores_join": _TWO._replace(store_before=True),
    "fresh_looks_are_linearizable": _TWO._replace(questions=1, lag=1),
    "judges_conditions_in_the_log": _IF,
    "judges_conditions_in_turn": _IF,
}

# Where nothing may be found. The old rules hold without a restore, a long journal, old ids and a store before; but two
# nodes that put a base of one number may leave it without parts.
NO_FAULTS = (
    Scenario("old rules: bases, a member that lags", OLD, _BASES._replace(lag=1), ("lost", "doubled", "divided")),
    Scenario("kills, lost answers, one command twice", NEW, Bounds((FIRST, SECOND), (2, 1), kills=1, losses=1)),
    Scenario("kills, fresh questions", NEW, _TWO._replace(kills=1, questions=1)),
    Scenario("kills, bases", NEW, _BASES._replace(kills=1)),
    Scenario("kills, journals that are too long", NEW, Bounds((FIRST, SECOND), (2, 1), kills=1, full=1)),
    Scenario("bases, ids that are taken out", NEW, _IDS._replace(other_writes=0)),
    Scenario("a store that was there before", NEW, _TWO._replace(kills=1, store_before=True)),
    Scenario("etcd from a snapshot, fresh questions", NEW, _RESTORED._replace(questions=1)),
    Scenario("etcd from a snapshot, with other ids or greater revisions", NEW,
             _RESTORED._replace(ways=(OTHER_ID, BUMPED))),
    Scenario("etcd made anew, other applications", NEW, _REMADE._replace(other_writes=2, other_write=2)),
    Scenario("etcd made anew, bases", NEW, _REMADE._replace(base_after=1)),
    Scenario("etcd made anew, a store at the floor", NEW, LEFT_OUT["compares_the_floor"]),
    Scenario("etcd made anew, a store behind the floor, kills", NEW, _REPLACED._replace(kills=1, losses=1)),
    Scenario("conditions, kills, lost answers, one command twice", NEW, _IF._replace(sends=(2, 1), kills=1, losses=1)),
    Scenario("conditions, journals that are too long, fresh questions", NEW, _IF._replace(full=1, questions=1)),
    Scenario("conditions, bases, kills", NEW, _IF._replace(base_after=1, kills=1)),
    Scenario("conditions, etcd from a snapshot", NEW, _IF._replace(snapshots=1, restores=1, ways=(RESTORED,))),
    Scenario("conditions, etcd made anew, bases", NEW, _IF._replace(restores=1, ways=(ANEW,), base_after=1)),
)  # fmt: skip

# The same with more, for once in a while.
LARGE = (
    Scenario("old rules: kills, bases", OLD, _BASES._replace(kills=1), ("lost", "doubled", "divided")),
    Scenario("three commands, bases", NEW, _THREE_BASES),
    Scenario("etcd from a snapshot, bases", NEW, _RESTORED._replace(base_after=1)),
    Scenario("etcd made anew, bases, one command twice", NEW, _REMADE._replace(sends=(2, 1), base_after=1)),
    Scenario("etcd from a snapshot, kills, lost answers", NEW, _RESTORED._replace(kills=1, losses=1)),
    Scenario("three commands, two with conditions, bases", NEW,
             Bounds((ONE_IF, OTHER_IF, Command(3, NEEDY)), (1, 1, 1), base_after=1)),
    Scenario("conditions, etcd from a snapshot, kills, lost answers", NEW,
             _IF._replace(snapshots=1, restores=1, ways=(RESTORED,), kills=1, losses=1)),
    Scenario("etcd restored twice", NEW, _RESTORED._replace(restores=2, ways=(RESTORED, OTHER_ID))),
)  # fmt: skip


def small() -> Tuple[Scenario, ...]:
    """What takes a minute or two."""
    left_out = tuple(
        Scenario(f"without {rule}", NEW._replace(**{rule: False}), bounds, finds=True)
        for rule, bounds in LEFT_OUT.items()
    )
    return OLD_FAULTS + left_out + NO_FAULTS
