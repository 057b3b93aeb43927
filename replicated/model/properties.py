"""What has to hold in each state, and of each thing that a client is told.

The log of a life is all entries that were made in it, in order. One store that performs them by itself, from nothing,
is what all others are held against. Where each store is that one up to its place, two stores at one place are the same;
where each answer is that one's, two answers to one entry are the same; and where no id is twice in the log while it is
known, no command is performed twice under it.
"""

from __future__ import annotations

from typing import Dict, Iterator, List, Optional, Tuple

from .rules import Bounds, Rules
from .states import BEFORE, QUESTION, Disk, Done, State, performed
from .steps import Claim

# The kinds of faults.
LOST_ANSWER = "lost: an answer to a command that is not in the log"
LOST_COMMAND = "lost: an answer to a command that this node's store did not perform"
LOST_ENTRY = "lost: an entry is out of the log, and no base has it"
NO_PARTS = "stuck: the base in etcd has no parts, so a node that needs it waits for the next one"
DOUBLED = "doubled: one id is performed twice"
DIVIDED_STORES = "divided: two stores at one place are different"
DIVIDED_ANSWERS = "divided: two nodes answer one command differently"
WRONG_ANSWER = "divided: an answer that is not the log's"
WRONG_STORE = "divided: a store that is not what the log says"
WRONG_BASE = "divided: a base that is not what the log says"
OLD_ANSWER = "lost: a fresh answer without a change that was acknowledged before"
OTHER_LOG = "divided: an answer from a store of another log"

History = Tuple[Done, ...]


def faults(state: State, before: State, rules: Rules, bounds: Bounds) -> List[str]:
    """The faults of a state that the state before it has not: only what is not the same there is looked at."""
    found: List[str] = []
    if state.etcd is not before.etcd or state.lives is not before.lives:
        found += _of_etcd(state)
        if _is_doubled(state, rules, bounds):
            found.append(DOUBLED)
    there = [node.disk for node in before.nodes]
    new = [node.disk for node in state.nodes if not any(node.disk is disk for disk in there)]
    if new:
        logs = [performed(life) for life in state.lives]
        if not all(_is_of(disk, logs) for disk in new):
            found += _between(state.nodes[0].disk, state.nodes[1].disk)
            found.append(WRONG_STORE)
    return found


def _is_of(disk: Disk, logs: List[History]) -> bool:
    """Whether a store is what one of the logs says, up to its place; or has not joined yet."""
    history = disk.history
    if not disk.position:
        return True
    return history[-1].entry.number == disk.position and any(log[: len(history)] == history for log in logs)


def _of_etcd(state: State) -> Iterator[str]:
    """What is wrong with the base and the log of etcd."""
    etcd, log = state.etcd, performed(state.lives[-1])
    file = etcd.base.file
    if file.history and log[: len(file.history)] != file.history:
        yield WRONG_BASE
    if file.history and file not in etcd.parts:
        yield NO_PARTS
    if any(done.entry.number > etcd.base.floor and done.entry not in etcd.log for done in log):
        yield LOST_ENTRY


def _is_doubled(state: State, rules: Rules, bounds: Bounds) -> bool:
    """Whether an id is twice in the log of one life while it is known: so many revisions, by the new rules entries."""
    for life in state.lives:
        last: Dict[int, int] = {}
        for place, entry in enumerate(life):
            at = place if rules.judges else entry.number
            if entry.identity in last and at - last[entry.identity] <= bounds.ids_kept:
                return True
            last[entry.identity] = at
    return False


def _between(one: Disk, other: Disk) -> Iterator[str]:
    """How two stores contradict one another."""
    if one.position == other.position and one.history != other.history:
        yield DIVIDED_STORES
    answers = {done.entry: done.answer for done in one.history}
    if any(answers.get(done.entry, done.answer) != done.answer for done in other.history if done.entry != BEFORE):
        yield DIVIDED_ANSWERS


def fault_of(state: State, place: int, claim: Claim) -> Optional[str]:
    """What is wrong with what a node tells a client, in the state after that."""
    history = state.nodes[place].disk.history
    log = performed(state.lives[claim.life])
    if claim.command == QUESTION:
        return _fault_of_reading(state, history, claim)
    made = next((done for done in log if done.entry.number == claim.number), None)
    if made is None or (made.entry.identity, made.entry.value) != claim.command:
        return LOST_ANSWER
    if not any(done.entry == made.entry for done in history):
        return LOST_COMMAND
    return None if claim.answer in (0, made.answer) and made in history else WRONG_ANSWER


def _fault_of_reading(state: State, history: History, claim: Claim) -> Optional[str]:
    """A question that was asked before a restore may be answered from the log after it."""
    log = performed(state.lives[claim.life])
    if history == log[: len(history)]:
        newest = history[-1].entry.number if history else 0
        missing = any(newest < done.entry.number <= claim.number for done in log)
        return OLD_ANSWER if missing else None
    later = [performed(life) for life in state.lives[claim.life + 1 :]]
    return None if any(history == log[: len(history)] for log in later) else OTHER_LOG
