"""The steps of the protocol as it was: a node takes whatever etcd has behind its number."""

from __future__ import annotations

from typing import Iterator, Tuple

from .states import QUESTION, Base, Etcd, Identity, Node, Request, State
from .steps import CLOSED, Does, Step, Steps, numbers


class OldSteps(Steps):
    def cut_off(self, node: Node) -> Node:
        if node.at in ("reading", "connecting", "performing", *CLOSED, "ended"):
            return node
        return node._replace(at="reading", next=0, taken=(), base=Base())

    def goes_on(self, node: Node) -> str:
        return "following" if node.next else "reading"

    # ---- clients

    def there(self, etcd: Etcd, identity: int) -> Tuple[Identity, ...]:
        return tuple(key for key in etcd.ids if key.identity == identity)

    def _answers(self, state: State, place: int, node: Node, request: Request) -> Iterator[Step]:
        question = request.command == QUESTION
        if request.number > node.performed or (question and node.at in CLOSED) or not (question or request.number):
            return
        answers = {known.entry.number: known.answer for known in node.known}
        yield self.told(state, place, node, request, answers.get(request.number, 0))

    # ---- a follower

    def at_opening(self, etcd: Etcd, node: Node, _state: State) -> Iterator[Does]:
        yield "opens its store", self.open(node, "reading"), etcd

    def at_reading(self, etcd: Etcd, node: Node, _state: State) -> Iterator[Does]:
        """One member says what it knows, which may be less than there is."""
        for log in etcd.logs:
            taken = tuple(entry for entry in log.entries if entry.number > node.position)
            revision = etcd.revision if log is etcd.logs[-1] else log.revision
            words = f"reads the log up to revision {revision}: {numbers(taken)}"
            yield words, node._replace(at="looking for the base", taken=taken, next=revision + 1), etcd

    def at_looking_for_the_base(self, etcd: Etcd, node: Node, state: State) -> Iterator[Does]:
        floor = etcd.base.floor
        words = f"reads the base's floor {floor}"
        if node.position < floor:
            yield words + ": it is behind", node._replace(at="fetching", taken=(), next=0), etcd
        elif node.taken:
            yield words, node._replace(at="performing", next=0), etcd
        else:
            yield words, node._replace(at="connecting" if state.left.restores else "following"), etcd

    def at_connecting(self, etcd: Etcd, node: Node, _state: State) -> Iterator[Does]:
        yield f"follows the log from revision {node.next}", node._replace(at="following"), etcd

    # ---- a base is written

    def at_finding_the_last_base(self, etcd: Etcd, node: Node, _state: State) -> Iterator[Does]:
        begun = node._replace(since_base=0)
        if node.position - etcd.base.number < self.bounds.base_after // 2:
            yield "finds that the last base is new", begun._replace(at=self.goes_on(node)), etcd
        else:
            words = f"finds the last base, {etcd.base.number}"
            yield words, begun._replace(at="writing a checkpoint", base=etcd.base), etcd

    def at_putting_the_parts(self, etcd: Etcd, node: Node, _state: State) -> Iterator[Does]:
        parts = tuple(sorted([part for part in etcd.parts if part.position != node.position] + [node.disk]))
        then = node._replace(at="replacing the base")
        yield f"puts the parts of base {node.position}", then, etcd._replace(parts=parts)

    def at_replacing_the_base(self, etcd: Etcd, node: Node, _state: State) -> Iterator[Does]:
        then = node._replace(at="reading it back")
        if etcd.base == node.base:
            new = Base(node.position, node.base.number, file=node.disk)
            yield f"replaces the base by {new.number}, with the floor {new.floor}", then, etcd._replace(base=new)
        else:
            yield "finds that the base was replaced", then, etcd

    def at_reading_it_back(self, etcd: Etcd, node: Node, _state: State) -> Iterator[Does]:
        at = "taking old parts out" if etcd.base.number == node.position else "taking its parts out"
        yield f"reads the base {etcd.base.number} back", node._replace(at=at), etcd

    def at_taking_its_parts_out(self, etcd: Etcd, node: Node, _state: State) -> Iterator[Does]:
        parts = tuple(part for part in etcd.parts if part.position != node.position)
        yield "takes its parts out", node._replace(at=self.goes_on(node), base=Base()), etcd._replace(parts=parts)

    def at_taking_old_parts_out(self, etcd: Etcd, node: Node, _state: State) -> Iterator[Does]:
        parts = tuple(part for part in etcd.parts if part.position >= node.position)
        yield "takes old parts out", node._replace(at="taking entries out"), etcd._replace(parts=parts)

    def at_taking_entries_out(self, etcd: Etcd, node: Node, _state: State) -> Iterator[Does]:
        floor = node.base.number
        log = tuple(entry for entry in etcd.log if entry.number > floor)
        then = etcd if log == etcd.log else self.logged(etcd, etcd.revision, log)
        yield f"takes entries up to {floor} out", node._replace(at="taking ids out"), then

    def at_taking_ids_out(self, etcd: Etcd, node: Node, _state: State) -> Iterator[Does]:
        until = max(0, node.position - self.bounds.ids_kept)
        ids = tuple(key for key in etcd.ids if key.number > until)
        yield f"takes ids up to {until} out", node._replace(at="compacting"), etcd._replace(ids=ids)

    def at_compacting(self, etcd: Etcd, node: Node, _state: State) -> Iterator[Does]:
        floor = node.base.number
        then = etcd._replace(compacted=max(etcd.compacted, min(floor, etcd.revision)))
        yield f"compacts etcd up to {floor}", node._replace(at=self.goes_on(node), base=Base()), then

    # ---- a base is installed

    def at_fetching(self, etcd: Etcd, node: Node, _state: State) -> Iterator[Does]:
        words = f"reads the record of base {etcd.base.number}"
        yield words, node._replace(at="fetching the parts", base=etcd.base), etcd

    def at_fetching_the_parts(self, etcd: Etcd, node: Node, _state: State) -> Iterator[Does]:
        if node.base.file in etcd.parts:
            yield f"reads the parts of base {node.base.number}", node._replace(at="installing"), etcd
        else:
            yield "finds that the base was replaced", node._replace(at="opening", base=Base()), etcd
