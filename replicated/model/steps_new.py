"""The steps of the protocol as it is: a node follows etcd only where etcd has the history that its store performed."""

from __future__ import annotations

from typing import Iterator, Optional, Tuple

from .states import QUESTION, Base, Disk, Entry, Etcd, Identity, Known, MaybeEntry, Node, Request, State
from .steps import CLOSED, ENDED, Does, Step, Steps, with_request, without_request, numbers

YES, BEHIND, OTHER = "yes", "behind", "other"


class NewSteps(Steps):
    def cut_off(self, node: Node) -> Node:
        if node.at in ("looking", "connecting", "performing", *CLOSED, *ENDED):
            return node
        return node._replace(at="looking", next=0, taken=(), base=Base())

    def goes_on(self, node: Node) -> str:
        return "following" if node.next else "looking"

    # ---- looks

    def _tie(self, entry: MaybeEntry) -> Tuple[int, ...]:
        """What a mark keeps of an entry."""
        return entry if self.rules.nonces or not entry else (entry.number, entry.identity, entry.value)

    def judge(self, etcd: Etcd, disk: Disk) -> str:
        """Whether etcd's history is the one that this store performed."""
        position, floor = disk.position, etcd.base.floor
        if not position:
            return BEHIND if floor and self.rules.installs_when_behind else YES
        mark, same_id = self._tie(disk.history[-1].entry), disk.cluster == etcd.cluster
        there = next((entry for entry in etcd.log if entry.number == position), None)
        if there is not None:
            is_same = self._tie(there) == mark and (self.rules.nonces or same_id)
        elif position == floor:
            is_same = self._tie(etcd.base.floor_entry) == mark or not self.rules.compares_the_floor
        else:
            is_same = position < floor and same_id
        if not is_same:
            return OTHER
        return BEHIND if position < floor and self.rules.installs_when_behind else YES

    def _looks(self, etcd: Etcd, node: Node) -> Tuple[str, Optional[Node]]:
        """A look at etcd: what is said of it, and the node after it if it may not go on."""
        judged = self.judge(etcd, node.disk)
        words = f"looks behind {node.position} at revision {etcd.revision}"
        if judged == BEHIND:
            return words + ": it is behind", node._replace(at="fetching", taken=(), next=0)
        if judged == OTHER:
            return words + ": OtherHistory", node._replace(at="refusing", taken=(), next=0)
        return words, None

    def at_opening(self, etcd: Etcd, node: Node, _state: State) -> Iterator[Does]:
        if self.rules.only_empty_stores_join and node.disk.history and not node.disk.position:
            yield "ends: its store has commands, and no place", node._replace(at="ended"), etcd
        else:
            yield "opens its store", self.open(node, "looking"), etcd

    def at_looking(self, etcd: Etcd, node: Node, state: State) -> Iterator[Does]:
        words, stopped = self._looks(etcd, node)
        if stopped is not None:
            yield words, stopped, etcd
            return
        seen = node._replace(cluster=etcd.cluster)
        taken = tuple(entry for entry in etcd.log if entry.number > node.position)
        if taken:
            seen = seen._replace(at="performing", taken=self.takes(node, taken), next=0)
            yield f"{words}: {numbers(taken)}", seen, etcd
        else:
            at = "connecting" if state.left.restores else "following"
            yield f"{words}: nothing", seen._replace(at=at, next=etcd.revision + 1), etcd

    def at_connecting(self, etcd: Etcd, node: Node, _state: State) -> Iterator[Does]:
        at = "looking again" if self.rules.looks_again else "following"
        yield f"opens a stream from revision {node.next}", node._replace(at=at), etcd

    def at_looking_again(self, etcd: Etcd, node: Node, _state: State) -> Iterator[Does]:
        words, stopped = self._looks(etcd, node)
        missed = any(node.position < entry.number < node.next for entry in etcd.log)
        went_back = self.rules.compares_the_revision and etcd.revision + 1 < node.next
        if stopped is not None:
            yield words, stopped, etcd
        elif missed or went_back:
            yield words + ": it drops the stream", node._replace(at="looking", next=0), etcd
        else:
            yield words + " again", node._replace(at="following", cluster=etcd.cluster), etcd

    def at_following(self, etcd: Etcd, node: Node, state: State) -> Iterator[Does]:
        yield from super().at_following(etcd, node, state)
        words, stopped = self._looks(etcd, node)
        if stopped is not None:
            if stopped.at != "fetching":  # a stream leaves nothing out
                yield words, stopped, etcd
        elif any(node.position < entry.number < node.next for entry in etcd.log):
            yield words + ": it drops the stream", node._replace(at="looking", next=0), etcd

    def at_refusing(self, etcd: Etcd, node: Node, _state: State) -> Iterator[Does]:
        judged = self.judge(etcd, node.disk)
        if judged != OTHER:
            yield "finds its history again", node._replace(at="looking"), etcd

    # ---- clients

    def there(self, etcd: Etcd, identity: int) -> Tuple[Identity, ...]:
        found = tuple(key for key in etcd.ids if key.identity == identity)
        if not found and self.rules.ids_with_entries:
            found = tuple(
                Identity(entry.number, entry.identity, entry.value) for entry in etcd.log if entry.identity == identity
            )
        return found

    def _ask(self, state: State, place: int, node: Node) -> Iterator[Step]:
        if self._allows(state.etcd, node.disk):
            yield from super()._ask(state, place, node)

    def _answers(self, state: State, place: int, node: Node, request: Request) -> Iterator[Step]:
        if request.number > node.position or node.at in ENDED:
            return
        if request.command == QUESTION:
            if node.at not in CLOSED:
                yield self.told(state, place, node, request, 0)
            return
        if not request.number:
            return
        known = tuple(known for known in node.known if known.entry.number == request.number)
        if known and request.entry:
            if self._tie(known[0].entry) == self._tie(request.entry) or not self.rules.compares_the_entry:
                yield self.told(state, place, node, request, known[0].answer)
            else:
                yield self._other_history(state, place, node, request)
        elif not request.place:
            then = with_request(without_request(node, request), request._replace(place=(node.disk,), recalled=known))
            yield Step(place, f"recalls id {request.command.identity}", state.with_node(place, then))
        elif request.asks_again:
            yield from self._asks_again(state, place, node, request)
        elif not self._allows(state.etcd, request.place[0] if self.rules.recalls_with_the_place else node.disk):
            yield self._other_history(state, place, node, request)
        elif _is_recalled(request):
            yield self.told(state, place, node, request, request.recalled[0].answer)
        elif self.rules.asks_again:
            then = with_request(without_request(node, request), request._replace(asks_again=True))
            yield Step(place, f"knows no answer to id {request.command.identity}", state.with_node(place, then))
        else:
            yield self.told(state, place, node, request, 0)

    def _allows(self, etcd: Etcd, disk: Disk) -> bool:
        """Whether a look allows that a request is answered."""
        judged = self.judge(etcd, disk)
        return judged == YES or (judged == BEHIND and not self.rules.behind_answers_nothing)

    def _asks_again(self, state: State, place: int, node: Node, request: Request) -> Iterator[Step]:
        """The transaction is made again. Where etcd has the entry, it was performed; else nothing is known of it."""
        number, entry = request.number, request.entry
        for step in self.create(state, place, without_request(node, request), request.command):
            there = [again for again in step.state.nodes[place].requests if again not in node.requests]
            if there and there[0].number == number and there[0].entry in ((), entry):
                same = request._replace(life=state.etcd.life)
                asked = step.state.with_node(place, with_request(without_request(node, request), same))
                yield self.told(asked, place, asked.nodes[place], same, 0)
            else:
                told = step.state.with_node(place, without_request(node, request))
                yield Step(place, f"{step.words}: TimedOut", told)

    def _other_history(self, state: State, place: int, node: Node, request: Request) -> Step:
        words = f"answers id {request.command.identity}: OtherHistory"
        return Step(place, words, state.with_node(place, without_request(node, request)))

    # ---- a base is written

    def at_finding_the_last_base(self, etcd: Etcd, node: Node, _state: State) -> Iterator[Does]:
        begun, old = node._replace(since_base=0), etcd.base
        newer = len(node.disk.history) - len(old.file.history)
        if node.position <= old.number or newer < self.bounds.base_after // 2:
            yield "finds that the last base is new", begun._replace(at=self.goes_on(node)), etcd
        else:
            yield f"finds the last base, {old.number}", begun._replace(at="writing a checkpoint", base=old), etcd

    def at_putting_the_parts(self, etcd: Etcd, node: Node, _state: State) -> Iterator[Does]:
        parts = tuple(sorted(set(etcd.parts) | {node.disk}))
        then = node._replace(at="replacing the base")
        yield f"puts the parts of base {node.position}", then, etcd._replace(parts=parts)

    def at_replacing_the_base(self, etcd: Etcd, node: Node, _state: State) -> Iterator[Does]:
        mine = self._tie(node.disk.history[-1].entry)
        has_place = any(self._tie(entry) == mine for entry in etcd.log) or not self.rules.compares_the_place
        has_parts = node.disk in etcd.parts or not self.rules.compares_the_parts
        if etcd.base == node.base and has_place and has_parts:
            new = self._new_base(node)
            then = node._replace(at="taking old parts out", base=new)
            yield f"replaces the base by {new.number}, with the floor {new.floor}", then, etcd._replace(base=new)
        else:
            words = "puts no base: etcd has another, or lacks its place or its parts"
            yield words, node._replace(at=self.goes_on(node), base=Base()), etcd

    def _new_base(self, node: Node) -> Base:
        old, count = node.base, len(node.disk.history)
        bases = old.bases + ((node.position, count),)
        ids_floor = max([number for number, at in bases if at <= count - self.bounds.ids_kept], default=0)
        floor_entry: MaybeEntry = old.file.history[-1].entry if old.file.history else ()
        return Base(node.position, old.number, floor_entry, ids_floor, bases, node.disk)

    def _taking(self, etcd: Etcd, node: Node, words: str, at: str, less: Etcd) -> Does:
        """A transaction that takes something out, if the base is the one that this node put."""
        if etcd.base == node.base or not self.rules.compares_the_base:
            return words, node._replace(at=at), less
        return words + ": no, the base is another", node._replace(at=self.goes_on(node), base=Base()), etcd

    def at_taking_old_parts_out(self, etcd: Etcd, node: Node, _state: State) -> Iterator[Does]:
        # Parts with a greater number may be those of a base that another node is about to put.
        parts = tuple(file for file in etcd.parts if file == node.base.file or file.position > node.base.number)
        less = etcd._replace(parts=parts)
        yield self._taking(etcd, node, "takes old parts out", "taking entries out", less)

    def at_taking_entries_out(self, etcd: Etcd, node: Node, _state: State) -> Iterator[Does]:
        """Entries are taken out some at a time, in the order of their names."""
        floor = node.base.floor
        old = [entry for entry in etcd.log if entry.number <= floor]
        if not old:
            yield f"finds no entries up to {floor}", node._replace(at="taking ids out"), etcd
        for entry in old:
            less = self.logged(etcd, etcd.revision, tuple(other for other in etcd.log if other != entry))
            yield self._taking(etcd, node, f"takes entry {entry.number} out", "taking entries out", less)

    def at_taking_ids_out(self, etcd: Etcd, node: Node, _state: State) -> Iterator[Does]:
        floor = node.base.ids_floor
        if self.rules.ids_with_entries:
            held = {entry.identity for entry in etcd.log}
        else:
            held, floor = set(), node.position - self.bounds.ids_kept
        ids = tuple(key for key in etcd.ids if key.number > floor or key.identity in held)
        yield self._taking(etcd, node, f"takes ids up to {floor} out", "compacting", etcd._replace(ids=ids))

    def at_compacting(self, etcd: Etcd, node: Node, _state: State) -> Iterator[Does]:
        floor = node.base.floor
        then = etcd._replace(compacted=max(etcd.compacted, floor)) if floor <= etcd.revision else etcd
        yield f"compacts etcd up to {floor}", node._replace(at=self.goes_on(node), base=Base()), then

    # ---- a base is installed

    def at_fetching(self, etcd: Etcd, node: Node, _state: State) -> Iterator[Does]:
        words, stopped = self._looks(etcd, node)
        if stopped is None or stopped.at != "fetching":
            yield words, node._replace(at="opening") if stopped is None else stopped, etcd
        else:
            words = f"reads the record of base {etcd.base.number}"
            yield words, node._replace(at="fetching the parts", base=etcd.base), etcd

    def at_fetching_the_parts(self, etcd: Etcd, node: Node, _state: State) -> Iterator[Does]:
        if node.base.file in etcd.parts:
            yield f"reads the parts of base {node.base.number}", node._replace(at="installing"), etcd
        else:
            yield "finds that the base was replaced", node._replace(at="opening", base=Base()), etcd



def _is_recalled(request: Request) -> bool:
    """Whether what a node recalled of a number is the answer to this command."""
    if request.entry or not request.recalled:
        return False
    known = request.recalled[0]
    return known.named and (known.entry.identity, known.entry.value) == request.command
