"""The steps that both protocols have, and the faults.

Each step is whole: one call of etcd, one batch of a store, or one file renamed. Its words say what is done.
"""

from __future__ import annotations

from typing import Callable, Dict, Iterator, NamedTuple, Optional, Tuple

from .rules import Bounds, Rules
from .states import BEFORE, JOURNAL_LONG, QUESTION, WORDS, Command, Disk, Done, Entry, Etcd, Identity, Known, Left, Log
from .states import Node, Request, State, answer_of, judged


class Claim(NamedTuple):
    """What a node tells a client: the answer to its command, 0 for `Forgotten`; or that it read up to a number."""

    command: Command
    number: int
    life: int
    answer: int


class Step(NamedTuple):
    """What a node does, or what happens outside if the place is -1; the state after it; and what a client is told."""

    place: int
    words: str
    state: State
    claim: Optional[Claim] = None


# What a follower does: the words, the node after it, and etcd after it.
Does = Tuple[str, Node, Etcd]

# Where the next step of a node touches nothing but the node, and no step of another changes what it does.
OWN = frozenset(["opening", "performing", "noting", "writing a checkpoint", "installing"])

# Where a node has a stream, and where it will open one from a revision that it knows.
STREAMS = frozenset(["following", "looking again"])
BEFORE_STREAMS = frozenset(["looking for the base", "connecting"])

# Where a node has no open store, and takes no requests at all.
CLOSED = frozenset(["opening", "fetching", "fetching the parts", "installing"])
ENDED = frozenset(["refusing", "ended"])

# A restore with this in its way changes the cluster's id, and one with this goes on with greater revisions.
OTHER_ID = "other id"
BUMPED = "bumped"
ANEW = "anew"
BUMP = 100


def start(bounds: Bounds) -> State:
    """Two nodes over empty folders, or one over a store with a command, and an etcd with nothing."""
    node = Node(kills=bounds.kills, losses=bounds.losses, full=bounds.full)
    first = node._replace(disk=Disk(0, (Done(BEFORE, 1),), 1)) if bounds.store_before else node
    left = Left(bounds.sends, bounds.questions, bounds.snapshots, bounds.restores, bounds.other_writes)
    return State(Etcd(), (first, node), left)


class Steps:
    """All that may happen next, under some rules and within some bounds."""

    def __init__(self, rules: Rules, bounds: Bounds) -> None:
        self.rules, self.bounds = rules, bounds
        #: Without a restore an answer that can be given stays the same, so that it need not wait.
        self.answers_at_once = not bounds.restores
        self._does: Dict[str, Callable[[Etcd, Node, State], Iterator[Does]]] = {}

    def of(self, state: State) -> Iterator[Step]:
        """The steps of one node alone, where it does what concerns no other; else those of all, and those outside."""
        for place, node in enumerate(state.nodes):
            if node.at in OWN:
                yield from self._follower(state, place, node)
                yield from self._kill(state, place, node)
                return
            if self.answers_at_once:
                for request in node.requests:
                    steps = list(self._answers(state, place, node, request))
                    if steps and all(step.claim and step.state.etcd is state.etcd for step in steps):
                        yield from steps
                        return
        for place, node in enumerate(state.nodes):
            yield from self._follower(state, place, node)
            yield from self._kill(state, place, node)
            yield from self._loss(state, place, node)
            if node.at not in ENDED:
                yield from self._clients(state, place, node)
        yield from self._outside(state)

    # ---- outside

    def _outside(self, state: State) -> Iterator[Step]:
        etcd, left = state.etcd, state.left
        if left.other_writes:
            revision = etcd.revision + self.bounds.other_write
            fewer = left._replace(other_writes=left.other_writes - 1)
            words = f"another application writes in etcd up to revision {revision}"
            yield Step(-1, words, state._replace(etcd=etcd._replace(revision=revision), left=fewer))
        if left.snapshots:
            fewer = left._replace(snapshots=left.snapshots - 1)
            yield Step(-1, "a snapshot of etcd is taken", state._replace(snapshot=(etcd,), left=fewer))
        if left.restores:
            for way in self.bounds.ways:
                yield from self._restore(state, way)

    def _restore(self, state: State, way: str) -> Iterator[Step]:
        """etcd is stopped and started on older data. A stream ends; a call that is under way is made again."""
        if ANEW in way:
            old = Etcd()
        elif state.snapshot:
            (old,) = state.snapshot
        else:
            return
        life = len(state.lives)
        revision = old.revision + (BUMP if BUMPED in way else 0)
        cluster = life + 1 if OTHER_ID in way else old.cluster
        etcd = old._replace(life=life, cluster=cluster, revision=revision, logs=old.logs[-1:])
        entries = tuple(entry for entry in state.lives[old.life] if entry.number <= old.revision)
        yield Step(-1, f"etcd is restored, {way}, at revision {revision}", state._replace(
            etcd=etcd, nodes=tuple(map(self._restored, state.nodes)), lives=state.lives + (entries,),
            left=state.left._replace(restores=state.left.restores - 1),
        ))  # fmt: skip

    def _restored(self, node: Node) -> Node:
        """A node after a restore. It goes on with what it does, and then its stream has ended."""
        if node.at in STREAMS:
            return self.cut_off(node)
        return node if node.at in BEFORE_STREAMS else node._replace(next=0)

    def cut_off(self, node: Node) -> Node:
        """A node whose stream ended, or which begins again since no member of etcd answers."""
        raise NotImplementedError

    # ---- clients

    def _clients(self, state: State, place: int, node: Node) -> Iterator[Step]:
        left = state.left
        for index, command in enumerate(self.bounds.commands):
            if left.sends[index]:
                sends = left.sends[:index] + (left.sends[index] - 1,) + left.sends[index + 1 :]
                yield from self.create(state._replace(left=left._replace(sends=sends)), place, node, command)
        if left.questions:
            asked = state._replace(left=left._replace(questions=left.questions - 1))
            yield from self._ask(asked, place, node)
        for request in node.requests:
            if not request.number and request.command != QUESTION:
                yield from self.create(state, place, without_request(node, request), request.command)
            else:
                yield from self._answers(state, place, node, request)

    def create(self, state: State, place: int, node: Node, command: Command) -> Iterator[Step]:
        """The transaction that puts a command into the log, unless its id is there. Its answer may be lost."""
        etcd = state.etcd
        words = f"puts id {command.identity} with value {command.value}"
        there = self.there(etcd, command.identity)
        if there and there[0].value != command.value:
            yield Step(place, words + ": IdTaken", state.with_node(place, node))
            return
        if there:
            number, made = there[0].number, state
            words += f", which is there as entry {number}"
        else:
            number, made = etcd.revision + 1, self._made(state, node, command)
            words += f" into the log as entry {number}"
        entry = next((entry for entry in made.etcd.log if entry.identity == command.identity), ())
        waits = Request(command, number, etcd.life, entry)
        yield Step(place, words, made.with_node(place, with_request(node, waits)))
        if node.losses and not there:
            lost = with_request(node._replace(losses=node.losses - 1), Request(command))
            yield Step(place, words + ", and gets no answer", made.with_node(place, lost))

    def there(self, etcd: Etcd, identity: int) -> Tuple[Identity, ...]:
        """What etcd has of an id, which is then not put."""
        raise NotImplementedError

    def _made(self, state: State, node: Node, command: Command) -> State:
        """The state after a node has put an id and its entry."""
        etcd = state.etcd
        number = etcd.revision + 1
        too_early = 0 if self.rules.judges_conditions_in_the_log else judged(node.disk.history, command.value)
        entry = Entry(number, etcd.life, command.identity, command.value, too_early)
        lives, log = state.lives, etcd.log
        if any(old.identity == command.identity for old in log):
            # A key that is put again has another value. Its number stays, and streams don't tell of it.
            log = tuple(
                old._replace(value=command.value) if old.identity == command.identity else old for old in log
            )
        else:
            log += (entry,)
            lives = lives[:-1] + (lives[-1] + (entry,),)
        ids = etcd.ids + (Identity(number, command.identity, command.value),)
        return state._replace(etcd=self.logged(etcd, number, log)._replace(ids=ids), lives=lives)

    def logged(self, etcd: Etcd, revision: int, log: Tuple[Entry, ...]) -> Etcd:
        """etcd with another log. A member that lags has one of those before it."""
        logs = (etcd.logs + (Log(revision, log),))[-1 - self.bounds.lag :]
        return etcd._replace(revision=revision, logs=logs)

    def _ask(self, state: State, place: int, node: Node) -> Iterator[Step]:
        """A client asks a question, fresh. What is found newest is waited for."""
        etcd = state.etcd
        logs = [log.entries[-1].number if log.entries else 0 for log in etcd.logs]
        found = logs[-1 if self.rules.fresh_looks_are_linearizable else 0]
        waits = with_request(node, Request(QUESTION, found, etcd.life, newest=logs[-1]))
        yield Step(place, f"is asked for what is as new as {found}", state.with_node(place, waits))

    def _answers(self, state: State, place: int, node: Node, request: Request) -> Iterator[Step]:
        """What may be done for a request whose entry is known, if it may be done now."""
        raise NotImplementedError

    def told(self, state: State, place: int, node: Node, request: Request, answer: int) -> Step:
        """A client is told something, and doesn't wait any more."""
        words = "answers a fresh question"
        if request.command != QUESTION:
            answered = WORDS.get(answer, f"ok {answer}") if answer else "Forgotten"
            words = f"answers id {request.command.identity}: {answered}"
        number = request.newest if request.command == QUESTION else request.number
        claim = Claim(request.command, number, request.life, answer)
        return Step(place, words, state.with_node(place, without_request(node, request)), claim)

    # ---- faults of a node

    def _kill(self, state: State, place: int, node: Node) -> Iterator[Step]:
        if node.kills and node.at not in ("opening", "ended"):
            killed = Node(disk=node.disk, kills=node.kills - 1, losses=node.losses, full=node.full)
            yield Step(place, "is killed, and started again", state.with_node(place, killed))

    def _loss(self, state: State, place: int, node: Node) -> Iterator[Step]:
        """No member of etcd answers for so long that the follower begins again, or its stream ends."""
        then = self.cut_off(node)
        if node.losses and then.at != node.at and node.at not in ENDED:
            lost = then._replace(losses=node.losses - 1)
            yield Step(place, "gets no answer of etcd", state.with_node(place, lost))

    # ---- a follower

    def takes(self, node: Node, entries: Tuple[Entry, ...]) -> Tuple[Entry, ...]:
        """What a node takes from the log. By the rules it judges none of it before its turn."""
        if self.rules.judges_conditions_in_turn:
            return entries
        return tuple(entry._replace(judged=judged(node.disk.history, entry.value)) for entry in entries)

    def _follower(self, state: State, place: int, node: Node) -> Iterator[Step]:
        """What the follower of a node does next. The method has the name of where the node is."""
        does = self._does.get(node.at)
        if does is None:
            does = self._does[node.at] = getattr(self, "at_" + node.at.replace(" ", "_"))
        for words, then, etcd in does(state.etcd, node, state):
            next_state = state.with_node(place, then)
            yield Step(place, words, next_state if etcd is state.etcd else next_state._replace(etcd=etcd))

    def at_ended(self, _etcd: Etcd, _node: Node, _state: State) -> Iterator[Does]:
        return iter(())

    def at_performing(self, etcd: Etcd, node: Node, _state: State) -> Iterator[Does]:
        """The batch of an entry, or two if it is refused: the second puts its number alone."""
        entry, disk = node.taken[0], node.disk
        answer = answer_of(disk.history, entry.value, entry.judged)
        if not self.rules.judges_conditions_in_turn:
            entry = entry._replace(judged=0)
        words = f"performs entry {entry.number} as one batch: {WORDS.get(answer, f'ok {answer}')}"
        yield words, _batch(node, entry, answer), etcd
        if node.full and len(disk.history) > disk.checkpoint:
            fewer = node._replace(full=node.full - 1)
            if self.rules.journal_is_own:
                emptied = fewer._replace(disk=disk._replace(checkpoint=len(disk.history)))
                yield f"finds its journal too long for entry {entry.number}, and writes a checkpoint", emptied, etcd
            else:
                words = f"performs entry {entry.number} as one batch: {WORDS[JOURNAL_LONG]}"
                yield words, _batch(fewer, entry, JOURNAL_LONG), etcd

    def at_noting(self, etcd: Etcd, node: Node, _state: State) -> Iterator[Does]:
        done = node.disk.history[-1]
        number = done.entry.number
        since = min(node.since_base + 1, self.bounds.base_after)
        at = "performing"
        if len(node.taken) == 1:
            at = "finding the last base" if since >= self.bounds.base_after else self.goes_on(node)
        yield f"notes entry {number}", node._replace(
            at=at, position=number, performed=max(node.performed, number), taken=node.taken[1:], since_base=since,
            known=knows(node.known, Known(done.entry, done.answer)),
        ), etcd  # fmt: skip

    def goes_on(self, node: Node) -> str:
        """Where a node goes on after it performed what it took."""
        raise NotImplementedError

    def at_following(self, etcd: Etcd, node: Node, state: State) -> Iterator[Does]:
        """A stream tells of entries in order, also of those that were taken out, or that it knows them no more."""
        if node.next <= etcd.compacted:
            yield "is told that the log was compacted", self.cut_off(node), etcd
        new = tuple(entry for entry in state.lives[etcd.life] if entry.number >= node.next)
        if new:
            taken = tuple(entry for entry in new if entry.number > node.position)
            at = "performing" if taken else "following"
            then = node._replace(at=at, taken=self.takes(node, taken), next=new[-1].number + 1)
            yield f"is told of {numbers(new)}", then, etcd

    # ---- a base

    def at_writing_a_checkpoint(self, etcd: Etcd, node: Node, _state: State) -> Iterator[Does]:
        disk = node.disk._replace(checkpoint=len(node.disk.history))
        yield "writes a checkpoint", node._replace(disk=disk, at="putting the parts"), etcd

    def at_installing(self, etcd: Etcd, node: Node, _state: State) -> Iterator[Does]:
        """The file of the base is renamed. The node opens it as at a start, but its memory stays."""
        known = () if self.rules.forgets_on_install else node.known
        then = node._replace(at="opening", disk=node.base.file, known=known)
        yield f"starts from the base of entry {node.base.number}", then, etcd

    def open(self, node: Node, at: str) -> Node:
        """A node that has opened its store."""
        disk, known = node.disk, node.known
        for done in disk.history[disk.checkpoint :]:
            known = knows(known, Known(done.entry, done.answer, named=False))
        return node._replace(
            at=at, position=disk.position, performed=max(node.performed, disk.position), known=known, taken=(), next=0
        )


def with_request(node: Node, request: Request) -> Node:
    return node._replace(requests=tuple(sorted(node.requests + (request,))))


def without_request(node: Node, request: Request) -> Node:
    at = node.requests.index(request)
    return node._replace(requests=node.requests[:at] + node.requests[at + 1 :])


def _batch(node: Node, entry: Entry, answer: int) -> Node:
    history = node.disk.history + (Done(entry, answer),)
    return node._replace(at="noting", disk=Disk(entry.number, history, node.disk.checkpoint, node.cluster))


def knows(known: Tuple[Known, ...], more: Known) -> Tuple[Known, ...]:
    """A memory with one more answer, in the place of that of the same number."""
    return tuple(sorted([old for old in known if old.entry.number != more.entry.number] + [more]))


def numbers(entries: Tuple[Entry, ...]) -> str:
    return ", ".join(str(entry.number) for entry in entries) or "nothing"
