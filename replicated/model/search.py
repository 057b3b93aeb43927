"""The search of all schedules, the shortest first.

A state is remembered by 64 bits of its hash. Two states that differ only in which node is which are one. Where a node
does what concerns no other node, only that step and the node's kill are tried; without a restore, so is an answer.
"""

from __future__ import annotations

import time
from array import array
from typing import Dict, Iterator, List, NamedTuple, Optional, Tuple

from .properties import fault_of, faults
from .rules import Bounds, Rules
from .states import State
from .steps import Step, Steps, start
from .steps_new import NewSteps
from .steps_old import OldSteps

NAMES = "ab"


class Found(NamedTuple):
    """A fault, and the steps that lead to it."""

    fault: str
    trace: List[str]


class Result(NamedTuple):
    """What a search looked at, how many steps the longest of the shortest ways has, and the first fault if it found
    one. Schedules are counted if it found none."""

    states: int
    steps: int
    longest: int
    schedules: int
    seconds: float
    found: Optional[Found]


def steps_of(rules: Rules, bounds: Bounds) -> Steps:
    return NewSteps(rules, bounds) if rules.judges else OldSteps(rules, bounds)


def _in_order(state: State) -> Tuple[State, bool]:
    """The state with its nodes in order, and whether they had to be swapped."""
    one, other = state.nodes
    return (state._replace(nodes=(other, one)), True) if other < one else (state, False)


def _told(step: Step, names: str) -> str:
    """The words of a step, with the name of the node that does it."""
    return f"{names[step.place]} {step.words}" if step.place >= 0 else step.words


class Search:
    """A search under some rules and within some bounds, for faults whose words begin with one of the kinds."""

    def __init__(self, rules: Rules, bounds: Bounds, kinds: Tuple[str, ...] = ("",)) -> None:
        self._rules, self._bounds, self._kinds = rules, bounds, kinds
        self._steps = steps_of(rules, bounds)
        self._start, _ = _in_order(self._after_first_steps())
        self._places: Dict[int, int] = {hash(self._start): 0}
        # How each state was first come to: the state before it, and which of that one's steps it was.
        self._before, self._index = array("q", [-1]), array("q", [-1])
        # Each step, as two states.
        self._edges = array("q")

    def _after_first_steps(self) -> State:
        """The state after the steps that are given. Raises `ValueError` if one of them can't be taken."""
        state = start(self._bounds)
        for words in self._bounds.first:
            found = [step for step in self._steps.of(state) if _told(step, NAMES).startswith(words)]
            if not found:
                can = [_told(step, NAMES) for step in self._steps.of(state)]
                raise ValueError(f"no step begins with {words!r}, only {can}")
            state = found[0].state
        return state

    def run(self) -> Result:
        began = time.monotonic()
        layer, longest, found = [self._start], 0, None
        while layer and found is None:
            new: List[State] = []
            found = self._layer(layer, new)
            layer = new
            longest += 1
        count = schedules(len(self._places), self._edges) if found is None else 0
        steps = len(self._edges) // 2
        return Result(len(self._places), steps, longest, count, time.monotonic() - began, found)

    def _layer(self, layer: List[State], new: List[State]) -> Optional[Found]:
        """Takes all steps from the states of a layer. Adds those that are new, or returns a fault."""
        for state in layer:
            before = self._places[hash(state)]
            for index, step in enumerate(self._steps.of(state)):
                then, _ = _in_order(step.state)
                key, last = hash(then), len(self._places)
                place = self._places.setdefault(key, last)
                self._edges.extend((before, place))
                for fault in self._faults(step, state, place == last):
                    return Found(fault, self._trace(before, index))
                if place == last:
                    self._before.append(before)
                    self._index.append(index)
                    new.append(then)
        return None

    def _faults(self, step: Step, before: State, is_new: bool) -> Iterator[str]:
        """The faults of a step, of the kinds that are looked for."""
        if step.claim is not None:
            fault = fault_of(step.state, step.place, step.claim)
            if fault is not None and fault.startswith(self._kinds):
                yield fault
        if is_new:
            for fault in faults(step.state, before, self._rules, self._bounds):
                if fault.startswith(self._kinds):
                    yield fault

    def _trace(self, place: int, last: int) -> List[str]:
        """The steps to a state and one step more, each with the name of its node."""
        chosen = [last]
        while place:
            chosen.append(self._index[place])
            place = self._before[place]
        state, names, trace = self._start, NAMES, []
        for index in reversed(chosen):
            step = list(self._steps.of(state))[index]
            trace.append(_told(step, names))
            state, swapped = _in_order(step.state)
            names = names[::-1] if swapped else names
        return trace


def schedules(states: int, edges: "array[int]") -> int:
    """How many ways there are from the first state to states without a step. Raises `ValueError` if one is endless."""
    into, begins = [0] * states, [0] * (states + 1)
    for place in range(0, len(edges), 2):
        begins[edges[place] + 1] += 1
        into[edges[place + 1]] += 1
    for state in range(states):
        begins[state + 1] += begins[state]
    after, filled = array("q", bytes(4 * len(edges))), begins[:]
    for place in range(0, len(edges), 2):
        state = edges[place]
        after[filled[state]] = edges[place + 1]
        filled[state] += 1
    ways, count, seen = [1] + [0] * (states - 1), 0, 0
    ready = [] if into[0] else [0]
    while ready:
        state = ready.pop()
        seen += 1
        if begins[state] == begins[state + 1]:
            count += ways[state]
        for then in after[begins[state] : begins[state + 1]]:
            ways[then] += ways[state]
            into[then] -= 1
            if not into[then]:
                ready.append(then)
    if seen < states:
        raise ValueError("there is a schedule without an end")
    return count


def search(rules: Rules, bounds: Bounds, kinds: Tuple[str, ...] = ("",)) -> Result:
    return Search(rules, bounds, kinds).run()
