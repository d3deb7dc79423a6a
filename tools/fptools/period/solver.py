"""Finds what is known before each place of a thread, from some places on."""
from __future__ import annotations

import heapq
from dataclasses import dataclass, field
from typing import Callable, Mapping

from fptools.code.digraph import search
from fptools.period.branch_values import carried, equal, relation
from fptools.period.heads import Head
from fptools.period.moment_values import LOW, TWICE, sum_of
from fptools.period.states import State, joined
from fptools.period.sums import Counter, Relation, Sum
from fptools.code.unfolded import NotUnfolded, Place, Ring, Step, Unfolded, is_wait
from fptools.code.values import Value, signed
from fptools.flow.counts import Side, until_it_leaves
from fptools.isa.words import Flow, Word

MOST_STEPS = 200  # for each place

After = Callable[[Place, Step, State], State]


@dataclass(frozen=True)
class Left:
    """A branch that leaves a loop: its sides by how often the loop has gone back, and how often it
    has when it is left there."""

    counter: Counter
    sides: tuple[Sum, Sum]
    count: int


@dataclass
class Solver:
    """What is known before each place, and the loops' heads."""

    unfolded: Unfolded
    starts: Mapping[Place, State]
    after: After
    ends_at_waits: bool
    earlier: Mapping[Place, Left]  # the branches that leave loops, from the thread's entry on
    before: dict[Place, State] = field(default_factory=dict)
    heads: dict[Place, Head] = field(default_factory=dict)
    _incoming: dict[Place, dict[Place, State]] = field(default_factory=dict)
    _entered: dict[Place, list[State]] = field(default_factory=dict)
    _old: dict[Place, set[Place]] = field(default_factory=dict)
    _heap: list[tuple[int, Place]] = field(default_factory=list)

    def __post_init__(self) -> None:
        for ring in self.unfolded.rings:
            self.heads[ring.head] = Head(ring.head, ring.body)
        order = self.unfolded.order
        most = MOST_STEPS * len(order)
        for place in self.starts:
            self._push(place)
        while self._heap or self._corrected():
            _, place = heapq.heappop(self._heap)
            most -= 1
            if not most:
                raise NotUnfolded(place.pc, "the values of this code are too many to follow")
            self._take(place)

    def _push(self, place: Place) -> None:
        item = self.unfolded.order[place], place
        if item not in self._heap:
            heapq.heappush(self._heap, item)

    def _take(self, place: Place) -> None:
        """What is known before a place, by all edges that lead there; where it changes, also
        behind it."""
        state = self._met(place)
        if self.before.get(place) == state:
            return
        self.before[place] = state
        step = self.unfolded.steps[place]
        if self.ends_at_waits and is_wait(step.word):
            return
        behind = self.after(place, step, state)
        for to in step.ends:
            new = self._on_edge(place, step, to, behind)
            known = self._incoming.setdefault(to, {})
            if known.get(place) != new:
                known[place] = new
                self._old.get(to, set()).discard(place)
                self._push(to)

    def _edges(self, place: Place) -> tuple[list[State], dict[Place, State]]:
        """The states with which a place is entered, and what rounds of its loop bring back."""
        incoming = self._incoming.get(place, {})
        body = self.heads[place].body if place in self.heads else frozenset()
        entered = [it for of, it in incoming.items() if of not in body]
        backs = {of: it for of, it in incoming.items() if of in body}
        if place in self.starts:
            entered.insert(0, self.starts[place])
        return entered, backs

    def _met(self, place: Place) -> State:
        entered, backs = self._edges(place)
        if not backs or not entered:
            return joined([*entered, *backs.values()], lambda key: (place, "at", key))
        # What rounds bring back is old once the loop is entered with other values.
        if self._entered.get(place) != entered:
            self._entered[place] = entered
            self._old[place] = set(backs)
            self.heads[place].renew()
        old = self._old.get(place, set())
        return self.heads[place].state(entered, [it for of, it in backs.items() if of not in old])

    def _corrected(self) -> bool:
        """Looks at the loops once more, where nothing changes any more: at what all rounds bring
        back. Answers whether anything is to do. A guess that was made anew is looked at again, also
        where it is as before."""
        for place, head in self.heads.items():
            entered, backs = self._edges(place)
            if place not in self.before or not backs or not entered:
                continue
            self._entered[place], self._old[place] = entered, set()
            guesses = {**head.guesses}
            is_wrong = head.correct(self.before[place], entered, [*backs.values()])
            is_other = self._met(place) != self.before[place]
            if is_wrong or is_other or head.guesses != guesses:
                self._push(place)
        return bool(self._heap)

    def _on_edge(self, place: Place, step: Step, to: Place, state: State) -> State:
        """What is known where a word goes on at a place, of those at which it may."""
        word = step.word
        if word.flow is not Flow.BRANCH or step.onward == step.target:
            return state
        is_taken, registers = to == step.target, state.registers
        known = carried(word, registers, is_taken)
        state = state.with_carries(known) if known else state
        same = equal(word, registers, is_taken)
        counted = self._counted(place, step, to, state)
        found = counted or relation(word, registers, is_taken, state.facts.relations)
        state = state if same is None else state.with_equal(same)
        return state if found is None else state.with_relation(found)

    def _counted(self, place: Place, step: Step, to: Place, state: State) -> Relation | None:
        """How often a loop has gone back that is left here."""
        left = left_at(self.unfolded, place, step, to, state)
        if left is not None:
            return Relation(left.counter, 1, left.count, TWICE)
        left = self.earlier.get(place)
        sides = sides_of(step.word, state)
        if left is None or sides is None or left.counter.head not in self.heads:
            return None
        body = self.heads[left.counter.head].body
        if to in body or sides != tuple(it.earlier for it in left.sides):
            return None
        return Relation(Counter(left.counter.head, True), 1, left.count, TWICE)


def sides_of(word: Word, state: State) -> tuple[Sum, Sum] | None:
    """Both sides of a comparison, where they are numbers, or numbers by counters."""
    one, other = sum_of(state.registers[word.rs1]), sum_of(state.registers[word.rs2])
    return None if one is None or other is None else (one, other)


def left_at(unfolded: Unfolded, place: Place, step: Step, to: Place, state: State) -> Left | None:
    """How often a loop has gone back when it is left at a branch that each round passes."""
    sides = sides_of(step.word, state)
    if sides is None:
        return None
    counters = {it for side in sides for it, _ in side.terms}
    if len(counters) != 1:
        return None
    (counter,) = counters
    ring = next((it for it in unfolded.around(place) if it.head == counter.head), None)
    other = next((it for it in step.ends if it != to), None)
    if ring is None or counter.is_earlier or to in ring.body or other not in ring.body:
        return None
    if not passes(unfolded, ring, place):
        return None
    one, two = (_side(it, counter) for it in sides)
    if one.step == two.step:
        return None
    count = until_it_leaves(step.word.funct3, to != step.target, one, two)
    return None if count is None else Left(counter, sides, count)


def _side(of: Sum, counter: Counter) -> Side:
    factor = dict(of.terms).get(counter, 0)
    return Side(Value(None, signed(of.number % LOW)), signed(factor % LOW))


def passes(unfolded: Unfolded, ring: Ring, place: Place) -> bool:
    """Whether each round of a loop passes a place."""
    inner = unfolded.graph.subgraph(ring.body - {place})
    if ring.head == place:
        return True
    return all(ring.head not in inner[it] for it in search([ring.head], inner.__getitem__))
