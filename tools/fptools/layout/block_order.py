"""Natural loops of a function's blocks, and an order in which each loop is an interval with its head first."""
from __future__ import annotations

import heapq
from collections import defaultdict
from collections.abc import Iterable, Sequence
from dataclasses import dataclass, field
from graphlib import CycleError, TopologicalSorter

from fptools.code.digraph import Dominators, Graph, search
from fptools.layout.blocks import Block

MOST_AROUND = 3
"""A loop may lie in so many others, for the analyser."""


class NoOrder(Exception):
    """No order keeps the loops together and the sections between their marks."""


class Irreducible(Exception):
    """A loop has several entries."""


@dataclass
class Loop:
    """A natural loop: its head, which is its only entry, its blocks, and the loop around it."""

    head: int
    blocks: set[int]
    around: Loop | None = None

    @property
    def depth(self) -> int:
        """How many loops it lies in."""
        return self.around.depth + 1 if self.around else 0


@dataclass(frozen=True)
class Section:
    """The blocks that `first` reaches without going through `end`. They belong between the two."""

    first: int
    end: int
    blocks: frozenset[int]


@dataclass
class Flows:
    """The control-flow graph of the blocks that the first one reaches."""

    blocks: Sequence[Block]
    next_blocks: list[list[int]] = field(init=False)
    before: dict[int, list[int]] = field(init=False)
    reached: set[int] = field(init=False)

    def __post_init__(self) -> None:
        self.next_blocks = [block.next_blocks for block in self.blocks]
        self.reached = self.reach(0)
        self.before = {index: [] for index in self.reached}
        for index in sorted(self.reached):
            for to in self.next_blocks[index]:
                self.before[to].append(index)

    def reach(self, first: int, without: Iterable[int] = ()) -> set[int]:
        """The blocks that one reaches, itself included, without going through some others."""
        return {*search([first], self.next_blocks.__getitem__, {*without} - {first})}

    def edges(self) -> Iterable[tuple[int, int]]:
        return ((index, to) for index in sorted(self.reached) for to in self.next_blocks[index])

    def section(self, first: int, end: int) -> Section:
        return Section(first, end, frozenset(self.reach(first, [end])))

    def passing(self, section: Section) -> set[int]:
        """The blocks of a section that reach its end."""

        def before(index: int) -> list[int]:
            return [it for it in self.before[index] if it in section.blocks]

        return {*search(before(section.end), before)}


@dataclass
class Nest:
    """The loops of a function by their heads, and the innermost loop of each block. Raises Irreducible."""

    flows: Flows
    loops: dict[int, Loop] = field(init=False)
    innermost: dict[int, Loop] = field(init=False)
    back_edges: set[tuple[int, int]] = field(init=False)

    def __post_init__(self) -> None:
        dominators = Dominators(Graph(self.flows.edges(), [0]), 0)
        self.back_edges = {it for it in self.flows.edges() if dominators.has(it[1], it[0])}
        self._refuse_irreducible()
        self.loops = {
            head: Loop(head, {head}) for head in sorted({head for _, head in self.back_edges})
        }
        for last, head in self.back_edges:
            # The blocks that reach the end of a back edge without going through the head.
            body = self.loops[head].blocks
            body |= {*search([last], self.flows.before.__getitem__, body)}
        self.innermost = {}
        for loop in sorted(self.loops.values(), key=lambda it: (-len(it.blocks), it.head)):
            loop.around = self.innermost.get(loop.head)
            self.innermost.update(dict.fromkeys(loop.blocks, loop))

    def _refuse_irreducible(self) -> None:
        sorter = TopologicalSorter[int]()
        for index, to in self.flows.edges():
            if (index, to) not in self.back_edges:
                sorter.add(to, index)
        try:
            sorter.prepare()
        except CycleError:
            raise Irreducible from None

    def around(self, index: int) -> list[Loop]:
        """The loops around a block, the innermost first."""
        found, loop = [], self.innermost.get(index)
        while loop:
            found.append(loop)
            loop = loop.around
        return found

    def adopt(self, section: Section) -> None:
        """Adds the blocks of a section that don't reach its end, as a trap, to the loop around it.

        They aren't part of the natural loop. Only the section reaches them, so they may be in the loop's interval.
        """
        inner = self.innermost.get(section.first)
        ends = section.blocks - self.flows.passing(section)
        if inner is None or any(not set(self.flows.before[it]) <= section.blocks for it in ends):
            return
        for index in ends:
            loops = self.around(index)
            if not loops:
                self.innermost[index] = inner
            elif loops[-1].around is None and loops[-1] not in self.around(section.first):
                loops[-1].around = inner

    def is_in_order(self, sections: Iterable[Section]) -> bool:
        """Whether the analyser takes the blocks in the order of their numbers.

        All edges but back edges lead onward, each loop is an interval that is entered only at its head, and sections
        are between their marks."""
        rank = {index: k for k, index in enumerate(sorted(self.flows.reached))}
        if any(
            to <= index and (index, to) not in self.back_edges for index, to in self.flows.edges()
        ):
            return False
        if not all(max(it.blocks) < it.end and it.first == min(it.blocks) for it in sections):
            return False
        spans = [
            Span(rank[it.head], max(rank[k] for k in it.blocks), it.depth)
            for it in self.loops.values()
        ]
        around = _spans_around(spans, len(rank))
        if any(min(it.blocks) != it.head for it in self.loops.values()) or around is None:
            return False
        return not any(
            _enters(around[rank[to]], rank[index], rank[to]) for index, to in self.flows.edges()
        )


@dataclass
class Span:
    """A loop's interval of ranks, and how many loops it lies in."""

    head: int
    last: int
    depth: int
    around: Span | None = None


def _spans_around(spans: Iterable[Span], count: int) -> list[Span | None] | None:
    """The innermost span around each rank. None where two spans cross, or one lies too deep."""
    found: list[Span | None] = [None] * count
    for span in sorted(spans, key=lambda it: (it.head, -it.last)):
        span.around = found[span.head]
        if (
            span.around
            and span.last > span.around.last
            or _depth(span) > max(span.depth, MOST_AROUND)
        ):
            return None
        found[span.head : span.last + 1] = [span] * (span.last + 1 - span.head)
    return found


def _depth(span: Span) -> int:
    return _depth(span.around) + 1 if span.around else 0


def _enters(span: Span | None, index: int, to: int) -> bool:
    """Whether an edge enters a span, or one around it, not at its head."""
    while span and span.head == to:
        span = span.around
    return span is not None and not span.head <= index <= span.last


class Order:
    """Orders the blocks of a function.

    All edges but back edges lead onward. The blocks of a loop are together, its head first. Those of a section are
    between its marks. Within these rules a block keeps its successor of the compiler's order where it can.
    """

    def __init__(self, nest: Nest, sections: Iterable[Section]) -> None:
        self.nest, self.flows = nest, nest.flows
        sections = list(sections)
        for section in sections:
            nest.adopt(section)
        self.members: dict[int | None, list[int]] = defaultdict(
            list
        )  # of a loop, by head: blocks and loops inside
        self.onward: dict[int, list[int]] = defaultdict(list)
        self.waits: dict[int, int] = defaultdict(int)
        self.key: dict[int, int] = {}
        for index in sorted(self.flows.reached):
            inner = nest.innermost.get(index)
            self.members[inner.head if inner else None].append(index)
            self.key[index] = index
        for loop in nest.loops.values():
            self.members[loop.around.head if loop.around else None].append(self._of_loop(loop))
            self.key[self._of_loop(loop)] = min(loop.blocks)
        for edge in self.flows.edges():
            if edge not in nest.back_edges:
                self._first_then(*edge)
        for section in sections:
            for index in section.blocks:
                self._first_then(index, section.end)
                if index != section.first:
                    self._first_then(section.first, index)

    @staticmethod
    def _of_loop(loop: Loop) -> int:
        """The number of a loop among the members of another one."""
        return -1 - loop.head

    def _first_then(self, one: int, other: int) -> None:
        """Requires one block before another. Loops around only one of them move with it."""
        ones, others = self.nest.around(one), self.nest.around(other)
        while ones and others and ones[-1] is others[-1]:
            ones.pop()
            others.pop()
        before = self._of_loop(ones[-1]) if ones else one
        behind = self._of_loop(others[-1]) if others else other
        if before == behind:
            raise NoOrder
        self.onward[before].append(behind)
        self.waits[behind] += 1

    def made(self) -> list[int]:
        return self._members_of(None, 0)

    def _members_of(self, head: int | None, first: int) -> list[int]:
        """The order of a loop's blocks, or of all (`head` None): topological, by _pick."""
        done: list[int] = []
        members = self.members[head]
        ready = {it for it in members if not self.waits[it]}
        queue = [(self.key[it], it) for it in ready]
        heapq.heapify(queue)
        taken = 0
        while ready:
            pick = self._pick(ready, queue, head, done[-1]) if done else first
            if pick not in ready:
                raise NoOrder
            ready.remove(pick)
            taken += 1
            done += [pick] if pick >= 0 else self._members_of(-1 - pick, -1 - pick)
            for it in self.onward[pick]:
                self.waits[it] -= 1
                if not self.waits[it]:
                    ready.add(it)
                    heapq.heappush(queue, (self.key[it], it))
        if taken < len(members):
            raise NoOrder
        return done

    def _pick(
        self, ready: set[int], queue: list[tuple[int, int]], head: int | None, last: int
    ) -> int:
        """The next member: a successor of the last block, the one that follows it first; else the compiler's first."""
        for to in reversed(self.flows.next_blocks[last]):
            if (member := self._member(to, head)) in ready:
                return member
        while queue[0][1] not in ready:
            heapq.heappop(queue)
        return queue[0][1]

    def _member(self, index: int, head: int | None) -> int:
        """The member of a loop, or of all, that holds a block: a loop inside, or the block itself."""
        for loop in self.nest.around(index):
            if (loop.around.head if loop.around else None) == head:
                return self._of_loop(loop)
            if loop.head == head:
                return index
        return index
