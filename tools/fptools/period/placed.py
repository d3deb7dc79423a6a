"""Paths as one section: their words are placed one behind the other, so that the program bounds
them.

Each node of a graph of paths becomes a word of the same lag. A call that is put in place, and
its return, are jumps, as all three have the lag 3. A branch of which one edge isn't on the paths
is a jump, or a word of lag 1. Each loop is placed with its head first. Where a word isn't
followed by the one that comes next, a jump is added: it can only add cycles."""
from __future__ import annotations

import heapq
from dataclasses import dataclass, field
from typing import Mapping

from fptools.code.digraph import Graph
from fptools.period.wait_paths import Node, Paths
from fptools.code.section import walk
from fptools.limits import LARGE
from fptools.code.unfolded import NotUnfolded, Place, is_wait
from fptools.isa.words import OPCODE_BRANCH, OPCODE_JAL, RETURN_ADDRESS, Flow, Word

Key = tuple[int, tuple[int, ...]]
NOP = 0x0000_0013  # addi x0, x0, 0: lag 1


@dataclass(frozen=True)
class PlacedLoop:
    """A loop of the section: its first and last word; in the code the place of its head, and the
    words of its function from which it goes back there."""

    head: int
    last: int
    of: Place
    backs: frozenset[int]


@dataclass
class Placed:
    """The words of paths from their begin up to one of their ends, as a section."""

    start: int
    end: int = 0
    words: dict[int, int] = field(default_factory=dict)
    of: dict[int, Place] = field(
        default_factory=dict
    )  # the place that a word is of; none for a jump that was added
    loops: list[PlacedLoop] = field(default_factory=list)
    calls: set[int] = field(
        default_factory=set
    )  # the functions that its words call, where they are in the code


@dataclass
class Order:
    """An order of nodes in which each loop is contiguous with its head first, and all else leads
    forward."""

    paths: Paths
    nodes: list[Node] = field(default_factory=list)
    loops: list[tuple[Node, frozenset[Node]]] = field(default_factory=list)

    def add(self, graph: Graph[Node], first: Node) -> list[Node]:
        """Orders the nodes of a graph that is entered at its first node."""
        units = self._units(graph, first)
        unit_of = {node: at for at, unit in enumerate(units) for node in unit}
        edges = {(unit_of[one], unit_of[other]) for one, other in graph.edges}
        before = [0] * len(units)
        for one, other in edges:
            before[other] += one != other
        onward: list[list[int]] = [[] for _ in units]
        for one, other in edges:
            if one != other:
                onward[one].append(other)
        found: list[Node] = []
        ready = {at for at, count in enumerate(before) if not count}
        heap = sorted((units[at][0].key, at) for at in ready)
        while ready:
            at = self._next(found, ready, heap, units, unit_of)
            ready.discard(at)
            found += units[at]
            for to in onward[at]:
                before[to] -= 1
                if not before[to]:
                    ready.add(to)
                    heapq.heappush(heap, (units[to][0].key, to))
        return found

    def _next(
        self, found: list[Node], ready: set[int], heap: list[tuple[Key, int]],
        units: list[list[Node]], unit_of: Mapping[Node, int],
    ) -> int:  # fmt: skip
        """What is placed next: the word that follows the last one, if it may be; else the first in
        the code."""
        if found:
            onward = self.onward(found[-1])
            at = unit_of.get(onward) if onward is not None else None
            if at is not None and at in ready and units[at][0] == onward:
                return at
        while True:
            _, at = heapq.heappop(heap)
            if at in ready:
                return at

    def onward(self, node: Node) -> Node | None:
        """The node of the next word, where a word goes on there."""
        place = self.paths.step(node).onward
        return None if place is None else self.paths.to(node, place)

    def _units(self, graph: Graph[Node], first: Node) -> list[list[Node]]:
        """The nodes one by one, and the loops, each in order."""
        units = []
        for part in graph.parts():
            (node, *more) = part
            if not more and not graph.has_edge(node, node):
                units.append([node])
                continue
            units.append(self._loop(graph, frozenset(part), first))
        return units

    def _loop(self, graph: Graph[Node], part: frozenset[Node], first: Node) -> list[Node]:
        heads = {to for one, to in graph.edges if to in part and one not in part} | ({first} & part)
        if len(heads) != 1:
            at = min((it.place.pc for it in heads), default=0)
            raise NotUnfolded(
                at, "a loop is entered at several words: lay the code out by fp_layout"
            )
        (head,) = heads
        self.loops.append((head, part))
        within = graph.subgraph(part)
        return self.add(Graph((it for it in within.edges if it[1] != head), within), head)


@dataclass
class Placer:
    """Places the words of paths up to one of their ends, from an address on."""

    paths: Paths
    graph: Graph[Node]
    end: Node
    start: int
    at: dict[Node, int] = field(default_factory=dict)
    items: list[tuple[Node, Node | None]] = field(default_factory=list)

    def placed(self) -> Placed:
        """The section. Raises NotUnfolded where it can't be placed."""
        found = Placed(self.start)
        if self.end == self.paths.first:
            return found
        order = Order(self.paths)
        nodes = order.add(self.graph, self.paths.first)
        self._arrange(order, [it for it in nodes if it != self.end])
        found.end = self.at[self.end] = self.start + 4 * len(self.items)
        if found.end > LARGE:
            raise NotUnfolded(
                self.end.place.pc, "the code up to the wait is too large to be placed again"
            )
        for index, (node, to) in enumerate(self.items):
            pc = self.start + 4 * index
            if to is not None:
                found.words[pc] = jump(pc, self.at[to])
                continue
            found.words[pc], found.of[pc] = self._word(pc, node), node.place
            step = self.paths.step(node)
            if step.passes_over and step.word.target is not None:
                found.calls.add(step.word.target)
        found.loops = [self._loop(head, part) for head, part in order.loops]
        self._compare(found)
        return found

    def _arrange(self, order: Order, nodes: list[Node]) -> None:
        """Gives each node a word, and another one for a jump to the node behind it, if that isn't
        placed next."""
        for node, after in zip(nodes, [*nodes[1:], self.end]):
            self.at[node] = self.start + 4 * len(self.items)
            self.items.append((node, None))
            onward = self._on_path(node, order.onward(node))
            if onward is not None and onward != after and not self._is_jump(node):
                self.items.append((node, onward))

    def _on_path(self, node: Node, to: Node | None) -> Node | None:
        return to if to is not None and self.graph.has_edge(node, to) else None

    def _is_jump(self, node: Node) -> bool:
        """Whether a word is placed as a jump to the next one: a wait, at the begin."""
        return is_wait(self.paths.step(node).word)

    def _word(self, pc: int, node: Node) -> int:
        step = self.paths.step(node)
        onward = self._on_path(
            node, None if step.onward is None else self.paths.to(node, step.onward)
        )
        target = self._on_path(
            node, None if step.target is None else self.paths.to(node, step.target)
        )
        if self._is_jump(node) and onward is not None:
            return jump(pc, self.at[onward])
        if step.passes_over and step.word.target is not None:
            return jump(pc, step.word.target, RETURN_ADDRESS)
        if target is None:
            return NOP if step.word.flow is Flow.BRANCH else step.word.bits
        if onward is None:
            return jump(pc, self.at[target])
        return branch(step.word, pc, self.at[target])

    def _loop(self, head: Node, part: frozenset[Node]) -> PlacedLoop:
        words = [self.start + 4 * at for at, (node, _) in enumerate(self.items) if node in part]
        lasts = (it.place for it in self.graph.predecessors(head) if it in part)
        depth = len(head.place.sites)
        backs = frozenset((*it.sites, it.pc)[depth] for it in lasts)
        return PlacedLoop(self.at[head], max(words), head.place, backs)

    def _compare(self, found: Placed) -> None:
        """The placed words lead to each other as the nodes do, apart from jumps that were added."""
        section = walk(found.words, found.start, found.end, found.calls)
        added = {pc for pc in found.words if pc not in found.of}
        for node, at in self.at.items():
            if node == self.end:
                continue
            ends = {*section.graph[at], *(it.to for it in section.ways_out if it.word.pc == at)}
            ends = {next(iter(section.graph[to]), found.end) if to in added else to for to in ends}
            if ends != {self.at[to] for to in self.graph[node]}:
                raise NotUnfolded(node.place.pc, "it was placed wrong: a fault of this tool")


def jump(pc: int, target: int, register: int = 0) -> int:
    """The word of `jal register, target` at an address."""
    way = target - pc
    word = (way >> 20 & 1) << 31 | (way >> 1 & 0x3FF) << 21 | (way >> 11 & 1) << 20
    word |= (way >> 12 & 0xFF) << 12 | register << 7 | OPCODE_JAL
    assert Word(pc, word).target == target
    return word


def branch(word: Word, pc: int, target: int) -> int:
    """The word of a branch at an address, with another target."""
    way = target - pc
    if not -4096 <= way < 4096:
        raise NotUnfolded(word.pc, "a branch leads too far in the code up to the wait")
    bits = word.bits & ~0xFE00_0F80
    bits |= (
        (way >> 12 & 1) << 31
        | (way >> 5 & 0x3F) << 25
        | (way >> 1 & 0xF) << 8
        | (way >> 11 & 1) << 7
    )
    assert Word(pc, bits).opcode == OPCODE_BRANCH and Word(pc, bits).target == target
    return bits
