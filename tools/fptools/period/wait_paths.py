"""The paths from a wait, or another place of a thread, to the next waits.

A path may begin in the middle of loops. To keep each loop with its head as the only entry,
places are told apart by the outermost loop around the begin whose head the path has passed
since."""
from __future__ import annotations

from dataclasses import dataclass, field
from functools import cached_property
from typing import Collection, NamedTuple

from fptools.code.digraph import Graph, search
from fptools.code.unfolded import Place, Step, Unfolded, is_wait
from fptools.isa.words import Flow, Word


class Node(NamedTuple):
    """A place, and the level of the path there: the index of the outermost loop around its begin
    that it has gone back to the head of, or the number of these loops."""

    level: int
    place: Place

    @property
    def key(self) -> tuple[int, tuple[int, ...]]:
        """Sorts nodes by the order of paths, then as the code has them."""
        return -self.level, self.place.key


@dataclass
class Paths:
    """All paths from a place until the next waits, which they end at. They don't come back to
    places in `closed`."""

    unfolded: Unfolded
    begin: Place
    closed: Collection[Place] = ()
    graph: Graph[Node] = field(default_factory=Graph[Node])

    def __post_init__(self) -> None:
        self.graph.add_node(self.first)
        for node in search([self.first], self.graph.__getitem__):
            for to in () if self.is_end(node) else self._next(node):
                self.graph.add_edge(node, to)

    @cached_property
    def _heads(self) -> dict[Place, tuple[int, frozenset[Place]]]:
        around = self.unfolded.around(self.begin)
        return {ring.head: (level, ring.body) for level, ring in enumerate(around)}

    @cached_property
    def first(self) -> Node:
        return Node(len(self._heads), self.begin)

    def step(self, node: Node) -> Step:
        return self.unfolded.steps[node.place]

    def is_end(self, node: Node) -> bool:
        """Whether paths end at a node: at a wait, but for the begin."""
        return node != self.first and is_wait(self.step(node).word)

    def to(self, node: Node, place: Place) -> Node:
        """The node of a place that follows another one."""
        level, body = self._heads.get(place, (node.level, frozenset()))
        return Node(min(level, node.level) if node.place in body else node.level, place)

    def _next(self, node: Node) -> list[Node]:
        ends = (it for it in self.step(node).ends if it not in self.closed)
        return [self.to(node, it) for it in ends]

    @cached_property
    def ends(self) -> list[Node]:
        """The nodes of the next waits."""
        return sorted((it for it in self.graph if self.is_end(it)), key=lambda it: it.key)

    def leading_to(self, end: Node) -> Graph[Node]:
        """The part of the graph that leads to an end."""
        kept = self.graph.ancestors(end) | {end}
        return self.graph.subgraph(kept)

    @cached_property
    def issued(self) -> dict[int, Word]:
        """The words that are issued behind the begin and before the next waits, by address."""
        inner = (it for it in self.graph if it != self.first and not self.is_end(it))
        return {it.place.pc: self.step(it).word for it in inner}

    @cached_property
    def lost(self) -> list[Node]:
        """Nodes from which no wait is reached, the nearest first: paths that end in a trap, or that
        go round for ever."""
        reaching: set[Node] = set(self.ends)
        for end in self.ends:
            reaching |= self.graph.ancestors(end)
        return [it for it in self.graph.reached(self.first) if it not in reaching]

    @property
    def calls(self) -> set[int]:
        """The functions without a wait that are called on the paths."""
        found = (self.step(it) for it in self.graph if not self.is_end(it))
        return {it.word.target for it in found if it.passes_over and it.word.target is not None}

    @property
    def delays(self) -> list[int]:
        """The addresses of DUs on the paths."""
        is_delay = (pc for pc, it in self.issued.items() if it.flow is Flow.WAIT)
        return sorted(is_delay)
