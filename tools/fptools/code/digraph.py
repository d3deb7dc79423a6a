"""Directed graphs of code: what a node reaches, dominators, and strongly connected parts.

Each tool that goes through code needs this, and a library for graphs takes longer to load than such
a tool runs. The tests compare the answers with networkx."""
from __future__ import annotations

from collections import defaultdict
from typing import Callable, Collection, Generic, Hashable, Iterable, Iterator, Mapping, TypeVar

N = TypeVar("N", bound=Hashable)
Edges = Mapping[N, Collection[N]]


def search(
    firsts: Iterable[N], onward: Callable[[N], Iterable[N]], closed: Collection[N] = ()
) -> Iterator[N]:
    """What paths from some nodes reach that pass none of the closed ones, each node once, depth first.
    `onward` is called for a node when the one after it is asked for."""
    ahead, seen = list(firsts), {*closed}
    while ahead:
        node = ahead.pop()
        if node not in seen:
            seen.add(node)
            yield node
            ahead += onward(node)


class Graph(Generic[N]):
    """A directed graph. Nodes, and the edges of each, have the order in which they were added."""

    def __init__(self, edges: Iterable[tuple[N, N]] = (), nodes: Iterable[N] = ()) -> None:
        self._onward: dict[N, dict[N, None]] = {}
        self._before: dict[N, dict[N, None]] = {}
        for node in nodes:
            self.add_node(node)
        for one, other in edges:
            self.add_edge(one, other)

    def add_node(self, node: N) -> None:
        self._onward.setdefault(node, {})
        self._before.setdefault(node, {})

    def add_edge(self, one: N, other: N) -> None:
        self.add_node(one)
        self.add_node(other)
        self._onward[one][other] = self._before[other][one] = None

    def __iter__(self) -> Iterator[N]:
        return iter(self._onward)

    def __getitem__(self, node: N) -> Collection[N]:
        """The nodes to which edges lead from a node."""
        return self._onward[node].keys()

    def predecessors(self, node: N) -> Collection[N]:
        return self._before[node].keys()

    @property
    def edges(self) -> list[tuple[N, N]]:
        return [(one, other) for one, onward in self._onward.items() for other in onward]

    def has_edge(self, one: N, other: N) -> bool:
        return other in self._onward.get(one, ())

    def subgraph(self, kept: Collection[N]) -> Graph[N]:
        """The nodes of `kept` that the graph has, and the edges between them."""
        nodes = [it for it in self if it in kept]
        return Graph(((one, to) for one in nodes for to in self[one] if to in kept), nodes)

    def reached(self, first: N) -> list[N]:
        """What paths from a node reach, with the node itself, the nearest first."""
        return _spread(self._onward, first, ())

    def ancestors(self, node: N) -> set[N]:
        """The other nodes from which a path leads to this one."""
        return set(_spread(self._before, node, ())) - {node}

    def natural_loop(self, head: N, lasts: Iterable[N]) -> set[N]:
        """The nodes from which the starts of back edges are reached without passing the head, and
        the head."""
        return {head, *search(lasts, self.predecessors, [head])}

    def postorder(self, first: N) -> list[N]:
        """What paths from a node reach, each behind those that a depth-first search finds from it."""
        return _postorder(self._onward, first)

    def immediate_dominators(self, first: N) -> dict[N, N]:
        """For each node that is reached from the first one: the nearest other node that all paths
        from there to it pass. The first one has itself. By Cooper, Harvey and Kennedy, A Simple, Fast
        Dominance Algorithm."""
        order = _postorder(self._onward, first)
        rank = {node: at for at, node in enumerate(order)}
        above = {first: first}

        def meeting(one: N, other: N) -> N:
            while one != other:
                one, other = (above[one], other) if rank[one] < rank[other] else (one, above[other])
            return one

        is_changed = True
        while is_changed:
            is_changed = False
            for node in order[-2::-1]:
                known = [it for it in self._before[node] if it in above]
                nearest = known[0]
                for it in known[1:]:
                    nearest = meeting(nearest, it)
                if above.get(node, node) != nearest:
                    above[node], is_changed = nearest, True
        return above

    def parts(self) -> list[set[N]]:
        """The strongly connected parts, each behind those that it leads to. By Kosaraju."""
        seen: set[N] = set()
        order = [node for first in self for node in _postorder(self._onward, first, seen)]
        found: list[set[N]] = []
        closed: set[N] = set()
        for node in reversed(order):
            if node not in closed:
                found.append(set(_spread(self._before, node, closed)))
                closed |= found[-1]
        return found[::-1]


class Dominators(Generic[N]):
    """The nodes that each path from the first node to another one passes."""

    def __init__(self, graph: Graph[N], first: N) -> None:
        below: dict[N, list[N]] = defaultdict(list)
        for node, above in graph.immediate_dominators(first).items():
            if node != first:
                below[above].append(node)
        order = _postorder(below, first)
        self._last = {node: at for at, node in enumerate(order)}
        self._first: dict[N, int] = {}
        for node in order:
            self._first[node] = min(
                (self._first[it] for it in below.get(node, ())), default=self._last[node]
            )

    def has(self, above: N, below: N) -> bool:
        """Whether each path to `below` passes `above`, which it does to itself."""
        return self._first[above] <= self._last[below] <= self._last[above]


def _spread(edges: Edges[N], first: N, closed: Collection[N]) -> list[N]:
    """What paths from a node reach that pass none of the closed ones, the nearest first."""
    found = {first: None}
    ahead = [first]
    for node in ahead:
        for to in edges[node]:
            if to not in found and to not in closed:
                found[to] = None
                ahead.append(to)
    return ahead


def _postorder(edges: Edges[N], first: N, seen: set[N] | None = None) -> list[N]:
    """What paths from a node reach that isn't seen yet, each node behind those that a depth-first
    search finds from it. They are seen then."""
    seen = set() if seen is None else seen
    if first in seen:
        return []
    found: list[N] = []
    seen.add(first)
    ahead = [(first, iter(edges[first]))]
    while ahead:
        node, onward = ahead[-1]
        to = next((it for it in onward if it not in seen), None)
        if to is None:
            found.append(node)
            ahead.pop()
        else:
            seen.add(to)
            ahead.append((to, iter(edges[to])))
    return found
