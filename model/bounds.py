"""The bound of a section by the largest costs between positions of the frame, loop by loop and routine by routine."""

from collections.abc import Mapping, Sequence

from model.graphs import JUMP_LAG, Graph, Part
from model.registers import own_positions
from model.setups import Loop
from model.walks import step_cost

NONE = -1
"""No path leads from one position to another."""

Costs = tuple[tuple[int, ...], ...]
"""The largest costs from each of a thread's positions to each, in this order."""


def join(x: Costs, y: Costs) -> Costs:
    """The costs of either of two sets of paths."""
    return tuple(tuple(map(max, row, other)) for row, other in zip(x, y))


def chain(x: Costs, y: Costs) -> Costs:
    """The costs of two sets of paths, one after the other."""
    columns = range(len(x))

    def largest(row: Sequence[int], j: int) -> int:
        return max(
            (row[k] + y[k][j] for k in columns if row[k] != NONE and y[k][j] != NONE), default=NONE
        )

    return tuple(tuple(largest(row, j) for j in columns) for row in x)


def at_most(round_trip: Costs, times: int, one: Costs) -> Costs:
    """The costs of a set of paths, taken at most `times` times."""
    base, done = join(one, round_trip), one
    while times:
        if times % 2:
            done = chain(done, base)
        times //= 2
        base = chain(base, base)
    return done


def largest_of_rows(x: Costs) -> list[int]:
    return [max(row) for row in x]


def raised(ends: list[int], other: Sequence[int]) -> list[int]:
    return [max(pair) for pair in zip(ends, other)]


class Bounds:
    """The costs of a graph's functions, for a thread under a slots register. Callees come first. `through` has for each
    routine the costs from its head to the word after its call. `ends` has for each function and position at its first
    word the largest cost of a path that ends in it or below it."""

    def __init__(self, graph: Graph, slots: int, thread: int) -> None:
        self.graph = graph
        self.own = own_positions(slots, thread)
        count = range(len(self.own))
        self.one: Costs = tuple(tuple(0 if i == j else NONE for j in count) for i in count)
        self.none: Costs = tuple((NONE,) * len(self.own) for _ in count)
        self.steps = {lag: self._step(slots, thread, lag) for lag in range(1, JUMP_LAG + 1)}
        self.through: dict[Part, Costs] = {}
        self.ends: dict[Part, list[int]] = {}
        self._finish(graph.section)

    def _step(self, slots: int, thread: int, lag: int) -> Costs:
        rows = [step_cost(slots, thread, position, lag) for position in self.own]
        return tuple(
            tuple(cost if position == to else NONE for position in self.own) for cost, to in rows
        )

    def largest_cost(self) -> int:
        return max(self.ends[self.graph.section])

    def _finish(self, part: Part) -> None:
        for callee in self.graph.callees(part):
            if callee not in self.ends:
                self._finish(callee)
        self._do(part)

    def _arcs(self, part: Part, address: int) -> list[tuple[int, Costs]]:
        """The edges of a word in its function; a call has one to the word after it."""
        if called := self.graph.called(address):
            costs = chain(self.steps[JUMP_LAG], self.through[called])
            return [(address + 4, costs)] if costs != self.none else []
        if self.graph.returns(part, address):
            return []
        return [(edge.to, self.steps[edge.lag]) for edge in self.graph.plain(address)]

    def _sweep(
        self, part: Part, first: int, last: int, inner: Mapping[int, Costs]
    ) -> dict[int, Costs]:
        """The costs from one word to each reached word up to another, with the loops inside by their heads."""
        pending, met = {first: self.one}, dict[int, Costs]()
        for address in range(first, last + 4, 4):
            if address not in pending:
                continue
            met[address] = costs = (
                chain(pending[address], inner[address]) if address in inner else pending[address]
            )
            for to, arc in self._arcs(part, address):
                if address < to <= last:
                    pending[to] = join(pending.get(to, self.none), chain(costs, arc))
        return met

    def _round_trips(self, part: Part, loop: Loop, inner: Mapping[int, Costs]) -> Costs:
        """The costs from a loop's head back to it."""
        trips = self.none
        for address, costs in self._sweep(part, loop.head, loop.last, inner).items():
            for to, arc in self._arcs(part, address):
                if to == loop.head:
                    trips = join(trips, chain(costs, arc))
        return trips

    def _loops(self, part: Part) -> dict[int, Costs]:
        """The costs of the rounds of each reached loop, by its head."""
        done: dict[int, Costs] = {}
        for loop in sorted(part.loops(self.graph.loops), key=lambda each: (-each.head, -each.last)):
            if loop.head in self.graph.reached[part]:
                inner = {
                    head: costs for head, costs in done.items() if loop.head < head <= loop.last
                }
                done[loop.head] = at_most(
                    self._round_trips(part, loop, inner), loop.bound, self.one
                )
        return done

    def _do(self, part: Part) -> None:
        through, ends = self.none, [0] * len(self.own)
        for address, costs in self._sweep(
            part, part.first, part.end - 4, self._loops(part)
        ).items():
            ends = raised(ends, largest_of_rows(costs))
            ends = raised(ends, self._ends_behind(part, address, costs))
            if self.graph.returns(part, address):
                through = join(through, chain(costs, self.steps[JUMP_LAG]))
        self.through[part], self.ends[part] = through, raised(ends, largest_of_rows(through))

    def _ends_behind(self, part: Part, address: int, costs: Costs) -> list[int]:
        """The largest costs of paths that end in a function that a word calls, or leave the function."""
        ends = [NONE] * len(self.own)
        if called := self.graph.called(address):
            inside = chain(costs, self.steps[JUMP_LAG])
            deep = self.ends[called]
            ends = [
                max((c + deep[k] for k, c in enumerate(row) if c != NONE), default=NONE)
                for row in inside
            ]
        for to, arc in self._arcs(part, address):
            if not part.has(to):
                ends = raised(ends, largest_of_rows(chain(costs, arc)))
        return ends
