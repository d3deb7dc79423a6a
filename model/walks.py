"""The bound of a section by its definition: the largest cost of a path, of all paths one by one."""

from collections.abc import Iterator
from dataclasses import dataclass

from model.graphs import JUMP_LAG, Graph, Part
from model.registers import frame, own_positions
from model.setups import Loop


class TooManyWalks(Exception):
    """There are more states of paths than are tried."""


def step_cost(slots: int, thread: int, position: int, lag: int) -> tuple[int, int]:
    """The cycles from an issue at a position to the next turn of the thread that is ready, and that turn's position."""
    entries, cost = frame(slots), lag
    while entries[(position + cost) % len(entries)] != thread:
        cost += 1
    return cost, (position + cost) % len(entries)


@dataclass(frozen=True)
class At:
    """The state of a path: an address, a position in the frame, the open calls, and how often each loop's head was
    entered again from inside."""

    address: int
    position: int
    calls: tuple[int, ...]
    rounds: tuple[int, ...]


Step = tuple[int, "At | None"]
"""A cost, and the state of the path after it; None at its end."""


class Walks:
    """The paths of a graph, for a thread under a slots register."""

    def __init__(self, graph: Graph, slots: int, thread: int) -> None:
        self.graph, self.slots, self.thread = graph, slots, thread
        self.loops: list[Loop] = [
            loop for part in graph.reached for loop in part.loops(graph.loops)
        ]

    def starts(self) -> Iterator[At]:
        for position in own_positions(self.slots, self.thread):
            yield At(self.graph.section.first, position, (), (0,) * len(self.loops))

    def part(self, at: At) -> Part:
        called = self.graph.called(at.calls[-1]) if at.calls else None
        return called or self.graph.section

    def steps(self, at: At) -> list[Step]:
        """The steps from a state of a path."""
        part, called = self.part(at), self.graph.called(at.address)
        if called:
            return [self._call(at, called)]
        if self.graph.returns(part, at.address):
            return self._return(at)
        found: list[Step] = []
        for edge in self.graph.plain(at.address):
            found += self._go(at, at.calls, at.address, edge.to, edge.lag, part)
        return found

    def _call(self, at: At, called: Part) -> Step:
        cost, position = step_cost(self.slots, self.thread, at.position, JUMP_LAG)
        rounds = (
            0 if loop.head == called.first else count for loop, count in zip(self.loops, at.rounds)
        )
        return cost, At(called.first, position, at.calls + (at.address,), tuple(rounds))

    def _return(self, at: At) -> list[Step]:
        """Continues after the call, as if from its word."""
        call, calls = at.calls[-1], at.calls[:-1]
        part = self.part(At(call, 0, calls, ()))
        return self._go(at, calls, call, call + 4, JUMP_LAG, part)

    def _go(
        self, at: At, calls: tuple[int, ...], come_from: int, to: int, lag: int, part: Part
    ) -> list[Step]:
        cost, position = step_cost(self.slots, self.thread, at.position, lag)
        if not part.has(to):
            return [(cost, None)]
        rounds = self._rounds(at.rounds, come_from, to)
        return [(cost, At(to, position, calls, rounds))] if rounds is not None else []

    def _rounds(self, rounds: tuple[int, ...], come_from: int, to: int) -> tuple[int, ...] | None:
        """The counts after an edge; None if a loop's bound is passed."""
        counts = list(rounds)
        for k, loop in enumerate(self.loops):
            if to == loop.head:
                counts[k] = counts[k] + 1 if loop.holds(come_from) else 0
                if counts[k] > loop.bound:
                    return None
        return tuple(counts)

    def largest_cost(self, most_states: int) -> int:
        """The largest cost of a path; raises TooManyWalks."""
        best: dict[At, int] = {}
        for start in self.starts():
            self._finish(start, best, most_states)
        return max(best[start] for start in self.starts())

    def _finish(self, start: At, best: dict[At, int], most_states: int) -> None:
        """Sets `best` for each state after one to the largest cost from it."""
        path, behind = [start], dict[At, list[Step]]()
        while path:
            at = path[-1]
            if at not in behind:
                behind[at] = self.steps(at)
            steps = behind[at]
            unknown = [to for _, to in steps if to is not None and to not in best]
            if unknown:
                assert unknown[0] not in behind, "a walk comes back to where it was"
                path.append(unknown[0])
                continue
            best[at] = max((cost + (best[to] if to else 0) for cost, to in steps), default=0)
            if len(best) > most_states:
                raise TooManyWalks
            del behind[path.pop()]
