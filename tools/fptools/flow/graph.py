"""The flow of control in one visit of a loop, with the marks on its edges, for a linear program.

A visit begins where the loop's head is entered from outside, and ends where the loop is left. It
may end at each word with an edge out of the loop, at a load, a store or a CSR instruction, which
may trap, and at a call or a wait, which may not come back. A mark is passed on arrival at its word,
also if that word traps then."""

from collections import defaultdict
from dataclasses import dataclass, field
from typing import Iterable, Iterator, Mapping, Sequence

from fptools.flow.records import Claim, Kind, Marks, Pass
from fptools.code.section import Loop, Section
from fptools.isa.words import Flow, Word

ENTRY, END = -1, -2
"""The places before a visit's first word, and behind its last one."""


@dataclass(frozen=True)
class Edge:
    """An edge between two words of a loop, or from the entry to the head, and the marks that it
    passes, in order."""

    start: int
    end: int
    passes: tuple[Pass, ...] = ()


@dataclass
class LoopFlow:
    """The edges of one visit of a loop."""

    head: int
    edges: list[Edge] = field(default_factory=list)
    ends: frozenset[int] = frozenset()
    callees: frozenset[int] = frozenset()  # the functions that are called in the loop
    is_called_unseen: bool = False  # whether a call in it leads to code that isn't known

    def is_back(self, edge: Edge) -> bool:
        return edge.end == self.head and edge.start != ENTRY

    def onward(self) -> Mapping[int, list[Edge]]:
        found: dict[int, list[Edge]] = defaultdict(list)
        for edge in self.edges:
            found[edge.start].append(edge)
        return found

    def claims(self) -> list[Claim]:
        """The claims whose FP_ROUND is surely passed on some edge."""
        passes = (it for edge in self.edges for it in edge.passes)
        return sorted({it.mark.claim for it in passes if it.is_sure and it.mark.kind is Kind.ROUND})

    def entered(self) -> set[Claim]:
        """The claims whose FP_LOOP some edge may pass."""
        passes = (it for edge in self.edges for it in edge.passes)
        return {it.mark.claim for it in passes if it.mark.kind is Kind.LOOP}

    def is_entered_first(self, claim: Claim) -> bool:
        """Whether each path from the entry to a FP_ROUND of a claim surely passes its FP_LOOP
        first."""
        onward = self.onward()
        seen, ahead = {ENTRY}, [ENTRY]
        while ahead:
            for edge in onward.get(ahead.pop(), ()):
                first = next(
                    (it for it in edge.passes if it.mark.claim == claim and _counts(it)), None
                )
                if first is not None and first.mark.kind is Kind.ROUND:
                    return False
                if first is None and edge.end not in seen:
                    seen.add(edge.end)
                    ahead.append(edge.end)
        return True

    def round_without(self, claims: Iterable[Claim]) -> list[Edge]:
        """The edges of a shortest round, from the head back to it, that surely passes no FP_ROUND
        of some claims; empty where each round passes one."""
        known = set(claims)
        onward = self.onward()
        before: dict[int, Edge] = {}
        ahead = [self.head]
        for place in ahead:
            for edge in onward.get(place, ()):
                if any(
                    it.is_sure and it.mark.kind is Kind.ROUND and it.mark.claim in known
                    for it in edge.passes
                ):
                    continue
                if edge.end == self.head:
                    return [*_path(before, place, self.head), edge]
                if edge.end not in before:
                    before[edge.end] = edge
                    ahead.append(edge.end)
        return []

    @property
    def is_left(self) -> bool:
        """Whether a visit may end: else the loop is endless."""
        return bool(self.ends)


def _counts(it: Pass) -> bool:
    """Whether a pass decides which mark comes first: a FP_LOOP that may be passed doesn't."""
    return it.is_sure or it.mark.kind is Kind.ROUND


def _path(before: Mapping[int, Edge], place: int, head: int) -> Iterator[Edge]:
    found = []
    while place != head:
        found.append(before[place])
        place = before[place].start
    yield from reversed(found)


def flow_of(section: Section, loop: Loop, marks: Marks) -> LoopFlow:
    """The flow of a natural loop."""
    found = LoopFlow(loop.head)
    found.edges.append(Edge(ENTRY, loop.head, tuple(marks.on_arrival(loop.head))))
    for pc in sorted(loop.body):
        for to in sorted(section.graph[pc]):
            if to in loop.body:
                found.edges.append(Edge(pc, to, tuple(_passes(section, marks, pc, to))))
    words = [section.reached[pc] for pc in loop.body]
    found.ends = frozenset(word.pc for word in words if word.pc in loop.exits or _may_end(word))
    calls = [word for word in words if word.flow in (Flow.CALL, Flow.INDIRECT)]
    found.callees = frozenset(
        word.target for word in calls if word.flow is Flow.CALL and word.target is not None
    )
    found.is_called_unseen = any(word.flow is Flow.INDIRECT for word in calls)
    return found


def _may_end(word: Word) -> bool:
    return word.may_trap or word.flow not in (Flow.NEXT, Flow.BRANCH, Flow.JUMP)


def _passes(section: Section, marks: Marks, pc: int, to: int) -> Sequence[Pass]:
    """The marks of an edge. Where no path leads to the word before a place, a mark of the edge from
    there alone isn't where its record says: an asm may hide a jump to it."""
    found = marks.passes(pc, to)
    if section.holds(to - 4) and to - 4 not in section.reached:
        found = [it for it in found if not it.mark.only_fall]
        found = [*(Pass(it, False) for it in marks.at(to) if it.only_fall), *found]
    return found
