"""A path through a section that costs the most, found without the program: a witness of its bound.

An edge costs its lag, rounded up to the thread's next slot. A loop goes back as often as its table
says, at most, each time that it is entered. The search goes through the words by address, and keeps
the best path for each pair of positions of the frame, at the start and now. The rounds of a loop
are one such table, raised to a power; so is a call."""
from __future__ import annotations

from collections import Counter
from dataclasses import dataclass
from functools import cached_property
from typing import Iterator, Mapping, Sequence

from fptools.code.section import Section
from fptools.files.setup import LoopTable, Setup
from fptools.isa.turns import DISABLED, PLAIN_LAG, REDIRECT_LAG, Turns, lag
from fptools.isa.words import RETURN, Flow, Word

WORD_BYTES = 4
ELSEWHERE = -1
"""Where a return leads: that depends on the call."""


@dataclass(frozen=True)
class Step:
    """An issue at a word, the word of the next issue, and the cycles between the two. Where a call
    has come back, a step of no cycles leads from it to the word behind it; the issue is the
    return's, which leads elsewhere."""

    pc: int
    to: int
    cycles: int

    @property
    def is_issue(self) -> bool:
        return self.cycles > 0


@dataclass(eq=False)
class Way:
    """A path as a tree that shares its parts: a step, or two ways, the first one before the second.
    Its cost is in cycles."""

    cycles: int
    step: Step | None = None
    parts: tuple[Way, ...] = ()

    def then(self, other: Way) -> Way:
        return Way(self.cycles + other.cycles, None, (self, other))

    def steps(self) -> Counter[Step]:
        """How often each step is taken."""
        counts: Counter[Step] = Counter()
        times = {id(self): 1}
        for way in reversed(self._parts_first()):
            number = times[id(way)]
            if way.step is not None:
                counts[way.step] += number
            for part in way.parts:
                times[id(part)] = times.get(id(part), 0) + number
        return counts

    def _parts_first(self) -> list[Way]:
        """The ways that this one is made of, each behind all of its parts."""
        order: list[Way] = []
        seen, ahead = {id(self)}, [(self, False)]
        while ahead:
            way, is_done = ahead.pop()
            if is_done:
                order.append(way)
                continue
            ahead.append((way, True))
            for part in way.parts:
                if id(part) not in seen:
                    seen.add(id(part))
                    ahead.append((part, False))
        return order


# The best way for positions of the frame at its start and end.
Table = dict[tuple[int, int], Way]


def joined(one: Table, other: Table) -> Table:
    """The better ways of two tables."""
    found = dict(one)
    for pair, way in other.items():
        if pair not in found or found[pair].cycles < way.cycles:
            found[pair] = way
    return found


def chained(one: Table, other: Table) -> Table:
    """The best ways of a table, each followed by one of the other."""
    found: dict[tuple[int, int], tuple[Way, Way]] = {}
    by_start: dict[int, list[tuple[int, Way]]] = {}
    for (start, end), way in other.items():
        by_start.setdefault(start, []).append((end, way))
    for (start, middle), first in one.items():
        for end, second in by_start.get(middle, ()):
            best = found.get((start, end))
            if best is None or best[0].cycles + best[1].cycles < first.cycles + second.cycles:
                found[start, end] = first, second
    return {pair: first.then(second) for pair, (first, second) in found.items()}


@dataclass
class Code:
    """The words of the section, or of a function that it calls, with the loops in them by their
    heads."""

    section: Section
    loops: Mapping[int, LoopTable]

    @property
    def last(self) -> int:
        return self.section.end - WORD_BYTES


class Search:
    """The longest path through a section and the functions that it calls, by the slots of a
    thread."""

    def __init__(
        self, setup: Setup, thread: int, words: Mapping[int, int], parts: Sequence[Section]
    ) -> None:
        frame = [slot for slot in setup.slots if slot != DISABLED]
        own = frozenset(at for at, slot in enumerate(frame) if slot == f"T{thread}")
        self.turns, self.words = Turns(own, len(frame)), words
        self.codes = {part.start: Code(part, _loops_of(setup, part)) for part in parts}
        self.first = parts[0].start
        self.routines = {part.start for part in parts[1:]}
        self._through: dict[int, Table] = {}
        self._ends: dict[int, Table] = {}

    @cached_property
    def longest(self) -> Way:
        """A path that costs the most. It may end anywhere, and a step out of the section ends
        it."""
        return max(self._ends_in(self.first).values(), key=lambda way: way.cycles)

    @property
    def loops(self) -> list[LoopTable]:
        return [loop for code in self.codes.values() for loop in code.loops.values()]

    # Steps.

    @cached_property
    def _still(self) -> Table:
        """No step."""
        return {(at, at): Way(0) for at in self.turns.own}

    def _hop(self, pc: int, to: int, lag: int) -> Table:
        """The steps along an edge, from each of the thread's positions."""
        found: Table = {}
        for start in self.turns.own:
            cycles = self.turns.next(start + lag) - start
            found[start, (start + cycles) % self.turns.length] = Way(cycles, Step(pc, to, cycles))
        return found

    def _callee(self, word: Word) -> int | None:
        """The function that a word calls, if it is one that is followed."""
        return word.target if word.comes_back and word.target in self.routines else None

    def _moves(self, pc: int) -> Iterator[tuple[int, Table]]:
        """Where a word leads, with the ways there. A call leads behind it, if its function
        returns."""
        word = Word(pc, self.words.get(pc, 0))
        callee = self._callee(word)
        if callee is None:
            for to, least in edges_of(word):
                yield to, self._hop(pc, to, least)
        elif through := self._returned(callee):
            back = {(at, at): Way(0, Step(pc, word.next, 0)) for at in self.turns.own}
            yield word.next, chained(chained(self._hop(pc, callee, REDIRECT_LAG), through), back)

    # Ways.

    def _pass(
        self, code: Code, low: int, high: int, around: LoopTable | None = None
    ) -> dict[int, Table]:
        """The ways from a word to each up to another one, with all rounds of the loops on the way
        but the one around them."""
        arrived: dict[int, Table] = {low: self._still}
        for pc in range(low, high + WORD_BYTES, WORD_BYTES):
            if pc not in arrived:
                continue
            loop = code.loops.get(pc)
            if loop is not None and loop is not around:
                arrived[pc] = chained(arrived[pc], self._rounds(code, loop))
            for to, ways in self._moves(pc):
                if pc < to <= high:
                    arrived[to] = joined(arrived.get(to, {}), chained(arrived[pc], ways))
        return arrived

    def _rounds(self, code: Code, loop: LoopTable) -> Table:
        """The ways from a loop's head back to it, by as many whole rounds as its table has, or
        fewer."""
        one: Table = self._still
        for pc, ways in self._pass(code, loop.head, loop.last, loop).items():
            for to, moves in self._moves(pc):
                if to == loop.head:
                    one = joined(one, chained(ways, moves))
        found, left = self._still, loop.bound or 0
        while left:
            if left % 2:
                found = chained(found, one)
            one, left = chained(one, one), left // 2
        return found

    def _returned(self, start: int) -> Table:
        """The ways from a function's first word to behind a call of it."""
        if start not in self._through:
            code = self.codes[start]
            found: Table = {}
            for pc, ways in self._pass(code, start, code.last).items():
                if self.words.get(pc) == RETURN:
                    found = joined(found, chained(ways, self._hop(pc, ELSEWHERE, REDIRECT_LAG)))
            self._through[start] = found
        return self._through[start]

    def _ends_in(self, start: int) -> Table:
        """The ways from a first word to wherever a path may end: at a word, in a called function,
        or behind a step out."""
        if start not in self._ends:
            code = self.codes[start]
            found: Table = {}
            for pc, ways in self._pass(code, start, code.last).items():
                found = joined(found, ways)
                callee = self._callee(Word(pc, self.words.get(pc, 0)))
                if callee is not None:
                    into = chained(self._hop(pc, callee, REDIRECT_LAG), self._ends_in(callee))
                    found = joined(found, chained(ways, into))
                for to, moves in self._moves(pc):
                    if not code.section.holds(to):
                        found = joined(found, chained(ways, moves))
            self._ends[start] = found
        return self._ends[start]


def edges_of(word: Word) -> Iterator[tuple[int, int]]:
    """The words that may be next, each with the least number of cycles until its issue."""
    target = word.target
    if word.flow is Flow.NEXT:
        yield word.next, lag(word, word.next, traps=False)
    if word.flow is Flow.BRANCH:
        yield word.next, PLAIN_LAG
    if (
        word.flow in (Flow.BRANCH, Flow.JUMP, Flow.CALL)
        and target is not None
        and target % WORD_BYTES == 0
    ):
        yield target, REDIRECT_LAG


def _loops_of(setup: Setup, section: Section) -> dict[int, LoopTable]:
    """The tables of a setup that count in a section: those with both ends in it."""
    return {it.head: it for it in setup.loops if section.holds(it.head) and section.holds(it.last)}
