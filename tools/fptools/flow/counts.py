"""How often a loop goes back at most that counts, read off the machine code: no mark and no source
is believed.

A test is a branch that leaves the loop on one side. It compares a counter with a limit. All ways of
a round to the test add the same number to the counter, and so do all whole rounds; the limit is the
same at each test, or moves in this way too. Where both are known on entry, the test is computed
with 32 bits until it leaves. Where only their distance is known, they have to meet. Each round
passes one of some tests that leave the loop in the same round."""

from dataclasses import dataclass
from math import gcd
from typing import Collection, Iterator, Mapping

from fptools.code.digraph import search
from fptools.flow.records import MOST_ROUNDS
from fptools.code.section import Loop, Section, walk
from fptools.code.values import State, Value, Values, adds, jumps_of, signed, unknown, written_by
from fptools.isa.words import Flow, Word

__all__ = [
    "Count",
    "Side",
    "called_with",
    "count_of",
    "count_of_straight",
    "jumps_of",
    "until_it_leaves",
]

BEQ, BNE, BLT, BGE, BLTU, BGEU = 0, 1, 4, 5, 6, 7
MOST_BEFORE = 64
FIRST_ARGUMENT, LAST_ARGUMENT = 10, 17
"""The registers a0 to a7."""


@dataclass(frozen=True)
class Count:
    """How often a loop goes back at most, and whether it does go back as often, unless it traps:
    then no edge but those of its tests leaves it."""

    backs: int
    is_exact: bool


@dataclass(frozen=True)
class Side:
    """One side of a comparison: its first value, and what each round adds to it."""

    first: Value
    step: int


@dataclass(frozen=True)
class Sums:
    """What a round has added to a register before each word of a loop, and as a whole."""

    before: Mapping[int, int]
    step: int


def takes(funct3: int, one: int, other: int) -> bool:
    """Whether a branch is taken, by the numbers that it compares."""
    a, b = one % 2**32, other % 2**32
    less = a < b if funct3 in (BLTU, BGEU) else signed(a) < signed(b)
    return (a == b) != (funct3 & 1) if funct3 < BLT else less != (funct3 & 1)


def count_of(
    section: Section, loop: Loop, values: Values, entries: Collection[int] = ()
) -> Count | None:
    """The count of a loop, if a test of it counts; None where none does. Code is also entered at
    `entries`."""
    if not loop.is_natural or not loop.body or loop.head in entries:
        return None
    if loop.head == section.start and values.is_entered_within(loop.head, loop.body):
        return None  # a visit of the section may begin after some rounds
    state = values.entering(loop.head, loop.body)
    inside = [it for it in section.loops if it.head in loop.body and it.head != loop.head]
    if state is None or not all(it.is_natural for it in inside):
        return None
    tests = _Tests(section, loop, values, state)
    found = {test.pc: backs for test in tests.all() if (backs := tests.backs(test)) is not None}
    for most in sorted(set(found.values())):
        if tests.are_passed({pc for pc, backs in found.items() if backs == most}):
            return Count(most, all(found.get(pc, -1) >= most for pc in loop.exits))
    return None


class _Tests:
    """The tests of a loop, and what its rounds add to registers."""

    def __init__(self, section: Section, loop: Loop, values: Values, state: State) -> None:
        self.section, self.loop, self.values, self.state = section, loop, values, state
        self._sums: dict[int, Sums | None] = {}
        self.words = [section.reached[pc] for pc in sorted(loop.body)]
        calls = [it.target for it in self.words if it.flow is Flow.CALL and it.target is not None]
        self.gone: frozenset[int] = frozenset().union(*map(values.clobbered, calls)) - {0}

    def all(self) -> Iterator[Word]:
        """The branches that leave the loop on one side."""
        for word in self.words:
            if word.flow is Flow.BRANCH and word.pc in self.values.before:
                sides = {word.target in self.loop.body, word.next in self.loop.body}
                if len(sides) == 2 and word.target != word.next:
                    yield word

    def are_passed(self, some: Collection[int]) -> bool:
        """Whether each round passes one of some words."""

        def onward(pc: int) -> list[int]:
            return [to for to in self.section.graph[pc] if to in self.loop.body]

        head = self.loop.head
        return all(head not in onward(pc) for pc in search([head], onward, some))

    def backs(self, test: Word) -> int | None:
        """How often a test stays in the loop before it leaves."""
        one, other = self._side(test, test.rs1), self._side(test, test.rs2)
        if (
            one is None
            or other is None
            or one.first.origin != other.first.origin
            or one.step == other.step
        ):
            return None
        stays = test.target in self.loop.body
        if one.first.origin is not None:
            return _until_they_meet(test.funct3, stays, one, other)
        found = until_it_leaves(test.funct3, stays, one, other)
        return found if found is not None and found <= MOST_ROUNDS else None

    def _side(self, test: Word, register: int) -> Side | None:
        here = self.values.before[test.pc][register]
        if here.origin is None or here.origin[0] & ~3 not in self.loop.body:
            return Side(here, 0)  # the same at each test, as no round passes its origin again
        sums = self._sums_of(register)
        if sums is None:
            return None
        first = self.state[register]
        return Side(Value(first.origin, signed(first.offset + sums.before[test.pc])), sums.step)

    def _sums_of(self, register: int) -> Sums | None:
        if register not in self._sums:
            self._sums[register] = self._summed(register)
        return self._sums[register]

    def _summed(self, register: int) -> Sums | None:
        """What a round adds to a register; None where its ways differ, or do more than add."""
        if register in self.gone:
            return None
        before = {self.loop.head: 0}
        steps: set[int] = set()
        ahead = [self.loop.head]
        while ahead:
            word = self.section.reached[ahead.pop()]
            behind = before[word.pc]
            if written_by(word) == register:
                if not adds(word) or word.rs1 != register:
                    return None
                behind += word.immediate
            for to in self.section.graph[word.pc]:
                if to == self.loop.head:
                    steps.add(behind)
                elif to in self.loop.body and to not in before:
                    before[to] = behind
                    ahead.append(to)
                elif to in self.loop.body and before[to] != behind:
                    return None
        return Sums(before, steps.pop()) if len(steps) == 1 else None


def _until_they_meet(funct3: int, stays_if_taken: bool, one: Side, other: Side) -> int | None:
    """How often a test stays where only the distance of both sides is known: no comparison stays
    where they are equal."""
    stays_if_equal = (funct3 in (BEQ, BGE, BGEU)) == stays_if_taken
    backs, rest = divmod(other.first.offset - one.first.offset, one.step - other.step)
    return None if stays_if_equal or rest or not 0 <= backs <= MOST_ROUNDS else backs


def until_it_leaves(funct3: int, stays_if_taken: bool, one: Side, other: Side) -> int | None:
    """How often a test stays before it leaves, by the numbers of both sides; None where that is
    more than MOST_ROUNDS."""
    at, surely_stays = 0, _until_they_meet_again if funct3 < BLT else _until_one_passes
    while at <= MOST_ROUNDS:
        a, b = one.first.offset + at * one.step, other.first.offset + at * other.step
        if takes(funct3, a, b) != stays_if_taken:
            return at
        at += max(1, surely_stays(funct3, (a, one.step), (b, other.step)))
    return None


Moving = tuple[int, int]
"""A number, and what each round adds to it."""


def _until_they_meet_again(_: int, one: Moving, other: Moving) -> int:
    """After how many rounds two numbers of 32 bits are equal next."""
    way, step = (other[0] - one[0]) % 2**32, one[1] - other[1]
    common = gcd(step, 2**32)
    if way % common:
        return MOST_ROUNDS + 1
    size = 2**32 // common
    return way // common * pow(step // common, -1, size) % size


def _until_one_passes(funct3: int, one: Moving, other: Moving) -> int:
    """For how many rounds two numbers stay in their order at least: until they meet, or one
    wraps."""
    low = 0 if funct3 in (BLTU, BGEU) else -(2**31)
    a, b = (one[0] - low) % 2**32, (other[0] - low) % 2**32
    until_they_wrap = min(_until_it_wraps(a, one[1]), _until_it_wraps(b, other[1]))
    way, step = b - a, one[1] - other[1]
    return until_they_wrap if way * step < 0 else min(until_they_wrap, way // step)


def _until_it_wraps(number: int, step: int) -> int:
    """In which round a number from 0 on leaves 32 bits."""
    if step == 0:
        return MOST_ROUNDS + 1
    return (2**32 - 1 - number) // step + 1 if step > 0 else number // -step + 1


def count_of_straight(
    words: Mapping[int, int], jumps: Mapping[int, set[int]], head: int, last: int
) -> Count | None:
    """The count of a loop of which nothing is known but its words, from numbers that the straight
    code before it sets."""
    start = head
    while head - start < 4 * MOST_BEFORE and (start == head or start not in jumps):
        if Word(start - 4, words.get(start - 4, 0)).flow is not Flow.NEXT:
            break
        start -= 4
    section = walk(words, start, last + 4)
    loop = next((it for it in section.loops if it.head == head and it.backs == (last,)), None)
    own = set(range(head, last + 4, 4))
    is_entered = any(not jumps.get(pc, own) <= own for pc in own - {head})
    if loop is None or jumps.get(head) != {last} or not own <= loop.body or is_entered:
        return None
    return count_of(section, loop, Values(words, start, jumps))


def called_with(values: Values, call: Word) -> State | None:
    """The values at the first word of a called function, by the numbers that a call passes; None
    where it passes none."""
    if call.target is None or call.pc not in values.before:
        return None
    passed = values.before[call.pc]
    arguments = range(FIRST_ARGUMENT, LAST_ARGUMENT + 1)
    numbers = {register for register in arguments if passed[register].origin is None}
    if not numbers:
        return None
    first = unknown(call.target)
    return tuple(passed[at] if at in numbers else value for at, value in enumerate(first))
