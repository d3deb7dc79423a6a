"""What a called function changes: registers that it doesn't give back, and the words that it stores
to.

A register is given back if it has at each return the value that it had at first, also by way of
the function's stack frame. That stores by other pointers leave the frame as it is isn't looked
at, as for return addresses."""

from dataclasses import dataclass, field, replace
from typing import Callable, Mapping

from fptools.files.elf import Program
from fptools.code.ranges import ANYTHING as ANY_NUMBER
from fptools.code.ranges import Range, range_of
from fptools.code.section import Exit, Loop, Section, walk
from fptools.isa.turns import FUNCT3_GET_TIME
from fptools.code.values import State, Value, adds, after, joined, unknown, written_by

from fptools.isa.words import (
    OPCODE_LOAD, OPCODE_STORE, OPCODE_TIMING, OPCODES_WITHOUT_RESULT, RETURN, Flow, Word,
)  # fmt: skip

STACK_POINTER = 2
WORD_SIZE = 2  # funct3 of loads and stores of a word
ALL_REGISTERS = frozenset(range(1, 32))
MOST_STORED = 16_384  # bytes in which a store may be, to be followed
MOST_DEPTH = 8  # of calculations that lead to an address


@dataclass(frozen=True)
class Effects:
    """What calls of a function change."""

    registers: frozenset[int]  # those that may have other values than before the call
    words: frozenset[int]  # the addresses of words that it stores to
    lowest: int  # how far below sp it stores to stack frames: 0 or less
    stores_anywhere: bool  # whether it also stores to addresses that aren't known
    reads_time: bool  # whether it has a GT


@dataclass(frozen=True)
class Frame:
    """What is known before a word: of registers, and of the frame's words by their distance from
    the first sp."""

    registers: State
    words: Mapping[int, Value] = field(default_factory=dict)


ANYTHING = Effects(ALL_REGISTERS, frozenset(), 0, True, True)


@dataclass
class Called:
    """The effects of an image's functions."""

    image: Mapping[int, int]
    program: Program
    # The most rounds of the loops of a function, by their heads, where they are known.
    rounds: Callable[[Section], Mapping[int, int]] = lambda _: {}
    _found: dict[int, Effects] = field(default_factory=dict)

    def effects(self, start: int) -> Effects:
        """The effects of a call; anything, where the address is no function or it calls itself."""
        if start not in self._found:
            self._found[start] = ANYTHING  # also while it is looked at, for one that calls itself
            function = self.program.function_at(start)
            if function is not None and function.start == start:
                heads = {it.start for it in self.program.functions} - {start}
                part = walk(self.image, start, function.end, heads, is_function=True)
                self._found[start] = self._of(part)
        return self._found[start]

    def _of(self, part: Section) -> Effects:
        if any(it.exit not in (Exit.RETURN, Exit.TRAP) for it in part.ways_out):
            return ANYTHING
        first = unknown(part.start)
        before = self._before(part, first)
        callees = [self.effects(at) for at in part.callees]
        written = {
            it.rd for it in part.reached.values() if it.opcode not in OPCODES_WITHOUT_RESULT
        } - {0}
        for it in callees:
            written |= it.registers
        returns = [before[pc] for pc, word in part.reached.items() if word.bits == RETURN]
        given = {at for at in written if all(it.registers[at] == first[at] for it in returns)}
        return replace(
            self._stores(part, before, first),
            registers=frozenset(written - given if returns else ALL_REGISTERS),
            reads_time=any(it.reads_time for it in callees)
            or any(map(reads_time, part.reached.values())),
        )

    def _stores(self, part: Section, before: Mapping[int, Frame], first: State) -> Effects:
        """Where a function stores to, and those that it calls."""
        words: set[int] = set()
        lowest, is_anywhere = 0, False
        stack = first[STACK_POINTER].origin
        pointers = self._pointers(part, before)
        for pc, word in part.reached.items():
            if word.opcode == OPCODE_STORE:
                at = self._address(word, before[pc])
                if at.origin == stack and at.offset < 0:
                    lowest = min(lowest, at.offset & ~3)
                elif at.origin is None or at.origin in pointers:
                    starts = pointers[at.origin] if at.origin is not None else range(1)
                    words |= {(it + at.offset) % 2**32 & ~3 for it in starts}
                else:
                    within = _range_of(part, before, at)
                    if within.last - within.first < MOST_STORED:
                        words |= {*range(within.first & ~3, within.last + 1, 4)}
                    else:
                        is_anywhere = True
            if word.flow is Flow.CALL and word.target is not None:
                called, at = self.effects(word.target), before[pc].registers[STACK_POINTER]
                words |= called.words
                lowest = min(lowest, at.offset + called.lowest)
                is_anywhere |= called.stores_anywhere or at.origin != stack
        return Effects(frozenset(), frozenset(words), lowest, is_anywhere, False)

    def _pointers(self, part: Section, before: Mapping[int, Frame]) -> dict[tuple[int, int], range]:
        """The values of registers at the heads of loops of so many rounds, where each round adds one
        number to a register that is a number at first."""
        found: dict[tuple[int, int], range] = {}
        rounds = self.rounds(part)
        for loop in (it for it in part.loops if it.head in rounds and it.is_natural):
            body = [part.reached[pc] for pc in loop.body]
            inner = {
                pc for it in part.loops if it.head in loop.body - {loop.head} for pc in it.body
            }
            called = {at for it in body for at in self._changed_by(it)}
            for step in (it for it in body if adds(it) and it.rs1 == it.rd and it.pc not in inner):
                is_single = sum(written_by(it) == step.rd for it in body) == 1
                if step.rd in called or not is_single or not step.immediate:
                    continue
                starts = self._entering(part, before, loop, step.rd)
                if len(starts) == 1 and (first := starts.pop()) is not None:
                    last = first + rounds[loop.head] * step.immediate
                    found[loop.head, step.rd] = range(first, last, step.immediate)
        return found

    def _changed_by(self, word: Word) -> frozenset[int]:
        """The registers that a call changes; none, for another word."""
        is_call = word.flow is Flow.CALL and word.target is not None
        return self.effects(word.target or 0).registers | {word.rd} if is_call else frozenset()

    def _entering(
        self, part: Section, before: Mapping[int, Frame], loop: Loop, register: int
    ) -> set[int | None]:
        """The numbers of a register where a loop is entered; None for what is no number."""
        values = []
        for pc in set(part.graph.predecessors(loop.head)) - loop.body:
            frame = self._after(part.reached[pc], before[pc], unknown(part.start))
            values.append(frame.registers[register])
        return {it.offset if it.origin is None else None for it in values}

    def _before(self, part: Section, first: State) -> dict[int, Frame]:
        """What is known before each word of a function."""
        before = {part.start: Frame(first)}
        ahead = [part.start]
        while ahead:
            pc = ahead.pop()
            frame = self._after(part.reached[pc], before[pc], first)
            for to in part.graph[pc]:
                is_joined = to == part.start or len(part.graph.predecessors(to)) > 1
                is_new = to not in before or not is_joined
                new = frame if is_new else _joined(to, before[to], frame)
                if before.get(to) != new:
                    before[to] = new
                    ahead.append(to)
        return before

    def _after(self, word: Word, frame: Frame, first: State) -> Frame:
        registers = frame.registers
        if word.flow is Flow.CALL and word.target is not None:
            gone = (self.effects(word.target).registers | {word.rd}) - {0}
            changed = (
                Value((word.pc + 1, at), 0) if at in gone else it for at, it in enumerate(registers)
            )
            return replace(frame, registers=tuple(changed))
        at = self._address(word, frame)
        is_in_frame = at.origin == first[STACK_POINTER].origin
        if word.opcode == OPCODE_STORE and is_in_frame:
            words = {
                slot: it for slot, it in frame.words.items() if not slot - 4 < at.offset < slot + 4
            }
            if word.funct3 == WORD_SIZE:
                words[at.offset] = registers[word.rs2]
            return replace(frame, words=words)
        kept = frame.words.get(at.offset) if is_in_frame else None
        if word.opcode == OPCODE_LOAD and word.funct3 == WORD_SIZE and kept is not None and word.rd:
            return replace(
                frame, registers=(*registers[: word.rd], kept, *registers[word.rd + 1 :])
            )
        return replace(frame, registers=after(word, registers))

    @staticmethod
    def _address(word: Word, frame: Frame) -> Value:
        """The address of a load or store."""
        base = frame.registers[word.rs1]
        distance = word.store_offset if word.opcode == OPCODE_STORE else word.immediate
        return Value(base.origin, base.offset + distance)


def _range_of(
    part: Section, before: Mapping[int, Frame], value: Value, depth: int = MOST_DEPTH
) -> Range:
    """The numbers that a value may be: of the result of a word, by those that it calculates with."""
    if value.origin is None:
        return Range(value.offset % 2**32, value.offset % 2**32)
    word = part.reached.get(value.origin[0] - 1)
    if word is None or word.flow is not Flow.NEXT or not depth:
        return ANY_NUMBER
    registers = before[word.pc].registers
    one, other = (_range_of(part, before, registers[at], depth - 1) for at in (word.rs1, word.rs2))
    return range_of(word, one, other).plus(value.offset)


def reads_time(word: Word) -> bool:
    """Whether a word is a GT or GTH."""
    return word.is_code and word.opcode == OPCODE_TIMING and word.funct3 in FUNCT3_GET_TIME


def _joined(pc: int, one: Frame, other: Frame) -> Frame:
    words = {at: it for at, it in one.words.items() if other.words.get(at) == it}
    return Frame(joined(pc, one.registers, other.registers), words)
