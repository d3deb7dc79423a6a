"""Whether a called function goes back to its caller: x1 and the stack pointer are at each `ret` what they were at first.

A register's value is followed through copies, and x1 through a slot of the function's own stack frame. That stores by
other pointers leave the frame as it is isn't looked at."""

from dataclasses import dataclass, replace
from typing import Callable, Collection, Iterable, Mapping

from fptools.code.section import Section
from fptools.code.values import State, Value, after, clobbered_by, joined, unknown
from fptools.limits import LARGE
from fptools.isa.words import (
    EBREAK,
    ECALL,
    OPCODE_LOAD,
    OPCODE_STORE,
    RETURN,
    RETURN_ADDRESS,
    Flow,
    Word,
)

STACK_POINTER = 2
LOAD_WORD = STORE_WORD = 2


@dataclass(frozen=True)
class Frame:
    """What is known before a word: of registers, and where in the frame x1 is kept, from the first stack pointer on."""

    registers: State
    kept: frozenset[int] = frozenset()


def wrong_return(
    function: Section, clobbered: Callable[[int], Collection[int]], words: Mapping[int, int]
) -> Word | None:
    """The first `ret` of a function that may go elsewhere. A function that it calls changes the registers that
    `clobbered` gives; it is looked at by itself, so that it goes back and leaves the stack pointer.
    """
    first = unknown(function.start)
    before = {function.start: Frame(first)}
    ahead = [function.start]
    while ahead:
        pc = ahead.pop()
        frame = _after(function.reached[pc], before[pc], first, clobbered)
        for to in function.graph[pc]:
            new = frame if to not in before else _joined(to, before[to], frame)
            if to == function.start:
                new = Frame(first)
                if not _is_as_first(frame, first):
                    return function.reached[pc]
            if before.get(to) != new:
                before[to] = new
                ahead.append(to)
    for pc, frame in sorted(before.items(), key=lambda it: it[0]):
        if words.get(pc) == RETURN and not _is_as_first(frame, first):
            return function.reached[pc]
    return None


def lost_return(
    words: Mapping[int, int], reached: Iterable[Word], entry: int | None = None
) -> Word | None:
    """The first `ret` that may go elsewhere than behind its call: of a function that reached words call by x1, or of the
    code at a thread's entry, which nothing calls."""
    own = {} if entry is None else _from(words, entry).reached
    wrong = next((it for _, it in sorted(own.items()) if it.bits == RETURN), None)
    called = {it.target for it in reached if it.comes_back and it.target is not None}
    known: dict[int, frozenset[int]] = {}

    def clobbered(function: int) -> frozenset[int]:
        if function not in known:
            known[function] = clobbered_by(words, function)
        return known[function]

    parts = (_from(words, start) for start in sorted(called))
    return wrong or next(filter(None, (wrong_return(it, clobbered, words) for it in parts)), None)


def _from(words: Mapping[int, int], start: int) -> Section:
    """All that a word leads to, wherever it is, without going into calls, which come back."""
    found = Section(start, LARGE, is_function=True)
    ahead = [start]
    found.graph.add_node(start)
    while ahead:
        pc = ahead.pop()
        if pc in found.reached:
            continue
        word = found.reached[pc] = Word(pc, words.get(pc, 0))
        onward = [] if word.flow is Flow.JUMP else [word.next]
        if word.flow is Flow.INDIRECT and not word.rd or word.flow is Flow.TRAP:
            onward = [word.next] if word.bits in (ECALL, EBREAK) else []
        if word.flow in (Flow.JUMP, Flow.BRANCH) and word.target is not None:
            onward.append(word.target)
        for to in onward:
            if to < LARGE:
                found.graph.add_edge(pc, to)
                ahead.append(to)
    return found


def _is_as_first(frame: Frame, first: State) -> bool:
    return all(frame.registers[it] == first[it] for it in (RETURN_ADDRESS, STACK_POINTER))


def _joined(pc: int, one: Frame, other: Frame) -> Frame:
    return Frame(joined(pc, one.registers, other.registers), one.kept & other.kept)


def _after(
    word: Word, frame: Frame, first: State, clobbered: Callable[[int], Collection[int]]
) -> Frame:
    registers, stack = frame.registers, first[STACK_POINTER].origin
    if word.flow is Flow.CALL and word.target is not None:
        gone = ({*clobbered(word.target)} | {word.rd}) - {0, STACK_POINTER}
        changed = (
            Value((word.pc + 1, at), 0) if at in gone else it for at, it in enumerate(registers)
        )
        return replace(frame, registers=tuple(changed))
    base = registers[word.rs1]
    is_in_frame = base.origin == stack
    if word.opcode == OPCODE_STORE and is_in_frame:
        at = base.offset + word.store_offset
        kept = {slot for slot in frame.kept if not slot - 4 < at < slot + 4}
        if word.funct3 == STORE_WORD and registers[word.rs2] == first[RETURN_ADDRESS]:
            kept.add(at)
        return replace(frame, kept=frozenset(kept))
    if word.opcode == OPCODE_LOAD and word.funct3 == LOAD_WORD and is_in_frame and word.rd:
        if base.offset + word.immediate in frame.kept:
            value = first[RETURN_ADDRESS]
            return replace(
                frame, registers=(*registers[: word.rd], value, *registers[word.rd + 1 :])
            )
    return replace(frame, registers=after(word, registers))
