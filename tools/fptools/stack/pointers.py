"""From which numbers the pointers come by which a thread stores: a pointer that walks, or that is
the sum of a number and an index, isn't known where it is used, but where it begins is.

Values are followed through registers, calls and returns. What is stored anywhere, or written to a
CSR, may be what any load or CSR gives."""
from __future__ import annotations

from collections import defaultdict
from typing import Iterable, Iterator, Mapping

from fptools.limits import DATA_START
from fptools.stack.flow import ENTRY, STACK_POINTER, TOP, Function, Known, access_of
from fptools.stack.room import is_data
from fptools.code.thread import Code
from fptools.code.values import State, Value, signed, written_by
from fptools.isa.words import (
    OPCODE_AUIPC,
    OPCODE_IMMEDIATE,
    OPCODE_LOAD,
    OPCODE_LUI,
    OPCODE_REGISTERS,
    OPCODE_STORE,
    Word,
)

Place = tuple[int, int]
MEMORY: Place = (-3, 0)
"""The origin of whatever memory or a CSR has."""


def is_address(value: Value) -> bool:
    """Whether a value is an address of the stack, or a number that is one of data."""
    is_number = value.origin is None
    return value.origin in (STACK_POINTER, TOP) or is_number and is_data(value.offset % 2**32)


class Pointers:
    """The flow of values through the functions of a thread: an origin with all that it may be."""

    def __init__(
        self,
        code: Code,
        functions: Iterable[Function],
        called: Mapping[int, Function],
        handlers: Iterable[Function],
        constants: Iterable[int] = (),
    ) -> None:
        """With the functions that are called, by their addresses, the trap handlers, and the words
        of the instruction scratchpad that loads may give."""
        self._code, self._called = code, called
        self._functions, self._handlers = list(functions), list(handlers)
        self._from: defaultdict[Place, set[Value]] = defaultdict(set)
        data = (bits for at, bits in code.words.items() if at >= DATA_START)
        self._from[MEMORY] |= {Value(None, signed(it)) for it in (*data, *constants)}
        for function in self._functions:
            for pc, known in function.before.items():
                self._take(function, code.word(pc), known)

    def stores(self) -> Iterator[tuple[int, int]]:
        """The stores by pointers that aren't known, each with a number from which the pointer may
        come."""
        for function in self._functions:
            for pc, known in sorted(function.before.items()):
                word = self._code.word(pc)
                access = access_of(word, known)
                if access and word.opcode == OPCODE_STORE and access[0].origin is not None:
                    yield from ((pc, it) for it in sorted(self._numbers(access[0])))

    def _numbers(self, value: Value) -> set[int]:
        """The numbers that a value may come from, with what was added since, each way once."""
        found, seen = set[int](), set[Place]()
        ahead = [value]
        while ahead:
            it = ahead.pop()
            if it.origin in seen | {STACK_POINTER, TOP}:
                continue
            # Plus an address of data the value is an index.
            if it.origin is None or is_data(it.offset % 2**32):
                found.add(it.offset % 2**32)
            else:
                seen.add(it.origin)
                by = 0 if it.origin == MEMORY else it.offset
                came = self._from[it.origin]
                ahead += [Value(one.origin, signed(one.offset + by)) for one in came]
        return found

    def _take(self, function: Function, word: Word, known: Known) -> None:
        """Notes what a word gives, passes on or stores."""
        behind = list(known.registers)
        register, state = written_by(word), known.registers
        if word.opcode == OPCODE_STORE:
            self._from[MEMORY].add(state[word.rs2])
        if word.writes_csr:
            self._from[MEMORY].add(state[word.rs1])
        if word.pc in function.calls:
            self._call(function.calls[word.pc], word, behind)
        elif register:
            behind[register] = Value((word.pc + 1, register), 0)
            self._from[word.pc + 1, register] |= self._given(word, state)
        for to in function.edges.get(word.pc, ()):
            for at, it in enumerate(function.before[to].registers):
                if it.origin in ((to, at), (word.pc + 2, at)):
                    self._from[it.origin].add(behind[at])
        if self._handlers:
            self._trap(word, state)

    def _trap(self, word: Word, state: State) -> None:
        """A trap handler may begin with the registers at any word, and come back with others."""
        for at in range(1, 32):
            self._from[ENTRY, at].add(state[at])
            self._from[word.pc + 2, at] |= {
                it.before[pc].registers[at] for it in self._handlers for pc in it.ends_of_trap
            }

    @staticmethod
    def _given(word: Word, state: State) -> set[Value]:
        """What the result of a word may come from."""
        if word.opcode in (OPCODE_LUI, OPCODE_AUIPC):
            base = word.pc if word.opcode == OPCODE_AUIPC else 0
            return {Value(None, signed(base + (word.field(12, 20) << 12)))}
        if word.opcode == OPCODE_REGISTERS:
            both = {state[word.rs1], state[word.rs2]}
            # One that is known to be an address is the pointer, and the other one an index.
            return {it for it in both if is_address(it)} or both
        if word.opcode == OPCODE_IMMEDIATE:
            one, added = state[word.rs1], word.immediate if word.funct3 == 0 else 0
            return {Value(one.origin, signed(one.offset + added))}
        return {Value(MEMORY, 0)} if word.opcode == OPCODE_LOAD or word.csr is not None else set()

    def _call(self, start: int, word: Word, behind: list[Value]) -> None:
        """A call passes on all registers, and gives those that the function doesn't keep."""
        called = self._called[start]
        for at, it in enumerate(behind):
            for origin in ((ENTRY, at), (start, at), (start + 1, at)):
                self._from[origin].add(it)
            if at not in called.kept:
                behind[at] = Value((word.pc + 1, at), 0)
                self._from[word.pc + 1, at] |= {
                    called.before[pc].registers[at] for pc in called.returns
                }
