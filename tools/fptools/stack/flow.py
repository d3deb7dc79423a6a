"""What a function does with the stack pointer, read off its words: how far it goes down, and what a
call of it keeps.

A function is all that its first word leads to without entering calls: a last call that is a jump,
or a piece of it elsewhere, belongs to it. Before each of its words each register is a number, a
distance from a register at the first word, or unknown. Paths that join have to agree. A return has
to find x1 and sp as the call left them; a call of a function without a return doesn't come back. A
saved register counts where it is stored by a whole word into the frame and loaded from there. That
stores by other pointers leave such words as they are isn't looked at."""
from __future__ import annotations

from dataclasses import dataclass, field, replace
from typing import Callable, Iterator

from fptools.limits import LARGE
from fptools.code.thread import CSRRW, CSRRWI, Code
from fptools.code.values import State, Value, after, joined, signed, written_by
from fptools.isa.words import (
    MRET,
    OPCODE_AUIPC,
    OPCODE_IMMEDIATE,
    OPCODE_LOAD,
    OPCODE_LUI,
    OPCODE_REGISTERS,
    OPCODE_STORE,
    RETURN,
    RETURN_ADDRESS,
    Flow,
    Word,
)

SP = 2
ENTRY = -1
"""The place of a value that a register has at a function's first word: no word's address."""

TOP = (-2, SP)
"""The origin of a stack pointer that code sets to a number, which is its distance."""

STACK_POINTER = (ENTRY, SP)
SAVED = frozenset({RETURN_ADDRESS, 3, 4, 8, 9, *range(18, 28)})
"""The registers that a function saves in its frame and gives back: ra, gp, tp, s0 to s11."""

ALL_SAVED = frozenset(range(1, 32))
"""Those that a trap handler saves."""

WORD_BYTES, WORD_ACCESS, FUNCT7_SUB = 4, 2, 32
SIZES = {0: 1, 1: 2, 2: 4, 4: 1, 5: 2}
"""The bytes of a load or store by funct3."""


class UnknownStack(Exception):
    """A word at which nothing is known of the stack, and why."""

    def __init__(self, pc: int, why: str) -> None:
        super().__init__(why)
        self.pc = pc


class SharedStack(UnknownStack):
    """A stack to which other threads may store."""


@dataclass(frozen=True)
class Known:
    """What is known before a word: of registers, and which saved registers the frame has, by their
    distance from sp at the first word."""

    registers: State
    saved: frozenset[tuple[int, int]] = frozenset()

    @property
    def sp(self) -> Value:
        return self.registers[SP]


@dataclass(frozen=True)
class Traps:
    """What the handlers of a thread do to the code that they come back to: the registers that they
    change, and whether they go on behind the word that trapped."""

    changed: frozenset[int] = frozenset()
    skips: bool = False


@dataclass
class Function:
    """A function with what is known before each of its words."""

    start: int
    before: dict[int, Known]
    is_handler: bool = False  # whether a trap leads to it
    calls: dict[int, int] = field(
        default_factory=dict
    )  # the word of each call, with the function that it calls
    returns: set[int] = field(default_factory=set)
    ends_of_trap: set[int] = field(default_factory=set)  # its MRETs
    edges: dict[int, list[int]] = field(default_factory=dict)
    handlers: dict[int, int] = field(
        default_factory=dict
    )  # its words that write mtvec, with the address
    tops: dict[int, int] = field(
        default_factory=dict
    )  # its words that set sp to a number, with the number
    kept: frozenset[int] = frozenset()  # the registers that are the same behind a call
    above: frozenset[
        int
    ] = frozenset()  # distances from sp at its first word, from 0 on, that it or a callee stores to

    @property
    def comes_back(self) -> bool:
        return bool(self.returns)

    def is_relative(self, pc: int) -> bool:
        """Whether sp is known there as a distance from sp at the first word."""
        return self.before[pc].sp.origin == STACK_POINTER


def first_of(start: int, traps: Traps) -> Known:
    """What is known before the first word of a function that is called, or of a trap handler."""
    values = (Value((start + 1 if it in traps.changed else ENTRY, it), 0) for it in range(1, 32))
    return Known((Value(None, 0), *values))


def number_of(value: Value) -> int | None:
    """The unsigned number that a value is; None where it isn't known as one."""
    return value.offset % 2**32 if value.origin is None else None


def access_of(word: Word, known: Known) -> tuple[Value, int] | None:
    """The address of a load or store as a value, and its bytes; None for other words."""
    if not word.is_code or word.opcode not in (OPCODE_LOAD, OPCODE_STORE):
        return None
    base = known.registers[word.rs1]
    by = word.immediate if word.opcode == OPCODE_LOAD else word.store_offset
    return Value(base.origin, signed(base.offset + by)), SIZES[word.funct3]


def is_half(code: Code, word: Word) -> bool:
    """Whether a word is the first of the two that give sp a number, by `la` or `li`."""
    then = code.word(word.next)
    adds = then.opcode == OPCODE_IMMEDIATE and then.funct3 == 0 and then.rd == then.rs1 == SP
    return word.opcode in (OPCODE_AUIPC, OPCODE_LUI) and word.rd == SP and adds


class Reader:
    """Follows the values of registers through the words of one function."""

    def __init__(
        self, code: Code, traps: Traps, called: Callable[[int], Function], found: Function
    ) -> None:
        self.code, self.traps, self.called, self.found = code, traps, called, found
        self.first = found.before[found.start]
        self._saved = ALL_SAVED if found.is_handler else SAVED
        self._ahead = [found.start]

    def read(self) -> Function:
        while self._ahead:
            self._take(self._ahead.pop())
        found = self.found
        at_returns = [found.before[pc].registers for pc in found.returns]
        found.kept = frozenset(
            it
            for it in range(32)
            if all(state[it] == self.first.registers[it] for state in at_returns)
        )
        found.above = frozenset(self._stores_above())
        return found

    def _take(self, pc: int) -> None:
        """Goes on from a word with what is known before it now."""
        word, known = self.code.word(pc), self.found.before[pc]
        self._look_at_csr(word, known)
        ends = [(to, self._changed(pc, state)) for to, state in self._onward(word, known)]
        self.found.edges[pc] = [to for to, _ in ends]
        for to, new in ends:
            if to >= LARGE or to % WORD_BYTES:
                raise UnknownStack(pc, f"it leads to {to:#x}, where no code is")
            self._bring(pc, to, new)

    def _bring(self, pc: int, to: int, new: Known) -> None:
        old = self.found.before.get(to)
        if old is not None:
            new = Known(joined(to, old.registers, new.registers), old.saved & new.saved)
        if new != old:
            if new.sp.origin not in (STACK_POINTER, TOP, None):
                why = "sp isn't the same on each path to here: it grows in a loop, or by alloca"
                raise UnknownStack(to, why)
            self.found.before[to] = new
            self._ahead.append(to)

    def _changed(self, pc: int, known: Known) -> Known:
        """What is known behind a word, where a trap handler may have changed registers."""
        if not self.traps.changed:
            return known
        values = enumerate(known.registers)
        return replace(
            known,
            registers=tuple(
                Value((pc + 2, at), 0) if at in self.traps.changed else it for at, it in values
            ),
        )

    # Where a word goes on, with what is known there.

    def _onward(self, word: Word, known: Known) -> Iterator[tuple[int, Known]]:
        flow = word.flow
        if flow is Flow.CALL or flow is Flow.INDIRECT and word.rd:
            yield from self._call(word, known)
        elif flow is Flow.INDIRECT:
            yield from self._jump(word, known)
        elif flow is not Flow.TRAP:
            behind = self._behind(word, known)
            if flow is not Flow.JUMP:
                yield word.next, behind
            if word.target is not None:
                yield word.target, behind
        if self.traps.skips and self._may_trap(word, known):
            yield word.next, known

    @staticmethod
    def _may_trap(word: Word, known: Known) -> bool:
        """Whether a word itself may trap. An aligned access to the function's own frame doesn't, if
        the stack fits, and neither does a jump, whose target is looked at."""
        access = access_of(word, known)
        if access and access[0].origin == STACK_POINTER:
            return access[0].offset >= 0 or access[0].offset % access[1] != 0
        return word.flow is not Flow.INDIRECT and word.may_trap

    def _call(self, word: Word, known: Known) -> Iterator[tuple[int, Known]]:
        """Behind a call, if the called function comes back."""
        if word.rd != RETURN_ADDRESS:
            raise UnknownStack(word.pc, f"a call by x{word.rd}: -mno-save-restore calls by x1 only")
        target = word.target if word.flow is Flow.CALL else self._number(word, known)
        if target is None:
            raise UnknownStack(word.pc, "a call through a pointer: what it calls isn't known")
        if target >= LARGE or target % WORD_BYTES:
            raise UnknownStack(word.pc, f"it calls {target:#x}, where no code is")
        self.found.calls[word.pc] = target
        called = self.called(target)
        if not called.comes_back:
            return
        values = [
            it if at in called.kept else Value((word.pc + 1, at), 0)
            for at, it in enumerate(known.registers)
        ]
        values[RETURN_ADDRESS] = Value(None, word.next)
        sp = known.sp.offset if known.sp.origin == STACK_POINTER else 0
        hit = {sp + at for at in called.above}
        # The address of a word that only a trap handler saves may be an argument: then the word is
        # data.
        data = {
            it.offset
            for at, it in enumerate(known.registers)
            if it.origin == STACK_POINTER and at != SP
        }
        saved = {(at, it) for at, it in known.saved if it in SAVED or at not in data}
        saved = {(at, it) for at, it in saved if not hit & {*range(at, at + WORD_BYTES)}}
        yield word.next, Known(tuple(values), frozenset(saved))

    def _jump(self, word: Word, known: Known) -> Iterator[tuple[int, Known]]:
        """Behind a return or another jump by a register: at an address that is known, or nowhere in
        the function."""
        if word.bits == MRET:
            self.found.ends_of_trap.add(word.pc)
            return
        target = self._number(word, known)
        if target is not None:
            yield target, known
            return
        first = self.first.registers
        if word.bits != RETURN:
            raise UnknownStack(
                word.pc, "a jump by a register: where to isn't known; -fno-jump-tables for a switch"
            )
        if known.registers[RETURN_ADDRESS] != first[RETURN_ADDRESS] or self._is_lost(
            RETURN_ADDRESS
        ):
            raise UnknownStack(
                word.pc, "it isn't certain that this goes back to the call: x1 changes"
            )
        if known.sp != first[SP] or self._is_lost(SP):
            raise UnknownStack(word.pc, "sp isn't as it was at the call")
        self.found.returns.add(word.pc)

    def _is_lost(self, register: int) -> bool:
        """Whether a trap handler may change a register."""
        return register in self.traps.changed

    @staticmethod
    def _number(word: Word, known: Known) -> int | None:
        base = number_of(known.registers[word.rs1])
        return None if base is None else (base + word.immediate) % 2**32 & ~1

    # What is known behind a word.

    def _behind(self, word: Word, known: Known) -> Known:
        """What is known behind a word that is no call."""
        access = access_of(word, known)
        saved = known.saved
        if access and word.opcode == OPCODE_STORE:
            saved = self._stored(word, known, *access)
        registers = self._sum(word, known.registers)
        if access and word.opcode == OPCODE_LOAD and word.funct3 == WORD_ACCESS and word.rd:
            address, _ = access
            slot = next((it for at, it in saved if address == Value(STACK_POINTER, at)), None)
            if slot is not None:
                registers = (
                    *registers[: word.rd],
                    self.first.registers[slot],
                    *registers[word.rd + 1 :],
                )
        if written_by(word) == SP:
            registers = (*registers[:SP], self._new_sp(word, registers[SP]), *registers[SP + 1 :])
        low = registers[SP].offset if registers[SP].origin == STACK_POINTER else -(2**31)
        return Known(registers, frozenset((at, it) for at, it in saved if at >= low))

    def _stored(
        self, word: Word, known: Known, address: Value, size: int
    ) -> frozenset[tuple[int, int]]:
        """The saved registers of the frame behind a store."""
        if address.origin != STACK_POINTER:
            return known.saved
        at = address.offset
        saved = {(slot, it) for slot, it in known.saved if not slot - size < at < slot + WORD_BYTES}
        value, is_word = known.registers[word.rs2], word.funct3 == WORD_ACCESS
        if is_word and word.rs2 in self._saved and value == Value((ENTRY, word.rs2), 0):
            saved.add((at, word.rs2))
        return frozenset(saved)

    @staticmethod
    def _sum(word: Word, state: State) -> State:
        """The registers behind a word; also where it adds or subtracts a known number in a
        register, as for large frames."""
        new = after(word, state)
        is_sum = (
            word.opcode == OPCODE_REGISTERS
            and word.funct3 == 0
            and word.field(25, 7) in (0, FUNCT7_SUB)
        )
        if not is_sum or not word.rd:
            return new
        one, two, sign = state[word.rs1], state[word.rs2], -1 if word.field(25, 7) else 1
        if two.origin is not None and sign > 0:
            one, two = two, one
        if two.origin is not None:
            return new
        value = Value(one.origin, signed(one.offset + sign * two.offset))
        return (*new[: word.rd], value, *new[word.rd + 1 :])

    def _new_sp(self, word: Word, value: Value) -> Value:
        """The stack pointer behind a word that writes it: a number is a new top, but between the
        two words of `la`."""
        if value.origin not in (STACK_POINTER, TOP, None):
            why = "sp gets a value that isn't known: alloca, a variable length, or an alignment"
            raise UnknownStack(word.pc, why)
        if value.origin == STACK_POINTER and value.offset > 0:
            raise UnknownStack(word.pc, "sp is above where it was at the call")
        if value.origin is not None or is_half(self.code, word):
            return value
        self.found.tops[word.pc] = value.offset
        return Value(TOP, value.offset)

    def _look_at_csr(self, word: Word, known: Known) -> None:
        """Notes a write of mtvec."""
        if not word.writes_mtvec:
            return
        number = number_of(known.registers[word.rs1]) if word.funct3 == CSRRW else None
        number = word.rs1 if word.funct3 == CSRRWI else number
        if number is None:
            raise UnknownStack(word.pc, "it sets mtvec to an address that isn't known")
        self.found.handlers[word.pc] = number & ~3

    def _stores_above(self) -> Iterator[int]:
        """The distances from sp at the first word, from 0 on, of bytes that it or a callee stores
        to."""
        for pc, known in self.found.before.items():
            access, word = access_of(self.code.word(pc), known), self.code.word(pc)
            if access and word.opcode == OPCODE_STORE and access[0].origin == STACK_POINTER:
                yield from (
                    at for at in range(access[0].offset, access[0].offset + access[1]) if at >= 0
                )
            if pc in self.found.calls and known.sp.origin == STACK_POINTER:
                above = self.called(self.found.calls[pc]).above
                yield from (at + known.sp.offset for at in above if at + known.sp.offset >= 0)
