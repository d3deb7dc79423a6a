"""The values of registers before each word of a function, as far as numbers and distances are known."""

from dataclasses import dataclass
from typing import Collection, Iterator, Mapping

from fptools.code.digraph import search
from fptools.limits import DATA_START, LARGE
from fptools.isa.words import (
    OPCODE_AUIPC,
    OPCODE_IMMEDIATE,
    OPCODE_LUI,
    OPCODE_REGISTERS,
    OPCODES_WITHOUT_RESULT,
    RETURN,
    Flow,
    Word,
)

ADDI, XOR, OR, AND = 0, 4, 6, 7
COMMUTES = (XOR, OR, AND)
"""The operations other than an addition whose operands may be exchanged."""

BASE, SUBTRACTS = 0, 32
"""The upper seven bits of an operation between registers: as its bits say, or subtracting, or shifting signs in."""


@dataclass(frozen=True)
class Value:
    """A number, or what a place (a word, and a register) gave, and a distance from it."""

    origin: tuple[int, int] | None
    offset: int


# The registers x0 to x31.
State = tuple[Value, ...]


def signed(number: int) -> int:
    """A number as 32 bits with a sign hold it."""
    return (number + 2**31) % 2**32 - 2**31


def written_by(word: Word) -> int:
    """The register that a word changes; 0 for none."""
    return 0 if word.opcode in OPCODES_WITHOUT_RESULT else word.rd


def adds(word: Word) -> bool:
    return word.opcode == OPCODE_IMMEDIATE and word.funct3 == ADDI


def jumps_of(words: Mapping[int, int]) -> dict[int, set[int]]:
    """The words that branches and jumps of code lead to, each with where they stand."""
    jumps: dict[int, set[int]] = {}
    for pc, bits in words.items():
        target = Word(pc, bits).target
        if pc < DATA_START and target is not None:
            jumps.setdefault(target, set()).add(pc)
    return jumps


def unknown(pc: int) -> State:
    """Nothing is known before a word."""
    return (Value(None, 0), *(Value((pc, register), 0) for register in range(1, 32)))


def after(word: Word, state: State) -> State:
    """The registers behind a word that is no call."""
    register = written_by(word)
    if not register:
        return state
    value = _result(word, state)
    if value is None:
        value = Value(
            (word.pc + 1, register), 0
        )  # no address of a word, so it is the result of this one
    return (*state[:register], value, *state[register + 1 :])


def _result(word: Word, state: State) -> Value | None:
    """What a word gives, as far as it is a number or a distance from another value."""
    if word.opcode in (OPCODE_LUI, OPCODE_AUIPC):
        base_of = word.pc if word.opcode == OPCODE_AUIPC else 0
        return Value(None, signed(base_of + (word.field(12, 20) << 12)))
    if word.opcode == OPCODE_IMMEDIATE:
        kind = word.field(25, 7) if word.funct3 in (1, 5) else BASE
        number = word.field(20, 5) if word.funct3 in (1, 5) else word.immediate
        return _combined(word.funct3, kind, state[word.rs1], Value(None, number))
    if word.opcode == OPCODE_REGISTERS:
        return _combined(word.funct3, word.field(25, 7), state[word.rs1], state[word.rs2])
    return None


def _combined(funct3: int, kind: int, one: Value, other: Value) -> Value | None:
    """The result of an operation: of numbers, or of a value and a number that is added or subtracted."""
    if kind not in (BASE, SUBTRACTS):
        return None
    if other.origin is None and _keeps(funct3, other.offset):
        return one
    if one.origin is None and funct3 in COMMUTES and _keeps(funct3, one.offset):
        return other
    if one.origin is None and other.origin is None:
        return Value(None, signed(_computed(funct3, kind, one.offset, other.offset)))
    if funct3 == ADDI and other.origin is None:
        return Value(
            one.origin, signed(one.offset + (-other.offset if kind == SUBTRACTS else other.offset))
        )
    if funct3 == ADDI and kind == BASE and one.origin is None:
        return Value(other.origin, signed(one.offset + other.offset))
    return None


def _keeps(funct3: int, number: int) -> bool:
    """Whether an operation with a number gives the other value as it is, as `or` with 0."""
    neutral = {ADDI: 0, 1: 0, XOR: 0, 5: 0, OR: 0, AND: -1}.get(funct3)
    return neutral is not None and signed(number) == neutral


def _computed(funct3: int, kind: int, one: int, other: int) -> int:
    """The result of an operation of two numbers of 32 bits."""
    shift, unsigned = other % 32, one % 2**32
    results = (
        one - other if kind == SUBTRACTS else one + other,
        one << shift,
        int(signed(one) < signed(other)),
        int(unsigned < other % 2**32),
        one ^ other,
        signed(one) >> shift if kind == SUBTRACTS else unsigned >> shift,
        one | other,
        one & other,
    )
    return results[funct3]


def joined(pc: int, one: State, other: State) -> State:
    """The known values before a word that two edges reach."""
    pairs = enumerate(zip(one, other))
    return tuple(a if a == b else Value((pc, register), 0) for register, (a, b) in pairs)


def clobbered_by(words: Mapping[int, int], function: int) -> frozenset[int]:
    """The registers that a called function, and what it calls, may change: all, where it jumps by a register."""
    found: set[int] = set()
    for pc in search([function], lambda pc: Word(pc, words.get(pc, 0)).onward):
        word = Word(pc, words.get(pc, 0))
        found.add(written_by(word))
        if word.flow is Flow.INDIRECT and word.bits != RETURN or pc >= LARGE:
            return frozenset(range(32))
    return frozenset(found)


class Values:
    """The values of a function's registers. It is entered at its first word, and wherever other code leads into it."""

    def __init__(
        self,
        words: Mapping[int, int],
        start: int,
        jumps: Mapping[int, set[int]],
        entries: Collection[int] = (),
        first: State | None = None,
        clobbered: dict[int, frozenset[int]] | None = None,
    ) -> None:
        """With the values at its first word, where they are known: of a call that leads there. The registers that called
        functions change are kept in `clobbered`, where one is given."""
        self.words = words
        self.jumps = jumps
        self._clobbered = {} if clobbered is None else clobbered
        inside = self._inside(start)
        entered = {
            pc for pc in inside if pc == start or pc in entries or self._is_entered(pc, inside)
        }
        self.before: dict[int, State] = {pc: unknown(pc) for pc in entered}
        ahead = sorted(entered)
        if first is not None:
            self.before[start] = first
            entered.discard(start)
        while ahead:
            pc = ahead.pop()
            for to, state in self._edges(pc):
                if to in entered:
                    continue
                new = state if to not in self.before else joined(to, self.before[to], state)
                if self.before.get(to) != new:
                    self.before[to] = new
                    ahead.append(to)

    def entering(self, head: int, body: Collection[int]) -> State | None:
        """The known values at a loop's head, whenever it is entered from outside."""
        found: State | None = None
        if self.before.get(head) == unknown(head):
            return None
        for pc in {head - 4, *self.jumps.get(head, ())} & self.before.keys() - set(body):
            for to, state in self._edges(pc):
                if to == head:
                    found = state if found is None else joined(head, found, state)
        return found

    def is_entered_within(self, head: int, body: Collection[int]) -> bool:
        """Whether code outside of a loop leads to a word of it that isn't its head."""
        own = set(body)
        for pc in own - {head}:
            if not self.jumps.get(pc, own) <= own:
                return True
            if pc - 4 in self.before.keys() - own and pc in self._next(self._word(pc - 4)):
                return True
        return False

    def clobbered(self, function: int) -> frozenset[int]:
        """The registers that a called function, and what it calls, may change."""
        if function not in self._clobbered:
            self._clobbered[function] = clobbered_by(self.words, function)
        return self._clobbered[function]

    def _word(self, pc: int) -> Word:
        return Word(pc, self.words.get(pc, 0))

    def _next(self, word: Word) -> list[int]:
        """Where a word goes on in its function; a call comes back."""
        onward = [word.next] if word.goes_on else []
        target = word.target if word.flow in (Flow.BRANCH, Flow.JUMP) else None
        return onward if target is None else [*onward, target]

    def _inside(self, start: int) -> set[int]:
        found = search([start], lambda pc: self._next(self._word(pc)) if pc < LARGE else ())
        return {pc for pc in found if pc < LARGE}

    def _is_entered(self, pc: int, inside: Collection[int]) -> bool:
        """Whether other code reaches a word, also by a call."""
        before = self._word(pc - 4)
        if before.pc not in inside and pc in self._next(before):
            return True
        return any(
            at not in inside or self._word(at).flow is Flow.CALL for at in self.jumps.get(pc, ())
        )

    def _edges(self, pc: int) -> Iterator[tuple[int, State]]:
        """The successors of a word, with the known values there."""
        word, state = self._word(pc), self.before[pc]
        if word.flow is Flow.CALL and word.target is not None:
            gone = self.clobbered(word.target) | {word.rd}
            state = tuple(
                Value((pc + 1, register), 0) if register in gone and register else value
                for register, value in enumerate(state)
            )
        elif word.flow is Flow.INDIRECT:
            state = tuple(
                Value((pc + 1, register), 0) if register else value
                for register, value in enumerate(state)
            )
        else:
            state = after(word, state)
        for to in self._next(word):
            yield to, state
