"""One whole instruction of a thread: its registers, its environment, and its event."""
from __future__ import annotations

from collections.abc import Callable, Mapping
from dataclasses import dataclass, field
from typing import Protocol

from model.effects import NOTHING, Asleep, Effect, Event, Register, Stored, Trapped, Written

from model.instructions import (
    LAST_LAG, LOAD_SIZE, STORE_SIZE, Ins, Outcome, decode, lag, load_value, outcome, sources,
)  # fmt: skip
from model.bits import LAST_WORD, word
from model.registers import MACHINE_CSRS, MCAUSE, MEPC, MHARTID, MSCRATCH, MTVEC, is_allowed_word

FETCH_ACCESS, ILLEGAL, LOAD_ACCESS, STORE_ACCESS, EXPIRY = 1, 2, 5, 7, 24


class Around(Protocol):
    """The environment of an issue in the machine."""

    def fetch(self, pc: int) -> int | None:
        """The word at a pc; None if it may not be fetched."""

    def load(self, address: int, width: int) -> int | None:
        """The aligned word that has an address; None if it may not be loaded."""

    def may_store(self, address: int, width: int) -> bool:
        """Whether a range of bytes may be stored."""

    def store(self, address: int, width: int, value: int) -> None:
        """Stores bytes."""

    def machine_csrs(self, writes: bool) -> Mapping[int, int] | None:
        """The configuration registers; None if they may not be read, or written."""

    def write_machine_csr(self, csr: int, value: int) -> None:
        """Writes one of them."""


@dataclass
class Thread:
    """A thread's registers, its armed and its sleep moment, and the first cycle in which it may issue."""

    pc: int
    x: list[int] = field(default_factory=lambda: [0] * 32)
    csrs: dict[int, int] = field(
        default_factory=lambda: dict.fromkeys((MTVEC, MSCRATCH, MEPC, MCAUSE), 0)
    )
    armed: int | None = None
    high: int = 0
    sleep: int = 0
    ready: int = 0


@dataclass(frozen=True)
class Access:
    """The value that an access to a CSR reads, and the one that it writes, if any."""

    old: int
    written: int | None


class Trap(Exception):
    """An issue ends in a trap, with the word that its line shows."""

    def __init__(self, cause: int, shown: int) -> None:
        super().__init__(cause)
        self.cause, self.shown = cause, shown


@dataclass
class Step:
    """An issue of thread `number` in a cycle, at the time `now`."""

    thread: Thread
    number: int
    cycle: int
    now: int
    around: Around

    def issue(self) -> tuple[int, Event | None]:
        """The word of the turn, and the event; None for a DU that spins."""
        pc = self.thread.pc
        try:
            value, effect = self._do()
        except Trap as trap:
            value, effect = trap.shown, self._enter(trap.cause)
        return value, None if effect is None else Event(self.cycle, self.number, pc, value, effect)

    def _enter(self, cause: int) -> Effect:
        t = self.thread
        t.csrs[MEPC], t.csrs[MCAUSE], t.pc = t.pc, cause, t.csrs[MTVEC]
        t.ready = self.cycle + LAST_LAG
        return Trapped(cause, t.pc)

    def _do(self) -> tuple[int, Effect | None]:
        t = self.thread
        if t.armed is not None and t.armed <= self.now:
            t.armed = None
            raise Trap(EXPIRY, 0)
        value = self.around.fetch(t.pc)
        if value is None:
            raise Trap(FETCH_ACCESS, 0)
        x = decode(value)
        rs1, rs2 = sources(x)
        a, b = t.x[rs1], t.x[rs2]
        done = outcome(x, t.pc, a, b)
        if done.trap is not None:
            raise Trap(done.trap, value)
        return value, self._complete(Instruction(x, value, a, b, done))

    def _complete(self, i: Instruction) -> Effect | None:
        """The effect of an instruction that doesn't trap by itself; None if it spins."""
        t = self.thread
        do = DONE.get(i.x.kind)
        effect = do(self, i) if do else NOTHING
        if effect is None:
            t.ready = self.cycle + LAST_LAG
            return None
        t.pc = self._next_pc(i)
        t.ready = self.cycle + lag(i.x, i.done.taken, False)
        return effect

    def _next_pc(self, i: Instruction) -> int:
        if i.x.kind in ("Jal", "Jalr") or i.done.taken:
            return i.done.target
        return self.thread.csrs[MEPC] if i.x.kind == "Mret" else word(self.thread.pc + 4)

    def register(self, rd: int, value: int) -> Effect:
        """Sets a register; x0 stays 0."""
        if rd == 0:
            return NOTHING
        self.thread.x[rd] = value
        return Register(rd, value)

    def load(self, i: Instruction) -> Effect:
        loaded = self.around.load(i.done.address, LOAD_SIZE[i.x.op])
        if loaded is None:
            raise Trap(LOAD_ACCESS, i.word)
        return self.register(i.x.rd, load_value(i.x.op, i.done.address, loaded))

    def store(self, i: Instruction) -> Effect:
        address, size = i.done.address, STORE_SIZE[i.x.op]
        if not self.around.may_store(address, size):
            raise Trap(STORE_ACCESS, i.word)
        value = i.b % (1 << 8 * size)
        self.around.store(address, size, value)
        return Stored(address, size, value)

    def csr(self, i: Instruction) -> Effect:
        access = self._access(i.x, i.x.rs1 if i.x.op.endswith("i") else i.a)
        if access is None:
            raise Trap(ILLEGAL, i.word)
        if access.written is None:
            return self.register(i.x.rd, access.old)
        self._write(i.x.csr, access.written)
        self.register(i.x.rd, access.old)
        return Written(i.x.csr, access.written, i.x.rd, access.old)

    def _access(self, x: Ins, operand: int) -> Access | None:
        """The values that an access reads and writes; None if it is refused."""
        writes = x.op in ("Rw", "Rwi") or x.rs1 != 0
        if x.csr == MHARTID:
            return None if writes else Access(self.number, None)
        held = self.around.machine_csrs(writes) if x.csr in MACHINE_CSRS else self.thread.csrs
        if held is None or x.csr not in held:
            return None
        old = held[x.csr]
        if not writes:
            return Access(old, None)
        new = {"w": operand, "s": old | operand, "c": old & ~operand & LAST_WORD}[x.op[1]]
        if x.csr in MACHINE_CSRS and not is_allowed_word(x.csr, new):
            return None
        return Access(old, new & ~3 if x.csr in (MTVEC, MEPC) else new)

    def _write(self, csr: int, value: int) -> None:
        if csr in MACHINE_CSRS:
            self.around.write_machine_csr(csr, value)
        else:
            self.thread.csrs[csr] = value

    def get_time(self, i: Instruction) -> Effect:
        self.thread.high = self.now >> 32
        return self.register(i.x.rd, word(self.now))

    def get_high(self, i: Instruction) -> Effect:
        return self.register(i.x.rd, self.thread.high)

    def delay_until(self, i: Instruction) -> Effect | None:
        return None if self.now < i.moment else NOTHING

    def wait_until(self, i: Instruction) -> Effect:
        if self.now >= i.moment:
            return NOTHING
        armed = self.thread.armed
        self.thread.sleep = i.moment if armed is None else min(i.moment, armed)
        return Asleep()

    def arm(self, i: Instruction) -> Effect:
        self.thread.armed = i.moment
        return NOTHING

    def disarm(self, _: Instruction) -> Effect:
        self.thread.armed = None
        return NOTHING

    def value(self, i: Instruction) -> Effect:
        return self.register(i.x.rd, i.done.value)


@dataclass(frozen=True)
class Instruction:
    """An instruction with its word, the values of its source registers, and its result."""

    x: Ins
    word: int
    a: int
    b: int
    done: Outcome

    @property
    def moment(self) -> int:
        """The moment that the two registers hold, the high word first."""
        return self.a << 32 | self.b


DONE: dict[str, Callable[[Step, Instruction], Effect | None]] = {
    **dict.fromkeys(("Lui", "Auipc", "Jal", "Jalr", "Op", "OpImm", "Shift", "Muldiv"), Step.value),
    "Load": Step.load, "Store": Step.store, "Csr": Step.csr, "Gt": Step.get_time, "Gth": Step.get_high,
    "Du": Step.delay_until, "Wu": Step.wait_until, "Ee": Step.arm, "De": Step.disarm,
}  # fmt: skip
"""The effects of instructions; the others only change the pc."""
