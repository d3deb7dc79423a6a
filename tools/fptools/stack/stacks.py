"""Whether the stack of each thread fits: the deepest one by the calls of its code, with trap
handlers on top, and the room that the data leave.

    from fptools.stack.stacks import Stacks

    for stack in Stacks(setup, image, program).all():
        print(stack)

A trap may come at any word, so the deepest handler is added to the deepest point. docs/C.md has
what this assumes."""
from __future__ import annotations

from dataclasses import dataclass
from functools import cached_property
from typing import Mapping

from fptools.budget.files import Verdict
from fptools.files.elf import Program, other_word
from fptools.files.setup import Setup, ThreadTable
from fptools.stack.function_depths import Depth
from fptools.stack.flow import SP, SharedStack, UnknownStack, is_half
from fptools.stack.room import Data, data_of, is_data, is_outside, room_of
from fptools.stack.thread_depths import Deepest, deepest_of
from fptools.code.thread import Code, ThreadCode, entries_of
from fptools.isa.words import (
    OPCODE_AUIPC,
    OPCODE_BRANCH,
    OPCODE_JAL,
    OPCODE_LUI,
    OPCODE_REGISTERS,
    OPCODE_STORE,
    Word,
)

NO_STACK = "no stack: sp is no address of data"


@dataclass(frozen=True)
class Frame:
    """A function in the chain to the deepest point, and its own bytes."""

    name: str
    line: str  # of its deepest word, or of its call of the next function; empty if it isn't known
    bytes: int
    is_trap: bool

    def __str__(self) -> str:
        return f"{'trap: ' if self.is_trap else ''}{self.name} ({self.bytes:,})"


@dataclass(frozen=True)
class Stack:
    """The stack of a thread: its bytes and those that there are, where they are known."""

    thread: int
    verdict: Verdict
    text: str
    bytes: int | None = None
    room: int | None = None
    top: int | None = None
    frames: tuple[Frame, ...] = ()
    notes: tuple[str, ...] = ()
    is_shared: bool = False  # whether other threads may store there

    @property
    def shown(self) -> str:
        """Its text below a budget, where no verdict of its own is beside it."""
        return f"unknown: {self.text}" if self.verdict is Verdict.UNKNOWN else self.text

    @property
    def note(self) -> str:
        return "; ".join(self.notes)

    @property
    def word(self) -> str:
        return {Verdict.HOLDS: "holds", Verdict.OVER: "OVER"}.get(self.verdict, "UNKNOWN")

    def __str__(self) -> str:
        return f"{self.word:<8} T{self.thread} stack: {self.text}"


class Stacks:
    """The stacks of the threads of a setup, by the words of its image. An executable gives names,
    lines and data."""

    def __init__(self, setup: Setup, image: Mapping[int, int], program: Program) -> None:
        self.setup, self.image, self.program = setup, image, program
        self.code = Code(image, entries_of(setup))
        self._found: dict[int, Stack] = {}

    def all(self) -> list[Stack]:
        return [self.of(it) for it in self.setup.threads]

    def of(self, table: ThreadTable) -> Stack:
        """The stack of a thread."""
        if table.id not in self._found:
            self._found[table.id] = self._known(table)
        return self._found[table.id]

    def _known(self, table: ThreadTable) -> Stack:
        if other := other_word(self.program, self.image):
            return Stack(table.id, Verdict.UNKNOWN, other)
        try:
            constants = self._constants(table)
            found = deepest_of(self.setup, self.code, table, self.name, constants)
            return self._fitting(table, found)
        except UnknownStack as why:
            if not self._is_used(table):
                return Stack(table.id, Verdict.HOLDS, NO_STACK, 0)
            text, is_shared = f"{self.where(why.pc)}: {why}", isinstance(why, SharedStack)
            return Stack(table.id, Verdict.UNKNOWN, text, is_shared=is_shared)

    def _is_used(self, table: ThreadTable) -> bool:
        """Whether a word that the thread may issue uses sp as an address, or sets it to one of
        data. In assembler x2 may be a register like others."""
        words = ThreadCode(self.code, table.entry).may_issue
        return any(self._uses_sp(it) for it in words if it.is_code)

    def _uses_sp(self, word: Word) -> bool:
        if word.opcode == OPCODE_BRANCH:
            return False
        is_number = word.opcode in (OPCODE_LUI, OPCODE_AUIPC)
        if is_number and word.rd == SP:
            return any(is_data(it) for it in self._numbers(word))
        has_two = word.opcode in (OPCODE_STORE, OPCODE_REGISTERS)
        reads = (
            not is_number
            and word.opcode != OPCODE_JAL
            and (word.rs1 == SP or has_two and word.rs2 == SP)
        )
        return reads and (word.opcode == OPCODE_STORE or word.rd != SP)

    def _numbers(self, word: Word) -> tuple[int, ...]:
        """The number that LUI or AUIPC gives sp, alone and with the next word, if that adds to
        it."""
        number = (word.field(12, 20) << 12) + (word.pc if word.opcode == OPCODE_AUIPC else 0)
        then = self.code.word(word.next)
        return (
            (number % 2**32, (number + then.immediate) % 2**32)
            if is_half(self.code, word)
            else (number % 2**32,)
        )

    def _fitting(self, table: ThreadTable, found: Deepest) -> Stack:
        """A stack of known depth, in its room."""
        if not found.depth.bytes:
            return Stack(table.id, Verdict.HOLDS, "no stack: sp is never lowered", 0)
        used = [Data(f"what {self.where(pc)} uses", at, at + size) for pc, at, size in found.uses]
        room = room_of(self.setup, table.id, found.top, [*self._data, *used])
        is_over = found.depth.bytes > room.bytes
        if not is_over:
            self._look_at_pointers(table, found)
        frames = self._frames(found.depth)
        text = f"{found.depth.bytes:,} of {room.bytes:,} bytes: {' > '.join(map(str, frames))}"
        text += f"; below is {room.below}" if is_over else ""
        verdict = Verdict.OVER if is_over else Verdict.HOLDS
        return Stack(
            *(table.id, verdict, text, found.depth.bytes, room.bytes, found.top, frames),
            notes=(*found.notes, *self._configured),
        )

    def _look_at_pointers(self, table: ThreadTable, found: Deepest) -> None:
        """No store goes by a pointer that begins where a stack may be, and no data are."""
        data = self._data if self.program.path else ()
        for pc, number in found.pointers:
            if is_outside(self.setup, table.id, found.top, data, number):
                why = f"it stores by a pointer from {number:#x}, where no data of the executable"
                raise UnknownStack(pc, f"{why} are: how far it gets isn't known")

    @cached_property
    def _configured(self) -> list[str]:
        """That threads with a permit write slots, modes or regions."""
        permits = [it for it in self.setup.threads if it.permit]
        writes = [(it, ThreadCode(self.code, it.entry).configuration_write) for it in permits]
        return [
            f"assumes that regions stay as the setup has them: T{it.id} writes slots, modes or regions"
            for it, write in writes
            if write is not None
        ]

    def _constants(self, table: ThreadTable) -> list[int]:
        """The words of the instruction scratchpad that a thread may load and that are no code, as
        tables of pointers that are `const`."""
        own = (f"T{table.id}", "readonly")
        return [
            bits
            for at, bits in self._no_code.items()
            if not table.confined or self.setup.region("i_regions", at) in own
        ]

    @cached_property
    def _no_code(self) -> dict[int, int]:
        """The words of the instruction scratchpad that no thread issues, and that are in no
        function."""
        issued = {at for it in self.code.entries for at in ThreadCode(self.code, it).whole.words}
        functions = [range(it.start, it.end) for it in self.program.functions]
        return {
            it.pc: it.bits
            for it in self.code.placed
            if it.pc not in issued and not any(it.pc in part for part in functions)
        }

    @cached_property
    def _data(self) -> list[Data]:
        return data_of(self.program, self.image)

    def _frames(self, depth: Depth) -> tuple[Frame, ...]:
        """The chain to the deepest point, without an entry that has no bytes of its own."""
        steps = [it for at, it in enumerate(depth.steps) if it.bytes or at]
        lines = [self.program.line_of(it.pc) for it in steps]
        return tuple(
            Frame(self.name(it.pc), str(line or ""), it.bytes, it.is_trap)
            for it, line in zip(steps, lines)
        )

    def name(self, pc: int) -> str:
        """The function of a word, or the symbol before it."""
        function = self.program.function_at(pc)
        return function.name if function else self.program.name_of(pc).split("+")[0] or hex(pc)

    def where(self, pc: int) -> str:
        line = self.program.line_of(pc)
        return f"{pc:#x} {self.program.name_of(pc)}".rstrip() + (f" ({line})" if line else "")
