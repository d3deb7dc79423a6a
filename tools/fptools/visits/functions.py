"""Measures the executions of functions."""
from __future__ import annotations

from bisect import bisect_left
from dataclasses import dataclass
from typing import Iterable

from fptools.files.trace_blocks import BITS, PC, Block, TraceReader, address
from fptools.isa.turns import Turns, is_delay
from fptools.isa.words import OPCODE_JAL, OPCODE_JALR, Word
from fptools.visits.meters import Known, first_try
from fptools.visits.seen import Executions, Watched

MOST_OPEN_CALLS = 10_000
RETURN_REGISTER = 1


def _is_call(word: Word) -> bool:
    """Whether a word keeps the next address in x1."""
    return word.opcode in (OPCODE_JAL, OPCODE_JALR) and word.rd == RETURN_REGISTER and word.is_code


def _is_jump_by_register(word: Word) -> bool:
    return word.opcode == OPCODE_JALR and word.rd == 0 and word.is_code


@dataclass(frozen=True)
class _Open:
    """A call that hasn't returned: the address after it, its cycle, how many traps there were before it,
    and whom it called."""

    back: int
    cycle: int
    traps: int
    callee: int | None


class CallMeter:
    """Measures functions: from the issue of a call to the first issue after its return, with all that
    the function calls."""

    def __init__(
        self, watched: Iterable[Watched], turns: Turns | None, reader: TraceReader
    ) -> None:
        self.seen = {it.start: Executions(it) for it in watched}
        self._turns, self._reader = turns, reader
        self._known = Known(reader, lambda word: _is_call(word) or _is_jump_by_register(word))
        self._stack: list[_Open] = []
        self._began_before: dict[int, int] = {}  # the cycle of the newest call of each function
        self._traps = 0
        self._jump: bytes | None = None  # a call or return at the end of the block before

    def take(self, block: Block) -> None:
        self._known.learn()
        if self._jump is not None:
            self._take_jump(block, -1)
            self._jump = None
        if self._known.pattern is not None:
            for jump in self._known.pattern.finditer(block.events):
                if jump.start() + 1 == len(block.events):
                    self._jump = block.lines[-1]
                else:
                    self._take_jump(block, jump.start())
        self._traps += len(block.traps)

    def end(self, cycle: int) -> None:
        for call in self._stack:
            if call.callee in self.seen:
                self.seen[call.callee].unfinished = call.cycle, cycle - call.cycle
        for callee, begin in self._began_before.items():
            self.seen[callee].last_begin = begin

    def _take_jump(self, block: Block, index: int) -> None:
        line = self._jump if index < 0 else block.lines[index]
        assert line is not None
        pc, to = int(line[PC], 16), address(block.events[index + 1])
        traps = self._traps + bisect_left(block.traps, index + 1)
        if _is_call(Word(pc, int(line[BITS], 16))):
            self._call(pc, to, int(line[:10]), traps)
        elif to is not None:
            self._return(block, index + 1, to, traps)

    def _call(self, pc: int, callee: int | None, cycle: int, traps: int) -> None:
        if len(self._stack) == MOST_OPEN_CALLS:
            del self._stack[: MOST_OPEN_CALLS // 2]
        self._stack.append(_Open(pc + 4, cycle, traps, callee))
        if callee in self.seen:
            if callee in self._began_before:
                before = self._began_before[callee]
                self.seen[callee].periods.add(cycle - before, before)
            self._began_before[callee] = cycle

    def _return(self, block: Block, index: int, to: int, traps: int) -> None:
        """Closes the newest open call that this comes back to, and those within it. Another jump is none."""
        for depth in range(len(self._stack) - 1, -1, -1):
            if self._stack[depth].back == to:
                break
        else:
            return
        call = self._stack[depth]
        del self._stack[depth:]
        if call.callee not in self.seen:
            return
        seen = self.seen[call.callee]
        is_du = is_delay(self._reader.words.get(to, 0))
        cycles = (
            first_try(block, index, self._turns) if is_du else block.cycle(index)
        ) - call.cycle
        if traps > call.traps:
            seen.interrupted.add(cycles, call.cycle)
            seen.traps += traps - call.traps
        else:
            seen.whole.add(cycles, call.cycle)
            seen.met(call.cycle, cycles)
