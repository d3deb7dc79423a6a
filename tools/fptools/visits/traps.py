"""Counts the traps of a trace, and finds one that a thread hasn't come back from."""
from __future__ import annotations

from fptools.files.trace_blocks import BITS, PC, Block, TraceReader, character
from fptools.isa.words import MRET
from fptools.visits.meters import Known, cause_of
from fptools.visits.seen import TrapAt, Trapped

JUMP_TO_ITSELF = 0x0000006F  # `j .`


class TrapMeter:
    """Counts traps by address and cause."""

    def __init__(self) -> None:
        self.seen: dict[tuple[int, int], Trapped] = {}

    def take(self, block: Block) -> None:
        for index in block.traps:
            line = block.lines[index]
            pc, cause = int(line[PC], 16), cause_of(line)
            trapped = self.seen.get((pc, cause))
            if trapped is None:
                trapped = self.seen[pc, cause] = Trapped(pc, cause, first=block.cycle(index))
            trapped.count += 1

    def end(self, cycle: int) -> None:
        """Nothing is open at the end."""


class OpenTrapMeter:
    """Finds the newest trap from which a thread hasn't come back by an MRET."""

    def __init__(self, reader: TraceReader) -> None:
        self.trap: TrapAt | None = None
        self.stands_still = False  # the last event is a jump to itself, or a trap
        self._known = Known(reader, lambda word: word.bits == MRET)
        self._last = b""

    def take(self, block: Block) -> None:
        self._known.learn()
        returned = max((block.events.rfind(character(pc)) for pc in self._known.pcs), default=-1)
        trapped = block.traps[-1] if block.traps else -1
        if trapped > returned:
            line = block.lines[trapped]
            self.trap = TrapAt(int(line[PC], 16), cause_of(line), block.cycle(trapped))
        elif returned >= 0:
            self.trap = None
        self._last = block.lines[-1]
        self.stands_still = (
            int(self._last[BITS], 16) == JUMP_TO_ITSELF or trapped == len(block.lines) - 1
        )

    def end(self, cycle: int) -> None:
        """Nothing is open at the end."""
