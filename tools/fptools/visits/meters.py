"""What all meters share: their protocol, first tries, and words that a trace has issued.

Each meter takes the blocks of a trace in order. Cycles are counted as the bound counts them: from an
issue of a section's first word to the first issue outside of the section (docs/BOUNDS.md, "What the
number means")."""
from __future__ import annotations

import re
from functools import lru_cache
from typing import Callable, Collection, Protocol

from fptools.files.trace_blocks import CYCLE, EFFECT, PC, PLACE, Block, TraceReader, class_of
from fptools.isa.turns import Turns, lag
from fptools.isa.words import Word

TAKES_TURN = (1, 24)
"""The causes of a refused fetch and an expiry: the word at the pc doesn't issue."""


class Meter(Protocol):
    def take(self, block: Block) -> None:
        """Takes the next block."""

    def end(self, cycle: int) -> None:
        """Takes note that the trace ended, with an event of this cycle."""


def first_try(block: Block, index: int, turns: Turns | None) -> int:
    """The cycle in which an event's word issued first: a DU that spins shows only the issue that goes on."""
    cycle, earliest = block.cycle(index), earliest_issue(block, index)
    return cycle if earliest is None or turns is None else min(cycle, turns.next(earliest))


def earliest_issue(block: Block, index: int) -> int | None:
    """The first cycle that the lag of the issue before allows to an event; None where that isn't known,
    or the thread slept."""
    line, before = block.lines[index], block.line(index - 1)
    if before is None or before[EFFECT] == b"wait":
        return None
    return int(before[CYCLE]) + _lag(before[PLACE], line[PC], before[EFFECT].startswith(b"trap"))


@lru_cache(maxsize=1 << 14)
def _lag(place: bytes, to: bytes, traps: bool) -> int:
    """The least number of cycles from an issue to the next one, as lines spell them."""
    pc, bits = place.split()
    return lag(Word(int(pc, 16), int(bits, 16)), int(to, 16), traps)


class Known:
    """The addresses of the words of some kind, among those that a trace has issued so far."""

    def __init__(self, reader: TraceReader, is_wanted: Callable[[Word], bool]) -> None:
        self._reader, self._is_wanted = reader, is_wanted
        self._looked_at: set[int] = set()
        self.pcs: set[int] = set()
        self.pattern: re.Pattern[str] | None = None

    def learn(self) -> bool:
        """Looks at the words that came since the last call, and answers whether there were any."""
        words = self._reader.words
        new = words.keys() - self._looked_at if len(words) > len(self._looked_at) else set()
        self._looked_at |= new
        self.pcs |= {pc for pc in new if self._is_wanted(Word(pc, words[pc]))}
        if new and self.pcs:
            self.pattern = re.compile(f"[{class_of(*self.pcs)}]")
        return bool(new)

    def __contains__(self, pc: int) -> bool:
        return pc in self.pcs


def cause_of(line: bytes) -> int:
    """The cause of an event that is a trap."""
    return int(line[EFFECT].split(b" ")[1])


def measure(reader: TraceReader, meters: Collection[Meter]) -> None:
    """Has all meters take a trace. They are ended too where the trace is broken, before that is raised."""
    try:
        for block in reader.blocks():
            for meter in meters:
                meter.take(block)
    finally:
        if reader.last_cycle is not None:
            for meter in meters:
                meter.end(reader.last_cycle)
