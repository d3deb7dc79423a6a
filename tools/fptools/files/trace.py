"""The events of a trace, as `flexpret run` writes them.

    from fptools.files.trace import read_trace

    with open("drive.trace", "rb") as file:
        for event in read_trace(file):
            print(event.cycle, hex(event.pc), event.value)

At a line that is no event `read_trace` raises `BrokenTrace`; it has given all events before it. If few
events of a long trace are wanted, `fptools.files.trace_blocks` and `fptools.visits.meters` are ten times as fast."""

import re
from dataclasses import dataclass
from typing import Iterator

from fptools.files.trace_blocks import BITS, CYCLE, EFFECT, PC, Block, Source, TraceReader

STORE = re.compile(r"\[([0-9a-f]{8})\]/([124])=([0-9a-f]{8})")
TRAP = re.compile(r"trap (\d+) -> ([0-9a-f]{8})")
REGISTER = re.compile(r"x(\d\d)=([0-9a-f]{8})")
CSR = re.compile(r"csr ([0-9a-f]{3})=([0-9a-f]{8})")
FETCH_REFUSED, EXPIRY = 1, 24
CAUSES = {
    0: "misaligned jump",
    FETCH_REFUSED: "fetch access",
    2: "illegal instruction",
    3: "breakpoint",
    4: "misaligned load",
    5: "load access",
    6: "misaligned store",
    7: "store access",
    11: "ECALL",
    EXPIRY: "expiry",
}


@dataclass(frozen=True)
class Stored:
    """A store: its address, its bytes, and their value."""

    address: int
    size: int
    value: int


@dataclass(frozen=True)
class Event:
    """A line of a trace, and the cycles since the line before it."""

    cycle: int
    gap: int
    pc: int
    bits: int  # the word at the pc; 0 where none issues
    effect: str

    @property
    def stored(self) -> Stored | None:
        """The word that is stored."""
        found = STORE.match(self.effect)
        return Stored(int(found[1], 16), int(found[2]), int(found[3], 16)) if found else None

    @property
    def store(self) -> int | None:
        """The address that is stored to."""
        stored = self.stored
        return stored.address if stored else None

    @property
    def register(self) -> int | None:
        """The number of the register that gets a value."""
        found = REGISTER.match(self.effect)
        return int(found[1]) if found else None

    @property
    def value(self) -> int | None:
        """The value that a register gets."""
        found = REGISTER.match(self.effect)
        return int(found[2], 16) if found else None

    @property
    def csr(self) -> tuple[int, int] | None:
        """The number of a CSR that is written, and the word that it keeps."""
        found = CSR.search(self.effect)
        return (int(found[1], 16), int(found[2], 16)) if found else None

    @property
    def cause(self) -> int | None:
        """The cause of a trap."""
        found = TRAP.match(self.effect)
        return int(found[1]) if found else None

    @property
    def handler(self) -> int | None:
        """The address where the thread goes on after a trap."""
        found = TRAP.match(self.effect)
        return int(found[2], 16) if found else None

    @property
    def issues(self) -> bool:
        """False where a refused fetch or an expiry takes the turn, and there is no word."""
        return self.cause not in (FETCH_REFUSED, EXPIRY)

    @property
    def is_wait(self) -> bool:
        """Whether the thread goes to sleep."""
        return self.effect == "wait"


def event_of(block: Block, index: int) -> Event:
    """An event of a block. The gap of the first of all is 0."""
    line, before = block.lines[index], block.line(index - 1)
    cycle = int(line[CYCLE])
    gap = cycle - int(before[CYCLE]) if before is not None else 0
    return Event(cycle, gap, int(line[PC], 16), int(line[BITS], 16), line[EFFECT].decode("ascii"))


def read_trace(
    source: Source, name: str = "trace", start: int = 0, end: int | None = None
) -> Iterator[Event]:
    """The events of a trace in order, from cycle `start` on and before cycle `end`. A broken line is a
    `BrokenTrace`."""
    for block in TraceReader(source, name, start, end).blocks():
        yield from (event_of(block, index) for index in range(len(block.lines)))
