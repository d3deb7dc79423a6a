"""When a hard thread issues: its turns in the frame, and the lag of each instruction."""

from dataclasses import dataclass
from functools import cached_property, lru_cache

from fptools.files.setup import Setup
from fptools.isa.words import OPCODE_BRANCH, OPCODE_TIMING, Flow, Word

PLAIN_LAG, LATE_LAG, REDIRECT_LAG = 1, 2, 3  # cycles
OPCODE_LOAD, OPCODE_REGISTERS, OPCODE_SYSTEM = 0x03, 0x33, 0x73
FUNCT7_MULDIV = 1
FUNCT3_GET_TIME = (0, 1)  # GT, GTH
FUNCT3_DELAY = 2
DISABLED = "D"


@dataclass(frozen=True)
class Turns:
    """The positions of a thread in the frame."""

    own: frozenset[int]
    length: int

    def owns(self, cycle: int) -> bool:
        return cycle % self.length in self.own

    def next(self, cycle: int) -> int:
        """The first turn in or after a cycle."""
        return cycle + self._gaps[cycle % self.length]

    @cached_property
    def _gaps(self) -> list[int]:
        """The cycles from each position to the thread's next one."""
        length = range(self.length)
        return [next(gap for gap in length if self.owns(at + gap)) for at in length]


def turns_of(setup: Setup, thread: int) -> Turns | None:
    """The turns of a thread, where they are the same in each run: it starts hard and awake, and nobody
    has a permit."""
    own = setup.thread(thread)
    if own is None or own.mode != "hard" or setup.has_permits:
        return None
    frame = [slot for slot in setup.slots if slot != DISABLED]
    positions = frozenset(at for at, slot in enumerate(frame) if slot == f"T{thread}")
    return Turns(positions, len(frame)) if positions else None


def lag(word: Word, to: int, traps: bool) -> int:
    """The least number of cycles from an issue to the next one, which is at the address `to`."""
    if traps or word.flow not in (Flow.NEXT, Flow.BRANCH):
        return REDIRECT_LAG
    if word.opcode == OPCODE_BRANCH:
        return PLAIN_LAG if to == word.next else REDIRECT_LAG
    if (
        word.opcode == OPCODE_SYSTEM
        or word.opcode == OPCODE_TIMING
        and word.funct3 not in FUNCT3_GET_TIME
    ):
        return REDIRECT_LAG
    is_late = (
        word.opcode == OPCODE_LOAD
        or word.opcode == OPCODE_REGISTERS
        and word.field(25, 7) == FUNCT7_MULDIV
    )
    return LATE_LAG if is_late else PLAIN_LAG


@lru_cache(maxsize=1 << 14)
def is_delay(bits: int) -> bool:
    """Whether a word is a DU, which shows no line while it spins."""
    word = Word(0, bits)
    return word.opcode == OPCODE_TIMING and word.funct3 == FUNCT3_DELAY and word.is_code
