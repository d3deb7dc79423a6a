"""The configuration registers: slots, modes and regions, and the rights that they give."""

from collections.abc import Sequence

from model.images import DATA
from model.bits import bits, nibble
from model.setups import HARD, NO_SLOT, READ_ONLY, SHARED, SOFT, SOFT_SLOT, THREADS

SLOTS, MODES, DREGIONS, IREGIONS = 0x7C0, 0x7C1, 0x7C2, 0x7C3
MACHINE_CSRS = (SLOTS, MODES, DREGIONS, IREGIONS)
MTVEC, MSCRATCH, MEPC, MCAUSE, MHARTID = 0x305, 0x340, 0x341, 0x342, 0xF14

PORT = 0x40000000
"""The address of a thread's port."""


def frame(slots: int) -> list[int]:
    """The entries of the slots register but those that are nobody's."""
    return [entry for entry in (nibble(slots, k) for k in range(8)) if entry != NO_SLOT]


def own_positions(slots: int, thread: int) -> list[int]:
    """The positions in the frame that are a thread's."""
    return [k for k, entry in enumerate(frame(slots)) if entry == thread]


def turn(slots: int, cycle: int) -> int:
    """The entry of a cycle; NO_SLOT where the frame is empty."""
    entries = frame(slots)
    return entries[cycle % len(entries)] if entries else NO_SLOT


def mode(modes: int, thread: int) -> int:
    return bits(modes, 2 * thread + 1, 2 * thread)


def pick(
    slots: int, modes: int, sleeps: Sequence[int], cycle: int, now: int, last: int
) -> tuple[int | None, int]:
    """Who has a cycle whose time is `now`, and the round-robin pointer behind it, which before it is `last`."""

    def is_awake(thread: int) -> bool:
        return mode(modes, thread) in (HARD, SOFT) and now >= sleeps[thread]

    entry = turn(slots, cycle)
    if entry == NO_SLOT:
        return None, last
    if entry != SOFT_SLOT and is_awake(entry):
        return entry, last
    for step in range(1, THREADS + 1):
        thread = (last + step) % THREADS
        if is_awake(thread) and mode(modes, thread) == SOFT:
            return thread, thread
    return None, last


def is_allowed_word(csr: int, value: int) -> bool:
    """Whether a configuration register may have a word."""
    if csr == MODES:
        return value < 1 << 16
    if csr == SLOTS:
        return all(not THREADS <= nibble(value, k) < SOFT_SLOT for k in range(8))
    return all(nibble(value, k) <= SHARED or nibble(value, k) == READ_ONLY for k in range(8))


class Regions:
    """The owner of each eighth of a scratchpad, by the two registers, and a thread's rights there."""

    def __init__(self, iregions: int, dregions: int, size: int) -> None:
        self.iregions, self.dregions, self.size = iregions, dregions, size

    def owner(self, address: int, width: int) -> int | None:
        """The entry of the region of so many bytes; None where they aren't in one scratchpad."""
        if address + width <= self.size:
            return nibble(self.iregions, address // (self.size // 8))
        if DATA <= address and address + width <= DATA + self.size:
            return nibble(self.dregions, (address - DATA) // (self.size // 8))
        return None

    def may_fetch(self, thread: int, confined: bool, address: int) -> bool:
        return address < DATA and self._may_see(thread, confined, address, 4)

    def may_load(self, thread: int, confined: bool, address: int, width: int) -> bool:
        return (address == PORT and width == 4) or self._may_see(thread, confined, address, width)

    def may_store(self, thread: int, address: int, width: int) -> bool:
        if address == PORT:
            return width == 4
        return address >= DATA and self.owner(address, width) in (thread, SHARED)

    def _may_see(self, thread: int, confined: bool, address: int, width: int) -> bool:
        owner = self.owner(address, width)
        return owner is not None and (not confined or owner in (thread, READ_ONLY))
