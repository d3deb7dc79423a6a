"""The room that a thread's data leave for its stack, in the thread's own regions."""
from __future__ import annotations

from dataclasses import dataclass
from typing import Collection, Iterable, Mapping

from fptools.files.elf import Program
from fptools.files.setup import REGIONS, Setup
from fptools.limits import DATA_START, LARGE
from fptools.stack.flow import SharedStack

ALLOCATED = 2  # the flag of a section that takes room in memory
OF_STACKS = "stack"
"""What the name of a section has that a linker script keeps free for a stack."""


@dataclass(frozen=True)
class Data:
    """Bytes of the data scratchpad that aren't stack: from `start` up to below `end`."""

    name: str
    start: int
    end: int

    def holds(self, address: int) -> bool:
        return self.start <= address < self.end


@dataclass(frozen=True)
class Room:
    """The bytes from `low` up to a stack's top, and what is below them."""

    low: int
    bytes: int
    below: str


def data_of(program: Program, image: Mapping[int, int]) -> list[Data]:
    """The data of an executable, by its sections; without one the words of the image that aren't
    0."""
    if program.path is None:
        words = (at for at, bits in sorted(image.items()) if bits and is_data(at))
        return [Data(f"the word at {at:#x}", at, at + 4) for at in words]
    from fptools.files.pyelf import ELFFile

    with program.path.open("rb") as file:
        sections = [it for it in ELFFile(file).iter_sections() if it["sh_flags"] & ALLOCATED]
        found = [Data(it.name, it["sh_addr"], it["sh_addr"] + it["sh_size"]) for it in sections]
    return [it for it in found if it.end > it.start and is_data(it.start)]


def is_data(address: int) -> bool:
    """Whether an address is one of the data scratchpad, in a setup of any version."""
    return DATA_START <= address < DATA_START + LARGE


def own_regions(setup: Setup, own: str, at: int) -> tuple[int, int]:
    """Where the regions of a thread around one of them begin and end."""
    size, owners = setup.size // REGIONS, setup.values["d_regions"]
    first = last = at
    while first > 0 and owners[first - 1] == own:
        first -= 1
    while last + 1 < REGIONS and owners[last + 1] == own:
        last += 1
    return DATA_START + first * size, DATA_START + (last + 1) * size


def is_outside(setup: Setup, thread: int, top: int, data: Collection[Data], address: int) -> bool:
    """Whether an address of the regions around a stack is in no data of an executable, nor at an
    end of such data, nor below them: what code does from there on may be anywhere in the stack."""
    size = setup.size // REGIONS
    start, end = own_regions(setup, f"T{thread}", (top - 1 - DATA_START) // size)
    own = [it for it in data if OF_STACKS not in it.name]
    below = max((it.end for it in own if it.end <= top), default=start - 1)
    is_known = address <= below or any(it.start <= address <= it.end for it in own)
    return start <= address < end and not is_known


def room_of(setup: Setup, thread: int, top: int, data: Iterable[Data]) -> Room:
    """The room of a thread's stack below its top. It has none where its stores trap."""
    size, owners, own = setup.size // REGIONS, setup.values["d_regions"], f"T{thread}"
    at = (top - 1 - DATA_START) // size
    owner = owners[at] if 0 <= at < REGIONS else None
    if owner == "shared":
        raise SharedStack(
            top, f"the stack begins at {top:#x}, in a shared region: other threads may store there"
        )
    if owner != own:
        whose = f"the region is {owner}'s" if owner else "which is no address of data"
        return Room(top, 0, f"{top:#x}: each store traps, {whose}")
    low, below = own_regions(setup, own, at)[0], f"the end of the regions of {own}"
    for it in data:
        is_kept_free = OF_STACKS in it.name and it.holds(top - 1)
        end = it.start if is_kept_free else min(it.end, top)
        if it.start < top and end > low:
            low, below = end, it.name
    return Room(low, top - low, below)
