"""A setup as a picture: the owners of slots and regions, and the image's content in them."""

from dataclasses import dataclass
from typing import Mapping, Sequence

from fptools.files.setup import REGIONS, Setup
from fptools.limits import DATA_START
from fptools.isa.turns import DISABLED

SLOT_TEXTS = {"S": "soft threads", DISABLED: "disabled"}


@dataclass(frozen=True)
class Slot:
    """A slot of the setup: its owner, and its place in the frame; None where it is disabled."""

    number: int
    owner: str
    text: str
    place: int | None


@dataclass(frozen=True)
class Region:
    """An eighth of a scratchpad, the bytes of the image in it, and the names in it."""

    number: int
    start: int
    end: int
    owner: str
    used: int  # bytes
    names: list[str]

    @property
    def size(self) -> int:
        return self.end - self.start

    @property
    def part(self) -> float:
        """How much of it the image fills, in percent."""
        return round(100 * self.used / self.size, 2)


@dataclass(frozen=True)
class Thread:
    """A thread as the setup starts it."""

    number: int
    mode: str
    entry: str
    rights: str
    slots: int
    inputs: int


@dataclass(frozen=True)
class Place:
    """A named address of code."""

    address: int
    name: str


def slots_of(setup: Setup) -> list[Slot]:
    """The eight slots in their order."""
    slots, place = [], 0
    for number, owner in enumerate(setup.slots):
        is_used = owner != DISABLED
        text = SLOT_TEXTS.get(owner, f"thread {owner[1:]}")
        slots.append(Slot(number, owner, text, place if is_used else None))
        place += is_used
    return slots


def regions_of(
    setup: Setup, key: str, image: Mapping[int, int], places: Sequence[Place] = ()
) -> list[Region]:
    """The regions of `i_regions` or `d_regions`, by rising addresses."""
    base, size = (DATA_START if key == "d_regions" else 0), setup.size // REGIONS
    regions = []
    for number, owner in enumerate(setup.values[key]):
        start = base + number * size
        used = sum(4 for at in image if start <= at < start + size)
        names = [it.name for it in places if start <= it.address < start + size]
        regions.append(Region(number, start, start + size, owner, used, names))
    return regions


def threads_of(setup: Setup, names: Mapping[int, str]) -> list[Thread]:
    """The threads that the setup has tables of; `names` are those of their entries."""
    found = []
    for it in sorted(setup.threads, key=lambda table: table.id):
        rights = "confined" if it.confined else "has a permit" if it.permit else "not confined"
        entry = f"{it.entry:#x} {names.get(it.entry, '')}".rstrip()
        own = setup.slots.count(f"T{it.id}")
        found.append(Thread(it.id, it.mode, entry, rights, own, len(it.inputs)))
    return found
