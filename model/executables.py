"""Executables: the image of an ELF file, or its first fault."""

from dataclasses import dataclass
from typing import NamedTuple

from model.images import MOST_SEGMENTS, Image, image_of_words, is_inside
from model.bits import u32
from model.refusals import ElfNo
from model.setups import LARGE

MOST_BYTES = 4_194_304
HEADER_BYTES, PROGRAM_HEADER_BYTES = 52, 32
CLASS_32, LITTLE_ENDIAN, EXECUTABLE, RISC_V = 1, 1, 2, 243
LOAD, DYNAMIC, INTERPRETER = 1, 2, 3


class ElfFault(Exception):
    """The first fault of an executable, with its offset in the file."""

    def __init__(self, code: ElfNo, offset: int) -> None:
        super().__init__(code, offset)
        self.code, self.offset = code, offset


class ProgramHeader(NamedTuple):
    """A program header, field by field."""

    kind: int
    offset: int
    virtual: int
    physical: int
    in_file: int
    in_memory: int
    flags: int
    align: int


def u16(data: bytes, at: int) -> int:
    return int.from_bytes(data[at : at + 2], "little")


def check_header(data: bytes) -> None:
    """Raises the first fault of the bytes before the program headers."""
    if len(data) > MOST_BYTES:
        raise ElfFault(ElfNo.TooLong, 0)
    if data[:4] != b"\x7fELF":
        raise ElfFault(ElfNo.NotElf, 0)
    if len(data) < HEADER_BYTES:
        raise ElfFault(ElfNo.Truncated, len(data))
    for at, found, wanted, code in (
        (4, data[4], CLASS_32, ElfNo.Class),
        (5, data[5], LITTLE_ENDIAN, ElfNo.ByteOrder),
        (16, u16(data, 16), EXECUTABLE, ElfNo.Kind),
        (18, u16(data, 18), RISC_V, ElfNo.Machine),
    ):
        if found != wanted:
            raise ElfFault(code, at)
    if u16(data, 44) != 0 and u16(data, 42) != PROGRAM_HEADER_BYTES:
        raise ElfFault(ElfNo.EntrySize, 42)


@dataclass
class Loader:
    """The bytes that loads have placed so far, by address."""

    data: bytes
    memory: dict[int, int]

    def take(self, at: int) -> None:
        """Takes the program header at an offset of the file."""
        if at + PROGRAM_HEADER_BYTES > len(self.data):
            raise ElfFault(ElfNo.Truncated, len(self.data))
        header = ProgramHeader(*(u32(self.data, at + 4 * k) for k in range(8)))
        if header.kind in (DYNAMIC, INTERPRETER):
            raise ElfFault(ElfNo.Dynamic, at)
        if header.kind == LOAD:
            self._load(header, at)

    def _load(self, header: ProgramHeader, at: int) -> None:
        is_outside = header.in_memory != 0 and not is_inside(
            header.virtual, header.in_memory, LARGE
        )
        if header.in_file > header.in_memory or is_outside:
            raise ElfFault(ElfNo.BadLoad, at)
        if header.in_file != 0 and header.offset + header.in_file > len(self.data):
            raise ElfFault(ElfNo.Truncated, len(self.data))
        addresses = range(header.virtual, header.virtual + header.in_memory)
        if not self.memory.keys().isdisjoint(addresses):
            raise ElfFault(ElfNo.Overlap, at)
        self.memory.update(dict.fromkeys(addresses, 0))
        loaded = self.data[header.offset : header.offset + header.in_file]
        self.memory.update(zip(addresses, loaded))


def read_elf(data: bytes) -> Image:
    """The image of an executable; raises ElfFault with its first fault."""
    check_header(data)
    loader = Loader(data, {})
    for k in range(u16(data, 44)):
        loader.take(u32(data, 28) + PROGRAM_HEADER_BYTES * k)
    words = {address & ~3 for address in loader.memory}
    image = image_of_words(
        {a: sum(loader.memory.get(a + k, 0) << 8 * k for k in range(4)) for a in words}
    )
    if len(image.segments) > MOST_SEGMENTS:
        raise ElfFault(ElfNo.TooManySegments, 44)
    return image
