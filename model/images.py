"""Images: the segments of the format FPX1, or the first fault of a file."""

from dataclasses import dataclass

from model.bits import u32
from model.refusals import ImageNo
from model.setups import LARGE, SMALL

MAGIC = b"FPX1"
MOST_SEGMENTS = 16
MOST_BYTES = {SMALL: 34_816, LARGE: 139_264}
"""The most bytes of a file, by the bytes of a scratchpad."""

DATA = 0x20000000
"""The first address of the data scratchpad; that of instructions begins at 0."""

Segments = list[tuple[int, bytes]]
"""Addresses with the bytes from there on."""


class ImageFault(Exception):
    """The first fault of an image, with its offset in the file."""

    def __init__(self, code: ImageNo, offset: int) -> None:
        super().__init__(code, offset)
        self.code, self.offset = code, offset


@dataclass(frozen=True)
class Image:
    """The segments of an accepted image, which rise."""

    segments: Segments

    def word(self, address: int) -> int:
        """The word at an address; 0 if no segment has it."""
        for start, data in self.segments:
            if start <= address < start + len(data):
                return u32(data, address - start)
        return 0

    def scratchpad(self, base: int, size: int) -> bytearray:
        """The bytes of a scratchpad that begins at an address."""
        memory = bytearray(size)
        for address, data in self.segments:
            if base <= address < base + size:
                memory[address - base : address - base + len(data)] = data
        return memory

    def written(self) -> bytes:
        """The bytes of the file."""
        head = MAGIC + len(self.segments).to_bytes(4, "little")
        return head + b"".join(
            _number(address) + _number(len(data)) + data for address, data in self.segments
        )


def _number(value: int) -> bytes:
    return value.to_bytes(4, "little")


def image_of_words(words: dict[int, int]) -> Image:
    """The image of words by their addresses: a segment for each run without a gap."""
    segments: list[tuple[int, bytearray]] = []
    for address in sorted(words):
        if not segments or segments[-1][0] + len(segments[-1][1]) != address:
            segments.append((address, bytearray()))
        segments[-1][1].extend(_number(words[address]))
    return Image([(address, bytes(data)) for address, data in segments])


def is_inside(address: int, length: int, size: int) -> bool:
    """Whether a range of bytes is in one scratchpad."""
    return any(base <= address and address + length <= base + size for base in (0, DATA))


def read_image(data: bytes, size: int) -> Image:
    """The image of a file, for scratchpads of a size; raises ImageFault with its first fault."""
    if len(data) > MOST_BYTES[size]:
        raise ImageFault(ImageNo.TooLong, 0)
    if data[:4] != MAGIC:
        raise ImageFault(ImageNo.Magic, 0)
    if len(data) < 8:
        raise ImageFault(ImageNo.Truncated, len(data))
    if u32(data, 4) > MOST_SEGMENTS:
        raise ImageFault(ImageNo.BadSegment, 4)
    at, end, segments = 8, 0, Segments()
    for _ in range(u32(data, 4)):
        address, length = _segment_head(data, at, end, size)
        segments.append((address, bytes(data[at + 8 : at + 8 + length])))
        at, end = at + 8 + length, address + length
    if at < len(data):
        raise ImageFault(ImageNo.Trailing, at)
    return Image(segments)


def _segment_head(data: bytes, at: int, end: int, size: int) -> tuple[int, int]:
    """The address and length of a segment at an index of the file; the one before it ends at an address."""
    if len(data) < at + 8:
        raise ImageFault(ImageNo.Truncated, len(data))
    address, length = u32(data, at), u32(data, at + 4)
    if address % 4 or length % 4 or length == 0 or not is_inside(address, length, size):
        raise ImageFault(ImageNo.BadSegment, at)
    if address < end:
        raise ImageFault(ImageNo.Overlap, at)
    if len(data) < at + 8 + length:
        raise ImageFault(ImageNo.Truncated, len(data))
    return address, length
