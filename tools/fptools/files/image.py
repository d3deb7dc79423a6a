"""Reads an image in the format FPX1."""
from __future__ import annotations

import struct
from typing import TYPE_CHECKING, Mapping

from fptools.limits import DATA_START, LARGE, MOST_SEGMENTS

if TYPE_CHECKING:
    from pathlib import Path

MAGIC = b"FPX1"
ELF_MAGIC = b"\x7fELF"


class ImageError(Exception):
    """The bytes are no image."""


def words_of(data: bytes, start: int = 0) -> dict[int, int]:
    """The words of bytes that are placed from an address on; zeros fill the last word."""
    padded = data + bytes(-len(data) % 4)
    return {start + 4 * at: word for at, (word,) in enumerate(struct.iter_unpack("<I", padded))}


def read_image(path: Path | str) -> dict[int, int]:
    """The words that an image places, by address; a file that the program accepts in no setup is an `ImageError`."""
    with open(path, "rb") as file:
        data = file.read()
    if data[:4] == ELF_MAGIC:
        raise ImageError(f"{path} is an executable: `flexpret elf` makes an image of it")
    if data[:4] != MAGIC:
        raise ImageError(f"{path} is no image: it begins with {data[:40]!r}")
    words: dict[int, int] = {}
    try:
        (segments,) = struct.unpack_from("<I", data, 4)
        if segments > MOST_SEGMENTS:
            raise ImageError(f"{path} is no image: {segments} segments, of {MOST_SEGMENTS} at most")
        offset, before = 8, 0
        for _ in range(segments):
            start, length = struct.unpack_from("<II", data, offset)
            offset += 8
            _look_at(path, start, length, before)
            if offset + length > len(data):
                raise ImageError(f"{path} is no image: it was cut")
            words |= words_of(data[offset : offset + length], start)
            offset, before = offset + length, start + length
    except struct.error as fault:
        raise ImageError(f"{path} is no image: it was cut") from fault
    if offset < len(data):
        raise ImageError(f"{path} is no image: bytes follow its last segment")
    return words


def _look_at(path: Path | str, start: int, length: int, before: int) -> None:
    """A segment is of whole words in one scratchpad, behind the one before."""
    is_inside = any(base <= start and start + length <= base + LARGE for base in (0, DATA_START))
    if start % 4 or length % 4 or not length or not is_inside:
        raise ImageError(f"{path} is no image: a segment of {length} bytes at {start:#x}")
    if start < before:
        raise ImageError(
            f"{path} is no image: the segment at {start:#x} isn't behind the one before"
        )


def write_image(words: Mapping[int, int]) -> bytes:
    """An image that places words at their addresses, and zeros between them: a segment for each scratchpad."""
    segments = []
    for base in (0, DATA_START):
        placed = [at for at in words if base <= at < base + LARGE]
        if placed:
            first, last = min(placed), max(placed)
            data = b"".join(struct.pack("<I", words.get(at, 0)) for at in range(first, last + 4, 4))
            segments.append(struct.pack("<II", first, len(data)) + data)
    return MAGIC + struct.pack("<I", len(segments)) + b"".join(segments)
