"""Refusal lines, as bytes with their line feed, and the numbers and names of faults."""

from enum import IntEnum


class SetupNo(IntEnum):
    """Faults of a setup."""

    TooLong = 1
    Toml = 2
    UnknownKey = 3
    MissingKey = 4
    WrongType = 5
    OutOfRange = 6
    BadSlot = 7
    BadMode = 8
    BadRegion = 9
    ConfinedPermit = 10
    DoubleThread = 11
    TooMany = 12


class SectionNo(IntEnum):
    """Why a section, or a thread, isn't accepted."""

    NotHard = 1
    NoSlot = 2
    Order = 3
    Misaligned = 4
    Outside = 5
    NotConfined = 6


class ImageNo(IntEnum):
    """Faults of an image."""

    TooLong = 1
    Magic = 2
    Truncated = 3
    BadSegment = 4
    Overlap = 5
    Trailing = 6


class ElfNo(IntEnum):
    """Faults of an executable."""

    TooLong = 31
    NotElf = 32
    Truncated = 33
    Class = 34
    ByteOrder = 35
    Kind = 36
    Machine = 37
    EntrySize = 38
    Dynamic = 39
    BadLoad = 40
    Overlap = 41
    TooManySegments = 42


class SourceNo(IntEnum):
    """Faults of a source."""

    TooLong = 1
    Lex = 2
    UnknownName = 3
    Operands = 4
    OutOfRange = 5
    DoubleLabel = 6
    NoLabel = 7
    Misaligned = 8
    OutsideMemory = 9
    Overlap = 10
    TooManySegments = 11


class BoundNo(IntEnum):
    """Why a section has no bound."""

    Nesting = 1
    IndirectJump = 2
    TimedWait = 3
    UnboundedBackEdge = 4
    Overflow = 6
    Overlap = 8
    Recursion = 9
    Escape = 10


class RoutinesNo(IntEnum):
    """Faults of a list of routines."""

    TooMany = 1
    BadLine = 2
    BadPlace = 3
    Order = 4


TOP_KEYS = ("version", "period", "image", "slots", "i_regions", "d_regions", "thread", "loop")
THREAD_KEYS = ("id", "mode", "entry", "confined", "permit", "unplug", "inputs")
LOOP_KEYS = ("head", "last", "bound")


def setup_line(code: SetupNo, path: str) -> bytes:
    return f"refused setup {code} {code.name} {path}\n".encode()


def section_line(code: SectionNo) -> bytes:
    return f"refused section {code} {code.name}\n".encode()


def image_line(code: ImageNo | ElfNo, offset: int) -> bytes:
    return f"refused image {code} {code.name} {offset}\n".encode()


def source_line(line: int, code: SourceNo) -> bytes:
    return f"refused source {line} {code} {code.name}\n".encode()


def bound_line(code: BoundNo, value: int) -> bytes:
    """The value is a sum of cycles of Overflow, and an address of the others."""
    shown = str(value) if code == BoundNo.Overflow else f"{value:08x}"
    return f"refused bound {code} {code.name} {shown}\n".encode()


def routines_line(line: int, code: RoutinesNo) -> bytes:
    return f"refused routines {line} {code} {code.name}\n".encode()
