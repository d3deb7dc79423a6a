"""Words of 32 bits, fields of bits, and nibbles."""

from collections.abc import Iterable

TWO32 = 1 << 32
LAST_WORD = TWO32 - 1


def word(number: int) -> int:
    """A number modulo 2^32."""
    return number % TWO32


def signed(value: int, width: int = 32) -> int:
    """A field of some bits as a number in two's complement."""
    value %= 1 << width
    return value - (1 << width) if value >> (width - 1) else value


def bits(value: int, high: int, low: int) -> int:
    """The bits `high` to `low` of a word."""
    return (value >> low) % (1 << (high - low + 1))


def nibble(value: int, k: int) -> int:
    """The four bits at 4 k."""
    return bits(value, 4 * k + 3, 4 * k)


def nibbles_word(values: Iterable[int]) -> int:
    """The word of eight nibbles, the lowest first."""
    return sum(value << 4 * k for k, value in enumerate(values))


def u32(data: bytes | bytearray, at: int) -> int:
    """The little-endian word at an index of bytes."""
    return int.from_bytes(data[at : at + 4], "little")
