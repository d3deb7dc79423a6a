"""Values of registers and memory, as far as they are of the two words of a moment.

Of a value is known: a number; a distance from a value that isn't known; the high word of a
moment plus nanoseconds; or the carry of an addition to a low word. Distances may have multiples
of how often loops have gone back."""
from __future__ import annotations

from dataclasses import dataclass, replace
from typing import Hashable, Union

from fptools.code.ranges import ANYTHING, Range, range_of
from fptools.code.unfolded import Place
from fptools.period.sums import ZERO, Sum
from fptools.isa.words import OPCODE_AUIPC, OPCODE_IMMEDIATE, OPCODE_LUI, OPCODE_REGISTERS, Word

LOW, TWICE = 2**32, 2**64
ADD, SLTU, XOR, OR = 0, 3, 4, 6
SHIFTS = 1, 5
SUB_OR_SRA = 32


@dataclass(frozen=True)
class Linear:
    """A value that isn't known plus a sum, or only a sum, modulo 2^32."""

    origin: Hashable
    offset: Sum = ZERO


@dataclass(frozen=True)
class High:
    """The high word of a moment plus nanoseconds. The low word of the same is `low_of` it."""

    base: Hashable
    added: Sum = ZERO  # modulo 2^64


@dataclass(frozen=True)
class LowOf:
    """The low word of a moment, as the origin of values."""

    base: Hashable


@dataclass(frozen=True)
class Within:
    """The result of a word that isn't known, but in which range it is, as the origin of values."""

    place: Place
    range: Range


@dataclass(frozen=True)
class At:
    """What a loop is entered with, as the origin of values: it is a number."""

    head: Place
    key: Hashable
    number: Sum


@dataclass(frozen=True)
class Words:
    """A value that isn't known and another one, as the high and the low word of a moment."""

    high: Hashable
    low: Linear


@dataclass(frozen=True)
class Earlier:
    """The origin of a value of before a wait, or what that value was."""

    origin: Hashable


@dataclass(frozen=True)
class Carry:
    """The carry where a number is added to a value with a distance, plus a number."""

    origin: Hashable
    offset: Sum
    added: int
    plus: int = 0

    @property
    def complement(self) -> Carry:
        """1 less the carry, less the number. Where x is the sum of the value and n, the carry is x < n; so 1 less
        the carry is x >= n, which is the carry where 2^32 - n is added to x."""
        offset = (self.offset + self.added) % LOW
        return Carry(self.origin, offset, LOW - self.added, -self.plus % LOW)


Known = Union[Linear, High, Carry]
MOMENT = "the moment of the wait before"
ADD_IT = "`next += P` on a local uint64_t, compiled from -Og on, shows it"


def low_of(value: High) -> Linear:
    """The low word of the moment that a value is the high word of."""
    low = value.base.low if isinstance(value.base, Words) else Linear(LowOf(value.base))
    return Linear(low.origin, (low.offset + value.added) % LOW)


def number(value: int) -> Linear:
    return Linear(None, Sum(value % LOW))


def sum_of(value: Known) -> Sum | None:
    """A value, if it is a number, or one by counters."""
    if not isinstance(value, Linear):
        return None
    if isinstance(value.origin, At):
        return (value.origin.number + value.offset) % LOW
    return value.offset if value.origin is None else None


def number_of(value: Known) -> int | None:
    """A value, if it is a number."""
    known = sum_of(value)
    return known.number if known is not None and known.is_number else None


def range_of_value(value: Known) -> Range:
    """The numbers that a value may be."""
    if not isinstance(value, Linear) or not value.offset.is_number:
        return ANYTHING
    origin = value.origin
    while isinstance(origin, Earlier):
        origin = origin.origin
    if origin is None:
        return Range(value.offset.number, value.offset.number)
    return origin.range.plus(value.offset.number) if isinstance(origin, Within) else ANYTHING


@dataclass(frozen=True)
class Behind:
    """A moment that is nanoseconds behind the moment of the wait before, or behind a reading of the
    time."""

    ns: int
    reading: Place | None = None


@dataclass(frozen=True)
class Absolute:
    """A moment that is a number."""

    ns: int


@dataclass(frozen=True)
class Unclear:
    """Why a moment isn't known. It is wrong where its two words don't belong together; then it may
    be known which moment it is no later than."""

    why: str
    is_wrong: bool = False
    most: Behind | None = None


Moment = Union[Behind, Absolute, Unclear]


def moment_of(high: Known, low: Known) -> Moment:
    """The moment of two words."""
    first, second = number_of(high), number_of(low)
    if first is not None and second is not None:
        return Absolute(first * LOW + second)
    if high == low:
        return Unclear("both words of the moment are the same", True)
    if not isinstance(low, Linear):
        return Unclear("the low word of the moment isn't known")
    if sum_of(low) is not None:
        return Unclear("the low word of the moment is a number, and the high word isn't known")
    if not isinstance(low.origin, LowOf) or not low.offset.is_number:
        return Unclear(f"the low word of the moment isn't the one before plus a number: {ADD_IT}")
    if first is not None:
        return Unclear("the high word of the moment is a number: it works for 4.29 seconds", True)
    if not isinstance(high, High) or high.base != low.origin.base:
        return Unclear(
            "the high word of the moment isn't the one before with the carry of the low word", True
        )
    if not high.added.is_number:
        return Unclear("the moment depends on how often loops have gone back")
    ns = (high.added.number + TWICE // 2) % TWICE - TWICE // 2
    reading = high.base if isinstance(high.base, Place) else None
    if high.added % LOW != low.offset:
        text = (
            "the high word of the moment lacks the carry of the low word: it works for 4.29 seconds"
        )
        return Unclear(text, True, Behind(ns + (low.offset.number - ns) % LOW, reading))
    return Behind(ns, reading)


@dataclass(frozen=True)
class Rebase:
    """Changes values into distances from the moment of two words, where they are of it. What else
    isn't a number is another value than one of the same origin that is found later."""

    high: Known
    low: Known

    def change(self, value: Known) -> Known:
        if isinstance(value, Linear) and value.origin is None:
            return Linear(None, value.offset.earlier)
        of_low, of_high = self._as_low(value), self._as_high(value)
        if of_low is not None and self.high != self.low:
            return of_low
        return of_high if of_high is not None and self.high != self.low else _earlier(value)

    def _as_low(self, value: Known) -> Known | None:
        low = self.low
        if not isinstance(low, Linear) or low.origin is None or not isinstance(value, Linear):
            return None
        is_of_it = value.origin == low.origin
        distance = ((value.offset - low.offset) % LOW).earlier
        return Linear(LowOf(MOMENT), distance) if is_of_it else None

    def _as_high(self, value: Known) -> Known | None:
        high, low = self.high, self.low
        if isinstance(high, High) and isinstance(value, High) and value.base == high.base:
            if value == high or low == low_of(high):
                return High(MOMENT, ((value.added - high.added) % TWICE).earlier)
        if isinstance(high, High) and isinstance(high.base, Words) and isinstance(value, Linear):
            if low == low_of(high) and value.origin == high.base.high:
                distance = value.offset * LOW - high.added
                return High(MOMENT, (distance % TWICE).earlier)
        if isinstance(high, Linear) and isinstance(value, Linear) and value.origin == high.origin:
            return High(MOMENT, ((value.offset - high.offset) % LOW * LOW % TWICE).earlier)
        return High(MOMENT) if value == high else None


def _earlier(value: Known) -> Known:
    """A value of before a wait, which is none of those behind it."""
    known = sum_of(value)
    if known is not None:
        return Linear(None, known.earlier)
    if isinstance(value, Linear):
        return Linear(Earlier(value.origin), value.offset.earlier)
    return Linear(Earlier(value))


def result_of(place: Place, word: Word, registers: tuple[Known, ...]) -> Known:
    """The result of a word, a calculation or a load from an address that isn't known."""
    found = calculated(word, registers)
    if found is not None:
        return found
    values = (range_of_value(registers[at]) for at in (word.rs1, word.rs2))
    numbers = range_of(word, *values)
    return Linear((place, "result") if numbers == ANYTHING else Within(place, numbers))


def calculated(word: Word, registers: tuple[Known, ...]) -> Known | None:
    """The result of a calculation, as far as it is known."""
    if word.opcode in (OPCODE_LUI, OPCODE_AUIPC):
        return number((word.pc if word.opcode == OPCODE_AUIPC else 0) + (word.field(12, 20) << 12))
    one = registers[word.rs1]
    if word.opcode == OPCODE_IMMEDIATE:
        other: Known = number(word.immediate)
    elif word.opcode == OPCODE_REGISTERS and word.field(25, 7) in (0, SUB_OR_SRA):
        other = registers[word.rs2]
    else:
        return None
    is_minus = word.opcode == OPCODE_REGISTERS and word.field(25, 7) == SUB_OR_SRA
    if word.funct3 == ADD:
        return _difference(one, other) if is_minus else added(one, other)
    if word.funct3 in SHIFTS and word.opcode == OPCODE_IMMEDIATE:
        return one if not word.rs2 else None
    if word.funct3 == XOR and number_of(other) == 1 and isinstance(one, Carry) and not one.plus:
        return one.complement
    if word.funct3 in (XOR, OR):
        return one if number_of(other) == 0 else other if number_of(one) == 0 else None
    return carry(one, other) if word.funct3 == SLTU and not is_minus else None


def _difference(one: Known, other: Known) -> Known | None:
    if isinstance(other, Carry):
        less = other.complement
        return added(one, replace(less, plus=(less.plus - 1) % LOW))
    if not isinstance(other, Linear):
        return None
    if isinstance(one, Linear) and one.origin == other.origin:
        return Linear(None, (one.offset - other.offset) % LOW)
    return added(one, Linear(None, other.offset * -1 % LOW)) if other.origin is None else None


def added(one: Known, other: Known) -> Known | None:
    """The sum of two values; None where it isn't known."""
    if isinstance(one, Linear) and one.origin is None:
        one, other = other, one
    if isinstance(other, Linear) and other.origin is None:
        if isinstance(one, Linear):
            return Linear(one.origin, (one.offset + other.offset) % LOW)
        if isinstance(one, High):
            return High(one.base, (one.added + other.offset * LOW) % TWICE)
        known = number_of(other)
        return None if known is None else replace(one, plus=(one.plus + known) % LOW)
    if isinstance(one, Carry):
        one, other = other, one
    if not isinstance(other, Carry):
        return None
    if isinstance(one, Linear):
        words = Words(one.origin, Linear(other.origin, other.offset))
        one = High(words, one.offset * LOW)
    if not isinstance(one, High) or low_of(one) != Linear(other.origin, other.offset):
        return None
    return High(one.base, (one.added + other.added + other.plus * LOW) % TWICE)


def carry(one: Known, other: Known) -> Known | None:
    """Whether a value is less than another one: the carry where it is the sum of that and a number,
    or of it as the number and a value. A carry itself is compared with 0 or 1."""
    if isinstance(other, Carry) and not other.plus and number_of(one) == 0:
        return other
    if isinstance(one, Carry) and not one.plus and number_of(other) == 1:
        return one.complement
    if not (isinstance(one, Linear) and isinstance(other, Linear)):
        return None
    a, b = number_of(one), number_of(other)
    if a is not None and b is not None:
        return number(a < b)
    if one.origin is not None and other.origin == one.origin:
        distance = (one.offset - other.offset) % LOW
        step = distance.number
        if not distance.is_number:
            return None
        return Carry(one.origin, other.offset, step) if step else number(0)
    if one.origin is not None and b is not None:
        return Carry(one.origin, (one.offset - b) % LOW, b) if b else number(0)
    if other.origin is not None and a is not None:
        # a < x is x >= a + 1, the carry where 2^32 - (a + 1) is added to x.
        return Carry(other.origin, other.offset, LOW - a - 1) if a != LOW - 1 else number(0)
    return None
