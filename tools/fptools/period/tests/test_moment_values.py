"""Values of moments, compared with numbers: what a word calculates of known values is what it
calculates of the numbers that these are."""
from __future__ import annotations

from random import Random
from typing import Callable

import pytest
from fptools.isa.words import Word

from fptools.period.moment_values import (
    LOW, TWICE, Carry, High, Known, Linear, LowOf, Words, calculated, low_of, number,
)  # fmt: skip
from fptools.period.sums import Sum

MOMENT = "moment"
HIGH, LOWER = "a high word", "a low word"
EDGES = (0, 1, 2, 19_999, 20_000, LOW - 20_001, LOW - 20_000, LOW - 2, LOW - 1)
FUNCT3 = {"add": 0, "sub": 0, "sltu": 3, "xor": 4}


def word_of(kind: str) -> Word:
    """A word `kind x3, x1, x2`."""
    funct7 = 32 if kind == "sub" else 0
    return Word(0, funct7 << 25 | 2 << 20 | 1 << 15 | FUNCT3[kind] << 12 | 3 << 7 | 0x33)


def counted(kind: str, one: int, other: int) -> int:
    results: dict[str, Callable[[], int]] = {
        "add": lambda: one + other,
        "sub": lambda: one - other,
        "sltu": lambda: int(one < other),
        "xor": lambda: one ^ other,
    }
    return results[kind]() % LOW


def number_of(value: Known, of: dict[object, int]) -> int:
    """The number that a value is, where the origins are some numbers."""
    if isinstance(value, Linear):
        return (of[value.origin] + value.offset.number) % LOW
    if isinstance(value, High):
        base = value.base
        words = (
            of[base.high] << 32 | number_of(base.low, of) if isinstance(base, Words) else of[base]
        )
        return (words + value.added.number) % TWICE >> 32
    carry = (of[value.origin] + value.offset.number) % LOW + value.added >= LOW
    return (carry + value.plus) % LOW


def a_number(random: Random) -> int:
    return random.choice([*EDGES, random.randrange(LOW)])


def a_value(random: Random) -> Known:
    offset = a_number(random)
    values: list[Known] = [
            number(offset),
            Linear(LowOf(MOMENT), Sum(offset)),
            Linear(HIGH, Sum(random.choice((0, offset)))),
            Linear(LOWER, Sum(offset)),
            High(MOMENT, Sum(random.choice((0, offset, offset * LOW)))),
            High(Words(HIGH, Linear(LOWER, Sum(offset))), Sum(a_number(random))),
            Carry(LowOf(MOMENT), Sum(offset), max(1, a_number(random)), random.choice((0, 0, 1, LOW - 1))),
            Carry(LOWER, Sum(offset), max(1, a_number(random)), random.choice((0, 0, 1, LOW - 1))),
    ]  # fmt: skip
    return random.choice(values)


@pytest.mark.parametrize("seed", range(4))
def test_calculated_values(seed: int) -> None:
    random = Random(seed)
    compared = 0
    for _ in range(20_000):
        kind = random.choice([*FUNCT3])
        one, other = a_value(random), a_value(random)
        if random.random() < 0.5:
            # Values that belong together, and what is often next to them.
            base = random.choice([Linear(LowOf(MOMENT)), Linear(LOWER), number(0), number(1)])
            one = random.choice([one, base])
        found = calculated(word_of(kind), (number(0), one, other, *[number(0)] * 29))
        if found is None:
            continue
        compared += 1
        for _ in range(4):
            moment = a_number(random) << 32 | a_number(random)
            of: dict[object, int] = {None: 0, MOMENT: moment, LowOf(MOMENT): moment % LOW}
            of |= {HIGH: a_number(random), LOWER: a_number(random)}
            numbers = number_of(one, of), number_of(other, of)
            assert number_of(found, of) == counted(kind, *numbers), (kind, one, other, of)
    assert compared > 5_000


def test_the_carry_of_a_comparison_with_a_number() -> None:
    """A sum is compared with a number, and the result is turned round, as gcc does."""
    registers: list[Known] = [number(0)] * 32
    registers[1], registers[2] = number(19_999), Linear(LowOf(MOMENT), Sum(20_000))
    registers[1] = calculated(word_of("sltu"), tuple(registers)) or number(0)
    registers[2] = number(1)
    registers[2] = calculated(word_of("xor"), tuple(registers)) or number(0)
    assert registers[2] == Carry(LowOf(MOMENT), Sum(0), 20_000)
    high = registers[1] = High(MOMENT)
    assert low_of(high) == Linear(LowOf(MOMENT))
    assert calculated(word_of("add"), tuple(registers)) == High(MOMENT, Sum(20_000))
