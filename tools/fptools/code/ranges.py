"""The least and the largest number that a result may be, by the instruction and its operands."""
from __future__ import annotations

from typing import NamedTuple

from fptools.isa.words import OPCODE_IMMEDIATE, OPCODE_LOAD, OPCODE_REGISTERS, Word

LOW = 2**32
LBU, LHU = 4, 5
ADD, SLL, SLT, SLTU, SRL, AND = 0, 1, 2, 3, 5, 7
MUL, DIVU, REMU = 0, 5, 7  # funct3 where the upper seven bits are 1
PLAIN, MULTIPLIES = 0, 1  # the upper seven bits


class Range(NamedTuple):
    """All numbers from the first to the last one, as 32 bits without a sign hold them."""

    first: int
    last: int

    def plus(self, number: int) -> Range:
        """Each number plus another one; anything, where some leave the 32 bits and others don't."""
        first, last = self.first + number, self.last + number
        return Range(first % LOW, last % LOW) if first // LOW == last // LOW else ANYTHING


ANYTHING = Range(0, LOW - 1)


def range_of(word: Word, one: Range, other: Range) -> Range:
    """The range of the result of a word, by those of the registers that it reads."""
    if word.opcode == OPCODE_LOAD:
        return {LBU: Range(0, 0xFF), LHU: Range(0, 0xFFFF)}.get(word.funct3, ANYTHING)
    if word.opcode == OPCODE_IMMEDIATE:
        return _with_number(word, one)
    if word.opcode == OPCODE_REGISTERS and word.field(25, 7) == PLAIN:
        return _plain(word.funct3, one, other)
    if word.opcode == OPCODE_REGISTERS and word.field(25, 7) == MULTIPLIES:
        return _multiplied(word.funct3, one, other)
    return ANYTHING


def _with_number(word: Word, one: Range) -> Range:
    number = word.immediate
    if word.funct3 == ADD:
        return one.plus(number)
    if word.funct3 in (SLL, SRL):
        is_logical = word.field(25, 7) == PLAIN
        return _shifted(word.funct3, one, word.rs2) if is_logical else ANYTHING
    return _plain(word.funct3, one, Range(number % LOW, number % LOW))


def _shifted(funct3: int, one: Range, bits: int) -> Range:
    if funct3 == SRL:
        return Range(one.first >> bits, one.last >> bits)
    found = Range(one.first << bits, one.last << bits)
    return found if found.last < LOW else ANYTHING


def _plain(funct3: int, one: Range, other: Range) -> Range:
    if funct3 == AND:
        return Range(0, min(one.last, other.last))
    if funct3 in (SLT, SLTU):
        return Range(0, 1)
    found = Range(one.first + other.first, one.last + other.last)
    return found if funct3 == ADD and found.last < LOW else ANYTHING


def _multiplied(funct3: int, one: Range, other: Range) -> Range:
    if funct3 == MUL:
        found = Range(one.first * other.first, one.last * other.last)
        return found if found.last < LOW else ANYTHING
    if funct3 == DIVU and other.first:
        return Range(one.first // other.last, one.last // other.first)
    if funct3 == REMU and other.first:
        return Range(0, min(one.last, other.last - 1))
    return ANYTHING
