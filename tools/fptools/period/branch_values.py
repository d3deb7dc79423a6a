"""What the side that a branch takes tells of values: the carry of an addition to a low word, that
two values are equal, or how often a loop has gone back."""
from __future__ import annotations

from dataclasses import dataclass, replace
from typing import Collection, Hashable, Iterator, Union

from fptools.period.moment_values import (
    LOW, TWICE, Carry, High, Known, Linear, LowOf, Words, added, carry, low_of, number, number_of,
    sum_of,
)  # fmt: skip
from fptools.period.sums import Relation, Sum
from fptools.isa.words import Word

BEQ, BNE, BLTU, BGEU = 0, 1, 6, 7


@dataclass(frozen=True)
class Carried:
    """The carry of an addition, 0 or 1, on the paths that lead here."""

    carry: Carry
    bit: int

    @property
    def taken_back(self) -> Carried:
        """The same of the subtraction that undoes the addition, as one of 2^32 less the number."""
        it = self.carry
        other = Carry(it.origin, (it.offset + it.added) % LOW, LOW - it.added)
        return Carried(other, 1 - self.bit)


def carried(word: Word, registers: tuple[Known, ...], is_taken: bool) -> frozenset[Carried]:
    """The carry that a branch compares with, behind one of its sides."""
    found = _compared(word, registers[word.rs1], registers[word.rs2])
    if found is None:
        return frozenset()
    holds = is_taken == (word.funct3 in (BLTU, BEQ))
    known = Carried(found.carry, found.bit if holds else 1 - found.bit)
    return frozenset({known, known.taken_back})


def _compared(word: Word, one: Known, other: Known) -> Carried | None:
    """The carry where the sides of a comparison are in order, or equal."""
    if word.funct3 in (BLTU, BGEU):
        return _less(one, other)
    if word.funct3 not in (BEQ, BNE):
        return None
    if isinstance(other, Carry):
        one, other = other, one
    value = number_of(other)
    if not isinstance(one, Carry) or value is None:
        return None
    bit = (value - one.plus) % LOW
    return Carried(replace(one, plus=0), bit) if bit in (0, 1) else None


def _less(one: Known, other: Known) -> Carried | None:
    """The carry where a value is less than another one."""
    found = carry(one, other)
    if isinstance(found, Carry):
        return Carried(found, 1)
    least = number_of(one)
    if least is None or least == LOW - 1:
        return None
    found = carry(other, number(least + 1))
    return Carried(found, 0) if isinstance(found, Carry) else None


def forms(value: Known, known: Collection[Carried]) -> Iterator[Known]:
    """A value, and the forms that it also has where carries are known."""
    yield value
    for it in known:
        low, less = Linear(it.carry.origin, it.carry.offset), it.bit * LOW - it.carry.added
        if isinstance(value, High):
            if low_of(value) == low:
                yield High(value.base, (value.added - less) % TWICE)
        elif isinstance(value, Linear) and value.origin is None:
            if value.offset.is_number:
                yield replace(it.carry, plus=(value.offset.number - it.bit) % LOW)
        elif isinstance(value, Linear):
            yield High(Words(value.origin, low), (value.offset * LOW - less) % TWICE)


@dataclass(frozen=True)
class Facts:
    """What branches told on the way to a place: carries, and multiples of counters."""

    carries: frozenset[Carried] = frozenset()
    relations: frozenset[Relation] = frozenset()

    def common(self, other: Facts) -> Facts:
        """What is told on both of two ways."""
        return Facts(self.carries & other.carries, self.relations & other.relations)

    def told(self, value: Known) -> Known:
        for it in self.relations:
            value = with_relation(value, it)
        return value


def joined_value(one: Known, facts: Facts, other: Known, facts_of_other: Facts) -> Known | None:
    """A form that two values have in common, each where some facts are known."""
    if one == other:
        return one
    firsts, others = [*forms(one, facts.carries)], [*forms(other, facts_of_other.carries)]
    for it in firsts:
        if it in others or facts_of_other.told(it) in others:
            return it
    return next((it for it in others if facts.told(it) in firsts), None)


@dataclass(frozen=True)
class Equal:
    """A value that isn't known by itself, and one of a moment that it equals."""

    origin: Hashable
    value: Union[Linear, High]  # of what is equal to the origin

    def change(self, value: Known) -> Known:
        if isinstance(value, Linear) and value.origin == self.origin:
            return added(self.value, Linear(None, value.offset)) or value
        if isinstance(value, Carry) and value.origin == self.origin:
            of = self.value
            if isinstance(of, Linear):
                return replace(value, origin=of.origin, offset=(value.offset + of.offset) % LOW)
        return value


def equal(word: Word, registers: tuple[Known, ...], is_taken: bool) -> Equal | None:
    """What a branch tells where its sides are equal, of which one is of a moment."""
    if not tells_equal(word, is_taken):
        return None
    one, other = registers[word.rs1], registers[word.rs2]
    if _is_of_moment(one):
        one, other = other, one
    if _is_of_moment(one) or not isinstance(one, Linear) or sum_of(one) is not None:
        return None
    value = added(other, Linear(None, one.offset * -1 % LOW)) if _is_of_moment(other) else None
    return Equal(one.origin, value) if isinstance(value, (Linear, High)) else None


def tells_equal(word: Word, is_taken: bool) -> bool:
    """Whether the sides of a branch are equal, where it is taken or where it isn't."""
    return word.funct3 in (BEQ, BNE) and is_taken == (word.funct3 == BEQ)


def _is_of_moment(value: Known) -> bool:
    is_low = isinstance(value, Linear) and isinstance(value.origin, LowOf)
    return is_low or isinstance(value, High)


def relation(
    word: Word, registers: tuple[Known, ...], is_taken: bool, known: Collection[Relation]
) -> Relation | None:
    """What a branch tells of a counter where its sides are equal."""
    if not tells_equal(word, is_taken):
        return None
    one, other = registers[word.rs1], registers[word.rs2]
    if isinstance(one, Linear) and isinstance(other, Linear) and one.origin == other.origin:
        return Relation.of_zero((one.offset - other.offset) % LOW, LOW)
    if isinstance(one, High) and isinstance(other, High) and one.base == other.base:
        distance = (one.added - other.added) % TWICE
        low = distance % LOW
        for it in known:
            low = it.change(low, LOW)
        # Two moments of the same low words and equal high words are equal.
        return Relation.of_zero(distance, TWICE) if low == Sum() else None
    return None


def with_relation(value: Known, known: Relation) -> Known:
    """A value, where a relation tells a part of it."""
    if isinstance(value, Linear):
        return replace(value, offset=known.change(value.offset, LOW))
    if isinstance(value, Carry):
        return replace(value, offset=known.change(value.offset, LOW))
    return replace(value, added=known.change(value.added, TWICE))
