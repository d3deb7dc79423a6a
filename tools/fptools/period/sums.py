"""Numbers that depend on how often loops have gone back."""
from __future__ import annotations

from dataclasses import dataclass
from typing import Mapping

from fptools.code.unfolded import Place


@dataclass(frozen=True)
class Counter:
    """How often a loop has gone back since it was entered: now, or at the wait before."""

    head: Place
    is_earlier: bool = False


@dataclass(frozen=True)
class Sum:
    """A number plus multiples of counters."""

    number: int = 0
    terms: frozenset[tuple[Counter, int]] = frozenset()

    @staticmethod
    def of(number: int, factors: Mapping[Counter, int]) -> Sum:
        return Sum(number, frozenset((it, factor) for it, factor in factors.items() if factor))

    def __add__(self, other: Sum | int) -> Sum:
        if isinstance(other, int):
            return Sum(self.number + other, self.terms)
        factors = dict(self.terms)
        for it, factor in other.terms:
            factors[it] = factors.get(it, 0) + factor
        return Sum.of(self.number + other.number, factors)

    def __sub__(self, other: Sum | int) -> Sum:
        return self + other * -1

    def __mul__(self, factor: int) -> Sum:
        return Sum.of(self.number * factor, {it: of * factor for it, of in self.terms})

    def __mod__(self, modulus: int) -> Sum:
        if not self.terms:
            return Sum(self.number % modulus)
        return Sum.of(self.number % modulus, {it: of % modulus for it, of in self.terms})

    @property
    def is_number(self) -> bool:
        return not self.terms

    def counted(self, counter: Counter, count: Sum | int) -> Sum:
        """The sum with a value in place of a counter."""
        factors = dict(self.terms)
        factor = factors.pop(counter, 0)
        rest = Sum.of(self.number, factors)
        return rest + count * factor if factor else self

    @property
    def earlier(self) -> Sum:
        """The same at the wait before."""
        if not self.terms:
            return self
        return Sum(self.number, frozenset((Counter(it.head, True), of) for it, of in self.terms))


ZERO = Sum()


@dataclass(frozen=True)
class Relation:
    """A multiple of a counter is a number, modulo 2^32 or 2^64."""

    counter: Counter
    factor: int
    number: int
    modulus: int

    def change(self, value: Sum, modulus: int) -> Sum:
        """A sum of that modulus, where the multiple is in it and its own modulus is enough."""
        factor = dict(value.terms).get(self.counter, 0)
        if not factor or self.modulus % modulus:
            return value
        times, rest = divmod(_signed(factor, modulus), self.factor)
        if rest:
            return value
        without = value - Sum.of(0, {self.counter: factor})
        return (without + times * self.number) % modulus

    @staticmethod
    def of_zero(value: Sum, modulus: int) -> Relation | None:
        """That a sum of one counter is 0."""
        if len(value.terms) != 1:
            return None
        ((counter, factor),) = value.terms
        return Relation(counter, _signed(factor, modulus), -value.number, modulus)


def _signed(number: int, modulus: int) -> int:
    return (number + modulus // 2) % modulus - modulus // 2
