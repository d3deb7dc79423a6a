"""Values at the heads of loops, to which each round may add a number.

Such a guess is made by what the first round brings back. It counts only if all rounds keep it,
which is looked at once nothing else changes."""
from __future__ import annotations

from dataclasses import dataclass, field, replace
from typing import Iterable, Sequence, Union

from fptools.period.branch_values import Facts, joined_value

from fptools.period.moment_values import (
    LOW, TWICE, At, Carry, High, Known, Linear, Words, number_of, sum_of,
)  # fmt: skip
from fptools.period.states import Classes, Key, State, fill, joined
from fptools.period.sums import Counter, Sum
from fptools.code.unfolded import Place

MOST_GUESSES = 4  # of a value at a head
MOST_RENEWALS = 8  # of the guesses of a head


@dataclass(frozen=True)
class Adds:
    """A value that each round of a loop adds a number to. It is the high word of a moment with a
    low word, where this is given; else a low word, or what it is when the loop is entered."""

    step: int
    is_high: bool = False  # whether it is the high word of a moment when the loop is entered
    low: Linear | None = None

    def is_of(self, first: Known) -> bool:
        """Whether it may be of a value with which the loop is entered."""
        return isinstance(first, High) == self.is_high and not isinstance(first, Carry)


ANY = "any value"
Guess = Union[Adds, str]


@dataclass
class Head:
    """The head of a loop: what it is entered with, and what its rounds bring back."""

    place: Place
    body: frozenset[Place]
    guesses: dict[Key, Guess] = field(default_factory=dict)
    tries: dict[Key, int] = field(default_factory=dict)
    renewals: int = 0
    # Of values that are equal, by one number at first and the same in all rounds: the first one.
    leaders: dict[Key, Key] = field(default_factory=dict)

    @property
    def counter(self) -> Counter:
        return Counter(self.place)

    def renew(self) -> None:
        """Gives each value another chance, where the loop is entered with others."""
        if self.renewals < MOST_RENEWALS:
            self.renewals += 1
            self.tries.clear()
            self.guesses = {key: it for key, it in self.guesses.items() if it != ANY}

    def entered_with(self, entered: Sequence[State]) -> State:
        return joined(entered, lambda key: (self.place, "at", key))

    def state(self, entered: Sequence[State], backs: Sequence[State]) -> State:
        """What is known at the head."""
        first = self.entered_with(entered)
        whole = joined([first, *backs], lambda key: (self.place, "round", key))
        self._lead(whole.keys, first, backs)
        for key in whole.keys:
            guess = self.guesses.get(key)
            if isinstance(guess, Adds) and not guess.is_of(first.value(key)):
                del self.guesses[key]
            for back in backs:
                if key not in self.guesses:
                    self._look_at(key, first, back)
        values = {key: self._value(key, first.value(key)) for key in whole.keys}
        fill(values, [first, *backs], Classes(lambda key: (self.place, "round", key)))
        return whole.with_values({key: it for key, it in values.items() if it is not None})

    def _lead(self, keys: Iterable[Key], first: State, backs: Sequence[State]) -> None:
        """Finds the values that have one number at first, and then the same by what rounds bring back."""
        found: dict[tuple[int, tuple[Known, ...]], Key] = {}
        for key in keys:
            number = number_of(first.value(key))
            if number is not None:
                rounds = tuple(it.value(key) for it in backs)
                self.leaders[key] = found.setdefault((number, rounds), key)

    def _look_at(self, key: Key, first: State, back: State) -> None:
        """Guesses a value by what a round brings back, if the loop isn't entered with that."""
        one, other = first.value(key), back.value(key)
        if joined_value(one, first.facts, other, back.facts) == one:
            return
        self.tries[key] = self.tries.get(key, 0) + 1
        found = self._guess(key, one, other) if self.tries[key] <= MOST_GUESSES else None
        self.guesses[key] = found or ANY

    def _guess(self, key: Key, first: Known, back: Known) -> Adds | None:
        symbol = self._symbol(key, first)
        if isinstance(first, High) and isinstance(back, High) and first.base == back.base:
            return _adds((back.added - first.added) % TWICE, TWICE, True)
        if not isinstance(first, Linear) or symbol is None:
            return None
        if isinstance(back, Linear) and back.origin in (first.origin, symbol.origin):
            of = first if back.origin == first.origin else symbol
            return _adds((back.offset - of.offset) % LOW, LOW)
        if isinstance(back, High) and isinstance(back.base, Words):
            if back.base.high == symbol.origin:
                return self._adds_to_high(back.added - symbol.offset * LOW, back.base.low)
        known = number_of(first)
        if isinstance(back, Carry) and known is not None:
            added = Sum(back.added + (back.plus - known) * LOW)
            return self._adds_to_high(added, Linear(back.origin, back.offset))
        return None

    def _adds_to_high(self, distance: Sum, low: Linear) -> Adds | None:
        found = _adds(distance.counted(self.counter, 0) % TWICE, TWICE)
        entered = replace(low, offset=low.offset.counted(self.counter, 0))
        return None if found is None else replace(found, low=entered)

    def _symbol(self, key: Key, first: Known) -> Linear | None:
        """What the loop is entered with as a symbol, also where it is a number."""
        known = sum_of(first)
        if known is not None:
            return Linear(At(self.place, self.leaders.get(key, key), known))
        return first if isinstance(first, Linear) else None

    def _value(self, key: Key, first: Known) -> Known | None:
        """A value at the head, by that with which the loop is entered; None if it isn't known."""
        guess = self.guesses.get(key)
        if guess is None:
            return first
        if not isinstance(guess, Adds):
            return None
        rounds = Sum.of(0, {self.counter: guess.step})
        if isinstance(first, High):
            return High(first.base, (first.added + rounds) % TWICE)
        symbol = self._symbol(key, first)
        if symbol is None:
            return None
        if guess.low is not None:
            base = Words(symbol.origin, guess.low)
            return High(base, (symbol.offset * LOW + rounds) % TWICE)
        return replace(symbol, offset=(symbol.offset + rounds) % LOW)

    def correct(self, now: State, entered: Sequence[State], backs: Sequence[State]) -> bool:
        """Makes guesses anew that some round doesn't keep. Answers whether there is one."""
        first = self.entered_with(entered)
        wrong = [key for key in now.keys if not self._is_kept(key, now, backs)]
        for key in wrong:
            guess = self.guesses.pop(key)
            for back in (it for it in backs if _has(it, key)):
                if key not in self.guesses:
                    self._look_at(key, first, back)
            if self.guesses.get(key) == guess:
                self.guesses[key] = ANY
        return bool(wrong)

    def _is_kept(self, key: Key, now: State, backs: Sequence[State]) -> bool:
        """Whether each round brings back what a guess says of the next one."""
        if not isinstance(self.guesses.get(key), Adds):
            return True
        onward = self._onward(now.value(key))
        kept = (it for it in backs if _has(it, key))
        return all(joined_value(onward, Facts(), it.value(key), it.facts) == onward for it in kept)

    def _onward(self, value: Known) -> Known:
        """A value one round later."""
        later = Sum.of(1, {self.counter: 1})
        if isinstance(value, High):
            return replace(value, added=value.added.counted(self.counter, later) % TWICE)
        return replace(value, offset=value.offset.counted(self.counter, later) % LOW)


def _has(state: State, key: Key) -> bool:
    """Whether a value is known of a state: that of a word of memory may not be."""
    return not isinstance(key, tuple) or key[0] in state.memory


def _adds(distance: Sum, modulus: int, is_high: bool = False) -> Adds | None:
    """That each round adds a distance, where it is a number that isn't 0."""
    if not distance.is_number or not distance.number:
        return None
    return Adds((distance.number + modulus // 2) % modulus - modulus // 2, is_high)
