"""What is known of a thread's registers and own memory at a place, and where edges meet."""
from __future__ import annotations

from dataclasses import dataclass, field, replace
from typing import Callable, Hashable, Iterable, Mapping, Sequence, Union

from fptools.period.branch_values import Carried, Equal, Facts, joined_value, with_relation
from fptools.period.moment_values import LOW, TWICE, High, Known, Linear, Words, low_of, number_of
from fptools.period.sums import Relation, Sum
from fptools.code.kept import STACK_POINTER

LATCH = "latch"
Key = Union[int, str, tuple[int]]  # a register, the latch of GT, or the address of a word


@dataclass(frozen=True)
class Kept:
    """A word of memory, and whether it keeps a register for its function's caller."""

    value: Known
    is_saved: bool


@dataclass(frozen=True)
class State:
    """What is known before a word: of registers, the latch of GT, the thread's own memory, and
    what the branches before told of carries and counters."""

    registers: tuple[Known, ...]
    latch: Known
    memory: Mapping[int, Kept] = field(default_factory=dict)
    facts: Facts = Facts()

    def with_register(self, register: int, value: Known) -> State:
        if not register:
            return self
        changed = (*self.registers[:register], value, *self.registers[register + 1 :])
        state = replace(self, registers=changed)
        return (
            state
            if register != STACK_POINTER
            else state.without_frames(self.registers[register], value)
        )

    def without_frames(self, before: Known, after: Known) -> State:
        """What is known once the stack pointer has another value: nothing of the frames that are
        given back."""
        one, other = number_of(before), number_of(after)
        if one is None or other is None:
            return replace(self, memory={})
        if one == 0:  # as at the reset: no frame is there but what a function saved
            return replace(
                self, memory={at: it for at, it in self.memory.items() if not it.is_saved}
            )
        return replace(
            self, memory={at: it for at, it in self.memory.items() if not one <= at < other}
        )

    def changed(self, change: Callable[[Known], Known]) -> State:
        """The same with other forms of its values."""
        memory = {at: replace(it, value=change(it.value)) for at, it in self.memory.items()}
        registers = tuple(map(change, self.registers))
        return replace(self, registers=registers, latch=change(self.latch), memory=memory)

    def with_equal(self, same: Equal) -> State:
        return self.changed(same.change)

    def with_relation(self, known: Relation) -> State:
        state = self.changed(lambda it: with_relation(it, known))
        facts = Facts(self.facts.carries, self.facts.relations | {known})
        return replace(state, facts=facts)

    def with_carries(self, known: frozenset[Carried]) -> State:
        return replace(self, facts=Facts(self.facts.carries | known, self.facts.relations))

    def value(self, key: Key) -> Known:
        if isinstance(key, tuple):
            return self.memory[key[0]].value
        return self.latch if isinstance(key, str) else self.registers[key]

    def with_values(self, values: Mapping[Key, Known]) -> State:
        """The same with other values, and no words of memory but those that have one."""
        memory = {
            at: replace(it, value=values[at,]) for at, it in self.memory.items() if (at,) in values
        }
        registers = tuple(values[register] for register in range(32))
        return replace(self, registers=registers, latch=values[LATCH], memory=memory)

    @property
    def keys(self) -> Iterable[Key]:
        return (*range(32), LATCH, *((at,) for at in self.memory))


@dataclass
class Classes:
    """Values that aren't known where edges meet. Some are apart by a distance that is the same on
    all edges."""

    name: Callable[[Key], Hashable]
    known: list[tuple[tuple[Known, ...], Linear]] = field(default_factory=list)

    def value(self, key: Key, values: tuple[Known, ...]) -> Known:
        """What a register or word is, by its values on the edges."""
        for others, symbol in self.known:
            if values == others:
                return symbol
            distance = _distance(values, others)
            if distance is not None:
                return replace(symbol, offset=distance)
            found = self._high(values, others, symbol)
            if found is not None:
                return found
        symbol = Linear(self.name(key))
        self.known.append((values, symbol))
        return symbol

    def _high(
        self, values: tuple[Known, ...], others: tuple[Known, ...], symbol: Linear
    ) -> High | None:
        """The high word of a moment that is apart from one of which both words are known."""
        highs = [it for it in others if isinstance(it, High)]
        distances = {
            (a.added - b.added) % TWICE
            for a, b in zip(values, others)
            if isinstance(a, High) and isinstance(b, High) and a.base == b.base
        }
        is_apart = all(
            isinstance(a, High) and isinstance(b, High) and a.base == b.base
            for a, b in zip(values, others)
        )
        if not is_apart or len(distances) != 1:
            return None
        lows: tuple[Known, ...] = tuple(map(low_of, highs))
        for known, low in self.known:
            distance = _distance(lows, known)
            if distance is not None:
                words = Words(symbol.origin, replace(low, offset=distance))
                return High(words, distances.pop())
        return None


def _distance(values: tuple[Known, ...], others: tuple[Known, ...]) -> Sum | None:
    """How far some values are from others, where that is the same for all."""
    found = set()
    for one, other in zip(values, others):
        if not (isinstance(one, Linear) and isinstance(other, Linear)):
            return None
        if one.origin != other.origin:
            return None
        found.add((one.offset - other.offset) % LOW)
    return found.pop() if len(found) == 1 else None


def joined(states: Sequence[State], name: Callable[[Key], Hashable]) -> State:
    """What some states have in common. What differs are values that aren't known."""
    first = states[0]
    if len(states) == 1:
        return first
    common: dict[Key, Known | None] = {}
    for key in first.keys:
        if isinstance(key, tuple) and not _is_kept_alike(key[0], states):
            continue
        common[key] = common_value(key, states)
    fill(common, states, Classes(name))
    values = {key: it for key, it in common.items() if it is not None}
    facts = first.facts
    for state in states[1:]:
        facts = facts.common(state.facts)
    return replace(first.with_values(values), facts=facts)


def _is_kept_alike(at: int, states: Sequence[State]) -> bool:
    found = {it.memory[at].is_saved if at in it.memory else None for it in states}
    return len(found) == 1


def common_value(key: Key, states: Sequence[State]) -> Known | None:
    """A value that some states have in common, by what is told in each."""
    value: Known | None = states[0].value(key)
    facts = states[0].facts
    for state in states[1:]:
        if value is None:
            return None
        value = joined_value(value, facts, state.value(key), state.facts)
        facts = facts.common(state.facts)
    return value


def fill(values: dict[Key, Known | None], states: Sequence[State], classes: Classes) -> None:
    """Puts values in place of those that differ: low words first, as high words are by them."""
    missing = sorted((it for it, value in values.items() if value is None), key=str)
    of = {key: tuple(it.value(key) for it in states) for key in missing}
    missing.sort(key=lambda key: not all(isinstance(it, Linear) for it in of[key]))
    for key in missing:
        values[key] = classes.value(key, of[key])
