"""The observations of sections, functions, loops, waits and traps in a trace."""
from __future__ import annotations

from collections import Counter
from dataclasses import dataclass, field
from operator import sub
from typing import Sequence

from fptools.files.setup import LoopTable

MOST_KEPT = 10_000  # places of breaks that are kept


@dataclass
class Spread:
    """How many numbers there were, the least, the largest with the cycle of the first that large, and
    their sum."""

    count: int = 0
    least: int = 0
    most: int = 0
    at: int = 0
    total: int = 0

    def add(self, number: int, cycle: int, times: int = 1) -> None:
        if not self.count or number < self.least:
            self.least = number
        if not self.count or number > self.most:
            self.most, self.at = number, cycle
        self.count += times
        self.total += number * times

    def add_all(self, numbers: Sequence[int], cycles: Sequence[int]) -> None:
        """Adds numbers in order, with the cycle of each."""
        if not numbers:
            return
        least, most = min(numbers), max(numbers)
        if not self.count or least < self.least:
            self.least = least
        if not self.count or most > self.most:
            self.most, self.at = most, cycles[numbers.index(most)]
        self.count += len(numbers)
        self.total += sum(numbers)

    def add_steps(self, cycles: Sequence[int]) -> None:
        """Adds the time from each cycle to the next, with the cycle in which it begins."""
        self.add_all(list(map(sub, cycles[1:], cycles)), cycles)

    @property
    def mean(self) -> float:
        return self.total / self.count if self.count else 0.0


@dataclass
class Tally(Spread):
    """A spread that counts how often each number came."""

    counts: Counter[int] = field(default_factory=Counter)

    def add(self, number: int, cycle: int, times: int = 1) -> None:
        if number in self.counts:  # it is neither the least nor the first of the largest
            self.count += times
            self.total += number * times
        else:
            super().add(number, cycle, times)
        self.counts[number] += times

    def add_all(self, numbers: Sequence[int], cycles: Sequence[int]) -> None:
        super().add_all(numbers, cycles)
        self.counts.update(numbers)


@dataclass(frozen=True)
class Watched:
    """A section, by its first word and the address behind its last, with what is known of how long it
    may take."""

    name: str
    start: int
    end: int
    routines: tuple[
        tuple[int, int], ...
    ] = ()  # that it calls: the first address, and the one behind the last
    exits: frozenset[int] = frozenset()  # other addresses where it may end
    bound: int | None = None  # cycles
    budget: int | None = None  # cycles
    doubt: str = ""  # why there is no bound
    is_function: bool = False  # from a call of the function at `start` to the word after the call


@dataclass(frozen=True)
class TrapAt:
    """A trap of a thread."""

    pc: int
    cause: int
    cycle: int


@dataclass(frozen=True)
class Lost:
    """An execution that didn't end in a run: the thread trapped in it, or left it, and didn't come back."""

    start: int  # the cycle in which it began
    cycles: int  # until the section began again, or to the end of the run
    trap: TrapAt | None  # that came first in it; None where the section was left without one

    @property
    def weight(self) -> tuple[bool, int]:
        """A trap says more than another way out; then the longest counts."""
        return self.trap is not None, self.cycles


@dataclass
class Executions:
    """The observations of a section or function."""

    watched: Watched
    whole: Tally = field(default_factory=Tally)  # those that the bound speaks of
    interrupted: Tally = field(default_factory=Tally)  # with a trap between begin and end
    detours: Tally = field(default_factory=Tally)  # that left the section and came back
    periods: Spread = field(default_factory=Spread)  # from one begin to the next
    cut: Spread = field(default_factory=Spread)  # up to a trap, or to where the section was left
    traps: int = 0
    left: Counter[int] = field(default_factory=Counter)  # to which addresses other than its ends
    given_up: int = 0  # executions that began again before they ended
    unfinished: tuple[
        int, int
    ] | None = None  # the cycle in which the last one began, and its cycles so far
    open_trap: TrapAt | None = None  # that came in that one, which hasn't gone on since
    last_begin: int | None = None  # the cycle in which the newest one began
    lost: Lost | None = None  # one that didn't end, of several the one that says most
    gone: TrapAt | None = (
        None  # a trap since the last execution, from which the thread didn't come back
    )
    over: list[tuple[int, int]] = field(
        default_factory=list
    )  # visits above the bound: cycle and cycles

    @property
    def count(self) -> int:
        return self.whole.count + self.interrupted.count + self.detours.count

    @property
    def longest(self) -> Spread | None:
        """The spread that has the longest execution, however it went."""
        seen = [it for it in (self.whole, self.interrupted, self.detours) if it.count]
        return max(seen, key=lambda spread: spread.most) if seen else None

    @property
    def slowest(self) -> tuple[int, int] | None:
        """The cycles of the longest execution, however it went, also of one that goes on or didn't end; and
        its first cycle."""
        longest = self.longest
        seen = [(longest.most, longest.at)] if longest else []
        if self.unfinished:
            seen.append((self.unfinished[1], self.unfinished[0]))
        if self.lost:
            seen.append((self.lost.cycles, self.lost.start))
        return max(seen, default=None)

    def lose(self, lost: Lost) -> None:
        """Takes note of an execution that didn't end."""
        self.lost = max((it for it in (self.lost, lost) if it), key=lambda it: it.weight)

    def met(self, cycle: int, cycles: int) -> None:
        """Compares a visit, as the bound speaks of them, with the bound."""
        bound = self.watched.bound
        if bound is not None and cycles > bound and len(self.over) < MOST_KEPT:
            self.over.append((cycle, cycles))


@dataclass
class Rounds:
    """How often a loop went back to its head, each time that it was entered."""

    table: LoopTable
    backs: Spread = field(default_factory=Spread)
    breaks: list[tuple[int, int]] = field(
        default_factory=list
    )  # the cycle of the entry, and how often it went back
    elsewhere: int = 0  # entries at another word than the head


@dataclass
class Wait:
    """The observations of a DU or WU. Moments are nanoseconds."""

    pc: int
    is_delay: bool
    count: int = 0
    waited: int = 0  # that spun or slept
    overruns: int = 0  # whose moment had passed before the first try
    late: Spread = field(
        default_factory=Spread
    )  # nanoseconds since the moment, of the overruns with a known moment
    slack: Spread = field(default_factory=Spread)  # nanoseconds to the moment, of the others
    periods: Spread = field(
        default_factory=Spread
    )  # from one issue behind it to the next, in cycles
    first_overrun: int | None = None  # its cycle
    is_carry: bool = False  # the moment's high word lags: a carry is missing


@dataclass
class Trapped:
    """Traps of one cause at one address."""

    pc: int
    cause: int
    count: int = 0
    first: int = 0
