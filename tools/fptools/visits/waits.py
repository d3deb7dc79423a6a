"""Looks at each DU and WU of a trace."""
from __future__ import annotations

import re
from dataclasses import dataclass
from typing import NamedTuple, Sequence

from fptools.files.trace_blocks import CYCLE, EFFECT, LENGTHS, PC, Block, TraceReader, class_of
from fptools.isa.turns import Turns
from fptools.isa.words import Flow, Word
from fptools.visits.meters import Known, earliest_issue, first_try
from fptools.visits.seen import Wait

FUNCT3_DU = 2
LONGEST = max(LENGTHS) + 1
"""The bytes of the longest line with its line feed."""


class JudgedWait(NamedTuple):
    """An execution of a DU or WU."""

    place: int  # the index of its event in the block
    pc: int
    is_delay: bool
    first: int  # the cycle of its first try
    moment: int | None  # nanoseconds; None where it isn't known
    did_wait: bool

    def late(self, period: int) -> int | None:
        """The nanoseconds from the moment to the first try; below 0 where it was early."""
        return None if self.moment is None else self.first * period - self.moment

    def is_overrun(self, period: int) -> bool:
        """Whether the moment had passed at the first try. Where it isn't known, so it is of each that
        didn't wait."""
        late = self.late(period)
        return not self.did_wait and (late is None or late > 0)


@dataclass(slots=True)
class Judged:
    """The executions of a DU or WU in a block, in order; a list has an item for each. Where the turns
    aren't known, the first try of a DU is the earliest that the lag before it allows."""

    pc: int
    is_delay: bool
    places: list[int]  # the indexes of their events in the block
    firsts: list[int]  # the cycles of their first tries
    moments: list[int | None]  # nanoseconds; None where it isn't known
    waited: list[bool]

    def late(self, period: int) -> list[int | None]:
        """The nanoseconds from each moment to the first try; below 0 where it was early."""
        both = zip(self.firsts, self.moments)
        return [None if moment is None else first * period - moment for first, moment in both]

    def each(self) -> list[JudgedWait]:
        """The executions one by one."""
        columns = zip(self.places, self.firsts, self.moments, self.waited)
        return [JudgedWait(it[0], self.pc, self.is_delay, *it[1:]) for it in columns]


class _Kind:
    """A DU or WU of the code."""

    def __init__(self, word: Word) -> None:
        self.pc, self.is_delay = word.pc, word.funct3 == FUNCT3_DU
        self.high, self.low = word.rs1, word.rs2  # the registers of the moment
        self.sets = [(it, _effect(it)) for it in sorted({word.rs1, word.rs2} - {0})]
        self._spelled = b"%08x" % word.pc
        self._pattern = re.compile(f"[{class_of(word.pc)}]")

    def places(self, block: Block) -> list[int]:
        """The indexes of its events in a block."""
        lines, spelled = block.lines, self._spelled
        found = [it.start() for it in self._pattern.finditer(block.events)]
        return [index for index in found if lines[index][PC] == spelled]


def _effect(register: int) -> bytes:
    """The begin of an effect that sets a register."""
    return b" x%02d=" % register


class WaitJudge:
    """Finds each DU and WU of a trace, with the moment that it waits for."""

    def __init__(self, reader: TraceReader, turns: Turns | None, period: int) -> None:
        self.period = period
        self._reader, self._turns = reader, turns
        self._known = Known(reader, lambda word: word.flow is Flow.WAIT)
        self._kinds: list[_Kind] = []
        # Of the registers that waits name, at the begin of a block, as far as the trace shows them.
        self._values = {0: 0}

    def judged(self, block: Block) -> list[JudgedWait]:
        """The waits of the next block, in order."""
        return sorted([wait for it in self.by_wait(block) for wait in it.each()])

    def by_wait(self, block: Block) -> list[Judged]:
        """The waits of the next block, by their address."""
        if self._known.learn():
            words = self._reader.words
            self._kinds = [_Kind(Word(pc, words[pc])) for pc in sorted(self._known.pcs)]
        found = [(kind, kind.places(block)) for kind in self._kinds]
        judged = [self._judged(block, kind, places) for kind, places in found if places]
        for register, text in {it for kind in self._kinds for it in kind.sets}:
            _learn(self._values, register, text, block.data, 0, len(block.data))
        return judged

    def _judged(self, block: Block, kind: _Kind, places: list[int]) -> Judged:
        lines, moments = block.lines, self._moments(block, kind, places)
        if not kind.is_delay:
            cycles = [int(lines[index][CYCLE]) for index in places]
            waited = [lines[index][EFFECT] == b"wait" for index in places]
            return Judged(kind.pc, False, places, cycles, moments, waited)
        if self._turns is not None:
            firsts = [first_try(block, index, self._turns) for index in places]
            waited = [first < block.cycle(index) for first, index in zip(firsts, places)]
            return Judged(kind.pc, True, places, firsts, moments, waited)
        firsts = [earliest_issue(block, index) or 0 for index in places]
        both = zip(firsts, moments)
        waited = [moment is None or first * self.period <= moment for first, moment in both]
        return Judged(kind.pc, True, places, firsts, moments, waited)

    def _moments(self, block: Block, kind: _Kind, places: Sequence[int]) -> list[int | None]:
        """The moment of each execution of a wait, by the newest values of its registers."""
        lines, data, values = block.lines, block.data, self._values.copy()
        moments: list[int | None] = []
        begin, before = 0, 0
        for index in places:
            # Cycles rise, so no other line has the same text.
            end = data.index(lines[index], begin, begin + (index - before + 1) * LONGEST)
            for register, text in kind.sets:
                _learn(values, register, text, data, begin, end)
            high, low = values.get(kind.high), values.get(kind.low)
            moments.append(None if high is None or low is None else high << 32 | low)
            begin, before = end, index
        return moments


def _learn(
    values: dict[int, int], register: int, text: bytes, data: bytes, begin: int, end: int
) -> None:
    """Takes the newest value of a register from a part of a block."""
    place = data.rfind(text, begin, end)
    if place >= 0:
        values[register] = int(data[place + 5 : place + 13], 16)


class WaitMeter:
    """Looks at each DU and WU: whether it waited, how late it was, and when the thread went on."""

    def __init__(self, judge: WaitJudge) -> None:
        self.seen: dict[int, Wait] = {}
        self._judge = judge
        self._went_on: dict[int, int] = {}  # the newest cycle in which a thread went on behind each
        self._last: int | None = None  # the wait that is the last event so far

    def take(self, block: Block) -> None:
        lines = block.lines
        if self._last is not None:
            self._go_on(self._last, [block.cycle(0)])
            self._last = None
        for it in self._judge.by_wait(block):
            self._add(self.seen.setdefault(it.pc, Wait(it.pc, it.is_delay)), it)
            behind = [index + 1 for index in it.places]
            if behind[-1] == len(lines):
                self._last = it.pc
                behind.pop()
            self._go_on(it.pc, [int(lines[index][CYCLE]) for index in behind])

    def end(self, cycle: int) -> None:
        """Nothing is open at the end."""

    def _go_on(self, pc: int, cycles: Sequence[int]) -> None:
        """Takes note of the next cycles in which a thread went on behind a wait."""
        if cycles:
            before = [self._went_on[pc]] if pc in self._went_on else []
            self.seen[pc].periods.add_steps([*before, *cycles])
            self._went_on[pc] = cycles[-1]

    def _add(self, wait: Wait, judged: Judged) -> None:
        """Takes note of the next executions of a wait."""
        late = judged.late(self._judge.period)
        wait.count += len(late)
        wait.waited += sum(judged.waited)
        rows = zip(judged.firsts, late, judged.waited)
        overruns = [at for at, time, waited in rows if not waited and (time is None or time > 0)]
        wait.overruns += len(overruns)
        if wait.first_overrun is None and overruns:
            wait.first_overrun = overruns[0]
        known = [(time, at) for time, at in zip(late, judged.firsts) if time is not None]
        early = [(-time, at) for time, at in known if time <= 0]
        if early:
            wait.slack.add_all(*zip(*early))
        if len(early) < len(known):
            passed = [it for it in known if it[0] > 0]
            wait.late.add_all(*zip(*passed))
            wait.is_carry |= any(time < 2**32 <= time + 2**31 for time, _ in passed)
