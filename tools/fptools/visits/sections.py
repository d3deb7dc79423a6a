"""Measures the executions of a section."""
from __future__ import annotations

import re
from enum import Enum, auto
from functools import lru_cache
from operator import sub
from typing import Iterable, Mapping, Sequence

from fptools.files.trace_blocks import (
    CYCLE, PC, Block, address, character, class_of, span, trap_character,
)  # fmt: skip
from fptools.isa.turns import Turns, is_delay
from fptools.visits.meters import TAKES_TURN, cause_of, first_try
from fptools.visits.seen import Executions, Lost, TrapAt, Watched


@lru_cache(maxsize=4096)
def _search(classes: str) -> re.Pattern[str]:
    return re.compile(f"[{classes}]")


def _trap_class(pcs: Iterable[int]) -> str:
    return "".join(f"\\u{ord(trap_character(pc)):04x}" for pc in pcs)


class _Where(Enum):
    OUTSIDE = auto()
    INSIDE = auto()
    AWAY = auto()  # a trap came, or the section was left, before the execution ended


class SectionMeter:
    """Measures a section."""

    def __init__(
        self,
        watched: Watched,
        turns: Turns | None,
        code: Mapping[int, int],
        shown_to: int | None = None,
    ) -> None:
        self.seen = Executions(watched)
        self._turns, self._code = turns, code
        self._shown_to = (
            shown_to  # the last cycle of which the trace shows whether the thread issued
        )
        self._delays: dict[str, bool] = {}  # whether the word at an event's address is a DU
        self._ends = frozenset({watched.end, *watched.exits})
        own = span(watched.start, watched.end)
        called = "".join(span(*routine) for routine in watched.routines)
        self._first = character(watched.start)
        ends, begins = class_of(*self._ends), class_of(watched.start) + _trap_class([watched.start])
        # A whole execution, with its end as the group; or an issue of the first word that begins another one.
        self._begin = re.compile(f"{class_of(watched.start)}[{own}{called}]*+([{ends}])|[{begins}]")
        self._inside = re.compile(f"[{own}{called}]*")
        self._back = own + ends + _trap_class(self._ends)
        self._where = _Where.OUTSIDE
        self._started = 0
        self._began_before: int | None = None
        self._is_clean = True  # neither trap nor detour so far
        self._trap: TrapAt | None = None  # the first one of the execution
        self._resumes: tuple[int, ...] = ()

    def take(self, block: Block) -> None:
        position = 0
        step = {
            _Where.OUTSIDE: self._seek,
            _Where.INSIDE: self._go_on,
            _Where.AWAY: self._come_back,
        }
        while position < len(block.events):
            position = step[self._where](block, position)

    def end(self, cycle: int) -> None:
        self.seen.last_begin = self._began_before
        if self._where is _Where.OUTSIDE:
            return
        if self._is_clean:
            self.seen.met(self._started, cycle - self._started)
        # A DU that spins has no line, so where it is the word at an end, the section may have ended.
        may_have_ended = any(is_delay(self._code.get(pc, 0)) for pc in self._ends)
        last = cycle if may_have_ended or self._shown_to is None else max(cycle, self._shown_to)
        so_far = last - self._started
        self.seen.unfinished = self._started, so_far
        self.seen.open_trap = self._trap if self._where is _Where.AWAY else None

    def _seek(self, block: Block, position: int) -> int:
        """Takes whole executions, up to one that something interrupts. A turn of the first word that an
        expiry or a refused fetch takes is no begin."""
        whole: list[tuple[int, int]] = []
        for found in self._begin.finditer(block.events, position):
            if found.lastindex:
                whole.append(found.span())
                continue
            index, is_trap = found.start(), found.group() != self._first
            if is_trap and cause_of(block.lines[index]) in TAKES_TURN:
                continue
            self._take_whole(block, whole)
            self._open(block.cycle(index))
            self._where = _Where.INSIDE
            if is_trap:
                self._cut_by_trap(block, index)
            return index + 1
        self._take_whole(block, whole)
        return len(block.events)

    def _take_whole(self, block: Block, whole: Sequence[tuple[int, int]]) -> None:
        """Takes note of the next whole executions, by the index of the first event and that behind the
        first event outside."""
        if not whole:
            return
        lines, seen = block.lines, self.seen
        begins = [int(lines[first][CYCLE]) for first, _ in whole]
        ends = self._end_cycles(block, [behind - 1 for _, behind in whole])
        times = list(map(sub, ends, begins))
        seen.whole.add_all(times, begins)
        if seen.watched.bound is not None and max(times) > seen.watched.bound:
            for begin, time in zip(begins, times):
                seen.met(begin, time)
        before = [] if self._began_before is None else [self._began_before]
        seen.periods.add_steps(before + begins)
        self._began_before = self._started = begins[-1]
        self._is_clean, self._trap = True, None

    def _open(self, cycle: int) -> None:
        if self._began_before is not None:
            self.seen.periods.add(cycle - self._began_before, self._began_before)
        self._began_before = self._started = cycle
        self._is_clean, self._trap = True, None

    def _go_on(self, block: Block, position: int) -> int:
        """Goes on to the first event that is outside, or traps."""
        inside = self._inside.match(block.events, position)
        index = inside.end() if inside else position
        if index == len(block.events):
            return index
        pc = address(block.events[index])
        if pc in self._ends:
            self._close(block, index)
        elif block.events[index] != character(int(block.lines[index][PC], 16)) and self._holds(pc):
            self._cut_by_trap(block, index)
        else:
            self._cut_by_leaving(block, index)
        return index + 1

    def _holds(self, pc: int | None) -> bool:
        watched = self.seen.watched
        parts = ((watched.start, watched.end), *watched.routines)
        return pc is not None and any(start <= pc < end for start, end in parts)

    def _end_cycles(self, block: Block, indexes: Sequence[int]) -> list[int]:
        """The cycle of each first issue outside."""
        lines, events = block.lines, block.events
        if any([self._is_delay(char) for char in {events[index] for index in indexes}]):
            return [self._end_cycle(block, index) for index in indexes]
        return [int(lines[index][CYCLE]) for index in indexes]

    def _end_cycle(self, block: Block, index: int) -> int:
        """The cycle of the first issue outside."""
        is_delay_there = self._is_delay(block.events[index])
        return first_try(block, index, self._turns) if is_delay_there else block.cycle(index)

    def _is_delay(self, char: str) -> bool:
        """Whether the word at an event's address is a DU."""
        if char not in self._delays:
            self._delays[char] = is_delay(self._code.get(address(char) or 0, 0))
        return self._delays[char]

    def _close(self, block: Block, index: int) -> None:
        cycles = self._end_cycle(block, index) - self._started
        if self._is_clean:
            self.seen.whole.add(cycles, self._started)
            self.seen.met(self._started, cycles)
        else:
            (self.seen.interrupted if self._trap else self.seen.detours).add(cycles, self._started)
        self._where = _Where.OUTSIDE

    def _cut(self, cycle: int) -> None:
        if self._is_clean:
            self.seen.cut.add(cycle - self._started, self._started)
            self.seen.met(self._started, cycle - self._started)
        self._is_clean = False
        self._where = _Where.AWAY

    def _cut_by_trap(self, block: Block, index: int) -> None:
        self._cut(block.cycle(index))
        self.seen.traps += 1
        pc = int(block.lines[index][PC], 16)
        if self._trap is None:
            self._trap = TrapAt(pc, cause_of(block.lines[index]), block.cycle(index))
        self._resumes = pc, pc + 4

    def _cut_by_leaving(self, block: Block, index: int) -> None:
        self._cut(self._end_cycle(block, index))
        self.seen.left[int(block.lines[index][PC], 16)] += 1
        self._resumes = ()

    def _come_back(self, block: Block, position: int) -> int:
        """Looks for the word at which the execution goes on or ends, or the section begins again."""
        found = _search(self._back + class_of(*self._resumes)).search(block.events, position)
        if found is None:
            return len(block.events)
        index, pc = found.start(), address(found.group())
        if pc in self._ends:
            self._close(block, index)
            return index + 1
        if found.group() == self._first and pc not in self._resumes:
            self.seen.given_up += 1
            self.seen.lose(Lost(self._started, block.cycle(index) - self._started, self._trap))
            self._open(block.cycle(index))
        self._where = _Where.INSIDE
        return index
