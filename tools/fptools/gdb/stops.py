"""Breakpoints and watchpoints, and where a run next stops by them, forwards or backwards.

Nothing is executed: a stop is looked for in the events of the run. A breakpoint stops before the
issue at its address. A watchpoint stops before the access, or, backwards, right behind it: gdb goes
over the access by a step of its own, as on all RISC-V targets, and compares the values."""
from __future__ import annotations

from dataclasses import dataclass, field
from enum import Enum
from functools import lru_cache
from typing import Iterator

from fptools.files.dump import THREADS
from fptools.gdb.history import Window, line_at
from fptools.gdb.machine import Machine
from fptools.gdb.runs import last_line
from fptools.gdb.state import STORE
from fptools.files.trace_blocks import BITS, CYCLE, EFFECT
from fptools.isa.words import OPCODE_LOAD, Word

MOST_WATCHED = 64  # bytes of a watchpoint that is looked for by its text
COLUMN = 10  # of the pc, with the space before it
LOADED = (b"x", b"-")  # how the effect of a load begins that isn't refused
WRITTEN, VALUE = slice(30, 32), slice(33, 41)  # of an effect `x05=0000002a` in its line


class Reason(Enum):
    """Why the machine stops. Of those in one place the first counts."""

    BREAK = 0
    WATCH = 1
    STEP = 2
    END = 3
    BEGIN = 4
    INTERRUPT = 5


class Kind(Enum):
    """How gdb has set a breakpoint, with its name in a stop reply. Here both are the same."""

    SOFTWARE = "swbreak"
    HARDWARE = "hwbreak"


class Access(Enum):
    """The kinds of accesses of a watchpoint, with their names in a stop reply."""

    WRITE = "watch"
    READ = "rwatch"
    EITHER = "awatch"


@dataclass(frozen=True)
class Watch:
    """A watchpoint of some bytes."""

    access: Access
    address: int
    size: int

    def takes(self, address: int, size: int, is_store: bool) -> bool:
        """Whether an access is of its bytes and kind."""
        is_there = address < self.address + self.size and self.address < address + size
        return is_there and self.access in (
            Access.EITHER,
            Access.WRITE if is_store else Access.READ,
        )


@dataclass(frozen=True)
class Stop:
    """A position of the machine, and why a thread stops there."""

    cycle: int
    thread: int
    reason: Reason
    watch: Watch | None = None
    kind: Kind = Kind.SOFTWARE  # of a breakpoint


@dataclass(frozen=True)
class Span:
    """The cycles of a window in which a stop is looked for."""

    window: Window
    start: int
    end: int
    is_forwards: bool

    def lines(self, thread: int) -> bytes:
        return self.window.lines(thread, self.start, self.end)


@dataclass
class Stops:
    """The breakpoints and watchpoints of a machine."""

    machine: Machine
    breakpoints: set[tuple[int, Kind]] = field(default_factory=set)  # with their addresses
    watches: set[Watch] = field(default_factory=set)

    def forwards(self, step: int | None) -> Stop | None:
        """The first stop from the machine's position on, among them that behind the next issue of
        thread `step`; None where the run ends before."""
        return self._first(True, step)

    def backwards(self, step: int | None) -> Stop | None:
        """The last stop before the position."""
        return self._first(False, step)

    def _first(self, is_forwards: bool, step: int | None) -> Stop | None:
        history, now, end = self.machine.history, self.machine.now, self.machine.end
        windows = (
            history.onwards(now, end)
            if is_forwards
            else history.backwards(now, self._keys() if step is None else None)
        )
        for window in windows:
            start = max(now, window.first) if is_forwards else window.first
            last = min(end, window.end) if is_forwards else min(now, window.end)
            found = list(self._in(Span(window, start, last, is_forwards), step))
            if found and is_forwards:
                return min(found, key=lambda it: (it.cycle, it.reason.value))
            if found:
                return min(found, key=lambda it: (-it.cycle, it.reason.value))
            # Where the search is broken off, the machine is here.
            self.machine.now = last if is_forwards else start
        return None

    def _keys(self) -> list[bytes] | None:
        """Texts of which each line with a stop has one; None where there are no such texts, or many."""
        keys = [_key(pc) for pc, _ in self.breakpoints]
        for watch in self.watches:
            if watch.access is not Access.WRITE or watch.size > MOST_WATCHED:
                return None
            # A store is in one word, and all but the last digit of its address are in the text.
            lines = range(watch.address >> 4, (watch.address + watch.size - 1 >> 4) + 1)
            keys += [b"[%07x" % line for line in lines]
        return keys

    def _in(self, span: Span, step: int | None) -> Iterator[Stop]:
        """The nearest stops of each kind in a span, or some more."""
        if step is not None:
            line = _nearest(span.lines(step), span.is_forwards)
            if line:
                cycle = int(line[CYCLE])
                yield Stop(cycle + span.is_forwards, step, Reason.STEP)
                is_on = span.is_forwards
                span = Span(
                    span.window,
                    span.start if is_on else cycle,
                    cycle + 1 if is_on else span.end,
                    is_on,
                )
        for thread in range(THREADS):
            lines = span.lines(thread)
            # The issue that is stepped over doesn't stop at its own breakpoint.
            yield from self._breaks(thread, lines, span.is_forwards) if thread != step else ()
            yield from self._written(thread, lines, span.is_forwards)
            yield from self._read(thread, span)

    def _breaks(self, thread: int, lines: bytes, is_forwards: bool) -> Iterator[Stop]:
        for pc, kind in self.breakpoints:
            start = _issue_at(lines, pc, is_forwards)
            if start >= 0:
                yield Stop(int(lines[start : start + CYCLE.stop]), thread, Reason.BREAK, kind=kind)

    def _written(self, thread: int, lines: bytes, is_forwards: bool) -> Iterator[Stop]:
        """The stores of a thread to watched bytes."""
        watches = [it for it in self.watches if it.access is not Access.READ]
        if not watches:
            return
        for found in STORE.finditer(lines):
            address, size = int(found[1], 16), int(found[2])
            watch = next((it for it in watches if it.takes(address, size, True)), None)
            if watch is not None:
                start = found.start() - EFFECT.start
                cycle = int(lines[start : start + CYCLE.stop])
                yield Stop(cycle + (not is_forwards), thread, Reason.WATCH, watch)

    def _read(self, thread: int, span: Span) -> Iterator[Stop]:
        """The loads of a thread from watched bytes."""
        watches = [it for it in self.watches if it.access is not Access.WRITE]
        if not watches:
            return
        state = self.machine.states.of_window(span.window.number)
        lines = span.window.lines(thread, span.window.first, span.end)
        for cycle, address, size in _loads(lines, list(state.registers[thread])):
            watch = next((it for it in watches if it.takes(address, size, False)), None)
            if watch is not None and cycle >= span.start:
                yield Stop(cycle + (not span.is_forwards), thread, Reason.WATCH, watch)


def _nearest(lines: bytes, is_forwards: bool) -> bytes:
    """The first or the last line."""
    return line_at(lines, 0) if is_forwards else last_line(lines)


def _key(pc: int) -> bytes:
    """What the line of an issue at an address has. It may also be the word there."""
    return b" %08x " % pc


def _issue_at(lines: bytes, pc: int, is_forwards: bool) -> int:
    """Where the first or last line of an issue at an address begins; -1 where there is none."""
    key = _key(pc)
    at = lines.find(key) if is_forwards else lines.rfind(key)
    while at >= 0:
        start = at - COLUMN
        if start == 0 or start > 0 and lines[start - 1 : start] == b"\n":
            return start
        at = lines.find(key, at + 1) if is_forwards else lines.rfind(key, 0, at + len(key) - 1)
    return -1


@lru_cache(maxsize=1 << 15)
def _load(bits: bytes) -> tuple[bytes, int, int] | None:
    """The base register, distance and size of a load by the digits of its word; else None."""
    word = Word(0, int(bits, 16))
    if word.opcode != OPCODE_LOAD or not word.is_code:
        return None
    return b"%02d" % word.rs1, word.immediate, 1 << word.funct3 % 4


def _loads(lines: bytes, registers: list[int]) -> Iterator[tuple[int, int, int]]:
    """Cycle, address and size of each load in the lines of a thread that had these registers."""
    values = {b"%02d" % number: b"%08x" % value for number, value in enumerate(registers)}
    for line in lines.splitlines():
        load = _load(line[BITS])
        if load is not None and line[EFFECT.start : EFFECT.start + 1] in LOADED:
            base, distance, size = load
            yield int(line[CYCLE]), (int(values[base], 16) + distance) % 2**32, size
        if line[EFFECT.start : EFFECT.start + 1] == b"x":
            values[line[WRITTEN]] = line[VALUE]
