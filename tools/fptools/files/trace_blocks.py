"""Reads a trace of one thread in blocks of lines, with one character for each event.

A trace may have 10^9 lines, so a line is parsed only if something needs it. Each event becomes one
character, by its pc. Sections, loops and calls are found in these texts by regular expressions."""

import os
import re
import sys
from bisect import bisect_left
from dataclasses import dataclass, field
from itertools import islice
from operator import itemgetter, lt
from time import monotonic
from typing import Iterator, Protocol

from fptools.files.elf import CODE_END

BLOCK_BYTES = 1 << 17
CYCLE, PC, BITS, EFFECT = slice(0, 10), slice(11, 19), slice(20, 28), slice(29, None)
PLACE = slice(10, 29)  # " pc word ", which decides the character
# The lengths that a line with one of the effects of docs/FORMATS.md has, without its line feed.
LENGTHS = frozenset(29 + effect for effect in (1, 4, 12, 16, 18, 19, 21, 29))
EVENT = re.compile(
    rb"(?=[ \d]{10} ) *\d+ [0-9a-f]{8} [0-9a-f]{8} "
    rb"(?:-|wait|x\d\d=[0-9a-f]{8}|(?:x\d\d=[0-9a-f]{8} )?csr [0-9a-f]{3}=[0-9a-f]{8}"
    rb"|\[[0-9a-f]{8}\]/[124]=[0-9a-f]{8}|trap \d{1,2} -> [0-9a-f]{8})"
)
KEY = re.compile(rb" ([0-9a-f]{8}) ([0-9a-f]{8}) ")
TRAP = b" trap "

# The characters: one for each word of code, one for a trap at each, and one for all addresses where no code
# can be.
TRAPPED, ELSEWHERE = CODE_END >> 2, CODE_END >> 1


class BrokenTrace(Exception):
    """A line is no event of a trace, or doesn't come after the one before it. All lines before it were
    given."""


def character(pc: int) -> str:
    """The character of an issue at an address."""
    return chr(pc >> 2 if pc < CODE_END else ELSEWHERE)


def trap_character(pc: int) -> str:
    """The character of an issue at an address that traps."""
    return chr(TRAPPED + (pc >> 2) if pc < CODE_END else ELSEWHERE)


def address(char: str) -> int | None:
    """The address of an event by its character, whether it traps or not; None where no code can be."""
    number = ord(char)
    return None if number == ELSEWHERE else number % TRAPPED << 2


def span(start: int, end: int) -> str:
    """The characters of the issues from an address up to below another, as a part of a class of a
    regular expression."""
    return f"\\u{start >> 2:04x}-\\u{(min(end, CODE_END) >> 2) - 1:04x}" if start < end else ""


def class_of(*pcs: int) -> str:
    """The characters of the issues at some addresses, as a part of a class of a regular expression."""
    return "".join(f"\\u{ord(character(pc)):04x}" for pc in pcs)


class Source(Protocol):
    """Where the bytes of a trace come from: a file or a pipe."""

    def read(self, size: int, /) -> bytes:
        """The next bytes, at most so many; none at the end."""


class Live:
    """A pipe or file by its descriptor. A read returns what is there, and doesn't wait for more."""

    def __init__(self, descriptor: int) -> None:
        self._descriptor = descriptor

    def read(self, size: int, /) -> bytes:
        return os.read(self._descriptor, size)


@dataclass(frozen=True)
class Block:
    """Some lines of a trace, without their line feeds."""

    lines: list[bytes]
    data: bytes  # the lines with their line feeds
    events: str  # a character for each line
    traps: list[int]  # which lines are traps
    before: bytes | None  # the line before the first

    def cycle(self, index: int) -> int:
        return int(self.lines[index][CYCLE])

    def line(self, index: int) -> bytes | None:
        """A line by its index; -1 is the line before the block."""
        return self.before if index < 0 else self.lines[index]


class Places(dict[bytes, str]):
    """The character of each pair of a pc and a word that a trace has, and the words by their address."""

    def __init__(self) -> None:
        super().__init__()
        self.words: dict[int, int] = {}

    def __missing__(self, key: bytes) -> str:
        parts = KEY.fullmatch(key)
        if parts is None:
            raise ValueError(f"{key!r} is no pc and word")
        pc, bits = int(parts[1], 16), int(parts[2], 16)
        if bits or pc not in self.words:  # an expiry and a refused fetch have no word
            self.words[pc] = bits
        self[key] = character(pc)
        return self[key]


@dataclass
class Progress:
    """Shows on a terminal's standard error, twice a second, how far a trace has been read."""

    name: str
    cycles: int | None = None  # of the run, where that is known
    every: float = 0.5  # seconds
    is_shown: bool = field(default_factory=lambda: sys.stderr.isatty())
    begun: float = field(default_factory=monotonic)
    shown: float = 0.0

    def tell(self, events: int, cycle: int) -> None:
        now = monotonic()
        if not self.is_shown or now - self.shown < self.every:
            return
        self.shown = now
        part = f" ({100 * cycle // self.cycles} %)" if self.cycles else ""
        rate = events / max(now - self.begun, 0.001)
        print(
            f"\r{self.name}: {events:,} events, cycle {cycle:,}{part}, {rate:,.0f} a second\x1b[K",
            end="",
            file=sys.stderr,
        )

    def end(self) -> None:
        if self.shown:
            print("\r\x1b[K", end="", file=sys.stderr, flush=True)


class TraceReader:
    """Gives the blocks of a trace, of the events from cycle `start` on and before cycle `end`."""

    def __init__(
        self,
        source: Source,
        name: str,
        start: int = 0,
        end: int | None = None,
        progress: Progress | None = None,
    ) -> None:
        self.source, self.name, self.start, self.end = source, name, start, end
        self.progress = progress
        self.places = Places()
        self.events = 0
        self.lines_read = 0
        self.first_cycle: int | None = None
        self.last_cycle: int | None = None
        self._before: bytes | None = None
        self._ends = False

    @property
    def words(self) -> dict[int, int]:
        """The words that were issued so far, by address."""
        return self.places.words

    def blocks(self) -> Iterator[Block]:
        """The blocks in order; `BrokenTrace` after those that are whole, where a line is broken."""
        rest = b""
        while not self._ends and (read := self.source.read(BLOCK_BYTES)):
            data = rest + read
            cut = data.rfind(b"\n") + 1
            rest = data[cut:]
            yield from self._block(data[:cut])
        if self.progress:
            self.progress.end()
        if rest and not self._ends:
            raise BrokenTrace(
                self._fault_text(
                    self.lines_read + 1, rest, "it has no line feed, so the trace was cut"
                )
            )

    def _block(self, data: bytes) -> Iterator[Block]:
        lines = data.split(b"\n")
        lines.pop()
        if not lines:
            return
        try:
            chars = list(map(self.places.__getitem__, map(itemgetter(PLACE), lines)))
            fault = None if self._are_sound(lines) else _first_fault(lines, self._before)
        except ValueError:
            fault = _first_fault(lines, self._before)
        broken = None
        if fault is not None:
            broken = self._fault_text(
                self.lines_read + fault.index + 1, lines[fault.index], fault.text
            )
            lines = lines[: fault.index]
            chars = [self.places[line[PLACE]] for line in lines]
        yield from self._narrowed(lines, chars, data)
        if broken is not None:
            self._finish()
            raise BrokenTrace(broken)

    def _are_sound(self, lines: list[bytes]) -> bool:
        """Whether lengths are those of events, and cycles rise. Cycles are right-aligned, so their texts
        compare as the numbers do."""
        if self._before is not None and self._before >= lines[0][CYCLE]:
            return False
        # A line is greater than its own cycle, so these are equal cycles too.
        rises = map(lt, lines, map(itemgetter(CYCLE), islice(lines, 1, None)))
        return LENGTHS.issuperset({*map(len, lines)}) and all(rises)

    def _narrowed(self, lines: list[bytes], chars: list[str], data: bytes) -> Iterator[Block]:
        """The block of the selected lines, if it isn't empty."""
        self.lines_read += len(lines)
        before, first, last = self._before, 0, len(lines)
        if lines:
            self._before = lines[-1]
        if self.end is not None:
            last = bisect_left(lines, b"%10d" % self.end)
            self._ends = last < len(lines)
        if self.start and lines:
            first = bisect_left(lines, b"%10d" % self.start)
        if first < last:
            before = lines[first - 1] if first else before
            if (first, last) != (0, len(lines)):
                lines, chars = lines[first:last], chars[first:last]
                data = b"\n".join(lines) + b"\n"
            yield self._made(lines, chars, data, before)

    def _made(
        self, lines: list[bytes], chars: list[str], data: bytes, before: bytes | None
    ) -> Block:
        traps = _indexes_of_traps(data)
        while traps and traps[-1] >= len(lines):
            traps.pop()
        for index in traps:
            chars[index] = trap_character(int(lines[index][PC], 16))
        self.events += len(lines)
        self.last_cycle = int(lines[-1][CYCLE])
        if self.first_cycle is None:
            self.first_cycle = int(lines[0][CYCLE])
        if self.progress:
            self.progress.tell(self.events, self.last_cycle)
        return Block(lines, data, "".join(chars), traps, before)

    def _finish(self) -> None:
        self._ends = True
        if self.progress:
            self.progress.end()

    def _fault_text(self, number: int, line: bytes, why: str) -> str:
        text = line[:80].decode("ascii", "backslashreplace")
        return f"{self.name}: line {number:,} is broken: {why}: {text!r}"


@dataclass(frozen=True)
class _Fault:
    index: int
    text: str


def _first_fault(lines: list[bytes], before: bytes | None) -> _Fault | None:
    """The first line that is no event, or doesn't come after the one before it."""
    last = int(before[CYCLE]) if before else -1
    for index, line in enumerate(lines):
        if EVENT.fullmatch(line) is None:
            return _Fault(index, "it is no event of a trace")
        cycle = int(line[CYCLE])
        if cycle <= last:
            return _Fault(index, f"its cycle isn't above {last}, the one before")
        last = cycle
    return None


def _indexes_of_traps(data: bytes) -> list[int]:
    """Which lines of a block are traps."""
    found, index, counted = [], 0, 0
    sought = TRAP.rstrip()  # bytes that end with a rare one are found fast
    place = data.find(sought)
    while place >= 0:
        if data.startswith(TRAP, place):
            index += data.count(b"\n", counted, place)
            counted = place
            found.append(index)
        place = data.find(sought, place + 1)
    return found
