"""The marks of a view: addresses, sections with their deadlines, and periods."""

import re
from dataclasses import dataclass
from typing import Sequence

from fptools.files.elf import Program, ProgramError
from fptools.limits import MOST_CYCLES
from fptools.view.rows import Row

EVERY = re.compile(r"every=([0-9]{1,13})(?:\+([0-9]{1,13}))?")
FORM = (
    "a mark is ADDRESS, a section A:B or A:B=CYCLES with its deadline,"
    " or every=NS or every=NS+START, in nanoseconds"
)


class BadMark(Exception):
    """The text is no mark."""


@dataclass(frozen=True)
class Point:
    """An issue of the address of a mark."""

    mark: int  # its number, from 0 on
    thread: int
    cycle: int


@dataclass(frozen=True)
class Passage:
    """An execution of a section in a window. Without a begin it is an end alone; without an end it
    goes on."""

    mark: int
    thread: int
    begin: int | None
    end: int | None
    deadline: int | None = None  # the cycle by which it has to end

    @property
    def cycles(self) -> int | None:
        return None if self.begin is None or self.end is None else self.end - self.begin


@dataclass(frozen=True)
class Mark:
    """A mark: a section from `start` to `end`, an address, or a periodic moment."""

    text: str
    start: int | None = None
    end: int | None = None
    most: int | None = None  # cycles of the section's deadline
    every: int | None = None  # nanoseconds
    offset: int = 0

    @property
    def is_section(self) -> bool:
        return self.end is not None


def mark_of(text: str, program: Program) -> Mark:
    """A mark by its text; addresses may be names of a program."""
    if text.startswith("every="):
        found = EVERY.fullmatch(text)
        if found is None or not int(found[1]):
            raise BadMark(f"{text}: {FORM}")
        return Mark(text, every=int(found[1]), offset=int(found[2] or 0))
    places, sign, most = text.partition("=")
    if sign and not (re.fullmatch("[0-9]{1,10}", most) and ":" in places):
        raise BadMark(f"{text}: {FORM}")
    if most and int(most) > MOST_CYCLES:
        raise BadMark(f"{text}: a deadline has {MOST_CYCLES} cycles at most")
    start, colon, end = places.partition(":")
    first = _address(text, start, program)
    last = _address(text, end, program) if colon else None
    return Mark(text, first, last, int(most) if most else None)


def _address(text: str, place: str, program: Program) -> int:
    try:
        return program.address(place)
    except ProgramError as fault:
        raise BadMark(f"{text}: {fault}; {FORM}" if not place else f"{text}: {fault}") from fault


def points_of(marks: Sequence[Mark], rows: Sequence[Row]) -> list[Point]:
    """The issues of marked addresses."""
    return [
        Point(number, row.turn.thread, row.cycle)
        for number, mark in enumerate(marks)
        if mark.start is not None and not mark.is_section
        for row in rows
        if row.turn is not None and row.turn.is_issue and row.turn.event.pc == mark.start
    ]


def passages_of(marks: Sequence[Mark], rows: Sequence[Row]) -> list[Passage]:
    """The executions of marked sections that begin or end in a window."""
    found: list[Passage] = []
    for number, mark in enumerate(marks):
        if mark.is_section:
            found += _passages(number, mark, rows)
    return found


def _passages(number: int, mark: Mark, rows: Sequence[Row]) -> list[Passage]:
    """The executions of a section: from an issue of its first address to the next of its end."""
    found: list[Passage] = []
    open_: dict[int, int] = {}
    for row in rows:
        if row.turn is None or not row.turn.is_issue:
            continue
        thread, pc = row.turn.thread, row.turn.event.pc
        if pc == mark.end:
            begin = open_.pop(thread, None)
            found.append(Passage(number, thread, begin, row.cycle, _deadline(mark, begin)))
        if pc == mark.start and thread not in open_:
            open_[thread] = row.cycle
    for thread, begin in open_.items():
        found.append(Passage(number, thread, begin, None, _deadline(mark, begin)))
    return found


def _deadline(mark: Mark, begin: int | None) -> int | None:
    return None if begin is None or mark.most is None else begin + mark.most


def periods_of(marks: Sequence[Mark], first: int, end: int) -> list[tuple[int, int]]:
    """The moments of periodic marks from `first` up to below `end`, in nanoseconds, by marks."""
    found = []
    for number, mark in enumerate(marks):
        if mark.every is not None:
            steps = max(0, -(-(first - mark.offset) // mark.every))
            begin = mark.offset + steps * mark.every
            found += [(number, at) for at in range(begin, end, mark.every)]
    return found
