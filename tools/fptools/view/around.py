"""The cycle of an event, which a run of `flexpret` finds: an address, a trap, a store or a wait."""

import re
from dataclasses import dataclass, field
from heapq import nsmallest
from itertools import islice
from pathlib import Path
from typing import Iterator

from fptools.files.elf import Program, ProgramError
from fptools.visits.observed import opened_run
from fptools.program.calls import Flexpret
from fptools.view.events import Filter, Wanted
from fptools.files.trace import CAUSES, event_of
from fptools.files.trace_blocks import EFFECT, Progress, TraceReader
from fptools.limits import MOST_CYCLES
from fptools.view.rows import THREADS

MOST_STORED = (1 << 32) - 1
NUMBER = re.compile(r"0x[0-9a-fA-F]{1,8}|[0-9]{1,10}")
RETIRED = 4  # cycles from an issue to the one in which `run` writes its line
FORM = (
    "it is pc=ADDRESS, trap, trap=CAUSE, store=ADDRESS or wait,"
    " and may go on with ,nth=N and ,thread=I"
)


class BadEvent(Exception):
    """The text names no event."""


class NeverCame(Exception):
    """The event doesn't come within the cycles of the run."""


@dataclass(frozen=True)
class Wish:
    """The event to look for: its kind, its number in order, and the threads it may be of."""

    text: str
    wanted: Wanted
    cause: int | None = None
    is_wait: bool = False
    nth: int = 1
    threads: tuple[int, ...] = field(default=tuple(THREADS))


def wish_of(text: str, program: Program) -> Wish:
    """The event that a text describes; addresses may be names of a program."""
    first, *rest = text.split(",")
    more = dict(_pair(text, part) for part in rest)
    if len(more) < len(rest) or not more.keys() <= {"nth", "thread"}:
        raise BadEvent(f"{text}: {FORM}")
    nth = _number(text, more.get("nth", "1"), 1, MOST_STORED)
    thread = more.get("thread")
    threads = (_number(text, thread, 0, 7),) if thread is not None else tuple(THREADS)
    kind, sign, value = first.partition("=")
    if bool(sign) != bool(value):
        raise BadEvent(f"{text}: {FORM}")
    if kind == "pc" and value:
        pcs = [hex(_address(text, value, program))]
        return Wish(text, Wanted(pcs=pcs), nth=nth, threads=threads)
    if kind == "store" and value:
        at = _address(text, value, program)
        return Wish(text, Wanted(stores=[at]), nth=nth, threads=threads)
    if kind == "trap":
        cause = _number(text, value, 0, 31) if value else None
        if cause is not None and cause not in CAUSES:
            raise BadEvent(f"{text}: the causes are {', '.join(map(str, CAUSES))}")
        return Wish(text, Wanted(traps=True), cause, nth=nth, threads=threads)
    if first == "wait":
        return Wish(text, Wanted(), is_wait=True, nth=nth, threads=threads)
    raise BadEvent(f"{text}: {FORM}")


def _pair(text: str, part: str) -> tuple[str, str]:
    key, sign, value = part.partition("=")
    if not sign or not value:
        raise BadEvent(f"{text}: {FORM}")
    return key, value


def _number(text: str, digits: str, least: int, most: int) -> int:
    if not digits.isascii() or not digits.isdigit() or not least <= int(digits) <= most:
        raise BadEvent(f"{text}: {digits} is no number from {least} to {most}")
    return int(digits)


def _address(text: str, value: str, program: Program) -> int:
    try:
        at = program.address(value)
    except ProgramError as fault:
        raise BadEvent(f"{text}: {fault}") from fault
    if at > MOST_STORED:
        raise BadEvent(f"{text}: {value} is above {MOST_STORED:#x}")
    return at


@dataclass(frozen=True)
class Seeker:
    """Looks for events in runs of a setup, of so many cycles at most."""

    flexpret: Flexpret
    setup: Path
    within: int
    name: str

    def cycle(self, wish: Wish, program: Program) -> int:
        """The cycle of an event; of those of several threads, by their order in the run."""
        found: list[int] = []
        for thread in wish.threads:
            # Behind the last cycle that counts so far, no other one is looked for.
            end = found[-1] if len(found) == wish.nth else self.within
            found = nsmallest(wish.nth, [*found, *self._of(wish, program, thread, end)])
        if len(found) < wish.nth:
            times = f"comes {len(found)} times"
            often = {0: "doesn't come", 1: "comes once"}.get(len(found), times)
            raise NeverCame(
                f"{wish.text}: it {often} within {self.within} cycles; --within looks further"
            )
        return found[-1]

    def _of(self, wish: Wish, program: Program, thread: int, end: int) -> list[int]:
        """The first cycles of a thread in which the event comes, as many as may be needed."""
        cycles = min(end + RETIRED, MOST_CYCLES)
        with opened_run(self.flexpret, self.setup, thread, cycles) as source:
            reader = TraceReader(source, f"T{thread}", 0, end, Progress(self.name, end))
            return list(islice(_cycles(reader, wish, program), wish.nth))


def _cycles(reader: TraceReader, wish: Wish, program: Program) -> Iterator[int]:
    chosen = Filter(wish.wanted, program)
    for block in reader.blocks():
        if wish.is_wait:
            indexes = [at for at, line in enumerate(block.lines) if line[EFFECT] == b"wait"]
        else:
            indexes = chosen.indexes(block, [], 1)
        for index in indexes:
            event = event_of(block, index)
            if wish.cause in (None, event.cause):
                yield event.cycle
