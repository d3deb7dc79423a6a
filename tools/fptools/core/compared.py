"""A recorded run of a core, thread by thread, against the program's."""

import subprocess
from collections import deque
from contextlib import ExitStack
from dataclasses import dataclass
from enum import Enum
from itertools import zip_longest
from pathlib import Path
from typing import IO, Iterable, Sequence

from fptools.program.calls import Flexpret
from fptools.program.status import Status
from fptools.core.records import RETIRES, Recorded
from fptools.files.setup import Setup

THREADS = range(8)
MOST_CHECKED = 1_000_000  # cycles, of `check`


class How(Enum):
    """The command that has the definition of a thread's trace."""

    CHECK = "check"  # of the thread's own view: it can't depend on other threads
    RUN = "run"  # of the whole machine


class CompareFailed(Exception):
    """The program refused the setup or failed. The text is its answer."""


@dataclass(frozen=True)
class Difference:
    """The first difference of two traces: its line, counted from 1, the same lines before it, and
    what each trace has there. None is a trace that has ended."""

    line: int
    before: Sequence[str]
    defined: str | None
    recorded: str | None

    @property
    def cycle(self) -> int:
        """The earlier cycle of the two lines."""
        return min(int(it[:10]) for it in (self.defined, self.recorded) if it is not None)


@dataclass(frozen=True)
class Compared:
    """A thread with the number of its recorded events, and how it was compared."""

    thread: int
    events: int
    how: How
    difference: Difference | None


def split(events: Iterable[Recorded], cycles: int, folder: Path) -> list[int]:
    """Writes the trace of each thread to a file of the folder, named after its number. Returns the
    numbers of events. Those that retire after `cycles` cycles are left out."""
    counts = [0] * len(THREADS)
    with ExitStack() as stack:
        files = [stack.enter_context(open(folder / str(k), "w", encoding="ascii")) for k in THREADS]
        for event in events:
            if event.cycle + RETIRES < cycles:
                files[event.thread].write(event.line())
                counts[event.thread] += 1
    return counts


@dataclass(frozen=True)
class Comparer:
    """Compares traces of files with a run of a setup, of some cycles, and keeps some lines before a
    difference."""

    program: Flexpret
    setup: Setup
    cycles: int
    kept: int

    def compare(self, thread: int, trace: Path, events: int) -> Compared:
        """The comparison of a thread's recorded trace."""
        how = self._how(thread)
        if how is How.CHECK and self._is_same(thread, trace):
            return Compared(thread, events, how, None)
        command = "solo" if how is How.CHECK else "run"
        found = self._first_difference(command, thread, trace)
        if how is How.CHECK and found is None:
            raise CompareFailed("check and solo differ: this is a fault of the program")
        return Compared(thread, events, how, found)

    def _how(self, thread: int) -> How:
        """By its own view where that is defined, and where no thread may write the registers that
        it depends on."""
        table = self.setup.thread(thread)
        is_alone = table is not None and table.confined and table.mode == "hard"
        has_slot = f"T{thread}" in self.setup.slots
        fits = self.cycles <= MOST_CHECKED and not self.setup.has_permits
        return How.CHECK if is_alone and has_slot and fits else How.RUN

    def _words(self, thread: int) -> list[str]:
        return [str(self.setup.path), "--thread", str(thread), "--cycles", str(self.cycles)]

    def _is_same(self, thread: int, trace: Path) -> bool:
        answer = self.program.ask("check", *self._words(thread), "--trace", str(trace))
        if answer.status not in (Status.OK, Status.DIFFERS):
            raise CompareFailed(answer.reason)
        return answer.status == Status.OK

    def _first_difference(self, command: str, thread: int, trace: Path) -> Difference | None:
        words = [self.program.path, command, *self._words(thread)]
        pipe = subprocess.PIPE
        with subprocess.Popen(words, stdout=pipe, stderr=pipe, text=True) as ran:
            assert ran.stdout and ran.stderr
            with open(trace, encoding="ascii") as recorded:
                found = first_difference(ran.stdout, recorded, self.kept)
            if found:
                ran.kill()
            errors = ran.stderr.read().strip()
        defined = (found.defined if found else None) or ""
        refusal = defined if defined.startswith("refused ") else ""
        if refusal or not found and ran.returncode:
            raise CompareFailed(refusal or errors)
        return found


def first_difference(defined: IO[str], recorded: IO[str], kept: int) -> Difference | None:
    """The first difference of two traces, with at most `kept` lines before it."""
    before: deque[str] = deque(maxlen=kept)
    for number, (want, found) in enumerate(zip_longest(defined, recorded), 1):
        if want != found:
            ends = [it.rstrip("\n") if it is not None else None for it in (want, found)]
            return Difference(number, list(before), *ends)
        before.append(want.rstrip("\n"))
    return None
