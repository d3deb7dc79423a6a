"""The cycles of a window, read from the text of the proved view."""
from __future__ import annotations

import os
import re
import subprocess
import sys
from dataclasses import dataclass
from itertools import chain
from pathlib import Path
from typing import Iterable, Iterator

from fptools.program.calls import BESIDE, look_for
from fptools.files.trace import Event

VIEW_BESIDE = BESIDE.with_name("flexpret-view")
VIEW_HELP = (
    "the view; if left out, what the variable FLEXPRET_VIEW names, or the ./flexpret-view beside"
)
HEAD = "     cycle            ns slot  F  D  E  M  W  turn"
BUILT = "`./flexpret-view turns examples/drive.toml --to 9` in a checkout builds it: name that ./flexpret-view by FLEXPRET_VIEW or --view"
THREADS = range(8)
STAGES = "FDEMW"
BEFORE = len(STAGES) - 1  # cycles before a window whose turns are still in a stage of it
MOST_WINDOW = 100_000  # cycles
# The columns of a line: cycle, nanoseconds, slot, the five stages, and the turn.
CYCLE, TIME, SLOT, STAGES_AT, TURN = (
    *(slice(0, 10), slice(11, 24), slice(25, 29), slice(30, 45)),
    slice(46, None),
)
ISSUE = re.compile(r"T([0-7]) ([0-9a-f]{8}) ([0-9a-f]{8}) (.{26}) (.+)")
FLUSHED = re.compile(r"T([0-7]) flushed")


class ViewFailed(Exception):
    """The view refused or failed: its status, and its output on both streams."""

    def __init__(self, status: int, output: str, errors: str) -> None:
        super().__init__(f"status {status}")
        self.status, self.output, self.errors = status, output, errors


@dataclass(frozen=True)
class Turn:
    """The turn that a cycle picks. A flushed one has no word, so its address is 0."""

    thread: int
    is_flushed: bool
    event: Event
    text: str  # the instruction

    @property
    def is_held(self) -> bool:
        """Whether it is a DU before its moment."""
        return self.event.effect == "held"

    @property
    def is_issue(self) -> bool:
        """Whether its instruction issues. An expiry and a refused fetch take the turn of one."""
        return not self.is_flushed and not self.is_held and self.event.issues


@dataclass(frozen=True)
class ThreadState:
    """The state of a thread at the start of a cycle."""

    asleep: bool = False
    armed: int | None = None  # nanoseconds
    latch: int | None = None  # of its port, if it has one
    input: int = (1 << 32) - 1


@dataclass(frozen=True)
class State:
    """The modes register, and the states of the threads, at the start of a cycle."""

    modes: int = 0
    threads: tuple[ThreadState, ...] = (ThreadState(),) * len(THREADS)


@dataclass(frozen=True)
class Row:
    """A cycle of a window."""

    cycle: int
    time: int  # nanoseconds, as the period
    slot: str
    turn: Turn | None
    line: str  # as the view wrote it
    state: State
    period: int


@dataclass(frozen=True)
class View:
    """The view of a setup."""

    path: str
    setup: Path
    progress: str = ""  # until when progress is shown on standard error: `before` or `all`

    @classmethod
    def named(cls, path: str | None, setup: Path) -> View:
        """The view of an option, else of the variable, else of this repository. Raises `NoProgram`."""
        name = path or os.environ.get("FLEXPRET_VIEW") or str(VIEW_BESIDE)
        look_for(name, "the view", BUILT)
        return cls(name, setup, "all" if sys.stderr.isatty() else "")

    def look(self) -> None:
        """Raises `ViewFailed` where the setup is refused or a file can't be read."""
        list(self.rows(0, 1))

    def rows(self, first: int, end: int) -> Iterator[Row]:
        """The cycles of a window. Where the view refuses it, raises `ViewFailed` at once."""
        rows = self._rows(first, end)
        begin = next(rows, None)
        return rows if begin is None else chain([begin], rows)

    def _rows(self, first: int, end: int) -> Iterator[Row]:
        words = [self.path, "turns", str(self.setup), "--from", str(first), "--to", str(end)]
        words += ["--state", *(["--progress", self.progress] if self.progress else [])]
        errors = None if self.progress else subprocess.PIPE
        with subprocess.Popen(words, stdout=subprocess.PIPE, stderr=errors, text=True) as ran:
            assert ran.stdout is not None
            try:
                said = ran.stdout.readline()
                if said.startswith(HEAD):
                    yield from rows_of(chain([said], ran.stdout))
                    said = ""
                output, complaint = ran.communicate()
            except BaseException:
                ran.kill()
                raise
        if ran.returncode:
            raise ViewFailed(ran.returncode, said + output, complaint or "")


def rows_of(lines: Iterable[str]) -> Iterator[Row]:
    """The cycles of the view's text with states. A line without a state has that of the line before."""
    left = iter(lines)
    period, state = int(next(left).removeprefix(HEAD)), State()
    for line in left:
        line, tab, changed = line.rstrip("\n").partition("\t")
        state = state_of(changed) if tab else state
        cycle = int(line[CYCLE])
        turn = turn_of(cycle, line[TURN])
        yield Row(cycle, int(line[TIME]), line[SLOT].strip(), turn, line, state, period)


def state_of(text: str) -> State:
    """A state by its text."""
    modes, *threads = text.split()
    return State(int(modes, 16), tuple(map(_thread_state, threads)))


def _thread_state(text: str) -> ThreadState:
    asleep, armed, latch, shown = text.split(",")
    return ThreadState(asleep == "1", _known(armed, 10), _known(latch, 16), int(shown, 16))


def _known(text: str, base: int) -> int | None:
    return None if text == "-" else int(text, base)


def turn_of(cycle: int, text: str) -> Turn | None:
    """A turn by its text; the gap of its event is 0."""
    if flushed := FLUSHED.fullmatch(text):
        return Turn(int(flushed[1]), True, Event(cycle, 0, 0, 0, "flushed"), "flushed")
    issue = ISSUE.fullmatch(text)
    if issue is None:
        return None
    event = Event(cycle, 0, int(issue[2], 16), int(issue[3], 16), issue[5])
    return Turn(int(issue[1]), False, event, issue[4].rstrip())
