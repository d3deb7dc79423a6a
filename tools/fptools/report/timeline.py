"""The issues of all threads in a window of a run, as the timeline draws them."""

from collections import defaultdict
from dataclasses import dataclass
from typing import Iterable, Sequence

from fptools.report.issues import STAGES, Issue, Span, read_issues
from fptools.program.calls import Flexpret
from fptools.files.setup import Setup
from fptools.view.events import Columns
from fptools.files.trace import Event
from fptools.isa.turns import DISABLED
from fptools.isa.words import OPCODE_LOAD, OPCODE_STORE, OPCODE_TIMING, Flow, Word
from fptools.untyped import Values

MOST_WINDOW = 20_000  # cycles, which are at most so many issues
THREADS = range(8)
KINDS = (
    ("plain", "arithmetic and other"),
    ("memory", "load, store"),
    ("flow", "branch, jump, call"),
    ("time", "time, wait, deadline"),
    ("trap", "trap"),
)
SHIFTS = range(1, len(STAGES))


@dataclass(frozen=True)
class Shade:
    """Cycles of a thread that are set off, from the window's begin on."""

    start: int
    cycles: int
    text: str


@dataclass(frozen=True)
class Row:
    """A thread's part of the timeline. Paths have a cycle as a unit, and begin at the window."""

    thread: int
    mode: str
    kinds: list[tuple[str, str]]  # the path of each kind of issue
    all: str
    sleeps: str
    shades: list[Shade]
    count: int


@dataclass(frozen=True)
class Timeline:
    """A window with its rows, and the texts for the pointer."""

    window: Span
    frame: list[str]  # the owners of the slots that repeat; empty where a thread may change them
    offset: int  # the place in the frame at which the window begins
    rows: list[Row]
    data: Values

    @property
    def has_sleep(self) -> bool:
        return any(row.sleeps for row in self.rows)


def kind_of(event: Event) -> str:
    """Which of KINDS an event is."""
    return "trap" if event.cause is not None else kind_of_word(Word(event.pc, event.bits))


def kind_of_word(word: Word) -> str:
    if word.opcode == OPCODE_TIMING:
        return "time"
    if word.opcode in (OPCODE_LOAD, OPCODE_STORE):
        return "memory"
    return "plain" if word.flow is Flow.NEXT else "flow"


class Painter:
    """Makes the timeline of a setup."""

    def __init__(self, flexpret: Flexpret, setup: Setup, columns: Columns, name: str) -> None:
        self._flexpret, self._setup, self._columns, self._name = flexpret, setup, columns, name
        self._words: dict[tuple[int, int, bool], int] = {}
        self._texts: list[tuple[str, str, str, str, str]] = []

    def painted(self, window: Span, executions: Sequence[tuple[int, Span, str]]) -> Timeline:
        """The timeline of a window, with executions by their threads, spans and names."""
        rows, issued = [], {}
        modes = {it.id: it.mode for it in self._setup.threads}
        for thread in THREADS:
            (issues,) = read_issues(self._flexpret, self._setup, thread, [window], self._name)
            if not issues and thread not in modes:
                continue
            shades = list(
                _shades(window, [(span, name) for own, span, name in executions if own == thread])
            )
            rows.append(_row(thread, modes.get(thread, "soft-asleep"), issues, window, shades))
            issued[thread] = issues
        data = {
            "start": window.start,
            "cycles": window.cycles,
            "period": self._setup.period,
            "frame": self.frame(),
            "rows": [self._issues(thread, issues, window) for thread, issues in issued.items()],
            "words": self._texts,
        }
        frame = self.frame()
        return Timeline(window, frame, window.start % len(frame) if frame else 0, rows, data)

    def frame(self) -> list[str]:
        """The owners of the slots that repeat; none where a permit may change them."""
        if self._setup.has_permits:
            return []
        return [slot for slot in self._setup.slots if slot != DISABLED]

    def _issues(self, thread: int, issues: Sequence[Issue], window: Span) -> Values:
        """The cycles of issues, each from the one before, with their words and effects."""
        cycles = [it.event.cycle - window.start for it in issues]
        return {
            "thread": thread,
            "gaps": [now - before for before, now in zip([0, *cycles], cycles)],
            "words": [self._number(it.event) for it in issues],
            "effects": [it.event.effect for it in issues],
        }

    def _number(self, event: Event) -> int:
        """The number of a word's texts."""
        key = event.pc, event.bits, event.issues
        if key not in self._words:
            self._words[key] = len(self._texts)
            at, instruction, source = self._columns.of(event)
            kind = kind_of_word(Word(event.pc, event.bits))
            self._texts.append((f"{event.pc:#x}", at, instruction, source, kind))
        return self._words[key]


def _shades(window: Span, executions: Iterable[tuple[Span, str]]) -> Iterable[Shade]:
    """Executions as far as they are in the window."""
    for span, name in executions:
        start, end = max(span.start, window.start), min(span.end, window.end)
        if start < end:
            yield Shade(start - window.start, end - start, name)


def _row(thread: int, mode: str, issues: Sequence[Issue], window: Span, shades: list[Shade]) -> Row:
    paths: dict[str, list[str]] = defaultdict(list)
    for it in issues:
        cell = f"M{it.event.cycle - window.start} 0h.9"
        paths["all"].append(cell)
        paths[kind_of(it.event)].append(cell)
    kinds = [(kind, "".join(paths[kind])) for kind, _ in KINDS if kind in paths]
    sleeps = "".join(_sleeps(issues, window))
    return Row(thread, mode, kinds, "".join(paths["all"]), sleeps, shades, len(issues))


def _sleeps(issues: Sequence[Issue], window: Span) -> Iterable[str]:
    """The cycles from behind a wait up to the next issue, as far as they are in the window."""
    for it in issues:
        if it.is_awakening:
            asleep = max(0, it.event.cycle - it.event.gap + 1 - window.start)
            yield f"M{asleep} 0H{it.event.cycle - window.start}"
    if issues and issues[-1].event.is_wait:
        yield f"M{issues[-1].event.cycle + 1 - window.start} 0H{window.cycles}"
