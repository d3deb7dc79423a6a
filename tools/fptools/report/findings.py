"""The content of a report: budgets with their bounds and runs, and the window of the timeline."""

import hashlib
from dataclasses import dataclass
from pathlib import Path
from typing import Mapping, Sequence

from fptools.budget.files import Budget, Result
from fptools.budget.runs import Compared, Runs
from fptools.budget.judge import Judge
from fptools.isa.disassembly import Disassembler, find_tool
from fptools.files.elf import Program, other_word
from fptools.report.issues import Span, Spot, read_issues, spots_of
from fptools.report.timeline import MOST_WINDOW, Painter, Timeline
from fptools.files.image import read_image
from fptools.visits.observed import Observation
from fptools.budget.results import judged
from fptools.program.calls import Flexpret
from fptools.files.setup import Setup
from fptools.view.events import Columns
from fptools.files.sources import Sources
from fptools.stack.stacks import Stack
from fptools.visits.seen import Executions
from fptools.budget.whole import ThreadAnswer, Whole

NAME = "fp_report"
MARGIN = 40  # cycles of the timeline on both sides of an execution
PLAIN_WINDOW = 400  # cycles of the timeline where nothing was executed


class NoReport(Exception):
    """Why there is no report."""


@dataclass(frozen=True)
class Finding:
    """A budget with the observations of a run of its thread, and the path of the longest execution."""

    compared: Compared
    longest: Span | None = None
    spots: tuple[Spot, ...] = ()

    @property
    def result(self) -> Result:
        return self.compared.result

    @property
    def executions(self) -> Executions | None:
        return self.compared.executions


@dataclass(frozen=True)
class Input:
    """An input file, with the first digits of its SHA-256."""

    what: str
    name: str
    digest: str


@dataclass(frozen=True)
class Findings:
    """All that a report shows."""

    setup: Setup
    image: Mapping[int, int]
    program: Program
    cycles: int
    inputs: list[Input]
    found: list[Finding]
    observations: list[Observation]
    timeline: Timeline
    stacks: list[Stack]
    threads: list[ThreadAnswer]  # none where only budgets are asked for


@dataclass
class Question:
    """A setup with its program, the length of its run, and the window of the timeline."""

    flexpret: Flexpret
    setup: Setup
    program: Program
    sources: Sources
    cycles: int
    window: Span | None
    is_of_all: bool = False  # whether it is of all hard threads, and not only of budgets

    def __post_init__(self) -> None:
        self.image = read_image(self.setup.image)
        if other := other_word(self.program, self.image):
            raise NoReport(other)
        self._columns = Columns(self.program, Disassembler(find_tool()), self.sources)
        if self.window is not None:
            look_at_window(self.window, self.cycles)

    def findings(self, budgets: Sequence[Budget], files: Sequence[tuple[str, Path]]) -> Findings:
        """Gets the bounds, runs the threads, and reads their longest executions."""
        judge = Judge(
            self.flexpret, self.setup, self.image, self.program, self.sources, has_paths=True
        )
        runs = Runs(self.flexpret, self.setup, self.image, self.program, self.cycles, name=NAME)
        whole = Whole(judge)
        given = whole.results(budgets) if self.is_of_all else [judged(judge, it) for it in budgets]
        compared = runs.observed(given)
        seen = observations_of(compared)
        found = self._located(compared)
        self._columns.disassembler.learn(self.image)
        painter = Painter(self.flexpret, self.setup, self._columns, NAME)
        executions = [
            (it.result.budget.thread, it.longest, it.result.budget.name)
            for it in found
            if it.longest
        ]
        timeline = painter.painted(self.window or chosen_window(found, self.cycles), executions)
        inputs = [Input(what, str(path), digest_of(path)) for what, path in files]
        return Findings(
            self.setup,
            self.image,
            self.program,
            self.cycles,
            inputs,
            found,
            seen,
            timeline,
            judge.stacks.all(),
            whole.threads([it.result for it in compared]) if self.is_of_all else [],
        )

    def _located(self, compared: Sequence[Compared]) -> list[Finding]:
        """The budgets, each with the longest execution of its section."""
        spans = [longest_of(it.executions) if it.executions else None for it in compared]
        found = [Finding(it, span) for it, span in zip(compared, spans)]
        for thread in sorted({it.result.budget.thread for it in compared}):
            own = [
                at
                for at, it in enumerate(found)
                if it.longest and it.result.budget.thread == thread
            ]
            wanted = [span for at in own if (span := spans[at])]
            if not wanted:
                continue
            issues = read_issues(self.flexpret, self.setup, thread, wanted, NAME)
            for at, span, own_issues in zip(own, wanted, issues):
                spots = tuple(spots_of(own_issues, span, self._columns))
                found[at] = Finding(compared[at], span, spots)
        return found


def observations_of(compared: Sequence[Compared]) -> list[Observation]:
    """The runs of the threads, in their order. Each has to be whole, and of this setup."""
    seen = {it.question.thread: it for one in compared if (it := one.observation)}
    for it in seen.values():
        if it.broken or it.foreign:
            raise NoReport(it.broken or it.foreign)
    return [seen[thread] for thread in sorted(seen, key=lambda thread: thread or 0)]


def digest_of(path: Path) -> str:
    """The first 16 hexadecimal digits of a file's SHA-256."""
    return hashlib.sha256(path.read_bytes()).hexdigest()[:16]


def longest_of(seen: Executions) -> Span | None:
    """The cycles of the longest execution, however it went."""
    longest = seen.longest
    return Span(longest.at, longest.at + longest.most) if longest and longest.most else None


def look_at_window(window: Span, cycles: int) -> None:
    """The window is in the run, and no larger than a timeline may be."""
    named = f"--window {window.start}:{window.end}"
    if window.cycles < 1:
        raise NoReport(f"{named}: its end isn't above its begin")
    if window.end > cycles:
        raise NoReport(f"{named}: the run has {cycles} cycles, by --cycles")
    if window.cycles > MOST_WINDOW:
        raise NoReport(f"{named}: {window.cycles} cycles, of {MOST_WINDOW} at most")


def chosen_window(found: Sequence[Finding], cycles: int) -> Span:
    """The cycles around the longest execution of the budget with the least left, if they fit."""
    seen = [it for it in found if it.longest]
    if not seen:
        return Span(0, min(PLAIN_WINDOW, cycles))
    tightest = max(seen, key=lambda it: part_of_budget(it.result))
    assert tightest.longest
    start = max(0, tightest.longest.start - MARGIN)
    return Span(start, min(tightest.longest.end + MARGIN, start + MOST_WINDOW, cycles))


def part_of_budget(result: Result) -> float:
    """The longest of bound and executions, as a part of the budget."""
    most = max(result.bound or 0, result.longest or 0)
    return most / result.budget.cycles if result.budget.cycles else 0.0
