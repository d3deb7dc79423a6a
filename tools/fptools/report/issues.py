"""The issues of threads in parts of a run, and where they spent their cycles."""

from bisect import bisect_left
from dataclasses import dataclass
from typing import Sequence

from fptools.files.elf import Line
from fptools.visits.observed import opened_run
from fptools.program.calls import Flexpret
from fptools.files.setup import Setup
from fptools.view.events import Columns
from fptools.files.trace import Event, event_of
from fptools.files.trace_blocks import EFFECT, Block, Progress, TraceReader
from fptools.isa.turns import Turns, is_delay, turns_of
from fptools.limits import MOST_CYCLES
from fptools.visits.meters import first_try

STAGES = "FDEMW"
RETIRED = len(STAGES) - 1  # cycles from an issue to the one in which its line is written


@dataclass(frozen=True)
class Span:
    """Cycles of a run: from `start` up to below `end`."""

    start: int
    end: int

    @property
    def cycles(self) -> int:
        return self.end - self.start


@dataclass(frozen=True)
class Issue:
    """An event, and the cycle of its first try, which only a DU has before its issue."""

    begin: int
    event: Event
    is_awakening: bool  # the event before is a wait: the thread slept until now


@dataclass(frozen=True)
class Spot:
    """A source line, or an instruction if no line is known, and its cycles in an execution."""

    place: str
    text: str
    function: str
    cycles: int
    issues: int


def read_issues(
    flexpret: Flexpret, setup: Setup, thread: int, spans: Sequence[Span], name: str
) -> list[list[Issue]]:
    """The issues of a thread in each of some spans, by one run."""
    first, last = min(it.start for it in spans), max(it.end for it in spans)
    turns, found = turns_of(setup, thread), [list[Issue]() for _ in spans]
    with opened_run(flexpret, setup.path, thread, min(last + RETIRED, MOST_CYCLES)) as source:
        for block in TraceReader(source, f"T{thread}", first, last, Progress(name, last)).blocks():
            for span, issues in zip(spans, found):
                begin = bisect_left(block.lines, b"%10d" % span.start)
                end = bisect_left(block.lines, b"%10d" % span.end)
                issues += [_issue(block, index, turns) for index in range(begin, end)]
    return found


def _issue(block: Block, index: int, turns: Turns | None) -> Issue:
    event, before = event_of(block, index), block.line(index - 1)
    begin = first_try(block, index, turns) if is_delay(event.bits) else event.cycle
    return Issue(begin, event, before is not None and before[EFFECT] == b"wait")


@dataclass
class _Taken:
    """The cycles of a source line or an address so far; `event` is its first one."""

    line: Line | None
    event: Event
    cycles: int = 0
    issues: int = 0


def spots_of(issues: Sequence[Issue], span: Span, columns: Columns) -> list[Spot]:
    """Where a span's cycles went, the most first. An issue has the cycles up to the next one."""
    taken: dict[Line | int, _Taken] = {}
    begins = [max(span.start, it.begin) for it in issues]
    for issue, begin, end in zip(issues, begins, [*begins[1:], span.end]):
        line = columns.program.line_of(issue.event.pc)
        spot = taken.setdefault(line or issue.event.pc, _Taken(line, issue.event))
        spot.cycles += end - begin
        spot.issues += 1
    # Of equal ones the first to issue comes first.
    return [_spot(it, columns) for it in sorted(taken.values(), key=lambda it: -it.cycles)]


def _spot(taken: _Taken, columns: Columns) -> Spot:
    event, line = taken.event, taken.line
    at, instruction, _ = columns.of(event)
    function = columns.program.function_at(event.pc)
    place, text = f"{event.pc:#x} {at}".rstrip(), instruction
    if line is not None:
        place, text = str(line), columns.sources.text(line).strip()
    return Spot(place, text, function.name if function else "", taken.cycles, taken.issues)
