"""The observations of a thread in a run, and the bounds, budgets and tables that it broke."""
from __future__ import annotations

import fcntl
import subprocess
import tempfile
from bisect import bisect_left
from collections import ChainMap
from contextlib import contextmanager
from dataclasses import dataclass, field, replace
from enum import Enum
from itertools import chain
from pathlib import Path
from typing import IO, Collection, Iterator, Mapping, Sequence

from fptools.visits.claims import ClaimMeter, Passes
from fptools.flow.records import Marks
from fptools.files.trace_blocks import Block, BrokenTrace, Progress, Source, TraceReader, address
from fptools.program.calls import Flexpret, RunFailed
from fptools.program.status import Status
from fptools.code.section import walk
from fptools.files.setup import LoopTable, Setup
from fptools.isa.turns import Turns, is_delay, turns_of

from fptools.visits.functions import CallMeter
from fptools.visits.loops import LoopMeter
from fptools.visits.meters import Meter, earliest_issue, measure
from fptools.visits.sections import SectionMeter
from fptools.visits.seen import Executions, Lost, MOST_KEPT, Rounds, TrapAt, Trapped, Wait, Watched
from fptools.visits.traps import OpenTrapMeter, TrapMeter
from fptools.visits.waits import WaitJudge, WaitMeter

PIPE_BYTES = 1 << 20
DEFAULT_PERIOD = 10  # nanoseconds
LOOKED_AT = 32  # events of a block that are compared with the turns
RETIRES = (
    4  # cycles from an issue to its line: the issues of as many last cycles of a run have none
)


class Kind(Enum):
    """The limits that a run can break."""

    TABLE = "table"  # how often a loop goes back
    CLAIM = "claim"  # how often FP_ROUND is passed between two passes of FP_LOOP
    BUDGET = "budget"
    BOUND = "bound"  # in a visit that kept all tables: a fault of the analyser


class Why(Enum):
    """Why a run doesn't show that a budget is kept, though no execution that ended took longer."""

    TRAPPED = "an execution didn't end: a trap came, and the thread didn't come back"
    LEFT = "an execution didn't end: the section was left, and began again"
    GONE = "a trap came since the last execution, and the thread didn't come back"
    NONE_ENDED = "one execution began, and none ended"
    NONE_BEGAN = "no execution began"


@dataclass(frozen=True)
class Doubt:
    """Why a run says nothing good of a section."""

    what: str  # the section's name
    why: Why
    start: int = 0  # the cycle in which the execution began
    cycles: int = 0  # that it took so far
    trap: TrapAt | None = None


@dataclass(frozen=True)
class Break:
    """A break of a table, a budget or a bound."""

    kind: Kind
    what: str  # the loop's addresses, the section's name, or the claim's place and name
    seen: int  # rounds, passes or cycles
    most: int  # that were allowed
    cycle: int  # in which it began; of a claim, in which it was broken first
    times: int
    doubt: Doubt | None = None  # of a section that is over its budget


@dataclass(frozen=True)
class Question:
    """The sections and loops to observe in the trace of a thread."""

    thread: int | None
    watched: Sequence[Watched] = ()
    loops: Sequence[LoopTable] = ()
    turns: Turns | None = None
    period: int = DEFAULT_PERIOD
    code: Mapping[int, int] = field(
        default_factory=dict
    )  # the words of the image, where it is known
    is_quiet: bool = True  # no thread may write slots, modes or regions
    cycles: int | None = None  # of the run, where that is known
    marks: Marks | None = None  # those of the loops

    @property
    def shown_to(self) -> int | None:
        """The last cycle of which the trace shows whether the thread issued."""
        return None if self.cycles is None else self.cycles - RETIRES - 1


@dataclass
class Observation:
    """The observations in the trace of a thread."""

    question: Question
    events: int = 0
    first_cycle: int | None = None
    last_cycle: int | None = None
    executions: list[Executions] = field(default_factory=list)
    rounds: list[Rounds] = field(default_factory=list)
    claims: list[Passes] = field(default_factory=list)
    waits: list[Wait] = field(default_factory=list)
    traps: list[Trapped] = field(default_factory=list)
    broken: str | None = None  # which line of the trace is broken, or that it was stopped; all before it was looked at
    foreign: str | None = None  # why the trace isn't of this image, or of this thread

    @property
    def breaks(self) -> list[Break]:
        found = [*self._broken_tables(), *self._broken_claims(), *self._broken_budgets()]
        return found if self.foreign else [*found, *self._broken_bounds()]

    def _broken_tables(self) -> Iterator[Break]:
        for rounds in self.rounds:
            table = rounds.table
            if table.bound is not None and rounds.breaks:
                cycle, most = max(rounds.breaks, key=lambda it: (it[1], -it[0]))
                yield Break(
                    Kind.TABLE, spelled_loop(table), most, table.bound, cycle, len(rounds.breaks)
                )

    @property
    def doubts(self) -> list[Doubt]:
        """Why the run says nothing good of sections; those that are over their budgets aren't among them."""
        found = (doubt_of(seen) for seen in self.executions if not _is_over(seen))
        return [it for it in found if it is not None]

    def _broken_claims(self) -> Iterator[Break]:
        for it in self.claims:
            if it.broken_at is not None:
                yield Break(
                    Kind.CLAIM, str(it.claim), it.most, it.claim.most, it.broken_at, it.times
                )

    def _broken_budgets(self) -> Iterator[Break]:
        for seen in self.executions:
            slowest, budget = seen.slowest, seen.watched.budget
            if slowest is not None and budget is not None and _is_over(seen):
                doubt = doubt_of(seen)
                own = doubt if doubt and doubt.why not in (Why.NONE_ENDED, Why.NONE_BEGAN) else None
                yield Break(Kind.BUDGET, seen.watched.name, slowest[0], budget, slowest[1], 1, own)

    def _broken_bounds(self) -> Iterator[Break]:
        """The visits above their bound in which no loop went back more often than its table says, of a run that
        broke no claim."""
        if any(it.is_broken for it in self.claims):
            return
        if any(len(rounds.breaks) == MOST_KEPT for rounds in self.rounds):
            return  # not all of the breaks are known
        starts = sorted(cycle for rounds in self.rounds for cycle, _ in rounds.breaks)
        for seen in self.executions:
            kept = [it for it in seen.over if not _has_break(starts, *it)]
            if kept and seen.watched.bound is not None:
                cycle, cycles = max(kept, key=lambda it: (it[1], -it[0]))
                yield Break(
                    Kind.BOUND, seen.watched.name, cycles, seen.watched.bound, cycle, len(kept)
                )


def _is_over(seen: Executions) -> bool:
    """Whether an execution took longer than the budget."""
    slowest, budget = seen.slowest, seen.watched.budget
    return slowest is not None and budget is not None and slowest[0] > budget


def doubt_of(seen: Executions) -> Doubt | None:
    """Why a run says nothing good of a section, or of a function with a budget or bound. Without a budget
    that is only a trap from which the thread didn't come back."""
    watched, lost = seen.watched, seen.lost
    has_budget = watched.budget is not None
    if watched.is_function and not has_budget and watched.bound is None:
        return None
    if lost is not None and (lost.trap is not None or has_budget):
        why = Why.LEFT if lost.trap is None else Why.TRAPPED
        return Doubt(watched.name, why, lost.start, lost.cycles, lost.trap)
    if seen.gone is not None and (has_budget or not watched.is_function):
        return Doubt(watched.name, Why.GONE, trap=seen.gone)
    if not has_budget or seen.count:
        return None
    if seen.unfinished is not None:
        return Doubt(watched.name, Why.NONE_ENDED, *seen.unfinished)
    return Doubt(watched.name, Why.NONE_BEGAN)


def silence_of(seen: Executions, shown_to: int | None) -> int | None:
    """The cycles at the end of a run in which no execution began, if they are more than twice as many as ever lay
    between two begins, or as the longest execution took where there was one alone."""
    if shown_to is None or seen.last_begin is None or seen.unfinished is not None:
        return None
    longest = seen.longest
    usual = seen.periods.most if seen.periods.count else longest.most if longest else None
    silent = shown_to - seen.last_begin
    return silent if usual is not None and silent > 2 * usual else None


def _has_break(starts: Sequence[int], cycle: int, cycles: int) -> bool:
    """Whether a loop that broke its table was entered in a visit."""
    index = bisect_left(starts, cycle)
    return index < len(starts) and starts[index] <= cycle + cycles


def spelled_loop(table: LoopTable) -> str:
    return f"{table.head:#x} to {table.last:#x}"


def loops_without_table(
    watched: Collection[Watched], code: Mapping[int, int], stated: Collection[LoopTable]
) -> list[LoopTable]:
    """The loops in the code of sections that no table states, by their heads."""
    parts = {
        part for it in watched if not it.is_function for part in ((it.start, it.end), *it.routines)
    }
    heads = {head for it in watched for head, _ in it.routines}
    found = chain.from_iterable(walk(code, start, end, heads).loops for start, end in sorted(parts))
    known = {it.head for it in stated}
    return [
        LoopTable(head, last)
        for head, last in sorted({(it.head, it.last) for it in found})
        if head not in known
    ]


def question_of(
    setup: Setup,
    thread: int,
    watched: Sequence[Watched],
    code: Mapping[int, int],
    marks: Marks | None = None,
) -> Question:
    """What to look at in a run of a setup: sections, all loops that its tables or the sections' code have, and
    claims of loop marks."""
    loops = [*setup.loops, *loops_without_table(watched, code, setup.loops)]
    is_quiet = not setup.has_permits
    return Question(
        thread, watched, loops, turns_of(setup, thread), setup.period, code, is_quiet, marks=marks
    )


class TurnMeter:
    """Looks at some events of each block: whether they are in the turns that the setup gives the thread."""

    def __init__(self, turns: Turns | None, code: Mapping[int, int]) -> None:
        self._turns, self._code = turns, code
        self.stranger: str | None = None  # the first event that isn't, and why

    def take(self, block: Block) -> None:
        if self._turns is None or self.stranger is not None:
            return
        for index in range(min(LOOKED_AT, len(block.lines))):
            cycle = block.cycle(index)
            if not self._turns.owns(cycle):
                self.stranger = f"cycle {cycle} is no turn of the thread"
                return
            earliest = earliest_issue(block, index)
            is_spinning = is_delay(self._code.get(address(block.events[index]) or 0, 0))
            if earliest is not None and not is_spinning and cycle != self._turns.next(earliest):
                self.stranger = (
                    f"the event of cycle {cycle} would be in cycle {self._turns.next(earliest)}"
                )
                return

    def end(self, cycle: int) -> None:
        """Nothing is open at the end."""


def observe(reader: TraceReader, question: Question) -> Observation:
    """Looks at a trace. Where a line is broken, at all before it."""
    code: Mapping[int, int] = (
        ChainMap(dict(question.code), reader.words) if question.code else reader.words
    )
    sections = [
        SectionMeter(it, question.turns, code, question.shown_to)
        for it in question.watched
        if not it.is_function
    ]
    functions = [it for it in question.watched if it.is_function]
    calls = CallMeter(functions, question.turns, reader)
    loops = [LoopMeter(table) for table in question.loops]
    waits, traps = WaitMeter(WaitJudge(reader, question.turns, question.period)), TrapMeter()
    turns, open_trap = TurnMeter(question.turns, code), OpenTrapMeter(reader)
    claims = ClaimMeter(question.marks or Marks())
    meters: list[Meter] = [*sections, *loops, waits, traps, turns, open_trap, claims]
    meters += [calls] if functions else []
    seen = Observation(question)
    try:
        measure(reader, meters)
    except BrokenTrace as fault:
        seen.broken = str(fault)
    except KeyboardInterrupt:
        seen.broken = f"{reader.name}: stopped behind cycle {reader.last_cycle}"
    seen.events, seen.first_cycle, seen.last_cycle = (
        reader.events,
        reader.first_cycle,
        reader.last_cycle,
    )
    seen.executions = [*(it.seen for it in sections), *calls.seen.values()]
    for executions in seen.executions:
        look_at_open_trap(executions, open_trap, reader.last_cycle or 0)
    seen.rounds = [it.seen for it in loops]
    seen.claims = claims.passes
    seen.waits = sorted(waits.seen.values(), key=lambda it: it.pc)
    seen.traps = sorted(traps.seen.values(), key=lambda it: it.first)
    seen.foreign = _foreign(reader, question, turns)
    return seen


def look_at_open_trap(seen: Executions, open_trap: OpenTrapMeter, last_cycle: int) -> None:
    """Whether a thread that is in a trap handler at the end of a run comes back no more. It does where an
    execution with a trap ended before and took as long, or executions began as far apart."""
    trap, last_begin = open_trap.trap, seen.last_begin
    if (
        seen.watched.is_function
        and trap is not None
        and last_begin is not None
        and last_begin < trap.cycle
    ):
        seen.open_trap = trap
    if seen.unfinished is not None:
        comes_back = seen.interrupted.most >= seen.unfinished[1] and not open_trap.stands_still
        if seen.open_trap is not None and not comes_back:
            seen.lose(Lost(*seen.unfinished, seen.open_trap))
    elif trap is not None and (last_begin is None or last_begin < trap.cycle):
        if open_trap.stands_still or last_cycle - trap.cycle > seen.periods.most > 0:
            seen.gone = trap


def _foreign(reader: TraceReader, question: Question, turns: TurnMeter) -> str | None:
    """Why a trace isn't of this image and thread."""
    if question.code:
        for pc, bits in sorted(reader.words.items()):
            if bits and bits != question.code.get(pc, 0):
                text = (
                    f"the trace has the word {bits:08x}, the image {question.code.get(pc, 0):08x}"
                )
                return f"{pc:#x}: {text}: the trace is of another program"
    if turns.stranger is not None:
        return f"{turns.stranger}, by the setup's slots: the trace is of another thread or setup"
    return None


class _Tailed:
    """A stream that keeps its last bytes, and knows whether it was read to its end."""

    def __init__(self, stream: IO[bytes]) -> None:
        self._stream = stream
        self.is_at_end = False
        self.tail = b""

    def read(self, size: int, /) -> bytes:
        data = self._stream.read(size)
        self.is_at_end = not data
        self.tail = data[-200:] or self.tail
        return data


@contextmanager
def opened_run(flexpret: Flexpret, setup: Path, thread: int, cycles: int) -> Iterator[Source]:
    """The trace of a run, as the program writes it. A refusal, and a run that fails, are `RunFailed`."""
    flexpret.look()
    words = [flexpret.path, "run", str(setup), "--thread", str(thread), "--cycles", str(cycles)]
    with tempfile.TemporaryFile() as errors:
        with subprocess.Popen(words, stdout=subprocess.PIPE, stderr=errors) as ran:
            assert ran.stdout is not None
            fcntl.fcntl(ran.stdout, fcntl.F_SETPIPE_SZ, PIPE_BYTES)
            source = _Tailed(ran.stdout)
            try:
                yield source
            finally:
                ran.stdout.close()
                if not source.is_at_end:
                    ran.terminate()
        # A program that is left before its end can't write the rest, which isn't its fault.
        if ran.returncode > 0 and (source.is_at_end or ran.returncode != Status.WRITE):
            errors.seek(0)
            text = source.tail if source.tail.startswith(b"refused") else errors.read()
            reason = "; ".join(
                line for line in text.decode("utf-8", "replace").splitlines() if line
            )
            raise RunFailed(f"run {setup} --thread {thread}: status {ran.returncode}: {reason}")


def run_and_observe(
    flexpret: Flexpret,
    setup: Setup,
    question: Question,
    cycles: int,
    start: int = 0,
    end: int | None = None,
    name: str = "fp_visits",
) -> Observation:
    """Runs a thread for some cycles and looks at its trace, from cycle `start` on and before `end`."""
    thread = question.thread
    assert thread is not None
    most = min(cycles, end) if end is not None else cycles
    question = replace(question, cycles=cycles if end is None else min(cycles, end + RETIRES))
    with opened_run(flexpret, setup.path, thread, cycles) as source:
        reader = TraceReader(source, f"T{thread}", start, end, Progress(name, most))
        return observe(reader, question)
