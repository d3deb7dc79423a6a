"""Compares periods with a run: the longest one that is seen, and the waits that are late."""
from __future__ import annotations

from dataclasses import dataclass, field, replace
from typing import Callable, Mapping, Sequence

from fptools.budget.files import Result, Verdict
from fptools.visits.claims import ClaimMeter, broken_text
from fptools.flow.records import Marks
from fptools.visits.observed import RETIRES, opened_run
from fptools.program.calls import Flexpret
from fptools.files.setup import Setup
from fptools.files.trace import CAUSES
from fptools.files.image import read_image
from fptools.files.trace_blocks import PC, Block, BrokenTrace, Progress, TraceReader
from fptools.isa.turns import turns_of
from fptools.visits.meters import Known, measure
from fptools.visits.traps import TrapMeter
from fptools.visits.waits import WaitJudge
from fptools.isa.words import Flow, Word

Waits = Sequence[tuple[int, ...]]


@dataclass
class Seen:
    """The periods of a loop in a run: from the moment of a wait, or from its issue if that is
    later, to the next wait."""

    waits: int = 0
    periods: int = 0
    longest: int = 0  # nanoseconds
    longest_from: int = 0  # the cycle in which the wait before it issued
    late: int = 0
    first_late: int = 0  # the cycle of the first wait that is late
    most_late: int = 0  # nanoseconds
    begun: int | None = None  # nanoseconds: when the last period began


class CallMeter:
    """The newest call of each function in a trace, of those that lead to waits."""

    def __init__(
        self, reader: TraceReader, loops: Sequence[Waits], image: Mapping[int, int]
    ) -> None:
        sites = {site for waits in loops for wait in waits for site in wait[:-1]}
        self._targets = {site: Word(site, image.get(site, 0)).target for site in sites}
        functions = {*self._targets.values()} - {None}
        self._known = Known(reader, lambda it: it.flow is Flow.CALL and it.target in functions)
        self._image = image
        self._newest: dict[int | None, int] = {}
        self._block: Block | None = None
        self._done = 0

    def before(self, block: Block, index: int) -> Callable[[tuple[int, ...]], bool]:
        """Whether some calls are the newest ones of their functions, before a line of a block."""
        if block is not self._block:
            self._known.learn()
            self._block, self._done = block, 0
        if self._known.pattern is not None:
            for found in self._known.pattern.finditer(block.events, self._done, index):
                site = int(block.lines[found.start()][PC], 16)
                self._newest[Word(site, self._image.get(site, 0)).target] = site
        self._done = index
        return lambda sites: all(self._newest.get(self._targets[it]) == it for it in sites)


@dataclass
class PeriodMeter:
    """Looks at each WU of loops, given by the calls that lead to it and its address."""

    judge: WaitJudge
    period: int
    loops: Sequence[Waits]
    calls: CallMeter
    seen: list[Seen] = field(default_factory=list)

    def __post_init__(self) -> None:
        self.seen = [Seen() for _ in self.loops]

    def take(self, block: Block) -> None:
        for it in self.judge.judged(block):
            newest = self.calls.before(block, it.place)
            for waits, seen in zip(self.loops, self.seen):
                is_own = any(wait[-1] == it.pc and newest(wait[:-1]) for wait in waits)
                if is_own and not it.is_delay and it.moment is not None:
                    self._add(seen, it.first, it.moment)
                else:
                    seen.begun = None
        self.calls.before(block, len(block.lines))

    def _add(self, seen: Seen, cycle: int, moment: int) -> None:
        now = cycle * self.period
        seen.waits += 1
        if seen.begun is not None:
            seen.periods += 1
            if now - seen.begun > seen.longest:
                seen.longest, seen.longest_from = now - seen.begun, cycle
        if now > moment:
            seen.late += 1
            seen.first_late = seen.first_late if seen.late > 1 else cycle
            seen.most_late = max(seen.most_late, now - moment)
        seen.begun = max(now, moment)

    def end(self, cycle: int) -> None:
        """Nothing is open at the end."""


@dataclass(frozen=True)
class PeriodRuns:
    """Runs of a setup's threads for some cycles."""

    flexpret: Flexpret
    setup: Setup
    cycles: int
    name: str  # of the tool that shows how far a run is
    marks: Marks | None = None  # whose claims are compared with the run

    def compared(self, results: Sequence[Result]) -> dict[int, Result]:
        """The results for periods by their place, each with a run of its thread."""
        found: dict[int, Result] = {}
        for thread in sorted({it.budget.thread for it in results if it.waits}):
            own = [at for at, it in enumerate(results) if it.waits and it.budget.thread == thread]
            claims = ClaimMeter(self.marks or Marks())
            traps, seen, broken = self._run(thread, [results[at].waits for at in own], claims)
            for at, it in zip(own, seen):
                found[at] = _with_claims(self._with_run(results[at], it, traps, broken), claims)
        return found

    def _run(
        self, thread: int, loops: Sequence[Waits], claims: ClaimMeter
    ) -> tuple[str, list[Seen], str]:
        """The first trap of a run, the periods of loops in it, and what is wrong with its trace."""
        with opened_run(self.flexpret, self.setup.path, thread, self.cycles) as source:
            reader = TraceReader(source, f"T{thread}", 0, None, Progress(self.name, self.cycles))
            judge = WaitJudge(reader, turns_of(self.setup, thread), self.setup.period)
            calls = CallMeter(reader, loops, read_image(self.setup.image))
            meter = PeriodMeter(judge, self.setup.period, loops, calls)
            traps, broken = TrapMeter(), ""
            try:
                measure(reader, [meter, traps, claims])
            except BrokenTrace as fault:
                broken = str(fault)
        first = min(traps.seen.values(), key=lambda it: it.first, default=None)
        text = (
            ""
            if first is None
            else f"a trap in cycle {first.first} at {first.pc:#x}: {CAUSES.get(first.cause, '')}"
        )
        return text, meter.seen, broken

    def _with_run(self, result: Result, seen: Seen, trap: str, broken: str) -> Result:
        """A result with what a run shows, which counts for more."""
        period, ns = self.setup.period, result.budget.period.ns if result.budget.period else None
        cycles = -(-seen.longest // period)
        result = replace(result, executions=seen.periods, longest=cycles if seen.periods else None)
        open_for = (
            max(self.cycles - RETIRES, 0) * period - seen.begun if seen.begun is not None else 0
        )
        bound = (result.bound or 0) * period
        if broken:
            return replace(result, verdict=Verdict.UNKNOWN, text=f"{broken}; {result.text}")
        if seen.longest > bound:
            text = f"a run has a period of {cycles} cycles, above the bound"
            text += f", to cycle {seen.longest_from}"
            return replace(
                result, verdict=Verdict.UNKNOWN, text=f"{_with(text, trap)}; {result.text}"
            )
        if ns is not None and seen.late:
            text = f"{seen.late} of {seen.waits} waits of a run are late"
            text += f", the first in cycle {seen.first_late}, by up to"
            return replace(
                result,
                verdict=Verdict.OVER,
                text=f"{_with(f'{text} {seen.most_late} ns', trap)}; {result.text}",
            )
        if trap or open_for > bound:
            text = trap or f"a run has no further wait for {open_for // period} cycles"
            return replace(result, verdict=Verdict.UNKNOWN, text=f"{text}; {result.text}")
        if not seen.periods:
            verdict = result.verdict if ns is None else max(result.verdict, Verdict.UNKNOWN)
            return replace(
                result, verdict=verdict, text=f"{result.text}; no period in {self.cycles} cycles"
            )
        late = "no wait is late" if not seen.late else f"{seen.late} waits are late"
        return replace(
            result,
            text=f"{result.text}; the longest of {seen.periods} periods takes {cycles}, {late}",
        )


def _with_claims(result: Result, claims: ClaimMeter) -> Result:
    """A result with the claims that the run broke: the bound takes them for granted."""
    texts = [broken_text(it) for it in claims.passes if it.is_broken]
    if not texts:
        return result
    text = "; ".join([*texts, result.text])
    return replace(result, verdict=Verdict.OVER, text=text, is_broken=True)


def _with(text: str, trap: str) -> str:
    return f"{text}, behind {trap}" if trap else text
