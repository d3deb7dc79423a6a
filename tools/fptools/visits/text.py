"""Observations as text, JSON and CSV."""
from __future__ import annotations

import csv
import io
from typing import Any, Callable, Iterator, Sequence

from fptools.visits.claims import Passes
from fptools.files.elf import Program
from fptools.visits.observed import Break, Doubt, Kind, Observation, Why, silence_of, spelled_loop
from fptools.files.trace import CAUSES
from fptools.visits.seen import Executions, Rounds, Spread, TrapAt, Wait

NO_NUMBER = "-"
NAME_WIDTH, EXECUTION_WIDTHS, WAIT_WIDTHS = (
    32,
    (9, 10, 11, 10, 12, 10, 7, 10),
    (9, 10, 11, 12, 12, 17),
)
COLUMNS = (
    "thread name from to kind executions shortest mean longest longest_at bound ratio budget "
    "interrupted interrupted_longest "
    "detours detours_longest traps left given_up period_shortest period_mean period_longest jitter"
).split()
CARRY = "; the moment's high word is behind: is its carry added?"


def ratio(seen: Executions) -> float | None:
    """The longest execution, of those that the bound speaks of, over the bound."""
    bound = seen.watched.bound
    return seen.whole.most / bound if bound and seen.whole.count else None


def _number(value: int | None) -> str:
    return NO_NUMBER if value is None else str(value)


def _cells(name: str, widths: Sequence[int], texts: Sequence[str]) -> str:
    """A line of a table: a name, and texts that are right-aligned."""
    return f"{name:<{NAME_WIDTH}}" + "".join(
        f"{text:>{width}}" for text, width in zip(texts, widths)
    )


def _spread_cells(spread: Spread) -> tuple[str, ...]:
    """Number, least, mean, most and its cycle."""
    if not spread.count:
        return "0", *[NO_NUMBER] * 4
    return (
        str(spread.count),
        str(spread.least),
        f"{spread.mean:.1f}",
        str(spread.most),
        str(spread.at),
    )


def silence_text(cycles: int) -> str:
    """That no execution began at a run's end."""
    return f"none began in its last {cycles} cycles"


class Text:
    """The lines of an observation, with names of addresses."""

    def __init__(self, program: Program) -> None:
        self._program = program

    def at(self, pc: int) -> str:
        name = self._program.name_of(pc)
        return f"{pc:#x} {name}" if name else f"{pc:#x}"

    def lines(self, seen: Observation) -> Iterator[str]:
        thread = NO_NUMBER if seen.question.thread is None else f"T{seen.question.thread}"
        if seen.first_cycle is None:
            yield f"{thread}: no events"
            return
        yield f"{thread}: {seen.events} events, cycles {seen.first_cycle} to {seen.last_cycle}"
        groups: tuple[tuple[Callable[[Observation], Iterator[str]], int], ...] = (
            (self._executions, len(seen.executions)),
            (self._rounds, len(seen.rounds)),
            (self._claims, len(seen.claims)),
            (self._waits, len(seen.waits)),
            (self._traps, len(seen.traps)),
        )
        for group, count in groups:
            if count:
                yield ""
                yield from group(seen)

    def _executions(self, seen: Observation) -> Iterator[str]:
        head = "number", "shortest", "mean", "longest", "at cycle", "bound", "ratio", "budget"
        yield _cells("executions, cycles", EXECUTION_WIDTHS, head)
        for it in seen.executions:
            if it.watched.is_function and not it.count and not it.unfinished:
                continue  # of all functions of an executable a thread runs a few
            yield self._execution(it)
            yield from (f"    {line}" for line in self._remarks(it, seen.question.period))
            if silent := silence_of(it, seen.question.shown_to):
                yield f"    {silence_text(silent)}"

    def _execution(self, it: Executions) -> str:
        part = ratio(it)
        share = NO_NUMBER if part is None else f"{part:.2f}"
        limits = _number(it.watched.bound), share, _number(it.watched.budget)
        return _cells(it.watched.name, EXECUTION_WIDTHS, (*_spread_cells(it.whole), *limits))

    def _remarks(self, it: Executions, period: int) -> Iterator[str]:
        if it.watched.doubt:
            yield f"no bound: {it.watched.doubt}"
        if it.periods.count:
            yield _period(it.periods, period)
        trap, detour = "with a trap between begin and end", "that left the section and came back"
        for spread, what, ends in (
            (it.interrupted, trap, "at the trap"),
            (it.detours, detour, "where it is left"),
        ):
            if spread.count:
                most = f"{spread.least} to {spread.most} cycles, the longest at cycle {spread.at}"
                yield f"{spread.count} more {what}: {most}; the bound ends {ends}"
        if it.left:
            where = ", ".join(
                f"to {self.at(pc)} {times} times" for pc, times in it.left.most_common(3)
            )
            yield f"left other than by its end: {where}"
        if it.given_up:
            yield f"{it.given_up} began again before they ended"
        if it.unfinished:
            yield f"one began in cycle {it.unfinished[0]} and hadn't ended {it.unfinished[1]} cycles later"

    def _rounds(self, seen: Observation) -> Iterator[str]:
        head = "entries", "least", "mean", "most", "at cycle", "table"
        yield _cells("loops, times back to the head", EXECUTION_WIDTHS, head)
        for it in seen.rounds:
            name = f"{spelled_loop(it.table)} {self._program.name_of(it.table.head)}".rstrip()
            table = "none" if it.table.bound is None else str(it.table.bound)
            yield _cells(name, EXECUTION_WIDTHS, (*_spread_cells(it.backs), table))
            if it.elsewhere:
                yield f"    {it.elsewhere} entries at another word than the head"

    @staticmethod
    def _claims(seen: Observation) -> Iterator[str]:
        yield "claims of FP_LOOP"
        yield from map(str, seen.claims)

    def _waits(self, seen: Observation) -> Iterator[str]:
        head = "number", "waited", "overruns", "latest, ns", "at cycle", "least slack, ns"
        yield _cells("waits", WAIT_WIDTHS, head)
        for it in seen.waits:
            yield self._wait(it)
            if it.periods.count:
                yield f"    goes on: {_period(it.periods, seen.question.period)}"

    def _wait(self, it: Wait) -> str:
        latest = str(it.late.most) if it.late.count else NO_NUMBER
        at = str(it.late.at) if it.late.count else _number(it.first_overrun)
        slack = str(it.slack.least) if it.slack.count else NO_NUMBER
        numbers = str(it.count), str(it.waited), str(it.overruns), latest, at, slack
        line = _cells(f"{self.at(it.pc)} {'du' if it.is_delay else 'wu'}", WAIT_WIDTHS, numbers)
        return line + CARRY if it.is_carry else line

    def _traps(self, seen: Observation) -> Iterator[str]:
        yield f"{'traps':<32}{'number':>9}{'first at':>12}  cause"
        for it in seen.traps:
            cause = f"{it.cause} {CAUSES.get(it.cause, 'unknown')}"
            yield f"{self.at(it.pc):<32}{it.count:>9}{it.first:>12}  {cause}"

    def unknown(self, seen: Observation, it: Doubt) -> str:
        """The line of a section of which a run says nothing good."""
        thread = "" if seen.question.thread is None else f"T{seen.question.thread} "
        return f"UNKNOWN {thread}{it.what}: {self.doubt(seen, it)}"

    def doubt(self, seen: Observation, it: Doubt) -> str:
        """Why a run says nothing good of a section."""
        cycles = seen.question.cycles
        there = "in these cycles" if cycles is None else f"in {cycles} cycles"
        trap = "" if it.trap is None else self._trap(it.trap)
        return {
            Why.TRAPPED: f"the execution from cycle {it.start} didn't end: {trap}",
            Why.LEFT: f"the execution from cycle {it.start} didn't end: "
            f"the section was left, and began again {it.cycles} cycles later",
            Why.GONE: f"no execution since the thread trapped, and it didn't come back: {trap}",
            Why.NONE_ENDED: f"no execution ended {there}: one began in cycle {it.start}",
            Why.NONE_BEGAN: f"no execution {there}",
        }[it.why]

    def _trap(self, it: TrapAt) -> str:
        """A trap with its cause, cycle and place."""
        cause = f"{it.cause} {CAUSES.get(it.cause, 'unknown')}"
        return f"trap {cause} in cycle {it.cycle} at {self.at(it.pc)}"

    def broken(self, seen: Observation, it: Break) -> str:
        """The line of a break."""
        thread = "" if seen.question.thread is None else f"T{seen.question.thread} "
        if it.kind is Kind.TABLE:
            head = int(it.what.split()[0], 16)
            name = f"{it.what} {self._program.name_of(head)}".rstrip()
            text = f"went back {it.seen} times from cycle {it.cycle} on, its table says {it.most}"
            text += f"; {it.times} entries broke it"
            return f"TABLE   {thread}loop {name}: {text}"
        if it.kind is Kind.CLAIM:
            text = f"claimed {it.most}, seen {it.seen}: it was broken in cycle {it.cycle}"
            return f"CLAIM   {thread}{it.what}: {text}" + (
                f", and {it.times} times in all" if it.times > 1 else ""
            )
        if it.kind is Kind.BUDGET:
            text = f"{it.seen} of {it.most} cycles, from cycle {it.cycle}"
            text += f"; {self.doubt(seen, it.doubt)}" if it.doubt else ""
            return f"OVER    {thread}{it.what}: {text}"
        text = (
            f"{it.seen} cycles from cycle {it.cycle}, {it.times} times above its bound of {it.most}"
        )
        return f"FAULT   {thread}{it.what}: {text}{REPORT if seen.question.is_quiet else NOT_QUIET}"


NOT_QUIET = (
    ": a thread has a permit, and a bound holds only while no slots, modes or regions are written"
)
REPORT = ", though each loop kept its table: a fault of the analyser; please report it with setup, image and trace"


def _period(spread: Spread, period: int) -> str:
    jitter = spread.most - spread.least
    spans = f"period: {spread.mean:.1f} cycles, {spread.least} to {spread.most}"
    return f"{spans}, jitter {jitter} cycles = {jitter * period} ns"


def _spread(spread: Spread, **more: Any) -> dict[str, Any]:
    if not spread.count:
        return {"number": 0}
    return {
        "number": spread.count,
        "shortest": spread.least,
        "mean": spread.mean,
        "longest": spread.most,
        "longest_at": spread.at,
        **more,
    }


def as_data(seen: Observation, text: Text) -> dict[str, Any]:
    """An observation as JSON has it. Cycles and nanoseconds are integers, means are not."""
    return {
        "thread": seen.question.thread,
        "period_ns": seen.question.period,
        "events": seen.events,
        "first_cycle": seen.first_cycle,
        "last_cycle": seen.last_cycle,
        "sections": [_section(it) for it in seen.executions],
        "loops": [_loop(it) for it in seen.rounds],
        "claims": [_claim(it) for it in seen.claims],
        "waits": [_wait(it) for it in seen.waits],
        "traps": [
            {"pc": it.pc, "cause": it.cause, "number": it.count, "first_at": it.first}
            for it in seen.traps
        ],
        "breaks": [
            {
                "kind": it.kind.value,
                "what": it.what,
                "seen": it.seen,
                "most": it.most,
                "cycle": it.cycle,
                "times": it.times,
                "text": text.broken(seen, it),
            }
            for it in seen.breaks
        ],
        "unknown": [
            {"name": it.what, "why": it.why.value, "text": text.unknown(seen, it)}
            for it in seen.doubts
        ],
        "broken_trace": seen.broken,
        "foreign_trace": seen.foreign,
    }


def _section(it: Executions) -> dict[str, Any]:
    watched, jitter = it.watched, it.periods.most - it.periods.least
    unfinished = {"since": it.unfinished[0], "cycles": it.unfinished[1]} if it.unfinished else None
    return {
        "name": watched.name,
        "from": watched.start,
        "to": watched.end,
        "kind": _kind(it),
        "executions": _spread(it.whole),
        "interrupted": _spread(it.interrupted),
        "detours": _spread(it.detours),
        "period": _spread(it.periods, jitter=jitter),
        "traps": it.traps,
        "left": [{"to": pc, "number": times} for pc, times in it.left.most_common()],
        "given_up": it.given_up,
        "unfinished": unfinished,
        "bound": watched.bound,
        "no_bound": watched.doubt or None,
        "ratio": ratio(it),
        "budget": watched.budget,
    }


def _kind(it: Executions) -> str:
    return "function" if it.watched.is_function else "section"


def _loop(it: Rounds) -> dict[str, Any]:
    table = it.table
    return {
        "head": table.head,
        "last": table.last,
        "bound": table.bound,
        "backs": _spread(it.backs),
        "breaks": len(it.breaks),
        "entries_elsewhere": it.elsewhere,
    }


def _claim(it: Passes) -> dict[str, Any]:
    claim = it.claim
    return {
        "file": claim.file,
        "line": claim.line,
        "name": claim.name,
        "claimed": claim.most,
        "seen": it.most,
        "seen_at": it.most_at,
        "broken_at": it.broken_at,
    }


def _wait(it: Wait) -> dict[str, Any]:
    return {
        "pc": it.pc,
        "kind": "du" if it.is_delay else "wu",
        "number": it.count,
        "waited": it.waited,
        "overruns": it.overruns,
        "period": _spread(it.periods, jitter=it.periods.most - it.periods.least),
        "late_ns": _spread(it.late),
        "slack_ns": _spread(it.slack),
        "first_overrun": it.first_overrun,
        "carry_missing": it.is_carry,
    }


def as_csv(seen: list[Observation]) -> str:
    """A header and a row for each section and function."""
    out = io.StringIO()
    writer = csv.writer(out, lineterminator="\n")
    writer.writerow(COLUMNS)
    for observation in seen:
        writer.writerows(_row(observation, it) for it in observation.executions)
    return out.getvalue()


def _row(seen: Observation, it: Executions) -> list[Any]:
    watched, periods, part = it.watched, it.periods, ratio(it)
    period: list[Any] = [""] * 4
    if periods.count:
        period = [periods.least, round(periods.mean, 3), periods.most, periods.most - periods.least]
    row: list[Any] = [
        seen.question.thread,
        watched.name,
        f"{watched.start:#x}",
        f"{watched.end:#x}",
        _kind(it),
    ]
    row += [it.whole.count, *_numbers(it.whole), it.whole.at if it.whole.count else None]
    row += [watched.bound, None if part is None else round(part, 4), watched.budget]
    row += [it.interrupted.count, it.interrupted.most, it.detours.count, it.detours.most]
    row += [it.traps, sum(it.left.values()), it.given_up, *period]
    return ["" if value is None else value for value in row]


def _numbers(spread: Spread) -> list[Any]:
    """The least, the mean and the largest number."""
    return [spread.least, round(spread.mean, 3), spread.most] if spread.count else [None] * 3
