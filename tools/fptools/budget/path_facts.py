"""Where a bound goes: the cycles of a path that costs it, by function, source line and loop."""
from __future__ import annotations

from collections import Counter
from dataclasses import dataclass, replace
from typing import Iterator, Mapping

from fptools.files.elf import Program
from fptools.budget.paths import Search, Step
from fptools.files.setup import LoopTable
from fptools.files.sources import Sources
from fptools.untyped import Values

MOST_LINES = 12
"""Lines that a text has; the others are summed."""


@dataclass(frozen=True)
class PathLine:
    """A source line of the path, or an instruction where no line is known."""

    place: str  # FILE:LINE, or the address with its symbol
    text: str  # of the source; empty where it isn't found
    function: str
    cycles: int
    times: int  # how often the path issues its first instruction


@dataclass(frozen=True)
class PathLoop:
    """A loop on the path: how often the path enters it, and goes back in all of these."""

    where: str
    head: int
    entries: int
    backs: int

    def __str__(self) -> str:
        entries = f"{self.entries:,} entr{'y' if self.entries == 1 else 'ies'}"
        return f"{self.where}: goes back {self.backs:,} time{'s' * (self.backs != 1)} in {entries}"


@dataclass(frozen=True)
class PathFacts:
    """A path that costs as much as the bound; or why there is none to show."""

    cycles: int
    functions: tuple[tuple[str, int], ...] = ()  # with their own cycles, the most first
    lines: tuple[PathLine, ...] = ()  # the most cycles first
    loops: tuple[PathLoop, ...] = ()
    why_not: str = ""


def facts_of(
    search: Search,
    bound: int,
    program: Program,
    sources: Sources,
    origins: Mapping[int, int] | None = None,
) -> PathFacts:
    """The path of a search, if it costs exactly the bound. Words that are copies have origins."""
    cycles = search.longest.cycles
    if cycles != bound:
        why = f"this tool's search finds {cycles:,} cycles, and {bound:,} are proved: please report it"
        return PathFacts(cycles, why_not=why)
    steps = search.longest.steps()
    origins = origins or {}
    issued = Counter[Step]()
    for step, number in steps.items():
        issued[replace(step, pc=origins.get(step.pc, step.pc))] += number
    lines = tuple(_lines(issued, program, sources))
    functions = Counter[str]()
    for line in lines:
        functions[line.function] += line.cycles
    loops = tuple(_loops(steps, search, program, origins))
    return PathFacts(cycles, tuple(functions.most_common()), lines, loops)


def _lines(steps: Counter[Step], program: Program, sources: Sources) -> Iterator[PathLine]:
    """The cycles of each line: an issue has those up to the next one."""
    cycles, times, first = Counter[tuple[str, str]](), Counter[int](), dict[tuple[str, str], int]()
    for step, number in steps.items():
        if not step.is_issue:
            continue
        key = _function(step.pc, program), _place(step.pc, program)
        cycles[key] += number * step.cycles
        times[step.pc] += number
        first[key] = min(step.pc, first.get(key, step.pc))
    for key in sorted(cycles, key=lambda key: (-cycles[key], first[key])):
        line = program.line_of(first[key])
        text = sources.text(line).strip() if line else ""
        yield PathLine(key[1], text, key[0], cycles[key], times[first[key]])


def _place(pc: int, program: Program) -> str:
    line = program.line_of(pc)
    return str(line) if line else f"{pc:#x} {program.name_of(pc)}".rstrip()


def _function(pc: int, program: Program) -> str:
    function = program.function_at(pc)
    return function.name if function else program.name_of(pc).split("+")[0]


def _loops(
    steps: Counter[Step], search: Search, program: Program, origins: Mapping[int, int]
) -> Iterator[PathLoop]:
    """The loops that the path enters, by their heads."""
    for loop in sorted(search.loops, key=lambda it: it.head):
        to_head = [(step.pc, number) for step, number in steps.items() if step.to == loop.head]
        backs = sum(number for pc, number in to_head if _is_in(pc, loop))
        entries = sum(number for pc, number in to_head if not _is_in(pc, loop))
        entries += loop.head == search.first
        if entries:
            head = origins.get(loop.head, loop.head)
            where = f"{head:#x} {program.name_of(head)}".rstrip()
            line = program.line_of(head)
            yield PathLoop(where + (f" ({line})" if line else ""), head, entries, backs)


def _is_in(pc: int, loop: LoopTable) -> bool:
    return loop.head <= pc <= loop.last


def path_text(facts: PathFacts) -> list[str]:
    """The path as lines of text."""
    if facts.why_not:
        return [f"path: {facts.why_not}"]
    functions = ", ".join(f"{name or 'no function'} {cycles:,}" for name, cycles in facts.functions)
    rows = [f"path {facts.cycles:,} cycles: {functions}", "     cycles   part   times  line"]
    for line in facts.lines[:MOST_LINES]:
        place = f"{line.place} {line.text}".rstrip() if line.text else f"{line.place}"
        rows.append(_row(line.cycles, facts.cycles, f"{line.times:,}", place))
    if rest := facts.lines[MOST_LINES:]:
        rows.append(_row(sum(it.cycles for it in rest), facts.cycles, "", f"{len(rest)} others"))
    return [*rows, *(f"path loop {it}" for it in facts.loops)]


def _row(cycles: int, of: int, times: str, text: str) -> str:
    return f"{cycles:>11,} {100 * cycles / of:>5.1f}% {times:>7}  {text}"


def path_fields(facts: PathFacts) -> Values:
    """The path as JSON has it."""
    if facts.why_not:
        return {"why_not": facts.why_not}
    return {
        "cycles": facts.cycles,
        "functions": [{"name": name, "cycles": cycles} for name, cycles in facts.functions],
        "lines": [vars(it) for it in facts.lines],
        "loops": [
            {"at": it.where, "head": it.head, "entries": it.entries, "backs": it.backs}
            for it in facts.loops
        ],
    }
