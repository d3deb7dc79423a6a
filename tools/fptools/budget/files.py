"""Budgets of sections, the files that state them, and the results."""
from __future__ import annotations

from dataclasses import dataclass
from enum import Enum, IntEnum
from pathlib import Path
from typing import TYPE_CHECKING

from fptools import require
from fptools.files.schemas import best, faults
from fptools.files.setup import spelled
from fptools.files.toml import read_toml
from fptools.untyped import Values

require("jsonschema")

if TYPE_CHECKING:
    from fptools.budget.path_facts import PathFacts
    from fptools.stack.stacks import Stack

SCHEMA = Path(__file__).resolve().parent / "budgets.schema.json"


class Assumption(Enum):
    """The assumptions of a budget. None of them is checked."""

    NO_TRAPS = "no traps"
    LOOP_TABLES = "loop tables"
    NO_CONFIGURATION_WRITES = "no configuration writes"
    REACHED = "reached"
    MOVED_WORK = "moved work"
    SAME_SOURCES = "same sources"
    STACK_FITS = "stack fits"


class Verdict(IntEnum):
    """The verdict on a budget. The numbers are exit statuses; the largest one counts."""

    HOLDS = 0
    OVER = 1
    UNKNOWN = 2


@dataclass(frozen=True)
class PeriodOf:
    """Loops that wait: those of a function or around an address, or all of a thread where neither is given."""

    loop: int | str | None
    ns: int | None  # from the moment of a wait to that of the next one; None if only the bound is wanted
    is_read: bool = False  # whether it is what the code shows, if that is known


@dataclass(frozen=True)
class Budget:
    """A section and the most cycles that it may take; None if only its bound is wanted. Or the period of a loop that
    waits: `start` and `end` are 0 then."""

    name: str
    thread: int
    start: int | str
    end: int | str
    cycles: int | None
    calls: bool = False
    exits: tuple[int | str, ...] = ()
    assume: frozenset[Assumption] = frozenset()
    period: PeriodOf | None = None

    def __str__(self) -> str:
        return f"T{self.thread} {self.name}"


@dataclass(frozen=True)
class LoopFact:
    """A loop of a section with its bound, and where that comes from."""

    where: str
    head: int
    last: int
    bound: int
    by: str

    def __str__(self) -> str:
        return f"{self.where}: goes back {self.bound} times: {self.by}"


@dataclass(frozen=True)
class Result:
    """The result for a budget; without a budget it is only the bound."""

    budget: Budget
    verdict: Verdict
    text: str
    bound: int | None = None
    ns: int | None = None  # the bound's time
    notes: tuple[str, ...] = ()
    loops: tuple[LoopFact, ...] = ()
    functions: tuple[str, ...] = ()
    executions: int | None = None  # how many a run had; None without a run
    longest: int | None = None  # the cycles of the longest of them
    stack: Stack | None = None  # of the thread; None where the budget is unknown for another reason
    path: PathFacts | None = (
        None  # that costs the bound; None where it isn't asked for, or there is no bound
    )
    # Of a period: its loop's waits, each by the calls that lead to it, the outermost first, and its address.
    waits: tuple[tuple[int, ...], ...] = ()
    is_broken: bool = False  # whether a run broke a claim of its loops

    @property
    def note(self) -> str | None:
        return "; ".join(self.notes) or None

    @property
    def slack(self) -> int | None:
        """The cycles of the budget that the bound leaves; below 0 where it is over."""
        return (
            None
            if self.bound is None or self.budget.cycles is None
            else self.budget.cycles - self.bound
        )

    @property
    def word(self) -> str:
        if self.verdict is Verdict.HOLDS:
            return "bound" if self.budget.cycles is None else "holds"
        if self.verdict is Verdict.OVER:
            return "BROKEN" if self.is_broken else "OVER"
        return "UNKNOWN"

    def __str__(self) -> str:
        return f"{self.word:<8} {self.budget}: {self.text}"


def read_budgets(path: Path, period: int) -> list[Budget]:
    """The budgets of a file; nanoseconds are cycles of the period, rounded down. A fault is a
    ValueError with its key."""
    _, values = read_toml(path)
    fault = best(faults(SCHEMA, values))
    if fault:
        raise ValueError(f"{path}: {spelled(tuple(fault.absolute_path))}: {fault.message}")
    return [_budget(table, period) for table in values["budget"]]


def _budget(table: Values, period: int) -> Budget:
    cycles = table["cycles"] if "cycles" in table else table["ns"] // period
    if "period" in table:
        assume = frozenset(map(Assumption, table.get("assume", [])))
        of = PeriodOf(table["period"], table["ns"])
        return Budget(table["name"], table["thread"], 0, 0, cycles, True, (), assume, of)
    return Budget(
        table["name"], table["thread"], table["from"], table["to"], cycles,
        table.get("calls", False), tuple(table.get("exits", [])), frozenset(map(Assumption, table.get("assume", []))),
    )  # fmt: skip
