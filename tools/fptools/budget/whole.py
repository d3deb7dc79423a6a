"""The answers for all hard threads of a setup: whether each period is in time, whether each stack
fits, and whether each budget holds.

    from fptools.budget.whole import Whole

    for thread in Whole(judge).threads(budgets):
        print(thread.table.id, thread.word)

The period of a loop without a budget is compared with what its code shows between two moments."""
from __future__ import annotations

from collections import Counter
from dataclasses import dataclass, replace
from functools import cached_property
from pathlib import Path
from typing import Sequence

from fptools.budget.files import Assumption, Budget, PeriodOf, Result, Verdict
from fptools.budget.judge import Judge
from fptools.budget.results import judged
from fptools.period.periods import results_of
from fptools.files.setup import Setup, ThreadTable
from fptools.stack.stacks import Stack
from fptools.isa.turns import DISABLED

HARD = "hard"
BUDGETS = "budgets.toml"
"""The file of budgets next to a setup, which is used where none is named."""


class NoThread(ValueError):
    """There is no hard thread."""


@dataclass(frozen=True)
class ThreadAnswer:
    """The answers for a thread: its periods and budgets, and its stack. A soft thread has none but
    those of its budgets."""

    table: ThreadTable
    slots: int  # its own in a frame
    frame: int  # the cycles of a frame
    results: tuple[Result, ...]
    stack: Stack | None

    @property
    def periods(self) -> list[Result]:
        return [it for it in self.results if it.budget.period is not None]

    @property
    def sections(self) -> list[Result]:
        return [it for it in self.results if it.budget.period is None]

    @property
    def is_asked(self) -> bool:
        return self.stack is not None or bool(self.results)

    @property
    def verdict(self) -> Verdict:
        stacks = [self.stack.verdict] if self.stack else []
        return max([it.verdict for it in self.results] + stacks, default=Verdict.HOLDS)

    @property
    def word(self) -> str:
        """The answer for all of it; empty where nothing is asked."""
        if not self.is_asked:
            return ""
        words = {it.word for it in self.results if it.verdict is self.verdict}
        if self.verdict is Verdict.UNKNOWN:
            return "UNKNOWN"
        if self.verdict is Verdict.OVER:
            return "BROKEN" if words == {"BROKEN"} else "OVER"
        return "bound" if "bound" in words else "holds"

    @property
    def tightest(self) -> Result | None:
        """The period that needs the largest share of its time."""
        loads = enumerate(map(load_of, self.periods))
        known = [(load, at) for at, load in loads if load is not None]
        return self.periods[max(known)[1]] if known else None

    @property
    def load(self) -> float | None:
        """The share of its own slots that the bound of a period needs, between two moments."""
        tightest = self.tightest
        return None if tightest is None else load_of(tightest)


def load_of(result: Result) -> float | None:
    """The bound of a period over what lies between two moments, if both are known."""
    of = result.budget.period
    if of is None or not of.ns or of.ns < 0 or result.ns is None:
        return None
    return result.ns / of.ns


@dataclass
class Whole:
    """Answers for all hard threads."""

    judge: Judge
    assume: frozenset[Assumption] = frozenset()  # of what no file of budgets asks for

    @property
    def setup(self) -> Setup:
        return self.judge.setup

    @cached_property
    def hard(self) -> set[int]:
        """The hard threads, also those that start asleep. Raises NoThread."""
        found = {it.id for it in self.setup.threads if it.mode.startswith(HARD)}
        if not found:
            raise NoThread(f"{self.setup.path}: no thread is hard: bounds are for hard threads")
        return found

    def results(self, budgets: Sequence[Budget]) -> list[Result]:
        """The results of all periods, and of budgets, by threads."""
        hard = self.hard
        given = [judged(self.judge, it) for it in budgets]
        found = []
        for thread in sorted(hard | {it.thread for it in budgets}):
            own = [it for it in given if it.budget.thread == thread]
            found += [*(self._others(thread, own) if thread in hard else ()), *own]
        return found

    def _others(self, thread: int, given: Sequence[Result]) -> list[Result]:
        """The periods of the loops for which no budget is given."""
        of = PeriodOf(None, None, True)
        budget = Budget("period", thread, 0, 0, None, True, assume=self.assume, period=of)
        named = {wait for it in given for wait in it.waits}
        found = results_of(self.judge, budget)
        return [it for it in found if not it.waits or not named.issuperset(it.waits)]

    def threads(self, results: Sequence[Result]) -> list[ThreadAnswer]:
        """The answers by threads, also for those that are soft."""
        frame = [it for it in self.setup.slots if it != DISABLED]
        slots = Counter(frame)
        return [
            ThreadAnswer(
                it,
                slots[f"T{it.id}"],
                len(frame),
                tuple(one for one in results if one.budget.thread == it.id),
                self._stack(it) if it.id in self.hard else None,
            )
            for it in sorted(self.setup.threads, key=lambda it: it.id)
        ]

    def _stack(self, table: ThreadTable) -> Stack:
        """The stack of a thread. One that isn't known may be taken for granted."""
        stack = self.judge.stacks.of(table)
        if stack.verdict is not Verdict.UNKNOWN or Assumption.STACK_FITS not in self.assume:
            return stack
        note = f"assumes {Assumption.STACK_FITS.value}: {stack.text}"
        return replace(
            stack, verdict=Verdict.HOLDS, text="assumed to fit", notes=(*stack.notes, note)
        )


def budgets_beside(setup: Path) -> Path | None:
    """The file of budgets next to a setup, if there is one."""
    path = setup.parent / BUDGETS
    return path if path.is_file() else None
