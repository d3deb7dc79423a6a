"""Compares budgets with runs. The result of a run overrides the result without one."""
from __future__ import annotations

from dataclasses import dataclass, replace
from typing import Mapping, Sequence

from fptools.budget.files import Budget, Result, Verdict
from fptools.visits.claims import broken_text, marks_for
from fptools.files.elf import Program, ProgramError
from fptools.flow.inference import UNSEEN
from fptools.visits.observed import (
    Kind,
    Observation,
    doubt_of,
    question_of,
    run_and_observe,
    silence_of,
)
from fptools.visits.text import Text, silence_text
from fptools.period.runs import PeriodRuns
from fptools.program.calls import Flexpret
from fptools.code.section import walk_all
from fptools.files.setup import LoopTable, Setup
from fptools.visits.seen import Executions, Watched

NAME = "fp_budget"


@dataclass(frozen=True)
class Compared:
    """A result with the observations of a run of its thread; without these if its section isn't known."""

    result: Result
    observation: Observation | None = None
    executions: Executions | None = None


@dataclass(frozen=True)
class Runs:
    """Runs of a setup's threads for some cycles."""

    flexpret: Flexpret
    setup: Setup
    image: Mapping[int, int]
    program: Program
    cycles: int
    is_of_names: bool = False  # whether the results have loops of their own, and not the setup's
    is_of_functions: bool = False  # whether the budgets are named by functions
    name: str = NAME  # of the tool that shows how far a run is

    def compared(self, results: Sequence[Result]) -> list[Result]:
        """The results, each with the observations of a run of its thread."""
        return [it.result for it in self.observed(results)]

    def observed(self, results: Sequence[Result]) -> list[Compared]:
        """The results with the runs of their threads."""
        watched = [None if it.waits else self._watched(it) for it in results]
        marks = marks_for(self.program, self.image)
        runs = PeriodRuns(self.flexpret, self.setup, self.cycles, self.name, marks)
        periods = runs.compared(results)
        found = [Compared(periods.get(at, it)) for at, it in enumerate(results)]
        for thread in sorted({it.budget.thread for it in results}):
            own = [
                at
                for at, it in enumerate(results)
                if it.budget.thread == thread and watched[at] is not None
            ]
            if own:
                observation = self._observed(
                    thread, [it for at in own if (it := watched[at])], results
                )
                # Functions come last in an observation, and here all are of one kind.
                for at, seen in zip(own, observation.executions):
                    found[at] = Compared(
                        self._with_run(results[at], observation, seen), observation, seen
                    )
        return found

    def _observed(
        self, thread: int, watched: Sequence[Watched], results: Sequence[Result]
    ) -> Observation:
        marks = marks_for(self.program, self.image)
        question = question_of(self.setup, thread, watched, self.image, marks)
        sections = (it for it in results if self.is_of_names or it.budget.period is None)
        facts = {(it.head, it.last): it.bound for result in sections for it in result.loops}
        made = [LoopTable(*place, bound) for place, bound in sorted(facts.items())]
        if not self.is_of_names:
            stated = {it.head for it in question.loops if it.bound is not None}
            made = [it for it in made if it.head not in stated]
            heads = {it.head for it in made}
            made = [*(it for it in question.loops if it.head not in heads), *made]
        question = replace(question, loops=made)
        return run_and_observe(self.flexpret, self.setup, question, self.cycles, name=self.name)

    def _watched(self, result: Result) -> Watched | None:
        """The section or function of a budget; None where an address isn't known."""
        budget = result.budget
        try:
            if self.is_of_functions:
                start = self.program.address(budget.name)
                function = Watched(
                    budget.name, start, start + 4, bound=result.bound, budget=budget.cycles
                )
                return replace(function, is_function=True)
            start, end, *exits = map(self._address, (budget.start, budget.end, *budget.exits))
        except ProgramError:
            return None
        if end <= start:
            return None
        functions = self.program.functions if budget.calls else []
        parts = walk_all(self.image, start, end, functions)
        routines = tuple((it.start, it.end) for it in parts[1:])
        return Watched(
            budget.name, start, end, routines, frozenset(exits), result.bound, budget.cycles
        )

    def _address(self, value: int | str) -> int:
        return value if isinstance(value, int) else self.program.address(value)

    def _with_run(self, result: Result, observation: Observation, seen: Executions) -> Result:
        slowest, most, doubt = seen.slowest, result.budget.cycles, doubt_of(seen)
        why = Text(self.program).doubt(observation, doubt) if doubt else ""
        result = replace(result, executions=seen.count, longest=slowest[0] if slowest else None)
        claims = self._broken_claims(result.budget, observation, seen.watched)
        if claims:
            text = f"{'; '.join(claims)}; {result.text}"
            return replace(result, verdict=Verdict.OVER, text=text, is_broken=True)
        if slowest is not None and most is not None and slowest[0] > most:
            text = f"an execution{_kind_of(seen, slowest)} takes {slowest[0]} of {most} cycles"
            text += f", from cycle {slowest[1]} of a run; {f'{why}; ' if why else ''}{result.text}"
            return replace(result, verdict=Verdict.OVER, text=text)
        broken = self._broken(observation, seen)
        if (
            broken is None
            and slowest is not None
            and most is None
            and slowest[0] > (result.bound or 0)
        ):
            broken = f"an execution{_kind_of(seen, slowest)} takes {slowest[0]} cycles, from cycle {slowest[1]} of a run"
        if broken is not None or doubt is not None:
            text = "; ".join(it for it in (why, broken, result.text) if it)
            return replace(result, verdict=Verdict.UNKNOWN, text=text)
        if not seen.count or slowest is None:
            return replace(
                result, text=f"{result.text}; no execution in {self.cycles} cycles", executions=0
            )
        text = f"{result.text}; the longest of {seen.count} executions takes {slowest[0]}"
        silent = silence_of(seen, observation.question.shown_to)
        return replace(result, text=text + (f"; {silence_text(silent)}" if silent else ""))

    def _broken_claims(
        self, budget: Budget, observation: Observation, watched: Watched
    ) -> list[str]:
        """The claims that a run broke with marks in the section and in what it calls; all, where
        code that isn't known belongs to it."""
        marks = observation.question.marks
        parts = ((watched.start, watched.end), *watched.routines)
        is_of_all = self.is_of_functions or self._has_unknown(budget, watched)
        own = {
            mark.claim
            for mark in (marks.all if marks else [])
            if is_of_all or any(start <= mark.at < end for start, end in parts)
        }
        return [broken_text(it) for it in observation.claims if it.is_broken and it.claim in own]

    def _has_unknown(self, budget: Budget, watched: Watched) -> bool:
        """Whether a section, or what it calls, is left for code that isn't looked at."""
        functions = self.program.functions if budget.calls else []
        parts = walk_all(self.image, watched.start, watched.end, functions)
        ways = (way for part in parts for way in part.ways_out if way.exit in UNSEEN)
        return any(way.to is None or way.to not in watched.exits for way in ways)

    def _broken(self, observation: Observation, seen: Executions) -> str | None:
        """Which table of the section's loops a run broke, or that it broke the bound."""
        text, watched = Text(self.program), seen.watched
        parts = ((watched.start, watched.end), *watched.routines)
        for it in observation.breaks:
            head = int(it.what.split()[0], 16) if it.kind is Kind.TABLE else 0
            is_own = self.is_of_functions or any(start <= head < end for start, end in parts)
            if (
                it.kind is Kind.TABLE
                and is_own
                or it.kind is Kind.BOUND
                and it.what == watched.name
            ):
                return text.broken(observation, it).split(maxsplit=1)[1]
        return None


def _kind_of(seen: Executions, slowest: tuple[int, int]) -> str:
    """How the slowest execution went, where it isn't whole."""
    longest, lost = seen.longest, seen.lost
    if lost is not None and (lost.cycles, lost.start) == slowest:
        return " that didn't end"
    kinds = {id(seen.interrupted): " with a trap", id(seen.detours): " that leaves the section"}
    return kinds.get(id(longest), "") if longest and longest.most == slowest[0] else " that goes on"
