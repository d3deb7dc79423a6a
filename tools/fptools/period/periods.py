"""The period of a loop that waits: the most cycles from the moment of a wait to the issue of the
next wait.

docs/dev/PERIODS.md derives it. A wait that issues in a cycle c has moment m. The next instruction
issues no later than if the wait were a jump that issues at m, or at c if that is later. So the
bound of the paths to the next waits, with a jump in place of the first wait, holds from there
on."""
from __future__ import annotations

import tempfile
from dataclasses import dataclass, replace
from functools import cached_property
from pathlib import Path
from typing import Sequence

from fptools.budget.files import Assumption, Budget, PeriodOf, Result, Verdict
from fptools.budget.judge import Asked, Judge, Unknown
from fptools.files.elf import ProgramError, other_word
from fptools.period.first_waits import FirstWaits, Timely
from fptools.code.kept import Called
from fptools.period.moment_values import Absolute, Behind, Moment, Unclear
from fptools.period.moments import Moments
from fptools.period.shown import Shown
from fptools.budget.names import Names
from fptools.period.wait_paths import Paths
from fptools.period.bounds import LOST, MISSING, REGISTER, TRAPS, PathBounds
from fptools.code.section import Section
from fptools.code.thread import ThreadCode
from fptools.isa.turns import Turns
from fptools.code.unfolded import NotUnfolded, Place, Ring, Unfolded
from fptools.isa.words import Flow, Word

NO_TRAP = "no trap"
FAULTS = (Unknown, NotUnfolded, ProgramError)
ALONE = "where a round takes several waits, the code must show the distance of each two moments"
APART = "a wait that only a trap leads to: no period of it has a bound"
ONLY_DELAYS = "a loop that waits by DU alone: only the period of one that waits by WU has a bound"
NOT_SHOWN = "the code doesn't show what lies between two moments: give it as ns of a budget"
TANGLED = "the loop of this wait is entered at several words: lay the code out by fp_layout"


@dataclass(frozen=True)
class Pair:
    """A wait and the next one, with the most cycles from the moment of the first to the issue of
    the second."""

    begin: Place
    end: Place
    cycles: int
    moment: Moment  # of the second


@dataclass(frozen=True)
class WaitingLoop:
    """A loop with its waits."""

    ring: Ring
    waits: frozenset[Place]


@dataclass
class Periods:
    """The periods of a thread's loops."""

    names: Names
    judge: Judge
    budget: Budget
    _bounds: PathBounds | None = None

    @property
    def of(self) -> PeriodOf:
        assert self.budget.period is not None
        return self.budget.period

    @cached_property
    def thread(self) -> ThreadCode:
        return self.judge.thread(self.budget.thread)

    @cached_property
    def unfolded(self) -> Unfolded:
        return Unfolded(self.thread.code, self.names.program, self.thread.entry)

    def _unknown(self, budget: Budget, why: Exception) -> Result:
        if isinstance(why, NotUnfolded):
            why = Unknown(f"{self.judge.where(why.pc)}: {why.text}")
        return self.judge.unknown(budget, why)

    def results(self) -> list[Result]:
        """A result for each loop that is asked for."""
        try:
            loops = self._loops()
        except FAULTS as why:
            return [self._unknown(self.budget, why)]
        return [self._result(it) for it in loops]

    def _loops(self) -> list[WaitingLoop]:
        wrong = other_word(self.names.program, self.names.image)
        if wrong:
            raise Unknown(wrong)
        pointers = self.thread.without_traps.pointers
        if pointers:
            raise NotUnfolded(
                pointers[0].pc, "a jump to an address that isn't known: it may lead to a wait"
            )
        for start in sorted(self.unfolded.passed_over):
            self._path_bounds.look_at_returns(start)
        if self._turns is None:
            raise Unknown("no slot is the thread's own")
        for wait in self.unfolded.tangled:
            raise NotUnfolded(wait.pc, TANGLED)
        found: dict[Ring, set[Place]] = {}
        for wait in self.unfolded.waits:
            around = self.unfolded.around(wait)
            if around:
                found.setdefault(around[0], set()).add(wait)
        loops = [WaitingLoop(ring, frozenset(waits)) for ring, waits in found.items()]
        named = [it for it in loops if self._is_named(it)]
        if not named and self.of.is_read:
            self._look_at_others()
        elif not named:
            raise Unknown(self._none(bool(loops)))
        return named

    def _look_at_others(self) -> None:
        """No loop waits, but by WUs that are followed: not by a DU, nor in a trap handler."""
        if not self.thread.code.word(self.thread.entry).is_code:
            raise Unknown(f"{self.judge.where(self.thread.entry)}: no code is at the entry")
        known = {it.pc for it in self.unfolded.steps}
        for word in self.thread.may_issue:
            if word.flow is Flow.WAIT and word.pc not in known:
                raise Unknown(f"{self.judge.where(word.pc)}: {APART}")
        for place, step in self.unfolded.steps.items():
            if step.word.flow is Flow.WAIT and self.unfolded.around(place):
                raise Unknown(f"{self.judge.where(place.pc)}: {ONLY_DELAYS}")

    def _none(self, has_loops: bool) -> str:
        if has_loops:
            return f"no loop of {self.of.loop} waits, that T{self.budget.thread} reaches"
        text = (
            "no WU is reached again and again"
            if self.unfolded.waits
            else "no WU is reached from the entry"
        )
        return f"{text} {self.judge.where(self.thread.entry)}: is it the right thread?"

    def _is_named(self, loop: WaitingLoop) -> bool:
        """Whether a loop is asked for: by an address inside of it, or by a function in which it is
        or that waits for it."""
        if self.of.loop is None:
            return True
        at = (
            self.of.loop
            if isinstance(self.of.loop, int)
            else self.names.program.address(self.of.loop)
        )
        function = self.names.program.function_at(at)
        places = {pc for it in loop.ring.body for pc in (*it.sites, it.pc)}
        if function is None or function.start != at:
            return at in {it.pc for it in loop.ring.body}
        return any(function.start <= pc < function.end for pc in places)

    @cached_property
    def _turns(self) -> Turns | None:
        """The thread's slots. What a permit may change of them is looked at by the judge."""
        frame = [it for it in self.judge.setup.slots if it != "D"]
        own = frozenset(at for at, it in enumerate(frame) if it == f"T{self.budget.thread}")
        return Turns(own, len(frame)) if own else None

    @cached_property
    def _first(self) -> FirstWaits:
        names, thread = self.names, self.budget.thread
        called = Called(names.image, names.program, self._path_bounds.rounds)

        def moments_of(unfolded: Unfolded) -> Moments:
            return Moments(unfolded, self.judge.setup, thread, names.image, called)

        assert self._turns is not None
        return FirstWaits(self._path_bounds, Shown(self.unfolded, moments_of), self._turns)

    @cached_property
    def _path_bounds(self) -> PathBounds:
        return PathBounds(self.names, self.judge, self.unfolded, self.budget)

    # One loop.

    def _result(self, loop: WaitingLoop) -> Result:
        budget = self.budget
        if self.of.loop is None:
            budget = replace(budget, name=f"period of {self._place(loop)}")
        asked = Asked(budget, [], set(), 0)
        try:
            pairs = self._pairs(loop)
            has_trap = self._look_around(loop, asked)
            return self._judged(budget, loop, pairs, asked, has_trap)
        except FAULTS as why:
            return self._unknown(budget, why)

    def _place(self, loop: WaitingLoop) -> str:
        """The function of a loop, and the line of its first wait."""
        at = min(loop.waits, key=lambda it: it.key)
        depth = len(loop.ring.head.sites)
        pc = (*at.sites, at.pc)[depth]
        function = self.names.program.function_at(loop.ring.head.pc)
        name = function.name if function else self.names.program.name_of(loop.ring.head.pc)
        lines = self.names.program.lines_of(pc)
        line = f" ({lines[-1]})" if lines else "" if name else f" {pc:#x}"
        return (name or "the loop around") + line

    def _pairs(self, loop: WaitingLoop) -> list[Pair]:
        """Each wait with the next ones in the loop. Where a round takes several, the code shows
        how far each moment is behind the one before."""
        pairs, second = [], ""
        for begin in sorted(loop.waits, key=lambda it: it.key):
            paths = self._path_bounds.paths(begin)
            self._look_at_lost(paths)
            second = second or self._second(paths, loop)
            for end in sorted({it.place for it in paths.ends} & loop.waits):
                cycles = self._path_bounds.most(begin, end)
                pairs.append(Pair(begin, end, cycles, self._first.moments_behind(begin)[end]))
        if second:
            self._look_at_distances(pairs, second)
        return pairs

    def _look_at_distances(self, pairs: Sequence[Pair], second: str) -> None:
        """The code shows the distance of each two moments, of which the second is in `second`."""
        for it in pairs:
            moment = it.moment
            if not isinstance(moment, Behind):
                why = moment.why if isinstance(moment, Unclear) else f"it is {moment.ns} each time"
                raise Unknown(f"{second}: {ALONE}; {self._where(it.end)}: {why}")

    def _look_at_lost(self, paths: Paths) -> None:
        """Each path comes to a wait."""
        for node in paths.lost:
            step = paths.step(node)
            if step.ends:
                continue
            what = {Flow.TRAP: TRAPS if step.word.is_code else MISSING}.get(
                step.word.flow, REGISTER
            )
            raise Unknown(f"{self.judge.where(node.place.pc)}: {what}")
        if paths.lost:
            raise Unknown(f"{self.judge.where(paths.lost[0].place.pc)}: {LOST}")

    def _second(self, paths: Paths, loop: WaitingLoop) -> str:
        """Another wait of the same round behind the begin of paths, in words; empty where there is
        none. Copies of one wait, of the same source lines, are one."""
        around = self.unfolded.around(paths.begin)
        for node in paths.ends:
            if node.place not in loop.waits or self._source(node.place) == self._source(
                paths.begin
            ):
                continue
            shared = sum(node.place in it.body for it in around)
            if node.level >= shared:
                one, other = self._where_called(paths.begin, loop), self._where_called(
                    node.place, loop
                )
                return f"{other}: another wait, behind that at {one}"
        return ""

    def _source(self, place: Place) -> object:
        """The source lines of a wait and of the calls that lead to it; the place itself where one
        isn't known."""
        lines = [tuple(self.names.program.lines_of(pc)) or pc for pc in (*place.sites, place.pc)]
        return tuple(lines) if lines[-1] != place.pc else place

    def _where_called(self, place: Place, loop: WaitingLoop) -> str:
        return self.judge.where((*place.sites, place.pc)[len(loop.ring.head.sites)])

    # What the bounds leave out.

    def _look_around(self, loop: WaitingLoop, asked: Asked) -> bool:
        """Looks at all words on the paths; answers whether a trap may be taken there."""
        words: dict[int, Word] = {}
        for begin in loop.waits:
            paths = self._path_bounds.paths(begin)
            words |= {it.place.pc: paths.step(it).word for it in paths.graph}
            for start in paths.calls:
                for part in self._path_bounds.called_from(start):
                    words |= part.reached
        asked.parts.append(Section(0, 0, reached=words))
        asked.before = self.thread.without_traps.words.values()
        self.judge.look_around(asked)
        expiry = self.thread.expiry
        if expiry is None and not any(it.may_trap for it in words.values()):
            return any(
                it.may_trap or it.traps_by_intent for it in self.thread.without_traps.words.values()
            )
        back = sorted(self.thread.comes_back_to(words), key=lambda it: not it.is_meant)
        if not back or not back[0].is_meant:
            asked.notes += [f"assumes {it}" for it in self.judge.trusted_handlers(self.thread)]
        if not back:
            return True
        armed = f"; {self.judge.where(expiry.pc)}: an EE" if expiry else ""
        note = f"{self.judge.where(back[0].word.pc)}: {back[0].how}{armed}"
        if not back[0].is_meant:
            asked.notes.append(f"nothing sets mtvec: it is of periods without a trap ({note})")
        elif not asked.assumes(Assumption.NO_TRAPS, f"it is of periods without a trap ({note})"):
            helps = f"if periods without a trap are meant: assume = [{Assumption.NO_TRAPS.value!r}]"
            raise Unknown(f"{note}: no bound counts a trap handler; {helps}")
        return True

    # The answer.

    def _judged(
        self, budget: Budget, loop: WaitingLoop, pairs: Sequence[Pair], asked: Asked, has_trap: bool
    ) -> Result:
        """The largest of the pairs, compared with what the code waits for."""
        most, ns = self._limited(pairs)
        budget, time = self._with_limit(budget, ns), most.cycles * self.judge.setup.period
        of = "" if ns is None else f" of {budget.cycles}"
        text = f"{most.cycles}{of} cycles ({time} ns)"
        assumed = [NO_TRAP] if has_trap else []
        verdict = Verdict.OVER if ns is not None and time > ns else Verdict.HOLDS
        if verdict is Verdict.HOLDS and (ns is not None or self.of.is_read):
            self._look_at_moments(pairs, self.of.ns)
            assumed += self._assumed(pairs, asked, ns)
        if verdict is Verdict.HOLDS and ns is not None:
            assumed += self._first_assumed(loop, asked, text)
        if self.of.is_read and ns is None:
            text += f"; {NOT_SHOWN}"
        text += self._shown(pairs) + (f"; assumes {', '.join(assumed)}" if assumed else "")
        bounds = self._path_bounds
        notes = tuple(dict.fromkeys([*bounds.notes, *asked.notes]))
        loops = tuple(it for _, it in sorted(bounds.loops.items()))
        functions = tuple(it for _, it in sorted(bounds.functions.items()))
        waits = tuple(sorted(it.key for it in loop.waits))
        return Result(
            budget,
            verdict,
            text,
            most.cycles,
            time,
            notes,
            loops,
            functions,
            stack=asked.stack,
            path=bounds.witnesses.get((most.begin, most.end)),
            waits=waits,
        )

    def _limited(self, pairs: Sequence[Pair]) -> tuple[Pair, int | None]:
        """The pair that counts: the largest, or where the code shows what lies between two moments
        the one with the least left. And these nanoseconds, if they are known."""
        most, period = max(pairs, key=lambda it: it.cycles), self.judge.setup.period
        if self.of.ns is not None or not self.of.is_read:
            return most, self.of.ns
        shown = [
            (it.moment.ns - it.cycles * period, at, it.moment.ns)
            for at, it in enumerate(pairs)
            if isinstance(it.moment, Behind)
        ]
        left, at, ns = min(shown, default=(0, 0, 0))
        is_known = bool(shown) and (len(shown) == len(pairs) or left < 0)
        return (pairs[at], ns) if is_known else (most, None)

    def _with_limit(self, budget: Budget, ns: int | None) -> Budget:
        """The budget of a period whose length is read off the code."""
        if not self.of.is_read or ns is None:
            return budget
        return replace(budget, cycles=ns // self.judge.setup.period, period=replace(self.of, ns=ns))

    def _assumed(self, pairs: Sequence[Pair], asked: Asked, ns: int | None) -> list[str]:
        """What is assumed of the moments, with the reasons as notes."""
        unclear = [(self._where(it.end), it.moment) for it in pairs]
        whys = [f"{at}: {it.why}" for at, it in unclear if isinstance(it, Unclear)]
        asked.notes += dict.fromkeys(whys)
        return [f"moments {ns} ns apart"] if whys and ns is not None else []

    def _first_assumed(self, loop: WaitingLoop, asked: Asked, text: str) -> list[str]:
        """That the first wait is in time, where the code doesn't show it."""
        first = self._first.judged(loop.waits)
        if first.timely is Timely.LATE:
            raise Unknown(f"{first.why}; {text}")
        if first.timely is Timely.IN_TIME:
            return []
        asked.notes.append(first.why)
        return ["the first wait in time"]

    def _shown(self, pairs: Sequence[Pair]) -> str:
        """What the code shows of the moments."""
        found = {it.moment for it in pairs}
        text = ""
        steps = sorted({it.ns for it in found if isinstance(it, Behind) and it.reading is None})
        if steps and self.of.ns is None and (not self.of.is_read or len(steps) > 1):
            text += f"; the moments are {' or '.join(map(str, steps))} ns apart"
        for it in sorted(found, key=str):
            if isinstance(it, Behind) and it.reading is not None:
                reading = f"{it.ns} ns behind the reading of the time at {self._where(it.reading)}"
                text += f"; the moments drift: {reading}"
        return text

    def _where(self, place: Place) -> str:
        return self.judge.where(place.pc)

    def _look_at_moments(self, pairs: Sequence[Pair], ns: int | None) -> None:
        """The moments are as far apart as it was said, if it was."""
        for it in pairs:
            where, moment = self._where(it.end), it.moment
            if isinstance(moment, Absolute):
                raise Unknown(f"{where}: the moment is the same each time: {moment.ns} ns")
            if isinstance(moment, Unclear) and moment.is_wrong:
                raise Unknown(f"{where}: {moment.why}")
            if not isinstance(moment, Behind):
                continue
            reading = moment.reading
            since = "the one before"
            if reading is not None:
                since = f"a reading of the time at {self._where(reading)}"
            if ns is not None and moment.ns != ns:
                raise Unknown(
                    f"{where}: the moment is {moment.ns} ns behind {since}, and not {ns} ns"
                )
            if reading is not None:
                needed = self._path_bounds.most(reading, it.end, True) * self.judge.setup.period
                if needed > moment.ns:
                    raise Unknown(
                        f"{where}: it may be late: it takes up to {needed} ns from {since}"
                    )


def results_of(judge: Judge, budget: Budget) -> list[Result]:
    """The results for the loops of a budget of a period."""
    with tempfile.TemporaryDirectory() as folder:
        names = Names(
            judge.flexpret, judge.setup, judge.image, judge.program, judge.sources, Path(folder)
        )
        return Periods(names, judge, budget).results()
