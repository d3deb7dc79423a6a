"""Whether the first wait of a loop is in time: by the time that the code reads before it, or by the
wait before it."""
from __future__ import annotations

from dataclasses import dataclass
from enum import IntEnum

from fptools.budget.judge import Unknown
from fptools.period.moment_values import Absolute, Behind, Moment, Unclear
from fptools.period.shown import Shown
from fptools.period.bounds import PathBounds
from fptools.isa.turns import Turns
from fptools.code.unfolded import Place, is_wait


class Timely(IntEnum):
    """Whether waits are in time. The largest of several counts."""

    IN_TIME = 0
    NOT_KNOWN = 1
    LATE = 2  # it may be late


@dataclass(frozen=True)
class Judgement:
    """Whether a wait is in time, and why it isn't, or isn't known to be."""

    timely: Timely
    why: str = ""


IN_TIME = Judgement(Timely.IN_TIME)


@dataclass
class FirstWaits:
    """Judges the waits that are before a loop's first."""

    bounds: PathBounds
    moments: Shown
    turns: Turns

    def moments_behind(self, begin: Place) -> dict[Place, Moment]:
        return self.moments.behind(begin)

    def judged(self, waits: frozenset[Place]) -> Judgement:
        """Whether each wait of a loop is in time when it is reached from outside of the loop."""
        return self._worst([self._reached(it, waits, waits) for it in sorted(waits)])

    @staticmethod
    def _worst(found: list[Judgement]) -> Judgement:
        return max(found, key=lambda it: it.timely, default=IN_TIME)

    def _reached(self, wait: Place, inner: frozenset[Place], known: frozenset[Place]) -> Judgement:
        """Whether a wait is in time when it is reached from another place than a wait of `inner`.
        Those of `known` are judged elsewhere: by induction over the waits of a run, they are in
        time up to there."""
        unfolded = self.bounds.unfolded
        if is_wait(unfolded.steps[unfolded.first].word):
            return Judgement(
                Timely.NOT_KNOWN, f"{self._where(unfolded.first)}: the thread begins with a wait"
            )
        found = []
        for begin in [it for it in [unfolded.first, *unfolded.waits] if it not in inner]:
            if not any(it.place == wait for it in self.bounds.paths(begin).ends):
                continue
            before = IN_TIME
            if is_wait(unfolded.steps[begin].word) and begin not in known:
                before = self._reached(begin, frozenset(), known | {begin})
            found.append(self._one(begin, wait, before))
        return self._worst(found)

    def _one(self, begin: Place, wait: Place, before: Judgement) -> Judgement:
        """Whether a wait is in time that is the next one behind another, or behind the entry."""
        moment = self._since(begin, self.moments_behind(begin)[wait])
        try:
            if isinstance(moment, Behind):
                found = self._behind_at_most(begin, wait, moment)
                is_apart = moment.reading is not None or found.timely >= before.timely
                return found if is_apart else before
            if isinstance(moment, Absolute) and begin == self.bounds.unfolded.first:
                cycles = self.turns.next(0) + self.bounds.most(begin, wait)
                return self._compared(wait, cycles, moment.ns, "the start at", begin)
            if isinstance(moment, Unclear) and moment.most is not None:
                found = self._behind_at_most(begin, wait, moment.most)
                if found.timely is Timely.LATE:
                    return found
        except Unknown as fault:
            return self._not_known(wait, str(fault))
        return self._not_known(
            wait, moment.why if isinstance(moment, Unclear) else "its moment is the same each time"
        )

    def _since(self, begin: Place, moment: Moment) -> Moment:
        """A moment that is a number, as its distance from that of the wait before, where this one
        is a number too."""
        if isinstance(moment, Absolute) and is_wait(self.bounds.unfolded.steps[begin].word):
            before = self.moments.at(begin)
            if isinstance(before, Absolute):
                return Behind(moment.ns - before.ns)
        return moment

    def _behind_at_most(self, begin: Place, wait: Place, most: Behind) -> Judgement:
        if most.reading is not None:
            cycles = self.bounds.most(most.reading, wait, True)
            return self._compared(wait, cycles, most.ns, "the reading of the time at", most.reading)
        return self._compared(
            wait, self.bounds.most(begin, wait), most.ns, "the moment of the wait at", begin
        )

    def _not_known(self, wait: Place, why: str) -> Judgement:
        text = f"{self._where(wait)}: the first wait isn't known to be in time: {why}"
        return Judgement(Timely.NOT_KNOWN, text)

    def _compared(self, wait: Place, cycles: int, ns: int, what: str, begin: Place) -> Judgement:
        needed = cycles * self.bounds.judge.setup.period
        if needed <= ns:
            return IN_TIME
        text = f"{self._where(wait)}: the first wait may be late: it takes up to {needed} ns"
        text += f" from {what}"
        return Judgement(
            Timely.LATE, f"{text} {self._where(begin)}, and its moment is {ns} ns behind that"
        )

    def _where(self, place: Place) -> str:
        return self.bounds.judge.where(place.pc)
