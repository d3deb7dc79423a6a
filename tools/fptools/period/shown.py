"""What the code shows of the moments of waits, in two ways: a call that leads to no wait changes what
its function may change; or, where no moment is seen so, calls of straight code are put in place."""
from __future__ import annotations

from dataclasses import dataclass, field
from functools import cached_property
from typing import Callable, TypeVar

from fptools.code.unfolded import NotUnfolded, Place, Unfolded
from fptools.period.moment_values import Behind, Moment, Unclear
from fptools.period.moments import Moments

Answer = TypeVar("Answer")


@dataclass
class Shown:
    """The moments of a thread's waits."""

    unfolded: Unfolded
    moments_of: Callable[[Unfolded], Moments]
    _behind: dict[Place, dict[Place, Moment]] = field(default_factory=dict)

    @cached_property
    def _plain(self) -> Moments:
        return self.moments_of(self.unfolded)

    @cached_property
    def _deep(self) -> Moments | None:
        """With calls of straight code in place; None where they are too many."""
        it = self.unfolded
        try:
            return self.moments_of(Unfolded(it.code, it.program, it.entry, True))
        except NotUnfolded:
            return None

    def behind(self, begin: Place) -> dict[Place, Moment]:
        """The moment of each next wait behind a wait, or behind the entry."""
        if begin not in self._behind:
            found = self._plain.behind(begin)
            more: dict[Place, Moment] = {}
            if any(isinstance(it, Unclear) for it in found.values()):
                more = self._tried(lambda it: it.behind(begin), more)
            self._behind[begin] = {at: self._clearer(it, more.get(at)) for at, it in found.items()}
        return self._behind[begin]

    def at(self, wait: Place) -> Moment:
        """The moment of a wait, as all paths to it from the entry have it."""
        found = self._plain.at(wait)
        if not isinstance(found, Unclear):
            return found
        return self._clearer(found, self._tried(lambda it: it.at(wait), None))

    def _tried(self, ask: Callable[[Moments], Answer], default: Answer) -> Answer:
        try:
            return default if self._deep is None else ask(self._deep)
        except NotUnfolded:
            return default

    def _clearer(self, one: Moment, other: Moment | None) -> Moment:
        """A moment, or what the other way shows, where it isn't clear."""
        if not isinstance(one, Unclear) or other is None:
            return one
        reading = other.reading if isinstance(other, Behind) else None
        return one if reading is not None and reading not in self.unfolded.steps else other
