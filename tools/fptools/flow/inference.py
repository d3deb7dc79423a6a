"""What bounds the loops of a section and of the functions that it calls: claims of marks, and
counts of the code.

Both look at one visit, from the section's first word until it is left. So all code that a visit may
issue has to be known: where a section or a function is left by a jump or call to other code, which
may come back, its loops have no bound here. A trap ends a visit."""

from dataclasses import dataclass, field, replace
from functools import cached_property
from typing import Collection, Iterator, Mapping, Sequence

from fptools.code.digraph import search
from fptools.flow.counts import Count, called_with, count_of
from fptools.files.elf import Function, Program
from fptools.flow.bound import facts_of, most_backs
from fptools.flow.graph import LoopFlow, flow_of
from fptools.flow.reasons import why_unbounded
from fptools.flow.records import MOST_ROUNDS, Claim, Mark, Marks
from fptools.code.returns import wrong_return
from fptools.code.section import Exit, Loop, Section, WayOut, walk
from fptools.code.values import State, Values, clobbered_by, jumps_of
from fptools.isa.words import Flow, Word

UNSEEN = (Exit.CALL, Exit.ELSEWHERE, Exit.INDIRECT)
"""How control gets to code that isn't looked at, and may come back."""


@dataclass(frozen=True)
class StatedLoop:
    """A loop, and how often it goes back at most in a visit: by the marks, and by the code
    alone."""

    loop: Loop
    by_marks: int | None = None
    by_code: Count | None = None
    claims: tuple[Claim, ...] = ()  # by which the marks bound it
    why: str = ""  # why nothing may be said of it, or why the marks don't bound it
    is_unseen: bool = False  # whether code that isn't looked at may come back to it
    call: str = ""  # a call whose numbers make it go back more often than the marks allow

    @property
    def is_contradicted(self) -> bool:
        """Whether the code surely goes back more often than the marks allow."""
        if self.by_marks is None:
            return False
        is_more = (
            self.by_code is not None
            and self.by_code.is_exact
            and self.by_code.backs > self.by_marks
        )
        return is_more or bool(self.call)

    @property
    def bound(self) -> int | None:
        """How often it goes back at most, if that is certain and a setup takes it."""
        counted = None if self.by_code is None else self.by_code.backs
        known = [it for it in (self.by_marks, counted) if it is not None]
        if self.is_unseen or self.is_contradicted or not self.loop.is_interval or not known:
            return None
        return min(known) if min(known) <= MOST_ROUNDS else None

    @property
    def doubt(self) -> str:
        """Why it has no bound; empty where it has one."""
        if self.bound is not None:
            return ""
        if not self.loop.is_interval:
            return "it is entered elsewhere than at its head, or a part of it lies before its head"
        if self.is_contradicted:
            return self.difference
        if self.by_marks is None and self.by_code is None or self.is_unseen:
            return self.why
        most = f"a setup takes {MOST_ROUNDS} at most"
        return f"it goes back {self.by_marks} times by the marks, and {most}"

    @property
    def difference(self) -> str:
        """Where the code counts more rounds than the marks state: both numbers; else empty."""
        stated = f"the marks state {(self.by_marks or 0) + 1} ({self.claimed})"
        if self.call:
            return f"{self.call}, {stated}"
        if self.by_code is None or self.by_marks is None or self.by_code.backs <= self.by_marks:
            return ""
        return f"the code counts {self.by_code.backs + 1} rounds, {stated}"

    @property
    def claimed(self) -> str:
        return ", ".join(f"{it}, {it.most}" for it in self.claims)

    @property
    def source(self) -> str:
        """Where its bound comes from."""
        counts = self.by_code is not None and self.by_code.backs == self.bound
        if counts and self.by_code is not None:
            return f"the code counts {self.by_code.backs + 1} rounds"
        return f"{self.claimed}" + (f"; {self.difference}" if self.difference else "")

    @property
    def advice(self) -> str:
        """What to do about the doubt."""
        if self.is_contradicted:
            return "correct the n of FP_LOOP"
        return "docs/C.md#loop-marks has FP_LOOP and FP_ROUND"


@dataclass
class Inference:
    """The loops of an executable. The words are those of the executable, or others that were made
    of it."""

    program: Program
    words: Mapping[int, int] = field(default_factory=dict)
    _clobbered: dict[int, frozenset[int]] = field(default_factory=dict)
    _certain: dict[int, bool] = field(default_factory=dict)

    def __post_init__(self) -> None:
        self.words = self.words or self.program.words

    @cached_property
    def marks(self) -> Marks:
        return Marks.of(self.program, self.words)

    @cached_property
    def jumps(self) -> dict[int, set[int]]:
        return jumps_of(self.words)

    def state(
        self,
        parts: Sequence[Section],
        entries: Collection[int] = (),
        exits: Collection[int] = (),
        is_entered_anywhere: bool = False,
        callers: Sequence[Section] = (),
    ) -> list[tuple[Section, StatedLoop]]:
        """What is known of the loops of a section, and of the functions that it calls, which are
        the other parts. Code is also entered at `entries`, as those of threads, or anywhere outside
        of a visit. The section may be left for the addresses `exits`. The calls of other code,
        `callers`, are compared with the claims, as those in the parts are."""
        visit = _Visit(self, parts, frozenset(entries), is_entered_anywhere, callers)
        return visit.stated(exits)

    def unreached(self, parts: Sequence[Section]) -> list[Mark]:
        """The marks between the first and the last word of some parts, to which no path in them
        leads."""
        reached = {pc for part in parts for pc in part.reached}
        return [
            it
            for it in self.marks.all
            if it.at not in reached and any(part.holds(it.at) for part in parts)
        ]

    def where(self, pc: int) -> str:
        """An address with its symbol and source line."""
        line = self.program.line_of(pc)
        return f"{pc:#x} {self.program.name_of(pc)}".rstrip() + (f" ({line})" if line else "")

    def changed_by(self, function: int) -> frozenset[int]:
        """The registers that a called function, and what it calls, may change."""
        if function not in self._clobbered:
            self._clobbered[function] = clobbered_by(self.words, function)
        return self._clobbered[function]

    def is_certain(self, function: Function) -> bool:
        """Whether control gets from a function's first word to its others as its words say: by no
        jump to an address in a register, and each call comes back right behind it."""
        if function.start not in self._certain:
            self._certain[function.start] = self._comes_back(function)
        return self._certain[function.start]

    def _comes_back(self, function: Function) -> bool:
        functions = {it.start: it for it in self.program.functions}
        parts: dict[int, Section] = {}
        for start in search([function.start], lambda it: parts[it].callees):
            part = walk(self.words, start, functions[start].end, functions, is_function=True)
            parts[start] = part
            unseen = UNSEEN if start != function.start else (Exit.CALL, Exit.INDIRECT)
            if any(way.exit in unseen for way in part.ways_out) or _unseen_call(part):
                return False
            if start != function.start and wrong_return(part, self.changed_by, self.words):
                return False
        return True

    def values_from(self, start: int, entries: Collection[int], first: State | None) -> Values:
        return Values(self.words, start, self.jumps, entries, first, self._clobbered)


@dataclass
class _Visit:
    """A visit of a section: its parts, and the values in them."""

    own: Inference
    parts: Sequence[Section]
    entries: frozenset[int]
    is_entered_anywhere: bool
    callers: Sequence[Section] = ()
    _values: dict[tuple[int, State | None], Values] = field(default_factory=dict)

    def stated(self, exits: Collection[int]) -> list[tuple[Section, StatedLoop]]:
        unseen = self._all_unseen(exits)
        found = []
        for part in self.parts:
            calls = [] if any(unseen.values()) else list(self._calls_of(part, self.parts))
            others = list(self._calls_of(part, self.callers))
            for loop in part.loops:
                stated = self._stated(part, loop, unseen[part.start], calls)
                found.append((part, self._compared(part, stated, others)))
        return found

    def _compared(
        self, part: Section, stated: StatedLoop, calls: Sequence[tuple[Word, State | None]]
    ) -> StatedLoop:
        """What is known of a loop, with the first of some calls that makes it go back more often
        than the marks allow."""
        if stated.by_marks is None or stated.call:
            return stated
        counts = ((word, self._count_for(part, stated.loop, first)) for word, first in calls)
        over = (self._over(*it) for it in counts if _is_more(it[1], stated.by_marks))
        return replace(stated, call=next(over, ""))

    def _all_unseen(self, exits: Collection[int]) -> dict[int, str]:
        """How each part, or what it calls, is left for code that isn't looked at. That code may
        come back anywhere, also behind another word of a caller than the call."""
        found = {
            it.start: self._unseen(it, exits if it is self.parts[0] else ()) for it in self.parts
        }
        callers: dict[int, list[int]] = {}
        for part in self.parts:
            for callee in part.callees:
                callers.setdefault(callee, []).append(part.start)
        ahead = [start for start, why in found.items() if why]
        while ahead:
            callee = ahead.pop()
            for caller in callers.get(callee, ()):
                if not found[caller]:
                    found[caller] = found[callee]
                    ahead.append(caller)
        return found

    def _unseen(self, part: Section, exits: Collection[int]) -> str:
        """How a part is left for code that isn't looked at; empty where it isn't."""
        for way in part.ways_out:
            if way.exit in UNSEEN and not (way.exit is Exit.ELSEWHERE and way.to in exits):
                return f"it isn't known what comes behind {self._way(way)}"
        if call := _unseen_call(part):
            return f"{self.own.where(call.pc)} is a call of code that isn't looked at"
        if part.is_function and (wrong := wrong_return(part, self.own.changed_by, self.own.words)):
            return f"it isn't certain that {self.own.where(wrong.pc)} goes back to the call"
        return ""

    def _way(self, way: WayOut) -> str:
        to = "" if way.to is None else f" to {self.own.where(way.to)}"
        return f"{self.own.where(way.word.pc)}{to}: {way.exit.value}"

    def _values_of(self, part: Section, first: State | None = None) -> Values:
        """The values in a part: from its function's first word on; from its own one on, where it
        isn't certain how control gets there from that."""
        function, start = self.own.program.function_at(part.start), part.start
        if function is not None and not self.is_entered_anywhere and function.start != start:
            start = function.start if self.own.is_certain(function) else start
        if (start, first) not in self._values:
            entries = self.entries - ({start} if first is not None else set())
            self._values[start, first] = self.own.values_from(start, entries, first)
        return self._values[start, first]

    def _calls_of(
        self, part: Section, callers: Sequence[Section]
    ) -> Iterator[tuple[Word, State | None]]:
        """The calls of a function in some code, with the values at its first word where a call
        passes numbers."""
        for caller in callers:
            for word in caller.reached.values():
                if word.flow is Flow.CALL and word.target == part.start:
                    yield word, called_with(self._values_of(caller), word)

    def _stated(
        self, part: Section, loop: Loop, unseen: str, calls: Sequence[tuple[Word, State | None]]
    ) -> StatedLoop:
        if unseen or not loop.is_natural or not loop.body:
            return StatedLoop(loop, why=unseen, is_unseen=bool(unseen))
        by_marks, claims, why = self._by_marks(part, loop)
        by_code = count_of(part, loop, self._values_of(part), self.entries)
        if by_code is None and by_marks is None:
            by_code = _largest([self._count_for(part, loop, first) for _, first in calls])
        stated = StatedLoop(loop, by_marks, by_code, tuple(claims), why)
        return self._compared(part, stated, calls)

    def _by_marks(self, part: Section, loop: Loop) -> tuple[int | None, list[Claim], str]:
        """The bound of a loop by claims, and these; else why they don't bound it."""
        marks = self.own.marks
        flow = flow_of(part, loop, marks)
        used, called = self._usable(flow)
        bound = None
        if used and not flow.round_without(used):
            bound = most_backs(flow, facts_of(flow, used))
        if bound is not None:
            return bound, used, ""
        return None, [], why_unbounded(self.own.program, loop, flow, marks, used, called)

    def _usable(self, flow: LoopFlow) -> tuple[list[Claim], list[Claim]]:
        """The claims that count in a loop; and those whose FP_LOOP a function may pass that the
        loop calls."""
        marks = self.own.marks
        entered: set[Claim] | None = None if flow.is_called_unseen else set()
        for function in flow.callees:
            more = marks.entered_by(function)
            entered = None if entered is None or more is None else entered | more
        known = [] if marks.fault else [it for it in flow.claims() if it not in marks.unused]
        called = [it for it in known if entered is None or it in entered]
        return [it for it in known if it not in called], called

    def _count_for(self, part: Section, loop: Loop, first: State | None) -> Count | None:
        """The count of a loop of a function for a call with some values at its first word."""
        if first is None or not part.is_function:
            return None
        return count_of(part, loop, self._values_of(part, first), self.entries - {part.start})

    def _over(self, call: Word, count: Count | None) -> str:
        """That a call makes a loop go back more often than the marks allow."""
        rounds = 0 if count is None else count.backs + 1
        return f"by the call at {self.own.where(call.pc)} the code counts {rounds} rounds"


def _unseen_call(part: Section) -> Word | None:
    """A call of code that isn't looked at."""
    calls = (it for it in part.reached.values() if it.flow is Flow.CALL)
    return next((it for it in calls if it.target not in part.callees), None)


def _largest(counts: Sequence[Count | None]) -> Count | None:
    """The largest of the counts for all calls of a function; None where one isn't known."""
    known = [it for it in counts if it is not None]
    return max(known, key=lambda it: it.backs) if known and len(known) == len(counts) else None


def _is_more(count: Count | None, by_marks: int | None) -> bool:
    """Whether a loop surely goes back more often than the marks allow."""
    return count is not None and by_marks is not None and count.is_exact and count.backs > by_marks
