"""The control-flow graph of a section and of the routines that it calls, and why it has no bound."""

from collections.abc import Callable, Iterable, Iterator, Sequence
from dataclasses import dataclass
from enum import Enum
from functools import cache

from model.instructions import decode, lag
from model.bits import word
from model.refusals import BoundNo, RoutinesNo
from model.setups import Loop

MOST_ROUTINES = 64
MOST_ROUTINES_BYTES = 1152
MOST_AROUND = 3
"""The most loops that a loop may lie in."""

RETURN = 0x00008067
"""The word of `jalr x0, 0(x1)`."""

LINK = 1
"""The register that a call writes its return address to."""

JUMP_LAG = 3


class Stop(Enum):
    """Words after which the path is unknown."""

    INDIRECT_JUMP = "IndirectJump"
    TIMED_WAIT = "TimedWait"


STOPS = {
    "Jalr": Stop.INDIRECT_JUMP,
    "Mret": Stop.INDIRECT_JUMP,
    "Du": Stop.TIMED_WAIT,
    "Wu": Stop.TIMED_WAIT,
}
ENDS = ("Ecall", "Ebreak", "Illegal", *STOPS)
"""Instructions without an edge."""


@dataclass(frozen=True)
class Edge:
    """The target of an edge, and its least number of cycles."""

    to: int
    lag: int


def edges(value: int, address: int) -> list[Edge]:
    """The edges of a word at an address. A misaligned jump has none, since it traps."""
    x = decode(value)
    if x.kind in ENDS:
        return []
    onward = [] if x.kind == "Jal" else [Edge(word(address + 4), lag(x, False, False))]
    target = word(address + x.imm)
    jumps = x.kind in ("Jal", "Branch") and target % 4 == 0
    return onward + ([Edge(target, JUMP_LAG)] if jumps else [])


@dataclass(frozen=True)
class Part:
    """The section, or a routine: its first word, and the address after its last."""

    first: int
    end: int
    is_routine: bool = False

    def has(self, address: int) -> bool:
        return self.first <= address < self.end

    def loops(self, loops: Iterable[Loop]) -> list[Loop]:
        """The loops that lie in it."""
        return [loop for loop in loops if self.has(loop.head) and self.has(loop.last)]


class RoutinesFault(Exception):
    """The first fault of a list of routines, in a line from 1 on."""

    def __init__(self, line: int, code: RoutinesNo) -> None:
        super().__init__(line, code)
        self.line, self.code = line, code


def read_routines(data: bytes, size: int) -> list[Part]:
    """The routines of a list, for scratchpads of a size; raises RoutinesFault."""
    routines: list[Part] = []
    for number, line in enumerate(whole_lines(data), 1):
        routines.append(_routine(number, line, routines[-1].end if routines else 0, size))
    return routines


def whole_lines(data: bytes) -> list[bytes]:
    """The lines of a text with their line feeds; the last may have none."""
    *whole, last = data.split(b"\n")
    return [line + b"\n" for line in whole] + ([last] if last else [])


def _routine(number: int, line: bytes, least: int, size: int) -> Part:
    """The routine of a line, whose head is an address from `least` on."""
    if number > MOST_ROUTINES:
        raise RoutinesFault(number, RoutinesNo.TooMany)
    head, last = (hexadecimal(field) for field in (line[:8], line[9:17]))
    if head is None or last is None or line[8:9] != b" " or line[17:] != b"\n":
        raise RoutinesFault(number, RoutinesNo.BadLine)
    if head % 4 or last % 4 or head > last or last > size - 4:
        raise RoutinesFault(number, RoutinesNo.BadPlace)
    if head < least:
        raise RoutinesFault(number, RoutinesNo.Order)
    return Part(head, last + 4, True)


def hexadecimal(field: bytes) -> int | None:
    """The number of eight hexadecimal digits in lower case."""
    return int(field, 16) if len(field) == 8 and set(field) <= set(b"0123456789abcdef") else None


class Graph:
    """The functions that are reached from a section's first word, and the reached words of each."""

    def __init__(
        self,
        word_at: Callable[[int], int],
        section: Part,
        routines: Sequence[Part],
        loops: Sequence[Loop],
    ):
        self.word_at, self.section, self.routines, self.loops = word_at, section, routines, loops
        self.by_head = {routine.first: routine for routine in routines}
        self.called, self.plain = cache(self._called), cache(self._plain)
        self.reached: dict[Part, set[int]] = {}
        todo = [section]
        while todo:
            part = todo.pop()
            if part not in self.reached:
                self.reached[part] = self._reached_in(part)
                todo += self.callees(part)

    def _called(self, address: int) -> Part | None:
        """The routine that the word at an address calls."""
        value = self.word_at(address)
        x = decode(value)
        targets = edges(value, address) if x.kind == "Jal" and x.rd == LINK else []
        return self.by_head.get(targets[0].to) if targets else None

    def returns(self, part: Part, address: int) -> bool:
        return part.is_routine and self.word_at(address) == RETURN

    def _plain(self, address: int) -> list[Edge]:
        """The edges of a word, except those of calls."""
        return [] if self.called(address) else edges(self.word_at(address), address)

    def stop(self, part: Part, address: int) -> Stop | None:
        """Why the path after a word is unknown."""
        return (
            None if self.returns(part, address) else STOPS.get(decode(self.word_at(address)).kind)
        )

    def callees(self, part: Part) -> list[Part]:
        found = {called for address in self.reached[part] if (called := self.called(address))}
        return sorted(found, key=lambda routine: routine.first)

    def _reached_in(self, part: Part) -> set[int]:
        seen, todo = {part.first}, [part.first]
        while todo:
            address = todo.pop()
            onward = (
                [address + 4] if self.called(address) else [edge.to for edge in self.plain(address)]
            )
            new = [to for to in onward if part.has(to) and to not in seen]
            seen.update(new)
            todo += new
        return seen

    # ------------------------------------------------------------ refusals

    def refusal(self) -> tuple[BoundNo, int] | None:
        """The first refusal, with its lowest address."""
        for code, named in (
            (BoundNo.Overlap, self._overlapping),
            (BoundNo.Recursion, self._recursive),
            (BoundNo.Nesting, self._badly_nested),
            (BoundNo.IndirectJump, lambda: self._stopped(Stop.INDIRECT_JUMP)),
            (BoundNo.TimedWait, lambda: self._stopped(Stop.TIMED_WAIT)),
            (BoundNo.UnboundedBackEdge, self._unbounded),
            (BoundNo.Escape, self._escaping),
        ):
            if addresses := list(named()):
                return code, min(addresses)
        return None

    def _overlapping(self) -> Iterator[int]:
        """Routines that have a word of the section."""
        return (
            r.first
            for r in self.routines
            if r.first < self.section.end and self.section.first < r.end
        )

    def _recursive(self) -> Iterator[int]:
        return (
            part.first for part in self.reached if part.is_routine and part in self._below(part)
        )

    def _below(self, part: Part) -> set[Part]:
        """The routines that a function calls, and those that they call, and so on."""
        seen, todo = set[Part](), self.callees(part)
        while todo:
            callee = todo.pop()
            if callee not in seen:
                seen.add(callee)
                todo += self.callees(callee)
        return seen

    def _words(self) -> Iterator[tuple[Part, int]]:
        return (
            (part, address) for part, addresses in self.reached.items() for address in addresses
        )

    def _badly_nested(self) -> Iterator[int]:
        for part in self.reached:
            loops = part.loops(self.loops)
            yield from crossing(loops)
            yield from (
                loop.head for k, loop in enumerate(loops) if len(around(loops, k)) > MOST_AROUND
            )
            yield from (loop.head for loop in loops if self._is_entered_behind_head(part, loop))

    def _is_entered_behind_head(self, part: Part, loop: Loop) -> bool:
        return any(
            loop.holds(edge.to) and edge.to != loop.head and not loop.holds(address)
            for address in self.reached[part]
            for edge in self.plain(address)
        )

    def _stopped(self, stop: Stop) -> Iterator[int]:
        return (address for part, address in self._words() if self.stop(part, address) == stop)

    def _unbounded(self) -> Iterator[int]:
        """Back edges of no loop."""
        for part, address in self._words():
            ways_back = [
                edge.to for edge in self.plain(address) if part.has(edge.to) and edge.to <= address
            ]
            loops = part.loops(self.loops)
            if not all(
                any(loop.head == to and loop.holds(address) for loop in loops) for to in ways_back
            ):
                yield address

    def _escaping(self) -> Iterator[int]:
        """Words of routines with an edge out of them, except returns."""
        for part, address in self._words():
            if not part.is_routine:
                continue
            is_last_call = self.called(address) is not None and address + 4 == part.end
            if is_last_call or any(not part.has(edge.to) for edge in self.plain(address)):
                yield address


def crossing(loops: Sequence[Loop]) -> Iterator[int]:
    """The heads of loops that share words with an earlier one of the list, neither wholly in the other after its
    head."""
    for k, later in enumerate(loops):
        for loop in loops[:k]:
            shares = loop.head <= later.last and later.head <= loop.last
            if shares and not is_within(loop, later) and not is_within(later, loop):
                yield later.head


def is_within(inner: Loop, outer: Loop) -> bool:
    return outer.head < inner.head and inner.last <= outer.last


def around(loops: Sequence[Loop], k: int) -> list[Loop]:
    """The other loops that have all words of one."""
    loop = loops[k]
    others = [other for j, other in enumerate(loops) if j != k]
    return [other for other in others if other.head <= loop.head and loop.last <= other.last]
