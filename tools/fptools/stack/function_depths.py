"""How deep the stack of functions gets: each with all that it calls."""
from __future__ import annotations

from dataclasses import dataclass
from typing import Callable, Iterable, Iterator

from fptools.code.digraph import search
from fptools.stack.flow import (
    STACK_POINTER,
    Function,
    Known,
    Reader,
    Traps,
    UnknownStack,
    access_of,
    first_of,
)
from fptools.code.thread import Code
from fptools.code.values import Value


@dataclass(frozen=True)
class Step:
    """A function in the chain to the deepest point: the word there, and the bytes that are its
    own."""

    pc: int
    bytes: int
    is_trap: bool = False  # whether a trap leads to it, not a call


@dataclass(frozen=True)
class Depth:
    """Bytes of stack, and the functions that have them, the outermost first."""

    bytes: int = 0
    steps: tuple[Step, ...] = ()


class Functions:
    """The functions of an image as a thread runs them, each looked at once."""

    def __init__(self, code: Code, traps: Traps, name_of: Callable[[int], str]) -> None:
        self.code, self.traps, self.name_of = code, traps, name_of
        self.done: dict[int, Function] = {}
        self._depths: dict[int, Depth] = {}
        self._open: list[
            int
        ] = []  # the functions whose calls are being looked at, the outermost first

    def of(self, start: int) -> Function:
        """The function at an address. Raises UnknownStack, also where its calls lead back to it."""
        if start in self._open:
            names = [self.name_of(it) for it in (*self._open[self._open.index(start) :], start)]
            raise UnknownStack(start, f"recursion: {' > '.join(names)}")
        if start not in self.done:
            self._open.append(start)
            self.done[start] = self._read(Function(start, {start: first_of(start, self.traps)}))
            self._open.pop()
        return self.done[start]

    def handler(self, start: int) -> Function:
        """The trap handler at an address."""
        return self._read(Function(start, {start: first_of(start, self.traps)}, is_handler=True))

    def entry(self, start: int) -> Function:
        """The code at a thread's entry, where all registers are 0."""
        return self._read(Function(start, {start: Known((Value(None, 0),) * 32)}))

    def _read(self, function: Function) -> Function:
        return Reader(self.code, self.traps, self.of, function).read()

    def depth(self, start: int) -> Depth:
        """How far a called function goes down below sp at its first word, with all that it
        calls."""
        if start not in self._depths:
            self._depths[start] = self.own_depth(self.of(start))
        return self._depths[start]

    def own_depth(self, function: Function) -> Depth:
        """How far a function or a trap handler goes down below sp at its first word."""
        return self.deepest(function, STACK_POINTER, 0)

    def deepest(self, function: Function, origin: tuple[int, int], top: int) -> Depth:
        """How far a function goes down below a top, where its sp is a distance from an origin."""
        best = Depth(0, (Step(function.start, 0),))
        for pc, known in sorted(function.before.items()):
            if known.sp.origin != origin:
                continue
            below = top - known.sp.offset
            called = function.calls.get(pc)
            inner = self.depth(called) if called is not None else Depth()
            low = max(below, top - self._lowest_access(pc, known, origin))
            if max(below + inner.bytes, low) > best.bytes:
                is_inner = below + inner.bytes >= low and inner.bytes > 0
                steps = (Step(pc, below), *inner.steps) if is_inner else (Step(pc, low),)
                best = Depth(max(below + inner.bytes, low), steps)
        return best

    def _lowest_access(self, pc: int, known: Known, origin: tuple[int, int]) -> int:
        """The lowest byte that a load or store touches by an address of the stack, at or below
        sp."""
        access = access_of(self.code.word(pc), known)
        return (
            min(known.sp.offset, access[0].offset)
            if access and access[0].origin == origin
            else known.sp.offset
        )

    def called_from(self, starts: Iterable[int]) -> Iterator[Function]:
        """Some functions that are called, by their addresses, and those that they call."""
        found = search(starts, lambda it: self.done[it].calls.values())
        return (self.done[it] for it in found)
