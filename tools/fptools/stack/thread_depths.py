"""How deep the stack of a thread gets, by all that it runs from its entry on, with its trap
handlers."""
from __future__ import annotations

from dataclasses import dataclass, replace
from functools import cached_property
from typing import Callable, Collection, Iterable, Iterator

from fptools.code.digraph import search
from fptools.files.setup import Setup, ThreadTable
from fptools.stack.function_depths import Depth, Functions
from fptools.stack.flow import (
    STACK_POINTER,
    TOP,
    Function,
    Traps,
    UnknownStack,
    access_of,
    first_of,
    is_half,
)
from fptools.stack.pointers import Pointers
from fptools.stack.room import is_data
from fptools.code.thread import Code, ThreadCode, reach
from fptools.code.values import Value
from fptools.isa.words import EBREAK, ECALL, Flow, Word

NO_OTHER_TRAP = "assumes that no trap comes while a trap handler runs"
WITHOUT_TRAPS = "nothing sets mtvec: it is of executions without a trap"


@dataclass(frozen=True)
class Deepest:
    """The deepest stack of a thread below its top."""

    top: int
    depth: Depth
    uses: tuple[
        tuple[int, int, int], ...
    ]  # words that use a fixed address of data: word, address, bytes
    notes: tuple[str, ...]
    pointers: tuple[
        tuple[int, int], ...
    ] = ()  # words that store by a pointer, with a number that it may come from


def deepest_of(
    setup: Setup,
    code: Code,
    table: ThreadTable,
    name_of: Callable[[int], str],
    constants: Collection[int] = (),
) -> Deepest:
    """The deepest stack of a thread, to which loads may give words of the instruction scratchpad.
    Raises UnknownStack."""
    traps = Traps()
    while True:
        looked = Looked(setup, code, table, Functions(code, traps, name_of))
        found = looked.effects
        if found == traps:
            return looked.deepest(constants)
        traps = Traps(traps.changed | found.changed, traps.skips or found.skips)


class Looked:
    """A thread's code, where its handlers do to the code that they come back to what
    `functions.traps` has."""

    def __init__(self, setup: Setup, code: Code, table: ThreadTable, functions: Functions) -> None:
        self.setup, self.code, self.table, self.functions = setup, code, table, functions
        self.entry = functions.entry(table.entry)
        self.main = [self.entry, *functions.called_from(self.entry.calls.values())]
        self.handlers: dict[int, Function] = {}
        starts = [*self._set_by(self.main), *self._of_reset()]
        for start in search(starts, lambda it: self._set_by(self._with_callees(self.handlers[it]))):
            self.handlers[start] = functions.handler(start)

    def _with_callees(self, function: Function) -> list[Function]:
        return [function, *self.functions.called_from(function.calls.values())]

    @staticmethod
    def _set_by(functions: Iterable[Function]) -> Iterator[int]:
        return (at for it in functions for at in it.handlers.values())

    def _of_reset(self) -> list[int]:
        """Address 0, where a trap that is meant may come before mtvec is set."""
        thread = ThreadCode(self.code, self.table.entry)
        meant = (it.pc for it in self._words(self.main) if it.traps_by_intent)
        return [0] if any(thread.is_unset(pc) for pc in meant) else []

    def _words(self, functions: Iterable[Function]) -> Iterator[Word]:
        return (self.code.word(pc) for it in functions for pc in sorted(it.before))

    @cached_property
    def all(self) -> list[Function]:
        """All functions, also those that only handlers call."""
        found = {id(it): it for it in self.main}
        for handler in self.handlers.values():
            found |= {id(it): it for it in self._with_callees(handler)}
        return list(found.values())

    @cached_property
    def arms(self) -> Word | None:
        """An EE of the thread."""
        return next((it for it in self._words(self.all) if it.arms), None)

    # What handlers do to the code that they come back to.

    @cached_property
    def effects(self) -> Traps:
        """The registers that handlers change, and whether they skip the word that trapped."""
        self._look_at_ends()
        changed: set[int] = set()
        for handler in self.handlers.values():
            first = first_of(handler.start, self.functions.traps)
            for pc in handler.ends_of_trap:
                known = handler.before[pc]
                if known.sp != Value(STACK_POINTER, 0):
                    raise UnknownStack(pc, "sp isn't as it was at the trap")
                changed |= {it for it in range(32) if known.registers[it] != first.registers[it]}
        comes_back = any(it.ends_of_trap for it in self.handlers.values())
        return Traps(
            frozenset(changed) | self.functions.traps.changed, comes_back and self._skips()
        )

    def _look_at_ends(self) -> None:
        """MRET is in a trap handler itself, and `ret` isn't."""
        for function in self.all:
            for pc in function.ends_of_trap if not function.is_handler else ():
                raise UnknownStack(
                    pc, "MRET outside of a trap handler, or in a function that one calls"
                )
        for start, handler in self.handlers.items():
            for pc in handler.returns:
                raise UnknownStack(
                    pc, "a trap handler returns by `ret`: x1 is that of the code that trapped"
                )
            if handler.above and self._is_relative(handler):
                raise UnknownStack(
                    start, "a trap handler stores above its sp: into the frame that trapped"
                )

    @staticmethod
    def _is_relative(function: Function) -> bool:
        return any(function.is_relative(pc) for pc in function.before)

    def _skips(self) -> bool:
        """Whether a handler writes mepc, so that it may come back behind the word that trapped."""
        skips = False
        for handler in self.handlers.values():
            for word in self._words(self._with_callees(handler)):
                if word.writes_mepc and not self._skips_once(handler, word):
                    why = "a trap handler comes back to an address that isn't known"
                    raise UnknownStack(word.pc, why)
                skips |= word.writes_mepc
        if skips and self.arms:
            why = "a moment may expire at any word, and a trap handler skips the word"
            raise UnknownStack(self.arms.pc, why)
        if skips:
            self._look_at_fetches()
        return skips

    def _skips_once(self, handler: Function, word: Word) -> bool:
        """Whether a write of mepc adds 4 to it, and no other write comes behind it."""
        if word.pc not in handler.before or not self.code.skips_a_word(word):
            return False
        seen = {*search(handler.edges[word.pc], lambda pc: handler.edges.get(pc, []))}
        called = self.functions.called_from(handler.calls[pc] for pc in handler.calls if pc in seen)
        behind = [*map(self.code.word, seen), *self._words(called)]
        return not any(it.writes_mepc for it in behind)

    def _look_at_fetches(self) -> None:
        """A handler that skips words would go on where the thread may not fetch."""
        owners = (f"T{self.table.id}", "readonly")
        for word in self._words(self.all) if self.table.confined else ():
            if self.setup.region("i_regions", word.pc) not in owners:
                raise UnknownStack(
                    word.pc, "the thread can't fetch here, and a trap handler skips the word"
                )

    # Depths.

    def deepest(self, constants: Collection[int]) -> Deepest:
        top, own = self._main_depth()
        handlers, notes = self._on_top()
        steps = (
            *own.steps,
            *(replace(step, is_trap=not at) for it in handlers for at, step in enumerate(it.steps)),
        )
        depth = Depth(own.bytes + sum(it.bytes for it in handlers), steps)
        if not self.handlers:
            notes.append(WITHOUT_TRAPS)
        own_handlers = self.handlers.values()
        pointers = Pointers(self.code, self.all, self.functions.done, own_handlers, constants)
        return Deepest(top, depth, tuple(self._uses()), tuple(notes), tuple(pointers.stores()))

    def _main_depth(self) -> tuple[int, Depth]:
        """The number that sp is set to, and the deepest point below it without traps."""
        tops = {number: pc for it in self.all for pc, number in sorted(it.tops.items())}
        if len(tops) > 1:
            numbers = " and ".join(f"{it % 2**32:#x}" for it in sorted(tops))
            raise UnknownStack(
                max(tops.values()), f"sp is set to {numbers}: which is the stack isn't known"
            )
        for pc, called in self.entry.calls.items():
            if self.entry.before[pc].sp.origin is None and self.functions.depth(called).bytes:
                raise UnknownStack(pc, "a call before sp is set to a number")
        if not tops:
            raise UnknownStack(self.table.entry, "the code from the entry on sets sp to no number")
        (top,) = tops
        self._look_below(top)
        depths = [self.functions.deepest(it, TOP, top) for it in self.all]
        return top, max(depths, key=lambda it: it.bytes)

    def _look_below(self, top: int) -> None:
        """sp is never above its top, and a multiple of 4."""
        if top % 4:
            raise UnknownStack(
                self.table.entry, f"sp is set to {top % 2**32:#x}, which is no multiple of 4"
            )
        for it in self.all:
            for pc, known in it.before.items():
                if known.sp.origin == TOP and known.sp.offset > top:
                    raise UnknownStack(pc, f"sp is above {top % 2**32:#x}, to which it was set")

    def _on_top(self) -> tuple[list[Depth], list[str]]:
        """The handlers on top of the deepest point. A handler that doesn't come back may be
        followed by another one, if a moment is armed."""
        depths = {start: self.functions.own_depth(it) for start, it in self.handlers.items()}
        deep = {start: it for start, it in depths.items() if it.bytes}
        if not deep:
            return [], []
        for start in deep:
            self._look_at_handler(self.handlers[start])
        most = max(deep.values(), key=lambda it: it.bytes)
        stays = [it for start, it in deep.items() if not self.handlers[start].ends_of_trap]
        under = max(stays, key=lambda it: it.bytes) if stays and self.arms else None
        note = NO_OTHER_TRAP + (", but by one expiry" if under else "")
        return [under, most] if under else [most], [note]

    def _look_at_handler(self, handler: Function) -> None:
        """A handler with a stack doesn't trap by intent, and doesn't go on in code that may
        trap."""
        own = [pc for pc in handler.before if handler.is_relative(pc)]
        called = self.functions.called_from(
            at for pc, at in handler.calls.items() if handler.is_relative(pc)
        )
        name = self.functions.name_of(handler.start)
        for word in [*map(self.code.word, own), *self._words(called)]:
            is_trap = word.arms and not handler.ends_of_trap or word.flow is Flow.TRAP
            if is_trap:
                raise UnknownStack(word.pc, f"a trap in the trap handler {name}")
        asks = next((it for it in self._words(self.all) if it.bits in (ECALL, EBREAK)), None)
        if asks and self.arms and handler.ends_of_trap:
            raise UnknownStack(
                asks.pc,
                f"a moment may expire while the trap handler {name} runs: it would lose mepc",
            )
        self._look_at_overlap(handler, {pc for it in self.main for pc in it.before} & {*own})
        self._look_at_halves()

    def _look_at_overlap(self, handler: Function, shared: Collection[int]) -> None:
        """Where a handler goes on in other code of the thread, nothing there may trap or call."""

        def relative(pcs: Iterable[int]) -> Iterable[int]:
            return filter(handler.is_relative, pcs)

        for pc in search(relative(shared), lambda pc: relative(handler.edges.get(pc, []))):
            word = self.code.word(pc)
            if pc in handler.calls or word.may_trap or word.traps_by_intent:
                why = "the trap handler {} goes on in code that may trap, and keeps its stack"
                raise UnknownStack(min(shared), why.format(self.functions.name_of(handler.start)))

    def _look_at_halves(self) -> None:
        """No moment expires before sp is set, or between the two words that set it."""
        if self.arms is None:
            return
        for pc, known in self.entry.before.items():
            if known.sp.origin is None and (self.code.word(pc).arms or pc in self.entry.calls):
                raise UnknownStack(pc, "a moment may expire before sp is set to a number")
        behind = [pc + 4 for it in self.all for pc in it.tops]
        again = reach(self.code, [*behind, *self.handlers])
        for word in self._words(self.all):
            if is_half(self.code, word) and again.has(word.pc):
                why = "sp is set again in two words, between which a moment may expire"
                raise UnknownStack(word.pc, why)

    def _uses(self) -> Iterator[tuple[int, int, int]]:
        """The loads and stores at a fixed address of data."""
        for function in self.all:
            for pc, known in sorted(function.before.items()):
                access = access_of(self.code.word(pc), known)
                if access and access[0].origin is None and is_data(access[0].offset % 2**32):
                    yield pc, access[0].offset % 2**32, access[1]
