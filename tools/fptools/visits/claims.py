"""Compares the claims of loop marks with a run: how often a thread passes FP_ROUND between two
passes of FP_LOOP.

A mark is passed on arrival at its address, also if the word there then traps; or only by the
edge from the word before, as its record says. A return comes from the call. Where MRET leads
back to a word that trapped, the thread had arrived there. FP_LOOP counts also where it isn't
sure that an edge passes it, and FP_ROUND only where it is: as the bounds use claims."""
from __future__ import annotations

import re
from collections.abc import Iterator, Mapping
from dataclasses import dataclass, field

from fptools.files.elf import Program
from fptools.flow.records import Claim, Kind, Marks
from fptools.files.trace_blocks import BITS, EFFECT, PC, TRAP, Block, class_of, trap_character
from fptools.isa.words import MRET, OPCODE_JALR, Flow, Word

RETURN_REGISTERS = (1, 5)
"""The registers through which a function returns, and no other jump is compiled."""

MOST_TRAPS = 10_000
"""So many traps are kept that haven't come back."""

PREFIX = EFFECT.start - 1
"""Where the effect of a trap begins in a line, with the space before it."""


@dataclass
class Passes:
    """The passes of a claim's FP_ROUND in a run."""

    claim: Claim
    now: int = 0  # since the last pass of FP_LOOP
    since: int | None = None  # the cycle of that pass; None before the first one
    most: int = 0
    most_at: int = 0  # the cycle of the pass with which there were so many
    broken_at: int | None = None  # the cycle of the first pass above the claim
    times: int = 0  # how often there were more than the claim says
    is_passed: bool = False  # whether the run passed a mark of it

    def enter(self, cycle: int) -> None:
        self.now, self.since = 0, cycle

    def round(self, cycle: int) -> None:
        self.now += 1
        if self.now > self.most:
            self.most, self.most_at = self.now, cycle
        if self.now == self.claim.most + 1:
            self.times += 1
            self.broken_at = cycle if self.broken_at is None else self.broken_at

    @property
    def is_broken(self) -> bool:
        return self.broken_at is not None

    def __str__(self) -> str:
        return f"{self.claim}: claimed {self.claim.most}, seen {self.most}"


def broken_text(passes: Passes) -> str:
    """That a run broke a claim, and when."""
    return f"{passes}: the run broke the claim in cycle {passes.broken_at}"


@dataclass
class ClaimMeter:
    """Counts the passes of marks in a trace."""

    marks: Marks
    seen: dict[Claim, Passes] = field(default_factory=dict)
    _trapped: list[int] = field(default_factory=list)  # the addresses of traps that may come back
    _edges: dict[tuple[int, int], list[tuple[Passes, bool]]] = field(default_factory=dict)
    _pattern: re.Pattern[str] | None = None

    def __post_init__(self) -> None:
        places = sorted({mark.at for mark in self.marks.all})
        if places:
            traps = "".join(f"\\u{ord(trap_character(pc)):04x}" for pc in places)
            self._pattern = re.compile(f"[{class_of(*places)}{traps}]")

    @property
    def passes(self) -> list[Passes]:
        """Those of each claim that the run passed."""
        return [self.seen[claim] for claim in sorted(self.seen) if self.seen[claim].is_passed]

    def take(self, block: Block) -> None:
        if self._pattern is None:
            return
        found = {it.start() for it in self._pattern.finditer(block.events)}
        for index in sorted({*found, *self._interrupts(block)}):
            self._take(block, index, index in found)

    @staticmethod
    def _interrupts(block: Block) -> Iterator[int]:
        """The traps, and the events behind MRET."""
        yield from block.traps
        if block.before is not None and _bits(block.before) == MRET:
            yield 0
        text = b" %08x " % MRET
        place = block.data.find(text) if block.traps or text in block.data else -1
        while place >= 0:
            index = block.data.count(b"\n", 0, place) + 1
            if index < len(block.lines):
                yield index
            place = block.data.find(text, place + 1)

    def end(self, cycle: int) -> None:
        """Nothing is open at the end."""

    def _take(self, block: Block, index: int, is_marked: bool) -> None:
        line, before = block.lines[index], block.line(index - 1)
        to = int(line[PC], 16)
        start = self._start(before, to)
        if is_marked and start is not None:
            for passes, enters in self._passes(start, to):
                if enters:
                    passes.enter(block.cycle(index))
                else:
                    passes.round(block.cycle(index))
        if line[PREFIX:].startswith(TRAP):
            self._trapped = [*self._trapped[-MOST_TRAPS:], to]

    def _passes(self, start: int, to: int) -> list[tuple[Passes, bool]]:
        """The claims of the marks that an edge passes, and whether by FP_LOOP."""
        if (start, to) not in self._edges:
            found: list[tuple[Passes, bool]] = []
            for it in self.marks.passes(start, to):
                claim, enters = it.mark.claim, it.mark.kind is Kind.LOOP
                if claim in self.marks.unused or not (enters or it.is_sure):
                    continue
                own = (
                    [other for other in self.marks.claims if claim.may_be(other)]
                    if enters
                    else [claim]
                )
                found += [(self.seen.setdefault(other, Passes(other)), enters) for other in own]
                self.seen[claim].is_passed = True
            self._edges[start, to] = found
        return self._edges[start, to]

    def _start(self, before: bytes | None, to: int) -> int | None:
        """The address from which control came to a word; -4 where it came by no edge of the code.
        None where the thread had arrived there before a trap."""
        if before is None or before[PREFIX:].startswith(TRAP):
            return -4
        word = Word(int(before[PC], 16), _bits(before))
        if word.bits == MRET:
            return self._resumed(to)
        is_return = word.opcode == OPCODE_JALR and word.rd == 0 and word.rs1 in RETURN_REGISTERS
        return to - 4 if is_return and self._is_call(to - 4) else word.pc

    def _resumed(self, to: int) -> int | None:
        """The start of an edge by MRET: none back to a word that trapped; the word before, where a
        handler skips one."""
        for at in range(len(self._trapped) - 1, -1, -1):
            if to in (self._trapped[at], self._trapped[at] + 4):
                trapped = self._trapped[at]
                del self._trapped[at:]
                return None if to == trapped else trapped
        return -4

    def _is_call(self, pc: int) -> bool:
        word = Word(pc, self.marks.words.get(pc, 0))
        return word.flow in (Flow.CALL, Flow.INDIRECT) and word.rd != 0


def marks_for(program: Program, image: Mapping[int, int]) -> Marks | None:
    """The marks of an executable that an image was made of; None where it has none, or the image
    is another one."""
    if any(image.get(pc) != bits for pc, bits in program.words.items()):
        return None
    marks = Marks.of(program)
    return marks if marks.all or marks.fault else None


def _bits(line: bytes) -> int:
    """The word of an event; 0 where none issues."""
    return int(line[BITS], 16)
