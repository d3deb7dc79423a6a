"""Events of traces as they are shown: as columns, as JSON, as rows; with names, instructions and source
lines."""

import csv
import json
import re
from dataclasses import dataclass
from typing import Iterator, Mapping, Sequence

from fptools.files.trace_blocks import (
    CYCLE,
    EFFECT,
    PC,
    PLACE,
    Block,
    class_of,
    span,
    trap_character,
)
from fptools.isa.disassembly import Disassembler
from fptools.files.elf import CODE_END, Program
from fptools.files.sources import Sources
from fptools.files.trace import CAUSES, Event, event_of
from fptools.visits.waits import JudgedWait
from fptools.isa.words import Word


@dataclass(frozen=True)
class Wanted:
    """The selection of events; all if there is none. Addresses are numbers, NAME or NAME+NUMBER."""

    pcs: Sequence[str] = ()
    functions: Sequence[str] = ()  # by an address in them
    stores: Sequence[int] = ()  # to these addresses
    traps: bool = False
    waits: bool = False
    overruns: bool = False


class Filter:
    """The selection of events: by their characters, or by texts in their lines."""

    def __init__(self, asked: Wanted, program: Program) -> None:
        pcs = {program.address(text) for text in asked.pcs}
        self._far = {pc for pc in pcs if pc >= CODE_END}
        functions = [program.function(text) for text in asked.functions]
        near = sorted(pc for pc in pcs if pc < CODE_END)
        spans = "".join(span(it.start, it.end) + _trap_span(it.start, it.end) for it in functions)
        classes = (
            class_of(*near) + "".join(f"\\u{ord(trap_character(pc)):04x}" for pc in near) + spans
        )
        self._pattern = re.compile(f"[{classes}]") if classes else None
        self._stores = [b" [%08x]/" % address for address in asked.stores]
        self._traps, self._waits, self._overruns = asked.traps, asked.waits, asked.overruns
        asks = (pcs, functions, self._stores, self._traps, self._waits, self._overruns)
        self.takes_all = not any(asks)

    def indexes(self, block: Block, waits: list[JudgedWait], period: int) -> list[int]:
        """The selected events of a block, in order."""
        if self.takes_all:
            return list(range(len(block.lines)))
        found: set[int] = set()
        if self._pattern is not None:
            found.update(it.start() for it in self._pattern.finditer(block.events))
        if self._far:
            found.update(
                index for index, line in enumerate(block.lines) if int(line[PC], 16) in self._far
            )
        if self._traps:
            found.update(block.traps)
        if self._waits:
            found.update(it.place for it in waits)
        elif self._overruns:
            found.update(it.place for it in waits if it.is_overrun(period))
        for text in self._stores:
            found.update(_lines_with(block.data, text))
        return sorted(found)


def _trap_span(start: int, end: int) -> str:
    end = min(end, CODE_END)
    return (
        f"\\u{ord(trap_character(start)):04x}-\\u{ord(trap_character(end - 4)):04x}"
        if start < end
        else ""
    )


def _lines_with(data: bytes, text: bytes) -> Iterator[int]:
    """Which lines of a block have a text."""
    index, counted, place = 0, 0, data.find(text)
    while place >= 0:
        index += data.count(b"\n", counted, place)
        counted = place
        yield index
        place = data.find(text, place + 1)


class Columns:
    """What is shown of an event beyond its own line. It is the same for each event of a word, so it is
    made once."""

    def __init__(self, program: Program, disassembler: Disassembler, sources: Sources) -> None:
        self.program, self.disassembler, self.sources = program, disassembler, sources
        self._kept: dict[tuple[int, int, bool], tuple[str, str, str]] = {}

    def of(self, event: Event) -> tuple[str, str, str]:
        """The name of its address, its instruction, and its source line."""
        key = event.pc, event.bits, event.issues
        if key not in self._kept:
            self._kept[key] = (
                self.program.name_of(event.pc),
                self._instruction(event),
                self._source(event.pc),
            )
        return self._kept[key]

    def _instruction(self, event: Event) -> str:
        if not event.issues:
            return "(none issues)"
        text = self.disassembler.text(event.pc, event.bits)
        target = Word(event.pc, event.bits).target
        name = self.program.name_of(target) if target is not None else ""
        return f"{text} <{name}>" if name else text

    def _source(self, pc: int) -> str:
        """The source line of an address, with its text where the source is found."""
        line = self.program.line_of(pc)
        if line is None:
            return ""
        return f"{line} {self.sources.text(line).strip()}".rstrip()


HEADER = f"{'cycle':>10} {'ns':>12} {'gap':>6} {'pc':<8} {'at':<20} {'instruction':<30} effect"
TEXT, JSON, CSV = "text", "json", "csv"
FIELDS = "cycle ns gap pc word at instruction effect late_ns source".split()


def _effect(event: Event, late: int | None) -> str:
    if event.cause is not None:
        return f"{event.effect} ({CAUSES.get(event.cause, 'unknown')})"
    return event.effect if late is None else f"{event.effect} (late by {late} ns)"


class Form:
    """How events are written: as columns, as JSON or as rows."""

    def __init__(self, columns: Columns, period: int, kind: str = TEXT) -> None:
        self._columns, self._period, self._kind = columns, period, kind
        self.header = {TEXT: HEADER, JSON: "", CSV: ",".join(FIELDS)}[kind]
        self._kept: dict[
            bytes, tuple[str, str]
        ] = {}  # what is in the middle and at the end of a line, by its pc and word

    def lines(
        self, block: Block, indexes: Sequence[int], late: Mapping[int, int | None]
    ) -> list[str]:
        """The lines of some events of a block; of late waits the nanoseconds, where they are known."""
        if self._kind != TEXT:
            line = self._json if self._kind == JSON else self._row
            return [line(event_of(block, index), late.get(index)) for index in indexes]
        special = {*block.traps, *late}
        return [
            self._text(event_of(block, index), late.get(index))
            if index in special
            else self._plain(block, index)
            for index in indexes
        ]

    def _plain(self, block: Block, index: int) -> str:
        """The columns of an event that is neither a trap nor late."""
        line = block.lines[index]
        before = block.lines[index - 1] if index else block.before
        kept = self._kept.get(line[PLACE])
        if kept is None:
            at, instruction, source = self._columns.of(event_of(block, index))
            kept = self._kept[line[PLACE]] = (
                f"{line[PC].decode()} {at:<20} {instruction:<30}",
                source,
            )
        cycle = int(line[CYCLE])
        gap = cycle - int(before[CYCLE]) if before is not None else 0
        effect = line[EFFECT].decode()
        end = f"{effect:<34} {kept[1]}" if kept[1] else effect
        return f"{cycle:>10} {cycle * self._period:>12} {gap:>+6} {kept[0]} {end}"

    def _text(self, event: Event, late: int | None) -> str:
        at, instruction, source = self._columns.of(event)
        return (
            f"{event.cycle:>10} {event.cycle * self._period:>12} {event.gap:>+6} {event.pc:08x} {at:<20} "
            f"{instruction:<30} {_effect(event, late):<34} {source}"
        ).rstrip()

    def _values(self, event: Event, late: int | None) -> list[object]:
        at, instruction, source = self._columns.of(event)
        word = f"{event.bits:08x}" if event.issues else None
        ns = event.cycle * self._period
        place = [event.cycle, ns, event.gap, f"{event.pc:08x}", word, at or None]
        return [*place, instruction, event.effect, late, source or None]

    def _json(self, event: Event, late: int | None) -> str:
        more: dict[str, object] = {}
        if event.register is not None:
            more |= {"register": event.register, "value": event.value}
        if (stored := event.stored) is not None:
            more["store"] = {"address": stored.address, "size": stored.size, "value": stored.value}
        if (csr := event.csr) is not None:
            more["csr"] = {"number": csr[0], "value": csr[1]}
        if event.cause is not None:
            more["trap"] = {"cause": event.cause, "handler": event.handler}
        return json.dumps(dict(zip(FIELDS, self._values(event, late))) | more)

    def _row(self, event: Event, late: int | None) -> str:
        row = _Row()
        csv.writer(row).writerow(["" if it is None else it for it in self._values(event, late)])
        return row.text


class _Row:
    """Takes a row from a `csv.writer`."""

    text = ""

    def write(self, text: str) -> None:
        self.text = text.rstrip("\r\n")
