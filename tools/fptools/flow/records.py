"""The records of the loop marks FP_LOOP and FP_ROUND in an executable: its section `.fp_flow`,
which isn't loaded.

A record has seven words of 4 bytes, little endian, and three strings in UTF-8, each with a zero
byte behind it:

    the address of the first instruction behind the mark
    0 for FP_LOOP, 1 for FP_ROUND; plus 0x100 if only the edge from the word before passes the mark
    the number of the FP_LOOP in its unit
    its line
    its n, 1 to 1,048,576
    the unit, a checksum; with FP_FLOW_DIRECT 0, or the function of a template
    the order among the marks of one address
    the name of the loop, the name of the file, and with FP_FLOW_DIRECT the name of the unit

What FP_LOOP and its FP_ROUND share is a claim: number, line, n, unit and the strings. All copies of
a mark that a compiler makes have the claim of the statement. Units that are compiled with
FP_FLOW_DIRECT have only their names: the section `.fp_flow_units` has that of each unit, so two
units of one name are seen, and their claims don't count. The section `.fp_flow_aliases` has the
aliases of functions in units that fp_layout read: the name of each, and that of the function."""
from __future__ import annotations

import struct
from collections import Counter, defaultdict
from dataclasses import dataclass, field
from enum import Enum
from typing import Mapping, Sequence

from fptools.code.digraph import search
from fptools.files.elf import Program
from fptools.flow.one_function import is_one
from fptools.isa.words import RETURN, Flow, Word

SECTION, UNITS, ALIASES = ".fp_flow", ".fp_flow_units", ".fp_flow_aliases"
MOST_ROUNDS = 1_048_576
"""The largest n of a FP_LOOP, and the largest bound of a loop that a setup takes."""

HEADER = struct.Struct("<7I")
ROUND, ONLY_FALL = 0x1, 0x100
BUILD_AGAIN = "build it again, from its sources on"


class Kind(Enum):
    """The two marks."""

    LOOP = "FP_LOOP"
    ROUND = "FP_ROUND"


@dataclass(frozen=True, order=True)
class Claim:
    """The claim of a FP_LOOP: between two passes of it, its FP_ROUND is passed at most `most`
    times."""

    file: str
    line: int
    name: str
    most: int
    number: int = 0
    unit: int = 0
    unit_name: str = ""

    def __str__(self) -> str:
        return f"{self.file}:{self.line} {self.name}"

    def may_be(self, other: Claim) -> bool:
        """Whether both may be of one statement: an inline function has a claim in each unit that
        compiles it, and a template in each of its functions. Two units may have other paths to
        one header."""
        is_elsewhere = (self.unit, self.unit_name) != (other.unit, other.unit_name)
        return self == other or is_elsewhere and self._place == other._place

    @property
    def _place(self) -> tuple[str, int, str]:
        """The file without its folders, the line, and the name."""
        return self.file.rpartition("/")[2], self.line, self.name


@dataclass(frozen=True)
class Mark:
    """A mark in front of the word at an address. It is passed by the edge from the word before
    alone, or by each edge to the address."""

    at: int
    kind: Kind
    claim: Claim
    only_fall: bool = False
    order: int = 0


@dataclass(frozen=True)
class Pass:
    """A mark that an edge passes; if that isn't sure, one that it may pass."""

    mark: Mark
    is_sure: bool


class RecordError(Exception):
    """The records of an executable are damaged: nothing is known by them."""


def read_records(data: bytes) -> list[Mark]:
    """The marks of a section's bytes."""
    found, at = [], 0
    while at < len(data):
        try:
            address, kind, number, line, most, unit, order = HEADER.unpack_from(data, at)
            (name, file, unit_name), end = _strings(data, at + HEADER.size, 3)
        except (struct.error, ValueError):
            raise RecordError(f"the record at byte {at:#x} isn't whole") from None
        if kind & ~(ROUND | ONLY_FALL) or address % 4 or not name:
            raise RecordError(f"the record at byte {at:#x} is none of a mark")
        claim = Claim(file, line, name, most, number, unit, unit_name)
        mark = Mark(
            address, Kind.ROUND if kind & ROUND else Kind.LOOP, claim, bool(kind & ONLY_FALL), order
        )
        found.append(mark)
        at = end
    return found


def _strings(data: bytes, at: int, count: int) -> tuple[list[str], int]:
    """So many strings with a zero behind each, and the place behind them."""
    found = []
    for _ in range(count):
        end = data.index(b"\0", at)
        found.append(data[at:end].decode())
        at = end + 1
    return found, at


def _all_strings(data: bytes) -> list[str]:
    return _strings(data, 0, data.count(0))[0]


def _have_lines(program: Program) -> bool:
    """Whether all functions were compiled with -g."""
    starts = {it.start for it in program.functions}
    return program.has_lines and all(program.line_of(it) is not None for it in starts)


def fault_of_number(most: int) -> str:
    """Why an n can't be claimed; empty where it can."""
    if most == 0:
        return "n is 0, and a loop that is entered makes a round: n is 1 or more"
    return f"n is {most}, of {MOST_ROUNDS} at most" if most > MOST_ROUNDS else ""


@dataclass
class Marks:
    """The marks of an executable, by the edges between words that pass them."""

    words: Mapping[int, int] = field(default_factory=dict)
    fault: str = ""  # why no claim counts; empty where claims count
    unused: dict[Claim, str] = field(
        default_factory=dict
    )  # claims that don't count, each with the reason
    _at: dict[int, list[Mark]] = field(default_factory=lambda: defaultdict(list))
    _entered: dict[int, frozenset[Claim] | None] = field(default_factory=dict)

    @classmethod
    def of(cls, program: Program, words: Mapping[int, int] | None = None) -> Marks:
        """Those of an executable. Other words may be given that were made of its own."""
        found = cls(program.words if words is None else words)
        try:
            marks = read_records(program.section_data(SECTION))
            units = Counter(_all_strings(program.section_data(UNITS)))
            names = _all_strings(program.section_data(ALIASES))
        except (RecordError, UnicodeDecodeError) as damage:
            found.fault = f"{SECTION} of {program.path} is damaged: {damage}; {BUILD_AGAIN}"
            return found
        astray = next((it for it in marks if it.at not in found.words), None)
        if astray is not None:
            where = f"a mark of {astray.claim} is at {astray.at:#x}, where no code is"
            found.fault = f"{SECTION} of {program.path} is damaged: {where}; {BUILD_AGAIN}"
        elif marks and not program.has_local_symbols and not _have_lines(program):
            why = "has neither local symbols nor all lines, so folded functions aren't known"
            found.fault = f"{program.path} {why}: compile with -g, and don't strip it"
        else:
            found._take(program, marks, units, dict(zip(names[::2], names[1::2])))
        return found

    def _take(
        self,
        program: Program,
        marks: Sequence[Mark],
        units: Mapping[str, int],
        aliases: Mapping[str, str],
    ) -> None:
        with_loop = {it.claim for it in marks if it.kind is Kind.LOOP}
        for mark in marks:
            why = fault_of_number(mark.claim.most) or self._doubt_of_place(program, aliases, mark)
            name = mark.claim.unit_name
            if not why and mark.claim not in with_loop:
                why = "its FP_LOOP has no record in the executable"
            if not why and name and units.get(name, 0) != 1:
                count = units.get(name, 0)
                helps = "give them different numbers in -DFP_FLOW_DIRECT"
                why = f"{count} units are named {name}: {helps}"
            if why:
                self.unused.setdefault(mark.claim, why)
        for mark in sorted(marks, key=lambda it: it.order):
            self._at[mark.at].append(mark)

    @staticmethod
    def _doubt_of_place(program: Program, aliases: Mapping[str, str], mark: Mark) -> str:
        """Why a mark may be of other code than that at its address; empty where it isn't."""
        function = program.function_at(mark.at)
        if function is None:
            where = f"a mark of it at {mark.at:#x}"
            return f"{where} is in no function with a size: strip removes its symbol"
        names = sorted(it.name for it in program.functions if it.start == function.start)
        is_of_one = is_one(names, aliases)
        if not is_of_one and len({*names}) > 1:
            what = f"{' and '.join(names)} share their code"
            helps = (
                "write a function in place of an alias, or link without --icf if that folded them"
            )
            return f"{what}: {helps}"
        if not is_of_one or program.is_shared(mark.at):
            return f"{function.name} shares its code with another function: link without --icf"
        return ""

    @property
    def all(self) -> list[Mark]:
        """All marks, by address and order."""
        return [mark for at in sorted(self._at) for mark in self._at[at]]

    @property
    def claims(self) -> set[Claim]:
        return {mark.claim for mark in self.all}

    def at(self, pc: int) -> Sequence[Mark]:
        """The marks in front of a word."""
        return self._at.get(pc, ())

    def on_arrival(self, pc: int) -> list[Pass]:
        """The marks that each edge to a word passes, after those of `on_edge`."""
        return [Pass(mark, True) for mark in self.at(pc) if not mark.only_fall]

    def on_edge(self, pc: int, to: int) -> list[Pass]:
        """The marks that only the edge from the word before passes. If that one has changed since
        the record was made, as by a linker, each edge may pass them."""
        found = []
        for mark in self.at(to):
            if not mark.only_fall:
                continue
            if not self._falls(to):
                found.append(Pass(mark, False))
            elif pc == to - 4:
                found.append(Pass(mark, True))
        return found

    def passes(self, pc: int, to: int) -> list[Pass]:
        """All marks that an edge passes, in order."""
        return [*self.on_edge(pc, to), *self.on_arrival(to)] if to in self._at else []

    def _falls(self, to: int) -> bool:
        """Whether the word before a place goes on there, and not by a jump too."""
        before = Word(to - 4, self.words.get(to - 4, 0))
        return before.goes_on and before.target != to

    def entered_by(self, function: int) -> frozenset[Claim] | None:
        """The claims whose FP_LOOP may be passed in a called function and in what it calls, also by
        its claim of another unit; None for all, where it goes on at an address that isn't in its
        words."""
        if function not in self._entered:
            self._entered[function] = self._reached_from(function)
        return self._entered[function]

    def _reached_from(self, function: int) -> frozenset[Claim] | None:
        found = set[Claim]()
        for pc in search([function], lambda pc: Word(pc, self.words.get(pc, 0)).onward):
            found |= {mark.claim for mark in self.at(pc) if mark.kind is Kind.LOOP}
            word = Word(pc, self.words.get(pc, 0))
            if word.flow is Flow.INDIRECT and word.bits != RETURN:
                return None
        return frozenset(it for it in self.claims if any(map(it.may_be, found)))
