"""The bound of a function or a section from names alone: the tables of its loops, the list of its functions and, where no
call of the function is found, a call of it are made here."""
from __future__ import annotations

import copy
import json
from dataclasses import dataclass, replace
from pathlib import Path
from typing import Mapping

from fptools.budget.files import Assumption, Budget, LoopFact, Result, Verdict
from fptools.budget.judge import Asked, Judge, Unknown
from fptools.files.elf import Function, Program, ProgramError
from fptools.files.image import write_image
from fptools.flow.inference import StatedLoop
from fptools.program.calls import Flexpret
from fptools.code.section import Section
from fptools.files.setup import Setup
from fptools.files.sources import Sources
from fptools.isa.words import Flow, Word
from fptools.untyped import Values

MOST_LOOPS = 256


@dataclass
class Names:
    """Asks for bounds of an executable's functions and sections, by a setup whose tables of loops it makes."""

    flexpret: Flexpret
    setup: Setup
    image: Mapping[int, int]
    program: Program
    sources: Sources
    folder: Path  # where a setup and an image may be written
    has_paths: bool = False  # whether results have the path that costs the bound
    keeps_tables: bool = False  # whether the setup's tables count, and only the others are made

    def lacks_table(self, budget: Budget) -> bool:
        """Whether the setup has no table for a loop of a section, or of a function that it calls."""
        judge = Judge(self.flexpret, self.setup, self.image, self.program, self.sources)
        try:
            parts = judge.asked(budget).parts
        except (Unknown, ProgramError):
            return False
        return any(judge.table_of(part, it) is None for part in parts for it in part.loops)

    def function(self, name: str, budget: Budget) -> Result:
        """The bound from a call of a function to the issue behind it."""
        function = self._named(name)
        call = self._call_of(function, budget.thread)
        if call is not None:
            return self.section(
                replace(budget, start=call, end=call + 4, calls=True), None, function
            )
        at = self._free_word(function, budget.thread)
        if at is None:
            text = f"{name}: nothing calls it, and no word of the image is free for a call"
            return Result(budget, Verdict.UNKNOWN, text)
        return self.section(replace(budget, start=at, end=at + 4, calls=True), at, function)

    def section(
        self, budget: Budget, put: int | None = None, function: Function | None = None
    ) -> Result:
        """The bound of a section, by the setup with tables of its loops: of a call of a function, if that is given, which
        is put at `put`, or there."""
        image, program, calls = dict(self.image), self.program, {}
        if put is not None and function is not None:
            program = copy.copy(program)
            image[put] = jump_and_link(put, function.start)
            program.words = {**program.words, put: image[put]}
            calls = {put: function.start}
        written = self.folder / "own.fpx"
        written.write_bytes(write_image(image))
        values: Values = {**self.setup.values, "image": str(written)}
        setup, is_of_function = replace(self.setup, values=values), function is not None
        judge = Judge(
            self.flexpret,
            setup,
            image,
            program,
            self.sources,
            calls,
            is_of_function,
            self.has_paths,
        )
        try:
            values["loop"] = self._tables(judge, budget)
        except (Unknown, ProgramError) as why:
            return judge.unknown(budget, why)
        path = self.folder / "own.toml"
        path.write_text(toml_of(values), encoding="utf-8")
        judge.setup = Setup(path, values, {})
        return judge.judge(budget)

    def _tables(self, judge: Judge, budget: Budget) -> list[dict[str, int]]:
        """A table for each loop: by the code and the marks, else that of the setup, if the budget takes it for granted."""
        asked = judge.asked(budget)
        judge.look_at_code(asked)
        tables: list[dict[str, int]] = (
            list(self.setup.values.get("loop", [])) if self.keeps_tables else []
        )
        missing = []
        for part, stated in judge.stated_loops(asked):
            if self.keeps_tables and judge.table_of(part, stated.loop) is not None:
                continue
            try:
                bound = self._bound_of(judge, asked, part, stated)
                tables.append({"head": stated.loop.head, "last": stated.loop.last, "bound": bound})
            except Unknown as why:
                missing.append(str(why))
        if missing:
            raise Unknown("; ".join(missing))
        if len(tables) > MOST_LOOPS:
            raise Unknown(f"{len(tables)} loops, of {MOST_LOOPS} at most that a setup may have")
        return tables

    def _bound_of(self, judge: Judge, asked: Asked, part: Section, stated: StatedLoop) -> int:
        where = judge.where(stated.loop.head)
        if not stated.loop.is_interval:
            raise Unknown(f"{where}: {stated.doubt}: lay the code out by fp_layout")
        if stated.bound is not None:
            return stated.bound
        if stated.is_contradicted:
            raise Unknown(f"{where}: {stated.doubt}: {stated.advice}")
        table = judge.table_of(part, stated.loop)
        if table is None and Assumption.LOOP_TABLES in asked.budget.assume:
            raise Unknown(
                f"{where}: neither marks, nor code, nor the setup bound this loop ({stated.doubt})"
            )
        if table is None:
            raise Unknown(f"{where}: nothing bounds this loop ({stated.doubt}): {stated.advice}")
        judge.assume_table(asked, stated)
        return table

    def fact(self, judge: Judge, asked: Asked, part: Section, stated: StatedLoop) -> LoopFact:
        """How often a loop goes back, with where that is known from. Raises Unknown."""
        judge.look_at_loop(asked, stated, self._bound_of(judge, asked, part, stated))
        return asked.loops[-1]

    def _named(self, name: str) -> Function:
        start = self.program.address(name)
        function = self.program.function_at(start)
        if function is None or function.start != start:
            raise ProgramError(
                f"{name} is no function with a size in {self.program.path}: in assembler, .type and .size"
            )
        return function

    def _call_of(self, function: Function, thread: int) -> int | None:
        """The first call of a function that the thread reaches from its entry, and not only in a trap handler."""
        judge = Judge(self.flexpret, self.setup, self.image, self.program, self.sources)
        for pc, word in sorted(judge.thread(thread).without_traps.words.items()):
            is_apart = not function.start <= pc < function.end
            if word.comes_back and word.target == function.start and is_apart:
                return pc
        return None

    def _free_word(self, function: Function, thread: int) -> int | None:
        """A word that nothing places, where the thread may fetch, with a free one behind it."""
        owners = {self.setup.region("i_regions", function.start), f"T{thread}", "readonly"}
        free = (
            pc
            for pc in range(self.setup.size - 8, -4, -4)
            if pc not in self.image
            and pc + 4 not in self.image
            and self.setup.region("i_regions", pc) in owners
        )
        return next(free, None)


def look_at_name(
    program: Program, setup: Setup, thread: int | None, option: str, text: str
) -> None:
    """Refuses a name that several addresses have: it says which threads may fetch them, and how to
    choose one."""
    name, _, rest = text.partition("+")
    found = program.named(name)
    if len(found) < 2:
        return
    owners = {at: setup.region("i_regions", at) for at in found}
    own = next((at for at in found if owners[at] == f"T{thread}"), found[0])
    where = " and ".join(f"{at:#x} ({owners[at]})" for at in found)
    chosen = f"{own:#x}+{rest}" if rest else f"{own:#x}"
    raise ProgramError(f"{name} is at {where}: choose by {option} {chosen}, that of {owners[own]}")


def jump_and_link(pc: int, target: int) -> int:
    """The word of `jal x1, target` at an address."""
    way = target - pc
    high, low, middle = way >> 20 & 1, way >> 1 & 0x3FF, way >> 11 & 1
    word = high << 31 | low << 21 | middle << 20 | (way >> 12 & 0xFF) << 12 | 1 << 7 | 0x6F
    assert Word(pc, word).flow is Flow.CALL and Word(pc, word).target == target
    return word


def toml_of(values: Values) -> str:
    """A setup as a TOML document: numbers, texts, truth values and lists, and lists of tables of them."""
    plain = {key: value for key, value in values.items() if not _is_tables(value)}
    lines = [f"{key} = {json.dumps(value)}" for key, value in plain.items() if value != []]
    for name in values.keys() - plain.keys():
        for table in values[name]:
            lines += [
                f"[[{name}]]",
                *(f"{key} = {json.dumps(value)}" for key, value in table.items()),
            ]
    return "\n".join(lines) + "\n"


def _is_tables(value: object) -> bool:
    return isinstance(value, list) and bool(value) and isinstance(value[0], dict)
