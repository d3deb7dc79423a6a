"""Work that a compiler moved out of a section: code of lines between its marks that is issued outside of it.

FP_MARK and FP_KEEP are volatile, and stay where they are; a computation in registers may move across a mark. What isn't
in the section isn't in its bound either. So this is a warning about the marks, and no doubt about the number."""

import re
from dataclasses import dataclass

from fptools.files.elf import ASSEMBLER, Line, Program
from fptools.code.section import Section
from fptools.files.sources import Sources
from fptools.code.thread import Code, reach
from fptools.isa.words import (
    OPCODE_AUIPC,
    OPCODE_IMMEDIATE,
    OPCODE_LUI,
    OPCODE_REGISTERS,
    Flow,
    Word,
)


class NotKnown(Exception):
    """The reason why moved work can't be detected, and a remedy."""


class NoLines(NotKnown):
    """The code has no source lines."""


@dataclass(frozen=True)
class Marks:
    """The source lines of the marks at a section's begin and end."""

    begin: Line
    end: Line

    def are_around(self, line: Line) -> bool:
        return line.file == self.begin.file and self.begin.number < line.number < self.end.number


def moved_word(
    section: Section,
    code: Code,
    program: Program,
    sources: Sources,
    entry: int,
    names: tuple[str, str],
) -> int | None:
    """The first word outside of a section that was compiled from a line between its marks, which are known by names.
    Outside is between its end and its next execution; of a section that isn't executed again, also the code before it,
    from the thread's entry on. A word that gives a register a number is no work. None where there is no such word, as where
    all that is outside only leads to the next execution, or waits. Raises NotKnown."""
    starts = [section.end]
    if not reach(code, starts).has(section.start):
        starts.append(entry)
    outside = sorted(reach(code, starts, [section.start]).words.items())
    work = [word for pc, word in outside if not section.holds(pc) and not _is_number(code, word)]
    is_whole = all(word.flow in (Flow.JUMP, Flow.CALL, Flow.WAIT, Flow.TRAP) for word in work)
    marks = None if is_whole else _marks(section, program, sources, names)
    if marks is None:
        return None
    moved = [word.pc for word in work if any(map(marks.are_around, program.lines_of(word.pc)))]
    if not moved and not program.knows_functions:
        raise NotKnown(
            "which functions were inlined isn't known by this form of DWARF: -gdwarf-4 gives another"
        )
    if not moved:
        _look_at_lines(section, program, work)
    return moved[0] if moved else None


def _look_at_lines(section: Section, program: Program, work: list[Word]) -> None:
    """Each computation outside of a section, in its function, comes of a line: a compiler that joins work of two lines
    may give it none."""
    function = program.function_at(section.start)
    for word in work:
        is_own = function is not None and function.start <= word.pc < function.end
        is_move = word.opcode == OPCODE_IMMEDIATE and word.immediate == 0
        if is_own and word.opcode in (OPCODE_IMMEDIATE, OPCODE_REGISTERS) and not is_move:
            if program.line_of(word.pc) is None:
                where = f"{word.pc:#x} {program.name_of(word.pc)}".rstrip()
                raise NotKnown(f"{where} is outside of it, and comes of no line")


def _marks(
    section: Section, program: Program, sources: Sources, names: tuple[str, str]
) -> Marks | None:
    """The marks of a section; None where it was written in assembler, or ends at a function."""
    if not program.is_compiled or any(it.start == section.end for it in program.functions):
        return None
    around = [line for pc in (*section.reached, section.end) if (line := program.line_of(pc))]
    if not around:
        raise NoLines("the code has no line tables: compile with -g")
    if all(line.file.suffix in ASSEMBLER for line in around):
        return None
    begin, end = (_line_of_mark(program, sources, name) for name in names)
    if begin.file != end.file or begin.number >= end.number:
        raise NotKnown(f"the marks at {begin} and {end} aren't one after the other in one file")
    return Marks(begin, end)


def _line_of_mark(program: Program, sources: Sources, name: str) -> Line:
    """The source line of a mark: the one line with FP_MARK and its name, of those that the executable has. A function's
    name is a mark at its first line."""
    function = next((it for it in program.functions if it.name == name), None)
    line = program.line_of(function.start) if function else None
    if line is not None:
        return line
    mark = re.compile(rf"\bFP_MARK\w*\s*\(\s*{re.escape(name)}\s*[,)]")
    found = {line for line in program.all_lines if mark.search(sources.text(line))}
    if len(found) != 1:
        missing = sources.missing(program.all_lines)
        helps = f"{missing} isn't found: --src" if missing and not found else "one alone has to"
        raise NotKnown(f"{len(found) or 'no'} lines of the sources have FP_MARK({name}): {helps}")
    return found.pop()


def _is_number(code: Code, word: Word) -> bool:
    """Whether a word only gives a register a number, by itself or with the straight code before it."""
    is_plain = word.flow is Flow.NEXT and word.opcode in (
        OPCODE_LUI,
        OPCODE_AUIPC,
        OPCODE_IMMEDIATE,
    )
    return is_plain and code.value_at(word.next, word.rd) is not None
