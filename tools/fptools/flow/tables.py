"""The loops of a section as tables for a setup, and how the section is left."""

from typing import Iterator, Sequence

from fptools.files.elf import Program
from fptools.flow.inference import StatedLoop
from fptools.code.section import Section


def table(stated: StatedLoop, program: Program) -> str:
    """The table of a loop for a setup; one without a bound has `?` in its place, which no setup takes."""
    loop = stated.loop
    line = program.line_of(max(loop.backs))
    where = f"{program.name_of(loop.head)} to {program.name_of(loop.last)}" + (
        f", {line}" if line else ""
    )
    source = f": {stated.source}" if stated.bound is not None else ""
    bound = f"?  # {stated.doubt}" if stated.bound is None else f"{stated.bound}"
    return f"[[loop]]  # {where}{source}\nhead = {loop.head:#x}\nlast = {loop.last:#x}\nbound = {bound}\n"


def ways_out(section: Section, program: Program) -> Iterator[str]:
    """How the section is left, a line for each edge."""
    for way in section.ways_out:
        to = "" if way.to is None else f" to {way.to:#x} {program.name_of(way.to)}".rstrip()
        yield f"# {way.word.pc:#x} {program.name_of(way.word.pc)}{to}: {way.exit.value}"


def is_whole(section: Section, loops: Sequence[StatedLoop]) -> bool:
    """Whether every loop has its bound and the section is only left as intended."""
    only_end = all(way.exit is section.way_of_end for way in section.ways_out)
    return section.ends and only_end and all(it.bound is not None for it in loops)
