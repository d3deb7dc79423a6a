"""Writes the loops of a section or a function of an executable as tables for a setup, and where the section is left.

A loop's bound is how often it goes back, at most, each time that it is entered. It comes from the code, where a loop
counts with numbers, and from the marks FP_LOOP and FP_ROUND of the source. The table has `?` with the reason where
neither bounds the loop, and where the code surely goes back more often than the marks allow. So it has where code that
isn't looked at may come back to it: what is behind a jump or call out of the section. With --calls the functions that
are called are looked at too, and their loops follow.

Source lines, in comments and reasons, need -g.

Exit status: 0 where each loop has its bound and the section is left at its end alone, 1 otherwise, also where a source
isn't the one that the executable was built from; 2 where a file can't be read, an address isn't known, or the image of --setup isn't made
of the executable."""

import argparse
import sys
from pathlib import Path

from fptools.commands.common import failed, new_parser
from fptools.files.elf import Program, ProgramError, other_word
from fptools.files.image import ImageError, read_image
from fptools.flow.inference import Inference, StatedLoop
from fptools.files.lint import read_valid
from fptools.flow.tables import is_whole, table, ways_out
from fptools.code.section import Section, walk, walk_all
from fptools.files.sources import Sources


def parse() -> argparse.Namespace:
    parser = new_parser(__doc__)
    add = parser.add_argument
    parser.path("elf", "the executable")
    add(
        "--from",
        dest="start",
        required=True,
        metavar="A",
        help="the first address: a number, NAME or NAME+NUMBER",
    )
    add(
        "--to",
        dest="end",
        metavar="A",
        help="the address behind the last; left out: the function of --from, which is left by its returns",
    )
    parser.flag("--calls", "calls of functions come back, as for the command `calls`")
    parser.path("--setup", "the setup that the tables are for: its image has to be made of ELF")
    parser.path("--src", "where the sources are, if not where they were compiled", "DIR")
    return parser.parse_args()


def parts_of(asked: argparse.Namespace, program: Program) -> list[Section]:
    """The section or function, and with --calls the functions that it calls, by their addresses."""
    start = program.address(asked.start)
    function = program.function_at(start)
    if asked.end is None and function is None:
        raise ProgramError(f"{asked.start} is in no function, so --to is needed")
    end = program.address(asked.end) if asked.end else function.end if function else start
    is_function = asked.end is None
    if not asked.calls:
        return [walk(program.words, start, end, is_function=is_function)]
    return walk_all(program.words, start, end, program.functions, is_function)


def look_at_image(program: Program, setup: Path | None) -> None:
    """The image of a setup is made of the executable."""
    if setup and (other := other_word(program, read_image(read_valid(setup).image))):
        raise ProgramError(other)


def write(parts: list[Section], stated: list[list[StatedLoop]], inference: Inference) -> None:
    program = inference.program
    for loops in stated:
        for loop in loops:
            print(table(loop, program))
    for part in parts:
        if part is not parts[0]:
            print(f"# called: {program.name_of(part.start)}")
        for line in ways_out(part, program):
            print(line)
    for mark in inference.unreached(parts):
        print(
            f"# {inference.where(mark.at)}: {mark.kind.value} of {mark.claim}: no path leads here"
        )


def main() -> int:
    asked = parse()
    try:
        program = Program(asked.elf)
        look_at_image(program, asked.setup)
        parts, sources, inference = parts_of(asked, program), Sources(asked.src), Inference(program)
        found = inference.state(parts, [it.start for it in program.functions])
        stated = [[loop for of, loop in found if of is part] for part in parts]
        write(parts, stated, inference)
        known = {line for part in parts for pc in part.reached if (line := program.line_of(pc))}
        sources.look_at(known)
        other, old = sources.other_than(program), sources.old_comment(known)
    except (OSError, ValueError, ImageError, ProgramError) as fault:
        return failed("fp_loops", fault)
    if other:
        print(f"fp_loops: {other}: build it again by `make`", file=sys.stderr)
    if old:
        print(f"fp_loops: {old}", file=sys.stderr)
    is_known = not inference.unreached(parts)
    return 0 if all(map(is_whole, parts, stated)) and is_known and not other else 1
