"""Tells whether the stack of each thread fits.

    fp_stack ELF --setup SETUP [--thread 0]

A line for each thread of the setup:

    holds    T0 stack: 48 of 2,008 bytes: main0 (32) > step (16)

The first number is the most bytes that sp gets below the number to which the entry's code sets it,
by the calls of the code, with the trap handlers on top. The second one is the room: the bytes down
to the nearest data, in the thread's own regions. Then come the functions that lead there, each with
its own bytes.

It is unknown, with the word and its source line, where
  - calls lead back to their function, or a call or jump goes through a register whose value isn't
    known;
  - sp gets a value that isn't known, as by alloca, an array of variable length or an aligned one,
    or isn't the same
    on each path;
  - a return may find sp or x1 otherwise than at the call;
  - a trap handler traps by intent, doesn't give its stack back, or changes where it comes back to;
  - the stack is in a shared region, where other threads may store.

It assumes that stores by pointers leave saved registers of the stack as they are: no store beyond
an array. Data are sections of the executable, and fixed addresses that the code loads from or
stores to. What else is assumed comes on standard error.

Exit status: 0 where all fit, 1 where one doesn't, 2 where one is unknown or a file can't be
read."""

import argparse
import sys
from pathlib import Path

from fptools.commands.common import failed, new_parser
from fptools.budget.files import Verdict
from fptools.files.elf import Program, ProgramError, other_word
from fptools.files.image import ImageError, read_image
from fptools.files.lint import read_valid
from fptools.stack.reports import stacks_as_json
from fptools.stack.stacks import Stack, Stacks


def parse() -> argparse.Namespace:
    parser = new_parser(__doc__)
    add = parser.add_argument
    parser.path("elf", "the executable that the setup's image was made of")
    add("--setup", type=Path, required=True, help="the setup")
    parser.thread("only this thread")
    parser.flag("--json", "write the results as a JSON document")
    return parser.parse_args()


def found_for(asked: argparse.Namespace) -> list[Stack]:
    """The stacks of the threads. Raises where they can't be read."""
    setup, program = read_valid(asked.setup), Program(asked.elf)
    tables = [it for it in setup.threads if asked.thread in (None, it.id)]
    if not tables:
        whose = "a thread" if asked.thread is None else f"thread {asked.thread}"
        raise ValueError(f"{asked.setup}: no [[thread]] table of {whose}: it doesn't run")
    if setup.image.exists():
        image = read_image(setup.image)
    else:
        print(
            f"fp_stack: {setup.image} isn't there: the image is made of {asked.elf}",
            file=sys.stderr,
        )
        image = dict(program.words)
    if other := other_word(program, image):
        raise ValueError(other)
    stacks = Stacks(setup, image, program)
    return [stacks.of(it) for it in tables]


def main() -> int:
    asked = parse()
    try:
        found = found_for(asked)
        print(stacks_as_json(found)) if asked.json else print(*found, sep="\n")
        sys.stdout.flush()
    except (OSError, ValueError, ImageError, ProgramError) as fault:
        return failed("fp_stack", fault, Verdict.UNKNOWN)
    for stack in found:
        for note in stack.notes:
            print(f"fp_stack: T{stack.thread}: {note}", file=sys.stderr)
    return max(it.verdict for it in found)
