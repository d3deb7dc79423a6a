"""Writes addresses as numbers, a line for each.

    fp_addresses [--elf FILE [--setup SETUP] | --map FILE] ADDRESS..

An address is a number, NAME or NAME+NUMBER, with names of an executable, or of a map that fp_asm wrote.
`flexpret bound`, `calls` with --elf or --map call this for --from and --to. With --routines FILE, the
functions of the executable that the section from the first to the second address reaches by calls are
written there, as the command `calls` reads them. With --setup the names count only if the setup's image
was made of the executable, or of the source of the map. Where the source of a map has changed or isn't
there, this is reported. Exit status: 0; 2 where an address isn't known, the image is of another
executable or source, or a file can't be read."""

import os
import sys
from pathlib import Path

from fptools.commands.common import failed, new_parser
from fptools.files.elf import Program, ProgramError
from fptools.files.image import ImageError, read_image
from fptools.files.labels import Mapped, compare_map, named_by
from fptools.files.setup import read_setup
from fptools.files.written import write_whole

NAME = "fp_addresses"


def write_routines(path: Path, program: Program, start: int, end: int) -> None:
    """Writes the list of the functions that a section reaches by calls."""
    from fptools.budget.bounds import called_functions

    functions = called_functions(program.words, program.functions, start, end)
    text = "".join(f"{it.start:08x} {it.end - 4:08x}\n" for it in functions)
    write_whole(path, text.encode("ascii"))


def image_of(setup: Path) -> tuple[dict[int, int], Path] | None:
    """The image of a setup with its name; None where it can't be read, which the program reports."""
    try:
        path = read_setup(setup).image
        return read_image(path), path
    except (OSError, ValueError, LookupError, TypeError, ImageError):
        return None


def look_at_image(program: Program, setup: Path) -> None:
    """The image of a setup is made of the executable."""
    found = image_of(setup)
    other = program.other_word(found[0]) if found else ""
    if other:
        raise ProgramError(
            f"the setup's image isn't made of {program.path}: other words at {other}"
        )


def look_at_map(program: Mapped, setup: Path | None) -> None:
    """The map is of the source of a setup's image. Reports it where they can't be compared; without a setup, where the
    source is newer than the map. `flexpret --quiet` hears no report."""
    source, path = program.source, program.path
    image = image_of(setup) if setup else None
    if image and os.environ.get("FLEXPRET_QUIET"):
        program.look_at(*image)
    elif image:
        compare_map(program, *image, NAME)
    elif source.is_file() and source.stat().st_mtime_ns > path.stat().st_mtime_ns:
        print(
            f"{NAME}: {source.name} is newer than {path.name}: its labels may be elsewhere",
            file=sys.stderr,
        )


def main() -> int:
    parser = new_parser(__doc__, NAME)
    parser.add_argument(
        "address", nargs="+", metavar="ADDRESS", help="a number, NAME or NAME+NUMBER"
    )
    parser.path("--elf", "the executable", "FILE")
    parser.path("--map", "a map that fp_asm wrote", "FILE")
    parser.path("--setup", "the setup whose image has the names", "SETUP")
    parser.path("--routines", "write the functions that the section reaches", "FILE")
    asked = parser.parse_args()
    try:
        program = named_by(asked.elf, asked.map)
        if asked.elf and asked.setup:
            look_at_image(program, asked.setup)
        if isinstance(program, Mapped):
            look_at_map(program, asked.setup)
        addresses = [program.address(text) for text in asked.address]
        if asked.routines:
            if len(addresses) != 2 or not asked.elf:
                raise ProgramError("--routines needs --elf, and the two addresses of a section")
            write_routines(asked.routines, program, *addresses)
    except (OSError, ProgramError) as fault:
        return failed(NAME, fault)
    for address in addresses:
        print(f"{address:#010x}")
    return 0
