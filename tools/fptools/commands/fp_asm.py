"""Writes a listing and a map of a source of the assembler, whose image is there.

    fp_asm SOURCE IMAGE [--listing FILE] [--map FILE]

A listing has for each line of the source its number, address, word and text, and the labels behind them. A
map has a line for each line of the source that has labels or places words: the address, the number of the
line, and the labels. fp_visits, fp_disasm, fp_addresses and fp_refusal read it. `-` is standard output.

`flexpret asm SOURCE -o IMAGE --listing FILE --map FILE` calls this once the program has written the
image. Both files are written whole or not at all. Exit status: 0; 2 where a file can't be read or
written, the source has a fault, or the image has other words than the source."""

import sys
from pathlib import Path
from typing import Iterable

from fptools.commands.common import failed, new_parser
from fptools.asm.places import SourceFault
from fptools.asm.source import listing, map_lines, read_source
from fptools.files.image import ImageError, read_image
from fptools.files.written import write_whole

NAME = "fp_asm"


def write(path: Path, lines: Iterable[str]) -> None:
    """Writes a file whole, or leaves what was there."""
    text = "".join(f"{line}\n" for line in lines)
    if str(path) == "-":
        sys.stdout.write(text)
        sys.stdout.flush()
        return
    write_whole(path, text.encode())


def main() -> int:
    parser = new_parser(__doc__, NAME)
    parser.path("source", "the assembly source")
    parser.path("image", "what the program made of it")
    parser.path("--listing", "where the listing is written", "FILE")
    parser.path("--map", "where the map of addresses is written", "FILE")
    asked = parser.parse_args()
    try:
        source = read_source(asked.source)
        if source.words != read_image(asked.image):
            raise ImageError(f"{asked.image} has other words than {asked.source}: make it again")
        if asked.listing:
            write(asked.listing, listing(source))
        if asked.map:
            write(asked.map, map_lines(source, asked.map.parent))
    except SourceFault as fault:
        return failed(NAME, f"{asked.source}:{fault.line}: {fault.code.name}")
    except (OSError, ImageError) as fault:
        return failed(NAME, fault)
    return 0
