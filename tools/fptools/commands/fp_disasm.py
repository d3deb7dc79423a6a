"""Writes an image as a source. The assembler makes the same image of it.

    fp_disasm IMAGE [--elf FILE | --map FILE]

Each line has the instruction, and behind `#` its address and word. A word that is no instruction is a `.word`,
and so is all data. Names come from an executable or from a map that fp_asm wrote; another target of a
jump is called L_ and its address. An image past 16,384 bytes of a scratchpad is shown too, but `asm`
refuses its source. `flexpret disasm IMAGE` calls this. Exit status: 0; 2 where a file can't be read or
is no image, or the image isn't made of the executable."""

import sys

from fptools.commands.common import failed, let_reader_go, new_parser
from fptools.asm.source import disassembled
from fptools.files.elf import ProgramError
from fptools.files.image import ImageError, read_image
from fptools.files.labels import compare_map, named_by, names_at

NAME = "fp_disasm"


def main() -> int:
    parser = new_parser(__doc__, NAME)
    parser.path("image", "the image that was disassembled")
    parser.path("--elf", "the executable that the image was made of", "FILE")
    parser.path("--map", "the map of the source that it was made of", "FILE")
    asked = parser.parse_args()
    try:
        words = read_image(asked.image)
        program = named_by(asked.elf, asked.map)
        if asked.elf and (other := program.other_word(words)):
            raise ProgramError(f"{asked.image} isn't made of {asked.elf}: other words at {other}")
        compare_map(program, words, asked.image, NAME)
        for line in disassembled(words, names_at(program)):
            print(line)
        sys.stdout.flush()
    except BrokenPipeError:
        let_reader_go()
    except (OSError, ImageError, ProgramError) as fault:
        return failed(NAME, fault)
    return 0
