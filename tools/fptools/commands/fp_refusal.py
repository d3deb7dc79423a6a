"""Explains a refusal line of the program: where it is, and what to do.

    fp_refusal [--setup SETUP] [--file FILE] [--thread I] [--elf FILE | --map FILE] [--src DIR] [LINE]

LINE is `refused source 1 3 UnknownName` and the like; left out, standard input has it. FILE is the
source, the image, the executable or the list of routines that was refused. Addresses get their symbols
and source lines by an executable, or by a map that fp_asm wrote. The script `flexpret` calls this where
the program ends with status 3 to 6 or 10, and shows its output on standard error. Only --elf needs a
package, pyelftools. Exit status: 0; 2 if the line is no refusal, a file that it refers to can't be read,
or the package is missing."""

import sys

from fptools.commands.common import failed, let_reader_go, new_parser
from fptools.files.labels import named_by
from fptools.program.refusals import FAULTS, Context, explain

NAME = "fp_refusal"


def main() -> int:
    parser = new_parser(__doc__, NAME)
    add = parser.add_argument
    add("line", nargs="*", help="the refusal, as one word or as many")
    parser.path("--setup", "the setup of the command")
    parser.path("--file", "the source, image, executable or list of routines")
    parser.thread("the thread of the command")
    parser.path("--elf", "the executable that the image was made of", "FILE")
    parser.path("--map", "the map of the source that it was made of", "FILE")
    parser.path("--src", "where the sources are, if not where they were compiled", "DIR")
    asked = parser.parse_args()
    try:
        context = Context(
            asked.setup, asked.file, named_by(asked.elf, asked.map), asked.src, asked.thread
        )
        for line in explain(" ".join(asked.line) or sys.stdin.readline(), context):
            print(line)
        sys.stdout.flush()
    except BrokenPipeError:
        let_reader_go()
    except FAULTS as fault:
        return failed(NAME, fault)
    return 0
