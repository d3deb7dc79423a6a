"""Orders the blocks of compiled functions so that `bound` and `calls` take them.

Reads the assembly that gcc or clang writes for RV32IM with -S, at any level of optimisation. In the output each loop is
an interval that is entered at its first word. All code that the mark NAME_begin reaches before NAME_end (FP_MARK) is
between the two, so nothing leaves the section. Blocks are moved, branches inverted, jumps added or omitted, and calls
written as one word.

    gcc=riscv64-unknown-elf-gcc
    $gcc .. -O2 -fno-jump-tables -fno-optimize-sibling-calls -fno-reorder-blocks-and-partition -fno-ipa-icf \\
        -S -o x.s x.c
    fp_layout x.s -o x.laid.s
    $gcc .. -c -o x.o x.laid.s

The loop marks FP_LOOP and FP_ROUND become records in the section `.fp_flow`. A mark keeps its `nop` where a
jump leads right behind it, or where an asm beside it has more than plain instructions and labels.

Each instruction keeps its source line, its call frame, its scopes and the places of its variables, so a debugger shows
the values that it would show in the compiler's order.

A function stays as it is if it has an unknown instruction, a jump through a register, or a jump in an asm. Standard
error says which and why.

Exit status: 0: all functions are laid out. 1: a function stays as it is. 2: nothing is written, since marks cross a
loop or are there twice, a loop mark can't be read, the input isn't a compiler's assembly for RV32IM, or a file can't
be read or written."""

import argparse
import sys
from pathlib import Path

from fptools.commands.common import failed, new_parser
from fptools.layout.assembly import Assembly, Fault, source_of
from fptools.layout.layout import MOST_COPIES, Marks, Message, Options, lay_out
from fptools.files.written import write_whole

ROTATE = 4
"""The most instructions of a test that --rotate copies, without a number."""


def section(text: str) -> Marks:
    first, colon, end = text.partition(":")
    if not colon or not first or not end:
        raise argparse.ArgumentTypeError(f"{text!r} isn't of the form A:B")
    return Marks(first, end)


def count(text: str) -> int:
    if not text.isdecimal() or len(text) > 9:
        raise argparse.ArgumentTypeError(f"{text!r} is no number of instructions")
    return int(text)


def parse() -> argparse.Namespace:
    parser = new_parser(__doc__)
    add = parser.add_argument
    add("source", nargs="?", default="-", help="the assembly; `-`, or left out: standard input")
    add("-o", dest="out", metavar="FILE", help="where it is written; left out: standard output")
    add(
        "--section",
        action="append",
        type=section,
        default=[],
        metavar="A:B",
        help="the marks of a section, where their names aren't NAME_begin and NAME_end",
    )
    add(
        "--rotate",
        nargs="?",
        type=count,
        const=ROTATE,
        default=0,
        metavar="N",
        help=f"copy a loop's test of at most N instructions ({ROTATE}) to its end, where that saves a jump each round",
    )
    add(
        "--copies",
        type=count,
        default=MOST_COPIES,
        metavar="N",
        help=f"copy at most N instructions ({MOST_COPIES}) of a function, for loops with several entries",
    )
    return parser.parse_args()


def say(name: str, lines: list[str], message: Message) -> None:
    """Writes a message with its place in the assembly, and in the source where that is known."""
    source = source_of(lines, message.line)
    where = f"{name}:{message.line}" if message.line else name
    print(f"fp_layout: {where}: {source}{': ' if source else ''}{message.text}", file=sys.stderr)


def read(source: str) -> str:
    """The text of a file. Each byte is a character, so that all of them are kept."""
    data = sys.stdin.buffer.read() if source == "-" else Path(source).read_bytes()
    if b"\0" in data:
        raise Fault(0, "it is no text: fp_layout reads what gcc or clang writes with -S")
    return data.decode("latin-1")


def write(out: str | None, text: str) -> None:
    """Writes standard output, or a file: all of it, or nothing."""
    data = text.encode("latin-1")
    if out is None or out == "-":
        sys.stdout.buffer.write(data)
        sys.stdout.buffer.flush()
        return
    write_whole(out, data)


def main() -> int:
    asked = parse()
    name = "standard input" if asked.source == "-" else asked.source
    lines: list[str] = []
    try:
        text = read(asked.source)
        lines = text.split("\n")
        laid = lay_out(Assembly(text), Options(tuple(asked.section), asked.rotate, asked.copies))
        write(asked.out, laid.text)
    except Fault as fault:
        say(name, lines, Message(fault.line, fault.why))
        return 2
    except OSError as fault:
        return failed("fp_layout", fault)
    for message in [*laid.notes, *laid.kept]:
        say(name, lines, message)
    return 1 if laid.kept else 0
