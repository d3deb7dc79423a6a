"""Draws a window of cycles in a form, and writes it."""
from __future__ import annotations

import sys
from dataclasses import dataclass
from typing import Iterable, Iterator, Sequence

from fptools.files.elf import Program
from fptools.files.sources import Sources
from fptools.files.written import write_whole
from fptools.program.status import Status
from fptools.view.dump import Additions, dump_of
from fptools.view.konata import log_of
from fptools.view.marks import Mark
from fptools.view.names import Names
from fptools.view.picture import Picture, Shape
from fptools.view.rows import THREADS, Row
from fptools.view.text import text_of

STANDARD_OUTPUT = "-"


@dataclass(frozen=True)
class Look:
    """What is drawn of a window. `has_additions`: a dump has more than the machine's signals."""

    shape: Shape = Shape(THREADS)
    marks: Sequence[Mark] = ()
    names: Names = Names(Program(), Sources(None))
    has_additions: bool = False


def drawn(form: str, rows: Iterable[Row], first: int, look: Look = Look()) -> Iterator[str]:
    """The lines of a window from a cycle on. `rows` may have the four cycles before it."""
    shape, marks, names = look.shape, look.marks, look.names
    if form == "svg":
        yield Picture(list(rows), first, shape, marks, names).text().removesuffix("\n")
    elif form == "konata":
        yield from log_of((row for row in rows if row.cycle >= first), first)
    elif form == "vcd" and not look.has_additions:
        yield from dump_of(rows, first)
    else:
        rows = list(rows)
        own = [row for row in rows if row.cycle >= first]
        if form == "vcd":
            yield from dump_of(rows, first, Additions(own, shape.threads, marks, names))
        else:
            yield from text_of(own, shape.threads, marks, names)


def put(script: str, name: str, lines: Iterable[str]) -> int:
    """Writes lines to a file, whole or not at all, or to standard output. Returns the status. A
    reader that stops is a `BrokenPipeError`."""
    data = (f"{line}\n".encode() for line in lines)
    try:
        if name != STANDARD_OUTPUT:
            write_whole(name, data)
        else:
            with open(1, "wb", closefd=False) as out:
                out.writelines(data)
    except BrokenPipeError:
        raise
    except OSError as fault:
        where = "standard output" if name == STANDARD_OUTPUT else name
        print(f"{script}: {where} can't be written: {fault.strerror}", file=sys.stderr)
        return Status.WRITE
    return Status.OK
