"""Makes a folder with a new program in C: it builds, runs, and holds its budgets.

    fp_new motor --threads 2
    cd motor && make && make run && make check

FOLDER's name is the program's. It gets a source for each thread (t0_motor.c, ..), start.s,
Makefile, flexpret.h, the linker script flexpret.ld, the setup motor.toml and budgets.toml. The
variable RILLUQAR in the Makefile names the folder of the tools.

Exit status: 0; 2: nothing is written, since the folder exists, the name is none, or a file can't be
written."""

import argparse
import os
import tempfile
from pathlib import Path

from fptools.commands.common import failed, new_parser
from fptools.new.program import BIG, MOST_THREADS, SMALL, New, NotMade

THREADS = 2


def parse() -> argparse.Namespace:
    parser = new_parser(__doc__, "fp_new")
    parser.path("folder", "the folder, which isn't there yet", "FOLDER")
    parser.add_argument(
        "--threads",
        type=int,
        default=THREADS,
        metavar="N",
        help=f"the hard threads, 1 to {MOST_THREADS} ({THREADS})",
    )
    parser.flag(
        "--big", "scratchpads of 64 KiB, 8 KiB for each thread; else 16 and 2 (version = 2)"
    )
    return parser.parse_args()


def make(folder: Path, new: New) -> None:
    """Writes all files, or none. Raises NotMade."""
    if os.path.lexists(folder):
        raise NotMade(f"{folder}: it is there already: give another name")
    if not folder.parent.is_dir():
        raise NotMade(f"{folder}: the folder {folder.parent} isn't there")
    with tempfile.TemporaryDirectory(dir=folder.parent, prefix=f".{new.name}") as made:
        inner = Path(made) / new.name
        inner.mkdir()
        for name, text in new.files().items():
            (inner / name).write_text(text)
        inner.rename(folder)


def main() -> int:
    asked = parse()
    folder = Path(os.path.normpath(asked.folder))
    size = BIG if asked.big else SMALL
    try:
        new = New(folder.name, asked.threads, size)
        make(folder, new)
    except (NotMade, OSError) as fault:
        return failed("fp_new", fault)
    threads = ", ".join(f"T{it}" for it in range(new.threads))
    print(f"{folder}: {threads}, each with {size.short} of code and of data")
    print(f"next: cd {folder} && make && make run && make check")
    return 0
