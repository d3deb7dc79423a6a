"""Rewrites comments `@rounds N` of C sources as the loop marks FP_LOOP and FP_ROUND.

    fp_rewrite_rounds t0_motor.c > new.c        # look at it, and compare: diff t0_motor.c new.c
    fp_rewrite_rounds --in-place t0_*.c

N of a loop without a test in its header, and of a label with a `goto`, becomes N + 1: FP_ROUND also counts
the round that leaves. Macros aren't read.

Exit status: 0; 1: a comment's loop isn't found, and its file stays as it is; 2: a file can't be read or
written."""

import argparse
import sys
from pathlib import Path

from fptools.commands.common import failed, new_parser
from fptools.flow.rounds_to_marks import NoLoop, with_marks
from fptools.files.written import write_whole

NAME = "fp_rewrite_rounds"


def parse() -> argparse.Namespace:
    parser = new_parser(__doc__, NAME)
    parser.add_argument("sources", nargs="+", type=Path, metavar="SOURCE", help="a C source")
    parser.flag("--in-place", "change the files; else write standard output")
    return parser.parse_args()


def main() -> int:
    asked, status = parse(), 0
    for path in asked.sources:
        try:
            # Each byte is a character, so that all of them are kept.
            given = path.read_bytes().decode("latin-1")
            made = with_marks(given)
            if not asked.in_place:
                sys.stdout.buffer.write(made.encode("latin-1"))
                sys.stdout.buffer.flush()
            elif made != given:
                write_whole(str(path), made.encode("latin-1"))
        except NoLoop as why:
            print(f"{NAME}: {path}:{why.line}: {why.why}", file=sys.stderr)
            status = 1
        except OSError as fault:
            return failed(NAME, fault)
    return status
