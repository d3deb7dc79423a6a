"""Writes the evidence for budgets into a folder, for whoever has to argue safety.

    fp_evidence ELF --setup SETUP --budgets BUDGETS -o FOLDER

FOLDER gets
  - index.html: one page to read, without a script and without network;
  - evidence.json: the answers, as fp_budget --json has them, and where they come from;
  - definitions.txt: every definition that the promises stand on, as the sources have it now;
  - inputs/: copies of setup, image, budgets and executable;
  - sources.sha256, SHA256SUMS: checksums of the program's sources, and of the files of this folder.

The page has the answers; commit, kit, program and checksums; each promise with its clauses, and how
many lines of definitions are to be read for it; what is trusted; what these budgets, periods and
stacks assume; what you must check; what the last ./test of this checkout recorded; and comparisons
with tools that others made. It says how to repeat each.

It is no certificate, no qualification kit and no safety manual. The same input gives the same
bytes. It needs this repository, whose sources it quotes. A folder that is there is only replaced if
an earlier call wrote it.

    fp_evidence --read

writes a checksum for each promise, by which a test notices that a sentence has to be read again.

Exit status, as of fp_budget: 0 where all budgets hold, 1 where one is over, 2 where one is unknown,
or a file can't be read or written: then the folder stays as it was."""

import argparse
import shlex
import sys
from pathlib import Path
from subprocess import SubprocessError

from fptools.commands.common import failed, new_parser
from fptools.budget.files import Result, Verdict, read_budgets
from fptools.budget.runs import Runs
from fptools.budget.judge import Judge
from fptools.files.elf import Program, ProgramError, other_word

from fptools.evidence.evidence import (
    Evidence,
    Input,
    NoClause,
    comparisons_of,
    gate_record,
    origin_of,
    promises_of,
    read_data,
)
from fptools.evidence.folder import files_of, look_at_output, write_folder
from fptools.files.image import ImageError, read_image
from fptools.files.lint import read_valid
from fptools.budget.results import judged
from fptools.program.calls import HELP, Flexpret, RunFailed
from fptools.files.setup import Setup
from fptools.files.sources import Sources

NAME = "fp_evidence"
FAULTS = (
    *(OSError, ValueError, ImageError, ProgramError, NoClause),
    *(RunFailed, SubprocessError),
)


def parse() -> argparse.Namespace:
    parser = new_parser(__doc__, NAME)
    add = parser.add_argument
    add("elf", type=Path, nargs="?", help="the executable that the image was made of")
    parser.path("--setup", "the setup, whose image is sought as the program seeks it")
    parser.path("--budgets", "the budgets, as fp_budget reads them")
    add("-o", dest="out", type=Path, metavar="FOLDER", help="the folder to write")
    add(
        "--runs",
        type=int,
        metavar="N",
        help="run each thread for N cycles, and compare the executions too",
    )
    parser.path("--src", "where the sources are, if not where they were compiled", "DIR")
    add("--title", help="the title of the page")
    parser.flag("--read", "write the checksums of the promises, and nothing else")
    parser.add_argument("--flexpret", metavar="PROGRAM", help=HELP)
    asked = parser.parse_args()
    if not asked.read:
        for name in ("elf", "setup", "budgets", "out"):
            if getattr(asked, name) is None:
                parser.error(f"{'-o FOLDER' if name == 'out' else name.upper()} is missing")
    return asked


def inputs_of(asked: argparse.Namespace, setup: Setup) -> tuple[Input, ...]:
    """The files that are read, with the names of their copies."""
    files = {
        "setup": ("setup.toml", asked.setup),
        "image": ("image.fpx", setup.image),
        "budgets": ("budgets.toml", asked.budgets),
        "executable": ("program.elf", asked.elf),
    }
    return tuple(
        Input(what, f"inputs/{copy}", str(name), name.read_bytes())
        for what, (copy, name) in files.items()
    )


def found_for(asked: argparse.Namespace) -> Evidence:
    """Asks for the bounds, and collects what they stand on."""
    setup, values = read_valid(asked.setup), read_data()
    image, program = read_image(setup.image), Program(asked.elf)
    if other := other_word(program, image):
        raise ValueError(other)
    flexpret, inputs = Flexpret.named(asked.flexpret), inputs_of(asked, setup)
    judge = Judge(flexpret, setup, image, program, Sources(asked.src))
    results = [judged(judge, it) for it in read_budgets(asked.budgets, setup.period)]
    if asked.runs is not None:
        results = Runs(flexpret, setup, image, program, asked.runs, name=NAME).compared(results)
    recorded = sorted(
        (name, total) for name, totals in (program.record or {}).items() for total in totals
    )
    return Evidence(
        origin_of(flexpret),
        inputs,
        command_of(asked),
        setup,
        tuple(results),
        tuple(judge.stacks.all()),
        tuple(recorded),
        tuple(promises_of(values)),
        tuple((it["what"], it["why"]) for it in values["trusted"]),
        tuple(comparisons_of(values)),
        gate_record(),
    )


def command_of(asked: argparse.Namespace) -> str:
    """The call, as it can be repeated. Its page is the same in each folder, so that the bytes of two can be compared."""
    words = [
        "tools/fp_evidence",
        str(asked.elf),
        "--setup",
        str(asked.setup),
        "--budgets",
        str(asked.budgets),
    ]
    for option, value in (("--runs", asked.runs), ("--src", asked.src), ("--title", asked.title)):
        words += [option, str(value)] if value is not None else []
    return shlex.join([*words, "-o", "FOLDER"])


def main() -> int:
    asked = parse()
    results: tuple[Result, ...] = ()
    try:
        if asked.read:
            print(*(f"{it.digest}  {it.name}" for it in promises_of(read_data())), sep="\n")
            return 0
        look_at_output(asked.out)
        evidence = found_for(asked)
        results = evidence.results
        write_folder(
            asked.out,
            files_of(evidence, asked.title or f"Evidence for the budgets of {asked.setup.name}"),
        )
        print(*results, sep="\n")
        sys.stdout.flush()
    except FAULTS as fault:
        return failed(NAME, fault, Verdict.UNKNOWN)
    return max((it.verdict for it in results), default=Verdict.UNKNOWN)
