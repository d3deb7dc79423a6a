"""Writes a report of budgets as one HTML file, which needs no network.

    fp_report SETUP BUDGETS --elf ELF -o report.html
    fp_report SETUP [BUDGETS] --elf ELF --all -o report.html

The page has
  - each budget with its bound, the longest execution of a run, the slack and the ratio;
  - what is proved, and what these budgets assume;
  - where each bound goes: a path that costs it, by source line and loop;
  - how long the executions of each section took, and where the longest one spent its cycles;
  - all threads in a window of the run, cycle by cycle;
  - the slots, regions and stacks of the setup, and the waits and traps of the run.

BUDGETS is a file as fp_budget reads it. With --all the page has the periods and stacks of all hard
threads too, with the load of their slots, as `fp_budget --all` has them; budgets.toml next to the
setup is read where no BUDGETS are named. Each thread with a budget runs for --cycles. The window is
around the longest execution of the budget with the least left, unless --window chooses another one.
The same input gives the same bytes.

The pictures are inline SVG by jinja2 and a script of the page's own: the script of Debian 12's
python3-plotly has 8.7 MB, and Vega comes without Vega-Lite, which Altair needs.

Exit status, as of fp_budget: 0 where all budgets hold, 1 where one is over, 2 where one is unknown.
Status 2 with a line on standard error: something can't be read, asked or written. The file stays
as it was."""

import argparse
import os
import sys
from pathlib import Path
from subprocess import SubprocessError

from fptools.commands.common import failed, new_parser
from fptools.budget.files import Verdict, read_budgets
from fptools.files.elf import Program, ProgramError
from fptools.report.findings import NAME, Findings, NoReport, Question
from fptools.limits import MOST_CYCLES
from fptools.report.issues import Span
from fptools.report.page import html_of
from fptools.report.timeline import MOST_WINDOW
from fptools.files.image import ImageError
from fptools.files.lint import read_valid
from fptools.program.calls import HELP, Flexpret, RunFailed
from fptools.files.sources import Sources
from fptools.files.trace_blocks import BrokenTrace
from fptools.budget.whole import budgets_beside
from fptools.files.written import refuse_inputs, write_whole

CYCLES = 1_000_000
FAULTS = (
    *(OSError, ValueError, ImageError, ProgramError),
    *(RunFailed, BrokenTrace, SubprocessError, NoReport),
)


def run_cycles(text: str) -> int:
    """A number of cycles that a run can have, one at least."""
    number = int(text.replace("_", ""), 10)
    if not 1 <= number <= MOST_CYCLES:
        raise ValueError
    return number


def window(text: str) -> Span:
    """A window A:B: from cycle A up to below B."""
    start, _, end = text.partition(":")
    if not start.isdecimal() or not end.isdecimal():
        raise ValueError
    return Span(int(start), int(end))


run_cycles.__name__, window.__name__ = "number of cycles", "window A:B"  # in messages of argparse


def parse() -> argparse.Namespace:
    parser = new_parser(__doc__, NAME)
    add = parser.add_argument
    parser.path("setup", "the setup, whose image is sought as the program seeks it")
    add(
        "budgets",
        type=Path,
        nargs="?",
        help="the sections and their budgets, as fp_budget reads them; with --all they may be left out",
    )
    parser.flag("--all", "the periods and stacks of all hard threads too")
    add(
        "-o",
        dest="out",
        type=Path,
        metavar="FILE",
        required=True,
        help="the file to write; - is refused",
    )
    parser.path("--elf", "the executable that the image was made of, for names and source lines")
    parser.path("--src", "where the sources are, if not where they were compiled", "DIR")
    add(
        "--cycles",
        type=run_cycles,
        default=CYCLES,
        metavar="N",
        help=f"the cycles of the run ({CYCLES})",
    )
    add(
        "--window", type=window, metavar="A:B", help=f"the timeline's cycles, {MOST_WINDOW} at most"
    )
    add("--title", help="the title of the page")
    parser.add_argument("--flexpret", metavar="PROGRAM", help=HELP)
    asked = parser.parse_args()
    if asked.budgets is None and not asked.all:
        parser.error("BUDGETS is missing; without it --all answers for all hard threads")
    return asked


def found_for(asked: argparse.Namespace) -> Findings:
    setup = read_valid(asked.setup)
    asked.budgets = asked.budgets or budgets_beside(asked.setup)
    budgets = read_budgets(asked.budgets, setup.period) if asked.budgets else []
    files = [("setup", asked.setup), ("image", setup.image)]
    if asked.budgets:
        files.append(("budgets", asked.budgets))
    if asked.elf:
        files.append(("executable", asked.elf))
    refuse_inputs(asked.out, [file for _, file in files])
    question = Question(
        Flexpret.named(asked.flexpret),
        setup,
        Program(asked.elf),
        Sources(asked.src),
        asked.cycles,
        asked.window,
        asked.all,
    )
    return question.findings(budgets, files)


def look_at_output(path: Path) -> None:
    """Ends early where the file can't be written, and not after a long run."""
    if str(path) == "-":
        raise NoReport("-o -: name a file, since standard output has the verdicts")
    folder = Path(os.path.realpath(path)).parent
    if path.is_dir():
        raise IsADirectoryError(f"{path} is a folder: it can't be written")
    if not folder.is_dir() or not os.access(folder, os.W_OK):
        raise OSError(f"{path} can't be written: {folder} is no folder that may be written to")


def main() -> int:
    asked = parse()
    try:
        look_at_output(asked.out)
        findings = found_for(asked)
        page = html_of(findings, asked.title or f"Budgets of {asked.setup.name}")
        for it in findings.found:
            print(it.result)
        stacks = [it.stack for it in findings.threads if it.stack]
        for stack in stacks:
            print(stack)
        sys.stdout.flush()
        write_whole(asked.out, page)
    except FAULTS as fault:
        return failed(NAME, fault, Verdict.UNKNOWN)
    except KeyboardInterrupt:
        return failed(NAME, "stopped: nothing was written", Verdict.UNKNOWN)
    verdicts = [*(it.result.verdict for it in findings.found), *(it.verdict for it in stacks)]
    return max(verdicts, default=Verdict.UNKNOWN)
