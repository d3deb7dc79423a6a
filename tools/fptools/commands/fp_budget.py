"""Compares the bounds of sections with their budgets, for a build, or tells the bound of a function or a period.

    fp_budget SETUP BUDGETS --elf ELF
    fp_budget ELF --setup SETUP --thread 0 --period --ns 20000
    fp_budget ELF --setup SETUP --thread 0 --function step
    fp_budget ELF --setup SETUP --thread 0 --from-label step_begin --to-label step_end --cycles 400
    fp_budget ELF --setup SETUP --all [BUDGETS]

The second form asks from names alone. The loops' tables, the functions that are called and their addresses are taken
from the executable; tables of the setup count only for loops that nothing else bounds. The bound of a
function is from the issue of a call to the issue of the word behind it. --cycles or --ns compares it with a budget.

--period is of a loop that waits: from the moment of a wait to the issue of the next one, whatever the others run. --ns
is what lies between two moments; the code must show no other number. `holds`: no wait is late, under what it assumes.

--all answers for each hard thread of the setup: its periods, its stack, and its budgets. Without BUDGETS these are of
the file budgets.toml next to the setup, if it is there. A period that no budget names is compared with what its code
shows between two moments; where that isn't known, the answer is a plain bound. A table has a row for each thread:

    thread  answer  slots   load  period, cycles  stack, bytes  budgets
    T0      holds   1 of 4  59 %  1164 of 2000    48 of 2,008   1 holds
    T1      holds   1 of 4  -     no loop waits   none          -

The slots are its own ones in a frame. The load is the share of them that a period's bound needs. A soft thread has no
answer but those of its budgets. --assume is of the periods and stacks that no budget names.

BUDGETS is a TOML file of tables:

    [[budget]]
    name = "a step"
    thread = 0
    from = "step_begin"       # a number, NAME or NAME+NUMBER of the executable
    to = "step_end"
    cycles = 400              # or ns = 4000
    calls = true              # left out: false. It calls functions of the executable
    exits = ["stopped0"]      # left out: none. Other addresses where it may end
    assume = ["no traps"]     # left out: nothing. What the result takes for granted, unchecked

    [[budget]]
    name = "the loop"
    thread = 0
    period = "main0"          # the loop that waits in a function, or around an address; in place of from and to
    ns = 20000

A loop of a section needs no table in the setup where the executable bounds it, as --from-label has it.

A budget holds only if nothing stands against it that is known here. It is unknown where
  - the program refuses the section, or the bound is 0;
  - the section or a called function is left by anything but its end, an exit or a return: by a call or jump, ECALL,
    EBREAK or a word without code; where its end isn't reached, or a called function never returns;
  - the image isn't made of the executable;
  - the thread may not fetch it, or doesn't get there from its entry ("reached" assumes that it does);
  - a loop's table is less than the code counts, or than the marks FP_LOOP and FP_ROUND allow where the code doesn't
    count; or neither says anything ("loop tables" assumes the setup's tables); or the code surely goes back more often
    than the marks allow;
  - a trap may come back: a trap handler has an MRET, or leads into the section ("no traps": executions without a trap);
  - a thread with a permit writes slots, modes or regions ("no configuration writes" assumes that none does);
  - nothing tells whether work was moved out of the section: compile with -g ("moved work" assumes that none is). Where
    nothing else is between its end and its next begin, none can be. With -g moved work is a warning;
  - a source isn't the one that the executable was built from: by the checksums of sources and headers that it carries
    in the section .fp_sources, where the Makefile of examples/c built it; without a checksum, if the source is newer
    ("same sources" assumes that its lines are the same);
  - the thread's stack doesn't fit, as fp_stack has it, or nothing shows that it does ("stack fits" assumes it then).

With --path each bound has the path that costs it: its cycles by function and source line, and the rounds of its loops. The
tool finds the path without the program. It shows none where the two numbers differ.

With --runs N each thread runs for N cycles. A budget is over if an execution of the run takes longer, with traps and
detours, also one that hasn't ended. It is unknown if the run breaks a table of its loops, or its bound; if the thread
traps and doesn't come back; or if no execution of the run ended. fp_visits shows all of such a run.

Exit status: 0 where all hold, 1 where one is over, 2 where one is unknown or a file can't be read."""
from __future__ import annotations

import argparse
import sys
import tempfile
from pathlib import Path
from typing import TYPE_CHECKING, Mapping, NoReturn, Sequence

from fptools.commands.common import Parser, failed, new_parser

from fptools.budget.files import (
    Assumption, Budget, PeriodOf, Result, Verdict, read_budgets,
)  # fmt: skip
from fptools.budget.judge import Judge
from fptools.files.elf import Program, ProgramError
from fptools.files.image import ImageError, read_image
from fptools.files.lint import read_valid
from fptools.budget.results import judged
from fptools.budget.names import Names, look_at_name
from fptools.program.calls import HELP, Flexpret, RunFailed
from fptools.files.setup import Setup
from fptools.files.sources import Sources
from fptools.limits import MOST_CYCLES

if TYPE_CHECKING:
    from fptools.budget.whole import ThreadAnswer

QUIET = "bounds hold while no instruction writes slots, modes or regions"


def run_cycles(text: str) -> int:
    """A number of cycles as the command `run` takes it."""
    number = int(text, 10)
    if not 0 <= number <= MOST_CYCLES:
        raise ValueError
    return number


def add_limits(parser: Parser) -> None:
    """Adds the options for what a section of names may take, and what is assumed."""
    most = parser.add_mutually_exclusive_group()
    most.add_argument("--cycles", type=int, metavar="N", help="the most cycles that it may take")
    most.add_argument("--ns", type=int, metavar="N", help="the most nanoseconds that it may take")
    words = [it.value for it in Assumption]
    parser.add_argument(
        "--assume",
        action="append",
        default=[],
        choices=words,
        metavar="WORDS",
        help=f"one of {words}",
    )


def parser_of() -> Parser:
    parser = new_parser(__doc__)
    add = parser.add_argument
    parser.path(
        "file",
        "the setup, whose image is sought as the program seeks it; with --setup the executable",
    )
    add("budgets", type=Path, nargs="?", help="the budgets; with --setup only by --all, or alone")
    parser.path("--elf", "the executable that the image was made of, for names and functions")
    parser.path("--src", "where the sources are, if not where they were compiled", "DIR")
    parser.path("--setup", "the setup, for a bound from names alone")
    parser.thread("the thread that runs it")
    parser.many("--function", "NAME", "a function; may be given several times")
    parser.flag(
        "--period",
        "the period of each loop that waits, from the moment of a wait to the issue of the next one; "
        "with --function of that function's loop; --ns is what lies between two moments",
    )
    parser.flag("--all", "answer for all hard threads: periods, stacks and budgets")
    add(
        "--from-label", metavar="A", help="a section's first address: a number, NAME or NAME+NUMBER"
    )
    add("--to-label", metavar="A", help="the address behind its last")
    add_limits(parser)
    add(
        "--runs",
        type=run_cycles,
        metavar="N",
        help="run each thread for N cycles, and compare the executions too",
    )
    parser.flag("--path", "show where the bound goes: by function, line and loop")
    parser.flag("--json", "write the results as a JSON document")
    parser.path("--junit", "write the results, or the fault, to FILE, as JUnit has them", "FILE")
    parser.add_argument("--flexpret", metavar="PROGRAM", help=HELP)
    return parser


def parse() -> argparse.Namespace:
    """The words of the call, if they ask for one of the two forms."""
    parser = parser_of()
    asked = parser.parse_args()
    refuse(parser, asked)
    return asked


def refuse(parser: Parser, asked: argparse.Namespace) -> None:
    """Ends the call where its words don't go together."""
    has_labels = asked.from_label is not None and asked.to_label is not None
    is_named = asked.function or asked.from_label or asked.to_label or asked.period
    if asked.setup is None:
        if asked.budgets is None:
            stop(parser, "BUDGETS is missing; a bound from names alone needs --setup")
        if is_named or asked.thread is not None or asked.assume or asked.all:
            stop(
                parser,
                "--all, --function, --period, --from-label, --to-label, --thread and --assume go with --setup",
            )
        return
    if asked.elf is not None:
        stop(parser, "with --setup the first word is the executable: leave out --elf")
    if asked.all or asked.budgets is not None:
        if is_named or asked.thread is not None or asked.cycles is not None or asked.ns is not None:
            what = "--all" if asked.all else "BUDGETS"
            stop(parser, f"{what} takes no thread, function, period, label, --cycles and --ns")
        if asked.assume and not asked.all:
            stop(parser, "--assume isn't of BUDGETS: each of these says what it assumes")
        return
    if asked.thread is None:
        stop(parser, "--setup needs --thread")
    if (asked.from_label is None) != (asked.to_label is None):
        stop(parser, "--from-label and --to-label go together")
    if asked.period and (has_labels or asked.cycles is not None):
        stop(
            parser,
            "--period takes neither labels nor --cycles: give --ns, what lies between two moments",
        )
    if not asked.period and bool(asked.function) == has_labels:
        stop(parser, "--setup needs --period, --function, or --from-label and --to-label")
    for name, number in (("--cycles", asked.cycles), ("--ns", asked.ns)):
        if number is not None and number < 1:
            stop(parser, f"{name} {number} is less than 1")


def stop(parser: Parser, why: str) -> NoReturn:
    parser.error(why)


def checked_setup(path: Path) -> Setup:
    """A setup that the program takes. What a permit means for bounds is told."""
    setup = read_valid(path)
    permits = [f"T{it.id}" for it in setup.threads if it.permit]
    if permits:
        print(f"fp_budget: {', '.join(permits)}: a permit; {QUIET}", file=sys.stderr)
    return setup


def of_budgets(asked: argparse.Namespace) -> list[Result]:
    """The results of a file of budgets."""
    judge = judge_of(asked)
    found = [judged(judge, budget) for budget in read_budgets(asked.budgets, judge.setup.period)]
    return with_runs(asked, judge, found)


def judge_of(asked: argparse.Namespace) -> Judge:
    """Asks by the setup, and by the executable, if there is one."""
    setup = checked_setup(asked.setup or asked.file)
    program = Program(asked.file if asked.setup else asked.elf)
    image = image_of(asked, setup, program) if asked.setup else read_image(setup.image)
    flexpret = Flexpret.named(asked.flexpret)
    return Judge(flexpret, setup, image, program, Sources(asked.src), has_paths=asked.path)


def with_runs(asked: argparse.Namespace, judge: Judge, found: list[Result]) -> list[Result]:
    """The results, compared with runs where that is asked for."""
    if asked.runs is None:
        return found
    from fptools.budget.runs import Runs

    return Runs(judge.flexpret, judge.setup, judge.image, judge.program, asked.runs).compared(found)


def of_all(asked: argparse.Namespace) -> tuple[list[Result], list[ThreadAnswer]]:
    """The results for all hard threads, and the answers by threads."""
    from fptools.budget.whole import BUDGETS, Whole, budgets_beside

    judge = judge_of(asked)
    if asked.budgets is None:
        asked.budgets = budgets_beside(asked.setup)
        which = (
            f"those of {asked.budgets}"
            if asked.budgets
            else f"none: no {BUDGETS} is next to the setup"
        )
        print(f"fp_budget: the budgets are {which}", file=sys.stderr)
    budgets = read_budgets(asked.budgets, judge.setup.period) if asked.budgets else []
    whole = Whole(judge, frozenset(map(Assumption, asked.assume)))
    found = with_runs(asked, judge, whole.results(budgets))
    return found, whole.threads(found)


def image_of(asked: argparse.Namespace, setup: Setup, program: Program) -> Mapping[int, int]:
    """The setup's image; if it isn't there, what would be made of the executable."""
    if setup.image.exists():
        return read_image(setup.image)
    if asked.runs is not None:
        raise ValueError(f"{setup.image} isn't there, and --runs needs the setup's image")
    print(
        f"fp_budget: {setup.image} isn't there: the image is made of {asked.file}", file=sys.stderr
    )
    return dict(program.words)


def of_code(asked: argparse.Namespace, names: Names, cycles: int | None) -> list[Result]:
    """The results for functions, or for a section between two labels."""
    assume = frozenset(map(Assumption, asked.assume))
    if asked.function:
        budgets = (Budget(it, asked.thread, 0, 0, cycles, assume=assume) for it in asked.function)
        return [names.function(it.name, it) for it in budgets]
    start, end = asked.from_label, asked.to_label
    name = f"{start} to {end}"
    return [names.section(Budget(name, asked.thread, start, end, cycles, True, assume=assume))]


def of_names(asked: argparse.Namespace) -> list[Result]:
    """The results from names alone."""
    setup, program = checked_setup(asked.setup), Program(asked.file)
    options: dict[str, list[str | None]] = {
        "--function": asked.function,
        "--from-label": [asked.from_label],
        "--to-label": [asked.to_label],
    }
    for option, given in options.items():
        for name in filter(None, given):
            look_at_name(program, setup, asked.thread, option, name)
    image = image_of(asked, setup, program)
    cycles = asked.ns // setup.period if asked.ns is not None else asked.cycles
    flexpret, sources = Flexpret.named(asked.flexpret), Sources(asked.src)
    with tempfile.TemporaryDirectory() as folder:
        names = Names(flexpret, setup, image, program, sources, Path(folder), asked.path)
        if asked.period:
            from fptools.period.periods import results_of

            judge = Judge(flexpret, setup, image, program, sources, has_paths=asked.path)
            found = [
                it for budget in period_budgets(asked, cycles) for it in results_of(judge, budget)
            ]
        else:
            found = of_code(asked, names, cycles)
    if asked.runs is None:
        return found
    from fptools.budget.runs import Runs

    return Runs(flexpret, setup, image, program, asked.runs, True, bool(asked.function)).compared(
        found
    )


def period_budgets(asked: argparse.Namespace, cycles: int | None) -> list[Budget]:
    """A budget for the loops of each function that is named, or for all loops that wait."""
    assume = frozenset(map(Assumption, asked.assume))
    return [
        Budget(
            f"period of {name}" if name else "period",
            asked.thread,
            0,
            0,
            cycles,
            True,
            (),
            assume,
            PeriodOf(name, asked.ns),
        )
        for name in asked.function or [None]
    ]


def inputs_of(asked: argparse.Namespace) -> list[Path | None]:
    """The files that a call reads."""
    named = [asked.file, asked.budgets, asked.elf, asked.setup]
    try:
        return [*named, read_valid(asked.setup or asked.file).image]
    except (OSError, ValueError):
        return named


def write(
    asked: argparse.Namespace,
    found: list[Result],
    fault: str | None = None,
    threads: Sequence[ThreadAnswer] = (),
) -> int:
    """Writes the results, or what stood against them, and answers the exit status."""
    stacks = [it.stack for it in threads if it.stack]
    try:
        if fault is not None:
            print(f"fp_budget: {fault}", file=sys.stderr)
        if asked.junit:
            from fptools.budget.reports import junit
            from fptools.files.written import refuse_inputs, write_whole

            refuse_inputs(asked.junit, inputs_of(asked))
            write_whole(asked.junit, junit(found, (asked.setup or asked.file).name, fault, stacks))
        if asked.json:
            write_json(found, fault, threads if asked.all else None)
        elif asked.all and fault is None:
            write_all(found, threads)
        else:
            write_text(found, asked.setup is not None and asked.budgets is None)
        sys.stdout.flush()
        notes = [(str(it.budget), it.note) for it in found]
        for what, note in [*notes, *((f"T{it.thread} stack", it.note) for it in stacks)]:
            if note:
                print(f"fp_budget: {what}: {note}", file=sys.stderr)
        if fault is None and (old := old_comment(asked)):
            print(f"fp_budget: {old}", file=sys.stderr)
    except (OSError, ValueError) as failure:
        return failed("fp_budget", failure, Verdict.UNKNOWN)
    verdicts = [*(it.verdict for it in found), *(it.verdict for it in stacks)]
    return max(verdicts, default=Verdict.UNKNOWN)


def write_json(
    found: list[Result], fault: str | None, threads: Sequence[ThreadAnswer] | None
) -> None:
    """The results as a JSON document, with the threads where all of them are asked for."""
    from fptools.budget.reports import as_json

    fields = None
    if threads is not None:
        from fptools.budget.whole_text import threads_fields

        fields = threads_fields(threads)
    print(as_json(found, fault, fields))


def write_all(found: list[Result], threads: Sequence[ThreadAnswer]) -> None:
    """The table of threads, and a line for each answer."""
    from fptools.budget.whole_text import table_of

    print(*table_of(threads), "", sep="\n")
    for it in threads:
        write_text([one for one in found if one.budget.thread == it.table.id], False)
        if it.stack:
            print(it.stack)
    known = {it.table.id for it in threads}
    write_text([it for it in found if it.budget.thread not in known], False)


def old_comment(asked: argparse.Namespace) -> str:
    """What to write instead of a comment that nothing reads, if a source has one. Where lines can't be read, none is known."""
    try:
        program = Program(asked.elf if asked.setup is None else asked.file)
        return Sources(asked.src).old_comment(program.all_lines) if program.path else ""
    except ProgramError:
        return ""


def write_text(found: list[Result], has_parts: bool) -> None:
    """A line for each result; from names alone also what was taken for it."""
    for result in found:
        print(result)
        for text in [
            *(f"calls {it}" for it in result.functions),
            *(f"loop {it}" for it in result.loops),
            *([f"stack {result.stack.shown}"] if result.stack else []),
        ] * has_parts:
            print(f"         {text}")
        if result.path:
            from fptools.budget.path_facts import path_text

            print(*(f"         {text}" for text in path_text(result.path)), sep="\n")


def main() -> int:
    asked = parse()
    threads: list[ThreadAnswer] = []
    try:
        if asked.all:
            found, threads = of_all(asked)
        elif asked.setup is None or asked.budgets is not None:
            found = of_budgets(asked)
        else:
            found = of_names(asked)
    except (OSError, ValueError, ImageError, ProgramError, RunFailed) as fault:
        return write(asked, [], str(fault))
    return write(asked, found, None, threads)
