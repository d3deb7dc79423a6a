"""Measures executions of sections and functions in a run, and compares them with bounds, budgets and loop
tables.

The run is TRACE, a file that `flexpret run` wrote; without TRACE, standard input; with --cycles, a run of
the setup. Sections are those of --budgets, --section and --function; with --elf and none of these, all
functions. An address is a number, NAME or NAME+NUMBER.

An execution of a section is counted as its bound counts it: from an issue of its first word to the first
issue outside, at its end or an exit (docs/BOUNDS.md, "What the number means"). Functions that it calls
belong to it (calls = true, --calls, --routines). If the word at its end is a DU, the DU's first try counts.
A function is counted from the issue of its call to that of the word after the call. `ratio` is the longest
of these over the bound.

A bound ends at a trap, and where the section is left for another address. Such an execution goes on here
until the section ends. It has a line of its own, and counts for the budget. So does one that hasn't ended.

A loop counts how often it goes back to its head, each time that it is entered, as `bound` in its table
does. With --elf a claim of FP_LOOP counts the passes of its FP_ROUND between two passes of FP_LOOP. An overrun is a wait (DU, WU) whose moment had passed at its first try.

A run may say nothing good of a section, though no execution that ended took too long. That is UNKNOWN
where
  - the thread trapped in it and didn't come back, by the end of the run or until the section began again;
  - the thread trapped since the last execution, and stands still, or is away for longer than from any
    begin to the next;
  - with a budget: it was left and began again, or has no execution that ended.
It is OVER where the time passed is above the budget. The last execution, which the end of a run cuts, is
neither, unless it took longer than its budget by then. These lines come first.

Exit status: 0; 1 if the run broke a loop's table, a claim, a budget or a bound; 2 if a section is UNKNOWN, if
something can't be read or asked, or if the trace or the setup's image is of another program or thread;
3 if a line of the trace is broken, or Ctrl-C came: the lines before it count."""

import argparse
import json
import sys
import tempfile
from dataclasses import replace
from pathlib import Path


from fptools.commands.common import Parser, failed, let_reader_go, new_parser
from fptools.program.status import CANNOT
from fptools.files.trace_blocks import Live, Progress, TraceReader
from fptools.budget.bounds import called_functions, with_bound
from fptools.budget.files import Budget, Result, Verdict, read_budgets
from fptools.budget.judge import Judge
from fptools.budget.names import look_at_name
from fptools.visits.claims import marks_for
from fptools.files.elf import Function, ProgramError, other_word
from fptools.flow.records import Marks
from fptools.files.image import ImageError, read_image
from fptools.files.labels import compare_map, named_by
from fptools.files.lint import read_valid
from fptools.visits.observed import (
    DEFAULT_PERIOD,
    Observation,
    Question,
    observe,
    question_of,
    run_and_observe,
)
from fptools.visits.text import Text, as_csv, as_data
from fptools.period.runs import PeriodRuns
from fptools.budget.results import judged, names_of
from fptools.program.calls import HELP, Flexpret, RunFailed
from fptools.budget.reports import data_of
from fptools.files.setup import Setup
from fptools.files.sources import Sources
from fptools.limits import MOST_CYCLES
from fptools.visits.seen import Watched
from fptools.untyped import Values

NAME = "fp_visits"
BROKE, BROKEN_TRACE = 1, 3
THREADS = range(8)


class Unclear(Exception):
    """The arguments are ambiguous or incomplete."""


def cycles(text: str) -> int:
    number = int(text.replace("_", ""), 10)
    if not 0 <= number <= MOST_CYCLES:
        raise ValueError
    return number


def add_sections(parser: Parser) -> None:
    """Adds the options that name sections, and what is known of them."""
    parser.path("--budgets", "sections and their budgets, as fp_budget reads them", "FILE")
    parser.many("--section", "[NAME=]A:B", "the section from A up to below B")
    parser.many("--function", "A", "the function at this address")
    parser.path("--elf", "the executable that the image was made of, for names and functions")
    parser.path(
        "--map", "the map of the source that it was made of (flexpret asm --map), for names", "FILE"
    )
    parser.flag("--calls", "the sections of --section call functions of the executable")
    parser.path(
        "--routines",
        "they call these: lines of a first and a last word, as for the command calls",
        "FILE",
    )
    parser.flag("--no-bounds", "don't ask the program for bounds")


def parse() -> argparse.Namespace:
    parser = new_parser(__doc__, NAME)
    add = parser.add_argument
    add(
        "trace",
        nargs="?",
        type=Path,
        help="a file; left out, standard input; with --cycles the setup, if --setup isn't given",
    )
    parser.path("--setup", "the setup of the run: its loop tables, slots, period and image")
    parser.period(DEFAULT_PERIOD)
    add("--cycles", type=cycles, metavar="N", help="run the setup for N cycles")
    parser.thread("the thread, 0 to 7; left out, those of the budgets, or the only one")
    add_sections(parser)
    add(
        "--from",
        dest="start",
        type=cycles,
        default=0,
        metavar="C",
        help="events from this cycle on",
    )
    add(
        "--to",
        dest="end",
        type=cycles,
        metavar="C",
        help="events before this cycle; the rest isn't read",
    )
    parser.flag("--json", "write JSON")
    parser.flag("--csv", "write a row for each section")
    parser.add_argument("--flexpret", metavar="PROGRAM", help=HELP)
    asked = parser.parse_args()
    refuse(parser, asked)
    return asked


def refuse(parser: Parser, asked: argparse.Namespace) -> None:
    """Ends the call where its arguments don't go together. With --cycles the first one is the setup."""
    if asked.cycles is not None and asked.setup is None:
        asked.setup, asked.trace = asked.trace, None
    if asked.cycles is not None and (asked.trace or not asked.setup):
        parser.error("--cycles runs a setup: it needs one, and no trace")
    if asked.budgets and not asked.setup:
        parser.error("--budgets needs --setup, for the period and the bounds")
    if asked.json and asked.csv:
        parser.error("--json or --csv, not both")


class Asked:
    """The task of the arguments, with the files in them."""

    def __init__(self, asked: argparse.Namespace) -> None:
        self.options = asked
        self.program = named_by(asked.elf, asked.map)
        self.flexpret = Flexpret.named(asked.flexpret, bool(asked.cycles))
        self.setup: Setup | None = None
        self.code: dict[int, int] = {}
        if asked.setup:
            self.setup = read_valid(asked.setup)
            if not self.setup.image.exists():
                text = "isn't there: it is sought from the folder of the call"
                raise Unclear(f"{self.setup.image}, the image of {asked.setup}, {text}")
            self.code = read_image(self.setup.image)
            if asked.elf and (other := other_word(self.program, self.code)):
                raise Unclear(other)
            compare_map(self.program, self.code, self.setup.image, "fp_visits")
        elif asked.elf:
            self.code = self.program.words

    def _address(self, value: int | str) -> int:
        return value if isinstance(value, int) else self.program.address(value)

    def _called(self, start: int, end: int) -> tuple[tuple[int, int], ...]:
        return tuple(
            (it.start, it.end)
            for it in called_functions(self.code, self.program.functions, start, end)
        )

    def _of_budgets(self) -> list[tuple[int, Watched]]:
        assert self.setup
        found = []
        for it in read_budgets(self.options.budgets, self.setup.period):
            if it.period is not None:
                continue
            start, end = self._address(it.start), self._address(it.end)
            exits = frozenset(self._address(address) for address in it.exits)
            routines = self._called(start, end) if it.calls else ()
            found.append(
                (it.thread, Watched(it.name, start, end, routines, exits, budget=it.cycles))
            )
        return found

    def periods(self) -> list[Result]:
        """The results for the periods among the budgets, compared with a run if there is one."""
        if self.setup is None or not self.options.budgets:
            return []
        budgets = read_budgets(self.options.budgets, self.setup.period)
        own = [it for it in budgets if it.period and self.options.thread in (None, it.thread)]
        judge = Judge(self.flexpret, self.setup, self.code, self.program)
        found = [judged(judge, it) for it in own]
        if self.options.cycles is None:
            return found
        marks = marks_for(self.program, self.code) if self.options.elf else None
        runs = PeriodRuns(self.flexpret, self.setup, self.options.cycles, NAME, marks)
        ran = runs.compared(found)
        return [ran.get(at, it) for at, it in enumerate(found)]

    def _of_option(self, text: str) -> Watched:
        name, _, addresses = text.rpartition("=")
        first, _, last = addresses.partition(":")
        if not first or not last:
            raise Unclear(f"--section {text}: a section is A:B or NAME=A:B")
        start, end = self._address(first), self._address(last)
        if end <= start:
            raise Unclear(f"--section {text}: its end {end:#x} isn't above its begin {start:#x}")
        routines = self._called(start, end) if self.options.calls else ()
        if self.options.routines:
            routines = read_routines(self.options.routines)
        return Watched(name or addresses, start, end, routines)

    def _of_function(self, text: str) -> Watched:
        if self.setup is not None:
            look_at_name(self.program, self.setup, self.options.thread, "--function", text)
        return watched_function(self.program.function(text))

    def watched(self) -> dict[int | None, list[Watched]]:
        """The sections and functions by thread, with their bounds."""
        options = self.options
        of_thread: dict[int | None, list[Watched]] = {}
        for thread, it in self._of_budgets() if options.budgets else []:
            if options.thread in (None, thread):
                of_thread.setdefault(thread, []).append(it)
        others = [*map(self._of_option, options.section), *map(self._of_function, options.function)]
        if not of_thread and not others and options.elf:
            others = [watched_function(it) for it in self.program.functions]
        if others or not of_thread:
            of_thread.setdefault(self._thread(list(of_thread)), []).extend(others)
        return {thread: self._bounded(thread, found) for thread, found in of_thread.items()}

    def _thread(self, of_budgets: list[int | None]) -> int | None:
        """The thread of sections that no budget has."""
        if self.options.thread is not None:
            return int(self.options.thread)
        if len(of_budgets) == 1:
            return of_budgets[0]
        if self.setup is None:
            return None
        ids = [it.id for it in self.setup.threads]
        if len(ids) == 1:
            return ids[0]
        raise Unclear("--thread is needed: the setup has more than one")

    def _bounded(self, thread: int | None, found: list[Watched]) -> list[Watched]:
        if self.setup is None or thread is None or self.options.no_bounds:
            return [replace(it, doubt="not asked for") for it in found]
        ask = self.flexpret, self.setup.path, thread
        bounded = [with_bound(*ask, it, self.code, self.program.functions) for it in found]
        return [it if it.bound is not None else self._by_names(thread, it) for it in bounded]

    def _by_names(self, thread: int, watched: Watched) -> Watched:
        """A section or function with its bound as fp_budget has it: by the loop tables that it makes
        of the executable."""
        assert self.setup
        if self.program.path is None:
            return watched
        start, end = (0, 0) if watched.is_function else (watched.start, watched.end)
        exits = tuple(sorted(watched.exits))
        budget = Budget(watched.name, thread, start, end, None, bool(watched.routines), exits)
        judge = Judge(self.flexpret, self.setup, self.code, self.program)
        with tempfile.TemporaryDirectory() as folder:
            names = names_of(judge, Path(folder))
            try:
                found = (
                    names.function(f"{watched.start:#x}", budget)
                    if watched.is_function
                    else names.section(budget)
                )
            except ProgramError:
                return watched
        if found.bound is None or found.verdict is not Verdict.HOLDS:
            return watched
        return replace(watched, bound=found.bound, doubt="")

    def observed(self) -> list[Observation]:
        watched = self.watched()
        if self.options.cycles is None and len(watched) > 1:
            threads = " and ".join(f"T{it}" for it in watched)
            raise Unclear(f"the budgets have {threads}, and a trace is of one: --thread says which")
        return [self._observed(thread, found) for thread, found in watched.items()]

    def _observed(self, thread: int | None, found: list[Watched]) -> Observation:
        options = self.options
        marks = marks_for(self.program, self.code) if options.elf else None
        period = options.period or DEFAULT_PERIOD
        question = Question(thread, found, code=self.code, period=period, marks=marks)
        if self.setup is not None and thread is not None:
            question = question_of(self.setup, thread, found, self.code, marks)
        if options.cycles is not None:
            assert self.setup
            return run_and_observe(
                self.flexpret,
                self.setup,
                question,
                options.cycles,
                options.start,
                options.end,
                NAME,
            )
        name = str(options.trace) if options.trace else "standard input"
        progress = Progress(NAME, options.end)
        if not options.trace and sys.stdin.isatty():
            raise Unclear("no trace: name a file, pipe one in, or run the setup by --cycles")
        if not options.trace:
            return observe(
                TraceReader(Live(sys.stdin.fileno()), name, options.start, options.end, progress),
                question,
            )
        with options.trace.open("rb", buffering=0) as source:
            return observe(
                TraceReader(source, name, options.start, options.end, progress), question
            )


def watched_function(function: Function) -> Watched:
    return Watched(function.name, function.start, function.end, is_function=True)


def read_routines(path: Path) -> tuple[tuple[int, int], ...]:
    """The routines of a file, each by its first address and the one behind its last word."""
    found = []
    for number, line in enumerate(path.read_text(encoding="ascii").splitlines(), 1):
        parts = line.split()
        try:
            head, last = (int(part, 16) for part in parts)
        except ValueError as fault:
            raise Unclear(
                f"{path}:{number}: a line is the addresses of a first and a last word, as 00000100 00000104"
            ) from fault
        found.append((head, last + 4))
    return tuple(found)


def status_of(seen: list[Observation]) -> int:
    if any(it.foreign for it in seen):
        return CANNOT
    if any(it.doubts and not it.broken for it in seen):
        return CANNOT
    if any(it.breaks for it in seen):
        return BROKE
    return BROKEN_TRACE if any(it.broken for it in seen) else 0


def remarks(seen: list[Observation]) -> list[str]:
    """The lines for standard error."""
    lines = []
    for it in seen:
        marks = it.question.marks or Marks()
        unused = [
            f"{claim} isn't compared with the run: {why}"
            for claim, why in sorted(marks.unused.items())
        ]
        texts = (it.broken, it.foreign, marks.fault, *unused)
        lines += [text for text in texts if text and text not in lines]
        thread = "" if it.question.thread is None else f"T{it.question.thread} "
        # Of all functions of an executable, most threads run a few.
        never = [
            one.watched.name
            for one in it.executions
            if not one.count and not one.watched.is_function and one.watched.budget is None
        ]
        lines += [f"{thread}{name}: no execution in these cycles" for name in never]
    return lines


def write(asked: Asked, seen: list[Observation], status: int, periods: list[Result]) -> None:
    text = Text(asked.program)
    if asked.options.csv:
        print(as_csv(seen), end="")
    elif asked.options.json:
        document: Values = {
            "setup": str(asked.options.setup) if asked.options.setup else None,
            "threads": [as_data(it, text) for it in seen],
            "status": status,
        }
        if periods:
            document["periods"] = [data_of(it) for it in periods]
        print(json.dumps(document, indent=2))
    else:
        unended = [text.unknown(it, one) for it in seen for one in it.doubts]
        unended += [text.broken(it, one) for it in seen for one in it.breaks if one.doubt]
        for line in [*map(str, periods), *unended]:
            print(line)
        for index, it in enumerate(seen):
            print("\n" * bool(index or unended or periods), end="")
            for line in text.lines(it):
                print(line)
        breaks = [text.broken(it, one) for it in seen for one in it.breaks if not one.doubt]
        print("\n" * bool(breaks), end="")
        for line in breaks:
            print(line)
    sys.stdout.flush()
    for line in remarks(seen):
        print(f"{NAME}: {line}", file=sys.stderr)


def look_at_sources(asked: Asked) -> None:
    """Says which source isn't the one that the executable was built from."""
    other = Sources(None).other_than(asked.program) if asked.options.elf else ""
    if other:
        print(f"{NAME}: {other}: build it again by `make`", file=sys.stderr)


def main() -> int:
    options = parse()
    try:
        asked = Asked(options)
        seen, periods = asked.observed(), asked.periods()
        status = max(status_of(seen), *(it.verdict for it in periods), 0)
        write(asked, seen, status, periods)
        look_at_sources(asked)
    except BrokenPipeError:
        let_reader_go()
        return 0
    except (OSError, ValueError, ImageError, ProgramError, RunFailed, Unclear) as fault:
        return failed(NAME, fault)
    return status
