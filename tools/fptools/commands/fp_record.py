"""Makes traces of the signals that a core showed, or compares them with the definition.

    fp_record RECORD --thread I [--cycles N] > TRACE
    fp_record RECORD --compare SETUP --cycles N [--elf FILE | --map FILE]

RECORD is a CSV file with a row for each cycle or event, or a value change dump whose name ends
with .vcd. Its signals are cycle, valid, thread, pc, word, rd, value, size, address, data,
csr_write, csr, trap, cause, target and sleep: docs/FLEXPRET.md has their meaning. --signal gives
one of them the file's own name.

--compare prints `same` or `differs` for each thread with events. A confined hard thread is compared
by `check`, unless a thread has a permit; the others are compared with `run`. A difference has the
lines before it, both lines with their instructions, and the cycles around it in the view, if the
view is built. Else it has the command of the view.

Exit status: 0 the trace is written, or all threads are the same; 1 a thread differs; 2 wrong
arguments, a record that can't be read, with its line, or a setup that the program refuses."""

import argparse
import os
import sys
import tempfile
from pathlib import Path
from typing import Iterator, Mapping, Sequence

from fptools.commands.common import failed, let_reader_go, new_parser
from fptools.core.compared import THREADS, Compared, CompareFailed, Comparer, Difference, split
from fptools.isa.disassembly import Disassembler, find_tool
from fptools.files.elf import Program, ProgramError
from fptools.files.labels import named_by
from fptools.files.lint import read_valid
from fptools.program.calls import HELP, Flexpret
from fptools.core.records import RETIRES, SIGNALS, RecordError, read_record
from fptools.files.setup import Setup
from fptools.files.toml import TomlError
from fptools.limits import MOST_CYCLES
from fptools.view.rows import HEAD, VIEW_BESIDE, VIEW_HELP, View, ViewFailed

NAME = "fp_record"
DIFFERS = 1
BEFORE = 4  # lines before a difference
VIEWED_BEFORE, VIEWED_AFTER = 4, 6  # cycles of the view before a difference, and from it on
BUILT_VIEW = VIEW_BESIDE.parent / "crates/flexpret_view/out/flexpret_view"


def cycles(text: str) -> int:
    """A number of cycles, as `run` takes them."""
    if not (text.isascii() and text.isdigit() and int(text) <= MOST_CYCLES):
        raise argparse.ArgumentTypeError(f"{text!r} is no number up to {MOST_CYCLES}")
    return int(text)


def renamed(text: str) -> tuple[str, str]:
    """A signal and its name in the file."""
    name, equals, theirs = text.partition("=")
    if name not in SIGNALS or not equals or not theirs:
        listed = ", ".join(SIGNALS)
        raise argparse.ArgumentTypeError(f"{text!r} is no NAME=THEIRS; the signals are {listed}")
    return name, theirs


def parse() -> argparse.Namespace:
    parser = new_parser(__doc__, NAME)
    add = parser.add_argument
    parser.path("record", "the recorded signals", "RECORD")
    parser.thread("writes the trace of this thread")
    parser.path("--compare", "compares all threads with a run of SETUP", "SETUP")
    add("--cycles", type=cycles, metavar="N", help="the cycles that were recorded")
    add(
        *("--signal", "-s"),
        type=renamed,
        action="append",
        default=[],
        metavar="NAME=THEIRS",
        help="the name of a signal in RECORD, in VCD also with scopes",
    )
    parser.path("--elf", "names of addresses from the executable", "FILE")
    parser.path("--map", "names of addresses from a map (asm --map)", "FILE")
    parser.add_argument("--flexpret", metavar="PROGRAM", help=HELP)
    add("--view", metavar="PROGRAM", help=VIEW_HELP)
    given = parser.parse_args()
    if (given.thread is None) == (given.compare is None):
        parser.error("give either --thread or --compare")
    if given.compare and given.cycles is None:
        parser.error("--compare needs --cycles")
    return given


def write_trace(given: argparse.Namespace, names: Mapping[str, str]) -> None:
    """Writes the trace of a thread, as far as the record is good."""
    for event in read_record(given.record, names):
        is_retired = given.cycles is None or event.cycle + RETIRES < given.cycles
        if event.thread == given.thread and is_retired:
            sys.stdout.write(event.line())
    sys.stdout.flush()


class Shower:
    """Shows comparisons."""

    def __init__(self, setup: Setup, program: Program, view: str | None) -> None:
        self._setup, self._program = setup, program
        self._disassembler = Disassembler(find_tool())
        built = str(BUILT_VIEW) if os.access(BUILT_VIEW, os.X_OK) else None
        self._view = view or os.environ.get("FLEXPRET_VIEW") or built

    def show(self, compared: Compared) -> None:
        """Prints a comparison."""
        found, events = compared.difference, f"{compared.events} events"
        if found is None:
            print(f"same: T{compared.thread}: {events}, by {compared.how.value}")
            return
        place = f"line {found.line}, cycle {found.cycle}"
        print(f"differs: T{compared.thread}: {place}, of {events}, by {compared.how.value}")
        for line in self._lines(found):
            print(f"  {line}".rstrip())
        print()
        for line in self._viewed(found.cycle):
            print(f"  {line}".rstrip())

    def _lines(self, found: Difference) -> Iterator[str]:
        self._disassembler.learn(dict(map(place, lines_of(found))))
        for line in found.before:
            yield f"{'':9}{self._decoded(line)}"
        yield f"{'defined':9}{self._decoded(found.defined)}"
        yield f"{'recorded':9}{self._decoded(found.recorded)}"

    def _decoded(self, line: str | None) -> str:
        """A line of a trace with its instruction and the name of its pc."""
        if line is None:
            return "no further event"
        pc, word = place(line)
        text = self._disassembler.text(pc, word) if word else "an expiry or a refused fetch"
        named = self._program.name_of(pc)
        return f"{line:<60} {text}{f'  ({named})' if named else ''}"

    def _viewed(self, cycle: int) -> Sequence[str]:
        """The cycles around one in the view, or the command that shows them."""
        first, end = max(0, cycle - VIEWED_BEFORE), cycle + VIEWED_AFTER
        if self._view is None:
            where = f"{self._setup.path} --from {first} --to {end}"
            return [f"the cycles around it: ./flexpret-view turns {where}"]
        rows = View.named(self._view, self._setup.path).rows(first, end)
        return [HEAD, *(row.line for row in rows)]


def place(line: str) -> tuple[int, int]:
    """The pc and the word of a line."""
    return int(line[11:19], 16), int(line[20:28], 16)


def lines_of(found: Difference) -> list[str]:
    """All lines that a difference has."""
    return [*found.before, *(it for it in (found.defined, found.recorded) if it is not None)]


def compare(given: argparse.Namespace, names: Mapping[str, str]) -> int:
    """Compares all threads, and returns the status."""
    setup, program = read_valid(given.compare), named_by(given.elf, given.map)
    shower = Shower(setup, program, given.view)
    comparer = Comparer(Flexpret.named(given.flexpret), setup, given.cycles, BEFORE)
    status = 0
    with tempfile.TemporaryDirectory() as folder:
        traces = Path(folder)
        counts = split(read_record(given.record, names), given.cycles, traces)
        for thread in THREADS:
            compared = comparer.compare(thread, traces / str(thread), counts[thread])
            if compared.events or compared.difference:
                shower.show(compared)
            status = DIFFERS if compared.difference else status
    return status


def main() -> int:
    given = parse()
    names = dict(given.signal)
    try:
        if given.compare:
            return compare(given, names)
        write_trace(given, names)
    except BrokenPipeError:
        let_reader_go()
    except ViewFailed as fault:
        return failed(NAME, f"the view: {(fault.output or fault.errors).strip()}")
    except (OSError, RecordError, TomlError, ProgramError, CompareFailed, ValueError) as fault:
        return failed(NAME, fault)
    return 0
