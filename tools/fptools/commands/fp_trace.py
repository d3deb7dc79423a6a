"""Shows a trace of `flexpret run` with nanoseconds, the cycles since the event before, symbols,
instructions and source lines; only the selected events, if there is a selection.

An address is a number, NAME or NAME+NUMBER, with names from the executable or a map. Options that ask
for events add up; those for cycles narrow them, and nothing behind --to is read. Of a wait whose moment
had passed the effect says how late it was; of a DU that needs --setup. Instructions are shown by an
objdump for RISC-V, if one is installed, else as words. --json writes a line for each event, --csv a row.
Exit status: 0; 2 where a file can't be read, an address isn't known, or the trace or the setup's image is
of another program than the executable; 3 where a line is no event: those before it are shown."""

import argparse
import sys
from pathlib import Path
from subprocess import SubprocessError

from fptools.commands.common import Parser, failed, let_reader_go, new_parser
from fptools.files.trace_blocks import Block, BrokenTrace, Live, Progress, Source, TraceReader
from fptools.isa.disassembly import Disassembler, find_tool
from fptools.files.elf import Program, ProgramError, other_word
from fptools.files.image import ImageError, read_image
from fptools.files.labels import compare_map, named_by
from fptools.files.lint import read_valid
from fptools.files.setup import Setup
from fptools.view.events import CSV, JSON, TEXT, Columns, Filter, Form, Wanted
from fptools.files.sources import Sources
from fptools.isa.turns import Turns, turns_of
from fptools.visits.waits import WaitJudge

NAME = "fp_trace"
BROKEN_TRACE = 3
DEFAULT_PERIOD = 10
MOST_STORED = 0xFFFF_FFFF


def stored(text: str) -> int:
    """The address of a word of --store."""
    try:
        address = int(text, 0)
    except ValueError:
        address = -1
    if not 0 <= address <= MOST_STORED:
        raise ValueError(f"--store {text}: give a number from 0 to {MOST_STORED:#x}, as 0x40000000")
    return address


def add_events(parser: Parser) -> None:
    """Adds the options that select events."""
    add = parser.add_argument
    add("--from", dest="start", type=int, default=0, metavar="C", help="events from this cycle on")
    add(
        "--to",
        dest="end",
        type=int,
        metavar="C",
        help="events before this cycle; the rest isn't read",
    )
    parser.many("--pc", "A", "events at this address")
    parser.many("--function", "A", "events in the function of this address")
    parser.many("--store", "N", "stores to this number, as 0x40000000")
    parser.flag("--traps", "traps")
    parser.flag("--waits", "each DU that goes on, and each WU")
    parser.flag("--overruns", "waits whose moment had passed")


def parse() -> argparse.Namespace:
    parser = new_parser(__doc__, NAME)
    add = parser.add_argument
    add("trace", nargs="?", type=Path, help="a file; left out, standard input")
    parser.path("--setup", "the setup of the run, for its period and the thread's turns")
    parser.thread("the thread, where the setup has more than one")
    parser.period(DEFAULT_PERIOD)
    parser.path(
        "--elf", "the executable, for symbols and, if it was compiled with -g, source lines"
    )
    parser.path(
        "--map", "the map of a source (flexpret asm --map), for labels and source lines", "FILE"
    )
    parser.path("--src", "where the sources are, if not where they were compiled", "DIR")
    add("--objdump", default=find_tool(), metavar="TOOL", help="the objdump to use")
    add_events(parser)
    forms = parser.add_mutually_exclusive_group()
    forms.add_argument(
        "--json",
        dest="form",
        action="store_const",
        const=JSON,
        default=TEXT,
        help="a line of JSON for each event",
    )
    forms.add_argument(
        "--csv", dest="form", action="store_const", const=CSV, help="a row for each event"
    )
    return parser.parse_args()


def turns(setup: Setup | None, thread: int | None) -> Turns | None:
    """The turns of a thread, or of the setup's only one."""
    ids = [it.id for it in setup.threads] if setup else []
    own = thread if thread is not None else ids[0] if len(ids) == 1 else None
    return None if setup is None or own is None else turns_of(setup, own)


class Comparison:
    """Compares the words of a trace with those of an executable, as far as they are new."""

    def __init__(self, program: Program, is_wanted: bool) -> None:
        self._program, self.is_wanted = program, is_wanted
        self._compared: set[int] = set()

    def look_at(self, words: dict[int, int]) -> None:
        if not self.is_wanted or len(words) == len(self._compared):
            return
        for pc in words.keys() - self._compared:
            if words[pc] and self._program.words.get(pc, 0) != words[pc]:
                text = "has another word: names and lines are of another program"
                raise ProgramError(f"{pc:#x}: {self._program.path} {text}")
        self._compared = set(words)


class Shower:
    """Shows a trace, block by block."""

    def __init__(self, asked: argparse.Namespace) -> None:
        self._setup = read_valid(asked.setup) if asked.setup else None
        self._period: int = self._setup.period if self._setup else asked.period or DEFAULT_PERIOD
        self._turns = turns(self._setup, asked.thread)
        program = named_by(asked.elf, asked.map)
        if self._setup and (asked.elf or asked.map) and self._setup.image.exists():
            image = read_image(self._setup.image)
            compare_map(program, image, self._setup.image, NAME)
            if asked.elf and (other := other_word(program, image)):
                raise ProgramError(other)
        self._comparison = Comparison(program, asked.elf is not None)
        self._disassembler = Disassembler(asked.objdump)
        self._form = Form(
            Columns(program, self._disassembler, Sources(asked.src)), self._period, asked.form
        )
        stores = [stored(text) for text in asked.store]
        self._filter = Filter(
            Wanted(asked.pc, asked.function, stores, asked.traps, asked.waits, asked.overruns),
            program,
        )
        self._start, self._end = asked.start, asked.end

    def show(self, source: Source, name: str) -> None:
        # Lines on a terminal are progress enough.
        progress = None if sys.stdout.isatty() else Progress(NAME, self._end)
        reader = TraceReader(source, name, self._start, self._end, progress)
        judge = WaitJudge(reader, self._turns, self._period)
        header, learned = self._form.header, 0
        if header and not self._comparison.is_wanted:
            print(header, flush=True)
            header = ""
        for block in reader.blocks():
            self._comparison.look_at(reader.words)
            if header:
                print(header)
                header = ""
            if len(reader.words) > learned:
                learned = len(reader.words)
                self._disassembler.learn(reader.words)
            sys.stdout.write(self._shown(block, judge))
            sys.stdout.flush()
        if header:
            print(header)

    def _shown(self, block: Block, judge: WaitJudge) -> str:
        """The lines of a block."""
        waits = list(judge.judged(block))
        late = {it.place: it.late(self._period) for it in waits if it.is_overrun(self._period)}
        indexes = self._filter.indexes(block, waits, self._period)
        lines = self._form.lines(block, indexes, late)
        return "\n".join(lines) + "\n" if lines else ""


def main() -> int:
    asked = parse()
    try:
        shower = Shower(asked)
        if asked.trace:
            with asked.trace.open("rb", buffering=0) as source:
                shower.show(source, str(asked.trace))
        elif sys.stdin.isatty():
            raise ValueError("no trace: name a file, or pipe one in")
        else:
            shower.show(Live(sys.stdin.fileno()), "standard input")
    except BrokenPipeError:
        let_reader_go()
    except BrokenTrace as fault:
        return failed(NAME, fault, BROKEN_TRACE)
    except KeyboardInterrupt:
        return BROKEN_TRACE
    except (OSError, ValueError, SubprocessError, ImageError, ProgramError) as fault:
        return failed(NAME, fault)
    return 0
