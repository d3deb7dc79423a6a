"""Shows a window of a run: the view's cycles, with names, source lines, marks, and by threads.

    fp_view SETUP (--from CYCLE --to CYCLE | --around EVENT)
            [--svg FILE | --vcd FILE | --konata FILE]

EVENT is pc=ADDRESS, trap, trap=CAUSE, store=ADDRESS or wait. With ,nth=N it isn't the first one,
and with ,thread=I it is one of that thread. A run of `flexpret` finds its cycle.

MARK is an address, a section A:B, a section with its deadline A:B=CYCLES, or every=NS or
every=NS+START, in nanoseconds. An address is a number, NAME or NAME+NUMBER, with names of --elf or
--map. LIST is as 0,2.

What each cycle does comes of the proved view. What is shown of it here isn't proved, but tested.

Exit status: 0; 1 where the event doesn't come within --within cycles; 2 where an argument is wrong,
or ELF isn't of the image; 8 where FILE can't be written; else that of the view: 3 or 4 for a
refusal, whose line is on standard output, 7 or 9. FILE is written whole or not at all."""

import argparse
import sys
from dataclasses import dataclass
from subprocess import SubprocessError
from typing import Callable, NoReturn

from fptools.commands.common import Parser, failed
from fptools.program.status import CANNOT
from fptools.launch.files import lines
from fptools.launch.view import FORMS, MOST_CYCLE
from fptools.limits import MOST_PICTURE
from fptools.files.elf import Program, ProgramError, other_word
from fptools.files.image import ImageError, read_image
from fptools.files.labels import compare_map, named_by
from fptools.program.calls import HELP, Flexpret, RunFailed
from fptools.files.setup import read_setup
from fptools.files.sources import Sources
from fptools.files.trace_blocks import BrokenTrace
from fptools.view.around import BadEvent, NeverCame, Seeker, wish_of
from fptools.view.drawer import STANDARD_OUTPUT, Look, drawn, put
from fptools.view.marks import BadMark, Mark, mark_of
from fptools.view.names import Names
from fptools.view.picture import MOST_COLUMNS, MOST_ZOOM, Shape
from fptools.view.rows import BEFORE, MOST_WINDOW, THREADS, VIEW_HELP, View, ViewFailed

NAME = "fp_view"
NEVER, UNREADABLE = 1, 7
BEFORE_EVENT, AFTER_EVENT, WITHIN = 20, 60, 1_000_000
FAULTS = (
    *(OSError, ValueError, ImageError, ProgramError, BadEvent, BadMark),
    *(RunFailed, BrokenTrace, SubprocessError),
)


class BadWindow(Exception):
    """This form can't show the selected cycles."""


@dataclass(frozen=True)
class Window:
    """The cycles that are shown: from `first` up to below `end`."""

    first: int
    end: int


def number(least: int, most: int) -> Callable[[str], int]:
    """Reads a decimal number from `least` to `most`."""

    def read(text: str) -> int:
        if not text.isascii() or not text.isdigit() or not least <= int(text) <= most:
            raise argparse.ArgumentTypeError(f"{text!r} is no number from {least} to {most}")
        return int(text)

    return read


def thread_list(text: str) -> list[int]:
    """Threads with commas between them."""
    parts = text.split(",")
    if not all(it in "01234567" and len(it) == 1 for it in parts):
        raise argparse.ArgumentTypeError(f"{text!r} is no list of threads, as 0,2")
    return sorted({int(it) for it in parts})


class OneLine(Parser):
    """Reports the fault of the arguments in one line."""

    def error(self, message: str) -> NoReturn:
        self.exit(CANNOT, f"{NAME}: {message}; --help has the options\n")


def add_forms(parser: Parser) -> None:
    """Adds the options for the form of a view, and for the programs that are called."""
    add = parser.add_argument
    forms = parser.add_mutually_exclusive_group()
    for form, what in zip(FORMS, ("a log", "a dump, for GTKWave", "a picture")):
        forms.add_argument(f"--{form}", metavar="FILE", help=f"{what}; - is standard output")
    add(
        "--zoom",
        type=number(1, MOST_ZOOM),
        metavar="N",
        help="a picture's columns, so many times as wide",
    )
    parser.flag("--stages", "a picture with the stages of each turn")
    add("--view", metavar="PROGRAM", help=VIEW_HELP)
    parser.add_argument("--flexpret", metavar="PROGRAM", help=HELP)


def parse() -> argparse.Namespace:
    parser = OneLine(
        prog=NAME, description=__doc__, formatter_class=argparse.RawDescriptionHelpFormatter
    )
    add = parser.add_argument
    cycle = number(0, MOST_CYCLE)
    parser.path("setup", "the setup, whose image is sought as the program seeks it")
    add("--from", dest="first", type=cycle, metavar="CYCLE", help="the first cycle")
    add("--to", dest="end", type=cycle, metavar="CYCLE", help="the cycle behind the last one")
    add("--around", metavar="EVENT", help="a window around an event, and not by its cycles")
    add("--before", type=cycle, metavar="N", help=f"its cycles before the event ({BEFORE_EVENT})")
    add("--after", type=cycle, metavar="N", help=f"its cycles from the event on ({AFTER_EVENT})")
    add("--within", type=number(1, MOST_CYCLE), metavar="N", help=f"cycles of the run ({WITHIN})")
    parser.path("--elf", "the executable, for symbols and, if it has them, source lines")
    parser.path("--map", "in place of an executable, a map from fp_asm", "FILE")
    parser.path("--src", "where the sources are, if not where they were compiled", "DIR")
    add("--threads", type=thread_list, metavar="LIST", help="the threads that are shown (all)")
    parser.many("--mark", "MARK", "what is marked; may be repeated")
    add_forms(parser)
    asked = parser.parse_args()
    if fault := fault_of(asked):
        parser.error(fault)
    return asked


def fault_of(asked: argparse.Namespace) -> str | None:
    """The options that don't go together, or nothing."""
    is_given = (asked.first is not None, asked.end is not None)
    around = [it for it in ("before", "after", "within") if getattr(asked, it) is not None]
    if asked.around is None and around:
        return f"--{around[0]} is of --around"
    if asked.around is not None and any(is_given):
        return "--around EVENT, or --from CYCLE and --to CYCLE"
    if asked.around is None and not all(is_given):
        return "--from CYCLE and --to CYCLE, or --around EVENT, are missing"
    if asked.around is None and asked.first >= asked.end:
        return f"--from {asked.first} --to {asked.end}: --from is below --to"
    if asked.svg is None and (asked.zoom is not None or asked.stages):
        return f"--{'stages' if asked.stages else 'zoom'} is of --svg"
    more = [it for it in ("elf", "map", "threads", "mark") if getattr(asked, it)]
    return f"--{more[0]} isn't for --konata" if asked.konata is not None and more else None


def look_at_size(asked: argparse.Namespace, window: Window) -> None:
    """Raises `BadWindow` where a window has more cycles than its form may have."""
    cycles, where = window.end - window.first, f"cycles {window.first} to {window.end}"
    if cycles < 1:
        raise BadWindow(f"{where}: --before and --after leave no cycle")
    if asked.svg is not None and (
        cycles > MOST_PICTURE or cycles * (asked.zoom or 1) > MOST_COLUMNS
    ):
        text = f"a picture has at most {MOST_PICTURE} cycles, and {MOST_COLUMNS} by the zoom"
        raise BadWindow(f"{where}: {text}")
    if cycles > MOST_WINDOW:
        raise BadWindow(f"{where}: a window has at most {MOST_WINDOW} cycles")


def window_of(asked: argparse.Namespace, program: Program) -> Window:
    """The selected cycles, or those around an event, as far as a run has them."""
    if asked.around is None:
        return Window(asked.first, asked.end)
    wish = wish_of(asked.around, program)
    within = WITHIN if asked.within is None else asked.within
    seeker = Seeker(Flexpret.named(asked.flexpret), asked.setup, within, NAME)
    cycle = seeker.cycle(wish, program)
    before = BEFORE_EVENT if asked.before is None else asked.before
    after = AFTER_EVENT if asked.after is None else asked.after
    return Window(max(0, cycle - before), min(MOST_CYCLE, cycle + after))


def shown(
    asked: argparse.Namespace, view: View, window: Window, marks: list[Mark], names: Names
) -> list[str]:
    """The lines of the window in the selected form."""
    shape = Shape(asked.threads or THREADS, asked.zoom or 1, asked.stages)
    rows = view.rows(max(0, window.first - BEFORE), window.end)
    look = Look(shape, marks, names, has_additions=True)
    return list(drawn(form_of(asked), rows, window.first, look))


def form_of(asked: argparse.Namespace) -> str:
    return next((form for form in FORMS if getattr(asked, form) is not None), "text")


def made(asked: argparse.Namespace) -> list[str]:
    """The lines of the view. What is wrong with the arguments is found before a long run."""
    program = named_by(asked.elf, asked.map)
    marks = [mark_of(text, program) for text in asked.mark]
    if asked.around is not None:
        wish_of(asked.around, program)
    else:
        look_at_size(asked, window_of(asked, program))
    view = View.named(asked.view, asked.setup)
    if asked.around is not None or asked.elf or asked.map:
        view.look()
    if asked.elf or asked.map:
        name = read_setup(asked.setup).image
        image = read_image(name)
        compare_map(program, image, name, NAME)
        if asked.elf and (other := other_word(program, image)):
            raise ProgramError(other)
    window = window_of(asked, program)
    look_at_size(asked, window)
    return shown(asked, view, window, marks, Names(program, Sources(asked.src)))


def main() -> int:
    asked = parse()
    try:
        text = made(asked)
    except ViewFailed as fault:
        sys.stdout.write(fault.output)
        told = [f"{NAME}: {it}\n" for it in lines([(str(asked.setup), "setup")])]
        sys.stderr.write("".join(told) if fault.status == UNREADABLE else fault.errors)
        return fault.status
    except NeverCame as fault:
        return failed(NAME, fault, NEVER)
    except (BadWindow, *FAULTS) as fault:
        return failed(NAME, fault)
    except KeyboardInterrupt:
        return failed(NAME, "stopped: nothing was written")
    try:
        return put(NAME, getattr(asked, form_of(asked), STANDARD_OUTPUT), text)
    except BrokenPipeError:
        return 0
