"""Shows a run of a setup to gdb, forwards and backwards, by gdb's remote protocol on standard input
and output.

  gdb-multiarch own/own.elf -ex 'target remote | tools/fp_gdb own/own.toml --elf own/own.elf'

Threads T0 to T7 are gdb's threads 1 to 8. All that gdb shows comes from `run` and `dump` of the
program; registers and memory can't be written. `monitor help` in gdb lists further commands. Exit
status: 0 gdb has ended the session, or is gone; 2 a file is refused or can't be read, or the
program failed."""

import argparse
import signal
import sys
from contextlib import ExitStack, suppress
from pathlib import Path
from types import FrameType
from typing import Mapping

from fptools.commands.common import failed, new_parser
from fptools.program.status import CANNOT
from fptools.files.elf import Program, ProgramError
from fptools.gdb.machine import MOST_CYCLES, Machine
from fptools.gdb.monitor import Monitor
from fptools.gdb.packets import Connection, Gone
from fptools.gdb.runs import RunFailed
from fptools.gdb.server import NAME, Server, refusal
from fptools.files.image import ImageError, read_image
from fptools.files.lint import read_valid
from fptools.program.calls import HELP, Flexpret

CYCLES = 10_000_000


def parse() -> argparse.Namespace:
    parser = new_parser(__doc__, NAME)
    add = parser.add_argument
    parser.path("setup", "the setup of the run")
    parser.path("--elf", "the executable: compared with the image, and names for monitor", "FILE")
    add("--cycles", type=int, default=CYCLES, metavar="N", help=f"where the run ends ({CYCLES})")
    parser.add_argument("--flexpret", metavar="PROGRAM", help=HELP)
    asked = parser.parse_args()
    if not 1 <= asked.cycles <= MOST_CYCLES:
        parser.error(f"--cycles {asked.cycles}: cycles are 1 to {MOST_CYCLES}")
    return asked


def compared(elf: Path | None, path: Path, image: Mapping[int, int]) -> Program:
    """The executable, which has to have the image's words."""
    program = Program(elf)
    program.names_need = "an executable: start fp_gdb with --elf FILE"
    other = program.other_word(image) if elf else ""
    if other:
        raise ProgramError(f"{other}: {path} isn't made of {elf}: make it again by `flexpret elf`")
    return program


def session(asked: argparse.Namespace, connection: Connection, ends: ExitStack) -> Server:
    """What gdb is to see; all that may be wrong with the files is an exception. `ends` ends the calls
    of the program."""
    setup = read_valid(asked.setup)
    image = read_image(setup.image)
    program = compared(asked.elf, setup.image, image)
    machine = Machine(Flexpret.named(asked.flexpret), setup, image, asked.cycles, connection)
    ends.callback(machine.close)
    return Server(machine, Monitor(machine, program), connection)


def serve(asked: argparse.Namespace, connection: Connection) -> int:
    try:
        with ExitStack() as ends:
            session(asked, connection, ends).serve()
    except (OSError, ValueError, ImageError, ProgramError, RunFailed) as fault:
        print(f"{NAME}: {fault}", file=sys.stderr, flush=True)
        if not sys.stdin.isatty():
            # The first packet gets the reason, too, if there is one.
            with suppress(Gone):
                connection.receive()
                connection.send(refusal(f"{NAME}: {fault}"))
        return CANNOT
    return 0


def end(number: int, frame: FrameType | None) -> None:
    """Ends with this process what it has called."""
    raise Gone


def main() -> int:
    asked = parse()
    for number in (signal.SIGTERM, signal.SIGHUP):
        signal.signal(number, end)
    connection = Connection(sys.stdin.fileno(), sys.stdout.fileno())
    try:
        return serve(asked, connection)
    except (Gone, KeyboardInterrupt):
        return 0
    except RunFailed as fault:
        return failed(NAME, fault)
