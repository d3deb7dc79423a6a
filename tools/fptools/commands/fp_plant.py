"""Runs a setup with a plant of your own, in any language, at the port of a thread.

  tools/fp_plant SETUP --thread 0 --every 100 --cycles 160000 -o a.trace -- python3 plant.py

Each N cycles of --every the plant reads a line `CYCLE WORD` from standard input, and writes a line
`WORD` to standard output: docs/PLANTS.md has the rules. The trace of the thread goes to standard
output or to -o. --check runs the words once more as a recorded plant, by the proved loop, and
compares the traces.

Exit status: 0 the run is whole; 1 the plant ended, answered no word, or gave no answer in time;
2 wrong arguments or files, or nothing could be run; 3 --check found another trace; 130 an
interrupt. Both processes are ended in every case."""

import argparse
import hashlib
import os
import signal
import subprocess
import sys
import tempfile
from contextlib import ExitStack
from pathlib import Path
from types import FrameType
from typing import BinaryIO, Callable, NoReturn

from fptools.commands.common import Parser, failed, let_reader_go
from fptools.checkout import TOOLS, TOP
from fptools.files.lint import read_valid
from fptools.devices.plant_runs import (
    PROGRAM,
    NotRun,
    Parted,
    PlantFailed,
    PlantRun,
    Put,
    replayed,
    run_plant,
)
from fptools.files.toml import TomlError
from fptools.limits import MOST_CYCLES

FAILED, DIFFERS, INTERRUPTED = 1, 3, 130
SIGNALS = (signal.SIGINT, signal.SIGTERM, signal.SIGHUP)
LAUNCH = TOOLS / "fp_launch"
MOST_LIST = 1 << 26
"""The most bytes that the program reads of a list of plants."""


def number(least: int, most: int) -> Callable[[str], int]:
    """A reader of a decimal number of a range."""

    def read(text: str) -> int:
        if not (text.isascii() and text.isdigit() and least <= int(text) <= most):
            raise argparse.ArgumentTypeError(f"{text!r} is not {least} to {most}")
        return int(text)

    return read


def seconds(text: str) -> float:
    """A number of seconds above 0."""
    try:
        value = float(text)
    except ValueError:
        value = 0.0
    if not 0 < value <= 1e6:
        raise argparse.ArgumentTypeError(f"{text!r} is no number of seconds")
    return value


def parse(words: list[str]) -> argparse.Namespace:
    parser = Parser(
        prog="fp_plant",
        usage="fp_plant SETUP --thread i --every N --cycles N [options] -- COMMAND ..",
        description=__doc__,
        formatter_class=argparse.RawDescriptionHelpFormatter,
    )
    add = parser.add_argument
    add("setup", metavar="SETUP", help="the setup")
    add("--thread", type=number(0, 7), required=True, metavar="i", help="the plant's thread")
    cycles = number(1, MOST_CYCLES)
    add("--every", type=cycles, required=True, metavar="N", help="cycles between two exchanges")
    add("--cycles", type=cycles, required=True, metavar="N", help="cycles of the run")
    parser.path("--plants", "a list of loop_cli, for other threads", "FILE")
    add("-o", "--output", type=Path, metavar="FILE", help="the trace, if not standard output")
    parser.path("--log", "writes `CYCLE WORD ANSWER` of each exchange", "FILE")
    parser.flag("--check", "compares with a replay by the proved loop")
    limit = "the plant has to answer in S seconds (60)"
    add("--timeout", type=seconds, default=60.0, metavar="S", help=limit)
    name = "loop_cli; if left out, what LOOP_CLI names, or the one of this repository"
    add("--program", metavar="PROGRAM", help=name)
    at = words.index("--") if "--" in words else len(words)
    asked = parser.parse_args(words[:at])
    asked.command = words[at + 1 :]
    if not asked.command:
        parser.error("the plant's command is missing: -- COMMAND ..")
    return asked


def built_program() -> str:
    """The program of this repository, which is built if there is none of the current sources."""
    words = [sys.executable, str(LAUNCH), "fp_plant", PROGRAM.name]
    if (TOP / "crates.txt").is_file() and subprocess.run(
        [*words, "is-built"], check=False
    ).returncode:
        if subprocess.run([*words, "build"], check=False).returncode:
            raise NotRun(f"without {PROGRAM.name} there is no run")
    return str(PROGRAM)


def as_run(asked: argparse.Namespace) -> PlantRun:
    """The run by the arguments. A setup that is refused is a ValueError."""
    read_valid(Path(asked.setup))
    named = asked.program or os.environ.get("LOOP_CLI")
    program = named or built_program()
    if not os.access(program, os.X_OK):
        cure = "without --program and LOOP_CLI fp_plant builds its own one"
        if not named and not (TOP / "crates.txt").is_file():
            cure = "fp_plant of a checkout builds it: name it by --program or LOOP_CLI"
        raise NotRun(f"{program} isn't built: {cure}")
    return PlantRun(
        program, asked.setup, asked.thread, asked.every, asked.cycles, asked.command, asked.timeout
    )


class Check:
    """Records the answers of a run, and compares its trace with the one of their replay."""

    def __init__(self, folder: Path, others: str, thread: int) -> None:
        self.plants = folder / "recorded.txt"
        self.thread = thread
        self.answers = self.plants.open("wb")
        self.answers.write(f"{others}\n{thread} recorded".encode())
        self.trace, self.count = hashlib.sha256(), 0

    def take(self, exchange: bytes) -> None:
        """Takes the text of an exchange."""
        self.answers.write(exchange[exchange.rindex(b" ") :])
        self.count += 1

    def replays(self, run: PlantRun) -> bool:
        """Whether the replay gives the same trace."""
        self.answers.write(b"\n" if self.count else b" 0\n")
        self.answers.close()
        if self.plants.stat().st_size > MOST_LIST:
            raise NotRun(f"--check: {self.count} answers are too many for a list of plants")
        again = hashlib.sha256()
        replayed(run, self.plants, again.update)
        return again.digest() == self.trace.digest()


def both(*puts: Put) -> Put:
    """A put to each of several places."""

    def put(text: bytes) -> None:
        for one in puts:
            one(text)

    return put


def as_line(file: BinaryIO) -> Put:
    """A put that ends the line."""
    return lambda text: file.write(text + b"\n")


def run_all(asked: argparse.Namespace, files: ExitStack) -> int:
    """The run, and its check."""
    run = as_run(asked)
    folder = Path(files.enter_context(tempfile.TemporaryDirectory(prefix="fp_plant-")))
    others = asked.plants.read_text() if asked.plants else ""
    plants = folder / "plants.txt"
    plants.write_text(f"{run.thread} pipe\n{others}")
    output = files.enter_context(asked.output.open("wb")) if asked.output else sys.stdout.buffer
    trace, exchange = [output.write], []
    if asked.log:
        exchange.append(as_line(files.enter_context(asked.log.open("wb"))))
    check = Check(folder, others, run.thread) if asked.check else None
    if check:
        files.callback(check.answers.close)
        trace.append(check.trace.update)
        exchange.append(check.take)
    run_plant(run, plants, Parted(both(*trace), both(*exchange)))
    output.flush()
    if check and not check.replays(run):
        print("fp_plant: --check: the replay gives another trace", file=sys.stderr)
        return DIFFERS
    if check:
        told = f"the replay of {check.count} words by the proved loop gives the same trace"
        print(f"fp_plant: {told}", file=sys.stderr)
    return 0


def main() -> int:
    for one in SIGNALS:
        signal.signal(one, interrupt)
    asked = parse(sys.argv[1:])
    try:
        with ExitStack() as files:
            status = run_all(asked, files)
        return status
    except PlantFailed as fault:
        return failed("fp_plant", fault, FAILED)
    except (BrokenPipeError, KeyboardInterrupt) as fault:
        let_reader_go()
        return INTERRUPTED if isinstance(fault, KeyboardInterrupt) else 0
    except OSError as fault:
        where = f"{fault.filename}: " if fault.filename else ""
        return failed("fp_plant", f"{where}{fault.strerror}")
    except (NotRun, TomlError, ValueError) as fault:
        return failed("fp_plant", fault)


def interrupt(_number: int, _frame: FrameType | None) -> NoReturn:
    """Ends the run; further signals don't break off the end of the processes."""
    for sent in SIGNALS:
        signal.signal(sent, signal.SIG_IGN)
    raise KeyboardInterrupt
