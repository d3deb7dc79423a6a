"""Runs of the program with a plant in another process, their pipes connected to each other."""

import os
import re
import select
import signal
import subprocess
import time
from contextlib import contextmanager
from dataclasses import dataclass, field
from pathlib import Path
from typing import Callable, Iterator, Sequence

from fptools.checkout import TOP

PROGRAM = TOP / "crates/loop_cli/out/loop_cli"
NAME = b"loop_cli: "
PLANT_FAULT = 10
"""The program's status for a plant that ended, or that answered no word."""

PIECE = 1 << 20
"""The most bytes of a read."""

GRACE = 5.0
"""Seconds in which a plant may end by itself after the run."""

SHORT = 1.0
"""Seconds in which a plant may end after a signal."""

Put = Callable[[bytes], object]


class NotRun(Exception):
    """Nothing could be run: wrong files, or no program. The text has the reason."""


class PlantFailed(Exception):
    """The plant broke the run off. The text has the way."""


@dataclass(frozen=True)
class PlantRun:
    """A run: the program's arguments, and the plant's command."""

    program: str
    setup: str
    thread: int
    every: int
    """Cycles from an exchange to the next."""
    cycles: int
    command: Sequence[str]
    timeout: float
    """Seconds in which the plant has to answer."""

    def words(self, plants: Path) -> list[str]:
        """The call of the program with a list of plants."""
        numbers = {"thread": self.thread, "every": self.every, "cycles": self.cycles}
        options = [text for name, value in numbers.items() for text in (f"--{name}", str(value))]
        return [self.program, self.setup, "--plants", str(plants), *options]


@dataclass
class Parted:
    """Splits the program's standard error: the trace, the exchanges, a fault's line."""

    trace: Put
    exchange: Put
    """Takes the text `CYCLE WORD ANSWER` of each exchange."""
    fault: bytes = b""
    last: bytes = b""
    """The last exchange."""
    rest: bytes = field(default=b"", repr=False)

    def take(self, piece: bytes) -> None:
        """Takes the next bytes; a line that hasn't ended waits for the bytes after it."""
        text = self.rest + piece
        end = text.rfind(b"\n") + 1
        self.rest = text[end:]
        if end:
            self._take_lines(text[:end])

    def _take_lines(self, lines: bytes) -> None:
        """Takes whole lines. Each exchange begins a block of lines of the trace."""
        first, *blocks = (b"\n" + lines[:-1]).split(b"\n> ")
        trace = [self._without_fault(first[1:])]
        for block in blocks:
            self.last, _, events = block.partition(b"\n")
            self.exchange(self.last)
            trace.append(self._without_fault(events))
        self.trace(b"".join(text + b"\n" for text in trace if text))

    def _without_fault(self, text: bytes) -> bytes:
        """Lines without the fault's line, which is the last of all."""
        at = text.rfind(NAME)
        if at < 0:
            return text
        self.fault = text[at + len(NAME) :]
        return text[: max(at - 1, 0)]


def turns_of(pid: int) -> bytes:
    """How often a process has waited for something, as Linux counts it: an answer adds one."""
    try:
        lines = Path(f"/proc/{pid}/status").read_bytes().splitlines()
    except OSError:
        return b""
    return b"".join(line for line in lines if line.startswith(b"voluntary_ctxt_switches"))


def pieces(program: subprocess.Popen[bytes], timeout: float) -> Iterator[bytes]:
    """What the program writes to standard error. A program that neither writes nor goes on for
    `timeout` seconds waits for its plant: `PlantFailed`."""
    assert program.stderr
    turns, since = b"", time.monotonic()
    while True:
        ready, _, _ = select.select([program.stderr], [], [], timeout / 10)
        if ready:
            piece = os.read(program.stderr.fileno(), PIECE)
            if not piece:
                return
            yield piece
            since = time.monotonic()
        elif (now := turns_of(program.pid)) != turns:
            turns, since = now, time.monotonic()
        elif time.monotonic() - since > timeout:
            raise PlantFailed(f"the plant gave no answer in {timeout:g} seconds")


def has_ended(process: subprocess.Popen[bytes], seconds: float) -> bool:
    """Waits until a process has ended. Its number stays taken until it is asked for its status."""
    until = time.monotonic() + seconds
    while os.waitid(os.P_PID, process.pid, os.WEXITED | os.WNOHANG | os.WNOWAIT) is None:
        if time.monotonic() > until:
            return False
        time.sleep(0.005)
    return True


def end(process: subprocess.Popen[bytes], seconds: float) -> int | None:
    """Ends a process and all of its group. Returns its status if it ended by itself."""
    if process.returncode is not None:
        return process.returncode
    by_itself = has_ended(process, seconds)
    if not by_itself:
        os.killpg(process.pid, signal.SIGTERM)
        has_ended(process, SHORT)
    os.killpg(process.pid, signal.SIGKILL)
    status = process.wait()
    return status if by_itself else None


def started(
    words: Sequence[str], stdin: int, stdout: int, stderr: int | None = None
) -> subprocess.Popen[bytes]:
    """A process in a group of its own."""
    try:
        return subprocess.Popen(
            words, stdin=stdin, stdout=stdout, stderr=stderr, start_new_session=True
        )
    except OSError as fault:
        raise NotRun(f"{words[0]}: {fault.strerror}") from None


@contextmanager
def uninterrupted() -> Iterator[None]:
    """Puts an interrupt off to the end of a block, so that no process is started and not known. It works in the main thread."""
    caught: list[int] = []
    before = signal.signal(signal.SIGINT, lambda number, _frame: caught.append(number))
    try:
        yield
    finally:
        signal.signal(signal.SIGINT, before)
    if caught:
        raise KeyboardInterrupt


@contextmanager
def connected(run: PlantRun, plants: Path) -> Iterator[Sequence[subprocess.Popen[bytes]]]:
    """The program and the plant, each of which reads what the other one writes. Both are ended
    in every case; the plant may end by itself only behind a run that is whole. Where a run is broken
    off, the plant ends first: otherwise it could write to a program that is gone, and report that.
    """
    to_plant, from_program = os.pipe()
    to_program, from_plant = os.pipe()
    processes: list[subprocess.Popen[bytes]] = []
    grace = 0.0
    try:
        try:
            with uninterrupted():
                processes.append(started(run.command, to_plant, from_plant))
                words = run.words(plants)
                processes.append(started(words, to_program, from_program, subprocess.PIPE))
        finally:
            for pipe in (to_plant, from_program, to_program, from_plant):
                os.close(pipe)
        yield processes
        grace = GRACE
    finally:
        for process in reversed(processes) if grace else processes:
            end(process, grace)


def run_plant(run: PlantRun, plants: Path, parted: Parted) -> None:
    """Runs the program with the plant, and passes on its output."""
    with connected(run, plants) as (plant, program):
        for piece in pieces(program, run.timeout):
            parted.take(piece)
        status = program.wait()
        if status == 0:
            return
        if status != PLANT_FAULT and status > 0:
            text = of_others(parted.fault.decode().strip())
            raise NotRun(text or f"loop_cli ended with status {status}")
        ended = end(plant, SHORT) if b"ended" in parted.fault or status < 0 else None
        raise PlantFailed(said_of(parted, status, ended))


def of_others(fault: str) -> str:
    """A fault, where a line is that of the list of other plants: the pipe is in the line before."""
    return re.sub(r"^line (\d+)", lambda found: f"line {int(found[1]) - 1}", fault)


def said_of(parted: Parted, status: int, ended: int | None) -> str:
    """How the plant broke the run off."""
    text = parted.fault.decode().strip() or f"loop_cli was ended by signal {-status}"
    told = [] if ended is None else [f"its status is {ended}"]
    if parted.last:
        told.append(f"its last answer was in cycle {parted.last.split()[0].decode()}")
    return f"{text} ({', '.join(told)})" if told else text


def replayed(run: PlantRun, plants: Path, put: Put) -> None:
    """The trace of the program with recorded words, by the proved loop."""
    words = run.words(plants)
    with subprocess.Popen(words, stdout=subprocess.PIPE, stderr=subprocess.PIPE) as program:
        assert program.stdout and program.stderr
        while piece := program.stdout.read(PIECE):
            put(piece)
        said = program.stderr.read().decode().strip()
    if program.returncode:
        raise NotRun(f"the replay failed: {said or program.returncode}")
