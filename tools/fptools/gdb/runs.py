"""Calls of the program for a debugger: traces that are read as far as they are needed, and dumps.

A trace comes from a call of `run` that waits at its full pipe. So the next events cost only their
own cycles. A call ends with this process, however that ends."""
from __future__ import annotations

import os
import signal
import subprocess
from pathlib import Path
from typing import Protocol, Sequence

from fptools.files.dump import Dump, NoDump, read_dump
from fptools.program.calls import BESIDE, Flexpret
from fptools.files.trace_blocks import CYCLE

FIRST_CYCLES, LONGER = (
    1 << 18,
    16,
)  # the cycles of a thread's first call, and how much longer the next is
RETIRES = 4  # an issue of cycle c is in the trace of c + 5 cycles
READ_BYTES = 1 << 16
KEPT = 16  # dumps
BUILT = Path("crates/flexpret_cli/out/flexpret_cli")


class Waiter(Protocol):
    """The party that may break off a long call: both methods raise then."""

    def wait_for(self, descriptor: int) -> None:
        """Returns when a descriptor can be read."""

    def look(self) -> None:
        """Returns at once."""


class RunFailed(Exception):
    """The program refused, or couldn't answer."""


class Call:
    """A call of the program whose standard output is read."""

    def __init__(self, words: Sequence[str], waiter: Waiter) -> None:
        self._waiter = waiter
        self._words = words
        # Also where this process is killed, so is the call; its own group has what a script calls.
        self._child = subprocess.Popen(
            ["setpriv", "--pdeathsig", "KILL", "--", *words],
            stdin=subprocess.DEVNULL,
            stdout=subprocess.PIPE,
            start_new_session=True,
        )

    def read(self) -> bytes:
        """The next bytes; none at the end. A call that failed is a `RunFailed`."""
        assert self._child.stdout is not None
        descriptor = self._child.stdout.fileno()
        self._waiter.wait_for(descriptor)
        data = os.read(descriptor, READ_BYTES)
        if not data and self._child.wait() != 0:
            raise RunFailed(f"{' '.join(self._words[1:])}: status {self._child.returncode}")
        return data

    def whole(self) -> bytes:
        """All that is left."""
        return b"".join(iter(self.read, b""))

    def close(self) -> None:
        assert self._child.stdout is not None
        if self._child.poll() is None:
            os.killpg(self._child.pid, signal.SIGKILL)
            self._child.wait()
        self._child.stdout.close()


class Runs:
    """The calls for a setup, for runs of at most so many cycles."""

    def __init__(self, flexpret: Flexpret, setup: Path, most: int, waiter: Waiter) -> None:
        self.flexpret, self.setup, self.most, self.waiter = flexpret, setup, most, waiter
        self._files: dict[Path, tuple[int, int, int]] = {}
        self._dumps: dict[int, Dump] = {}  # by their cycles

    def start(self, *files: Path) -> None:
        """Has the program built, if it must be. A refusal is a `RunFailed` with its words.
        The files have to stay as they are, since all calls are of one run."""
        self._files = {path: _mark(path) for path in files}
        answer = self.flexpret.ask("dump", str(self.setup), "--cycles", "0")
        if answer.status != 0:
            raise RunFailed(f"{self.setup}: {answer.reason or f'status {answer.status}'}")
        built = BESIDE.parent / BUILT
        if self.flexpret.path == str(BESIDE) and os.access(built, os.X_OK):
            # The script has just made sure that it is of these sources.
            self.flexpret = Flexpret(str(built))

    def trace(self, thread: int, cycles: int) -> Call:
        return self._call("run", "--thread", str(thread), "--cycles", str(cycles))

    def dump(self, cycles: int) -> Dump:
        """A dump; the last ones are kept."""
        if cycles not in self._dumps:
            self._dumps[cycles] = self._dumped(cycles)
            while len(self._dumps) > KEPT:
                del self._dumps[next(iter(self._dumps))]
        return self._dumps[cycles]

    def _dumped(self, cycles: int) -> Dump:
        call = self._call("dump", "--cycles", str(cycles))
        try:
            return read_dump(call.whole().decode("ascii"))
        except NoDump as fault:
            raise RunFailed(f"dump --cycles {cycles}: {fault}") from fault
        finally:
            call.close()

    def _call(self, command: str, *options: str) -> Call:
        for path, mark in self._files.items():
            if _mark(path) != mark:
                raise RunFailed(f"{path} has changed since the session began: connect again")
        return Call([self.flexpret.path, command, str(self.setup), *options], self.waiter)


def _mark(path: Path) -> tuple[int, int, int]:
    """The inode, size and time of a file, which change with it; zeros if there is none."""
    try:
        found = path.stat()
    except OSError:
        return 0, 0, 0
    return found.st_ino, found.st_size, found.st_mtime_ns


def last_cycle(text: bytes) -> int:
    """The cycle of the last whole line of a trace; -1 where there is none."""
    end = text.rfind(b"\n")
    start = text.rfind(b"\n", 0, max(end, 0)) + 1
    return int(text[start : start + CYCLE.stop]) if end >= 0 else -1


def offset_of(text: bytes, cycle: int, end: int | None = None) -> int:
    """Where the first line of a cycle or a later one begins in whole lines, which end there."""
    low, high = 0, len(text) if end is None else end
    while low < high:
        start = text.rfind(b"\n", low, (low + high) // 2) + 1 or low
        if int(text[start : start + CYCLE.stop]) < cycle:
            low = text.index(b"\n", start) + 1
        else:
            high = start
    return low


def last_line(text: bytes) -> bytes:
    """The last of whole lines, without its line feed; empty where there is none."""
    return text[text.rfind(b"\n", 0, max(len(text) - 1, 0)) + 1 : -1]


class Stream:
    """The trace of a thread."""

    def __init__(self, runs: Runs, thread: int, cycles: int = FIRST_CYCLES) -> None:
        self._runs, self._thread = runs, thread
        self.before = b""  # the last line that was taken
        self.aim = 0  # a cycle up to which it will be filled
        self._cycles = min(cycles, runs.most)
        self._taken = 0  # bytes
        self._rest = b""
        self._call: Call | None = None
        self._known = 0  # how many of the call's next bytes were read from an earlier one
        self._is_ended = False

    def fill(self, cycle: int) -> None:
        """Reads on until all lines before a cycle are here. It may be broken off and repeated."""
        while not self.has(cycle):
            self.read_on()

    def has(self, cycle: int) -> bool:
        """Whether all lines before a cycle were read."""
        is_complete = self._is_ended and cycle <= self._cycles - RETIRES
        return is_complete or last_cycle(self._rest) >= cycle

    def drop(self, cycle: int) -> bytes:
        """The lines before a cycle that were read but not taken, or all but the last one of them."""
        return self.take(cycle if self.has(cycle) else last_cycle(self._rest))

    def take(self, cycle: int) -> bytes:
        """The lines before a cycle, up to which the stream is filled, that weren't taken yet."""
        taken = self._rest[: offset_of(self._rest, cycle, self._rest.rfind(b"\n") + 1)]
        self._rest = self._rest[len(taken) :]
        self._taken += len(taken)
        self.before = last_line(taken) or self.before
        return taken

    def read_on(self) -> None:
        """Reads some more bytes, from a longer call where one has ended."""
        if self._call is None or self._is_ended:
            self._begin(self._cycles * LONGER if self._is_ended else self._cycles)
        assert self._call
        data = self._call.read()
        if self._known and not data:
            raise RunFailed(f"the run of T{self._thread} is shorter than before")
        known = data[: self._known]
        self._known -= len(known)
        self._is_ended = not data
        self._rest += data[len(known) :]

    def close(self) -> None:
        if self._call is not None:
            self._call.close()
        self._call = None

    def _begin(self, cycles: int) -> None:
        """Begins a call of so many cycles, or more if it will be needed for more."""
        self.close()
        most = min(max(cycles, 2 * self.aim), self._runs.most)
        self._call = self._runs.trace(self._thread, most)
        self._cycles, self._is_ended = most, False
        self._known = self._taken + len(self._rest)
