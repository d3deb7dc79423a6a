"""Calls the built program with hostile command lines and files, each in a separate process with little memory and time.
Findings are a crash, a status that isn't listed, an output that doesn't fit the status, and a wrong line on standard
error. One line in twenty is also compared with the executable model: another status or other bytes are a finding.
Line N of a seed is always the same, so --first continues where a call ended, and --only N repeats one line.
The gate makes a short call. The status is 1 if something was found."""
import argparse
import contextlib
import os
import random
import re
import resource
import signal
import sys
import tempfile
import time
from collections import Counter
from collections.abc import Iterator
from concurrent.futures import Future, ProcessPoolExecutor
from dataclasses import dataclass, field
from pathlib import Path
from types import FrameType
from typing import Any

from dev.fuzz.hostile import COMMANDS, Corpus, Hostile, Line, corpus
from dev.program import built_program, complaint
from fptools.program.status import Status
from model.commands import MemSink, RealFiles, flexpret
from model.ports import HeldPort

SECONDS, MEMORY = 10.0, 512 << 20
"""The time of a call, and its address space in bytes."""

SAMPLE = 20
"""One line in so many is compared with the model."""

BATCH = 200
"""The number of lines in a batch of a worker."""

TEXTS = {
    Status.DIFFERS: rb"differs line [1-9][0-9]*\n",
    Status.SETUP: rb"refused (setup [0-9]+ [A-Za-z]+ \S+|section [1-6] [A-Za-z]+)\n",
    Status.IMAGE: rb"refused image [0-9]+ [A-Za-z]+ [0-9]+\n",
    Status.SOURCE: rb"refused source [0-9]+ [0-9]+ [A-Za-z]+\n",
    Status.BOUND: rb"refused bound ([0-9]+ [A-Za-z]+ [0-9a-f]{8}|6 Overflow [0-9]+)\n",
    Status.ROUTINES: rb"refused routines [0-9]+ [1-4] [A-Za-z]+\n",
    Status.USAGE: rb"",
    Status.READ: rb"",
}
"""The form of the output for each status. Ok has any output; Write and NoMemory don't occur here."""

TEXT_OF_STATUS = {status: re.compile(text) for status, text in TEXTS.items()}


class Late(Exception):
    """A call exceeds its time."""


@contextlib.contextmanager
def at_most(seconds: float) -> Iterator[None]:
    """Raises Late if the block takes longer."""

    def ring(_: int, __: FrameType | None) -> None:
        raise Late

    before = signal.signal(signal.SIGALRM, ring)
    signal.setitimer(signal.ITIMER_REAL, seconds)
    try:
        yield
    finally:
        signal.setitimer(signal.ITIMER_REAL, 0)
        signal.signal(signal.SIGALRM, before)


@dataclass(frozen=True)
class Ended:
    """The end of a call: its status, the signal that ended it as a negative number, or None for no end in time."""

    status: int | None
    out: bytes
    err: bytes


class Caller:
    """Calls the program in a separate folder."""

    def __init__(self, program: Path, room: str, seconds: float) -> None:
        self.program, self.seconds = program, seconds
        self.nothing = os.open("/dev/null", os.O_RDONLY)
        self.files = [tempfile.TemporaryFile(dir=room) for _ in range(2)]
        self.out, self.err = (file.fileno() for file in self.files)

    def call(self, words: list[bytes]) -> Ended:
        for stream in (self.out, self.err):
            os.ftruncate(stream, 0)
            os.lseek(stream, 0, os.SEEK_SET)
        streams = [
            (os.POSIX_SPAWN_DUP2, stream, k)
            for k, stream in enumerate((self.nothing, self.out, self.err))
        ]
        no_variables: dict[str, str] = {}
        child = os.posix_spawn(
            self.program, [b"flexpret", *words], no_variables, file_actions=streams
        )
        return Ended(
            self.end_of(child),
            *(os.pread(stream, os.fstat(stream).st_size, 0) for stream in (self.out, self.err)),
        )

    def end_of(self, child: int) -> int | None:
        try:
            with at_most(self.seconds):
                return os.waitstatus_to_exitcode(os.waitpid(child, 0)[1])
        except Late:
            with contextlib.suppress(ProcessLookupError):  # it may have ended at that very moment
                os.kill(child, signal.SIGKILL)
                os.waitpid(child, 0)
            return None


def answer_of_model(words: list[bytes], seconds: float) -> tuple[int, bytes] | None:
    """The status and the bytes that the model has for a command line on real files, or None if it takes too long."""
    try:
        texts = [word.decode() for word in words]
    except UnicodeDecodeError:
        return Status.USAGE, b""
    sink = MemSink()
    try:
        with at_most(seconds):
            return flexpret(texts, RealFiles(), sink, [HeldPort() for _ in range(8)]), sink.bytes
    except Late:
        return None


@dataclass
class Finding:
    """A line with a wrong end, and its fault."""

    number: int
    line: Line
    ended: Ended
    wrong: str


@dataclass
class Tally:
    """The result of a batch."""

    ends: Counter[tuple[str, int]] = field(default_factory=Counter)
    compared: Counter[str] = field(default_factory=Counter)
    findings: list[Finding] = field(default_factory=list)

    def add(self, other: "Tally") -> None:
        self.ends += other.ends
        self.compared += other.compared
        self.findings += other.findings


def wrong_of(ended: Ended) -> str | None:
    """The fault of an end that is wrong for every command line, or nothing."""
    if ended.status is None:
        return "no end in time"
    if ended.status < 0:
        return f"ended by {signal.Signals(-ended.status).name}"
    if ended.status not in list(Status):
        return "a status that is not listed"
    if ended.status in (Status.WRITE, Status.NO_MEMORY):
        return "output and memory were there"
    text = TEXT_OF_STATUS.get(Status(ended.status))
    if text is not None and not text.fullmatch(ended.out):
        return f"not a text of status {ended.status}"
    if ended.err != complaint(ended.status):
        return "another line of standard error"
    return None


class Worker:
    """A process that draws lines, calls the program and compares."""

    def __init__(self, seed: int, program: Path, room: str) -> None:
        self.seed = seed
        self.seeds: Corpus = corpus()
        os.chdir(tempfile.mkdtemp(dir=room))
        self.caller = Caller(program, room, SECONDS)
        resource.setrlimit(resource.RLIMIT_AS, (MEMORY, MEMORY))
        resource.setrlimit(resource.RLIMIT_CORE, (0, 0))

    def line(self, number: int) -> Line:
        """Draws line `number`, and puts its files into the folder."""
        chance = random.Random(f"{self.seed}:{number}")
        hostile = Hostile(self.seeds, chance, few=number % SAMPLE == 0)
        line = hostile.line()
        for name in os.listdir():
            os.unlink(name)
        write_files(line)
        if line.recorded is not None:
            recorded = self.caller.call(line.recorded).out
            line.files["a.trace"] = (
                recorded if chance.random() < 0.4 else hostile.text_of(recorded, ["", "0", "wait"])
            )
            write_files(line)
        return line

    def try_line(self, number: int, tally: Tally) -> None:
        line = self.line(number)
        ended = self.caller.call(line.words)
        tally.ends[
            line.command(), ended.status if ended.status is not None else -signal.SIGALRM
        ] += 1
        wrong = wrong_of(ended)
        if wrong is None and number % SAMPLE == 0:
            wrong = self.compare(line, ended, tally)
        if wrong is not None:
            tally.findings.append(Finding(number, line, ended, wrong))

    def compare(self, line: Line, ended: Ended, tally: Tally) -> str | None:
        try:
            wanted = answer_of_model(line.words, 2 * SECONDS)
        except Exception as error:
            return f"the model fails: {error!r}"
        tally.compared["not in time" if wanted is None else "compared"] += 1
        if wanted is None or wanted == (ended.status, ended.out):
            return None
        return f"the model has status {wanted[0]} and {len(wanted[1])} bytes: {wanted[1][:100]!r}"


def write_files(line: Line) -> None:
    for name, content in line.files.items():
        Path(name).write_bytes(content)


WORKER: list[Worker] = []
"""The worker of this process."""


def begin(*given: Any) -> None:
    signal.signal(signal.SIGINT, signal.SIG_IGN)
    WORKER[:] = [Worker(*given)]


def batch(numbers: range) -> Tally:
    tally = Tally()
    for number in numbers:
        WORKER[0].try_line(number, tally)
    return tally


# ---------------------------------------------------------------- the whole


def shown(words: list[bytes]) -> str:
    return " ".join(repr(word)[1:][:60] for word in words)


def keep(finding: Finding, folder: Path) -> None:
    """Writes a finding's files, arguments and output into a folder."""
    to = folder / str(finding.number)
    to.mkdir(parents=True, exist_ok=True)
    for name, content in finding.line.files.items():
        (to / name).write_bytes(content)
    said = f"{finding.wrong}\nstatus {finding.ended.status}\nwords {finding.line.words!r}\nstandard error {finding.ended.err!r}\n"
    (to / "finding").write_text(said)
    (to / "written").write_bytes(finding.ended.out)


def results(pool: ProcessPoolExecutor, numbers: range, jobs: int) -> Iterator[Tally]:
    """The batches' tallies, in order. Only as many batches are queued as keep all workers busy."""
    waiting: list[Future[Tally]] = []
    for first in range(numbers.start, numbers.stop, BATCH):
        waiting.append(pool.submit(batch, range(first, min(first + BATCH, numbers.stop))))
        if len(waiting) > 2 * jobs:
            yield waiting.pop(0).result()
    for future in waiting:
        yield future.result()


def print_table(tally: Tally) -> None:
    """How many lines of each command ended with each status."""
    statuses = sorted({status for _, status in tally.ends})
    print(f'{"":8}' + "".join(f"{status:>9}" for status in statuses))
    for command in [*COMMANDS, "other"]:
        counts = [tally.ends[command, status] for status in statuses]
        if any(counts):
            print(f"{command:8}" + "".join(f"{count:9}" for count in counts))


def fuzz(options: argparse.Namespace, given: tuple[Any, ...]) -> Tally:
    """Runs all lines, and prints the progress at times."""
    total, began, done = Tally(), time.monotonic(), 0
    numbers = range(options.first, options.first + options.count)
    with ProcessPoolExecutor(options.jobs, initializer=begin, initargs=given) as pool:
        try:
            for tally in results(pool, numbers, options.jobs):
                total.add(tally)
                done += sum(tally.ends.values())
                for finding in tally.findings:
                    keep(finding, options.keep)
                    print(
                        f"line {finding.number}: {finding.wrong}: {shown(finding.line.words)}",
                        flush=True,
                    )
                if done % (50 * BATCH) == 0:
                    print(
                        f"{done} lines, {done / (time.monotonic() - began):.0f} a second",
                        flush=True,
                    )
        except KeyboardInterrupt:
            pool.shutdown(cancel_futures=True)
    print(
        f"{done} lines from {options.first} on with seed {options.seed}, in {time.monotonic() - began:.0f} s; "
        f"{dict(total.compared)} with the model; {len(total.findings)} findings"
    )
    return total


def parsed() -> argparse.Namespace:
    parser = argparse.ArgumentParser(description=__doc__)
    parser.add_argument(
        "--program", help="the built program (left out: the one that ./flexpret and rt ci leave)"
    )
    parser.add_argument("--seed", type=int, default=1)
    parser.add_argument(
        "--first", type=int, default=0, metavar="N", help="the number of the first line"
    )
    parser.add_argument("--count", type=int, default=10_000, metavar="N", help="how many lines")
    parser.add_argument(
        "--only", type=int, metavar="N", help="line N alone; --keep has its files afterwards"
    )
    parser.add_argument("--jobs", type=int, default=1, metavar="N", help="how many lines at a time")
    parser.add_argument(
        "--keep",
        type=Path,
        default=Path("fuzz-found"),
        metavar="DIR",
        help="where findings are kept",
    )
    return parser.parse_args()


def try_one(options: argparse.Namespace, given: tuple[Any, ...]) -> Tally:
    """Runs one line, and keeps its files whatever the result."""
    begin(*given)
    tally, line = Tally(), WORKER[0].line(options.only)
    ended = WORKER[0].caller.call(line.words)
    WORKER[0].try_line(options.only, tally)
    keep(
        Finding(
            options.only,
            line,
            ended,
            tally.findings[0].wrong if tally.findings else "nothing wrong",
        ),
        options.keep,
    )
    print((options.keep / str(options.only) / "finding").read_text(), end="")
    os.chdir("/")
    return tally


def main() -> int:
    options = parsed()
    options.keep = options.keep.resolve()
    with tempfile.TemporaryDirectory(
        prefix="fuzz-", dir="/dev/shm" if os.path.isdir("/dev/shm") else None
    ) as room:
        given = (options.seed, built_program(options.program), room)
        tally = fuzz(options, given) if options.only is None else try_one(options, given)
    print_table(tally)
    return 1 if tally.findings else 0


if __name__ == "__main__":
    sys.exit(main())
